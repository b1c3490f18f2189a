//! "How many signal sequences end where" (request 7), by [`Node::receive`]: the short sequences one by
//! one, the longer ones by what one class more does to the row before.

use crate::bus::{Mode, Node};
use crate::table::{place, signals, Cell, CLASSES, MODES};

/// "For each length k from 0 to 16"
pub const LONGEST: u32 = 16;

/// Up to this length all sequences are listed.
pub const LISTED: u32 = 5;

/// The number of the node that gets the signals.
const OWN: u8 = 0;

/// "how many leave it in each of the 25 modes, in the table's order"
pub type Row = [u64; MODES.len()];

const NONE: Row = [0; MODES.len()];

/// "14 to the power k"
pub fn sequences(k: u32) -> u64 {
    (CLASSES.len() as u64).checked_pow(k).expect("k is 16 at most")
}

/// One of the sequences of `k` classes: the digits of its number to base 14, the lowest first.
pub fn sequence(k: u32, number: u64) -> Vec<usize> {
    let class = |digit| number / sequences(digit) % sequences(1);
    (0..k).map(|digit| class(digit) as usize).collect()
}

/// The place of the mode in which "a node in Rest" is left by a signal of each class in order.
pub fn end(sequence: &[usize]) -> usize {
    let signals = signals(OWN);
    let mut node = Node { mode: Mode::Rest, ..Node::FRESH };
    for &class in sequence {
        (node.mode, _) = node.receive(OWN, signals[class]);
    }
    place(node.mode)
}

/// The row for `k`: "Each count equals the number of listed sequences that end there".
pub fn listed(k: u32) -> Row {
    let mut row = NONE;
    for number in 0..sequences(k) {
        add(&mut row, end(&sequence(k, number)), 1);
    }
    row
}

/// The row for k + 1 from that for k: each sequence goes on with each of the 14 classes.
pub fn longer(row: &Row) -> Row {
    let mut longer = NONE;
    for ((_, mode), &count) in MODES.into_iter().zip(row) {
        for signal in signals(OWN) {
            add(&mut longer, Cell::of(mode, OWN, signal).next, count);
        }
    }
    longer
}

fn add(row: &mut Row, place: usize, count: u64) {
    row[place] = row[place].checked_add(count).expect("no count is over 14 to the power 16");
}

/// The rows for k from 0 to 16.
pub fn rows() -> Vec<Row> {
    let mut rows: Vec<Row> = (0..=LISTED).map(listed).collect();
    for k in LISTED..LONGEST {
        rows.push(longer(&rows[k as usize]));
    }
    rows
}

/// "on a line, with single spaces, k and how many leave it in each of the 25 modes"
fn line(k: usize, row: Row) -> String {
    format!("{k} {}\n", row.map(|count| count.to_string()).join(" "))
}

/// The printed rows.
pub fn text() -> String {
    rows().into_iter().enumerate().map(|(k, row)| line(k, row)).collect()
}
