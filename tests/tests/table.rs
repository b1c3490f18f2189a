//! The printed table (request 2), held against the rules as written by hand in `common::chart`.

mod common;

use std::collections::BTreeMap;
use std::path::Path;
use std::process::Command;

use bench_model::bus::Signal;
use bench_model::table::{class, place, signals, text, Cell, CLASSES, MODES};
use common::chart::{rows, RECEIVERS};

/// The printed words of each cell: 25 lines of 14 times three.
fn printed() -> Vec<Vec<[String; 3]>> {
    let cells = |line: &str| -> Vec<[String; 3]> {
        let words: Vec<&str> = line.split(' ').collect();
        words.chunks(3).map(|cell| [0, 1, 2].map(|word| cell[word].to_string())).collect()
    };
    text().lines().map(cells).collect()
}

/// The same from the table written by hand: a mode's place is that of its line.
fn by_hand() -> Vec<Vec<[String; 3]>> {
    let names: Vec<&str> = rows().into_iter().map(|(name, _)| name).collect();
    let place = |name| names.iter().position(|&listed| listed == name).unwrap();
    let cells = rows().into_iter().map(|(_, answers)| {
        let words = answers.into_iter().map(|answer| {
            let pending = if answer.pending { "1" } else { "0" };
            [place(answer.next).to_string(), answer.report.unwrap_or("-").into(), pending.into()]
        });
        words.collect()
    });
    cells.collect()
}

/// How often each word stands at this place of a cell.
fn counts(word: usize) -> BTreeMap<String, usize> {
    let mut counts = BTreeMap::new();
    for cell in printed().into_iter().flatten() {
        *counts.entry(cell[word].clone()).or_default() += 1;
    }
    counts
}

fn expect<const N: usize>(counts: BTreeMap<String, usize>, expected: [(&str, usize); N]) {
    assert_eq!(expected.iter().map(|(_, count)| count).sum::<usize>(), 350);
    assert_eq!(counts, expected.map(|(word, count)| (word.to_string(), count)).into());
}

#[test]
fn shape() {
    let text = text();
    assert!(text.ends_with('\n'));
    assert_eq!(text.lines().count(), 25);
    for line in text.lines() {
        let words: Vec<&str> = line.split(' ').collect();
        assert_eq!(words.len(), 42, "{line}");
        assert!(words.iter().all(|word| !word.is_empty()), "{line}: two spaces, or one at an end");
    }
    let plain = |byte: u8| byte.is_ascii_digit() || byte.is_ascii_lowercase();
    assert!(text.bytes().all(|byte| plain(byte) || b" -\n".contains(&byte)));
}

#[test]
fn first_line() {
    let first =
        "5 - 0 0 - 0 0 - 0 0 - 0 0 - 0 0 - 0 0 - 0 0 - 0 0 - 0 0 - 0 0 - 0 0 - 0 0 - 0 0 - 0\n";
    assert!(text().starts_with(first));
}

/// "Asked stays on every signal": the last line.
#[test]
fn last_line() {
    assert!(text().ends_with(&format!("\n{}\n", ["24 - 0"; 14].join(" "))));
}

#[test]
fn every_cell() {
    let (printed, by_hand) = (printed(), by_hand());
    assert_eq!((printed.len(), by_hand.len()), (25, 25));
    for (line, (name, _)) in rows().into_iter().enumerate() {
        assert_eq!((printed[line].len(), by_hand[line].len()), (14, 14), "{name}");
        for class in 0..14 {
            assert_eq!(printed[line][class], by_hand[line][class], "{name}, class {class}");
        }
    }
}

/// "the node is entered as *pending* on the bus": Addressed (6) on Dest own (5), and nowhere else.
#[test]
fn one_pending_mark() {
    expect(counts(2), [("0", 349), ("1", 1)]);
    assert_eq!(printed()[6][5], ["7", "-", "1"]);
}

/// miss: AwaitAck on all but Start and Prefix (12), AckBody on line signals (4), AckEnd after a good
/// Ack on all but End and Prefix (12), and without one on all (14). drop: Opened on line signals but
/// Gap (3), Addressed on all but Gap and Dest (10), HeadOwn on all but a good Header (13) and HeadAll
/// on Gap neither (12), BodyOwn on all but Data (12) and BodyAll on Gap neither (11), TailOwn on all
/// but End and Prefix (12 and 12), TailAll with good data on Gap neither (11), with bad data on all
/// but Gap (13). The others on End and Prefix of one mode each.
#[test]
fn reports() {
    expect(
        counts(1),
        [
            ("-", 191),
            ("miss", 42),
            ("ack", 2),
            ("good", 2),
            ("dcrc", 2),
            ("broad", 2),
            ("drop", 109),
        ],
    );
}

/// How many cells lead to each mode, counted by hand from document 01's sentences, a mode's own
/// cells that stay among them.
#[test]
fn next_modes() {
    expect(
        counts(0),
        [
            // Rest 13; TailAll 3 and 3; Gap in AwaitAck, AckBody, AckEnd twice, Opened, Addressed,
            // HeadAll, BodyAll, Wait, Listening
            ("0", 29),
            ("1", 1),
            ("2", 1),
            // a good Ack, and the nine other classes that are not line signals
            ("3", 1),
            ("4", 9),
            // Start in Rest and in Listening
            ("5", 2),
            ("6", 10),
            ("7", 1),
            ("8", 1),
            ("9", 1),
            ("10", 1),
            ("11", 1),
            ("12", 1),
            ("13", 1),
            ("14", 1),
            // AwaitAck 11, AckBody 3, AckEnd 12 and 13, Opened 3, Addressed 11, HeadAll 12,
            // BodyAll 11, TailAll 11 and 11, Wait 13, Listening 11
            ("15", 122),
            // HeadOwn 13, BodyOwn 12, TailOwn 12 and 12, Owed 14
            ("16", 63),
            ("17", 14),
            // TailOwn 2 and 2, Told 14
            ("18", 18),
            ("19", 14),
            ("20", 14),
            ("21", 14),
            ("22", 14),
            // Prefix in AckEnd after a good Ack, and in Listening
            ("23", 2),
            ("24", 14),
        ],
    );
}

/// Whatever the mode remembers, the signal carries and the receiver's number is.
#[test]
fn a_cell_depends_on_mode_and_class_alone() {
    let printed = printed();
    for receiver in RECEIVERS {
        for (line, (name, _)) in rows().into_iter().enumerate() {
            let mode = receiver.mode(name);
            assert_eq!(place(mode), line, "{mode:?}");
            for (column, signal) in receiver.signals().into_iter().enumerate() {
                assert_eq!(class(receiver.own, signal), column, "{signal:?}, {receiver:?}");
                let cell = Cell::of(mode, receiver.own, signal).to_string();
                assert_eq!(cell, printed[line][column].join(" "), "{mode:?} on {signal:?}");
            }
        }
    }
}

/// Every number that a node can have, with every other node's.
#[test]
fn own_numbers() {
    for own in 0..63 {
        for (name, mode) in MODES {
            let cells = |own| signals(own).map(|signal| Cell::of(mode, own, signal));
            assert_eq!(cells(own), cells(0), "{name}, node {own}");
        }
        for other in (0..63).filter(|&other| other != own) {
            assert_eq!(class(own, Signal::Dest(other)), 7, "node {own}, Dest {other}");
        }
    }
}

#[test]
fn names_are_the_documents() {
    let plain = |name: &str| match name.split_once(' ') {
        Some((name, "good")) => name.to_string(),
        Some((name, "bad" | "none")) => format!("{name}-"),
        _ => name.to_string(),
    };
    assert!(MODES.iter().map(|(name, _)| plain(name)).eq(rows().into_iter().map(|(name, _)| name)));
    let classes = "Start, End, Prefix, Gap, Dhead, Dest own, Dest 63, Dest other, Header good, Header bad, Data good, Data bad, Ack good, Ack bad";
    assert_eq!(CLASSES.join(", "), classes);
}

/// A line of the page's grid: two spaces or more stand between its columns.
fn columns(line: &str) -> Vec<&str> {
    line.split("  ").map(str::trim).filter(|column| !column.is_empty()).collect()
}

/// A cell of the page's grid, `next report *`, in the printed words.
fn shown(line: usize, cell: &str, names: &[String]) -> [String; 3] {
    if cell == "." {
        return [line.to_string(), "-".into(), "0".into()];
    }
    let mut words = cell.split(' ');
    let next = words.next().unwrap();
    let place = names.iter().position(|name| name == next).expect(next);
    let (report, pending) = match words.next() {
        Some("*") => ("-", "1"),
        Some(report) => (report, "0"),
        None => ("-", "0"),
    };
    assert_eq!(words.next(), None, "{cell}");
    [place.to_string(), report.into(), pending.into()]
}

/// docs/TABLE.md
fn page() -> String {
    let page = Path::new(env!("CARGO_MANIFEST_DIR")).join("../docs/TABLE.md");
    std::fs::read_to_string(page).unwrap()
}

#[test]
fn the_pages_grid() {
    let page = page();
    let mut grid = page.lines().skip_while(|line| !line.starts_with("    class ")).map(columns);

    let numbers = |column: &&str| column.split(' ').map(|class| class.parse().unwrap()).collect();
    let classes: Vec<Vec<usize>> = grid.next().unwrap()[1..].iter().map(numbers).collect();
    let mut all = classes.concat();
    all.sort();
    assert!(all.into_iter().eq(0..14));
    let signals = "Start, End, Prefix, Gap, Dhead .., Dest own, Dest 63, Dest other, Header good, Data good, Data bad, Ack good";
    assert_eq!(grid.next().unwrap().join(", "), signals);

    let lines: Vec<Vec<&str>> = grid.take_while(|line| !line.is_empty()).collect();
    assert_eq!(lines.len(), 25);
    let name = |line: &Vec<&str>| line[0].split(' ').nth(1).unwrap().to_string();
    let names: Vec<String> = lines.iter().map(name).collect();
    let (rows, by_hand) = (rows(), by_hand());
    for (line, (cells, name)) in lines.iter().zip(&names).enumerate() {
        assert_eq!(cells[0], format!("{line} {name}"));
        assert_eq!(name.trim_end_matches('+'), rows[line].0);
        assert_eq!(cells.len(), 1 + classes.len(), "{name}");
        for (cell, classes) in cells[1..].iter().zip(&classes) {
            for &class in classes {
                let shown = shown(line, cell, &names);
                assert_eq!(shown, by_hand[line][class], "{name}, class {class}");
            }
        }
    }
}

#[test]
fn the_pages_printed_lines() {
    let first: String = text().lines().take(3).map(|line| format!("    {line}\n")).collect();
    assert!(page().contains(&first));
}

#[test]
fn the_subcommand_prints_it() {
    let model = env!("CARGO_BIN_EXE_model");
    let said = Command::new(model).arg("table").output().unwrap();
    assert_eq!((said.status.code(), said.stderr.len()), (Some(0), 0));
    assert_eq!(String::from_utf8(said.stdout).unwrap(), text());
    let refused = Command::new(model).args(["table", "x"]).output().unwrap();
    assert_eq!((refused.status.code(), refused.stdout.len()), (Some(1), 0));
}
