//! How many sequences of classes leave a node in which mode (request 7), held against counts by hand
//! and against the rules as written by hand in `common::chart`.

mod common;

use std::collections::BTreeSet;
use std::process::Command;

use bench_model::bus::{Mode, Node};
use bench_model::counts::{end, listed, longer, rows, sequence, sequences, text, Row};
use bench_model::table::{place, CLASSES};
use common::chart;
use common::chart::RECEIVERS;

/// The modes' names by place.
fn names() -> Vec<&'static str> {
    chart::rows().into_iter().map(|(name, _)| name).collect()
}

/// The place of the mode with this name.
fn at(name: &str) -> usize {
    names().iter().position(|&listed| listed == name).expect(name)
}

/// The row with these counts, and 0 at every other place.
fn row<const N: usize>(counts: [(&str, u64); N]) -> Row {
    let mut row = [0; 25];
    for (name, count) in counts {
        row[at(name)] = count;
    }
    row
}

/// The modes in which a sequence from Rest can end, with the shortest length of one that does: after
/// Start, Dhead, Dest, Header, Data and End in their turn; in Wait after Start and End, in Owed after
/// Start, Dhead, Dest of the node itself and End.
const MET: [(&str, usize); 14] = [
    ("Rest", 0),
    ("Opened", 1),
    ("Addressed", 2),
    ("HeadOwn", 3),
    ("HeadAll", 3),
    ("BodyOwn", 4),
    ("BodyAll", 4),
    ("TailOwn", 5),
    ("TailOwn-", 5),
    ("TailAll", 5),
    ("TailAll-", 5),
    ("Wait", 2),
    ("Owed", 4),
    ("Told", 6),
];

/// No sequence from Rest ends in the others: a node comes there only after it asked, sent or was
/// granted the bus.
const NEVER: [&str; 11] = [
    "AwaitAck",
    "AckBody",
    "AckEnd",
    "AckEnd-",
    "Sending",
    "Answering",
    "Acking",
    "Holding",
    "Spurious",
    "Listening",
    "Asked",
];

#[test]
fn shape() {
    let (text, rows) = (text(), rows());
    assert!(text.ends_with('\n'));
    assert_eq!((text.lines().count(), rows.len()), (17, 17));
    for (k, line) in text.lines().enumerate() {
        let words: Vec<&str> = line.split(' ').collect();
        assert_eq!(words.len(), 26, "{line}");
        assert_eq!(words[0], k.to_string());
        assert!(words[1..].iter().eq(&rows[k].map(|count| count.to_string())), "{line}");
    }
}

/// "For k = 1 that is 1 in Opened and 13 in Rest."
///
/// k = 2. From Rest (13): Start to Opened, 13 others stay: 13 and 169. From Opened (1): Gap to Rest, 3
/// other line signals to Wait, 10 others to Addressed.
///
/// k = 3. From Rest (170): 170 to Opened, 2210 stay. From Opened (13): 13 to Rest, 39 to Wait, 130 to
/// Addressed. From Addressed (10): 10 each to HeadOwn, HeadAll and Rest, 110 to Wait. From Wait (3): 3
/// to Rest, 39 stay. Rest 2210 + 13 + 10 + 3, Wait 39 + 110 + 39.
#[test]
fn printed_by_hand() {
    let by_hand = "\
0 1 0 0 0 0 0 0 0 0 0 0 0 0 0 0 0 0 0 0 0 0 0 0 0 0
1 13 0 0 0 0 1 0 0 0 0 0 0 0 0 0 0 0 0 0 0 0 0 0 0 0
2 170 0 0 0 0 13 10 0 0 0 0 0 0 0 0 3 0 0 0 0 0 0 0 0 0
3 2236 0 0 0 0 170 130 10 10 0 0 0 0 0 0 188 0 0 0 0 0 0 0 0 0
";
    assert!(text().starts_with(by_hand));
}

/// k = 4, from the row for 3. Rest: 13 · 2236, and by Gap 170 from Opened, 130 from Addressed, 10 from
/// HeadAll, 188 from Wait. Wait: 3 · 170, 11 · 130, 12 · 10, 13 · 188 from these four. Owed: 13 · 10
/// from HeadOwn.
#[test]
fn four_by_hand() {
    let by_hand = row([
        ("Rest", 29_566),
        ("Opened", 2236),
        ("Addressed", 1700),
        ("HeadOwn", 130),
        ("HeadAll", 130),
        ("BodyOwn", 10),
        ("BodyAll", 10),
        ("Wait", 4504),
        ("Owed", 130),
    ]);
    assert_eq!(rows()[4], by_hand);
}

/// By document 01's sentences: each mode that is met, with how many classes lead there from which.
const LEADS: [(&str, &str); 14] = [
    ("Rest", "13 Rest, 1 Opened, 1 Addressed, 1 HeadAll, 1 BodyAll, 3 TailAll, 3 TailAll-, 1 Wait"),
    ("Opened", "1 Rest"),
    ("Addressed", "10 Opened"),
    ("HeadOwn", "1 Addressed"),
    ("HeadAll", "1 Addressed"),
    ("BodyOwn", "1 HeadOwn"),
    ("BodyAll", "1 HeadAll"),
    ("TailOwn", "1 BodyOwn"),
    ("TailOwn-", "1 BodyOwn"),
    ("TailAll", "1 BodyAll"),
    ("TailAll-", "1 BodyAll"),
    ("Wait", "3 Opened, 11 Addressed, 12 HeadAll, 11 BodyAll, 11 TailAll, 11 TailAll-, 13 Wait"),
    ("Owed", "13 HeadOwn, 12 BodyOwn, 12 TailOwn, 12 TailOwn-, 14 Owed"),
    ("Told", "2 TailOwn, 2 TailOwn-, 14 Told"),
];

/// The row after this one.
fn by_sentences(before: &Row) -> Row {
    let part = |words: &str| {
        let (classes, mode) = words.split_once(' ').unwrap();
        classes.parse::<u64>().unwrap() * before[at(mode)]
    };
    row(LEADS.map(|(mode, parts)| (mode, parts.split(", ").map(part).sum())))
}

#[test]
fn every_row_by_sentences() {
    let rows = rows();
    for k in 1..17 {
        assert_eq!(rows[k], by_sentences(&rows[k - 1]), "k = {k}");
    }
}

#[test]
fn every_sequence_is_listed_once() {
    assert_eq!([0, 1, 2, 3].map(sequences), [1, 14, 196, 2744]);
    for k in 0..4 {
        let listed: BTreeSet<Vec<usize>> =
            (0..sequences(k)).map(|number| sequence(k, number)).collect();
        assert_eq!(listed.len() as u64, sequences(k), "k = {k}");
        for sequence in listed {
            assert_eq!(sequence.len(), k as usize);
            assert!(sequence.iter().all(|&class| class < 14), "{sequence:?}");
        }
    }
}

/// Signals in the order of the sequence, the first one first.
#[test]
fn where_a_sequence_ends() {
    let ends = |sequence: &[&str]| {
        let class = |name| CLASSES.iter().position(|&listed| listed == name).expect(name);
        let classes: Vec<usize> = sequence.iter().map(|&name| class(name)).collect();
        names()[end(&classes)]
    };
    assert_eq!(ends(&[]), "Rest");
    assert_eq!(ends(&["Start", "Gap"]), "Rest");
    assert_eq!(ends(&["Gap", "Start"]), "Opened");
    // the packets of cases B, C, A and D, as node 1 gets them
    let packet = ["Start", "Dhead", "Dest own", "Header good", "Data good", "End"];
    let modes = ["Rest", "Opened", "Addressed", "HeadOwn", "BodyOwn", "TailOwn", "Told"];
    for (k, mode) in modes.into_iter().enumerate() {
        assert_eq!(ends(&packet[..k]), mode);
    }
    assert_eq!(ends(&["Start", "Dhead", "Dest own", "Header good", "Data bad"]), "TailOwn-");
    assert_eq!(ends(&["Start", "Dhead", "Dest 63", "Header good", "Data good"]), "TailAll");
    assert_eq!(ends(&["Start", "Dhead", "Dest 63", "Header good", "Data good", "End"]), "Rest");
    assert_eq!(ends(&["Start", "Dhead", "Dest own", "Data good", "End"]), "Owed");
}

#[test]
fn listing_and_recurrence_agree() {
    let mut row = listed(0);
    for k in 1..6 {
        row = longer(&row);
        assert_eq!(row, listed(k), "k = {k}");
    }
}

/// From a single sequence in each mode, those that none from Rest ends in too.
#[test]
fn one_class_more_from_each_mode() {
    for (name, answers) in chart::rows() {
        let mut by_hand = [0; 25];
        for answer in answers {
            by_hand[at(answer.next)] += 1;
        }
        assert_eq!(longer(&row([(name, 1)])), by_hand, "{name}");
    }
}

/// Whatever the signals carry and the receiver's number is.
#[test]
fn every_receiver() {
    let expected = listed(4);
    for receiver in RECEIVERS {
        let signals = receiver.signals();
        let mut counts = [0; 25];
        for number in 0..sequences(4) {
            let mut node = Node { mode: Mode::Rest, ..Node::FRESH };
            for class in sequence(4, number) {
                (node.mode, _) = node.receive(receiver.own, signals[class]);
            }
            counts[place(node.mode)] += 1;
        }
        assert_eq!(counts, expected, "{receiver:?}");
    }
}

/// "each row adds up to 14 to the power k"
#[test]
fn sums() {
    assert_eq!(14_u64.pow(16), 2_177_953_337_809_371_136);
    for (k, row) in rows().into_iter().enumerate() {
        assert_eq!(row.into_iter().sum::<u64>(), 14_u64.pow(k as u32), "k = {k}");
    }
}

#[test]
fn first_met() {
    assert_eq!(MET.len() + NEVER.len(), 25);
    let rows = rows();
    let first = |name| rows.iter().position(|row| row[at(name)] > 0);
    for (name, k) in MET {
        assert_eq!(first(name), Some(k), "{name}");
        let later = rows[k..].iter().all(|row| row[at(name)] > 0);
        assert!(later, "{name} is met with each k from {k} on");
    }
    for name in NEVER {
        assert_eq!(first(name), None, "{name}");
    }
}

/// How many sequences of one length lead from each mode (line) to each mode (column).
type Ways = Vec<Vec<u64>>;

/// For one class, by the table written by hand.
fn ways_of_one() -> Ways {
    let to = |mode| move |answer: &&chart::Answer| answer.next == mode;
    let line = |answers: Vec<chart::Answer>| {
        names().into_iter().map(|mode| answers.iter().filter(to(mode)).count() as u64).collect()
    };
    chart::rows().into_iter().map(|(_, answers)| line(answers)).collect()
}

/// For twice the length: each way to some mode, and on from there.
fn doubled(ways: &Ways) -> Ways {
    let through = |from: usize, to: usize| (0..25).map(|by| ways[from][by] * ways[by][to]).sum();
    (0..25).map(|from| (0..25).map(|to| through(from, to)).collect()).collect()
}

#[test]
fn sixteen_by_doubling() {
    let mut ways = ways_of_one();
    let rows = rows();
    for k in [1, 2, 4, 8] {
        assert_eq!(ways[0], rows[k], "k = {k}");
        ways = doubled(&ways);
    }
    assert_eq!(ways[0], rows[16]);
}

#[test]
fn the_subcommand_prints_it() {
    let model = env!("CARGO_BIN_EXE_model");
    let said = Command::new(model).arg("counts").output().unwrap();
    assert_eq!((said.status.code(), said.stderr.len()), (Some(0), 0));
    assert_eq!(String::from_utf8(said.stdout).unwrap(), text());
    let refused = Command::new(model).args(["counts", "x"]).output().unwrap();
    assert_eq!((refused.status.code(), refused.stdout.len()), (Some(1), 0));
}
