//! What texts of questions must hit.

use crate::bus::{Record, Report, ALL_NODES};
use crate::harness::answers;
use crate::harness::equally_short::OF_RUNS;
use crate::harness::seen::{is_blank, of, Aims, Seen, Sight};
use crate::harness::texts::aims as of_runs;
use crate::harness::texts::spelling::NAMES;
use crate::notation::{self, print_action};
use crate::plain::{words, Complaint, Fault};
use crate::questions::{read, read_line, Asked, Line};
use crate::routes::{Question, Route, DEEPEST, MOST_NODES};

use super::PLACES;

/// All that a question can have: what a run can have, "but for `no action` and `too many actions`", and
/// what is its own.
fn faults() -> Vec<Fault> {
    let of_runs = of_runs::FAULTS.into_iter().filter(|&fault| fault != Fault::NoAction);
    let own = [Fault::NoFindLine, Fault::AfterFind, Fault::Refused(7), Fault::Refused(14)];
    of_runs.chain(own).collect()
}

/// THE FIELD of a line `find`: the report, then those that are numbers.
const FIELDS: [&str; 3] = ["the report of find", "the node of find", "the depth of find"];

/// Each fault with what its cause says of a field, of a word, or by which number.
fn causes() -> Vec<(Fault, String)> {
    let own = of(Fault::MissingField, &FIELDS)
        .chain(of(Fault::NotANumber, &FIELDS[1..]))
        .chain(of(Fault::TooLarge, &FIELDS[1..]))
        .chain(of(Fault::Refused(4), &["nodes are 0 to 1", "nodes are 0 to 7"]))
        .chain(of(Fault::Refused(7), &[": not open when its turn comes"]))
        .chain(of(
            Fault::Refused(14),
            &[": a route has at most 6 actions, on a bus of at most 8 nodes"],
        ));
    of_runs::causes().into_iter().chain(own).collect()
}

fn known_words() -> Vec<&'static str> {
    let of_find = ["find", "within"].into_iter().chain(Report::WORDS);
    of_runs::known_words().into_iter().chain(of_find).collect()
}

fn name(line: &[u8]) -> Option<&[u8]> {
    words(line).next()
}

fn is_find(line: &[u8]) -> bool {
    name(line) == Some(b"find")
}

/// The question of the line `find` that is wrong where it stands.
fn refused(seen: &Seen, number: u8) -> Option<Question> {
    let line = seen.wrong.filter(|_| seen.fault == Some(Fault::Refused(number)))?;
    match read_line(line) {
        Ok(Line::Find(question)) => Some(question),
        _ => None,
    }
}

/// n, if the `nodes` line was right.
fn nodes(seen: &Seen) -> Option<u8> {
    seen.read.iter().find_map(|line| match notation::read_line(line) {
        Ok(notation::Line::Nodes(n)) => Some(n),
        _ => None,
    })
}

/// Whether a line `find` is refused by 14, and for these reasons: its depth, n.
fn refused_14(seen: &Seen, by_depth: bool, by_nodes: bool) -> bool {
    let is = |(question, n): (Question, u8)| {
        (question.depth > DEEPEST, n > MOST_NODES) == (by_depth, by_nodes)
    };
    refused(seen, 14).zip(nodes(seen)).is_some_and(is)
}

/// Whether a line `find` is refused by 14, and its node is not below n.
fn refused_14_before_4(seen: &Seen) -> bool {
    refused(seen, 14).zip(nodes(seen)).is_some_and(|(question, n)| question.node >= n)
}

/// Whether an action is refused by 7 that was open at its first turn.
fn refused_7_in_a_repeat(seen: &Seen) -> bool {
    let wrong = seen.wrong.filter(|_| seen.fault == Some(Fault::Refused(7)));
    let Some(Ok(notation::Line::Acts(record, _))) = wrong.map(notation::read_line) else {
        return false;
    };
    let mut text = seen.read.join(&b'\n');
    text.push(b'\n');
    print_action(&mut text, record.look(63).expect("it was looked at"));
    read(&text).is_err_and(|complaint| complaint.flaw.fault == Fault::NoFindLine)
}

/// Whether a request is refused by 15 that would be open, or would not, if it went to all nodes. On a
/// bus of up to 8 nodes, of which a question can be asked.
fn refused_15(seen: &Seen, open: bool) -> bool {
    let Some(record) = of_runs::to_itself(seen, 15) else {
        return false;
    };
    let text = [&seen.read.join(&b'\n')[..], b"\nfind won 0 within 0"].concat();
    let to_all = Record { address: ALL_NODES, ..record };
    read(&text).is_ok_and(|mut asked| asked.bus.play(&to_all).is_ok() == open)
}

/// Whether a line after the line `find` has this fault.
fn after_find(seen: &Seen, fault: Fault) -> bool {
    seen.fault == Some(fault) && seen.any_line(is_find)
}

const TEXTS: [Sight; 19] = [
    ("a question", |seen| seen.fault.is_none()),
    ("a question with no action", |seen| {
        seen.fault.is_none() && seen.read.iter().filter(|line| !is_blank(line)).count() == 2
    }),
    ("a repeat", |seen| seen.fault.is_none() && seen.any_word(|word| word == b"*")),
    ("a comment after find", |seen| {
        let last = seen.read.last().filter(|_| seen.fault.is_none());
        last.is_some_and(|line| is_blank(line) && line.contains(&b'#'))
    }),
    ("find before the nodes line", |seen| {
        seen.fault == Some(Fault::NoNodesLine) && seen.wrong.is_some_and(is_find)
    }),
    ("an unknown word in a line find", |seen| {
        seen.fault == Some(Fault::UnknownWord) && seen.wrong.is_some_and(is_find)
    }),
    ("a repeat of find", |seen| {
        seen.says(r#"extra field: "*""#) && seen.wrong.is_some_and(is_find)
    }),
    ("within in the place of the node", |seen| {
        seen.says(r#"not a number: "within", the node of find"#)
    }),
    ("a second line find", |seen| {
        after_find(seen, Fault::AfterFind) && seen.wrong.is_some_and(is_find)
    }),
    ("a second nodes line after find", |seen| {
        let is_nodes = seen.wrong.is_some_and(|line| name(line) == Some(b"nodes"));
        after_find(seen, Fault::AfterFind) && is_nodes
    }),
    ("an action after find", |seen| {
        let is_action = |line| NAMES[1..].iter().any(|word| name(line) == Some(word.as_bytes()));
        after_find(seen, Fault::AfterFind) && seen.wrong.is_some_and(is_action)
    }),
    ("a line after find that is wrong by itself", |seen| after_find(seen, Fault::UnknownWord)),
    ("refused by 14 for its depth", |seen| refused_14(seen, true, false)),
    ("refused by 14 for n", |seen| refused_14(seen, false, true)),
    ("refused by 14 for both", |seen| refused_14(seen, true, true)),
    ("refused by 14, and no node", refused_14_before_4),
    ("refused by 7 in a repeat", refused_7_in_a_repeat),
    ("refused by 15, open otherwise", |seen| refused_15(seen, true)),
    ("refused by 15, where 7 holds too", |seen| refused_15(seen, false)),
];

/// All there is to hit.
fn all() -> Aims {
    let more: [(_, &[Sight]); 2] =
        [("statement", &of_runs::REPEATED), ("request to itself", &of_runs::TO_ITSELF)];
    Aims::new(faults(), causes(), known_words(), &TEXTS, &more)
}

fn not_open(name: &str) -> String {
    format!("refused by 7: {name}")
}

pub fn aims() -> Vec<String> {
    let closed = NAMES[1..].iter().map(|name| not_open(name));
    let of_first = answers::aims_of_first(&OF_RUNS);
    all().names().into_iter().chain(closed).chain(answers::aims(&PLACES)).chain(of_first).collect()
}

/// What a wrong text has hit.
pub fn hits_of_fault(text: &[u8], complaint: &Complaint) -> Vec<String> {
    let seen = Seen::new(text, Some(complaint));
    let mut hits = all().hits(&seen);
    if seen.fault == Some(Fault::Refused(7)) {
        let name = seen.wrong.and_then(name).unwrap_or_default();
        hits.push(not_open(&String::from_utf8_lossy(name)));
    }
    hits
}

/// What a right one has hit, to which the model gives this answer.
pub fn hits_of_answer(text: &[u8], asked: &Asked, route: &Route) -> Vec<String> {
    let mut hits = all().hits(&Seen::new(text, None));
    hits.extend(answers::hits(&asked.bus, &asked.question, route));
    hits
}
