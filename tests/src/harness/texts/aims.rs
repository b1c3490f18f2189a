//! What runs in plain words must hit.

use super::spelling::NAMES;
use crate::bus::{is_label, Record};
use crate::harness::seen::{of, Aims, Seen, Sight, HINTS};
use crate::notation::{self, Complaint, Fault, Line};
use crate::runfile::FULL;

/// All that a text can have; too many actions take a text that nobody waits for.
pub const FAULTS: [Fault; 16] = [
    Fault::LongLine,
    Fault::UnknownWord,
    Fault::MissingField,
    Fault::NotANumber,
    Fault::TooLarge,
    Fault::ExtraField,
    Fault::RepeatOfZero,
    Fault::NoNodesLine,
    Fault::NodesAgain,
    Fault::NoAction,
    Fault::Refused(1),
    Fault::Refused(4),
    Fault::Refused(5),
    Fault::Refused(13),
    Fault::Refused(15),
    Fault::Refused(6),
];

/// THE FIELD; the last one may lack.
const FIELDS: [&str; 14] = [
    "the node of clock",
    "the node of arbitrate",
    "the node of ask",
    "the node of decide",
    "the node of request",
    "the address of request",
    "the header of request",
    "the data of request",
    "the label of request",
    "the node of respond",
    "the acknowledgement of respond",
    "the number of nodes",
    "the count after *",
    "the address of change",
];

/// Each fault with what its cause says of a field or of a word.
pub fn causes() -> Vec<(Fault, String)> {
    let missing = of(Fault::MissingField, &FIELDS[..13]);
    let not = of(Fault::NotANumber, &FIELDS).chain(of(Fault::NotANumber, &HINTS));
    let large = of(Fault::TooLarge, &FIELDS);
    let unknown = of(Fault::UnknownWord, &HINTS);
    let extra = of(Fault::ExtraField, &HINTS);
    let to_itself = of(Fault::Refused(15), &["node 0 would send to itself"]);
    missing.chain(not).chain(large).chain(unknown).chain(extra).chain(to_itself).collect()
}

/// The words that begin a line, then the others.
pub fn known_words() -> Vec<&'static str> {
    NAMES.into_iter().chain(["all", "label", "hold", "*"]).collect()
}

/// How many actions each right line says.
fn counts<'a>(seen: &'a Seen) -> impl Iterator<Item = usize> + 'a {
    seen.read.iter().map(|line| match notation::read_line(line) {
        Ok(Line::Acts(_, times)) => times as usize,
        _ => 0,
    })
}

fn repeats_over_a_block(seen: &Seen) -> bool {
    let mut under_way = 0;
    counts(seen).any(|count| {
        let over = count > 1 && under_way + count > FULL;
        under_way = (under_way + count) % FULL;
        over
    })
}

/// Whether the words after the `label` of a right line are such ones.
fn labelled(seen: &Seen, is: impl Fn(&[&[u8]]) -> bool) -> bool {
    seen.any_line(|line| after_label(line).is_some_and(|words| is(&words)))
}

/// Whether a line with a label is refused by this number, though its label is none.
fn refused_before_label(seen: &Seen, number: u8) -> bool {
    let is_none = |line| match notation::read_line(line) {
        Ok(Line::Acts(record, _)) => !is_label(record.label),
        _ => false,
    };
    seen.fault == Some(Fault::Refused(number)) && seen.wrong.is_some_and(is_none)
}

/// The words after the `label` of a request, if it has one.
fn after_label(line: &[u8]) -> Option<Vec<&[u8]>> {
    let words: Vec<&[u8]> = notation::words(line).collect();
    match &words[..] {
        [b"request", _, _, _, _, b"label", after @ ..] => Some(after.to_vec()),
        _ => None,
    }
}

const TEXTS: [Sight; 8] = [
    ("a repeat over the end of a block", repeats_over_a_block),
    ("change alone, repeated", |seen| {
        seen.any_line(|line| notation::words(line).take(2).eq([&b"change"[..], b"*"]))
    }),
    ("a text that composes", |seen| seen.fault.is_none()),
    ("a fault in the first line", |seen| seen.wrong.is_some() && seen.read.is_empty()),
    ("a fault after lines that say something", |seen| {
        seen.fault.is_some() && seen.any_word(|_| true)
    }),
    ("a fault after whole blocks", |seen| {
        seen.fault.is_some() && counts(seen).sum::<usize>() >= FULL
    }),
    ("a fault right after a whole block", |seen| {
        let actions: usize = counts(seen).sum();
        seen.fault.is_some() && actions > 0 && actions.is_multiple_of(FULL)
    }),
    ("a fault at the end of the text", |seen| seen.fault.is_some() && seen.wrong.is_none()),
];

pub const REPEATED: [Sight; 1] = [("with a repeat", |seen| seen.statement().contains(&b'*'))];

const LABELS: [Sight; 11] = [
    ("0", |seen| labelled(seen, |words| words[0] == b"0")),
    ("63", |seen| labelled(seen, |words| words[0] == b"63")),
    ("in hexadecimal", |seen| labelled(seen, |words| words[0].starts_with(b"0x"))),
    ("before a repeat", |seen| labelled(seen, |words| words.get(1) == Some(&&b"*"[..]))),
    ("an extra field after it", |seen| {
        seen.says("extra field") && seen.wrong.and_then(after_label).is_some()
    }),
    ("a second one", |seen| {
        let again = |words: Vec<&[u8]>| words.get(1) == Some(&&b"label"[..]);
        seen.wrong.and_then(after_label).is_some_and(again)
    }),
    ("a repeat in the place of its number", |seen| {
        seen.says(r#"not a number: "*", the label of request"#)
    }),
    ("in the place of a field", |seen| seen.says(r#"not a number: "label", the "#)),
    ("of another action", |seen| {
        let other = |line| notation::words(line).next() != Some(b"request");
        seen.says(r#"extra field: "label""#) && seen.wrong.is_some_and(other)
    }),
    ("over 63, and no node", |seen| refused_before_label(seen, 4)),
    ("over 63, and no address", |seen| refused_before_label(seen, 5)),
];

/// The request to the node itself that is refused by this number.
pub fn to_itself(seen: &Seen, number: u8) -> Option<Record> {
    let wrong = seen.wrong.filter(|_| seen.fault == Some(Fault::Refused(number)))?;
    match notation::read_line(wrong) {
        Ok(Line::Acts(record, _)) => {
            Some(record).filter(|record| record.kind == 1 && record.address == record.node)
        }
        _ => None,
    }
}

pub const TO_ITSELF: [Sight; 5] = [
    ("of node 0", |seen| to_itself(seen, 15).is_some_and(|record| record.node == 0)),
    ("of another node", |seen| to_itself(seen, 15).is_some_and(|record| record.node > 0)),
    ("repeated", |seen| to_itself(seen, 15).is_some() && seen.statement().contains(&b'*')),
    ("and a label over 63", |seen| to_itself(seen, 13).is_some()),
    ("and no node", |seen| to_itself(seen, 4).is_some()),
];

/// All there is to hit.
fn all() -> Aims {
    let more: [(_, &[Sight]); 3] =
        [("statement", &REPEATED), ("label", &LABELS), ("request to itself", &TO_ITSELF)];
    Aims::new(FAULTS.into(), causes(), known_words(), &TEXTS, &more)
}

pub fn aims() -> Vec<String> {
    all().names()
}

/// What a text has hit.
pub fn hits(text: &[u8], complaint: Option<&Complaint>) -> Vec<String> {
    all().hits(&Seen::new(text, complaint))
}
