//! The answer of a program to a question that is not refused, held against the model's: a printed route
//! must itself be one, and "a question has one answer", so it must be the model's, byte for byte. What
//! such questions must hit.

use super::equally_short::{self, Differences};
use super::parts;
use super::questions::place_name;
use super::ways::at_rest;
use crate::bus::{Action, Bus, Record, Report};
use crate::notation::{self, Line};
use crate::routes::{self, Question, Route, DEEPEST};

/// What is printed is an answer, and the model's byte for byte; what fails by both is told by both.
pub fn judge(bus: &Bus, question: &Question, ours: &Route, theirs: &[u8]) -> Result<(), String> {
    match (look(bus, question, ours, theirs), equal(ours, theirs)) {
        (Err(why), Err(bytes)) => Err(format!("{why}; {bytes}")),
        (looked, compared) => looked.and(compared),
    }
}

/// Both say that there is none, or both that there is a route, and theirs is one.
pub fn look(bus: &Bus, question: &Question, ours: &Route, theirs: &[u8]) -> Result<(), String> {
    match (ours, theirs == b"none\n") {
        (None, true) => Ok(()),
        (Some(_), true) => Err(format!("it says none, and the model {}", shown(ours))),
        (Some(_), false) => follow(bus, question, theirs),
        (None, false) => {
            follow(bus, question, theirs)?;
            Err("the MODEL says none, and the program a route".into())
        }
    }
}

/// An answer on one line.
fn shown(route: &Route) -> String {
    let mut text = Vec::new();
    routes::print(&mut text, route);
    String::from_utf8_lossy(&text).trim_end().replace('\n', ", ")
}

/// "each line of it", at most d of them, is an action of kinds 4 to 9 that is accepted in turn, and the
/// last gives that report.
fn follow(bus: &Bus, question: &Question, text: &[u8]) -> Result<(), String> {
    let records = records(text)?;
    if records.len() > usize::from(question.depth) {
        return Err(format!("a route of {} actions, within {}", records.len(), question.depth));
    }
    let mut bus = bus.clone();
    let mut last = None;
    for (place, record) in records.iter().enumerate() {
        let refused = |number: u8| format!("its action {place} is refused by {number}");
        last = bus.step(record).map_err(|refusal| refused(refusal.number()))?;
    }
    match question.is_given(last) {
        true => Ok(()),
        false => Err(format!("its last action reports {last:?}")),
    }
}

/// The actions that the lines of a route say, each "as `list` prints it".
fn records(text: &[u8]) -> Result<Vec<Record>, String> {
    let lines = text.split_inclusive(|&byte| byte == b'\n');
    let actions = lines.map(event).collect::<Result<Vec<Action>, String>>()?;
    let mut printed = Vec::new();
    actions.iter().for_each(|&action| notation::print_action(&mut printed, action));
    match printed == text {
        true => Ok(actions.into_iter().map(Record::from).collect()),
        false => Err(format!("not as list prints it: '{}'", String::from_utf8_lossy(text))),
    }
}

/// The action of kinds 4 to 9 that a line says, with its newline or without.
fn event(line: &[u8]) -> Result<Action, String> {
    let said = || String::from_utf8_lossy(&line[..line.len().min(100)]).into_owned();
    let read = notation::read_line(line.strip_suffix(b"\n").unwrap_or(line));
    match read {
        Ok(Line::Acts(record, 1)) if (4..=9).contains(&record.kind) => {
            record.look(63).map_err(|refusal| format!("'{}': {refusal:?}", said()))
        }
        _ => Err(format!("'{}' is no action of kinds 4 to 9", said())),
    }
}

/// Both print the same, byte for byte.
pub fn equal(ours: &Route, theirs: &[u8]) -> Result<(), String> {
    let mut text = Vec::new();
    routes::print(&mut text, ours);
    same(&text, theirs)
}

/// The same for any answer.
pub fn same(ours: &[u8], theirs: &[u8]) -> Result<(), String> {
    match ours == theirs {
        true => Ok(()),
        false => Err(format!("program: '{}'; model: '{}'", as_printed(theirs), as_printed(ours))),
    }
}

/// What is printed, on one line; where it ends without a newline, with `...`.
fn as_printed(text: &[u8]) -> String {
    let text = String::from_utf8_lossy(&text[..text.len().min(300)]).into_owned();
    match text.strip_suffix('\n') {
        Some(lines) => lines.replace('\n', ", "),
        None => text.replace('\n', ", ") + "...",
    }
}

fn of(what: &str, of: impl std::fmt::Display, found: bool) -> String {
    format!("{what} {of}: {}", if found { "found" } else { "none" })
}

/// "While a node is Asked, kinds 4 to 10 are not open."
const WHILE_ASKED: &str = "none, and a route if no node were Asked";

fn is_kept_closed(bus: &Bus, question: &Question) -> bool {
    let is_asked = bus.asked().next().is_some();
    is_asked && routes::find(&at_rest(bus), question).is_ok_and(|route| route.is_some())
}

fn shortest(length: usize) -> String {
    format!("a shortest route of {length}")
}

/// What right questions at such places can hit. No route can be found for `won` and `lost`, which kinds
/// 4 to 9 never report; none within 0 actions; none on an Idle bus, where none of these kinds is open.
pub fn aims(places: &[&str]) -> Vec<String> {
    let words = both("word", &Report::WORDS, |word| *word != "won" && *word != "lost");
    let depths: Vec<u8> = (0..=DEEPEST).collect();
    let depths = both("within", &depths, |&depth| depth > 0);
    let places = both("at", places, |place| *place != "Idle");
    let lengths = (1..=usize::from(DEEPEST)).map(shortest);
    let asked = [WHILE_ASKED.into()];
    words.into_iter().chain(depths).chain(places).chain(lengths).chain(asked).collect()
}

/// Each of these with `none`, and with `found` where that can be.
fn both<T: std::fmt::Display>(what: &str, items: &[T], can: impl Fn(&T) -> bool) -> Vec<String> {
    let found = items.iter().filter(|&item| can(item)).map(|item| of(what, item, true));
    found.chain(items.iter().map(|item| of(what, item, false))).collect()
}

/// What a question with this answer has hit.
pub fn hits(bus: &Bus, question: &Question, route: &Route) -> Vec<String> {
    let found = route.is_some();
    let mut hits = vec![
        of("word", question.word, found),
        of("within", question.depth, found),
        of("at", place_name(bus.phase), found),
    ];
    hits.extend(route.as_ref().map(|actions| shortest(actions.len())));
    hits.extend(is_kept_closed(bus, question).then(|| WHILE_ASKED.into()));
    hits
}

/// What first routes can hit, with such differences between equally short ones.
pub fn aims_of_first(differences: &Differences) -> Vec<String> {
    let parts = parts::all().map(|part| part.to_string());
    parts.chain(equally_short::aims(differences)).collect()
}

/// What the first of these shortest routes has hit.
pub fn hits_of_first(bus: &Bus, shortest: &[Vec<Action>]) -> Vec<String> {
    let first = routes::first(shortest).unwrap_or_default();
    let parts = parts::of(bus, &first).into_iter().map(|part| part.to_string());
    parts.chain(equally_short::hits(bus, shortest)).collect()
}
