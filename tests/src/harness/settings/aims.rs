//! What settings must hit: faults with their causes, words, ways to write, values.

use super::wrong::FIELDS;
use super::{NAMES, USER_WORDS};
use crate::bus::ALL_NODES;
use crate::harness::seen::{is_blank, of, Aims, Seen, Sight, HINTS};
use crate::plain::{words, Complaint, Fault};
use crate::settings::{read_line, Line};
use crate::trial::{Settings, User};

/// All that settings can have.
const FAULTS: [Fault; 14] = [
    Fault::LongLine,
    Fault::UnknownWord,
    Fault::MissingField,
    Fault::NotANumber,
    Fault::TooLarge,
    Fault::ExtraField,
    Fault::NoNodesLine,
    Fault::NodesAgain,
    Fault::Refused(1),
    Fault::Refused(4),
    Fault::Refused(5),
    Fault::Refused(15),
    Fault::NoUserLine,
    Fault::NoAction,
];

/// Each fault with what its cause says of a field or of a word.
fn causes() -> Vec<(Fault, String)> {
    let quoted = USER_WORDS.map(|word| format!("\"{word}\""));
    let misplaced = quoted.into_iter().map(|word| (Fault::ExtraField, word));
    of(Fault::MissingField, &FIELDS)
        .chain(of(Fault::NotANumber, &FIELDS))
        .chain(of(Fault::NotANumber, &HINTS))
        .chain(of(Fault::TooLarge, &FIELDS))
        .chain(of(Fault::TooLarge, &["at most 255", "at most 65535"]))
        .chain(of(Fault::UnknownWord, &HINTS))
        .chain(of(Fault::ExtraField, &HINTS))
        .chain(misplaced)
        .chain(of(Fault::Refused(1), &["a bus has 2 to 63 nodes"]))
        .chain(of(Fault::Refused(4), &["nodes are 0 to 1", "nodes are 0 to 62"]))
        .chain(of(Fault::Refused(5), &["addresses are 0 to 1 and all"]))
        .chain(of(
            Fault::Refused(15),
            &["node 0 would send to itself", "node 1 would send to itself"],
        ))
        .collect()
}

fn known_words() -> Vec<&'static str> {
    NAMES.into_iter().chain(USER_WORDS).chain(["all"]).collect()
}

/// What the right lines of a text say, in their order.
fn lines(seen: &Seen) -> Vec<Line> {
    seen.read.iter().filter_map(|line| read_line(line).ok()).collect()
}

/// Those of a right text; nothing of a wrong one.
fn said(seen: &Seen) -> Vec<Line> {
    match seen.fault {
        None => lines(seen),
        Some(_) => Vec::new(),
    }
}

/// The numbers of actions that a right text says.
fn actions(seen: &Seen) -> Vec<u16> {
    let actions = |line| match line {
        Line::Actions(actions) => Some(actions),
        _ => None,
    };
    said(seen).into_iter().filter_map(actions).collect()
}

/// The nodes of whose users a right text says something.
fn users(seen: &Seen) -> Vec<u8> {
    let node = |line| match line {
        Line::User(node, _) => Some(node),
        _ => None,
    };
    said(seen).into_iter().filter_map(node).collect()
}

fn says_actions(seen: &Seen) -> bool {
    seen.any_word(|word| word == b"actions")
}

/// Whether a line of a user is refused by this number, and such a one.
fn refused(seen: &Seen, number: u8, is: impl Fn(u8, &User) -> bool) -> bool {
    let is_such = |line| match read_line(line) {
        Ok(Line::User(node, user)) => is(node, &user),
        _ => false,
    };
    seen.fault == Some(Fault::Refused(number)) && seen.wrong.is_some_and(is_such)
}

/// Whether the line that is wrong has this word.
fn wrong_has(seen: &Seen, known: &[u8]) -> bool {
    seen.wrong.is_some_and(|line| words(line).any(|word| word == known))
}

/// Whether no line speaks of user 0, and the lines that there are are such.
fn without_user_0(seen: &Seen, are: impl Fn(&[Line]) -> bool) -> bool {
    seen.fault == Some(Fault::NoUserLine) && are(&lines(seen))
}

fn is_user(line: &Line) -> bool {
    matches!(line, Line::User(..))
}

/// Whether the last line about the actions says some.
fn has_actions(lines: &[Line]) -> bool {
    let actions = |line: &Line| match line {
        Line::Actions(actions) => Some(*actions > 0),
        _ => None,
    };
    lines.iter().rev().find_map(actions).unwrap_or(false)
}

/// Whether the first line that says something is wrong, and is no `nodes` line.
fn wrong_before_nodes(seen: &Seen) -> bool {
    let name = seen.wrong.and_then(|line| words(line).next());
    seen.read.iter().all(|line| is_blank(line)) && name.is_some_and(|name| name != b"nodes")
}

const TEXTS: [Sight; 21] = [
    ("a trial", |seen| seen.fault.is_none()),
    ("two lines about the actions", |seen| actions(seen).len() > 1),
    ("actions 0, and later more", |seen| actions(seen).contains(&0)),
    ("two lines about one user", |seen| {
        let mut users = users(seen);
        users.sort_unstable();
        users.windows(2).any(|pair| pair[0] == pair[1])
    }),
    ("no user but user 0", |seen| {
        seen.fault.is_none() && users(seen).iter().all(|&node| node == 0)
    }),
    ("actions after a user", |seen| {
        let said = said(seen);
        let place = said.iter().rposition(|line| matches!(line, Line::Actions(_)));
        said.iter().take(place.unwrap_or(0)).any(is_user)
    }),
    ("over 1000 lines, and a trial", |seen| seen.fault.is_none() && seen.read.len() > 1000),
    ("a fault after line 65,535", |seen| seen.wrong.is_some() && seen.read.len() >= 65_535),
    ("a fault at the end of the text", |seen| seen.fault.is_some() && seen.wrong.is_none()),
    ("no action after actions 0", |seen| seen.fault == Some(Fault::NoAction) && says_actions(seen)),
    ("no action without actions", |seen| {
        seen.fault == Some(Fault::NoAction) && !says_actions(seen)
    }),
    ("no user 0 line, and other users", |seen| {
        without_user_0(seen, |lines| lines.iter().any(is_user))
    }),
    ("no user 0 line, and no user", |seen| {
        without_user_0(seen, |lines| !lines.iter().any(is_user))
    }),
    ("no user 0 line, and actions", |seen| without_user_0(seen, has_actions)),
    ("no user 0 line, and no action", |seen| without_user_0(seen, |lines| !has_actions(lines))),
    ("no node, and no address", |seen| refused(seen, 4, |_, user| user.address > ALL_NODES)),
    ("no node, and to itself", |seen| refused(seen, 4, |node, user| user.address == node)),
    ("to itself, as it says", |seen| refused(seen, 15, |_, _| wrong_has(seen, b"to"))),
    ("to itself, since it says nothing", |seen| refused(seen, 15, |_, _| !wrong_has(seen, b"to"))),
    ("a line's own fault before the nodes line", |seen| {
        wrong_before_nodes(seen) && seen.fault != Some(Fault::NoNodesLine)
    }),
    ("a line in order before the nodes line", |seen| {
        wrong_before_nodes(seen) && seen.fault == Some(Fault::NoNodesLine)
    }),
];

/// A name, and the settings that hit it.
type Value = (&'static str, fn(&Settings) -> bool);

/// Whether there is such a user, at such a node.
fn any(settings: &Settings, is: impl Fn(u8, &User) -> bool) -> bool {
    (0..settings.n).any(|node| is(node, settings.user(node)))
}

const VALUES: [Value; 22] = [
    ("n = 2", |given| given.n == 2),
    ("n = 3", |given| given.n == 3),
    ("n = 63", |given| given.n == 63),
    ("1 action", |given| given.actions == 1),
    ("31 actions", |given| given.actions == 31),
    ("32 actions", |given| given.actions == 32),
    ("65,535 actions", |given| given.actions == 65_535),
    ("spell 0", |given| any(given, |_, user| user.spell == 0)),
    ("spell 255", |given| any(given, |_, user| user.spell == 255)),
    ("fillers 0", |given| any(given, |_, user| user.fillers == 0)),
    ("fillers 1 to 9", |given| any(given, |_, user| (1..=9).contains(&user.fillers))),
    ("fillers over 200", |given| any(given, |_, user| user.fillers > 200)),
    ("hold", |given| any(given, |_, user| user.hold)),
    ("release", |given| any(given, |_, user| !user.hold)),
    ("period 0", |given| any(given, |_, user| user.period == 0)),
    ("period 1", |given| any(given, |_, user| user.period == 1)),
    ("period 2", |given| any(given, |_, user| user.period == 2)),
    ("period 255", |given| any(given, |_, user| user.period == 255)),
    ("to all", |given| any(given, |_, user| user.address == ALL_NODES)),
    ("to the last node", |given| any(given, |_, user| user.address == given.n - 1)),
    ("a user that is all 0", |given| any(given, |_, user| *user == User::default())),
    ("all users all 0 but user 0", |given| {
        !any(given, |node, user| node != 0 && *user != User::default())
    }),
];

/// All that a text can hit.
fn all() -> Aims {
    Aims::new(FAULTS.into(), causes(), known_words(), &TEXTS, &[])
}

fn of_settings(name: &str) -> String {
    format!("settings: {name}")
}

pub fn aims() -> Vec<String> {
    let values = VALUES.iter().map(|(name, _)| of_settings(name));
    all().names().into_iter().chain(values).collect()
}

/// What a text has hit.
pub fn hits(text: &[u8], read: Result<&Settings, &Complaint>) -> Vec<String> {
    let mut hits = all().hits(&Seen::new(text, read.err()));
    if let Ok(settings) = read {
        let values = VALUES.iter().filter(|(_, is)| is(settings));
        hits.extend(values.map(|(name, _)| of_settings(name)));
    }
    hits
}
