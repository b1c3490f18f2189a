//! Settings with one wrong line, and such as end too early.

use super::{any_line, any_word, bare, name, Said, SettingsCase, Words, Writer, NAMES, USER_WORDS};
use crate::bus::ALL_NODES;
use crate::harness::random::Random;
use crate::harness::texts::spelling::{
    no_number, spoil_with, strange_word, stretch, too_large, unknown_word, Slot, Word,
};
use crate::harness::ways;
use crate::plain::{Fault, LONGEST_LINE, MARK};
use crate::trial::User;

/// THE FIELD.
pub const FIELDS: [&str; 7] = [
    "the number of nodes",
    "the number of actions",
    "the node of user",
    "the address of user",
    "the spell of user",
    "the fillers of user",
    "the period of user",
];

/// A line with something wrong in it.
#[derive(Clone, Copy, PartialEq, Eq, Debug)]
pub enum Wrong {
    Long(usize),
    UnknownWord,
    /// Of so many bytes.
    UnknownOf(usize),
    /// The first line begins with a second mark, or with bytes that are nearly one.
    SecondMark,
    HalfMark,
    /// A mark stands before the name or a field.
    MarkInside,
    /// Of the field with this place.
    Missing(usize),
    NotANumber(usize),
    TooLarge(usize),
    /// After the line with this name.
    Extra(&'static str),
    /// The word of a user's line with this place, after a later one; and once more.
    OutOfOrder(usize),
    Twice(usize),
    /// A line after so many that say nothing.
    Far(u64),
    /// A line before the `nodes` line.
    BeforeNodes,
    SecondNodes,
    /// n refused by number 1.
    Nodes(u8),
    /// Refused by number 4, 5, 15.
    Node,
    Address,
    ToItself,
}

impl Wrong {
    pub fn all() -> Vec<Wrong> {
        let mut all = vec![Wrong::UnknownWord; 4];
        all.extend([63, 64, 65, 200].map(Wrong::UnknownOf));
        all.extend([256, 257, 511, 513, 5000, 70_000].map(Wrong::Long));
        all.extend([Wrong::SecondMark, Wrong::HalfMark, Wrong::MarkInside, Wrong::MarkInside]);
        for field in 0..FIELDS.len() {
            all.extend([Wrong::Missing, Wrong::NotANumber, Wrong::TooLarge].map(|of| of(field)));
        }
        all.extend(NAMES.map(Wrong::Extra));
        all.push(Wrong::Extra("user"));
        all.extend((0..USER_WORDS.len() - 1).map(Wrong::OutOfOrder));
        all.extend((0..USER_WORDS.len()).map(Wrong::Twice));
        all.extend([255, 65_535].map(Wrong::Far));
        all.extend([Wrong::BeforeNodes, Wrong::SecondNodes]);
        all.extend([0, 1, 64, 65, 128, 255].map(Wrong::Nodes));
        all.extend([Wrong::Node, Wrong::Address, Wrong::ToItself].repeat(5));
        all
    }
}

/// Settings that end too early.
#[derive(Clone, Copy, PartialEq, Eq, Debug)]
pub enum End {
    Empty,
    MarkAlone,
    HalfMarkAlone,
    BlankAlone,
    NodesAlone,
    /// Actions, or `actions 0`, and no line for user 0.
    WithoutUser0,
    /// Users, and no `actions` line.
    UsersAlone,
    /// `actions 0` is the latest word on it.
    ActionsOfZero,
}

impl End {
    pub fn all() -> [End; 9] {
        [
            End::Empty,
            End::MarkAlone,
            End::HalfMarkAlone,
            End::BlankAlone,
            End::NodesAlone,
            End::WithoutUser0,
            End::WithoutUser0,
            End::UsersAlone,
            End::ActionsOfZero,
        ]
    }
}

fn spoil_rest(random: &mut Random, words: &mut Vec<Word>, from: usize) {
    spoil_with(random, words, from, any_word);
}

/// A text with this line in it.
pub fn wrong_line(random: &mut Random, wrong: Wrong) -> SettingsCase {
    let n = ways::nodes(random);
    let mut writer = Writer::new(random, n);
    if matches!(wrong, Wrong::SecondMark | Wrong::HalfMark) {
        writer.page.marked = wrong == Wrong::SecondMark;
        writer.page.no_mark();
        return faulty(writer, Fault::UnknownWord);
    }
    match is_first(&mut writer, wrong) {
        true => writer.page.blanks(),
        false => {
            writer.nodes();
            let count = writer.page.random.below(6);
            writer.some(count);
        }
    }
    if let Wrong::Far(count) = wrong {
        writer.page.empty(count);
    }
    if let Wrong::Long(length) = wrong {
        writer.page.long(length, &[b"#", b"user 0", b"unknown", b"actions 5 # ", b""]);
        return faulty(writer, Fault::LongLine);
    }
    let (words, fault) = loop {
        let (words, fault) = wrong_words(&mut writer, wrong);
        if words.join(&b' ').len() <= LONGEST_LINE {
            break (words, fault);
        }
    };
    match fault {
        Fault::Refused(_) if writer.page.random.percent(40) => {
            let line = stretch(writer.page.random, &words);
            writer.page.put(&line);
        }
        _ => writer.page.words(&words),
    }
    faulty(writer, fault)
}

/// Whether the fault is that of the first line that is not blank.
fn is_first(writer: &mut Writer, wrong: Wrong) -> bool {
    match wrong {
        Wrong::BeforeNodes | Wrong::Nodes(_) => true,
        Wrong::Missing(0) | Wrong::NotANumber(0) | Wrong::TooLarge(0) | Wrong::Extra("nodes") => {
            writer.page.random.percent(70)
        }
        Wrong::Long(_) => writer.page.random.percent(30),
        // At the very start the mark would be skipped; the others are of a line in its place.
        Wrong::MarkInside | Wrong::SecondNodes | Wrong::Node | Wrong::Address | Wrong::ToItself => {
            false
        }
        // A line's own fault is looked at before its place.
        _ => writer.page.random.percent(10),
    }
}

/// The line put last has this fault. Anything may follow.
fn faulty(mut writer: Writer, fault: Fault) -> SettingsCase {
    let expected = Some(Err((writer.page.lines, fault)));
    if writer.page.random.percent(60) {
        let count = writer.page.random.between(1, 5);
        writer.some(count);
    }
    if writer.page.random.percent(20) {
        let line = any_line(writer.page.random);
        writer.page.put(&line);
    }
    SettingsCase { text: writer.page.text(), expected }
}

/// The words of a right line with this field in it.
fn line_with(writer: &mut Writer, field: usize) -> Words {
    match field {
        0 => {
            let n = writer.page.random.byte(2, 63);
            writer.spell_nodes(n)
        }
        1 => {
            let actions = writer.page.random.between(1, 65_535) as u16;
            writer.spell(Said::Actions(actions))
        }
        _ => loop {
            let said = writer.any_user_said();
            let words = writer.spell(said);
            if words.iter().any(|&(_, name, _)| name == FIELDS[field]) {
                return words;
            }
        },
    }
}

/// The same with some field, and the place of it among the words.
fn place_of(writer: &mut Writer, field: usize) -> (Words, usize) {
    let words = line_with(writer, field);
    let place = words.iter().position(|&(_, name, _)| name == FIELDS[field]);
    (words, place.expect("the line has the field"))
}

fn wrong_words(writer: &mut Writer, wrong: Wrong) -> (Vec<Word>, Fault) {
    match wrong {
        Wrong::Long(_) | Wrong::SecondMark | Wrong::HalfMark => unreachable!("not made of words"),
        Wrong::UnknownWord | Wrong::Far(_) => {
            let known =
                Word::from(writer.page.random.pick(&["pass", "clock", "to", "lose", "User"]));
            let mut words = vec![unknown_word(writer.page.random)];
            if writer.page.random.percent(30) {
                words[0] = known;
            }
            spoil_rest(writer.page.random, &mut words, 1);
            (words, Fault::UnknownWord)
        }
        Wrong::UnknownOf(length) => {
            let word = b"user".iter().copied().cycle().take(length).collect();
            (vec![word, any_word(writer.page.random)], Fault::UnknownWord)
        }
        Wrong::MarkInside => {
            let field = writer.page.random.below(FIELDS.len() as u64) as usize;
            let (words, place) = place_of(writer, field);
            let place = writer.page.random.pick(&[0, place]);
            let mut words = bare(words);
            words[place] = [MARK, &words[place]].concat();
            (words, if place == 0 { Fault::UnknownWord } else { Fault::NotANumber })
        }
        Wrong::Missing(field) => {
            let (words, place) = place_of(writer, field);
            let mut words = bare(words);
            words.truncate(place);
            (words, Fault::MissingField)
        }
        Wrong::NotANumber(field) => (not_a_number(writer, field), Fault::NotANumber),
        Wrong::TooLarge(field) => {
            let (words, place) = place_of(writer, field);
            let slot = words[place].0;
            let mut words = bare(words);
            words[place] = too_large(writer.page.random, slot);
            spoil_rest(writer.page.random, &mut words, place + 1);
            (words, Fault::TooLarge)
        }
        Wrong::Extra(name) => (extra(writer, name), Fault::ExtraField),
        Wrong::OutOfOrder(place) => (misplaced(writer, place, false), Fault::ExtraField),
        Wrong::Twice(place) => (misplaced(writer, place, true), Fault::ExtraField),
        Wrong::BeforeNodes => {
            let number = writer.page.random.pick(&[4, 15]);
            let said = match writer.page.random.percent(30) {
                true => no_user(writer, number),
                false => writer.any_said(),
            };
            (bare(writer.spell(said)), Fault::NoNodesLine)
        }
        Wrong::SecondNodes => {
            let any = writer.page.random.byte(0, 255);
            let n = writer.page.random.pick(&[writer.n, any]);
            (bare(writer.spell_nodes(n)), Fault::NodesAgain)
        }
        Wrong::Nodes(n) => (bare(writer.spell_nodes(n)), Fault::Refused(1)),
        Wrong::Node => refused(writer, 4),
        Wrong::Address => refused(writer, 5),
        Wrong::ToItself => refused(writer, 15),
    }
}

fn refused(writer: &mut Writer, number: u8) -> (Vec<Word>, Fault) {
    let said = no_user(writer, number);
    (bare(writer.spell(said)), Fault::Refused(number))
}

/// A user that is refused by 4, and for its address too now and then; or by 5; or by 15, that of node 0
/// often, which need not say its address.
fn no_user(writer: &mut Writer, number: u8) -> Said {
    let node = writer.any_node();
    let user = writer.user_of(node);
    let no_address = ways::no_address(writer.page.random, writer.n);
    let (node, address) = match number {
        4 => {
            let node = ways::too_high(writer.page.random, writer.n);
            (node, writer.page.random.pick(&[user.address, user.address, no_address, node]))
        }
        5 => (node, no_address),
        _ => {
            let node = writer.page.random.pick(&[0, node]);
            (node, node)
        }
    };
    Said::User(node, User { address, ..user })
}

fn not_a_number(writer: &mut Writer, field: usize) -> Vec<Word> {
    let (words, place) = place_of(writer, field);
    let slot = words[place].0;
    let mut words = bare(words);
    words[place] = no_number(writer.page.random);
    // Only an address can be `all`.
    if slot != Slot::Address && writer.page.random.percent(20) {
        words[place] = b"all".to_vec();
    }
    // A word of the line where its number should stand.
    if writer.page.random.percent(20) {
        words[place] = writer.page.random.pick(&USER_WORDS).into();
    }
    spoil_rest(writer.page.random, &mut words, place + 1);
    words
}

/// A word more than the line takes: of no line, or a number.
fn extra(writer: &mut Writer, name: &str) -> Vec<Word> {
    let words = match name {
        "nodes" => line_with(writer, 0),
        "actions" => line_with(writer, 1),
        _ => line_with(writer, 2),
    };
    let mut words = bare(words);
    let number = writer.page.random.below(70);
    let number = writer.page.number(number);
    let strange = strange_word(writer.page.random);
    let of_runs = Word::from(writer.page.random.pick(&["*", "label", "all", "Hold", "release"]));
    words.push(match writer.page.random.below(3) {
        0 => number,
        1 => strange,
        _ => of_runs,
    });
    let length = words.len();
    spoil_rest(writer.page.random, &mut words, length);
    words
}

/// A user's line that ends with this one of its words where it has no place: after itself, or after a
/// later one.
fn misplaced(writer: &mut Writer, place: usize, twice: bool) -> Vec<Word> {
    let user = User { spell: 1, address: ALL_NODES, fillers: 2, hold: true, period: 3 };
    let node = writer.page.number(0);
    let mut words = vec![name("user"), (Slot::Byte, FIELDS[2], node)];
    let last = USER_WORDS.len() - 1;
    let last =
        writer.page.random.between(if twice { place } else { place + 1 } as u64, last as u64);
    for said in 0..=last as usize {
        let has_place = match said == place {
            true => twice,
            false => said == last as usize || writer.page.random.percent(50),
        };
        if has_place {
            words.extend(writer.spell_setting(&user, said));
        }
    }
    words.extend(writer.spell_setting(&user, place));
    bare(words)
}

/// A text that ends too early.
pub fn wrong_end(random: &mut Random, end: End) -> SettingsCase {
    let n = ways::nodes(random);
    let mut writer = Writer::new(random, n);
    let fault = match end {
        End::Empty | End::MarkAlone => {
            writer.page.marked = end == End::MarkAlone;
            Fault::NoNodesLine
        }
        End::HalfMarkAlone => {
            writer.page.marked = false;
            writer.page.text = MARK[..writer.page.random.between(1, 2) as usize].to_vec();
            writer.page.lines = 1;
            Fault::UnknownWord
        }
        End::BlankAlone => {
            for _ in 0..writer.page.random.between(1, 5) {
                writer.page.blank();
            }
            Fault::NoNodesLine
        }
        End::NodesAlone | End::WithoutUser0 | End::UsersAlone | End::ActionsOfZero => {
            writer.nodes();
            let fault = unfinished(&mut writer, end);
            for _ in 0..writer.page.random.below(3) {
                writer.page.blank();
            }
            fault
        }
    };
    let expected = Some(Err((writer.page.lines, fault)));
    SettingsCase { text: writer.page.text(), expected }
}

/// Puts down what follows the `nodes` line before such an end; says what the fault is.
fn unfinished(writer: &mut Writer, end: End) -> Fault {
    match end {
        End::UsersAlone | End::ActionsOfZero => {
            without_actions(writer, end);
            Fault::NoAction
        }
        End::WithoutUser0 => {
            without_user_0(writer);
            Fault::NoUserLine
        }
        _ => Fault::NoUserLine,
    }
}

/// What follows the `nodes` line of a text that has no line for user 0.
fn without_user_0(writer: &mut Writer) {
    let actions = writer.page.random.pick(&[0, 1, 100]);
    writer.say(Said::Actions(actions));
    for _ in 0..writer.page.random.below(3) {
        let node = writer.page.random.byte(1, writer.n - 1);
        writer.say_user(node);
    }
}

/// What follows the `nodes` line of a text that says no number of actions, or 0 last.
fn without_actions(writer: &mut Writer, end: End) {
    if end == End::ActionsOfZero {
        let count = writer.page.random.below(4);
        writer.some(count);
        writer.say(Said::Actions(0));
    }
    writer.say_user(0);
    for _ in 0..writer.page.random.below(3) {
        let node = writer.any_node();
        writer.say_user(node);
    }
}
