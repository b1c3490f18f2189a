//! Texts with one wrong line, and texts that end too early.

use super::spelling::{
    any_word, no_number, spell_number, spoil_with, strange_word, stretch, too_large, unknown_word,
    Slot, Word,
};
use super::{Expected, TextCase, Writer};
use crate::bus::Record;
use crate::harness::random::Random;
use crate::harness::ways::{self, KINDS};
use crate::notation::{Fault, LONGEST_LINE, MARK};

/// A line with something wrong in it.
#[derive(Clone, Copy, PartialEq, Eq, Debug)]
pub enum Wrong {
    Long(usize),
    UnknownWord,
    /// The first line begins with a second mark, or with bytes that are nearly one.
    SecondMark,
    HalfMark,
    /// A mark stands before the name or a field.
    MarkInside,
    /// Of the action of this kind; 0 is the `nodes` line.
    Missing(u8),
    NotANumber(u8),
    TooLarge(u8),
    Extra(u8),
    /// `label` and a number in the place of a field, once more, or in the line of another kind.
    LabelForField,
    SecondLabel,
    LabelOfOther(u8),
    /// `label` and no number, but a repeat.
    RepeatForLabel,
    RepeatWithoutCount,
    RepeatNotANumber,
    RepeatTooLarge,
    RepeatOfZero,
    ActionBeforeNodes,
    SecondNodes,
    /// n refused by number 1.
    Nodes(u8),
    /// Refused by number 4, 5, 13, 15, 6.
    Node(u8),
    Address(u8),
    Label(u8),
    ToItself,
    Ack(u8),
}

impl Wrong {
    pub fn all() -> Vec<Wrong> {
        let mut all = vec![Wrong::UnknownWord; 4];
        all.extend([256, 257, 258, 511, 512, 513, 5000, 70_000].map(Wrong::Long));
        all.extend([Wrong::SecondMark, Wrong::HalfMark, Wrong::MarkInside, Wrong::MarkInside]);
        // Kinds with fields, once for each; `change` has none that can be missing.
        all.extend([0, 1, 1, 1, 1, 1, 2, 3, 3, 4, 11, 12].map(Wrong::Missing));
        all.extend([0, 1, 1, 1, 1, 1, 2, 3, 3, 4, 7, 11, 12].map(Wrong::NotANumber));
        all.extend([0, 1, 1, 1, 1, 1, 2, 3, 3, 4, 7, 11, 12].map(Wrong::TooLarge));
        all.extend([0, 1, 1, 2, 3, 4, 5, 6, 7, 8, 9, 10, 11, 12].map(Wrong::Extra));
        all.extend([0, 2, 3, 4, 5, 6, 7, 8, 9, 10, 11, 12].map(Wrong::LabelOfOther));
        all.extend([
            Wrong::LabelForField,
            Wrong::SecondLabel,
            Wrong::RepeatForLabel,
            Wrong::RepeatWithoutCount,
            Wrong::RepeatNotANumber,
            Wrong::RepeatTooLarge,
            Wrong::RepeatOfZero,
            Wrong::ActionBeforeNodes,
            Wrong::SecondNodes,
        ]);
        all.extend([0, 1, 64, 65, 128, 255].map(Wrong::Nodes));
        all.extend([1, 1, 1, 2, 3, 4, 11, 12].map(Wrong::Node));
        all.extend([1, 7].map(Wrong::Address));
        all.extend([64, 65, 128, 255].map(Wrong::Label));
        all.extend([Wrong::ToItself; 4]);
        all.extend([16, 17, 255].map(Wrong::Ack));
        all
    }
}

/// A text that ends too early.
#[derive(Clone, Copy, PartialEq, Eq, Debug)]
pub enum End {
    Empty,
    MarkAlone,
    HalfMarkAlone,
    BlankAlone,
    NodesAlone,
}

impl End {
    pub fn all() -> [End; 5] {
        [End::Empty, End::MarkAlone, End::HalfMarkAlone, End::BlankAlone, End::NodesAlone]
    }
}

/// How many actions stand before the wrong line: around the ends of blocks often.
pub fn before(random: &mut Random) -> usize {
    let any = random.below(150) as usize;
    random.pick(&[0, 0, 1, 2, 29, 30, 31, 32, 61, 62, 63, 93, any, any])
}

pub fn spoil_rest(random: &mut Random, words: &mut Vec<Word>, from: usize) {
    spoil_with(random, words, from, any_word);
}

/// A text with this line in it.
pub fn wrong_line(random: &mut Random, wrong: Wrong) -> TextCase {
    let count = before(random);
    let mut writer = Writer::new(random);
    let fault = put_line(&mut writer, wrong, |writer| {
        writer.nodes();
        writer.actions(count);
    });
    writer.faulty(fault)
}

/// Puts this line down, after the lines before it or as the first one; says what its fault is.
pub fn put_line(
    writer: &mut Writer,
    wrong: Wrong,
    lines_before: impl FnOnce(&mut Writer),
) -> Fault {
    if matches!(wrong, Wrong::SecondMark | Wrong::HalfMark) {
        writer.page.marked = wrong == Wrong::SecondMark;
        writer.page.no_mark();
        return Fault::UnknownWord;
    }
    match is_first(writer, wrong) {
        true => writer.page.blanks(),
        false => lines_before(writer),
    }
    if let Wrong::Long(length) = wrong {
        writer.page.long(length, &[b"#", b"pass", b"unknown", b"clock 0 # ", b""]);
        return Fault::LongLine;
    }
    put_words(writer, |writer| wrong_words(writer, wrong))
}

/// Puts down the words of a wrong line that is not too long; those of a refused one stretched now and
/// then.
pub fn put_words(writer: &mut Writer, make: impl Fn(&mut Writer) -> (Vec<Word>, Fault)) -> Fault {
    let (words, fault) = loop {
        let (words, fault) = make(writer);
        if words.join(&b' ').len() <= LONGEST_LINE {
            break (words, fault);
        }
    };
    match fault {
        Fault::Refused(_) if writer.page.random.percent(25) => {
            let line = stretch(writer.page.random, &words);
            writer.page.put(&line);
        }
        _ => writer.page.words(&words),
    }
    fault
}

/// Whether the fault is that of the first line that is not blank.
fn is_first(writer: &mut Writer, wrong: Wrong) -> bool {
    match wrong {
        Wrong::ActionBeforeNodes | Wrong::Nodes(_) => true,
        Wrong::Missing(0) | Wrong::NotANumber(0) | Wrong::TooLarge(0) | Wrong::Extra(0) => {
            writer.page.random.percent(70)
        }
        Wrong::Long(_) => writer.page.random.percent(30),
        // At the very start it would be skipped.
        Wrong::MarkInside => false,
        // A line's own fault is looked at before its place.
        Wrong::SecondNodes
        | Wrong::Node(_)
        | Wrong::Address(_)
        | Wrong::Label(_)
        | Wrong::ToItself
        | Wrong::Ack(_) => false,
        _ => writer.page.random.percent(10),
    }
}

/// The words of a right line of this kind, 0 for `nodes`, each with what it stands for.
pub fn right_words(writer: &mut Writer, kind: u8) -> Vec<(Slot, Word)> {
    if kind == 0 {
        let n = writer.page.random.byte(2, 63);
        return vec![(Slot::Name, b"nodes".to_vec()), (Slot::Byte, writer.page.number(n.into()))];
    }
    let mut record = ways::right_record(writer.page.random, writer.n, kind);
    // `change` with its address.
    if kind == 7 {
        record.address = 1;
    }
    writer.spell(record)
}

pub fn bare(words: Vec<(Slot, Word)>) -> Vec<Word> {
    words.into_iter().map(|(_, word)| word).collect()
}

/// The words of a right request without its label, so many of them, and then `label`.
fn up_to_label(writer: &mut Writer, count: usize) -> Vec<Word> {
    let mut words = bare(right_words(writer, 1));
    words.truncate(count);
    words.push(b"label".to_vec());
    words
}

/// The places of the fields that have to be there: not the name, not `hold` or `label`.
fn places(words: &[(Slot, Word)]) -> Vec<usize> {
    let is_field = |place: &usize| !matches!(words[*place].0, Slot::Name | Slot::Keyword);
    (0..words.len()).filter(is_field).collect()
}

fn wrong_words(writer: &mut Writer, wrong: Wrong) -> (Vec<Word>, Fault) {
    match wrong {
        Wrong::Long(_) | Wrong::SecondMark | Wrong::HalfMark => unreachable!("not made of words"),
        Wrong::UnknownWord => {
            let mut words = vec![unknown_word(writer.page.random)];
            spoil_rest(writer.page.random, &mut words, 1);
            (words, Fault::UnknownWord)
        }
        Wrong::MarkInside => {
            let kind = writer.page.random.pick(&[1, 2, 3, 4, 5, 7, 11, 12]);
            let words = right_words(writer, kind);
            let mut places = places(&words);
            places.push(0);
            let place = writer.page.random.pick(&places);
            let mut words = bare(words);
            words[place] = [MARK, &words[place]].concat();
            (words, if place == 0 { Fault::UnknownWord } else { Fault::NotANumber })
        }
        Wrong::Missing(kind) => {
            let words = right_words(writer, kind);
            let first_missing = writer.page.random.pick(&places(&words));
            let mut words = bare(words);
            words.truncate(first_missing);
            (words, Fault::MissingField)
        }
        Wrong::NotANumber(kind) => (not_a_number(writer, kind), Fault::NotANumber),
        Wrong::TooLarge(kind) => {
            let words = right_words(writer, kind);
            let place = writer.page.random.pick(&places(&words));
            let slot = words[place].0;
            let mut words = bare(words);
            words[place] = too_large(writer.page.random, slot);
            spoil_rest(writer.page.random, &mut words, place + 1);
            (words, Fault::TooLarge)
        }
        Wrong::Extra(kind) => (extra(writer, kind), Fault::ExtraField),
        Wrong::LabelForField => {
            let before = writer.page.random.between(1, 4) as usize;
            let mut words = up_to_label(writer, before);
            words.push(b"7".to_vec());
            (words, Fault::NotANumber)
        }
        Wrong::SecondLabel => {
            let mut words = up_to_label(writer, 5);
            words.extend([b"7".to_vec(), b"label".to_vec(), b"8".to_vec()]);
            (words, Fault::ExtraField)
        }
        Wrong::LabelOfOther(kind) => {
            let mut words = bare(right_words(writer, kind));
            words.extend([b"label".to_vec(), b"7".to_vec()]);
            (words, Fault::ExtraField)
        }
        Wrong::RepeatForLabel => {
            let mut words = up_to_label(writer, 5);
            words.extend([b"*".to_vec(), b"2".to_vec()]);
            (words, Fault::NotANumber)
        }
        Wrong::RepeatWithoutCount => (repeat(writer, None), Fault::MissingField),
        Wrong::RepeatNotANumber => {
            let count = no_number(writer.page.random);
            (repeat(writer, Some(count)), Fault::NotANumber)
        }
        Wrong::RepeatTooLarge => {
            let count = too_large(writer.page.random, Slot::Word);
            (repeat(writer, Some(count)), Fault::TooLarge)
        }
        Wrong::RepeatOfZero => {
            let count = spell_number(writer.page.random, 0);
            (repeat(writer, Some(count)), Fault::RepeatOfZero)
        }
        Wrong::ActionBeforeNodes => {
            let kind = writer.page.random.byte(1, KINDS);
            (bare(right_words(writer, kind)), Fault::NoNodesLine)
        }
        Wrong::SecondNodes => {
            let any = writer.page.random.byte(0, 255);
            let n = writer.page.random.pick(&[writer.n, any]);
            (vec![b"nodes".to_vec(), writer.page.number(n.into())], Fault::NodesAgain)
        }
        Wrong::Nodes(n) => {
            (vec![b"nodes".to_vec(), writer.page.number(n.into())], Fault::Refused(1))
        }
        Wrong::Node(kind) => (node_too_high(writer, kind), Fault::Refused(4)),
        Wrong::Address(kind) => {
            let mut record = ways::right_record(writer.page.random, writer.n, kind);
            record.address = ways::no_address(writer.page.random, writer.n);
            // The number after 5 too, now and then.
            if kind == 1 && writer.page.random.percent(50) {
                record.label = ways::no_label(writer.page.random);
            }
            (refused(writer, record), Fault::Refused(5))
        }
        Wrong::Label(label) => {
            let mut record = ways::right_record(writer.page.random, writer.n, 1);
            // The number after 13 too, now and then.
            if writer.page.random.percent(50) {
                record.address = record.node;
            }
            (refused(writer, Record { label, ..record }), Fault::Refused(13))
        }
        Wrong::ToItself => {
            let record = ways::right_record(writer.page.random, writer.n, 1);
            (refused(writer, Record { address: record.node, ..record }), Fault::Refused(15))
        }
        Wrong::Ack(ack) => {
            let record = ways::right_record(writer.page.random, writer.n, 3);
            (refused(writer, Record { ack, ..record }), Fault::Refused(6))
        }
    }
}

fn not_a_number(writer: &mut Writer, kind: u8) -> Vec<Word> {
    let words = right_words(writer, kind);
    let place = writer.page.random.pick(&places(&words));
    let slot = words[place].0;
    let mut words = bare(words);
    words[place] = no_number(writer.page.random);
    // `change * ..` is a repeat.
    if kind == 7 && words[place] == b"*" {
        words[place] = b"change".to_vec();
    }
    // Only an address can be `all`.
    if slot != Slot::Address && writer.page.random.percent(20) {
        words[place] = b"all".to_vec();
    }
    spoil_rest(writer.page.random, &mut words, place + 1);
    words
}

/// A word more than the line takes, after its fields or after its repeat.
fn extra(writer: &mut Writer, kind: u8) -> Vec<Word> {
    let mut words = bare(right_words(writer, kind));
    // What would be no extra word.
    let keyword: &[u8] = match (kind, words.len()) {
        (1, 5) => b"label",
        (3, 3) => b"hold",
        _ => b"",
    };
    let may_repeat = kind != 0;
    if may_repeat && writer.page.random.percent(40) {
        words.extend([b"*".to_vec(), b"2".to_vec(), any_word(writer.page.random)]);
    } else if writer.page.random.percent(40) {
        words.push(strange_word(writer.page.random));
    } else {
        let mut word = any_word(writer.page.random);
        while may_repeat && word == b"*" || word == keyword {
            word = any_word(writer.page.random);
        }
        words.push(word);
    }
    let length = words.len();
    spoil_rest(writer.page.random, &mut words, length);
    words
}

/// A right action with `*` and this in the place of the count.
fn repeat(writer: &mut Writer, count: Option<Word>) -> Vec<Word> {
    let kind = writer.page.random.byte(1, KINDS);
    let mut words = bare(right_words(writer, kind));
    words.push(b"*".to_vec());
    if let Some(count) = count {
        words.push(count);
        let length = words.len();
        spoil_rest(writer.page.random, &mut words, length);
    }
    words
}

fn node_too_high(writer: &mut Writer, kind: u8) -> Vec<Word> {
    let mut record = ways::right_record(writer.page.random, writer.n, kind);
    record.node = ways::too_high(writer.page.random, writer.n);
    // The numbers after 4 too, now and then.
    if writer.page.random.percent(50) {
        match kind {
            1 => {
                let no_address = ways::no_address(writer.page.random, writer.n);
                record.address = writer.page.random.pick(&[no_address, record.node]);
                record.label = ways::no_label(writer.page.random);
            }
            3 => record.ack = writer.page.random.byte(16, 255),
            _ => (),
        }
    }
    refused(writer, record)
}

/// The words of an action that the writer refuses, now and then repeated.
fn refused(writer: &mut Writer, record: Record) -> Vec<Word> {
    let mut words = bare(writer.spell(record));
    if writer.page.random.percent(25) {
        words.extend([b"*".to_vec(), b"100".to_vec()]);
    }
    words
}

/// A text that ends too early.
pub fn wrong_end(random: &mut Random, end: End) -> TextCase {
    let mut writer = Writer::new(random);
    let fault = put_end(&mut writer, end);
    let fault = Some((writer.page.lines, fault));
    let lines = std::mem::take(&mut writer.said);
    TextCase {
        text: writer.page.text(),
        expected: Some(Expected { file: Vec::new(), lines, fault }),
    }
}

/// Puts down what there is before such an end; says what the fault is.
pub fn put_end(writer: &mut Writer, end: End) -> Fault {
    match end {
        End::Empty | End::MarkAlone => {
            writer.page.marked = end == End::MarkAlone;
            Fault::NoNodesLine
        }
        End::HalfMarkAlone => {
            writer.page.marked = false;
            writer.page.text = MARK[..writer.page.random.between(1, 2) as usize].to_vec();
            writer.page.lines = 1;
            Fault::UnknownWord
        }
        End::BlankAlone => {
            for _ in 0..writer.page.random.between(1, 5) {
                writer.page.blank();
            }
            Fault::NoNodesLine
        }
        End::NodesAlone => {
            writer.nodes();
            for _ in 0..writer.page.random.below(3) {
                writer.page.blank();
            }
            Fault::NoAction
        }
    }
}
