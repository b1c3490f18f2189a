//! Texts made at random: right ones in every style, ones with one wrong line, ones without a plan.
//! Each knows what must be composed of it, from the grammar and not from the model.

pub mod aims;
pub mod spelling;
pub(super) mod wrong;

use super::cases::{and_unplanned, Case, Plan, Way};
use super::page::Page;
use super::random::Random;
use super::ways::{self, names, Field, KINDS};
use crate::bus::{Record, ALL_NODES};
use crate::notation::{self, Fault, Line};
use crate::runfile::{BLOCK, FULL};
use spelling::{any_line, Slot, Word, NAMES};
pub use wrong::{End, Wrong};

pub type TextCase = Case<Expected>;
pub type TextWay = Way<TextPlan>;

/// What must come of a text.
pub struct Expected {
    pub file: Vec<u8>,
    /// Which line says what.
    pub lines: Vec<u8>,
    /// The fault and the number of its line.
    pub fault: Option<(u64, Fault)>,
}

#[derive(Clone, Copy, PartialEq, Eq, Debug)]
pub enum TextPlan {
    Right,
    /// Of just so many actions.
    RightOf(usize),
    /// A few lines, and repeats over many blocks.
    Repeats,
    WrongLine(Wrong),
    WrongEnd(End),
}

impl Plan for TextPlan {
    type Expected = Expected;

    fn ways() -> Vec<TextWay> {
        // Right ones more often than each of the others.
        let mut plans = [TextPlan::Right, TextPlan::Repeats].repeat(8);
        plans.extend([1, 2, 30, 31, 32, 61, 62, 63, 93, 94].map(TextPlan::RightOf));
        plans.extend(Wrong::all().into_iter().map(TextPlan::WrongLine));
        plans.extend(End::all().map(TextPlan::WrongEnd));
        and_unplanned(plans, 1)
    }

    fn make(self, random: &mut Random) -> TextCase {
        match self {
            TextPlan::Right => {
                let actions = match random.below(10) {
                    0..=6 => random.between(1, 100),
                    _ => random.between(100, 800),
                };
                right(random, actions as usize)
            }
            TextPlan::RightOf(actions) => right(random, actions),
            TextPlan::Repeats => repeats(random),
            TextPlan::WrongLine(wrong) => wrong::wrong_line(random, wrong),
            TextPlan::WrongEnd(end) => wrong::wrong_end(random, end),
        }
    }

    fn short(random: &mut Random) -> Vec<u8> {
        let actions = random.between(1, 80) as usize;
        right(random, actions).text
    }

    fn shorter(random: &mut Random) -> Vec<u8> {
        let actions = random.between(1, 20) as usize;
        right(random, actions).text
    }

    fn any_words(random: &mut Random) -> Vec<u8> {
        any_words(random)
    }

    fn keep_small(text: Vec<u8>) -> Vec<u8> {
        keep_small(text)
    }
}

/// A text under way, and the list of actions that it says so far.
pub(super) struct Writer<'a> {
    pub(super) page: Page<'a>,
    pub(super) n: u8,
    /// Which of its lines says what.
    said: Vec<u8>,
    records: Vec<Record>,
}

impl<'a> Writer<'a> {
    fn new(random: &'a mut Random) -> Writer<'a> {
        let n = ways::nodes(random);
        Writer::of(random, n)
    }

    /// Of a run on so many nodes.
    pub(super) fn of(random: &'a mut Random, n: u8) -> Writer<'a> {
        Writer { page: Page::new(random), n, said: Vec::new(), records: Vec::new() }
    }

    /// The line put last says so many actions.
    fn says(&mut self, actions: usize) {
        self.said.extend_from_slice(format!("{} {actions}\n", self.page.lines).as_bytes());
    }

    pub(super) fn nodes(&mut self) {
        self.page.blanks();
        let n = self.page.number(self.n.into());
        self.page.words(&[b"nodes".to_vec(), n]);
        self.says(1);
        self.page.blanks();
    }

    /// One line of an action, so many times.
    pub(super) fn acts(&mut self, record: Record, times: usize) {
        let mut words: Vec<Word> = self.spell(record).into_iter().map(|(_, word)| word).collect();
        if times != 1 || self.page.free && self.page.random.percent(5) {
            words.extend([b"*".to_vec(), self.page.number(times as u64)]);
        }
        self.page.words(&words);
        self.says(times);
        self.records.extend(std::iter::repeat_n(record, times));
        self.page.blanks();
    }

    /// Lines until there are so many actions.
    fn actions(&mut self, count: usize) {
        while self.records.len() < count {
            let left = count - self.records.len();
            let times = match self.page.random.below(20) {
                0 => self.page.random.between(1, left as u64) as usize,
                1..=2 => self.page.random.between(1, left.min(6) as u64) as usize,
                _ => 1,
            };
            let record = self.record();
            self.acts(record, times);
        }
    }

    fn record(&mut self) -> Record {
        let kind = self.page.random.byte(1, KINDS);
        ways::right_record(self.page.random, self.n, kind)
    }

    /// The words of an action's line, each with what it stands for.
    pub(super) fn spell(&mut self, record: Record) -> Vec<(Slot, Word)> {
        let Record { kind, node, address, ack, hold, label, header, data, .. } = record;
        let mut words = vec![(Slot::Name, NAMES[usize::from(kind)].into())];
        if names(kind, Field::Node) {
            words.push((Slot::Byte, self.page.number(node.into())));
        }
        if kind == 1
            || kind == 7 && (address != 0 || self.page.free && self.page.random.percent(50))
        {
            let word = match address {
                ALL_NODES if self.page.random.percent(70) => b"all".to_vec(),
                _ => self.page.number(address.into()),
            };
            words.push((Slot::Address, word));
        }
        if kind == 1 {
            words.push((Slot::Word, self.page.number(header.into())));
            words.push((Slot::Word, self.page.number(data.into())));
            if label != 0 || self.page.free && self.page.random.percent(30) {
                words.push((Slot::Keyword, b"label".to_vec()));
                words.push((Slot::Byte, self.page.number(label.into())));
            }
        }
        if kind == 3 {
            words.push((Slot::Byte, self.page.number(ack.into())));
            if hold == 1 {
                words.push((Slot::Keyword, b"hold".to_vec()));
            }
        }
        words
    }

    /// What follows a fault, now and then: it does not count.
    pub(super) fn anything(&mut self) {
        if self.page.random.percent(60) {
            let more = self.page.random.between(1, 70) as usize;
            self.actions(self.records.len() + more);
        }
        if self.page.random.percent(20) {
            let line = any_line(self.page.random);
            self.page.put(&line);
        }
    }

    fn composes(mut self) -> TextCase {
        let file = ways::file(self.n, &self.records);
        let lines = std::mem::take(&mut self.said);
        TextCase { text: self.page.text(), expected: Some(Expected { file, lines, fault: None }) }
    }

    /// The line put last has this fault: whole blocks before it are out.
    fn faulty(mut self, fault: Fault) -> TextCase {
        let whole = self.records.len() / FULL;
        let mut file = ways::file(self.n, &self.records);
        file.truncate(whole * BLOCK);
        let lines = std::mem::take(&mut self.said);
        let fault = Some((self.page.lines, fault));
        self.anything();
        TextCase { text: self.page.text(), expected: Some(Expected { file, lines, fault }) }
    }
}

fn right(random: &mut Random, actions: usize) -> TextCase {
    let mut writer = Writer::new(random);
    writer.nodes();
    writer.actions(actions);
    writer.composes()
}

fn repeats(random: &mut Random) -> TextCase {
    let mut writer = Writer::new(random);
    writer.nodes();
    for _ in 0..writer.page.random.between(1, 5) {
        let some = writer.page.random.between(1, 40) as usize;
        let many = match writer.page.random.below(10) {
            0 => writer.page.random.between(5000, 60_000),
            _ => writer.page.random.between(1, 3000),
        };
        let record = writer.record();
        let times = writer.page.random.pick(&[1, 30, 31, 32, 61, 62, 63, 310, some, many as usize]);
        writer.acts(record, times);
    }
    writer.composes()
}

/// A digit more may make a repeat of millions: blocks without end are tried elsewhere.
pub(super) fn keep_small(text: Vec<u8>) -> Vec<u8> {
    let large = |line: &[u8]| match notation::read_line(line) {
        Ok(Line::Acts(_, times)) => times > 100_000,
        _ => false,
    };
    let lines = text.split(|&byte| byte == b'\n').filter(|line| !large(line));
    lines.collect::<Vec<_>>().join(&b'\n')
}

fn any_words(random: &mut Random) -> Vec<u8> {
    let mut writer = Writer::new(random);
    if writer.page.random.percent(90) {
        writer.nodes();
    }
    let count = wrong::before(writer.page.random);
    writer.actions(count);
    for _ in 0..writer.page.random.between(1, 6) {
        // An action's name first, most of the time.
        let mut line = any_line(writer.page.random);
        if writer.page.random.percent(80) {
            let mut named = writer.page.random.pick(&NAMES[1..]).as_bytes().to_vec();
            named.push(b' ');
            named.append(&mut line);
            line = named;
        }
        writer.page.put(&line);
    }
    keep_small(writer.page.text())
}
