//! Texts made at random, whatever their grammar: by one of its plans, or without a plan.

use std::fmt;
use std::path::Path;

use super::child::{self, Input};
use super::random::Random;
use crate::plain::{Complaint, Fault, MARK};

/// A text, and what must come of it; None without a plan.
pub struct Case<T> {
    pub text: Vec<u8>,
    pub expected: Option<T>,
}

/// What is read of a text: what it says, or the fault and the number of its line.
pub type Reading<T> = Result<T, (u64, Fault)>;

impl<T: PartialEq> Case<Reading<T>> {
    /// The model's own reading is the one that the plan gives; `shown` of it is printed if not.
    pub fn check<S: fmt::Debug>(
        &self,
        read: &Result<T, Complaint>,
        shown: impl Fn(&T) -> S,
    ) -> Result<(), String> {
        let answer = read.as_ref().map_err(|complaint| (complaint.line, complaint.flaw.fault));
        match self.expected.as_ref().map(|expected| expected.as_ref().map_err(|&fault| fault)) {
            Some(expected) if expected != answer => {
                let (answer, expected) = (answer.map(&shown), expected.map(&shown));
                Err(format!("the MODEL reads {answer:?}, and should {expected:?}"))
            }
            _ => Ok(()),
        }
    }
}

/// The plans for texts of one grammar, and what it gives for those without one.
pub trait Plan: Copy + fmt::Debug {
    type Expected;

    /// All ways, some of them more often.
    fn ways() -> Vec<Way<Self>>;

    fn make(self, random: &mut Random) -> Case<Self::Expected>;

    /// A right text that is to be altered.
    fn short(random: &mut Random) -> Vec<u8>;

    /// One that is to be put into UTF-16.
    fn shorter(random: &mut Random) -> Vec<u8> {
        Self::short(random)
    }

    /// Words of the grammar and others, in any order.
    fn any_words(random: &mut Random) -> Vec<u8>;

    /// An altered text without what nobody waits for.
    fn keep_small(text: Vec<u8>) -> Vec<u8> {
        text
    }
}

/// How a text is made.
#[derive(Clone, Copy, PartialEq, Eq)]
pub enum Way<P> {
    Planned(P),
    Unplanned(Unplanned),
}

#[derive(Clone, Copy, PartialEq, Eq, Debug)]
pub enum Unplanned {
    /// A right text with some bytes altered.
    Mutated,
    /// Words of the grammar and others, in any order.
    AnyWords,
    /// A right text in UTF-16.
    Wide,
    AnyBytes,
}

/// The name of the plan, or of what stands in its place.
impl<P: fmt::Debug> fmt::Debug for Way<P> {
    fn fmt(&self, out: &mut fmt::Formatter<'_>) -> fmt::Result {
        match self {
            Way::Planned(plan) => plan.fmt(out),
            Way::Unplanned(unplanned) => unplanned.fmt(out),
        }
    }
}

/// The ways of these plans, and then those without one: so many times in UTF-16.
pub fn and_unplanned<P: Copy>(plans: impl IntoIterator<Item = P>, wide: usize) -> Vec<Way<P>> {
    let altered = [Unplanned::Mutated, Unplanned::AnyWords].repeat(6);
    let bytes = [Unplanned::Wide].repeat(wide).into_iter().chain([Unplanned::AnyBytes]);
    let unplanned = altered.into_iter().chain(bytes).map(Way::Unplanned);
    plans.into_iter().map(Way::Planned).chain(unplanned).collect()
}

impl<P: Plan> Way<P> {
    pub fn all() -> Vec<Way<P>> {
        P::ways()
    }

    pub fn make(self, random: &mut Random) -> Case<P::Expected> {
        let text = match self {
            Way::Planned(plan) => return plan.make(random),
            Way::Unplanned(Unplanned::Mutated) => {
                let mut text = P::short(random);
                alter(random, &mut text);
                P::keep_small(text)
            }
            Way::Unplanned(Unplanned::AnyWords) => P::any_words(random),
            Way::Unplanned(Unplanned::Wide) => {
                let text = P::shorter(random);
                widen(random, &text)
            }
            Way::Unplanned(Unplanned::AnyBytes) => {
                let length = random.below(2000);
                (0..length).map(|_| random.draw() as u8).collect()
            }
        };
        Case { text, expected: None }
    }
}

/// The text with this number, of those that are made from one seed: the ways take turns.
pub struct Numbered<P: Plan> {
    seed: u64,
    index: u64,
    /// How often each way was taken before.
    turn: u64,
    way: Way<P>,
    pub case: Case<P::Expected>,
}

impl<P: Plan> Numbered<P> {
    pub fn make(seed: u64, index: u64, random: &mut Random) -> Numbered<P> {
        let ways = Way::<P>::all();
        let way = ways[index as usize % ways.len()];
        let turn = index / ways.len() as u64;
        Numbered { seed, index, turn, way, case: way.make(random) }
    }

    /// The text for a program. In every turn other ways go through a pipe.
    pub fn input<'a>(&'a self, path: &'a Path, random: &mut Random) -> Result<Input<'a>, String> {
        child::input(&self.case.text, self.index + self.turn, path, random)
    }

    /// What is said of a text of this sort on which something went wrong: why, where it is kept, and
    /// how the subcommand makes it again.
    pub fn failure(&self, sort: &str, subcommand: &str, why: String) -> String {
        let Numbered { seed, index, way, .. } = self;
        let name = format!("model-seed-{seed}-{sort}-{index}.txt");
        let kept = child::keep(&name, &self.case.text);
        format!(
            "seed {seed}, {sort} {index} ({way:?}): {why}\n{kept}\n\
             again: model {subcommand} --seed {seed} --only {index}"
        )
    }
}

/// Alters some bytes of a text.
fn alter(random: &mut Random, text: &mut Vec<u8>) {
    for _ in 0..random.between(1, 4) {
        if text.is_empty() {
            break;
        }
        let place = random.below(text.len() as u64) as usize;
        let any = random.draw() as u8;
        let byte = random.pick(&[b' ', b'\n', b'#', b'*', b'0', b'9', b'x', b'\r', b'\t', any]);
        match random.below(7) {
            0..=1 => text[place] = byte,
            2 => text.insert(place, byte),
            3 => {
                text.remove(place);
            }
            4 => text[place] ^= 1 << random.below(8),
            5 => {
                let piece = random.pick(&[MARK, &MARK[..2], b"\xc2\xa0", b"\0"]);
                text.splice(place..place, piece.iter().copied());
            }
            _ => text.truncate(place),
        }
    }
}

/// Two bytes for each of a text, the one or the other first, with the mark of that or without.
fn widen(random: &mut Random, text: &[u8]) -> Vec<u8> {
    let low_first = random.percent(50);
    let pair = |&byte| if low_first { [byte, 0] } else { [0, byte] };
    let mut wide = Vec::new();
    if random.percent(70) {
        wide.extend(if low_first { [0xff, 0xfe] } else { [0xfe, 0xff] });
    }
    wide.extend(text.iter().flat_map(pair));
    wide
}
