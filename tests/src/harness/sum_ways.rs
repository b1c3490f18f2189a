//! The ways in which files are made for `compare-sums`: those of `compare` and `fuzz`, one wrong action
//! at each place of a block, and blocks that try the sums. Their actions need not be open.

use super::fuzz;
use super::random::Random;
use super::ways::{self, End, Way, KINDS};
use crate::bus::{Record, ALL_NODES};
use crate::runfile::{FIRST_ACTION, FULL, RECORD};

/// "modulo 65,521"
pub const MODULUS: u64 = 65_521;

/// The bytes times their places from 1, if the first of them is byte `first` of its block.
pub fn weighted(bytes: &[u8], first: usize) -> u64 {
    let weights = first as u64 + 1..;
    bytes.iter().zip(weights).map(|(&byte, weight)| u64::from(byte) * weight).sum()
}

/// Where an action stands in its block.
#[derive(Clone, Copy, PartialEq, Eq, Debug)]
pub enum Place {
    First,
    Middle,
    Last,
}

impl Place {
    pub const ALL: [Place; 3] = [Place::First, Place::Middle, Place::Last];

    pub fn words(self) -> &'static str {
        match self {
            Place::First => "the first",
            Place::Middle => "a middle",
            Place::Last => "the last",
        }
    }

    /// Some such place in a block of so many actions, at least three.
    fn some(self, random: &mut Random, count: usize) -> usize {
        match self {
            Place::First => 0,
            Place::Middle => random.between(1, count as u64 - 2) as usize,
            Place::Last => count - 1,
        }
    }
}

#[derive(Clone, Copy, PartialEq, Eq, Debug)]
pub enum SumWay {
    /// As for `compare`.
    Made(Way),
    /// The wrong action of such a file, at this place of a block.
    Wrong(Way, Place),
    /// As for `fuzz`.
    Unplanned,
    /// So many actions with right fields.
    Right(usize),
    /// So many requests with every field as large as it may be.
    Largest(usize),
    /// A block of so many actions, all of their bytes this one.
    Filled { count: usize, byte: u8 },
    /// A block one of whose sums is just this.
    Reaching(u64),
}

impl SumWay {
    /// Files take these families in turn, and the ways of each in turn.
    pub fn families() -> [Vec<SumWay>; 4] {
        let made = Way::all().into_iter().map(SumWay::Made).collect();
        let wrong = Way::all().into_iter().filter(|&way| has_wrong_action(way));
        let wrong = wrong.flat_map(|way| Place::ALL.map(|place| SumWay::Wrong(way, place)));
        [made, wrong.collect(), vec![SumWay::Unplanned], SumWay::trying()]
    }

    /// Those that try the sums.
    fn trying() -> Vec<SumWay> {
        let mut ways = Vec::new();
        ways.extend([1, 2, 3, 30, 31, 32, 61, 62, 63, 93, 8000].map(SumWay::Right));
        ways.extend([1, 2, 31, 62].map(SumWay::Largest));
        for count in [1, 2, 16, 30, 31] {
            ways.extend([0, 1, 5, 12, 13, 254, 255].map(|byte| SumWay::Filled { count, byte }));
        }
        ways.extend([0, 1, 60_001, MODULUS - 1].map(SumWay::Reaching));
        ways
    }

    /// Makes a file in this way, and says how its sums must end.
    pub fn make(self, random: &mut Random) -> (Vec<u8>, End) {
        match self {
            SumWay::Made(way) => {
                let case = way.make(random);
                let end = case.end_unplayed();
                (case.bytes, end)
            }
            SumWay::Wrong(way, place) => wrong(random, way, place),
            SumWay::Unplanned => (fuzz::make(random), End::Either),
            SumWay::Right(count) => {
                let n = ways::nodes(random);
                done(n, &right_records(random, n, count))
            }
            SumWay::Largest(count) => done(63, &vec![LARGEST; count]),
            SumWay::Filled { count, byte } => filled(random, count, byte),
            SumWay::Reaching(sum) => reaching(random, sum),
        }
    }
}

/// The largest request there is, of 63 nodes.
const LARGEST: Record = Record {
    kind: 1,
    node: 62,
    address: ALL_NODES,
    ack: 0,
    hold: 0,
    label: 63,
    zeros: [0; 2],
    header: u32::MAX,
    data: u32::MAX,
};

fn has_wrong_action(way: Way) -> bool {
    !matches!(way, Way::Open | Way::OpenOf(_) | Way::Closed(_) | Way::Damaged(_))
}

/// Actions of all kinds with right fields; nearly all are closed.
fn right_records(random: &mut Random, n: u8, count: usize) -> Vec<Record> {
    let one = |_| {
        let kind = random.byte(1, KINDS);
        ways::right_record(random, n, kind)
    };
    (0..count).map(one).collect()
}

/// The actions of some full blocks, or none.
fn full_blocks(random: &mut Random, n: u8) -> Vec<Record> {
    let blocks = random.below(3) as usize;
    right_records(random, n, FULL * blocks)
}

fn done(n: u8, records: &[Record]) -> (Vec<u8>, End) {
    (ways::file(n, records), End::Done { accepted: records.len() })
}

/// Some blocks, and in the one after them the wrong action of a file made in this way.
fn wrong(random: &mut Random, way: Way, place: Place) -> (Vec<u8>, End) {
    let case = way.make(random);
    let End::Refused { accepted, number } = case.end else {
        panic!("{way}: no wrong action");
    };
    let wrong = case.records[accepted];
    let mut records = full_blocks(random, case.n);
    let short = random.between(3, 30) as usize;
    let count = random.pick(&[short, FULL]);
    let accepted = records.len() + place.some(random, count);
    records.extend(right_records(random, case.n, count));
    records[accepted] = wrong;
    // A block after it, which nobody comes to.
    if count == FULL && random.percent(50) {
        records.extend([wrong; 2]);
    }
    (ways::file(case.n, &records), End::Refused { accepted, number })
}

/// Some blocks, and after them one of this byte: its first action is refused.
fn filled(random: &mut Random, count: usize, byte: u8) -> (Vec<u8>, End) {
    let n = ways::nodes(random);
    let mut records = full_blocks(random, n);
    let accepted = records.len();
    records.extend(vec![Record::from_bytes(&[byte; RECORD]); count]);
    // No kind, or one that does not name all fields.
    let number = if (1..=KINDS).contains(&byte) { 3 } else { 2 };
    (ways::file(n, &records), End::Refused { accepted, number })
}

/// Some blocks, and after them one in which a request makes its sum this one; not one of the first
/// seven actions, which are too near the head to reach every sum.
fn reaching(random: &mut Random, sum: u64) -> (Vec<u8>, End) {
    let n = ways::nodes(random);
    let mut records = full_blocks(random, n);
    let place = random.between(7, 30) as usize;
    let before = right_records(random, n, place);
    let bytes: Vec<u8> = before.iter().flat_map(Record::to_bytes).collect();
    let sum_before = weighted(&bytes, FIRST_ACTION);
    let request = loop {
        let (header, data) = (random.draw() as u32, random.draw() as u32);
        let request = Record { header, data, ..ways::right_record(random, n, 1) };
        let own = weighted(&request.to_bytes(), FIRST_ACTION + RECORD * place);
        if (sum_before + own) % MODULUS == sum {
            break request;
        }
    };
    records.extend(before);
    records.push(request);
    let after = random.below((FULL - place) as u64) as usize;
    records.extend(right_records(random, n, after));
    done(n, &records)
}
