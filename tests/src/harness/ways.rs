//! The ways in which files are made: runs of open actions, runs with one wrong action, damaged
//! files. Each way knows how the file must end, from the documents and not from the model.

mod closed;
mod damage;
mod itself;

use std::fmt;

use super::driver::{Driver, Style};
use super::random::Random;
use crate::bus::{Action, Bus, Packet, Record, ALL_NODES};
use crate::runfile::{self, BLOCK, FULL};
pub use closed::{at_rest, kept_closed, phase_name, signal_name, Closed, KEPT_CLOSED};
pub use damage::Damage;
pub use itself::ToItself;

/// Numbers that can end a file whose actions are looked at and not played.
pub const UNPLAYED: [u8; 12] = [1, 2, 3, 4, 5, 6, 8, 9, 10, 11, 13, 15];

/// "Number 2 now means a kind not 1–12."
pub const KINDS: u8 = 12;

/// A file, the list of actions behind it, and how it must end.
pub struct Case {
    pub n: u8,
    pub records: Vec<Record>,
    pub bytes: Vec<u8>,
    pub end: End,
}

#[derive(Clone, Copy, PartialEq, Eq, Debug)]
pub enum End {
    Done {
        accepted: usize,
    },
    Refused {
        accepted: usize,
        number: u8,
    },
    /// Damage without a plan.
    Either,
}

impl Case {
    /// How it must end where actions are looked at and not played: 7 is passed over.
    pub fn end_unplayed(&self) -> End {
        match self.end {
            End::Refused { number: 7, .. } => End::Done { accepted: self.records.len() },
            end => end,
        }
    }
}

impl End {
    /// Whether the MODEL's text ends like this.
    pub fn of(self, text: &[u8]) -> Result<(), String> {
        let last = match self {
            End::Done { accepted } => format!("done {accepted}"),
            End::Refused { accepted, number } => format!("refused {accepted} {number}"),
            End::Either => return Ok(()),
        };
        if text.ends_with(format!("{last}\n").as_bytes()) {
            return Ok(());
        }
        let text = String::from_utf8_lossy(text);
        let line = text.lines().next_back().unwrap_or_default();
        Err(format!("the MODEL ends with '{line}', and should with '{last}'"))
    }
}

#[derive(Clone, Copy, PartialEq, Eq, Debug)]
pub enum Field {
    Node,
    Address,
    Ack,
    Hold,
    Label,
    Zero(usize),
    Header,
    Data,
}

const FIELDS: [Field; 9] = [
    Field::Node,
    Field::Address,
    Field::Ack,
    Field::Hold,
    Field::Label,
    Field::Zero(0),
    Field::Zero(1),
    Field::Header,
    Field::Data,
];

/// Does the kind name the field?
pub(super) fn names(kind: u8, field: Field) -> bool {
    match field {
        Field::Node => matches!(kind, 1..=4 | 11 | 12),
        Field::Address => kind == 1 || kind == 7,
        Field::Ack | Field::Hold => kind == 3,
        Field::Label | Field::Header | Field::Data => kind == 1,
        Field::Zero(_) => false,
    }
}

#[derive(Clone, Copy, PartialEq, Eq, Debug)]
pub enum Way {
    /// A run of open actions.
    Open,
    /// One of just so many.
    OpenOf(usize),
    /// 2
    Kind(u8),
    /// 3
    NotNamed {
        kind: u8,
        field: Field,
    },
    /// 4
    NodeTooHigh {
        kind: u8,
    },
    /// 5
    NoAddress {
        kind: u8,
    },
    /// 13
    Label(u8),
    /// 15, and those before it
    ToItself(ToItself),
    /// 6
    Ack(u8),
    Hold(u8),
    /// 7
    Closed(Closed),
    Damaged(Damage),
}

impl fmt::Display for Way {
    fn fmt(&self, out: &mut fmt::Formatter<'_>) -> fmt::Result {
        write!(out, "{self:?}")
    }
}

impl Way {
    /// Every way there is, `Open` first.
    pub fn all() -> Vec<Way> {
        let mut ways = vec![Way::Open];
        ways.extend([1, 2, 30, 31, 32, 61, 62, 63, 93, 94].map(Way::OpenOf));
        ways.extend([0, 13, 14, 128, 255].map(Way::Kind));
        for kind in 1..=KINDS {
            let fields = FIELDS.into_iter().filter(|&field| !names(kind, field));
            ways.extend(fields.map(|field| Way::NotNamed { kind, field }));
        }
        ways.extend([1, 2, 3, 4, 11, 12].map(|kind| Way::NodeTooHigh { kind }));
        ways.extend([1, 7].map(|kind| Way::NoAddress { kind }));
        ways.extend([64, 65, 127, 128, 255].map(Way::Label));
        ways.extend(ToItself::ALL.map(Way::ToItself));
        ways.extend([16, 17, 128, 255].map(Way::Ack));
        ways.extend([2, 3, 128, 255].map(Way::Hold));
        ways.extend(Closed::all().into_iter().map(Way::Closed));
        ways.extend(Damage::all().into_iter().map(Way::Damaged));
        ways
    }

    /// What a file made in this way aims at.
    pub fn aim(self) -> String {
        match self {
            Way::Open => "runs of open actions".into(),
            Way::OpenOf(_) => "runs of open actions, block boundaries".into(),
            Way::Kind(kind) => format!("refusal 2, kind {kind}"),
            Way::NotNamed { kind, .. } => format!("refusal 3, kind {kind}"),
            Way::NodeTooHigh { kind } => format!("refusal 4, kind {kind}"),
            Way::NoAddress { kind } => format!("refusal 5, kind {kind}"),
            Way::Label(_) => "refusal 13".into(),
            Way::ToItself(to_itself) => to_itself.aim().into(),
            Way::Ack(_) | Way::Hold(_) => "refusal 6".into(),
            Way::Closed(closed) => format!("refusal 7, {}", closed.aim()),
            Way::Damaged(_) => "damaged files".into(),
        }
    }

    /// Makes a file in this way.
    pub fn make(self, random: &mut Random) -> Case {
        match self {
            Way::Open => {
                let n = nodes(random);
                let actions = match random.below(20) {
                    0..=9 => random.between(1, 200),
                    10..=17 => random.between(200, 1500),
                    _ => random.between(1500, 6000),
                };
                open_run(random, n, actions as usize)
            }
            Way::OpenOf(actions) => {
                let n = nodes(random);
                open_run(random, n, actions)
            }
            Way::Kind(kind) => wrong_record(random, 2, |random, n| {
                let any = any_record(random, n);
                let record = random.pick(&[any, Record::default()]);
                Record { kind, ..record }
            }),
            Way::NotNamed { kind, field } => wrong_record(random, 3, |random, n| {
                let mut record = right_record(random, n, kind);
                // The numbers after 3 too, now and then.
                if random.percent(30) {
                    spoil_named(random, n, &mut record);
                }
                set_not_zero(random, &mut record, field);
                record
            }),
            Way::NodeTooHigh { kind } => wrong_record(random, 4, |random, n| {
                let mut record = right_record(random, n, kind);
                if random.percent(30) {
                    spoil_named(random, n, &mut record);
                }
                record.node = too_high(random, n);
                record
            }),
            Way::NoAddress { kind } => wrong_record(random, 5, |random, n| {
                let mut record = right_record(random, n, kind);
                // The number after 5 too, now and then.
                if names(kind, Field::Label) && random.percent(50) {
                    record.label = no_label(random);
                }
                Record { address: no_address(random, n), ..record }
            }),
            Way::Label(label) => wrong_record(random, 13, |random, n| {
                let record = right_record(random, n, 1);
                Record { label, ..record }
            }),
            Way::ToItself(to_itself) => to_itself.make(random),
            Way::Ack(ack) => wrong_record(random, 6, |random, n| {
                let record = right_record(random, n, 3);
                let hold = random.pick(&[record.hold, record.hold, 2]);
                Record { ack, hold, ..record }
            }),
            Way::Hold(hold) => wrong_record(random, 6, |random, n| {
                let record = right_record(random, n, 3);
                Record { hold, ..record }
            }),
            Way::Closed(closed) => closed::run(random, closed),
            Way::Damaged(damage) => damage::file_with(random, damage),
        }
    }
}

/// n from 2 to 63, small ones often.
pub(super) fn nodes(random: &mut Random) -> u8 {
    match random.below(10) {
        0..=1 => 2,
        2..=3 => 3,
        4..=6 => random.byte(4, 8),
        7 => random.pick(&[62, 63, 63]),
        _ => random.byte(9, 63),
    }
}

/// A run of open actions from a fresh bus.
fn run(random: &mut Random, n: u8, actions: usize) -> Vec<Record> {
    let style = Style::random(random, n);
    let bus = Bus::fresh(n).expect("n from 2 to 63");
    let mut driver = Driver::new(bus, Random::new(random.draw()), style);
    (0..actions).map(|_| driver.play().0.into()).collect()
}

pub(super) fn file(n: u8, records: &[Record]) -> Vec<u8> {
    let mut file = vec![0; records.len().div_ceil(FULL) * BLOCK];
    for (place, part) in records.chunks(FULL).enumerate() {
        runfile::write_unchecked(block(&mut file, place), place as u32, n, part);
    }
    file
}

fn block(file: &mut [u8], place: usize) -> &mut [u8; BLOCK] {
    let part = &mut file[place * BLOCK..(place + 1) * BLOCK];
    part.try_into().expect("a part of 512 bytes")
}

fn open_run(random: &mut Random, n: u8, actions: usize) -> Case {
    let records = run(random, n, actions);
    let bytes = file(n, &records);
    Case { n, records, bytes, end: End::Done { accepted: actions } }
}

/// A run of open actions with one wrong record somewhere.
fn wrong_record(random: &mut Random, number: u8, make: impl Fn(&mut Random, u8) -> Record) -> Case {
    let n = nodes(random);
    let actions = random.between(0, 150) as usize;
    let mut records = run(random, n, actions);
    let accepted = random.between(0, actions as u64) as usize;
    records.insert(accepted, make(random, n));
    let bytes = file(n, &records);
    Case { n, records, bytes, end: End::Refused { accepted, number } }
}

/// In how many runs a place is looked for; the rarest reason has one in every few.
const TRIES: usize = 1000;

/// A run of open actions, of this style for its n, and somewhere in it what `example` gives for the bus
/// there: actions of which the last is refused by this number after the others.
fn placed(
    random: &mut Random,
    way: Way,
    number: u8,
    style: impl Fn(&mut Random, u8) -> Style,
    example: impl Fn(&Bus, &mut Random) -> Option<Vec<Action>>,
) -> Case {
    for _ in 0..TRIES {
        let n = nodes(random);
        let style = style(random, n);
        let bus = Bus::fresh(n).expect("n from 2 to 63");
        let mut driver = Driver::new(bus, Random::new(random.draw()), style);
        let mut records = Vec::new();
        let mut wrong = None;
        let mut met = 0;
        for place in 0..random.between(1, 800) as usize {
            if let Some(actions) = example(&driver.bus, random) {
                // Each place where there is one is as likely as another.
                met += 1;
                if random.below(met) == 0 {
                    wrong = Some((place, actions));
                }
            }
            records.push(driver.play().0.into());
        }
        let Some((place, actions)) = wrong else {
            continue;
        };
        let accepted = place + actions.len() - 1;
        records.splice(place..place, actions.into_iter().map(Record::from));
        let bytes = file(n, &records);
        return Case { n, records, bytes, end: End::Refused { accepted, number } };
    }
    panic!("{way}: no place for it in {TRIES} runs of open actions")
}

/// A record whose fields are right for its kind; open or not.
pub(super) fn right_record(random: &mut Random, n: u8, kind: u8) -> Record {
    let node = random.below(n.into()) as u8;
    let other = random.other_node(node, n);
    let address = random.pick(&[other, other, ALL_NODES]);
    let packet = random.packet(address);
    right_action(random, kind, node, packet).into()
}

/// An action of this kind, with the node and the packet where it names them; a change has the
/// packet's address or 0.
fn right_action(random: &mut Random, kind: u8, node: u8, packet: Packet) -> Action {
    match kind {
        1 => Action::Request { node, packet },
        2 => Action::Arbitrate { node },
        3 => Action::Respond { node, ack: random.byte(0, 15), hold: random.percent(50) },
        4 => Action::Clock { node },
        5 => Action::Pass,
        6 => Action::Lose,
        7 => Action::Change { address: random.pick(&[0, packet.address]) },
        8 => Action::Grant,
        9 => Action::Gap,
        10 => Action::Reset,
        11 => Action::Ask { node },
        _ => Action::Decide { node },
    }
}

fn any_record(random: &mut Random, n: u8) -> Record {
    let kind = random.byte(1, KINDS);
    let mut record = right_record(random, n, kind);
    for field in FIELDS {
        if random.percent(30) {
            set_not_zero(random, &mut record, field);
        }
    }
    record
}

fn set_not_zero(random: &mut Random, record: &mut Record, field: Field) {
    let any = random.byte(1, 255);
    let byte = random.pick(&[1, 255, any]);
    // Each byte of a word by itself, too.
    let word = u32::from(byte) << (8 * random.below(4));
    match field {
        Field::Node => record.node = byte,
        Field::Address => record.address = byte,
        Field::Ack => record.ack = byte,
        Field::Hold => record.hold = byte,
        Field::Label => record.label = byte,
        Field::Zero(place) => record.zeros[place] = byte,
        Field::Header => record.header = word,
        Field::Data => record.data = word,
    }
}

/// Makes the named fields wrong that numbers 4 to 6 and 13 look at.
fn spoil_named(random: &mut Random, n: u8, record: &mut Record) {
    if names(record.kind, Field::Node) {
        record.node = too_high(random, n);
    }
    if names(record.kind, Field::Address) {
        record.address = no_address(random, n);
    }
    if names(record.kind, Field::Label) {
        record.label = no_label(random);
    }
    if names(record.kind, Field::Ack) {
        record.ack = random.byte(16, 255);
        record.hold = random.byte(2, 255);
    }
}

pub(super) fn too_high(random: &mut Random, n: u8) -> u8 {
    let any = random.byte(n, 255);
    random.pick(&[n, n, 63, 64, 255, any])
}

pub fn no_address(random: &mut Random, n: u8) -> u8 {
    let any = random.byte(n, 255);
    loop {
        let address = random.pick(&[n, n, 62, 64, 255, any]);
        if address >= n && address != ALL_NODES {
            return address;
        }
    }
}

pub(super) fn no_label(random: &mut Random) -> u8 {
    let any = random.byte(64, 255);
    random.pick(&[64, 64, 128, 255, any])
}
