//! Refusal 15: requests to the node itself, and what is looked at before it.

use super::{
    file, no_label, nodes, placed, right_record, set_not_zero, too_high, wrong_record, Case, End,
    Field, Way,
};
use crate::bus::{Action, Bus, Mode, Packet, Record};
use crate::harness::driver::{Driver, Style};
use crate::harness::random::Random;
use crate::runfile::FULL;

/// Where such a request stands, or what else is wrong with it.
#[derive(Clone, Copy, PartialEq, Eq, Debug)]
pub enum ToItself {
    /// It would be open if it went elsewhere: in Rest with an empty buffer, in Holding.
    InRest,
    InHolding,
    /// It would not be open: 15 comes before 7.
    NotOpen,
    /// In the second block of a file from before request 10, which plays it out.
    InOlderFile,
    /// 3, 4 or 13 comes first.
    NotNamed,
    NodeTooHigh,
    Label,
}

impl ToItself {
    pub const ALL: [ToItself; 7] = [
        ToItself::InRest,
        ToItself::InHolding,
        ToItself::NotOpen,
        ToItself::InOlderFile,
        ToItself::NotNamed,
        ToItself::NodeTooHigh,
        ToItself::Label,
    ];

    /// What a file with it aims at.
    pub fn aim(self) -> &'static str {
        match self {
            ToItself::InRest => "refusal 15, open otherwise, in Rest",
            ToItself::InHolding => "refusal 15, open otherwise, in Holding",
            ToItself::NotOpen => "refusal 15, where 7 holds too",
            ToItself::InOlderFile => "refusal 15, in the second block of an older file",
            ToItself::NotNamed => "refusal 3, where 15 holds too",
            ToItself::NodeTooHigh => "refusal 4, where 15 holds too",
            ToItself::Label => "refusal 13, where 15 holds too",
        }
    }

    pub fn make(self, random: &mut Random) -> Case {
        match self {
            ToItself::InRest => self.run(random, is_free),
            ToItself::InHolding => self.run(random, is_holding),
            ToItself::NotOpen => {
                self.run(random, |bus, node| !is_free(bus, node) && !is_holding(bus, node))
            }
            ToItself::InOlderFile => older_file(random),
            ToItself::NotNamed => wrong_record(random, 3, |random, n| {
                let field = random.pick(&[Field::Ack, Field::Hold, Field::Zero(0), Field::Zero(1)]);
                let mut record = right_record(random, n, 1);
                set_not_zero(random, &mut record, field);
                Record { address: record.node, ..record }
            }),
            // Its address is none, too: 5 would come next.
            ToItself::NodeTooHigh => wrong_record(random, 4, |random, n| {
                let node = too_high(random, n);
                Record { node, address: node, ..right_record(random, n, 1) }
            }),
            ToItself::Label => wrong_record(random, 13, |random, n| {
                let record = right_record(random, n, 1);
                Record { address: record.node, label: no_label(random), ..record }
            }),
        }
    }

    /// A run of open actions and somewhere in it such a node's request to itself.
    fn run(self, random: &mut Random, is: impl Fn(&Bus, u8) -> bool) -> Case {
        placed(random, Way::ToItself(self), 15, Style::random, |bus, random| {
            let (node, packet) = sender(bus, random, &is)?;
            Some(vec![Action::Request { node, packet }])
        })
    }
}

/// A request to another node would fill its buffer.
fn is_free(bus: &Bus, node: u8) -> bool {
    bus.node(node).mode == Mode::Rest && bus.node(node).buffer.is_none()
}

/// A request to another node would be its reply.
fn is_holding(bus: &Bus, node: u8) -> bool {
    bus.node(node).mode == Mode::Holding
}

/// Some such node of this bus, if there is one, and a packet from it to itself.
fn sender(bus: &Bus, random: &mut Random, is: impl Fn(&Bus, u8) -> bool) -> Option<(u8, Packet)> {
    let nodes: Vec<u8> = (0..bus.n).filter(|&node| is(bus, node)).collect();
    let node = (!nodes.is_empty()).then(|| random.pick(&nodes))?;
    Some((node, random.packet(node)))
}

/// A file of some blocks, all of whose actions were open before request 10. Within the second block a
/// node in Rest sends to itself; what follows is played on the bus that has that packet.
fn older_file(random: &mut Random) -> Case {
    loop {
        let n = nodes(random);
        let style = Style::random(random, n);
        let bus = Bus::fresh(n).expect("n from 2 to 63");
        let mut driver = Driver::new(bus, Random::new(random.draw()), style);
        let accepted = FULL + random.between(1, FULL as u64 - 2) as usize;
        let mut records: Vec<Record> = (0..accepted).map(|_| driver.play().0.into()).collect();
        let Some((node, packet)) = sender(&driver.bus, random, is_free) else {
            continue;
        };
        records.push(Action::Request { node, packet }.into());
        driver.bus.nodes[usize::from(node)].buffer = Some(packet);
        let after = random.between(FULL as u64, 150);
        records.extend((0..after).map(|_| Record::from(driver.play().0)));
        let bytes = file(n, &records);
        return Case { n, records, bytes, end: End::Refused { accepted, number: 15 } };
    }
}
