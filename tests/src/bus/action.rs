//! Action records and what they say: refusals 2 to 6, 13 and 15.

use super::packet::{is_address, is_label, Head, Packet};
use super::refusal::Refusal;

/// The record of an action as a run file holds it: any bytes at all.
#[derive(Clone, Copy, PartialEq, Eq, Hash, Debug, Default)]
pub struct Record {
    pub kind: u8,
    pub node: u8,
    pub address: u8,
    pub ack: u8,
    pub hold: u8,
    pub label: u8,
    pub zeros: [u8; 2],
    pub header: u32,
    pub data: u32,
}

/// One of the twelve kinds, with the fields that it names.
#[derive(Clone, Copy, PartialEq, Eq, Hash, Debug)]
pub enum Action {
    Request { node: u8, packet: Packet },
    Arbitrate { node: u8 },
    Respond { node: u8, ack: u8, hold: bool },
    Clock { node: u8 },
    Pass,
    Lose,
    Change { address: u8 },
    Grant,
    Gap,
    Reset,
    Ask { node: u8 },
    Decide { node: u8 },
}

impl Record {
    /// Refusals 2 to 6, in their order, with 13 "looked at after 5" and 15 "looked at after 13".
    pub fn look(&self, n: u8) -> Result<Action, Refusal> {
        let Record { kind, node, address, ack, hold, label, header, data, .. } = *self;
        // The record as it would be with nothing in it but the fields that its kind names.
        let bare = Record { kind, ..Record::default() };
        let named = match kind {
            1 => Record { node, address, label, header, data, ..bare },
            2 | 4 | 11 | 12 => Record { node, ..bare },
            3 => Record { node, ack, hold, ..bare },
            7 => Record { address, ..bare },
            5 | 6 | 8 | 9 | 10 => bare,
            _ => return Err(Refusal::Kind),
        };
        if *self != named {
            return Err(Refusal::FieldNotNamed);
        }
        // A field that is not named is 0 from here on, and so passes.
        if node >= n {
            return Err(Refusal::Node);
        }
        if !is_address(address, n) {
            return Err(Refusal::Address);
        }
        if !is_label(label) {
            return Err(Refusal::Label);
        }
        // Kind 1 alone names both a node and an address.
        if kind == 1 && address == node {
            return Err(Refusal::ToItself);
        }
        if ack > 15 || hold > 1 {
            return Err(Refusal::AckOrHold);
        }
        Ok(match kind {
            1 => Action::Request {
                node,
                packet: Packet { address, head: Head { header, label }, data },
            },
            2 => Action::Arbitrate { node },
            3 => Action::Respond { node, ack, hold: hold == 1 },
            4 => Action::Clock { node },
            5 => Action::Pass,
            6 => Action::Lose,
            7 => Action::Change { address },
            8 => Action::Grant,
            9 => Action::Gap,
            10 => Action::Reset,
            11 => Action::Ask { node },
            _ => Action::Decide { node },
        })
    }

    /// "kind, node, address, acknowledgement, hold, three zeros, header (4 bytes), data (4 bytes)",
    /// "fields little-endian"; the first of the zeros, byte 5, "becomes the label".
    pub fn from_bytes(bytes: &[u8; 16]) -> Record {
        let [kind, node, address, ack, hold, label, z0, z1, h0, h1, h2, h3, d0, d1, d2, d3] =
            *bytes;
        Record {
            kind,
            node,
            address,
            ack,
            hold,
            label,
            zeros: [z0, z1],
            header: u32::from_le_bytes([h0, h1, h2, h3]),
            data: u32::from_le_bytes([d0, d1, d2, d3]),
        }
    }

    pub fn to_bytes(&self) -> [u8; 16] {
        let [z0, z1] = self.zeros;
        let [h0, h1, h2, h3] = self.header.to_le_bytes();
        let [d0, d1, d2, d3] = self.data.to_le_bytes();
        [
            self.kind,
            self.node,
            self.address,
            self.ack,
            self.hold,
            self.label,
            z0,
            z1, //
            h0,
            h1,
            h2,
            h3,
            d0,
            d1,
            d2,
            d3,
        ]
    }
}

impl From<Action> for Record {
    fn from(action: Action) -> Record {
        let of = |kind| Record { kind, ..Record::default() };
        match action {
            Action::Request { node, packet: Packet { address, head, data } } => {
                let Head { header, label } = head;
                Record { node, address, label, header, data, ..of(1) }
            }
            Action::Arbitrate { node } => Record { node, ..of(2) },
            Action::Respond { node, ack, hold } => Record { node, ack, hold: hold.into(), ..of(3) },
            Action::Clock { node } => Record { node, ..of(4) },
            Action::Pass => of(5),
            Action::Lose => of(6),
            Action::Change { address } => Record { address, ..of(7) },
            Action::Grant => of(8),
            Action::Gap => of(9),
            Action::Reset => of(10),
            Action::Ask { node } => Record { node, ..of(11) },
            Action::Decide { node } => Record { node, ..of(12) },
        }
    }
}
