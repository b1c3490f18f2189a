//! Refusal 12: a state handed in that is none.

use super::node::{Mode, Node};
use super::packet::{is_address, is_label, Packet};
use super::signal::Signal;
use super::{Bus, Phase};

impl Bus {
    /// "a state handed in with n not 2–63; a sender, receiver or gap node not below n; receiver
    /// equal to sender; an address neither below n nor 63; an acknowledgement over 15; a step of
    /// Sending over 5 or of Acking over 2" is none, nor is one "that holds a label over 63".
    /// "Records and marks of nodes from n on are neither read nor changed". A packet to the node that
    /// holds it is as good as another: 15 is about requests.
    pub fn is_state(&self) -> bool {
        let n = self.n;
        if !(2..=63).contains(&n) {
            return false;
        }
        let phase = match self.phase {
            Phase::Idle | Phase::Busy | Phase::Granting => true,
            Phase::Delivering { sender, signal, receiver } => {
                sender < n && receiver < n && receiver != sender && is_signal(signal, n)
            }
            Phase::Gapping { node } => node < n,
        };
        phase && self.nodes[..usize::from(n)].iter().all(|node| is_node(node, n))
    }
}

fn is_signal(signal: Signal, n: u8) -> bool {
    match signal {
        Signal::Dest(address) => is_address(address, n),
        Signal::Header(head, _) => is_label(head.label),
        Signal::Ack(ack, _) => ack <= 15,
        _ => true,
    }
}

fn is_packet(packet: &Packet, n: u8) -> bool {
    is_address(packet.address, n) && is_label(packet.head.label)
}

fn is_node(node: &Node, n: u8) -> bool {
    let mode = match node.mode {
        Mode::Sending { step } => step <= 5,
        Mode::Acking { step, ack, .. } => step <= 2 && ack <= 15,
        Mode::AckEnd { good: Some(ack) } => ack <= 15,
        Mode::BodyOwn { head }
        | Mode::BodyAll { head }
        | Mode::TailOwn { head, .. }
        | Mode::TailAll { head, .. } => is_label(head.label),
        _ => true,
    };
    // The packet being sent is looked at whether the node is sending or not; an empty buffer is not.
    let mut packets = node.buffer.iter().chain([&node.sending]);
    mode && packets.all(|packet| is_packet(packet, n))
}
