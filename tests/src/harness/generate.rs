//! `model generate`: long runs that play to their end, written block by block.

use std::io::{self, Write};

use super::driver::{Driver, Style};
use super::random::Random;
use crate::bus::{Action, Bus, Head, Mode, Packet, Phase, Record, ALL_NODES};
use crate::runfile::{self, BLOCK, FULL};

#[derive(Clone, Copy, PartialEq, Eq, Debug)]
pub enum Kind {
    /// Open actions at random.
    Mixed,
    /// Packets to all nodes, one after the other.
    Broadcast,
    /// Packets to one node, acknowledged, one after the other.
    Transaction,
}

impl Kind {
    pub fn parse(word: &str) -> Option<Kind> {
        match word {
            "mixed" => Some(Kind::Mixed),
            "broadcast" => Some(Kind::Broadcast),
            "transaction" => Some(Kind::Transaction),
            _ => None,
        }
    }
}

/// Writes a file of so many actions, at least one.
pub fn generate(
    kind: Kind,
    n: u8,
    actions: u64,
    seed: u64,
    output: &mut impl Write,
) -> Result<(), String> {
    let bus = Bus::fresh(n).map_err(|_| format!("n is 2 to 63, not {n}"))?;
    if actions == 0 {
        return Err("a file has at least one action".into());
    }
    let written = match kind {
        Kind::Mixed => {
            let mut driver = Driver::new(bus, Random::new(seed), Style::MIXED);
            write(n, actions, output, || driver.play().0)
        }
        Kind::Broadcast | Kind::Transaction => {
            let mut steady = Steady { bus, random: Random::new(seed), node: 0, kind };
            write(n, actions, output, || steady.play())
        }
    };
    written.map_err(|error| error.to_string())
}

fn write(
    n: u8,
    actions: u64,
    output: &mut impl Write,
    mut next: impl FnMut() -> Action,
) -> io::Result<()> {
    let mut block = [0; BLOCK];
    let mut records = [Record::default(); FULL];
    let mut left = actions;
    let mut number = 0;
    while left > 0 {
        let count = left.min(FULL as u64) as usize;
        for record in &mut records[..count] {
            *record = next().into();
        }
        runfile::write_unchecked(&mut block, number, n, &records[..count]);
        output.write_all(&block)?;
        number += 1;
        left -= count as u64;
    }
    output.flush()
}

/// The same transaction again and again, the nodes taking turns.
struct Steady {
    bus: Bus,
    random: Random,
    node: u8,
    kind: Kind,
}

impl Steady {
    fn play(&mut self) -> Action {
        let action = self.next();
        self.bus.act(action).expect("each action of a steady run is open");
        action
    }

    fn next(&mut self) -> Action {
        let node = self.node;
        match self.bus.phase {
            Phase::Idle if self.bus.won.has(node) => Action::Reset,
            Phase::Idle if self.bus.node(node).buffer.is_some() => Action::Arbitrate { node },
            Phase::Idle => {
                let address = match self.kind {
                    Kind::Broadcast => ALL_NODES,
                    _ => (node + 1) % self.bus.n,
                };
                let (header, data) = (self.random.draw() as u32, self.random.draw() as u32);
                let head = Head { header, label: self.random.byte(0, 63) };
                Action::Request { node, packet: Packet { address, head, data } }
            }
            Phase::Busy => {
                let holder = self.bus.holder.lowest(self.bus.n).unwrap_or(node);
                match self.bus.node(holder).mode {
                    Mode::Answering => Action::Respond { node: holder, ack: 1, hold: false },
                    _ => Action::Clock { node: holder },
                }
            }
            Phase::Delivering { .. } => Action::Pass,
            Phase::Granting => Action::Grant,
            Phase::Gapping { node: gap } => {
                // The last gap: the next node's turn.
                if gap + 1 == self.bus.n {
                    self.node = (node + 1) % self.bus.n;
                }
                Action::Gap
            }
        }
    }
}
