//! Drives a bus at random: each time some open action, of every kind, so that a run goes on for as
//! long as is wanted.

use super::forward::listener;
use super::random::Random;
use crate::bus::{Action, Bus, Mode, Node, Outcome, Packet, Phase, Signal, ALL_NODES};

/// How a run goes, in chances out of a hundred.
#[derive(Clone, Copy, Debug)]
pub struct Style {
    /// A request into a buffer, an arbitration or an asking, whatever the bus is doing.
    pub aside: u64,
    /// A node asks, where it could arbitrate.
    pub ask: u64,
    /// While nodes are Asked, something else than a decision.
    pub linger: u64,
    /// A Dest changed on its way.
    pub dest_fault: u64,
    /// A Dest that is changed arrives as the receiver's own address.
    pub to_receiver: u64,
    /// A Header, Data or Ack lost or changed on its way.
    pub fault: u64,
    /// A filler clock, where one is open.
    pub filler: u64,
    /// A respond with hold 1, where one is open.
    pub hold: u64,
    /// A reply to the node that listens for it.
    pub to_listener: u64,
    /// A request to all nodes.
    pub broadcast: u64,
}

impl Style {
    /// Everything now and then: for long runs.
    pub const MIXED: Style = Style {
        aside: 5,
        ask: 20,
        linger: 30,
        dest_fault: 1,
        to_receiver: 50,
        fault: 2,
        filler: 20,
        hold: 30,
        to_listener: 75,
        broadcast: 25,
    };

    pub fn random(random: &mut Random, n: u8) -> Style {
        // With many receivers a small chance for each is enough.
        let faults = match n {
            0..=6 => [0, 3, 15, 50],
            7..=20 => [0, 1, 5, 40],
            _ => [0, 1, 3, 30],
        };
        Style {
            aside: random.pick(&[0, 2, 10, 30]),
            ask: random.pick(&[0, 20, 60, 90]),
            linger: random.pick(&[0, 30, 70, 90]),
            dest_fault: random.pick(&faults),
            to_receiver: random.pick(&[10, 50, 90]),
            fault: random.pick(&faults),
            filler: random.pick(&[0, 10, 40]),
            hold: random.pick(&[10, 50, 90]),
            to_listener: random.pick(&[0, 50, 90]),
            broadcast: random.pick(&[5, 20, 60]),
        }
    }
}

/// How many actions are proposed before a bus counts as stuck.
const PROPOSALS: usize = 100_000;

pub struct Driver {
    pub bus: Bus,
    pub random: Random,
    pub style: Style,
    /// Of the request proposed last.
    label: u8,
}

impl Driver {
    pub fn new(bus: Bus, mut random: Random, style: Style) -> Driver {
        let label = random.label();
        Driver { bus, random, style, label }
    }

    /// Plays some open action on the bus, and says which.
    pub fn play(&mut self) -> (Action, Outcome) {
        for _ in 0..PROPOSALS {
            // A refused one changes nothing, so another can be proposed.
            let action = self.propose();
            let outcome = self.bus.act(action);
            if outcome.is_ok() {
                return (action, outcome);
            }
        }
        panic!("none of {PROPOSALS} actions is open: {:?}", self.bus)
    }

    fn propose(&mut self) -> Action {
        if self.random.percent(self.style.aside) {
            return self.aside();
        }
        let start = self.any_node();
        let asked = self.first_from(start, |node| self.bus.node(node).mode == Mode::Asked);
        if let Some(node) = asked {
            return self.while_asked(node);
        }
        match self.bus.phase {
            Phase::Idle => self.on_idle(),
            Phase::Busy => self.on_busy(),
            Phase::Delivering { signal, receiver, .. } => self.on_delivering(signal, receiver),
            Phase::Granting => Action::Grant,
            Phase::Gapping { .. } => Action::Gap,
        }
    }

    fn any_node(&mut self) -> u8 {
        self.random.below(self.bus.n.into()) as u8
    }

    /// What this node may send.
    fn packet(&mut self, node: u8) -> Packet {
        let all = self.random.percent(self.style.broadcast);
        let other = self.random.other_node(node, self.bus.n);
        let address = if all { ALL_NODES } else { other };
        let mut packet = self.random.packet(address);
        // Mostly the next label, as drivers give them: requests in flight are to be told apart.
        if self.random.percent(60) {
            packet.head.label = (self.label + 1) % 64;
        }
        self.label = packet.head.label;
        packet
    }

    fn request(&mut self, node: u8) -> Action {
        Action::Request { node, packet: self.packet(node) }
    }

    /// A request from Holding.
    fn reply(&mut self, node: u8) -> Action {
        let packet = self.packet(node);
        match listener(&self.bus) {
            Some(address) if self.random.percent(self.style.to_listener) => {
                Action::Request { node, packet: Packet { address, ..packet } }
            }
            _ => Action::Request { node, packet },
        }
    }

    fn respond(&mut self, node: u8) -> Action {
        let ack = self.random.below(16) as u8;
        let hold = !self.bus.concatenated && self.random.percent(self.style.hold);
        Action::Respond { node, ack, hold }
    }

    fn aside(&mut self) -> Action {
        let node = self.any_node();
        if self.random.percent(40) {
            self.arbitrate(node)
        } else {
            self.request(node)
        }
    }

    /// At once, or by asking.
    fn arbitrate(&mut self, node: u8) -> Action {
        if self.random.percent(self.style.ask) {
            Action::Ask { node }
        } else {
            Action::Arbitrate { node }
        }
    }

    /// The decision of this node, which is Asked, or what is open meanwhile.
    fn while_asked(&mut self, asked: u8) -> Action {
        if !self.random.percent(self.style.linger) {
            return Action::Decide { node: asked };
        }
        let holder = self.bus.pick_holder(self.random.draw());
        match (self.random.below(4), holder, self.ready()) {
            (0..=1, Some(node), _) if self.bus.node(node).mode == Mode::Answering => {
                self.respond(node)
            }
            (0..=1, _, Some(node)) => Action::Ask { node },
            (2, _, Some(node)) => Action::Arbitrate { node },
            _ => {
                let node = self.any_node();
                self.request(node)
            }
        }
    }

    /// Some node in Rest with a full buffer: it may ask.
    fn ready(&mut self) -> Option<u8> {
        let start = self.any_node();
        let is_ready = |node: &Node| node.mode == Mode::Rest && node.buffer.is_some();
        self.first_from(start, |node| is_ready(self.bus.node(node)))
    }

    /// The first node from this one on that is such a one.
    fn first_from(&self, start: u8, is: impl Fn(u8) -> bool) -> Option<u8> {
        let n = self.bus.n;
        (0..n).map(|step| (start + step) % n).find(|&node| is(node))
    }

    fn on_idle(&mut self) -> Action {
        let start = self.any_node();
        let is_ready = |node| self.bus.node(node).buffer.is_some() && !self.bus.won.has(node);
        let ready = self.first_from(start, is_ready);
        let won = self.bus.won.any(self.bus.n);
        match ready {
            Some(node) if self.random.percent(80) => self.arbitrate(node),
            _ if won && self.random.percent(if ready.is_some() { 10 } else { 50 }) => Action::Reset,
            _ => {
                let node = self.any_node();
                if self.bus.node(node).buffer.is_some() && won {
                    Action::Reset
                } else {
                    self.request(node)
                }
            }
        }
    }

    fn on_busy(&mut self) -> Action {
        let holders = self.bus.holder;
        let node = match self.bus.pick_holder(self.random.draw()) {
            Some(node) => node,
            None => return self.aside(),
        };
        match (self.bus.node(node).mode, self.ready()) {
            // Whoever can ask while a node answers has just given the bus back.
            (Mode::Answering, Some(node)) if self.random.percent(self.style.ask / 2) => {
                Action::Ask { node }
            }
            (Mode::Answering, _) if !self.random.percent(self.style.filler) => self.respond(node),
            (Mode::Holding, _)
                if !(holders.only(node, self.bus.n) && self.random.percent(self.style.filler)) =>
            {
                self.reply(node)
            }
            _ => Action::Clock { node },
        }
    }

    fn on_delivering(&mut self, signal: Signal, receiver: u8) -> Action {
        match signal {
            Signal::Dest(_) if self.random.percent(self.style.dest_fault) => {
                let address = if self.random.percent(self.style.to_receiver) {
                    receiver
                } else if self.random.percent(self.style.broadcast) {
                    ALL_NODES
                } else {
                    self.any_node()
                };
                Action::Change { address }
            }
            _ if signal.carries_check() && self.random.percent(self.style.fault) => {
                if self.random.percent(50) {
                    Action::Lose
                } else {
                    Action::Change { address: 0 }
                }
            }
            // Now and then while the closing Prefix, or a filler, is still under way.
            Signal::Prefix if self.random.percent(10) => match self.bus.pick_holder(0) {
                Some(node) if self.bus.node(node).mode == Mode::Holding => self.reply(node),
                Some(node) if self.bus.node(node).mode == Mode::Answering => self.respond(node),
                _ => Action::Pass,
            },
            _ => Action::Pass,
        }
    }
}

impl Bus {
    /// Some holder, by the number given.
    fn pick_holder(&self, number: u64) -> Option<u8> {
        let count = self.holder.nodes(self.n).count() as u64;
        match count {
            0 => None,
            _ => self.holder.nodes(self.n).nth((number % count) as usize),
        }
    }
}
