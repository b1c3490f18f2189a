//! "Bus and actions": nodes and the bus under them, played one action at a time.

mod action;
mod marks;
mod node;
mod packet;
mod refusal;
mod report;
mod signal;
mod validity;

pub use action::{Action, Record};
pub use marks::Marks;
pub use node::{Effect, Mode, Node};
pub use packet::{is_address, is_label, Head, Packet, ALL_NODES};
pub use refusal::Refusal;
pub use report::{Reading, Report, Reported};
pub use signal::{Check, Signal};

/// "Nodes are 0 to n−1, n from 2 to 63."
pub const MOST_NODES: usize = 63;

/// What an accepted action reports, or the refusal.
pub type Outcome = Result<Option<Reported>, Refusal>;

/// "The bus is Idle, Busy, Delivering (sender, signal, next receiver), Granting or Gapping (next
/// node)."
#[derive(Clone, Copy, PartialEq, Eq, Hash, Debug)]
pub enum Phase {
    Idle,
    Busy,
    Delivering { sender: u8, signal: Signal, receiver: u8 },
    Granting,
    Gapping { node: u8 },
}

/// "It keeps four marks for each node: won, pending, holder, misled." "The bus keeps one more mark,
/// set when an Acking node puts out its closing Prefix and cleared when the bus becomes Idle."
#[derive(Clone, PartialEq, Eq, Hash, Debug)]
pub struct Bus {
    pub n: u8,
    pub phase: Phase,
    pub won: Marks,
    pub pending: Marks,
    pub holder: Marks,
    pub misled: Marks,
    /// That one: an acknowledgement has ended in Prefix, and a reply follows.
    pub concatenated: bool,
    pub nodes: [Node; MOST_NODES],
}

impl Bus {
    /// "A refused fresh bus returns number 1 with a state like a fresh one whose n is 0."
    pub const REFUSED: Bus = Bus {
        n: 0,
        phase: Phase::Idle,
        won: Marks(0),
        pending: Marks(0),
        holder: Marks(0),
        misled: Marks(0),
        concatenated: false,
        nodes: [Node::FRESH; MOST_NODES],
    };

    /// "A fresh bus is Idle with no marks, every node in Rest, buffers empty." What goes with the
    /// refusal is [`Bus::REFUSED`].
    pub fn fresh(n: u8) -> Result<Bus, Refusal> {
        match n {
            2..=63 => Ok(Bus { n, ..Bus::REFUSED }),
            _ => Err(Refusal::NodeCount),
        }
    }

    /// One step on a state handed in: "A step looks at 12, then 2 to 7", with 13 after 5 and 15 after
    /// 13. A refused one changes nothing.
    pub fn step(&mut self, record: &Record) -> Outcome {
        if !self.is_state() {
            return Err(Refusal::State);
        }
        self.play(record)
    }

    /// The same for a bus that came from `fresh` and so is a state: without 12.
    pub fn play(&mut self, record: &Record) -> Outcome {
        let action = record.look(self.n)?;
        self.act(action)
    }

    /// The action itself, which has passed all but 7; or 7.
    pub fn act(&mut self, action: Action) -> Outcome {
        match action {
            Action::Request { node, packet } => self.request(node, packet),
            Action::Arbitrate { node } => self.arbitrate(node),
            Action::Respond { node, ack, hold } => self.respond(node, ack, hold),
            Action::Ask { node } => self.ask(node),
            Action::Decide { node } => self.decide(node),
            // "While a node is Asked, kinds 4 to 10 are not open."
            _ if self.asked().next().is_some() => Err(Refusal::NotOpen),
            Action::Clock { node } => self.clock(node),
            Action::Pass | Action::Lose | Action::Change { .. } => self.deliver(action),
            Action::Grant => self.grant(),
            Action::Gap => self.gap(),
            Action::Reset => self.reset(),
        }
    }

    pub fn node(&self, node: u8) -> &Node {
        &self.nodes[usize::from(node)]
    }

    /// The nodes that are Asked, lowest first; those from n on are not looked at.
    pub fn asked(&self) -> impl Iterator<Item = u8> + '_ {
        (0..self.n).filter(|&node| self.node(node).mode == Mode::Asked)
    }

    fn node_mut(&mut self, node: u8) -> &mut Node {
        &mut self.nodes[usize::from(node)]
    }

    /// Kind 1: "in Rest with an empty buffer it fills the buffer; in Holding it becomes the packet
    /// being sent, → Sending."
    fn request(&mut self, node: u8, packet: Packet) -> Outcome {
        let record = self.node_mut(node);
        match (record.mode, record.buffer) {
            (Mode::Rest, None) => record.buffer = Some(packet),
            (Mode::Holding, _) => {
                record.sending = packet;
                record.mode = Mode::Sending { step: 0 };
            }
            _ => return Err(Refusal::NotOpen),
        }
        Ok(None)
    }

    /// Kind 2: "in Rest, buffer full."
    fn arbitrate(&mut self, node: u8) -> Outcome {
        self.decide_in(Mode::Rest, node)
    }

    /// Kind 11: "in Rest with a full buffer → Asked […]; any bus."
    fn ask(&mut self, node: u8) -> Outcome {
        let record = self.node_mut(node);
        let (Mode::Rest, Some(_)) = (record.mode, record.buffer) else {
            return Err(Refusal::NotOpen);
        };
        record.mode = Mode::Asked;
        Ok(None)
    }

    /// Kind 12: "an Asked node with a full buffer is decided as kind 2 decides, won or lost".
    fn decide(&mut self, node: u8) -> Outcome {
        self.decide_in(Mode::Asked, node)
    }

    /// Won or lost, for a node that is in this mode, Rest or Asked, and has a full buffer.
    fn decide_in(&mut self, mode: Mode, node: u8) -> Outcome {
        let Some(packet) = self.node(node).buffer.filter(|_| self.node(node).mode == mode) else {
            return Err(Refusal::NotOpen);
        };
        // "Otherwise report lost; nothing changes." "a loser returns to Rest"
        if self.phase != Phase::Idle || self.won.has(node) {
            self.node_mut(node).mode = Mode::Rest;
            return Ok(Some(Reported { node, report: Report::Lost }));
        }
        // "Bus Idle and not marked won: report won, mark won and holder, bus Busy, packet leaves
        // the buffer, → Sending."
        self.won.set(node);
        self.holder.set(node);
        self.phase = Phase::Busy;
        *self.node_mut(node) =
            Node { mode: Mode::Sending { step: 0 }, buffer: None, sending: packet };
        Ok(Some(Reported { node, report: Report::Won }))
    }

    /// Kind 3: "in Answering → Acking." Of the bus it asks one thing: "While [the mark] is set,
    /// respond with hold 1 is not open."
    fn respond(&mut self, node: u8, ack: u8, hold: bool) -> Outcome {
        if self.node(node).mode != Mode::Answering || hold && self.concatenated {
            return Err(Refusal::NotOpen);
        }
        self.node_mut(node).mode = Mode::Acking { step: 0, ack, hold };
        Ok(None)
    }

    /// Kind 4: "bus Busy, node a holder, and either it is Spurious, or it is the only holder and in
    /// Sending, Answering, Acking or Holding."
    fn clock(&mut self, node: u8) -> Outcome {
        if self.phase != Phase::Busy || !self.holder.has(node) {
            return Err(Refusal::NotOpen);
        }
        let Node { mode, sending, .. } = *self.node(node);
        if mode == Mode::Spurious {
            return self.clock_spurious(node);
        }
        if !self.holder.only(node, self.n) {
            return Err(Refusal::NotOpen);
        }
        let mut report = None;
        let (signal, next) = match mode {
            // "Sending puts out in turn Start, Dhead, Dest, Header, Data, End."
            Mode::Sending { step } => {
                let next = Mode::Sending { step: step + 1 };
                match step {
                    0 => (Signal::Start, next),
                    1 => (Signal::Dhead, next),
                    2 => (Signal::Dest(sending.address), next),
                    3 => (Signal::Header(sending.head, Check::Good), next),
                    4 => (Signal::Data(sending.data, Check::Good), next),
                    // "After End: address 63: report sent, Rest; else AwaitAck."
                    _ if sending.address == ALL_NODES => {
                        let label = sending.head.label;
                        report = Some(Reported { node, report: Report::Sent { label } });
                        (Signal::End, Mode::Rest)
                    }
                    _ => (Signal::End, Mode::AwaitAck),
                }
            }
            // "Answering and Holding put out Prefix and stay: a *filler* clock."
            Mode::Answering | Mode::Holding => (Signal::Prefix, mode),
            // "Acking puts out Start, Ack, and then End (hold 0, → Rest) or Prefix (hold 1, →
            // Holding)."
            Mode::Acking { step, ack, hold } => {
                let next = Mode::Acking { step: step + 1, ack, hold };
                match (step, hold) {
                    (0, _) => (Signal::Start, next),
                    (1, _) => (Signal::Ack(ack, Check::Good), next),
                    (_, false) => (Signal::End, Mode::Rest),
                    // The mark is "set when an Acking node puts out its closing Prefix".
                    (_, true) => {
                        self.concatenated = true;
                        (Signal::Prefix, Mode::Holding)
                    }
                }
            }
            _ => return Err(Refusal::NotOpen),
        };
        self.node_mut(node).mode = next;
        self.put_out(node, signal);
        Ok(report)
    }

    /// "Spurious: its End reaches nobody; it goes to Rest and stops being holder; no holder left:
    /// bus Gapping from 0."
    fn clock_spurious(&mut self, node: u8) -> Outcome {
        self.node_mut(node).mode = Mode::Rest;
        self.holder.clear(node);
        if !self.holder.any(self.n) {
            self.phase = Phase::Gapping { node: 0 };
        }
        Ok(None)
    }

    /// "A signal put out makes the bus Delivering to every other node, lowest first. Start clears
    /// the misled marks. End ends the holding."
    fn put_out(&mut self, sender: u8, signal: Signal) {
        match signal {
            Signal::Start => self.misled.clear_all(self.n),
            Signal::End => self.holder.clear(sender),
            _ => (),
        }
        let receiver = if sender == 0 { 1 } else { 0 };
        self.phase = Phase::Delivering { sender, signal, receiver };
    }

    /// Kinds 5, 6 and 7 where no node is Asked: who gets what, or 7. `None` is for "it gets nothing".
    pub fn arrival(&self, action: Action) -> Result<(u8, Option<Signal>), Refusal> {
        let Phase::Delivering { signal, receiver, .. } = self.phase else {
            return Err(Refusal::NotOpen);
        };
        let arriving = match (action, signal) {
            // "A Header reaches a misled node with a bad check."
            (Action::Pass, Signal::Header(..)) if self.misled.has(receiver) => {
                Some(signal.with_bad_check())
            }
            // "The next receiver gets the signal."
            (Action::Pass, _) => Some(signal),
            // "it gets nothing. Only for Header, Data, Ack."
            (Action::Lose, _) if signal.carries_check() => None,
            // "a Dest arrives as that other address"; "the Dest's own address […] is 7"
            (Action::Change { address }, Signal::Dest(own)) if address != own => {
                Some(Signal::Dest(address))
            }
            // "Header, Data, Ack arrive with a bad check, and here the address field is 0."
            (Action::Change { address: 0 }, _) if signal.carries_check() => {
                Some(signal.with_bad_check())
            }
            _ => return Err(Refusal::NotOpen),
        };
        Ok((receiver, arriving))
    }

    fn deliver(&mut self, action: Action) -> Outcome {
        let (receiver, arriving) = self.arrival(action)?;
        let Phase::Delivering { sender, signal, .. } = self.phase else {
            return Err(Refusal::NotOpen);
        };
        // "and the receiver is marked misled"
        if matches!((action, signal), (Action::Change { .. }, Signal::Dest(_))) {
            self.misled.set(receiver);
        }
        let report = arriving.and_then(|arriving| self.receive(receiver, arriving));
        let next = if receiver + 1 == sender { receiver + 2 } else { receiver + 1 };
        self.phase = if next < self.n {
            Phase::Delivering { sender, signal, receiver: next }
        } else if signal != Signal::End {
            // "After the last receiver: not End: Busy."
            Phase::Busy
        } else if self.pending.any(self.n) {
            // "End: Granting if a node is pending, else Gapping from 0."
            Phase::Granting
        } else {
            Phase::Gapping { node: 0 }
        };
        Ok(report)
    }

    fn receive(&mut self, node: u8, signal: Signal) -> Option<Reported> {
        let record = self.node_mut(node);
        let (mode, effect) = record.receive(node, signal);
        record.mode = mode;
        match effect {
            Effect::Nothing => None,
            Effect::Report(report) => Some(Reported { node, report }),
            Effect::Pending => {
                self.pending.set(node);
                None
            }
        }
    }

    /// Kind 8: "bus Granting. The lowest pending node, if any, stops being pending and becomes
    /// holder: Told → Answering, Owed → Spurious, another mode kept. If none is pending after that:
    /// Busy."
    fn grant(&mut self) -> Outcome {
        if self.phase != Phase::Granting {
            return Err(Refusal::NotOpen);
        }
        if let Some(node) = self.pending.lowest(self.n) {
            self.pending.clear(node);
            self.holder.set(node);
            let mode = &mut self.node_mut(node).mode;
            *mode = match *mode {
                Mode::Told => Mode::Answering,
                Mode::Owed => Mode::Spurious,
                kept => kept,
            };
        }
        if !self.pending.any(self.n) {
            self.phase = Phase::Busy;
        }
        Ok(None)
    }

    /// Kind 9: "bus Gapping. The next node gets Gap; after node n−1 the bus is Idle."
    fn gap(&mut self) -> Outcome {
        let Phase::Gapping { node } = self.phase else {
            return Err(Refusal::NotOpen);
        };
        let report = self.receive(node, Signal::Gap);
        let next = node + 1;
        if next < self.n {
            self.phase = Phase::Gapping { node: next };
        } else {
            // The mark is "cleared when the bus becomes Idle".
            self.phase = Phase::Idle;
            self.concatenated = false;
        }
        Ok(report)
    }

    /// Kind 10: "bus Idle with some won mark; clears these marks."
    fn reset(&mut self) -> Outcome {
        if self.phase != Phase::Idle || !self.won.any(self.n) {
            return Err(Refusal::NotOpen);
        }
        self.won.clear_all(self.n);
        Ok(None)
    }

    /// "Answering and Holding put out Prefix and stay: a *filler* clock."
    pub fn is_filler(&self, action: Action) -> bool {
        match action {
            Action::Clock { node } => {
                matches!(self.node(node).mode, Mode::Answering | Mode::Holding)
            }
            _ => false,
        }
    }

    /// "A *forward* action is an accepted one that is not kind 2, not 10, not a kind 1 into a
    /// buffer, not a filler clock." "Kind 11 is no forward action and kind 12 is one". To be called
    /// with an action that is open on this bus.
    pub fn is_forward(&self, action: Action) -> bool {
        match action {
            Action::Arbitrate { .. } | Action::Reset | Action::Ask { .. } => false,
            Action::Request { node, .. } => self.node(node).mode == Mode::Holding,
            _ => !self.is_filler(action),
        }
    }

    /// "*Open*: it would be accepted as the next action." Found by trying it.
    pub fn is_open(&self, action: Action) -> bool {
        self.clone().play(&action.into()).is_ok()
    }
}
