//! Demand 3 watched on a run, by books kept straight from "The words of demand 3".

use super::{asking, forward};
use crate::bus::{
    Action, Bus, Mode, Outcome, Packet, Phase, Reading, Record, Refusal, Report, Reported, Signal,
};

/// What was broken, in words.
pub type Violation = String;

/// A report good, dcrc or broad.
#[derive(Clone, Copy)]
struct Told {
    when: usize,
    node: u8,
    report: Report,
}

/// A report drop.
#[derive(Clone, Copy)]
struct Dropped {
    node: u8,
    left: Reading,
}

/// An accepted respond.
#[derive(Clone, Copy)]
struct Respond {
    when: usize,
    node: u8,
    ack: u8,
}

/// A request that has started.
#[derive(Clone, Copy)]
struct Started {
    packet: Packet,
    /// How many times nodes were told, how many responds accepted, and how many times nodes
    /// dropped, before it started.
    told: usize,
    responds: usize,
    drops: usize,
    confirmations: usize,
}

/// The books of one node.
#[derive(Clone, Copy, Default)]
struct Books {
    /// "its node's last accepted respond had hold 1 and no request of that node was accepted since"
    starts_at_once: bool,
    /// Accepted and not started.
    waiting: Option<Packet>,
    /// "the request that its node started last"
    last: Option<Started>,
    /// A request started before that one got another number of confirmations than one, and as all
    /// later ones belong to requests started later, that stays so.
    unsettled: bool,
}

#[derive(Clone)]
pub struct Watch {
    pub bus: Bus,
    /// How many actions were handed in.
    when: usize,
    told: Vec<Told>,
    responds: Vec<Respond>,
    drops: Vec<Dropped>,
    /// How many requests have started at once since the last `won`.
    replies: usize,
    books: Vec<Books>,
}

impl Watch {
    /// "The first is handed the fresh bus for n, each later one the state that the step before
    /// returned".
    pub fn new(bus: Bus) -> Watch {
        let books = vec![Books::default(); bus.n.into()];
        let (told, responds, drops) = (Vec::new(), Vec::new(), Vec::new());
        Watch { bus, when: 0, told, responds, drops, replies: 0, books }
    }

    /// Plays one action and looks at everything that demand 3 says.
    pub fn step(&mut self, record: &Record) -> Result<Outcome, Violation> {
        let before = self.bus.clone();
        let outcome = self.bus.step(record);
        self.when += 1;
        match outcome {
            Ok(reported) => {
                let action = record
                    .look(before.n)
                    .map_err(|refusal| format!("accepted though refusal {}", refusal.number()))?;
                self.look_at_drops(&before, action, reported)?;
                self.enter_action(action)?;
                if let Some(reported) = reported {
                    self.enter_report(reported)?;
                }
            }
            Err(Refusal::State) => return Err("the step before left no state: 12".into()),
            Err(_) if self.bus != before => return Err("a refused action left its mark".into()),
            Err(_) => (),
        }
        self.look()?;
        Ok(outcome)
    }

    fn enter_action(&mut self, action: Action) -> Result<(), Violation> {
        match action {
            Action::Respond { node, ack, hold } => {
                self.responds.push(Respond { when: self.when, node, ack });
                self.books[usize::from(node)].starts_at_once = hold;
            }
            // "A request *starts* at once if its node's last accepted respond had hold 1 and no
            // request of that node was accepted since. Any other starts with its node's next `won`"
            Action::Request { node, packet } => {
                let books = &mut self.books[usize::from(node)];
                if std::mem::take(&mut books.starts_at_once) {
                    self.start(node, packet);
                    self.replies += 1;
                } else if books.waiting.replace(packet).is_some() {
                    return Err(format!("node {node}: one buffer for two waiting requests"));
                }
            }
            _ => (),
        }
        Ok(())
    }

    fn start(&mut self, node: u8, packet: Packet) {
        let (told, responds) = (self.told.len(), self.responds.len());
        let drops = self.drops.len();
        let books = &mut self.books[usize::from(node)];
        if books.last.is_some_and(|last| last.confirmations != 1) {
            books.unsettled = true;
        }
        books.last = Some(Started { packet, told, responds, drops, confirmations: 0 });
    }

    fn enter_report(&mut self, reported: Reported) -> Result<(), Violation> {
        let Reported { node, report } = reported;
        if report.tells() {
            self.told.push(Told { when: self.when, node, report });
        }
        if let Report::Drop { left } = report {
            self.drops.push(Dropped { node, left });
        }
        if report == Report::Won {
            self.replies = 0;
            if let Some(packet) = self.books[usize::from(node)].waiting.take() {
                self.start(node, packet);
            }
        }
        if report.is_confirmation() {
            // "It belongs to the request that its node started last."
            let Some(last) = &mut self.books[usize::from(node)].last else {
                return Err(format!("node {node}: {} with no request started", report.word()));
            };
            last.confirmations += 1;
            let last = *last;
            // "A confirmation […] bears the label of its own request".
            let own = last.packet.head.label;
            if report.label() != Some(own) {
                return Err(format!("node {node}: {report:?}, and its request has label {own}"));
            }
            if let Report::Ack { ack, .. } = report {
                self.look_at_ack(last, ack)
                    .map_err(|why| format!("node {node}: ack {ack}: {why}"))?;
            }
        }
        Ok(())
    }

    /// "From a request's start to its `ack a` there is exactly one of these on the whole bus: the
    /// addressed node's, `good h d` or `dcrc h`, with the request's own header and data. In that
    /// stretch exactly one respond is accepted: that node's, after it was told, with a." "[…] the
    /// told report before an `ack a`, bears the label of its own request".
    fn look_at_ack(&self, request: Started, ack: u8) -> Result<(), Violation> {
        let [told] = self.told[request.told..] else {
            let count = self.told.len() - request.told;
            return Err(format!("{count} times told since the request started"));
        };
        let Packet { address, head, data } = request.packet;
        if told.node != address {
            return Err(format!("node {} was told, not {address}", told.node));
        }
        if told.report != (Report::Good { head, data }) && told.report != (Report::Dcrc { head }) {
            return Err(format!("told {:?}, not of the packet", told.report));
        }
        let [respond] = self.responds[request.responds..] else {
            let count = self.responds.len() - request.responds;
            return Err(format!("{count} responds since the request started"));
        };
        if respond.node != address || respond.ack != ack || respond.when <= told.when {
            return Err(format!(
                "the respond is node {}'s with {}, at {} when it was told at {}",
                respond.node, respond.ack, respond.when, told.when
            ));
        }
        // What was dropped is not acknowledged.
        match self.drops[request.drops..].iter().find(|dropped| dropped.node == address) {
            Some(Dropped { left, .. }) => {
                Err(format!("node {address} dropped in {left:?} since the request started"))
            }
            None => Ok(()),
        }
    }

    /// A drop is reported where a node drops, by that node, and nowhere else.
    fn look_at_drops(
        &self,
        before: &Bus,
        action: Action,
        reported: Option<Reported>,
    ) -> Result<(), Violation> {
        for node in 0..before.n {
            let dropped = drops(before, action, node, self.bus.node(node).mode);
            let said = match reported {
                Some(Reported { node: who, report: Report::Drop { left } }) if who == node => {
                    Some(left)
                }
                _ => None,
            };
            if dropped != said {
                return Err(format!("node {node}: dropped in {dropped:?}, reported {said:?}"));
            }
        }
        Ok(())
    }

    /// What holds after each action, and of a fresh bus.
    pub fn look(&self) -> Result<(), Violation> {
        asking::look(&self.bus, self.when)?;
        // "until then the buffer holds its address, header and data", and its label with them
        for (node, books) in (0..self.bus.n).zip(&self.books) {
            if books.waiting.is_some() && self.bus.node(node).buffer != books.waiting {
                return Err(format!("node {node}: the buffer does not hold the waiting request"));
            }
        }
        // "While it is set, respond with hold 1 is not open": after a win there is one reply at
        // most, and none to it.
        if self.replies > 1 {
            return Err("a second reply since the last won".into());
        }
        if self.bus.phase == Phase::Idle {
            self.look_idle()
        } else if forward::some_open(&self.bus) {
            Ok(())
        } else {
            Err("not idle, and no forward action is open".into())
        }
    }

    /// "If it is idle, every node rests, and each accepted request has had exactly one confirmation
    /// or still waits in its buffer with none." And no reply is still to follow.
    fn look_idle(&self) -> Result<(), Violation> {
        if self.bus.concatenated {
            return Err("idle, and the mark of a reply to follow is set".into());
        }
        for (node, books) in (0..self.bus.n).zip(&self.books) {
            // "an Idle bus may have nodes in Rest or Asked"
            if !matches!(self.bus.node(node).mode, Mode::Rest | Mode::Asked) {
                return Err(format!("idle, and node {node} does not rest"));
            }
            if books.unsettled || books.last.is_some_and(|last| last.confirmations != 1) {
                return Err(format!("idle, and a request of node {node} has not one confirmation"));
            }
        }
        Ok(())
    }
}

/// The mode that a node leaves by dropping a packet, if it drops one. "When a node in Opened through
/// the Tail modes goes to Wait or Owed, the report becomes `drop` and the name of the mode it left.
/// A Gap to Rest is no drop, nor is a Dest of another node met in Addressed. TailAll with bad data
/// reports drop TailAll on End or Prefix too, though it goes to Rest."
fn drops(before: &Bus, action: Action, node: u8, after: Mode) -> Option<Reading> {
    let mode = before.node(node).mode;
    let left = match mode {
        Mode::Opened => Reading::Opened,
        Mode::Addressed => Reading::Addressed,
        Mode::HeadOwn => Reading::HeadOwn,
        Mode::HeadAll => Reading::HeadAll,
        Mode::BodyOwn { .. } => Reading::BodyOwn,
        Mode::BodyAll { .. } => Reading::BodyAll,
        Mode::TailOwn { .. } => Reading::TailOwn,
        Mode::TailAll { .. } => Reading::TailAll,
        _ => return None,
    };
    let signal = before.arrival(action).ok().and_then(|(_, signal)| signal);
    let drops = match (mode, signal, after) {
        (Mode::Addressed, Some(Signal::Dest(_)), Mode::Wait) => false,
        (Mode::TailAll { data: None, .. }, Some(Signal::End | Signal::Prefix), Mode::Rest) => true,
        (_, _, Mode::Wait | Mode::Owed) => true,
        _ => false,
    };
    drops.then_some(left)
}
