//! "Load trials" (request 8), by docs/TRIALS.md: a user at each node of a fresh bus, and a fixed rule
//! that chooses each next action.

use std::fmt;

use crate::bus::{
    is_address, Action, Bus, Head, Mode, Packet, Phase, Record, Refusal, Report, Reported,
    MOST_NODES,
};
use crate::runfile;

/// "Acknowledgement 1 is the standard's ack_complete."
const ACK: u8 = 1;

/// "For each node below n its user's five settings."
#[derive(Clone, Copy, PartialEq, Eq, Debug, Default)]
pub struct User {
    /// "after each win, so many actions pass before the user asks for the bus again"
    pub spell: u8,
    /// "where its requests go, replies too"
    pub address: u8,
    /// "so many filler clocks before each of its answers"
    pub fillers: u8,
    /// "it answers with hold 1 where that is open, else (*release*) with hold 0"
    pub hold: bool,
    /// "of the Header, Data and Ack signals that come to the node, each period-th is lost; 0: none"
    pub period: u8,
}

/// "What a trial is given", but for the tally.
#[derive(Clone, PartialEq, Eq, Debug)]
pub struct Settings {
    pub n: u8,
    /// "What is set for other nodes is not read."
    pub users: [User; MOST_NODES],
    pub actions: u16,
}

impl Settings {
    /// Of all nodes nothing is said. So all send to node 0, and node 0 has still to send elsewhere.
    pub fn new(n: u8, actions: u16) -> Settings {
        Settings { n, users: [User::default(); MOST_NODES], actions }
    }

    pub fn user(&self, node: u8) -> &User {
        &self.users[usize::from(node)]
    }

    /// "A trial is refused by the first of these that holds": 1, 5, 15, 11. "So 5 is looked at for all
    /// nodes before 15 is for any." The fresh bus if none holds.
    pub fn look(&self) -> Result<Bus, Refusal> {
        let bus = Bus::fresh(self.n)?;
        let addresses = || (0..self.n).map(|node| (node, self.user(node).address));
        if addresses().any(|(_, address)| !is_address(address, self.n)) {
            return Err(Refusal::Address);
        }
        if addresses().any(|(node, address)| address == node) {
            return Err(Refusal::ToItself);
        }
        if self.actions == 0 {
            return Err(Refusal::BlockContent);
        }
        Ok(bus)
    }
}

/// "at most 1 for each action, so 16 bits hold each counter"
#[derive(Clone, Copy, PartialEq, Eq, Debug, Default)]
pub struct Tally {
    pub requests: u16,
    pub wins: u16,
    pub sent: u16,
    pub ack: u16,
    pub miss: u16,
    pub drops: u16,
}

impl Tally {
    /// "Nothing else changes it."
    fn enter(&mut self, action: Action, report: Option<Report>) {
        if matches!(action, Action::Request { .. }) {
            self.requests += 1;
        }
        match report {
            Some(Report::Won) => self.wins += 1,
            Some(Report::Sent { .. }) => self.sent += 1,
            Some(Report::Ack { .. }) => self.ack += 1,
            Some(Report::Miss { .. }) => self.miss += 1,
            Some(Report::Drop { .. }) => self.drops += 1,
            _ => (),
        }
    }
}

/// "one word and its number a line, in this order"
impl fmt::Display for Tally {
    fn fmt(&self, out: &mut fmt::Formatter<'_>) -> fmt::Result {
        writeln!(out, "requests {}", self.requests)?;
        writeln!(out, "wins {}", self.wins)?;
        writeln!(out, "sent {}", self.sent)?;
        writeln!(out, "ack {}", self.ack)?;
        writeln!(out, "miss {}", self.miss)?;
        writeln!(out, "drops {}", self.drops)
    }
}

/// "four numbers for each user, all 0 at first"
#[derive(Clone, Copy, Default)]
struct Kept {
    /// "how much of its spell is left, in actions; at 0 the spell is *over*"
    left: u8,
    /// "Header, Data and Ack signals that came to it since the last loss"
    heard: u8,
    /// "fillers that it has made for the answer that it owes"
    filled: u8,
    /// "requests that it has made"
    made: u16,
}

/// A trial on its way.
struct Trial<'a> {
    settings: &'a Settings,
    bus: Bus,
    kept: [Kept; MOST_NODES],
}

impl<'a> Trial<'a> {
    fn new(settings: &'a Settings) -> Result<Trial<'a>, Refusal> {
        let bus = settings.look()?;
        Ok(Trial { settings, bus, kept: [Kept::default(); MOST_NODES] })
    }

    fn kept(&self, node: u8) -> &Kept {
        &self.kept[usize::from(node)]
    }

    fn kept_mut(&mut self, node: u8) -> &mut Kept {
        &mut self.kept[usize::from(node)]
    }

    /// Those of the nodes that there are.
    fn all_kept(&mut self) -> &mut [Kept] {
        &mut self.kept[..usize::from(self.bus.n)]
    }

    /// "*Lowest* goes by node number."
    fn lowest(&self, is: impl Fn(u8) -> bool) -> Option<u8> {
        (0..self.bus.n).find(|&node| is(node))
    }

    /// "So each turn is: wait (nothing happens unless only waiting is left), choose (nothing changes),
    /// step, and what follows."
    fn turn(&mut self, tally: &mut Tally) -> Action {
        self.wait();
        let action = self.choose();
        let (came_to, fills) = (self.comes_to(), self.fills(action));
        let reported = self.bus.act(action).expect("an action that is chosen is open");
        self.hear(came_to);
        self.count(action, fills);
        self.run_down(reported);
        tally.enter(action, reported.map(|reported| reported.report));
        action
    }

    /// 5d: "Every left falls by the least of them, without an action; then a finds a node."
    fn wait(&mut self) {
        if self.bus.phase == Phase::Idle && self.idle().is_none() {
            let least = self.all_kept().iter().map(|kept| kept.left).min().unwrap_or(0);
            self.all_kept().iter_mut().for_each(|kept| kept.left -= least);
        }
    }

    /// "The bus's phase says which of the five rules chooses."
    fn choose(&self) -> Action {
        match self.bus.phase {
            Phase::Delivering { .. } => self.deliver(),
            Phase::Granting => Action::Grant,
            Phase::Gapping { .. } => Action::Gap,
            Phase::Busy => self.busy(),
            Phase::Idle => self.idle().expect("after the waiting a finds a node"),
        }
    }

    /// "kind 1 of node i, to its user's address, with header i, data *made* and label *made* modulo 64"
    fn request(&self, node: u8) -> Action {
        let made = self.kept(node).made;
        let head = Head { header: node.into(), label: (made % 64) as u8 };
        let address = self.settings.user(node).address;
        Action::Request { node, packet: Packet { address, head, data: made.into() } }
    }

    /// The node to which a Header, Data or Ack comes next.
    fn comes_to(&self) -> Option<u8> {
        match self.bus.phase {
            Phase::Delivering { signal, receiver, .. } if signal.carries_check() => Some(receiver),
            _ => None,
        }
    }

    /// 1: "lose, if the signal is a Header, Data or Ack and the next receiver's heard + 1 is its
    /// period; else pass"
    fn deliver(&self) -> Action {
        let is_lost = |node| {
            let heard = u16::from(self.kept(node).heard);
            heard + 1 == u16::from(self.settings.user(node).period)
        };
        match self.comes_to().is_some_and(is_lost) {
            true => Action::Lose,
            false => Action::Pass,
        }
    }

    /// 4: "the node i is the lowest holder in Spurious or, if no holder is, the lowest holder"
    fn busy(&self) -> Action {
        let spurious = |node: &u8| self.bus.node(*node).mode == Mode::Spurious;
        let holders = || self.bus.holder.nodes(self.bus.n);
        let node = holders().find(spurious).or(holders().next());
        let node = node.expect("a Busy bus has a holder");
        let user = self.settings.user(node);
        match self.bus.node(node).mode {
            // "with hold 1 if its user holds and the bus's mark is clear […], else with hold 0"
            Mode::Answering if self.kept(node).filled == user.fillers => {
                Action::Respond { node, ack: ACK, hold: user.hold && !self.bus.concatenated }
            }
            Mode::Holding => self.request(node),
            _ => Action::Clock { node },
        }
    }

    /// 5: "the first of these that is so", a, b or c; none of them is where "Only waiting is left".
    fn idle(&self) -> Option<Action> {
        let full = |node| self.bus.node(node).buffer.is_some();
        let asks = self.lowest(|node| !full(node) && self.kept(node).left == 0);
        let wins = || self.lowest(|node| full(node) && !self.bus.won.has(node));
        let reset = || self.bus.won.any(self.bus.n).then_some(Action::Reset);
        asks.map(|node| self.request(node))
            .or_else(|| wins().map(|node| Action::Arbitrate { node }))
            .or_else(reset)
    }

    /// Follows, 1: "that node's heard rises by 1, and at the period it goes back to 0", if the period
    /// "is not 0".
    fn hear(&mut self, came_to: Option<u8>) {
        let Some(node) = came_to else {
            return;
        };
        let period = self.settings.user(node).period;
        if period != 0 {
            let kept = self.kept_mut(node);
            kept.heard = (kept.heard + 1) % period;
        }
    }

    /// Whether it is "A clock of a node in Answering".
    fn fills(&self, action: Action) -> bool {
        match action {
            Action::Clock { node } => self.bus.node(node).mode == Mode::Answering,
            _ => false,
        }
    }

    /// Follows, 2.
    fn count(&mut self, action: Action, fills: bool) {
        match action {
            Action::Clock { node } if fills => self.kept_mut(node).filled += 1,
            Action::Respond { node, .. } => self.kept_mut(node).filled = 0,
            Action::Request { node, .. } => self.kept_mut(node).made += 1,
            _ => (),
        }
    }

    /// Follows, 3: "Every left that is not 0 falls by 1. Then, if the report was `won`, the winner's
    /// left becomes its spell."
    fn run_down(&mut self, reported: Option<Reported>) {
        for kept in self.all_kept() {
            kept.left = kept.left.saturating_sub(1);
        }
        if let Some(Reported { node, report: Report::Won }) = reported {
            self.kept_mut(node).left = self.settings.user(node).spell;
        }
    }
}

/// The actions of a trial: "exactly the given number". "The tally starts at 0 too, whatever it held";
/// where the trial is refused it "stays as it was".
pub fn trial(settings: &Settings, tally: &mut Tally) -> Result<Vec<Record>, Refusal> {
    let mut trial = Trial::new(settings)?;
    *tally = Tally::default();
    Ok((0..settings.actions).map(|_| trial.turn(tally).into()).collect())
}

/// The same as a run file.
pub fn run_file(settings: &Settings, tally: &mut Tally) -> Result<Vec<u8>, Refusal> {
    runfile::write_file(settings.n, &trial(settings, tally)?)
}
