//! A trial looked at from outside: each sentence of request 8 on the actions of its run, from the
//! settings and what the bus reports. None of the numbers that a trial keeps is here: a spell is a
//! time at which it is over, and losses, fillers and requests are counted over the whole run.

use std::collections::BTreeMap;
use std::ops::Range;

use super::hits::Hits;
use crate::bus::{
    Action, Bus, Mode, Packet, Phase, Reading, Record, Report, Reported, Signal, ALL_NODES,
    MOST_NODES,
};
use crate::runfile;
use crate::trial::{Settings, Tally, User};

/// Looks at a whole run, and enters the branches of the rules that it takes.
pub fn look(settings: &Settings, records: &[Record], hits: &mut Hits) -> Result<(), String> {
    if records.len() != usize::from(settings.actions) {
        return Err(format!("{} actions, not {}", records.len(), settings.actions));
    }
    let mut outside = Outside::new(settings)?;
    for (index, record) in records.iter().enumerate() {
        outside.step(record).map_err(|why| format!("action {index}: {why}"))?;
    }
    for ((of, name), count) in outside.taken {
        hits.add(branch(of, name), count);
    }
    Ok(())
}

/// The records of a whole run file.
pub fn records(file: &[u8]) -> Result<Vec<Record>, String> {
    let mut reader = runfile::Reader::default();
    let mut records = Vec::new();
    for (place, block) in file.chunks(runfile::BLOCK).enumerate() {
        let (_, actions) = reader
            .block(block)
            .map_err(|refusal| format!("block {place} is refused by {}", refusal.number()))?;
        records.extend(runfile::records(actions));
    }
    Ok(records)
}

/// What the lines of a printed run count: "a request (kind 1)", and the reports.
pub fn counted(text: &[u8]) -> Tally {
    let mut tally = Tally::default();
    for line in String::from_utf8_lossy(text).lines() {
        let words: Vec<&str> = line.split(' ').collect();
        let counter = match words[..] {
            [_, "1", "-"] => &mut tally.requests,
            [_, _, _, "won"] => &mut tally.wins,
            [_, _, _, "sent", _] => &mut tally.sent,
            [_, _, _, "ack", _, _] => &mut tally.ack,
            [_, _, _, "miss", _] => &mut tally.miss,
            [_, _, _, "drop", _] => &mut tally.drops,
            _ => continue,
        };
        *counter += 1;
    }
    tally
}

/// The branches of the rules that trials must take, by rule, and what else they must meet.
const BRANCHES: [(&str, &[&str]); 9] = [
    (
        "rule 1",
        &[
            "pass of a signal that is no Header, Data or Ack",
            "pass of a Header, Data or Ack, period 0",
            "pass of a Header, Data or Ack before the period",
            "lose a Header",
            "lose Data",
            "lose an Ack",
            "lose with period 1",
            "lose what comes to a node in Wait",
        ],
    ),
    ("rule 2", &["grant"]),
    ("rule 3", &["gap"]),
    (
        "rule 4",
        &[
            "respond without fillers",
            "respond after fillers",
            "respond with hold 1",
            "respond with hold 0, the user holds, the mark is set",
            "respond with hold 0, the user releases",
            "respond with hold 0, the user releases, the mark is set",
            "request in Holding, to the node that listens",
            "request in Holding, to a node that does not listen",
            "request in Holding, to all",
            "clock in Sending",
            "clock in Answering",
            "clock in Acking",
            "clock in Spurious",
        ],
    ),
    (
        "rule 5",
        &[
            "a, a user that has not won yet",
            "a, a user with spell 0",
            "a, a spell that is just over",
            "a, a spell that was over before",
            "b, the only node that can win",
            "b, the lowest of several",
            "c, all buffers full",
            "c, some buffers full",
            "c, all buffers empty",
            "d, for one spell",
            "d, for several spells",
        ],
    ),
    ("report", &["won", "sent", "ack", "miss", "good", "broad", "drop"]),
    ("drop", &["HeadOwn", "HeadAll", "BodyOwn", "BodyAll"]),
    ("end of a reply", &["sent", "ack", "miss"]),
    ("label", &["once more, after 64 requests"]),
];

fn branch(of: &str, name: &str) -> String {
    format!("{of}: {name}")
}

/// All that trials must hit.
pub fn branches() -> Vec<String> {
    let all = |(of, names): (&str, &[&str])| -> Vec<String> {
        names.iter().map(|name| branch(of, name)).collect()
    };
    BRANCHES.into_iter().flat_map(all).collect()
}

/// One number for each node.
type Each = [u64; MOST_NODES];

struct Outside<'a> {
    settings: &'a Settings,
    bus: Bus,
    /// Actions so far, and what was waited.
    time: u64,
    /// When the spell of each user is over: at the start, if it has not won yet.
    over: Each,
    has_won: [bool; MOST_NODES],
    /// Header, Data and Ack signals that came to each node so far.
    came: Each,
    /// Fillers since its last respond.
    fillers: Each,
    requests: Each,
    /// The request that each node started last: what it must end in, if that is known, and whether
    /// it is a reply.
    last: [(Option<&'static str>, bool); MOST_NODES],
    /// Requests that were started, and their confirmations.
    started: u64,
    confirmed: u64,
    taken: BTreeMap<(&'static str, &'static str), u64>,
}

fn expect(right: bool, why: impl FnOnce() -> String) -> Result<(), String> {
    match right {
        true => Ok(()),
        false => Err(why()),
    }
}

/// What a request to this address ends in, whatever is lost: "one to 63 ends in `sent`".
fn known_end(address: u8) -> Option<&'static str> {
    (address == ALL_NODES).then_some("sent")
}

impl<'a> Outside<'a> {
    fn new(settings: &'a Settings) -> Result<Outside<'a>, String> {
        let bus = Bus::fresh(settings.n).map_err(|_| format!("n is {}", settings.n))?;
        Ok(Outside {
            settings,
            bus,
            time: 0,
            over: [0; MOST_NODES],
            has_won: [false; MOST_NODES],
            came: [0; MOST_NODES],
            fillers: [0; MOST_NODES],
            requests: [0; MOST_NODES],
            last: [(None, false); MOST_NODES],
            started: 0,
            confirmed: 0,
            taken: BTreeMap::new(),
        })
    }

    fn take(&mut self, of: &'static str, name: &'static str) {
        *self.taken.entry((of, name)).or_default() += 1;
    }

    fn nodes(&self) -> Range<u8> {
        0..self.bus.n
    }

    fn user(&self, node: u8) -> &User {
        self.settings.user(node)
    }

    fn is_full(&self, node: u8) -> bool {
        self.bus.node(node).buffer.is_some()
    }

    /// "a user past its spell has an empty buffer"
    fn may_ask(&self, node: u8) -> bool {
        !self.is_full(node) && self.over[usize::from(node)] <= self.time
    }

    /// A full buffer that "lacks the won mark".
    fn may_win(&self, node: u8) -> bool {
        self.is_full(node) && !self.bus.won.has(node)
    }

    /// "Only waiting is left": an Idle bus, on which nobody may ask, has a packet, or has won.
    fn only_waiting(&self) -> bool {
        let waits = |node| !self.may_ask(node) && !self.is_full(node) && !self.bus.won.has(node);
        self.bus.phase == Phase::Idle && self.nodes().all(waits)
    }

    fn step(&mut self, record: &Record) -> Result<(), String> {
        let refused = |number| format!("{record:?} is refused by {number}");
        let action = record.look(self.bus.n).map_err(|refusal| refused(refusal.number()))?;
        self.before(action)?;
        // "each of them open when chosen"
        let reported = self.bus.act(action).map_err(|refusal| refused(refusal.number()))?;
        self.time += 1;
        if let Some(reported) = reported {
            self.hear(reported)?;
        }
        match self.bus.phase {
            Phase::Idle => self.idle(),
            Phase::Busy => self.one_holder(),
            _ => Ok(()),
        }
    }

    /// An action by the sentences about its kind, before it is played.
    fn before(&mut self, action: Action) -> Result<(), String> {
        match action {
            Action::Request { node, packet } => self.request(node, packet)?,
            Action::Arbitrate { node } => self.arbitrate(node)?,
            Action::Respond { node, ack, hold } => self.respond(node, ack, hold)?,
            Action::Clock { node } => self.clock(node)?,
            Action::Pass | Action::Lose => self.deliver(action)?,
            Action::Grant => self.take("rule 2", "grant"),
            Action::Gap => self.take("rule 3", "gap"),
            Action::Reset => self.reset()?,
            // "uses no kind 7, 11 or 12"
            Action::Change { .. } | Action::Ask { .. } | Action::Decide { .. } => {
                return Err(format!("{action:?} in a trial"))
            }
        }
        Ok(())
    }

    fn request(&mut self, node: u8, packet: Packet) -> Result<(), String> {
        let made = self.requests[usize::from(node)];
        let Packet { address, head, data } = packet;
        let said: [u64; 4] = [address.into(), head.header.into(), head.label.into(), data.into()];
        let right = [self.user(node).address.into(), node.into(), made % 64, made];
        expect(said == right, || format!("request {made} of node {node} is {packet:?}"))?;
        self.requests[usize::from(node)] += 1;
        if made >= 64 {
            self.take("label", "once more, after 64 requests");
        }
        match self.bus.node(node).mode {
            Mode::Holding => self.reply(node, address),
            _ => self.fill(node)?,
        }
        Ok(())
    }

    /// "Only a node that got the acknowledgement listens for it, so a reply to any other node ends in
    /// `miss`".
    fn reply(&mut self, node: u8, address: u8) {
        let unheard = address != ALL_NODES && self.bus.node(address).mode != Mode::Listening;
        let to = match address {
            ALL_NODES => "request in Holding, to all",
            _ if unheard => "request in Holding, to a node that does not listen",
            _ => "request in Holding, to the node that listens",
        };
        self.take("rule 4", to);
        self.start(node, known_end(address).or(unheard.then_some("miss")), true);
    }

    fn start(&mut self, node: u8, end: Option<&'static str>, is_reply: bool) {
        self.last[usize::from(node)] = (end, is_reply);
        self.started += 1;
    }

    /// "no request into a buffer before its spell is over"; "where only waiting is left, idle spells
    /// run down without an action"
    fn fill(&mut self, node: u8) -> Result<(), String> {
        expect(self.bus.phase == Phase::Idle, || "a request, and the bus is not Idle".into())?;
        if self.only_waiting() {
            let over = self.nodes().map(|node| self.over[usize::from(node)]);
            self.time = over.min().unwrap_or(self.time);
            let together = self.nodes().filter(|&node| self.may_ask(node)).count();
            let several = together > 1;
            self.take("rule 5", if several { "d, for several spells" } else { "d, for one spell" });
        } else {
            self.take("rule 5", self.asks(node));
        }
        let lowest = self.nodes().find(|&node| self.may_ask(node));
        expect(lowest == Some(node), || format!("{lowest:?} may ask, and {node} does"))
    }

    /// How a node comes to ask without waiting.
    fn asks(&self, node: u8) -> &'static str {
        let place = usize::from(node);
        match (self.has_won[place], self.user(node).spell) {
            (false, _) => "a, a user that has not won yet",
            (true, 0) => "a, a user with spell 0",
            _ if self.over[place] == self.time => "a, a spell that is just over",
            _ => "a, a spell that was over before",
        }
    }

    /// "does neither while a user past its spell has an empty buffer"
    fn nobody_asks(&self) -> Result<(), String> {
        let asks = self.nodes().find(|&node| self.may_ask(node));
        expect(asks.is_none(), || format!("{asks:?} is past its spell, and its buffer is empty"))
    }

    /// "It arbitrates only to win": an Idle bus, on which the node may.
    fn arbitrate(&mut self, node: u8) -> Result<(), String> {
        self.nobody_asks()?;
        expect(self.bus.phase == Phase::Idle, || "it loses on a bus that is not Idle".into())?;
        let may_win: Vec<u8> = self.nodes().filter(|&node| self.may_win(node)).collect();
        expect(may_win.first() == Some(&node), || format!("{may_win:?} may win, {node} tries"))?;
        let alone = may_win.len() == 1;
        let how = if alone { "b, the only node that can win" } else { "b, the lowest of several" };
        self.take("rule 5", how);
        Ok(())
    }

    /// "resets only where no full buffer lacks the won mark"
    fn reset(&mut self) -> Result<(), String> {
        self.nobody_asks()?;
        let lacks = self.nodes().find(|&node| self.may_win(node));
        expect(lacks.is_none(), || format!("{lacks:?} has a full buffer and lacks the won mark"))?;
        let full = self.nodes().filter(|&node| self.is_full(node)).count();
        let how = match full {
            0 => "c, all buffers empty",
            _ if full == usize::from(self.bus.n) => "c, all buffers full",
            _ => "c, some buffers full",
        };
        self.take("rule 5", how);
        Ok(())
    }

    /// "exactly its fillers before each respond"; "hold where open"
    fn respond(&mut self, node: u8, ack: u8, hold: bool) -> Result<(), String> {
        let user = *self.user(node);
        let fillers = std::mem::take(&mut self.fillers[usize::from(node)]);
        expect(ack == 1, || format!("acknowledgement {ack}"))?;
        let filled = fillers == user.fillers.into();
        expect(filled, || format!("{fillers} fillers of node {node}, not {}", user.fillers))?;
        let open = self.bus.is_open(Action::Respond { node, ack, hold: true });
        expect(hold == (user.hold && open), || format!("hold is {hold} of node {node}"))?;
        let after = if fillers > 0 { "respond after fillers" } else { "respond without fillers" };
        self.take("rule 4", after);
        let how = match (user.hold, open) {
            (true, true) => "respond with hold 1",
            (true, false) => "respond with hold 0, the user holds, the mark is set",
            (false, true) => "respond with hold 0, the user releases",
            (false, false) => "respond with hold 0, the user releases, the mark is set",
        };
        self.take("rule 4", how);
        Ok(())
    }

    /// "and no others": no fillers more, and none in Holding.
    fn clock(&mut self, node: u8) -> Result<(), String> {
        let mode = self.bus.node(node).mode;
        if mode == Mode::Answering {
            self.fillers[usize::from(node)] += 1;
            let (fillers, most) = (self.fillers[usize::from(node)], self.user(node).fillers);
            expect(fillers <= most.into(), || format!("filler {fillers} of node {node}"))?;
        }
        let how = match mode {
            Mode::Sending { .. } => "clock in Sending",
            Mode::Answering => "clock in Answering",
            Mode::Acking { .. } => "clock in Acking",
            Mode::Spurious => "clock in Spurious",
            _ => return Err(format!("clock of node {node} in {mode:?}")),
        };
        self.take("rule 4", how);
        Ok(())
    }

    /// "just those losses": "each m-th Header, Data or Ack delivered to it lost (0: none)"
    fn deliver(&mut self, action: Action) -> Result<(), String> {
        let Phase::Delivering { signal, receiver, .. } = self.bus.phase else {
            return Err("nothing is under way".into());
        };
        let lost = action == Action::Lose;
        if !signal.carries_check() {
            self.take("rule 1", "pass of a signal that is no Header, Data or Ack");
            return expect(!lost, || format!("{signal:?} is lost"));
        }
        self.came[usize::from(receiver)] += 1;
        let came = self.came[usize::from(receiver)];
        let period = u64::from(self.user(receiver).period);
        let is_due = came.checked_rem(period) == Some(0);
        expect(lost == is_due, || format!("lost is {lost}, number {came} to node {receiver}"))?;
        let how = match (lost, signal) {
            (true, Signal::Header(..)) => "lose a Header",
            (true, Signal::Data(..)) => "lose Data",
            (true, _) => "lose an Ack",
            (false, _) if period == 0 => "pass of a Header, Data or Ack, period 0",
            (false, _) => "pass of a Header, Data or Ack before the period",
        };
        self.take("rule 1", how);
        if lost && period == 1 {
            self.take("rule 1", "lose with period 1");
        }
        if lost && self.bus.node(receiver).mode == Mode::Wait {
            self.take("rule 1", "lose what comes to a node in Wait");
        }
        Ok(())
    }

    /// A report, by what is said of reports.
    fn hear(&mut self, reported: Reported) -> Result<(), String> {
        let Reported { node, report } = reported;
        self.take("report", report.word());
        match report {
            // "`dcrc` and `lost` never come."
            Report::Lost | Report::Dcrc { .. } => return Err(format!("{report:?}")),
            Report::Won => self.win(node),
            Report::Sent { .. } | Report::Ack { .. } | Report::Miss { .. } => {
                self.confirm(node, report)?
            }
            Report::Drop { left } => self.drops(left)?,
            Report::Good { .. } | Report::Broad { .. } => (),
        }
        Ok(())
    }

    fn win(&mut self, node: u8) {
        let address = self.bus.node(node).sending.address;
        self.start(node, known_end(address), false);
        self.has_won[usize::from(node)] = true;
        self.over[usize::from(node)] = self.time + u64::from(self.user(node).spell);
    }

    fn confirm(&mut self, node: u8, report: Report) -> Result<(), String> {
        self.confirmed += 1;
        let (end, is_reply) = self.last[usize::from(node)];
        let right = end.unwrap_or(report.word());
        expect(right == report.word(), || format!("{report:?} of node {node}, not {right}"))?;
        if is_reply {
            self.take("end of a reply", report.word());
        }
        Ok(())
    }

    /// A packet is dropped for a loss alone, so in no other mode: no Dest is changed and no data are
    /// bad, and whoever could take an acknowledgement for a packet is in Wait.
    fn drops(&mut self, left: Reading) -> Result<(), String> {
        self.take("drop", left.name());
        match left {
            Reading::HeadOwn | Reading::HeadAll | Reading::BodyOwn | Reading::BodyAll => Ok(()),
            _ => Err(format!("drop in {left:?}")),
        }
    }

    /// "On an Idle bus requests = sent + ack + miss + full buffers; wins and replies together are the
    /// requests that were started." "Idle: every node rests."
    fn idle(&self) -> Result<(), String> {
        let (started, confirmed) = (self.started, self.confirmed);
        let requests: u64 = self.requests.iter().sum();
        let full = self.nodes().filter(|&node| self.is_full(node)).count() as u64;
        expect(requests == confirmed + full && started == confirmed, || {
            format!("{requests} requests, {started} started, {confirmed} confirmed, {full} wait")
        })?;
        let rests = |node| self.bus.node(node).mode == Mode::Rest;
        expect(self.nodes().all(rests), || "the bus is Idle, and a node does not rest".into())
    }

    /// "a Busy bus has a holder in Spurious, or one holder alone": as no Dest is changed, one alone.
    fn one_holder(&self) -> Result<(), String> {
        let holders = self.bus.holder.nodes(self.bus.n).count();
        expect(holders == 1, || format!("the bus is Busy with {holders} holders"))
    }
}
