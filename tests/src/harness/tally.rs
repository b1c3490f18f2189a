//! What a series of runs has hit, and how often.

use std::fmt::Write;

use super::forward::listener;
use super::ways::{phase_name, Way, KINDS};
use super::workers::Merge;
use crate::bus::{
    Action, Bus, Check, Mode, Phase, Reading, Record, Report, Reported, Signal, ALL_NODES,
};
use crate::table::{class, place, signals, Cell, CLASSES, MODES};

/// Refusals that a file can meet: all but 12 and 14.
const REFUSALS: [u8; 13] = [1, 2, 3, 4, 5, 6, 7, 8, 9, 10, 11, 13, 15];

/// The first three have no label.
const REPORTS: [&str; 9] = ["won", "lost", "drop", "sent", "ack", "miss", "good", "dcrc", "broad"];

/// Each other report with the ends of a label's range, and with something between.
fn labelled() -> impl Iterator<Item = String> {
    let ends = |word| ["0", "1 to 62", "63"].map(|labels| format!("{word}, label {labels}"));
    REPORTS[3..].iter().flat_map(ends)
}

/// Which of these it is.
fn label_of(report: Report) -> Option<String> {
    let labels = match report.label()? {
        0 => "0",
        63 => "63",
        _ => "1 to 62",
    };
    Some(format!("{}, label {labels}", report.word()))
}

/// The cells by which nodes drop packets in runs from a fresh bus: 15 of the chart's 109, and seven
/// of the eight names. A packet's signals come in their order, up to its End, and an
/// acknowledgement's up to its End or Prefix; of these only Header, Data and Ack can fail to come. So
/// - Opened and Addressed are left for Wait by the End or Prefix of an acknowledgement alone, which a
///   node at rest took for a packet, its Ack lost or not;
/// - HeadOwn and HeadAll by a bad Header, by the Data if the Header was lost, and by the End if the
///   Data were lost too; BodyOwn and BodyAll by the End, if the Data were lost;
/// - in TailOwn and TailAll a node gets the End, and nothing else: TailOwn tells, and TailAll drops
///   if the data were bad.
///
/// No Gap comes while a node reads: the End that comes before it ends all reading.
pub const DROPS: [&str; 15] = [
    "Opened on End",
    "Opened on Prefix",
    "Addressed on End",
    "Addressed on Prefix",
    "HeadOwn on End",
    "HeadOwn on Header bad",
    "HeadOwn on Data good",
    "HeadOwn on Data bad",
    "HeadAll on End",
    "HeadAll on Header bad",
    "HeadAll on Data good",
    "HeadAll on Data bad",
    "BodyOwn on End",
    "BodyAll on End",
    "TailAll bad on End",
];

/// The modes by whose names they are reported: all but TailOwn.
const DROPPED: [Reading; 7] = [
    Reading::Opened,
    Reading::Addressed,
    Reading::HeadOwn,
    Reading::HeadAll,
    Reading::BodyOwn,
    Reading::BodyAll,
    Reading::TailAll,
];

/// A cell by its mode's place and its class.
fn cell_name(place: usize, class: usize) -> String {
    format!("{} on {}", MODES[place].0, CLASSES[class])
}

const EVENTS: [&str; 74] = [
    "Dest changed",
    "Dest changed to the sender's own number",
    "Header lost",
    "Header changed",
    "Data lost",
    "Data changed",
    "Ack lost",
    "Ack changed",
    "Header bad for a misled node",
    "filler clock",
    "request into a buffer, bus idle",
    "request into a buffer, bus not idle",
    "request from Holding",
    "respond with hold 0",
    "respond with hold 1",
    "lost by the won mark",
    "reset",
    "several holders",
    "reply begun while the Prefix is under way",
    "reply's Prefix heard in Listening",
    "reply's Dest changed",
    "reply's Header lost",
    "reply's Header changed",
    "reply's Header bad for a misled node",
    "reply's Data lost",
    "reply's Data changed",
    "reply sent",
    "reply told good",
    "reply told dcrc",
    "reply told broad",
    "reply's filler clock in Answering",
    "reply's respond",
    "reply's Spurious clock",
    "reply's Ack lost",
    "reply's Ack changed",
    "reply acknowledged",
    "reply missed on End",
    "reply missed on Gap",
    "reply with a label of its own",
    "reply sent, another label waits",
    "reply acknowledged, another label waits",
    "reply missed, another label waits",
    "told of another label than the node's own",
    "dropped by the addressed node",
    "dropped by a misled node",
    "dropped by one of all nodes",
    "reply dropped by the addressed node",
    "reply dropped by a misled node",
    "reply dropped by one of all nodes",
    "acknowledgement dropped by a third node",
    "asked on Idle",
    "asked on Busy",
    "asked on Delivering",
    "asked on Granting",
    "asked on Gapping",
    "decided on Idle",
    "decided on Busy",
    "decided on Delivering",
    "decided on Granting",
    "decided on Gapping",
    "won by deciding",
    "lost by deciding, bus not idle",
    "lost by deciding, won mark",
    "decided before a lower node that is Asked",
    "decided before a higher node that is Asked",
    "several nodes Asked",
    "idle bus with a node that is Asked",
    "request into a buffer while a node is Asked",
    "arbitrate won while a node is Asked",
    "arbitrate lost while a node is Asked",
    "respond while a node is Asked",
    "ask while another node is Asked",
    "decide won while another node is Asked",
    "decide lost while another node is Asked",
];

/// The cells of the reception chart (mode and signal, 350 of them) that were met.
#[derive(Clone)]
pub struct Cells([[bool; CLASSES.len()]; MODES.len()]);

impl Default for Cells {
    fn default() -> Cells {
        Cells([[false; CLASSES.len()]; MODES.len()])
    }
}

impl Cells {
    /// The cell of an action that is open on this bus, if a signal is received: place and class.
    fn met(bus: &Bus, action: Action) -> Option<(usize, usize)> {
        let (node, signal) = match (action, bus.phase) {
            (Action::Gap, Phase::Gapping { node }) => (node, Signal::Gap),
            _ => match bus.arrival(action) {
                Ok((node, Some(signal))) => (node, signal),
                _ => return None,
            },
        };
        Some((place(bus.node(node).mode), class(node, signal)))
    }

    /// Enters that cell.
    pub fn enter(&mut self, bus: &Bus, action: Action) {
        if let Some((place, class)) = Cells::met(bus, action) {
            self.0[place][class] = true;
        }
    }

    pub fn merge(&mut self, other: &Cells) {
        for (row, other) in self.0.iter_mut().zip(&other.0) {
            for (cell, other) in row.iter_mut().zip(other) {
                *cell |= other;
            }
        }
    }

    pub fn count(&self) -> usize {
        self.0.iter().flatten().filter(|&&met| met).count()
    }

    /// Those that report a drop, by name.
    pub fn drops(&self) -> Vec<String> {
        const OWN: u8 = 0;
        let mut names = Vec::new();
        for (place, row) in self.0.iter().enumerate() {
            for (class, signal) in signals(OWN).into_iter().enumerate() {
                let cell = Cell::of(MODES[place].1, OWN, signal);
                if row[class] && cell.report == Some("drop") {
                    names.push(cell_name(place, class));
                }
            }
        }
        names
    }
}

/// Counts by name; the names are those that must be hit.
#[derive(Clone)]
struct Counts {
    title: &'static str,
    names: Vec<String>,
    hits: Vec<u64>,
}

impl Counts {
    fn new(title: &'static str, names: impl IntoIterator<Item = impl ToString>) -> Counts {
        let names: Vec<String> = names.into_iter().map(|name| name.to_string()).collect();
        let hits = vec![0; names.len()];
        Counts { title, names, hits }
    }

    /// One more of this name.
    fn enter(&mut self, name: &str) {
        let place = self.names.iter().position(|known| known == name);
        let place = place.unwrap_or_else(|| panic!("{}: {name} is not among them", self.title));
        self.hits[place] += 1;
    }

    fn missing(&self) -> impl Iterator<Item = String> + '_ {
        let missed = self.names.iter().zip(&self.hits).filter(|(_, &hits)| hits == 0);
        missed.map(|(name, _)| format!("{} {name}", self.title))
    }

    fn print(&self, text: &mut String) {
        let _ = writeln!(text, "{} hit:", self.title);
        for (name, hits) in self.names.iter().zip(&self.hits) {
            let _ = writeln!(text, "  {hits:>9}  {name}");
        }
    }
}

#[derive(Clone)]
pub struct Tally {
    pub files: u64,
    pub actions: u64,
    pub bytes_compared: u64,
    /// Continuations of forward actions that were followed until idle.
    pub continuations: u64,
    /// Those that took 22n, the most that there are.
    pub longest_continuations: u64,
    refusals: Counts,
    reports: Counts,
    labels: Counts,
    dropped: Counts,
    drops: Counts,
    kinds: Counts,
    modes: Counts,
    events: Counts,
    ways: Counts,
    cells: Cells,
}

impl Tally {
    pub fn new() -> Tally {
        Tally {
            files: 0,
            actions: 0,
            bytes_compared: 0,
            continuations: 0,
            longest_continuations: 0,
            refusals: Counts::new("refusals", REFUSALS),
            reports: Counts::new("reports", REPORTS),
            labels: Counts::new("labels reported", labelled()),
            dropped: Counts::new("drops by name", DROPPED.map(Reading::name)),
            drops: Counts::new("drops by cell", DROPS),
            kinds: Counts::new("kinds accepted", 1..=KINDS),
            modes: Counts::new("node modes entered", MODES.map(|(name, _)| name)),
            events: Counts::new("events", EVENTS),
            ways: Counts::new("ways", Way::all()),
            cells: Cells::default(),
        }
    }

    /// A file made in the way with this place in `Way::all()`.
    pub fn enter_way(&mut self, place: usize) {
        self.ways.hits[place] += 1;
    }

    /// The refusal that a printed text ends with, if any.
    pub fn enter_text(&mut self, text: &[u8]) {
        self.files += 1;
        self.bytes_compared += text.len() as u64;
        if let Some(number) = last_refusal(text) {
            self.refusals.enter(&number.to_string());
        }
    }

    /// An accepted action, with the bus as it was before and after.
    pub fn enter_action(
        &mut self,
        before: &Bus,
        record: &Record,
        reported: Option<Reported>,
        after: &Bus,
    ) {
        self.actions += 1;
        self.kinds.hits[usize::from(record.kind) - 1] += 1;
        if let Some(Reported { report, .. }) = reported {
            self.reports.enter(report.word());
            if let Some(name) = label_of(report) {
                self.labels.enter(&name);
            }
            if let Report::Drop { left } = report {
                self.dropped.enter(left.name());
            }
        }
        for node in 0..after.n {
            let (left, entered) = (before.node(node).mode, after.node(node).mode);
            if left != entered && place(left) != place(entered) {
                self.modes.hits[place(entered)] += 1;
            }
        }
        if let Ok(action) = record.look(before.n) {
            self.cells.enter(before, action);
            if let Some(Reported { report: Report::Drop { .. }, .. }) = reported {
                let (place, class) = Cells::met(before, action).expect("a drop has its cell");
                self.drops.enter(&cell_name(place, class));
            }
            let event = event(before, action, reported);
            let of_reply = event_of_reply(before, action, reported);
            let of_labels = event_of_labels(before, action, reported);
            let of_drops = event_of_drops(before, reported);
            for event in [event, of_reply, of_labels, of_drops].into_iter().flatten() {
                self.events.enter(event);
            }
            for event in events_of_asking(before, action, reported) {
                self.events.enter(&event);
            }
            let asked = after.asked().count();
            let others = [
                (changes_to_sender(before, action), "Dest changed to the sender's own number"),
                (after.holder.nodes(after.n).nth(1).is_some(), "several holders"),
                (asked > 1, "several nodes Asked"),
                (asked > 0 && after.phase == Phase::Idle, "idle bus with a node that is Asked"),
            ];
            for (_, event) in others.into_iter().filter(|(hit, _)| *hit) {
                self.events.enter(event);
            }
        }
    }

    fn counts(&self) -> [&Counts; 9] {
        [
            &self.refusals,
            &self.reports,
            &self.labels,
            &self.dropped,
            &self.drops,
            &self.kinds,
            &self.modes,
            &self.events,
            &self.ways,
        ]
    }

    fn counts_mut(&mut self) -> [&mut Counts; 9] {
        [
            &mut self.refusals,
            &mut self.reports,
            &mut self.labels,
            &mut self.dropped,
            &mut self.drops,
            &mut self.kinds,
            &mut self.modes,
            &mut self.events,
            &mut self.ways,
        ]
    }

    /// Everything that should have been hit and was not.
    pub fn missing(&self) -> Vec<String> {
        self.counts().into_iter().flat_map(Counts::missing).collect()
    }

    pub fn print(&self) -> String {
        let mut text = String::new();
        for counts in &self.counts()[..8] {
            counts.print(&mut text);
        }
        self.print_ways(&mut text);
        let _ = writeln!(text, "cells of the reception chart met: {} of 350", self.cells.count());
        let _ = writeln!(
            text,
            "{} files, {} actions accepted, {} bytes of text equal; {} continuations idle within 22n + 2, {} of them after 22n",
            self.files, self.actions, self.bytes_compared, self.continuations, self.longest_continuations
        );
        text
    }
}

impl Tally {
    /// The ways by what they aim at: how many there are, and how many files of each.
    fn print_ways(&self, text: &mut String) {
        let mut groups: Vec<(String, Vec<u64>)> = Vec::new();
        for (way, &hits) in Way::all().into_iter().zip(&self.ways.hits) {
            let aim = way.aim();
            match groups.iter_mut().find(|(known, _)| *known == aim) {
                Some((_, files)) => files.push(hits),
                None => groups.push((aim, vec![hits])),
            }
        }
        let _ = writeln!(text, "ways of making a file:");
        for (aim, files) in groups {
            let ways = files.len();
            let (least, most) =
                (files.iter().min().unwrap_or(&0), files.iter().max().unwrap_or(&0));
            let _ = writeln!(text, "  {ways:>9}  {aim}: {least} to {most} files each");
        }
    }
}

impl Default for Tally {
    fn default() -> Tally {
        Tally::new()
    }
}

impl Merge for Tally {
    fn merge(&mut self, other: Tally) {
        self.files += other.files;
        self.actions += other.actions;
        self.bytes_compared += other.bytes_compared;
        self.continuations += other.continuations;
        self.longest_continuations += other.longest_continuations;
        self.cells.merge(&other.cells);
        let others = other.counts();
        for (counts, other) in self.counts_mut().into_iter().zip(others) {
            for (hits, other) in counts.hits.iter_mut().zip(&other.hits) {
                *hits += other;
            }
        }
    }
}

/// What the list of events calls this accepted action.
fn event(bus: &Bus, action: Action, reported: Option<Reported>) -> Option<&'static str> {
    let signal = match bus.phase {
        Phase::Delivering { signal, .. } => Some(signal),
        _ => None,
    };
    let event = match (action, signal) {
        (Action::Change { .. }, Some(Signal::Dest(_))) => "Dest changed",
        (Action::Lose, Some(Signal::Header(..))) => "Header lost",
        (Action::Change { .. }, Some(Signal::Header(..))) => "Header changed",
        (Action::Lose, Some(Signal::Data(..))) => "Data lost",
        (Action::Change { .. }, Some(Signal::Data(..))) => "Data changed",
        (Action::Lose, Some(Signal::Ack(..))) => "Ack lost",
        (Action::Change { .. }, Some(Signal::Ack(..))) => "Ack changed",
        (Action::Pass, Some(Signal::Header(..)))
            if matches!(bus.arrival(action), Ok((_, Some(Signal::Header(_, Check::Bad))))) =>
        {
            "Header bad for a misled node"
        }
        (Action::Clock { .. }, _) if bus.is_filler(action) => "filler clock",
        (Action::Request { .. }, _) if bus.is_forward(action) => "request from Holding",
        (Action::Request { .. }, _) if bus.phase == Phase::Idle => {
            "request into a buffer, bus idle"
        }
        (Action::Request { .. }, _) => "request into a buffer, bus not idle",
        (Action::Respond { hold: false, .. }, _) => "respond with hold 0",
        (Action::Respond { hold: true, .. }, _) => "respond with hold 1",
        (Action::Arbitrate { .. }, _)
            if bus.phase == Phase::Idle
                && reported.is_some_and(|reported| reported.report == Report::Lost) =>
        {
            "lost by the won mark"
        }
        (Action::Reset, _) => "reset",
        _ => return None,
    };
    Some(event)
}

/// "A Dest may still be changed to the sender's number": only a request may not have it.
fn changes_to_sender(bus: &Bus, action: Action) -> bool {
    match (bus.phase, action) {
        (Phase::Delivering { sender, signal: Signal::Dest(_), .. }, Action::Change { address }) => {
            address == sender
        }
        _ => false,
    }
}

/// What it calls the same action where it befalls a reply. The bus's mark is set from the Prefix
/// that closes an acknowledgement until Idle: after that Prefix, every packet is the reply and every
/// acknowledgement the reply's. Faults on the way to a node in Wait do not count.
fn event_of_reply(bus: &Bus, action: Action, reported: Option<Reported>) -> Option<&'static str> {
    if !bus.concatenated {
        return None;
    }
    let report = reported.map(|reported| reported.report);
    let (signal, receiver) = match bus.phase {
        Phase::Delivering { signal, receiver, .. } => (Some(signal), bus.node(receiver).mode),
        _ => (None, Mode::Wait),
    };
    let event = match (action, signal) {
        (Action::Request { .. }, Some(Signal::Prefix)) if bus.is_forward(action) => {
            "reply begun while the Prefix is under way"
        }
        (Action::Respond { .. }, _) => "reply's respond",
        (Action::Clock { .. }, _) if matches!(report, Some(Report::Sent { .. })) => "reply sent",
        (Action::Clock { node }, _) => match bus.node(node).mode {
            Mode::Answering => "reply's filler clock in Answering",
            Mode::Spurious => "reply's Spurious clock",
            _ => return None,
        },
        (Action::Gap, _) if matches!(report, Some(Report::Miss { .. })) => "reply missed on Gap",
        (Action::Pass, Some(Signal::End)) => match report? {
            Report::Good { .. } => "reply told good",
            Report::Dcrc { .. } => "reply told dcrc",
            Report::Broad { .. } => "reply told broad",
            Report::Ack { .. } => "reply acknowledged",
            Report::Miss { .. } => "reply missed on End",
            _ => return None,
        },
        _ if receiver == Mode::Wait => return None,
        (Action::Pass, Some(Signal::Prefix)) if receiver == Mode::Listening => {
            "reply's Prefix heard in Listening"
        }
        _ => {
            let fault = event(bus, action, reported)?;
            EVENTS.into_iter().find(|name| name.strip_prefix("reply's ") == Some(fault))?
        }
    };
    Some(event)
}

/// What it calls the same action where one label could be taken for another. A packet waits while
/// its node's packet is confirmed only if that one is a reply.
fn event_of_labels(bus: &Bus, action: Action, reported: Option<Reported>) -> Option<&'static str> {
    let sending = |node: u8| bus.node(node).sending.head.label;
    let waiting = |node: u8| bus.node(node).buffer.map(|packet| packet.head.label);
    if let Action::Request { node, packet } = action {
        // The node that listens has sent what is answered.
        let others = [listener(bus).map(sending)?, waiting(node)?];
        let own = bus.is_forward(action) && !others.contains(&packet.head.label);
        return own.then_some("reply with a label of its own");
    }
    let Reported { node, report } = reported?;
    let label = report.label()?;
    if report.tells() {
        let own = [Some(sending(node)), waiting(node)].contains(&Some(label));
        return (!own).then_some("told of another label than the node's own");
    }
    match report {
        _ if waiting(node)? == label => None,
        Report::Sent { .. } => Some("reply sent, another label waits"),
        Report::Ack { .. } => Some("reply acknowledged, another label waits"),
        _ => Some("reply missed, another label waits"),
    }
}

/// What it calls a drop, by the node that drops. A node is misled until the next Start; where the
/// bus's mark is set, a packet is the reply.
fn event_of_drops(bus: &Bus, reported: Option<Reported>) -> Option<&'static str> {
    let Reported { node, report: Report::Drop { left } } = reported? else {
        return None;
    };
    let Phase::Delivering { sender, .. } = bus.phase else {
        return None;
    };
    let event = match (left, bus.node(sender).sending.address) {
        (Reading::Opened | Reading::Addressed, _) => "acknowledgement dropped by a third node",
        _ if bus.misled.has(node) && bus.concatenated => "reply dropped by a misled node",
        _ if bus.misled.has(node) => "dropped by a misled node",
        (_, ALL_NODES) if bus.concatenated => "reply dropped by one of all nodes",
        (_, ALL_NODES) => "dropped by one of all nodes",
        _ if bus.concatenated => "reply dropped by the addressed node",
        _ => "dropped by the addressed node",
    };
    Some(event)
}

/// What it calls the same action where a node asks or is decided, or another one is Asked.
fn events_of_asking(bus: &Bus, action: Action, reported: Option<Reported>) -> Vec<String> {
    let phase = phase_name(bus.phase);
    let won = reported.is_some_and(|reported| reported.report == Report::Won);
    let outcome = if won { "won" } else { "lost" };
    let mut events = Vec::new();
    match action {
        Action::Ask { .. } => events.push(format!("asked on {phase}")),
        Action::Decide { node } => {
            events.push(format!("decided on {phase}"));
            events.push(match (won, bus.phase) {
                (true, _) => "won by deciding".into(),
                (false, Phase::Idle) => "lost by deciding, won mark".into(),
                (false, _) => "lost by deciding, bus not idle".into(),
            });
            if bus.asked().any(|other| other < node) {
                events.push("decided before a lower node that is Asked".into());
            }
            if bus.asked().any(|other| other > node) {
                events.push("decided before a higher node that is Asked".into());
            }
        }
        _ => (),
    }
    let alone = match action {
        Action::Decide { node } => bus.asked().all(|asked| asked == node),
        _ => bus.asked().next().is_none(),
    };
    if !alone {
        events.push(match action {
            Action::Request { .. } => "request into a buffer while a node is Asked".into(),
            Action::Arbitrate { .. } => format!("arbitrate {outcome} while a node is Asked"),
            Action::Respond { .. } => "respond while a node is Asked".into(),
            Action::Ask { .. } => "ask while another node is Asked".into(),
            _ => format!("decide {outcome} while another node is Asked"),
        });
    }
    events
}

/// The number in a last line `refused COUNT NUMBER`.
pub fn last_refusal(text: &[u8]) -> Option<u8> {
    let text = std::str::from_utf8(text).ok()?;
    let words: Vec<&str> = text.lines().next_back()?.split(' ').collect();
    match words[..] {
        ["refused", _, number] => number.parse().ok(),
        _ => None,
    }
}
