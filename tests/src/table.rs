//! "The reception chart as one table" (request 2), printed from [`Node::receive`]. Neither what a
//! mode remembers nor what a signal carries changes a cell, so here both are 0.

use std::fmt;

use crate::bus::{Check, Effect, Head, Mode, Node, Signal, ALL_NODES};

/// So is the head that modes remember and Headers carry.
const ZERO: Head = Head { header: 0, label: 0 };

/// The classes of signals by name: "There are 14 signal classes".
pub const CLASSES: [&str; 14] = [
    "Start",
    "End",
    "Prefix",
    "Gap",
    "Dhead",
    "Dest own",
    "Dest 63",
    "Dest other",
    "Header good",
    "Header bad",
    "Data good",
    "Data bad",
    "Ack good",
    "Ack bad",
];

/// The modes by place, with their names: "in document 01's order (the good one of two first, new
/// modes last)". "AckEnd counts as two modes (good Ack or not), TailOwn and TailAll as two each
/// (data good or bad). With Listening that makes 24 modes", and with Asked "the table has 25 modes".
pub const MODES: [(&str, Mode); 25] = [
    ("Rest", Mode::Rest),
    ("AwaitAck", Mode::AwaitAck),
    ("AckBody", Mode::AckBody),
    ("AckEnd good", Mode::AckEnd { good: Some(0) }),
    ("AckEnd none", Mode::AckEnd { good: None }),
    ("Opened", Mode::Opened),
    ("Addressed", Mode::Addressed),
    ("HeadOwn", Mode::HeadOwn),
    ("HeadAll", Mode::HeadAll),
    ("BodyOwn", Mode::BodyOwn { head: ZERO }),
    ("BodyAll", Mode::BodyAll { head: ZERO }),
    ("TailOwn good", Mode::TailOwn { head: ZERO, data: Some(0) }),
    ("TailOwn bad", Mode::TailOwn { head: ZERO, data: None }),
    ("TailAll good", Mode::TailAll { head: ZERO, data: Some(0) }),
    ("TailAll bad", Mode::TailAll { head: ZERO, data: None }),
    ("Wait", Mode::Wait),
    ("Owed", Mode::Owed),
    ("Sending", Mode::Sending { step: 0 }),
    ("Told", Mode::Told),
    ("Answering", Mode::Answering),
    ("Acking", Mode::Acking { step: 0, ack: 0, hold: false }),
    ("Holding", Mode::Holding),
    ("Spurious", Mode::Spurious),
    ("Listening", Mode::Listening),
    ("Asked", Mode::Asked),
];

/// "the next mode's place from 0"
pub fn place(mode: Mode) -> usize {
    let listed = match mode {
        Mode::AckEnd { good } => Mode::AckEnd { good: good.map(|_| 0) },
        Mode::BodyOwn { .. } => Mode::BodyOwn { head: ZERO },
        Mode::BodyAll { .. } => Mode::BodyAll { head: ZERO },
        Mode::TailOwn { data, .. } => Mode::TailOwn { head: ZERO, data: data.map(|_| 0) },
        Mode::TailAll { data, .. } => Mode::TailAll { head: ZERO, data: data.map(|_| 0) },
        Mode::Sending { .. } => Mode::Sending { step: 0 },
        Mode::Acking { .. } => Mode::Acking { step: 0, ack: 0, hold: false },
        bare => bare,
    };
    MODES.iter().position(|&(_, mode)| mode == listed).expect("every mode has its place")
}

/// The signals by class, as node `own` gets them: "Start, End, Prefix, Gap, Dhead, Dest own, Dest
/// 63, Dest other, and Header, Data, Ack each good and bad".
pub fn signals(own: u8) -> [Signal; CLASSES.len()] {
    [
        Signal::Start,
        Signal::End,
        Signal::Prefix,
        Signal::Gap,
        Signal::Dhead,
        Signal::Dest(own),
        Signal::Dest(ALL_NODES),
        Signal::Dest(another(own)),
        Signal::Header(ZERO, Check::Good),
        Signal::Header(ZERO, Check::Bad),
        Signal::Data(0, Check::Good),
        Signal::Data(0, Check::Bad),
        Signal::Ack(0, Check::Good),
        Signal::Ack(0, Check::Bad),
    ]
}

/// Some other node.
fn another(own: u8) -> u8 {
    u8::from(own == 0)
}

/// The signal's class, as node `own` gets it.
pub fn class(own: u8, signal: Signal) -> usize {
    let listed = match signal {
        Signal::Dest(address) if address != own && address != ALL_NODES => {
            Signal::Dest(another(own))
        }
        Signal::Header(_, check) => Signal::Header(ZERO, check),
        Signal::Data(_, check) => Signal::Data(0, check),
        Signal::Ack(_, check) => Signal::Ack(0, check),
        bare => bare,
    };
    signals(own).iter().position(|&signal| signal == listed).expect("every signal has its class")
}

/// "Each cell names the next mode, the report and whether a pending mark is made."
#[derive(Clone, Copy, PartialEq, Eq, Debug)]
pub struct Cell {
    pub next: usize,
    pub report: Option<&'static str>,
    pub pending: bool,
}

impl Cell {
    /// What node `own` does in this mode with this signal.
    pub fn of(mode: Mode, own: u8, signal: Signal) -> Cell {
        let (next, effect) = Node { mode, ..Node::FRESH }.receive(own, signal);
        let report = match effect {
            Effect::Report(report) => Some(report.word()),
            Effect::Nothing | Effect::Pending => None,
        };
        Cell { next: place(next), report, pending: effect == Effect::Pending }
    }
}

/// "the next mode's place from 0, the report's first word or `-`, and 1 or 0, with single spaces"
impl fmt::Display for Cell {
    fn fmt(&self, out: &mut fmt::Formatter) -> fmt::Result {
        let report = self.report.unwrap_or("-");
        write!(out, "{} {report} {}", self.next, u8::from(self.pending))
    }
}

/// The printed table: "a line for each mode", "its cells in the order above".
pub fn text() -> String {
    const OWN: u8 = 0;
    let line = |(_, mode)| signals(OWN).map(|signal| Cell::of(mode, OWN, signal).to_string());
    MODES.map(|mode| line(mode).join(" ") + "\n").concat()
}
