//! "What a node does with a signal", written by hand from the rows of document 01 and from requests 1,
//! 4 and 6.

use super::packet;
use bench_model::bus::{Check, Head, Mode, Node, Reading, Report, Signal};

/// The mode before, then what comes of each signal: the mode, `!report`, `+` for pending. `.` is
/// to stay. The lines are in document 01's order, the columns in that of [`Receiver::signals`].
const TABLE: &str = "
Rest      Opened . . . . . . . . . . . . .
AwaitAck  AckBody Wait!miss . Rest!miss Wait!miss Wait!miss Wait!miss Wait!miss Wait!miss Wait!miss Wait!miss Wait!miss Wait!miss Wait!miss
AckBody   Wait!miss Wait!miss Wait!miss Rest!miss AckEnd- AckEnd- AckEnd- AckEnd- AckEnd- AckEnd- AckEnd- AckEnd- AckEnd AckEnd-
AckEnd    Wait!miss Wait!ack Listening!ack Rest!miss Wait!miss Wait!miss Wait!miss Wait!miss Wait!miss Wait!miss Wait!miss Wait!miss Wait!miss Wait!miss
AckEnd-   Wait!miss Wait!miss Wait!miss Rest!miss Wait!miss Wait!miss Wait!miss Wait!miss Wait!miss Wait!miss Wait!miss Wait!miss Wait!miss Wait!miss
Opened    Wait!drop Wait!drop Wait!drop Rest Addressed Addressed Addressed Addressed Addressed Addressed Addressed Addressed Addressed Addressed
Addressed Wait!drop Wait!drop Wait!drop Rest Wait!drop HeadOwn+ HeadAll Wait Wait!drop Wait!drop Wait!drop Wait!drop Wait!drop Wait!drop
HeadOwn   Owed!drop Owed!drop Owed!drop Owed!drop Owed!drop Owed!drop Owed!drop Owed!drop BodyOwn Owed!drop Owed!drop Owed!drop Owed!drop Owed!drop
HeadAll   Wait!drop Wait!drop Wait!drop Rest Wait!drop Wait!drop Wait!drop Wait!drop BodyAll Wait!drop Wait!drop Wait!drop Wait!drop Wait!drop
BodyOwn   Owed!drop Owed!drop Owed!drop Owed!drop Owed!drop Owed!drop Owed!drop Owed!drop Owed!drop Owed!drop TailOwn TailOwn- Owed!drop Owed!drop
BodyAll   Wait!drop Wait!drop Wait!drop Rest Wait!drop Wait!drop Wait!drop Wait!drop Wait!drop Wait!drop TailAll TailAll- Wait!drop Wait!drop
TailOwn   Owed!drop Told!good Told!good Owed!drop Owed!drop Owed!drop Owed!drop Owed!drop Owed!drop Owed!drop Owed!drop Owed!drop Owed!drop Owed!drop
TailOwn-  Owed!drop Told!dcrc Told!dcrc Owed!drop Owed!drop Owed!drop Owed!drop Owed!drop Owed!drop Owed!drop Owed!drop Owed!drop Owed!drop Owed!drop
TailAll   Wait!drop Rest!broad Rest!broad Rest Wait!drop Wait!drop Wait!drop Wait!drop Wait!drop Wait!drop Wait!drop Wait!drop Wait!drop Wait!drop
TailAll-  Wait!drop Rest!drop Rest!drop Rest Wait!drop Wait!drop Wait!drop Wait!drop Wait!drop Wait!drop Wait!drop Wait!drop Wait!drop Wait!drop
Wait      . . . Rest . . . . . . . . . .
Owed      . . . . . . . . . . . . . .
Sending   . . . . . . . . . . . . . .
Told      . . . . . . . . . . . . . .
Answering . . . . . . . . . . . . . .
Acking    . . . . . . . . . . . . . .
Holding   . . . . . . . . . . . . . .
Spurious  . . . . . . . . . . . . . .
Listening Opened Wait . Rest Wait Wait Wait Wait Wait Wait Wait Wait Wait Wait
Asked     . . . . . . . . . . . . . .
";

/// What stands in a cell: the next mode's name, the report's word, whether the node is entered as
/// pending.
#[derive(Clone, Copy, PartialEq, Eq, Debug)]
pub struct Answer {
    pub next: &'static str,
    pub report: Option<&'static str>,
    pub pending: bool,
}

/// A mode's line: its name and its 14 cells.
pub type Row = (&'static str, Vec<Answer>);

/// The table, 25 lines.
pub fn rows() -> Vec<Row> {
    let rows: Vec<Row> = TABLE.lines().filter(|line| !line.is_empty()).map(row).collect();
    assert_eq!(rows.len(), 25);
    rows
}

fn row(line: &'static str) -> Row {
    let mut words = line.split_whitespace();
    let before = words.next().unwrap();
    let answers: Vec<Answer> = words.map(|word| answer(before, word)).collect();
    assert_eq!(answers.len(), 14, "{before}");
    (before, answers)
}

fn answer(before: &'static str, word: &'static str) -> Answer {
    if word == "." {
        Answer { next: before, report: None, pending: false }
    } else if let Some((next, report)) = word.split_once('!') {
        Answer { next, report: Some(report), pending: false }
    } else if let Some(next) = word.strip_suffix('+') {
        Answer { next, report: None, pending: true }
    } else {
        Answer { next: word, report: None, pending: false }
    }
}

/// "the name of the mode it left": "no word on good or bad data"
pub fn reading(name: &str) -> Reading {
    match name {
        "Opened" => Reading::Opened,
        "Addressed" => Reading::Addressed,
        "HeadOwn" => Reading::HeadOwn,
        "HeadAll" => Reading::HeadAll,
        "BodyOwn" => Reading::BodyOwn,
        "BodyAll" => Reading::BodyAll,
        "TailOwn" | "TailOwn-" => Reading::TailOwn,
        "TailAll" | "TailAll-" => Reading::TailAll,
        _ => panic!("{name} is left without a drop"),
    }
}

/// What modes remember, or what signals carry.
#[derive(Clone, Copy, Debug)]
pub struct Values {
    pub head: Head,
    pub data: u32,
    pub ack: u8,
}

/// A receiver: its number and another node's, what its modes remember and what its signals carry.
#[derive(Clone, Copy, Debug)]
pub struct Receiver {
    pub own: u8,
    pub other: u8,
    pub step: u8,
    pub hold: bool,
    pub remembered: Values,
    pub carried: Values,
}

const fn values(header: u32, data: u32, ack: u8, label: u8) -> Values {
    Values { head: Head { header, label }, data, ack }
}

const SOME: Values = values(7, 9, 3, 11);
const LEAST: Values = values(0, 0, 0, 0);
const MOST: Values = values(u32::MAX, u32::MAX, 15, 63);
/// Numbers that nodes and addresses have too.
const NUMBERS: Values = values(1, 63, 15, 62);

pub const RECEIVERS: [Receiver; 5] = [
    Receiver { own: 4, other: 5, step: 2, hold: true, remembered: SOME, carried: SOME },
    Receiver { own: 0, other: 1, step: 0, hold: false, remembered: LEAST, carried: MOST },
    Receiver { own: 62, other: 61, step: 5, hold: true, remembered: MOST, carried: LEAST },
    Receiver { own: 1, other: 62, step: 1, hold: false, remembered: SOME, carried: NUMBERS },
    Receiver { own: 15, other: 0, step: 4, hold: true, remembered: NUMBERS, carried: SOME },
];

impl Receiver {
    /// The columns: Start, End, Prefix, Gap, Dhead, Dest own, Dest 63, Dest of another, Header good
    /// and bad, Data good and bad, Ack good and bad.
    pub fn signals(&self) -> [Signal; 14] {
        let Values { head, data, ack } = self.carried;
        [
            Signal::Start,
            Signal::End,
            Signal::Prefix,
            Signal::Gap,
            Signal::Dhead,
            Signal::Dest(self.own),
            Signal::Dest(63),
            Signal::Dest(self.other),
            Signal::Header(head, Check::Good),
            Signal::Header(head, Check::Bad),
            Signal::Data(data, Check::Good),
            Signal::Data(data, Check::Bad),
            Signal::Ack(ack, Check::Good),
            Signal::Ack(ack, Check::Bad),
        ]
    }

    /// The mode with this name, as the receiver remembers it.
    pub fn mode(&self, name: &str) -> Mode {
        let Values { head, data, ack } = self.remembered;
        match name {
            "Rest" => Mode::Rest,
            "AwaitAck" => Mode::AwaitAck,
            "AckBody" => Mode::AckBody,
            "AckEnd" => Mode::AckEnd { good: Some(ack) },
            "AckEnd-" => Mode::AckEnd { good: None },
            "Opened" => Mode::Opened,
            "Addressed" => Mode::Addressed,
            "HeadOwn" => Mode::HeadOwn,
            "HeadAll" => Mode::HeadAll,
            "BodyOwn" => Mode::BodyOwn { head },
            "BodyAll" => Mode::BodyAll { head },
            "TailOwn" => Mode::TailOwn { head, data: Some(data) },
            "TailOwn-" => Mode::TailOwn { head, data: None },
            "TailAll" => Mode::TailAll { head, data: Some(data) },
            "TailAll-" => Mode::TailAll { head, data: None },
            "Wait" => Mode::Wait,
            "Owed" => Mode::Owed,
            "Sending" => Mode::Sending { step: self.step },
            "Told" => Mode::Told,
            "Answering" => Mode::Answering,
            "Acking" => Mode::Acking { step: self.step % 3, ack, hold: self.hold },
            "Holding" => Mode::Holding,
            "Spurious" => Mode::Spurious,
            "Listening" => Mode::Listening,
            "Asked" => Mode::Asked,
            _ => panic!("{name} is no mode"),
        }
    }

    /// The label of the packet that it is sending: no other label here is the same.
    fn label(&self) -> u8 {
        20 + self.step
    }

    /// Its record in this mode. No report bears the label that waits in the buffer.
    pub fn node(&self, mode: Mode) -> Node {
        let sending = packet(self.other, 31, 32, self.label());
        Node { mode, buffer: Some(packet(63, 33, 34, 40)), sending }
    }

    /// The report with this word, of a node that was in the mode `before`: miss and ack with the
    /// label of the packet being sent, good, dcrc and broad of what the receiver remembers, the
    /// header's label too, drop with the name of that mode.
    pub fn report(&self, before: &str, word: &str) -> Report {
        let Values { head, data, ack } = self.remembered;
        let label = self.label();
        match word {
            "miss" => Report::Miss { label },
            "ack" => Report::Ack { ack, label },
            "good" => Report::Good { head, data },
            "dcrc" => Report::Dcrc { head },
            "broad" => Report::Broad { head, data },
            "drop" => Report::Drop { left: reading(before) },
            _ => panic!("{word} is no report of a reception"),
        }
    }

    /// What it remembers when a mode is entered by this signal: what the signal carries, and else
    /// what it remembered before.
    pub fn entering_by(&self, signal: Signal) -> Receiver {
        let mut after = *self;
        match signal {
            Signal::Header(head, _) => after.remembered.head = head,
            Signal::Data(data, _) => after.remembered.data = data,
            Signal::Ack(ack, _) => after.remembered.ack = ack,
            _ => (),
        }
        after
    }
}
