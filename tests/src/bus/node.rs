//! "What a node does with a signal".

use super::packet::{Head, Packet, ALL_NODES};
use super::report::{Reading, Report};
use super::signal::{Check, Signal};

/// "A node's record holds its mode with what that mode remembers, its buffer (one packet or empty)
/// and the packet it is sending (kept until the next replaces it; all 0 on a fresh bus)."
#[derive(Clone, Copy, PartialEq, Eq, Hash, Debug)]
pub struct Node {
    pub mode: Mode,
    pub buffer: Option<Packet>,
    pub sending: Packet,
}

impl Node {
    pub const FRESH: Node = Node {
        mode: Mode::Rest,
        buffer: None,
        sending: Packet { address: 0, head: Head { header: 0, label: 0 }, data: 0 },
    };
}

/// In brackets: the listings' state.
#[derive(Clone, Copy, PartialEq, Eq, Hash, Debug)]
pub enum Mode {
    /// (Link0)
    Rest,
    /// (2) Steps 0 to 5: Start, Dhead, Dest, Header, Data, End.
    Sending {
        step: u8,
    },
    /// (3)
    AwaitAck,
    /// (3RA)
    AckBody,
    /// (3RE) "remembering a if it was a good Ack"
    AckEnd {
        good: Option<u8>,
    },
    /// (4)
    Opened,
    /// (4DH)
    Addressed,
    /// (4RH)
    HeadOwn,
    HeadAll,
    /// (4RD)
    BodyOwn {
        head: Head,
    },
    BodyAll {
        head: Head,
    },
    /// `data` is None when the data were bad.
    TailOwn {
        head: Head,
        data: Option<u32>,
    },
    TailAll {
        head: Head,
        data: Option<u32>,
    },
    /// (WSA)
    Wait,
    /// (WSA with a grant to come)
    Owed,
    /// (4DRec)
    Told,
    /// (5)
    Answering,
    /// (6) Steps 0 to 2: Start, Ack, then End or Prefix.
    Acking {
        step: u8,
        ack: u8,
        hold: bool,
    },
    /// (7)
    Holding,
    Spurious,
    /// Acknowledged, and a reply follows.
    Listening,
    /// (Link1) It has asked for the bus, and was not answered yet.
    Asked,
}

/// What a reception does beside the node's mode.
#[derive(Clone, Copy, PartialEq, Eq, Debug)]
pub enum Effect {
    Nothing,
    Report(Report),
    /// "the node is entered as *pending* on the bus"
    Pending,
}

impl Node {
    /// The reception charts: the mode after the signal, for node `own`, and what else comes of it.
    /// miss and ack end with the label of the packet that the node is sending; good, dcrc and broad
    /// with the one that came with the header.
    pub fn receive(&self, own: u8, signal: Signal) -> (Mode, Effect) {
        use Mode::*;
        use Signal::*;
        let label = self.sending.head.label;
        let quiet = |mode| (mode, Effect::Nothing);
        let report = |mode, report| (mode, Effect::Report(report));
        let miss = |mode| report(mode, Report::Miss { label });
        // "When a node in Opened through the Tail modes goes to Wait or Owed, the report becomes
        // `drop` and the name of the mode it left. A Gap to Rest is no drop".
        let drop = |mode, left| report(mode, Report::Drop { left });
        match self.mode {
            // "Rest: Start → Opened; else stay."
            Rest => match signal {
                Start => quiet(Opened),
                _ => quiet(Rest),
            },
            // "AwaitAck: Prefix stay; Start → AckBody; Gap: report miss, Rest; else miss, Wait."
            AwaitAck => match signal {
                Prefix => quiet(AwaitAck),
                Start => quiet(AckBody),
                Gap => miss(Rest),
                _ => miss(Wait),
            },
            // "AckBody: Gap: miss, Rest; another line signal: miss, Wait; else → AckEnd,
            // remembering a if it was a good Ack."
            AckBody => match signal {
                Gap => miss(Rest),
                Start | End | Prefix => miss(Wait),
                Ack(ack, Check::Good) => quiet(AckEnd { good: Some(ack) }),
                _ => quiet(AckEnd { good: None }),
            },
            // "AckEnd: End […] after a good Ack: report ack a, Wait; Gap: miss, Rest; else miss,
            // Wait." "From AckEnd, Prefix after a good Ack now reports ack and goes to a new mode
            // Listening".
            AckEnd { good } => match (signal, good) {
                (End, Some(ack)) => report(Wait, Report::Ack { ack, label }),
                (Prefix, Some(ack)) => report(Listening, Report::Ack { ack, label }),
                (Gap, _) => miss(Rest),
                _ => miss(Wait),
            },
            // "Opened: Gap → Rest; another line signal → Wait; else → Addressed."
            Opened => match signal {
                Gap => quiet(Rest),
                Start | End | Prefix => drop(Wait, Reading::Opened),
                _ => quiet(Addressed),
            },
            // "Addressed: Dest of itself → HeadOwn, and the node is entered as pending on the bus;
            // Dest 63 → HeadAll; Gap → Rest; else Wait." "[…] nor is a Dest of another node met in
            // Addressed" a drop.
            Addressed => match signal {
                Dest(address) if address == own => (HeadOwn, Effect::Pending),
                Dest(ALL_NODES) => quiet(HeadAll),
                Dest(_) => quiet(Wait),
                Gap => quiet(Rest),
                _ => drop(Wait, Reading::Addressed),
            },
            // "HeadOwn / HeadAll: good Header → BodyOwn / BodyAll; else Owed / Wait.
            // HeadAll on Gap → Rest."
            HeadOwn => match signal {
                Header(head, Check::Good) => quiet(BodyOwn { head }),
                _ => drop(Owed, Reading::HeadOwn),
            },
            HeadAll => match signal {
                Header(head, Check::Good) => quiet(BodyAll { head }),
                Gap => quiet(Rest),
                _ => drop(Wait, Reading::HeadAll),
            },
            // "BodyOwn / BodyAll: Data, good or bad → TailOwn / TailAll; else Owed / Wait.
            // BodyAll on Gap → Rest."
            BodyOwn { head } => match signal {
                Data(data, Check::Good) => quiet(TailOwn { head, data: Some(data) }),
                Data(_, Check::Bad) => quiet(TailOwn { head, data: None }),
                _ => drop(Owed, Reading::BodyOwn),
            },
            BodyAll { head } => match signal {
                Data(data, Check::Good) => quiet(TailAll { head, data: Some(data) }),
                Data(_, Check::Bad) => quiet(TailAll { head, data: None }),
                Gap => quiet(Rest),
                _ => drop(Wait, Reading::BodyAll),
            },
            // "TailOwn: End or Prefix: report good h d, or dcrc h for bad data, and go to Told;
            // else Owed."
            TailOwn { head, data } => match (signal, data) {
                (End | Prefix, Some(data)) => report(Told, Report::Good { head, data }),
                (End | Prefix, None) => report(Told, Report::Dcrc { head }),
                _ => drop(Owed, Reading::TailOwn),
            },
            // "TailAll: End or Prefix: report broad h d if the data were good […] and go to Rest;
            // Gap → Rest; else Wait." "TailAll with bad data reports drop TailAll on End or Prefix
            // too, though it goes to Rest."
            TailAll { head, data } => match (signal, data) {
                (End | Prefix, Some(data)) => report(Rest, Report::Broad { head, data }),
                (End | Prefix, None) => drop(Rest, Reading::TailAll),
                (Gap, _) => quiet(Rest),
                _ => drop(Wait, Reading::TailAll),
            },
            // "Wait: Gap → Rest; else stay. Owed stays."
            Wait => match signal {
                Gap => quiet(Rest),
                _ => quiet(Wait),
            },
            // "Sending, Told, Answering, Acking, Holding, Spurious stay on every signal." "Asked stays
            // on every signal".
            Owed
            | Sending { .. }
            | Told
            | Answering
            | Acking { .. }
            | Holding
            | Spurious
            | Asked => quiet(self.mode),
            // "Listening: Start → Opened, Prefix stay, Gap → Rest, else Wait."
            Listening => match signal {
                Start => quiet(Opened),
                Prefix => quiet(Listening),
                Gap => quiet(Rest),
                _ => quiet(Wait),
            },
        }
    }
}
