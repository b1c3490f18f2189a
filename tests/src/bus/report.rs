//! What an action reports.

use super::packet::Head;

#[derive(Clone, Copy, PartialEq, Eq, Hash, Debug)]
pub enum Report {
    Won,
    Lost,
    Sent { label: u8 },
    Ack { ack: u8, label: u8 },
    Miss { label: u8 },
    Good { head: Head, data: u32 },
    Dcrc { head: Head },
    Broad { head: Head, data: u32 },
    Drop { left: Reading },
}

/// The modes in which a node reads a packet, "Opened through the Tail modes", by name: "no word on
/// good or bad data".
#[derive(Clone, Copy, PartialEq, Eq, Hash, Debug)]
pub enum Reading {
    Opened,
    Addressed,
    HeadOwn,
    HeadAll,
    BodyOwn,
    BodyAll,
    TailOwn,
    TailAll,
}

impl Reading {
    /// As the printed text has it.
    pub fn name(self) -> &'static str {
        match self {
            Reading::Opened => "Opened",
            Reading::Addressed => "Addressed",
            Reading::HeadOwn => "HeadOwn",
            Reading::HeadAll => "HeadAll",
            Reading::BodyOwn => "BodyOwn",
            Reading::BodyAll => "BodyAll",
            Reading::TailOwn => "TailOwn",
            Reading::TailAll => "TailAll",
        }
    }
}

impl Report {
    /// The word of each report, as [`Report::word`] says it.
    pub const WORDS: [&'static str; 9] =
        ["won", "lost", "sent", "ack", "miss", "good", "dcrc", "broad", "drop"];

    /// The word that the printed text has for it.
    pub fn word(self) -> &'static str {
        match self {
            Report::Won => "won",
            Report::Lost => "lost",
            Report::Sent { .. } => "sent",
            Report::Ack { .. } => "ack",
            Report::Miss { .. } => "miss",
            Report::Good { .. } => "good",
            Report::Dcrc { .. } => "dcrc",
            Report::Broad { .. } => "broad",
            Report::Drop { .. } => "drop",
        }
    }

    /// "The reports sent, ack, miss, good, dcrc and broad end with it".
    pub fn label(self) -> Option<u8> {
        match self {
            Report::Won | Report::Lost | Report::Drop { .. } => None,
            Report::Sent { label } | Report::Ack { label, .. } | Report::Miss { label } => {
                Some(label)
            }
            Report::Good { head, .. } | Report::Dcrc { head } | Report::Broad { head, .. } => {
                Some(head.label)
            }
        }
    }

    /// "A *confirmation* is a report sent, ack or miss." "A drop […] is no confirmation and no
    /// telling".
    pub fn is_confirmation(self) -> bool {
        matches!(self, Report::Sent { .. } | Report::Ack { .. } | Report::Miss { .. })
    }

    /// "A node is *told* by a report good, dcrc or broad."
    pub fn tells(self) -> bool {
        matches!(self, Report::Good { .. } | Report::Dcrc { .. } | Report::Broad { .. })
    }
}

/// "node and report"
#[derive(Clone, Copy, PartialEq, Eq, Hash, Debug)]
pub struct Reported {
    pub node: u8,
    pub report: Report,
}
