//! "Signals".

use super::packet::Head;

/// "Header, Data and Ack carry a check, good or bad."
#[derive(Clone, Copy, PartialEq, Eq, Hash, Debug)]
pub enum Check {
    Good,
    Bad,
}

#[derive(Clone, Copy, PartialEq, Eq, Hash, Debug)]
pub enum Signal {
    Start,
    End,
    Prefix,
    Gap,
    Dhead,
    Dest(u8),
    Header(Head, Check),
    Data(u32, Check),
    Ack(u8, Check),
}

impl Signal {
    /// "The first four are *line signals*."
    pub fn is_line(self) -> bool {
        matches!(self, Signal::Start | Signal::End | Signal::Prefix | Signal::Gap)
    }

    /// "Header, Data and Ack carry a check".
    pub fn carries_check(self) -> bool {
        matches!(self, Signal::Header(..) | Signal::Data(..) | Signal::Ack(..))
    }

    /// The same signal with a bad check, if it carries one.
    pub fn with_bad_check(self) -> Signal {
        match self {
            Signal::Header(head, _) => Signal::Header(head, Check::Bad),
            Signal::Data(data, _) => Signal::Data(data, Check::Bad),
            Signal::Ack(ack, _) => Signal::Ack(ack, Check::Bad),
            other => other,
        }
    }
}
