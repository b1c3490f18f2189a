//! "The twelve numbers", request 3's: "13, label over 63", request 9's: "14, depth over 6 or n over 8",
//! and request 10's: "15, request to the node itself".

#[derive(Clone, Copy, PartialEq, Eq, Hash, Debug)]
pub enum Refusal {
    /// n not 2–63.
    NodeCount = 1,
    /// Kind not 1–12.
    Kind = 2,
    /// A field that the kind doesn't name, or one of the record's zeros, is not 0.
    FieldNotNamed = 3,
    /// Node not below n.
    Node = 4,
    /// Address neither below n nor 63.
    Address = 5,
    /// Acknowledgement over 15 or hold over 1.
    AckOrHold = 6,
    /// Action not open.
    NotOpen = 7,
    /// Block or buffer not 512 bytes, or an empty file.
    BlockLength = 8,
    /// Check differs.
    BlockCheck = 9,
    /// Block number not the next, n not block 0's, or the block before not full.
    BlockOrder = 10,
    /// Count 0 or over 31, or a byte 6–13 or past the last action not 0.
    BlockContent = 11,
    /// A state handed in that is none.
    State = 12,
    /// Label over 63.
    Label = 13,
    /// Of a route: depth over 6 or n over 8.
    Route = 14,
    /// Request to the node itself.
    ToItself = 15,
}

impl Refusal {
    pub fn number(self) -> u8 {
        self as u8
    }
}
