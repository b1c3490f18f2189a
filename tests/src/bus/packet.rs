//! Packets: an address, a header with its label, and a datum.

/// "Address 63 means all nodes".
pub const ALL_NODES: u8 = 63;

/// "an address neither below n nor 63" is none.
pub fn is_address(address: u8, n: u8) -> bool {
    address < n || address == ALL_NODES
}

/// "label over 63" is none: "a transaction label of 6 bits".
pub fn is_label(label: u8) -> bool {
    label <= 63
}

/// A header and, "on the bus inside the Header signal", its label: where the one goes, the other
/// does.
#[derive(Clone, Copy, PartialEq, Eq, Hash, Debug, Default)]
pub struct Head {
    pub header: u32,
    pub label: u8,
}

/// What a request hands over. The label "travels with the packet through buffer, sending and
/// reception".
#[derive(Clone, Copy, PartialEq, Eq, Hash, Debug, Default)]
pub struct Packet {
    pub address: u8,
    pub head: Head,
    pub data: u32,
}
