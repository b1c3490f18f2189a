//! One of the "four marks for each node: won, pending, holder, misled", for all nodes.

/// Bit i is node i's mark. "Records and marks of nodes from n on are neither read nor changed":
/// whatever looks at more than one node takes n and stops there.
#[derive(Clone, Copy, PartialEq, Eq, Hash, Debug, Default)]
pub struct Marks(pub u64);

/// The bits of nodes 0 to n−1.
fn below(n: u8) -> u64 {
    match n {
        0..=63 => (1 << n) - 1,
        _ => u64::MAX,
    }
}

impl Marks {
    pub fn has(self, node: u8) -> bool {
        self.0 >> node & 1 == 1
    }

    pub fn set(&mut self, node: u8) {
        self.0 |= 1 << node;
    }

    pub fn clear(&mut self, node: u8) {
        self.0 &= !(1 << node);
    }

    pub fn any(self, n: u8) -> bool {
        self.0 & below(n) != 0
    }

    pub fn clear_all(&mut self, n: u8) {
        self.0 &= !below(n);
    }

    pub fn lowest(self, n: u8) -> Option<u8> {
        match self.0 & below(n) {
            0 => None,
            marked => Some(marked.trailing_zeros() as u8),
        }
    }

    /// Is this node marked, and no other?
    pub fn only(self, node: u8, n: u8) -> bool {
        self.0 & below(n) == 1 << node
    }

    /// The marked nodes, lowest first.
    pub fn nodes(self, n: u8) -> impl Iterator<Item = u8> {
        let mut left = self.0 & below(n);
        std::iter::from_fn(move || {
            let node = (left != 0).then(|| left.trailing_zeros() as u8)?;
            left &= left - 1;
            Some(node)
        })
    }
}
