//! A small seeded generator of pseudo-random numbers (splitmix64).

use crate::bus::{Head, Packet};

#[derive(Clone, Debug)]
pub struct Random {
    state: u64,
}

impl Random {
    pub fn new(seed: u64) -> Random {
        Random { state: seed }
    }

    /// The generator for file `index` of a series: any file can be made again by itself.
    pub fn of(seed: u64, index: u64) -> Random {
        let mut series = Random::new(seed);
        Random::new(series.draw() ^ index.wrapping_mul(0xd134_2543_de82_ef95))
    }

    pub fn draw(&mut self) -> u64 {
        self.state = self.state.wrapping_add(0x9e37_79b9_7f4a_7c15);
        let mut mixed = self.state;
        mixed = (mixed ^ mixed >> 30).wrapping_mul(0xbf58_476d_1ce4_e5b9);
        mixed = (mixed ^ mixed >> 27).wrapping_mul(0x94d0_49bb_1331_11eb);
        mixed ^ mixed >> 31
    }

    /// A number from 0 to bound − 1.
    pub fn below(&mut self, bound: u64) -> u64 {
        ((u128::from(self.draw()) * u128::from(bound)) >> 64) as u64
    }

    /// A number from `low` to `high`, both included.
    pub fn between(&mut self, low: u64, high: u64) -> u64 {
        low + self.below(high - low + 1)
    }

    pub fn byte(&mut self, low: u8, high: u8) -> u8 {
        self.between(low.into(), high.into()) as u8
    }

    /// True so many times in a hundred.
    pub fn percent(&mut self, chance: u64) -> bool {
        self.below(100) < chance
    }

    pub fn pick<T: Copy>(&mut self, items: &[T]) -> T {
        items[self.below(items.len() as u64) as usize]
    }

    /// One of n nodes, but not this one.
    pub fn other_node(&mut self, node: u8, n: u8) -> u8 {
        (node + self.byte(1, n - 1)) % n
    }

    /// A header or datum: the ends of the range now and then, small ones often.
    pub fn word(&mut self) -> u32 {
        match self.below(8) {
            0 => 0,
            1 => u32::MAX,
            2..=4 => self.below(300) as u32,
            _ => self.draw() as u32,
        }
    }

    /// A label: the ends of the range often.
    pub fn label(&mut self) -> u8 {
        let any = self.byte(0, 63);
        self.pick(&[0, 63, any, any, any, any])
    }

    /// A packet to this address.
    pub fn packet(&mut self, address: u8) -> Packet {
        let head = Head { header: self.word(), label: self.label() };
        Packet { address, head, data: self.word() }
    }
}
