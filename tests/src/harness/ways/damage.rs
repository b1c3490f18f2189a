//! Damaged files: numbers 8, 9, 1, 10 and 11.

use super::{block, file, nodes, run, Case, End};
use crate::harness::random::Random;
use crate::runfile::{self, BLOCK, CHECK_AT, FIRST_ACTION, FULL, RECORD};

#[derive(Clone, Copy, PartialEq, Eq, Debug)]
pub enum Damage {
    // 8
    EmptyFile,
    FirstBlockCut,
    LaterBlockCut,
    PieceAfterLast,
    PieceAfterFullLast,
    // 9
    BitFlipped,
    CheckAltered,
    CheckCongruentNotEqual,
    ZerosWithCheck65521,
    // 1
    NodesOfFirst(u8),
    NodesOfLater(u8),
    ZeroBlock,
    ZeroBlockLater,
    // 10
    /// The byte of the number that is wrong.
    NumberOfFirst(usize),
    NumberOfLater(usize),
    Repeated,
    Missing,
    Swapped,
    OtherNodes,
    BeforeNotFull,
    // 11
    Count(u8),
    CountZeroOfNothing,
    CountTooLow,
    /// The byte that is not 0.
    HeadByte(usize),
    FirstBytePastLast,
    SomeBytePastLast,
    Byte509,
    // 2: a record of zeros counted in
    CountTooHigh,
    // Several at once: the first in the order 8, 9, 1, 10, 11 counts
    CheckBeforeNodes,
    NodesBeforeNumber,
    NumberBeforeCount,
    CountBeforeActions,
    // No plan
    FlippedAndSealed,
    HeadFlippedAndSealed,
}

/// Values of n that are refused.
const NO_NODES: [u8; 6] = [0, 1, 64, 65, 128, 255];

impl Damage {
    pub fn all() -> Vec<Damage> {
        let mut all = vec![
            Damage::EmptyFile,
            Damage::FirstBlockCut,
            Damage::LaterBlockCut,
            Damage::PieceAfterLast,
            Damage::PieceAfterFullLast,
            Damage::BitFlipped,
            Damage::CheckAltered,
            Damage::CheckCongruentNotEqual,
            Damage::ZerosWithCheck65521,
            Damage::ZeroBlock,
            Damage::ZeroBlockLater,
            Damage::Repeated,
            Damage::Missing,
            Damage::Swapped,
            Damage::OtherNodes,
            Damage::BeforeNotFull,
            Damage::CountZeroOfNothing,
            Damage::CountTooLow,
            Damage::FirstBytePastLast,
            Damage::SomeBytePastLast,
            Damage::Byte509,
            Damage::CountTooHigh,
            Damage::CheckBeforeNodes,
            Damage::NodesBeforeNumber,
            Damage::NumberBeforeCount,
            Damage::CountBeforeActions,
            Damage::FlippedAndSealed,
            Damage::HeadFlippedAndSealed,
        ];
        all.extend(NO_NODES.map(Damage::NodesOfFirst));
        all.extend(NO_NODES.map(Damage::NodesOfLater));
        all.extend((0..4).map(Damage::NumberOfFirst));
        all.extend((0..4).map(Damage::NumberOfLater));
        all.extend([0, 32, 33, 63, 128, 255].map(Damage::Count));
        all.extend((6..14).map(Damage::HeadByte));
        all
    }
}

/// A file of several blocks, the last not full, with this damage.
pub fn file_with(random: &mut Random, damage: Damage) -> Case {
    let n = nodes(random);
    let actions = match damage {
        Damage::PieceAfterFullLast => FULL * random.between(1, 4) as usize,
        // A last block that is not full.
        _ => FULL * random.between(2, 5) as usize + random.between(1, 30) as usize,
    };
    let records = run(random, n, actions);
    let mut bytes = file(n, &records);
    let blocks = bytes.len() / BLOCK;
    // Some block, a later one, one with another after it.
    let any = random.below(blocks as u64) as usize;
    let later = random.between(1, blocks as u64 - if blocks > 1 { 1 } else { 0 }) as usize;
    let not_last = any.min(blocks.saturating_sub(2));
    let last = blocks - 1;
    let refused = |accepted, number| End::Refused { accepted, number };
    let end = match damage {
        Damage::EmptyFile => {
            bytes.clear();
            refused(0, 8)
        }
        Damage::FirstBlockCut => {
            let length = random.between(1, 511) as usize;
            bytes.truncate(random.pick(&[1, 14, 510, 511, length]));
            refused(0, 8)
        }
        Damage::LaterBlockCut => {
            let length = random.between(1, 511) as usize;
            bytes.truncate(later * BLOCK + random.pick(&[1, 511, length]));
            refused(later * FULL, 8)
        }
        Damage::PieceAfterLast | Damage::PieceAfterFullLast => {
            let length = random.between(1, 511) as usize;
            let fill = random.pick(&[0, 10, 255]);
            bytes.resize(bytes.len() + random.pick(&[1, 511, length]), fill);
            refused(actions, 8)
        }
        Damage::BitFlipped => {
            let place = any * BLOCK + random.below(CHECK_AT as u64) as usize;
            bytes[place] ^= 1 << random.below(8);
            refused(any * FULL, 9)
        }
        Damage::CheckAltered => {
            let place = any * BLOCK + random.between(510, 511) as usize;
            bytes[place] ^= random.byte(1, 255);
            refused(any * FULL, 9)
        }
        Damage::CheckCongruentNotEqual => {
            let block = block(&mut bytes, any);
            // Until the check is one of the few to which 65,521 can be added.
            while runfile::check(block) > u16::MAX - 65_521 {
                let place = random.between(FIRST_ACTION as u64, CHECK_AT as u64 - 1) as usize;
                block[place] = random.byte(0, 255);
            }
            let congruent = runfile::check(block) + 65_521;
            block[CHECK_AT..].copy_from_slice(&congruent.to_le_bytes());
            refused(any * FULL, 9)
        }
        Damage::ZerosWithCheck65521 => {
            let block = block(&mut bytes, any);
            block.fill(0);
            block[CHECK_AT..].copy_from_slice(&65_521u16.to_le_bytes());
            refused(any * FULL, 9)
        }
        Damage::NodesOfFirst(n) => {
            set(block(&mut bytes, 0), 5, n);
            refused(0, 1)
        }
        Damage::NodesOfLater(n) => {
            set(block(&mut bytes, later), 5, n);
            refused(later * FULL, 1)
        }
        Damage::ZeroBlock => {
            bytes = vec![0; BLOCK];
            refused(0, 1)
        }
        Damage::ZeroBlockLater => {
            block(&mut bytes, later).fill(0);
            refused(later * FULL, 1)
        }
        Damage::NumberOfFirst(place) => {
            set(block(&mut bytes, 0), place, random.byte(1, 255));
            refused(0, 10)
        }
        Damage::NumberOfLater(place) => {
            let block = block(&mut bytes, later);
            set(block, place, block[place] ^ random.byte(1, 255));
            refused(later * FULL, 10)
        }
        Damage::Repeated => {
            let part = bytes[any * BLOCK..(any + 1) * BLOCK].to_vec();
            let place = (any + 1) * BLOCK;
            bytes.splice(place..place, part);
            let accepted = if any == last { actions } else { (any + 1) * FULL };
            refused(accepted, 10)
        }
        Damage::Missing => {
            bytes.drain(not_last * BLOCK..(not_last + 1) * BLOCK);
            refused(not_last * FULL, 10)
        }
        Damage::Swapped => {
            let (first, second) = bytes[not_last * BLOCK..].split_at_mut(BLOCK);
            first.swap_with_slice(&mut second[..BLOCK]);
            refused(not_last * FULL, 10)
        }
        Damage::OtherNodes => {
            let other = if n == 63 || (n > 2 && random.percent(50)) { n - 1 } else { n + 1 };
            set(block(&mut bytes, later), 5, other);
            refused(later * FULL, 10)
        }
        Damage::BeforeNotFull => {
            let count = random.between(1, 30) as usize;
            let block = block(&mut bytes, not_last);
            block[4] = count as u8;
            block[FIRST_ACTION + RECORD * count..].fill(0);
            runfile::seal(block);
            refused(not_last * FULL + count, 10)
        }
        Damage::Count(count) => {
            set(block(&mut bytes, any), 4, count);
            refused(any * FULL, 11)
        }
        Damage::CountZeroOfNothing => {
            let block = block(&mut bytes, any);
            block[FIRST_ACTION..].fill(0);
            set(block, 4, 0);
            refused(any * FULL, 11)
        }
        Damage::CountTooLow => {
            // The first record that is no longer counted has a kind, so it is not all 0.
            set(block(&mut bytes, not_last), 4, random.byte(1, 30));
            refused(not_last * FULL, 11)
        }
        Damage::HeadByte(place) => {
            set(block(&mut bytes, any), place, random.byte(1, 255));
            refused(any * FULL, 11)
        }
        Damage::FirstBytePastLast | Damage::SomeBytePastLast | Damage::Byte509 => {
            let block = block(&mut bytes, last);
            let past = FIRST_ACTION + RECORD * usize::from(block[4]);
            let place = match damage {
                Damage::FirstBytePastLast => past,
                Damage::Byte509 => 509,
                _ => random.between(past as u64, 509) as usize,
            };
            set(block, place, random.byte(1, 255));
            refused(last * FULL, 11)
        }
        Damage::CountTooHigh => {
            let block = block(&mut bytes, last);
            set(block, 4, random.byte(block[4] + 1, 31));
            refused(actions, 2)
        }
        Damage::CheckBeforeNodes => {
            let block = block(&mut bytes, any);
            set(block, 0, block[0] + 1);
            set(block, 4, 0);
            set(block, 5, random.pick(&NO_NODES));
            block[CHECK_AT] ^= random.byte(1, 255);
            refused(any * FULL, 9)
        }
        Damage::NodesBeforeNumber => {
            let block = block(&mut bytes, any);
            set(block, 0, block[0] + 1);
            set(block, 4, random.pick(&[0, 32]));
            set(block, 5, random.pick(&NO_NODES));
            refused(any * FULL, 1)
        }
        Damage::NumberBeforeCount => {
            let block = block(&mut bytes, any);
            set(block, 0, block[0] + 1);
            set(block, 4, random.pick(&[0, 32]));
            set(block, 6, 1);
            refused(any * FULL, 10)
        }
        Damage::CountBeforeActions => {
            let block = block(&mut bytes, any);
            set(block, 4, random.pick(&[0, 32]));
            set(block, FIRST_ACTION, 0);
            refused(any * FULL, 11)
        }
        Damage::FlippedAndSealed => {
            for _ in 0..random.between(1, 3) {
                let block = block(&mut bytes, random.below(blocks as u64) as usize);
                block[random.below(CHECK_AT as u64) as usize] ^= 1 << random.below(8);
                runfile::seal(block);
            }
            End::Either
        }
        Damage::HeadFlippedAndSealed => {
            let block = block(&mut bytes, any);
            block[random.below(FIRST_ACTION as u64 + 2) as usize] ^= 1 << random.below(8);
            runfile::seal(block);
            End::Either
        }
    };
    Case { n, records, bytes, end }
}

/// Sets one byte of a block, and makes its check right again.
fn set(block: &mut [u8; BLOCK], place: usize, byte: u8) {
    block[place] = byte;
    runfile::seal(block);
}
