//! "Run files": blocks of 512 bytes, their sums, and the numbers 8, 9, 1, 10 and 11.

use std::array;
use std::ops::Range;

use crate::bus::{Record, Refusal};

/// "Blocks of 512 bytes".
pub const BLOCK: usize = 512;
/// "The actions of a block start at byte 14, 16 bytes each".
pub const FIRST_ACTION: usize = 14;
pub const RECORD: usize = 16;
/// "4 count, 1–31".
pub const FULL: usize = 31;
/// "Bytes 510–511": the check.
pub const CHECK_AT: usize = 510;

/// "Bytes 0–3 block number from 0; 4 count, 1–31; 5 n".
#[derive(Clone, Copy, PartialEq, Eq, Debug)]
pub struct Head {
    pub number: u32,
    pub count: u8,
    pub n: u8,
}

/// Byte i × (i + 1) over these bytes, modulo 65,521; over all of them at most 33,227,775 before that.
fn sum(block: &[u8; BLOCK], bytes: Range<usize>) -> u16 {
    let weights = bytes.start as u32 + 1..;
    let sum: u32 = block[bytes].iter().zip(weights).map(|(&byte, i)| u32::from(byte) * i).sum();
    (sum % 65_521) as u16
}

/// "sum over bytes i = 0 to 509 of byte × (i+1), modulo 65,521"
pub fn check(block: &[u8; BLOCK]) -> u16 {
    sum(block, 0..CHECK_AT)
}

/// The sums of a block's actions, for tracing: "There are 31 of them".
pub type Sums = [u16; FULL];

/// "the k-th, from 1, is the check's sum over bytes 14 to 13 + 16k modulo 65,521; 0 past the count".
pub fn sums(block: &[u8; BLOCK]) -> Sums {
    let count = usize::from(block[4]);
    array::from_fn(|place| match place + 1 {
        k if k <= count => sum(block, FIRST_ACTION..FIRST_ACTION + RECORD * k),
        _ => 0,
    })
}

/// Puts the check of the block into its last two bytes.
pub fn seal(block: &mut [u8; BLOCK]) {
    let sum = check(block);
    block[CHECK_AT..].copy_from_slice(&sum.to_le_bytes());
}

/// 8, then 9, then 1: what a reader looks at before the order of blocks.
fn open(bytes: &[u8]) -> Result<(Head, &[u8; BLOCK]), Refusal> {
    let Ok(block) = <&[u8; BLOCK]>::try_from(bytes) else {
        return Err(Refusal::BlockLength);
    };
    if check(block).to_le_bytes() != block[CHECK_AT..] {
        return Err(Refusal::BlockCheck);
    }
    let [b0, b1, b2, b3, count, n, ..] = *block;
    if !(2..=63).contains(&n) {
        return Err(Refusal::NodeCount);
    }
    Ok((Head { number: u32::from_le_bytes([b0, b1, b2, b3]), count, n }, block))
}

/// 11, and the used action bytes of the caller's own block.
fn actions(head: Head, block: &[u8; BLOCK]) -> Result<&[u8], Refusal> {
    let count = usize::from(head.count);
    if count == 0 || count > FULL {
        return Err(Refusal::BlockContent);
    }
    let end = FIRST_ACTION + RECORD * count;
    // "6–13 zero", "Bytes past the last action are 0."
    if block[6..FIRST_ACTION].iter().chain(&block[end..CHECK_AT]).any(|&byte| byte != 0) {
        return Err(Refusal::BlockContent);
    }
    Ok(&block[FIRST_ACTION..end])
}

/// "A single block read by itself is looked at by 8, 9, 1 and 11 only; its actions are given back
/// unchecked."
pub fn read_block(bytes: &[u8]) -> Result<(Head, &[u8]), Refusal> {
    let (head, block) = open(bytes)?;
    Ok((head, actions(head, block)?))
}

/// Reads the blocks of one file, one after the other: "A file's block is looked at by 8, 9, 1, 10,
/// 11".
#[derive(Default)]
pub struct Reader {
    before: Option<Head>,
}

impl Reader {
    /// A reader that has just read a block with this head.
    pub fn after(before: Head) -> Reader {
        Reader { before: Some(before) }
    }

    pub fn block<'a>(&mut self, bytes: &'a [u8]) -> Result<(Head, &'a [u8]), Refusal> {
        let (head, block) = open(bytes)?;
        // "block number not the next (first: 0; none follows 4,294,967,295), n not block 0's, or
        // the block before not full"; the block before has block 0's n.
        let in_order = match self.before {
            None => head.number == 0,
            Some(before) => {
                before.number.checked_add(1) == Some(head.number)
                    && before.n == head.n
                    && usize::from(before.count) == FULL
            }
        };
        if !in_order {
            return Err(Refusal::BlockOrder);
        }
        let actions = actions(head, block)?;
        self.before = Some(head);
        Ok((head, actions))
    }

    /// The end of the file: 8 for an empty one.
    pub fn end(&self) -> Result<(), Refusal> {
        match self.before {
            None => Err(Refusal::BlockLength),
            Some(_) => Ok(()),
        }
    }
}

/// The records in the used action bytes of a block.
pub fn records(actions: &[u8]) -> impl Iterator<Item = Record> + '_ {
    actions.chunks_exact(RECORD).map(|bytes| {
        let bytes: &[u8; RECORD] = bytes.try_into().expect("a chunk of 16 bytes");
        Record::from_bytes(bytes)
    })
}

/// Writes a block, and gives the sums of its actions beside it: "0 past the count and when refused".
/// "A refused write leaves its buffer as it was". The sums are taken from the written bytes.
pub fn write_block(
    buffer: &mut [u8],
    number: u32,
    n: u8,
    records: &[Record],
) -> (Result<(), Refusal>, Sums) {
    match writable(buffer, n, records) {
        Ok(block) => {
            write_unchecked(block, number, n, records);
            (Ok(()), sums(block))
        }
        Err(refusal) => (Err(refusal), [0; FULL]),
    }
}

/// "The writer looks at 8, 1, 11, then 2 to 6 for each action", and at 13 "after 5, by the writer
/// too". A request to the node itself "the writer does not write".
fn writable<'a>(
    buffer: &'a mut [u8],
    n: u8,
    records: &[Record],
) -> Result<&'a mut [u8; BLOCK], Refusal> {
    let Ok(block) = <&mut [u8; BLOCK]>::try_from(buffer) else {
        return Err(Refusal::BlockLength);
    };
    if !(2..=63).contains(&n) {
        return Err(Refusal::NodeCount);
    }
    if records.is_empty() || records.len() > FULL {
        return Err(Refusal::BlockContent);
    }
    for record in records {
        record.look(n)?;
    }
    Ok(block)
}

/// The block of these records, whatever is in them: the harness writes wrong ones too.
pub fn write_unchecked(block: &mut [u8; BLOCK], number: u32, n: u8, records: &[Record]) {
    block.fill(0);
    block[..4].copy_from_slice(&number.to_le_bytes());
    block[4] = records.len() as u8;
    block[5] = n;
    for (place, record) in block[FIRST_ACTION..].chunks_exact_mut(RECORD).zip(records) {
        place.copy_from_slice(&record.to_bytes());
    }
    seal(block);
}

/// "every non-empty list of actions that the writer takes has, for its n, one file": "All but the
/// last block are full."
pub fn write_file(n: u8, records: &[Record]) -> Result<Vec<u8>, Refusal> {
    if records.is_empty() {
        let mut block = [0; BLOCK];
        write_block(&mut block, 0, n, records).0?;
    }
    let mut file = vec![0; records.len().div_ceil(FULL) * BLOCK];
    for ((block, part), number) in file.chunks_exact_mut(BLOCK).zip(records.chunks(FULL)).zip(0..) {
        write_block(block, number, n, part).0?;
    }
    Ok(file)
}
