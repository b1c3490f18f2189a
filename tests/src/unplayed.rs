//! Run files whose actions are looked at, by 2 to 6, 13 and 15, and not played: what `list` and `sums`
//! have in common.

use std::io::{self, Read, Write};

use crate::bus::{Action, Refusal};
use crate::runfile::{self, Head, Reader, BLOCK};
use crate::transcript;

/// What is printed of such a file. The last line of one that is refused is always the same.
pub trait Unplayed {
    /// A block that has passed 8, 9, 1, 10 and 11, and none of whose actions has been looked at yet.
    fn block(text: &mut Vec<u8>, head: Head, block: &[u8; BLOCK]);

    /// An action that has passed.
    fn action(text: &mut Vec<u8>, action: Action);

    /// The end of a file that has passed, with so many actions.
    fn done(text: &mut Vec<u8>, passed: u64);
}

/// One file on its way. Holds the head of the last block, and nothing that grows.
#[derive(Default)]
struct Walk {
    reader: Reader,
    passed: u64,
}

impl Walk {
    /// One block, or what stands in the place of one.
    fn block<T: Unplayed>(&mut self, bytes: &[u8], text: &mut Vec<u8>) -> Result<(), Refusal> {
        let (head, actions) = self.reader.block(bytes)?;
        T::block(text, head, bytes.try_into().expect("it has passed 8"));
        for record in runfile::records(actions) {
            T::action(text, record.look(head.n)?);
            self.passed += 1;
        }
        Ok(())
    }

    fn end<T: Unplayed>(&self, text: &mut Vec<u8>) -> Result<(), Refusal> {
        self.reader.end()?;
        T::done(text, self.passed);
        Ok(())
    }
}

/// Prints what a reader gives, of any length, in constant memory.
pub fn stream<T: Unplayed>(input: &mut impl Read, output: &mut impl Write) -> io::Result<()> {
    let mut walk = Walk::default();
    let mut text = Vec::new();
    let mut block = Vec::with_capacity(BLOCK);
    loop {
        block.clear();
        text.clear();
        let length = input.by_ref().take(BLOCK as u64).read_to_end(&mut block)?;
        let passed = match length {
            0 => walk.end::<T>(&mut text),
            _ => walk.block::<T>(&block, &mut text),
        };
        if let Err(refusal) = passed {
            transcript::refused(&mut text, walk.passed, refusal);
        }
        output.write_all(&text)?;
        if length == 0 || passed.is_err() {
            return output.flush();
        }
    }
}

/// The same of a whole file.
pub fn whole<T: Unplayed>(file: &[u8]) -> Vec<u8> {
    let mut text = Vec::new();
    stream::<T>(&mut &file[..], &mut text).expect("memory can be written");
    text
}
