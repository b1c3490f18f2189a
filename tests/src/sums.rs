//! The sums of a run file (request 5): a line for each block, before any of its actions is looked at.

use std::io::{self, Read, Write};

use crate::bus::Action;
use crate::runfile::{self, Head, BLOCK};
use crate::transcript;
use crate::unplayed::{self, Unplayed};

/// "the block's number and the sums of its actions, as many as its count"; "The last line is `done C`
/// or `refused C M` as `play` prints it. There is no `nodes` line."
struct Summed;

impl Unplayed for Summed {
    fn block(text: &mut Vec<u8>, head: Head, block: &[u8; BLOCK]) {
        transcript::sums(text, head.number, &runfile::sums(block)[..head.count.into()]);
    }

    fn action(_: &mut Vec<u8>, _: Action) {}

    fn done(text: &mut Vec<u8>, passed: u64) {
        transcript::done(text, passed);
    }
}

/// Sums a run file of any length in constant memory.
pub fn sums_stream(input: &mut impl Read, output: &mut impl Write) -> io::Result<()> {
    unplayed::stream::<Summed>(input, output)
}

/// The sums of a whole file.
pub fn sums(file: &[u8]) -> Vec<u8> {
    unplayed::whole::<Summed>(file)
}
