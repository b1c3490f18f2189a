//! Plays run files: bytes in, the printed text out.

use std::io::{self, Read, Write};

use crate::bus::{Bus, Refusal};
use crate::runfile::{self, Reader, BLOCK};
use crate::transcript;

/// Room for so many bytes of input, a whole number of blocks, and about as many of output.
const INPUT: usize = 256 * BLOCK;
const OUTPUT: usize = 256 * 1024;

/// One file being played. Holds the bus and the head of the last block, and nothing that grows.
#[derive(Default)]
struct Player {
    reader: Reader,
    bus: Option<Box<Bus>>,
    accepted: u64,
}

impl Player {
    /// Plays one block, or what stands in the place of one, and appends its lines to the text.
    fn block(&mut self, bytes: &[u8], text: &mut Vec<u8>) -> Result<(), Refusal> {
        let (head, actions) = self.reader.block(bytes)?;
        let bus = match &mut self.bus {
            Some(bus) => bus,
            // "`nodes` is printed once block 0 is accepted."
            None => {
                let fresh = Bus::fresh(head.n)?;
                transcript::nodes(text, head.n);
                self.bus.insert(Box::new(fresh))
            }
        };
        for record in runfile::records(actions) {
            let reported = bus.play(&record)?;
            transcript::action(text, self.accepted, record.kind, reported);
            self.accepted += 1;
        }
        Ok(())
    }

    fn end(&self) -> Result<(), Refusal> {
        self.reader.end()
    }

    /// The last line.
    fn close(&self, ended: Result<(), Refusal>, text: &mut Vec<u8>) {
        match ended {
            Ok(()) => transcript::done(text, self.accepted),
            Err(refusal) => transcript::refused(text, self.accepted, refusal),
        }
    }
}

/// Plays a whole file.
pub fn play_file(bytes: &[u8]) -> Vec<u8> {
    let mut player = Player::default();
    let mut text = Vec::new();
    let ended = bytes
        .chunks(BLOCK)
        .try_for_each(|block| player.block(block, &mut text))
        .and_then(|()| player.end());
    player.close(ended, &mut text);
    text
}

/// Plays what a reader gives, of any length, in constant memory.
pub fn play_stream(input: &mut impl Read, output: &mut impl Write) -> io::Result<()> {
    let mut player = Player::default();
    let mut bytes = vec![0; INPUT];
    let mut text = Vec::with_capacity(OUTPUT + 4096);
    let ended = loop {
        let length = fill(input, &mut bytes)?;
        let mut played = Ok(());
        for block in bytes[..length].chunks(BLOCK) {
            played = player.block(block, &mut text);
            if played.is_err() {
                break;
            }
            if text.len() >= OUTPUT {
                output.write_all(&text)?;
                text.clear();
            }
        }
        if played.is_err() {
            break played;
        }
        // Less than there was room for: the input is at its end.
        if length < bytes.len() {
            break player.end();
        }
    };
    player.close(ended, &mut text);
    output.write_all(&text)?;
    output.flush()
}

/// Reads until the buffer is full or the input is at its end.
fn fill(input: &mut impl Read, buffer: &mut [u8]) -> io::Result<usize> {
    let mut length = 0;
    while length < buffer.len() {
        match input.read(&mut buffer[length..]) {
            Ok(0) => break,
            Ok(more) => length += more,
            Err(error) if error.kind() == io::ErrorKind::Interrupted => (),
            Err(error) => return Err(error),
        }
    }
    Ok(length)
}
