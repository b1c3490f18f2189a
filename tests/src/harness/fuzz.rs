//! `model fuzz`: bytes without a plan. The program ends with status 0, its text has one last line
//! `done …` or `refused …`, and equals the model's.

use std::fs;
use std::path::Path;

use super::child::{self, Input, Scratch};
use super::random::Random;
use super::ways::Way;
use crate::bus::Record;
use crate::player;
use crate::runfile::{self, BLOCK, CHECK_AT, FULL};

pub fn fuzz(program: &Path, files: u64, seed: u64) -> Result<String, String> {
    let scratch = Scratch::new().map_err(|error| format!("no scratch directory: {error}"))?;
    let path = scratch.file("fuzz.run");
    let mut ends = [0u64; 16];
    for index in 0..files {
        let mut random = Random::of(!seed, index);
        let bytes = make(&mut random);
        let text = player::play_file(&bytes);
        let fail = |why: String| {
            let kept = child::keep(&format!("model-fuzz-{seed}-file-{index}.run"), &bytes);
            format!("seed {seed}, file {index}: {why}\n{kept}")
        };
        fs::write(&path, &bytes).map_err(|error| fail(error.to_string()))?;
        let input = match index % 5 {
            0 => Input::Pipe(&bytes, random.between(1, 5000) as usize),
            _ => Input::File(&path),
        };
        let ran = child::run(program, &[], input, text.len() + 65_536)
            .map_err(|error| fail(format!("the program could not be run: {error}")))?;
        if let Some(why) = child::difference(&ran, &text).or_else(|| wrong_form(&ran.text)) {
            return Err(fail(why));
        }
        ends[usize::from(super::tally::last_refusal(&text).unwrap_or(0))] += 1;
    }
    let mut text = format!("{files} files; how they ended:\n  {:>7}  done\n", ends[0]);
    for (number, count) in ends.iter().enumerate().skip(1).filter(|(_, &count)| count > 0) {
        text += &format!("  {count:>7}  refused by {number}\n");
    }
    Ok(text + "all ended with status 0 and one last line, equal to the model\n")
}

/// "exactly one last line that begins with `done ` or `refused `"
fn wrong_form(text: &[u8]) -> Option<String> {
    let Some(body) = text.strip_suffix(b"\n") else {
        return Some("the last line does not end".into());
    };
    let is_last = |line: &[u8]| line.starts_with(b"done ") || line.starts_with(b"refused ");
    let count = body.split(|&byte| byte == b'\n').filter(|line| is_last(line)).count();
    let last = body.split(|&byte| byte == b'\n').next_back().is_some_and(is_last);
    (count != 1 || !last).then(|| "not exactly one last line".into())
}

/// Random bytes, sealed noise, or a mutated file.
pub fn make(random: &mut Random) -> Vec<u8> {
    match random.below(5) {
        0 => {
            let length = match random.below(4) {
                0 => random.below(600),
                1 => random.below(8) * 512,
                2 => random.below(20_000),
                _ => 512,
            };
            (0..length).map(|_| random.draw() as u8).collect()
        }
        1 => sealed_noise(random),
        _ => mutated(random),
    }
}

/// Blocks with a right head and check and any records at all.
fn sealed_noise(random: &mut Random) -> Vec<u8> {
    let n = random.byte(2, 63);
    let blocks = random.between(1, 3) as usize;
    let mut bytes = vec![0; blocks * BLOCK];
    for (number, part) in bytes.chunks_exact_mut(BLOCK).enumerate() {
        let block: &mut [u8; BLOCK] = part.try_into().expect("512 bytes");
        let count = if number + 1 < blocks { FULL } else { random.between(1, 31) as usize };
        let records: Vec<Record> = (0..count)
            .map(|_| {
                let mut bytes = [0; 16];
                bytes[0] = random.byte(0, 13);
                for _ in 0..random.below(4) {
                    bytes[random.between(1, 15) as usize] = random.below(70) as u8;
                }
                Record::from_bytes(&bytes)
            })
            .collect();
        runfile::write_unchecked(block, number as u32, n, &records);
    }
    bytes
}

/// A file made in some way, then altered in some places.
fn mutated(random: &mut Random) -> Vec<u8> {
    let ways = Way::all();
    let way = if random.percent(50) { Way::Open } else { random.pick(&ways) };
    let mut bytes = way.make(random).bytes;
    for _ in 0..random.below(4) {
        if bytes.is_empty() {
            break;
        }
        let place = random.below(bytes.len() as u64) as usize;
        match random.below(8) {
            0 => bytes[place] = random.draw() as u8,
            1 => bytes[place] ^= 1 << random.below(8),
            2 => bytes.truncate(place),
            3 => {
                bytes.remove(place);
            }
            4 => bytes.insert(place, random.draw() as u8),
            5 => {
                let block = place / BLOCK * BLOCK;
                let part = bytes[block..bytes.len().min(block + BLOCK)].to_vec();
                bytes.extend(part);
            }
            6 => {
                let end = bytes.len().min(place + random.between(1, 64) as usize);
                bytes[place..end].fill(random.pick(&[0, 1, 255]));
            }
            _ => bytes.rotate_left(place),
        }
    }
    // Mostly with checks that are right again, so that what lies behind them is reached.
    if random.percent(75) {
        for part in bytes.chunks_exact_mut(BLOCK) {
            let block: &mut [u8; BLOCK] = part.try_into().expect("512 bytes");
            let sum = runfile::check(block).to_le_bytes();
            block[CHECK_AT..].copy_from_slice(&sum);
        }
    }
    bytes
}
