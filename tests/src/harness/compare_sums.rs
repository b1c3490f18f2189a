//! `model compare-sums`: files made in every way, summed by the program and by the model, the texts
//! compared byte for byte; and what the sums must be to each other watched on the bytes alone.

use std::path::Path;

use super::child;
use super::compare::Options;
use super::compare_text::{difference_of_lines, run};
use super::hits::{self, Hits};
use super::random::Random;
use super::sum_ways::{weighted, Place, SumWay, MODULUS};
use super::tally::last_refusal;
use super::ways::UNPLAYED;
use crate::runfile::{BLOCK, CHECK_AT, FIRST_ACTION, FULL, RECORD};
use crate::{player, sums};

pub fn compare_sums(options: &Options) -> Result<String, String> {
    let one = |index, path: &Path, hits: &mut Hits| one_file(options, index, path, hits);
    hits::compare(options.files, options.only, "files", &aims(), one)
}

fn one_file(options: &Options, index: u64, path: &Path, hits: &mut Hits) -> Result<(), String> {
    let mut random = Random::of(options.seed.rotate_left(31), index);
    let families = SumWay::families();
    let turn = index as usize / families.len();
    let ways = &families[index as usize % families.len()];
    let way = ways[turn % ways.len()];
    let (bytes, end) = way.make(&mut random);
    let text = sums::sums(&bytes);
    let fail = |why: String| {
        let name = format!("model-seed-{}-sums-{index}.run", options.seed);
        let kept = child::keep(&name, &bytes);
        format!(
            "seed {}, file {index} ({way:?}): {why}\n{kept}\n\
             again: model compare-sums SUMS --seed {} --only {index}",
            options.seed, options.seed
        )
    };
    end.of(&text).map_err(fail)?;
    // In every turn another family goes through a pipe.
    let input = child::input(&bytes, index + turn as u64, path, &mut random).map_err(fail)?;
    let ran = run(options.program, &[], input, text.len()).map_err(fail)?;
    if let Some(why) = difference_of_lines(&ran, &text, b"") {
        return Err(fail(why));
    }
    let printed = Printed::read(&ran.text).map_err(fail)?;
    for (place, line) in printed.lines.iter().enumerate() {
        watch(&bytes, place, line).map_err(|why| fail(format!("block {place}: {why}")))?;
    }
    enter(&bytes, &printed, hits);
    Ok(())
}

/// The line of a block.
struct Line {
    number: u64,
    sums: Vec<u64>,
}

/// What `sums` printed: a line for each block, and the last line.
struct Printed {
    lines: Vec<Line>,
    passed: u64,
    refused: Option<u8>,
}

impl Printed {
    fn read(text: &[u8]) -> Result<Printed, String> {
        let text = String::from_utf8_lossy(text);
        let mut lines: Vec<Vec<&str>> =
            text.lines().map(|line| line.split(' ').collect()).collect();
        let last = lines.pop().unwrap_or_default();
        let figure = |word: &str| word.parse::<u64>().map_err(|_| format!("{word} is no figure"));
        let line = |words: Vec<&str>| {
            let mut figures = words.into_iter().map(figure);
            let number = figures.next().unwrap_or(Err("no figure".into()))?;
            Ok(Line { number, sums: figures.collect::<Result<_, _>>()? })
        };
        let (passed, refused) = match last[..] {
            ["done", passed] => (figure(passed)?, None),
            ["refused", passed, number] => (figure(passed)?, Some(figure(number)? as u8)),
            _ => return Err("no last line".into()),
        };
        let lines = lines.into_iter().map(line).collect::<Result<_, String>>()?;
        Ok(Printed { lines, passed, refused })
    }

    /// The place in its block, and the block's count, of the action that was refused after the line
    /// of its block.
    fn refused_at(&self) -> Option<(usize, usize)> {
        let (last, before) = self.lines.split_last()?;
        let before: usize = before.iter().map(|line| line.sums.len()).sum();
        let place = self.passed as usize - before;
        (place < last.sums.len()).then_some((place, last.sums.len()))
    }
}

/// The block that a line is about.
fn block_at(bytes: &[u8], place: usize) -> &[u8] {
    &bytes[place * BLOCK..(place + 1) * BLOCK]
}

/// The bytes of action `k` of a block, from 0, with their places.
fn action_sum(block: &[u8], k: usize) -> u64 {
    let first = FIRST_ACTION + RECORD * k;
    weighted(&block[first..first + RECORD], first)
}

fn head_sum(block: &[u8]) -> u64 {
    weighted(&block[..FIRST_ACTION], 0)
}

/// A line against the bytes of its block: each sum is that of one action more than the one before,
/// and the last one and the head's make the check.
fn watch(bytes: &[u8], place: usize, line: &Line) -> Result<(), String> {
    let block = block_at(bytes, place);
    if line.number != place as u64 || line.sums.len() != usize::from(block[4]) {
        return Err(format!("number {}, {} sums", line.number, line.sums.len()));
    }
    let mut before = 0;
    for (k, &sum) in line.sums.iter().enumerate() {
        if sum >= MODULUS || (before + action_sum(block, k)) % MODULUS != sum {
            return Err(format!("sum {} is {sum}, after {before}", k + 1));
        }
        before = sum;
    }
    let check = u64::from(block[CHECK_AT]) + 256 * u64::from(block[CHECK_AT + 1]);
    match (before + head_sum(block)) % MODULUS == check {
        true => Ok(()),
        false => Err(format!("the last sum {before} and the head's do not make the check {check}")),
    }
}

/// Numbers by which a block is refused, and an action.
const OF_BLOCKS: [u8; 5] = [8, 9, 1, 10, 11];
const OF_ACTIONS: [u8; 7] = [2, 3, 4, 5, 13, 15, 6];

const LINES: [&str; 3] = ["a line with 1 sum", "a line with 2 to 30 sums", "a line with 31 sums"];
const BLOCKS: [&str; 4] = [
    "the line of block 0",
    "the line of block 1",
    "the line of a block from 2 to 255",
    "the line of a block over 255",
];
const ZERO: &str = "a sum of 0";
const ZERO_AGAIN: &str = "a sum of 0 after another one";
const OVER_60000: &str = "a sum over 60,000";
const GREATEST: &str = "a sum of 65,520";
const BELOW: &str = "a sum below the one before it";
const FAR_PAST: &str = "a sum that has passed 65,521 more than 500 times";
const DECIDED: &str = "a block with ask and decide";
const AT_CHECK: &str = "a last sum that passes 65,521 with the head's";
const CLOSED_DONE: &str = "a closed action passed over, and done";
const CLOSED_REFUSED: &str = "a closed action passed over, and a later one refused";

fn refused_by(number: u8) -> String {
    format!("refused by {number}")
}

fn at_block(number: u8, first: bool) -> String {
    let block = if first { "block 0" } else { "a later block" };
    format!("refused by {number} at {block}, which has no line")
}

fn at_action(number: u8, place: Place) -> String {
    format!("refused by {number} at {} action of a block, after its line", place.words())
}

/// What files must hit.
fn aims() -> Vec<String> {
    let mut aims = vec!["done".to_string()];
    aims.extend(UNPLAYED.map(refused_by));
    for number in OF_BLOCKS {
        aims.extend([true, false].map(|first| at_block(number, first)));
    }
    for number in OF_ACTIONS {
        aims.extend(Place::ALL.map(|place| at_action(number, place)));
    }
    aims.extend(LINES.into_iter().chain(BLOCKS).map(String::from));
    let sums = [ZERO, ZERO_AGAIN, OVER_60000, GREATEST, BELOW, FAR_PAST, AT_CHECK, DECIDED];
    aims.extend(sums.into_iter().chain([CLOSED_DONE, CLOSED_REFUSED]).map(String::from));
    aims
}

/// What a file has hit.
fn enter(bytes: &[u8], printed: &Printed, hits: &mut Hits) {
    match printed.refused {
        None => hits.enter("done"),
        Some(number) => enter_refusal(number, printed, hits),
    }
    for (place, line) in printed.lines.iter().enumerate() {
        enter_line(block_at(bytes, place), line, hits);
    }
    if passes_closed(bytes, printed) {
        hits.enter(if printed.refused.is_none() { CLOSED_DONE } else { CLOSED_REFUSED });
    }
}

fn enter_refusal(number: u8, printed: &Printed, hits: &mut Hits) {
    hits.enter(refused_by(number));
    match printed.refused_at() {
        None => hits.enter(at_block(number, printed.lines.is_empty())),
        Some((0, _)) => hits.enter(at_action(number, Place::First)),
        Some((place, count)) if place + 1 == count => hits.enter(at_action(number, Place::Last)),
        Some(_) => hits.enter(at_action(number, Place::Middle)),
    }
}

fn enter_line(block: &[u8], line: &Line, hits: &mut Hits) {
    hits.enter(match line.sums.len() {
        1 => LINES[0],
        FULL => LINES[2],
        _ => LINES[1],
    });
    hits.enter(match line.number {
        0 => BLOCKS[0],
        1 => BLOCKS[1],
        2..=255 => BLOCKS[2],
        _ => BLOCKS[3],
    });
    let (mut before, mut whole) = (0, 0);
    for (k, &sum) in line.sums.iter().enumerate() {
        whole += action_sum(block, k);
        let of_sum = [
            (sum == 0, ZERO),
            (sum == 0 && before != 0, ZERO_AGAIN),
            (sum > 60_000, OVER_60000),
            (sum == MODULUS - 1, GREATEST),
            (sum < before, BELOW),
            (whole > 500 * MODULUS, FAR_PAST),
        ];
        of_sum.iter().filter(|(hit, _)| *hit).for_each(|(_, name)| hits.enter(*name));
        before = sum;
    }
    if before + head_sum(block) >= MODULUS {
        hits.enter(AT_CHECK);
    }
    let kinds = block[FIRST_ACTION..CHECK_AT].iter().step_by(RECORD);
    let kinds: Vec<&u8> = kinds.take(line.sums.len()).collect();
    if [11, 12].iter().all(|kind| kinds.contains(&kind)) {
        hits.enter(DECIDED);
    }
}

/// Whether an action was passed that is refused by 7 when it is played.
fn passes_closed(bytes: &[u8], printed: &Printed) -> bool {
    let played = player::play_file(bytes);
    let accepted = String::from_utf8_lossy(&played).lines().filter(|line| is_action(line)).count();
    last_refusal(&played) == Some(7) && printed.passed > accepted as u64
}

/// A line of the printed run that has an action.
fn is_action(line: &str) -> bool {
    line.starts_with(|first: char| first.is_ascii_digit())
}
