//! `model compare`: files made in every way, played by the program and by the model, the texts
//! compared byte for byte; demand 3 watched on the runs behind the files.

use std::path::Path;

use super::child;
use super::forward::{self, Choice};
use super::random::Random;
use super::tally::Tally;
use super::walk;
use super::watch::Watch;
use super::ways::{Case, Way};
use super::workers;
use crate::bus::{Action, Bus, Phase, Record};
use crate::player;

pub struct Options<'a> {
    pub program: &'a Path,
    pub files: u64,
    pub seed: u64,
    /// Only the file with this number.
    pub only: Option<u64>,
}

pub fn compare(options: &Options) -> Result<String, String> {
    let items = workers::items(options.files, options.only);
    let one = |index, path: &Path, tally: &mut Tally| one_file(options, index, path, tally);
    let total = workers::each(items, one)?;
    let text = total.print();
    let missing = total.missing();
    if options.only.is_some() {
        Ok("equal\n".into())
    } else if missing.is_empty() {
        Ok(text + "equal throughout; everything that a file can hit was hit\n")
    } else {
        let list: String = missing.iter().map(|name| format!("  not hit: {name}\n")).collect();
        Err(format!("{text}\n{list}not everything that a file can hit was hit: more files?"))
    }
}

/// Half of the files are runs of open actions, the other half take the other ways in turn.
fn one_file(options: &Options, index: u64, path: &Path, tally: &mut Tally) -> Result<(), String> {
    let mut random = Random::of(options.seed, index);
    let ways = Way::all();
    let place = match index % 2 {
        0 => 0,
        _ => 1 + (index / 2) as usize % (ways.len() - 1),
    };
    let way = ways[place];
    let case = way.make(&mut random);
    let text = player::play_file(&case.bytes);
    tally.enter_way(place);
    let fail = |why: String| {
        let name = format!("model-seed-{}-file-{index}.run", options.seed);
        let kept = child::keep(&name, &case.bytes);
        format!(
            "seed {}, file {index} ({way}, n = {}): {why}\n{kept}\n\
             again: model compare PLAY --seed {} --only {index}",
            options.seed, case.n, options.seed
        )
    };
    check_model(&case, &text).map_err(fail)?;
    watch(&case, &mut random, tally)
        .map_err(|why| fail(format!("{why}\nactions:\n{}", list(&case.records))))?;

    let input = child::input(&case.bytes, index, path, &mut random).map_err(fail)?;
    let ran = child::run(options.program, &[], input, text.len() + 65_536);
    let ran = ran.map_err(|error| fail(format!("the program could not be run: {error}")))?;
    if let Some(difference) = child::difference(&ran, &text) {
        return Err(fail(difference));
    }
    tally.enter_text(&text);
    Ok(())
}

/// The model's own text: as the way of the file says, and the same from a stream.
fn check_model(case: &Case, text: &[u8]) -> Result<(), String> {
    case.end.of(text)?;
    let mut streamed = Vec::new();
    player::play_stream(&mut &case.bytes[..], &mut streamed).map_err(|error| error.to_string())?;
    if streamed != text {
        return Err("the MODEL plays a stream otherwise than a file".into());
    }
    Ok(())
}

/// Demand 3 on the whole list of actions, refused ones and those after them included, and on some
/// continuations of forward actions from points of it.
fn watch(case: &Case, random: &mut Random, tally: &mut Tally) -> Result<(), String> {
    let bus = Bus::fresh(case.n).map_err(|refusal| format!("n refused: {}", refusal.number()))?;
    let mut watch = Watch::new(bus);
    watch.look()?;
    let points: Vec<usize> =
        (0..3).map(|_| random.below(case.records.len() as u64) as usize).collect();
    for (index, record) in case.records.iter().enumerate() {
        let before = watch.bus.clone();
        let outcome = watch.step(record).map_err(|why| format!("action {index}: {why}"))?;
        if let Ok(reported) = outcome {
            tally.enter_action(&before, record, reported, &watch.bus);
        }
        if points.contains(&index) {
            go_on(&watch, random, tally)
                .map_err(|why| format!("continuation after action {index}: {why}"))?;
        }
    }
    Ok(())
}

/// "however these are chosen, one after the other, it is idle after at most" 22n + 2. Now and then
/// all nodes that can have asked before.
fn go_on(watch: &Watch, random: &mut Random, tally: &mut Tally) -> Result<(), String> {
    let mut watch = watch.clone();
    if random.percent(50) {
        for node in 0..watch.bus.n {
            let _ = watch.step(&Action::Ask { node }.into())?;
        }
    }
    let choice = random.pick(&[
        Choice::Longest,
        Choice::Random { faults: 0 },
        Choice::Random { faults: 10 },
        Choice::Random { faults: 50 },
    ]);
    let most = walk::bound(watch.bus.n) as usize;
    let mut taken: Vec<Record> = Vec::new();
    while watch.bus.phase != Phase::Idle {
        if taken.len() == most {
            return Err(format!("not idle after {most} forward actions:\n{}", list(&taken)));
        }
        let Some(action) = forward::choose(&watch.bus, choice, random) else {
            return Err(format!("no forward action found after\n{}", list(&taken)));
        };
        let record = Record::from(action);
        taken.push(record);
        match watch.step(&record) {
            Ok(Ok(_)) => (),
            Ok(Err(refusal)) => return Err(format!("open, and refused {}", refusal.number())),
            Err(why) => return Err(format!("{why}, after\n{}", list(&taken))),
        }
    }
    tally.continuations += 1;
    tally.longest_continuations += u64::from(taken.len() == most - 2);
    Ok(())
}

/// A list of actions for a message: kind and fields of each.
fn list(records: &[Record]) -> String {
    let line = |(index, record): (usize, &Record)| match record.look(u8::MAX) {
        Ok(action) => format!("  {index} {action:?}\n"),
        Err(_) => format!("  {index} {record:?}\n"),
    };
    records.iter().enumerate().map(line).collect()
}
