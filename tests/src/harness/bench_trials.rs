//! `model bench-trials`: the processor time of the program `trial`, and that of `play` for the run file
//! that comes of it, in turn.

use std::fs;
use std::io;
use std::path::Path;

use super::bench::{median, milliseconds, Player};
use super::child::Scratch;
use super::settings::{longer, plain};
use crate::trial::{self, Tally};

pub struct Options<'a> {
    pub trial: &'a Path,
    pub play: &'a Path,
    pub rounds: usize,
}

const NODES: [u8; 2] = [2, 63];
const ACTIONS: u16 = 65_535;

pub fn bench_trials(options: &Options) -> Result<(), String> {
    run(options).map_err(|error| error.to_string())
}

fn run(options: &Options) -> io::Result<()> {
    let scratch = Scratch::new()?;
    let (text, file) = (scratch.file("bench.txt"), scratch.file("bench.run"));
    let trial = Player::new("TRIAL", options.trial);
    let play = Player::new("PLAY", options.play);
    println!(
        "Trials of {ACTIONS} actions: processor time on this machine, process start included, medians of {} rounds in turn.",
        options.rounds
    );
    for n in NODES {
        let settings = longer(n, ACTIONS);
        let bytes = trial::run_file(&settings, &mut Tally::default());
        fs::write(&text, plain(&settings))?;
        fs::write(&file, bytes.expect("these settings are not refused"))?;
        let (mut trials, mut plays) = (Vec::new(), Vec::new());
        for _ in 0..options.rounds {
            trials.push(milliseconds(&trial, &text)?);
            plays.push(milliseconds(&play, &file)?);
        }
        let ratios = trials.iter().zip(&plays).map(|(trial, play)| trial / play).collect();
        println!(
            "  n = {n}: TRIAL {:.2} ms, PLAY {:.2} ms, TRIAL time / PLAY time {:.3}",
            median(trials),
            median(plays),
            median(ratios)
        );
    }
    Ok(())
}
