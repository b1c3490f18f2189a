//! `model bench`: the program and the model's own player on the same long files, in turn.

use std::fs::{self, File};
use std::io::{self, BufWriter, Read};
use std::path::{Path, PathBuf};
use std::process::{Child, Command, Stdio};
use std::thread;
use std::time::{Duration, Instant};

use super::child::Scratch;
use super::generate::{self, Kind};

pub struct Options<'a> {
    pub program: &'a Path,
    pub kind: Kind,
    pub actions: u64,
    pub rounds: usize,
    /// The long file has so many times the actions.
    pub factor: u64,
    pub seed: u64,
}

const NODES: [u8; 3] = [2, 8, 63];
const LONG_NODES: u8 = 8;

/// A program to be measured, with its arguments.
pub struct Player<'a> {
    name: &'a str,
    path: PathBuf,
    arguments: &'a [&'a str],
}

/// Of one run: time on the clock, and time on the processor if the system says.
#[derive(Clone, Copy)]
pub struct Time {
    pub wall: Duration,
    pub processor: Option<Duration>,
}

impl<'a> Player<'a> {
    /// One without arguments.
    pub fn new(name: &'a str, path: &Path) -> Player<'a> {
        Player { name, path: path.to_path_buf(), arguments: &[] }
    }

    fn spawn(&self, input: &Path, errors: Stdio) -> io::Result<Child> {
        Command::new(&self.path)
            .args(self.arguments)
            .stdin(File::open(input)?)
            .stdout(Stdio::null())
            .stderr(errors)
            .spawn()
    }

    pub fn time(&self, input: &Path) -> io::Result<Time> {
        let start = Instant::now();
        let mut child = self.spawn(input, Stdio::piped())?;
        // Its errors are at their end when it is; then, before it is waited for, the system still
        // knows what it has used.
        let mut errors = Vec::new();
        if let Some(mut stderr) = child.stderr.take() {
            stderr.read_to_end(&mut errors)?;
        }
        let wall = start.elapsed();
        let processor = processor_time(child.id());
        let status = child.wait()?;
        if !status.success() {
            let errors = String::from_utf8_lossy(&errors);
            return Err(io::Error::other(format!("{}: {status} {errors}", self.name)));
        }
        Ok(Time { wall, processor })
    }

    /// The most memory it held, in kB, looked at every millisecond.
    fn peak_memory(&self, input: &Path) -> io::Result<u64> {
        let mut child = self.spawn(input, Stdio::null())?;
        let status = format!("/proc/{}/status", child.id());
        let mut peak = 0;
        loop {
            if let Ok(text) = fs::read_to_string(&status) {
                let line = text.lines().find_map(|line| line.strip_prefix("VmHWM:"));
                let kilobytes = line.and_then(|rest| rest.split_whitespace().next()?.parse().ok());
                peak = peak.max(kilobytes.unwrap_or(0));
            }
            if child.try_wait()?.is_some() {
                return Ok(peak);
            }
            thread::sleep(Duration::from_millis(1));
        }
    }
}

/// The first figure of /proc/PID/schedstat: nanoseconds on the processor.
fn processor_time(process: u32) -> Option<Duration> {
    let text = fs::read_to_string(format!("/proc/{process}/schedstat")).ok()?;
    let nanoseconds = text.split_whitespace().next()?.parse().ok()?;
    Some(Duration::from_nanos(nanoseconds))
}

/// Time on the processor; on the clock where the system does not say.
pub fn milliseconds(program: &Player, input: &Path) -> io::Result<f64> {
    let time = program.time(input)?;
    Ok(time.processor.unwrap_or(time.wall).as_secs_f64() * 1e3)
}

pub fn median(mut values: Vec<f64>) -> f64 {
    values.sort_by(f64::total_cmp);
    values[values.len() / 2]
}

/// Times both in turn on one file, and prints a line for each and the ratio.
fn measure(
    program: &Player,
    model: &Player,
    input: &Path,
    actions: u64,
    rounds: usize,
) -> io::Result<[u64; 2]> {
    let (mut theirs, mut ours) = (Vec::new(), Vec::new());
    for _ in 0..rounds {
        theirs.push(program.time(input)?);
        ours.push(model.time(input)?);
    }
    let walls = |times: &[Time]| median(times.iter().map(|time| time.wall.as_secs_f64()).collect());
    let mut peaks = [0; 2];
    for (place, (player, times)) in [(program, &theirs), (model, &ours)].into_iter().enumerate() {
        let wall = walls(times);
        peaks[place] = player.peak_memory(input)?;
        println!(
            "  {:<6} {:>12.0} actions a second, {:>6.1} ns an action, peak memory {} kB",
            player.name,
            actions as f64 / wall,
            wall * 1e9 / actions as f64,
            peaks[place]
        );
    }
    let ratios = |of: &dyn Fn(&Time) -> Option<f64>| -> Option<f64> {
        let pairs = ours.iter().zip(&theirs);
        let ratios: Option<Vec<f64>> =
            pairs.map(|(our, their)| Some(of(our)? / of(their)?)).collect();
        ratios.map(median)
    };
    let by_wall = ratios(&|time| Some(time.wall.as_secs_f64())).unwrap_or(f64::NAN);
    print!("  model time / PLAY time: {by_wall:.3} by the clock");
    match ratios(&|time| time.processor.map(|time| time.as_secs_f64())) {
        Some(ratio) => println!(", {ratio:.3} by processor time"),
        None => println!(),
    }
    Ok(peaks)
}

pub fn bench(options: &Options) -> Result<(), String> {
    run(options).map_err(|error| error.to_string())
}

fn run(options: &Options) -> io::Result<()> {
    let scratch = Scratch::new()?;
    let input = scratch.file("bench.run");
    let program = Player::new("PLAY", options.program);
    let model = Player { name: "model", path: std::env::current_exe()?, arguments: &["play"] };
    println!(
        "Ratios of one run on this machine; output to /dev/null, process start included, medians of {} rounds in turn.",
        options.rounds
    );
    let write = |n: u8, actions: u64| -> io::Result<()> {
        let mut output = BufWriter::with_capacity(1 << 20, File::create(&input)?);
        generate::generate(options.kind, n, actions, options.seed, &mut output)
            .map_err(io::Error::other)
    };
    let mut short_peaks = [0; 2];
    for n in NODES {
        write(n, options.actions)?;
        println!("{} actions ({:?}), n = {n}:", options.actions, options.kind);
        let peaks = measure(&program, &model, &input, options.actions, options.rounds)?;
        if n == LONG_NODES {
            short_peaks = peaks;
        }
    }
    if options.factor > 1 {
        let actions = options.actions * options.factor;
        write(LONG_NODES, actions)?;
        println!("{actions} actions ({:?}), n = {LONG_NODES}:", options.kind);
        let peaks = measure(&program, &model, &input, actions, options.rounds.min(3))?;
        for (player, (short, long)) in
            [&program, &model].into_iter().zip(short_peaks.into_iter().zip(peaks))
        {
            // A few pages more or less are not growth with the file.
            let grown = long > short + 1024;
            println!(
                "  {:<6} peak memory {short} kB, then {long} kB for {} times the actions: {}",
                player.name,
                options.factor,
                if grown { "GROWN" } else { "not grown" }
            );
            if grown {
                return Err(io::Error::other(format!(
                    "{}: memory grows with the file",
                    player.name
                )));
            }
        }
    }
    Ok(())
}
