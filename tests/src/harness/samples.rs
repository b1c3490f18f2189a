//! `model runs`: the sample runs of a directory. Each is there four times: NAME.txt in plain words,
//! NAME.run as a run file, NAME.out as it is printed, NAME.sums as its blocks are summed. A run file
//! with an action that is refused, which no text composes to, has NAME.list, as it is listed, in the
//! place of NAME.txt.

use std::collections::BTreeSet;
use std::fs;
use std::path::{Path, PathBuf};

use super::child::{self, Input};
use super::tally::last_refusal;

pub struct Programs {
    pub play: PathBuf,
    pub compose: PathBuf,
    pub list: PathBuf,
    pub sums: PathBuf,
}

/// One sample.
pub struct Sample {
    pub name: String,
    pub words: Words,
    pub run: Vec<u8>,
    pub printed: Vec<u8>,
    pub sums: Vec<u8>,
}

/// How a sample stands there in plain words.
pub enum Words {
    /// The text that composes to the run file.
    Text(Vec<u8>),
    /// The listing of the run file, whose last line is `refused`.
    Listing(Vec<u8>),
}

/// The endings of the files of a sample.
const ENDINGS: [&str; 5] = ["txt", "list", "run", "out", "sums"];

/// The samples of a directory, by name; every one must be there four times.
pub fn read(directory: &Path) -> Result<Vec<Sample>, String> {
    let fail = |error: std::io::Error| format!("{}: {error}", directory.display());
    let mut names = BTreeSet::new();
    for entry in fs::read_dir(directory).map_err(fail)? {
        let path = entry.map_err(fail)?.path();
        let ending = path.extension().and_then(|ending| ending.to_str());
        if ending.is_some_and(|ending| ENDINGS.contains(&ending)) {
            names.extend(path.file_stem().and_then(|name| name.to_str()).map(String::from));
        }
    }
    names.into_iter().map(|name| read_one(directory, name)).collect()
}

fn read_one(directory: &Path, name: String) -> Result<Sample, String> {
    let path = |ending: &str| directory.join(format!("{name}.{ending}"));
    let part = |ending: &str| {
        fs::read(path(ending)).map_err(|error| format!("{}: {error}", path(ending).display()))
    };
    let words = match (path("txt").exists(), path("list").exists()) {
        (true, false) => Words::Text(part("txt")?),
        (false, true) => Words::Listing(listing(part("list")?, &name)?),
        (true, true) => return Err(format!("{name}: both {name}.txt and {name}.list are there")),
        (false, false) => return Err(format!("{name}: no {name}.txt and no {name}.list is there")),
    };
    Ok(Sample {
        words,
        run: part("run")?,
        printed: part("out")?,
        sums: part("sums")?,
        name: name.clone(),
    })
}

/// Without that last line the listing is a text that composes, and belongs into NAME.txt.
fn listing(bytes: Vec<u8>, name: &str) -> Result<Vec<u8>, String> {
    match last_refusal(&bytes) {
        Some(_) => Ok(bytes),
        None => Err(format!("{name}.list does not end with a line refused")),
    }
}

/// Prints a line for each sample, and a count.
pub fn check(directory: &Path, programs: &Programs) -> Result<(), String> {
    let samples = read(directory)?;
    let mut failed = 0;
    for sample in &samples {
        match check_one(sample, programs) {
            Ok(how) => println!("{}: {how} as it stands", sample.name),
            Err(why) => {
                println!("{}: DIFFERS: {why}", sample.name);
                failed += 1;
            }
        }
    }
    println!("{} sample runs, {} differ", samples.len(), failed);
    match (samples.len(), failed) {
        (0, _) => Err(format!("no sample runs in {}", directory.display())),
        (_, 0) => Ok(()),
        (_, _) => Err(format!("{failed} sample runs differ")),
    }
}

/// What the programs made of it.
fn check_one(sample: &Sample, programs: &Programs) -> Result<&'static str, String> {
    let printed = run(&programs.play, &sample.run)?;
    same("PLAY of the .run is not the .out", &printed, &sample.printed)?;
    let summed = run(&programs.sums, &sample.run)?;
    same("SUMS of the .run is not the .sums", &summed, &sample.sums)?;
    let listed = run(&programs.list, &sample.run)?;
    match &sample.words {
        Words::Text(text) => {
            let composed = run(&programs.compose, text)?;
            same("COMPOSE of the .txt is not the .run", &composed, &sample.run)?;
            let again = run(&programs.compose, &listed)?;
            same("COMPOSE of LIST of the .run is not the .run", &again, &sample.run)?;
            Ok("composed, played, listed and summed")
        }
        Words::Listing(listing) => {
            same("LIST of the .run is not the .list", &listed, listing)?;
            Ok("played, listed and summed")
        }
    }
}

/// What a program writes for these bytes; it must say nothing on standard error.
fn run(program: &Path, bytes: &[u8]) -> Result<Vec<u8>, String> {
    let shown = program.display();
    let ran = child::run(program, &[], Input::Pipe(bytes, 4096), 1 << 24)
        .map_err(|error| format!("{shown} could not be run: {error}"))?;
    match ran.status {
        Some(status) if status.success() && ran.errors.is_empty() => Ok(ran.text),
        Some(status) => {
            let errors = String::from_utf8_lossy(&ran.errors);
            Err(format!("{shown} ended with {status}: {}", errors.trim_end()))
        }
        None => Err(format!("{shown} did not end, and was stopped")),
    }
}

fn same(what: &str, theirs: &[u8], stands: &[u8]) -> Result<(), String> {
    if theirs == stands {
        return Ok(());
    }
    let alike = theirs.iter().zip(stands).take_while(|(their, our)| their == our).count();
    Err(format!("{what}: {} and {} bytes, the first {alike} alike", theirs.len(), stands.len()))
}
