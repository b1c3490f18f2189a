//! `model`: the model written apart, and what holds the programs `play`, `compose`, `list`, `sums`,
//! `trial` and `find` against it.

use std::io::{self, BufReader, BufWriter, StdinLock, StdoutLock, Write};
use std::path::PathBuf;
use std::process::ExitCode;

use bench_model::harness::random::Random;
use bench_model::harness::settings::made as made_settings;
use bench_model::harness::{
    bench, bench_find, bench_trials, compare, compare_find, compare_probe, compare_sums,
    compare_text, compare_trials, fuzz, generate, samples, walk,
};
use bench_model::plain::Written;
use bench_model::{counts, notation, player, probe, questions, settings, sums, table};

const USAGE: &str = "\
model play                                        a run file in, the printed text out
model compose [--lines]                           a run in plain words in, a run file out; or which line
                                                  says how many actions
model list                                        a run file in, the run in plain words out
model sums                                        a run file in, the sums of its blocks out
model trial                                       the settings of a trial in plain words in, its run file out;
                                                  the tally on standard error
model find                                        a question in plain words in, the first route out
model probe                                       questions about states handed in, as bytes, in, routes out
model table                                       the reception chart, 25 lines of 14 cells
model counts                                      how many sequences of classes end where, 17 lines
model compare PLAY [--files N] [--seed S] [--only K]
                                                  made files, played by PLAY and by the model
model fuzz PLAY [--files N] [--seed S]            bytes without a plan
model compare-text COMPOSE LIST [--files N] [--seed S] [--only K]
                                                  made texts and files, by both programs and by the model
model compare-sums SUMS [--files N] [--seed S] [--only K]
                                                  made files, summed by SUMS and by the model
model compare-trials TRIAL PLAY [--files N] [--seed S] [--only K]
                                                  made settings, tried by TRIAL and by the model; the
                                                  runs played by PLAY
model compare-find FIND [--files N] [--seed S] [--only K]
                                                  made questions, answered by FIND and by the model
model compare-probe PROBE [--states N] [--seed S] made states handed in, by PROBE and by the model
model settings [--wrong] [--seed S]               made settings, right or with a fault
model runs DIR PLAY COMPOSE LIST SUMS             the sample runs of a directory
model walk [--n N]                                one transaction and its reply, every way they can go
model generate mixed|broadcast|transaction [--n N] [--actions N] [--seed S]
                                                  a run file that plays to its end
model bench PLAY [--kind KIND] [--actions N] [--rounds N] [--factor N] [--seed S]
                                                  the speed of PLAY and of the model
model bench-trials TRIAL PLAY [--rounds N]        the time of TRIAL, and of PLAY for the same actions
model bench-find FIND [--rounds N]                the time of FIND for questions that take long";

fn main() -> ExitCode {
    match command() {
        Ok(()) => ExitCode::SUCCESS,
        Err(why) => {
            eprintln!("model: {why}");
            ExitCode::FAILURE
        }
    }
}

fn command() -> Result<(), String> {
    let mut words = std::env::args().skip(1);
    let name = words.next().ok_or(USAGE)?;
    let mut rest = Arguments { words: words.collect() };
    match name.as_str() {
        "play" => {
            rest.end()?;
            play().map_err(|error| error.to_string())
        }
        "compose" => {
            let lines = rest.flag("--lines");
            rest.end()?;
            compose(lines).map_err(|error| error.to_string())
        }
        "list" => {
            rest.end()?;
            list().map_err(|error| error.to_string())
        }
        "sums" => {
            rest.end()?;
            sums().map_err(|error| error.to_string())
        }
        "trial" => {
            rest.end()?;
            let written = settings::trial_stream(&mut io::stdin().lock());
            written.and_then(put).map_err(|error| error.to_string())
        }
        "find" => {
            rest.end()?;
            let written = questions::find_stream(&mut io::stdin().lock());
            written.and_then(put).map_err(|error| error.to_string())
        }
        "probe" => {
            rest.end()?;
            probe().map_err(|error| error.to_string())
        }
        "table" => {
            rest.end()?;
            io::stdout().write_all(table::text().as_bytes()).map_err(|error| error.to_string())
        }
        "counts" => {
            rest.end()?;
            io::stdout().write_all(counts::text().as_bytes()).map_err(|error| error.to_string())
        }
        "compare-text" => {
            let (files, seed, only) = rest.made(3000)?;
            let (compose, list) = (rest.path()?, rest.path()?);
            rest.end()?;
            let options =
                compare_text::Options { compose: &compose, list: &list, files, seed, only };
            print!("{}", compare_text::compare_text(&options)?);
            Ok(())
        }
        "compare-trials" => {
            let (files, seed, only) = rest.made(4000)?;
            let (trial, play) = (rest.path()?, rest.path()?);
            rest.end()?;
            let options = compare_trials::Options { trial: &trial, play: &play, files, seed, only };
            print!("{}", compare_trials::compare_trials(&options)?);
            Ok(())
        }
        "compare-find" => {
            let (files, seed, only) = rest.made(3000)?;
            let program = rest.program()?;
            let options = compare::Options { program: &program, files, seed, only };
            print!("{}", compare_find::compare_find(&options)?);
            Ok(())
        }
        "compare-probe" => {
            let states = rest.number("--states")?.unwrap_or(3000);
            let seed = rest.number("--seed")?.unwrap_or(1);
            let program = rest.program()?;
            let options = compare_probe::Options { program: &program, states, seed };
            print!("{}", compare_probe::compare_probe(&options)?);
            Ok(())
        }
        "bench-find" => {
            let rounds = rest.number("--rounds")?.unwrap_or(9).max(1) as usize;
            let find = rest.program()?;
            bench_find::bench_find(&bench_find::Options { find: &find, rounds })
        }
        "settings" => {
            let wrong = rest.flag("--wrong");
            let seed = rest.number("--seed")?.unwrap_or(1);
            rest.end()?;
            let text = made_settings(&mut Random::new(seed), wrong);
            io::stdout().write_all(&text).map_err(|error| error.to_string())
        }
        "bench-trials" => {
            let rounds = rest.number("--rounds")?.unwrap_or(9).max(1) as usize;
            let (trial, play) = (rest.path()?, rest.path()?);
            rest.end()?;
            let options = bench_trials::Options { trial: &trial, play: &play, rounds };
            bench_trials::bench_trials(&options)
        }
        "runs" => {
            let directory = rest.path()?;
            let (play, compose) = (rest.path()?, rest.path()?);
            let (list, sums) = (rest.path()?, rest.path()?);
            rest.end()?;
            samples::check(&directory, &samples::Programs { play, compose, list, sums })
        }
        "compare" => {
            let (files, seed, only) = rest.made(5000)?;
            let program = rest.program()?;
            let options = compare::Options { program: &program, files, seed, only };
            print!("{}", compare::compare(&options)?);
            Ok(())
        }
        "compare-sums" => {
            let (files, seed, only) = rest.made(8000)?;
            let program = rest.program()?;
            let options = compare::Options { program: &program, files, seed, only };
            print!("{}", compare_sums::compare_sums(&options)?);
            Ok(())
        }
        "fuzz" => {
            let files = rest.number("--files")?.unwrap_or(2000);
            let seed = rest.number("--seed")?.unwrap_or(1);
            let program = rest.program()?;
            print!("{}", fuzz::fuzz(&program, files, seed)?);
            Ok(())
        }
        "walk" => {
            let n = rest.nodes()?;
            rest.end()?;
            for n in n.map_or(vec![2, 3], |n| vec![n]) {
                print!("{}", walk::walk(n)?);
            }
            Ok(())
        }
        "generate" => {
            let n = rest.nodes()?.unwrap_or(8);
            let actions = rest.number("--actions")?.unwrap_or(1000);
            let seed = rest.number("--seed")?.unwrap_or(1);
            let kind = rest.kind()?;
            rest.end()?;
            let (_, mut output) = buffered();
            generate::generate(kind, n, actions, seed, &mut output)
        }
        "bench" => {
            let kind = match rest.option("--kind")? {
                Some(word) => generate::Kind::parse(&word).ok_or(USAGE)?,
                None => generate::Kind::Mixed,
            };
            let actions = rest.number("--actions")?.unwrap_or(1_000_000);
            let rounds = rest.number("--rounds")?.unwrap_or(9).max(1) as usize;
            let factor = rest.number("--factor")?.unwrap_or(100);
            let seed = rest.number("--seed")?.unwrap_or(1);
            let program = rest.program()?;
            bench::bench(&bench::Options { program: &program, kind, actions, rounds, factor, seed })
        }
        _ => Err(USAGE.into()),
    }
}

fn play() -> io::Result<()> {
    player::play_stream(&mut io::stdin().lock(), &mut io::stdout().lock())
}

/// Standard input and output, in large pieces.
fn buffered() -> (BufReader<StdinLock<'static>>, BufWriter<StdoutLock<'static>>) {
    const ROOM: usize = 1 << 18;
    let (input, output) = (io::stdin().lock(), io::stdout().lock());
    (BufReader::with_capacity(ROOM, input), BufWriter::with_capacity(ROOM, output))
}

/// A fault is one line on standard error; as with the programs, the exit status does not tell.
fn compose(lines: bool) -> io::Result<()> {
    let (mut input, mut output) = buffered();
    let ended = match lines {
        true => notation::lines_stream(&mut input, &mut output)?,
        false => notation::compose_stream(&mut input, &mut output)?,
    };
    if let Err(complaint) = ended {
        eprintln!("{complaint}");
    }
    Ok(())
}

fn list() -> io::Result<()> {
    let (mut input, mut output) = buffered();
    notation::list_stream(&mut input, &mut output)
}

fn sums() -> io::Result<()> {
    let (mut input, mut output) = buffered();
    sums::sums_stream(&mut input, &mut output)
}

/// Puts out what a program writes of a text; here too the exit status does not tell.
fn put((text, said): Written) -> io::Result<()> {
    io::stdout().write_all(&text)?;
    io::stdout().flush()?;
    io::stderr().write_all(said.as_bytes())
}

fn probe() -> io::Result<()> {
    let (mut input, mut output) = buffered();
    probe::probe_stream(&mut input, &mut output)
}

/// The words after the subcommand: options are taken out, what is left is taken in order.
struct Arguments {
    words: Vec<String>,
}

impl Arguments {
    /// Whether this word is among them.
    fn flag(&mut self, name: &str) -> bool {
        let place = self.words.iter().position(|word| word == name);
        place.map(|place| self.words.remove(place)).is_some()
    }

    fn option(&mut self, name: &str) -> Result<Option<String>, String> {
        let Some(place) = self.words.iter().position(|word| word == name) else {
            return Ok(None);
        };
        self.words.remove(place);
        if place == self.words.len() {
            return Err(format!("{name} needs a value\n{USAGE}"));
        }
        Ok(Some(self.words.remove(place)))
    }

    fn number(&mut self, name: &str) -> Result<Option<u64>, String> {
        let Some(word) = self.option(name)? else {
            return Ok(None);
        };
        word.parse().map(Some).map_err(|_| format!("{name}: {word} is no number"))
    }

    /// How many items are made, from which seed, and whether only one of them.
    fn made(&mut self, files: u64) -> Result<(u64, u64, Option<u64>), String> {
        let files = self.number("--files")?.unwrap_or(files);
        let seed = self.number("--seed")?.unwrap_or(1);
        Ok((files, seed, self.number("--only")?))
    }

    fn nodes(&mut self) -> Result<Option<u8>, String> {
        match self.number("--n")? {
            None => Ok(None),
            Some(n) if (2..=63).contains(&n) => Ok(Some(n as u8)),
            Some(n) => Err(format!("--n: n is 2 to 63, not {n}")),
        }
    }

    fn next(&mut self) -> Result<String, String> {
        if self.words.is_empty() {
            return Err(USAGE.into());
        }
        Ok(self.words.remove(0))
    }

    fn kind(&mut self) -> Result<generate::Kind, String> {
        generate::Kind::parse(&self.next()?).ok_or(USAGE.into())
    }

    /// The path of a program, the last word there is.
    fn program(&mut self) -> Result<PathBuf, String> {
        let path = self.path()?;
        self.end()?;
        Ok(path)
    }

    /// The path of something that is there.
    fn path(&mut self) -> Result<PathBuf, String> {
        let path = PathBuf::from(self.next()?);
        // A bare name would be looked up elsewhere.
        path.canonicalize().map_err(|error| format!("{}: {error}", path.display()))
    }

    fn end(&self) -> Result<(), String> {
        match self.words.first() {
            None => Ok(()),
            Some(word) => Err(format!("{word} is one word too many\n{USAGE}")),
        }
    }
}
