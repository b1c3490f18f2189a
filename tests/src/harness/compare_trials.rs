//! `model compare-trials`: settings through the program `trial` and through the model. What both write
//! to standard output and standard error is compared byte for byte; the run is looked at from outside,
//! and the program `play` plays it and must report what the tally says.

use std::path::Path;

use super::cases::Numbered;
use super::child::Input;
use super::compare_text::{difference, difference_of_lines, run};
use super::hits::{self, Hits};
use super::outside;
use super::random::Random;
use super::settings::{aims, SettingsPlan};
use crate::trial::Settings;
use crate::{player, settings};

pub struct Options<'a> {
    pub trial: &'a Path,
    pub play: &'a Path,
    pub files: u64,
    pub seed: u64,
    /// Only the text with this number.
    pub only: Option<u64>,
}

pub fn compare_trials(options: &Options) -> Result<String, String> {
    let one = |index, path: &Path, hits: &mut Hits| one_text(options, index, path, hits);
    let aims: Vec<String> = aims::aims().into_iter().chain(outside::branches()).collect();
    hits::compare(options.files, options.only, "settings", &aims, one)
}

fn one_text(options: &Options, index: u64, path: &Path, hits: &mut Hits) -> Result<(), String> {
    let mut random = Random::of(options.seed.rotate_left(43), index);
    let made = Numbered::<SettingsPlan>::make(options.seed, index, &mut random);
    let fail = |why: String| made.failure("settings", "compare-trials TRIAL PLAY", why);
    let case = &made.case;
    let read = settings::read(&case.text);
    case.check(&read, Settings::clone).map_err(fail)?;
    let (file, said) = settings::trial(&case.text);
    let input = made.input(path, &mut random).map_err(fail)?;
    let ran = run(options.trial, &[], input, file.len()).map_err(fail)?;
    if let Some(why) = difference(&ran, &file, said.as_bytes()) {
        return Err(fail(format!("TRIAL: {why}")));
    }
    for name in aims::hits(&case.text, read.as_ref()) {
        hits.enter(name);
    }
    match read {
        Ok(settings) => one_run(options, &settings, &ran.text, &ran.errors, hits).map_err(fail),
        Err(_) => Ok(()),
    }
}

/// The run that `TRIAL` wrote, and the tally: what `PLAY` prints of it counts the same.
fn one_run(
    options: &Options,
    settings: &Settings,
    file: &[u8],
    tally: &[u8],
    hits: &mut Hits,
) -> Result<(), String> {
    let records = outside::records(file)?;
    outside::look(settings, &records, hits)?;
    let printed = player::play_file(file);
    let ran = run(options.play, &[], Input::Pipe(file, 4096), printed.len())?;
    if let Some(why) = difference_of_lines(&ran, &printed, b"") {
        return Err(format!("PLAY: {why}"));
    }
    let last = format!("done {}\n", settings.actions);
    if !ran.text.ends_with(last.as_bytes()) {
        return Err(format!("PLAY does not end with {last}"));
    }
    let counted = outside::counted(&ran.text).to_string();
    match counted.as_bytes() == tally {
        true => Ok(()),
        false => Err(format!(
            "TRIAL counts\n{}and what PLAY prints\n{counted}",
            String::from_utf8_lossy(tally)
        )),
    }
}
