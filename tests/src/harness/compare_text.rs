//! `model compare-text`: texts through the program `compose`, with `--lines` too, and run files
//! through `list`, and all of them through the model. What they write to standard output and
//! standard error is compared byte for byte.

use std::io::{self, Write};
use std::path::Path;

use super::cases::Numbered;
use super::child::{self, Input, Ran};
use super::hits::{self, Hits};
use super::random::Random;
use super::tally;
use super::texts::{aims, TextCase, TextPlan};
use super::ways::{End, Way, UNPLAYED};
use super::workers;
use crate::notation::{self, Complaint};
use crate::runfile::BLOCK;

pub struct Options<'a> {
    pub compose: &'a Path,
    pub list: &'a Path,
    /// So many texts, and a third as many run files.
    pub files: u64,
    pub seed: u64,
    /// Only the text with this number, and the run file that goes with it.
    pub only: Option<u64>,
}

/// Listings that end without a refusal.
const WHOLE: &str = "listing of a whole file, composed again";
const LABELLED: &str = "listing of a whole file with labels, composed again";
const DECIDED: &str = "listing of a whole file with ask and decide, composed again";

/// What the texts and files must hit.
fn all_aims() -> Vec<String> {
    let listed = UNPLAYED.iter().map(|number| format!("listing refused by {number}"));
    let whole = [WHOLE, LABELLED, DECIDED].map(String::from);
    aims::aims().into_iter().chain(listed).chain(whole).collect()
}

pub fn compare_text(options: &Options) -> Result<String, String> {
    let items = workers::items(options.files, options.only);
    let total = workers::each(items, |index, path, hits: &mut Hits| {
        one_text(options, index, path, hits)?;
        match index % 3 {
            0 => one_file(options, index, path, hits),
            _ => Ok(()),
        }
    })?;
    if options.only.is_some() {
        return Ok("equal\n".into());
    }
    without_end(options.compose)?;
    beyond_a_run_file(options.compose)?;
    let (texts, files) = (options.files, options.files.div_ceil(3));
    hits::account(&total, &all_aims(), &format!("{texts} texts, {files} run files"))
}

/// Runs a program that should write this much to standard output.
pub fn run(program: &Path, arguments: &[&str], input: Input, length: usize) -> Result<Ran, String> {
    child::run(program, arguments, input, length + 65_536)
        .map_err(|error| format!("{} could not be run: {error}", program.display()))
}

/// Both streams of a program against the model's.
pub fn difference(ran: &Ran, output: &[u8], errors: &[u8]) -> Option<String> {
    let shown = |bytes: &[u8]| String::from_utf8_lossy(&bytes[..bytes.len().min(300)]).into_owned();
    match ran.status {
        None => return Some("it did not end, or wrote without end, and was stopped".into()),
        Some(status) if !status.success() => {
            return Some(format!("it ended with {status}: {}", shown(&ran.errors)))
        }
        Some(_) => (),
    }
    if ran.errors != errors {
        return Some(format!(
            "standard error: program: '{}'; model: '{}'",
            shown(&ran.errors),
            shown(errors)
        ));
    }
    if ran.text == output {
        return None;
    }
    let same = ran.text.iter().zip(output).take_while(|(their, our)| their == our).count();
    Some(format!(
        "standard output: program {} bytes, model {} bytes, the first {same} alike \
         (block {}, byte {})",
        ran.text.len(),
        output.len(),
        same / BLOCK,
        same % BLOCK
    ))
}

/// The same for a program that writes lines: where they differ.
pub fn difference_of_lines(ran: &Ran, output: &[u8], errors: &[u8]) -> Option<String> {
    let why = difference(ran, output, errors)?;
    Some(format!("{why}; {}", child::difference(ran, output).unwrap_or_default()))
}

fn one_text(options: &Options, index: u64, path: &Path, hits: &mut Hits) -> Result<(), String> {
    let mut random = Random::of(options.seed.rotate_left(17), index);
    let text = Numbered::<TextPlan>::make(options.seed, index, &mut random);
    let fail = |why: String| text.failure("text", "compare-text COMPOSE LIST", why);
    let case = &text.case;
    let made = Made::of(&case.text);
    made.check(case).map_err(fail)?;
    let errors =
        made.complaint.as_ref().map_or(String::new(), |complaint| format!("{complaint}\n"));
    let input = child::input(&case.text, index, path, &mut random).map_err(fail)?;
    let ran = run(options.compose, &[], input, made.file.len()).map_err(fail)?;
    if let Some(why) = difference(&ran, &made.file, errors.as_bytes()) {
        return Err(fail(format!("COMPOSE: {why}")));
    }
    let ran = run(options.compose, &["--lines"], input, made.lines.len()).map_err(fail)?;
    if let Some(why) = difference_of_lines(&ran, &made.lines, errors.as_bytes()) {
        return Err(fail(format!("COMPOSE --lines: {why}")));
    }
    for name in aims::hits(&case.text, made.complaint.as_ref()) {
        hits.enter(name);
    }
    Ok(())
}

/// What the model makes of a text.
struct Made {
    file: Vec<u8>,
    lines: Vec<u8>,
    complaint: Option<Complaint>,
    /// Of `--lines`.
    complaint_of_lines: Option<Complaint>,
}

impl Made {
    fn of(text: &[u8]) -> Made {
        let (file, ended) = notation::compose(text);
        let (lines, ended_lines) = notation::lines(text);
        Made { file, lines, complaint: ended.err(), complaint_of_lines: ended_lines.err() }
    }

    /// The model's own answer: one fault, and as the way of the text says.
    fn check(&self, case: &TextCase) -> Result<(), String> {
        let show = |complaint: &Option<Complaint>| complaint.as_ref().map(Complaint::to_string);
        if self.complaint != self.complaint_of_lines {
            let (one, other) = (show(&self.complaint), show(&self.complaint_of_lines));
            return Err(format!("the MODEL says {one:?}, and with --lines {other:?}"));
        }
        let Some(expected) = &case.expected else {
            return Ok(());
        };
        let fault = self.complaint.as_ref().map(|complaint| (complaint.line, complaint.flaw.fault));
        if fault != expected.fault {
            let expected = expected.fault.map(|(line, fault)| format!("line {line}: {fault}"));
            return Err(format!(
                "the MODEL says {:?}, and should {expected:?}",
                show(&self.complaint)
            ));
        }
        if self.file != expected.file {
            return Err("the MODEL composes another file than it should".into());
        }
        match self.lines == expected.lines {
            true => Ok(()),
            false => Err("the MODEL says other lines than it should".into()),
        }
    }
}

/// A run file made in one of the ways of `compare`, listed; if it is whole, composed again.
fn one_file(options: &Options, index: u64, path: &Path, hits: &mut Hits) -> Result<(), String> {
    let mut random = Random::of(!options.seed.rotate_left(17), index);
    let ways = Way::all();
    let way = ways[(index / 3) as usize % ways.len()];
    let case = way.make(&mut random);
    let text = notation::list(&case.bytes);
    let fail = |why: String| {
        let name = format!("model-seed-{}-listed-{index}.run", options.seed);
        let kept = child::keep(&name, &case.bytes);
        format!(
            "seed {}, run file {index} ({way}, n = {}): {why}\n{kept}\n\
             again: model compare-text COMPOSE LIST --seed {} --only {index}",
            options.seed, case.n, options.seed
        )
    };
    let ended = tally::last_refusal(&text);
    let right = match case.end_unplayed() {
        End::Done { .. } => ended.is_none(),
        End::Refused { accepted, number } => {
            text.ends_with(format!("refused {accepted} {number}\n").as_bytes())
        }
        End::Either => true,
    };
    if !right {
        return Err(fail(format!("the MODEL's listing ends by {ended:?}")));
    }
    let bytes = child::input(&case.bytes, index + index / 3, path, &mut random).map_err(fail)?;
    let ran = run(options.list, &[], bytes, text.len()).map_err(fail)?;
    if let Some(why) = difference_of_lines(&ran, &text, b"") {
        return Err(fail(format!("LIST: {why}")));
    }
    match ended {
        Some(number) => {
            hits.enter(format!("listing refused by {number}"));
        }
        None => {
            if notation::compose(&text) != (case.bytes.clone(), Ok(())) {
                return Err(fail("the MODEL does not compose its listing to the same file".into()));
            }
            let listing = child::input(&ran.text, index, path, &mut random).map_err(fail)?;
            let ran = run(options.compose, &[], listing, case.bytes.len()).map_err(fail)?;
            if let Some(why) = difference(&ran, &case.bytes, b"") {
                return Err(fail(format!("COMPOSE of the listing: {why}")));
            }
            hits.enter(WHOLE);
            let has = |words: &[u8]| text.windows(words.len()).any(|part| part == words);
            if has(b" label ") {
                hits.enter(LABELLED);
            }
            if has(b"\nask ") && has(b"\ndecide ") {
                hits.enter(DECIDED);
            }
        }
    }
    Ok(())
}

/// The largest repeat there is gives 70 gigabytes: the start of them is looked at.
fn without_end(compose: &Path) -> Result<(), String> {
    const START: usize = 1 << 20;
    let text = b"nodes 2\nclock 1 * 7\npass * 4294967295\n";
    let mut start = Start { bytes: Vec::new(), most: START };
    let _ = notation::compose_stream(&mut &text[..], &mut start);
    let ran = run(compose, &[], Input::Pipe(text, text.len()), START)?;
    match ran.text.get(..START) == Some(&start.bytes[..START]) {
        true => Ok(()),
        false => Err("a repeat of 4294967295: the first megabyte is not the model's".into()),
    }
}

/// More actions than a run file takes: `--lines` reads them as any others, and at once.
fn beyond_a_run_file(compose: &Path) -> Result<(), String> {
    let text = format!("nodes 2\n{}", "pass * 4294967295\n".repeat(40));
    let (lines, _) = notation::lines(text.as_bytes());
    let input = Input::Pipe(text.as_bytes(), text.len());
    let ran = run(compose, &["--lines"], input, lines.len())?;
    match difference_of_lines(&ran, &lines, b"") {
        Some(why) => Err(format!("40 repeats of 4294967295: COMPOSE --lines: {why}")),
        None => Ok(()),
    }
}

/// Takes the start of what is written, and then no more.
struct Start {
    bytes: Vec<u8>,
    most: usize,
}

impl Write for Start {
    fn write(&mut self, bytes: &[u8]) -> io::Result<usize> {
        if self.bytes.len() >= self.most {
            return Err(io::Error::other("enough"));
        }
        self.bytes.extend_from_slice(bytes);
        Ok(bytes.len())
    }

    fn flush(&mut self) -> io::Result<()> {
        Ok(())
    }
}
