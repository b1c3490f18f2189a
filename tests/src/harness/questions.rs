//! Texts of questions made at random: runs that stop at states of every sort and right questions about
//! them, ones with one wrong line, ones without a plan. Each knows what must be read of it, from the
//! grammar and not from the model.

pub mod aims;
mod wrong;

use std::ops::RangeInclusive;

use super::cases::{and_unplanned, Case, Plan, Reading, Way};
use super::driver::{Driver, Style};
use super::equally_short::{differ, each, Between, Difference, OF_RUNS};
use super::page::Page;
use super::parts::{self, Part};
use super::random::Random;
use super::texts::spelling::{any_line, spell_number, Word};
use super::texts::{self, keep_small, Writer};
use super::ways::{at_rest, phase_name, signal_name};
use crate::bus::{Action, Bus, Mode, Phase, Record, Report, Reported, Signal};
use crate::plain::words;
use crate::questions::Asked;
use crate::routes::{self, Question, DEEPEST, MOST_NODES};
pub use wrong::{End, Wrong};

pub type QuestionCase = Case<Reading<Asked>>;
pub type QuestionWay = Way<QuestionPlan>;

/// Where a run from a fresh bus can stop: a phase, or the signal that is under way. A Gap never is.
pub const PLACES: [&str; 12] = [
    "Idle", "Busy", "Granting", "Gapping", "Start", "End", "Prefix", "Dhead", "Dest", "Header",
    "Data", "Ack",
];

/// Which of these it is, or a Gap under way.
pub fn place_name(phase: Phase) -> &'static str {
    match phase {
        Phase::Delivering { signal, .. } => signal_name(signal),
        _ => phase_name(phase),
    }
}

#[derive(Clone, Copy, PartialEq, Eq, Debug)]
pub enum QuestionPlan {
    /// A right question at such a place.
    At(&'static str),
    /// While a node is Asked, and another waits for an acknowledgement.
    WhileAsked,
    /// With several shortest routes, the first of which and another one first differ so.
    EquallyShort(Difference),
    /// Whose first route has this in it.
    With(Part),
    /// One line of the run is wrong.
    WrongRun(texts::Wrong),
    WrongLine(Wrong),
    WrongEnd(End),
}

impl Plan for QuestionPlan {
    type Expected = Reading<Asked>;

    fn ways() -> Vec<QuestionWay> {
        // Right ones about as often as all others together.
        let mut plans = PLACES.map(QuestionPlan::At).repeat(14);
        // From there on a report is rarely near.
        plans.extend([QuestionPlan::At("Start"), QuestionPlan::At("Granting")].repeat(8));
        plans.extend([QuestionPlan::WhileAsked; 8]);
        plans.extend(texts::Wrong::all().into_iter().map(QuestionPlan::WrongRun));
        // With the byte order mark these are rare.
        let long = [256, 257, 300, 5000].map(texts::Wrong::Long);
        plans.extend(long.map(QuestionPlan::WrongRun).repeat(2));
        plans.extend([QuestionPlan::WrongRun(texts::Wrong::MarkInside); 2]);
        plans.extend(Wrong::all().into_iter().map(QuestionPlan::WrongLine));
        plans.extend(End::all().map(QuestionPlan::WrongEnd));
        plans.extend(each(&OF_RUNS).map(QuestionPlan::EquallyShort));
        plans.extend(parts::all().map(QuestionPlan::With));
        and_unplanned(plans, 2)
    }

    fn make(self, random: &mut Random) -> QuestionCase {
        match self {
            QuestionPlan::At(place) => right(random, |bus| place_name(bus.phase) == place),
            QuestionPlan::WhileAsked => right(random, |bus| {
                let waits = (0..bus.n).any(|node| bus.node(node).mode == Mode::AwaitAck);
                waits && bus.asked().next().is_some()
            }),
            QuestionPlan::EquallyShort(difference) => {
                let (run, question) = equally_short(random, difference);
                asking(random, run, question)
            }
            QuestionPlan::With(part) => {
                let (run, question) = with(random, part);
                asking(random, run, question)
            }
            QuestionPlan::WrongRun(wrong) => wrong::wrong_run(random, wrong),
            QuestionPlan::WrongLine(wrong) => wrong::wrong_line(random, wrong),
            QuestionPlan::WrongEnd(end) => wrong::wrong_end(random, end),
        }
    }

    fn short(random: &mut Random) -> Vec<u8> {
        let place = random.pick(&PLACES);
        right(random, |bus| place_name(bus.phase) == place).text
    }

    fn any_words(random: &mut Random) -> Vec<u8> {
        any_words(random)
    }

    fn keep_small(text: Vec<u8>) -> Vec<u8> {
        keep_small(text)
    }
}

/// n of a question that is not refused by 14, small ones often.
fn nodes(random: &mut Random) -> u8 {
    let any = random.byte(2, MOST_NODES);
    random.pick(&[2, 2, 3, any, any])
}

/// A run of open actions from a fresh bus, and the state after it.
pub struct Run {
    records: Vec<Record>,
    pub bus: Bus,
}

/// In how many runs a state is looked for; of the rarest sort some runs in a hundred have one.
const TRIES: usize = 1000;

/// A run on so many nodes that stops at such a state.
fn run_to(random: &mut Random, n: u8, is: impl Fn(&Bus) -> bool) -> Run {
    for _ in 0..TRIES {
        let actions = random.between(0, 250) as usize;
        if let Some(run) = run_within(random, n, actions, &is) {
            return run;
        }
    }
    panic!("no such state in {TRIES} runs of open actions")
}

/// One of at most so many actions; each such state among them is as likely as another.
fn run_within(
    random: &mut Random,
    n: u8,
    actions: usize,
    is: &impl Fn(&Bus) -> bool,
) -> Option<Run> {
    let style = Style::random(random, n);
    let mut driver = Driver::new(fresh(n), Random::new(random.draw()), style);
    let mut records = Vec::new();
    let mut found = None;
    let mut met = 0;
    for place in 0..=actions {
        if is(&driver.bus) {
            met += 1;
            if random.below(met) == 0 {
                found = Some((place, driver.bus.clone()));
            }
        }
        records.push(driver.play().0.into());
    }
    let (length, bus) = found?;
    records.truncate(length);
    Some(Run { records, bus })
}

fn fresh(n: u8) -> Bus {
    Bus::fresh(n).expect("n from 2 to 63")
}

/// A question that is not refused: most of the time for what some bus events lead to, at about the
/// depth that takes.
pub fn question(random: &mut Random, bus: &Bus) -> Question {
    let any = Question {
        word: random.pick(&Report::WORDS),
        node: random.byte(0, bus.n - 1),
        depth: random.byte(0, DEEPEST),
    };
    match outcome(random, bus) {
        Some((Reported { node, report }, length)) if random.percent(75) => Question {
            word: if random.percent(90) { report.word() } else { near(report) },
            node: if random.percent(95) { node } else { any.node },
            depth: random.pick(&[length, length, length, length - 1, DEEPEST, any.depth]),
        },
        _ => any,
    }
}

/// The word of a report that comes where this one comes, if something else has arrived.
fn near(report: Report) -> &'static str {
    match report {
        Report::Won => "lost",
        Report::Lost => "won",
        Report::Sent { .. } | Report::Ack { .. } => "miss",
        Report::Miss { .. } => "ack",
        Report::Good { .. } => "dcrc",
        Report::Dcrc { .. } => "good",
        Report::Broad { .. } => "drop",
        Report::Drop { .. } => "broad",
    }
}

/// What some bus events one after the other report, and how many they are; if nodes are Asked, as if
/// they were in Rest.
fn outcome(random: &mut Random, bus: &Bus) -> Option<(Reported, u8)> {
    let mut bus = at_rest(bus);
    let mut last = None;
    for length in 1..=DEEPEST {
        let open: Vec<Action> = routes::events(bus.n).filter(|&event| bus.is_open(event)).collect();
        if open.is_empty() {
            break;
        }
        let reported = bus.act(random.pick(&open)).expect("it is open");
        // An earlier one now and then.
        if reported.is_some() && (last.is_none() || random.percent(50)) {
            last = reported.map(|reported| (reported, length));
        }
    }
    last
}

/// Puts down the `nodes` line and the lines of a run.
fn put_run(writer: &mut Writer, records: &[Record]) {
    writer.nodes();
    records.chunk_by(|one, next| one == next).for_each(|equal| put_equal(writer, equal));
}

/// Equal actions one after the other, on one line or on one each.
fn put_equal(writer: &mut Writer, equal: &[Record]) {
    match writer.page.random.percent(50) {
        true => writer.acts(equal[0], equal.len()),
        false => equal.iter().for_each(|&record| writer.acts(record, 1)),
    }
}

/// The words of the line `find`.
fn spell(page: &mut Page, question: &Question) -> Vec<Word> {
    let Question { word, node, depth } = *question;
    let (node, depth) = (page.number(node.into()), page.number(depth.into()));
    vec![b"find".to_vec(), word.into(), node, b"within".to_vec(), depth]
}

fn put_find(writer: &mut Writer, question: &Question) {
    let words = spell(&mut writer.page, question);
    writer.page.words(&words);
    writer.page.blanks();
}

/// A right question at such a state.
fn right(random: &mut Random, is: impl Fn(&Bus) -> bool) -> QuestionCase {
    let n = nodes(random);
    let run = run_to(random, n, is);
    let question = question(random, &run.bus);
    asking(random, run, question)
}

/// The text of this run and this question.
fn asking(random: &mut Random, run: Run, question: Question) -> QuestionCase {
    let Run { records, bus } = run;
    let mut writer = Writer::of(random, bus.n);
    put_run(&mut writer, &records);
    put_find(&mut writer, &question);
    QuestionCase { text: writer.page.text(), expected: Some(Ok(Asked { bus, question })) }
}

/// In how many runs a question is looked for; of the rarest sort one run in some hundreds has one.
const TRIES_OF_QUESTIONS: usize = 100_000;

/// A run on so many nodes to a state that is near enough, and a question after it that is such a one.
fn look_for(
    random: &mut Random,
    nodes: RangeInclusive<u8>,
    is_near: impl Fn(&Bus) -> bool,
    is: impl Fn(&Bus, &Question) -> bool,
) -> (Run, Question) {
    for _ in 0..TRIES_OF_QUESTIONS {
        let n = random.byte(*nodes.start(), *nodes.end());
        let actions = random.between(0, 250) as usize;
        let Some(run) = run_within(random, n, actions, &is_near) else {
            continue;
        };
        let question = question(random, &run.bus);
        if is(&run.bus, &question) {
            return (run, question);
        }
    }
    panic!("no such question after {TRIES_OF_QUESTIONS} runs")
}

/// A question with several shortest routes, the first of which and another one first differ so.
pub fn equally_short(random: &mut Random, difference: Difference) -> (Run, Question) {
    let owing = |mode| matches!(mode, Mode::Owed | Mode::Spurious);
    let is_near = |bus: &Bus| match difference.between {
        Between::Clocks => (0..bus.n).filter(|&node| owing(bus.node(node).mode)).count() > 1,
        _ => matches!(bus.phase, Phase::Busy | Phase::Delivering { .. }),
    };
    // With two nodes one alone can be Spurious, and the Dest is the receiver's own or 63. With many a
    // report is rarely within 6 actions.
    let nodes = match difference.between {
        Between::Clocks | Between::ChangesToNodeAndAll => 3..=5,
        _ => 2..=4,
    };
    look_for(random, nodes, is_near, |bus, question| differ(bus, question, difference))
}

/// A question whose first route has this in it.
pub fn with(random: &mut Random, part: Part) -> (Run, Question) {
    let is_near = |bus: &Bus| match (part, bus.phase) {
        (Part::Clock(node), _) => bus.holder.has(node),
        (Part::Dest(address), Phase::Delivering { signal: Signal::Dest(_), receiver, .. }) => {
            receiver == address
        }
        (Part::Dest(_), _) => false,
    };
    let nodes = match part {
        Part::Clock(node) => 2.max(node + 1)..=MOST_NODES,
        Part::Dest(address) => 3.max(address + 1)..=5,
    };
    look_for(random, nodes, is_near, |bus, question| parts::has(bus, question, part))
}

/// The same text with this depth in its line `find`.
pub fn within(text: &[u8], question: &Question, depth: u8) -> Vec<u8> {
    let find = format!("find {} {} within {depth}", question.word, question.node);
    let other = |line| match words(line).next() {
        Some(b"find") => find.as_bytes(),
        _ => line,
    };
    let lines: Vec<&[u8]> = text.split(|&byte| byte == b'\n').map(other).collect();
    lines.join(&b'\n')
}

/// Words of the line `find` and others.
fn any_find(random: &mut Random) -> Vec<u8> {
    let number = random.below(9);
    let number = spell_number(random, number);
    let word = Word::from(random.pick(&Report::WORDS));
    let mut words = vec![b"find".to_vec(), word, number.clone(), b"within".to_vec(), number];
    let place = random.below(words.len() as u64) as usize;
    let other = Word::from(random.pick(&["find", "within", "miss", "all", "7", "*"]));
    match random.below(3) {
        0 => words[place] = other,
        1 => words.insert(place, other),
        _ => (),
    }
    words.join(&b' ')
}

fn any_words(random: &mut Random) -> Vec<u8> {
    let n = nodes(random);
    let run = run_to(random, n, |_| true);
    let mut writer = Writer::of(random, n);
    put_run(&mut writer, &run.records);
    for _ in 0..writer.page.random.between(1, 4) {
        let line = match writer.page.random.percent(50) {
            true => any_find(writer.page.random),
            false => any_line(writer.page.random),
        };
        writer.page.put(&line);
    }
    keep_small(writer.page.text())
}
