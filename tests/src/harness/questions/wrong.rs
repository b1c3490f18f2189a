//! Questions with one wrong line, and such as end too early.

use super::{fresh, nodes, put_find, put_run, question, run_to, spell, QuestionCase, Run, Writer};
use crate::bus::{Action, Bus, Record};
use crate::harness::driver::{Driver, Style};
use crate::harness::random::Random;
use crate::harness::texts::spelling::{
    any_word, no_number, strange_word, too_large, unknown_word, Slot, Word,
};
use crate::harness::texts::wrong::{
    bare, put_end, put_line, put_words, right_words, spoil_rest, End as RunEnd, Wrong as WrongRun,
};
use crate::harness::ways::{self, Closed, ToItself, Way, KINDS};
use crate::plain::Fault;
use crate::routes::{Question, DEEPEST, MOST_NODES};

/// A line with something wrong in it that is not wrong in runs, or not like this.
#[derive(Clone, Copy, PartialEq, Eq, Debug)]
pub enum Wrong {
    /// The line `find` ends after so many words.
    Missing(usize),
    /// Another word in the place of the report, of `within`.
    Report,
    Within,
    /// In the place of the node or the depth.
    NotANumber(usize),
    TooLarge(usize),
    /// `find miss within 3`: the node is missing, and `within` stands there.
    NoNode,
    Extra,
    /// A repeat of the line `find`.
    Repeat,
    /// The line `find` before the `nodes` line.
    BeforeNodes,
    /// After the line `find` a right line of this kind: 0 is `nodes`, 13 `find`.
    After(u8),
    /// There, a line that would be refused.
    RefusedAfter(WrongRun),
    /// There, a line that is wrong by itself.
    WrongAfter(WrongRun),
    /// Refused by 14: the depth, n.
    Depth(u8),
    Nodes(u8),
    /// By 4.
    Node(u8),
    /// An action of the run, as in a file made in this way: by 7, by 15, by 4 before 15.
    InRun(Way),
    /// By 7 after it was open, of this kind.
    NotOpenAgain(u8),
}

/// The places of words in the line `find`.
const REPORT: usize = 1;
const NODE: usize = 2;
const WITHIN: usize = 3;
const DEPTH: usize = 4;

/// Where the line after the last kind of action stands in [`Wrong::After`].
const FIND: u8 = KINDS + 1;

/// Requests to the node itself: open otherwise, where 7 holds too, and one that is refused by 4 first.
const TO_ITSELF: [ToItself; 4] =
    [ToItself::InRest, ToItself::InHolding, ToItself::NotOpen, ToItself::NodeTooHigh];

/// What becomes of the line of a run after the line `find`.
#[derive(Clone, Copy, PartialEq, Eq, Debug)]
enum After {
    /// It is wrong by itself.
    Itself,
    /// It is not, though it would be refused.
    Refused,
    /// It does not stand there.
    Elsewhere,
}

fn after(wrong: &WrongRun) -> After {
    match wrong {
        WrongRun::SecondMark | WrongRun::HalfMark => After::Elsewhere,
        WrongRun::ActionBeforeNodes | WrongRun::Nodes(_) => After::Elsewhere,
        WrongRun::SecondNodes
        | WrongRun::Node(_)
        | WrongRun::Address(_)
        | WrongRun::Label(_)
        | WrongRun::ToItself
        | WrongRun::Ack(_) => After::Refused,
        _ => After::Itself,
    }
}

impl Wrong {
    pub fn all() -> Vec<Wrong> {
        let mut all: Vec<Wrong> = [1, 2, 3, 4].map(Wrong::Missing).into();
        all.extend([Wrong::Report, Wrong::Within].repeat(4));
        all.extend([NODE, NODE, DEPTH, DEPTH].map(Wrong::NotANumber));
        all.extend([NODE, DEPTH].map(Wrong::TooLarge));
        all.extend([Wrong::NoNode, Wrong::Extra, Wrong::Extra, Wrong::Repeat, Wrong::BeforeNodes]);
        all.extend((0..=FIND).map(Wrong::After));
        let of = |place| WrongRun::all().into_iter().filter(move |wrong| after(wrong) == place);
        all.extend(of(After::Refused).step_by(2).map(Wrong::RefusedAfter));
        all.extend(of(After::Itself).step_by(5).map(Wrong::WrongAfter));
        all.extend([7, 7, 8, 9, 63, 128, 255].map(Wrong::Depth));
        all.extend([9, 9, 10, 16, 62, 63].map(Wrong::Nodes));
        all.extend((2..=MOST_NODES).map(Wrong::Node));
        all.extend(Closed::all().into_iter().step_by(5).map(Way::Closed).map(Wrong::InRun));
        all.extend(TO_ITSELF.map(Way::ToItself).map(Wrong::InRun));
        all.extend((1..=KINDS).map(Wrong::NotOpenAgain));
        all
    }
}

/// Questions that end too early.
#[derive(Clone, Copy, PartialEq, Eq, Debug)]
pub enum End {
    Run(RunEnd),
    /// A run, and no line `find`.
    RunAlone,
}

impl End {
    pub fn all() -> [End; 7] {
        let [a, b, c, d, e] = RunEnd::all().map(End::Run);
        [a, b, c, d, e, End::RunAlone, End::RunAlone]
    }
}

/// The line put last has this fault. Anything may follow.
fn faulty(mut writer: Writer, fault: Fault) -> QuestionCase {
    let expected = Some(Err((writer.page.lines, fault)));
    writer.anything();
    if writer.page.random.percent(50) {
        let any = any_question(writer.page.random, writer.n);
        put_find(&mut writer, &any);
    }
    QuestionCase { text: writer.page.text(), expected }
}

/// One that may be refused.
fn any_question(random: &mut Random, n: u8) -> Question {
    let question = question(random, &fresh(n));
    let node = ways::too_high(random, n);
    let node = random.pick(&[question.node, question.node, node]);
    let depth = random.byte(DEEPEST + 1, 255);
    Question { node, depth: random.pick(&[question.depth, depth]), ..question }
}

/// A text in whose run this line stands.
pub fn wrong_run(random: &mut Random, wrong: WrongRun) -> QuestionCase {
    let n = ways::nodes(random);
    let Run { records, .. } = run_to(random, n, |_| true);
    let mut writer = Writer::of(random, n);
    let fault = put_line(&mut writer, wrong, |writer| put_run(writer, &records));
    faulty(writer, fault)
}

/// A text with this line in it.
pub fn wrong_line(random: &mut Random, wrong: Wrong) -> QuestionCase {
    match wrong {
        Wrong::InRun(way) => in_run(random, way),
        Wrong::NotOpenAgain(kind) => not_open_again(random, kind),
        Wrong::After(_) | Wrong::RefusedAfter(_) | Wrong::WrongAfter(_) => {
            after_find(random, wrong)
        }
        _ => wrong_find(random, wrong),
    }
}

/// n for a line `find` with this fault.
fn nodes_for(random: &mut Random, wrong: Wrong) -> u8 {
    match wrong {
        Wrong::Nodes(n) | Wrong::Node(n) => n,
        Wrong::Depth(_) => nodes(random),
        _ => ways::nodes(random),
    }
}

/// Its line `find` is the wrong one.
fn wrong_find(random: &mut Random, wrong: Wrong) -> QuestionCase {
    let n = nodes_for(random, wrong);
    let Run { records, .. } = run_to(random, n, |_| true);
    let mut writer = Writer::of(random, n);
    match wrong {
        Wrong::BeforeNodes => writer.page.blanks(),
        _ => put_run(&mut writer, &records),
    }
    let fault = put_words(&mut writer, |writer| find_words(writer, wrong));
    faulty(writer, fault)
}

fn find_words(writer: &mut Writer, wrong: Wrong) -> (Vec<Word>, Fault) {
    let any = any_question(writer.page.random, writer.n);
    let mut words = spell(&mut writer.page, &any);
    let fault = match wrong {
        Wrong::Missing(length) => {
            words.truncate(length);
            return (words, Fault::MissingField);
        }
        Wrong::Report => {
            words[REPORT] = misplaced(writer.page.random, &NO_REPORT);
            spoil_rest(writer.page.random, &mut words, REPORT + 1);
            Fault::UnknownWord
        }
        Wrong::Within => {
            words[WITHIN] = misplaced(writer.page.random, &NOT_WITHIN);
            spoil_rest(writer.page.random, &mut words, WITHIN + 1);
            Fault::UnknownWord
        }
        Wrong::NotANumber(place) => {
            words[place] = not_a_number(writer.page.random);
            spoil_rest(writer.page.random, &mut words, place + 1);
            Fault::NotANumber
        }
        Wrong::TooLarge(place) => {
            words[place] = too_large(writer.page.random, Slot::Byte);
            spoil_rest(writer.page.random, &mut words, place + 1);
            Fault::TooLarge
        }
        Wrong::NoNode => {
            words.remove(NODE);
            Fault::NotANumber
        }
        Wrong::Extra => {
            words.push(extra(writer.page.random));
            let length = words.len();
            spoil_rest(writer.page.random, &mut words, length);
            Fault::ExtraField
        }
        Wrong::Repeat => {
            words.extend([b"*".to_vec(), b"2".to_vec()]);
            Fault::ExtraField
        }
        Wrong::BeforeNodes => Fault::NoNodesLine,
        _ => return refused(writer, wrong),
    };
    (words, fault)
}

/// A line `find` by 14, then by 4 too now and then; or by 4 alone.
fn refused(writer: &mut Writer, wrong: Wrong) -> (Vec<Word>, Fault) {
    let mut any = question(writer.page.random, &fresh(writer.n));
    let no_node = ways::too_high(writer.page.random, writer.n);
    if matches!(wrong, Wrong::Node(_)) || writer.page.random.percent(30) {
        any.node = no_node;
    }
    match wrong {
        Wrong::Depth(depth) => any.depth = depth,
        Wrong::Nodes(_) if writer.page.random.percent(30) => any.depth = DEEPEST + 1,
        _ => (),
    }
    let number = if matches!(wrong, Wrong::Node(_)) { 4 } else { 14 };
    (spell(&mut writer.page, &any), Fault::Refused(number))
}

/// What may stand in the place of the report, of `within`.
const NO_REPORT: [&str; 10] =
    ["Miss", "misses", "DROP", "within", "find", "0", "request", "all", "*", "won,"];
const NOT_WITHIN: [&str; 10] =
    ["Within", "in", "withi", "within6", "3", "0x6", "*", "miss", "find", "depth"];

/// One of these, or an unknown word.
fn misplaced(random: &mut Random, words: &[&str]) -> Word {
    let near = Word::from(random.pick(words));
    match random.percent(60) {
        true => near,
        false => unknown_word(random),
    }
}

fn not_a_number(random: &mut Random) -> Word {
    let of_find = Word::from(random.pick(&["within", "all", "miss", "find"]));
    match random.percent(40) {
        true => of_find,
        false => no_number(random),
    }
}

/// A word more than the line takes.
fn extra(random: &mut Random) -> Word {
    match random.percent(50) {
        true => strange_word(random),
        false => any_word(random),
    }
}

/// A line after a right line `find`.
fn after_find(random: &mut Random, wrong: Wrong) -> QuestionCase {
    let n = nodes(random);
    let Run { records, bus } = run_to(random, n, |_| true);
    let question = question(random, &bus);
    let mut writer = Writer::of(random, n);
    let before = |writer: &mut Writer| {
        put_run(writer, &records);
        put_find(writer, &question);
    };
    let fault = match wrong {
        Wrong::WrongAfter(wrong) => put_line(&mut writer, wrong, before),
        Wrong::RefusedAfter(wrong) => {
            put_line(&mut writer, wrong, before);
            Fault::AfterFind
        }
        _ => {
            before(&mut writer);
            put_words(&mut writer, |writer| (right_line(writer, wrong), Fault::AfterFind))
        }
    };
    faulty(writer, fault)
}

/// The words of a line that is right by itself.
fn right_line(writer: &mut Writer, wrong: Wrong) -> Vec<Word> {
    match wrong {
        Wrong::After(kind) if kind < FIND => bare(right_words(writer, kind)),
        _ => {
            let any = any_question(writer.page.random, writer.n);
            spell(&mut writer.page, &any)
        }
    }
}

/// A run up to the action that is refused in a file made in this way, and that.
fn in_run(random: &mut Random, way: Way) -> QuestionCase {
    let case = way.make(random);
    let ways::End::Refused { accepted, number } = case.end else {
        unreachable!("{way}: no action is refused");
    };
    let mut writer = Writer::of(random, case.n);
    put_run(&mut writer, &case.records[..accepted]);
    refused_line(writer, case.records[accepted], 1, number)
}

/// The line of an action, so many times, that is refused by this number.
fn refused_line(mut writer: Writer, record: Record, times: usize, number: u8) -> QuestionCase {
    let fault = put_words(&mut writer, |writer| {
        let mut words = bare(writer.spell(record));
        if times > 1 {
            words.extend([b"*".to_vec(), writer.page.number(times as u64)]);
        }
        (words, Fault::Refused(number))
    });
    faulty(writer, fault)
}

/// A run that ends with an action of this kind again and again, until it is not open.
fn not_open_again(random: &mut Random, kind: u8) -> QuestionCase {
    let (Run { records, bus }, record, times) = loop {
        if let Some(found) = again(random, kind) {
            break found;
        }
    };
    let mut writer = Writer::of(random, bus.n);
    put_run(&mut writer, &records);
    let more = writer.page.random.pick(&[1, 1, 2, 1000]);
    refused_line(writer, record, times + more, 7)
}

/// A run, an action of this kind that is open after it, and how often: once at least, and not without
/// end.
fn again(random: &mut Random, kind: u8) -> Option<(Run, Record, usize)> {
    let n = ways::nodes(random);
    let style = Style::random(random, n);
    let mut driver = Driver::new(fresh(n), Random::new(random.draw()), style);
    let mut records = Vec::new();
    for _ in 0..random.between(1, 800) {
        let bus = driver.bus.clone();
        let action = driver.play().0;
        let record = Record::from(action);
        let wanted = record.kind == kind && random.percent(30);
        match how_often(&bus, action).filter(|_| wanted) {
            Some(times) => return Some((Run { records, bus }, record, times)),
            None => records.push(record),
        }
    }
    None
}

/// More often than this nothing is open one time after the other but an arbitrate that is lost: a signal
/// has at most 62 receivers, and a Gap 63.
const MOST_TIMES: usize = 63;

/// How often an action is open, one time after the other; None if that does not end soon.
fn how_often(bus: &Bus, action: Action) -> Option<usize> {
    let mut bus = bus.clone();
    (0..=MOST_TIMES).find(|_| bus.act(action).is_err())
}

/// A text that ends too early.
pub fn wrong_end(random: &mut Random, end: End) -> QuestionCase {
    let n = ways::nodes(random);
    let Run { records, .. } = run_to(random, n, |bus| *bus != fresh(n));
    let mut writer = Writer::of(random, n);
    let fault = match end {
        End::Run(end) => put_end(&mut writer, end),
        End::RunAlone => {
            put_run(&mut writer, &records);
            Fault::NoFindLine
        }
    };
    let fault = match fault {
        // "a question may have no action"
        Fault::NoAction => Fault::NoFindLine,
        fault => fault,
    };
    let expected = Some(Err((writer.page.lines, fault)));
    QuestionCase { text: writer.page.text(), expected }
}
