//! `model compare-find`: questions in plain words through the program `find` and through the model.
//! Standard error is compared byte for byte; of standard output, whether there is a route, that what is
//! printed is one, and that it is the model's, byte for byte. What has a route is asked at every other
//! depth too.

use std::path::Path;

use super::answers;
use super::cases::Numbered;
use super::child::{self, Input};
use super::compare::Options;
use super::compare_text::{difference, difference_of_lines, run};
use super::hits::{self, Hits};
use super::questions::{aims, within, QuestionPlan};
use super::random::Random;
use crate::bus::Action;
use crate::plain::Complaint;
use crate::questions::{self, Asked};
use crate::routes::{self, Route, DEEPEST};

pub fn compare_find(options: &Options) -> Result<String, String> {
    let one = |index, path: &Path, hits: &mut Hits| one_text(options, index, path, hits);
    let aims: Vec<String> = aims::aims().into_iter().chain(all_again()).collect();
    hits::compare(options.files, options.only, "questions", &aims, one)
}

/// A question that has a route, asked again within this depth.
fn again(depth: u8, found: bool) -> String {
    format!("asked again within {depth}: {}", if found { "the same route" } else { "none" })
}

/// At every depth: a shortest route has 1 to 6 actions.
fn all_again() -> impl Iterator<Item = String> {
    let none = (0..DEEPEST).map(|depth| again(depth, false));
    (1..=DEEPEST).map(|depth| again(depth, true)).chain(none)
}

fn one_text(options: &Options, index: u64, path: &Path, hits: &mut Hits) -> Result<(), String> {
    let mut random = Random::of(options.seed.rotate_left(29), index);
    let made = Numbered::<QuestionPlan>::make(options.seed, index, &mut random);
    let fail = |why: String| made.failure("question", "compare-find FIND", why);
    let case = &made.case;
    let read = questions::read(&case.text);
    let otherwise = |why| fail(format!("{why}, or at another state"));
    case.check(&read, |asked| asked.question).map_err(otherwise)?;
    let input = made.input(path, &mut random).map_err(fail)?;
    let ran = run(options.program, &[], input, 0).map_err(fail)?;
    let hit = match &read {
        Ok(asked) => one_answer(options, asked, &case.text, &ran),
        Err(complaint) => one_fault(complaint, &case.text, &ran),
    };
    hit.map_err(fail)?.into_iter().for_each(|name| hits.enter(name));
    Ok(())
}

/// A right question: "a route of at most DEPTH actions […] or the line `none`", and the first such.
fn one_answer(
    options: &Options,
    asked: &Asked,
    text: &[u8],
    ran: &child::Ran,
) -> Result<Vec<String>, String> {
    let Asked { bus, question } = asked;
    let shortest = routes::shortest(bus, question).expect("what was read is not refused");
    let ours = routes::first(&shortest);
    ends_well(ran)?;
    answers::judge(bus, question, &ours, &ran.text)?;
    let mut hits = aims::hits_of_answer(text, asked, &ours);
    hits.extend(answers::hits_of_first(bus, &shortest));
    if let Some(route) = ours {
        hits.extend(other_depths(options, asked, text, &route)?);
    }
    Ok(hits)
}

/// The program ended as for a right question, whatever it printed.
fn ends_well(ran: &child::Ran) -> Result<(), String> {
    difference(ran, &ran.text, b"").map_or(Ok(()), Err)
}

/// The same, and it printed this answer.
fn answers_so(ran: &child::Ran, ours: &Route) -> Result<(), String> {
    ends_well(ran)?;
    answers::equal(ours, &ran.text)
}

/// "every depth that is not refused and not less than its length gets the same route"
fn other_depths(
    options: &Options,
    asked: &Asked,
    text: &[u8],
    route: &[Action],
) -> Result<Vec<String>, String> {
    let others = (0..=DEEPEST).filter(|&depth| depth != asked.question.depth);
    let one = |depth| {
        let text = within(text, &asked.question, depth);
        let ran = run(options.program, &[], Input::Pipe(&text, text.len()), 0)?;
        let ours = (route.len() <= depth.into()).then(|| route.to_vec());
        answers_so(&ran, &ours).map_err(|why| format!("within {depth}: {why}"))?;
        Ok(again(depth, ours.is_some()))
    };
    others.map(one).collect()
}

/// A wrong text: "nothing is printed to standard output".
fn one_fault(complaint: &Complaint, text: &[u8], ran: &child::Ran) -> Result<Vec<String>, String> {
    match difference_of_lines(ran, b"", format!("{complaint}\n").as_bytes()) {
        Some(why) => Err(why),
        None => Ok(aims::hits_of_fault(text, complaint)),
    }
}
