//! `model compare-probe`: questions about states handed in, as bytes, through the program `probe` and
//! through the model. Refusals must be the same; a route must be one, `none` said by both or by neither,
//! and the answers equal byte for byte.

use std::path::Path;

use super::answers;
use super::child;
use super::compare_text::{difference, run};
use super::equally_short::OF_STATES;
use super::hits::{self, Hits};
use super::questions::PLACES;
use super::random::Random;
use super::states::{Handed, StateWay, CARRIED, FLAWS, OTHER_KINDS, SIZES};
use super::workers;
use crate::bus::{Mode, Refusal};
use crate::probe::LENGTH;
use crate::routes::{self, Route, DEEPEST, MOST_NODES};

pub struct Options<'a> {
    pub program: &'a Path,
    pub states: u64,
    pub seed: u64,
}

/// So many questions go to the program at once.
const AT_ONCE: u64 = 10;

pub fn compare_probe(options: &Options) -> Result<String, String> {
    let items = workers::items(options.states.div_ceil(AT_ONCE), None);
    let one = |index, path: &Path, hits: &mut Hits| some_states(options, index, path, hits);
    let total = workers::each(items, one)?;
    hits::account(&total, &aims(), &format!("{} states handed in", options.states))
}

/// What the states must hit. A Gap is under way only in a state handed in.
fn aims() -> Vec<String> {
    let places: Vec<&str> = PLACES.into_iter().chain(["Gap"]).collect();
    let refusals = [12, 14, 4].map(|number| format!("refused {number}"));
    let orders = [ORDER_12, ORDER_14].map(String::from);
    let ways = SIZES
        .map(StateWay::Size)
        .into_iter()
        .chain(FLAWS.map(StateWay::Flawed))
        .chain(CARRIED.map(StateWay::Carried))
        .chain(OTHER_KINDS.map(StateWay::OtherKind));
    let to_itself = [IN_BUFFER, BEING_SENT, TO_ITS_MISS].map(String::from);
    answers::aims(&places)
        .into_iter()
        .chain(answers::aims_of_first(&OF_STATES))
        .chain(refusals)
        .chain(orders)
        .chain(ways.map(of_way))
        .chain(to_itself)
        .collect()
}

const ORDER_12: &str = "refused 12, where 14 and 4 hold too";
const ORDER_14: &str = "refused 14, where 4 holds too";

fn of_way(way: StateWay) -> String {
    format!("{way:?}")
}

/// "A state handed in that already carries such a packet still plays it out."
const IN_BUFFER: &str = "a packet to the node itself in its buffer, not refused";
const BEING_SENT: &str = "a packet to the node itself being sent, not refused";
const TO_ITS_MISS: &str = "a packet to the node itself being sent, and a route to its miss";

/// Which of these a state with this answer has hit.
fn hits_to_itself(handed: &Handed, route: &Route) -> Vec<String> {
    let Handed { bus, question, .. } = handed;
    let waits = |node| bus.node(node).buffer.is_some_and(|packet| packet.address == node);
    let sends = |node| {
        let record = bus.node(node);
        matches!(record.mode, Mode::Sending { .. }) && record.sending.address == node
    };
    let to_its_miss = question.word == "miss" && sends(question.node) && route.is_some();
    let hits = [
        ((0..bus.n).any(waits), IN_BUFFER),
        ((0..bus.n).any(sends), BEING_SENT),
        (to_its_miss, TO_ITS_MISS),
    ];
    hits.into_iter().filter(|(hit, _)| *hit).map(|(_, name)| name.into()).collect()
}

/// Questions in one sequence.
struct Sequence {
    /// The number of the first.
    first: u64,
    ways: Vec<StateWay>,
    handed: Vec<Handed>,
    bytes: Vec<u8>,
}

impl Sequence {
    /// The one with this number, in turn by all ways.
    fn make(options: &Options, index: u64, random: &mut Random) -> Sequence {
        let first = index * AT_ONCE;
        let all = StateWay::all();
        let way = |state: u64| all[state as usize % all.len()];
        let ways: Vec<StateWay> = (first..options.states.min(first + AT_ONCE)).map(way).collect();
        let handed: Vec<Handed> = ways.iter().map(|way| way.make(random)).collect();
        let mut bytes: Vec<u8> = handed.iter().flat_map(|handed| handed.bytes).collect();
        // "Bytes at the end that are no whole question are not answered."
        bytes.extend(&handed[0].bytes[..random.below(LENGTH as u64) as usize]);
        Sequence { first, ways, handed, bytes }
    }
}

fn some_states(options: &Options, index: u64, path: &Path, hits: &mut Hits) -> Result<(), String> {
    let mut random = Random::of(options.seed.rotate_left(37), index);
    let Sequence { first, ways, handed, bytes } = Sequence::make(options, index, &mut random);
    let fail = |state: u64, kept: &[u8], why: String| {
        let name = format!("model-seed-{}-state-{state}.bytes", options.seed);
        let kept = child::keep(&name, kept);
        format!("seed {}, state {state}: {why}\n{kept}", options.seed)
    };
    let whole = |why| fail(first, &bytes, why);
    let input = child::input(&bytes, index, path, &mut random).map_err(whole)?;
    let ran = run(options.program, &[], input, 0).map_err(whole)?;
    if let Some(why) = difference(&ran, &ran.text, b"") {
        return Err(whole(why));
    }
    let answers = split(&ran.text, handed.len()).map_err(whole)?;
    for (place, (handed, theirs)) in handed.iter().zip(answers).enumerate() {
        let one =
            |why| fail(first + place as u64, &handed.bytes, format!("{:?}: {why}", ways[place]));
        let names = one_state(handed, theirs).map_err(one)?;
        names.into_iter().chain([of_way(ways[place])]).for_each(|name| hits.enter(name));
    }
    Ok(())
}

/// The answers of a sequence, so many, each without the empty line that ends it.
fn split(text: &[u8], count: usize) -> Result<Vec<&[u8]>, String> {
    let mut answers = Vec::new();
    let mut left = text;
    while !left.is_empty() {
        let end = left.windows(2).position(|pair| pair == b"\n\n");
        let end = end.ok_or("the last answer has no empty line after it")?;
        answers.push(&left[..end + 1]);
        left = &left[end + 2..];
    }
    match answers.len() == count {
        true => Ok(answers),
        false => Err(format!("{} answers to {count} questions", answers.len())),
    }
}

/// What the question has hit, if the answer is right.
fn one_state(handed: &Handed, theirs: &[u8]) -> Result<Vec<String>, String> {
    let Handed { bus, question, .. } = handed;
    match routes::shortest(bus, question) {
        Ok(shortest) => {
            let ours = routes::first(&shortest);
            answers::judge(bus, question, &ours, theirs)?;
            let mut hits = answers::hits(bus, question, &ours);
            hits.extend(answers::hits_of_first(bus, &shortest));
            hits.extend(hits_to_itself(handed, &ours));
            Ok(hits)
        }
        Err(refusal) => {
            answers::same(format!("refused {}\n", refusal.number()).as_bytes(), theirs)?;
            Ok(refused(handed, refusal))
        }
    }
}

/// By which number, and which others hold too.
fn refused(handed: &Handed, refusal: Refusal) -> Vec<String> {
    let Handed { bus, question, .. } = handed;
    let deep = question.depth > DEEPEST || bus.n > MOST_NODES;
    let no_node = question.node >= bus.n;
    let order = match refusal {
        Refusal::State if deep && no_node => Some(ORDER_12),
        Refusal::Route if no_node => Some(ORDER_14),
        _ => None,
    };
    let number = format!("refused {}", refusal.number());
    [number].into_iter().chain(order.map(String::from)).collect()
}
