//! Equally short routes: where the first of them and another one first differ, and how; which of these
//! differences there are.

use std::collections::BTreeSet;
use std::fmt;

use super::parts::places;
use crate::bus::{Action, Bus, ALL_NODES};
use crate::routes::{self, Question};

/// Two records that are both accepted on one state, that of the first route first.
#[derive(Clone, Copy, PartialEq, Eq, PartialOrd, Ord, Debug)]
pub enum Between {
    Clocks,
    PassAndLose,
    PassAndChange,
    LoseAndChange,
    /// Of a Dest: to one node and to another, to a node and to all.
    ChangesToNodes,
    ChangesToNodeAndAll,
}

impl Between {
    /// "the lower byte where they first differ comes first"; and no other two are open on one state.
    fn of(first: Action, other: Action) -> Between {
        match (first, other) {
            (Action::Clock { node }, Action::Clock { node: higher }) if node < higher => {
                Between::Clocks
            }
            (Action::Pass, Action::Lose) => Between::PassAndLose,
            (Action::Pass, Action::Change { .. }) => Between::PassAndChange,
            (Action::Lose, Action::Change { .. }) => Between::LoseAndChange,
            (Action::Change { address }, Action::Change { address: higher })
                if address < higher =>
            {
                match higher {
                    ALL_NODES => Between::ChangesToNodeAndAll,
                    _ => Between::ChangesToNodes,
                }
            }
            _ => panic!("the MODEL gives {first:?} and not {other:?}"),
        }
    }

    fn name(self) -> &'static str {
        match self {
            Between::Clocks => "clocks of two nodes",
            Between::PassAndLose => "pass and lose",
            Between::PassAndChange => "pass and change",
            Between::LoseAndChange => "lose and change",
            Between::ChangesToNodes => "changes to two nodes",
            Between::ChangesToNodeAndAll => "changes to a node and to all",
        }
    }
}

/// A first difference.
#[derive(Clone, Copy, PartialEq, Eq, PartialOrd, Ord, Debug)]
pub struct Difference {
    /// From 1.
    pub record: usize,
    pub between: Between,
}

impl fmt::Display for Difference {
    fn fmt(&self, out: &mut fmt::Formatter<'_>) -> fmt::Result {
        write!(out, "first differ in record {}: {}", self.record, self.between.name())
    }
}

/// All that questions about one sort of states can have: each of these, in the records up to this one.
pub type Differences = [(Between, usize)];

/// After runs from a fresh bus.
pub const OF_RUNS: [(Between, usize); 5] = [
    (Between::Clocks, 4),
    (Between::PassAndLose, 5),
    (Between::PassAndChange, 6),
    (Between::LoseAndChange, 4),
    (Between::ChangesToNodeAndAll, 3),
];

/// At states handed in.
pub const OF_STATES: [(Between, usize); 6] = [
    (Between::Clocks, 4),
    (Between::PassAndLose, 5),
    (Between::PassAndChange, 6),
    (Between::LoseAndChange, 4),
    (Between::ChangesToNodes, 2),
    (Between::ChangesToNodeAndAll, 4),
];

/// Each of them.
pub fn each(differences: &Differences) -> impl Iterator<Item = Difference> + '_ {
    let records = |&(between, last)| (1..=last).map(move |record| Difference { record, between });
    differences.iter().flat_map(records)
}

/// What is under way where kinds differ, in runs as in states handed in.
const UNDER_WAY: [(Between, &[&str]); 3] = [
    (Between::PassAndLose, &["Header", "Data", "Ack"]),
    (Between::PassAndChange, &["Dest", "Header", "Data", "Ack"]),
    (Between::LoseAndChange, &["Data", "Ack"]),
];

fn under_way(place: &str, between: Between) -> String {
    format!("first differ at {place}: {}", between.name())
}

const ALONE: &str = "one shortest route alone";
const SEVERAL: &str = "several shortest routes";

/// What questions about such states must hit.
pub fn aims(differences: &Differences) -> Vec<String> {
    let mut aims = [ALONE, SEVERAL].map(String::from).to_vec();
    aims.extend(each(differences).map(|difference| difference.to_string()));
    for (between, places) in UNDER_WAY {
        aims.extend(places.iter().map(|place| under_way(place, between)));
    }
    aims
}

/// Each first difference between the first of these routes, all shortest ones on this bus, and another
/// one; with the place of the bus there.
pub fn differences(bus: &Bus, shortest: &[Vec<Action>]) -> BTreeSet<(Difference, &'static str)> {
    let Some(first) = routes::first(shortest) else {
        return BTreeSet::new();
    };
    let places = places(bus, &first);
    let differs = |other: &Vec<Action>| {
        let pairs = first.iter().zip(other);
        let (place, (&first, &other)) = pairs.enumerate().find(|(_, (one, other))| one != other)?;
        let between = Between::of(first, other);
        Some((Difference { record: place + 1, between }, places[place]))
    };
    shortest.iter().filter_map(differs).collect()
}

/// Whether a question that is not refused has this first difference.
pub fn differ(bus: &Bus, question: &Question, difference: Difference) -> bool {
    if difference.record > question.depth.into() {
        return false;
    }
    let shortest = routes::shortest(bus, question).expect("it is not refused");
    differences(bus, &shortest).iter().any(|&(other, _)| other == difference)
}

/// What a question with these shortest routes has hit.
pub fn hits(bus: &Bus, shortest: &[Vec<Action>]) -> BTreeSet<String> {
    let number = match shortest.len() {
        0 => None,
        1 => Some(ALONE.into()),
        _ => Some(SEVERAL.into()),
    };
    let names = differences(bus, shortest).into_iter().flat_map(|(difference, place)| {
        [difference.to_string(), under_way(place, difference.between)]
    });
    number.into_iter().chain(names).collect()
}
