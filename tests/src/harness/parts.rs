//! What first routes have in them: a clock of each node, a Dest changed to each node that it can be.

use std::collections::BTreeSet;
use std::fmt;

use super::questions::place_name;
use crate::bus::{Action, Bus};
use crate::routes::{self, Question, MOST_NODES};

#[derive(Clone, Copy, PartialEq, Eq, PartialOrd, Ord, Debug)]
pub enum Part {
    /// The clock of this node.
    Clock(u8),
    /// A Dest changed to this address.
    Dest(u8),
}

impl fmt::Display for Part {
    fn fmt(&self, out: &mut fmt::Formatter<'_>) -> fmt::Result {
        match self {
            Part::Clock(node) => write!(out, "first route with a clock of node {node}"),
            Part::Dest(address) => write!(out, "first route with a Dest changed to {address}"),
        }
    }
}

/// The highest node to which a Dest is changed: with more than five nodes its report takes over 6 actions.
const HIGHEST_DEST: u8 = 4;

/// All that there can be.
pub fn all() -> impl Iterator<Item = Part> {
    (0..MOST_NODES).map(Part::Clock).chain((0..=HIGHEST_DEST).map(Part::Dest))
}

/// Where the bus is before each of these actions.
pub fn places(bus: &Bus, actions: &[Action]) -> Vec<&'static str> {
    let mut bus = bus.clone();
    let place = |&action| {
        let place = place_name(bus.phase);
        bus.act(action).expect("each action is open");
        place
    };
    actions.iter().map(place).collect()
}

/// Those of a route from this state.
pub fn of(bus: &Bus, route: &[Action]) -> BTreeSet<Part> {
    let part = |(&action, place)| match action {
        Action::Clock { node } => Some(Part::Clock(node)),
        Action::Change { address } if place == "Dest" => Some(Part::Dest(address)),
        _ => None,
    };
    route.iter().zip(places(bus, route)).filter_map(part).collect()
}

/// Whether the first route of a question that is not refused has this.
pub fn has(bus: &Bus, question: &Question, part: Part) -> bool {
    let route = routes::find(bus, question).expect("it is not refused");
    route.is_some_and(|route| of(bus, &route).contains(&part))
}
