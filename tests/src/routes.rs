//! "A route to an outcome" (request 9): which bus events could come next, so that the last of them
//! gives a node that report; and of all such routes "The first route" (request 11).

use crate::bus::{Action, Bus, Record, Refusal, Reported, ALL_NODES};
use crate::notation::print_action;

/// "a depth d from 0 to 6"
pub const DEEPEST: u8 = 6;

/// "n over 8" is refused.
pub const MOST_NODES: u8 = 8;

/// "a report kind with its node and a depth d"
#[derive(Clone, Copy, PartialEq, Eq, Debug)]
pub struct Question {
    /// The report's first word, one of [`crate::bus::Report::WORDS`].
    pub word: &'static str,
    pub node: u8,
    pub depth: u8,
}

impl Question {
    /// On a state handed in: 12, then "14, depth over 6 or n over 8, looked at after 12", then "A node
    /// not below n is refused by 4, looked at last."
    pub fn look(&self, bus: &Bus) -> Result<(), Refusal> {
        if !bus.is_state() {
            return Err(Refusal::State);
        }
        if self.depth > DEEPEST || bus.n > MOST_NODES {
            return Err(Refusal::Route);
        }
        match self.node < bus.n {
            true => Ok(()),
            false => Err(Refusal::Node),
        }
    }

    /// Whether an action that reports this "gives that report".
    pub fn is_given(&self, reported: Option<Reported>) -> bool {
        reported.is_some_and(|Reported { node, report }| {
            node == self.node && report.word() == self.word
        })
    }
}

/// The actions of a route; None: there is none.
pub type Route = Option<Vec<Action>>;

/// "give the shortest; among equally short ones the first when their action records are compared byte by
/// byte from the left"
pub fn find(bus: &Bus, question: &Question) -> Result<Route, Refusal> {
    Ok(first(&shortest(bus, question)?))
}

/// Every route of the least length that has one, in any order; nothing if no length up to d has one. The
/// empty continuation has no last action, and is no route.
pub fn shortest(bus: &Bus, question: &Question) -> Result<Vec<Vec<Action>>, Refusal> {
    question.look(bus)?;
    let mut lengths = (1..=question.depth).map(|length| of_length(bus, question, length));
    Ok(lengths.find(|routes| !routes.is_empty()).unwrap_or_default())
}

/// The one of these, all equally long, whose bytes come first.
pub fn first(routes: &[Vec<Action>]) -> Route {
    routes.iter().min_by_key(|route| bytes(route)).cloned()
}

/// "the 16 bytes of each record […] stand one record after the other"
fn bytes(actions: &[Action]) -> Vec<u8> {
    actions.iter().flat_map(|&action| Record::from(action).to_bytes()).collect()
}

/// Every route of just so many actions: one that "gives that report", or an accepted one and then a
/// route from the state after it.
fn of_length(bus: &Bus, question: &Question, length: u8) -> Vec<Vec<Action>> {
    let mut routes = Vec::new();
    for action in events(bus.n) {
        let mut bus = bus.clone();
        let Ok(reported) = bus.step(&Record::from(action)) else {
            continue;
        };
        match length {
            1 if question.is_given(reported) => routes.push(vec![action]),
            1 => (),
            _ => {
                let rests = of_length(&bus, question, length - 1);
                routes.extend(rests.into_iter().map(|rest| [vec![action], rest].concat()));
            }
        }
    }
    routes
}

/// "actions of kinds 4 to 9": of all nodes and to all addresses that there are, open or not.
pub fn events(n: u8) -> impl Iterator<Item = Action> {
    let clocks = (0..n).map(|node| Action::Clock { node });
    let changes = (0..n).chain([ALL_NODES]).map(|address| Action::Change { address });
    let others = [Action::Pass, Action::Lose, Action::Grant, Action::Gap];
    clocks.chain(changes).chain(others)
}

/// "a line for each as `list` prints it, or the line `none`"
pub fn print(text: &mut Vec<u8>, route: &Route) {
    match route {
        Some(actions) => actions.iter().for_each(|&action| print_action(text, action)),
        None => text.extend_from_slice(b"none\n"),
    }
}
