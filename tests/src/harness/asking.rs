//! What asking and deciding (request 6) are to the other actions, at a state of a run from a fresh
//! bus.

use super::forward;
use crate::bus::{Action, Bus};

/// Looked at where arbitrate is open to several nodes is one of them, another at each `turn`.
pub fn look(bus: &Bus, turn: usize) -> Result<(), String> {
    waits_with_a_packet(bus)?;
    stands_still(bus)?;
    let from = (turn % usize::from(bus.n)) as u8;
    let mut nodes = (0..bus.n).map(|step| (from + step) % bus.n);
    nodes.find_map(|node| does_both(bus, node)).unwrap_or(Ok(()))
}

/// A node asks with a full buffer, which stays so up to its decision; and that is open.
fn waits_with_a_packet(bus: &Bus) -> Result<(), String> {
    for node in bus.asked() {
        if bus.node(node).buffer.is_none() {
            return Err(format!("node {node} is Asked, and its buffer is empty"));
        }
        if !bus.is_open(Action::Decide { node }) {
            return Err(format!("node {node} is Asked, and its decision is not open"));
        }
    }
    Ok(())
}

/// "While a node is Asked, kinds 4 to 10 are not open."
fn stands_still(bus: &Bus) -> Result<(), String> {
    let Some(node) = bus.asked().next() else {
        return Ok(());
    };
    match forward::of_bus(bus).into_iter().find(|&action| bus.is_open(action)) {
        Some(action) => Err(format!("node {node} is Asked, and {action:?} is open")),
        None => Ok(()),
    }
}

/// "Kind 2 goes on doing both": where it is open, ask and at once decide leave state and report as it
/// does. None where it is not open.
pub fn does_both(bus: &Bus, node: u8) -> Option<Result<(), String>> {
    let mut at_once = bus.clone();
    let report = at_once.act(Action::Arbitrate { node }).ok()?;
    let mut in_two = bus.clone();
    let asked = in_two.act(Action::Ask { node });
    let decided = in_two.act(Action::Decide { node });
    Some(match asked == Ok(None) && decided == Ok(report) && in_two == at_once {
        true => Ok(()),
        false => Err(format!(
            "node {node}: arbitrate says {report:?}, ask {asked:?}, decide {decided:?}, or the states differ"
        )),
    })
}
