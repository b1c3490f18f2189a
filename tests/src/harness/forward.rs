//! Forward actions that are open: found by trying them.

use super::random::Random;
use crate::bus::{Action, Bus, Head, Mode, Packet, Phase, Signal, ALL_NODES};

/// A packet that every node may send.
const TO_ALL: Packet = Packet { address: ALL_NODES, head: Head { header: 0, label: 0 }, data: 0 };

/// Is some forward action open? Likely ones are tried first, then one of each kind at each node.
pub fn some_open(bus: &Bus) -> bool {
    let open = |action: &Action| bus.is_forward(*action) && bus.is_open(*action);
    likely(bus).iter().any(open) || all_sorts(bus).iter().any(open)
}

/// One that the phase suggests; while nodes are Asked, their decisions.
fn likely(bus: &Bus) -> Vec<Action> {
    match bus.phase {
        _ if bus.asked().next().is_some() => decisions(bus),
        Phase::Idle => Vec::new(),
        Phase::Delivering { .. } => vec![Action::Pass],
        Phase::Granting => vec![Action::Grant],
        Phase::Gapping { .. } => vec![Action::Gap],
        Phase::Busy => bus
            .holder
            .nodes(bus.n)
            .map(|node| match bus.node(node).mode {
                Mode::Answering => Action::Respond { node, ack: 0, hold: false },
                Mode::Holding => Action::Request { node, packet: TO_ALL },
                _ => Action::Clock { node },
            })
            .collect(),
    }
}

/// Of each node that is Asked.
fn decisions(bus: &Bus) -> Vec<Action> {
    bus.asked().map(|node| Action::Decide { node }).collect()
}

/// One of each kind, at each node.
fn all_sorts(bus: &Bus) -> Vec<Action> {
    let mut sorts = of_bus(bus);
    for node in 0..bus.n {
        sorts.push(Action::Request { node, packet: TO_ALL });
        sorts.push(Action::Respond { node, ack: 0, hold: false });
        sorts.push(Action::Decide { node });
    }
    sorts
}

/// Those of kinds 4 to 10.
pub fn of_bus(bus: &Bus) -> Vec<Action> {
    let mut sorts = vec![Action::Pass, Action::Lose, Action::Grant, Action::Gap, Action::Reset];
    sorts.extend([0, 1, ALL_NODES].map(|address| Action::Change { address }));
    sorts.extend((0..bus.n).map(|node| Action::Clock { node }));
    sorts
}

/// How a continuation of forward actions is chosen.
#[derive(Clone, Copy, Debug)]
pub enum Choice {
    /// At random, with so many faults in a hundred.
    Random { faults: u64 },
    /// As long as it can be made: every Dest misleads its receiver, every respond holds if it may,
    /// every reply is for the node that listens.
    Longest,
}

/// Some forward action that is open, if one is.
pub fn choose(bus: &Bus, choice: Choice, random: &mut Random) -> Option<Action> {
    let mut choices: Vec<Action> = Vec::new();
    match bus.phase {
        _ if bus.asked().next().is_some() => {
            // A respond or a reply need not wait for the decisions.
            if random.percent(20) {
                choices.extend(at_holders(bus, choice, random));
            }
            choices.extend(in_some_order(decisions(bus), random));
        }
        Phase::Delivering { signal, receiver, .. } => {
            match choice {
                Choice::Longest => {
                    if let Signal::Dest(_) = signal {
                        choices.push(Action::Change { address: receiver });
                    }
                }
                Choice::Random { faults } if random.percent(faults) => match signal {
                    Signal::Dest(_) => {
                        let node = random.below(bus.n.into()) as u8;
                        let address = random.pick(&[receiver, receiver, node, ALL_NODES]);
                        choices.push(Action::Change { address });
                    }
                    _ => {
                        choices.push(random.pick(&[Action::Lose, Action::Change { address: 0 }]));
                    }
                },
                // A forward action need not wait for the passes of a filler.
                Choice::Random { .. } if signal == Signal::Prefix && random.percent(20) => {
                    choices.extend(at_holders(bus, choice, random));
                }
                Choice::Random { .. } => (),
            }
            choices.push(Action::Pass);
        }
        Phase::Busy => choices = at_holders(bus, choice, random),
        _ => choices = likely(bus),
    }
    choices.into_iter().find(|&action| bus.is_forward(action) && bus.is_open(action))
}

/// The node that listens for a reply, if one does.
pub fn listener(bus: &Bus) -> Option<u8> {
    (0..bus.n).find(|&node| bus.node(node).mode == Mode::Listening)
}

/// What the holders can do, in some order.
fn at_holders(bus: &Bus, choice: Choice, random: &mut Random) -> Vec<Action> {
    let longest = matches!(choice, Choice::Longest);
    let actions: Vec<Action> = bus
        .holder
        .nodes(bus.n)
        .map(|node| match bus.node(node).mode {
            Mode::Answering => Action::Respond {
                node,
                ack: random.below(16) as u8,
                hold: !bus.concatenated && (longest || random.percent(50)),
            },
            Mode::Holding => {
                let other = random.other_node(node, bus.n);
                let address = match listener(bus) {
                    Some(listener) if longest || random.percent(50) => listener,
                    _ => random.pick(&[other, other, ALL_NODES]),
                };
                Action::Request { node, packet: random.packet(address) }
            }
            _ => Action::Clock { node },
        })
        .collect();
    in_some_order(actions, random)
}

/// The same, from another one on.
fn in_some_order(mut actions: Vec<Action>, random: &mut Random) -> Vec<Action> {
    if !actions.is_empty() {
        let turn = random.below(actions.len() as u64) as usize;
        actions.rotate_left(turn);
    }
    actions
}
