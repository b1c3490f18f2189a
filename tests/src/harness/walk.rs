//! `model walk`: one transaction from a fresh bus and the reply to it, walked through whole. Node 0
//! has a request to each address but its own and wins; then every interleaving of all open actions of
//! kinds 3 to 9, 11 and 12 and of some requests from Holding. The other nodes have requests waiting,
//! with which they ask and are decided at every point; node 0's has left its buffer. Idle ends the
//! walk: what is asked and decided there begins the next transaction.

use std::collections::{BTreeSet, HashMap};

use super::asking;
use super::tally::{Cells, DROPS};
use super::ways::{kept_closed, KEPT_CLOSED};
use crate::bus::{
    Action, Bus, Head, Marks, Mode, Node, Packet, Phase, Report, Reported, ALL_NODES,
};

/// The packet of node 0's request, which goes to other addresses too, and those that wait at all other
/// nodes. Replies have other labels than both.
const REQUEST: Packet = Packet { address: ALL_NODES, head: Head { header: 1, label: 7 }, data: 2 };
const WAITING: Packet = Packet { address: 0, head: Head { header: 5, label: 8 }, data: 6 };

/// A request that has started: its node, address and label, and whether the addressed node has
/// dropped a packet since.
#[derive(Clone, Copy, PartialEq, Eq, Hash, Debug)]
struct Started {
    node: u8,
    address: u8,
    label: u8,
    dropped: bool,
}

impl Started {
    fn new(node: u8, packet: Packet) -> Started {
        Started { node, address: packet.address, label: packet.head.label, dropped: false }
    }

    /// This node drops.
    fn enter_drop(&mut self, node: u8) {
        self.dropped |= node == self.address;
    }
}

/// A state that was reached, node 0's request, and the reply that was started on the way from the
/// win to it.
#[derive(Clone, Debug)]
struct Reached {
    bus: Bus,
    request: Started,
    reply: Option<Started>,
}

impl Reached {
    /// What is reached by this action, if it is open. All requests tried are from Holding.
    fn by(&self, action: Action) -> Result<Option<Reached>, String> {
        let mut next = self.clone();
        let Ok(reported) = next.bus.play(&action.into()) else {
            return Ok(None);
        };
        match reported {
            Some(Reported { node, report: Report::Drop { .. } }) => next.enter_drop(node),
            // The bus is not idle: whoever is decided loses.
            Some(Reported { report: Report::Lost, .. }) => (),
            Some(reported) => self.look_at_report(reported)?,
            None => (),
        }
        if let Action::Request { node, packet } = action {
            if next.reply.replace(Started::new(node, packet)).is_some() {
                return Err(format!("a second reply before the bus is idle: {:?}", self.bus));
            }
        }
        Ok(Some(next))
    }

    fn enter_drop(&mut self, node: u8) {
        self.request.enter_drop(node);
        if let Some(reply) = &mut self.reply {
            reply.enter_drop(node);
        }
    }

    /// "A confirmation, and the told report before an `ack a`, bears the label of its own request":
    /// the reply's, if it is the reply's node that reports, or if a node is told after it started.
    /// And what was dropped is not acknowledged.
    fn look_at_report(&self, reported: Reported) -> Result<(), String> {
        let Reported { node, report } = reported;
        let own = match self.reply {
            Some(reply) if reply.node == node || report.tells() => reply,
            _ => self.request,
        };
        if report.label() != Some(own.label) {
            Err(format!("{reported:?}, and its request has label {}: {:?}", own.label, self.bus))
        } else if matches!(report, Report::Ack { .. }) && own.dropped {
            Err(format!("{reported:?}, and node {} dropped: {:?}", own.address, self.bus))
        } else {
            Ok(())
        }
    }

    /// What holds of every state.
    fn look(&self) -> Result<(), String> {
        let bus = &self.bus;
        let rests = |node| bus.node(node).mode == Mode::Rest;
        let waits = |node| bus.node(node).buffer == Some(WAITING);
        if !(1..bus.n).all(waits) {
            Err(format!("a request that waited is lost: {bus:?}"))
        } else if bus.phase == Phase::Idle && !(0..bus.n).all(rests) {
            Err(format!("idle, and not every node rests: {bus:?}"))
        } else if bus.phase == Phase::Idle && bus.concatenated {
            Err(format!("idle, and the mark of a reply to follow is set: {bus:?}"))
        } else {
            (0..usize::from(bus.n)).try_for_each(|turn| asking::look(bus, turn))
        }
    }
}

/// The same without the records from n on: what is looked up.
#[derive(PartialEq, Eq, Hash)]
struct Key {
    phase: Phase,
    marks: [Marks; 4],
    concatenated: bool,
    nodes: Box<[Node]>,
    request: Started,
    reply: Option<Started>,
}

impl Key {
    fn of(Reached { bus, request, reply }: &Reached) -> Key {
        Key {
            phase: bus.phase,
            marks: [bus.won, bus.pending, bus.holder, bus.misled],
            concatenated: bus.concatenated,
            nodes: bus.nodes[..usize::from(bus.n)].into(),
            request: *request,
            reply: *reply,
        }
    }
}

/// What is known of a state that was reached.
#[derive(Clone, Copy)]
enum Known {
    /// The ways on from it are being walked.
    Open,
    /// So many forward actions on the longest way to Idle.
    Longest(u32),
}

#[derive(Default)]
struct Walk {
    known: HashMap<Key, Known>,
    /// States behind filler clocks and asks, to be walked from on their own.
    behind_others: Vec<Reached>,
    cells: Cells,
    /// The most nodes that were Asked at once, and what was open but for them.
    most_asked: usize,
    kept_closed: BTreeSet<String>,
}

/// The requests from Holding that are tried: to each address but the node's own, and a second packet to
/// the last.
fn packets(node: u8, n: u8) -> Vec<Packet> {
    let head = Head { header: 3, label: 9 };
    let mut packets: Vec<Packet> =
        others(node, n).map(|address| Packet { address, head, data: 4 }).collect();
    let head = Head { header: 0, label: 63 };
    packets.push(Packet { address: ALL_NODES, head, data: u32::MAX });
    packets
}

fn addresses(n: u8) -> impl Iterator<Item = u8> {
    (0..n).chain([ALL_NODES])
}

/// The addresses to which a node may send.
fn others(node: u8, n: u8) -> impl Iterator<Item = u8> {
    addresses(n).filter(move |&address| address != node)
}

/// All actions of kinds 3 to 9, 11 and 12, and some requests; on an idle bus no ask.
fn candidates(bus: &Bus) -> Vec<Action> {
    let n = bus.n;
    let mut actions = vec![Action::Pass, Action::Lose, Action::Grant, Action::Gap];
    actions.extend(addresses(n).map(|address| Action::Change { address }));
    for node in 0..n {
        actions.extend([Action::Clock { node }, Action::Decide { node }]);
        if bus.phase != Phase::Idle {
            actions.push(Action::Ask { node });
        }
        for ack in 0..16 {
            actions.extend([false, true].map(|hold| Action::Respond { node, ack, hold }));
        }
        if bus.node(node).mode == Mode::Holding {
            let packets = packets(node, n).into_iter();
            actions.extend(packets.map(|packet| Action::Request { node, packet }));
        }
    }
    actions
}

impl Walk {
    /// The longest way of forward actions from here to Idle. Its depth is that way's length.
    fn longest(&mut self, reached: &Reached) -> Result<u32, String> {
        let bus = &reached.bus;
        match self.known.get(&Key::of(reached)) {
            Some(Known::Longest(length)) => return Ok(*length),
            Some(Known::Open) => {
                return Err(format!("forward actions go round in a ring: {bus:?}"))
            }
            None => (),
        }
        reached.look()?;
        self.most_asked = self.most_asked.max(bus.asked().count());
        self.kept_closed.extend(kept_closed(bus).into_iter().map(|(name, _)| name));
        self.known.insert(Key::of(reached), Known::Open);
        let mut longest = None;
        for action in candidates(bus) {
            let Some(next) = reached.by(action)? else {
                continue;
            };
            self.cells.enter(bus, action);
            if bus.is_forward(action) {
                let length = 1 + self.longest(&next)?;
                longest = longest.max(Some(length));
            } else if !self.known.contains_key(&Key::of(&next)) {
                self.behind_others.push(next);
            }
        }
        let length = match (longest, bus.phase) {
            (None, Phase::Idle) => 0,
            (Some(length), phase) if phase != Phase::Idle => length,
            _ => return Err(format!("a dead end, or a forward action on an idle bus: {bus:?}")),
        };
        self.known.insert(Key::of(reached), Known::Longest(length));
        Ok(length)
    }

    /// The longest way from any state reached.
    fn over_all(&mut self, root: Reached) -> Result<u32, String> {
        let mut longest = 0;
        self.behind_others.push(root);
        while let Some(reached) = self.behind_others.pop() {
            longest = longest.max(self.longest(&reached)?);
        }
        Ok(longest)
    }
}

/// Node 0 has won with a request to this address, and requests wait at the other nodes. A win by
/// arbitrate and one by decide leave the same state, whoever is Asked or asks afterwards.
fn after_win(n: u8, address: u8) -> Result<Reached, String> {
    let mut bus = Bus::fresh(n).map_err(|refusal| format!("n refused: {}", refusal.number()))?;
    let request = Packet { address, ..REQUEST };
    for node in 0..n {
        let packet = if node == 0 { request } else { WAITING };
        if bus.play(&Action::Request { node, packet }.into()) != Ok(None) {
            return Err(format!("node {node}: a fresh bus does not take its request"));
        }
    }
    asking::does_both(&bus, 0).unwrap_or(Err("arbitrate is not open".into()))?;
    let won = bus.act(Action::Arbitrate { node: 0 });
    if won != Ok(Some(Reported { node: 0, report: Report::Won })) {
        return Err("node 0 did not win a fresh bus".into());
    }
    Ok(Reached { bus, request: Started::new(0, request), reply: None })
}

/// "n is added to the bound", which was 21n + 2.
pub fn bound(n: u8) -> u32 {
    22 * u32::from(n) + 2
}

/// The longest way there is. It begins with the win: if the n − 1 other nodes have asked by then, their
/// decisions come first, since nothing of the packet goes out before them. Without asking it is 21n +
/// 1 (the packet 6n, the acknowledgement 3n, the reply 6n, its acknowledgement 3n, the gaps n; n − 1
/// nodes took the packet for theirs, so n − 1 grants and n − 2 clocks of Spurious nodes; the reply's
/// grant, two responds and the request from Holding). Together that is 22n. Later in the transaction
/// fewer nodes are in Rest, and nobody asks by a forward action.
fn expected_longest(n: u8) -> u32 {
    22 * u32::from(n)
}

pub fn walk(n: u8) -> Result<String, String> {
    let mut text = String::new();
    let (mut walk, mut longest) = (Walk::default(), 0);
    for address in others(0, n) {
        let before = walk.known.len();
        let length = walk.over_all(after_win(n, address)?)?;
        let states = walk.known.len() - before;
        text +=
            &format!("n = {n}, 0 to {address}: {states} states, longest way to Idle {length}\n");
        longest = longest.max(length);
    }
    let drops = walk.cells.drops();
    let (bound, expected) = (bound(n), expected_longest(n));
    text += &format!(
        "n = {n}: {} states, up to {} Asked at once, {} of 350 cells met, {} of them drops, no dead end, longest way of forward actions to Idle {longest}, bound {bound}\n",
        walk.known.len(),
        walk.most_asked,
        walk.cells.count(),
        drops.len()
    );
    if longest != expected || longest > bound {
        Err(format!("{text}n = {n}: the longest way is not 22n = {expected}"))
    } else if (longest > 21 * u32::from(n) + 2) != (n > 2) {
        Err(format!("{text}n = {n}: 21n + 2 would do from n = 3 on, or not for n = 2"))
    } else if walk.most_asked != usize::from(n) - 1 {
        Err(format!("{text}n = {n}: the other nodes were not Asked all at once"))
    } else if walk.kept_closed != expected_kept_closed(n) {
        Err(format!("{text}n = {n}: Asked nodes keep closed: {:?}", walk.kept_closed))
    } else if drops != expected_drops(n) {
        Err(format!("{text}n = {n}: the drops are {drops:?}"))
    } else {
        Ok(text)
    }
}

/// All that runs meet, but for the reset, which needs an idle bus. With two nodes there is no third to
/// ask while one of them answers the other.
fn expected_kept_closed(n: u8) -> BTreeSet<String> {
    let answering = ["clock in Answering", "clock in Acking", "pass of Prefix"];
    let names = KEPT_CLOSED.iter().filter(|&name| *name != "reset");
    names.filter(|name| n > 2 || !answering.contains(name)).map(|name| name.to_string()).collect()
}

/// All that runs meet; with two nodes there is no third that overhears an acknowledgement.
fn expected_drops(n: u8) -> &'static [&'static str] {
    let overheard = 4;
    if n == 2 {
        &DROPS[overheard..]
    } else {
        &DROPS
    }
}
