//! Refusal 7: actions that are not open, for every reason there is.

use super::{placed, right_action, Case, Way};
use crate::bus::{Action, Bus, Mode, Packet, Phase, Signal, ALL_NODES};
use crate::harness::driver::Style;
use crate::harness::forward;
use crate::harness::random::Random;
use crate::table::{place, MODES};

/// Why an action is not open.
#[derive(Clone, Copy, PartialEq, Eq, Debug)]
pub enum Closed {
    RequestBufferFull,
    RequestOtherMode,
    ArbitrateBufferEmpty,
    ArbitrateOtherMode,
    RespondOtherMode,
    /// With hold 1, to a reply.
    RespondHoldsAgain,
    /// Kinds 4 to 10 in a phase that is not theirs.
    Elsewhere {
        kind: u8,
        phase: &'static str,
    },
    ClockNoHolder,
    ClockNotOnlyHolder,
    LoseOn(&'static str),
    ChangeOn(&'static str),
    ChangeToOwnAddress,
    ChangeNotZero(&'static str),
    ResetNoneWon,
    RequestAsked,
    ArbitrateAsked,
    AskBufferEmpty,
    AskAsked,
    AskOtherMode,
    DecideInRest,
    DecideOtherMode,
    /// It would be open if the nodes that are Asked were in Rest.
    WhileAsked {
        what: &'static str,
        who: Who,
    },
}

/// The nodes that are Asked.
#[derive(Clone, Copy, PartialEq, Eq, Debug)]
pub enum Who {
    /// Node 0 alone.
    First,
    /// Node n − 1 alone.
    Last,
    Several,
}

impl Who {
    /// Those of them that ask now, if they can, and the bus then.
    fn ask(self, bus: &Bus) -> Option<(Vec<Action>, Bus)> {
        let mut bus = bus.clone();
        let nodes = match self {
            Who::First => 0..1,
            Who::Last => bus.n - 1..bus.n,
            Who::Several => 0..bus.n,
        };
        let asks = nodes.map(|node| Action::Ask { node });
        let asks: Vec<Action> = asks.filter(|&ask| bus.act(ask).is_ok()).collect();
        let asked = bus.asked().count();
        let they = if self == Who::Several { asked > 1 } else { asks.len() == 1 && asked == 1 };
        they.then_some((asks, bus))
    }
}

/// What a node that is Asked keeps closed in runs from a fresh bus. Once a Start was delivered no node
/// is in Rest until an End is put out, and a node that is Asked keeps a Start from being delivered. So
/// nobody is Asked while a Dhead, Dest, Header, Data or Ack is under way, nor while a node is in
/// Holding: there is no lose and no change among these.
pub const KEPT_CLOSED: [&str; 10] = [
    "clock in Sending",
    "clock in Answering",
    "clock in Acking",
    "clock in Spurious",
    "pass of Start",
    "pass of End",
    "pass of Prefix",
    "grant",
    "gap",
    "reset",
];

/// The same bus with the nodes that are Asked in Rest.
pub fn at_rest(bus: &Bus) -> Bus {
    let mut at_rest = bus.clone();
    for node in bus.asked() {
        at_rest.nodes[usize::from(node)].mode = Mode::Rest;
    }
    at_rest
}

/// What it keeps closed on this bus, each with the action: what would be open if the nodes that are
/// Asked were in Rest.
pub fn kept_closed(bus: &Bus) -> Vec<(String, Action)> {
    if bus.asked().next().is_none() {
        return Vec::new();
    }
    let at_rest = at_rest(bus);
    let kept = |action: &Action| at_rest.is_open(*action);
    let signal = match bus.phase {
        Phase::Delivering { signal, .. } => signal_name(signal),
        _ => "nothing",
    };
    let name = |action| match action {
        Action::Clock { node } => format!("clock in {}", MODES[place(bus.node(node).mode)].0),
        Action::Pass => format!("pass of {signal}"),
        Action::Lose => format!("lose of {signal}"),
        Action::Change { .. } => format!("change of {signal}"),
        Action::Grant => "grant".into(),
        Action::Gap => "gap".into(),
        _ => "reset".into(),
    };
    let kept = forward::of_bus(bus).into_iter().filter(kept);
    kept.map(|action| (name(action), action)).collect()
}

const PHASES: [&str; 5] = ["Idle", "Busy", "Delivering", "Granting", "Gapping"];

pub fn phase_name(phase: Phase) -> &'static str {
    match phase {
        Phase::Idle => "Idle",
        Phase::Busy => "Busy",
        Phase::Delivering { .. } => "Delivering",
        Phase::Granting => "Granting",
        Phase::Gapping { .. } => "Gapping",
    }
}

/// The phase in which a kind from 4 to 10 can be open.
fn phase_of(kind: u8) -> &'static str {
    match kind {
        4 => "Busy",
        5..=7 => "Delivering",
        8 => "Granting",
        9 => "Gapping",
        _ => "Idle",
    }
}

pub fn signal_name(signal: Signal) -> &'static str {
    match signal {
        Signal::Start => "Start",
        Signal::End => "End",
        Signal::Prefix => "Prefix",
        Signal::Gap => "Gap",
        Signal::Dhead => "Dhead",
        Signal::Dest(_) => "Dest",
        Signal::Header(..) => "Header",
        Signal::Data(..) => "Data",
        Signal::Ack(..) => "Ack",
    }
}

impl Closed {
    pub fn all() -> Vec<Closed> {
        let mut all = vec![
            Closed::RequestBufferFull,
            Closed::RequestOtherMode,
            Closed::ArbitrateBufferEmpty,
            Closed::ArbitrateOtherMode,
            Closed::RespondOtherMode,
            Closed::RespondHoldsAgain,
            Closed::ClockNoHolder,
            Closed::ClockNotOnlyHolder,
            Closed::ChangeToOwnAddress,
            Closed::ResetNoneWon,
            Closed::RequestAsked,
            Closed::ArbitrateAsked,
            Closed::AskBufferEmpty,
            Closed::AskAsked,
            Closed::AskOtherMode,
            Closed::DecideInRest,
            Closed::DecideOtherMode,
        ];
        for kind in 4..=10 {
            let phases = PHASES.into_iter().filter(|&phase| phase != phase_of(kind));
            all.extend(phases.map(|phase| Closed::Elsewhere { kind, phase }));
        }
        all.extend(["Start", "End", "Prefix", "Dhead", "Dest"].map(Closed::LoseOn));
        all.extend(["Start", "End", "Prefix", "Dhead"].map(Closed::ChangeOn));
        all.extend(["Header", "Data", "Ack"].map(Closed::ChangeNotZero));
        for what in KEPT_CLOSED {
            let asked = [Who::First, Who::Last, Who::Several];
            all.extend(asked.map(|who| Closed::WhileAsked { what, who }));
        }
        all
    }

    /// What a file with it aims at.
    pub fn aim(self) -> String {
        match self {
            Closed::RequestAsked => "request of a node that is Asked".into(),
            Closed::ArbitrateAsked => "arbitrate of a node that is Asked".into(),
            Closed::AskBufferEmpty => "ask with an empty buffer".into(),
            Closed::AskAsked => "ask of a node that is Asked".into(),
            Closed::AskOtherMode => "ask in another mode".into(),
            Closed::DecideInRest => "decide of a node in Rest".into(),
            Closed::DecideOtherMode => "decide in another mode".into(),
            Closed::WhileAsked { what, .. } => format!("open but for a node that is Asked: {what}"),
            _ => "for other reasons".into(),
        }
    }

    /// Actions of which the last is not open after the others on this bus, and for this reason, if
    /// there are such.
    fn example(self, bus: &Bus, random: &mut Random) -> Option<Vec<Action>> {
        let Closed::WhileAsked { what, who } = self else {
            return self.action(bus, random).map(|action| vec![action]);
        };
        let (mut actions, bus) = who.ask(bus)?;
        let kept = kept_closed(&bus).into_iter().filter(|(name, _)| name == what);
        let kept: Vec<Action> = kept.map(|(_, action)| action).collect();
        actions.push((!kept.is_empty()).then(|| random.pick(&kept))?);
        Some(actions)
    }

    /// How runs go in which it is looked for. Those that can ask while a node answers are the ones
    /// that were misled and gave the bus back, if packets wait there.
    fn style(self, random: &mut Random, n: u8) -> Style {
        let style = Style::random(random, n);
        match self {
            Closed::WhileAsked { .. } => {
                Style { aside: 30, dest_fault: 30, to_receiver: 90, filler: 40, ..style }
            }
            _ => style,
        }
    }

    /// An action that is not open on this bus, and for this reason, if there is one.
    fn action(self, bus: &Bus, random: &mut Random) -> Option<Action> {
        let n = bus.n;
        let start = random.below(n.into()) as u8;
        let find = |fits: &dyn Fn(u8) -> bool| {
            (0..n).map(|step| (start + step) % n).find(|&node| fits(node))
        };
        let rests = |node| bus.node(node).mode == Mode::Rest;
        let asked = |node| bus.node(node).mode == Mode::Asked;
        let full = |node| bus.node(node).buffer.is_some();
        let other = random.below(n.into()) as u8;
        let address = random.pick(&[other, ALL_NODES]);
        let packet = random.packet(address);
        // To the node itself it would be refused by 15.
        let request = |node: u8| {
            let address = if address == node { ALL_NODES } else { address };
            Action::Request { node, packet: Packet { address, ..packet } }
        };
        let signal = match bus.phase {
            Phase::Delivering { signal, .. } => Some(signal),
            _ => None,
        };
        let on = |name| signal.is_some_and(|signal| signal_name(signal) == name);
        match self {
            Closed::RequestBufferFull => find(&|node| rests(node) && full(node)).map(request),
            Closed::RequestOtherMode => {
                let holding = |node| bus.node(node).mode == Mode::Holding;
                find(&|node| !rests(node) && !asked(node) && !holding(node)).map(request)
            }
            Closed::ArbitrateBufferEmpty => {
                let node = find(&|node| rests(node) && !full(node))?;
                Some(Action::Arbitrate { node })
            }
            Closed::ArbitrateOtherMode => {
                let node = find(&|node| !rests(node) && !asked(node))?;
                Some(Action::Arbitrate { node })
            }
            Closed::RequestAsked => find(&asked).map(request),
            Closed::ArbitrateAsked => Some(Action::Arbitrate { node: find(&asked)? }),
            Closed::AskAsked => Some(Action::Ask { node: find(&asked)? }),
            Closed::AskBufferEmpty => {
                let node = find(&|node| rests(node) && !full(node))?;
                Some(Action::Ask { node })
            }
            Closed::AskOtherMode => {
                let node = find(&|node| !rests(node) && !asked(node))?;
                Some(Action::Ask { node })
            }
            Closed::DecideInRest => {
                let node = find(&|node| rests(node) && full(node))?;
                Some(Action::Decide { node })
            }
            Closed::DecideOtherMode => {
                let node = find(&|node| !rests(node) && !asked(node))?;
                Some(Action::Decide { node })
            }
            Closed::RespondOtherMode => {
                let node = find(&|node| bus.node(node).mode != Mode::Answering)?;
                Some(Action::Respond { node, ack: random.byte(0, 15), hold: random.percent(50) })
            }
            Closed::RespondHoldsAgain if bus.concatenated => {
                let node = find(&|node| bus.node(node).mode == Mode::Answering)?;
                Some(Action::Respond { node, ack: random.byte(0, 15), hold: true })
            }
            Closed::RespondHoldsAgain => None,
            // What follows is closed where no node is Asked.
            _ if bus.asked().next().is_some() => None,
            Closed::WhileAsked { .. } => None,
            Closed::Elsewhere { kind, phase } if phase_name(bus.phase) == phase => {
                let node = find(&|node| bus.holder.has(node)).unwrap_or(start);
                Some(right_action(random, kind, node, packet))
            }
            Closed::Elsewhere { .. } => None,
            Closed::ClockNoHolder if bus.phase == Phase::Busy => {
                let node = find(&|node| !bus.holder.has(node))?;
                Some(Action::Clock { node })
            }
            Closed::ClockNoHolder => None,
            Closed::ClockNotOnlyHolder if bus.phase == Phase::Busy => {
                let spurious = |node| bus.node(node).mode == Mode::Spurious;
                let alone = |node| (0..n).all(|other| other == node || !bus.holder.has(other));
                let fits = |node| bus.holder.has(node) && !spurious(node) && !alone(node);
                let node = find(&fits)?;
                Some(Action::Clock { node })
            }
            Closed::ClockNotOnlyHolder => None,
            Closed::LoseOn(name) => on(name).then_some(Action::Lose),
            Closed::ChangeOn(name) => {
                on(name).then_some(Action::Change { address: random.pick(&[0, address]) })
            }
            Closed::ChangeToOwnAddress => match signal {
                Some(Signal::Dest(own)) => Some(Action::Change { address: own }),
                _ => None,
            },
            Closed::ChangeNotZero(name) => {
                let other = random.byte(1, n - 1);
                on(name).then_some(Action::Change { address: random.pick(&[other, ALL_NODES]) })
            }
            Closed::ResetNoneWon => {
                let none_won = (0..n).all(|node| !bus.won.has(node));
                (bus.phase == Phase::Idle && none_won).then_some(Action::Reset)
            }
        }
    }
}

/// A run of open actions with one somewhere that is not open, for this reason.
pub fn run(random: &mut Random, closed: Closed) -> Case {
    let style = |random: &mut Random, n| closed.style(random, n);
    placed(random, Way::Closed(closed), 7, style, |bus, random| closed.example(bus, random))
}
