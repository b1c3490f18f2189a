//! States handed in, made at random: any mode at any node, any marks, any signal under way, most of them
//! such as no run reaches; and states that are none, for each reason of 12.

use super::equally_short::{differ, each, Between, Difference, OF_RUNS, OF_STATES};
use super::parts::{self, Part};
use super::questions::{self, question};
use super::random::Random;
use super::ways::{at_rest, no_address, no_label, too_high};
use crate::bus::{Bus, Check, Head, Marks, Mode, Node, Packet, Phase, Report, Signal, ALL_NODES};
use crate::probe::{self, Bytes, BUFFER, BUFFER_FULL, NODES};
use crate::routes::{Question, DEEPEST, MOST_NODES};

/// Why a state is none, beside n.
#[derive(Clone, Copy, PartialEq, Eq, Debug)]
pub enum Flawed {
    /// "a sender, receiver or gap node not below n; receiver equal to sender"
    Sender,
    Receiver,
    ReceiverIsSender,
    GapNode,
    /// "an address neither below n nor 63"
    DestUnderWay,
    BufferAddress,
    SendingAddress,
    /// "an acknowledgement over 15"
    AckUnderWay,
    AckEnd,
    AckingAck,
    /// A label over 63
    HeaderUnderWay,
    BufferLabel,
    SendingLabel,
    BodyOwn,
    BodyAll,
    TailOwn,
    TailAll,
    /// "a step of Sending over 5 or of Acking over 2"
    SendingStep,
    AckingStep,
}

pub const FLAWS: [Flawed; 19] = [
    Flawed::Sender,
    Flawed::Receiver,
    Flawed::ReceiverIsSender,
    Flawed::GapNode,
    Flawed::DestUnderWay,
    Flawed::BufferAddress,
    Flawed::SendingAddress,
    Flawed::AckUnderWay,
    Flawed::AckEnd,
    Flawed::AckingAck,
    Flawed::HeaderUnderWay,
    Flawed::BufferLabel,
    Flawed::SendingLabel,
    Flawed::BodyOwn,
    Flawed::BodyAll,
    Flawed::TailOwn,
    Flawed::TailAll,
    Flawed::SendingStep,
    Flawed::AckingStep,
];

impl Flawed {
    /// Whether it is a node's record that is flawed.
    fn is_of_a_node(self) -> bool {
        !matches!(
            self,
            Flawed::Sender
                | Flawed::Receiver
                | Flawed::ReceiverIsSender
                | Flawed::GapNode
                | Flawed::DestUnderWay
                | Flawed::AckUnderWay
                | Flawed::HeaderUnderWay
        )
    }
}

/// Where a state carries a packet to the node itself: 12 does not mind it.
#[derive(Clone, Copy, PartialEq, Eq, Debug)]
pub enum Carried {
    InBuffer,
    /// By a node in Sending that holds the bus alone.
    BeingSent,
    /// The same at its last step; asked for is how it ends, "to its `miss`".
    ToItsMiss,
}

pub const CARRIED: [Carried; 3] = [Carried::InBuffer, Carried::BeingSent, Carried::ToItsMiss];

/// Kinds that are no bus events, and could lead to a report if they were.
pub const OTHER_KINDS: [u8; 2] = [1, 3];

#[derive(Clone, Copy, PartialEq, Eq, Debug)]
pub enum StateWay {
    /// A state, and a question that is not refused.
    Right,
    /// The same, with a packet to the node itself.
    Carried(Carried),
    /// The same, with several shortest routes, the first of which and another one first differ so.
    EquallyShort(Difference),
    /// The same, and the first route has this in it.
    With(Part),
    /// The same, with none; an action of this kind would lead to the report.
    OtherKind(u8),
    /// A state, with a depth of 7 or 8.
    Deep,
    /// A state, and a node that is none.
    NoNode,
    /// n is this; the question is any.
    Size(u8),
    /// No state, by one thing; the question is any.
    Flawed(Flawed),
}

/// Sizes that are refused, by 12 or by 14.
pub const SIZES: [u8; 6] = [0, 1, 9, 63, 64, 255];

impl StateWay {
    pub fn all() -> Vec<StateWay> {
        let mut all = vec![StateWay::Right; 80];
        all.extend(CARRIED.map(StateWay::Carried).repeat(3));
        all.extend(OTHER_KINDS.map(StateWay::OtherKind).repeat(2));
        all.extend([StateWay::Deep, StateWay::NoNode].repeat(5));
        all.extend(SIZES.map(StateWay::Size).repeat(2));
        all.extend(FLAWS.map(StateWay::Flawed));
        all.extend(each(&OF_STATES).map(StateWay::EquallyShort));
        all.extend(parts::all().map(StateWay::With));
        all
    }

    pub fn make(self, random: &mut Random) -> Handed {
        let (mut bus, question) = match self {
            StateWay::EquallyShort(difference) => equally_short(random, difference),
            StateWay::With(part) => with(random, part),
            StateWay::OtherKind(kind) => other_kind(random, kind),
            _ => self.any(random),
        };
        others(random, &mut bus);
        Handed::new(random, bus, question)
    }

    /// Whatever routes there are, if the question is not refused.
    fn any(self, random: &mut Random) -> (Bus, Question) {
        let n = match self {
            StateWay::Size(n) => n,
            StateWay::Flawed(_) => random.pick(&[2, 3, 8, 9, 9]),
            // With more nodes it takes over 6 actions.
            StateWay::Carried(Carried::ToItsMiss) => random.byte(2, 3),
            _ => random.byte(2, MOST_NODES),
        };
        let mut bus = state(random, n);
        let mut question = match self {
            StateWay::Carried(carried) => carry(random, &mut bus, carried),
            StateWay::Size(_) | StateWay::Flawed(_) => any_question(random, n),
            _ => question(random, &bus),
        };
        match self {
            StateWay::Deep => {
                question.depth = random.byte(DEEPEST + 1, DEEPEST + 2);
                question.node = random.pick(&[question.node, n, 255]);
            }
            StateWay::NoNode => question.node = too_high(random, n),
            StateWay::Flawed(flawed) => spoil(random, &mut bus, flawed),
            _ => (),
        }
        (bus, question)
    }
}

/// A state handed in and a question about it, and the bytes that say so.
pub struct Handed {
    pub bus: Bus,
    pub question: Question,
    pub bytes: Bytes,
}

impl Handed {
    fn new(random: &mut Random, bus: Bus, question: Question) -> Handed {
        let mut bytes = probe::write(&bus, &question);
        for node in 0..NODES {
            let part = &mut bytes[probe::start(node)..];
            // The packet of an empty buffer is not looked at.
            if part[BUFFER_FULL] == 0 && random.percent(20) {
                part[BUFFER.address] = random.draw() as u8;
                part[BUFFER.label] = random.draw() as u8;
            }
        }
        Handed { bus, question, bytes }
    }
}

/// One that may be refused by 14 and by 4.
fn any_question(random: &mut Random, n: u8) -> Question {
    Question {
        word: random.pick(&Report::WORDS),
        node: random.pick(&[0, 1, n, 255]),
        depth: random.byte(0, DEEPEST + 2),
    }
}

/// How states are made, in chances out of a hundred.
struct Style {
    /// A node is Asked: it keeps all bus events closed.
    asked: u64,
    /// A node is in this mode; waits for an acknowledgement; is marked.
    often: (Mode, u64),
    awaiting: u64,
    holder: u64,
    pending: u64,
}

impl Style {
    /// For a bus in this phase.
    fn random(random: &mut Random, phase: Phase) -> Style {
        let often = match phase {
            Phase::Delivering { signal, .. } if random.percent(60) => awaiting(random, signal),
            _ => often(random),
        };
        Style {
            asked: random.pick(&[0, 0, 0, 0, 10]),
            often: (often, random.pick(&[0, 30, 60, 90])),
            awaiting: random.pick(&[0, 10, 30]),
            holder: random.pick(&[0, 10, 10, 50, 100]),
            pending: random.pick(&[0, 10, 50, 100]),
        }
    }

    fn node(&self, random: &mut Random, n: u8) -> Node {
        let mode = if random.percent(self.asked) {
            Mode::Asked
        } else if random.percent(self.often.1) {
            self.often.0
        } else if random.percent(self.awaiting) {
            Mode::AwaitAck
        } else {
            mode(random)
        };
        let buffer = random.percent(50).then(|| packet(random, n));
        Node { mode, buffer, sending: packet(random, n) }
    }
}

/// A state of so many nodes; of sizes that there are not, all but n is as for the most there are.
fn state(random: &mut Random, n: u8) -> Bus {
    let nodes = n.clamp(2, NODES);
    let mut bus = Bus { n, phase: phase(random, nodes), ..Bus::REFUSED };
    let style = Style::random(random, bus.phase);
    for node in 0..nodes {
        bus.nodes[usize::from(node)] = style.node(random, nodes);
    }
    bus.won = marks(random, 30);
    bus.pending = marks(random, style.pending);
    bus.holder = marks(random, style.holder);
    bus.misled = marks(random, 30);
    bus.concatenated = random.percent(30);
    if random.percent(60) {
        hold_alone(random, &mut bus, nodes);
    }
    bus
}

/// One node alone holds the bus, the sender if there is one, or is the only one that it can be granted
/// to, and can put something out then.
fn hold_alone(random: &mut Random, bus: &mut Bus, nodes: u8) {
    let node = match bus.phase {
        Phase::Delivering { sender, .. } => sender,
        _ => random.byte(0, nodes - 1),
    };
    let alone = Marks(1 << node);
    (bus.holder, bus.pending) = match bus.phase {
        Phase::Granting => random.pick(&[(alone, Marks::default()), (Marks::default(), alone)]),
        _ => (alone, bus.pending),
    };
    let sending = Mode::Sending { step: random.byte(0, 5) };
    let last = Mode::Sending { step: 5 };
    let acking = Mode::Acking { step: random.byte(0, 2), ack: 3, hold: random.percent(50) };
    let others = [Mode::Answering, Mode::Holding, Mode::Spurious, Mode::Owed, Mode::Told];
    let other = random.pick(&others);
    bus.nodes[usize::from(node)].mode = random.pick(&[sending, last, acking, other]);
}

/// Puts a packet to the node itself there; gives a question about the state.
fn carry(random: &mut Random, bus: &mut Bus, carried: Carried) -> Question {
    let node = random.byte(0, bus.n - 1);
    let packet = random.packet(node);
    let record = &mut bus.nodes[usize::from(node)];
    match carried {
        Carried::InBuffer => record.buffer = Some(packet),
        Carried::BeingSent => {
            let step = random.byte(0, 5);
            (record.mode, record.sending) = (Mode::Sending { step }, packet);
            (bus.phase, bus.holder) = (Phase::Busy, Marks(1 << node));
        }
        Carried::ToItsMiss => {
            bus.phase = Phase::Busy;
            send_alone(bus, node, packet, 5);
            return Question { word: "miss", node, depth: DEEPEST };
        }
    }
    question(random, bus)
}

/// This node, in this mode, holds the bus alone; nobody is Asked, and nobody is pending.
fn leave_alone(bus: &mut Bus, node: u8, mode: Mode) {
    *bus = at_rest(bus);
    (bus.holder, bus.pending) = (Marks(1 << node), Marks::default());
    bus.nodes[usize::from(node)].mode = mode;
}

/// The same for a node that sends this packet, and is at this step.
fn send_alone(bus: &mut Bus, node: u8, packet: Packet, step: u8) {
    leave_alone(bus, node, Mode::Sending { step });
    bus.nodes[usize::from(node)].sending = packet;
}

/// A node drops in its Tail mode by the Start of a packet or of an acknowledgement. Bus events alone lead
/// to Prefixes, by which it is told.
fn other_kind(random: &mut Random, kind: u8) -> (Bus, Question) {
    let n = random.byte(2, 4);
    let mut bus = state(random, n);
    let holder = random.byte(0, n - 1);
    let node = random.other_node(holder, n);
    bus.phase = Phase::Busy;
    leave_alone(&mut bus, holder, if kind == 1 { Mode::Holding } else { Mode::Answering });
    let (head, data) = (head(random), Some(random.word()));
    let tails = [Mode::TailOwn { head, data }, Mode::TailAll { head, data }];
    bus.nodes[usize::from(node)].mode = random.pick(&tails);
    (bus, Question { word: "drop", node, depth: DEEPEST })
}

/// A state and a question with several shortest routes, the first of which and another one first differ
/// so.
fn equally_short(random: &mut Random, difference: Difference) -> (Bus, Question) {
    if each(&OF_RUNS).any(|of_runs| of_runs == difference) {
        return altered_run(random, difference);
    }
    loop {
        let (bus, question) = match difference.between {
            Between::ChangesToNodes => own_dest(random),
            _ => dest_of_sender(random),
        };
        if differ(&bus, &question, difference) {
            return (bus, question);
        }
    }
}

/// The state after a run, with something in it as no run leaves it, if they differ so even then.
fn altered_run(random: &mut Random, difference: Difference) -> (Bus, Question) {
    let (run, question) = questions::equally_short(random, difference);
    let altered = altered(random, &run.bus);
    match differ(&altered, &question, difference) {
        true => (altered, question),
        false => (run.bus, question),
    }
}

/// The same for a question whose first route has this in it.
fn with(random: &mut Random, part: Part) -> (Bus, Question) {
    let (run, question) = questions::with(random, part);
    let altered = altered(random, &run.bus);
    match parts::has(&altered, &question, part) {
        true => (altered, question),
        false => (run.bus, question),
    }
}

/// This state with another record of one node, and with other marks.
fn altered(random: &mut Random, bus: &Bus) -> Bus {
    let mut altered = bus.clone();
    let node = random.byte(0, bus.n - 1);
    let style = Style::random(random, bus.phase);
    altered.nodes[usize::from(node)] = style.node(random, bus.n);
    (altered.won, altered.misled) = (marks(random, 30), marks(random, 30));
    altered
}

/// A Dest on its way, and then an End. The sender misses soon if the last node, whose number the Dest
/// has, gets another.
fn own_dest(random: &mut Random) -> (Bus, Question) {
    let n = random.byte(3, 4);
    let (sender, last) = (random.byte(0, 1), n - 1);
    let mut bus = state(random, n);
    let receiver = random.other_node(sender, n);
    bus.phase = Phase::Delivering { sender, signal: Signal::Dest(last), receiver };
    send_alone(&mut bus, sender, random.packet(last), 5);
    bus.nodes[usize::from(last)].mode = Mode::Addressed;
    (bus, Question { word: "miss", node: sender, depth: DEEPEST })
}

/// A packet to the sender itself, from its Dhead on. The other node reads on if it gets another Dest.
fn dest_of_sender(random: &mut Random) -> (Bus, Question) {
    let sender = random.byte(0, 1);
    let other = 1 - sender;
    let mut bus = state(random, 2);
    bus.phase = Phase::Busy;
    send_alone(&mut bus, sender, random.packet(sender), 1);
    bus.nodes[usize::from(other)].mode = Mode::Opened;
    (bus, Question { word: "drop", node: other, depth: DEEPEST })
}

/// A mode that many nodes have: one in which this signal is the next.
fn awaiting(random: &mut Random, signal: Signal) -> Mode {
    let head = head(random);
    match signal {
        Signal::Start => random.pick(&[Mode::Rest, Mode::AwaitAck, Mode::Listening]),
        Signal::Dhead => Mode::Opened,
        Signal::Dest(_) => Mode::Addressed,
        Signal::Header(..) => random.pick(&[Mode::HeadOwn, Mode::HeadAll]),
        Signal::Data(..) => random.pick(&[Mode::BodyOwn { head }, Mode::BodyAll { head }]),
        Signal::Ack(..) => Mode::AckBody,
        Signal::End | Signal::Prefix | Signal::Gap => often(random),
    }
}

/// Another one: one by which much is reported, most of the time.
fn often(random: &mut Random) -> Mode {
    let head = head(random);
    let data = random.word();
    let any = mode(random);
    let modes = [
        any,
        Mode::Spurious,
        Mode::Owed,
        Mode::Addressed,
        Mode::BodyOwn { head },
        Mode::AckEnd { good: Some(random.byte(0, 15)) },
        Mode::TailOwn { head, data: Some(data) },
        Mode::TailOwn { head, data: None },
        Mode::TailAll { head, data: Some(data) },
    ];
    random.pick(&modes)
}

/// So many marked of a hundred nodes.
fn marks(random: &mut Random, chance: u64) -> Marks {
    let mut marks = Marks::default();
    (0..NODES).filter(|_| random.percent(chance)).for_each(|node| marks.set(node));
    marks
}

fn address(random: &mut Random, n: u8) -> u8 {
    let node = random.byte(0, n - 1);
    random.pick(&[node, node, ALL_NODES])
}

fn packet(random: &mut Random, n: u8) -> Packet {
    let address = address(random, n);
    random.packet(address)
}

fn head(random: &mut Random) -> Head {
    Head { header: random.word(), label: random.label() }
}

/// Any mode but Asked.
fn mode(random: &mut Random) -> Mode {
    let head = head(random);
    let data = random.percent(60).then(|| random.word());
    let ack = random.byte(0, 15);
    let modes = [
        Mode::Rest,
        Mode::AwaitAck,
        Mode::AckBody,
        Mode::AckEnd { good: random.percent(60).then_some(ack) },
        Mode::Opened,
        Mode::Addressed,
        Mode::HeadOwn,
        Mode::HeadAll,
        Mode::BodyOwn { head },
        Mode::BodyAll { head },
        Mode::TailOwn { head, data },
        Mode::TailAll { head, data },
        Mode::Wait,
        Mode::Owed,
        Mode::Sending { step: random.byte(0, 5) },
        Mode::Told,
        Mode::Answering,
        Mode::Acking { step: random.byte(0, 2), ack, hold: random.percent(50) },
        Mode::Holding,
        Mode::Spurious,
        Mode::Listening,
    ];
    random.pick(&modes)
}

fn phase(random: &mut Random, n: u8) -> Phase {
    let sender = random.byte(0, n - 1);
    let first = if sender == 0 { 1 } else { 0 };
    let any = random.other_node(sender, n);
    let receiver = random.pick(&[first, any]);
    let delivering = Phase::Delivering { sender, signal: signal(random, n), receiver };
    let gapping = Phase::Gapping { node: random.byte(0, n - 1) };
    let phases = [delivering, delivering, delivering, Phase::Busy, Phase::Busy];
    match random.below(10) {
        0 => Phase::Idle,
        1 => gapping,
        2 => Phase::Granting,
        _ => random.pick(&phases),
    }
}

fn signal(random: &mut Random, n: u8) -> Signal {
    let check = random.pick(&[Check::Good, Check::Good, Check::Bad]);
    let signals = [
        Signal::Start,
        Signal::End,
        Signal::End,
        Signal::Prefix,
        Signal::Prefix,
        Signal::Gap,
        Signal::Dhead,
        Signal::Dest(address(random, n)),
        Signal::Header(head(random), check),
        Signal::Data(random.word(), check),
        Signal::Ack(random.byte(0, 15), check),
    ];
    random.pick(&signals)
}

/// "Records and marks of nodes from n on are neither read nor changed": anything stands there, flawed
/// records and nodes that are Asked too.
fn others(random: &mut Random, bus: &mut Bus) {
    let of_nodes: Vec<Flawed> = FLAWS.into_iter().filter(|flawed| flawed.is_of_a_node()).collect();
    for node in bus.n.clamp(2, NODES)..NODES {
        let style = Style { asked: 40, ..Style::random(random, bus.phase) };
        bus.nodes[usize::from(node)] = style.node(random, NODES);
        if random.percent(50) {
            let flawed = random.pick(&of_nodes);
            spoil_node(random, &mut bus.nodes[usize::from(node)], NODES, flawed);
        }
    }
}

/// Makes the state none, by this alone.
fn spoil(random: &mut Random, bus: &mut Bus, flawed: Flawed) {
    let n = bus.n;
    let check = random.pick(&[Check::Good, Check::Bad]);
    let (sender, receiver) = random.pick(&[(0, 1), (1, 0), (n - 1, 0)]);
    let under_way = |signal| Phase::Delivering { sender, signal, receiver };
    let signal = signal(random, n);
    match flawed {
        Flawed::Sender => {
            let sender = too_high(random, n);
            bus.phase = Phase::Delivering { sender, signal, receiver };
        }
        Flawed::Receiver => {
            let receiver = too_high(random, n);
            bus.phase = Phase::Delivering { sender, signal, receiver };
        }
        Flawed::ReceiverIsSender => {
            bus.phase = Phase::Delivering { sender, signal, receiver: sender };
        }
        Flawed::GapNode => bus.phase = Phase::Gapping { node: too_high(random, n) },
        Flawed::DestUnderWay => bus.phase = under_way(Signal::Dest(no_address(random, n))),
        Flawed::AckUnderWay => bus.phase = under_way(Signal::Ack(no_ack(random), check)),
        Flawed::HeaderUnderWay => {
            let head = Head { label: no_label(random), ..head(random) };
            bus.phase = under_way(Signal::Header(head, check));
        }
        _ => {
            let node = usize::from(random.byte(0, n - 1));
            spoil_node(random, &mut bus.nodes[node], n, flawed);
        }
    }
}

fn no_ack(random: &mut Random) -> u8 {
    let any = random.byte(16, 255);
    random.pick(&[16, any])
}

/// Makes a node's record none, by this alone.
fn spoil_node(random: &mut Random, node: &mut Node, n: u8, flawed: Flawed) {
    let Head { header, .. } = head(random);
    let no_head = Head { header, label: no_label(random) };
    let data = random.percent(50).then_some(7);
    let packet = packet(random, n);
    let no_place = Packet { address: no_address(random, n), ..packet };
    let no_packet = Packet { head: no_head, ..packet };
    match flawed {
        Flawed::BufferAddress => node.buffer = Some(no_place),
        Flawed::BufferLabel => node.buffer = Some(no_packet),
        Flawed::SendingAddress => node.sending = no_place,
        Flawed::SendingLabel => node.sending = no_packet,
        Flawed::AckEnd => node.mode = Mode::AckEnd { good: Some(no_ack(random)) },
        Flawed::AckingAck => {
            node.mode = Mode::Acking { step: 0, ack: no_ack(random), hold: random.percent(50) };
        }
        Flawed::AckingStep => {
            let any = random.byte(3, 255);
            node.mode = Mode::Acking { step: random.pick(&[3, any]), ack: 0, hold: false };
        }
        Flawed::SendingStep => {
            let any = random.byte(6, 255);
            node.mode = Mode::Sending { step: random.pick(&[6, any]) };
        }
        Flawed::BodyOwn => node.mode = Mode::BodyOwn { head: no_head },
        Flawed::BodyAll => node.mode = Mode::BodyAll { head: no_head },
        Flawed::TailOwn => node.mode = Mode::TailOwn { head: no_head, data },
        Flawed::TailAll => node.mode = Mode::TailAll { head: no_head, data },
        _ => unreachable!("no record of a node"),
    }
}
