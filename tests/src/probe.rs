//! States handed in: questions about any state as bytes, and their answers. tests/README.md has the
//! layout, "States handed in".

use std::io::{self, Read, Write};

use crate::bus::{Bus, Check, Head, Marks, Mode, Node, Packet, Phase, Signal};
use crate::routes::{self, Question};

/// "384 bytes each: a head of 24 bytes and 9 nodes of 40 bytes"
pub const LENGTH: usize = 384;
pub const HEAD: usize = 24;
pub const NODE: usize = 40;
pub const NODES: u8 = 9;

/// Where a node's bytes say that its buffer is full, and what they have of a packet in it.
pub const BUFFER_FULL: usize = 9;
pub const BUFFER: Place = Place { address: 10, label: 11, header: 24 };
const SENDING: Place = Place { address: 12, label: 13, header: 32 };

/// The places of a packet's parts; its data follow the header.
pub struct Place {
    pub address: usize,
    pub label: usize,
    pub header: usize,
}

/// The words of reports, by their numbers from 1.
const WORDS: [&str; 9] = ["won", "lost", "sent", "ack", "miss", "drop", "good", "dcrc", "broad"];

/// The bytes of a question.
pub type Bytes = [u8; LENGTH];

/// The state and the question that these bytes say; None if one of them names nothing.
pub fn read(bytes: &Bytes) -> Option<(Bus, Question)> {
    let mut bus = Bus { n: bytes[0], phase: read_phase(bytes)?, ..Bus::REFUSED };
    bus.concatenated = bytes[7] == 1;
    for node in 0..NODES {
        let part = part(bytes, node);
        bus.nodes[usize::from(node)] = read_node(part)?;
        let marks = [&mut bus.won, &mut bus.pending, &mut bus.holder, &mut bus.misled];
        read_marks(part, node, marks);
    }
    let word = WORDS.get(usize::from(bytes[12]).checked_sub(1)?)?;
    Some((bus, Question { word, node: bytes[13], depth: bytes[14] }))
}

/// The bytes that say this state and this question. Nodes from 9 on are not among them.
pub fn write(bus: &Bus, question: &Question) -> Bytes {
    let mut bytes = [0; LENGTH];
    bytes[0] = bus.n;
    write_phase(&mut bytes, bus.phase);
    bytes[7] = bus.concatenated.into();
    let word = WORDS.iter().position(|&word| word == question.word).expect("a report's word");
    bytes[12..15].copy_from_slice(&[word as u8 + 1, question.node, question.depth]);
    for node in 0..NODES {
        let part = &mut bytes[start(node)..][..NODE];
        write_node(part, bus.node(node));
        let marks = [bus.won, bus.pending, bus.holder, bus.misled];
        part[5..9].copy_from_slice(&marks.map(|marks| marks.has(node).into()));
    }
    bytes
}

/// Where the bytes of a node begin.
pub fn start(node: u8) -> usize {
    HEAD + NODE * usize::from(node)
}

fn part(bytes: &Bytes, node: u8) -> &[u8] {
    &bytes[start(node)..][..NODE]
}

/// "5 won, 6 pending, 7 holder, 8 misled mark"
fn read_marks(part: &[u8], node: u8, marks: [&mut Marks; 4]) {
    for (marks, &mark) in marks.into_iter().zip(&part[5..9]) {
        if mark == 1 {
            marks.set(node);
        }
    }
}

/// "Numbers of more than a byte are little-endian."
fn number(bytes: &[u8], from: usize) -> u32 {
    u32::from_le_bytes(bytes[from..from + 4].try_into().expect("four bytes"))
}

fn put(bytes: &mut [u8], from: usize, number: u32) {
    bytes[from..from + 4].copy_from_slice(&number.to_le_bytes());
}

fn read_phase(bytes: &Bytes) -> Option<Phase> {
    Some(match bytes[1] {
        0 => Phase::Idle,
        1 => Phase::Busy,
        2 => {
            let signal = read_signal(bytes)?;
            Phase::Delivering { sender: bytes[2], signal, receiver: bytes[3] }
        }
        3 => Phase::Granting,
        4 => Phase::Gapping { node: bytes[3] },
        _ => return None,
    })
}

fn write_phase(bytes: &mut Bytes, phase: Phase) {
    match phase {
        Phase::Idle => bytes[1] = 0,
        Phase::Busy => bytes[1] = 1,
        Phase::Delivering { sender, signal, receiver } => {
            bytes[1..4].copy_from_slice(&[2, sender, receiver]);
            write_signal(bytes, signal);
        }
        Phase::Granting => bytes[1] = 3,
        Phase::Gapping { node } => (bytes[1], bytes[3]) = (4, node),
    }
}

fn read_signal(bytes: &Bytes) -> Option<Signal> {
    let check = if bytes[5] == 1 { Check::Good } else { Check::Bad };
    let (small, large) = (bytes[6], number(bytes, 8));
    Some(match bytes[4] {
        0 => Signal::Start,
        1 => Signal::End,
        2 => Signal::Prefix,
        3 => Signal::Gap,
        4 => Signal::Dhead,
        5 => Signal::Dest(small),
        6 => Signal::Header(Head { header: large, label: small }, check),
        7 => Signal::Data(large, check),
        8 => Signal::Ack(small, check),
        _ => return None,
    })
}

fn write_signal(bytes: &mut Bytes, signal: Signal) {
    let (kind, check, small, large) = match signal {
        Signal::Start => (0, None, 0, 0),
        Signal::End => (1, None, 0, 0),
        Signal::Prefix => (2, None, 0, 0),
        Signal::Gap => (3, None, 0, 0),
        Signal::Dhead => (4, None, 0, 0),
        Signal::Dest(address) => (5, None, address, 0),
        Signal::Header(Head { header, label }, check) => (6, Some(check), label, header),
        Signal::Data(data, check) => (7, Some(check), 0, data),
        Signal::Ack(ack, check) => (8, Some(check), ack, 0),
    };
    bytes[4..7].copy_from_slice(&[kind, (check == Some(Check::Good)).into(), small]);
    put(bytes, 8, large);
}

fn read_node(part: &[u8]) -> Option<Node> {
    let buffer = (part[BUFFER_FULL] == 1).then(|| read_packet(part, BUFFER));
    Some(Node { mode: read_mode(part)?, buffer, sending: read_packet(part, SENDING) })
}

fn write_node(part: &mut [u8], node: &Node) {
    write_mode(part, node.mode);
    if let Some(packet) = node.buffer {
        part[BUFFER_FULL] = 1;
        write_packet(part, BUFFER, packet);
    }
    write_packet(part, SENDING, node.sending);
}

fn read_packet(part: &[u8], place: Place) -> Packet {
    let head = Head { header: number(part, place.header), label: part[place.label] };
    Packet { address: part[place.address], head, data: number(part, place.header + 4) }
}

fn write_packet(part: &mut [u8], place: Place, packet: Packet) {
    part[place.address] = packet.address;
    part[place.label] = packet.head.label;
    put(part, place.header, packet.head.header);
    put(part, place.header + 4, packet.data);
}

fn read_mode(part: &[u8]) -> Option<Mode> {
    let (step, ack, flag) = (part[1], part[2], part[3] == 1);
    let head = Head { header: number(part, 16), label: part[4] };
    let data = flag.then(|| number(part, 20));
    Some(match part[0] {
        0 => Mode::Rest,
        1 => Mode::AwaitAck,
        2 => Mode::AckBody,
        3 => Mode::AckEnd { good: flag.then_some(ack) },
        4 => Mode::Opened,
        5 => Mode::Addressed,
        6 => Mode::HeadOwn,
        7 => Mode::HeadAll,
        8 => Mode::BodyOwn { head },
        9 => Mode::BodyAll { head },
        10 => Mode::TailOwn { head, data },
        11 => Mode::TailAll { head, data },
        12 => Mode::Wait,
        13 => Mode::Owed,
        14 => Mode::Sending { step },
        15 => Mode::Told,
        16 => Mode::Answering,
        17 => Mode::Acking { step, ack, hold: flag },
        18 => Mode::Holding,
        19 => Mode::Spurious,
        20 => Mode::Listening,
        21 => Mode::Asked,
        _ => return None,
    })
}

fn write_mode(part: &mut [u8], mode: Mode) {
    part[0] = mode_number(mode);
    match mode {
        Mode::AckEnd { good: Some(ack) } => (part[2], part[3]) = (ack, 1),
        Mode::Sending { step } => part[1] = step,
        Mode::Acking { step, ack, hold } => {
            part[1..4].copy_from_slice(&[step, ack, hold.into()]);
        }
        Mode::BodyOwn { head } | Mode::BodyAll { head } => write_head(part, head),
        Mode::TailOwn { head, data } | Mode::TailAll { head, data } => {
            write_head(part, head);
            part[3] = data.is_some().into();
            put(part, 20, data.unwrap_or(0));
        }
        _ => (),
    }
}

fn write_head(part: &mut [u8], head: Head) {
    part[4] = head.label;
    put(part, 16, head.header);
}

fn mode_number(mode: Mode) -> u8 {
    match mode {
        Mode::Rest => 0,
        Mode::AwaitAck => 1,
        Mode::AckBody => 2,
        Mode::AckEnd { .. } => 3,
        Mode::Opened => 4,
        Mode::Addressed => 5,
        Mode::HeadOwn => 6,
        Mode::HeadAll => 7,
        Mode::BodyOwn { .. } => 8,
        Mode::BodyAll { .. } => 9,
        Mode::TailOwn { .. } => 10,
        Mode::TailAll { .. } => 11,
        Mode::Wait => 12,
        Mode::Owed => 13,
        Mode::Sending { .. } => 14,
        Mode::Told => 15,
        Mode::Answering => 16,
        Mode::Acking { .. } => 17,
        Mode::Holding => 18,
        Mode::Spurious => 19,
        Mode::Listening => 20,
        Mode::Asked => 21,
    }
}

/// The answer to a question: the lines of the route, or `none`, or `refused K`; "and then an empty line".
pub fn answer(text: &mut Vec<u8>, bus: &Bus, question: &Question) {
    match routes::find(bus, question) {
        Ok(route) => routes::print(text, &route),
        Err(refusal) => {
            text.extend_from_slice(format!("refused {}\n", refusal.number()).as_bytes());
        }
    }
    text.push(b'\n');
}

/// Answers the questions that a reader gives. "Bytes at the end that are no whole question are not
/// answered."
pub fn probe_stream(input: &mut impl Read, output: &mut impl Write) -> io::Result<()> {
    let mut bytes = Vec::with_capacity(LENGTH);
    loop {
        bytes.clear();
        input.by_ref().take(LENGTH as u64).read_to_end(&mut bytes)?;
        let Ok(question) = <&Bytes>::try_from(&bytes[..]) else {
            return output.flush();
        };
        let (bus, question) =
            read(question).ok_or_else(|| io::Error::other("a byte that names nothing"))?;
        let mut text = Vec::new();
        answer(&mut text, &bus, &question);
        output.write_all(&text)?;
    }
}
