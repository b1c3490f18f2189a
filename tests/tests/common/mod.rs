//! Short names for what the tests write often.
#![allow(dead_code)]

pub mod chart;
pub mod plain;
pub mod stand_ins;

use bench_model::bus::{Action, Bus, Head, Packet, Record};
use bench_model::player;
use bench_model::runfile::{self, BLOCK, FULL};

pub fn packet(address: u8, header: u32, data: u32, label: u8) -> Packet {
    Packet { address, head: Head { header, label }, data }
}

/// A request with this label.
pub fn labelled(node: u8, address: u8, header: u32, data: u32, label: u8) -> Record {
    Record { kind: 1, node, address, label, header, data, ..Record::default() }
}

/// A request with label 0, as in older runs.
pub fn request(node: u8, address: u8, header: u32, data: u32) -> Record {
    labelled(node, address, header, data, 0)
}

pub fn arbitrate(node: u8) -> Record {
    Action::Arbitrate { node }.into()
}

pub fn respond(node: u8, ack: u8, hold: u8) -> Record {
    Record { kind: 3, node, ack, hold, ..Record::default() }
}

pub fn clock(node: u8) -> Record {
    Action::Clock { node }.into()
}

pub fn ask(node: u8) -> Record {
    Record { kind: 11, node, ..Record::default() }
}

pub fn decide(node: u8) -> Record {
    Record { kind: 12, node, ..Record::default() }
}

pub fn change(address: u8) -> Record {
    Action::Change { address }.into()
}

fn of(kind: u8) -> Record {
    Record { kind, ..Record::default() }
}

pub fn pass() -> Record {
    of(5)
}

pub fn lose() -> Record {
    of(6)
}

pub fn grant() -> Record {
    of(8)
}

pub fn gap() -> Record {
    of(9)
}

pub fn reset() -> Record {
    of(10)
}

/// "six times clock 0 and pass", n = 2.
pub fn packet_of_two() -> Vec<Record> {
    [clock(0), pass()].repeat(6)
}

/// The run of marked case B.
pub fn case_b() -> Vec<Record> {
    let mut run = vec![request(0, 1, 5, 6), arbitrate(0)];
    run.extend(packet_of_two());
    run.extend([grant(), respond(1, 1, 0)]);
    run.extend([clock(1), pass()].repeat(3));
    run.extend([gap(), gap()]);
    run
}

/// The same with label 7.
pub fn case_b_labelled() -> Vec<Record> {
    let mut run = case_b();
    run[0] = labelled(0, 1, 5, 6, 7);
    run
}

/// That up to the last pass, with hold 1 in its respond: the acknowledgement ends in Prefix.
pub fn held() -> Vec<Record> {
    let mut run = case_b_labelled();
    run[15] = respond(1, 1, 1);
    run.truncate(22);
    run
}

/// That, then node 1's reply to node 0 (3, 4) with label 9: told at 34, granted at 35, acknowledged
/// with 2 at 42; and two gaps.
pub fn replied() -> Vec<Record> {
    let mut run = held();
    run.push(labelled(1, 0, 3, 4, 9));
    run.extend([clock(1), pass()].repeat(6));
    run.extend([grant(), respond(0, 2, 0)]);
    run.extend([clock(0), pass()].repeat(3));
    run.extend([gap(), gap()]);
    run
}

/// A whole run of two blocks from before request 10, n = 2: case B, case A, and then node 0's packet to
/// itself (8, 9) with label 5, requested at 42 and played out to its miss at 56.
pub fn older_run() -> Vec<Record> {
    let mut run = case_b();
    run.push(reset());
    run.extend([request(0, 63, 1, 2), arbitrate(0)]);
    run.extend(packet_of_two());
    run.extend([gap(), gap(), reset()]);
    run.extend([labelled(0, 0, 8, 9, 5), arbitrate(0)]);
    run.extend(packet_of_two());
    run.extend([gap(), gap()]);
    run
}

/// A run file of these records, right or wrong.
pub fn any_file(n: u8, records: &[Record]) -> Vec<u8> {
    let mut file = vec![0; records.len().div_ceil(FULL) * BLOCK];
    for ((block, part), number) in file.chunks_exact_mut(BLOCK).zip(records.chunks(FULL)).zip(0..) {
        runfile::write_unchecked(block.try_into().expect("512 bytes"), number, n, part);
    }
    file
}

pub fn printed_file(bytes: &[u8]) -> String {
    String::from_utf8(player::play_file(bytes)).expect("the text is ASCII")
}

/// The text of a run that the writer takes.
pub fn printed(n: u8, records: &[Record]) -> String {
    printed_file(&runfile::write_file(n, records).expect("the writer takes it"))
}

/// The lines of a text that have a report.
pub fn reports(text: &str) -> Vec<&str> {
    text.lines().filter(|line| line.split(' ').count() > 3).collect()
}

/// A fresh bus on which these actions were accepted.
pub fn after(n: u8, records: &[Record]) -> Bus {
    let mut bus = Bus::fresh(n).expect("n from 2 to 63");
    for record in records {
        bus.step(record).expect("each action is open");
    }
    bus
}
