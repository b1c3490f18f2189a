//! Request 4: "Show where a packet was dropped." Each drop on a state handed in, what is no drop, and
//! drops in runs.

mod common;

use std::collections::BTreeMap;

use bench_model::bus::{Bus, Mode, Phase, Reading, Record, Report, Reported, Signal};
use bench_model::harness::random::Random;
use bench_model::harness::tally::{Tally, DROPS};
use bench_model::harness::watch::Watch;
use bench_model::harness::ways::Way;
use bench_model::table::CLASSES;
use bench_model::transcript;
use common::chart::{reading, rows, Receiver, RECEIVERS};
use common::*;

/// The modes that can be left so, in the order of their places.
const NAMES: [&str; 8] =
    ["Opened", "Addressed", "HeadOwn", "HeadAll", "BodyOwn", "BodyAll", "TailOwn", "TailAll"];

/// A bus of 63 nodes, handed in, on which the receiver is in this mode and gets this signal by the
/// action given back; marks are set here and there.
fn handed_in(receiver: &Receiver, mode: Mode, signal: Signal) -> (Bus, Record) {
    let Receiver { own, other, .. } = *receiver;
    let mut bus = Bus::fresh(63).unwrap();
    bus.nodes[usize::from(own)] = receiver.node(mode);
    for node in [own, other] {
        bus.won.set(node);
        bus.pending.set(node);
    }
    bus.holder.set(other);
    // The receiver is not misled: its Header would come with a bad check.
    bus.misled.set(other);
    let action = match signal {
        Signal::Gap => {
            bus.phase = Phase::Gapping { node: own };
            gap()
        }
        signal => {
            bus.phase = Phase::Delivering { sender: other, signal, receiver: own };
            pass()
        }
    };
    (bus, action)
}

/// The line printed for it, with index 11.
fn line(record: &Record, reported: Option<Reported>) -> String {
    let mut text = Vec::new();
    transcript::action(&mut text, 11, record.kind, reported);
    String::from_utf8(text).unwrap()
}

/// "When a node in Opened through the Tail modes goes to Wait or Owed, the report becomes `drop` and
/// the name of the mode it left", and "TailAll with bad data reports drop TailAll on End or Prefix
/// too": 3 cells of Opened, 10 of Addressed, 13 of HeadOwn, 12 of HeadAll, 12 of BodyOwn, 11 of
/// BodyAll, 12 and 12 of TailOwn, 11 and 13 of TailAll.
#[test]
fn each_drop_on_a_state_handed_in() {
    for receiver in RECEIVERS {
        let own = receiver.own;
        let mut printed: BTreeMap<String, usize> = BTreeMap::new();
        for (before, answers) in rows() {
            for (signal, answer) in receiver.signals().into_iter().zip(answers) {
                if answer.report != Some("drop") {
                    continue;
                }
                let (bus, action) = handed_in(&receiver, receiver.mode(before), signal);
                let mut next = bus.clone();
                let reported = next.step(&action).expect("open");
                let report = Report::Drop { left: reading(before) };
                assert_eq!(reported, Some(Reported { node: own, report }), "{before}, {signal:?}");
                *printed.entry(line(&action, reported)).or_default() += 1;

                // The mode changes, and nothing else of the node; no mark does.
                let node = receiver.node(receiver.mode(answer.next));
                assert_eq!(*next.node(own), node, "{before}, {signal:?}");
                let marks = |bus: &Bus| [bus.won, bus.pending, bus.holder, bus.misled];
                assert_eq!(marks(&next), marks(&bus));
            }
        }
        assert_eq!(printed.values().sum::<usize>(), 109);
        let expected = [
            (5, "Opened", 3),
            (5, "Addressed", 10),
            (5, "HeadOwn", 12),
            (9, "HeadOwn", 1),
            (5, "HeadAll", 12),
            (5, "BodyOwn", 11),
            (9, "BodyOwn", 1),
            (5, "BodyAll", 11),
            (5, "TailOwn", 22),
            (9, "TailOwn", 2),
            (5, "TailAll", 24),
        ];
        let line = |(kind, name, cells)| (format!("11 {kind} {own} drop {name}\n"), cells);
        assert_eq!(printed, expected.map(line).into());
    }
}

/// A Gap that is under way, which only a state handed in has, drops as kind 9's does.
#[test]
fn a_gap_delivered() {
    for receiver in RECEIVERS {
        let Receiver { own, other, .. } = receiver;
        for before in ["HeadOwn", "BodyOwn", "TailOwn", "TailOwn-"] {
            let (mut bus, _) = handed_in(&receiver, receiver.mode(before), Signal::Gap);
            bus.phase = Phase::Delivering { sender: other, signal: Signal::Gap, receiver: own };
            let report = Report::Drop { left: reading(before) };
            assert_eq!(bus.step(&pass()), Ok(Some(Reported { node: own, report })));
            assert_eq!(bus.node(own).mode, Mode::Owed);
        }
    }
}

/// "A Gap to Rest is no drop".
#[test]
fn a_gap_to_rest_is_no_drop() {
    for receiver in RECEIVERS {
        for before in ["Opened", "Addressed", "HeadAll", "BodyAll", "TailAll", "TailAll-"] {
            let (mut bus, gap) = handed_in(&receiver, receiver.mode(before), Signal::Gap);
            let reported = bus.step(&gap).unwrap();
            assert_eq!(line(&gap, reported), "11 9 -\n", "{before}");
            assert_eq!(bus.node(receiver.own).mode, Mode::Rest);
        }
    }
}

/// "nor is a Dest of another node met in Addressed"; in the modes after it each Dest is a drop.
#[test]
fn a_dest_of_another_node_is_no_drop() {
    for receiver in RECEIVERS {
        for other in (0..63).filter(|&other| other != receiver.own) {
            let dest = Signal::Dest(other);
            let (mut bus, pass) = handed_in(&receiver, Mode::Addressed, dest);
            let reported = bus.step(&pass).unwrap();
            assert_eq!(line(&pass, reported), "11 5 -\n", "Dest {other}");
            assert_eq!(bus.node(receiver.own).mode, Mode::Wait);
            let (mut bus, pass) = handed_in(&receiver, Mode::HeadAll, dest);
            let report = Report::Drop { left: Reading::HeadAll };
            assert_eq!(bus.step(&pass), Ok(Some(Reported { node: receiver.own, report })));
        }
    }
}

/// Changed on its way to another node's number it is none either: the node waits, without a report.
#[test]
fn a_dest_changed_to_another_node_is_no_drop() {
    let mut run = case_b();
    run[7] = change(0);
    run.truncate(14);
    run.extend([gap(), gap()]);
    assert_eq!(reports(&printed(2, &run)), ["1 2 0 won", "14 9 0 miss 0"]);
}

/// "Listening drops nothing": it goes to Wait on End and on the ten classes after the line signals.
#[test]
fn listening_drops_nothing() {
    for receiver in RECEIVERS {
        let mut waits = 0;
        for signal in receiver.signals() {
            let (mut bus, action) = handed_in(&receiver, Mode::Listening, signal);
            assert_eq!(bus.step(&action), Ok(None), "{signal:?}");
            waits += usize::from(bus.node(receiver.own).mode == Mode::Wait);
        }
        assert_eq!(waits, 11);
    }
}

#[test]
fn names_are_the_modes() {
    for name in NAMES {
        assert_eq!(reading(name).name(), name);
    }
}

/// "A drop has no label and is no confirmation and no telling".
#[test]
fn a_drop_is_neither_confirmation_nor_telling() {
    for name in NAMES {
        let report = Report::Drop { left: reading(name) };
        assert_eq!(report.word(), "drop");
        assert_eq!(report.label(), None);
        assert!(!report.is_confirmation() && !report.tells());
    }
}

/// Case F, node 2's Dest changed to 2 and node 2 clocked: it is at rest when node 1 acknowledges.
/// The Ack reaches it at 29, and the End or Prefix at 32.
fn overheard(hold: u8, ack: Record) -> Vec<Record> {
    let mut run = vec![labelled(0, 1, 5, 6, 7), arbitrate(0)];
    run.extend([clock(0), pass(), pass()].repeat(6));
    run[10] = change(2);
    run.extend([grant(), grant(), clock(2)]);
    run.push(respond(1, 1, hold));
    run.extend([clock(1), pass(), pass()].repeat(3));
    run[29] = ack;
    run
}

/// "A node that is at Rest while an acknowledgement goes by takes its Start for that of a packet, and
/// reports `drop Addressed` on its End or Prefix": with a bad Ack too, and `drop Opened` without one.
#[test]
fn a_third_node_overhears_an_acknowledgement() {
    for hold in [0, 1] {
        for (ack, dropped) in [
            (pass(), "32 5 2 drop Addressed"),
            (change(0), "32 5 2 drop Addressed"),
            (lose(), "32 5 2 drop Opened"),
        ] {
            let run = overheard(hold, ack);
            let expected = [
                "1 2 0 won",
                "13 5 2 drop HeadOwn",
                "18 5 1 good 5 6 7",
                "31 5 0 ack 1 7",
                dropped,
            ];
            assert_eq!(reports(&printed(3, &run)), expected);
            assert_eq!(after(3, &run).node(2).mode, Mode::Wait);
        }
    }
}

/// A node that waits hears the same acknowledgement without a drop, and so does one that listens
/// before the reply begins.
#[test]
fn who_does_not_read_drops_nothing() {
    let mut run = vec![labelled(0, 1, 5, 6, 7), arbitrate(0)];
    run.extend([clock(0), pass(), pass()].repeat(6));
    run.extend([grant(), respond(1, 1, 1)]);
    run.extend([clock(1), pass(), pass()].repeat(4));
    let expected = ["1 2 0 won", "18 5 1 good 5 6 7", "29 5 0 ack 1 7"];
    assert_eq!(reports(&printed(3, &run)), expected);
}

/// A packet to all nodes is dropped by each node for itself, in the mode that it was in.
#[test]
fn each_node_drops_for_itself() {
    let mut run = vec![labelled(0, 63, 1, 2, 9), arbitrate(0)];
    run.extend([clock(0), pass(), pass(), pass(), pass()].repeat(6));
    // Node 1 loses the Header, node 2 the Data; node 3's data are bad.
    run[18] = lose();
    run[24] = lose();
    run[25] = change(0);
    let expected = [
        "1 2 0 won",
        "23 5 1 drop HeadAll",
        "27 4 0 sent 9",
        "29 5 2 drop BodyAll",
        "30 5 3 drop TailAll",
        "31 5 4 broad 1 2 9",
    ];
    assert_eq!(reports(&printed(5, &run)), expected);
    // With bad data a node rests, as the one that was told: it may arbitrate before the gap.
    let bus = after(5, &run);
    let modes = [Mode::Rest, Mode::Wait, Mode::Wait, Mode::Rest, Mode::Rest];
    assert_eq!([0, 1, 2, 3, 4].map(|node| bus.node(node).mode), modes);
}

/// The drops that runs meet are named by the modes and classes that the chart has.
#[test]
fn drops_of_runs_are_drops_of_the_chart() {
    let mut names = Vec::new();
    for (before, answers) in rows() {
        let mode = match before.strip_suffix('-') {
            Some(name) => format!("{name} bad"),
            None if before.starts_with("Tail") => format!("{before} good"),
            None => before.to_string(),
        };
        for (class, answer) in CLASSES.iter().zip(answers) {
            if answer.report == Some("drop") {
                names.push(format!("{mode} on {class}"));
            }
        }
    }
    assert_eq!(names.len(), 109);
    assert!(DROPS.iter().all(|drop| names.iter().any(|name| name == drop)));
}

/// Runs made as for `compare`, watched: they meet all these drops, and no others.
#[test]
fn made_runs_meet_them() {
    let mut tally = Tally::new();
    for index in 0..400 {
        let case = Way::OpenOf(200).make(&mut Random::of(4, index));
        let mut watch = Watch::new(Bus::fresh(case.n).unwrap());
        for record in &case.records {
            let before = watch.bus.clone();
            let reported = watch.step(record).unwrap().unwrap();
            tally.enter_action(&before, record, reported, &watch.bus);
        }
    }
    let missing = tally.missing();
    assert!(!missing.iter().any(|name| name.starts_with("drops by")), "{missing:?}");
}
