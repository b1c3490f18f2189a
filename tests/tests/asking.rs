//! Asking and deciding as two moves (request 6): kinds 11 and 12 in each mode and phase, what a node
//! that is Asked keeps closed, contention, and the numbers.

mod common;

use bench_model::bus::{Bus, Check, Head, Mode, Node, Phase, Record, Report, Reported, Signal};
use bench_model::harness::asking::does_both;
use bench_model::harness::watch::Watch;
use bench_model::runfile;
use common::chart::{rows, Receiver, RECEIVERS};
use common::*;

fn said(node: u8, report: Report) -> Option<Reported> {
    Some(Reported { node, report })
}

fn play(bus: &mut Bus, records: &[Record]) -> Vec<Option<Reported>> {
    records.iter().map(|record| bus.step(record).expect("open")).collect()
}

/// What a step says where it is refused; the state stays.
fn refused(bus: &Bus, record: Record) -> u8 {
    let mut after = bus.clone();
    let refusal = after.step(&record).expect_err("a refusal");
    assert_eq!(&after, bus);
    refusal.number()
}

const PHASES: [Phase; 6] = [
    Phase::Idle,
    Phase::Busy,
    Phase::Delivering { sender: 0, signal: Signal::Start, receiver: 1 },
    Phase::Delivering { sender: 0, signal: Signal::Dest(1), receiver: 2 },
    Phase::Granting,
    Phase::Gapping { node: 1 },
];

/// The packet that waits at node 1.
const WAITING: (u8, u32, u32, u8) = (0, 5, 6, 7);

/// A bus of three in this phase whose node 1 has a packet waiting and is in this mode.
fn handed_in(phase: Phase, mode: Mode) -> Bus {
    let mut bus = Bus { phase, ..Bus::fresh(3).unwrap() };
    let (address, header, data, label) = WAITING;
    bus.nodes[1].mode = mode;
    bus.nodes[1].buffer = Some(packet(address, header, data, label));
    bus.nodes[1].sending = packet(2, 8, 9, 10);
    bus
}

/// "in Rest with a full buffer → Asked […]; any bus": the mode, and nothing else.
#[test]
fn ask_in_each_phase() {
    for phase in PHASES {
        for won in [false, true] {
            let mut bus = handed_in(phase, Mode::Rest);
            if won {
                bus.won.set(1);
            }
            let mut expected = bus.clone();
            expected.nodes[1].mode = Mode::Asked;
            assert_eq!(bus.step(&ask(1)), Ok(None));
            assert_eq!(bus, expected, "{phase:?}");
        }
    }
}

/// In every other mode, and with an empty buffer, 7; decide in every other mode too.
#[test]
fn ask_and_decide_in_each_mode() {
    for phase in PHASES {
        for receiver in RECEIVERS {
            for (name, _) in rows() {
                let full = handed_in(phase, receiver.mode(name));
                let mut empty = full.clone();
                empty.nodes[1].buffer = None;
                let open = |bus: &Bus, record| bus.clone().step(&record).is_ok();
                assert_eq!(open(&full, ask(1)), name == "Rest", "{name}");
                assert_eq!(open(&full, arbitrate(1)), name == "Rest", "{name}");
                assert_eq!(open(&full, decide(1)), name == "Asked", "{name}");
                for record in [ask(1), arbitrate(1), decide(1)] {
                    assert_eq!(refused(&empty, record), 7, "{name}, an empty buffer");
                }
                let requests =
                    [open(&full, request(1, 0, 0, 0)), open(&empty, request(1, 0, 0, 0))];
                let expected = [name == "Holding", name == "Holding" || name == "Rest"];
                assert_eq!(requests, expected, "{name}");
            }
        }
    }
}

/// "decided as kind 2 decides, won or lost; a loser returns to Rest"
#[test]
fn decide_in_each_phase() {
    let (address, header, data, label) = WAITING;
    let waiting = packet(address, header, data, label);
    for phase in PHASES {
        for marked in [false, true] {
            let mut bus = handed_in(phase, Mode::Asked);
            // Another node's marks do not count.
            (bus.won.0, bus.holder.0, bus.pending.0, bus.misled.0) = (0b101, 0b100, 0b100, 0b100);
            if marked {
                bus.won.set(1);
            }
            let mut expected = bus.clone();
            let wins = phase == Phase::Idle && !marked;
            if wins {
                expected.won.set(1);
                expected.holder.set(1);
                expected.phase = Phase::Busy;
                expected.nodes[1] =
                    Node { mode: Mode::Sending { step: 0 }, buffer: None, sending: waiting };
            } else {
                expected.nodes[1].mode = Mode::Rest;
            }
            let report = if wins { Report::Won } else { Report::Lost };
            assert_eq!(bus.step(&decide(1)), Ok(said(1, report)), "{phase:?}, {marked}");
            assert_eq!(bus, expected, "{phase:?}, {marked}");
        }
    }
}

/// "Kind 2 goes on doing both".
#[test]
fn arbitrate_is_ask_and_decide() {
    for phase in PHASES {
        for marks in 0..8 {
            let mut bus = handed_in(phase, Mode::Rest);
            bus.won.0 = marks;
            // Whether or not another node is Asked.
            for other in [Mode::Rest, Mode::Asked] {
                bus.nodes[2].mode = other;
                assert_eq!(does_both(&bus, 1), Some(Ok(())), "{phase:?}, {marks}, {other:?}");
            }
        }
    }
    assert_eq!(does_both(&handed_in(Phase::Idle, Mode::Asked), 1), None, "arbitrate is not open");
}

/// A bus of four, node 0 the only holder, with each signal under way, and an action of each kind from
/// 4 to 10 that is open on it.
fn open_of_each_kind() -> Vec<(Bus, Record)> {
    let bus = |phase, mode| {
        let mut bus = Bus { phase, ..Bus::fresh(4).unwrap() };
        bus.holder.set(0);
        bus.won.set(0);
        bus.nodes[0].mode = mode;
        bus
    };
    let head = Head { header: 5, label: 7 };
    let mut all = Vec::new();
    for mode in [
        Mode::Sending { step: 0 },
        Mode::Sending { step: 5 },
        Mode::Answering,
        Mode::Acking { step: 0, ack: 1, hold: false },
        Mode::Acking { step: 2, ack: 1, hold: true },
        Mode::Holding,
        Mode::Spurious,
    ] {
        all.push((bus(Phase::Busy, mode), clock(0)));
    }
    for signal in [
        Signal::Start,
        Signal::End,
        Signal::Prefix,
        Signal::Dhead,
        Signal::Dest(1),
        Signal::Header(head, Check::Good),
        Signal::Data(6, Check::Good),
        Signal::Ack(1, Check::Good),
    ] {
        let under_way = bus(Phase::Delivering { sender: 0, signal, receiver: 1 }, Mode::Answering);
        all.push((under_way.clone(), pass()));
        if let Signal::Dest(_) = signal {
            all.extend([0, 2, 63].map(|address| (under_way.clone(), change(address))));
        }
        if signal.carries_check() {
            all.extend([lose(), change(0)].map(|record| (under_way.clone(), record)));
        }
    }
    all.push((bus(Phase::Granting, Mode::AwaitAck), grant()));
    all.extend([0, 3].map(|node| (bus(Phase::Gapping { node }, Mode::Rest), gap())));
    all.push((bus(Phase::Idle, Mode::Rest), reset()));
    all
}

/// "While a node is Asked, kinds 4 to 10 are not open": whichever of the nodes below n it is, with a
/// full buffer or an empty one, and whether or not the action is about it.
#[test]
fn kinds_4_to_10_wait_for_each_node_that_is_asked() {
    let cases = open_of_each_kind();
    let mut kinds: Vec<u8> = cases.iter().map(|(_, record)| record.kind).collect();
    kinds.sort();
    kinds.dedup();
    assert_eq!(kinds, [4, 5, 6, 7, 8, 9, 10]);
    for (bus, record) in cases {
        assert!(bus.clone().step(&record).is_ok(), "{record:?} on {:?}", bus.phase);
        for asked in [&[1][..], &[2], &[3], &[1, 2], &[2, 3], &[1, 2, 3]] {
            for buffer in [None, Some(packet(63, 1, 2, 3))] {
                let mut bus = bus.clone();
                for &node in asked {
                    bus.nodes[node].mode = Mode::Asked;
                    bus.nodes[node].buffer = buffer;
                }
                assert_eq!(refused(&bus, record), 7, "{record:?} with {asked:?} Asked");
                // Decided, all is as it was. On an Idle bus the first of them would win.
                if buffer.is_some() && bus.phase != Phase::Idle {
                    let mut decided = bus.clone();
                    let lost = |&node: &usize| {
                        let report = decided.step(&decide(node as u8));
                        assert_eq!(report, Ok(said(node as u8, Report::Lost)));
                    };
                    asked.iter().for_each(lost);
                    assert!(decided.step(&record).is_ok());
                }
            }
        }
    }
    // Node 0 too, where it is not the one that acts.
    let mut bus = Bus { phase: Phase::Granting, ..Bus::fresh(4).unwrap() };
    bus.nodes[0].mode = Mode::Asked;
    assert_eq!(refused(&bus, grant()), 7);
}

/// "Records and marks of nodes from n on are neither read nor changed".
#[test]
fn a_node_from_n_on_keeps_nothing_closed() {
    for (bus, record) in open_of_each_kind() {
        let mut beyond = bus.clone();
        for node in &mut beyond.nodes[4..] {
            node.mode = Mode::Asked;
            node.buffer = Some(packet(200, 0, 0, 200));
        }
        let (mut here, mut there) = (bus, beyond.clone());
        assert_eq!(there.step(&record), here.step(&record), "{record:?}");
        assert_eq!(there.nodes[..4], here.nodes[..4]);
        assert_eq!(there.nodes[4..], beyond.nodes[4..]);
        assert_eq!(there.phase, here.phase);
    }
}

/// Kinds 1, 2, 3, 11 and 12 "are as ever" while another node is Asked.
#[test]
fn kinds_1_2_3_11_and_12_do_not_wait() {
    let mut bus = Bus { phase: Phase::Busy, ..Bus::fresh(5).unwrap() };
    bus.nodes[0].mode = Mode::Asked;
    bus.nodes[0].buffer = Some(packet(1, 0, 0, 0));
    bus.nodes[1].mode = Mode::Answering;
    bus.nodes[2].mode = Mode::Holding;
    bus.nodes[3].buffer = Some(packet(0, 0, 0, 0));
    for (record, report) in [
        (request(4, 0, 5, 6), None),
        (request(2, 0, 5, 6), None),
        (arbitrate(3), said(3, Report::Lost)),
        (respond(1, 3, 1), None),
        (ask(3), None),
        (decide(0), said(0, Report::Lost)),
    ] {
        assert_eq!(bus.clone().step(&record), Ok(report), "{record:?}");
    }
    // On an Idle bus another node wins by arbitrate; the one that is Asked keeps its packet, and loses.
    let run = [request(0, 1, 5, 6), request(1, 0, 7, 8), ask(0), arbitrate(1)];
    let mut bus = after(2, &run);
    assert!(bus.won.only(1, 2) && bus.holder.only(1, 2));
    assert_eq!(refused(&bus, clock(1)), 7);
    assert_eq!(play(&mut bus, &[decide(0), clock(1)]), [said(0, Report::Lost), None]);
    assert_eq!(bus.nodes[0].buffer, Some(packet(1, 5, 6, 0)));
}

/// The order of the numbers for kinds 11 and 12, on buses where they are open and where they are not.
#[test]
fn numbers_in_their_order() {
    let waiting = after(2, &[request(1, 0, 0, 0)]);
    let asked = after(2, &[request(1, 0, 0, 0), ask(1)]);
    for bus in [&waiting, &asked, &Bus::fresh(2).unwrap()] {
        for record in [ask(1), decide(1)] {
            let no_state = Bus { n: 64, ..bus.clone() };
            let all = Record { node: 2, address: 2, ack: 16, hold: 2, label: 64, ..record };
            assert_eq!(refused(&no_state, Record { kind: 13, ..all }), 12);
            assert_eq!(refused(bus, Record { kind: 13, ..all }), 2);
            assert_eq!(refused(bus, Record { kind: 255, ..all }), 2);
            assert_eq!(refused(bus, all), 3);
            for other in [
                Record { address: 63, ..record },
                Record { ack: 1, ..record },
                Record { hold: 1, ..record },
                Record { label: 1, ..record },
                Record { zeros: [1, 0], ..record },
                Record { zeros: [0, 1], ..record },
                Record { header: 1, ..record },
                Record { data: 1 << 31, ..record },
            ] {
                assert_eq!(refused(bus, other), 3);
                assert_eq!(refused(bus, Record { node: 2, ..other }), 3);
            }
            for node in [2, 62, 63, 255] {
                assert_eq!(refused(bus, Record { node, ..record }), 4);
            }
        }
    }
    assert_eq!(refused(&waiting, decide(1)), 7, "in Rest");
    assert_eq!(refused(&waiting, ask(0)), 7, "an empty buffer");
    assert_eq!(refused(&asked, ask(1)), 7, "Asked already");
    assert_eq!(refused(&asked, arbitrate(1)), 7);
    assert_eq!(refused(&asked, request(1, 0, 0, 0)), 7);
    assert_eq!(refused(&asked, respond(1, 0, 0)), 7);
    assert_eq!(refused(&asked, decide(0)), 7);
    // The fields of kinds 4 to 10 are looked at before that.
    assert_eq!(refused(&asked, clock(2)), 4);
    assert_eq!(refused(&asked, change(2)), 5);
    assert_eq!(refused(&asked, Record { node: 1, ..pass() }), 3);
}

/// In a file: kinds 13 and 255 are 2, and the two new ones print as the others do.
#[test]
fn printed_runs() {
    let text = printed(2, &[request(1, 0, 5, 6), ask(1), decide(1), clock(1)]);
    assert_eq!(text, "nodes 2\n0 1 -\n1 11 -\n2 12 1 won\n3 4 -\ndone 4\n");
    let text = printed(2, &[request(1, 0, 5, 6), ask(1), reset()]);
    assert_eq!(text, "nodes 2\n0 1 -\n1 11 -\nrefused 2 7\n");
    for kind in [13, 255] {
        let mut block = [0; runfile::BLOCK];
        let wrong = Record { kind, ..ask(1) };
        runfile::write_unchecked(&mut block, 0, 2, &[request(1, 0, 5, 6), wrong]);
        assert_eq!(printed_file(&block), "nodes 2\n0 1 -\nrefused 1 2\n");
    }
    for kind in [11, 12] {
        let mut block = [0; runfile::BLOCK];
        let record = Record { kind, node: 1, ..Record::default() };
        for (wrong, number) in
            [(Record { hold: 1, ..record }, 3), (Record { node: 2, ..record }, 4), (decide(0), 7)]
        {
            runfile::write_unchecked(&mut block, 0, 2, &[request(1, 0, 5, 6), wrong]);
            assert_eq!(printed_file(&block), format!("nodes 2\n0 1 -\nrefused 1 {number}\n"));
        }
    }
}

/// Two nodes ask; whoever is decided first wins, and the loser hears the winner's packet.
#[test]
fn two_nodes_contend() {
    for (first, second) in [(0, 1), (1, 0)] {
        let mut run = vec![request(0, 63, 1, 2), request(1, 63, 3, 4), ask(0), ask(1)];
        run.extend([decide(first), decide(second)]);
        let mut bus = after(2, &run);
        assert!(bus.won.only(first, 2) && bus.holder.only(first, 2));
        let loser = bus.nodes[usize::from(second)];
        assert_eq!(loser.mode, Mode::Rest);
        assert!(loser.buffer.is_some());
        play(&mut bus, &[clock(first), pass()]);
        assert_eq!(bus.nodes[usize::from(second)].mode, Mode::Opened);
        assert_eq!(bus.nodes[usize::from(second)].buffer, loser.buffer);
        let reports = play(&mut bus, &[clock(first), pass()].repeat(5));
        let (header, data) = if first == 0 { (1, 2) } else { (3, 4) };
        let head = Head { header, label: 0 };
        assert_eq!(reports[8], said(first, Report::Sent { label: 0 }));
        assert_eq!(reports[9], said(second, Report::Broad { head, data }));
        // The other one's turn: the winner, if it asks again, has won in this interval.
        play(&mut bus, &[gap(), gap(), request(first, 63, 5, 6), ask(first), ask(second)]);
        let reports = play(&mut bus, &[decide(first), decide(second)]);
        assert_eq!(reports, [said(first, Report::Lost), said(second, Report::Won)]);
    }
}

/// Three nodes, in every order of asking and of deciding: the first decided wins, the others lose.
#[test]
fn three_nodes_contend() {
    let orders = [[0, 1, 2], [0, 2, 1], [1, 0, 2], [1, 2, 0], [2, 0, 1], [2, 1, 0]];
    for asking in orders {
        for deciding in orders {
            let mut bus = after(3, &[0, 1, 2].map(|node| request(node, 63, node.into(), 0)));
            assert_eq!(play(&mut bus, &asking.map(ask)), [None; 3]);
            assert_eq!(bus.phase, Phase::Idle);
            let [first, second, third] = deciding;
            let reports = play(&mut bus, &deciding.map(decide));
            let lost = |node| said(node, Report::Lost);
            assert_eq!(reports, [said(first, Report::Won), lost(second), lost(third)]);
            assert_eq!(bus.asked().count(), 0);
            // The state is the same as if the winner alone had arbitrated.
            let mut alone = after(3, &[0, 1, 2].map(|node| request(node, 63, node.into(), 0)));
            play(&mut alone, &[arbitrate(first)]);
            assert_eq!(bus, alone);
        }
    }
}

/// A reset waits for a decision: a node that lost by its mark can ask again after it.
#[test]
fn a_reset_waits_for_the_decision() {
    let mut bus = after(2, &case_b());
    play(&mut bus, &[request(0, 1, 0, 0), ask(0)]);
    assert_eq!(refused(&bus, reset()), 7);
    assert_eq!(play(&mut bus, &[decide(0), reset()]), [said(0, Report::Lost), None]);
    assert_eq!(play(&mut bus, &[ask(0), decide(0)]), [None, said(0, Report::Won)]);
}

/// Asked while the gaps go round: nothing goes on before the decision, and the node then gets its gap.
#[test]
fn asked_in_the_midst() {
    let mut run = vec![request(1, 0, 7, 8)];
    run.extend(case_b());
    run.truncate(23);
    let mut bus = after(2, &run);
    assert_eq!((bus.phase, bus.nodes[1].mode), (Phase::Gapping { node: 0 }, Mode::Rest));
    play(&mut bus, &[ask(1)]);
    assert_eq!(refused(&bus, gap()), 7);
    assert_eq!(play(&mut bus, &[decide(1), gap()]), [said(1, Report::Lost), None]);
    play(&mut bus, &[ask(1)]);
    assert_eq!(refused(&bus, gap()), 7);
    assert_eq!(play(&mut bus, &[decide(1), gap()]), [said(1, Report::Lost), None]);
    assert_eq!(bus.phase, Phase::Idle);
    // Asked on the idle bus, its packet is the one that it had.
    assert_eq!(play(&mut bus, &[ask(1), decide(1)]), [None, said(1, Report::Won)]);
    assert_eq!(bus.nodes[1].sending, packet(0, 7, 8, 0));
}

/// "Kind 11 is no forward action and kind 12 is one", won or lost.
#[test]
fn forward() {
    let is = |bus: &Bus, record: Record| bus.is_forward(record.look(bus.n).unwrap());
    let waiting = after(2, &[request(0, 1, 0, 0), request(1, 0, 0, 0)]);
    assert!(!is(&waiting, ask(0)) && !is(&waiting, arbitrate(0)));
    let asked = after(2, &[request(0, 1, 0, 0), request(1, 0, 0, 0), ask(0), ask(1)]);
    assert!(is(&asked, decide(0)));
    let mut busy = asked;
    play(&mut busy, &[decide(0)]);
    assert!(is(&busy, decide(1)));
}

/// A packet starts with the `won` of a decide as with that of an arbitrate: its confirmation bears its
/// label, and the loser's waits.
#[test]
fn demand_3_of_a_run_that_asks() {
    let mut run = vec![labelled(0, 1, 5, 6, 7), labelled(1, 0, 8, 9, 11), ask(1), ask(0)];
    run.extend([decide(0), decide(1)]);
    run.extend(&case_b()[2..]);
    run.extend([ask(1), decide(1)]);
    run.extend([clock(1), pass()].repeat(6));
    run.extend([grant(), respond(0, 2, 0)]);
    run.extend([clock(0), pass()].repeat(3));
    run.extend([gap(), gap()]);
    let mut watch = Watch::new(Bus::fresh(2).unwrap());
    for record in &run {
        watch.step(record).unwrap().unwrap();
    }
    assert_eq!(watch.bus.phase, Phase::Idle);
    let expected = [
        "4 12 0 won",
        "5 12 1 lost",
        "17 5 1 good 5 6 7",
        "25 5 0 ack 1 7",
        "29 12 1 won",
        "41 5 0 good 8 9 11",
        "49 5 1 ack 2 11",
    ];
    assert_eq!(reports(&printed(2, &run)), expected);
}

/// A node that is Asked stays on every signal, and no signal reaches it: not on a state handed in
/// either.
#[test]
fn no_signal_reaches_a_node_that_is_asked() {
    for signal in (Receiver { other: 0, ..RECEIVERS[3] }).signals() {
        let phase = Phase::Delivering { sender: 0, signal, receiver: 1 };
        let bus = handed_in(phase, Mode::Asked);
        assert_eq!(bus.nodes[1].receive(1, signal).0, Mode::Asked);
        for record in [pass(), lose(), change(0), change(2)] {
            assert_eq!(refused(&bus, record), 7);
        }
    }
}
