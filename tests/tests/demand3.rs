//! The watch on demand 3 sees what it should, and passes what it should; the walk; the generators.

mod common;

use bench_model::bus::{Bus, Head, Mode, Phase, Record, Signal};
use bench_model::harness::forward::{self, Choice};
use bench_model::harness::generate::{self, Kind};
use bench_model::harness::random::Random;
use bench_model::harness::walk;
use bench_model::harness::watch::Watch;
use bench_model::harness::ways::{End, Way};
use bench_model::player;
use common::*;

fn watched(n: u8, records: &[Record]) -> Result<Watch, String> {
    let mut watch = Watch::new(Bus::fresh(n).unwrap());
    watch.look()?;
    for record in records {
        let _ = watch.step(record)?;
    }
    Ok(watch)
}

#[test]
fn marked_cases_pass() {
    let mut run = case_b();
    watched(2, &run).unwrap();
    run = case_b_labelled();
    watched(2, &run).unwrap();
    run[9] = lose();
    // Most of what follows is refused now, and is played all the same.
    watched(2, &run).unwrap();
    watched(2, &[]).unwrap();
    watched(63, &[Record::default(); 3]).unwrap();
}

/// One reply after each win; with the next win the count begins again.
#[test]
fn replies_pass() {
    let watch = watched(2, &[replied(), vec![reset()], replied()].concat()).unwrap();
    assert_eq!(watch.bus.phase, Phase::Idle);
}

#[test]
fn a_node_that_does_not_rest_is_seen() {
    let mut watch = watched(2, &case_b()).unwrap();
    watch.bus.nodes[1].mode = Mode::Wait;
    assert!(watch.look().unwrap_err().contains("does not rest"));
}

/// "an Idle bus may have nodes in Rest or Asked"
#[test]
fn nodes_that_are_asked_on_an_idle_bus_pass() {
    let watch = watched(3, &[request(0, 1, 5, 6), request(2, 1, 5, 6), ask(2), ask(0)]).unwrap();
    assert_eq!(watch.bus.phase, Phase::Idle);
    assert_eq!(watch.bus.asked().collect::<Vec<_>>(), [0, 2]);
}

#[test]
fn an_asked_node_without_a_packet_is_seen() {
    let mut watch = watched(2, &case_b()).unwrap();
    watch.bus.nodes[1].mode = Mode::Asked;
    assert!(watch.look().unwrap_err().contains("is Asked, and its buffer is empty"));
}

#[test]
fn a_mark_on_an_idle_bus_is_seen() {
    let mut watch = watched(2, &replied()).unwrap();
    watch.bus.concatenated = true;
    assert!(watch.look().unwrap_err().contains("mark of a reply"));
}

#[test]
fn a_second_reply_is_seen() {
    let mut watch = watched(2, &replied()[..36]).unwrap();
    // Without its mark the bus lets node 0 hold too.
    watch.bus.concatenated = false;
    watch.step(&respond(0, 2, 1)).unwrap().unwrap();
    for record in [clock(0), pass()].repeat(3) {
        watch.step(&record).unwrap().unwrap();
    }
    assert!(watch.step(&request(0, 1, 8, 9)).unwrap_err().contains("second reply"));
}

#[test]
fn a_lost_buffer_is_seen() {
    let mut watch = watched(2, &[request(0, 1, 5, 6)]).unwrap();
    watch.bus.nodes[0].buffer = Some(packet(1, 5, 7, 0));
    assert!(watch.look().unwrap_err().contains("buffer"));
    watch.bus.nodes[0].buffer = Some(packet(1, 5, 6, 1));
    assert!(watch.look().unwrap_err().contains("buffer"));
    watch.bus.nodes[0].buffer = None;
    assert!(watch.look().unwrap_err().contains("buffer"));
}

#[test]
fn a_dead_end_is_seen() {
    let mut watch = watched(2, &case_b()[..2]).unwrap();
    watch.bus.holder.clear(0);
    assert!(watch.look().unwrap_err().contains("no forward action"));
}

#[test]
fn a_missing_confirmation_is_seen() {
    let mut watch = watched(2, &case_b()[..22]).unwrap();
    watch.bus.phase = Phase::Idle;
    watch.bus.nodes[0].mode = Mode::Rest;
    watch.look().unwrap();
    let mut watch = watched(2, &case_b()[..20]).unwrap();
    watch.bus = Bus::fresh(2).unwrap();
    assert!(watch.look().unwrap_err().contains("confirmation"));
}

#[test]
fn a_second_confirmation_is_seen() {
    let mut watch = watched(2, &case_b()[..22]).unwrap();
    watch.bus.nodes[0].mode = Mode::AwaitAck;
    watch.step(&gap()).unwrap().unwrap();
    assert!(watch.step(&gap()).unwrap_err().contains("confirmation"));
}

/// Case B with label 7, up to where node 0 waits for the End of its acknowledgement.
fn before_ack() -> Watch {
    watched(2, &case_b_labelled()[..21]).unwrap()
}

#[test]
fn a_false_acknowledgement_is_seen() {
    // Another number than the user gave.
    let mut watch = before_ack();
    watch.bus.nodes[0].mode = Mode::AckEnd { good: Some(2) };
    assert!(watch.step(&pass()).unwrap_err().contains("the respond is"));
    // Never told.
    let mut watch = watched(2, &case_b()[..13]).unwrap();
    watch.bus.nodes[0].mode = Mode::AckEnd { good: Some(1) };
    watch.bus.phase = Phase::Delivering { sender: 1, signal: Signal::End, receiver: 0 };
    assert!(watch.step(&pass()).unwrap_err().contains("0 times told"));
    // Told of another packet.
    let mut watch = watched(2, &case_b()[..13]).unwrap();
    watch.bus.nodes[1].mode = Mode::TailOwn { head: Head { header: 5, label: 0 }, data: Some(7) };
    for record in &case_b()[13..21] {
        watch.step(record).unwrap().unwrap();
    }
    assert!(watch.step(&pass()).unwrap_err().contains("not of the packet"));
    // Told, and nobody responded.
    let mut watch = watched(2, &case_b()[..15]).unwrap();
    watch.bus.nodes[1].mode = Mode::Acking { step: 0, ack: 1, hold: false };
    for record in &case_b()[16..21] {
        watch.step(record).unwrap().unwrap();
    }
    assert!(watch.step(&pass()).unwrap_err().contains("0 responds"));
    // As it should be.
    before_ack().step(&pass()).unwrap().unwrap();
}

/// The same of a reply: it belongs to node 1's request, and node 0 must have been told of it.
#[test]
fn a_false_acknowledgement_of_a_reply_is_seen() {
    let before_ack = || watched(2, &replied()[..42]).unwrap();
    let mut watch = before_ack();
    watch.bus.nodes[1].mode = Mode::AckEnd { good: Some(1) };
    assert!(watch.step(&pass()).unwrap_err().contains("the respond is"));
    // Told of another packet: of the request that it answers.
    let mut watch = watched(2, &replied()[..34]).unwrap();
    watch.bus.nodes[0].mode = Mode::TailOwn { head: Head { header: 5, label: 7 }, data: Some(6) };
    for record in &replied()[34..42] {
        watch.step(record).unwrap().unwrap();
    }
    assert!(watch.step(&pass()).unwrap_err().contains("not of the packet"));
    // Never told of the reply.
    let mut watch = watched(2, &replied()[..34]).unwrap();
    watch.bus.nodes[1].mode = Mode::AckEnd { good: Some(1) };
    watch.bus.phase = Phase::Delivering { sender: 0, signal: Signal::End, receiver: 1 };
    assert!(watch.step(&pass()).unwrap_err().contains("0 times told"));
    // As it should be.
    before_ack().step(&pass()).unwrap().unwrap();
}

/// "the told report before an `ack a`, bears the label of its own request": good and dcrc, of a
/// request and of a reply.
#[test]
fn a_told_report_with_another_label_is_seen() {
    // The run, the action by which the node is told, and of what.
    for (run, told, node, own) in
        [(case_b_labelled(), 13, 1, packet(1, 5, 6, 7)), (replied(), 34, 0, packet(0, 3, 4, 9))]
    {
        for data in [Some(own.data), None] {
            let at_ack = |label| {
                let mut watch = watched(2, &run[..told]).unwrap();
                let head = Head { label, ..own.head };
                watch.bus.nodes[node].mode = Mode::TailOwn { head, data };
                for record in &run[told..told + 8] {
                    watch.step(record).unwrap().unwrap();
                }
                watch.step(&pass())
            };
            at_ack(own.head.label).unwrap().unwrap();
            // The others' among them.
            for other in [0, 16 - own.head.label, 63] {
                assert!(at_ack(other).unwrap_err().contains("not of the packet"));
            }
        }
    }
}

/// "A confirmation […] bears the label of its own request": each of the three kinds.
#[test]
fn a_confirmation_with_another_label_is_seen() {
    let mut all = case_b_labelled();
    all[0] = labelled(0, 63, 5, 6, 7);
    let mut missed = case_b_labelled();
    missed[19] = lose();
    // The run, the action that reports, the node and its own label.
    for (run, place, node, own) in [
        (all, 12, 0, 7),
        (case_b_labelled(), 21, 0, 7),
        (missed, 21, 0, 7),
        (held(), 21, 0, 7),
        (replied(), 42, 1, 9),
    ] {
        watched(2, &run[..=place]).unwrap();
        for other in [0, 16 - own, 63] {
            let mut watch = watched(2, &run[..place]).unwrap();
            watch.bus.nodes[node].sending.head.label = other;
            let why = watch.step(&run[place]).unwrap_err();
            assert!(why.contains(&format!("its request has label {own}")), "{why}");
        }
    }
}

/// Case B with label 7, the Header lost to node 1, up to where it has dropped the packet.
fn after_drop() -> Watch {
    let mut run = case_b_labelled();
    run[9] = lose();
    watched(2, &run[..12]).unwrap()
}

/// What the addressed node has dropped since the request started is not acknowledged.
#[test]
fn an_acknowledgement_of_what_was_dropped_is_seen() {
    let head = Head { header: 5, label: 7 };
    let mut watch = after_drop();
    watch.bus.nodes[1].mode = Mode::TailOwn { head, data: Some(6) };
    for record in &case_b_labelled()[12..21] {
        watch.step(record).unwrap().unwrap();
    }
    assert!(watch.step(&pass()).unwrap_err().contains("dropped in HeadOwn"));
    // The same of a reply.
    let mut run = replied();
    run[32] = lose();
    let mut watch = watched(2, &run[..35]).unwrap();
    watch.bus.nodes[0].mode = Mode::TailOwn { head: Head { header: 3, label: 9 }, data: Some(4) };
    watch.bus.phase = Phase::Delivering { sender: 1, signal: Signal::End, receiver: 0 };
    for record in &replied()[34..42] {
        watch.step(record).unwrap().unwrap();
    }
    assert!(watch.step(&pass()).unwrap_err().contains("dropped in BodyOwn"));
}

/// A drop of the request before, or of another node, and the confirmation miss are as they should be.
#[test]
fn other_drops_pass() {
    let mut run = case_b_labelled();
    run[9] = lose();
    run.truncate(14);
    run.extend([grant(), clock(1), gap(), gap(), reset()]);
    run.extend(case_b_labelled());
    assert_eq!(watched(2, &run).unwrap().bus.phase, Phase::Idle);
    let expected = [
        "1 2 0 won",
        "11 5 1 drop HeadOwn",
        "16 9 0 miss 7",
        "20 2 0 won",
        "32 5 1 good 5 6 7",
        "40 5 0 ack 1 7",
    ];
    assert_eq!(reports(&printed(2, &run)), expected);
    // Case F: node 2 drops twice before node 0's `ack`, of which it is told nothing.
    let mut run = vec![labelled(0, 1, 5, 6, 7), arbitrate(0)];
    run.extend([clock(0), pass(), pass()].repeat(6));
    run[10] = change(2);
    run.extend([grant(), grant(), clock(2), respond(1, 3, 0)]);
    run.extend([clock(1), pass(), pass()].repeat(3));
    run.extend([gap(), gap(), gap()]);
    assert_eq!(watched(3, &run).unwrap().bus.phase, Phase::Idle);
}

/// A request from Holding starts at once; one in the buffer meanwhile starts with `won`.
#[test]
fn starts_at_once_or_with_won() {
    let mut run = vec![labelled(1, 0, 8, 9, 11)];
    run.extend(replied());
    run.push(arbitrate(1));
    run.extend([clock(1), pass()].repeat(6));
    run.extend([grant(), respond(0, 9, 0)]);
    run.extend([clock(0), pass()].repeat(3));
    run.extend([gap(), gap()]);
    let watch = watched(2, &run).unwrap();
    assert_eq!(watch.bus.phase, Phase::Idle);
    let expected = [
        "2 2 0 won",
        "14 5 1 good 5 6 7",
        "22 5 0 ack 1 7",
        "35 5 0 good 3 4 9",
        "43 5 1 ack 2 9",
        "46 2 1 won",
        "58 5 0 good 8 9 11",
        "66 5 1 ack 9 11",
    ];
    assert_eq!(reports(&printed(2, &run)), expected);
}

#[test]
fn the_longest_way_is_22n() {
    let text = walk::walk(2).unwrap();
    assert!(text.ends_with("longest way of forward actions to Idle 44, bound 46\n"), "{text}");
    assert!(text.contains("n = 2: 860 states, "), "{text}");
    assert!(text.contains("54 of 350 cells met, 11 of them drops"), "{text}");
    assert!(text.contains("up to 1 Asked at once"), "{text}");
    let text = walk::walk(3).unwrap();
    assert!(text.ends_with("longest way of forward actions to Idle 66, bound 68\n"), "{text}");
    assert!(text.contains("n = 3: 6736 states, "), "{text}");
    assert!(text.contains("63 of 350 cells met, 15 of them drops"), "{text}");
    assert!(text.contains("up to 2 Asked at once"), "{text}");
}

/// How many forward actions a long continuation takes to Idle.
fn longest_from(mut watch: Watch) -> usize {
    let mut random = Random::new(7);
    let mut taken = 0;
    while watch.bus.phase != Phase::Idle {
        assert!(taken < walk::bound(watch.bus.n) as usize, "not idle after {taken}");
        let action = forward::choose(&watch.bus, Choice::Longest, &mut random).unwrap();
        watch.step(&action.into()).unwrap().unwrap();
        taken += 1;
    }
    taken
}

/// From the win of a request to another node: 21n + 1, and a decision more for each of the other nodes
/// that has asked. With all of them that is over 21n + 2 from n = 3 on.
#[test]
fn the_longest_continuation_is_22n() {
    for n in [2, 3, 8, 63] {
        let won = [request(0, 1, 5, 6), arbitrate(0)];
        assert_eq!(longest_from(watched(n, &won).unwrap()), 21 * usize::from(n) + 1);
        let mut run = vec![request(0, 1, 5, 6)];
        run.extend((1..n).map(|node| request(node, 0, 7, 8)));
        run.extend((0..n).map(ask));
        run.push(decide(0));
        let taken = longest_from(watched(n, &run).unwrap());
        assert_eq!(taken, 22 * usize::from(n));
        assert_eq!(taken > 21 * usize::from(n) + 2, n > 2);
    }
}

#[test]
fn generated_files_play_to_their_end() {
    for kind in [Kind::Mixed, Kind::Broadcast, Kind::Transaction] {
        for n in [2, 3, 63] {
            for actions in [1, 31, 62, 63, 5000] {
                let mut file = Vec::new();
                generate::generate(kind, n, actions, 5, &mut file).unwrap();
                let text = String::from_utf8(player::play_file(&file)).unwrap();
                assert!(text.starts_with(&format!("nodes {n}\n")));
                assert!(text.ends_with(&format!("\ndone {actions}\n")), "{kind:?} {n} {actions}");
            }
        }
    }
}

/// Each way of making a file ends as it must, once.
#[test]
fn every_way_ends_as_it_must() {
    for (index, way) in (0..).zip(Way::all()) {
        let case = way.make(&mut Random::of(3, index));
        let text = String::from_utf8(player::play_file(&case.bytes)).unwrap();
        let last = text.lines().next_back().unwrap();
        match case.end {
            End::Done { accepted } => assert_eq!(last, format!("done {accepted}"), "{way}"),
            End::Refused { accepted, number } => {
                assert_eq!(last, format!("refused {accepted} {number}"), "{way}")
            }
            End::Either => (),
        }
    }
}

/// Up to an action that is refused the lines are those of the file without it and what comes after.
#[test]
fn lines_before_a_refused_action() {
    for (index, way) in (0..).zip(Way::all()) {
        let case = way.make(&mut Random::of(4, index));
        let End::Refused { accepted, number } = case.end else {
            continue;
        };
        if accepted == 0 || matches!(way, Way::Damaged(_)) {
            continue;
        }
        let without = printed_file(&any_file(case.n, &case.records[..accepted]));
        let lines = without.strip_suffix(&format!("done {accepted}\n")).expect("all are open");
        let expected = format!("{lines}refused {accepted} {number}\n");
        assert_eq!(printed_file(&case.bytes), expected, "{way}");
    }
}
