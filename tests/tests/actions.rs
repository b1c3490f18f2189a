//! The first ten actions where the marked cases do not look, and the traps.

mod common;

use bench_model::bus::{
    Bus, Check, Head, Mode, Node, Phase, Reading, Record, Report, Reported, Signal,
};
use common::*;

fn said(node: u8, report: Report) -> Option<Reported> {
    Some(Reported { node, report })
}

fn miss(node: u8, label: u8) -> Option<Reported> {
    said(node, Report::Miss { label })
}

fn dropped(node: u8, left: Reading) -> Option<Reported> {
    said(node, Report::Drop { left })
}

/// Node 1's reply (3, 4), label 9.
const REPLY: Head = Head { header: 3, label: 9 };

fn play(bus: &mut Bus, records: &[Record]) -> Vec<Option<Reported>> {
    records.iter().map(|record| bus.step(record).expect("open")).collect()
}

#[test]
fn arbitrate_is_lost_unless_idle_and_not_won() {
    let mut bus = after(2, &[request(0, 1, 0, 0), request(1, 0, 0, 0)]);
    assert_eq!(bus.step(&arbitrate(1)), Ok(said(1, Report::Won)));
    assert!(bus.won.only(1, 2) && bus.holder.only(1, 2));
    assert_eq!(bus.phase, Phase::Busy);
    assert_eq!(bus.nodes[1].buffer, None);
    assert_eq!(bus.nodes[1].mode, Mode::Sending { step: 0 });
    let before = bus.clone();
    assert_eq!(bus.step(&arbitrate(0)), Ok(said(0, Report::Lost)));
    assert_eq!(bus, before, "nothing changes");

    // Won before, and idle again: lost until a reset.
    let mut bus = after(2, &case_b());
    play(&mut bus, &[request(0, 1, 0, 0)]);
    assert_eq!(bus.step(&arbitrate(0)), Ok(said(0, Report::Lost)));
    play(&mut bus, &[reset()]);
    assert_eq!(bus.step(&arbitrate(0)), Ok(said(0, Report::Won)));
}

#[test]
fn delivering_goes_to_every_other_node_lowest_first() {
    let mut bus = after(4, &[request(2, 63, 0, 0), arbitrate(2), clock(2)]);
    let mut receivers = Vec::new();
    while let Phase::Delivering { sender: 2, signal: Signal::Start, receiver } = bus.phase {
        receivers.push(receiver);
        play(&mut bus, &[pass()]);
    }
    assert_eq!(receivers, [0, 1, 3]);
    assert_eq!(bus.phase, Phase::Busy);
    let modes = [Mode::Opened, Mode::Opened, Mode::Sending { step: 1 }, Mode::Opened];
    assert_eq!([0, 1, 2, 3].map(|node| bus.nodes[node].mode), modes);
}

/// Plays out the packet (5, 6), label 7, that this node sends to itself, from this step on: nobody is
/// told, nobody takes it, and it ends in its miss.
fn play_out(bus: &mut Bus, node: u8, step: usize) {
    let n = usize::from(bus.n);
    let signal = [vec![clock(node)], vec![pass(); n - 1]].concat();
    assert_eq!(play(bus, &signal.repeat(6 - step)), vec![None; n * (6 - step)]);
    assert_eq!(bus.nodes[usize::from(node)].mode, Mode::AwaitAck);
    assert_eq!(bus.phase, Phase::Gapping { node: 0 });
    let mut expected = vec![None; n];
    expected[usize::from(node)] = miss(node, 7);
    assert_eq!(play(bus, &vec![gap(); n]), expected);
    assert_eq!(bus.phase, Phase::Idle);
    assert!((0..n).all(|node| bus.nodes[node].mode == Mode::Rest));
}

/// "A state handed in that already carries such a packet still plays it out": in the buffer of a node
/// in Rest.
#[test]
fn a_packet_to_itself_in_a_buffer_is_missed() {
    for (n, node) in [(2, 0), (2, 1), (3, 0), (3, 1), (3, 2), (63, 62)] {
        let mut waiting = Bus::fresh(n).unwrap();
        waiting.nodes[usize::from(node)].buffer = Some(packet(node, 5, 6, 7));
        let mut bus = waiting.clone();
        assert_eq!(play(&mut bus, &[arbitrate(node)]), [said(node, Report::Won)]);
        play_out(&mut bus, node, 0);
        // By asking, too.
        let mut bus = waiting.clone();
        assert_eq!(play(&mut bus, &[ask(node), decide(node)]), [None, said(node, Report::Won)]);
        play_out(&mut bus, node, 0);
        // Another request finds the buffer full, and to itself it is refused before that.
        let refused = |address| waiting.clone().step(&request(node, address, 0, 0)).unwrap_err();
        assert_eq!([refused(63).number(), refused(node).number()], [7, 15]);
    }
}

/// The same in Sending, at each step.
#[test]
fn a_packet_to_itself_being_sent_is_missed() {
    for (n, node) in [(2, 0), (2, 1), (3, 0), (3, 1), (3, 2)] {
        for step in 0..=5 {
            // Its first signals were put out already, and the others are reading.
            let mut bus = after(n, &[labelled(node, (node + 1) % n, 5, 6, 7), arbitrate(node)]);
            bus.nodes[usize::from(node)].sending.address = node;
            let signal = [vec![clock(node)], vec![pass(); usize::from(n) - 1]].concat();
            play(&mut bus, &signal.repeat(step));
            assert_eq!(bus.nodes[usize::from(node)].mode, Mode::Sending { step: step as u8 });
            assert!(bus.is_state());
            play_out(&mut bus, node, step);
            // The others are in Rest, and stay there without its Start.
            let mut bus = Bus { phase: Phase::Busy, ..Bus::fresh(n).unwrap() };
            bus.holder.set(node);
            let mode = Mode::Sending { step: step as u8 };
            let sending = packet(node, 5, 6, 7);
            bus.nodes[usize::from(node)] = Node { mode, buffer: None, sending };
            play_out(&mut bus, node, step);
        }
    }
}

/// A reply to the node itself that has begun: the requester hears its Start, and nothing for it.
#[test]
fn a_reply_to_itself_is_missed() {
    let mut bus = after(2, &held());
    bus.nodes[1].mode = Mode::Sending { step: 0 };
    bus.nodes[1].sending = packet(1, 5, 6, 7);
    play_out(&mut bus, 1, 0);
    assert!(!bus.concatenated);
    // A request for one is refused, and leaves the node holding the bus.
    let mut bus = after(2, &held());
    assert_eq!(bus.step(&request(1, 1, 5, 6)).unwrap_err().number(), 15);
    assert_eq!(bus, after(2, &held()));
}

#[test]
fn end_ends_the_holding_and_prefix_does_not() {
    let bus = after(2, &case_b()[..13]);
    assert!(!bus.holder.any(2), "node 0 put out End");
    assert_eq!(bus.nodes[0].mode, Mode::AwaitAck);
    let bus = after(2, &case_b()[..21]);
    assert!(!bus.holder.any(2), "node 1 put out End");
    assert_eq!(bus.nodes[1].mode, Mode::Rest);
    let bus = after(2, &held());
    assert!(bus.holder.only(1, 2));
    assert_eq!(bus.nodes[1].mode, Mode::Holding);
    assert_eq!(bus.nodes[0].mode, Mode::Listening);
    assert_eq!(bus.phase, Phase::Busy);
}

#[test]
fn held_acknowledgement_is_reported_at_its_prefix() {
    let text = printed(2, &held());
    assert!(text.ends_with("\n20 4 -\n21 5 0 ack 1 7\ndone 22\n"), "{text}");
}

/// Trap: "Emptying the buffer of a holder when its reply is sent."
#[test]
fn a_request_from_holding_leaves_the_buffer() {
    let mut run = vec![labelled(1, 63, 8, 9, 11)];
    run.extend(held());
    let mut bus = after(2, &run);
    let waiting = Some(packet(63, 8, 9, 11));
    assert_eq!(bus.nodes[1].buffer, waiting);
    assert_eq!(bus.step(&labelled(1, 0, 3, 4, 9)), Ok(None));
    let sending = packet(0, 3, 4, 9);
    assert_eq!(bus.nodes[1], Node { mode: Mode::Sending { step: 0 }, buffer: waiting, sending });
    play(&mut bus, &[clock(1), pass()].repeat(6));
    assert_eq!(bus.nodes[1], Node { mode: Mode::AwaitAck, buffer: waiting, sending });
    play(&mut bus, &replied()[35..]);
    assert_eq!(bus.nodes[1], Node { mode: Mode::Rest, buffer: waiting, sending });
    assert_eq!(bus.phase, Phase::Idle);
}

/// "a concatenated response in IEEE 1394 is meant to be received"
#[test]
fn the_requester_hears_the_reply() {
    let text = printed(2, &replied());
    let reply = "\
21 5 0 ack 1 7
22 1 -
23 4 -
24 5 -
25 4 -
26 5 -
27 4 -
28 5 -
29 4 -
30 5 -
31 4 -
32 5 -
33 4 -
34 5 0 good 3 4 9
35 8 -
36 3 -
37 4 -
38 5 -
39 4 -
40 5 -
41 4 -
42 5 1 ack 2 9
43 9 -
44 9 -
done 45
";
    assert!(text.ends_with(reply), "{text}");
}

#[test]
fn a_reply_to_all_nodes_is_heard() {
    let mut run = held();
    run.push(labelled(1, 63, 3, 4, 9));
    let mut bus = after(2, &run);
    let reports = play(&mut bus, &[clock(1), pass()].repeat(6));
    assert_eq!(reports[10], said(1, Report::Sent { label: 9 }));
    assert_eq!(reports[11], said(0, Report::Broad { head: REPLY, data: 4 }));
    assert_eq!(bus.phase, Phase::Gapping { node: 0 });
}

/// A reply whose Header, Data or Ack does not come through.
#[test]
fn a_damaged_reply_is_missed() {
    for (damage, dropped) in
        [(lose(), "\n32 5 0 drop HeadOwn\n"), (change(0), "\n30 7 0 drop HeadOwn\n")]
    {
        // The Header, at 30: node 0 drops the reply, owes an answer, and gives the bus back.
        let mut run = replied();
        run[30] = damage;
        run.truncate(35);
        assert!(printed(2, &run).contains(dropped));
        let mut bus = after(2, &run);
        assert_eq!(bus.nodes[0].mode, Mode::Owed);
        let reports = play(&mut bus, &[grant(), clock(0), gap(), gap()]);
        assert_eq!(reports, [None, None, None, miss(1, 9)]);
        // The Ack, at 40: node 1 hears of it at the End.
        let mut run = replied();
        run[40] = damage;
        assert!(printed(2, &run).ends_with("\n41 4 -\n42 5 1 miss 9\n43 9 -\n44 9 -\ndone 45\n"));
    }
    // The Data, at 32: bad ones are told and acknowledged, lost ones are not.
    let mut run = replied();
    run[32] = change(0);
    let text = printed(2, &run);
    assert!(text.contains("\n34 5 0 dcrc 3 9\n") && text.contains("\n42 5 1 ack 2 9\n"), "{text}");
    run[32] = lose();
    run.truncate(35);
    assert_eq!(after(2, &run).nodes[0].mode, Mode::Owed);
    assert!(printed(2, &run).ends_with("\n34 5 0 drop BodyOwn\ndone 35\n"));
}

/// A requester that got no good Ack waits for the gap, and sleeps through the reply.
#[test]
fn without_its_acknowledgement_the_requester_does_not_listen() {
    for damage in [lose(), change(0)] {
        let mut run = replied();
        run[19] = damage;
        run.truncate(35);
        let mut bus = after(2, &run);
        assert!(printed(2, &run[..22]).ends_with("\n21 5 0 miss 7\ndone 22\n"));
        assert_eq!(bus.nodes[0].mode, Mode::Wait);
        assert_eq!(bus.phase, Phase::Gapping { node: 0 });
        assert_eq!(play(&mut bus, &[gap(), gap()]), [None, miss(1, 9)]);
    }
}

/// Node 2 has heard an acknowledgement that was not for it, and is in Wait.
#[test]
fn the_reply_reaches_the_requester_alone() {
    let mut run = vec![labelled(0, 1, 5, 6, 7), arbitrate(0)];
    run.extend([clock(0), pass(), pass()].repeat(6));
    run.extend([grant(), respond(1, 1, 1)]);
    run.extend([clock(1), pass(), pass()].repeat(3));
    let bus = after(3, &run);
    let modes = [Mode::Listening, Mode::Holding, Mode::Wait];
    assert_eq!([0, 1, 2].map(|node| bus.nodes[node].mode), modes);
    // To all nodes: told at node 0, and not at node 2.
    let mut to_all = bus.clone();
    play(&mut to_all, &[labelled(1, 63, 3, 4, 9)]);
    let reports = play(&mut to_all, &[clock(1), pass(), pass()].repeat(6));
    let broad = said(0, Report::Broad { head: REPLY, data: 4 });
    assert_eq!(reports[15..], [said(1, Report::Sent { label: 9 }), broad, None]);
    // To node 2: nobody takes it.
    let mut to_other = bus;
    play(&mut to_other, &[labelled(1, 2, 3, 4, 9)]);
    let reports = play(&mut to_other, &[clock(1), pass(), pass()].repeat(6));
    assert_eq!(reports, [None; 18]);
    let reports = play(&mut to_other, &[gap(), gap(), gap()]);
    assert_eq!(reports, [None, miss(1, 9), None]);
}

/// The mark after each of these actions on this bus.
fn marks(bus: &mut Bus, records: &[Record]) -> Vec<bool> {
    let mark = |record| {
        play(bus, &[record]);
        bus.concatenated
    };
    records.iter().copied().map(mark).collect()
}

/// "set when an Acking node puts out its closing Prefix and cleared when the bus becomes Idle"
#[test]
fn from_the_closing_prefix_to_idle_the_mark_is_set() {
    let run = replied();
    let seen = marks(&mut Bus::fresh(2).unwrap(), &run);
    // The Prefix is put out at 20; the last gap is at 44.
    let expected: Vec<bool> = (0..45).map(|index| (20..44).contains(&index)).collect();
    assert_eq!(seen, expected);
    // An acknowledgement that ends in End sets no mark.
    let seen = marks(&mut Bus::fresh(2).unwrap(), &case_b());
    assert_eq!(seen, [false; 24]);
}

#[test]
fn a_filler_sets_no_mark() {
    // In Answering, in a run and on a state handed in; in Holding, with the mark clear.
    let mut bus = after(2, &case_b()[..15]);
    assert_eq!(marks(&mut bus, &[clock(1), pass(), clock(1), pass()]), [false; 4]);
    let mut bus = Bus { phase: Phase::Busy, ..Bus::fresh(2).unwrap() };
    bus.holder.set(1);
    for mode in [Mode::Answering, Mode::Holding] {
        bus.nodes[1].mode = mode;
        assert_eq!(marks(&mut bus, &[clock(1), pass()]), [false; 2]);
    }
    // Nor do the Start and the Ack of an acknowledgement that will end in Prefix.
    bus.nodes[1].mode = Mode::Acking { step: 0, ack: 1, hold: true };
    let acknowledgement = [clock(1), pass()].repeat(3);
    assert_eq!(marks(&mut bus, &acknowledgement), [false, false, false, false, true, true]);
}

#[test]
fn only_the_gap_that_makes_the_bus_idle_clears_the_mark() {
    // Set on a state handed in, it stays until then, whatever is played.
    let mut bus = Bus { concatenated: true, ..Bus::fresh(2).unwrap() };
    let mut expected = [true; 24];
    expected[23] = false;
    assert_eq!(marks(&mut bus, &case_b()), expected);
    // A reset finds the bus Idle: it does not become so.
    bus.concatenated = true;
    assert_eq!(marks(&mut bus, &[request(0, 1, 0, 0), reset()]), [true; 2]);
    // The End of a Spurious node, and all gaps but the last.
    let mut bus = Bus { phase: Phase::Busy, concatenated: true, ..Bus::fresh(3).unwrap() };
    bus.holder.set(0);
    bus.nodes[0].mode = Mode::Spurious;
    assert_eq!(marks(&mut bus, &[clock(0), gap(), gap(), gap()]), [true, true, true, false]);
    // A bus that gaps from its last node on.
    let mut bus = Bus { phase: Phase::Gapping { node: 2 }, concatenated: true, ..bus };
    assert_eq!(marks(&mut bus, &[gap()]), [false]);
}

/// "While it is set, respond with hold 1 is not open."
#[test]
fn a_reply_is_not_answered_by_a_reply() {
    let bus = after(2, &replied()[..36]);
    assert_eq!(bus.nodes[0].mode, Mode::Answering);
    assert_eq!(bus.clone().step(&respond(0, 7, 1)).unwrap_err().number(), 7);
    assert_eq!(bus.clone().step(&respond(0, 7, 0)), Ok(None));
    // It is a mark of the bus: it closes this to every node, and is all that does.
    let mut bus = Bus { concatenated: true, ..Bus::fresh(3).unwrap() };
    for node in [0, 1, 2] {
        bus.nodes[usize::from(node)].mode = Mode::Answering;
        assert_eq!(bus.clone().step(&respond(node, 7, 1)).unwrap_err().number(), 7);
        assert_eq!(bus.clone().step(&respond(node, 7, 0)), Ok(None));
        let mut clear = Bus { concatenated: false, ..bus.clone() };
        assert_eq!(clear.step(&respond(node, 7, 1)), Ok(None));
        let acking = Mode::Acking { step: 0, ack: 7, hold: true };
        assert_eq!(clear.nodes[usize::from(node)].mode, acking);
    }
    // The next transaction may hold again.
    let mut run = replied();
    run.push(reset());
    run.extend(held());
    let bus = after(2, &run);
    assert!(bus.concatenated);
    assert_eq!(bus.nodes[0].mode, Mode::Listening);
}

#[test]
fn fillers_in_answering_and_holding() {
    let mut bus = after(2, &case_b()[..15]);
    assert_eq!(bus.nodes[1].mode, Mode::Answering);
    play(&mut bus, &[clock(1)]);
    assert_eq!(bus.phase, Phase::Delivering { sender: 1, signal: Signal::Prefix, receiver: 0 });
    assert_eq!(bus.nodes[1].mode, Mode::Answering);
    // A respond need not wait for the passes of a filler.
    play(&mut bus, &[respond(1, 2, 0), pass()]);
    assert_eq!(bus.nodes[0].mode, Mode::AwaitAck, "Prefix stay");
    assert_eq!(bus.nodes[1].mode, Mode::Acking { step: 0, ack: 2, hold: false });

    let mut bus = after(2, &held());
    play(&mut bus, &[clock(1), pass(), clock(1)]);
    assert_eq!(bus.nodes[1].mode, Mode::Holding);
    assert_eq!(bus.nodes[0].mode, Mode::Listening, "Prefix stay");
    // A request from Holding while a Prefix is under way.
    play(&mut bus, &[request(1, 63, 3, 4), pass()]);
    assert_eq!(bus.nodes[1].mode, Mode::Sending { step: 0 });
    assert_eq!(bus.phase, Phase::Busy);
}

/// Trap: "Handing a Spurious End to the others".
#[test]
fn the_end_of_a_spurious_node_reaches_nobody() {
    // Case F: 0 to 1, node 2's Dest changed to 2.
    let mut run = vec![request(0, 1, 5, 6), arbitrate(0)];
    run.extend([clock(0), pass(), pass()].repeat(6));
    run[10] = change(2);
    let mut bus = after(3, &run);
    assert_eq!(bus.phase, Phase::Granting);
    play(&mut bus, &[grant()]);
    assert_eq!(bus.phase, Phase::Granting, "node 2 is still pending");
    assert_eq!(bus.nodes[1].mode, Mode::Answering);
    play(&mut bus, &[grant()]);
    assert_eq!(bus.phase, Phase::Busy);
    assert_eq!(bus.nodes[2].mode, Mode::Spurious);
    assert_eq!(play(&mut bus, &[clock(2)]), [None]);
    assert_eq!(bus.phase, Phase::Busy, "node 1 still holds");
    assert_eq!(bus.nodes[0].mode, Mode::AwaitAck);
    assert_eq!(bus.nodes[2].mode, Mode::Rest);
    play(&mut bus, &[respond(1, 4, 0), clock(1), pass(), pass(), clock(1), pass(), pass()]);
    let reports = play(&mut bus, &[clock(1), pass(), pass()]);
    // Node 2 rested when the acknowledgement began, and took it for a packet.
    let ack = said(0, Report::Ack { ack: 4, label: 0 });
    assert_eq!(reports, [None, ack, dropped(2, Reading::Addressed)]);
    assert_eq!(bus.phase, Phase::Gapping { node: 0 });
}

/// Trap: "A misled mark left over from the packet before."
#[test]
fn start_clears_the_misled_marks() {
    // A broadcast whose Dest reaches node 1 as 0: node 1 waits, and is marked.
    let mut run = vec![request(0, 63, 1, 2), arbitrate(0)];
    run.extend(packet_of_two());
    run[7] = change(0);
    run.extend([gap(), gap(), reset(), labelled(0, 63, 3, 4, 9), arbitrate(0)]);
    let mut bus = after(2, &run);
    assert!(bus.misled.has(1));
    play(&mut bus, &[clock(0)]);
    assert!(!bus.misled.any(2));
    let reports = play(&mut bus, &[&[pass()][..], &[clock(0), pass()].repeat(5)].concat());
    assert_eq!(reports[10], said(1, Report::Broad { head: REPLY, data: 4 }));
}

/// The Start of an acknowledgement is a Start too.
#[test]
fn the_start_of_an_acknowledgement_clears_the_marks() {
    let mut run = vec![request(0, 1, 5, 6), arbitrate(0)];
    run.extend([clock(0), pass(), pass()].repeat(6));
    run[10] = change(2);
    run.extend([grant(), grant(), clock(2), respond(1, 4, 0)]);
    let mut bus = after(3, &run);
    assert!(bus.misled.only(2, 3));
    play(&mut bus, &[clock(1)]);
    assert!(!bus.misled.any(3));
}

/// Trap: "a dropped packet may still owe a grant: Wait and Owed differ."
#[test]
fn a_dropped_packet_owes_a_grant() {
    let mut run = case_b();
    run[9] = change(0);
    assert_eq!(after(2, &run[..9]).step(&run[9]), Ok(dropped(1, Reading::HeadOwn)));
    let bus = after(2, &run[..14]);
    assert_eq!(bus.nodes[1].mode, Mode::Owed);
    assert_eq!(bus.phase, Phase::Granting);
    // Changed to 63 by the way: HeadAll, a bad Header, Wait, and no grant.
    let mut run = case_b();
    run[7] = change(63);
    assert_eq!(after(2, &run[..9]).step(&run[9]), Ok(dropped(1, Reading::HeadAll)));
    let bus = after(2, &run[..14]);
    assert_eq!(bus.nodes[1].mode, Mode::Wait);
    assert_eq!(bus.phase, Phase::Gapping { node: 0 });
}

#[test]
fn grant_of_a_state_handed_in() {
    // "another mode kept"
    let mut bus = Bus { phase: Phase::Granting, ..Bus::fresh(3).unwrap() };
    bus.pending.set(1);
    bus.pending.set(2);
    bus.nodes[1].mode = Mode::Wait;
    play(&mut bus, &[grant()]);
    assert_eq!(bus.nodes[1].mode, Mode::Wait);
    assert!(bus.holder.only(1, 3) && bus.pending.only(2, 3));
    assert_eq!(bus.phase, Phase::Granting);
    // "if any": a Granting bus with nobody pending
    let mut bus = Bus { phase: Phase::Granting, ..Bus::fresh(3).unwrap() };
    let before = bus.clone();
    play(&mut bus, &[grant()]);
    assert_eq!(bus, Bus { phase: Phase::Busy, ..before });
}

#[test]
fn a_holder_in_another_mode_has_no_clock() {
    let mut bus = Bus { phase: Phase::Busy, ..Bus::fresh(2).unwrap() };
    bus.holder.set(0);
    for mode in [Mode::Rest, Mode::AwaitAck, Mode::Wait, Mode::Owed, Mode::Told, Mode::Asked] {
        bus.nodes[0].mode = mode;
        assert_eq!(bus.step(&clock(0)).unwrap_err().number(), 7);
    }
    bus.nodes[0].mode = Mode::Spurious;
    assert_eq!(bus.step(&clock(0)), Ok(None));
    assert_eq!(bus.phase, Phase::Gapping { node: 0 });
}

/// A Spurious node that was the last holder leaves a Gapping bus, even with a node pending.
#[test]
fn spurious_does_not_look_at_pending() {
    let mut bus = Bus { phase: Phase::Busy, ..Bus::fresh(2).unwrap() };
    bus.holder.set(0);
    bus.pending.set(1);
    bus.nodes[0].mode = Mode::Spurious;
    play(&mut bus, &[clock(0)]);
    assert_eq!(bus.phase, Phase::Gapping { node: 0 });
}

#[test]
fn gap_starts_where_the_state_says() {
    let mut bus = Bus { phase: Phase::Gapping { node: 1 }, ..Bus::fresh(3).unwrap() };
    bus.nodes[0].mode = Mode::AwaitAck;
    bus.nodes[1].mode = Mode::AckEnd { good: Some(1) };
    bus.nodes[1].sending = packet(0, 5, 6, 7);
    bus.nodes[2].mode = Mode::Wait;
    assert_eq!(play(&mut bus, &[gap(), gap()]), [miss(1, 7), None]);
    assert_eq!(bus.phase, Phase::Idle);
    assert_eq!(bus.nodes[0].mode, Mode::AwaitAck);
}

/// Which actions are forward.
#[test]
fn forward_actions() {
    let forward = |bus: &Bus, record: Record| bus.is_forward(record.look(bus.n).unwrap());
    let run = held();
    let flags: Vec<bool> = (0..run.len()).map(|i| forward(&after(2, &run[..i]), run[i])).collect();
    // All but the request into the buffer and the arbitration.
    assert_eq!(flags[..2], [false, false]);
    assert_eq!(flags[2..], [true; 20]);
    assert!(!forward(&after(2, &run[..15]), clock(1)), "a filler in Answering");
    assert!(!forward(&after(2, &run), clock(1)), "a filler in Holding");
    assert!(forward(&after(2, &run), request(1, 0, 0, 0)), "from Holding");
    assert!(!forward(&after(2, &case_b()), reset()));
}

/// What node 0 holds, what is under way and what node 1 remembers, after so many actions of case B.
fn label_at(actions: usize) -> (Node, Phase, Mode) {
    let bus = after(2, &case_b_labelled()[..actions]);
    (bus.nodes[0], bus.phase, bus.nodes[1].mode)
}

/// "It travels with the packet through buffer, sending and reception, on the bus inside the Header
/// signal."
#[test]
fn the_label_travels_with_the_packet() {
    let own = packet(1, 5, 6, 7);
    let head = own.head;
    assert_eq!(label_at(1).0, Node { buffer: Some(own), ..Node::FRESH });
    let sending = |step| Node { mode: Mode::Sending { step }, buffer: None, sending: own };
    assert_eq!(label_at(2).0, sending(0));
    let under_way = |signal| Phase::Delivering { sender: 0, signal, receiver: 1 };
    let header = under_way(Signal::Header(head, Check::Good));
    assert_eq!(label_at(9), (sending(4), header, Mode::HeadOwn));
    assert_eq!(label_at(10).2, Mode::BodyOwn { head });
    assert_eq!(label_at(12).2, Mode::TailOwn { head, data: Some(6) });
    // It stays with the packet that was sent last, until the next takes its place.
    let rests = |packet| Node { mode: Mode::Rest, buffer: None, sending: packet };
    assert_eq!(label_at(24).0, rests(own));
    let mut bus = after(2, &case_b_labelled());
    play(&mut bus, &[reset(), labelled(0, 1, 5, 6, 8)]);
    assert_eq!(bus.nodes[0], Node { buffer: Some(packet(1, 5, 6, 8)), ..rests(own) });
    play(&mut bus, &[arbitrate(0)]);
    assert_eq!(bus.nodes[0].sending, packet(1, 5, 6, 8));
    // With bad data, and to all nodes.
    let mut run = case_b_labelled();
    run[11] = change(0);
    assert_eq!(after(2, &run[..12]).nodes[1].mode, Mode::TailOwn { head, data: None });
    run[0] = labelled(0, 63, 5, 6, 7);
    assert_eq!(after(2, &run[..10]).nodes[1].mode, Mode::BodyAll { head });
    assert_eq!(after(2, &run[..12]).nodes[1].mode, Mode::TailAll { head, data: None });
    run[11] = pass();
    assert_eq!(after(2, &run[..12]).nodes[1].mode, Mode::TailAll { head, data: Some(6) });
}

/// A Header that is lost or changed goes on to the next receiver with its label.
#[test]
fn the_label_reaches_each_receiver() {
    let mut run = vec![labelled(0, 63, 1, 2, 63), arbitrate(0)];
    run.extend([clock(0), pass(), pass(), pass()].repeat(6));
    for damage in [lose(), change(0)] {
        run[15] = damage;
        let reports = play(&mut Bus::fresh(4).unwrap(), &run);
        let broad = Report::Broad { head: Head { header: 1, label: 63 }, data: 2 };
        let sent = said(0, Report::Sent { label: 63 });
        assert_eq!(reports[22..], [sent, None, said(2, broad), said(3, broad)]);
    }
}

/// Node 1 has a packet waiting when node 0's comes, replies, and then sends the one that waited. Each
/// report bears the label of the packet that it is about.
#[test]
fn labels_of_a_reply_and_of_a_packet_that_waits() {
    let sends = [clock(1), pass()].repeat(6);
    let acknowledged =
        |ack| [vec![grant(), respond(0, ack, 0)], [clock(0), pass()].repeat(3)].concat();
    let start = [vec![labelled(1, 0, 8, 9, 11)], held()].concat();
    let end = [vec![gap(), gap(), arbitrate(1)], sends.clone(), acknowledged(4)].concat();
    // The Ack of the reply, at 41, gets lost.
    let reply = vec![labelled(1, 0, 3, 4, 9)];
    let mut run = [&start[..], &reply, &sends, &acknowledged(2), &end].concat();
    run[41] = lose();
    let expected = [
        "2 2 0 won",
        "14 5 1 good 5 6 7",
        "22 5 0 ack 1 7",
        "35 5 0 good 3 4 9",
        "43 5 1 miss 9",
        "46 2 1 won",
        "58 5 0 good 8 9 11",
        "66 5 1 ack 4 11",
    ];
    assert_eq!(reports(&printed(2, &run)), expected);
    // A reply to all nodes.
    let reply = vec![labelled(1, 63, 3, 4, 9)];
    let run = [&start[..], &reply, &sends, &end].concat();
    let expected = [
        "2 2 0 won",
        "14 5 1 good 5 6 7",
        "22 5 0 ack 1 7",
        "34 4 1 sent 9",
        "35 5 0 broad 3 4 9",
        "38 2 1 won",
        "50 5 0 good 8 9 11",
        "58 5 1 ack 4 11",
    ];
    assert_eq!(reports(&printed(2, &run)), expected);
}
