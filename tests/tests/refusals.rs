//! The numbers at single steps, 2 to 7, 12, 13 and 15: their order when several conditions hold, what a
//! refusal leaves, and 12.

mod common;

use bench_model::bus::{
    Action, Bus, Check, Head, Marks, Mode, Node, Phase, Reading, Record, Refusal, Report, Reported,
    Signal,
};
use bench_model::runfile;
use common::*;

/// What a step on this state says, and that a refusal leaves the state as it was.
fn refused(bus: &Bus, record: Record) -> u8 {
    let mut after = bus.clone();
    let refusal = after.step(&record).expect_err("a refusal");
    assert_eq!(&after, bus, "a refused step returns the state handed in");
    refusal.number()
}

fn fresh(n: u8) -> Bus {
    Bus::fresh(n).unwrap()
}

#[test]
fn examples_of_the_table() {
    assert_eq!(Bus::fresh(64), Err(Refusal::NodeCount));
    assert_eq!(refused(&fresh(2), Record::default()), 2);
    assert_eq!(refused(&fresh(2), Record { node: 1, ..reset() }), 3);
    assert_eq!(refused(&fresh(2), clock(2)), 4);
    assert_eq!(refused(&fresh(2), request(0, 2, 0, 0)), 5);
    assert_eq!(refused(&fresh(2), respond(0, 16, 0)), 6);
    // lose on End: case B up to the clock that puts out End
    assert_eq!(refused(&after(2, &case_b()[..13]), lose()), 7);
    assert_eq!(refused(&Bus { n: 0, ..fresh(2) }, pass()), 12);
    assert_eq!(Refusal::BlockLength.number(), 8);
    assert_eq!(Refusal::BlockCheck.number(), 9);
    assert_eq!(Refusal::BlockOrder.number(), 10);
    assert_eq!(Refusal::BlockContent.number(), 11);
    assert_eq!(refused(&fresh(2), labelled(0, 1, 0, 0, 64)), 13);
    assert_eq!(Refusal::Route.number(), 14);
    assert_eq!(refused(&fresh(2), request(0, 0, 0, 0)), 15);
}

#[test]
fn a_refused_fresh_bus_is_like_a_fresh_one_of_none() {
    assert_eq!(Bus::REFUSED, Bus { n: 0, ..fresh(2) });
    assert!(!fresh(2).concatenated);
}

/// Every condition at once, then one less each time: the lowest that is left counts.
#[test]
fn in_order_from_12_to_7() {
    let no_state = Bus { phase: Phase::Gapping { node: 2 }, ..fresh(2) };
    let all = Record {
        kind: 13,
        node: 2,
        address: 2,
        ack: 16,
        hold: 2,
        label: 64,
        zeros: [0, 1],
        header: 1,
        data: 1,
    };
    assert_eq!(refused(&no_state, all), 12);
    assert_eq!(refused(&fresh(2), all), 2);
    assert_eq!(refused(&fresh(2), Record { kind: 3, ..all }), 3);
    assert_eq!(refused(&fresh(2), Record { kind: 1, ..all }), 3);
    let request = Record { ack: 0, hold: 0, zeros: [0; 2], kind: 1, ..all };
    assert_eq!(refused(&fresh(2), request), 4);
    assert_eq!(refused(&fresh(2), Record { node: 1, ..request }), 5);
    let full = after(2, &[labelled(1, 0, 0, 0, 5)]);
    let request = Record { node: 1, address: 1, ..request };
    assert_eq!(refused(&full, request), 13);
    assert_eq!(refused(&full, Record { label: 63, ..request }), 15);
    assert_eq!(refused(&full, Record { label: 63, address: 0, ..request }), 7);
    let respond = Record { kind: 3, node: 2, ack: 16, hold: 2, ..Record::default() };
    assert_eq!(refused(&fresh(2), respond), 4);
    assert_eq!(refused(&fresh(2), Record { node: 1, ..respond }), 6);
    assert_eq!(refused(&fresh(2), Record { node: 1, ack: 15, ..respond }), 6);
    assert_eq!(refused(&fresh(2), Record { node: 1, ack: 16, hold: 1, ..respond }), 6);
    assert_eq!(refused(&fresh(2), Record { node: 1, ack: 15, hold: 1, ..respond }), 7);
}

/// The same where nothing but the mark closes the action: node 0 answers a reply.
#[test]
fn in_order_from_12_to_7_while_the_mark_is_set() {
    let answering = after(2, &replied()[..36]);
    let mut no_state = answering.clone();
    no_state.nodes[1].sending.address = 2;
    let held = respond(0, 15, 1);
    assert_eq!(refused(&no_state, held), 12);
    assert_eq!(refused(&answering, Record { kind: 13, ..held }), 2);
    assert_eq!(refused(&answering, Record { zeros: [1, 0], ..held }), 3);
    assert_eq!(refused(&answering, Record { label: 64, ..held }), 3);
    assert_eq!(refused(&answering, Record { address: 2, ..held }), 3);
    assert_eq!(refused(&answering, Record { node: 2, ..held }), 4);
    assert_eq!(refused(&answering, Record { ack: 16, ..held }), 6);
    assert_eq!(refused(&answering, Record { hold: 2, ..held }), 6);
    assert_eq!(refused(&answering, held), 7);
    assert_eq!(answering.clone().step(&Record { hold: 0, ..held }), Ok(None));
}

#[test]
fn kinds_are_1_to_12() {
    for kind in 0..=255 {
        let said = fresh(2).step(&Record { kind, ..Record::default() });
        assert_eq!(said == Err(Refusal::Kind), !(1..=12).contains(&kind), "kind {kind}");
    }
}

/// "Fields that a kind doesn't name are 0": which ones a kind names, by hand.
#[test]
fn fields_that_a_kind_does_not_name() {
    // node, address, acknowledgement, hold, label, header, data
    let named: [[u8; 7]; 12] = [
        [1, 1, 0, 0, 1, 1, 1], // request
        [1, 0, 0, 0, 0, 0, 0], // arbitrate
        [1, 0, 1, 1, 0, 0, 0], // respond
        [1, 0, 0, 0, 0, 0, 0], // clock
        [0, 0, 0, 0, 0, 0, 0], // pass
        [0, 0, 0, 0, 0, 0, 0], // lose
        [0, 1, 0, 0, 0, 0, 0], // change
        [0, 0, 0, 0, 0, 0, 0], // grant
        [0, 0, 0, 0, 0, 0, 0], // gap
        [0, 0, 0, 0, 0, 0, 0], // reset
        [1, 0, 0, 0, 0, 0, 0], // ask
        [1, 0, 0, 0, 0, 0, 0], // decide
    ];
    for (kind, names) in (1..).zip(named) {
        // With address 0 the request would be one of node 0 to itself.
        let address = if kind == 1 { 63 } else { 0 };
        let bare = Record { kind, address, ..Record::default() };
        let with_one = [
            Record { node: 1, ..bare },
            Record { address: 1, ..bare },
            Record { ack: 1, ..bare },
            Record { hold: 1, ..bare },
            Record { label: 1, ..bare },
            Record { header: 1 << 24, ..bare },
            Record { data: 1 << 24, ..bare },
        ];
        for (record, named) in with_one.into_iter().zip(names) {
            let said = record.look(2);
            assert_eq!(said.is_ok(), named == 1, "kind {kind}: {record:?}");
            assert!(named == 1 || said == Err(Refusal::FieldNotNamed));
        }
        for place in 0..2 {
            let mut record = bare;
            record.zeros[place] = 1;
            assert_eq!(record.look(2), Err(Refusal::FieldNotNamed));
        }
    }
}

/// "Byte 5 of an action record becomes the label for kind 1"; in other kinds it is a field that they
/// do not name. Bytes 6 and 7 are zeros for all.
#[test]
fn bytes_5_to_7_of_each_kind() {
    for kind in 1..=12 {
        for byte in [1, 63, 64, 255] {
            let with = |place: usize| {
                let mut bytes = [0; 16];
                (bytes[0], bytes[place]) = (kind, byte);
                // Not to node 0 itself.
                bytes[2] = u8::from(kind == 1);
                Record::from_bytes(&bytes).look(2).err()
            };
            let label = match (kind, byte) {
                (1, 1 | 63) => None,
                (1, _) => Some(Refusal::Label),
                _ => Some(Refusal::FieldNotNamed),
            };
            assert_eq!(with(5), label, "kind {kind}, byte 5 is {byte}");
            assert_eq!(with(6), Some(Refusal::FieldNotNamed), "kind {kind}, byte 6 is {byte}");
            assert_eq!(with(7), Some(Refusal::FieldNotNamed), "kind {kind}, byte 7 is {byte}");
        }
    }
}

#[test]
fn labels_are_0_to_63() {
    for label in 0..=255 {
        let said = labelled(0, 1, 0, 0, label).look(2);
        let expected = match label {
            0..=63 => Ok(Action::Request { node: 0, packet: packet(1, 0, 0, label) }),
            _ => Err(Refusal::Label),
        };
        assert_eq!(said, expected);
    }
}

/// "13, label over 63, looked at after 5": 2, 3, 4, 5, 13, 15, 6, then 7.
#[test]
fn a_label_over_63_in_its_place() {
    let wrong = labelled(1, 63, 0, 0, 64);
    for bus in [fresh(2), after(2, &[request(1, 0, 0, 0)]), after(2, &case_b()[..5])] {
        // Open on the first bus but for its label, and not on the others.
        assert_eq!(refused(&bus, wrong), 13);
        assert_eq!(refused(&bus, Record { address: 1, ..wrong }), 13);
        assert_eq!(refused(&bus, Record { address: 2, ..wrong }), 5);
        assert_eq!(refused(&bus, Record { node: 2, ..wrong }), 4);
        assert_eq!(refused(&bus, Record { zeros: [1, 0], ..wrong }), 3);
        // What 6 looks at is not named here.
        assert_eq!(refused(&bus, Record { ack: 16, ..wrong }), 3);
        assert_eq!(refused(&bus, Record { hold: 2, ..wrong }), 3);
        assert_eq!(refused(&bus, Record { kind: 13, ..wrong }), 2);
        assert_eq!(refused(&Bus { n: 64, ..bus }, wrong), 12);
    }
    // From Holding too.
    let holding = after(2, &held());
    assert_eq!(refused(&holding, labelled(1, 0, 3, 4, 64)), 13);
    assert_eq!(holding.clone().step(&labelled(1, 0, 3, 4, 63)), Ok(None));
}

#[test]
fn addresses_are_below_n_or_63() {
    for n in [2, 10, 62, 63] {
        for address in 0..=255 {
            let right = address < n || address == 63;
            let said = request(1, address, 0, 0).look(n);
            assert_eq!(said == Err(Refusal::Address), !right);
            assert_eq!(change(address).look(n).is_ok(), right);
        }
        for node in 0..=255 {
            assert_eq!(clock(node).look(n).is_ok(), node < n);
        }
    }
}

/// "15, request to the node itself, looked at after 13": 2, 3, 4, 5, 13, 15, 6, then 7. Every node and
/// every address that a record can have.
#[test]
fn nodes_do_not_send_to_themselves() {
    for n in [2, 3, 62, 63] {
        for (node, address) in (0..=255).flat_map(|node| (0..=255).map(move |to| (node, to))) {
            let refusal = match (node < n, address < n || address == 63) {
                (false, _) => Some(Refusal::Node),
                (true, false) => Some(Refusal::Address),
                (true, true) => (address == node).then_some(Refusal::ToItself),
            };
            assert_eq!(
                request(node, address, 5, 6).look(n).err(),
                refusal,
                "{n}: {node} {address}"
            );
        }
    }
    // It is about requests: a field that a kind does not name is 0, as node 0's number is.
    for kind in 2..=12 {
        let bare = Record { kind, ..Record::default() };
        assert!(bare.look(2).is_ok(), "kind {kind}");
    }
}

/// The numbers that hold of a request to the node itself beside 15, one at a time. 5 alone does not: an
/// address that there is not is no node's; nor does 6, whose fields a request does not name.
#[test]
fn a_request_to_itself_in_its_place() {
    let wrong = labelled(1, 1, 5, 6, 63);
    let waits = [request(1, 0, 0, 0)];
    for (bus, open) in [
        (fresh(2), true),
        (after(2, &held()), true),
        (after(2, &waits), false),
        (after(2, &[waits[0], ask(1)]), false),
        (after(2, &case_b()[..5]), false),
        (after(2, &case_b()[..15]), false),
    ] {
        assert_eq!(bus.clone().step(&Record { address: 0, ..wrong }).is_ok(), open);
        assert_eq!(refused(&bus, wrong), 15);
        assert_eq!(refused(&bus, Record { label: 64, ..wrong }), 13);
        assert_eq!(refused(&bus, Record { node: 2, address: 2, ..wrong }), 4);
        assert_eq!(refused(&bus, Record { node: 63, address: 63, ..wrong }), 4);
        assert_eq!(refused(&bus, Record { zeros: [0, 1], ..wrong }), 3);
        assert_eq!(refused(&bus, Record { ack: 16, ..wrong }), 3);
        assert_eq!(refused(&bus, Record { hold: 2, ..wrong }), 3);
        assert_eq!(refused(&bus, Record { kind: 13, ..wrong }), 2);
        assert_eq!(refused(&Bus { n: 64, ..bus }, wrong), 12);
    }
}

/// "A run that still has one is played up to it, prints its lines as before, and stops there": a whole
/// file from before, with one in the middle of its second block.
#[test]
fn an_older_run_stops_at_it() {
    let run = older_run();
    assert_eq!((run[42], run.len()), (labelled(0, 0, 8, 9, 5), 58));
    let before = printed(2, &run[..42]);
    let lines = before.strip_suffix("done 42\n").expect("open up to there");
    assert!(lines.ends_with("\n37 4 0 sent 0\n38 5 1 broad 1 2 0\n39 9 -\n40 9 -\n41 10 -\n"));
    let file = any_file(2, &run);
    assert_eq!(printed_file(&file), format!("{lines}refused 42 15\n"));
    // What comes after it does not matter: nothing, or what is no block.
    let mut cut = any_file(2, &run[..43]);
    assert_eq!(printed_file(&cut), format!("{lines}refused 42 15\n"));
    cut.extend([7; 511]);
    assert_eq!(printed_file(&cut), format!("{lines}refused 42 15\n"));
    assert_eq!(runfile::write_file(2, &run), Err(Refusal::ToItself));
}

/// Kind 7: 5 before 7; "the Dest's own address, or a non-zero field here, is 7".
#[test]
fn change_of_each_signal() {
    // Case B, just after the clock that puts out Start, Dhead, Dest, Header, Data, End.
    let bus = |clocks: usize| after(2, &case_b()[..1 + 2 * clocks]);
    for clocks in [1, 2, 6] {
        for address in [0, 1, 63] {
            assert_eq!(refused(&bus(clocks), change(address)), 7);
        }
        assert_eq!(refused(&bus(clocks), change(10)), 5);
    }
    assert_eq!(refused(&bus(3), change(1)), 7);
    assert_eq!(refused(&bus(3), change(2)), 5);
    // "A Dest may still be changed to the sender's number"
    assert_eq!(bus(3).step(&change(0)), Ok(None));
    assert_eq!(bus(3).step(&change(63)), Ok(None));
    for clocks in [4, 5] {
        assert_eq!(refused(&bus(clocks), change(1)), 7);
        assert_eq!(refused(&bus(clocks), change(63)), 7);
        assert_eq!(refused(&bus(clocks), change(10)), 5);
    }
    let report = Report::Drop { left: Reading::HeadOwn };
    assert_eq!(bus(4).step(&change(0)), Ok(Some(Reported { node: 1, report })));
    assert_eq!(bus(5).step(&change(0)), Ok(None));
}

#[test]
fn lose_only_for_header_data_ack() {
    let open: Vec<bool> =
        (1..=6).map(|clocks| after(2, &case_b()[..1 + 2 * clocks]).step(&lose()).is_ok()).collect();
    assert_eq!(open, [false, false, false, true, true, false]);
    // Start, Ack and End of the acknowledgement are put out at 16, 18 and 20.
    let open: Vec<bool> =
        [17, 19, 21].map(|count| after(2, &case_b()[..count]).step(&lose()).is_ok()).into();
    assert_eq!(open, [false, true, false]);
}

/// In each phase, one action of each kind with right fields: which are 7.
#[test]
fn kinds_open_in_each_phase() {
    let kinds = |bus: &Bus| -> Vec<u8> {
        let records = [
            request(1, 0, 0, 0),
            arbitrate(1),
            respond(1, 0, 0),
            clock(0),
            pass(),
            lose(),
            change(0),
            grant(),
            gap(),
            reset(),
            ask(1),
            decide(1),
        ];
        records.iter().filter(|record| bus.clone().step(record).is_ok()).map(|r| r.kind).collect()
    };
    assert_eq!(kinds(&fresh(2)), [1]);
    assert_eq!(kinds(&after(2, &[request(1, 0, 0, 0)])), [2, 11]);
    assert_eq!(kinds(&after(2, &[request(1, 0, 0, 0), ask(1)])), [12]);
    let run = case_b();
    assert_eq!(kinds(&after(2, &run[..2])), [1, 4], "Busy");
    assert_eq!(kinds(&after(2, &run[..3])), [1, 5], "Delivering Start, 1 in Rest");
    assert_eq!(kinds(&after(2, &run[..4])), [4], "Busy, 1 in Opened");
    assert_eq!(kinds(&after(2, &run[..7])), [5, 7], "Delivering Dest");
    assert_eq!(kinds(&after(2, &run[..9])), [5, 6, 7], "Delivering Header");
    assert_eq!(kinds(&after(2, &run[..14])), [8], "Granting");
    assert_eq!(kinds(&after(2, &run[..15])), [3], "Busy, 1 in Answering, the holder");
    assert_eq!(kinds(&after(2, &run[..22])), [1, 9], "Gapping");
    assert_eq!(kinds(&after(2, &run)), [1, 10], "Idle again, 0 has won");
}

#[test]
fn no_state() {
    let good = fresh(3);
    let with_node = |mode| {
        let mut bus = fresh(3);
        bus.nodes[1].mode = mode;
        bus
    };
    let delivering = |sender, signal, receiver| Bus {
        phase: Phase::Delivering { sender, signal, receiver },
        ..fresh(3)
    };
    let mut in_buffer = fresh(3);
    in_buffer.nodes[2].buffer = Some(packet(3, 0, 0, 0));
    let mut in_sending = fresh(3);
    in_sending.nodes[2].sending.address = 62;
    let states = [
        Bus { n: 0, ..good.clone() },
        Bus { n: 1, ..good.clone() },
        Bus { n: 64, ..good.clone() },
        Bus { n: 255, ..good.clone() },
        delivering(3, Signal::Start, 1),
        delivering(0, Signal::Start, 3),
        delivering(1, Signal::Start, 1),
        delivering(0, Signal::Dest(3), 1),
        delivering(0, Signal::Dest(64), 1),
        delivering(0, Signal::Ack(16, Check::Good), 1),
        delivering(0, Signal::Ack(16, Check::Bad), 1),
        Bus { phase: Phase::Gapping { node: 3 }, ..good.clone() },
        in_buffer,
        in_sending,
        with_node(Mode::Sending { step: 6 }),
        with_node(Mode::Acking { step: 3, ack: 0, hold: false }),
        with_node(Mode::Acking { step: 0, ack: 16, hold: false }),
        with_node(Mode::AckEnd { good: Some(16) }),
    ];
    for state in states {
        // 12 comes before all others, whatever the action.
        assert_eq!(
            refused(&state, Record::default()),
            12,
            "{:?} {:?}",
            state.phase,
            state.nodes[1]
        );
        assert_eq!(refused(&state, request(0, 1, 0, 0)), 12);
    }
    let states = [
        delivering(2, Signal::Dest(63), 0),
        delivering(0, Signal::Dest(2), 1),
        delivering(0, Signal::Ack(15, Check::Bad), 1),
        Bus { phase: Phase::Gapping { node: 2 }, ..good },
        with_node(Mode::Sending { step: 5 }),
        with_node(Mode::Acking { step: 2, ack: 15, hold: true }),
        with_node(Mode::AckEnd { good: Some(15) }),
        with_node(Mode::AckEnd { good: None }),
        with_node(Mode::Listening),
        with_node(Mode::Asked),
        Bus { phase: Phase::Busy, ..fresh(3) },
        Bus { phase: Phase::Granting, ..fresh(3) },
    ];
    for state in states.into_iter().chain(carried()) {
        assert!(state.is_state());
        assert_eq!(refused(&state, Record::default()), 2);
        // Of the bus's own mark 12 says nothing, whatever the phase.
        let marked = Bus { concatenated: true, ..state };
        assert!(marked.is_state());
        assert_eq!(refused(&marked, Record::default()), 2);
    }
}

/// A bus of 3 for each place that can hold a packet to node 2 itself: "12 does not look at it".
fn carried() -> Vec<Bus> {
    let own = packet(2, 5, 6, 7);
    let of = |mode, buffer, sending| {
        let mut bus = Bus { phase: Phase::Busy, ..fresh(3) };
        bus.nodes[2] = Node { mode, buffer, sending };
        bus
    };
    let mut states = vec![of(Mode::Rest, Some(own), own), of(Mode::Asked, Some(own), own)];
    states.extend((0..=5).map(|step| of(Mode::Sending { step }, None, own)));
    states.extend([Mode::AwaitAck, Mode::Wait, Mode::Holding].map(|mode| of(mode, None, own)));
    // The Dest of such a packet under way.
    let dest = Phase::Delivering { sender: 2, signal: Signal::Dest(2), receiver: 0 };
    states.push(Bus { phase: dest, ..of(Mode::Sending { step: 3 }, None, own) });
    states
}

/// A bus of 3 for each place that can hold a label, with this one there.
fn labels_held(label: u8) -> Vec<(&'static str, Bus)> {
    let head = Head { header: 5, label };
    let held = packet(1, 5, 6, label);
    let of = |change: &dyn Fn(&mut Bus)| {
        let mut bus = fresh(3);
        change(&mut bus);
        bus
    };
    let in_mode = |mode| of(&|bus| bus.nodes[2].mode = mode);
    let under_way = |check| {
        let signal = Signal::Header(head, check);
        of(&|bus| bus.phase = Phase::Delivering { sender: 0, signal, receiver: 1 })
    };
    vec![
        ("buffer", of(&|bus| bus.nodes[2].buffer = Some(held))),
        ("packet being sent, in Rest", of(&|bus| bus.nodes[2].sending = held)),
        (
            "packet being sent, in Sending",
            of(&|bus| {
                bus.nodes[2].mode = Mode::Sending { step: 3 };
                bus.nodes[2].sending = held;
            }),
        ),
        ("BodyOwn", in_mode(Mode::BodyOwn { head })),
        ("BodyAll", in_mode(Mode::BodyAll { head })),
        ("TailOwn, good", in_mode(Mode::TailOwn { head, data: Some(6) })),
        ("TailOwn, bad", in_mode(Mode::TailOwn { head, data: None })),
        ("TailAll, good", in_mode(Mode::TailAll { head, data: Some(6) })),
        ("TailAll, bad", in_mode(Mode::TailAll { head, data: None })),
        ("Header under way, good", under_way(Check::Good)),
        ("Header under way, bad", under_way(Check::Bad)),
    ]
}

/// "A state handed in that holds a label over 63 is refused by 12."
#[test]
fn no_state_by_its_label() {
    for label in [64, 65, 128, 255] {
        for (place, bus) in labels_held(label) {
            assert!(!bus.is_state(), "{place}: {label}");
            // Whatever the action.
            for record in [Record::default(), request(1, 0, 0, 0), labelled(1, 0, 0, 0, 64), pass()]
            {
                assert_eq!(refused(&bus, record), 12, "{place}: {label}");
            }
        }
    }
    for label in [0, 1, 62, 63] {
        for (place, bus) in labels_held(label) {
            assert!(bus.is_state(), "{place}: {label}");
            assert_eq!(refused(&bus, Record::default()), 2, "{place}: {label}");
            assert_eq!(bus.clone().step(&request(1, 0, 0, 0)), Ok(None), "{place}: {label}");
        }
    }
}

/// At a node from n on: not looked at.
#[test]
fn labels_from_n_on() {
    let at_node_2 = |(_, bus): &(&str, Bus)| bus.phase == Phase::Idle;
    for (place, bus) in labels_held(64).into_iter().filter(at_node_2) {
        let bus = Bus { n: 2, ..bus };
        assert!(bus.is_state(), "{place}");
        let mut after = bus.clone();
        for record in case_b_labelled() {
            after.step(&record).expect("as on a fresh bus");
        }
        assert_eq!(after.nodes[2], bus.nodes[2], "{place}");
    }
}

/// "Records and marks of nodes from n on are neither read nor changed".
#[test]
fn nodes_from_n_on() {
    let mut bus = fresh(2);
    let beyond = Marks(!0b11);
    (bus.won, bus.pending, bus.holder, bus.misled) = (beyond, beyond, beyond, beyond);
    for node in &mut bus.nodes[2..] {
        node.mode = Mode::Sending { step: 200 };
        node.buffer = Some(packet(200, 0, 0, 200));
        node.sending = packet(200, 0, 0, 200);
    }
    let (records, mut seen) = (bus.nodes, bus.clone());
    assert_eq!(refused(&bus, reset()), 7, "no won mark below n");
    for record in case_b() {
        seen.step(&record).expect("as on a fresh bus");
        for marks in [seen.won, seen.pending, seen.holder, seen.misled] {
            assert_eq!(marks.0 & beyond.0, beyond.0);
        }
        assert_eq!(seen.nodes[2..], records[2..]);
    }
    assert_eq!(seen.phase, Phase::Idle);
    seen.step(&reset()).expect("0 has won");
    assert_eq!(seen.won, beyond);
    let granting = Bus { phase: Phase::Granting, ..bus };
    let mut granted = granting.clone();
    assert_eq!(granted.act(Action::Grant), Ok(None), "none pending below n: open, and Busy");
    assert_eq!(granted, Bus { phase: Phase::Busy, ..granting });
}
