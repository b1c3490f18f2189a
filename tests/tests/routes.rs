//! "A route to an outcome" (request 9) and "The first route" (request 11): the numbers in their order,
//! and the search, by hand on the marked cases, on equally short routes and on states handed in, and
//! against an exhaustive search depth first and one that tries records in the order of their bytes.

mod common;

use bench_model::bus::{Action, Bus, Marks, Mode, Phase, Record, Refusal, Report, Signal};
use bench_model::harness::answers::{judge, look};
use bench_model::harness::driver::{Driver, Style};
use bench_model::harness::equally_short::{differences, each, Differences, OF_RUNS, OF_STATES};
use bench_model::harness::parts;
use bench_model::harness::questions::question;
use bench_model::harness::random::Random;
use bench_model::harness::states::StateWay;
use bench_model::routes::{self, events, find, first, print, Question, DEEPEST};
use common::*;

fn asks(word: &'static str, node: u8, depth: u8) -> Question {
    Question { word, node, depth }
}

/// The lines of the route, between commas, or `none`.
fn route(bus: &Bus, question: Question) -> String {
    let mut text = Vec::new();
    print(&mut text, &find(bus, &question).expect("not refused"));
    let text = String::from_utf8(text).expect("plain text");
    text.strip_suffix('\n').expect("whole lines").replace('\n', ", ")
}

/// The route, of this length: it is found at each depth from there on, and at no lower one.
fn first_at(bus: &Bus, word: &'static str, node: u8, length: u8) -> String {
    let within = |depth| route(bus, asks(word, node, depth));
    let found = within(length);
    for depth in 0..=DEEPEST {
        let expected = if depth < length { "none" } else { &found };
        assert_eq!(within(depth), expected, "{word} {node} within {depth}");
    }
    found
}

fn fresh(n: u8) -> Bus {
    Bus::fresh(n).expect("n from 2 to 63")
}

/// 12, "14, depth over 6 or n over 8, looked at after 12", and 4, "looked at last".
#[test]
fn each_numbers_order() {
    let refused = |bus: &Bus, node, depth| find(bus, &asks("miss", node, depth)).err();
    let none = Bus { phase: Phase::Gapping { node: 9 }, ..fresh(9) };
    assert_eq!(refused(&none, 9, 7), Some(Refusal::State));
    assert_eq!(refused(&none, 0, 0), Some(Refusal::State));
    for n in [0, 1, 64, 255] {
        assert_eq!(refused(&Bus { n, ..Bus::REFUSED }, 255, 255), Some(Refusal::State));
    }
    for n in [9, 10, 62, 63] {
        assert_eq!(refused(&fresh(n), n, 7), Some(Refusal::Route));
        assert_eq!(refused(&fresh(n), 255, 6), Some(Refusal::Route));
        assert_eq!(refused(&fresh(n), 0, 0), Some(Refusal::Route));
    }
    for n in 2..=8 {
        for depth in [7, 8, 255] {
            assert_eq!(refused(&fresh(n), 0, depth), Some(Refusal::Route));
            assert_eq!(refused(&fresh(n), n, depth), Some(Refusal::Route));
        }
        for depth in 0..=6 {
            assert_eq!(refused(&fresh(n), n, depth), Some(Refusal::Node));
            assert_eq!(refused(&fresh(n), 255, depth), Some(Refusal::Node));
            assert_eq!(refused(&fresh(n), n - 1, depth), None);
        }
    }
    let numbers = [Refusal::State, Refusal::Route, Refusal::Node].map(Refusal::number);
    assert_eq!(numbers, [12, 14, 4]);
}

/// Case A: `sent` and `broad`, and what the losses of its signals lead to.
#[test]
fn case_a() {
    let mut run = vec![request(0, 63, 1, 2), arbitrate(0)];
    run.extend(packet_of_two());
    assert_eq!(first_at(&after(2, &run[..12]), "sent", 0, 1), "clock 0");
    assert_eq!(first_at(&after(2, &run[..12]), "broad", 1, 2), "clock 0, pass");
    assert_eq!(route(&after(2, &run[..12]), asks("broad", 0, 6)), "none");
    let data = after(2, &run[..11]);
    assert_eq!(first_at(&data, "broad", 1, 3), "pass, clock 0, pass");
    assert_eq!(route(&data, asks("good", 1, 6)), "none");
    assert_eq!(route(&data, asks("miss", 0, 6)), "none");
}

/// Cases B and C: of the Data under way three things can come.
#[test]
fn cases_b_and_c() {
    let run = case_b();
    let data = after(2, &run[..11]);
    assert_eq!(first_at(&data, "good", 1, 3), "pass, clock 0, pass");
    assert_eq!(first_at(&data, "dcrc", 1, 3), "change, clock 0, pass");
    assert_eq!(first_at(&data, "drop", 1, 3), "lose, clock 0, pass");
    assert_eq!(route(&data, asks("broad", 1, 6)), "none");
    // A respond is no bus event: nothing more comes of an Answering node.
    let answering = after(2, &run[..15]);
    for word in Report::WORDS {
        assert_eq!(route(&answering, asks(word, 0, 6)), "none");
    }
    assert_eq!(
        first_at(&after(2, &run[..16]), "ack", 0, 6),
        "clock 1, pass, clock 1, pass, clock 1, pass"
    );
}

/// Case D, "which bus events could make node 0 miss": the Header was lost, and the Data are under way.
#[test]
fn case_d() {
    let mut run = case_b();
    run[9] = lose();
    assert_eq!(first_at(&after(2, &run[..14]), "miss", 0, 3), "grant, clock 1, gap");
    let data = after(2, &run[..11]);
    let way = first_at(&data, "miss", 0, 6);
    let ways = ["pass", "lose", "change"]
        .map(|first| format!("{first}, clock 0, pass, grant, clock 1, gap"));
    assert!(ways.contains(&way), "{way}");
    // In HeadOwn the Data are dropped, good or bad; if they are lost too, the End is. Kind 5 comes first.
    assert_eq!(way, "pass, clock 0, pass, grant, clock 1, gap");
    // From the Header on it takes two actions more.
    assert_eq!(route(&after(2, &run[..9]), asks("miss", 0, 6)), "none");
    assert_eq!(route(&data, asks("miss", 1, 6)), "none");
}

/// Case E: the Ack is under way.
#[test]
fn case_e() {
    let ack = after(2, &case_b()[..19]);
    assert_eq!(first_at(&ack, "ack", 0, 3), "pass, clock 1, pass");
    let way = first_at(&ack, "miss", 0, 3);
    assert!(["lose, clock 1, pass", "change, clock 1, pass"].contains(&&way[..]), "{way}");
    // Lost or changed, the End is missed: kind 6 comes before 7.
    assert_eq!(way, "lose, clock 1, pass");
}

/// Case F: node 2 is in the way of node 1's acknowledgement, and drops what it took for its own.
#[test]
fn case_f() {
    let mut run = vec![request(0, 1, 5, 6), arbitrate(0)];
    run.extend([clock(0), pass(), pass()].repeat(2));
    run.push(clock(0));
    let dest = after(3, &run);
    // Whatever node 1 gets, node 2 reads on only by a change: it drops at the Header, as in the case.
    let way = first_at(&dest, "drop", 2, 5);
    let second = way.split(", ").nth(1);
    assert!(matches!(second, Some("change 2" | "change all")), "{way}");
    // By its own number or by 63 alone.
    assert_eq!(way, "pass, change 2, clock 0, pass, pass");
    run.extend([pass(), change(2)]);
    run.extend([clock(0), pass(), pass()].repeat(3));
    run.extend([grant(), grant(), respond(1, 1, 0)]);
    let spurious = after(3, &run);
    assert_eq!(route(&spurious, asks("ack", 0, 6)), "none");
    assert_eq!(
        spurious.clone().step(&clock(1)),
        Err(Refusal::NotOpen),
        "node 2 holds the bus, too"
    );
}

/// "won and lost never come by kinds 4 to 9", and the empty continuation has no last.
#[test]
fn never_found() {
    let run = replied();
    for length in 0..=run.len() {
        let bus = after(2, &run[..length]);
        for node in 0..2 {
            assert_eq!(route(&bus, asks("won", node, 6)), "none");
            assert_eq!(route(&bus, asks("lost", node, 6)), "none");
            for word in Report::WORDS {
                assert_eq!(route(&bus, asks(word, node, 0)), "none");
            }
        }
    }
}

/// "While a node is Asked, kinds 4 to 10 are not open": so there is no route.
#[test]
fn while_a_node_is_asked() {
    let mut run = vec![request(0, 63, 1, 2), request(1, 0, 3, 4), arbitrate(0)];
    let sending = after(3, &run);
    let mut late = sending.clone();
    late.nodes[0].mode = Mode::Sending { step: 5 };
    assert_eq!(first_at(&late, "sent", 0, 1), "clock 0");
    run.push(ask(1));
    let mut asked = after(3, &run);
    asked.nodes[0].mode = Mode::Sending { step: 5 };
    for word in Report::WORDS {
        assert_eq!(route(&asked, asks(word, 0, 6)), "none");
    }
    // A node from n on is not read.
    late.nodes[5].mode = Mode::Asked;
    assert_eq!(first_at(&late, "sent", 0, 1), "clock 0");
}

/// What runs never reach.
#[test]
fn states_handed_in() {
    // Nobody drops in TailOwn in runs.
    let mut bus = fresh(2);
    let head = packet(1, 7, 8, 9).head;
    bus.nodes[1].mode = Mode::TailOwn { head, data: Some(8) };
    bus.phase = Phase::Delivering { sender: 0, signal: Signal::Dhead, receiver: 1 };
    assert_eq!(first_at(&bus, "drop", 1, 1), "pass");
    assert_eq!(route(&bus, asks("good", 1, 6)), "none");
    bus.phase = Phase::Delivering { sender: 0, signal: Signal::Prefix, receiver: 1 };
    assert_eq!(first_at(&bus, "good", 1, 1), "pass");
    // A Gap under way.
    let mut bus = fresh(2);
    bus.nodes[0].mode = Mode::AwaitAck;
    bus.phase = Phase::Delivering { sender: 1, signal: Signal::Gap, receiver: 0 };
    assert_eq!(first_at(&bus, "miss", 0, 1), "pass");
    // Two Spurious holders, and one more that is in the way for good.
    let mut bus = fresh(4);
    bus.nodes[0].mode = Mode::AwaitAck;
    bus.nodes[1].mode = Mode::Spurious;
    bus.nodes[2].mode = Mode::Spurious;
    bus.holder = Marks(0b0110);
    bus.phase = Phase::Busy;
    let way = first_at(&bus, "miss", 0, 3);
    assert!(["clock 1, clock 2, gap", "clock 2, clock 1, gap"].contains(&&way[..]), "{way}");
    assert_eq!(way, "clock 1, clock 2, gap");
    bus.holder = Marks(0b1110);
    assert_eq!(route(&bus, asks("miss", 0, 6)), "none");
    // Granting with nobody pending.
    let mut bus = fresh(2);
    bus.phase = Phase::Granting;
    bus.holder = Marks(0b01);
    bus.nodes[0].mode = Mode::Sending { step: 5 };
    bus.nodes[0].sending.address = 63;
    assert_eq!(first_at(&bus, "sent", 0, 2), "grant, clock 0");
}

/// "A state handed in that already carries such a packet still plays it out", to its miss: each signal of
/// the packet that is left, and the gaps.
#[test]
fn packets_to_the_node_itself() {
    let mut bus = Bus { phase: Phase::Busy, holder: Marks(0b10), ..fresh(2) };
    bus.nodes[1].sending = packet(1, 5, 6, 7);
    bus.nodes[1].mode = Mode::Sending { step: 5 };
    assert_eq!(first_at(&bus, "miss", 1, 4), "clock 1, pass, gap, gap");
    bus.nodes[1].mode = Mode::Sending { step: 4 };
    let way = first_at(&bus, "miss", 1, 6);
    let ways =
        ["pass", "lose", "change"].map(|data| format!("clock 1, {data}, clock 1, pass, gap, gap"));
    assert!(ways.contains(&way), "{way}");
    assert_eq!(way, "clock 1, pass, clock 1, pass, gap, gap");
    bus.nodes[1].mode = Mode::Sending { step: 3 };
    assert_eq!(route(&bus, asks("miss", 1, 6)), "none");
    // Nobody else hears of it.
    for word in Report::WORDS {
        assert_eq!(route(&bus, asks(word, 0, 6)), "none");
    }
    // In a buffer it waits for kinds 2, 11 and 12, which are no bus events.
    let mut bus = fresh(2);
    bus.nodes[1].buffer = Some(packet(1, 5, 6, 7));
    assert_eq!(route(&bus, asks("miss", 1, 6)), "none");
}

/// One signal that node 0 puts out, passed to all others.
fn passed(n: u8) -> Vec<Record> {
    let mut signal = vec![clock(0)];
    signal.extend(vec![pass(); usize::from(n) - 1]);
    signal
}

/// Node 0 wins with a packet to this address, and so many of its signals are passed: Start, Dhead, Dest,
/// Header, Data, End.
fn signals(n: u8, address: u8, count: usize) -> Vec<Record> {
    let mut run = vec![request(0, address, 5, 6), arbitrate(0)];
    run.extend(passed(n).repeat(count));
    run
}

/// A packet to node 1 that all other nodes take for theirs, and whose Header is lost to all: they are
/// Owed.
fn all_owed(n: u8) -> Vec<Record> {
    let mut run = signals(n, 1, 2);
    run.extend([clock(0), pass()]);
    run.extend((2..n).map(change));
    run.push(clock(0));
    run.extend(vec![lose(); usize::from(n) - 1]);
    run.extend(passed(n).repeat(2));
    run
}

/// The state after all but the last so many of these actions.
fn before(n: u8, run: &[Record], actions: usize) -> Bus {
    after(n, &run[..run.len() - actions])
}

/// Spurious nodes may be clocked in any order, and all of them must be before the gap: the lowest first.
#[test]
fn clocks_of_several_nodes() {
    let mut run = all_owed(3);
    run.extend([grant(), grant()]);
    assert_eq!(first_at(&after(3, &run), "miss", 0, 3), "clock 1, clock 2, gap");
    assert_eq!(first_at(&before(3, &run, 1), "miss", 0, 4), "grant, clock 1, clock 2, gap");
    assert_eq!(first_at(&before(3, &run, 2), "miss", 0, 5), "grant, grant, clock 1, clock 2, gap");
    assert_eq!(
        first_at(&before(3, &run, 3), "miss", 0, 6),
        "pass, grant, grant, clock 1, clock 2, gap"
    );
    let mut run = all_owed(4);
    run.extend([grant(), grant(), grant()]);
    assert_eq!(first_at(&after(4, &run), "miss", 0, 4), "clock 1, clock 2, clock 3, gap");
    run.push(clock(2));
    assert_eq!(first_at(&after(4, &run), "miss", 0, 3), "clock 1, clock 3, gap");
    // A node that sends is clocked when no other node holds the bus any more, whatever its number.
    let mut bus = Bus { phase: Phase::Busy, holder: Marks(0b111), ..fresh(3) };
    bus.nodes[0].mode = Mode::Sending { step: 5 };
    bus.nodes[0].sending = packet(63, 5, 6, 7);
    bus.nodes[1].mode = Mode::Spurious;
    bus.nodes[2].mode = Mode::Spurious;
    assert_eq!(first_at(&bus, "sent", 0, 3), "clock 1, clock 2, clock 0");
}

/// Kind 5 before 6 and 7, where it makes no difference what a node gets: node 2 is in Wait, since the
/// Dest was another node's.
#[test]
fn pass_before_lose_and_change() {
    let mut run = signals(3, 1, 3);
    run.extend([clock(0), pass()]);
    let header = after(3, &run);
    // Node 1 drops at the End, if the Data are lost to it.
    assert_eq!(first_at(&header, "drop", 1, 6), "pass, clock 0, lose, pass, clock 0, pass");
    // After the Header was lost to it, it drops by the Data, good or bad.
    let last = run.len() - 1;
    run[last] = lose();
    assert_eq!(first_at(&after(3, &run), "drop", 1, 3), "pass, clock 0, pass");
    // The Dest has come to node 1, and node 2 may get any.
    let mut run = signals(3, 1, 2);
    run.extend([clock(0), pass()]);
    assert_eq!(first_at(&after(3, &run), "drop", 1, 3), "pass, clock 0, change");
    // A node that waits for an acknowledgement misses it by any Dest.
    let signal = Signal::Dest(1);
    let mut bus = fresh(3);
    bus.nodes[2].mode = Mode::AwaitAck;
    bus.phase = Phase::Delivering { sender: 0, signal, receiver: 2 };
    assert_eq!(first_at(&bus, "miss", 2, 1), "pass");
    bus.phase = Phase::Delivering { sender: 0, signal, receiver: 1 };
    assert_eq!(first_at(&bus, "miss", 2, 2), "pass, pass");
}

/// Kind 6 before 7, where a pass leads elsewhere.
#[test]
fn lose_before_change() {
    // An Ack: the requester misses at the End.
    let run = case_b();
    let miss = |length, actions| first_at(&after(2, &run[..actions]), "miss", 0, length);
    assert_eq!(miss(6, 16), "clock 1, pass, clock 1, lose, clock 1, pass");
    assert_eq!(miss(5, 17), "pass, clock 1, lose, clock 1, pass");
    assert_eq!(miss(4, 18), "clock 1, lose, clock 1, pass");
    assert_eq!(miss(3, 19), "lose, clock 1, pass");
    // With a third node, which is in Wait and may get the Ack.
    let mut run = signals(3, 1, 6);
    run.extend([grant(), respond(1, 1, 0), clock(1), pass(), pass(), clock(1)]);
    assert_eq!(first_at(&after(3, &run), "miss", 0, 4), "lose, pass, clock 1, pass");
    // The Data of a packet to all: who does not get them, or gets bad ones, drops at the End.
    let mut run = signals(3, 63, 4);
    run.push(clock(0));
    let data = after(3, &run);
    assert_eq!(first_at(&data, "drop", 1, 4), "lose, pass, clock 0, pass");
    assert_eq!(first_at(&data, "drop", 2, 5), "pass, lose, clock 0, pass, pass");
    assert_eq!(first_at(&data, "broad", 2, 5), "pass, pass, clock 0, pass, pass");
}

/// Of the addresses that lead there, the lowest.
#[test]
fn the_address_of_a_change() {
    // Node 2 reads the packet to node 1 on by its own number or by 63, misled, and drops at the Header.
    let mut run = signals(3, 1, 2);
    assert_eq!(
        first_at(&after(3, &run), "drop", 2, 6),
        "clock 0, pass, change 2, clock 0, pass, pass"
    );
    run.extend([clock(0), pass()]);
    assert_eq!(first_at(&after(3, &run), "drop", 2, 4), "change 2, clock 0, pass, pass");
    let mut run = signals(3, 2, 2);
    run.push(clock(0));
    assert_eq!(first_at(&after(3, &run), "drop", 1, 4), "change 1, pass, clock 0, pass");
    let mut run = signals(5, 1, 2);
    run.extend([clock(0), pass(), pass(), pass()]);
    assert_eq!(
        first_at(&after(5, &run), "drop", 4, 6),
        "change 4, clock 0, pass, pass, pass, pass"
    );
    // The one whose number it is takes it, and drops by a changed Header; so with a packet to all.
    let mut run = signals(2, 1, 2);
    run.push(clock(0));
    assert_eq!(first_at(&after(2, &run), "drop", 1, 3), "pass, clock 0, change");
    let mut run = signals(2, 63, 2);
    run.push(clock(0));
    assert_eq!(first_at(&after(2, &run), "drop", 1, 3), "pass, clock 0, change");
}

/// The same where the receiver must not take the Dest, though it is its own: an End is the next signal,
/// and whoever is pending then delays the gap. Every other address leads there.
#[test]
fn any_other_address() {
    let own_dest = |n, sender: u8, own: u8, receiver| {
        let signal = Signal::Dest(own);
        let phase = Phase::Delivering { sender, signal, receiver };
        let mut bus = Bus { phase, holder: Marks(1 << sender), ..fresh(n) };
        bus.nodes.iter_mut().for_each(|node| node.mode = Mode::Wait);
        bus.nodes[usize::from(sender)].mode = Mode::Sending { step: 5 };
        bus.nodes[usize::from(sender)].sending = packet(own, 5, 6, 7);
        bus.nodes[usize::from(own)].mode = Mode::Addressed;
        bus
    };
    // `change` is to address 0.
    assert_eq!(first_at(&own_dest(3, 0, 2, 2), "miss", 0, 5), "change, clock 0, pass, pass, gap");
    assert_eq!(
        first_at(&own_dest(3, 0, 2, 1), "miss", 0, 6),
        "pass, change, clock 0, pass, pass, gap"
    );
    assert_eq!(
        first_at(&own_dest(3, 1, 2, 2), "miss", 1, 6),
        "change, clock 1, pass, pass, gap, gap"
    );
    // 0 is its own.
    assert_eq!(first_at(&own_dest(2, 1, 0, 0), "miss", 1, 5), "change 1, clock 1, pass, gap, gap");
}

/// "no route has fewer records", though longer ones come before it by their bytes.
#[test]
fn the_shorter_before_the_lower() {
    let (clock, pass, lose) = (Action::Clock { node: 0 }, Action::Pass, Action::Lose);
    // A Header under way to node 1, which drops by a changed one, by the Data that come after a lost one,
    // and by the End after lost Data.
    let two = after(2, &case_b()[..9]);
    let mut run = signals(3, 1, 3);
    run.push(common::clock(0));
    let three = after(3, &run);
    let longer: [(&Bus, &[Action]); 3] = [
        (&two, &[lose, clock, pass]),
        (&two, &[pass, clock, lose, clock, pass]),
        (&three, &[lose, pass, clock, pass]),
    ];
    for (header, route) in longer {
        check(header, &asks("drop", 1, 6), route);
        assert_eq!(first_at(header, "drop", 1, 1), "change");
    }
}

/// "compared byte by byte from the left": each of these comes before the next one.
#[test]
fn the_first_of_two() {
    let clock = |node| Action::Clock { node };
    let change = |address| Action::Change { address };
    let order = [
        [clock(0), Action::Gap],
        [clock(1), clock(0)],
        [clock(1), clock(7)],
        [clock(1), Action::Pass],
        [Action::Pass, clock(7)],
        [Action::Pass, Action::Lose],
        [Action::Pass, change(0)],
        [Action::Pass, change(63)],
        [Action::Lose, Action::Pass],
        [change(0), Action::Gap],
        [change(1), clock(7)],
        [change(7), change(63)],
        [change(63), clock(0)],
        [Action::Grant, clock(1)],
        [Action::Grant, Action::Grant],
        [Action::Gap, clock(0)],
    ]
    .map(Vec::from);
    for pair in order.windows(2) {
        let [one, other] = pair else { unreachable!("pairs") };
        assert_eq!(first(&[one.clone(), other.clone()]).as_ref(), Some(one));
        assert_eq!(first(&[other.clone(), one.clone()]).as_ref(), Some(one));
    }
    assert_eq!(first(&order).as_ref(), order.first());
    assert_eq!(first(&[]), None);
}

/// Each of these that a program could print is a route; the first alone is the answer.
fn only_the_first(bus: &Bus, question: Question, ways: &[&str]) {
    let ours = find(bus, &question).expect("not refused");
    for (place, way) in ways.iter().enumerate() {
        let theirs = way.replace(", ", "\n") + "\n";
        assert_eq!(look(bus, &question, &ours, theirs.as_bytes()), Ok(()), "{way}");
        let judged = judge(bus, &question, &ours, theirs.as_bytes());
        assert_eq!(judged.is_ok(), place == 0, "{way}: {judged:?}");
    }
}

#[test]
fn routes_and_the_answer() {
    let run = case_b();
    let ack = ["lose, clock 1, pass", "change, clock 1, pass"];
    only_the_first(&after(2, &run[..19]), asks("miss", 0, 3), &ack);
    // A longer one is a route, too.
    let longer = ["change", "lose, clock 0, pass", "pass, clock 0, lose, clock 0, pass"];
    only_the_first(&after(2, &run[..9]), asks("drop", 1, 6), &longer);
    let mut run = all_owed(3);
    run.extend([grant(), grant()]);
    let clocks = ["clock 1, clock 2, gap", "clock 2, clock 1, gap"];
    only_the_first(&after(3, &run), asks("miss", 0, 6), &clocks);
    let mut run = signals(3, 1, 2);
    run.extend([clock(0), pass()]);
    let changes = ["change 2, clock 0, pass, pass", "change all, clock 0, pass, pass"];
    only_the_first(&after(3, &run), asks("drop", 2, 6), &changes);
}

/// "of kinds 4 to 9": a request from Holding and a respond would lead to a Start, by which node 1 drops
/// what it reads. Bus events lead to Prefixes alone, by which it is told.
#[test]
fn no_other_kinds() {
    let head = packet(1, 7, 8, 9).head;
    let tail = Mode::TailOwn { head, data: Some(8) };
    let actions = [(Mode::Holding, request(0, 63, 5, 6)), (Mode::Answering, respond(0, 1, 0))];
    for (mode, action) in actions {
        let mut bus = Bus { phase: Phase::Busy, holder: Marks(0b01), ..fresh(2) };
        (bus.nodes[0].mode, bus.nodes[1].mode) = (mode, tail);
        assert_eq!(route(&bus, asks("drop", 1, 6)), "none");
        assert_eq!(first_at(&bus, "good", 1, 2), "clock 0, pass");
        bus.step(&action).expect("it is open");
        assert_eq!(first_at(&bus, "drop", 1, 2), "clock 0, pass");
    }
}

/// The shortest length there is, by trying all continuations depth first.
fn depth_first(bus: &Bus, question: &Question, left: u8) -> Option<usize> {
    if left == 0 {
        return None;
    }
    let tried = events(bus.n).filter_map(|action| {
        let mut bus = bus.clone();
        let reported = bus.step(&action.into()).ok()?;
        match question.is_given(reported) {
            true => Some(1),
            false => depth_first(&bus, question, left - 1).map(|length| length + 1),
        }
    });
    tried.min()
}

/// The route that is met first if at each place the records are tried in the order of their bytes, for
/// one length after the other.
fn in_order(bus: &Bus, question: &Question) -> Option<Vec<Action>> {
    (1..=question.depth).find_map(|length| in_order_of(bus, question, length))
}

fn in_order_of(bus: &Bus, question: &Question, length: u8) -> Option<Vec<Action>> {
    let mut actions: Vec<Action> = events(bus.n).collect();
    actions.sort_by_key(|&action| Record::from(action).to_bytes());
    actions.into_iter().find_map(|action| {
        let mut bus = bus.clone();
        let reported = bus.step(&action.into()).ok()?;
        let rest = match length {
            1 => question.is_given(reported).then(Vec::new)?,
            _ => in_order_of(&bus, question, length - 1)?,
        };
        Some([vec![action], rest].concat())
    })
}

/// A route: accepted in turn, of kinds 4 to 9 alone, and its last gives the report.
fn check(bus: &Bus, question: &Question, route: &[Action]) {
    let mut bus = bus.clone();
    let mut last = None;
    for &action in route {
        let record = Record::from(action);
        assert!((4..=9).contains(&record.kind), "{record:?}");
        last = bus.step(&record).expect("each action is open");
    }
    assert!(!route.is_empty() && route.len() <= question.depth.into() && question.is_given(last));
}

/// A shortest route against the exhaustive search, at states of runs.
#[test]
fn shortest() {
    let mut random = Random::new(9);
    let mut lengths = [0; 7];
    for _ in 0..400 {
        let n = random.pick(&[2, 2, 3]);
        let style = Style::random(&mut random, n);
        let mut driver = Driver::new(fresh(n), Random::new(random.draw()), style);
        for _ in 0..random.between(1, 120) {
            let _ = driver.play();
        }
        let mut question = question(&mut random, &driver.bus);
        // Three nodes take long to search depth first.
        question.depth = question.depth.min(if n == 2 { 6 } else { 4 });
        let found = find(&driver.bus, &question).expect("not refused");
        let length = found.as_ref().map(Vec::len);
        assert_eq!(length, depth_first(&driver.bus, &question, question.depth), "{question:?}");
        if let Some(route) = &found {
            check(&driver.bus, &question, route);
        }
        lengths[length.unwrap_or(0)] += 1;
    }
    assert!(lengths.iter().all(|&count| count > 0), "{lengths:?}");
}

/// A state after a run, and a question.
fn asked_after_a_run(random: &mut Random, n: u8) -> (Bus, Question) {
    let style = Style::random(random, n);
    let mut driver = Driver::new(fresh(n), Random::new(random.draw()), style);
    for _ in 0..random.between(1, 120) {
        let _ = driver.play();
    }
    let question = question(random, &driver.bus);
    (driver.bus, question)
}

/// The first route against that search, after runs.
#[test]
fn of_made_questions() {
    let mut random = Random::new(9);
    let mut lengths = [0; 7];
    for _ in 0..400 {
        let n = random.pick(&[2, 2, 3]);
        let (bus, question) = asked_after_a_run(&mut random, n);
        let found = find(&bus, &question).expect("not refused");
        assert_eq!(found, in_order(&bus, &question), "{question:?}");
        if let Some(route) = &found {
            check(&bus, &question, route);
        }
        lengths[found.map_or(0, |route| route.len())] += 1;
    }
    assert!(lengths.iter().all(|&count| count > 0), "{lengths:?}");
}

/// "every depth that is not refused and not less than its length gets the same route", after runs and on
/// states handed in.
#[test]
fn at_every_depth() {
    let mut random = Random::new(11);
    let mut lengths = [0; 7];
    for number in 0..400 {
        let n = random.byte(2, 4);
        let (bus, question) = match number % 2 {
            0 => asked_after_a_run(&mut random, n),
            _ => {
                let handed = StateWay::Right.make(&mut random);
                (handed.bus, handed.question)
            }
        };
        let within = |depth| find(&bus, &Question { depth, ..question }).expect("not refused");
        let deepest = within(DEEPEST);
        for depth in 0..DEEPEST {
            let expected = deepest.as_ref().filter(|route| route.len() <= depth.into());
            assert_eq!(within(depth).as_ref(), expected, "{question:?} within {depth}");
        }
        lengths[deepest.map_or(0, |route| route.len())] += 1;
    }
    assert!(lengths.iter().all(|&count| count > 0), "{lengths:?}");
}

/// What README.md says cannot be: another first difference than these, and a first route in which a Dest
/// is changed to 63 or to a node over 4.
fn only_these(bus: &Bus, question: &Question, all: &Differences) {
    let shortest = routes::shortest(bus, question).expect("not refused");
    for (difference, _) in differences(bus, &shortest) {
        assert!(each(all).any(|other| other == difference), "{difference}: {question:?} {bus:?}");
    }
    let first = first(&shortest).unwrap_or_default();
    for part in parts::of(bus, &first) {
        assert!(parts::all().any(|other| other == part), "{part}: {question:?} {bus:?}");
    }
}

#[test]
fn no_other_differences() {
    let mut random = Random::new(12);
    for _ in 0..1000 {
        let n = random.pick(&[2, 3, 3, 4]);
        let (bus, question) = asked_after_a_run(&mut random, n);
        only_these(&bus, &question, &OF_RUNS);
        let handed = StateWay::Right.make(&mut random);
        only_these(&handed.bus, &handed.question, &OF_STATES);
    }
}

/// "actions of kinds 4 to 9", each once.
#[test]
fn bus_events() {
    for n in 2..=8 {
        let records: Vec<Record> = events(n).map(Record::from).collect();
        let open = |record: &&Record| (4..=9).contains(&record.kind) && record.look(n).is_ok();
        assert_eq!(records.iter().filter(open).count(), 2 * usize::from(n) + 5);
        assert_eq!(records.len(), 2 * usize::from(n) + 5);
        assert!((1..records.len()).all(|place| !records[..place].contains(&records[place])));
    }
}
