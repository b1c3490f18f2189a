//! "What a node does with a signal": all 350 cells, as a table written by hand from the rows.

mod common;

use bench_model::bus::{Effect, Mode, Signal};
use common::chart::{rows, Answer, Receiver, RECEIVERS};
use common::packet;

/// What the table says: the mode with what it remembers, and what else comes of the signal.
fn expected(receiver: &Receiver, before: &str, signal: Signal, answer: Answer) -> (Mode, Effect) {
    let Answer { next, report, pending } = answer;
    let mode = match next == before {
        true => receiver.mode(before),
        false => receiver.entering_by(signal).mode(next),
    };
    let effect = match report {
        Some(word) => Effect::Report(receiver.report(before, word)),
        None if pending => Effect::Pending,
        None => Effect::Nothing,
    };
    (mode, effect)
}

#[test]
fn every_cell() {
    for receiver in RECEIVERS {
        let mut cells = 0;
        for (before, answers) in rows() {
            let node = receiver.node(receiver.mode(before));
            for (signal, answer) in receiver.signals().into_iter().zip(answers) {
                assert_eq!(
                    node.receive(receiver.own, signal),
                    expected(&receiver, before, signal, answer),
                    "{before} on {signal:?}, {receiver:?}"
                );
                cells += 1;
            }
        }
        assert_eq!(cells, 350);
    }
}

#[test]
fn line_signals_are_the_first_four() {
    let line = RECEIVERS[0].signals().map(Signal::is_line);
    assert_eq!(line[..4], [true; 4]);
    assert_eq!(line[4..], [false; 10]);
}

#[test]
fn a_fresh_record_is_all_zero() {
    let fresh = bench_model::bus::Node::FRESH;
    assert_eq!(fresh.mode, Mode::Rest);
    assert_eq!(fresh.buffer, None);
    assert_eq!(fresh.sending, packet(0, 0, 0, 0));
}
