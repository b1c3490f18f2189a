//! `model bench-find`: the processor time of the program `find` for questions that take long, since
//! there is no route and much to try.

use std::fs;
use std::io;
use std::path::Path;

use super::bench::{median, milliseconds, Player};
use super::child::Scratch;
use crate::questions;

pub struct Options<'a> {
    pub find: &'a Path,
    pub rounds: usize,
}

/// n = 8: node 0 has won, and its packet goes to node 1. All others get what is put out.
const WON: &str = "nodes 8\nrequest 0 1 5 6\narbitrate 0\n";
const TO_ALL: &str = "nodes 8\nrequest 0 all 5 6\narbitrate 0\n";
/// A signal to all 7 receivers; the Dest to its first receiver, each Dest changed to the receiver's own.
const PUT_OUT: &str = "clock 0\npass * 7\n";
const MISLEAD: &str = "clock 0\npass\nchange 2\nchange 3\nchange 4\nchange 5\nchange 6\nchange 7\n";

/// Where a run stops, its lines, and a report that no route within 6 actions leads to, beside `won`.
const QUESTIONS: [(&str, &str, &[(&str, usize)], &str); 9] = [
    ("an Idle bus", "", &[("nodes 8\n", 1)], "ack 0"),
    ("a Start under way", WON, &[(PUT_OUT, 0), ("clock 0\n", 1)], "ack 0"),
    ("a Dest under way", WON, &[(PUT_OUT, 2), ("clock 0\n", 1)], "ack 0"),
    ("a Dest to all under way", TO_ALL, &[(PUT_OUT, 2), ("clock 0\n", 1)], "good 7"),
    ("before a Dest", WON, &[(PUT_OUT, 2)], "ack 0"),
    ("a Header under way", WON, &[(PUT_OUT, 3), ("clock 0\n", 1)], "ack 0"),
    (
        "a Header under way, all misled",
        WON,
        &[(PUT_OUT, 2), (MISLEAD, 1), ("clock 0\n", 1)],
        "ack 0",
    ),
    ("Data under way", WON, &[(PUT_OUT, 4), ("clock 0\n", 1)], "ack 0"),
    (
        "seven nodes Spurious",
        WON,
        &[(PUT_OUT, 2), (MISLEAD, 1), ("clock 0\nlose * 7\n", 1), (PUT_OUT, 2), ("grant * 7\n", 1)],
        "ack 0",
    ),
];

/// The text of a question that is not answered before all was tried.
fn text(start: &str, parts: &[(&str, usize)], report: &str) -> String {
    let run: String = parts.iter().map(|(lines, times)| lines.repeat(*times)).collect();
    format!("{start}{run}find {report} within 6\n")
}

pub fn bench_find(options: &Options) -> Result<(), String> {
    run(options).map_err(|error| error.to_string())
}

fn run(options: &Options) -> io::Result<()> {
    let scratch = Scratch::new()?;
    let input = scratch.file("bench.txt");
    let find = Player::new("FIND", options.find);
    println!(
        "Questions with no route, n = 8, within 6 actions: processor time on this machine, process start included, medians of {} rounds.",
        options.rounds
    );
    for (place, start, parts, other) in QUESTIONS {
        for report in ["won 0", other] {
            let text = text(start, parts, report);
            assert_eq!(questions::find(text.as_bytes()), (b"none\n".to_vec(), String::new()));
            fs::write(&input, text)?;
            let times: io::Result<Vec<f64>> =
                (0..options.rounds).map(|_| milliseconds(&find, &input)).collect();
            println!("  {place}, {report}: {:.2} ms", median(times?));
        }
    }
    Ok(())
}
