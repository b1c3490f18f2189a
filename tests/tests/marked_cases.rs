//! Marked cases A to I; the texts are document 01's, or written by hand from its sentences, with the
//! labels of request 3 and the drops of request 4.

mod common;

use bench_model::bus::{Bus, Record, Refusal};
use bench_model::runfile::{self, BLOCK};
use common::*;

/// Case A, as document 01 prints it, and "case A's line 12 reads `12 4 0 sent 0`".
const TEXT_A: &str = "\
nodes 2
0 1 -
1 2 0 won
2 4 -
3 5 -
4 4 -
5 5 -
6 4 -
7 5 -
8 4 -
9 5 -
10 4 -
11 5 -
12 4 0 sent 0
13 5 1 broad 1 2 0
14 9 -
15 9 -
done 16
";

/// "as A but 0 to 1 (5, 6): index 13 reports `1 good 5 6`; grant, respond 1 with 1 and hold 0, three
/// times clock 1 and pass: index 21 reports `0 ack 1`; two gaps, `done 24`", each with label 0
fn text_b() -> String {
    let end = "\
12 4 -
13 5 1 good 5 6 0
14 8 -
15 3 -
16 4 -
17 5 -
18 4 -
19 5 -
20 4 -
21 5 0 ack 1 0
22 9 -
23 9 -
done 24
";
    with_end(TEXT_A, end)
}

/// The place of the line with the same index as this one; there must be one.
fn place_of(line: &str, lines: &[&str]) -> usize {
    fn index(line: &str) -> Option<&str> {
        line.split(' ').next()
    }
    let place = lines.iter().position(|old| index(old) == index(line));
    place.unwrap_or_else(|| panic!("no line with the index of {line:?}"))
}

/// The text with these lines, each in place of the one with its index.
fn with_lines(text: &str, changed: &[&str]) -> String {
    let mut lines: Vec<&str> = text.lines().collect();
    for line in changed {
        let place = place_of(line, &lines);
        lines[place] = line;
    }
    lines.join("\n") + "\n"
}

/// The text with another end, in place of the line with the end's first index and all after it.
fn with_end(text: &str, end: &str) -> String {
    let lines: Vec<&str> = text.lines().collect();
    lines[..place_of(end, &lines)].join("\n") + "\n" + end
}

#[test]
fn a_broadcast() {
    let mut run = vec![request(0, 63, 1, 2), arbitrate(0)];
    run.extend(packet_of_two());
    run.extend([gap(), gap()]);
    assert_eq!(printed(2, &run), TEXT_A);
}

#[test]
fn b_acknowledged() {
    assert_eq!(printed(2, &case_b()), text_b());
}

/// "B with change at 11: 13 reports `1 dcrc 5`"
#[test]
fn c_bad_data() {
    let mut run = case_b();
    run[11] = change(0);
    let text = with_lines(&text_b(), &["11 7 -", "13 5 1 dcrc 5 0"]);
    assert_eq!(printed(2, &run), text);
}

/// "B with lose at 9, nothing reported at 13; grant, clock 1, gap: index 16 reports `0 miss`"; at 11
/// node 1 gets the Data and drops.
#[test]
fn d_lost_header() {
    let mut run = case_b();
    run[9] = lose();
    run.truncate(14);
    run.extend([grant(), clock(1), gap()]);
    let text = with_lines(&text_b(), &["9 6 -", "11 5 1 drop HeadOwn", "13 5 -"]);
    let text = with_end(&text, "14 8 -\n15 4 -\n16 9 0 miss 0\ndone 17\n");
    assert_eq!(printed(2, &run), text);
}

/// "B with lose at 19: 21 reports `0 miss`"
#[test]
fn e_lost_acknowledgement() {
    let mut run = case_b();
    run[19] = lose();
    let text = with_lines(&text_b(), &["19 6 -", "21 5 0 miss 0"]);
    assert_eq!(printed(2, &run), text);
}

#[test]
fn f_changed_address() {
    let mut run = vec![request(0, 1, 5, 6), arbitrate(0)];
    run.extend([clock(0), pass(), pass()].repeat(6));
    run[10] = change(2);
    run.extend([grant(), grant()]);
    let played = "\
nodes 3
0 1 -
1 2 0 won
2 4 -
3 5 -
4 5 -
5 4 -
6 5 -
7 5 -
8 4 -
9 5 -
10 7 -
11 4 -
12 5 -
13 5 2 drop HeadOwn
14 4 -
15 5 -
16 5 -
17 4 -
18 5 1 good 5 6 0
19 5 -
20 8 -
21 8 -
";
    // "after both grants clock 1 is refused 7 until clock 2"
    let early = [&run[..], &[clock(1)]].concat();
    assert_eq!(printed(3, &early), format!("{played}refused 22 7\n"));
    let late = [&run[..], &[clock(2), clock(1)]].concat();
    assert_eq!(printed(3, &late), format!("{played}22 4 -\n23 4 -\ndone 24\n"));
}

#[test]
fn g_zero_bytes() {
    assert_eq!(printed_file(&[0; BLOCK]), "refused 0 1\n");
}

/// Case H's block, byte by byte.
fn block_h() -> [u8; BLOCK] {
    let mut block = [0; BLOCK];
    block[4] = 1;
    block[5] = 2;
    block[14] = 2;
    block[510] = 47;
    block
}

#[test]
fn h_arbitrate_without_request() {
    assert_eq!(runfile::check(&block_h()), 47);
    assert_eq!(runfile::write_file(2, &[arbitrate(0)]).unwrap(), block_h());
    assert_eq!(printed_file(&block_h()), "nodes 2\nrefused 0 7\n");
}

#[test]
fn i_ends_of_the_ranges() {
    for (n, refusal) in
        [(1, Some(Refusal::NodeCount)), (2, None), (63, None), (64, Some(Refusal::NodeCount))]
    {
        assert_eq!(Bus::fresh(n).err(), refusal);
        assert_eq!(runfile::write_file(n, &[request(0, 1, 0, 0)]).err(), refusal);
        let mut block = block_h();
        block[5] = n;
        runfile::seal(&mut block);
        let text = match refusal {
            None => format!("nodes {n}\nrefused 0 7\n"),
            Some(_) => "refused 0 1\n".into(),
        };
        assert_eq!(printed_file(&block), text);
    }
    // In case B: the respond is at 15.
    let mut bus = after(2, &case_b()[..15]);
    assert_eq!(bus.clone().step(&respond(1, 16, 0)), Err(Refusal::AckOrHold));
    assert_eq!(bus.step(&respond(1, 15, 0)), Ok(None));
    let mut run = case_b();
    run[15] = respond(1, 15, 0);
    assert!(printed(2, &run).ends_with("\n21 5 0 ack 15 0\n22 9 -\n23 9 -\ndone 24\n"));
    run[15] = respond(1, 16, 0);
    assert_eq!(runfile::write_file(2, &run), Err(Refusal::AckOrHold));
}

/// Case A with a label: sent and broad end with it.
#[test]
fn a_with_a_label() {
    for label in [1, 7, 62, 63] {
        let mut run = vec![labelled(0, 63, 1, 2, label), arbitrate(0)];
        run.extend(packet_of_two());
        run.extend([gap(), gap()]);
        let (sent, broad) = (format!("12 4 0 sent {label}"), format!("13 5 1 broad 1 2 {label}"));
        assert_eq!(printed(2, &run), with_lines(TEXT_A, &[&sent, &broad]));
    }
}

/// Case B with label 7; the other lines are as without.
fn text_b_labelled() -> String {
    with_lines(&text_b(), &["13 5 1 good 5 6 7", "21 5 0 ack 1 7"])
}

#[test]
fn b_with_a_label() {
    assert_eq!(printed(2, &case_b_labelled()), text_b_labelled());
}

#[test]
fn c_with_a_label() {
    let mut run = case_b_labelled();
    run[11] = change(0);
    let text = with_lines(&text_b_labelled(), &["11 7 -", "13 5 1 dcrc 5 7"]);
    assert_eq!(printed(2, &run), text);
}

#[test]
fn d_with_a_label() {
    let mut run = case_b_labelled();
    run[9] = lose();
    run.truncate(14);
    run.extend([grant(), clock(1), gap()]);
    let text = with_lines(&text_b_labelled(), &["9 6 -", "11 5 1 drop HeadOwn", "13 5 -"]);
    let text = with_end(&text, "14 8 -\n15 4 -\n16 9 0 miss 7\ndone 17\n");
    assert_eq!(printed(2, &run), text);
}

#[test]
fn e_with_a_label() {
    let mut run = case_b_labelled();
    run[19] = lose();
    let text = with_lines(&text_b_labelled(), &["19 6 -", "21 5 0 miss 7"]);
    assert_eq!(printed(2, &run), text);
}

#[test]
fn f_with_a_label() {
    let mut run = vec![labelled(0, 1, 5, 6, 63), arbitrate(0)];
    run.extend([clock(0), pass(), pass()].repeat(6));
    run[10] = change(2);
    run.extend([grant(), grant(), clock(2), respond(1, 3, 0)]);
    run.extend([clock(1), pass(), pass()].repeat(3));
    // Node 2 is at rest again, and takes the acknowledgement for a packet.
    let expected = [
        "1 2 0 won",
        "13 5 2 drop HeadOwn",
        "18 5 1 good 5 6 63",
        "31 5 0 ack 3 63",
        "32 5 2 drop Addressed",
    ];
    assert_eq!(reports(&printed(3, &run)), expected);
}

/// The text up to index 13.
fn up_to_13(text: &str) -> String {
    let lines: Vec<&str> = text.lines().take(15).collect();
    lines.join("\n") + "\ndone 14\n"
}

/// B up to 13: the Data lost; the Header with a bad check, after which nothing is told at the End.
/// No label ends a drop.
#[test]
fn drops_of_b() {
    for run in [case_b(), case_b_labelled()] {
        let mut lost = run[..14].to_vec();
        lost[11] = lose();
        let text = with_lines(&up_to_13(&text_b()), &["11 6 -", "13 5 1 drop BodyOwn"]);
        assert_eq!(printed(2, &lost), text);
        let mut bad = run[..14].to_vec();
        bad[9] = change(0);
        let text = with_lines(&up_to_13(&text_b()), &["9 7 1 drop HeadOwn", "13 5 -"]);
        assert_eq!(printed(2, &bad), text);
    }
}

/// A: the Header lost; the Data lost; the Data with a bad check.
#[test]
fn drops_of_a() {
    let mut run = vec![request(0, 63, 1, 2), arbitrate(0)];
    run.extend(packet_of_two());
    run.extend([gap(), gap()]);
    let cases: [(usize, Record, &[&str]); 3] = [
        (9, lose(), &["9 6 -", "11 5 1 drop HeadAll", "13 5 -"]),
        (11, lose(), &["11 6 -", "13 5 1 drop BodyAll"]),
        (11, change(0), &["11 7 -", "13 5 1 drop TailAll"]),
    ];
    for (place, fault, lines) in cases {
        let mut run = run.clone();
        run[place] = fault;
        assert_eq!(printed(2, &run), with_lines(TEXT_A, lines));
    }
}

/// As case I, for labels: "63 taken, 64 refused".
#[test]
fn i_ends_of_the_range_of_labels() {
    let run = |label| vec![labelled(0, 1, 5, 6, label)];
    assert_eq!(Bus::fresh(2).unwrap().step(&run(63)[0]), Ok(None));
    assert_eq!(Bus::fresh(2).unwrap().step(&run(64)[0]), Err(Refusal::Label));
    assert_eq!(printed(2, &run(63)), "nodes 2\n0 1 -\ndone 1\n");
    assert_eq!(runfile::write_file(2, &run(64)), Err(Refusal::Label));
    let mut block = [0; BLOCK];
    runfile::write_unchecked(&mut block, 0, 2, &run(64));
    assert_eq!(printed_file(&block), "nodes 2\nrefused 0 13\n");
}

/// "older runs hold 0 there": a file with 0 in byte 5 of each record prints document 01's lines, the
/// six reports with 0 at their end.
#[test]
fn older_runs() {
    let plays = |run: &[Record], old: &[&str]| {
        let file = runfile::write_file(2, run).unwrap();
        assert!(file[14..510].chunks(16).all(|record| record[5] == 0));
        let with_label = |line: &&str| match line.ends_with("won") || line.ends_with("lost") {
            true => line.to_string(),
            false => format!("{line} 0"),
        };
        let expected: Vec<String> = old.iter().map(with_label).collect();
        assert_eq!(reports(&printed_file(&file)), expected);
    };
    let mut run = vec![request(0, 63, 1, 2), arbitrate(0)];
    run.extend(packet_of_two());
    plays(&run, &["1 2 0 won", "12 4 0 sent", "13 5 1 broad 1 2"]);
    plays(&case_b(), &["1 2 0 won", "13 5 1 good 5 6", "21 5 0 ack 1"]);
    let mut run = case_b();
    run[11] = change(0);
    run[19] = lose();
    run.extend([request(0, 1, 0, 0), arbitrate(0)]);
    plays(&run, &["1 2 0 won", "13 5 1 dcrc 5", "21 5 0 miss", "25 2 0 lost"]);
}
