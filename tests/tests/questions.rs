//! Questions in plain words and states handed in as bytes: the readers and what they say of wrong ones,
//! by hand from docs/NOTATION.md.

mod common;

use std::collections::BTreeMap;

use bench_model::bus::Report;
use bench_model::harness::questions::{aims, within, QuestionWay};
use bench_model::harness::random::Random;
use bench_model::harness::states::StateWay;
use bench_model::notation;
use bench_model::probe::{self, Bytes};
use bench_model::questions::{find, read, read_line, read_stream, Asked, Line};
use bench_model::routes::Question;
use bench_model::settings;
use common::plain::{byte_by_byte, complaint_of, flaw_of, model};
use common::*;

fn question(line: &str) -> Question {
    match read_line(line.as_bytes()) {
        Ok(Line::Find(question)) => question,
        other => panic!("{line}: {other:?}"),
    }
}

/// What is wrong in a line, with its cause.
fn flaw(line: impl AsRef<[u8]>) -> String {
    flaw_of(read_line(line.as_ref()))
}

/// The line of standard error for a wrong text.
fn complaint(text: impl AsRef<[u8]>) -> String {
    complaint_of(find(text.as_ref()))
}

fn asked(text: impl AsRef<[u8]>) -> Asked {
    read(text.as_ref()).expect("a right text")
}

/// What is printed of a right text.
fn printed(text: impl AsRef<[u8]>) -> String {
    let (printed, said) = find(text.as_ref());
    assert_eq!(said, "");
    String::from_utf8(printed).expect("plain text")
}

#[test]
fn each_line() {
    let miss = Question { word: "miss", node: 0, depth: 6 };
    assert_eq!(question("find miss 0 within 6"), miss);
    assert_eq!(question("\tfind\rmiss 0x0 within  006 # miss"), miss);
    assert_eq!(
        question("find drop 255 within 0XfF"),
        Question { word: "drop", node: 255, depth: 255 }
    );
    for word in Report::WORDS {
        assert_eq!(question(&format!("find {word} 1 within 2")).word, word);
    }
    // All else is as in runs.
    for line in ["", "# find", "nodes 3", "pass * 6", "clock 1", "change all"] {
        let run = notation::read_line(line.as_bytes()).expect("a right line");
        assert_eq!(read_line(line.as_bytes()), Ok(Line::Run(run)));
    }
}

/// Case B up to its Data, as a text.
const TO_DATA: &str = "nodes 2\nrequest 0 1 5 6\narbitrate 0\nclock 0\npass\nclock 0\npass\n\
    clock 0\npass\nclock 0\npass\nclock 0\n";

#[test]
fn whole_texts() {
    assert_eq!(printed(format!("{TO_DATA}find good 1 within 3\n")), "pass\nclock 0\npass\n");
    assert_eq!(printed(format!("{TO_DATA}find dcrc 1 within 6")), "change\nclock 0\npass\n");
    assert_eq!(printed(format!("{TO_DATA}find dcrc 1 within 2\n")), "none\n");
    let text = format!("{TO_DATA} find drop 0x1 within 3 # how?\n\n \t\r\n# find\n");
    assert_eq!(printed(text), "lose\nclock 0\npass\n");
    // "the run may have no action"
    let fresh = asked("nodes 8\nfind won 7 within 6\n");
    assert_eq!(fresh.bus, after(8, &[]));
    assert_eq!(fresh.question, Question { word: "won", node: 7, depth: 6 });
    assert_eq!(printed("nodes 8\nfind won 7 within 6\n"), "none\n");
    // "an action as often as its line says"
    let text =
        "nodes 3\nrequest 1 all 0x5 6 label 9\narbitrate 1\nclock 1\npass * 2\nclock 1 * 1\n";
    let records = [labelled(1, 63, 5, 6, 9), arbitrate(1), clock(1), pass(), pass(), clock(1)];
    assert_eq!(asked(format!("{text}find sent 1 within 0")).bus, after(3, &records));
}

/// A packet of node 2 to node 0 on three nodes that node 1 takes too, and whose Header both lose: they
/// are Owed, and granted the bus.
const TO_SPURIOUS: &str = "nodes 3\nrequest 2 0 5 6\narbitrate 2\nclock 2\npass * 2\nclock 2\n\
    pass * 2\nclock 2\npass\nchange 1\nclock 2\nlose * 2\nclock 2\npass * 2\nclock 2\npass * 2\n\
    grant * 2\n";

/// "`clock 0` before `clock 1`, `pass` before `lose` before `change`, and a Dest's `change` to a node
/// before `change all`"; and the same at each depth that is enough.
#[test]
fn the_first_route() {
    let dest = "nodes 3\nrequest 1 0 5 6\narbitrate 1\nclock 1\npass * 2\nclock 1\npass * 2\n\
        clock 1\n";
    let acking = format!("{TO_DATA}pass\nclock 0\npass\ngrant\nrespond 1 1\nclock 1\npass\n");
    let to_header = TO_DATA.strip_suffix("pass\nclock 0\n").expect("the Header is passed");
    let header_lost = format!("{to_header}lose\nclock 0\n");
    for (run, asked, route) in [
        (TO_SPURIOUS, "miss 2", "clock 0\nclock 1\ngap\ngap\ngap\n"),
        (&header_lost, "drop 1", "pass\n"),
        (&header_lost, "miss 0", "pass\nclock 0\npass\ngrant\nclock 1\ngap\n"),
        (&acking, "miss 0", "clock 1\nlose\nclock 1\npass\n"),
        (dest, "drop 2", "pass\nchange 2\nclock 1\npass\npass\n"),
        (dest, "drop 0", "pass\npass\nclock 1\nchange\n"),
    ] {
        let length = route.lines().count();
        for depth in 0..=6 {
            let answer = if depth < length { "none\n" } else { route };
            let text = format!("{run}find {asked} within {depth}\n");
            assert_eq!(printed(text), answer, "{asked} within {depth}");
        }
    }
}

/// Every fault of the tables, with the words of the document.
#[test]
fn faults_and_their_lines() {
    let mut met = BTreeMap::new();
    let deep = "a route has at most 6 actions, on a bus of at most 8 nodes";
    let closed = "not open when its turn comes";
    for (text, words) in [
        ("nodes 2\nfind\n", "line 2: missing field: the report of find".into()),
        ("nodes 2\nfind miss\n", "line 2: missing field: the node of find".into()),
        ("nodes 2\nfind miss 0\n", "line 2: missing field: the depth of find".into()),
        ("nodes 2\nfind miss 0 within # 3\n", "line 2: missing field: the depth of find".into()),
        ("nodes 2\nfind Miss 0 within 3\n", "line 2: unknown word: \"Miss\"".into()),
        ("nodes 2\nfind 0 miss within 3\n", "line 2: unknown word: \"0\"".into()),
        ("nodes 2\nfind miss 0 in 3\n", "line 2: unknown word: \"in\"".into()),
        ("nodes 2\nfind miss 0 3\n", "line 2: unknown word: \"3\"".into()),
        ("nodes 2\nFind miss 0 within 3\n", "line 2: unknown word: \"Find\"".into()),
        ("nodes 2\nwithin 3\n", "line 2: unknown word: \"within\"".into()),
        (
            "nodes 2\nfind miss 0 within*6\n",
            "line 2: unknown word: \"within*6\" (write spaces around *)".into(),
        ),
        (
            "nodes 2\nfind miss within 3\n",
            "line 2: not a number: \"within\", the node of find".into(),
        ),
        (
            "nodes 2\nfind miss all within 3\n",
            "line 2: not a number: \"all\", the node of find".into(),
        ),
        (
            "nodes 2\nfind miss 0 within x y\n",
            "line 2: not a number: \"x\", the depth of find".into(),
        ),
        (
            "nodes 2\nfind miss 256 within\n",
            "line 2: number too large: \"256\", the node of find, at most 255".into(),
        ),
        (
            "nodes 2\nfind miss 9 within 0x100 *\n",
            "line 2: number too large: \"0x100\", the depth of find, at most 255".into(),
        ),
        ("nodes 2\nfind miss 0 within 3 4\n", "line 2: extra field: \"4\"".into()),
        ("nodes 2\nfind miss 0 within 3 * 2\n", "line 2: extra field: \"*\"".into()),
        ("nodes 2\nfind miss 9 within 9 find\n", "line 2: extra field: \"find\"".into()),
        ("nodes 2\npass * 0\n", "line 2: repeat of 0".into()),
        ("nodes 2\nnodes 2\n", "line 2: a second nodes line".into()),
        // "A text without a `nodes` line, or whose first line that says something is `find`"
        ("", "line 0: no nodes line".into()),
        ("\n# find miss 0 within 3\n", "line 2: no nodes line".into()),
        ("\nfind miss 9 within 9\nnodes 2\n", "line 2: no nodes line".into()),
        ("pass\n", "line 1: no nodes line".into()),
        // "The text ends without a line `find`."
        ("nodes 2\n", "line 1: no find line".into()),
        ("nodes 2\nrequest 0 1 5 6\n\n", "line 3: no find line".into()),
        // "A line that says something, and is not wrong by itself, after the line `find`."
        ("nodes 2\nfind won 0 within 0\npass\n", "line 3: a line after find".into()),
        ("nodes 2\nfind won 0 within 0\n\nnodes 2\n", "line 4: a line after find".into()),
        ("nodes 2\nfind won 0 within 0\nfind won 9 within 9\n", "line 3: a line after find".into()),
        ("nodes 2\nfind won 0 within 0\nclock 9\n", "line 3: a line after find".into()),
        ("nodes 2\nfind won 0 within 0\nrespond 0 16\n", "line 3: a line after find".into()),
        ("nodes 2\nfind won 0 within 0\nrequest 0 0 5 6\n", "line 3: a line after find".into()),
        ("nodes 2\nfind won 0 within 0\nnodes 64\n", "line 3: a line after find".into()),
        (
            "nodes 2\nfind won 0 within 0\nclock\n",
            "line 3: missing field: the node of clock".into(),
        ),
        ("nodes 2\nfind won 0 within 0\npas\n", "line 3: unknown word: \"pas\"".into()),
        (
            "nodes 2\nfind won 0 within 0\nfind\n",
            "line 3: missing field: the report of find".into(),
        ),
        // 7 is "looked at after 2 to 6, 13 and 15".
        ("nodes 2\n\nclock 1 # no\n", format!("line 3: refused 7: clock 1: {closed}")),
        ("nodes 2\nclock 2\n", "line 2: refused 4: clock 2: no node 2, nodes are 0 to 1".into()),
        (
            "nodes 2\nchange 2\n",
            "line 2: refused 5: change 2: no address 2, addresses are 0 to 1 and all".into(),
        ),
        (
            "nodes 2\nrequest 0 1 2 3 label 64\n",
            "line 2: refused 13: request 0 1 2 3 label 64: no label 64, labels are 0 to 63".into(),
        ),
        (
            "nodes 2\nrespond 0 16\n",
            "line 2: refused 6: respond 0 16: no acknowledgement 16, they are 0 to 15".into(),
        ),
        (
            "nodes 2\nrequest 0 0 5 6\n",
            "line 2: refused 15: request 0 0 5 6: node 0 would send to itself".into(),
        ),
        (
            "nodes 2\nrequest 1 all 5 6\nrequest 1 1 5 6 * 2\n",
            "line 3: refused 15: request 1 1 5 6 * 2: node 1 would send to itself".into(),
        ),
        (
            "nodes 2\nrequest 1 all 5 6\nrequest 1 1 5 6 label 64\n",
            "line 3: refused 13: request 1 1 5 6 label 64: no label 64, labels are 0 to 63".into(),
        ),
        // "or one of its repetitions"
        ("nodes 2\nrequest 0 1 5 6\trequest\n", "line 2: extra field: \"request\"".into()),
        (
            "nodes 2\nrequest 0\t1 5 6 *  2\n",
            format!("line 2: refused 7: request 0 1 5 6 *  2: {closed}"),
        ),
        (
            "nodes 3\nrequest 0 1 5 6\narbitrate 0\nclock 0\npass * 4294967295\n",
            format!("line 5: refused 7: pass * 4294967295: {closed}"),
        ),
        // 14, then 4.
        (
            "nodes 2\nfind miss 0 within 7\n",
            format!("line 2: refused 14: find miss 0 within 7: {deep}"),
        ),
        (
            "nodes 9\nfind miss 0 within 0\n",
            format!("line 2: refused 14: find miss 0 within 0: {deep}"),
        ),
        (
            "nodes 63\nfind won 255 within 255 # x\n",
            format!("line 2: refused 14: find won 255 within 255: {deep}"),
        ),
        (
            "nodes 2\nfind miss 2 within 7\nx\n",
            format!("line 2: refused 14: find miss 2 within 7: {deep}"),
        ),
        (
            "nodes 2\nfind miss 0x2 within 6\nx\n",
            "line 2: refused 4: find miss 0x2 within 6: no node 2, nodes are 0 to 1".into(),
        ),
        (
            "nodes 8\nfind  miss\t8 within 0\n",
            "line 2: refused 4: find  miss 8 within 0: no node 8, nodes are 0 to 7".into(),
        ),
        (
            "nodes 64\nfind miss 0 within 7\n",
            "line 1: refused 1: nodes 64: a bus has 2 to 63 nodes".into(),
        ),
    ] {
        assert_eq!(complaint(text), words, "{text:?}");
        *met.entry(words.split(": ").nth(1).unwrap().to_string()).or_insert(0) += 1;
    }
    assert_eq!(
        complaint(format!("nodes 2\nfind{}\n", " ".repeat(252))),
        "line 2: line over 255 bytes"
    );
    // All but `line over 255 bytes`; a question cannot have `no action` and `too many actions`.
    assert_eq!(met.len(), 18, "{met:?}");
    // The page's own example has its line 9.
    let nine = "nodes 2\n\n\n\n\n\n\n\nfind miss 0 within 7\n";
    assert_eq!(complaint(nine), format!("line 9: refused 14: find miss 0 within 7: {deep}"));
}

/// The words of questions are no words of runs and of settings.
#[test]
fn of_questions_alone() {
    for line in ["find", "find miss 0 within 3", "within 3", "miss 0"] {
        let word = line.split(' ').next().unwrap();
        let unknown = format!("unknown word: \"{word}\"");
        assert_eq!(flaw_of(notation::read_line(line.as_bytes())), unknown);
        assert_eq!(flaw_of(settings::read_line(line.as_bytes())), unknown);
    }
    assert_eq!(flaw("clock find"), "not a number: \"find\", the node of clock");
    assert_eq!(flaw("pass within"), "extra field: \"within\"");
    assert_eq!(flaw("user 0"), "unknown word: \"user\"");
}

#[test]
fn the_byte_order_mark() {
    let text = format!("{TO_DATA}find good 1 within 3\n");
    let marked = [&b"\xef\xbb\xbf"[..], text.as_bytes()].concat();
    assert_eq!(printed(marked), printed(text));
    assert_eq!(complaint(b"\xef\xbb\xbf"), "line 0: no nodes line");
    assert_eq!(
        complaint(b"nodes 2\n\xef\xbb\xbffind"),
        r#"line 2: unknown word: "\xEF\xBB\xBFfind""#
    );
}

/// A text that comes byte by byte.
#[test]
fn streams() {
    let mut random = Random::new(4);
    for way in QuestionWay::all().into_iter().step_by(3) {
        let text = way.make(&mut random).text;
        assert_eq!(read_stream(&mut byte_by_byte(&text)).unwrap(), read(&text));
    }
}

/// The generators: a right text asks the question that it was made of, a wrong one has the fault that
/// it was made with. What they hit `compare-find` says.
#[test]
fn random_texts() {
    let mut random = Random::new(2);
    for way in QuestionWay::all() {
        let case = way.make(&mut random);
        let read = read(&case.text);
        let checked = case.check(&read, |asked| asked.question);
        assert_eq!(checked, Ok(()), "{way:?}: {}", String::from_utf8_lossy(&case.text));
        let hits = match &read {
            Ok(asked) => aims::hits_of_answer(&case.text, asked, &None),
            Err(complaint) => aims::hits_of_fault(&case.text, complaint),
        };
        assert!(!hits.is_empty(), "{way:?}: {}", String::from_utf8_lossy(&case.text));
    }
}

/// The same question at another depth, for `compare-find`: nothing else is read of the text.
#[test]
fn other_depths() {
    let text = b"nodes 2 # find\n\n find\tmiss 0x1 within 03 # why?\n#find\n";
    let other = b"nodes 2 # find\n\nfind miss 1 within 6\n#find\n";
    assert_eq!(within(text, &asked(text).question, 6), other);
    let mut random = Random::new(7);
    for way in QuestionWay::all().into_iter().step_by(5) {
        let text = way.make(&mut random).text;
        let Ok(asked) = read(&text) else { continue };
        let depth = random.byte(0, 6);
        let question = Question { depth, ..asked.question };
        assert_eq!(read(&within(&text, &question, depth)), Ok(Asked { question, ..asked }));
    }
}

/// "Gapping from 0, node 0 in AwaitAck" by hand, and every made state back from its bytes.
#[test]
fn states_as_bytes() {
    let mut bytes: Bytes = [0; 384];
    (bytes[0], bytes[1], bytes[12], bytes[14]) = (2, 4, 5, 1);
    bytes[24] = 1;
    let mut text = Vec::new();
    let (bus, question) = probe::read(&bytes).expect("a question");
    probe::answer(&mut text, &bus, &question);
    assert_eq!(text, b"gap\n\n");
    for (place, none) in [(1, 5), (12, 0), (12, 10), (24, 22)] {
        let mut bytes = bytes;
        bytes[place] = none;
        assert_eq!(probe::read(&bytes), None);
    }
    let mut random = Random::new(3);
    for way in StateWay::all() {
        let handed = way.make(&mut random);
        assert_eq!(probe::read(&handed.bytes), Some((handed.bus, handed.question)), "{way:?}");
    }
}

/// Busy, with nodes 1 and 2 Spurious, node 0 in AwaitAck: "the lower byte where they first differ comes
/// first".
#[test]
fn the_first_route_of_a_state() {
    let mut bytes: Bytes = [0; 384];
    (bytes[0], bytes[1], bytes[12], bytes[14]) = (3, 1, 5, 6);
    bytes[24] = 1;
    for node in [64, 104] {
        (bytes[node], bytes[node + 7]) = (19, 1);
    }
    let mut text = Vec::new();
    let (bus, question) = probe::read(&bytes).expect("a question");
    probe::answer(&mut text, &bus, &question);
    assert_eq!(text, b"clock 1\nclock 2\ngap\n\n");
}

/// Each byte of the layout, by hand.
#[test]
fn the_layout() {
    let mut bytes: Bytes = [0; 384];
    // n, phase, sender, receiver, Header, good, label, the bus's own mark, header.
    bytes[..12].copy_from_slice(&[9, 2, 3, 4, 6, 1, 33, 1, 1, 2, 3, 4]);
    bytes[12..15].copy_from_slice(&[6, 7, 8]);
    // Node 8: TailOwn with good data; won, holder; a full buffer.
    let node = &mut bytes[24 + 40 * 8..];
    node[..14].copy_from_slice(&[10, 0, 0, 1, 44, 1, 0, 1, 0, 1, 63, 12, 5, 13]);
    for (place, byte) in node[16..40].iter_mut().enumerate() {
        *byte = place as u8;
    }
    let (bus, question) = probe::read(&bytes).expect("a question");
    assert_eq!((bus.n, bus.concatenated), (9, true));
    assert_eq!(question, Question { word: "drop", node: 7, depth: 8 });
    assert_eq!(format!("{:?}", bus.phase), "Delivering { sender: 3, signal: Header(Head { header: 67305985, label: 33 }, Good), receiver: 4 }");
    let marks = [bus.won, bus.pending, bus.holder, bus.misled].map(|marks| marks.has(8));
    assert_eq!(marks, [true, false, true, false]);
    let word = |first: u32| u32::from_le_bytes([0, 1, 2, 3]) + first * 0x01010101;
    let node = bus.node(8);
    assert_eq!(
        format!("{:?}", node.mode),
        format!(
            "TailOwn {{ head: Head {{ header: {}, label: 44 }}, data: Some({}) }}",
            word(0),
            word(4)
        )
    );
    assert_eq!(node.buffer, Some(packet(63, word(8), word(12), 12)));
    assert_eq!(node.sending, packet(5, word(16), word(20), 13));
    assert_eq!(probe::write(&bus, &question), bytes);
}

/// What `model find` and `model probe` write.
#[test]
fn the_subcommands() {
    let run = |name: &str, input: &[u8]| {
        let (status, output, errors) = model(&[name], input);
        (status, String::from_utf8(output).unwrap(), errors)
    };
    let text = format!("{TO_DATA}find good 1 within 3\n");
    let route = "pass\nclock 0\npass\n";
    assert_eq!(run("find", text.as_bytes()), (Some(0), route.into(), String::new()));
    let wrong = "line 1: no find line\n";
    assert_eq!(run("find", b"nodes 2"), (Some(0), String::new(), wrong.into()));
    let mut bytes = [0; 384 * 3];
    (bytes[0], bytes[12]) = (2, 1);
    (bytes[384], bytes[384 + 12], bytes[384 + 14]) = (2, 1, 7);
    bytes[384 * 2 + 12] = 1;
    let answers = "none\n\nrefused 14\n\nrefused 12\n\n";
    assert_eq!(run("probe", &bytes), (Some(0), answers.into(), String::new()));
    // "Bytes at the end that are no whole question are not answered."
    let answers = "none\n\nrefused 14\n\n";
    assert_eq!(run("probe", &bytes[..384 * 3 - 1]), (Some(0), answers.into(), String::new()));
    assert_eq!(run("probe", b""), (Some(0), String::new(), String::new()));
    bytes[12] = 10;
    assert_eq!(run("probe", &bytes).0, Some(1));
}
