//! Runs in plain words: the parser, the composer and the printer, by hand from docs/NOTATION.md.

mod common;

use bench_model::bus::{Action, Record};
use bench_model::notation::{
    compose, compose_stream, lines, list, print_action, read_line, Fault, Line,
};
use bench_model::runfile::{self, BLOCK};
use common::plain::flaw_of;
use common::*;

fn acts(line: &str) -> Record {
    match read_line(line.as_bytes()) {
        Ok(Line::Acts(record, 1)) => record,
        other => panic!("{line}: {other:?}"),
    }
}

fn fault(line: &[u8]) -> Fault {
    read_line(line).expect_err("a fault").fault
}

/// What is wrong in a line, with its cause.
fn flaw(line: &[u8]) -> String {
    flaw_of(read_line(line))
}

/// The line of standard error, and how many blocks are out before it.
fn complaint(text: impl AsRef<[u8]>) -> (String, usize) {
    let (file, ended) = compose(text.as_ref());
    assert_eq!(file.len() % BLOCK, 0);
    (ended.expect_err("a fault").to_string(), file.len() / BLOCK)
}

fn composed(text: impl AsRef<[u8]>) -> Vec<u8> {
    let (file, ended) = compose(text.as_ref());
    assert_eq!(ended, Ok(()));
    file
}

/// Standard output and standard error of `compose --lines`.
fn said(text: impl AsRef<[u8]>) -> (String, String) {
    let (lines, ended) = lines(text.as_ref());
    let complaint = ended.err().map_or(String::new(), |complaint| complaint.to_string());
    (String::from_utf8(lines).expect("plain text"), complaint)
}

#[test]
fn each_action() {
    assert_eq!(acts("request 0 1 5 6"), request(0, 1, 5, 6));
    assert_eq!(acts("request 0 all 5 6"), request(0, 63, 5, 6));
    assert_eq!(
        acts("request 255 255 4294967295 0xffffffff"),
        request(255, 255, u32::MAX, u32::MAX)
    );
    assert_eq!(acts("request 0 1 5 6 label 7"), labelled(0, 1, 5, 6, 7));
    assert_eq!(acts("request 0 all 5 6 label 0"), request(0, 63, 5, 6));
    assert_eq!(acts("request 0 all 5 6 label 63"), labelled(0, 63, 5, 6, 63));
    assert_eq!(acts("request 0 all 5 6 label 255"), labelled(0, 63, 5, 6, 255));
    assert_eq!(acts("arbitrate 0"), arbitrate(0));
    assert_eq!(acts("respond 1 2"), respond(1, 2, 0));
    assert_eq!(acts("respond 1 2 hold"), respond(1, 2, 1));
    assert_eq!(acts("clock 3"), clock(3));
    assert_eq!(acts("pass"), pass());
    assert_eq!(acts("lose"), lose());
    assert_eq!(acts("change"), change(0));
    assert_eq!(acts("change 0"), change(0));
    assert_eq!(acts("change 2"), change(2));
    assert_eq!(acts("change all"), change(63));
    assert_eq!(acts("grant"), grant());
    assert_eq!(acts("gap"), gap());
    assert_eq!(acts("reset"), reset());
    assert_eq!(acts("ask 4"), ask(4));
    assert_eq!(acts("decide 0xff"), decide(255));
    assert_eq!(read_line(b"nodes 3"), Ok(Line::Nodes(3)));
    assert_eq!(read_line(b"nodes 255"), Ok(Line::Nodes(255)));
}

#[test]
fn numbers() {
    for (word, value) in [
        ("0", 0),
        ("7", 7),
        ("007", 7),
        ("0x7", 7),
        ("0x1F", 31),
        ("0x1f", 31),
        ("0X1F", 31),
        ("0X1f", 31),
        ("0xaBcD", 0xabcd),
        ("0X000000000000000000000001", 1),
        ("0x000000000000000000000001", 1),
        ("00000000000000000000000000004294967295", u32::MAX),
    ] {
        assert_eq!(acts(&format!("request 0 1 {word} 0")).header, value, "{word}");
        assert_eq!(acts(&format!("request 0 1 0 {word}")).data, value, "{word}");
        if let Ok(label) = u8::try_from(value) {
            assert_eq!(acts(&format!("request 0 1 0 0 label {word}")).label, label, "{word}");
        }
    }
    for word in [
        "x",
        "0x",
        "0X",
        "0xg",
        "0Xg",
        "X1f",
        "1a",
        "-1",
        "+1",
        "1.",
        "f",
        "all",
        "hold",
        "label",
        "*",
        "00x1",
        "00X1",
        "0x0X1",
        "9999999999999999z",
    ] {
        assert_eq!(fault(format!("request 0 1 {word} 0").as_bytes()), Fault::NotANumber, "{word}");
        let label = format!("request 0 1 0 0 label {word}");
        assert_eq!(fault(label.as_bytes()), Fault::NotANumber, "{word}");
    }
    for word in [
        "4294967296",
        "0x100000000",
        "0X100000000",
        "18446744073709551615",
        "18446744073709551616",
        "99999999999999999999999999999999999999999",
    ] {
        assert_eq!(fault(format!("request 0 1 {word} 0").as_bytes()), Fault::TooLarge, "{word}");
    }
    for line in [
        "clock 256",
        "clock 0x100",
        "request 0 256 0 0",
        "request 0 1 0 0 label 256",
        "respond 0 256",
        "nodes 256",
        "change 256",
        "clock 4294967296",
    ] {
        assert_eq!(fault(line.as_bytes()), Fault::TooLarge, "{line}");
    }
}

#[test]
fn blanks_and_comments() {
    for line in ["", " ", "\t \r", "#", "  # pass", "#pass", "\r"] {
        assert_eq!(read_line(line.as_bytes()), Ok(Line::Blank), "{line:?}");
    }
    for line in ["clock 1\r", " clock 1", "clock\t1  ", "clock \r\t 1# x", "clock 1 # * 3"] {
        assert_eq!(acts(line), clock(1), "{line:?}");
    }
    assert_eq!(acts("change# 2"), change(0));
    assert_eq!(acts("request\t0 1 5 6\r label\t 7# 8"), labelled(0, 1, 5, 6, 7));
    assert_eq!(acts("request 0 1 5 6 # label 7"), request(0, 1, 5, 6));
    // Other bytes are no blanks.
    for line in [&b"\x0bpass"[..], b"pass\x0c", b"pass\0", b"\xc2\xa0pass"] {
        assert_eq!(fault(line), Fault::UnknownWord, "{line:?}");
    }
}

#[test]
fn repeats() {
    assert_eq!(read_line(b"pass * 6"), Ok(Line::Acts(pass(), 6)));
    assert_eq!(read_line(b"pass * 1"), Ok(Line::Acts(pass(), 1)));
    assert_eq!(read_line(b"pass * 0xFFFFFFFF"), Ok(Line::Acts(pass(), u32::MAX)));
    assert_eq!(read_line(b"change * 2"), Ok(Line::Acts(change(0), 2)));
    assert_eq!(read_line(b"change 1 * 2"), Ok(Line::Acts(change(1), 2)));
    assert_eq!(read_line(b"respond 1 2 * 3"), Ok(Line::Acts(respond(1, 2, 0), 3)));
    assert_eq!(read_line(b"respond 1 2 hold * 3"), Ok(Line::Acts(respond(1, 2, 1), 3)));
    assert_eq!(read_line(b"request 0 all 1 2 * 3"), Ok(Line::Acts(request(0, 63, 1, 2), 3)));
    let labelled = Line::Acts(labelled(0, 63, 1, 2, 9), 3);
    assert_eq!(read_line(b"request 0 all 1 2 label 9 * 3"), Ok(labelled));
    assert_eq!(fault(b"pass *"), Fault::MissingField);
    assert_eq!(fault(b"pass * # 6"), Fault::MissingField);
    assert_eq!(fault(b"pass * x"), Fault::NotANumber);
    assert_eq!(fault(b"pass * *"), Fault::NotANumber);
    assert_eq!(fault(b"pass * 0"), Fault::RepeatOfZero);
    assert_eq!(fault(b"pass * 0x0"), Fault::RepeatOfZero);
    assert_eq!(fault(b"pass * 0 7"), Fault::RepeatOfZero);
    assert_eq!(fault(b"pass * 4294967296"), Fault::TooLarge);
    assert_eq!(fault(b"pass * 2 * 3"), Fault::ExtraField);
    assert_eq!(fault(b"pass *6"), Fault::ExtraField);
    assert_eq!(fault(b"pass*6"), Fault::UnknownWord);
    assert_eq!(fault(b"nodes 2 * 1"), Fault::ExtraField);
}

#[test]
fn fields_from_left_to_right() {
    assert_eq!(fault(b"Pass"), Fault::UnknownWord);
    assert_eq!(fault(b"* 6"), Fault::UnknownWord);
    assert_eq!(fault(b"5"), Fault::UnknownWord);
    assert_eq!(fault(b"passs 1 x"), Fault::UnknownWord);
    for line in [
        "nodes",
        "request",
        "request 0",
        "request 0 1",
        "request 0 all 5",
        "request 0 all 5 6 label",
        "request 0 all 5 6 label # 7",
        "arbitrate",
        "respond",
        "respond 1",
        "clock",
        "ask",
        "decide # 1",
    ] {
        assert_eq!(fault(line.as_bytes()), Fault::MissingField, "{line}");
    }
    for line in [
        "nodes 2 3",
        "request 0 1 5 6 7",
        "request 0 1 5 6 Label 7",
        "request 0 1 5 6 labels 7",
        "request 0 1 5 6 label7",
        "request 0 1 5 6 hold",
        "request 0 1 5 6 label 7 8",
        "request 0 1 5 6 label 7 label 8",
        "request 0 1 5 6 label 7 hold",
        "request 0 1 5 6 * 2 label 7",
        "respond 1 1 label 7",
        "arbitrate 0 label 7",
        "clock 0 label 7",
        "change 1 label 7",
        "pass label 7",
        "ask 0 label 7",
        "decide 0 label 7",
        "ask 0 1",
        "ask 0 hold",
        "decide 0 0",
        "decide 0 won",
        "arbitrate 0 0",
        "respond 1 1 0",
        "respond 1 1 hold hold",
        "respond 1 1 Hold",
        "clock 0 x",
        "pass 0",
        "lose hold",
        "change 1 2",
        "grant all",
        "gap 1",
        "reset 1",
    ] {
        assert_eq!(fault(line.as_bytes()), Fault::ExtraField, "{line}");
    }
    assert_eq!(fault(b"respond 1 hold"), Fault::NotANumber);
    assert_eq!(fault(b"request 0 1 5 label 7"), Fault::NotANumber);
    assert_eq!(fault(b"request label 7 0 1 5 6"), Fault::NotANumber);
    assert_eq!(fault(b"label 7"), Fault::UnknownWord);
    assert_eq!(fault(b"change x"), Fault::NotANumber);
    assert_eq!(fault(b"change label 7"), Fault::NotANumber);
    assert_eq!(fault(b"clock all"), Fault::NotANumber);
    assert_eq!(fault(b"ask all"), Fault::NotANumber);
    assert_eq!(fault(b"decide all"), Fault::NotANumber);
    assert_eq!(fault(b"Ask 0"), Fault::UnknownWord);
    assert_eq!(fault(b"asked 0"), Fault::UnknownWord);
    assert_eq!(fault(b"decides 0"), Fault::UnknownWord);
    assert_eq!(fault(b"request 256 x"), Fault::TooLarge);
    assert_eq!(fault(b"request x 256"), Fault::NotANumber);
    assert_eq!(fault(b"request 256"), Fault::TooLarge);
    // A repeat where a field is still to come.
    assert_eq!(fault(b"request 0 1 5 * 2"), Fault::NotANumber);
    assert_eq!(fault(b"request 0 1 5 6 label * 2"), Fault::NotANumber);
    // What comes first counts.
    assert_eq!(fault(b"request 0 1 5 6 label x 8"), Fault::NotANumber);
    assert_eq!(fault(b"request 0 1 5 6 label 256 8"), Fault::TooLarge);
    assert_eq!(fault(b"request 0 1 5 6 label 7 * 0"), Fault::RepeatOfZero);
    assert_eq!(fault(b"request 0 1 5 6 label 64 *"), Fault::MissingField);
}

#[test]
fn long_lines() {
    let mut line = b"pass".to_vec();
    line.resize(255, b' ');
    assert_eq!(read_line(&line), Ok(Line::Acts(pass(), 1)));
    line.push(b' ');
    assert_eq!(fault(&line), Fault::LongLine);
    // Before anything else of the line.
    assert_eq!(fault(&[b'x'; 256]), Fault::LongLine);
    assert_eq!(fault(&[b'#'; 256]), Fault::LongLine);
    let with = |length: usize, newline: &str| format!("nodes 2\n{}{newline}", "#".repeat(length));
    assert_eq!(complaint(with(255, "")), ("line 2: no action".into(), 0));
    assert_eq!(complaint(with(255, "\n")), ("line 2: no action".into(), 0));
    assert_eq!(complaint(with(256, "")), ("line 2: line over 255 bytes".into(), 0));
    assert_eq!(complaint(with(256, "\n")), ("line 2: line over 255 bytes".into(), 0));
    // The carriage return counts.
    assert_eq!(complaint(with(255, "\r\n")), ("line 2: line over 255 bytes".into(), 0));
}

#[test]
fn whole_texts() {
    let file = runfile::write_file(2, &case_b()).expect("the writer takes it");
    let text = "
        # case B, with repeats where they fit
        nodes 0x2
        request 0 1 5 6\r
        arbitrate 0
        clock 0\n pass\n clock 0\n pass\n clock 0\n pass\n clock 0\n pass\n clock 0\n pass\n clock 0\n pass
        grant\n\n respond 1 1
        clock 1\n pass\n clock 1\n pass\n clock 1\n pass
        gap * 2";
    assert_eq!(composed(text), file);
    // The last newline may lack.
    assert_eq!(composed("nodes 2\npass"), composed("nodes 2\npass\n"));
    // Repeats over the ends of blocks.
    for count in [1, 30, 31, 32, 61, 62, 63, 1000] {
        let mut records = vec![clock(1); 2];
        records.extend(vec![pass(); count]);
        let file = runfile::write_file(9, &records).expect("the writer takes it");
        assert_eq!(composed(format!("nodes 9\nclock 1 * 2\npass * {count}\n")), file);
    }
}

#[test]
fn faults_and_their_lines() {
    for (text, words) in [
        ("", "line 0: no nodes line"),
        ("\n", "line 1: no nodes line"),
        ("# nodes 2", "line 1: no nodes line"),
        ("\n\n# x\n", "line 3: no nodes line"),
        ("nodes 2", "line 1: no action"),
        ("nodes 2\n", "line 1: no action"),
        ("nodes 2\n\n", "line 2: no action"),
        ("nodes 2\n ", "line 2: no action"),
        ("\npass\nnodes 2\n", "line 2: no nodes line"),
        ("pass x\n", "line 1: extra field: \"x\""),
        ("nodes 2\nnodes 2\npass\n", "line 2: a second nodes line"),
        ("nodes 2\npass\nnodes 64", "line 3: a second nodes line"),
        ("nodes 2\nnodes x", "line 2: not a number: \"x\", the number of nodes"),
        ("nodes 1\npass\n", "line 1: refused 1: nodes 1: a bus has 2 to 63 nodes"),
        ("nodes 0", "line 1: refused 1: nodes 0: a bus has 2 to 63 nodes"),
        ("nodes 64 3", "line 1: extra field: \"3\""),
        ("nodes 255", "line 1: refused 1: nodes 255: a bus has 2 to 63 nodes"),
        ("nodes 256", "line 1: number too large: \"256\", the number of nodes, at most 255"),
        ("nodes 2\nclock 2\n", "line 2: refused 4: clock 2: no node 2, nodes are 0 to 1"),
        ("nodes 2\nclock 63\n", "line 2: refused 4: clock 63: no node 63, nodes are 0 to 1"),
        (
            "nodes 2\nrequest 2 2 0 0\n",
            "line 2: refused 4: request 2 2 0 0: no node 2, nodes are 0 to 1",
        ),
        (
            "nodes 2\nrequest 1 2 0 0\n",
            "line 2: refused 5: request 1 2 0 0: no address 2, addresses are 0 to 1 and all",
        ),
        (
            "nodes 2\nrequest 1 0 5 6 label 64\n",
            "line 2: refused 13: request 1 0 5 6 label 64: no label 64, labels are 0 to 63",
        ),
        (
            "nodes 2\nrequest 1 all 5 6 label 0xFF\n",
            "line 2: refused 13: request 1 all 5 6 label 0xFF: no label 255, labels are 0 to 63",
        ),
        (
            "nodes 2\nrequest 1 2 5 6 label 64\n",
            "line 2: refused 5: request 1 2 5 6 label 64: no address 2, addresses are 0 to 1 and all",
        ),
        (
            "nodes 2\nrequest 2 2 5 6 label 64\n",
            "line 2: refused 4: request 2 2 5 6 label 64: no node 2, nodes are 0 to 1",
        ),
        (
            "nodes 2\nrequest 1 0 5 6 label 256\n",
            "line 2: number too large: \"256\", the label of request, at most 255",
        ),
        // 15 is "looked at after 13".
        (
            "nodes 2\npass\nrequest 0 0 5 6\n",
            "line 3: refused 15: request 0 0 5 6: node 0 would send to itself",
        ),
        (
            "nodes 2\nrequest 1 1 5 6 label 63 * 2 # to itself\n",
            "line 2: refused 15: request 1 1 5 6 label 63 * 2: node 1 would send to itself",
        ),
        (
            "nodes 63\nrequest\t0x3E 62 0 0\n",
            "line 2: refused 15: request 0x3E 62 0 0: node 62 would send to itself",
        ),
        (
            "nodes 2\nrequest 1 1 5 6 label 64\n",
            "line 2: refused 13: request 1 1 5 6 label 64: no label 64, labels are 0 to 63",
        ),
        (
            "nodes 2\nrequest 63 all 5 6\n",
            "line 2: refused 4: request 63 all 5 6: no node 63, nodes are 0 to 1",
        ),
        ("nodes 2\nrequest 0 0 5 6 7\n", "line 2: extra field: \"7\""),
        ("nodes 2\nrequest 0 0 5 6 * 0\n", "line 2: repeat of 0"),
        ("request 0 0 5 6\n", "line 1: no nodes line"),
        ("nodes 2\nrequest 1 0 5 6 label\n", "line 2: missing field: the label of request"),
        ("nodes 2\nrequest 1 0 5 6 label 64 x\n", "line 2: extra field: \"x\""),
        ("nodes 2\nrequest 1 0 5 6 label 64 * 0\n", "line 2: repeat of 0"),
        ("request 1 0 5 6 label 64\n", "line 1: no nodes line"),
        (
            "nodes 2\nchange 64\n",
            "line 2: refused 5: change 64: no address 64, addresses are 0 to 1 and all",
        ),
        (
            "nodes 2\nrespond 1 16\n",
            "line 2: refused 6: respond 1 16: no acknowledgement 16, they are 0 to 15",
        ),
        ("nodes 2\nrespond 2 16\n", "line 2: refused 4: respond 2 16: no node 2, nodes are 0 to 1"),
        ("nodes 2\nclock 2 x\n", "line 2: extra field: \"x\""),
        ("nodes 2\nclock 2 * 0\n", "line 2: repeat of 0"),
        ("nodes 2\nclock\n", "line 2: missing field: the node of clock"),
        ("nodes 2\npas\n", "line 2: unknown word: \"pas\""),
        // The document's own.
        ("nodes 3\nclock 5\n", "line 2: refused 4: clock 5: no node 5, nodes are 0 to 2"),
        ("nodes 3\n\nclock x\n", "line 3: not a number: \"x\", the node of clock"),
        ("nodes 3\n\n\npass*2\n", "line 4: unknown word: \"pass*2\" (write spaces around *)"),
    ] {
        assert_eq!(complaint(text), (words.into(), 0), "{text:?}");
    }
}

#[test]
fn the_field() {
    // A line up to the field, its name, and the most that it takes.
    for (line, field, most) in [
        ("clock", "the node of clock", "255"),
        ("arbitrate", "the node of arbitrate", "255"),
        ("ask", "the node of ask", "255"),
        ("decide", "the node of decide", "255"),
        ("decide 1 *", "the count after *", "4294967295"),
        ("request", "the node of request", "255"),
        ("request 1", "the address of request", "255"),
        ("request 1 all", "the header of request", "4294967295"),
        ("request 1 all 5", "the data of request", "4294967295"),
        ("request 1 all 5 6 label", "the label of request", "255"),
        ("request 1 all 5 6 label 7 *", "the count after *", "4294967295"),
        ("respond", "the node of respond", "255"),
        ("respond 1", "the acknowledgement of respond", "255"),
        ("change", "the address of change", "255"),
        ("nodes", "the number of nodes", "255"),
        ("pass *", "the count after *", "4294967295"),
        ("change *", "the count after *", "4294967295"),
        ("change all *", "the count after *", "4294967295"),
        ("respond 1 2 hold *", "the count after *", "4294967295"),
    ] {
        let with = |word: &str| flaw(format!("{line} {word} # of many").as_bytes());
        // `change` alone is right.
        if line != "change" {
            assert_eq!(with(""), format!("missing field: {field}"));
        }
        assert_eq!(with("x"), format!("not a number: \"x\", {field}"));
        assert_eq!(with("0X y"), format!("not a number: \"0X\", {field}"));
        for word in ["4294967296", "0X100000000", "000099999999999999999999"] {
            let large = format!("number too large: \"{word}\", {field}, at most {most}");
            assert_eq!(with(word), large);
        }
        if most == "255" {
            let large = format!("number too large: \"0x100\", {field}, at most 255");
            assert_eq!(with("0x100 x"), large);
        }
    }
    // Where a field is still to come, a repeat is a word in its place.
    assert_eq!(flaw(b"clock * 2"), "not a number: \"*\", the node of clock");
    assert_eq!(flaw(b"ask * 2"), "not a number: \"*\", the node of ask");
    assert_eq!(flaw(b"decide * 2"), "not a number: \"*\", the node of decide");
    assert_eq!(flaw(b"request 0 1 5 * 2"), "not a number: \"*\", the data of request");
    assert_eq!(flaw(b"request 0 1 5 6 label * 2"), "not a number: \"*\", the label of request");
    assert_eq!(flaw(b"request 0 1 5 label 7"), "not a number: \"label\", the data of request");
}

#[test]
fn the_word() {
    for (line, words) in [
        ("Pass", "unknown word: \"Pass\""),
        ("  * 6", "unknown word: \"*\""),
        ("passs 1 x", "unknown word: \"passs\""),
        ("pas# x", "unknown word: \"pas\""),
        ("pass 0 1", "extra field: \"0\""),
        ("clock 0 hold", "extra field: \"hold\""),
        ("respond 1 1 hold hold", "extra field: \"hold\""),
        ("respond 1 1 Hold", "extra field: \"Hold\""),
        ("request 0 1 5 6 7 label", "extra field: \"7\""),
        ("request 0 1 5 6 Label 7", "extra field: \"Label\""),
        ("request 0 1 5 6 label 7 8", "extra field: \"8\""),
        ("request 0 1 5 6 label 7 label 7", "extra field: \"label\""),
        ("request 0 1 5 6 * 2 label 7", "extra field: \"label\""),
        (
            "request 0 1 5 6 label 7*2",
            "not a number: \"7*2\" (write spaces around *), the label of request",
        ),
        ("respond 1 1 label 7", "extra field: \"label\""),
        ("nodes 2 * 1", "extra field: \"*\""),
        ("pass * 2 * 3", "extra field: \"*\""),
        ("pass * 2 3", "extra field: \"3\""),
        ("pass x * 0", "extra field: \"x\""),
        ("pass * 0 x", "repeat of 0"),
        ("request 0 x 256 y", "not a number: \"x\", the address of request"),
        // As they are.
        ("\"pass\"", "unknown word: \"\"pass\"\""),
        ("pass\\x41~!", "unknown word: \"pass\\x41~!\""),
    ] {
        assert_eq!(flaw(line.as_bytes()), words, "{line}");
    }
    // Other bytes by their number.
    assert_eq!(flaw(b"pass\xe9"), r#"unknown word: "pass\xE9""#);
    assert_eq!(flaw(b"clock \x80"), r#"not a number: "\x80", the node of clock"#);
    assert_eq!(flaw(b"pass \xff\xa0\xc2"), r#"extra field: "\xFF\xA0\xC2""#);
}

#[test]
fn hints() {
    const NOT_PLAIN: &str = "(no plain text: UTF-16, or a binary file)";
    const NO_BREAK: &str = "(a no-break space: write a plain one)";
    const STAR: &str = "(write spaces around *)";
    for (word, shown, hint) in [
        (&b"a\0"[..], r"a\x00", NOT_PLAIN),
        (b"\x1fa", r"\x1Fa", NOT_PLAIN),
        (b"\x7f", r"\x7F", NOT_PLAIN),
        (b"\x0b", r"\x0B", NOT_PLAIN),
        (b"\xc2\xa0a", r"\xC2\xA0a", NO_BREAK),
        (b"a\xc2\xa0", r"a\xC2\xA0", NO_BREAK),
        (b"a*2", "a*2", STAR),
        (b"*2", "*2", STAR),
        (b"2*", "2*", STAR),
        (b"**", "**", STAR),
        // The first that holds.
        (b"*\xc2\xa0\x01", r"*\xC2\xA0\x01", NOT_PLAIN),
        (b"*\x7f", r"*\x7F", NOT_PLAIN),
        (b"*\xc2\xa0", r"*\xC2\xA0", NO_BREAK),
    ] {
        let after = |line: &[u8]| flaw(&[line, word, b" x"].concat());
        assert_eq!(after(b""), format!("unknown word: \"{shown}\" {hint}"));
        assert_eq!(after(b"pass "), format!("extra field: \"{shown}\" {hint}"));
        // After the closing quote.
        let field = "the node of clock";
        assert_eq!(after(b"clock "), format!("not a number: \"{shown}\" {hint}, {field}"));
        let field = "the count after *";
        assert_eq!(after(b"pass * "), format!("not a number: \"{shown}\" {hint}, {field}"));
    }
    // Not these.
    assert_eq!(flaw(b"\xc2 \xa0"), r#"unknown word: "\xC2""#);
    assert_eq!(flaw(b"\xa0\xc2"), r#"unknown word: "\xA0\xC2""#);
    assert_eq!(flaw(b"*"), r#"unknown word: "*""#);
    assert_eq!(flaw(b"\x80~"), r#"unknown word: "\x80~""#);
    // UTF-16 with its own mark.
    let wide = b"\xff\xfen\0o\0d\0e\0s\0 \x002\0\n\0";
    let shown = r#"line 1: unknown word: "\xFF\xFEn\x00o\x00d\x00e\x00s\x00""#;
    assert_eq!(complaint(wide), (format!("{shown} {NOT_PLAIN}"), 0));
}

#[test]
fn sixty_four_bytes() {
    let a = |count| "a".repeat(count);
    assert_eq!(flaw(a(64).as_bytes()), format!("unknown word: \"{}\"", a(64)));
    assert_eq!(flaw(a(65).as_bytes()), format!("unknown word: \"{}..\"", a(64)));
    assert_eq!(flaw(a(255).as_bytes()), format!("unknown word: \"{}..\"", a(64)));
    // Bytes of the word, not of what is printed.
    let high = |count: usize| [b"pass ".to_vec(), vec![0xe9; count]].concat();
    assert_eq!(flaw(&high(64)), format!("extra field: \"{}\"", r"\xE9".repeat(64)));
    assert_eq!(flaw(&high(65)), format!("extra field: \"{}..\"", r"\xE9".repeat(64)));
    // The whole word has the hint.
    let star = format!("clock {}*2", a(64));
    let cut = format!("\"{}..\" (write spaces around *), the node of clock", a(64));
    assert_eq!(flaw(star.as_bytes()), format!("not a number: {cut}"));
    let zeros = "0".repeat(62);
    let large = format!("number too large: \"9{zeros}9\", the number of nodes, at most 255");
    assert_eq!(flaw(format!("nodes 9{zeros}9").as_bytes()), large);
    let large = format!("number too large: \"9{zeros}9..\", the number of nodes, at most 255");
    assert_eq!(flaw(format!("nodes 9{zeros}99").as_bytes()), large);
    // A statement, with the blanks in it.
    let clock = |blanks: usize| format!("nodes 2\n clock{}7\t# x", " ".repeat(blanks));
    let why = "no node 7, nodes are 0 to 1";
    let shown = format!("line 2: refused 4: clock{}7: {why}", " ".repeat(58));
    assert_eq!(complaint(clock(58)), (shown, 0));
    let shown = format!("line 2: refused 4: clock{}..: {why}", " ".repeat(59));
    assert_eq!(complaint(clock(59)), (shown, 0));
}

#[test]
fn the_statement() {
    for (line, cause) in [
        ("clock 9", "4: clock 9: no node 9, nodes are 0 to 8"),
        ("\t clock\t9 \r", "4: clock 9: no node 9, nodes are 0 to 8"),
        ("clock\t\r 0X9\t*  100# * 3", "4: clock   0X9 *  100: no node 9, nodes are 0 to 8"),
        ("arbitrate 255 # x", "4: arbitrate 255: no node 255, nodes are 0 to 8"),
        ("ask  9", "4: ask  9: no node 9, nodes are 0 to 8"),
        ("decide 0x3F * 2", "4: decide 0x3F * 2: no node 63, nodes are 0 to 8"),
        ("request 0x09 64 1 2", "4: request 0x09 64 1 2: no node 9, nodes are 0 to 8"),
        (
            "request 8 0xFF 1 2",
            "5: request 8 0xFF 1 2: no address 255, addresses are 0 to 8 and all",
        ),
        ("change 9 * 2", "5: change 9 * 2: no address 9, addresses are 0 to 8 and all"),
        (
            " request 8 all\t1 2 label\r0X40 * 2 # 13",
            "13: request 8 all 1 2 label 0X40 * 2: no label 64, labels are 0 to 63",
        ),
        ("request 0X08\t8 1  2 # 15", "15: request 0X08 8 1  2: node 8 would send to itself"),
        ("respond  0 16 hold", "6: respond  0 16 hold: no acknowledgement 16, they are 0 to 15"),
    ] {
        let expected = format!("line 2: refused {cause}");
        assert_eq!(complaint(format!("nodes 9\n{line}\n")), (expected, 0));
    }
    for (line, shown) in [("nodes\t0X40#", "nodes 0X40"), (" nodes  1 # 2", "nodes  1")] {
        let expected = format!("line 1: refused 1: {shown}: a bus has 2 to 63 nodes");
        assert_eq!(complaint(line), (expected, 0));
    }
}

#[test]
fn the_byte_order_mark() {
    let marked = |text: &str| [b"\xef\xbb\xbf", text.as_bytes()].concat();
    let text = "nodes 2\npass\n";
    assert_eq!(composed(marked(text)), composed(text));
    assert_eq!(composed(marked("\n# x\nnodes 2\npass")), composed(text));
    assert_eq!(said(marked(text)), said(text));
    for (text, words) in [
        ("", "line 0: no nodes line"),
        ("\n", "line 1: no nodes line"),
        ("nodes 1", "line 1: refused 1: nodes 1: a bus has 2 to 63 nodes"),
        ("nodes 2\nx", "line 2: unknown word: \"x\""),
    ] {
        assert_eq!(complaint(marked(text)), (words.into(), 0));
    }
    // It does not count towards the length.
    let long = |length: usize| marked(&format!("{}\nnodes 2\npass", "#".repeat(length)));
    assert_eq!(composed(long(255)), composed(text));
    assert_eq!(complaint(long(256)), ("line 1: line over 255 bytes".into(), 0));
    // Anywhere else it is part of a word.
    for (text, words) in [
        (&b"\xef\xbb\xbf\xef\xbb\xbfnodes 2"[..], r#"line 1: unknown word: "\xEF\xBB\xBFnodes""#),
        (b" \xef\xbb\xbfnodes 2", r#"line 1: unknown word: "\xEF\xBB\xBFnodes""#),
        (b"\n\xef\xbb\xbfnodes 2", r#"line 2: unknown word: "\xEF\xBB\xBFnodes""#),
        (b"nodes 2\n\xef\xbb\xbf\n", r#"line 2: unknown word: "\xEF\xBB\xBF""#),
        (b"nodes \xef\xbb\xbf2", r#"line 1: not a number: "\xEF\xBB\xBF2", the number of nodes"#),
        // Half of one.
        (b"\xef", r#"line 1: unknown word: "\xEF""#),
        (b"\xef\xbb", r#"line 1: unknown word: "\xEF\xBB""#),
        (b"\xef\xbbnodes 2", r#"line 1: unknown word: "\xEF\xBBnodes""#),
        (b"\xef\xbb\n\xbfnodes 2", r#"line 1: unknown word: "\xEF\xBB""#),
    ] {
        assert_eq!(complaint(text), (words.into(), 0));
    }
}

/// A text that comes byte by byte: the mark too.
#[test]
fn streams() {
    let stream = |text: &[u8]| {
        let mut file = Vec::new();
        let mut input = std::io::BufReader::with_capacity(1, text);
        let ended = compose_stream(&mut input, &mut file).expect("memory can be written");
        (file, ended)
    };
    for text in [
        &b"\xef\xbb\xbfnodes 2\npass * 40\n"[..],
        b"\xef\xbb\xbf",
        b"\xef\xbb",
        b"\xef\xbbnodes 2",
        b"nodes 2\npass\xef\xbb\xbf",
        b"",
    ] {
        assert_eq!(stream(text), compose(text));
    }
}

#[test]
fn which_line_says_what() {
    let said_of = |lines: &str, complaint: &str| (lines.to_string(), complaint.to_string());
    let text = "nodes 2\n\npass * 6   # six of them\n";
    assert_eq!(said(text), said_of("1 1\n3 6\n", ""));
    let text = "# x\n\t\r\nnodes 3\nclock 1\n# y\nchange * 0x10\nrespond 1 2 hold * 1";
    assert_eq!(said(text), said_of("3 1\n4 1\n6 16\n7 1\n", ""));
    // The lines before a fault are out; the fault is compose's.
    for (text, lines, words) in [
        ("", "", "line 0: no nodes line"),
        ("# x\n\n", "", "line 2: no nodes line"),
        ("pass\n", "", "line 1: no nodes line"),
        ("nodes 2\n", "1 1\n", "line 1: no action"),
        ("nodes 64\n", "", "line 1: refused 1: nodes 64: a bus has 2 to 63 nodes"),
        ("nodes 2\npass\nnodes 2\n", "1 1\n2 1\n", "line 3: a second nodes line"),
        ("nodes 2\npass * 0\n", "1 1\n", "line 2: repeat of 0"),
        (
            "nodes 2\npass * 31\n\nclock 2 * 9\npass\n",
            "1 1\n2 31\n",
            "line 4: refused 4: clock 2 * 9: no node 2, nodes are 0 to 1",
        ),
        (
            "nodes 2\npass\npass*2",
            "1 1\n2 1\n",
            "line 3: unknown word: \"pass*2\" (write spaces around *)",
        ),
    ] {
        assert_eq!(said(text), said_of(lines, words), "{text:?}");
        assert_eq!(complaint(text).0, words);
    }
    // More than 31 × 4,294,967,296 actions are only read.
    let (lines, complaint) = said(format!("nodes 2\n{}", "pass * 4294967295\n".repeat(32)));
    assert!(lines.ends_with("\n32 4294967295\n33 4294967295\n"));
    assert_eq!(complaint, "");
}

#[test]
fn whole_blocks_before_a_fault_are_out() {
    for (count, blocks) in [(1, 0), (30, 0), (31, 1), (32, 1), (61, 1), (62, 2)] {
        let text = format!("nodes 2\npass * {count}\nlose\nx\n");
        let whole = (count + 1) / 31;
        assert_eq!(complaint(&text), ("line 4: unknown word: \"x\"".into(), whole));
        let text = format!("nodes 2\npass * {count}\nclock 7 * 100\n");
        let refused = "line 3: refused 4: clock 7 * 100: no node 7, nodes are 0 to 1";
        assert_eq!(complaint(&text), (refused.into(), blocks));
        let (file, _) = compose(text.as_bytes());
        let all = runfile::write_file(2, &vec![pass(); count]).expect("the writer takes it");
        assert_eq!(file, all[..blocks * BLOCK]);
    }
}

#[test]
fn each_line_printed() {
    let request = |node, address, label| {
        let packet = packet(address, 0x1f, u32::MAX, label);
        Action::Request { node, packet }
    };
    for (action, line) in [
        (request(0, 1, 0), "request 0 1 31 4294967295\n"),
        (request(0, 63, 0), "request 0 all 31 4294967295\n"),
        (request(0, 1, 1), "request 0 1 31 4294967295 label 1\n"),
        (request(62, 63, 63), "request 62 all 31 4294967295 label 63\n"),
        (Action::Arbitrate { node: 62 }, "arbitrate 62\n"),
        (Action::Respond { node: 1, ack: 15, hold: false }, "respond 1 15\n"),
        (Action::Respond { node: 1, ack: 15, hold: true }, "respond 1 15 hold\n"),
        (Action::Clock { node: 10 }, "clock 10\n"),
        (Action::Pass, "pass\n"),
        (Action::Lose, "lose\n"),
        (Action::Change { address: 0 }, "change\n"),
        (Action::Change { address: 1 }, "change 1\n"),
        (Action::Change { address: 63 }, "change all\n"),
        (Action::Grant, "grant\n"),
        (Action::Gap, "gap\n"),
        (Action::Reset, "reset\n"),
        (Action::Ask { node: 0 }, "ask 0\n"),
        (Action::Decide { node: 62 }, "decide 62\n"),
    ] {
        let mut text = Vec::new();
        print_action(&mut text, action);
        assert_eq!(text, line.as_bytes());
        // Printed and read, it is the same action.
        assert_eq!(acts(line.trim_end()), Record::from(action));
    }
}

#[test]
fn listings() {
    let text = "nodes 2\nrequest 0 all 1 2\nrequest 1 0 3 4 label 5\nchange\nrespond 1 3 hold\n";
    let file = composed(text);
    assert_eq!(list(&file), text.as_bytes());
    // Only a label that is not 0 is printed.
    assert_eq!(composed(text.replace("1 2\n", "1 2 label 0x0\n")), file);
    // A listing is not looked at by 7, but by the file's numbers and by 2 to 6, 13 and 15.
    assert_eq!(list(b""), b"refused 0 8\n");
    assert_eq!(list(&file[..511]), b"refused 0 8\n");
    assert_eq!(list(&[0; BLOCK]), b"refused 0 1\n");
    let mut wrong = file.clone();
    wrong[20] ^= 1;
    assert_eq!(list(&wrong), b"refused 0 9\n");
    let mut block = [0; BLOCK];
    runfile::write_unchecked(&mut block, 0, 2, &[pass(), Record { node: 1, ..pass() }, lose()]);
    assert_eq!(list(&block), b"nodes 2\npass\nrefused 1 3\n");
    for (record, number) in [
        (labelled(1, 0, 0, 0, 64), 13),
        (labelled(1, 1, 0, 0, 64), 13),
        (labelled(1, 1, 0, 0, 63), 15),
        (request(0, 0, 0, 0), 15),
        (labelled(1, 2, 0, 0, 64), 5),
        (Record { label: 1, ..clock(1) }, 3),
        (Record { hold: 1, ..ask(1) }, 3),
        (Record { address: 1, ..decide(1) }, 3),
        (ask(2), 4),
        (decide(255), 4),
        (Record { kind: 13, ..decide(1) }, 2),
    ] {
        runfile::write_unchecked(&mut block, 0, 2, &[pass(), record, lose()]);
        assert_eq!(list(&block), format!("nodes 2\npass\nrefused 1 {number}\n").as_bytes());
    }
    let mut after = file.clone();
    after.extend(&file);
    assert_eq!(list(&after), [text.as_bytes(), b"refused 4 10\n"].concat());
}

/// Every label, as text and as file.
#[test]
fn labels_composed_and_listed() {
    for label in 0..=63 {
        let run = [labelled(0, 1, 5, 6, label), labelled(1, 63, 7, 8, 63 - label), pass()];
        let file = runfile::write_file(2, &run).expect("the writer takes it");
        let words = |label| match label {
            0 => String::new(),
            _ => format!(" label {label}"),
        };
        let (one, other) = (words(label), words(63 - label));
        let text = format!("nodes 2\nrequest 0 1 5 6{one}\nrequest 1 all 7 8{other}\npass\n");
        assert_eq!(composed(&text), file);
        assert_eq!(list(&file), text.as_bytes());
        let text = format!(
            "nodes 2\nrequest 0 1 5 6 label {label}\nrequest 1 63 7 8 label {:#x}\npass",
            63 - label
        );
        assert_eq!(composed(text), file);
    }
}

/// A run from before request 10 is listed up to its request of a node to itself, and so does not come
/// back as a shorter one.
#[test]
fn the_listing_of_an_older_run() {
    let listed = String::from_utf8(list(&any_file(2, &older_run()))).expect("plain text");
    let before = list(&runfile::write_file(2, &older_run()[..42]).expect("the writer takes it"));
    let before = String::from_utf8(before).expect("plain text");
    assert_eq!(listed, format!("{before}refused 42 15\n"));
    assert_eq!(complaint(&listed), ("line 44: unknown word: \"refused\"".into(), 1));
}
