//! Settings in plain words: the reader and what it says of wrong ones, by hand from docs/TRIALS.md.

mod common;

use std::collections::BTreeMap;

use bench_model::harness::hits::{self, Hits};
use bench_model::harness::random::Random;
use bench_model::harness::settings::{aims, plain, SettingsWay};
use bench_model::settings::{read, read_line, read_stream, trial, Line};
use bench_model::trial::{Settings, User};
use common::plain::{byte_by_byte, complaint_of, flaw_of, model};

fn user(line: &str) -> (u8, User) {
    match read_line(line.as_bytes()) {
        Ok(Line::User(node, user)) => (node, user),
        other => panic!("{line}: {other:?}"),
    }
}

/// What is wrong in a line, with its cause.
fn flaw(line: impl AsRef<[u8]>) -> String {
    flaw_of(read_line(line.as_ref()))
}

/// The line of standard error for a wrong text.
fn complaint(text: impl AsRef<[u8]>) -> String {
    complaint_of(trial(text.as_ref()))
}

fn settings(text: impl AsRef<[u8]>) -> Settings {
    read(text.as_ref()).expect("a right text")
}

const UNSAID: User = User { spell: 0, address: 0, fillers: 0, hold: false, period: 0 };

#[test]
fn each_line() {
    assert_eq!(read_line(b"nodes 3"), Ok(Line::Nodes(3)));
    assert_eq!(read_line(b"nodes 255"), Ok(Line::Nodes(255)));
    assert_eq!(read_line(b"actions 0"), Ok(Line::Actions(0)));
    assert_eq!(read_line(b"actions 65535"), Ok(Line::Actions(65_535)));
    assert_eq!(read_line(b"actions 0XfFfF"), Ok(Line::Actions(65_535)));
    for line in ["", " ", "\t \r", "#", "  # user 0", "#user"] {
        assert_eq!(read_line(line.as_bytes()), Ok(Line::Blank), "{line:?}");
    }
    // Each word alone, and all of them.
    assert_eq!(user("user 0"), (0, UNSAID));
    assert_eq!(user("user 255 to 0"), (255, UNSAID));
    assert_eq!(user("user 1 to 7"), (1, User { address: 7, ..UNSAID }));
    assert_eq!(user("user 1 to all"), (1, User { address: 63, ..UNSAID }));
    assert_eq!(user("user 1 to 63"), user("user 1 to all"));
    assert_eq!(user("user 1 to 255"), (1, User { address: 255, ..UNSAID }));
    assert_eq!(user("user 1 spell 255"), (1, User { spell: 255, ..UNSAID }));
    assert_eq!(user("user 1 fillers 0xFF"), (1, User { fillers: 255, ..UNSAID }));
    assert_eq!(user("user 1 hold"), (1, User { hold: true, ..UNSAID }));
    assert_eq!(user("user 1 lose 1"), (1, User { period: 1, ..UNSAID }));
    let all = User { spell: 2, address: 5, fillers: 3, hold: true, period: 4 };
    assert_eq!(user("user 9 to 5 spell 2 fillers 3 hold lose 4"), (9, all));
    assert_eq!(user("\tuser\r9 to  0x5 spell 002 fillers 3\thold lose 4 # hold"), (9, all));
    assert_eq!(
        user("user 9 spell 2 lose 4"),
        (9, User { address: 0, fillers: 0, hold: false, ..all })
    );
}

#[test]
fn whole_texts() {
    let text =
        "\n# three nodes\n nodes 0x3 # as said\n\nactions 100\r\nuser 2 to all hold\nuser 0 to 1";
    let mut expected = Settings::new(3, 100);
    expected.users[2] = User { address: 63, hold: true, ..UNSAID };
    expected.users[0] = User { address: 1, ..UNSAID };
    assert_eq!(settings(text), expected);
    // "Of two lines about the same user, or about the actions, the later one counts, whole."
    let again = "actions 0\nuser 2 to 1 spell 4 fillers 5 hold lose 6\nactions 7\nuser 2 lose 8\n";
    expected.users[2] = User { period: 8, ..UNSAID };
    expected.actions = 7;
    assert_eq!(settings(format!("{text}\n{again}")), expected);
    // "a user of whom nothing is said sends to node 0, and there must be a line for user 0"
    let alone = |n, actions| {
        let mut settings = Settings::new(n, actions);
        settings.users[0].address = 63;
        settings
    };
    assert_eq!(settings("nodes 63\nactions 65535\nuser 0 to all"), alone(63, 65_535));
    assert_eq!(settings("nodes 2\nuser 0 to 63\nactions 1\nuser 1"), alone(2, 1));
    // All addresses that there are.
    for n in 2..=63 {
        let last = n - 1;
        for address in (0..last).chain([63]) {
            let mut expected = alone(n, 1);
            expected.users[usize::from(last)].address = address;
            let text = format!("nodes {n}\nuser 0 to all\nuser {last} to {address}\nactions 1\n");
            assert_eq!(settings(text), expected);
        }
        let text = format!("nodes {n}\nuser {last} to {last}\nactions 1\n");
        let why = format!("user {last} to {last}: node {last} would send to itself");
        assert_eq!(complaint(text), format!("line 2: refused 15: {why}"));
    }
}

/// Every fault of the table, with the words of the document.
#[test]
fn faults_and_their_lines() {
    let mut met = BTreeMap::new();
    for (text, words) in [
        ("nodes 2\nacts 5\n", "line 2: unknown word: \"acts\""),
        ("node 2\n", "line 1: unknown word: \"node\""),
        ("nodes 2\nUser 0\n", "line 2: unknown word: \"User\""),
        ("nodes 2\npass\n", "line 2: unknown word: \"pass\""),
        ("nodes 2\nto 1\n", "line 2: unknown word: \"to\""),
        ("nodes\n", "line 1: missing field: the number of nodes"),
        ("nodes 2\nactions # 5\n", "line 2: missing field: the number of actions"),
        ("nodes 2\nuser\n", "line 2: missing field: the node of user"),
        ("nodes two\n", "line 1: not a number: \"two\", the number of nodes"),
        ("nodes all\n", "line 1: not a number: \"all\", the number of nodes"),
        ("nodes 2\nactions many\n", "line 2: not a number: \"many\", the number of actions"),
        ("nodes 2\nuser all\n", "line 2: not a number: \"all\", the node of user"),
        ("nodes 256\n", "line 1: number too large: \"256\", the number of nodes, at most 255"),
        (
            "nodes 2\nactions 65536\n",
            "line 2: number too large: \"65536\", the number of actions, at most 65535",
        ),
        (
            "nodes 2\nuser 0x100\n",
            "line 2: number too large: \"0x100\", the node of user, at most 255",
        ),
        ("nodes 2 3\n", "line 1: extra field: \"3\""),
        ("nodes 2\nactions 5 6\n", "line 2: extra field: \"6\""),
        ("nodes 2\nuser 0 1\n", "line 2: extra field: \"1\""),
        // "Another line before the `nodes` line, or no line in the whole text that says something."
        ("", "line 0: no nodes line"),
        ("\n", "line 1: no nodes line"),
        ("# nodes 2\n\n  ", "line 3: no nodes line"),
        ("\nactions 5\nnodes 2\n", "line 2: no nodes line"),
        ("user 0\n", "line 1: no nodes line"),
        ("user 99 to 99\n", "line 1: no nodes line"),
        ("actions 0\n", "line 1: no nodes line"),
        // A line's own fault is looked at before its place.
        ("user x\n", "line 1: not a number: \"x\", the node of user"),
        ("actions\n", "line 1: missing field: the number of actions"),
        ("user 0 to 1 to 1\n", "line 1: extra field: \"to\""),
        ("nodes 2\nactions 5\nnodes 2\n", "line 3: a second nodes line"),
        ("nodes 2\nnodes 64\n", "line 2: a second nodes line"),
        ("nodes 2\nnodes\n", "line 2: missing field: the number of nodes"),
        ("nodes 1\n", "line 1: refused 1: nodes 1: a bus has 2 to 63 nodes"),
        ("\t nodes\t0X40 # n\n", "line 1: refused 1: nodes 0X40: a bus has 2 to 63 nodes"),
        ("nodes 0\nactions 0", "line 1: refused 1: nodes 0: a bus has 2 to 63 nodes"),
        ("nodes 255 1\n", "line 1: extra field: \"1\""),
        ("nodes 2\nuser 2\n", "line 2: refused 4: user 2: no node 2, nodes are 0 to 1"),
        (
            "nodes 63\n  user\t63 to all  hold # x\n",
            "line 2: refused 4: user 63 to all  hold: no node 63, nodes are 0 to 62",
        ),
        (
            "nodes 2\nuser 0xFF to 0xFF\n",
            "line 2: refused 4: user 0xFF to 0xFF: no node 255, nodes are 0 to 1",
        ),
        (
            "nodes 2\nuser 1 to 2\n",
            "line 2: refused 5: user 1 to 2: no address 2, addresses are 0 to 1 and all",
        ),
        (
            "nodes 9\nactions 5\nuser 8 to 0x3E lose 1\n",
            "line 3: refused 5: user 8 to 0x3E lose 1: no address 62, addresses are 0 to 8 and all",
        ),
        // "Looked at after 5."
        (
            "nodes 2\nactions 5\nuser 1 to 1\n",
            "line 3: refused 15: user 1 to 1: node 1 would send to itself",
        ),
        // "What is not said is 0".
        ("nodes 2\nuser 0\n", "line 2: refused 15: user 0: node 0 would send to itself"),
        (
            "nodes 63\nuser 0x0  hold # x\n",
            "line 2: refused 15: user 0x0  hold: node 0 would send to itself",
        ),
        // "the later one counts, whole"
        (
            "nodes 2\nuser 0 to 1\nactions 5\nuser 0 spell 7\n",
            "line 4: refused 15: user 0 spell 7: node 0 would send to itself",
        ),
        // "The first line with a fault ends the reading."
        (
            "nodes 2\nuser 0 to 0\nuser 1 to 9\n",
            "line 2: refused 15: user 0 to 0: node 0 would send to itself",
        ),
        // 4 before 15; an address that there is not is no node's own.
        ("nodes 2\nuser 2 to 2\n", "line 2: refused 4: user 2 to 2: no node 2, nodes are 0 to 1"),
        (
            "nodes 2\nuser 63 to all\n",
            "line 2: refused 4: user 63 to all: no node 63, nodes are 0 to 1",
        ),
        ("user 0\nnodes 2\n", "line 1: no nodes line"),
        ("nodes 2\nuser 0 to 0 to 1\n", "line 2: extra field: \"to\""),
        ("nodes 2\nuser 2 to 2 x\n", "line 2: extra field: \"x\""),
        (
            "nodes 2\nuser 2 to 2 spell 256\n",
            "line 2: number too large: \"256\", the spell of user, at most 255",
        ),
        // "told at the text's end, with the number of its last line"
        ("nodes 2\nuser 0 to 1", "line 2: no action"),
        ("nodes 2\nuser 0 to 1\n\n# x\n", "line 4: no action"),
        ("nodes 2\nuser 0 to 1\nuser 1", "line 3: no action"),
        ("nodes 2\nactions 0\nuser 0 to all\n", "line 3: no action"),
        ("nodes 2\nactions 5\nactions 0\nuser 0 to 1\n", "line 4: no action"),
        // "before `no action`"
        ("nodes 2", "line 1: no user 0 line"),
        ("nodes 2\n\n# user 0 to 1\n", "line 3: no user 0 line"),
        ("nodes 2\nuser 1\n", "line 2: no user 0 line"),
        ("nodes 2\nactions 5\n", "line 2: no user 0 line"),
        ("nodes 3\nactions 5\nuser 1 to 0\nuser 2 to all hold\n", "line 4: no user 0 line"),
        ("nodes 2\nactions 0\n", "line 2: no user 0 line"),
        ("nodes 2\nactions 0\nuser 2\n", "line 3: refused 4: user 2: no node 2, nodes are 0 to 1"),
    ] {
        assert_eq!(complaint(text), words, "{text:?}");
        *met.entry(words.split(": ").nth(1).unwrap()).or_insert(0) += 1;
    }
    let long = format!("nodes 2\n#{}\nx\n", ".".repeat(255));
    assert_eq!(complaint(long), "line 2: line over 255 bytes");
    let faults = [
        "unknown word",
        "missing field",
        "not a number",
        "number too large",
        "extra field",
        "no nodes line",
        "a second nodes line",
        "refused 1",
        "refused 4",
        "refused 5",
        "refused 15",
        "no user 0 line",
        "no action",
    ];
    assert!(faults.iter().all(|fault| met.contains_key(fault)) && met.len() == faults.len());
}

#[test]
fn the_field() {
    // A line up to the field, its name, and the most that it takes.
    for (line, field, most) in [
        ("nodes", "the number of nodes", "255"),
        ("actions", "the number of actions", "65535"),
        ("user", "the node of user", "255"),
        ("user 0 to", "the address of user", "255"),
        ("user 0 spell", "the spell of user", "255"),
        ("user 0 to all spell", "the spell of user", "255"),
        ("user 0 fillers", "the fillers of user", "255"),
        ("user 0 to 1 spell 2 fillers", "the fillers of user", "255"),
        ("user 0 lose", "the period of user", "255"),
        ("user 0 to 1 spell 2 fillers 3 hold lose", "the period of user", "255"),
    ] {
        let with = |word: &str| flaw(format!("{line} {word} # of many"));
        assert_eq!(with(""), format!("missing field: {field}"));
        for word in ["x", "0X", "-1", "hold", "to", "*"] {
            assert_eq!(with(word), format!("not a number: \"{word}\", {field}"));
        }
        for word in ["65536", "0x10000", "18446744073709551617"] {
            assert_eq!(
                with(word),
                format!("number too large: \"{word}\", {field}, at most {most}")
            );
        }
        if most == "255" {
            assert_eq!(with("256 x"), format!("number too large: \"256\", {field}, at most 255"));
        }
        if field != "the address of user" {
            assert_eq!(with("all"), format!("not a number: \"all\", {field}"));
        }
    }
}

/// "A word that has no place there: unknown, out of order, or said twice."
#[test]
fn the_order_of_words() {
    const WORDS: [&str; 5] = ["to 1", "spell 2", "fillers 3", "hold", "lose 4"];
    let name = |place: usize| WORDS[place].split(' ').next().unwrap();
    // Every choice of words in their order is right.
    for choice in 0..32 {
        let chosen: Vec<&str> =
            (0..5).filter(|place| choice >> place & 1 == 1).map(|place| WORDS[place]).collect();
        let line = format!("user 0 {}", chosen.join(" "));
        assert!(read_line(line.as_bytes()).is_ok(), "{line}");
        // Any of them after the last of them is not, if it is no later one.
        let last = (0..5).filter(|place| choice >> place & 1 == 1).max();
        for place in (0..5).filter(|&place| Some(place) <= last) {
            let line = format!("{line} {}", WORDS[place]);
            assert_eq!(flaw(&line), format!("extra field: \"{}\"", name(place)), "{line}");
        }
        for word in ["5", "all", "release", "Hold", "hold,", "*", "user"] {
            assert_eq!(flaw(format!("{line} {word}")), format!("extra field: \"{word}\""));
        }
    }
}

/// "WORD, STATEMENT and how bytes are shown are as in NOTATION."
#[test]
fn words_and_statements() {
    assert_eq!(
        flaw(b"user\xc2\xa00"),
        r#"unknown word: "user\xC2\xA00" (a no-break space: write a plain one)"#
    );
    assert_eq!(
        flaw(b"user 0\x01"),
        r#"not a number: "0\x01" (no plain text: UTF-16, or a binary file), the node of user"#
    );
    assert_eq!(flaw(b"user 0 hold*2"), r#"extra field: "hold*2" (write spaces around *)"#);
    assert_eq!(flaw(b"user 0 \xe9"), r#"extra field: "\xE9""#);
    let long = "a".repeat(65);
    assert_eq!(flaw(&long), format!("unknown word: \"{}..\"", "a".repeat(64)));
    assert_eq!(flaw("a".repeat(64)), format!("unknown word: \"{}\"", "a".repeat(64)));
    assert_eq!(flaw("a".repeat(256)), "line over 255 bytes");
    let stretched = |blanks: usize| complaint(format!("nodes 2\nuser{}7", " ".repeat(blanks)));
    let why = "no node 7, nodes are 0 to 1";
    assert_eq!(stretched(59), format!("line 2: refused 4: user{}7: {why}", " ".repeat(59)));
    assert_eq!(stretched(60), format!("line 2: refused 4: user{}..: {why}", " ".repeat(60)));
}

/// As in runs: skipped at the very start, part of a word elsewhere.
#[test]
fn the_byte_order_mark() {
    let text = b"nodes 2\nactions 5\nuser 0 to 1\n";
    let marked = [&b"\xef\xbb\xbf"[..], text].concat();
    assert_eq!(settings(&marked), settings(text));
    assert_eq!(complaint(b"\xef\xbb\xbf"), "line 0: no nodes line");
    assert_eq!(
        complaint(b"\xef\xbb\xbf\xef\xbb\xbfnodes 2"),
        r#"line 1: unknown word: "\xEF\xBB\xBFnodes""#
    );
    assert_eq!(complaint(b"\xef\xbb"), r#"line 1: unknown word: "\xEF\xBB""#);
}

/// A text that comes byte by byte.
#[test]
fn streams() {
    let mut random = Random::new(4);
    for way in SettingsWay::all() {
        let text = way.make(&mut random).text;
        assert_eq!(read_stream(&mut byte_by_byte(&text)).unwrap(), read(&text));
    }
}

/// The generators: a right text says the settings that it was made of, a wrong one has the fault that
/// it was made with; and they hit all that there is to hit.
#[test]
fn random_texts() {
    let mut random = Random::new(2);
    let mut hits = Hits::default();
    for _ in 0..16 {
        for way in SettingsWay::all() {
            let case = way.make(&mut random);
            let read = read(&case.text);
            let checked = case.check(&read, Settings::clone);
            assert_eq!(checked, Ok(()), "{way:?}: {}", String::from_utf8_lossy(&case.text));
            if let Ok(settings) = &read {
                assert_eq!(self::settings(plain(settings)), *settings);
            }
            aims::hits(&case.text, read.as_ref()).into_iter().for_each(|name| hits.enter(name));
        }
    }
    if let Err(why) = hits::account(&hits, &aims::aims(), "random settings") {
        panic!("{why}");
    }
}

/// What `model trial` and `model settings` write.
#[test]
fn the_subcommands() {
    let example = b"nodes 2\nactions 19\nuser 0 to 1\nuser 1 to 0 lose 2\n";
    let tally = "requests 2\nwins 1\nsent 0\nack 0\nmiss 1\ndrops 1\n";
    let (file, said) = trial(example);
    assert_eq!((file.len(), &said[..]), (512, tally));
    assert_eq!(model(&["trial"], example), (Some(0), file, tally.into()));
    let wrong = b"nodes 2\nuser 0 to 1\n";
    assert_eq!(model(&["trial"], wrong), (Some(0), vec![], "line 2: no action\n".into()));
    assert_eq!(model(&["trial", "x"], example).0, Some(1));
    for seed in ["1", "2", "3", "4", "5"] {
        let (status, text, errors) = model(&["settings", "--seed", seed], b"");
        assert_eq!((status, &errors[..]), (Some(0), ""));
        assert!(read(&text).is_ok());
        let (status, text, errors) = model(&["settings", "--wrong", "--seed", seed], b"");
        assert_eq!((status, &errors[..]), (Some(0), ""));
        assert!(read(&text).is_err());
    }
    assert_eq!(model(&["settings", "--seed"], b"").0, Some(1));
}
