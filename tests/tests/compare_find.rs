//! `compare-find` and `compare-probe`, with stand-ins for the programs `find` and `probe`:
//! scripts that call the model, and that alter what it writes.

mod common;

use std::path::Path;

use common::stand_ins::Room;

/// The model's answer with this done to it.
fn altered(subcommand: &str, filter: &str) -> String {
    format!("\"$model\" {subcommand} >\"$own\"\n{filter} <\"$own\"")
}

// One test: a script that is written while another one is started may be busy.
#[test]
fn stand_ins() {
    let room = Room::new("find");
    let find = room.script("find", "exec \"$model\" find");
    let probe = room.script("probe", "exec \"$model\" probe");
    for only in ["0", "4", "8", "300", "400", "500"] {
        let said = room.run(&["compare-find", "--only", only], &[&find]);
        assert_eq!(said, (0, "equal\n".into(), String::new()));
    }
    room.hits_too_few(&["compare-find", "--files", "20"], &[&find], "20 questions");
    room.hits_too_few(&["compare-probe", "--states", "25"], &[&probe], "25 states handed in");

    let wrong = |words: &[&str], program: &Path, part: &str| {
        let errors = room.fails(words, &[program], part);
        assert!(errors.contains("file kept as "), "{errors}");
        errors
    };
    let wrong_find = |name: &str, body: &str, part: &str| {
        let program = room.script(name, body);
        let errors = wrong(&["compare-find", "--files", "600"], &program, part);
        assert!(errors.contains("again: model compare-find FIND --seed 1 --only "), "{errors}");
    };
    wrong_find("none", &altered("find", "sed 's/.*/none/;q'"), "it says none, and the model");
    wrong_find("route", &altered("find", "sed 's/^none/pass/'"), "");
    wrong_find("short", &altered("find", "sed '1!{$d}'"), "its last action reports ");
    wrong_find("spelt", &altered("find", "sed 's/^pass$/pass * 1/'"), "not as list prints it: ");
    wrong_find(
        "repeat",
        &altered("find", "sed 's/^clock.*/& * 2/'"),
        "is no action of kinds 4 to 9",
    );
    wrong_find("no-newline", &altered("find", "tr -d '\\n'"), "");
    // The bytes are shown beside, whatever else is wrong.
    for (name, filter, part) in [
        ("none-shown", "sed 's/.*/none/;q'", "; program: 'none'; model: '"),
        ("route-shown", "sed 's/^none/pass/'", "model: 'none'"),
        ("short-shown", "sed '1!{$d}'", "; program: '"),
        ("spelt-shown", "sed 's/^pass$/pass * 1/'", "; program: '"),
        ("no-newline-shown", "tr -d '\\n'", "...'; model: '"),
    ] {
        wrong_find(name, &altered("find", filter), part);
    }
    // Another one of the shortest routes.
    wrong_find("change", &altered("find", "sed 's/^lose$/change/'"), "model: '");
    let swapped = "sed '/^clock/{N;s/^\\(clock .*\\)\\n\\(clock .*\\)$/\\2\\n\\1/}'";
    wrong_find("clocks", &altered("find", swapped), "clock ");
    wrong_find("words", "\"$model\" find 2>&1", "standard error: ");
    let itself = "\"$model\" find 2>\"$own\"\nsed 's/refused 15/refused 7/' <\"$own\" >&2";
    wrong_find("itself", itself, "refused 15: request ");
    wrong_find("both", "\"$model\" find || :; echo none", "");
    wrong_find("status", "\"$model\" find; exit 3", "it ended with exit status: 3");
    // Another answer at one depth.
    let at_6 = "cat >\"$own\"\nif grep -q '^find .* within 6$' \"$own\"; then echo none\nelse";
    let at_6 = room.script("at-6", &format!("{at_6} \"$model\" find <\"$own\"; fi"));
    let said = |only: u8| room.run(&["compare-find", "--only", &only.to_string()], &[&at_6]).2;
    assert!((0..100).any(|only| said(only).contains("): within 6: program: 'none'; model: '")));
    let wrong_probe = |name: &str, body: &str, part: &str| {
        let program = room.script(name, body);
        wrong(&["compare-probe", "--states", "600"], &program, part);
    };
    wrong_probe("12", &altered("probe", "sed 's/refused 12/refused 14/'"), "model: 'refused 12'");
    wrong_probe("14", &altered("probe", "sed 's/refused 14/refused 4/'"), "model: 'refused 14'");
    wrong_probe("4", &altered("probe", "sed 's/refused 4/none/'"), "model: 'refused 4'");
    wrong_probe("no-none", &altered("probe", "sed 's/none/gap/'"), "");
    wrong_probe("none-shown", &altered("probe", "sed 's/none/gap/'"), "model: 'none'");
    wrong_probe("pass", &altered("probe", "sed 's/^pass$/lose/'"), "lose");
    wrong_probe("one", "head -c 384 | \"$model\" probe", "1 answers to 10 questions");
    wrong_probe("end", &altered("probe", "sed '$d'"), "the last answer has no empty line after it");
}
