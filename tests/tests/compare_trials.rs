//! `compare-trials` and `bench-trials`, with stand-ins for the programs `trial` and `play`: scripts that
//! call the model, and that alter what it writes.

mod common;

use std::path::Path;

use common::stand_ins::Room;

/// The trial with this done to what it writes to standard error.
fn with_errors(filter: &str) -> String {
    format!("\"$model\" trial >\"$own\" 2>\"$own.err\"\n{filter} <\"$own.err\" >&2\ncat \"$own\"")
}

// One test: a script that is written while another one is started may be busy.
#[test]
fn stand_ins() {
    let room = Room::new("trials");
    let trial = room.script("trial", "exec \"$model\" trial");
    let play = room.script("play", "exec \"$model\" play");
    for only in ["0", "1", "2", "3", "40", "41"] {
        let said = room.run(&["compare-trials", "--only", only], &[&trial, &play]);
        assert_eq!(said, (0, "equal\n".into(), String::new()));
    }
    room.hits_too_few(&["compare-trials", "--files", "20"], &[&trial, &play], "20 settings");

    let wrong = |trial: &Path, play: &Path, part: &str| {
        let words = ["compare-trials", "--files", "400"];
        let errors = room.fails(&words, &[trial, play], part);
        assert!(errors.contains("again: model compare-trials TRIAL PLAY --seed 1 --only "));
    };
    let wrong_trial = |name: &str, body: &str, part: &str| {
        wrong(&room.script(name, body), &play, part);
    };
    wrong_trial("drops", &with_errors("sed 's/^drops .*/drops 65536/'"), "TRIAL: standard error");
    wrong_trial("short-tally", &with_errors("sed '/^sent/d'"), "TRIAL: standard error");
    wrong_trial("fault", &with_errors("sed 's/no nodes/No nodes/'"), "No nodes line");
    wrong_trial("itself", &with_errors("sed 's/refused 15/refused 5/'"), "refused 15: user ");
    wrong_trial("cause", &with_errors("sed 's/, at most .*//'"), "TRIAL: standard error");
    wrong_trial("more", "\"$model\" trial; printf x", "TRIAL: standard output");
    wrong_trial("less", "\"$model\" trial | head -c 512", "TRIAL: standard output");
    wrong_trial("status", "\"$model\" trial; exit 3", "it ended with exit status: 3");
    wrong_trial("nothing", "cat >/dev/null", "TRIAL: standard error");
    let wrong_play = |name: &str, body: &str, part: &str| {
        wrong(&trial, &room.script(name, body), part);
    };
    wrong_play("won", "\"$model\" play | sed 's/won$/lost/'", "PLAY: ");
    wrong_play("end", "\"$model\" play | sed '$d'", "PLAY: ");

    let (status, output, errors) = room.run(&["bench-trials", "--rounds", "1"], &[&trial, &play]);
    assert_eq!((status, &errors[..]), (0, ""));
    for n in [2, 63] {
        let line = output.lines().find(|line| line.starts_with(&format!("  n = {n}: TRIAL ")));
        assert!(line.is_some_and(|line| line.contains("TRIAL time / PLAY time")), "{output}");
    }
}
