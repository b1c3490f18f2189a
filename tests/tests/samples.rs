//! The sample runs in runs/: the model composes, plays, lists and sums each as it stands there. And
//! samples of a run file that no text composes to.

mod common;

use std::path::Path;

use bench_model::harness::samples::{self, Words};
use bench_model::{notation, player, sums};
use common::stand_ins::Room;
use common::*;

#[test]
fn samples_as_they_stand() {
    let directory = Path::new(env!("CARGO_MANIFEST_DIR")).join("../runs");
    let samples = samples::read(&directory).expect("every sample is there four times");
    let names: Vec<&str> = samples.iter().map(|sample| sample.name.as_str()).collect();
    let expected = [
        "case-a",
        "case-b",
        "case-c",
        "case-d",
        "case-e",
        "case-f1",
        "case-f2",
        "concatenated-response",
        "contention",
        "dropped-header",
        "fairness-interval",
        "labels",
        "lost-ack",
        "misled-node",
        "transaction",
        "two-blocks",
    ];
    for name in expected {
        assert!(names.contains(&name), "{name} is missing");
    }
    for sample in &samples {
        let name = &sample.name;
        assert!(player::play_file(&sample.run) == sample.printed, "{name}.out");
        assert!(sums::sums(&sample.run) == sample.sums, "{name}.sums");
        let listed = notation::list(&sample.run);
        match &sample.words {
            Words::Text(text) => {
                let file = (sample.run.clone(), Ok(()));
                assert_eq!(notation::compose(text), file, "{name}");
                assert_eq!(notation::compose(&listed), file, "{name}, listed");
            }
            Words::Listing(listing) => {
                assert!(listed == *listing, "{name}.list");
                let (_, ended) = notation::compose(listing);
                assert!(ended.is_err(), "{name}.list composes");
            }
        }
    }
}

/// A folder with one sample, a run from before request 10, and stand-ins for the programs.
struct Older {
    room: Room,
    programs: [std::path::PathBuf; 4],
}

impl Older {
    fn new() -> Older {
        let room = Room::new("samples");
        let file = any_file(2, &older_run());
        room.write("older.run", &file);
        room.write("older.out", &player::play_file(&file));
        room.write("older.sums", &sums::sums(&file));
        let script = |name: &str| room.script(name, &format!("exec \"$model\" {name}"));
        let programs = ["play", "compose", "list", "sums"].map(script);
        Older { room, programs }
    }

    /// Status, standard output and standard error of `model runs`.
    fn runs(&self) -> (i32, String, String) {
        let mut words = vec![self.room.path()];
        words.extend(self.programs.iter().map(|path| path.as_path()));
        self.room.run(&["runs"], &words)
    }

    /// It fails without looking at a sample, and says this.
    fn refuses(&self, why: &str) {
        let (status, output, errors) = self.runs();
        assert_eq!((status, &output[..], &errors[..]), (1, "", &format!("model: {why}\n")[..]));
    }
}

/// It is there with its listing in the place of a text: with one of the two, and with no other.
// One test: a script that is written while another one is started may be busy.
#[test]
fn a_run_file_that_no_text_composes_to() {
    let older = Older::new();
    older.refuses("older: no older.txt and no older.list is there");

    let listing = notation::list(&any_file(2, &older_run()));
    older.room.write("older.list", &listing);
    let (status, output, errors) = older.runs();
    let said = "older: played, listed and summed as it stands\n1 sample runs, 0 differ\n";
    assert_eq!((status, &output[..], &errors[..]), (0, said, ""));

    // With one line another, and with one missing.
    let text = String::from_utf8(listing.clone()).expect("plain text");
    for wrong in [text.replacen("pass", "lose", 1), text.replacen("pass\n", "", 1)] {
        older.room.write("older.list", wrong.as_bytes());
        let (status, output, _) = older.runs();
        assert_eq!(status, 1);
        assert!(output.starts_with("older: DIFFERS: LIST of the .run is not the .list: "));
    }
    // What composes belongs into older.txt.
    let whole = text.lines().filter(|line| !line.starts_with("refused")).collect::<Vec<_>>();
    older.room.write("older.list", whole.join("\n").as_bytes());
    older.refuses("older.list does not end with a line refused");

    older.room.write("older.list", &listing);
    older.room.write("older.txt", &listing);
    older.refuses("older: both older.txt and older.list are there");
    // Nor does the listing stand for a text.
    older.room.remove("older.list");
    let (status, output, _) = older.runs();
    assert_eq!(status, 1);
    assert!(output.starts_with("older: DIFFERS: "), "{output}");
}
