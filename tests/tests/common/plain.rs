//! What the tests of texts in plain words have in common.

use std::fmt::Debug;
use std::io::{BufReader, Write};
use std::process::{Command, Stdio};

use bench_model::plain::{Flaw, Written};

/// What is wrong in a line, with its cause.
pub fn flaw_of<T: Debug>(read: Result<T, Flaw>) -> String {
    read.expect_err("a fault").to_string()
}

/// The line of standard error for a wrong text.
pub fn complaint_of((output, said): Written) -> String {
    assert_eq!(output, []);
    let line = said.strip_suffix('\n').expect("a line");
    assert!(line.starts_with("line "), "{line}");
    line.into()
}

/// A text that comes byte by byte.
pub fn byte_by_byte(text: &[u8]) -> BufReader<&[u8]> {
    BufReader::with_capacity(1, text)
}

/// Status, standard output and standard error of the model with these words, and this on its standard
/// input.
pub fn model(words: &[&str], input: &[u8]) -> (Option<i32>, Vec<u8>, String) {
    let mut child = Command::new(env!("CARGO_BIN_EXE_model"))
        .args(words)
        .stdin(Stdio::piped())
        .stdout(Stdio::piped())
        .stderr(Stdio::piped())
        .spawn()
        .unwrap();
    // One that reads nothing may be at its end already.
    let _ = child.stdin.take().unwrap().write_all(input);
    let said = child.wait_with_output().unwrap();
    (said.status.code(), said.stdout, String::from_utf8(said.stderr).unwrap())
}
