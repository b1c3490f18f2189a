//! Stand-ins for programs: scripts that call the model, and that alter what it writes.

use std::fs;
use std::os::unix::fs::PermissionsExt;
use std::path::{Path, PathBuf};
use std::process::Command;

/// A folder of its own; removed at the end.
pub struct Room(PathBuf);

impl Room {
    /// One for the stand-ins of these programs.
    pub fn new(programs: &str) -> Room {
        let name = format!("stand-ins-{programs}-{}", std::process::id());
        let path = std::env::temp_dir().join(name);
        fs::create_dir_all(&path).expect("a folder");
        Room(path)
    }

    /// A file of this name, with this in it.
    pub fn write(&self, name: &str, bytes: &[u8]) -> PathBuf {
        let path = self.0.join(name);
        fs::write(&path, bytes).expect("a file");
        path
    }

    pub fn remove(&self, name: &str) {
        fs::remove_file(self.0.join(name)).expect("it is there");
    }

    pub fn path(&self) -> &Path {
        &self.0
    }

    /// A script of this name, which knows the model as `$model` and a file of its own as `$own`.
    pub fn script(&self, name: &str, body: &str) -> PathBuf {
        let (model, room) = (env!("CARGO_BIN_EXE_model"), self.0.display());
        let text = format!("#!/bin/sh\nmodel='{model}'\nown='{room}/'$$\n{body}\n");
        let path = self.write(name, text.as_bytes());
        fs::set_permissions(&path, fs::Permissions::from_mode(0o755)).expect("a program");
        path
    }

    /// Status, standard output and standard error of a subcommand with these programs.
    pub fn run(&self, words: &[&str], programs: &[&Path]) -> (i32, String, String) {
        let said = Command::new(env!("CARGO_BIN_EXE_model"))
            .args(words)
            .args(programs)
            .env("TMPDIR", &self.0)
            .output()
            .expect("the model runs");
        let text = |bytes| String::from_utf8(bytes).expect("plain text");
        (said.status.code().unwrap_or(-1), text(said.stdout), text(said.stderr))
    }

    /// The same for one that fails, and says this among other things: all that it says.
    pub fn fails(&self, words: &[&str], programs: &[&Path], part: &str) -> String {
        let (status, output, errors) = self.run(words, programs);
        assert_eq!((status, &output[..]), (1, ""));
        assert!(errors.contains(part), "{errors}, not {part}");
        errors
    }

    /// A comparison in which all are equal, and too few to hit all.
    pub fn hits_too_few(&self, words: &[&str], programs: &[&Path], compared: &str) {
        let errors = self.fails(words, programs, "not hit: ");
        assert!(errors.starts_with(&format!("model: {compared}; hit:\n")), "{errors}");
    }
}

impl Drop for Room {
    fn drop(&mut self) {
        let _ = fs::remove_dir_all(&self.0);
    }
}
