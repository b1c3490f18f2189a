//! Runs a program on a run file or a text, and says how it ended and what it printed.

use std::fs::{self, File};
use std::io::{self, Read, Write};
use std::path::{Path, PathBuf};
use std::process::{Child, Command, ExitStatus, Stdio};
use std::sync::{mpsc, Mutex};
use std::thread;
use std::time::Duration;

use super::random::Random;

/// A program that has not ended by then is taken not to end.
const PATIENCE: Duration = Duration::from_secs(60);

/// What a program gets on its standard input.
#[derive(Clone, Copy)]
pub enum Input<'a> {
    File(&'a Path),
    /// Through a pipe, in pieces of this many bytes.
    Pipe(&'a [u8], usize),
}

/// These bytes for a program: mostly in a file, now and then through a pipe in odd pieces.
pub fn input<'a>(
    bytes: &'a [u8],
    index: u64,
    path: &'a Path,
    random: &mut Random,
) -> Result<Input<'a>, String> {
    if index % 4 == 3 {
        let piece = random.pick(&[1, 2, 7, 255, 256, 257, 511, 512, 513, 4096]);
        return Ok(Input::Pipe(bytes, piece.max(bytes.len() / 2000)));
    }
    fs::write(path, bytes).map_err(|error| format!("{}: {error}", path.display()))?;
    Ok(Input::File(path))
}

pub struct Ran {
    pub text: Vec<u8>,
    /// What it wrote to standard error, or the first part of it.
    pub errors: Vec<u8>,
    /// None: it had to be stopped.
    pub status: Option<ExitStatus>,
}

/// Runs the program with these arguments; reads at most `limit` bytes of what it prints.
pub fn run(program: &Path, arguments: &[&str], input: Input, limit: usize) -> io::Result<Ran> {
    let mut command = Command::new(program);
    command.args(arguments).stdout(Stdio::piped()).stderr(Stdio::piped());
    match input {
        Input::File(path) => command.stdin(File::open(path)?),
        Input::Pipe(..) => command.stdin(Stdio::piped()),
    };
    let mut child = command.spawn()?;
    let stdin = child.stdin.take();
    let stdout = child.stdout.take();
    let stderr = child.stderr.take();
    let child = Mutex::new(child);
    let stop = || child.lock().expect("no thread panics").kill();
    let mut text = Vec::new();
    let (ended, watch) = mpsc::channel::<()>();
    let (status, errors) = thread::scope(|scope| -> io::Result<(Option<ExitStatus>, Vec<u8>)> {
        if let (Some(mut stdin), Input::Pipe(bytes, piece)) = (stdin, input) {
            scope.spawn(move || {
                // A program that refuses need not read on: an error here is none.
                let _ = bytes.chunks(piece).try_for_each(|piece| stdin.write_all(piece));
            });
        }
        let errors = scope.spawn(move || match stderr {
            Some(stderr) => read_start(stderr),
            None => Ok(Vec::new()),
        });
        let watchdog = scope.spawn(move || {
            let late = watch.recv_timeout(PATIENCE) == Err(mpsc::RecvTimeoutError::Timeout);
            if late {
                let _ = stop();
            }
            late
        });
        if let Some(stdout) = stdout {
            stdout.take(limit as u64 + 1).read_to_end(&mut text)?;
        }
        drop(ended);
        let endless = text.len() > limit;
        if endless {
            stop()?;
        }
        let late = watchdog.join().expect("the watchdog does not panic");
        // Its output is at its end: so is the program, or soon.
        let status = wait(&child)?;
        let errors = errors.join().expect("the reader does not panic")?;
        Ok((status.filter(|_| !late && !endless), errors))
    })?;
    Ok(Ran { text, errors, status })
}

/// Reads to the end, and keeps the start.
fn read_start(mut stream: impl Read) -> io::Result<Vec<u8>> {
    let mut start = Vec::new();
    stream.by_ref().take(65_536).read_to_end(&mut start)?;
    io::copy(&mut stream, &mut io::sink())?;
    Ok(start)
}

/// Waits for the end of a program that has closed its output, and stops it if that never comes.
fn wait(child: &Mutex<Child>) -> io::Result<Option<ExitStatus>> {
    let mut child = child.lock().expect("no thread panics");
    let mut pause = Duration::from_micros(20);
    let mut waited = Duration::ZERO;
    loop {
        if let Some(status) = child.try_wait()? {
            return Ok(Some(status));
        }
        if waited > PATIENCE {
            child.kill()?;
            child.wait()?;
            return Ok(None);
        }
        thread::sleep(pause);
        waited += pause;
        pause = (pause * 2).min(Duration::from_millis(20));
    }
}

/// What is wrong with how a program ran and what it printed, if anything.
pub fn difference(ran: &Ran, expected: &[u8]) -> Option<String> {
    match ran.status {
        None => return Some("it did not end, or printed without end, and was stopped".into()),
        Some(status) if !status.success() => {
            let errors = String::from_utf8_lossy(&ran.errors);
            return Some(format!("it ended with {status} and not with exit status 0: {errors}"));
        }
        Some(_) if ran.text == expected => return None,
        Some(_) => (),
    }
    let mut theirs = ran.text.split(|&byte| byte == b'\n');
    let mut ours = expected.split(|&byte| byte == b'\n');
    let mut line = 0;
    loop {
        line += 1;
        let (their, our) = (theirs.next(), ours.next());
        if their != our {
            let show = |line: Option<&[u8]>| match line {
                Some(line) => {
                    format!("'{}'", String::from_utf8_lossy(&line[..line.len().min(200)]))
                }
                None => "the text is at its end".into(),
            };
            return Some(format!("line {line}: program: {}; model: {}", show(their), show(our)));
        }
        if their.is_none() {
            return Some("the texts differ".into());
        }
    }
}

/// A directory of its own under the system's temporary one; removed at the end.
pub struct Scratch {
    path: PathBuf,
}

impl Scratch {
    pub fn new() -> io::Result<Scratch> {
        let path = std::env::temp_dir().join(format!("model-{}", std::process::id()));
        fs::create_dir_all(&path)?;
        Ok(Scratch { path })
    }

    pub fn file(&self, name: &str) -> PathBuf {
        self.path.join(name)
    }
}

impl Drop for Scratch {
    fn drop(&mut self) {
        let _ = fs::remove_dir_all(&self.path);
    }
}

/// Keeps a file on which something went wrong, and says where.
pub fn keep(name: &str, bytes: &[u8]) -> String {
    let path = std::env::temp_dir().join(name);
    match fs::write(&path, bytes) {
        Ok(()) => format!("file kept as {}", path.display()),
        Err(error) => format!("file could not be kept as {}: {error}", path.display()),
    }
}
