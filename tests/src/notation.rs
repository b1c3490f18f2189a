//! Runs in plain words: a text to the bytes of a run file, and back.
//!
//! One action on a line, in document 01's words, after a line `nodes N`. Numbers are decimal or,
//! after 0x or 0X, hexadecimal, `#` starts a comment, `* K` at the end of an action's line repeats
//! it. What is wrong is said in one line, with its cause where more can be said.

use std::io::{self, BufRead, Read, Write};

use crate::bus::{Action, Head, Packet, Record, Refusal, ALL_NODES};
use crate::plain::{self, Fields, Nodes};
use crate::runfile::{self, BLOCK, FULL};
use crate::transcript;
use crate::unplayed::{self, Unplayed};

pub use crate::plain::{statement, words, Complaint, Fault, Flaw, LONGEST_LINE, MARK};

/// What a line says by itself.
#[derive(Clone, Copy, PartialEq, Eq, Debug)]
pub enum Line {
    Blank,
    Nodes(u8),
    /// An action, so many times.
    Acts(Record, u32),
}

/// Reads one line, given without its newline.
pub fn read_line(line: &[u8]) -> Result<Line, Flaw> {
    let mut fields = Fields::of(line)?;
    let Some(name) = fields.take() else {
        return Ok(Line::Blank);
    };
    if name == b"nodes" {
        return Ok(Line::Nodes(fields.nodes()?));
    }
    let record = fields.action(name)?;
    let times = fields.repeat()?;
    fields.end()?;
    Ok(Line::Acts(record, times))
}

/// What the lines of runs have beside.
impl Fields<'_> {
    /// A header, a datum, a repeat count.
    fn word(&mut self, field: &str) -> Result<u32, Flaw> {
        self.number(field, u32::MAX)
    }

    /// The fields of the action with this name.
    fn action(&mut self, name: &[u8]) -> Result<Record, Flaw> {
        let of = |kind| Record { kind, ..Record::default() };
        Ok(match name {
            b"request" => Record {
                node: self.byte("the node of request")?,
                address: self.address("the address of request")?,
                header: self.word("the header of request")?,
                data: self.word("the data of request")?,
                label: self.byte_after(b"label", "the label of request")?,
                ..of(1)
            },
            b"arbitrate" => Record { node: self.byte("the node of arbitrate")?, ..of(2) },
            b"respond" => Record {
                node: self.byte("the node of respond")?,
                ack: self.byte("the acknowledgement of respond")?,
                hold: self.take_if(b"hold").into(),
                ..of(3)
            },
            b"clock" => Record { node: self.byte("the node of clock")?, ..of(4) },
            b"pass" => of(5),
            b"lose" => of(6),
            b"change" => {
                let alone = self.next().is_none_or(|word| word == b"*");
                let address = if alone { 0 } else { self.address("the address of change")? };
                Record { address, ..of(7) }
            }
            b"grant" => of(8),
            b"gap" => of(9),
            b"reset" => of(10),
            b"ask" => Record { node: self.byte("the node of ask")?, ..of(11) },
            b"decide" => Record { node: self.byte("the node of decide")?, ..of(12) },
            _ => return Err(Flaw::unknown(name)),
        })
    }

    /// `* K`, or once.
    fn repeat(&mut self) -> Result<u32, Flaw> {
        if !self.take_if(b"*") {
            return Ok(1);
        }
        match self.word("the count after *")? {
            0 => Err(Fault::RepeatOfZero.into()),
            times => Ok(times),
        }
    }
}

/// A text being read: as much of its lines so far as the next one depends on.
#[derive(Default)]
pub(crate) struct Text {
    pub(crate) nodes: Nodes,
    acts: bool,
}

impl Text {
    /// One line of the text, in its place.
    fn line(&mut self, line: &[u8]) -> Result<Line, Flaw> {
        let read = read_line(line)?;
        self.take(read, line)?;
        Ok(read)
    }

    /// What a line says by itself, in its place.
    pub(crate) fn take(&mut self, read: Line, line: &[u8]) -> Result<(), Flaw> {
        match read {
            Line::Blank => (),
            Line::Nodes(n) => self.nodes.say(n, line)?,
            Line::Acts(record, _) => {
                let n = self.nodes.said()?;
                record.look(n).map_err(|refusal| refused(refusal, &record, n, line))?;
                self.acts = true;
            }
        }
        Ok(())
    }

    /// The end of the text, after whole lines.
    fn end(&self) -> Result<(), Flaw> {
        self.nodes.said()?;
        match self.acts {
            true => Ok(()),
            false => Err(Fault::NoAction.into()),
        }
    }
}

/// Which field of a record is refused, and what it may be.
fn refused(refusal: Refusal, record: &Record, n: u8, line: &[u8]) -> Flaw {
    let Record { node, address, label, ack, .. } = *record;
    let why = match refusal {
        Refusal::Node => return Flaw::no_node(node, n, line),
        Refusal::Address => return Flaw::no_address(address, n, line),
        Refusal::Label => format!("no label {label}, labels are 0 to 63"),
        Refusal::ToItself => return Flaw::to_itself(node, line),
        Refusal::AckOrHold => format!("no acknowledgement {ack}, they are 0 to 15"),
        _ => unreachable!("a line has only the fields that its action names"),
    };
    Flaw::refused(refusal, line, &why)
}

/// Reads a text of any length in constant memory. Each line goes to `take` with its number, if it is
/// right and right where it stands.
fn read_text(
    input: &mut impl BufRead,
    mut take: impl FnMut(u64, Line) -> io::Result<Result<(), Fault>>,
) -> io::Result<Result<(), Complaint>> {
    let mut text = Text::default();
    plain::read_text(input, |number, line| {
        let Some(line) = line else {
            return Ok(text.end());
        };
        match text.line(line) {
            Ok(read) => Ok(take(number, read)?.map_err(Flaw::from)),
            Err(flaw) => Ok(Err(flaw)),
        }
    })
}

/// A run file being composed. Holds the block under way, and nothing that grows.
#[derive(Default)]
struct Composer {
    /// From the `nodes` line on.
    n: u8,
    /// The number of the next block; None after 4,294,967,295.
    number: Option<u32>,
    under_way: Vec<Record>,
}

impl Composer {
    fn new() -> Composer {
        Composer { number: Some(0), ..Composer::default() }
    }

    /// What the next line says; whole blocks go out.
    fn line(&mut self, line: Line, output: &mut impl Write) -> io::Result<Result<(), Fault>> {
        match line {
            Line::Blank => (),
            Line::Nodes(n) => self.n = n,
            Line::Acts(record, times) => {
                for _ in 0..times {
                    let Some(number) = self.number else {
                        return Ok(Err(Fault::TooManyActions));
                    };
                    self.under_way.push(record);
                    if self.under_way.len() == FULL {
                        self.write(number, output)?;
                    }
                }
            }
        }
        Ok(Ok(()))
    }

    /// Writes the block under way, whose actions were looked at when they came.
    fn write(&mut self, number: u32, output: &mut impl Write) -> io::Result<()> {
        let mut block = [0; BLOCK];
        let (written, _) = runfile::write_block(&mut block, number, self.n, &self.under_way);
        written.expect("the writer takes it");
        self.number = number.checked_add(1);
        self.under_way.clear();
        output.write_all(&block)
    }

    /// The end of the text: the last block goes out, unless the last action filled it.
    fn end(&mut self, output: &mut impl Write) -> io::Result<()> {
        match self.number {
            Some(number) if !self.under_way.is_empty() => self.write(number, output),
            _ => Ok(()),
        }
    }
}

/// Composes a text of any length in constant memory. Whole blocks before a fault are out.
pub fn compose_stream(
    input: &mut impl BufRead,
    output: &mut impl Write,
) -> io::Result<Result<(), Complaint>> {
    let mut composer = Composer::new();
    let ended = read_text(input, |_, line| composer.line(line, output))?;
    if ended.is_ok() {
        composer.end(output)?;
    }
    output.flush()?;
    Ok(ended)
}

/// A whole text: what is written, and what is wrong if something is.
pub fn compose(text: &[u8]) -> (Vec<u8>, Result<(), Complaint>) {
    let mut file = Vec::new();
    let ended = compose_stream(&mut &text[..], &mut file).expect("memory can be written");
    (file, ended)
}

/// Which line says what: the number of each line that is not blank, and how many actions it says (1
/// for the `nodes` line). A text of any length in constant memory; the lines before a fault are out.
pub fn lines_stream(
    input: &mut impl BufRead,
    output: &mut impl Write,
) -> io::Result<Result<(), Complaint>> {
    let ended = read_text(input, |number, line| {
        match line {
            Line::Blank => (),
            Line::Nodes(_) => writeln!(output, "{number} 1")?,
            Line::Acts(_, times) => writeln!(output, "{number} {times}")?,
        }
        Ok(Ok(()))
    })?;
    output.flush()?;
    Ok(ended)
}

/// The lines of a whole text, and what is wrong if something is.
pub fn lines(text: &[u8]) -> (Vec<u8>, Result<(), Complaint>) {
    let mut lines = Vec::new();
    let ended = lines_stream(&mut &text[..], &mut lines).expect("memory can be written");
    (lines, ended)
}

/// The line of an action: decimal numbers, `all` for 63, `change` for address 0, `label` for a label
/// that is not 0.
pub fn print_action(text: &mut Vec<u8>, action: Action) {
    let address = |address: u8| match address {
        ALL_NODES => "all".to_string(),
        _ => address.to_string(),
    };
    let line = match action {
        Action::Request { node, packet: Packet { address: to, head, data } } => {
            let Head { header, label } = head;
            let labelled = match label {
                0 => String::new(),
                _ => format!(" label {label}"),
            };
            format!("request {node} {} {header} {data}{labelled}", address(to))
        }
        Action::Arbitrate { node } => format!("arbitrate {node}"),
        Action::Respond { node, ack, hold: false } => format!("respond {node} {ack}"),
        Action::Respond { node, ack, hold: true } => format!("respond {node} {ack} hold"),
        Action::Clock { node } => format!("clock {node}"),
        Action::Pass => "pass".into(),
        Action::Lose => "lose".into(),
        Action::Change { address: 0 } => "change".into(),
        Action::Change { address: other } => format!("change {}", address(other)),
        Action::Grant => "grant".into(),
        Action::Gap => "gap".into(),
        Action::Reset => "reset".into(),
        Action::Ask { node } => format!("ask {node}"),
        Action::Decide { node } => format!("decide {node}"),
    };
    text.extend_from_slice(line.as_bytes());
    text.push(b'\n');
}

/// A listing: `nodes N`, then a line for each action, and no last line unless a refusal ends it.
struct Listing;

impl Unplayed for Listing {
    fn block(text: &mut Vec<u8>, head: runfile::Head, _: &[u8; BLOCK]) {
        if head.number == 0 {
            transcript::nodes(text, head.n);
        }
    }

    fn action(text: &mut Vec<u8>, action: Action) {
        print_action(text, action);
    }

    fn done(_: &mut Vec<u8>, _: u64) {}
}

/// Lists a run file of any length in constant memory.
pub fn list_stream(input: &mut impl Read, output: &mut impl Write) -> io::Result<()> {
    unplayed::stream::<Listing>(input, output)
}

/// The text of a whole file.
pub fn list(file: &[u8]) -> Vec<u8> {
    unplayed::whole::<Listing>(file)
}

#[cfg(test)]
mod tests {
    use super::*;

    /// "none follows 4,294,967,295": the last block there can be, and one action more.
    #[test]
    fn too_many_actions() {
        let last = || Composer { n: 2, number: Some(u32::MAX), under_way: Vec::new() };
        let passes = |times| Line::Acts(Record { kind: 5, ..Record::default() }, times);
        let mut file = Vec::new();
        let mut composer = last();
        assert_eq!(composer.line(passes(31), &mut file).unwrap(), Ok(()));
        composer.end(&mut file).unwrap();
        assert_eq!(file.len(), BLOCK);
        let mut composer = last();
        let answer = composer.line(passes(32), &mut file).unwrap();
        assert_eq!(answer, Err(Fault::TooManyActions));
        assert_eq!(file.len(), 2 * BLOCK);
        assert_eq!(Flaw::from(Fault::TooManyActions).to_string(), "too many actions");
    }
}
