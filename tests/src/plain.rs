//! Plain words: what runs ([`crate::notation`]), settings of trials ([`crate::settings`]) and questions
//! ([`crate::questions`]) have in common. Lines and their words, numbers, the `nodes` line, what can be
//! wrong and how it is said.

use std::collections::VecDeque;
use std::fmt;
use std::io::{self, BufRead, Read};

use crate::bus::{Refusal, ALL_NODES};

/// The most bytes that a line may have, its newline not counted.
pub const LONGEST_LINE: usize = 255;

/// The most bytes that are printed of a word or statement.
const LONGEST_PRINTED: usize = 64;

/// The byte order mark: skipped at the very start of a text, and part of a word elsewhere.
pub const MARK: &[u8] = b"\xef\xbb\xbf";

/// What can be wrong in a text.
#[derive(Clone, Copy, PartialEq, Eq, PartialOrd, Ord, Debug)]
pub enum Fault {
    LongLine,
    UnknownWord,
    MissingField,
    NotANumber,
    TooLarge,
    ExtraField,
    RepeatOfZero,
    NoNodesLine,
    NodesAgain,
    NoUserLine,
    NoAction,
    TooManyActions,
    NoFindLine,
    AfterFind,
    /// One of document 01's numbers.
    Refused(u8),
}

/// The words of each fault; those of document 01's numbers stand in [`refusal_words`].
const WORDS: [(Fault, &str); 14] = [
    (Fault::LongLine, "line over 255 bytes"),
    (Fault::UnknownWord, "unknown word"),
    (Fault::MissingField, "missing field"),
    (Fault::NotANumber, "not a number"),
    (Fault::TooLarge, "number too large"),
    (Fault::ExtraField, "extra field"),
    (Fault::RepeatOfZero, "repeat of 0"),
    (Fault::NoNodesLine, "no nodes line"),
    (Fault::NodesAgain, "a second nodes line"),
    (Fault::NoUserLine, "no user 0 line"),
    (Fault::NoAction, "no action"),
    (Fault::TooManyActions, "too many actions"),
    (Fault::NoFindLine, "no find line"),
    (Fault::AfterFind, "a line after find"),
];

fn refusal_words(number: u8) -> String {
    format!("refused {number}")
}

impl fmt::Display for Fault {
    fn fmt(&self, out: &mut fmt::Formatter<'_>) -> fmt::Result {
        match (self, WORDS.iter().find(|(fault, _)| fault == self)) {
            (Fault::Refused(number), _) => out.write_str(&refusal_words(*number)),
            (_, Some((_, words))) => out.write_str(words),
            (_, None) => unreachable!("every other fault has its words"),
        }
    }
}

impl From<Refusal> for Fault {
    fn from(refusal: Refusal) -> Fault {
        Fault::Refused(refusal.number())
    }
}

/// A fault, and its cause where more can be said.
#[derive(Clone, PartialEq, Eq, Debug)]
pub struct Flaw {
    pub fault: Fault,
    pub cause: Option<String>,
}

impl Flaw {
    pub fn by(fault: Fault, cause: impl Into<String>) -> Flaw {
        Flaw { fault, cause: Some(cause.into()) }
    }

    /// A word says nothing that is known where it stands.
    pub fn unknown(word: &[u8]) -> Flaw {
        Flaw::by(Fault::UnknownWord, quoted(word))
    }

    /// The line is refused, for this reason.
    pub fn refused(refusal: Refusal, line: &[u8], why: &str) -> Flaw {
        Flaw::by(refusal.into(), format!("{}: {why}", printed(statement(line))))
    }

    /// By 4: a line has this node.
    pub fn no_node(node: u8, n: u8, line: &[u8]) -> Flaw {
        Flaw::refused(Refusal::Node, line, &format!("no node {node}, nodes are 0 to {}", last(n)))
    }

    /// By 5: a line has this address.
    pub fn no_address(address: u8, n: u8, line: &[u8]) -> Flaw {
        let why = format!("no address {address}, addresses are 0 to {} and all", last(n));
        Flaw::refused(Refusal::Address, line, &why)
    }

    /// By 15: a line has this node as its address, too.
    pub fn to_itself(node: u8, line: &[u8]) -> Flaw {
        Flaw::refused(Refusal::ToItself, line, &format!("node {node} would send to itself"))
    }
}

/// "n − 1"
fn last(n: u8) -> u8 {
    n - 1
}

impl From<Fault> for Flaw {
    fn from(fault: Fault) -> Flaw {
        Flaw { fault, cause: None }
    }
}

impl fmt::Display for Flaw {
    fn fmt(&self, out: &mut fmt::Formatter<'_>) -> fmt::Result {
        match &self.cause {
            Some(cause) => write!(out, "{}: {cause}", self.fault),
            None => write!(out, "{}", self.fault),
        }
    }
}

/// What is wrong, and the number of its line, from 1; 0 if the text has no line.
#[derive(Clone, PartialEq, Eq, Debug)]
pub struct Complaint {
    pub line: u64,
    pub flaw: Flaw,
}

impl fmt::Display for Complaint {
    fn fmt(&self, out: &mut fmt::Formatter<'_>) -> fmt::Result {
        write!(out, "line {}: {}", self.line, self.flaw)
    }
}

fn is_blank(byte: &u8) -> bool {
    matches!(byte, b' ' | b'\t' | b'\r')
}

/// A line up to its comment.
fn said(line: &[u8]) -> &[u8] {
    line.split(|&byte| byte == b'#').next().unwrap_or(line)
}

/// The words of a line: what its blanks leave of it, up to the comment.
pub fn words(line: &[u8]) -> impl Iterator<Item = &[u8]> {
    said(line).split(is_blank).filter(|word| !word.is_empty())
}

/// "the line from its first word to its last, without its comment"
pub fn statement(line: &[u8]) -> &[u8] {
    let said = said(line);
    let from = said.iter().position(|byte| !is_blank(byte)).unwrap_or(0);
    let to = said.iter().rposition(|byte| !is_blank(byte)).map_or(0, |last| last + 1);
    &said[from..to]
}

/// "32 to 126 as they are, a tab or carriage return as a space, any other as `\x` and two
/// hexadecimal digits"
fn printed(bytes: &[u8]) -> String {
    let one = |&byte: &u8| match byte {
        32..=126 => char::from(byte).to_string(),
        b'\t' | b'\r' => " ".into(),
        _ => format!("\\x{byte:02X}"),
    };
    let start: String = bytes.iter().take(LONGEST_PRINTED).map(one).collect();
    match bytes.len() > LONGEST_PRINTED {
        true => start + "..",
        false => start,
    }
}

/// A word in quotes, and what may have gone wrong with it.
fn quoted(word: &[u8]) -> String {
    format!("\"{}\"{}", printed(word), hint(word))
}

fn hint(word: &[u8]) -> &'static str {
    if word.iter().any(|&byte| byte < 32 || byte == 127) {
        " (no plain text: UTF-16, or a binary file)"
    } else if word.windows(2).any(|pair| pair == b"\xc2\xa0") {
        " (a no-break space: write a plain one)"
    } else if word.contains(&b'*') && word.len() > 1 {
        " (write spaces around *)"
    } else {
        ""
    }
}

/// The words of a line that are not looked at yet.
pub struct Fields<'a> {
    left: VecDeque<&'a [u8]>,
}

impl<'a> Fields<'a> {
    /// All words of a line, given without its newline.
    pub fn of(line: &'a [u8]) -> Result<Fields<'a>, Flaw> {
        match line.len() > LONGEST_LINE {
            true => Err(Fault::LongLine.into()),
            false => Ok(Fields { left: words(line).collect() }),
        }
    }

    /// The next word, which stays.
    pub fn next(&self) -> Option<&'a [u8]> {
        self.left.front().copied()
    }

    pub fn take(&mut self) -> Option<&'a [u8]> {
        self.left.pop_front()
    }

    /// Takes the next word if it is this one.
    pub fn take_if(&mut self, word: &[u8]) -> bool {
        let is_next = self.next() == Some(word);
        if is_next {
            self.left.pop_front();
        }
        is_next
    }

    /// The number in this field: of 8, 16 or 32 bits.
    pub fn number<T: TryFrom<u64> + fmt::Display>(
        &mut self,
        field: &str,
        most: T,
    ) -> Result<T, Flaw> {
        let word = self.take().ok_or_else(|| Flaw::by(Fault::MissingField, field))?;
        let value = number(word)
            .ok_or_else(|| Flaw::by(Fault::NotANumber, format!("{}, {field}", quoted(word))))?;
        value.try_into().map_err(|_| {
            Flaw::by(Fault::TooLarge, format!("{}, {field}, at most {most}", quoted(word)))
        })
    }

    pub fn byte(&mut self, field: &str) -> Result<u8, Flaw> {
        self.number(field, u8::MAX)
    }

    /// The number in this field, if this word stands before it; else 0.
    pub fn byte_after(&mut self, word: &[u8], field: &str) -> Result<u8, Flaw> {
        match self.take_if(word) {
            true => self.byte(field),
            false => Ok(0),
        }
    }

    /// An address, or `all`.
    pub fn address(&mut self, field: &str) -> Result<u8, Flaw> {
        if self.take_if(b"all") {
            return Ok(ALL_NODES);
        }
        self.byte(field)
    }

    /// What follows the word `nodes`.
    pub fn nodes(&mut self) -> Result<u8, Flaw> {
        let n = self.byte("the number of nodes")?;
        self.end()?;
        Ok(n)
    }

    pub fn end(&mut self) -> Result<(), Flaw> {
        match self.take() {
            None => Ok(()),
            Some(word) => Err(Flaw::by(Fault::ExtraField, quoted(word))),
        }
    }
}

/// A number, written with any number of digits; None for a word that is none. What 64 bits do not
/// hold is as large as they get: too large for every field.
fn number(word: &[u8]) -> Option<u64> {
    let (digits, base) = match word {
        [b'0', b'x' | b'X', digits @ ..] => (digits, 16),
        _ => (word, 10),
    };
    let values: Option<Vec<u32>> =
        digits.iter().map(|&digit| char::from(digit).to_digit(base)).collect();
    let values = values.filter(|values| !values.is_empty())?;
    let shift = |sum: u64, value| sum.saturating_mul(base.into()).saturating_add(u64::from(value));
    Some(values.into_iter().fold(0, shift))
}

/// The number of nodes of a text, once its `nodes` line has come.
#[derive(Default)]
pub struct Nodes(Option<u8>);

impl Nodes {
    /// The `nodes` line: the only one, and not refused by 1.
    pub fn say(&mut self, n: u8, line: &[u8]) -> Result<(), Flaw> {
        if self.0.is_some() {
            return Err(Fault::NodesAgain.into());
        }
        if !(2..=63).contains(&n) {
            return Err(Flaw::refused(Refusal::NodeCount, line, "a bus has 2 to 63 nodes"));
        }
        self.0 = Some(n);
        Ok(())
    }

    /// n, for a line after it and at the text's end.
    pub fn said(&self) -> Result<u8, Flaw> {
        self.0.ok_or(Fault::NoNodesLine.into())
    }
}

/// A text without the mark at its very start.
fn skip_mark(input: &mut impl BufRead) -> io::Result<impl BufRead + '_> {
    let mut start = Vec::new();
    input.by_ref().take(MARK.len() as u64).read_to_end(&mut start)?;
    if start == MARK {
        start.clear();
    }
    Ok(io::Cursor::new(start).chain(input))
}

/// Reads a text of any length in constant memory, up to the first fault. Each line goes to `take` with
/// its number and without its newline; at the text's end none does.
pub fn read_text(
    input: &mut impl BufRead,
    mut take: impl FnMut(u64, Option<&[u8]>) -> io::Result<Result<(), Flaw>>,
) -> io::Result<Result<(), Complaint>> {
    let mut input = skip_mark(input)?;
    let mut line = Vec::new();
    let mut number = 0;
    loop {
        line.clear();
        // A line with its newline, or so much of it that it is known to be long.
        let length = input.by_ref().take(LONGEST_LINE as u64 + 1).read_until(b'\n', &mut line)?;
        let taken = match length {
            // A fault at the end has the number of the last line.
            0 => take(number, None)?,
            _ => {
                number += 1;
                take(number, Some(line.strip_suffix(b"\n").unwrap_or(&line)))?
            }
        };
        if length == 0 || taken.is_err() {
            return Ok(taken.map_err(|flaw| Complaint { line: number, flaw }));
        }
    }
}

/// A text that says one thing, known at its end.
pub trait Text {
    type Said;

    /// One line of the text, in its place.
    fn line(&mut self, line: &[u8]) -> Result<(), Flaw>;

    /// What whole lines have said, at the end of the text.
    fn end(&self) -> Result<Self::Said, Flaw>;
}

/// What a text of any length says, or its first fault.
pub fn read_said<T: Text>(
    mut text: T,
    input: &mut impl BufRead,
) -> io::Result<Result<T::Said, Complaint>> {
    let mut said = None;
    let ended = read_text(input, |_, line| {
        Ok(match line {
            Some(line) => text.line(line),
            None => text.end().map(|all| said = Some(all)),
        })
    })?;
    Ok(ended.map(|()| said.expect("the text is at its end")))
}

/// What a program writes to standard output and to standard error.
pub type Written = (Vec<u8>, String);

/// What it writes of such a text: if that is wrong, one line to standard error and nothing else.
pub fn written<T>(read: Result<T, Complaint>, right: impl FnOnce(T) -> Written) -> Written {
    match read {
        Ok(said) => right(said),
        Err(complaint) => (Vec::new(), format!("{complaint}\n")),
    }
}
