//! "Questions": a run in plain words and then a line `find`, to the route that is asked for.

use std::io::{self, BufRead};

use crate::bus::{Bus, Record, Refusal, Report};
use crate::notation::{self, Line as RunLine};
use crate::plain::{self, Complaint, Fault, Fields, Flaw, Written};
use crate::routes::{self, Question};

/// What a line says by itself.
#[derive(Clone, Copy, PartialEq, Eq, Debug)]
pub enum Line {
    Run(RunLine),
    Find(Question),
}

/// Reads one line, given without its newline.
pub fn read_line(line: &[u8]) -> Result<Line, Flaw> {
    let mut fields = Fields::of(line)?;
    match fields.take_if(b"find") {
        true => fields.find().map(Line::Find),
        false => notation::read_line(line).map(Line::Run),
    }
}

/// What the line `find` has beside.
impl Fields<'_> {
    /// What follows the word `find`: `WORD NODE "within" DEPTH`.
    fn find(&mut self) -> Result<Question, Flaw> {
        let word = self.report()?;
        let node = self.byte("the node of find")?;
        let depth = self.depth()?;
        self.end()?;
        Ok(Question { word, node, depth })
    }

    fn report(&mut self) -> Result<&'static str, Flaw> {
        let missing = || Flaw::by(Fault::MissingField, "the report of find");
        let word = self.take().ok_or_else(missing)?;
        let known = Report::WORDS.into_iter().find(|known| known.as_bytes() == word);
        known.ok_or_else(|| Flaw::unknown(word))
    }

    /// "`the depth of find`, also where `within` is missing"
    fn depth(&mut self) -> Result<u8, Flaw> {
        match (self.take_if(b"within"), self.next()) {
            (false, Some(word)) => Err(Flaw::unknown(word)),
            _ => self.byte("the depth of find"),
        }
    }
}

/// What a right text asks: of which state, and what.
#[derive(Clone, PartialEq, Eq, Debug)]
pub struct Asked {
    pub bus: Bus,
    pub question: Question,
}

/// A text being read: "The program `find` plays the run while it reads it".
struct Text {
    run: notation::Text,
    /// From the `nodes` line on.
    bus: Bus,
    question: Option<Question>,
}

impl Text {
    fn new() -> Text {
        Text { run: notation::Text::default(), bus: Bus::REFUSED, question: None }
    }

    /// A line of the run: what runs ask of it, then 7.
    fn run(&mut self, read: RunLine, line: &[u8]) -> Result<(), Flaw> {
        self.run.take(read, line)?;
        match read {
            RunLine::Blank => Ok(()),
            RunLine::Nodes(n) => {
                self.bus = Bus::fresh(n).expect("it was looked at by 1");
                Ok(())
            }
            RunLine::Acts(record, times) => self.play(&record, times, line),
        }
    }

    /// "an action as often as its line says"
    fn play(&mut self, record: &Record, times: u32, line: &[u8]) -> Result<(), Flaw> {
        for _ in 0..times {
            let not_open = |number| Flaw::refused(number, line, "not open when its turn comes");
            self.bus.play(record).map_err(not_open)?;
        }
        Ok(())
    }

    /// The line `find`: "the numbers 14 and 4 are looked at, in this order".
    fn find(&mut self, question: Question, line: &[u8]) -> Result<(), Flaw> {
        let n = self.run.nodes.said()?;
        question.look(&self.bus).map_err(|refusal| refused(refusal, &question, n, line))?;
        self.question = Some(question);
        Ok(())
    }
}

impl plain::Text for Text {
    type Said = Asked;

    /// "Only blank lines and comments may follow the line `find`."
    fn line(&mut self, line: &[u8]) -> Result<(), Flaw> {
        match read_line(line)? {
            Line::Run(RunLine::Blank) => Ok(()),
            _ if self.question.is_some() => Err(Fault::AfterFind.into()),
            Line::Run(read) => self.run(read, line),
            Line::Find(question) => self.find(question, line),
        }
    }

    fn end(&self) -> Result<Asked, Flaw> {
        self.run.nodes.said()?;
        match self.question {
            Some(question) => Ok(Asked { bus: self.bus.clone(), question }),
            None => Err(Fault::NoFindLine.into()),
        }
    }
}

/// Why the line `find` is refused.
fn refused(refusal: Refusal, question: &Question, n: u8, line: &[u8]) -> Flaw {
    match refusal {
        Refusal::Route => {
            let why = "a route has at most 6 actions, on a bus of at most 8 nodes";
            Flaw::refused(refusal, line, why)
        }
        Refusal::Node => Flaw::no_node(question.node, n, line),
        _ => unreachable!("a run from a fresh bus leads to a state"),
    }
}

/// What a text of any length asks, or its first fault.
pub fn read_stream(input: &mut impl BufRead) -> io::Result<Result<Asked, Complaint>> {
    plain::read_said(Text::new(), input)
}

/// The same of a whole text.
pub fn read(text: &[u8]) -> Result<Asked, Complaint> {
    read_stream(&mut &text[..]).expect("memory can be read")
}

/// What the program `find` writes to standard output, or to standard error: "What is wrong goes to
/// standard error, as one line, and then nothing is printed to standard output".
pub fn find(text: &[u8]) -> Written {
    plain::written(read(text), answer)
}

/// The same for what a reader gives.
pub fn find_stream(input: &mut impl BufRead) -> io::Result<Written> {
    Ok(plain::written(read_stream(input)?, answer))
}

fn answer(asked: Asked) -> Written {
    let Asked { bus, question } = asked;
    let route = routes::find(&bus, &question).expect("what was read is not refused");
    let mut text = Vec::new();
    routes::print(&mut text, &route);
    (text, String::new())
}
