//! A text under way: lines put down in many styles, whatever they say.

use super::random::Random;
use super::texts::spelling::{blank_line, join, spell_number, Word};
use crate::plain::MARK;

pub struct Page<'a> {
    pub random: &'a mut Random,
    /// Starts with the byte order mark.
    pub marked: bool,
    pub text: Vec<u8>,
    pub lines: u64,
    /// With many blanks, comments and ways to write a number; or with single spaces.
    pub free: bool,
}

impl<'a> Page<'a> {
    pub fn new(random: &'a mut Random) -> Page<'a> {
        let free = random.percent(75);
        let marked = random.percent(20);
        Page { random, marked, text: Vec::new(), lines: 0, free }
    }

    /// A line as it stands.
    pub fn put(&mut self, line: &[u8]) {
        self.text.extend_from_slice(line);
        self.text.push(b'\n');
        self.lines += 1;
    }

    /// Some lines that say nothing, now and then.
    pub fn blanks(&mut self) {
        while self.free && self.random.percent(15) {
            self.blank();
        }
    }

    /// So many empty lines.
    pub fn empty(&mut self, count: u64) {
        (0..count).for_each(|_| self.put(b""));
    }

    /// A line that says nothing.
    pub fn blank(&mut self) {
        let line = blank_line(self.random);
        self.put(&line);
    }

    pub fn words(&mut self, words: &[Word]) {
        let line = match self.free {
            true => join(self.random, words),
            false => words.join(&b' '),
        };
        self.put(&line);
    }

    /// A line of so many bytes, which starts with one of these.
    pub fn long(&mut self, length: usize, starts: &[&[u8]]) {
        let mut line = self.random.pick(starts).to_vec();
        let fill = self.random.pick(b" \t\r#x0");
        line.resize(length, fill);
        self.put(&line);
    }

    /// A first line whose first word begins with a mark after the text's own, or with part of one.
    pub fn no_mark(&mut self) {
        let start = match self.marked {
            true => MARK,
            false => self.random.pick(&[
                &b"\xef"[..],
                b"\xef\xbb",
                b"\xef\xbb\xbe",
                b"\xef\xbb ",
                b"\xef\xbf\xbb",
                b"\xbb\xbf",
            ]),
        };
        let rest = self.random.pick(&[&b"nodes 2"[..], b"", b" nodes 2", b"# nodes 2"]);
        self.put(&[start, rest].concat());
    }

    pub fn number(&mut self, value: u64) -> Word {
        match self.free {
            true => spell_number(self.random, value),
            false => value.to_string().into(),
        }
    }

    /// The text from its start, which may be the mark, to its end: the last newline may lack.
    pub fn text(&mut self) -> Vec<u8> {
        let mut text = std::mem::take(&mut self.text);
        // A last line that is empty would not be one without its newline.
        if self.random.percent(30)
            && text.ends_with(b"\n")
            && !text.ends_with(b"\n\n")
            && text.len() > 1
        {
            text.pop();
        }
        match self.marked {
            true => [MARK, &text].concat(),
            false => text,
        }
    }
}
