//! What texts in plain words must hit, runs, settings and questions alike: faults with their causes, words, ways
//! to write. Causes are found in what the model prints.

use crate::plain::{statement, words, Complaint, Fault, LONGEST_LINE, MARK};

pub const HINTS: [&str; 3] = [
    "(no plain text: UTF-16, or a binary file)",
    "(a no-break space: write a plain one)",
    "(write spaces around *)",
];

/// A text, and what came of it.
pub struct Seen<'a> {
    pub text: &'a [u8],
    pub marked: bool,
    /// The lines that were right.
    pub read: Vec<&'a [u8]>,
    /// The first one that was not; None if the fault is at the text's end.
    pub wrong: Option<&'a [u8]>,
    pub fault: Option<Fault>,
    /// The complaint as it is printed, or nothing.
    printed: String,
}

pub fn is_blank(line: &[u8]) -> bool {
    words(line).next().is_none()
}

impl<'a> Seen<'a> {
    pub fn new(text: &'a [u8], complaint: Option<&Complaint>) -> Seen<'a> {
        let unmarked = text.strip_prefix(MARK);
        let mut read: Vec<&[u8]> = unmarked.unwrap_or(text).split(|&byte| byte == b'\n').collect();
        if read.last() == Some(&&b""[..]) {
            read.pop();
        }
        let mut wrong = None;
        if let Some(complaint) = complaint {
            let at_end = match complaint.flaw.fault {
                Fault::NoUserLine | Fault::NoAction | Fault::NoFindLine => true,
                Fault::NoNodesLine => read.iter().all(|line| is_blank(line)),
                _ => false,
            };
            if !at_end {
                let place = complaint.line as usize - 1;
                wrong = Some(read[place]);
                read.truncate(place);
            }
        }
        let fault = complaint.map(|complaint| complaint.flaw.fault);
        let printed = complaint.map(Complaint::to_string).unwrap_or_default();
        Seen { text, marked: unmarked.is_some(), read, wrong, fault, printed }
    }

    pub fn any_line(&self, is: impl Fn(&[u8]) -> bool) -> bool {
        self.read.iter().any(|line| is(line))
    }

    pub fn any_word(&self, is: impl Fn(&[u8]) -> bool) -> bool {
        self.any_line(|line| words(line).any(&is))
    }

    /// Whether the complaint goes on like this after the number of its line.
    pub fn says(&self, start: &str) -> bool {
        self.printed.split_once(": ").is_some_and(|(_, flaw)| flaw.starts_with(start))
    }

    /// The word of the complaint as it is printed between its quotes, or nothing.
    pub fn word(&self) -> &str {
        let from = self.printed.find('"').map_or(0, |quote| quote + 1);
        let to = self.printed.rfind('"').unwrap_or(0);
        self.printed.get(from..to).unwrap_or("")
    }

    /// Whether a byte of the word is printed by its number, and it is such a one.
    pub fn numbered(&self, is: impl Fn(u8) -> bool) -> bool {
        let numbers = self.word().split("\\x").skip(1).filter_map(|rest| rest.get(..2));
        numbers.filter_map(|digits| u8::from_str_radix(digits, 16).ok()).any(is)
    }

    pub fn hinted(&self, hint: usize) -> bool {
        self.printed.contains(HINTS[hint])
    }

    /// The statement of a refused line, with what stands between its words; or nothing.
    pub fn statement(&self) -> &[u8] {
        match (self.fault, self.wrong) {
            (Some(Fault::Refused(_)), Some(line)) => statement(line),
            _ => b"",
        }
    }

    /// Whether this is said of a field or of a word, for this fault.
    fn is_caused(&self, fault: Fault, part: &str) -> bool {
        self.fault == Some(fault) && self.printed.contains(part)
    }
}

/// A name, and the texts that hit it.
pub type Sight = (&'static str, fn(&Seen) -> bool);

/// Ways to write, whatever is written.
const STYLES: [Sight; 11] = [
    ("a comment", |seen| seen.any_line(|line| line.contains(&b'#'))),
    ("a tab", |seen| seen.any_line(|line| line.contains(&b'\t'))),
    ("a carriage return", |seen| seen.any_line(|line| line.contains(&b'\r'))),
    ("a blank line", |seen| seen.any_line(is_blank)),
    ("a line of 255 bytes", |seen| seen.any_line(|line| line.len() == LONGEST_LINE)),
    ("a number with 0x", |seen| seen.any_word(|word| word.starts_with(b"0x"))),
    ("a number with 0X", |seen| seen.any_word(|word| word.starts_with(b"0X"))),
    ("a number with capital digits", |seen| {
        let is_capital = |digit: &u8| (b'A'..=b'F').contains(digit);
        seen.any_word(|word| word.starts_with(b"0") && word.iter().any(is_capital))
    }),
    ("no newline at the end", |seen| !seen.text.is_empty() && !seen.text.ends_with(b"\n")),
    ("an empty text", |seen| seen.text.is_empty()),
    ("UTF-16", |seen| seen.word().contains(r"n\x00o\x00d\x00e\x00s")),
];

/// The byte order mark.
const MARKS: [Sight; 10] = [
    ("before a right text", |seen| seen.marked && seen.fault.is_none()),
    ("before a text with a fault", |seen| seen.marked && seen.wrong.is_some()),
    ("before a line of 255 bytes", |seen| {
        seen.marked && seen.read.first().is_some_and(|line| line.len() == LONGEST_LINE)
    }),
    ("before a line over 255 bytes", |seen| {
        seen.marked && seen.says("line over 255 bytes") && seen.read.is_empty()
    }),
    ("alone", |seen| seen.text == MARK),
    ("twice", |seen| {
        seen.marked && seen.read.is_empty() && seen.says(r#"unknown word: "\xEF\xBB\xBF"#)
    }),
    ("half of it", |seen| {
        !seen.marked && seen.read.is_empty() && seen.says(r#"unknown word: "\xEF"#)
    }),
    ("half of it alone", |seen| seen.text == &MARK[..1] || seen.text == &MARK[..2]),
    ("inside, before a name", |seen| {
        !seen.read.is_empty() && seen.says(r#"unknown word: "\xEF\xBB\xBF"#)
    }),
    ("inside, before a number", |seen| seen.says(r#"not a number: "\xEF\xBB\xBF"#)),
];

/// A word between quotes.
const WORDS: [Sight; 12] = [
    ("of 64 bytes", |seen| seen.word().len() == 64 && !seen.word().contains(r"\x")),
    ("cut after 64 bytes", |seen| seen.word().ends_with("..")),
    ("cut after 64 bytes, a number", |seen| {
        seen.says("number too large") && seen.word().ends_with("..")
    }),
    ("with a hint for what is cut off", |seen| {
        let plain = !seen.numbered(|byte| byte < 32 || byte == 127);
        let shown = [!plain, seen.word().contains(r"\xC2\xA0"), seen.word().contains('*')];
        seen.word().ends_with("..") && (0..3).any(|hint| seen.hinted(hint) && !shown[hint])
    }),
    ("with a byte below 32", |seen| seen.numbered(|byte| byte < 32)),
    ("with byte 127", |seen| seen.numbered(|byte| byte == 127)),
    ("with a byte over 127", |seen| seen.numbered(|byte| byte > 127)),
    ("with a quote", |seen| seen.word().contains('"')),
    ("not plain, and with a no-break space", |seen| {
        seen.hinted(0) && seen.word().contains(r"\xC2\xA0")
    }),
    ("not plain, and with *", |seen| seen.hinted(0) && seen.word().contains('*')),
    ("with a no-break space, and with *", |seen| seen.hinted(1) && seen.word().contains('*')),
    ("* alone", |seen| seen.word() == "*"),
];

/// The statement of a refused line.
const STATEMENTS: [Sight; 6] = [
    ("with a tab", |seen| seen.statement().contains(&b'\t')),
    ("with a carriage return", |seen| seen.statement().contains(&b'\r')),
    ("before a comment", |seen| {
        !seen.statement().is_empty() && seen.wrong.is_some_and(|line| line.contains(&b'#'))
    }),
    ("with a hexadecimal number", |seen| seen.statement().windows(2).any(|pair| pair == b"0x")),
    ("of 64 bytes", |seen| seen.statement().len() == 64),
    ("cut after 64 bytes", |seen| !seen.statement().is_empty() && seen.printed.contains("..: ")),
];

/// What the texts of one grammar must hit.
pub struct Aims {
    faults: Vec<Fault>,
    /// Each fault with what its cause says of a field or of a word.
    causes: Vec<(Fault, String)>,
    words: Vec<&'static str>,
    /// Tables of sights, each with what they are sights of.
    sights: Vec<(&'static str, &'static [Sight])>,
}

impl Aims {
    /// With the sights of all texts, those of `texts` among them, and then with more.
    pub fn new(
        faults: Vec<Fault>,
        causes: Vec<(Fault, String)>,
        words: Vec<&'static str>,
        texts: &'static [Sight],
        more: &[(&'static str, &'static [Sight])],
    ) -> Aims {
        let mut sights: Vec<(&'static str, &'static [Sight])> = vec![
            ("text", &STYLES),
            ("text", texts),
            ("byte order mark", &MARKS),
            ("quoted word", &WORDS),
            ("statement", &STATEMENTS),
        ];
        sights.extend(more);
        Aims { faults, causes, words, sights }
    }

    /// Each name, and whether a text hits it.
    fn each<'a>(&'a self, seen: Option<&'a Seen>) -> impl Iterator<Item = (String, bool)> + 'a {
        let hits = move |is: &dyn Fn(&Seen) -> bool| seen.is_some_and(is);
        let faults = self.faults.iter().map(move |fault| {
            (format!("fault: {fault}"), hits(&|seen| seen.fault == Some(*fault)))
        });
        let causes = self.causes.iter().map(move |(fault, part)| {
            (format!("cause: {fault}: {part}"), hits(&|seen| seen.is_caused(*fault, part)))
        });
        let words = self.words.iter().map(move |known| {
            let is_known = |word: &[u8]| word == known.as_bytes();
            (format!("word: {known}"), hits(&|seen| seen.any_word(is_known)))
        });
        let sights = self.sights.iter().flat_map(move |(of, table)| {
            table.iter().map(move |(name, is)| (format!("{of}: {name}"), hits(is)))
        });
        faults.chain(causes).chain(words).chain(sights)
    }

    /// All there is to hit.
    pub fn names(&self) -> Vec<String> {
        self.each(None).map(|(name, _)| name).collect()
    }

    /// What a text has hit: right words and ways to write count up to the fault.
    pub fn hits(&self, seen: &Seen) -> Vec<String> {
        self.each(Some(seen)).filter(|(_, hit)| *hit).map(|(name, _)| name).collect()
    }
}

/// A fault with each of these parts of its cause.
pub fn of<'a>(fault: Fault, parts: &'a [&str]) -> impl Iterator<Item = (Fault, String)> + 'a {
    parts.iter().map(move |part| (fault, part.to_string()))
}
