//! "Settings in plain words": a text to the settings of a trial.

use std::io::{self, BufRead};

use crate::bus::{is_address, Refusal, MOST_NODES};
use crate::plain::{self, Complaint, Fault, Fields, Flaw, Nodes, Written};
use crate::trial::{self, Settings, Tally, User};

/// What a line says by itself.
#[derive(Clone, Copy, PartialEq, Eq, Debug)]
pub enum Line {
    Blank,
    Nodes(u8),
    Actions(u16),
    /// "What is not said is 0, and release".
    User(u8, User),
}

/// Reads one line, given without its newline.
pub fn read_line(line: &[u8]) -> Result<Line, Flaw> {
    let mut fields = Fields::of(line)?;
    match fields.take() {
        None => Ok(Line::Blank),
        Some(b"nodes") => fields.nodes().map(Line::Nodes),
        Some(b"actions") => fields.actions().map(Line::Actions),
        Some(b"user") => fields.user().map(|(node, user)| Line::User(node, user)),
        Some(name) => Err(Flaw::unknown(name)),
    }
}

/// What the lines of settings have beside.
impl Fields<'_> {
    /// What follows the word `actions`.
    fn actions(&mut self) -> Result<u16, Flaw> {
        let actions = self.number("the number of actions", u16::MAX)?;
        self.end()?;
        Ok(actions)
    }

    /// What follows the word `user`: "The words of a user stand in this order."
    fn user(&mut self) -> Result<(u8, User), Flaw> {
        let node = self.byte("the node of user")?;
        let address = match self.take_if(b"to") {
            true => self.address("the address of user")?,
            false => 0,
        };
        let user = User {
            address,
            spell: self.byte_after(b"spell", "the spell of user")?,
            fillers: self.byte_after(b"fillers", "the fillers of user")?,
            hold: self.take_if(b"hold"),
            period: self.byte_after(b"lose", "the period of user")?,
        };
        self.end()?;
        Ok((node, user))
    }
}

/// A text being read. "Of two lines about the same user, or about the actions, the later one counts,
/// whole."
struct Text {
    nodes: Nodes,
    actions: u16,
    users: [User; MOST_NODES],
}

impl Text {
    fn new() -> Text {
        Text { nodes: Nodes::default(), actions: 0, users: [User::default(); MOST_NODES] }
    }
}

impl plain::Text for Text {
    type Said = Settings;

    fn line(&mut self, line: &[u8]) -> Result<(), Flaw> {
        match read_line(line)? {
            Line::Blank => (),
            Line::Nodes(n) => self.nodes.say(n, line)?,
            Line::Actions(actions) => {
                self.nodes.said()?;
                self.actions = actions;
            }
            Line::User(node, user) => {
                let n = self.nodes.said()?;
                look(node, &user, n, line)?;
                self.users[usize::from(node)] = user;
            }
        }
        Ok(())
    }

    /// What the trial would refuse for what was not said is "told at the text's end": by 15 without a
    /// line for user 0, "since what is not said is 0", by 11 for "`actions 0` […], or no `actions` line".
    fn end(&self) -> Result<Settings, Flaw> {
        let n = self.nodes.said()?;
        let settings = Settings { n, users: self.users, actions: self.actions };
        match settings.look() {
            Ok(_) => Ok(settings),
            Err(Refusal::ToItself) => Err(Fault::NoUserLine.into()),
            Err(Refusal::BlockContent) => Err(Fault::NoAction.into()),
            Err(_) => unreachable!("each line was looked at by 1, 4 and 5"),
        }
    }
}

/// The line of a user by 4, then by 5, then by 15.
fn look(node: u8, user: &User, n: u8, line: &[u8]) -> Result<(), Flaw> {
    if node >= n {
        return Err(Flaw::no_node(node, n, line));
    }
    if !is_address(user.address, n) {
        return Err(Flaw::no_address(user.address, n, line));
    }
    match user.address == node {
        true => Err(Flaw::to_itself(node, line)),
        false => Ok(()),
    }
}

/// The settings that a text of any length says, or its first fault.
pub fn read_stream(input: &mut impl BufRead) -> io::Result<Result<Settings, Complaint>> {
    plain::read_said(Text::new(), input)
}

/// The same of a whole text.
pub fn read(text: &[u8]) -> Result<Settings, Complaint> {
    read_stream(&mut &text[..]).expect("memory can be read")
}

/// What the program `trial` writes: "The run file goes to standard output, and the tally to standard
/// error". "A text that is wrong makes no run: one line goes to standard error".
pub fn trial(text: &[u8]) -> Written {
    plain::written(read(text), run)
}

/// The same for what a reader gives.
pub fn trial_stream(input: &mut impl BufRead) -> io::Result<Written> {
    Ok(plain::written(read_stream(input)?, run))
}

fn run(settings: Settings) -> Written {
    let mut tally = Tally::default();
    let file = trial::run_file(&settings, &mut tally).expect("what was read is not refused");
    (file, tally.to_string())
}
