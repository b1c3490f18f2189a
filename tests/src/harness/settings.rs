//! Settings of trials made at random, and texts that say them: right ones in every style, ones with
//! one wrong line, ones without a plan. Each knows what must be read of it, from the grammar and not
//! from the model.

pub mod aims;
mod wrong;

use super::cases::{and_unplanned, Case, Plan, Reading, Way};
use super::page::Page;
use super::random::Random;
use super::texts::spelling::{join, no_number, spell_number, too_large, unknown_word, Slot, Word};
use super::ways;
use crate::bus::ALL_NODES;
use crate::trial::{Settings, User};
pub use wrong::{End, Wrong};

pub type SettingsCase = Case<Reading<Settings>>;
pub type SettingsWay = Way<SettingsPlan>;

#[derive(Clone, Copy, PartialEq, Eq, Debug)]
pub enum SettingsPlan {
    Right,
    /// For just so many actions.
    RightOf(u16),
    /// With many lines that do not count.
    ManyLines,
    WrongLine(Wrong),
    WrongEnd(End),
}

/// The plans of those with a fault.
fn wrong_ones() -> impl Iterator<Item = SettingsPlan> {
    let lines = Wrong::all().into_iter().map(SettingsPlan::WrongLine);
    lines.chain(End::all().map(SettingsPlan::WrongEnd))
}

impl Plan for SettingsPlan {
    type Expected = Reading<Settings>;

    fn ways() -> Vec<SettingsWay> {
        // Right ones as often as all others together.
        let others = and_unplanned(wrong_ones(), 1);
        let mut right: Vec<SettingsPlan> =
            [1, 2, 30, 31, 32, 61, 62, 63, 93, 94, 65_535].map(SettingsPlan::RightOf).into();
        right.push(SettingsPlan::ManyLines);
        right.resize(others.len(), SettingsPlan::Right);
        let right = right.into_iter().map(Way::Planned);
        right.zip(others).flat_map(|(right, other)| [right, other]).collect()
    }

    fn make(self, random: &mut Random) -> SettingsCase {
        match self {
            SettingsPlan::Right => {
                let actions = actions(random);
                right(random, actions)
            }
            SettingsPlan::RightOf(actions) => right(random, actions),
            SettingsPlan::ManyLines => many_lines(random),
            SettingsPlan::WrongLine(wrong) => wrong::wrong_line(random, wrong),
            SettingsPlan::WrongEnd(end) => wrong::wrong_end(random, end),
        }
    }

    /// For few actions.
    fn short(random: &mut Random) -> Vec<u8> {
        let actions = random.between(1, 300) as u16;
        right(random, actions).text
    }

    fn any_words(random: &mut Random) -> Vec<u8> {
        any_words(random)
    }
}

/// A text of settings, right ones or ones with a fault.
pub fn made(random: &mut Random, wrong: bool) -> Vec<u8> {
    let wrong_ones: Vec<SettingsPlan> = wrong_ones().collect();
    let plan = if wrong { random.pick(&wrong_ones) } else { SettingsPlan::Right };
    plan.make(random).text
}

/// How many actions a trial has: mostly so many that each user may win some times.
fn actions(random: &mut Random) -> u16 {
    match random.below(40) {
        0..=7 => random.between(1, 100) as u16,
        8..=33 => random.between(100, 3000) as u16,
        34..=38 => random.between(3000, 20_000) as u16,
        _ => random.between(20_000, 65_535) as u16,
    }
}

/// What the users of one trial are like.
struct Style {
    /// From the one to the other.
    spells: (u8, u8),
    fillers: (u8, u8),
    periods: (u8, u8),
    /// So many of a hundred hold; send to all; are left as they are if nothing is said.
    hold: u64,
    to_all: u64,
    unsaid: u64,
}

impl Style {
    fn random(random: &mut Random) -> Style {
        Style {
            spells: random.pick(&[(0, 0), (0, 12), (0, 60), (0, 255), (120, 255), (255, 255)]),
            fillers: random.pick(&[(0, 0), (0, 0), (0, 2), (0, 2), (1, 9), (0, 255)]),
            periods: random.pick(&[(0, 0), (0, 2), (0, 9), (3, 20), (0, 255), (1, 1), (255, 255)]),
            hold: random.pick(&[0, 50, 50, 100, 100]),
            to_all: random.pick(&[0, 10, 10, 30, 100]),
            unsaid: random.pick(&[0, 0, 10, 50]),
        }
    }

    fn user(&self, random: &mut Random, node: u8, n: u8) -> User {
        // Of user 0 it must be said where it sends.
        if node != 0 && random.percent(self.unsaid) {
            return User::default();
        }
        let within = |random: &mut Random, (low, high): (u8, u8)| random.byte(low, high);
        let other = random.other_node(node, n);
        let address = if random.percent(self.to_all) { ALL_NODES } else { other };
        User {
            spell: within(random, self.spells),
            address,
            fillers: within(random, self.fillers),
            hold: random.percent(self.hold),
            period: within(random, self.periods),
        }
    }
}

/// Settings that no trial refuses, for so many actions.
pub fn settings(random: &mut Random, actions: u16) -> Settings {
    let n = ways::nodes(random);
    let style = Style::random(random);
    let mut settings = Settings::new(n, actions);
    for node in 0..n {
        settings.users[usize::from(node)] = style.user(random, node, n);
    }
    settings
}

/// The settings of "Longer ones".
pub fn longer(n: u8, actions: u16) -> Settings {
    let mut settings = Settings::new(n, actions);
    for i in 0..n {
        let address = match i % 4 {
            3 => ALL_NODES,
            2 => i - 1,
            _ => (i + 1) % n,
        };
        settings.users[usize::from(i)] = User {
            spell: (37 * u16::from(i) % 256) as u8,
            address,
            fillers: i % 3,
            hold: i % 3 != 1,
            period: [0, 9, 0, 7, 4][usize::from(i % 5)],
        };
    }
    settings
}

/// The text of settings, with all that there is to say.
pub fn plain(settings: &Settings) -> String {
    let line = |node| {
        let User { spell, address, fillers, hold, period } = settings.user(node);
        let hold = if *hold { " hold" } else { "" };
        format!("user {node} to {address} spell {spell} fillers {fillers}{hold} lose {period}\n")
    };
    let users: String = (0..settings.n).map(line).collect();
    format!("nodes {}\nactions {}\n{users}", settings.n, settings.actions)
}

/// The words of a user's line after its node, in their order.
const USER_WORDS: [&str; 5] = ["to", "spell", "fillers", "hold", "lose"];

/// The first words of lines.
const NAMES: [&str; 3] = ["nodes", "actions", "user"];

/// What a line says.
#[derive(Clone, Copy)]
enum Said {
    Actions(u16),
    User(u8, User),
}

impl Said {
    /// Whether both are about the same.
    fn is_about(self, other: Said) -> bool {
        match (self, other) {
            (Said::Actions(_), Said::Actions(_)) => true,
            (Said::User(one, _), Said::User(other, _)) => one == other,
            _ => false,
        }
    }
}

/// The words of a line, each with what it stands for; a field with its name in causes.
type Words = Vec<(Slot, &'static str, Word)>;

/// A text under way.
struct Writer<'a> {
    page: Page<'a>,
    n: u8,
}

impl<'a> Writer<'a> {
    fn new(random: &'a mut Random, n: u8) -> Writer<'a> {
        Writer { page: Page::new(random), n }
    }

    fn nodes(&mut self) {
        self.page.blanks();
        let words = self.spell_nodes(self.n);
        self.page.words(&bare(words));
        self.page.blanks();
    }

    fn say(&mut self, said: Said) {
        let words = self.spell(said);
        self.page.words(&bare(words));
        self.page.blanks();
    }

    fn spell_nodes(&mut self, n: u8) -> Words {
        vec![name("nodes"), (Slot::Byte, "the number of nodes", self.page.number(n.into()))]
    }

    fn spell(&mut self, said: Said) -> Words {
        match said {
            Said::Actions(actions) => {
                let number = self.page.number(actions.into());
                vec![name("actions"), (Slot::Half, "the number of actions", number)]
            }
            Said::User(node, user) => {
                let mut words = vec![name("user")];
                words.push((Slot::Byte, "the node of user", self.page.number(node.into())));
                for place in 0..USER_WORDS.len() {
                    // What is 0, or release, need not be said.
                    if !is_zero(&user, place) || self.page.free && self.page.random.percent(30) {
                        words.extend(self.spell_setting(&user, place));
                    }
                }
                words
            }
        }
    }

    /// One of the words of a user's line, and its number.
    fn spell_setting(&mut self, user: &User, place: usize) -> Words {
        let keyword = (Slot::Keyword, "", Word::from(USER_WORDS[place]));
        let (slot, field, value) = match place {
            0 => (Slot::Address, "the address of user", user.address),
            1 => (Slot::Byte, "the spell of user", user.spell),
            2 => (Slot::Byte, "the fillers of user", user.fillers),
            3 if user.hold => return vec![keyword],
            3 => return Vec::new(),
            _ => (Slot::Byte, "the period of user", user.period),
        };
        let word = match (slot, value) {
            (Slot::Address, ALL_NODES) if self.page.random.percent(70) => b"all".to_vec(),
            _ => self.page.number(value.into()),
        };
        vec![keyword, (slot, field, word)]
    }

    fn any_node(&mut self) -> u8 {
        self.page.random.byte(0, self.n - 1)
    }

    /// Any user of this node.
    fn user_of(&mut self, node: u8) -> User {
        let style = Style::random(self.page.random);
        style.user(self.page.random, node, self.n)
    }

    fn say_user(&mut self, node: u8) {
        let user = self.user_of(node);
        self.say(Said::User(node, user));
    }

    fn any_user_said(&mut self) -> Said {
        let node = self.any_node();
        Said::User(node, self.user_of(node))
    }

    fn any_said(&mut self) -> Said {
        let actions = self.page.random.between(0, 65_535) as u16;
        let actions = self.page.random.pick(&[0, 1, 65_535, actions]);
        match self.page.random.percent(20) {
            true => Said::Actions(actions),
            false => self.any_user_said(),
        }
    }

    /// So many right lines, whatever they say.
    fn some(&mut self, count: u64) {
        for _ in 0..count {
            let said = self.any_said();
            self.say(said);
        }
    }
}

fn name(name: &'static str) -> (Slot, &'static str, Word) {
    (Slot::Name, "", name.into())
}

fn bare(words: Words) -> Vec<Word> {
    words.into_iter().map(|(_, _, word)| word).collect()
}

/// Whether this word of a user's line says what holds where it is not said.
fn is_zero(user: &User, place: usize) -> bool {
    match place {
        0 => user.address == 0,
        1 => user.spell == 0,
        2 => user.fillers == 0,
        3 => !user.hold,
        _ => user.period == 0,
    }
}

fn right(random: &mut Random, actions: u16) -> SettingsCase {
    let settings = settings(random, actions);
    let mut writer = Writer::new(random, settings.n);
    let lines = lines(&mut writer, &settings);
    writer.nodes();
    for said in lines {
        writer.say(said);
    }
    SettingsCase { text: writer.page.text(), expected: Some(Ok(settings)) }
}

/// Of each user much is said, and then what counts.
fn many_lines(random: &mut Random) -> SettingsCase {
    let settings = settings(random, 100);
    let mut writer = Writer::new(random, settings.n);
    writer.nodes();
    let count = writer.page.random.between(1000, 3000);
    writer.some(count);
    for node in 0..settings.n {
        writer.say(Said::User(node, *settings.user(node)));
    }
    writer.say(Said::Actions(settings.actions));
    SettingsCase { text: writer.page.text(), expected: Some(Ok(settings)) }
}

/// What the lines of these settings say, in some order; before some of them others about the same,
/// which do not count.
fn lines(writer: &mut Writer, settings: &Settings) -> Vec<Said> {
    let mut lines = vec![Said::Actions(settings.actions)];
    for node in 0..settings.n {
        let user = *settings.user(node);
        if user != User::default() || writer.page.random.percent(30) {
            lines.push(Said::User(node, user));
        }
    }
    shuffle(writer.page.random, &mut lines);
    let mut again = vec![Said::Actions(0), writer.any_said()];
    again.extend((0..3).map(|_| writer.any_user_said()));
    for said in again {
        let last = lines.iter().rposition(|line| line.is_about(said));
        if let Some(last) = last.filter(|_| writer.page.random.percent(30)) {
            let place = writer.page.random.between(0, last as u64) as usize;
            lines.insert(place, said);
        }
    }
    lines
}

fn shuffle<T>(random: &mut Random, items: &mut [T]) {
    for place in (1..items.len()).rev() {
        items.swap(place, random.between(0, place as u64) as usize);
    }
}

/// A word of the grammar, or another.
fn any_word(random: &mut Random) -> Word {
    let small = random.below(70);
    match random.below(12) {
        0..=1 => random.pick(&NAMES).into(),
        2..=4 => random.pick(&USER_WORDS).into(),
        5..=7 => spell_number(random, small),
        8 => b"all".to_vec(),
        9 => no_number(random),
        10 => unknown_word(random),
        _ => {
            let slot = random.pick(&[Slot::Byte, Slot::Half]);
            too_large(random, slot)
        }
    }
}

/// Such words to a line, the name of one first most of the time.
fn any_line(random: &mut Random) -> Vec<u8> {
    let mut words = Vec::new();
    if random.percent(80) {
        words.push(Word::from(random.pick(&NAMES)));
    }
    words.extend((0..random.below(7)).map(|_| any_word(random)));
    join(random, &words)
}

fn any_words(random: &mut Random) -> Vec<u8> {
    let n = ways::nodes(random);
    let mut writer = Writer::new(random, n);
    if writer.page.random.percent(90) {
        writer.nodes();
    }
    let count = writer.page.random.below(4);
    writer.some(count);
    for _ in 0..writer.page.random.between(1, 6) {
        let line = any_line(writer.page.random);
        writer.page.put(&line);
    }
    writer.page.text()
}
