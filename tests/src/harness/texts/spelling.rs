//! Words, numbers and lines of a text in many spellings, right and wrong ones.

use crate::harness::random::Random;
use crate::notation::LONGEST_LINE;

/// The first words of lines: `nodes`, then the action of each kind.
pub const NAMES: [&str; 13] = [
    "nodes",
    "request",
    "arbitrate",
    "respond",
    "clock",
    "pass",
    "lose",
    "change",
    "grant",
    "gap",
    "reset",
    "ask",
    "decide",
];

/// A word of a text: any bytes.
pub type Word = Vec<u8>;

/// What a word of a line stands for.
#[derive(Clone, Copy, PartialEq, Eq)]
pub enum Slot {
    Name,
    Byte,
    Address,
    /// Of 16 bits: how many actions a trial has.
    Half,
    Word,
    /// `hold`, or the `label` before its number: it may lack.
    Keyword,
}

/// What stands before hexadecimal digits.
const HEXADECIMAL: [&str; 2] = ["0x", "0X"];

/// A number in one of its spellings.
pub fn spell_number(random: &mut Random, value: u64) -> Word {
    let zeros = match random.below(10) {
        0 => random.between(1, 3),
        1 => random.between(8, 30),
        _ => 0,
    };
    let zeros = "0".repeat(zeros as usize);
    let before = random.pick(&HEXADECIMAL);
    let digits = match random.below(6) {
        0 => format!("{before}{zeros}{value:x}"),
        1 => format!("{before}{zeros}{value:X}"),
        2 => {
            let digits = format!("{value:x}");
            let mixed = digits.chars().map(|digit| match random.percent(50) {
                true => digit.to_ascii_uppercase(),
                false => digit,
            });
            format!("{before}{}", mixed.collect::<String>())
        }
        _ => format!("{zeros}{value}"),
    };
    digits.into()
}

fn blanks(random: &mut Random, least: u64) -> Vec<u8> {
    let count = match random.below(80) {
        0 => random.between(20, 70),
        1..=19 => random.between(least, least + 5),
        _ => least,
    };
    (0..count).map(|_| random.pick(b"    \t\t\r")).collect()
}

/// Words to a line, with blanks between and around them and a comment after them. If that gets too
/// long, single spaces.
pub fn join(random: &mut Random, words: &[Word]) -> Vec<u8> {
    let mut line = blanks(random, 0);
    for (place, word) in words.iter().enumerate() {
        if place > 0 {
            line.extend(blanks(random, 1));
        }
        line.extend_from_slice(word);
    }
    line.extend(blanks(random, 0));
    if random.percent(25) {
        line.extend(comment(random));
    }
    // As long as a line may be, now and then.
    if random.percent(4) && line.len() < LONGEST_LINE {
        let fill = if line.contains(&b'#') { b'.' } else { random.pick(b" \t\r#") };
        line.resize(LONGEST_LINE, fill);
    }
    match line.len() > LONGEST_LINE {
        true => words.join(&b' '),
        false => line,
    }
}

/// Words to a line that is about as long as is printed of a statement, by blanks after the first.
pub fn stretch(random: &mut Random, words: &[Word]) -> Vec<u8> {
    let mut line = words.join(&b' ');
    let more = random.pick(&[63, 64, 65usize]).saturating_sub(line.len());
    let blanks: Vec<u8> = (0..more).map(|_| random.pick(b"  \t\r")).collect();
    let place = words[0].len();
    line.splice(place..place, blanks);
    line
}

fn comment(random: &mut Random) -> Vec<u8> {
    let any: Vec<u8> = (0..random.below(20)).map(|_| random.draw() as u8).collect();
    let mut comment = random
        .pick(&[
            &b"#"[..],
            b"# pass * 6",
            b"#nodes 3",
            b"## # lost",
            b"# \xc3\xa9 \xe2\x86\x92",
            b"# 0x",
        ])
        .to_vec();
    if random.percent(30) {
        comment.extend(any.into_iter().filter(|&byte| byte != b'\n'));
    }
    comment
}

/// A line that says nothing.
pub fn blank_line(random: &mut Random) -> Vec<u8> {
    let mut line = blanks(random, 0);
    match random.below(3) {
        0 => line.clear(),
        1 => line.extend(comment(random)),
        _ => (),
    }
    if random.percent(4) {
        line = vec![random.pick(b" \t\r#"); LONGEST_LINE];
    }
    line
}

/// One of the words between single spaces.
fn pick_word(random: &mut Random, words: &[u8]) -> Word {
    let words: Vec<&[u8]> = words.split(|&byte| byte == b' ').collect();
    random.pick(&words).to_vec()
}

/// A word of the grammar with bytes in it that make it none. About as long as is printed of a word,
/// or longer, now and then.
pub fn strange_word(random: &mut Random) -> Word {
    let known = random.pick(&["pass", "nodes", "clock", "all", "7", "0x1F"]);
    let length = match random.percent(30) {
        true => random.pick(&[61, 62, 63, 64, 65, 100, 150]),
        false => known.len(),
    };
    let mut word: Word = known.bytes().cycle().take(length).collect();
    for _ in 0..random.between(1, 3) {
        let piece = match random.below(4) {
            0 => random.pick(&[b"\0", b"\x01", b"\x0b", b"\x1f", b"\x7f"]),
            1 => &b"\xc2\xa0"[..],
            2 => b"*",
            _ => random.pick(&[&b"\xc2"[..], b"\xa0", b"\x80", b"\xff", b"\xc3\xa9", b"\"", b"\\"]),
        };
        let any = random.below(word.len() as u64 + 1) as usize;
        let place = random.pick(&[any, word.len()]);
        word.splice(place..place, piece.iter().copied());
    }
    word
}

/// A first word that names nothing.
pub fn unknown_word(random: &mut Random) -> Word {
    if random.percent(50) {
        return strange_word(random);
    }
    let words =
        b"Pass PASS passs pas p * 0 5 0x5 0X5 nodes2 Nodes node hold label all pass*6 pass, \
        \0 pass\0 \x0bpass pass\x0c \xc2\xa0pass \xff requests nodesnodes ; -";
    pick_word(random, words)
}

/// A word that is no number, and not `all`.
pub fn no_number(random: &mut Random) -> Word {
    if random.percent(50) {
        return strange_word(random);
    }
    let words =
        b"x 0x 0X 0xg 0Xg 0x1g 0X1g 1a a ff -1 +1 1.0 1, 1h hold label * ALL All all1 0x0x1 0X0X1 \
        00x1 00X1 X1 99999999999999999999z 0b1 1_000 x1 $1 \0 1\0 \xb9 / : 0x@ 0x` 1*6 2\xc2\xa0";
    pick_word(random, words)
}

/// A number larger than a byte, or than 16 or 32 bits; just above it often, and above what a
/// machine's words hold.
pub fn too_large(random: &mut Random, slot: Slot) -> Word {
    let any = random.draw();
    let value: u128 = match slot {
        Slot::Word => random.pick(&[
            1 << 32,
            (1 << 32) + 1,
            42_949_672_950,
            (1 << 64) - 1,
            1 << 64,
            (1 << 64) + 5,
            u128::from(any) + (1 << 32),
            u128::MAX,
        ]),
        Slot::Half => random.pick(&[
            65_536,
            65_537,
            70_000,
            99_999,
            655_350,
            1 << 17,
            (1 << 32) - 1,
            (1 << 32) + 1,
            (1 << 64) + 1,
            u128::from(any) + 65_536,
        ]),
        _ => random.pick(&[
            256,
            257,
            300,
            511,
            512,
            999,
            2550,
            65_536,
            (1 << 16) + 1,
            (1 << 32) - 1,
            1 << 32,
            (1 << 32) + 1,
            (1 << 64) + 1,
            u128::from(any) + 256,
        ]),
    };
    let before = random.pick(&HEXADECIMAL);
    let mut digits = match random.below(4) {
        0 => format!("{before}{value:x}"),
        1 => format!("{before}{value:X}"),
        _ => value.to_string(),
    };
    // With any number of digits more, or as many bytes as are printed of a word, or nearly.
    let zeros = match random.below(10) {
        0..=1 => random.between(1, 100) as usize,
        2 => random.pick(&[63, 64, 65usize]).saturating_sub(digits.len()),
        _ => 0,
    };
    digits += &"0".repeat(zeros);
    digits.into()
}

/// Any words after the first fault of a line, now and then: they do not count.
pub fn spoil_with(
    random: &mut Random,
    words: &mut Vec<Word>,
    from: usize,
    any: fn(&mut Random) -> Word,
) {
    if !random.percent(40) {
        return;
    }
    words.truncate(from);
    for _ in 0..random.below(4) {
        words.push(any(random));
    }
}

/// A word of the grammar, or another.
pub fn any_word(random: &mut Random) -> Word {
    let small = random.below(70);
    match random.below(12) {
        0..=3 => random.pick(&NAMES).into(),
        4..=6 => spell_number(random, small),
        7 => b"*".to_vec(),
        8 => random.pick(&[&b"all"[..], b"hold", b"label"]).to_vec(),
        9 => no_number(random),
        10 => unknown_word(random),
        _ => {
            let slot = random.pick(&[Slot::Byte, Slot::Word]);
            too_large(random, slot)
        }
    }
}

/// Such words to a line.
pub fn any_line(random: &mut Random) -> Vec<u8> {
    let count = random.below(7);
    let words: Vec<Word> = (0..count).map(|_| any_word(random)).collect();
    join(random, &words)
}
