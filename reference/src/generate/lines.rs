//! Command lines, right and wrong in every way documents 01 and 02 name.

use crate::generate::Random;
use crate::loads::Load;
use crate::tables::{FIRST_WORD, LAST_WORD, MATRIX, TIME_OF_FLIGHT};

/// What lines depend on: the reach and the sum of the bytes below it.
#[derive(Clone, Copy)]
pub struct Staged {
    pub reach: usize,
    pub sum: u32,
}

/// A line of any kind.
pub fn any(random: &mut Random, staged: Staged) -> Vec<u8> {
    match random.below(20) {
        0..=8 => right(random, staged),
        9..=11 => wrong_value(random, staged),
        12..=15 => wrong_form(random, staged),
        16 => wrong_byte(random, staged),
        17 => padded(random, staged),
        18 => printable(random),
        _ => Vec::new(),
    }
}

/// A line that is right at the present reach; whether a staged byte is bad shows later.
pub fn right(random: &mut Random, staged: Staged) -> Vec<u8> {
    let reach = staged.reach;
    let (keyword, value) = match random.below(12) {
        0 | 1 => ("limhi", limhi(random)),
        2 => ("eonly", random.below(2)),
        3 => ("toferror", random.below(2)),
        4 => ("junk", random.below(2)),
        5 => ("hv", random.below(2)),
        6 => (
            "hvstep",
            if random.percent(50) { random.pick(&[0, 1, 254, 255]) } else { random.below(256) },
        ),
        7 => ("load", 0),
        8 => ("loadat", if random.percent(30) { reach } else { random.below(reach + 1) }),
        9 => return ask(random, staged),
        _ => return commit(random, staged),
    };
    with_value(random, keyword, value)
}

fn limhi(random: &mut Random) -> usize {
    if random.percent(60) {
        random.pick(&[0, 1, 2, 500, 703, 704])
    } else {
        random.below(705)
    }
}

/// A keyword and its argument.
fn with_value(random: &mut Random, keyword: &str, value: usize) -> Vec<u8> {
    format!("{keyword} {}", argument(random, value)).into_bytes()
}

/// An argument, sometimes with zeros before it.
fn argument(random: &mut Random, value: usize) -> String {
    let width = if random.percent(20) { random.between(1, 6) as usize } else { 1 };
    format!("{value:0width$x}")
}

/// A lawful "ask a y" where there is one; with reach 0 it is refused.
pub fn ask(random: &mut Random, staged: Staged) -> Vec<u8> {
    let (a, y) = lawful_load(random, staged);
    format!("ask {} {}", argument(random, a), argument(random, y)).into_bytes()
}

/// A lawful "commit a y sum" with the right sum, where there is one.
pub fn commit(random: &mut Random, staged: Staged) -> Vec<u8> {
    let (a, y) = lawful_load(random, staged);
    let [a, y, sum] = [a, y, staged.sum as usize].map(|value| argument(random, value));
    format!("commit {a} {y} {sum}").into_bytes()
}

/// The same with another sum, mostly one off; the last three may be the right one after all.
pub fn commit_of_wrong_sum(random: &mut Random, staged: Staged) -> Vec<u8> {
    let (a, y) = lawful_load(random, staged);
    let (right, most) = (staged.sum, 0xFF_FFFF);
    let (more, less) = ((right + 1).min(most), right.saturating_sub(1));
    let any = random.below(1 << 24) as u32;
    let wrong = random.pick(&[more, less, more, less, any, most, 0, right % 256, right % 65_536]);
    format!("commit {a:x} {y:x} {}", argument(random, wrong as usize)).into_bytes()
}

/// a and y of a lawful load, if the reach is 1 or more.
fn lawful_load(random: &mut Random, Staged { reach, .. }: Staged) -> (usize, usize) {
    let y = random.below(3);
    let words = reach.div_ceil(Load::bytes_a_word(y).unwrap());
    let last = (LAST_WORD + 1).saturating_sub(words).max(FIRST_WORD);
    let address = match random.below(5) {
        0 => FIRST_WORD,
        1 => last,
        2 => random.between(MATRIX as i64, TIME_OF_FLIGHT as i64) as usize,
        _ => random.between(FIRST_WORD as i64, last as i64) as usize,
    };
    (address.min(last), y)
}

/// A line of the right form whose value is just out of range, or far.
fn wrong_value(random: &mut Random, staged: Staged) -> Vec<u8> {
    if random.percent(30) {
        return wrong_load(random, staged);
    }
    let (keyword, least) = random.pick(&[
        ("limhi", 0x2c1),
        ("eonly", 2),
        ("toferror", 2),
        ("junk", 2),
        ("hv", 2),
        ("hvstep", 0x100),
        ("load", 1),
        ("loadat", staged.reach + 1),
    ]);
    let far = random.between(least as i64, 0xff_ffff) as usize;
    let value = if random.percent(60) { least } else { far };
    with_value(random, keyword, value)
}

/// An ask or a commit with a word below 7000 or past C202, or another y; or document 01's
/// "load a y", which is no command any more.
fn wrong_load(random: &mut Random, staged: Staged) -> Vec<u8> {
    if random.percent(20) {
        let (a, y) = lawful_load(random, staged);
        return format!("load {a:x} {y:x}").into_bytes();
    }
    let y = random.below(3);
    let words = staged.reach.div_ceil(Load::bytes_a_word(y).unwrap());
    let past = (LAST_WORD + 2).saturating_sub(words);
    let (a, y) = match random.below(5) {
        0 => (FIRST_WORD - 1, y),
        1 => (past, y),
        2 => (FIRST_WORD, random.pick(&[3, 4, 0x10, 0xff_ffff])),
        3 => (0, y),
        _ => (random.below(0x100_0000), y),
    };
    if random.percent(50) {
        format!("ask {a:x} {y:x}").into_bytes()
    } else {
        format!("commit {a:x} {y:x} {:x}", staged.sum).into_bytes()
    }
}

/// A right line made wrong in its form; a few of these stay right, or become others.
fn wrong_form(random: &mut Random, staged: Staged) -> Vec<u8> {
    let mut line = right(random, staged);
    let space = line.iter().position(|byte| *byte == b' ').unwrap();
    let last_space = line.iter().rposition(|byte| *byte == b' ').unwrap();
    let anywhere = random.below(line.len());
    let letter = random.below(space);
    match random.below(18) {
        0 => line[anywhere].make_ascii_uppercase(),
        1 => line.make_ascii_uppercase(),
        2 => line.insert(space, b' '),
        3 => line.push(b' '),
        4 => line.insert(0, b' '),
        5 => line.truncate(space),
        6 => line.truncate(space + 1),
        7 => {
            let digits = line.split_off(space + 1);
            line.extend([b"000000", &digits[..]].concat()); // seven digits or more
        }
        8 => line.extend(b" 0"),
        9 => line[letter] = line[letter].wrapping_add(random.pick(&[1, 255])),
        10 => drop(line.remove(letter)),
        11 => line.insert(letter, line[letter]),
        12 => drop(line.remove(space)),
        13 => line.truncate(last_space), // an argument too few
        14 => line.insert(last_space, b' '),
        15 => {
            let digits = line.split_off(last_space + 1);
            line.extend([b"000000", &digits[..]].concat());
        }
        16 => line = random.pick(&["limhi 2C0", "limhi A", "hvstep FF", "hvstep aB", "loadat A"]).into(),
        _ => {
            line.truncate(space + 1);
            line.extend(
                random.pick(&["g", "-1", "0x1", "+1", "1.", "1,", "?", "/", ":", "`"]).as_bytes(),
            );
        }
    }
    line
}

/// A byte outside 32 to 126 somewhere.
fn wrong_byte(random: &mut Random, staged: Staged) -> Vec<u8> {
    let mut line = if random.percent(70) { right(random, staged) } else { Vec::new() };
    let at = random.below(line.len() + 1);
    line.insert(at, random.pick(&[0, 9, 10, 13, 31, 127, 128, 255]));
    line
}

/// Lengths on both sides of 80.
fn padded(random: &mut Random, staged: Staged) -> Vec<u8> {
    let mut line = if random.percent(50) { right(random, staged) } else { Vec::new() };
    let filler = random.pick(b" 0x~\x7f");
    let length = random.pick(&[79, 80, 81, 82, 128, 300]);
    line.resize(length, filler);
    line
}

fn printable(random: &mut Random) -> Vec<u8> {
    (0..random.between(1, 80)).map(|_| random.between(32, 126) as u8).collect()
}
