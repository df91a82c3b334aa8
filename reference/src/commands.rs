//! Document 01, "Commands and loads": settings, command lines and their echoes; document 02,
//! Point 4: ask and commit in place of load.

use crate::loads::Load;

/// Byte limit of a line.
pub const LINE_BYTES: usize = 80;
pub const ECHO_BYTES: usize = 128;

pub type Echo = [u8; ECHO_BYTES];

const PROMPT: &str = "\r\nSIT> ";

#[derive(Clone, Copy, Debug, PartialEq, Eq)]
pub struct Settings {
    pub limhi: u16,
    pub eonly: bool,
    pub toferror: bool,
    pub junk: bool,
    pub hv: bool,
    pub hvstep: u8,
}

impl Settings {
    pub const FRESH: Settings =
        Settings { limhi: 500, eonly: false, toferror: false, junk: false, hv: false, hvstep: 0 };
}

#[derive(Clone, Copy, Debug, PartialEq, Eq)]
pub enum Command {
    // These wait until close.
    Limhi(u16),
    Eonly(bool),
    Toferror(bool),
    Junk(bool),
    Hv(bool),
    Hvstep(u8),
    /// A load and the sum that the staged bytes must have when the line comes.
    Commit(Load, u32),
    // These are carried out when accepted.
    LoadZero,
    LoadAt(usize),
    Ask(Load),
}

impl Command {
    /// Refused by 6 while a commit waits.
    pub fn is_about_staging(&self) -> bool {
        use Command::*;
        matches!(self, Commit(..) | LoadZero | LoadAt(_) | Ask(_))
    }
}

/// The settings that a command changes.
#[derive(Clone, Copy, Debug, PartialEq, Eq)]
pub enum Keyword {
    Limhi,
    Eonly,
    Toferror,
    Junk,
    Hv,
    Hvstep,
}

impl Keyword {
    pub const ALL: [Keyword; 6] =
        [Keyword::Limhi, Keyword::Eonly, Keyword::Toferror, Keyword::Junk, Keyword::Hv, Keyword::Hvstep];

    fn word(self) -> &'static str {
        ["limhi", "eonly", "toferror", "junk", "hv", "hvstep"][self as usize]
    }
}

/// A waiting command as a state holds it, whether a line could give it or not.
#[derive(Clone, Copy, Debug, PartialEq, Eq)]
pub enum Waiting {
    Set(Keyword, u16),
    /// a and y of a commit; its sum plays no part while it waits.
    Load(u32, u8),
}

impl Waiting {
    /// What stands where no command waits.
    pub const EMPTY: Waiting = Waiting::Set(Keyword::Limhi, 0);

    /// What a state keeps of the command; none of one that is carried out when accepted.
    pub fn of(command: Command) -> Option<Waiting> {
        Some(match command {
            Command::Limhi(value) => Waiting::Set(Keyword::Limhi, value),
            Command::Eonly(value) => Waiting::Set(Keyword::Eonly, value.into()),
            Command::Toferror(value) => Waiting::Set(Keyword::Toferror, value.into()),
            Command::Junk(value) => Waiting::Set(Keyword::Junk, value.into()),
            Command::Hv(value) => Waiting::Set(Keyword::Hv, value.into()),
            Command::Hvstep(value) => Waiting::Set(Keyword::Hvstep, value.into()),
            Command::Commit(load, _) => Waiting::Load(load.address as u32, load.y()),
            Command::LoadZero | Command::LoadAt(_) | Command::Ask(_) => return None,
        })
    }

    /// The command that a line gives at this reach, or none "that no line could give". A commit
    /// is judged by a, y and reach alone.
    pub fn given(&self, reach: usize) -> Option<Command> {
        let line = match self {
            Waiting::Set(keyword, value) => format!("{} {value:x}", keyword.word()),
            Waiting::Load(a, y) => format!("commit {a:x} {y:x} 0"),
        };
        command(line.as_bytes(), reach)
    }

    pub fn is_load(&self) -> bool {
        matches!(self, Waiting::Load(..))
    }
}

/// Up to 80 bytes, each 32 to 126.
pub fn printable(line: &[u8]) -> bool {
    line.len() <= LINE_BYTES && line.iter().all(|byte| (32..=126).contains(byte))
}

/// The command of a line, or none for an unknown keyword or a wrong argument.
/// What the commands about staging may say depends on the present reach.
pub fn command(line: &[u8], reach: usize) -> Option<Command> {
    let mut words = line.split(|byte| *byte == b' ');
    let keyword = words.next()?;
    let arguments: Vec<usize> = words.map(number).collect::<Option<_>>()?;
    Some(match (keyword, &arguments[..]) {
        (b"limhi", &[value @ 0..=0x2c0]) => Command::Limhi(value as u16),
        (b"eonly", &[value @ 0..=1]) => Command::Eonly(value == 1),
        (b"toferror", &[value @ 0..=1]) => Command::Toferror(value == 1),
        (b"junk", &[value @ 0..=1]) => Command::Junk(value == 1),
        (b"hv", &[value @ 0..=1]) => Command::Hv(value == 1),
        (b"hvstep", &[value @ 0..=0xff]) => Command::Hvstep(value as u8),
        (b"load", [0]) => Command::LoadZero,
        (b"loadat", &[a]) if a <= reach => Command::LoadAt(a),
        (b"ask", &[a, y]) => Command::Ask(Load::asked(a, y, reach)?),
        // Any sum is a right argument: a wrong one is judged later, by 16.
        (b"commit", &[a, y, sum]) => Command::Commit(Load::asked(a, y, reach)?, sum as u32),
        _ => return None,
    })
}

/// An argument: one to six digits 0-9 a-f.
fn number(word: &[u8]) -> Option<usize> {
    if !(1..=6).contains(&word.len()) {
        return None;
    }
    word.iter().try_fold(0, |value, byte| {
        let digit = match byte {
            b'0'..=b'9' => byte - b'0',
            b'a'..=b'f' => byte - b'a' + 10,
            _ => return None,
        };
        Some(16 * value + digit as usize)
    })
}

/// Puts the parts into the echo buffer, zeros after them.
fn put(echo: &mut Echo, parts: &[&[u8]]) {
    let text = parts.concat();
    echo.fill(0);
    echo[..text.len()].copy_from_slice(&text);
}

pub fn echo_empty(echo: &mut Echo) {
    put(echo, &[b"SIT> "]);
}

pub fn echo_accepted(echo: &mut Echo, frame: u16, sequence: usize, line: &[u8]) {
    let identifier = format!("{:02x}{:02x} ", frame % 256, sequence);
    put(echo, &[identifier.as_bytes(), line, PROMPT.as_bytes()]);
}

pub fn echo_refused(echo: &mut Echo, line: &[u8]) {
    put(echo, &[line, b"?", PROMPT.as_bytes()]);
}

/// 001's echo of a load package: A the address before, N the bytes placed.
pub fn echo_package(echo: &mut Echo, address: usize, placed: usize, received: u16, computed: u16) {
    let outcome = if received == computed {
        "OK".to_string()
    } else {
        format!("ckserr {received:08x} {computed:08x}")
    };
    let text = format!("binary A:{address:08x} N:{placed:08x} {outcome}{PROMPT}");
    put(echo, &[text.as_bytes()]);
}

#[cfg(test)]
mod tests {
    use super::*;

    fn at(reach: usize, line: &str) -> Option<Command> {
        command(line.as_bytes(), reach)
    }

    #[test]
    fn every_keyword_at_its_bounds() {
        assert_eq!(at(0, "limhi 0"), Some(Command::Limhi(0)));
        assert_eq!(at(0, "limhi 2c0"), Some(Command::Limhi(704)));
        assert_eq!(at(0, "limhi 2c1"), None);
        assert_eq!(at(0, "eonly 1"), Some(Command::Eonly(true)));
        assert_eq!(at(0, "toferror 0"), Some(Command::Toferror(false)));
        assert_eq!(at(0, "junk 000001"), Some(Command::Junk(true)));
        assert_eq!(at(0, "hv 1"), Some(Command::Hv(true)));
        for wrong in ["eonly 2", "toferror 2", "junk 10", "hv 2", "hvstep 100"] {
            assert_eq!(at(0, wrong), None, "{wrong}");
        }
        assert_eq!(at(0, "hvstep ff"), Some(Command::Hvstep(255)));
        assert_eq!(at(0, "load 0"), Some(Command::LoadZero));
        assert_eq!(at(0, "load 000000"), Some(Command::LoadZero));
        assert_eq!(at(0, "load 1"), None);
        assert_eq!(at(0, "loadat 0"), Some(Command::LoadAt(0)));
        assert_eq!(at(10, "loadat a"), Some(Command::LoadAt(10)));
        assert_eq!(at(10, "loadat b"), None);
    }

    #[test]
    fn lines_that_no_form_matches() {
        for wrong in [
            " ",
            "limhi",
            "limhi ",
            "limhi  1",
            " limhi 1",
            "limhi 1 ",
            "limhi 1 1",
            "Limhi 1",
            "LIMHI 1",
            "limhi 0000001",
            "limhi 2C0",
            "limhi g",
            "limhi -1",
            "limhi 0x1",
            "limh 1",
            "limhii 1",
            "hvstep",
            "load",
            "load ",
            "load  0",
            "load 0 ",
            "loadat",
            "loada 0",
            "load 7000 0",
            "load 0 0",
            "immed 1",
            "binary",
        ] {
            assert_eq!(at(3, wrong), None, "{wrong:?}");
        }
    }

    #[test]
    fn asks_and_commits_that_no_form_matches() {
        let wrong = "ask|ask 7000|ask 7000 |ask 7000 0 |ask 7000 0 0|ask 7000  0|ask 7000 0000000\
            |Ask 7000 0|asks 7000 0|commit|commit 7000|commit 7000 0|commit 7000 0 |commit 7000 0  0\
            |commit 7000 0 0 0|commit 7000 0 0000000|commit 7000 0 A|commit 7000 0 g|commi 7000 0 0";
        for line in wrong.split('|') {
            assert_eq!(at(3, line), None, "{line:?}");
        }
    }

    #[test]
    fn an_ask_needs_a_reach_and_words_of_the_tables() {
        let ask = |address, bytes_a_word| Some(Command::Ask(Load { address, bytes_a_word }));
        assert_eq!(at(0, "ask 7000 0"), None);
        assert_eq!(at(1, "ask 7000 0"), ask(0x7000, 3));
        assert_eq!(at(1, "ask 7000 1"), ask(0x7000, 1));
        assert_eq!(at(1, "ask 7000 2"), ask(0x7000, 2));
        assert_eq!(at(1, "ask 7000 3"), None);
        assert_eq!(at(1, "ask 6fff 0"), None);
        assert_eq!(at(1, "ask 0 0"), None);
        // Seven bytes are 3, 7 or 4 words.
        for (right, wrong) in
            [("ask c200 0", "ask c201 0"), ("ask c1fc 1", "ask c1fd 1"), ("ask c1ff 2", "ask c200 2")]
        {
            assert!(at(7, right).is_some());
            assert_eq!(at(7, wrong), None);
        }
        assert!(at(62_985, "ask 7000 0").is_some());
        assert_eq!(at(62_985, "ask 7001 0"), None);
        assert_eq!(at(1, "ask ffffff 0"), None);
    }

    #[test]
    fn a_commit_is_an_ask_with_any_sum() {
        for reach in [0, 1, 7, 62_985] {
            for words in ["7000 0", "6fff 0", "7000 3", "c200 0", "c201 0", "c202 1", "7001 0"] {
                let load = match at(reach, &format!("ask {words}")) {
                    Some(Command::Ask(load)) => Some(load),
                    _ => None,
                };
                for (digits, sum) in [("0", 0), ("1", 1), ("00000a", 10), ("ffffff", 16_777_215)] {
                    let commit = at(reach, &format!("commit {words} {digits}"));
                    assert_eq!(commit, load.map(|load| Command::Commit(load, sum)), "{words}");
                }
            }
        }
    }

    #[test]
    fn lines_of_printable_bytes_only() {
        assert!(printable(b""));
        assert!(printable(&[32; 80]));
        assert!(printable(&[126; 80]));
        assert!(!printable(&[32; 81]));
        for byte in [0, 10, 13, 31, 127, 128, 255] {
            assert!(!printable(&[b'h', byte]));
        }
    }

    fn text(echo: &Echo) -> &str {
        let end = echo.iter().position(|byte| *byte == 0).unwrap();
        assert!(echo[end..].iter().all(|byte| *byte == 0));
        std::str::from_utf8(&echo[..end]).unwrap()
    }

    #[test]
    fn echoes() {
        let mut echo = [0xEE; ECHO_BYTES];
        echo_accepted(&mut echo, 0x12AB, 31, b"hv 1");
        assert_eq!(text(&echo), "ab1f hv 1\r\nSIT> ");
        echo_refused(&mut echo, b"hv");
        assert_eq!(text(&echo), "hv?\r\nSIT> ");
        echo_empty(&mut echo);
        assert_eq!(text(&echo), "SIT> ");
        echo_package(&mut echo, 0x400, 0xabc, 7, 7);
        assert_eq!(text(&echo), "binary A:00000400 N:00000abc OK\r\nSIT> ");
        echo_package(&mut echo, 0, 1, 0xff00, 0xff);
        assert_eq!(text(&echo), "binary A:00000000 N:00000001 ckserr 0000ff00 000000ff\r\nSIT> ");
    }
}
