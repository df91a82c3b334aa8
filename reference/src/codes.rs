//! The rate code in its two editions: document 01, "Packets", and document 02, Point 5. Both are
//! for n < 2^24, and both leave n below 4,096 as it is.

/// No code of the second edition from here on.
const SECOND_END: u16 = 0xD000;

#[derive(Clone, Copy, Debug, PartialEq, Eq)]
pub enum Edition {
    /// Document 01's, in the archive.
    First,
    /// Document 02's, which is written aboard.
    Second,
}

impl Edition {
    pub fn code(self, n: u32) -> u16 {
        match self {
            Edition::First => first_code(n),
            Edition::Second => second_code(n),
        }
    }

    /// The least count of a code; none if no count has that code.
    pub fn least_count(self, code: u16) -> Option<u32> {
        match self {
            Edition::First => first_least_count(code),
            Edition::Second => second_least_count(code),
        }
    }

    /// The code whose least count is n; none if its code has a lesser one.
    pub fn code_of_least(self, n: u32) -> Option<u16> {
        let code = self.code(n);
        (self.least_count(code) == Some(n)).then_some(code)
    }
}

/// 4,096 s + floor(n / 2^s), s the least with quotient < 4,096.
fn first_code(n: u32) -> u16 {
    let mut s = 0;
    while n >> s >= 4_096 {
        s += 1;
    }
    (4_096 * s + (n >> s)) as u16
}

/// quotient x 2^s.
fn first_least_count(code: u16) -> Option<u32> {
    let s = code as u32 / 4_096;
    let quotient = code as u32 % 4_096;
    if s > 12 || (s >= 1 && quotient < 2_048) {
        return None;
    }
    Some(quotient << s)
}

/// With e so that 2^(11+e) <= n < 2^(12+e): 4,096 e + floor(n / 2^(e-1)) - 4,096.
fn second_code(n: u32) -> u16 {
    if n < 4_096 {
        return n as u16;
    }
    let e = n.ilog2() - 11;
    (4_096 * e + (n >> (e - 1)) - 4_096) as u16
}

/// The least n of e = floor(c / 4,096), from 1 on, that leaves c mod 4,096.
fn second_least_count(code: u16) -> Option<u32> {
    let (e, rest) = (code as u32 / 4_096, code as u32 % 4_096);
    match e {
        _ if code >= SECOND_END => None,
        0 => Some(rest),
        _ => Some((rest + 4_096) << (e - 1)),
    }
}

#[cfg(test)]
mod tests {
    use super::Edition::*;

    #[test]
    fn first_edition_at_the_edges() {
        let edges = [
            (0, 0),
            (4_095, 0x0FFF),
            (4_096, 0x1800),
            (4_097, 0x1800),
            (8_191, 0x1FFF),
            (8_192, 0x2800),
            (1_000_000, 0x8F42),
            (16_777_215, 0xCFFF),
        ];
        for (n, expected) in edges {
            assert_eq!(First.code(n), expected, "n = {n}");
        }
    }

    #[test]
    fn second_edition_at_the_edges() {
        let edges = [
            (0, 0),
            (4_095, 0x0FFF),
            (4_096, 0x1000),
            (4_097, 0x1001),
            (8_191, 0x1FFF),
            (8_192, 0x2000),
            (8_193, 0x2000),
            (8_194, 0x2001),
            (16_383, 0x2FFF),
            (16_384, 0x3000),
            // e is 8: 32,768 + 7,812 - 4,096 = 36,484.
            (1_000_000, 0x8E84),
            // e is 12: 49,152 + 8,191 - 4,096 = 53,247.
            (16_777_215, 0xCFFF),
        ];
        for (n, expected) in edges {
            assert_eq!(Second.code(n), expected, "n = {n}");
        }
    }

    #[test]
    fn least_counts_of_the_first_edition() {
        assert_eq!(First.least_count(0x0FFF), Some(4_095));
        assert_eq!(First.least_count(0x1800), Some(4_096));
        // Hexadecimal F42 is 3,906; 3,906 x 256 = 999,936.
        assert_eq!(First.least_count(0x8F42), Some(999_936));
        assert_eq!(First.least_count(0xCFFF), Some(4_095 * 4_096));
        for wrong in [0x1000, 0x17FF, 0xC7FF, 0xD000, 0xD800, 0xFFFF] {
            assert_eq!(First.least_count(wrong), None, "{wrong:x}");
        }
    }

    #[test]
    fn least_counts_of_the_second_edition() {
        assert_eq!(Second.least_count(0x0FFF), Some(4_095));
        assert_eq!(Second.least_count(0x1000), Some(4_096));
        assert_eq!(Second.least_count(0x17FF), Some(4_096 + 2_047));
        assert_eq!(Second.least_count(0x1800), Some(4_096 + 2_048));
        assert_eq!(Second.least_count(0x2000), Some(8_192));
        // Hexadecimal E84 is 3,716; (3,716 + 4,096) x 128 = 999,936.
        assert_eq!(Second.least_count(0x8E84), Some(999_936));
        // (4,095 + 4,096) x 2,048.
        assert_eq!(Second.least_count(0xCFFF), Some(16_775_168));
        for wrong in [0xD000, 0xD001, 0xE000, 0xFFFF] {
            assert_eq!(Second.least_count(wrong), None, "{wrong:x}");
        }
    }

    #[test]
    fn the_least_count_is_the_least_of_its_code() {
        for edition in [First, Second] {
            for c in 0..=u16::MAX {
                let Some(least) = edition.least_count(c) else { continue };
                assert_eq!(edition.code(least), c);
                assert!(least == 0 || edition.code(least - 1) < c);
            }
        }
        assert_eq!((0..=u16::MAX).filter(|c| Second.least_count(*c).is_some()).count(), 0xD000);
    }

    #[test]
    fn a_code_of_a_least_count() {
        assert_eq!(First.code_of_least(4_096), Some(0x1800));
        assert_eq!(First.code_of_least(4_097), None);
        assert_eq!(First.code_of_least(4_098), Some(0x1801));
        assert_eq!(Second.code_of_least(4_097), Some(0x1001));
        // From 8,192 on every second count is no least count.
        assert_eq!(Second.code_of_least(8_193), None);
    }

    #[test]
    fn the_second_edition_is_finer() {
        for n in 0..1 << 24 {
            let [first, second] = [First, Second].map(|e| e.least_count(e.code(n)).unwrap());
            assert!(first <= second && second <= n, "n = {n}");
        }
    }
}
