//! Document 01, "Commands and loads": the staging area, load packages, packing; document 02,
//! Point 4: which staged bytes are bad.

use std::ops::Range;

use crate::causes::*;
use crate::tables::*;

pub const STAGING_BYTES: usize = 62_985;

pub type Staging = [u8; STAGING_BYTES];

/// One bit for each staged byte.
pub const BITMAP_BYTES: usize = STAGING_BYTES.div_ceil(8);

/// Bit i mod 8 of byte i / 8, the least significant first, is set where the package that wrote
/// staged byte i last had a wrong sum.
pub type Bitmap = [u8; BITMAP_BYTES];

/// Sets the bits of these staged bytes, or clears them: whole bytes at once, and those before and
/// behind them one by one.
fn put_bits(bitmap: &mut Bitmap, staged: Range<usize>, bad: bool) {
    let (first, last) = (staged.start.div_ceil(8), staged.end / 8);
    if first > last {
        return put_each(bitmap, staged, bad);
    }
    put_each(bitmap, staged.start..8 * first, bad);
    bitmap[first..last].fill(if bad { 255 } else { 0 });
    put_each(bitmap, 8 * last..staged.end, bad);
}

fn put_each(bitmap: &mut Bitmap, staged: Range<usize>, bad: bool) {
    for i in staged {
        let bit = 1 << (i % 8);
        if bad {
            bitmap[i / 8] |= bit;
        } else {
            bitmap[i / 8] &= !bit;
        }
    }
}

pub fn is_bad(bitmap: &Bitmap, i: usize) -> bool {
    bitmap[i / 8] >> (i % 8) & 1 == 1
}

/// Whether a staged byte below the reach is bad. Bits from the reach on mean nothing. Whole bytes
/// without an early exit, so that the compiler takes several at once.
pub fn any_bad(bitmap: &Bitmap, reach: usize) -> bool {
    let whole = reach / 8;
    let bits = bitmap[..whole].iter().fold(0, |bits, byte| bits | byte);
    bits != 0 || (8 * whole..reach).any(|i| is_bad(bitmap, i))
}

/// The sum of the staged bytes below the reach: less than 2^24, since 62,985 x 255 is.
pub fn staged_sum(staging: &Staging, reach: usize) -> u32 {
    byte_sum(&staging[..reach])
}

/// Sums of 32 bytes: so many the compiler adds by sixteen at a time.
fn byte_sum(bytes: &[u8]) -> u32 {
    let sum = |bytes: &[u8]| bytes.iter().map(|byte| *byte as u32).sum::<u32>();
    let parts = bytes.chunks_exact(32);
    let rest = sum(parts.remainder());
    parts.map(sum).sum::<u32>() + rest
}

/// The next address and the reach, the highest end since reset.
#[derive(Clone, Copy, Debug, PartialEq, Eq)]
pub struct Addresses {
    pub next: usize,
    pub reach: usize,
}

/// A package that was placed.
pub struct Placed {
    pub address: usize,
    pub bytes: usize,
    pub received: u16,
    pub computed: u16,
}

impl Addresses {
    pub const ZERO: Addresses = Addresses { next: 0, reach: 0 };

    /// Places a package (16-bit N, N - 2 bytes, their sum), whether its sum is right or not, and
    /// sets or clears their bits.
    pub fn place(
        &mut self,
        package: &[u8],
        staging: &mut Staging,
        bitmap: &mut Bitmap,
    ) -> Result<Placed, Number> {
        let (n, rest) = package.split_first_chunk::<2>().ok_or(PACKAGE)?;
        if u16::from_be_bytes(*n) as usize != rest.len() {
            return Err(PACKAGE);
        }
        let (bytes, sum) = rest.split_last_chunk::<2>().ok_or(PACKAGE)?;
        let address = self.next;
        let end = address + bytes.len();
        if end > STAGING_BYTES {
            return Err(STAGING_END);
        }
        staging[address..end].copy_from_slice(bytes);
        self.next = end;
        self.reach = self.reach.max(end);
        let received = u16::from_be_bytes(*sum);
        let computed = byte_sum(bytes) as u16;
        put_bits(bitmap, address..end, received != computed);
        Ok(Placed { address, bytes: bytes.len(), received, computed })
    }
}

/// The load that "ask a y" asks for and "commit a y sum" commits.
#[derive(Clone, Copy, Debug, PartialEq, Eq)]
pub struct Load {
    pub address: usize,
    pub bytes_a_word: usize,
}

impl Load {
    /// y 0 is three bytes a word, y 1 one, y 2 two.
    pub fn bytes_a_word(y: usize) -> Option<usize> {
        [3, 1, 2].get(y).copied()
    }

    /// The y of so many bytes a word.
    pub fn y(&self) -> u8 {
        [0, 1, 2, 0][self.bytes_a_word]
    }

    /// The load of arguments a and y; none if y is none of these or it is not lawful.
    pub fn asked(a: usize, y: usize, reach: usize) -> Option<Load> {
        let load = Load { address: a, bytes_a_word: Load::bytes_a_word(y)? };
        load.lawful(reach).then_some(load)
    }

    /// Reach at least 1 and all words in 7000 to C202.
    pub fn lawful(&self, reach: usize) -> bool {
        let words = reach.div_ceil(self.bytes_a_word);
        reach >= 1 && self.address >= FIRST_WORD && self.address + words - 1 <= LAST_WORD
    }

    /// Packs the staged bytes below the reach: zeros before the bytes of each word, and
    /// behind those of a short last one.
    pub fn run(&self, staged: &[u8], tables: &mut Tables) {
        let words = &mut tables[position(self.address)..];
        match self.bytes_a_word {
            1 => pack::<1>(staged, words),
            2 => pack::<2>(staged, words),
            _ => pack_threes(staged, words),
        }
    }
}

/// The whole words first: their width is known to the compiler.
fn pack<const WIDTH: usize>(staged: &[u8], tables: &mut [u8]) {
    let parts = staged.chunks_exact(WIDTH);
    let rest = parts.remainder();
    let (words, behind) = tables.split_at_mut(3 * (staged.len() / WIDTH));
    let put = |word: &mut [u8], bytes: &[u8]| {
        word.fill(0);
        word[3 - WIDTH..][..bytes.len()].copy_from_slice(bytes);
    };
    words.chunks_exact_mut(3).zip(parts).for_each(|(word, bytes)| put(word, bytes));
    if !rest.is_empty() {
        put(&mut behind[..3], rest);
    }
}

/// Three bytes a word lie as they are staged: one copy.
fn pack_threes(staged: &[u8], tables: &mut [u8]) {
    let (bytes, behind) = tables.split_at_mut(staged.len());
    bytes.copy_from_slice(staged);
    behind[..staged.len().next_multiple_of(3) - staged.len()].fill(0);
}

#[cfg(test)]
mod tests {
    use super::*;

    fn placed(addresses: &mut Addresses, staging: &mut Staging, package: &[u8]) -> Number {
        match addresses.place(package, staging, &mut [0; BITMAP_BYTES]) {
            Ok(placed) => assert_eq!(placed.received, placed.computed),
            Err(number) => return number,
        }
        DONE
    }

    #[test]
    fn packages_that_are_none() {
        let (mut addresses, mut staging) = (Addresses::ZERO, [0; STAGING_BYTES]);
        for wrong in
            [&[][..], &[0], &[0, 0], &[0, 1], &[0, 1, 0], &[0, 2, 0], &[0, 2, 0, 0, 0], &[0, 3, 0, 0]]
        {
            assert_eq!(placed(&mut addresses, &mut staging, wrong), PACKAGE, "{wrong:?}");
        }
        assert_eq!(addresses, Addresses::ZERO);
        // N = 2 places nothing; its sum is 0.
        assert_eq!(placed(&mut addresses, &mut staging, &[0, 2, 0, 0]), DONE);
        assert_eq!(addresses, Addresses::ZERO);
    }

    #[test]
    fn bytes_go_to_the_next_address() {
        let (mut addresses, mut staging) = (Addresses::ZERO, [0; STAGING_BYTES]);
        placed(&mut addresses, &mut staging, &[0, 5, 1, 2, 3, 0, 6]);
        placed(&mut addresses, &mut staging, &[0, 3, 9, 0, 9]);
        assert_eq!(addresses, Addresses { next: 4, reach: 4 });
        addresses.next = 1;
        placed(&mut addresses, &mut staging, &[0, 3, 7, 0, 7]);
        assert_eq!(addresses, Addresses { next: 2, reach: 4 });
        assert_eq!(staging[..5], [1, 7, 3, 9, 0]);
    }

    #[test]
    fn a_package_may_not_pass_the_end() {
        let (mut addresses, mut staging) = (Addresses::ZERO, [0; STAGING_BYTES]);
        addresses.next = STAGING_BYTES - 1;
        addresses.reach = STAGING_BYTES - 1;
        assert_eq!(placed(&mut addresses, &mut staging, &[0, 4, 1, 1, 0, 2]), STAGING_END);
        assert_eq!(placed(&mut addresses, &mut staging, &[0, 3, 1, 0, 1]), DONE);
        assert_eq!(placed(&mut addresses, &mut staging, &[0, 2, 0, 0]), DONE);
        assert_eq!(placed(&mut addresses, &mut staging, &[0, 3, 1, 0, 1]), STAGING_END);
    }

    #[test]
    fn the_sum_is_modulo_65_536() {
        // 258 x 255 = 65,790 = 65,536 + 254.
        let package = [&260u16.to_be_bytes()[..], &[255; 258], &[0, 254]].concat();
        let (mut addresses, mut staging) = (Addresses::ZERO, [0; STAGING_BYTES]);
        assert_eq!(placed(&mut addresses, &mut staging, &package), DONE);
    }

    /// Places packages of one byte after the other, from the given addresses on, each with a right
    /// or a wrong sum; then says of bytes 0 to 19 which are bad.
    fn bad_bytes(packages: &[(usize, usize, bool)]) -> String {
        let (mut addresses, mut staging) = (Addresses::ZERO, [0; STAGING_BYTES]);
        let mut bitmap = [0; BITMAP_BYTES];
        for (next, bytes, right) in packages {
            addresses.next = *next;
            let n = (*bytes as u16 + 2).to_be_bytes();
            let sum = [0, !right as u8];
            let package = [&n[..], &vec![0; *bytes], &sum].concat();
            assert!(addresses.place(&package, &mut staging, &mut bitmap).is_ok());
        }
        (0..20).map(|i| if is_bad(&bitmap, i) { 'x' } else { '.' }).collect()
    }

    #[test]
    fn the_last_package_decides_whether_a_byte_is_bad() {
        assert_eq!(bad_bytes(&[(0, 20, true)]), "....................");
        assert_eq!(bad_bytes(&[(3, 10, false)]), "...xxxxxxxxxx.......");
        // A right one over it: elsewhere, before, behind, inside, wholly.
        assert_eq!(bad_bytes(&[(3, 10, false), (13, 7, true)]), "...xxxxxxxxxx.......");
        assert_eq!(bad_bytes(&[(3, 10, false), (0, 4, true)]), "....xxxxxxxxx.......");
        assert_eq!(bad_bytes(&[(3, 10, false), (12, 8, true)]), "...xxxxxxxxx........");
        assert_eq!(bad_bytes(&[(3, 10, false), (7, 2, true)]), "...xxxx..xxxx.......");
        assert_eq!(bad_bytes(&[(3, 10, false), (3, 10, true)]), "....................");
        assert_eq!(bad_bytes(&[(0, 20, true), (8, 1, false)]), "........x...........");
        // One of no bytes sets no bit.
        assert_eq!(bad_bytes(&[(5, 0, false)]), "....................");
    }

    #[test]
    fn bits_the_least_significant_first() {
        // 62,985 = 8 x 7,873 + 1.
        assert_eq!(BITMAP_BYTES, 7_874);
        let mut bitmap = [0; BITMAP_BYTES];
        put_bits(&mut bitmap, 3..10, true);
        assert_eq!(bitmap[..3], [0b1111_1000, 0b11, 0]);
        put_bits(&mut bitmap, 62_984..62_985, true);
        assert_eq!(bitmap[7_872..], [0, 1]);
        put_bits(&mut bitmap, 0..9, false);
        assert_eq!(bitmap[..3], [0, 0b10, 0]);
        for (reach, bad) in [(0, false), (9, false), (10, true), (62_985, true)] {
            assert_eq!(any_bad(&bitmap, reach), bad, "{reach}");
        }
    }

    #[test]
    fn whole_bytes_of_bits_are_set_and_cleared_as_one_by_one() {
        for (start, end) in (0..26).flat_map(|start| (start..26).map(move |end| (start, end))) {
            for bad in [true, false] {
                let (mut at_once, mut each) = ([0b1010_0110; BITMAP_BYTES], [0b1010_0110; BITMAP_BYTES]);
                put_bits(&mut at_once, start..end, bad);
                put_each(&mut each, start..end, bad);
                assert_eq!(at_once[..5], each[..5], "{start} to {end}");
            }
        }
    }

    #[test]
    fn the_sum_by_32_is_that_of_the_bytes() {
        let bytes: [u8; 100] = std::array::from_fn(|i| (i * i % 251) as u8);
        for n in 0..=100 {
            assert_eq!(byte_sum(&bytes[..n]), bytes[..n].iter().map(|byte| *byte as u32).sum());
        }
    }

    #[test]
    fn the_sum_of_staged_bytes_ends_before_the_reach() {
        let mut staging = [0; STAGING_BYTES];
        staging[..4].copy_from_slice(&[1, 2, 4, 255]);
        assert_eq!([0, 1, 2, 3, 4, 5].map(|reach| staged_sum(&staging, reach)), [0, 1, 3, 7, 262, 262]);
        // Plain, not modulo 65,536: 62,985 x 255 = 16,061,175.
        assert_eq!(staged_sum(&[255; STAGING_BYTES], STAGING_BYTES), 16_061_175);
    }

    #[test]
    fn packing() {
        let packed = |y| {
            let mut tables = Box::new([0xEE; TABLE_BYTES]);
            let load = Load { address: FIRST_WORD + 1, bytes_a_word: Load::bytes_a_word(y).unwrap() };
            load.run(&[1, 2, 3, 4, 5], &mut tables);
            tables[..18].to_vec()
        };
        let e = 0xEE;
        assert_eq!(packed(0), [e, e, e, 1, 2, 3, 4, 5, 0, e, e, e, e, e, e, e, e, e]);
        assert_eq!(packed(1), [e, e, e, 0, 0, 1, 0, 0, 2, 0, 0, 3, 0, 0, 4, 0, 0, 5]);
        assert_eq!(packed(2), [e, e, e, 0, 1, 2, 0, 3, 4, 0, 5, 0, e, e, e, e, e, e]);
    }
}
