//! Document 01, "The lookup tables": 20,995 words of 24 bits, most significant byte first.

pub const TABLE_BYTES: usize = 62_985;

pub type Tables = [u8; TABLE_BYTES];

// Word addresses. The first four are 001's, the three offsets are document 01's.
pub const HIGH_ENERGY: usize = 0x7000;
pub const LOW_ENERGY: usize = 0x7800;
pub const MATRIX: usize = 0x8000;
pub const TIME_OF_FLIGHT: usize = 0xC000;
pub const KHI: usize = 0xC200;
pub const KLO: usize = 0xC201;
pub const KTOF: usize = 0xC202;

pub const FIRST_WORD: usize = HIGH_ENERGY;
pub const LAST_WORD: usize = KTOF;

/// Where the word at `address` begins in the buffer.
#[inline]
pub fn position(address: usize) -> usize {
    3 * (address - FIRST_WORD)
}

/// The word at `address`, 0 to 2^24 - 1.
#[inline]
pub fn word(tables: &Tables, address: usize) -> i32 {
    let i = position(address);
    (tables[i] as i32) << 16 | (tables[i + 1] as i32) << 8 | tables[i + 2] as i32
}

pub fn set_word(tables: &mut Tables, address: usize, value: u32) {
    tables[position(address)..][..3].copy_from_slice(&value.to_be_bytes()[1..]);
}

/// A row is sixteen words.
const ROW_BYTES: usize = 48;
/// So many bytes of a column have a sum of 16 bits.
const ROWS: usize = 257;

/// Sum of all words modulo 2^24 (rate packet, bytes 264-266).
pub fn sum(tables: &Tables) -> u32 {
    tables.chunks(ROW_BYTES * ROWS).map(block_sum).fold(0, u32::wrapping_add) & 0xFF_FFFF
}

/// Bytes are added by the column, in 16 bits: eight additions at once. Less than a row may be left.
fn block_sum(block: &[u8]) -> u32 {
    let rows = block.chunks_exact(ROW_BYTES);
    let left = rows.remainder().chunks_exact(3).map(|word| weighed([word[0], word[1], word[2]]));
    let mut columns = [0u16; ROW_BYTES];
    rows.for_each(|row| add_row(&mut columns, row.try_into().expect("a row")));
    let words = columns.chunks_exact(3).map(|word| weighed([word[0], word[1], word[2]]));
    words.chain(left).fold(0, u32::wrapping_add)
}

fn add_row(columns: &mut [u16; ROW_BYTES], row: &[u8; ROW_BYTES]) {
    for (column, byte) in columns.iter_mut().zip(row) {
        *column += *byte as u16;
    }
}

/// The word of three bytes, or modulo 2^32 the sum of words of the sums of their bytes.
fn weighed<Sum: Into<u32>>(bytes: [Sum; 3]) -> u32 {
    let [high, middle, low] = bytes.map(Into::into);
    (high << 16).wrapping_add(middle << 8).wrapping_add(low)
}

#[cfg(test)]
mod tests {
    use super::*;

    #[test]
    fn the_buffer_holds_20_992_words_and_three_offsets() {
        assert_eq!(LAST_WORD - FIRST_WORD + 1, 20_992 + 3);
        assert_eq!(3 * (LAST_WORD - FIRST_WORD + 1), TABLE_BYTES);
        assert_eq!(LOW_ENERGY - HIGH_ENERGY, 2_048);
        assert_eq!(MATRIX - LOW_ENERGY, 2_048);
        assert_eq!(TIME_OF_FLIGHT - MATRIX, 16_384);
        assert_eq!(KHI - TIME_OF_FLIGHT, 512);
        // Document 01 names these two places of the matrix.
        assert_eq!(position(MATRIX), 12_288);
        assert_eq!(position(TIME_OF_FLIGHT), 61_440);
    }

    #[test]
    fn words_go_most_significant_byte_first() {
        let mut tables = [0; TABLE_BYTES];
        tables[62_982..].copy_from_slice(&[0x01, 0x02, 0x03]);
        assert_eq!(word(&tables, KTOF), 0x010203);
        set_word(&mut tables, HIGH_ENERGY, 0xFEFDFC);
        assert_eq!(tables[..4], [0xFE, 0xFD, 0xFC, 0]);
    }

    #[test]
    fn the_sum_is_modulo_2_to_the_24() {
        // 20,995 words of 2^24 - 1 are -20,995 modulo 2^24.
        assert_eq!(sum(&[255; TABLE_BYTES]), (1 << 24) - 20_995);
        assert_eq!(sum(&[0; TABLE_BYTES]), 0);
    }

    #[test]
    fn the_sum_is_that_of_the_words_one_by_one() {
        let tables: Tables = std::array::from_fn(|i| (i * i % 253) as u8);
        let words = (FIRST_WORD..=LAST_WORD).map(|address| word(&tables, address) as u32);
        assert_eq!(sum(&tables), words.fold(0, u32::wrapping_add) % (1 << 24));
    }
}
