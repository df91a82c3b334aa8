//! Document 02, Point 1: listing packets, after 001's type E. The table's 20,995 words go into
//! 250 packets of 84 words; the last has 79, and zeros behind them.

use std::ops::Range;

use crate::packets::write;
use crate::tables::*;

pub const LISTING: u16 = 594;
pub const LISTING_PACKETS: usize = 250;

const LISTING_WORDS: usize = 84;
/// Bytes 19-270 of a packet.
pub const WORDS_AT: Range<usize> = 19..271;

/// The address of the first word in packet i.
pub fn first_address(i: usize) -> usize {
    FIRST_WORD + LISTING_WORDS * i
}

/// The packet whose first word is at `address`; none if it is none of the 250.
pub fn packet_from(address: usize) -> Option<usize> {
    let words = address.checked_sub(FIRST_WORD)?;
    let i = words / LISTING_WORDS;
    (words % LISTING_WORDS == 0 && i < LISTING_PACKETS).then_some(i)
}

/// The bytes of the table buffer that packet i lists.
pub fn listed_bytes(i: usize) -> Range<usize> {
    let from = position(first_address(i));
    from..(from + WORDS_AT.len()).min(TABLE_BYTES)
}

pub fn write_listing(packet: &mut [u8], time: u32, frame: u16, i: usize, tables: &Tables) {
    let words = &tables[listed_bytes(i)];
    write(packet, LISTING, time, frame, |packet| {
        packet[14..16].copy_from_slice(&frame.to_be_bytes());
        packet[16..19].copy_from_slice(&(first_address(i) as u32).to_be_bytes()[1..]);
        packet[WORDS_AT][..words.len()].copy_from_slice(words);
    });
}

#[cfg(test)]
mod tests {
    use super::*;
    use crate::packets::PACKET_BYTES;

    #[test]
    fn the_250_packets_list_every_byte_once() {
        let mut next = 0;
        for i in 0..250 {
            assert_eq!(listed_bytes(i).start, next);
            next = listed_bytes(i).end;
        }
        assert_eq!(next, 62_985);
        // 79 words in the last one.
        assert_eq!(listed_bytes(249).len(), 79 * 3);
        assert_eq!(listed_bytes(248).len(), 84 * 3);
    }

    #[test]
    fn addresses() {
        // 84 x 249 = 20,916 = 51B4 hex.
        for (i, address) in [(0, 0x7000), (1, 0x7054), (249, 0xC1B4)] {
            assert_eq!(first_address(i), address);
            assert_eq!(packet_from(address), Some(i));
        }
        for none in [0, 0x6FAC, 0x6FFF, 0x7001, 0x7053, 0x7055, 0xC1B3, 0xC208, 0xFF_FFFF] {
            assert_eq!(packet_from(none), None, "{none:x}");
        }
        assert_eq!((0..1 << 24).filter(|address| packet_from(*address).is_some()).count(), 250);
    }

    #[test]
    fn the_first_and_the_last_packet() {
        let mut tables = Box::new([0xEE; TABLE_BYTES]);
        set_word(&mut tables, HIGH_ENERGY, 0x010203);
        set_word(&mut tables, HIGH_ENERGY + 83, 0x040506);
        set_word(&mut tables, KTOF, 0x070809);
        let mut packet = [0x77; PACKET_BYTES];
        write_listing(&mut packet, 0x01020304, 0x4005, 0, &tables);
        // Application number 594 is 252 hex; 4005 hex modulo 16,384 is 5.
        assert_eq!(packet[..11], [0x0A, 0x52, 0xC0, 0x05, 0x01, 0x09, 1, 2, 3, 4, 0]);
        assert_eq!(packet[11..23], [0, 0, 0, 0x40, 0x05, 0, 0x70, 0, 1, 2, 3, 0xEE]);
        assert_eq!(packet[267..271], [0xEE, 4, 5, 6]);
        let sum: u32 = packet[..271].iter().map(|byte| *byte as u32).sum();
        assert_eq!(packet[271] as u32, sum % 256);

        write_listing(&mut packet, 0, 0, 249, &tables);
        assert_eq!(packet[16..20], [0, 0xC1, 0xB4, 0xEE]);
        // 19 + 3 x 79 = 256.
        assert_eq!(packet[252..256], [0xEE, 7, 8, 9]);
        assert_eq!(packet[256..271], [0; 15]);
    }
}
