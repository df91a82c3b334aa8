//! Document 02, Point 1: the ground gatherer, which puts listing packets into a table buffer.

use crate::causes::*;
use crate::listing::*;
use crate::reader::{application, three_bytes};
use crate::tables::Tables;

/// Which of the 250 packets have come.
#[derive(Clone, Debug, PartialEq, Eq)]
pub struct Gatherer {
    came: [bool; LISTING_PACKETS],
}

impl Gatherer {
    pub const FRESH: Gatherer = Gatherer { came: [false; LISTING_PACKETS] };

    /// One packet. A refused one changes nothing; of two from one address the later one stays.
    pub fn gather(&mut self, packet: &[u8], tables: &mut [u8]) -> Number {
        let Ok(tables) = <&mut Tables>::try_from(tables) else {
            return BUFFER;
        };
        match listed(packet) {
            Ok((i, words)) => {
                tables[listed_bytes(i)].copy_from_slice(words);
                self.came[i] = true;
                DONE
            }
            Err(number) => number,
        }
    }

    /// How many of the 250 addresses have not come.
    pub fn missing(&self) -> usize {
        self.came.iter().filter(|came| !**came).count()
    }
}

/// The number of a listing packet among the 250, and the bytes of its words; or 11, 12, 14, 13
/// in this order.
fn listed(packet: &[u8]) -> Result<(usize, &[u8]), Number> {
    application(packet, |number| number == LISTING)?;
    let i = packet_from(three_bytes(packet, 16) as usize).ok_or(LISTING_ADDRESS)?;
    let (words, behind) = packet[WORDS_AT].split_at(listed_bytes(i).len());
    if packet[11..14].iter().chain(behind).any(|byte| *byte != 0) {
        return Err(BODY);
    }
    Ok((i, words))
}

#[cfg(test)]
mod tests {
    use super::*;
    use crate::packets::{packet_sum, write_rate, PACKET_BYTES};
    use crate::sorting::Counts;
    use crate::tables::TABLE_BYTES;

    type Packet = [u8; PACKET_BYTES];

    /// Some table whose bytes all differ from zero.
    fn tables() -> Box<Tables> {
        Box::new(std::array::from_fn(|i| (i % 251 + 1) as u8))
    }

    fn packet(i: usize, tables: &Tables) -> Packet {
        let mut packet = [0; PACKET_BYTES];
        write_listing(&mut packet, 7 * i as u32, i as u16, i, tables);
        packet
    }

    /// The number once byte `at` is changed, with the sum renewed; refused, nothing changes.
    fn changed(mut packet: Packet, at: usize, value: u8) -> Number {
        packet[at] = value;
        packet[271] = packet_sum(&packet);
        gathered_alone(&packet)
    }

    fn gathered_alone(packet: &[u8]) -> Number {
        let (mut gatherer, mut buffer) = (Gatherer::FRESH, vec![0xEE; TABLE_BYTES]);
        let number = gatherer.gather(packet, &mut buffer);
        if number != DONE {
            assert_eq!(gatherer, Gatherer::FRESH);
            assert!(buffer.iter().all(|byte| *byte == 0xEE));
        }
        number
    }

    #[test]
    fn all_250_in_any_order_with_repeats_give_the_table() {
        let tables = tables();
        let (mut gatherer, mut buffer) = (Gatherer::FRESH, vec![0; TABLE_BYTES]);
        assert_eq!(gatherer.missing(), 250);
        // 7 has no divisor with 250 in common, so that 7 j runs through all of them.
        for j in 0..250 {
            assert_eq!(gatherer.missing(), 250 - j);
            let packet = packet(7 * j % 250, &tables);
            for _ in 0..2 {
                assert_eq!(gatherer.gather(&packet, &mut buffer), DONE);
                assert_eq!(gatherer.missing(), 249 - j);
            }
        }
        assert_eq!(buffer, tables.to_vec());
    }

    #[test]
    fn the_later_one_stays() {
        let (mut gatherer, mut buffer) = (Gatherer::FRESH, vec![0; TABLE_BYTES]);
        gatherer.gather(&packet(1, &tables()), &mut buffer);
        gatherer.gather(&packet(1, &[9; TABLE_BYTES]), &mut buffer);
        assert_eq!(gatherer.missing(), 249);
        assert_eq!(buffer[252..504], [9; 252]);
        assert_eq!((buffer[251], buffer[504]), (0, 0));
    }

    #[test]
    fn causes_in_order() {
        let right = packet(249, &tables());
        assert_eq!(gathered_alone(&right), DONE);
        assert_eq!(gathered_alone(&right[..271]), HEADER);
        let mut wrong = right;
        let mut buffer = [0; TABLE_BYTES];
        let mut number_with = |at: usize, value: u8, length: usize| {
            wrong[at] = value;
            let mut gatherer = Gatherer::FRESH;
            gatherer.gather(&wrong, &mut buffer[..length])
        };
        // Faults join one another: 13, 14, 12, 11, 1 in turn.
        number_with(11, 1, TABLE_BYTES);
        assert_eq!(number_with(271, right[271].wrapping_add(1), TABLE_BYTES), BODY);
        number_with(18, 0xB5, TABLE_BYTES);
        assert_eq!(number_with(271, right[271].wrapping_add(2), TABLE_BYTES), LISTING_ADDRESS);
        assert_eq!(number_with(271, right[271], TABLE_BYTES), PACKET_SUM);
        assert_eq!(number_with(10, 1, TABLE_BYTES), HEADER);
        assert_eq!(number_with(10, 1, TABLE_BYTES - 1), BUFFER);
    }

    #[test]
    fn cause_11_for_another_application_number() {
        let mut rate = [0; PACKET_BYTES];
        let settings = crate::commands::Settings::FRESH;
        write_rate(&mut rate, 0, 0, &[0; 8], &Counts::ZERO, &settings, 0);
        assert_eq!(gathered_alone(&rate), HEADER);
        for low_byte in [0x51, 0x53, 0x5D, 0x70] {
            assert_eq!(changed(packet(3, &tables()), 1, low_byte), HEADER);
        }
    }

    #[test]
    fn cause_13_covers_the_zeros() {
        for at in 11..14 {
            assert_eq!(changed(packet(0, &tables()), at, 128), BODY);
        }
        for at in 256..271 {
            assert_eq!(changed(packet(249, &tables()), at, 1), BODY);
            assert_eq!(changed(packet(248, &tables()), at, 1), DONE);
        }
        // Any frame, time, sequence count and words.
        for at in [2, 3, 6, 9, 14, 15, 19, 255] {
            assert_eq!(changed(packet(249, &tables()), at, 0xC1), DONE);
        }
    }
}
