//! Stories of the archive: packets from one edition to the other, and back.

use crate::calls::Call;
use crate::generate::{damage, rates, Stream};
use crate::packets::*;

impl Stream {
    /// Packets for both converters, right and wrong; what one makes of them is given to the other.
    pub fn conversions(&mut self) {
        for _ in 0..=self.random.below(5) {
            let packet = self.packet_to_convert();
            // The way on which there is something to convert, most of the time.
            let of_second = packet.get(MARK_AT).is_some_and(|mark| *mark != FIRST_MARK);
            let to_first = of_second != self.random.percent(25);
            self.convert(packet, to_first);
            self.back_and_forth(!to_first);
        }
    }

    fn convert(&mut self, packet: Vec<u8>, to_first: bool) {
        self.call(if to_first { Call::ToFirst(packet) } else { Call::ToSecond(packet) });
    }

    /// What was converted last, to the other edition and so on; sometimes it is read or damaged.
    fn back_and_forth(&mut self, mut to_first: bool) {
        while self.random.percent(45) {
            let converted = self.station.converted;
            match self.random.below(10) {
                0 | 1 => self.call(Call::Packet(converted.to_vec())),
                2 => {
                    let packet = damage::one_fault(&mut self.random, converted);
                    self.convert(packet, to_first);
                }
                _ => {
                    self.convert(converted.to_vec(), to_first);
                    to_first = !to_first;
                }
            }
        }
    }

    fn packet_to_convert(&mut self) -> Vec<u8> {
        let any = self.random.below(13);
        let k = self.random.pick(&[0, 0, 12, any]);
        let (mut written, mut packet) = (self.written(k), self.packet_of_rates());
        match self.random.below(20) {
            0 | 1 => written.to_vec(), // any kind
            2 => {
                rates::into_first(&mut written);
                written.to_vec()
            }
            3 => self.written(1 + any % 11).to_vec(), // samples
            4 => self.listing_to_read(),
            5..=7 => damage::one_fault(&mut self.random, packet),
            8..=10 => damage::changed(&mut self.random, packet),
            11 | 12 => {
                rates::put_edges(&mut self.random, &mut packet);
                packet[271] = packet_sum(&packet);
                packet.to_vec()
            }
            _ => packet.to_vec(),
        }
    }

    /// A right rate or beacon packet of mark 0, 1 or 2.
    fn packet_of_rates(&mut self) -> Bytes {
        let random = &mut self.random;
        let (time, frame) = (random.bits() as u32, random.bits() as u16);
        let mut packet = if random.percent(50) {
            rates::rate(random, time, frame)
        } else {
            rates::beacon(random, time, frame)
        };
        let mark = random.pick(&[FIRST_MARK, SECOND_MARK, CONVERTED_MARK]);
        rates::recode(random, &mut packet, mark);
        packet
    }
}
