//! Stories of listing packets: written aboard, gathered on the ground.

use crate::calls::Call;
use crate::generate::{damage, Stream};
use crate::listing::*;
use crate::packets::PACKET_BYTES;

impl Stream {
    /// Listing calls, right and wrong; some of what they write is gathered.
    pub fn listings_up_to(&mut self, most: usize) {
        for _ in 0..=self.random.below(most) {
            let random = &mut self.random;
            let i = match random.below(4) {
                0 => random.pick(&[0, 1, 248, 249]),
                1 => random.pick(&[250, 251, 255, 256, 499, 500, 32_768, 65_535]),
                2 => random.bits() as u16,
                _ => random.below(LISTING_PACKETS) as u16,
            };
            let any = random.bits() as u32;
            let time = random.pick(&[any, any, self.time, 0, u32::MAX]);
            self.call(Call::Listing(i, time));
            if self.random.percent(40) {
                self.gather(self.station.listed);
            }
        }
    }

    /// Packets of every kind for the gatherer, right and wrong.
    pub fn gather_some(&mut self) {
        for _ in 0..=self.random.below(12) {
            if self.random.percent(30) {
                self.gather_one_of_the_table();
            } else {
                self.gather_other();
            }
        }
        if self.random.percent(10) {
            self.gathered();
        }
    }

    /// All 250 packets of the present table in any order, with repeats. In every second story
    /// others come between them.
    pub fn gather_all(&mut self) {
        let mut order: Vec<usize> = (0..LISTING_PACKETS).collect();
        for last in (1..order.len()).rev() {
            order.swap(last, self.random.below(last + 1));
        }
        let one_table = self.random.percent(50);
        for i in order {
            if self.random.percent(5) {
                self.gather_one_of_the_table();
            }
            if !one_table && self.random.percent(5) {
                self.gather_other();
            }
            let packet = self.listing_packet(i);
            self.gather(packet);
        }
        self.gathered();
    }

    /// A listing packet of the present table, right or changed.
    pub fn listing_to_read(&mut self) -> Vec<u8> {
        let i = self.random.below(LISTING_PACKETS);
        let packet = self.listing_packet(i);
        if self.random.percent(50) {
            packet.to_vec()
        } else {
            damage::changed(&mut self.random, packet)
        }
    }

    fn gather(&mut self, packet: [u8; PACKET_BYTES]) {
        self.call(Call::Gather(packet.to_vec()));
    }

    fn gather_one_of_the_table(&mut self) {
        let i = self.random.below(LISTING_PACKETS);
        let packet = self.listing_packet(i);
        self.gather(packet);
    }

    /// A changed packet, which may be one of another table, or a packet of another kind.
    fn gather_other(&mut self) {
        let i = self.random.below(LISTING_PACKETS);
        let i = self.random.pick(&[i, i, LISTING_PACKETS - 1]);
        let k = self.random.below(13);
        let packet = match self.random.below(8) {
            0 => self.written(k).to_vec(),
            1 => {
                let mut packet = self.listing_packet(i);
                damage::of_another_table(&mut self.random, &mut packet);
                packet.to_vec()
            }
            _ => {
                let packet = self.listing_packet(i);
                damage::changed(&mut self.random, packet)
            }
        };
        self.call(Call::Gather(packet));
    }

    /// Packet i of the present table, of any frame and time.
    fn listing_packet(&mut self, i: usize) -> [u8; PACKET_BYTES] {
        let mut packet = [0; PACKET_BYTES];
        let (time, frame) = (self.random.bits() as u32, self.random.bits() as u16);
        let tables = self.station.tables.as_slice().try_into().expect("tables of the right length");
        write_listing(&mut packet, time, frame, i, tables);
        packet
    }

    /// The whole buffer is printed, so that these records are rare: about one in 2,000 calls.
    fn gathered(&mut self) {
        if self.gathered <= self.calls / 2_000 {
            let calls = self.calls;
            self.call(Call::Gathered);
            self.gathered += self.calls - calls;
        }
    }
}
