//! An archive: packets one after the other, of the first edition and without counts of samples, as an
//! instrument of the past sent them; and the same with packets that do not belong there.

use std::io::{Result, Write};

use crate::convert::to_second;
use crate::generate::{damage, flight, rates, Random};
use crate::listing::{write_listing, LISTING_PACKETS};
use crate::packets::*;
use crate::samples::{Slots, SLOTS};

/// Writes an archive of this many packets. A damaged one is that of the same seed with other packets
/// in place of some, and ends in the middle of its last.
pub fn write_archive(seed: u64, packets: usize, damaged: bool, out: &mut impl Write) -> Result<()> {
    let mut instrument = Instrument::new(seed);
    if !damaged {
        return (0..packets).try_for_each(|_| out.write_all(&instrument.packet()));
    }
    let mut replacer = Replacer::new(seed);
    for left in (0..packets).rev() {
        let packet = replacer.kept(instrument.packet());
        let length = if left == 0 { replacer.random.between(1, 271) as usize } else { PACKET_BYTES };
        out.write_all(&packet[..length])?;
    }
    Ok(())
}

/// Sends a rate packet, eleven sample packets and a beacon packet every minute.
struct Instrument {
    random: Random,
    time: u32,
    frame: u16,
    /// Which of the thirteen comes next.
    next: usize,
    slots: Slots,
}

impl Instrument {
    fn new(seed: u64) -> Instrument {
        let mut random = Random::new(seed);
        let time = random.bits() as u32 >> 2;
        Instrument { random, time, frame: 0, next: 0, slots: [0; SLOTS] }
    }

    fn packet(&mut self) -> Bytes {
        let Instrument { time, frame, next, .. } = *self;
        let mut packet = [0; PACKET_BYTES];
        match next {
            0 => packet = rates::rate(&mut self.random, time, frame),
            12 => packet = rates::old_beacon(&mut self.random, time, frame),
            _ => write_sample(&mut packet, time, frame, next - 1, &self.slots),
        }
        rates::into_first(&mut packet);
        match next {
            0 => self.sample(),
            12 => {
                self.time = time.wrapping_add(60);
                self.frame = frame.wrapping_add(1);
            }
            _ => {}
        }
        self.next = (next + 1) % 13;
        packet
    }

    /// Other samples: some slots from 0 up, or all.
    fn sample(&mut self) {
        let any = self.random.below(SLOTS);
        let used = self.random.pick(&[0, any, SLOTS]);
        self.slots.fill(0);
        for slot in &mut self.slots[..used] {
            let b = self.random.between(6, 116) as u32;
            *slot = self.random.bits() as u32 & !(127 << 1) | b << 1;
        }
    }
}

/// Where packets were damaged, and others came between them.
struct Replacer {
    random: Random,
    tables: Vec<u8>,
}

impl Replacer {
    /// Numbers of its own, so that the instrument's are those of the whole archive.
    fn new(seed: u64) -> Replacer {
        Replacer { random: Random::new(!seed), tables: flight::tables() }
    }

    /// What stands there for the packet that was sent: about one in 50 is damaged or foreign, those
    /// of rates more often than those of samples, since there are fewer of them.
    fn kept(&mut self, sent: Bytes) -> Bytes {
        let rates = !rates::codes_of(&sent).is_empty();
        let in_a_thousand = if rates { 50 } else { 15 };
        if self.random.below(1_000) < in_a_thousand {
            self.damaged(sent)
        } else if rates && self.random.percent(10) {
            self.of_the_second_edition(sent)
        } else {
            sent
        }
    }

    fn damaged(&mut self, mut packet: Bytes) -> Bytes {
        let random = &mut self.random;
        match random.below(5) {
            0 => damage::wrong_sum(random, &mut packet),
            1 => damage::wrong_mark(random, &mut packet),
            2 => damage::wrong_value(random, &mut packet),
            3 => {
                let (i, time) = (random.below(LISTING_PACKETS), random.bits() as u32);
                let tables = self.tables.as_slice().try_into().expect("tables of the right length");
                write_listing(&mut packet, time, random.bits() as u16, i, tables);
            }
            _ => packet.fill_with(|| random.byte()),
        }
        packet
    }

    /// One that was converted already, or one of mark 1 or 2 with any codes.
    fn of_the_second_edition(&mut self, sent: Bytes) -> Bytes {
        let mut packet = sent;
        if self.random.percent(30) {
            to_second(&sent, &mut packet);
        } else {
            let mark = self.random.pick(&[SECOND_MARK, CONVERTED_MARK]);
            rates::recode(&mut self.random, &mut packet, mark);
        }
        packet
    }
}
