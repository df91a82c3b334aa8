//! A processor, and on the ground a gatherer and the converters, with the buffers that the
//! programs lend them, the same ones throughout: tables as read, all others zero at first.

use crate::causes::{Number, BUFFER, FIELD};
use crate::commands::ECHO_BYTES;
use crate::convert;
use crate::gatherer::Gatherer;
use crate::judged;
use crate::limits::within_limits;
use crate::loads::{BITMAP_BYTES, STAGING_BYTES};
use crate::packets::{Bytes, OUTPUT_BYTES, PACKET_BYTES};
use crate::processor::{Closed, Processor};
use crate::sample_counts::EligibleEvents;
use crate::samples::SLOTS;
use crate::sorting::Event;
use crate::tables::TABLE_BYTES;

#[derive(Clone)]
pub struct Station {
    pub processor: Processor,
    pub tables: Vec<u8>,
    pub staging: Vec<u8>,
    /// Which staged bytes are bad.
    pub bitmap: Vec<u8>,
    pub slots: Vec<u32>,
    /// The interval's.
    pub eligible_events: EligibleEvents,
    pub echo: [u8; ECHO_BYTES],
    /// The sum that the last line was answered with.
    pub sum: u32,
    pub output: Vec<u8>,
    /// The listing packet written last.
    pub listed: Bytes,
    pub gatherer: Gatherer,
    /// The gatherer's table buffer.
    pub gathered: Vec<u8>,
    /// The packet converted last.
    pub converted: Bytes,
    /// Whether some state was handed in, so that each call has to judge its limits.
    pub handed: bool,
    /// Whether an event's call also judges the limits of a state that goes by value.
    pub judged: bool,
}

impl Station {
    /// None if the tables are not of the length they must have.
    pub fn new(tables: Vec<u8>) -> Option<Station> {
        (tables.len() == TABLE_BYTES).then(|| Station {
            processor: Processor::FRESH,
            tables,
            staging: vec![0; STAGING_BYTES],
            bitmap: vec![0; BITMAP_BYTES],
            slots: vec![0; SLOTS],
            eligible_events: EligibleEvents::default(),
            echo: [0; ECHO_BYTES],
            sum: 0,
            output: vec![0; OUTPUT_BYTES],
            listed: [0; PACKET_BYTES],
            gatherer: Gatherer::FRESH,
            gathered: vec![0; TABLE_BYTES],
            converted: [0; PACKET_BYTES],
            handed: false,
            judged: false,
        })
    }

    /// Hands in a state, of any numbers.
    pub fn hand_in(&mut self, state: Processor) {
        self.processor = state;
        self.eligible_events = EligibleEvents::after(state.samples);
        self.handed = true;
    }

    /// Hands in the slots, four bytes a word: of what they hold there are no events either.
    pub fn hand_in_slots(&mut self, bytes: &[u8]) {
        self.eligible_events = EligibleEvents::after(self.processor.samples);
        for (slot, word) in self.slots.iter_mut().zip(bytes.chunks_exact(4)) {
            *slot = u32::from_be_bytes(word.try_into().expect("four bytes"));
        }
    }

    /// Cause 1, "a state over a limit". A state that no one handed in is within them.
    fn over_limits(&self) -> bool {
        self.handed && !within_limits(&self.processor)
    }

    #[inline]
    pub fn event(&mut self, event: &Event) -> Number {
        // "a flag byte over 15 is refused by 2": of such a record no call is made.
        if event.flags > 15 {
            return FIELD;
        }
        if self.over_limits() {
            return BUFFER;
        }
        let Station { processor, tables, slots, eligible_events, .. } = self;
        if !self.judged {
            return processor.event(event, tables, slots, eligible_events);
        }
        let (number, next) = judged::event(*processor, event, tables, slots, eligible_events);
        *processor = next;
        number
    }

    pub fn reading(&mut self, counts: &[u16; 8]) -> Number {
        if self.over_limits() {
            return BUFFER;
        }
        self.processor.reading(counts)
    }

    pub fn line(&mut self, line: &[u8]) -> Number {
        if self.over_limits() {
            self.sum = 0;
            return BUFFER;
        }
        let answer = self.processor.line(line, &self.staging, &self.bitmap, &mut self.echo);
        self.sum = answer.sum;
        answer.number
    }

    pub fn package(&mut self, package: &[u8]) -> Number {
        if self.over_limits() {
            return BUFFER;
        }
        let Station { processor, staging, bitmap, echo, .. } = self;
        processor.package(package, staging, bitmap, echo)
    }

    pub fn close(&mut self, time: u32) -> Closed {
        if self.over_limits() {
            return Closed::REFUSED;
        }
        let Station { processor, tables, staging, slots, eligible_events, output, .. } = self;
        processor.close(time, tables, staging, slots, eligible_events, output)
    }

    pub fn listing(&mut self, i: u16, time: u32) -> Number {
        if self.over_limits() {
            return BUFFER;
        }
        self.processor.listing(i, time, &self.tables, &mut self.listed)
    }

    pub fn gather(&mut self, packet: &[u8]) -> Number {
        self.gatherer.gather(packet, &mut self.gathered)
    }

    /// Starts a fresh gatherer with a buffer of zeros.
    pub fn gather_anew(&mut self) {
        self.gatherer = Gatherer::FRESH;
        self.gathered.fill(0);
    }

    pub fn to_second(&mut self, packet: &[u8]) -> Number {
        convert::to_second(packet, &mut self.converted)
    }

    pub fn to_first(&mut self, packet: &[u8]) -> Number {
        convert::to_first(packet, &mut self.converted)
    }
}
