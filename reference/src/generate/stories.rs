//! What happens in a stream: short stories, told in random order.

use crate::calls::{self, Call, Form};
use crate::generate::{damage, flight, lines, Stream};
use crate::processor::{MOST_COMMANDS, MOST_EVENTS, MOST_READINGS};
use crate::samples::SLOTS;
use crate::sorting::Event;

impl Stream {
    /// Tells stories until there are this many calls more, the last one a close.
    /// Some streams then end in a bad record.
    pub fn tell(&mut self, calls: usize) {
        if calls == 0 {
            return;
        }
        self.most = self.calls + calls - 1;
        while self.calls < self.most {
            self.story();
        }
        self.most += 1;
        self.close();
        if self.random.percent(25) {
            self.bad_record();
        }
    }

    fn story(&mut self) {
        if self.states && self.random.percent(15) {
            return self.handed_states();
        }
        match self.random.below(128) {
            0..=29 => self.events_up_to(30),
            30..=36 => self.readings_up_to(4),
            37..=51 => self.lines_up_to(6),
            52..=58 => self.packages_up_to(3),
            59..=67 => self.commit(),
            68..=78 => self.close_and_read(),
            79..=88 => self.damaged_packets(),
            89 => self.readings_to_the_end(),
            90..=91 => self.commands_to_the_end(),
            92..=95 => self.new_offsets(),
            96 => self.staging_to_the_end(),
            97 => self.new_tables(),
            98 => self.busy_interval(),
            99 => self.settings(),
            100..=103 => self.listings_up_to(8),
            104..=108 => self.gather_some(),
            109..=114 => self.overlapping_packages(),
            115 => self.gather_all(),
            _ => self.conversions(),
        }
    }

    // Events.

    /// An event of right fields.
    fn any_event(&mut self) -> Event {
        let random = &mut self.random;
        let flags = if random.percent(85) { flight::flags(random) } else { random.below(16) as u8 };
        match random.below(12) {
            0 => Event {
                t: random.pick(&[0, 1, 510, 511]),
                high: random.pick(&[0, 1, 2_046, 2_047, 2_048, 2_049, 4_095]),
                low: random.pick(&[0, 1, 2_046, 2_047]),
                flags,
            },
            1 => Event { flags, ..flight::background_event(random) },
            _ if self.aimed.is_empty() => {
                let particle = random.pick(&flight::PARTICLES);
                Event { flags, ..flight::particle_event(random, particle) }
            }
            _ => Event { flags, ..random.pick(&self.aimed) },
        }
    }

    /// An event with one field over its range, or more.
    fn wrong_event(&mut self) -> Event {
        let mut event = self.any_event();
        let random = &mut self.random;
        loop {
            match random.below(4) {
                0 => event.t = random.pick(&[512, 513, 1_023, 65_535]),
                1 => event.high = random.pick(&[4_096, 4_097, 8_192, 65_535]),
                2 => event.low = random.pick(&[2_048, 2_049, 4_095, 65_535]),
                _ => event.flags = random.pick(&[16, 17, 24, 31, 128, 255]),
            }
            if random.percent(80) {
                return event;
            }
        }
    }

    pub fn events_up_to(&mut self, most: usize) {
        let events = 1 + self.random.below(most);
        self.events(events);
    }

    pub fn events(&mut self, events: usize) {
        for _ in 0..events {
            let wrong = self.random.percent(3);
            let event = if wrong { self.wrong_event() } else { self.any_event() };
            self.event(event);
        }
    }

    /// Thousands of eligible events: all slots used, then replaced up to LIMHI or less, and more events.
    fn busy_interval(&mut self) {
        self.send_offsets(&[0]);
        let limhi = self.random.pick(&[0, 1, 2, 500, 703, 704]);
        let junk = self.random.below(2);
        self.begin_interval(limhi, junk);
        let some = self.random.below(limhi + 1);
        let stops = [(SLOTS - 1, 0), (SLOTS, 0), (SLOTS, some), (SLOTS, limhi), (SLOTS, limhi)];
        let (used, replaced) = self.random.pick(&stops);
        self.events_until(used, replaced, 3_000);
        if self.random.percent(50) {
            self.events_up_to(200);
        }
        self.close();
        self.read_all();
    }

    /// An interval with these settings begins.
    fn begin_interval(&mut self, limhi: usize, junk: usize) {
        self.line(format!("limhi {limhi:x}"));
        self.line(format!("junk {junk}"));
        self.close();
    }

    /// Events until so many slots are used and replaced, but no more than `most`.
    fn events_until(&mut self, used: usize, replaced: usize, most: usize) {
        for _ in 0..most {
            let samples = self.station.processor.samples;
            if samples.used >= used && samples.replaced >= replaced {
                return;
            }
            let event = self.any_event();
            self.event(event);
        }
    }

    /// Full slots and events after them, with and without junk: LIMHI 0 to 704, reached and not.
    pub fn every_busy_interval(&mut self) {
        self.most = usize::MAX;
        for (limhi, replaced) in [(0, 0), (1, 0), (1, 1), (500, 250), (500, 500), (704, 352), (704, 704)]
        {
            for (junk, more) in [(0, 0), (0, 100), (1, 0), (1, 100)] {
                self.begin_interval(limhi, junk);
                self.events_until(SLOTS, replaced, 20_000);
                self.events(more);
                self.close();
                self.read_all();
            }
        }
    }

    /// One interval of 1,000,000 events, and events after it.
    pub fn million(&mut self) {
        self.most = usize::MAX;
        while self.station.processor.taken < MOST_EVENTS {
            let wrong = self.random.below(1_000) == 0;
            let event = if wrong { self.wrong_event() } else { self.any_event() };
            self.event(event);
        }
        for _ in 0..20 {
            let wrong = self.random.percent(20);
            let event = if wrong { self.wrong_event() } else { self.any_event() };
            self.event(event);
        }
        self.readings_up_to(3);
        self.close();
        self.read_all();
        self.events_up_to(10);
    }

    /// Intervals with all slots filled, each closed.
    /// `closed`: whether their closes stand in the stream.
    pub fn full_intervals(&mut self, intervals: usize, closed: bool) {
        self.most = usize::MAX;
        for _ in 0..intervals {
            while self.station.processor.samples.used < SLOTS
                && self.station.processor.taken < MOST_EVENTS
            {
                let event = self.any_event();
                self.event(event);
            }
            let end = self.bytes.len();
            self.close();
            if !closed {
                self.bytes.truncate(end);
            }
        }
    }

    /// Intervals in which nothing happens: the frame number passes its limits.
    pub fn empty_intervals(&mut self, intervals: usize) {
        self.most = usize::MAX;
        (0..intervals).for_each(|_| self.close());
    }

    // Readings.

    fn reading(&mut self) {
        let kind = self.random.below(6);
        let random = &mut self.random;
        let counts = std::array::from_fn(|_| match kind {
            0 => 65_535,
            1 => random.pick(&[0, 1, 4_095, 4_096, 65_535]),
            2 => random.below(100) as u16,
            _ => random.bits() as u16,
        });
        self.call(Call::Reading(counts));
    }

    fn readings_up_to(&mut self, most: usize) {
        (0..=self.random.below(most)).for_each(|_| self.reading());
    }

    fn readings_to_the_end(&mut self) {
        let more = self.random.between(0, 3) as u32;
        let left = MOST_READINGS - self.station.processor.readings;
        (0..left + more).for_each(|_| self.reading());
    }

    // Lines.

    fn lines_up_to(&mut self, most: usize) {
        (0..=self.random.below(most)).for_each(|_| self.line_of(lines::any));
    }

    /// 32 commands in a frame, and more lines after them.
    fn commands_to_the_end(&mut self) {
        self.small_package();
        for _ in 0..2 * MOST_COMMANDS {
            if self.station.processor.accepted == MOST_COMMANDS {
                break;
            }
            self.line_of(lines::right);
        }
        self.lines_up_to(6);
        self.asks_and_commits();
        self.line("");
    }

    /// Settings that decide what becomes of events, then a close.
    fn settings(&mut self) {
        for keyword in ["eonly", "toferror", "junk"] {
            let value = self.random.below(2);
            self.line(format!("{keyword} {value}"));
        }
        self.close();
    }

    // Packets.

    fn read_all(&mut self) {
        for k in 0..13 {
            let packet = self.written(k);
            self.call(Call::Packet(packet.to_vec()));
        }
    }

    fn close_and_read(&mut self) {
        self.close();
        for k in 0..13 {
            if self.random.percent(25) {
                let packet = self.written(k);
                self.call(Call::Packet(packet.to_vec()));
            }
        }
    }

    fn damaged_packets(&mut self) {
        for _ in 0..=self.random.below(12) {
            let any = self.random.below(13);
            let k = self.random.pick(&[0, 12, any]);
            let written = self.written(k);
            let packet = match self.random.below(20) {
                0 => self.listing_to_read(), // refused by 11
                _ => damage::changed(&mut self.random, written),
            };
            self.call(Call::Packet(packet));
        }
    }

    // The end.

    /// An unknown kind, a body that is too short, bytes that are no state, or slots of another length.
    fn bad_record(&mut self) {
        if self.random.percent(30) {
            let minute: &[u8] = &[0, 5, 6, 7, 8, 9, 10, 11, 20, 21, 22, 255];
            let kinds = if self.form == Form::Minute { minute } else { &[0, 12, 19, 23, 255] };
            self.bytes.push(self.random.pick(kinds));
            return;
        }
        if self.states && self.random.percent(40) {
            return self.no_state();
        }
        let call = match self.random.below(10) {
            0 => Call::Event(self.any_event()),
            1 => Call::Reading([1; 8]),
            2 => Call::Close(60),
            3 => Call::Package(vec![0, 2, 0, 0]),
            4 => Call::Packet(self.written(0).to_vec()),
            5 => Call::Listing(0, 60),
            6 => Call::Gather(self.station.listed.to_vec()),
            7 => Call::ToSecond(self.station.converted.to_vec()),
            8 => Call::ToFirst(self.station.converted.to_vec()),
            _ => Call::Line(b"hv 1".to_vec()),
        };
        let from = self.bytes.len();
        if calls::write(&call, self.form, &mut self.bytes) {
            let record = self.bytes.len() - from;
            let any = 1 + self.random.below(record - 1);
            self.bytes.truncate(from + self.random.pick(&[any, any, record - 1]));
        }
    }
}

/// A minute with protons, helium, oxygen and iron and some background over realistic
/// tables: in each second events and then a reading, at the end one close. The stream has
/// no lines, so `minute` and `replay` read it alike.
pub fn example() -> Stream {
    let mut stream = Stream::new(2, Form::Minute);
    let kinds = [(flight::PROTON, 60), (flight::HELIUM, 25), (flight::OXYGEN, 10), (flight::IRON, 5)];
    for _ in 0..60 {
        let before = stream.calls;
        for (particle, a_second) in kinds {
            for _ in 0..stream.random.between(a_second / 2, a_second + a_second / 2) {
                let event = flight::particle_event(&mut stream.random, particle);
                stream.event(event);
            }
        }
        for _ in 0..stream.random.below(5) {
            let event = flight::background_event(&mut stream.random);
            stream.event(event);
        }
        let valid = (stream.calls - before) as u16;
        let start = 300 * valid / 8; // prescaled by 8 (000, Table 2)
        stream.call(Call::Reading([start, 12 * valid, valid, 9 * valid, valid, 1_000, 60, 1]));
    }
    stream.call(Call::Close(60));
    stream
}
