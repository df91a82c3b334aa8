//! The processor calls over one state: document 01's five, and document 02's listing. Each
//! answers with a number, 0 when it was carried out; the buffers are lent to each call. So is the
//! list of the interval's eligible events: a state that is handed in has numbers without events.

use crate::causes::*;
use crate::commands::*;
use crate::listing::*;
use crate::loads::*;
use crate::packets::*;
use crate::sample_counts::{EligibleEvents, SampleCounts};
use crate::samples::*;
use crate::sorting::*;
use crate::tables::{self, Tables};

pub const MOST_EVENTS: u32 = 1_000_000;
pub const MOST_READINGS: u32 = 60;
pub const MOST_COMMANDS: usize = 32;

#[derive(Clone, Copy, Debug, PartialEq, Eq)]
pub struct Processor {
    pub frame: u16,
    pub taken: u32,
    pub counts: Counts,
    pub samples: Samples,
    pub readings: u32,
    pub totals: [u32; 8],
    pub settings: Settings,
    /// Commands accepted in this frame.
    pub accepted: usize,
    /// The first `waits` of them wait until close, in order. Anyone may hand a state in, so all
    /// of this can be any numbers; `limits` judges them.
    pub waiting: [Waiting; MOST_COMMANDS],
    pub waits: usize,
    pub addresses: Addresses,
}

/// What a line returns beside its echo.
#[derive(Clone, Copy, Debug, PartialEq, Eq)]
pub struct LineAnswer {
    pub number: Number,
    /// An accepted ask's sum of the staged bytes; 0 of every other line.
    pub sum: u32,
}

/// What close returns; all zero if it is refused.
#[derive(Clone, Copy, Debug)]
pub struct Closed {
    pub number: Number,
    pub taken: u32,
    pub counts: Counts,
    pub filled: usize,
    pub sample_counts: SampleCounts,
}

impl Closed {
    pub const REFUSED: Closed = Closed {
        number: BUFFER,
        taken: 0,
        counts: Counts::ZERO,
        filled: 0,
        sample_counts: SampleCounts::NONE,
    };
}

/// "at close, each slot zero or of box 6 to 116": the box is in bits 7 to 1.
pub fn slot_within(slot: u32) -> bool {
    (slot == 0) | (6..=116).contains(&(slot >> 1 & 0x7F))
}

impl Processor {
    /// "Fresh".
    pub const FRESH: Processor = Processor {
        frame: 0,
        taken: 0,
        counts: Counts::ZERO,
        samples: Samples::NONE,
        readings: 0,
        totals: [0; 8],
        settings: Settings::FRESH,
        accepted: 0,
        waiting: [Waiting::EMPTY; MOST_COMMANDS],
        waits: 0,
        addresses: Addresses::ZERO,
    };

    /// One event.
    #[inline]
    pub fn event(
        &mut self,
        event: &Event,
        tables: &[u8],
        slots: &mut [u32],
        eligible_events: &mut EligibleEvents,
    ) -> Number {
        let (Ok(tables), Ok(slots)) = (<&Tables>::try_from(tables), <&mut Slots>::try_from(slots))
        else {
            return BUFFER;
        };
        if !event.in_range() {
            return FIELD;
        }
        if self.taken >= MOST_EVENTS {
            return FULL;
        }
        self.taken += 1;
        let sorted = sort(event, tables, &self.settings);
        self.counts.count(sorted.as_ref());
        if let Some(s) = sorted {
            if eligible(s.b, self.settings.junk) {
                let record = record(event, &s);
                self.samples.offer(slots, record, s.priority, self.settings.limhi);
                eligible_events.add(s.priority);
                self.samples.eligible = eligible_events.number();
            }
        }
        DONE
    }

    /// One second reading: eight counts join the eight totals.
    pub fn reading(&mut self, counts: &[u16; 8]) -> Number {
        if self.readings >= MOST_READINGS {
            return FULL;
        }
        self.readings += 1;
        for (total, count) in self.totals.iter_mut().zip(counts) {
            *total += *count as u32;
        }
        DONE
    }

    /// One command line.
    pub fn line(&mut self, line: &[u8], staging: &[u8], bitmap: &[u8], echo: &mut [u8]) -> LineAnswer {
        let alone = |number| LineAnswer { number, sum: 0 };
        let (Ok(staging), Ok(bitmap), Ok(echo)) =
            (<&Staging>::try_from(staging), <&Bitmap>::try_from(bitmap), <&mut Echo>::try_from(echo))
        else {
            return alone(BUFFER);
        };
        if !printable(line) {
            return alone(LINE);
        }
        if line.is_empty() {
            echo_empty(echo);
            return alone(DONE);
        }
        match self.judge(line, staging, bitmap) {
            Ok(command) => {
                echo_accepted(echo, self.frame, self.accepted, line);
                LineAnswer { number: DONE, sum: self.accept(command, staging) }
            }
            Err(number) => {
                echo_refused(echo, line);
                alone(number)
            }
        }
    }

    /// Whether one of those that wait is a commit.
    pub fn commit_waits(&self) -> bool {
        self.waiting.iter().take(self.waits).any(Waiting::is_load)
    }

    /// The command of a line that is not empty, or 5, 6, 7, 15 or 16.
    fn judge(&self, line: &[u8], staging: &Staging, bitmap: &Bitmap) -> Result<Command, Number> {
        let reach = self.addresses.reach;
        let command = command(line, reach).ok_or(COMMAND)?;
        if self.commit_waits() && command.is_about_staging() {
            return Err(COMMIT_WAITS);
        }
        if self.accepted >= MOST_COMMANDS {
            return Err(COMMANDS_FULL);
        }
        if matches!(command, Command::Ask(_) | Command::Commit(..)) && any_bad(bitmap, reach) {
            return Err(STAGED_BAD);
        }
        match command {
            Command::Commit(_, sum) if sum != staged_sum(staging, reach) => Err(COMMIT_SUM),
            _ => Ok(command),
        }
    }

    /// Counts the command, and carries it out or lets it wait. The sum if it asks for one, or 0.
    fn accept(&mut self, command: Command, staging: &Staging) -> u32 {
        self.accepted += 1;
        match command {
            Command::LoadZero => self.addresses = Addresses::ZERO,
            Command::LoadAt(address) => self.addresses.next = address,
            Command::Ask(_) => return staged_sum(staging, self.addresses.reach),
            _ => {
                if let Some(waiting) = Waiting::of(command) {
                    self.waiting[self.waits] = waiting;
                    self.waits += 1;
                }
            }
        }
        0
    }

    /// One load package.
    pub fn package(
        &mut self,
        package: &[u8],
        staging: &mut [u8],
        bitmap: &mut [u8],
        echo: &mut [u8],
    ) -> Number {
        let (Ok(staging), Ok(bitmap), Ok(echo)) = (
            <&mut Staging>::try_from(staging),
            <&mut Bitmap>::try_from(bitmap),
            <&mut Echo>::try_from(echo),
        ) else {
            return BUFFER;
        };
        if self.commit_waits() {
            return COMMIT_WAITS;
        }
        match self.addresses.place(package, staging, bitmap) {
            Ok(p) => {
                echo_package(echo, p.address, p.bytes, p.received, p.computed);
                if p.received == p.computed {
                    DONE
                } else {
                    PACKAGE_SUM
                }
            }
            Err(number) => number,
        }
    }

    /// Ends the interval: packets from its settings and tables, then the waiting commands
    /// in order, then counts and slots become zero and the frame number rises.
    pub fn close(
        &mut self,
        time: u32,
        tables: &mut [u8],
        staging: &[u8],
        slots: &mut [u32],
        eligible_events: &mut EligibleEvents,
        output: &mut [u8],
    ) -> Closed {
        let (Ok(tables), Ok(staging), Ok(slots), Ok(output)) = (
            <&mut Tables>::try_from(tables),
            <&Staging>::try_from(staging),
            <&mut Slots>::try_from(slots),
            <&mut [u8; OUTPUT_BYTES]>::try_from(output),
        ) else {
            return Closed::REFUSED;
        };
        // Without an early exit the compiler judges several slots at once.
        if !slots.iter().fold(true, |all, slot| all & slot_within(*slot)) {
            return Closed::REFUSED;
        }
        let closed = self.closed(slots, eligible_events);
        self.write_packets(time, tables, slots, &closed.sample_counts, output);
        self.run_waiting(tables, staging);
        slots.fill(0);
        eligible_events.clear();
        *self = Processor {
            frame: self.frame.wrapping_add(1),
            settings: self.settings,
            addresses: self.addresses,
            ..Processor::FRESH
        };
        closed
    }

    /// What a close returns that is carried out.
    fn closed(&self, slots: &Slots, eligible_events: &EligibleEvents) -> Closed {
        let filled = slots.iter().filter(|slot| **slot != 0).count();
        let sample_counts = eligible_events.sample_counts(self.settings.limhi, filled);
        // The list says what the state says.
        debug_assert_eq!(sample_counts.eligible as usize, self.samples.eligible);
        debug_assert_eq!(sample_counts.replaced as usize, self.samples.replaced);
        Closed { number: DONE, taken: self.taken, counts: self.counts, filled, sample_counts }
    }

    /// Writes listing packet i of the tables (document 02, Point 1); nothing aboard changes.
    pub fn listing(&self, i: u16, time: u32, tables: &[u8], out: &mut [u8]) -> Number {
        let (Ok(tables), PACKET_BYTES) = (<&Tables>::try_from(tables), out.len()) else {
            return BUFFER;
        };
        let i = i as usize;
        if i >= LISTING_PACKETS {
            return LISTING_ADDRESS;
        }
        write_listing(out, time, self.frame, i, tables);
        DONE
    }

    /// Rate, samples 0 to 10, beacon.
    fn write_packets(
        &self,
        time: u32,
        tables: &Tables,
        slots: &Slots,
        sample_counts: &SampleCounts,
        output: &mut [u8; OUTPUT_BYTES],
    ) {
        let table_sum = tables::sum(tables);
        for (k, packet) in output.chunks_exact_mut(PACKET_BYTES).enumerate() {
            match k {
                0 => write_rate(
                    packet,
                    time,
                    self.frame,
                    &self.totals,
                    &self.counts,
                    &self.settings,
                    table_sum,
                ),
                12 => write_beacon(packet, time, self.frame, &self.counts, sample_counts),
                _ => write_sample(packet, time, self.frame, k - 1, slots),
            }
        }
    }

    /// Runs the waiting commands, in order.
    fn run_waiting(&mut self, tables: &mut Tables, staging: &Staging) {
        for waiting in self.waiting.into_iter().take(self.waits) {
            if let Some(command) = waiting.given(self.addresses.reach) {
                self.run(command, tables, staging);
            }
        }
    }

    fn run(&mut self, command: Command, tables: &mut Tables, staging: &Staging) {
        let settings = &mut self.settings;
        match command {
            Command::Limhi(value) => settings.limhi = value,
            Command::Eonly(value) => settings.eonly = value,
            Command::Toferror(value) => settings.toferror = value,
            Command::Junk(value) => settings.junk = value,
            Command::Hv(value) => settings.hv = value,
            Command::Hvstep(value) => settings.hvstep = value,
            Command::Commit(load, _) => {
                load.run(&staging[..self.addresses.reach], tables);
                self.addresses = Addresses::ZERO;
            }
            Command::LoadZero | Command::LoadAt(_) | Command::Ask(_) => {} // never waits
        }
    }
}

#[cfg(test)]
mod tests {
    use super::*;
    use crate::station::Station;
    use crate::tables::{position, set_word, KHI, KLO, MATRIX, TABLE_BYTES};

    /// All words zero but the cell that such tables lead to: u = 65,536, so f_m = 18, and
    /// f_e = 360,448 / 4,096 = 88.
    fn station(cell: [u8; 3]) -> Station {
        let mut tables = vec![0; TABLE_BYTES];
        tables[position(MATRIX + 128 * 18 + 88)..][..3].copy_from_slice(&cell);
        Station::new(tables).unwrap()
    }

    const STOP: Event = Event { t: 5, high: 100, low: 0, flags: VALID_STOP };
    const NO_STOP: Event = Event { flags: 0, ..STOP };

    fn echo(station: &Station) -> String {
        let text = station.echo.split(|byte| *byte == 0).next().unwrap();
        String::from_utf8(text.to_vec()).unwrap()
    }

    fn package(station: &mut Station, bytes: &[u8]) -> Number {
        let sum: u16 = bytes.iter().map(|byte| *byte as u16).sum();
        let n = bytes.len() as u16 + 2;
        station.package(&[&n.to_be_bytes()[..], bytes, &sum.to_be_bytes()].concat())
    }

    #[test]
    fn boxes_and_beacons_of_an_interval() {
        let mut station = station([128 + 60, 12, 99]);
        station.event(&STOP);
        station.event(&STOP);
        station.event(&NO_STOP);
        station.event(&Event { high: 4_095, ..STOP });
        let closed = station.close(0);
        let mut counts = Counts::ZERO;
        counts.boxes[5] = 1;
        counts.boxes[3] = 2;
        counts.boxes[4] = 1;
        counts.boxes[2] = 3;
        counts.boxes[60] = 3;
        counts.beacons[12] = 3;
        assert_eq!((closed.taken, closed.counts, closed.filled), (4, counts, 3));
        let closed = station.close(0);
        assert_eq!((closed.taken, closed.counts, closed.filled), (0, Counts::ZERO, 0));
    }

    #[test]
    fn a_beacon_counts_for_box_7_too() {
        let mut station = station([0, 3, 0]);
        station.event(&STOP);
        let closed = station.close(0);
        assert_eq!([1, 2, 3, 7].map(|b| closed.counts.boxes[b]), [1, 0, 1, 1]);
        assert_eq!(closed.counts.beacons[3], 1);
        assert_eq!(closed.filled, 0); // junk is 0
    }

    #[test]
    fn fields_over_their_range() {
        let mut station = station([8, 0, 0]);
        for wrong in [
            Event { t: 512, ..STOP },
            Event { high: 4_096, ..STOP },
            Event { low: 2_048, ..STOP },
            Event { flags: 16, ..STOP },
        ] {
            assert_eq!(station.event(&wrong), FIELD);
        }
        assert_eq!(station.event(&Event { t: 511, high: 4_095, low: 2_047, flags: 15 }), DONE);
        assert_eq!(station.processor.taken, 1);
    }

    #[test]
    fn an_interval_takes_a_million_events() {
        let mut station = station([8, 0, 0]);
        for _ in 0..1_000_000 {
            assert_eq!(station.event(&NO_STOP), DONE);
        }
        assert_eq!(station.event(&NO_STOP), FULL);
        assert_eq!(station.event(&Event { t: 512, ..STOP }), FIELD);
        let closed = station.close(0);
        assert_eq!((closed.taken, closed.counts.boxes[5]), (1_000_000, 1_000_000));
        assert_eq!(station.output[35..37], [0x8E, 0x84]); // box 5 of the rate packet
        assert_eq!(station.event(&NO_STOP), DONE);
    }

    #[test]
    fn an_interval_takes_60_readings() {
        let mut station = station([8, 0, 0]);
        for _ in 0..60 {
            assert_eq!(station.reading(&[65_535, 1, 0, 0, 0, 0, 0, 2]), DONE);
        }
        assert_eq!(station.reading(&[1; 8]), FULL);
        assert_eq!(station.processor.totals, [3_932_100, 60, 0, 0, 0, 0, 0, 120]);
        station.close(0);
        assert_eq!(station.reading(&[1; 8]), DONE);
        assert_eq!(station.processor.totals, [1; 8]);
    }

    #[test]
    fn commands_wait_until_close() {
        let mut station = station([7, 0, 0]);
        assert_eq!(station.line(b"junk 1"), DONE);
        assert_eq!(echo(&station), "0000 junk 1\r\nSIT> ");
        assert_eq!(station.line(b"limhi 2c0"), DONE);
        assert_eq!(station.line(b"limhi 1"), DONE);
        assert_eq!(echo(&station), "0002 limhi 1\r\nSIT> ");
        station.event(&STOP);
        assert_eq!(station.close(0).filled, 0);
        assert_eq!(station.output[261..264], [0, 0x01, 0xF4]); // LIMHI 500
        station.event(&STOP);
        assert_eq!(station.line(b"hv 0"), DONE);
        assert_eq!(echo(&station), "0100 hv 0\r\nSIT> ");
        assert_eq!(station.close(0).filled, 1);
        assert_eq!(station.output[261..264], [16, 0, 1]);
    }

    #[test]
    fn thirty_two_commands_a_frame() {
        let mut station = station([8, 0, 0]);
        for i in 0..32 {
            assert_eq!(station.line(if i % 2 == 0 { b"loadat 0" } else { b"hvstep a" }), DONE);
        }
        assert_eq!(echo(&station), "001f hvstep a\r\nSIT> ");
        assert_eq!(station.line(b"hvstep b"), COMMANDS_FULL);
        assert_eq!(echo(&station), "hvstep b?\r\nSIT> ");
        assert_eq!(station.line(b"load 0"), COMMANDS_FULL);
        assert_eq!(station.line(b"hvstep"), COMMAND);
        assert_eq!(station.line(b""), DONE);
        assert_eq!(echo(&station), "SIT> ");
        assert_eq!(package(&mut station, &[1]), DONE);
        station.close(0);
        assert_eq!(station.line(b"hvstep b"), DONE);
    }

    #[test]
    fn a_line_refused_by_4_leaves_the_echo() {
        let mut station = station([8, 0, 0]);
        station.line(b"");
        assert_eq!(station.line(&[32; 81]), LINE);
        assert_eq!(station.line(b"hv\t1"), LINE);
        assert_eq!(echo(&station), "SIT> ");
    }

    #[test]
    fn a_waiting_commit() {
        let mut station = station([128 + 60, 1, 0]);
        assert_eq!(station.line(b"commit c200 0 0"), COMMAND); // reach 0
        assert_eq!(package(&mut station, &[1, 0, 1]), DONE);
        assert_eq!(echo(&station), "binary A:00000000 N:00000003 OK\r\nSIT> ");
        assert_eq!(station.line(b"load c200 0"), COMMAND); // no longer a command
        assert_eq!(station.line(b"commit c200 0 2"), DONE);
        assert_eq!((echo(&station), station.sum), ("0000 commit c200 0 2\r\nSIT> ".into(), 0));
        for line in
            ["commit c200 0 2", "commit c200 0 3", "ask c200 0", "load 0", "loadat 0", "loadat 3"]
        {
            assert_eq!(station.line(line.as_bytes()), COMMIT_WAITS);
            assert_eq!((echo(&station), station.sum), (format!("{line}?\r\nSIT> "), 0));
        }
        for line in ["load 1", "loadat 4", "ask 6fff 0", "commit c200 3 2", "load c200 0"] {
            assert_eq!(station.line(line.as_bytes()), COMMAND);
        }
        assert_eq!(station.line(b"hv 1"), DONE);
        for any in [&[][..], &[0, 2, 0, 0], &[0, 3, 0, 0, 1]] {
            assert_eq!(station.package(any), COMMIT_WAITS);
        }
        assert_eq!(echo(&station), "0001 hv 1\r\nSIT> ");
        // Khi becomes 65,537, so u -1: out of bounds, but only after the close.
        station.event(&STOP);
        let closed = station.close(0);
        assert_eq!((closed.counts.boxes[60], closed.counts.boxes[6]), (1, 0));
        let cell_sum = (128 + 60) << 16 | 1 << 8;
        assert_eq!(station.output[264..267], u32::to_be_bytes(cell_sum)[1..]);
        station.event(&STOP);
        let closed = station.close(0);
        assert_eq!((closed.counts.boxes[60], closed.counts.boxes[6]), (0, 1));
        assert_eq!(station.processor.addresses, Addresses::ZERO);
        let mut tables: Tables = station.tables.try_into().unwrap();
        assert_eq!(tables::word(&tables, KHI), 65_537);
        set_word(&mut tables, KHI, 0);
        assert_eq!(tables::sum(&tables), cell_sum);
    }

    #[test]
    fn an_ask_changes_only_echo_and_sequence() {
        let mut station = station([8, 0, 0]);
        package(&mut station, &[255, 255, 2]);
        let before = station.clone();
        assert_eq!(station.line(b"ask c200 0"), DONE);
        assert_eq!((echo(&station), station.sum), ("0000 ask c200 0\r\nSIT> ".into(), 512));
        assert_eq!(station.line(b"ask 7000 1"), DONE);
        assert_eq!((echo(&station), station.sum), ("0001 ask 7000 1\r\nSIT> ".into(), 512));
        let counted = Processor { accepted: 2, ..before.processor };
        assert_eq!(format!("{:?}", station.processor), format!("{counted:?}"));
        assert_eq!((&station.staging, &station.bitmap), (&before.staging, &before.bitmap));
        // Every other line answers with the sum 0.
        for line in ["", "hv 1", "commit c200 0 200", "ask c200 0"] {
            station.line(line.as_bytes());
            assert_eq!(station.sum, 0, "{line:?}");
        }
        station.close(0);
        let words = &station.tables[position(KHI)..];
        assert_eq!(words[..6], [255, 255, 2, 0, 0, 0]);
    }

    #[test]
    fn asks_and_commits_count_among_the_32() {
        let mut station = station([8, 0, 0]);
        package(&mut station, &[1]);
        for _ in 0..31 {
            assert_eq!(station.line(b"ask 7000 0"), DONE);
        }
        assert_eq!(station.line(b"commit 7000 0 1"), DONE);
        assert_eq!(echo(&station), "001f commit 7000 0 1\r\nSIT> ");
        assert_eq!(station.line(b"hv 1"), COMMANDS_FULL);
        assert_eq!(station.line(b"ask 7000 0"), COMMIT_WAITS);
        station.close(0);
        assert_eq!(station.tables[..3], [1, 0, 0]);
        // 32 again; then 7 comes before 15 and 16.
        assert_eq!(station.package(&[0, 3, 1, 0, 2]), PACKAGE_SUM);
        assert_eq!(station.line(b"commit 7000 0 2"), STAGED_BAD);
        for _ in 0..32 {
            assert_eq!(station.line(b"hv 1"), DONE);
        }
        for line in ["ask 7000 0", "commit 7000 0 1", "commit 7000 0 2"] {
            assert_eq!(station.line(line.as_bytes()), COMMANDS_FULL);
            assert_eq!((echo(&station), station.sum), (format!("{line}?\r\nSIT> "), 0));
        }
    }

    #[test]
    fn a_bad_byte_is_15_until_a_right_package_writes_it() {
        let mut station = station([8, 0, 0]);
        assert_eq!(package(&mut station, &[1, 2]), DONE);
        assert_eq!(station.package(&[0, 4, 3, 4, 0, 8]), PACKAGE_SUM);
        let asked = |station: &mut Station, numbers: [Number; 3]| {
            let lines = ["ask 7000 0", "commit 7000 0 ff", "commit 7000 0 11"];
            for (line, number) in lines.iter().zip(numbers) {
                assert_eq!(station.line(line.as_bytes()), number);
                if number != DONE {
                    assert_eq!((echo(station), station.sum), (format!("{line}?\r\nSIT> "), 0));
                }
            }
        };
        asked(&mut station, [STAGED_BAD; 3]);
        station.line(b"loadat 2");
        package(&mut station, &[5]); // byte 3 is still bad
        asked(&mut station, [STAGED_BAD; 3]);
        package(&mut station, &[9]); // 1 + 2 + 5 + 9 = 17, 11 hex
        asked(&mut station, [DONE, COMMIT_SUM, DONE]);
        station.close(0);
        assert_eq!(station.tables[..7], [1, 2, 5, 9, 0, 0, 0]);
    }

    #[test]
    fn bits_from_the_reach_on_mean_nothing() {
        let mut station = station([8, 0, 0]);
        station.bitmap.fill(255);
        assert_eq!(package(&mut station, &[7, 7]), DONE);
        assert_eq!(station.bitmap[..2], [0b1111_1100, 255]);
        assert_eq!(station.line(b"ask 7000 0"), DONE);
        assert_eq!(station.sum, 14);
        // After a reset the bytes below the reach are written again, whatever bits are left.
        assert_eq!(station.package(&[0, 4, 1, 1, 0, 1]), PACKAGE_SUM);
        assert_eq!(station.line(b"ask 7000 0"), STAGED_BAD);
        assert_eq!(station.line(b"load 0"), DONE);
        assert_eq!(station.line(b"ask 7000 0"), COMMAND);
        assert_eq!(package(&mut station, &[1, 2, 3]), DONE);
        assert_eq!(station.bitmap[..2], [0b1111_1000, 255]);
        assert_eq!(station.line(b"commit 7000 0 6"), DONE);
    }

    #[test]
    fn a_package_with_a_wrong_sum_is_placed() {
        let mut station = station([8, 0, 0]);
        assert_eq!(station.package(&[0, 4, 1, 2, 0, 4]), PACKAGE_SUM);
        assert_eq!(echo(&station), "binary A:00000000 N:00000002 ckserr 00000004 00000003\r\nSIT> ");
        assert_eq!(station.processor.addresses, Addresses { next: 2, reach: 2 });
        assert_eq!(station.staging[..2], [1, 2]);
        assert_eq!(station.bitmap[0], 0b11);
        assert_eq!(station.line(b"loadat 1"), DONE);
        assert_eq!(package(&mut station, &[9]), DONE);
        assert_eq!(echo(&station), "binary A:00000001 N:00000001 OK\r\nSIT> ");
        assert_eq!(station.bitmap[0], 0b01);
        assert_eq!(station.package(&[0, 2, 0, 1]), PACKAGE_SUM); // of no bytes
        assert_eq!(station.bitmap[0], 0b01);
        assert_eq!(station.line(b"load 0"), DONE);
        assert_eq!(station.processor.addresses, Addresses::ZERO);
        assert_eq!(station.package(&[0, 3, 1]), PACKAGE);
        assert_eq!(echo(&station), "0001 load 0\r\nSIT> ");
        assert_eq!(station.bitmap[0], 0b01);
    }

    #[test]
    fn slots_at_a_close() {
        let boxes = [5, 6, 116, 117, 127].map(|b| slot_within(0xFFFF_FF01 | b << 1));
        assert_eq!(boxes, [false, true, true, false, false]);
        assert!(slot_within(0) && !slot_within(1));
        let mut station = station([8, 0, 0]);
        station.slots[703] = 5 << 1;
        assert_eq!((station.event(&STOP), station.close(0).number), (DONE, BUFFER));
        assert_eq!((station.processor.taken, station.slots[703]), (1, 10));
    }

    fn send(station: &mut Station, event: &Event, times: usize) {
        (0..times).for_each(|_| assert_eq!(station.event(event), DONE));
    }

    /// Eligible, replaced and dropped, by a close that is carried out.
    fn sample_counts(station: &mut Station) -> [u32; 3] {
        let closed = station.close(0);
        assert_eq!(closed.number, DONE);
        closed.sample_counts.in_order()
    }

    #[test]
    fn events_after_the_704th_replace_or_are_dropped() {
        let mut station = station([128 + 60, 0, 0]);
        send(&mut station, &STOP, 704);
        assert_eq!(sample_counts(&mut station.clone()), [704, 0, 0]);
        send(&mut station, &STOP, 500);
        assert_eq!(sample_counts(&mut station.clone()), [1_204, 500, 0]);
        send(&mut station, &STOP, 100);
        send(&mut station, &NO_STOP, 1); // discarded, which is not dropped
        assert_eq!(sample_counts(&mut station), [1_304, 500, 100]);
        // 1,304 is 518 hex, 500 1F4, 100 64; the beacon packet is the last of thirteen.
        assert_eq!(station.output[12 * 272 + 35..][..7], [0x05, 0x18, 0x01, 0xF4, 0, 0x64, 0]);
        assert_eq!(sample_counts(&mut station), [0; 3]);
        assert_eq!(station.output[12 * 272 + 35..][..7], [0; 7]);
    }

    /// Gain 0 is box 60 with priority 1. By Klo gain 1 has u 0, so column 0: box 61 with priority 0.
    fn of_both_priorities() -> Station {
        let mut station = station([128 + 60, 0, 0]);
        let tables = <&mut Tables>::try_from(&mut station.tables[..]).unwrap();
        set_word(tables, KLO, 65_536);
        set_word(tables, MATRIX + 88, 61 << 16);
        station
    }

    const LOW: Event = Event { high: 4_095, ..STOP };

    #[test]
    fn limhi_and_priority_decide_who_replaces() {
        for (limhi, replaced, dropped) in [(0, 0, 5), (2, 2, 3), (3, 3, 2), (704, 3, 2)] {
            let mut station = of_both_priorities();
            station.line(format!("limhi {limhi:x}").as_bytes());
            station.close(0);
            // The priority of the first 704 does not matter.
            send(&mut station, &STOP, 300);
            send(&mut station, &LOW, 404);
            for late in [STOP, LOW, STOP, STOP, LOW] {
                send(&mut station, &late, 1);
            }
            assert_eq!(sample_counts(&mut station), [709, replaced, dropped], "LIMHI {limhi}");
        }
    }

    #[test]
    fn every_slot_replaced_and_one_event_more() {
        let mut station = of_both_priorities();
        station.line(b"limhi 2c0");
        station.close(0);
        send(&mut station, &LOW, 704);
        send(&mut station, &STOP, 704);
        assert_eq!(sample_counts(&mut station.clone()), [1_408, 704, 0]);
        send(&mut station, &STOP, 1);
        assert_eq!(sample_counts(&mut station), [1_409, 704, 1]);
    }

    #[test]
    fn boxes_6_and_7_are_eligible_with_junk_alone() {
        let mut station = station([128 + 7, 0, 0]);
        let tables = <&mut Tables>::try_from(&mut station.tables[..]).unwrap();
        set_word(tables, KLO, 65_537); // gain 1 has u -1: out of bounds
        station.line(b"junk 1");
        station.line(b"limhi 1");
        send(&mut station, &STOP, 800);
        assert_eq!(sample_counts(&mut station), [0; 3]);
        send(&mut station, &LOW, 4);
        send(&mut station, &STOP, 700);
        for late in [LOW, STOP, STOP] {
            send(&mut station, &late, 1);
        }
        assert_eq!(sample_counts(&mut station), [707, 1, 2]);
    }

    #[test]
    fn a_refused_close_returns_zeros_and_the_interval_goes_on() {
        let mut station = station([128 + 60, 0, 0]);
        send(&mut station, &STOP, 705);
        let first = std::mem::replace(&mut station.slots[0], 5 << 1); // no sample has box 5
        let closed = station.close(0);
        assert_eq!(
            (closed.number, closed.filled, closed.sample_counts),
            (BUFFER, 0, SampleCounts::NONE)
        );
        station.slots[0] = first;
        send(&mut station, &STOP, 1);
        assert_eq!(sample_counts(&mut station), [706, 2, 0]);
    }

    /// A state of 1,000 events with these numbers, and so many slots filled.
    fn handed(eligible: usize, used: usize, replaced: usize, filled: usize) -> Station {
        let mut station = of_both_priorities();
        let samples = Samples { eligible, used, replaced };
        station.hand_in(Processor { taken: 1_000, samples, ..Processor::FRESH });
        station.slots[..filled].fill(60 << 1);
        station
    }

    #[test]
    fn numbers_of_a_state_that_is_handed_in() {
        for (eligible, filled, replaced, dropped) in [
            (1_000, 704, 200, 96),
            (1_000, 704, 296, 0),
            (1_000, 704, 297, 0),
            (5, 7, 0, 0),
            (5, 3, 1, 1),
            (5, 3, 3, 0),
            (1_000, 0, 0, 1_000),
        ] {
            let mut station = handed(eligible, filled, replaced, filled);
            assert_eq!(sample_counts(&mut station), [eligible as u32, replaced as u32, dropped]);
        }
    }

    #[test]
    fn a_state_that_is_handed_in_and_events_after_it() {
        // Two slots are free; then one more may be replaced, as LIMHI is 500.
        let mut station = handed(800, 702, 499, 702);
        for late in [STOP, LOW, STOP, STOP, LOW] {
            send(&mut station, &late, 1);
        }
        assert_eq!(station.processor.samples, Samples { eligible: 805, used: 704, replaced: 500 });
        // 805 - 704 - 500 is below 0.
        assert_eq!(sample_counts(&mut station), [805, 500, 0]);
        // More are replaced than LIMHI allows: none more are.
        let mut station = handed(1_000, 704, 600, 100);
        send(&mut station, &STOP, 3);
        assert_eq!(sample_counts(&mut station), [1_003, 600, 303]);
        // The next interval is one of events alone.
        send(&mut station, &STOP, 706);
        assert_eq!(sample_counts(&mut station), [706, 2, 0]);
    }

    #[test]
    fn slots_that_are_handed_in_are_filled_without_events() {
        let mut station = of_both_priorities();
        send(&mut station, &STOP, 3);
        station.hand_in_slots(&[0, 0, 0, 60 << 1].repeat(704));
        send(&mut station, &STOP, 2);
        assert_eq!(station.processor.samples, Samples { eligible: 5, used: 5, replaced: 0 });
        assert_eq!(sample_counts(&mut station), [5, 0, 0]);
        send(&mut station, &STOP, 706);
        station.hand_in_slots(&[0; 2_816]);
        assert_eq!(sample_counts(&mut station), [706, 2, 704]);
    }

    #[test]
    fn frames_are_modulo_65_536() {
        let mut station = station([8, 0, 0]);
        station.processor.frame = 65_535;
        station.close(0);
        assert_eq!(station.output[267..269], [0xFF, 0xFF]);
        assert_eq!(station.processor.frame, 0);
    }

    #[test]
    fn listing_writes_packets_0_to_249_and_changes_nothing() {
        let mut station = station([8, 0, 0]);
        station.event(&STOP);
        station.processor.frame = 0x4002;
        let before = station.clone();
        for (i, number) in [(0, DONE), (249, DONE), (250, LISTING_ADDRESS), (65_535, LISTING_ADDRESS)] {
            assert_eq!(station.listing(i, 60), number);
        }
        // Packet 249 was the last one written: from C1B4 on.
        assert_eq!(station.listed[..6], [0x0A, 0x52, 0xC0, 0x02, 0x01, 0x09]);
        assert_eq!(station.listed[6..19], [0, 0, 0, 60, 0, 0, 0, 0, 0x40, 0x02, 0, 0xC1, 0xB4]);
        assert_eq!((&station.tables, &station.slots), (&before.tables, &before.slots));
        let state = |station: &Station| format!("{:?}", station.processor);
        assert_eq!(state(&station), state(&before));
    }

    #[test]
    fn buffers_of_another_length() {
        let mut s = station([8, 0, 0]);
        let (p, e) = (&mut s.processor, &mut s.eligible_events);
        assert_eq!(p.event(&STOP, &s.tables[1..], &mut s.slots, e), BUFFER);
        assert_eq!(p.event(&STOP, &s.tables, &mut s.slots[1..], e), BUFFER);
        let refused = LineAnswer { number: BUFFER, sum: 0 };
        assert_eq!(p.line(&[0; 81], &s.staging, &s.bitmap, &mut s.echo[1..]), refused);
        assert_eq!(p.line(&[0; 81], &s.staging, &s.bitmap[1..], &mut s.echo), refused);
        assert_eq!(p.line(&[0; 81], &s.staging[1..], &s.bitmap, &mut s.echo), refused);
        assert_eq!(p.package(&[], &mut s.staging[1..], &mut s.bitmap, &mut s.echo), BUFFER);
        assert_eq!(p.package(&[], &mut s.staging, &mut s.bitmap[1..], &mut s.echo), BUFFER);
        assert_eq!(p.package(&[], &mut s.staging, &mut s.bitmap, &mut s.echo[1..]), BUFFER);
        assert_eq!(p.listing(250, 0, &s.tables[1..], &mut s.listed), BUFFER);
        assert_eq!(p.listing(250, 0, &s.tables, &mut s.listed[1..]), BUFFER);
        let closed = p.close(0, &mut s.tables, &s.staging, &mut s.slots, e, &mut s.output[1..]);
        assert_eq!((closed.number, closed.taken, closed.filled), (BUFFER, 0, 0));
        assert_eq!(closed.sample_counts, SampleCounts::NONE);
    }
}
