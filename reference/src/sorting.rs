//! Document 01, "One event": rules 1 to 5 and the sample record.

use crate::commands::Settings;
use crate::tables::*;

// The bits of an event's flag byte ("The program minute").
pub const FLG0: u8 = 1;
pub const FLG1: u8 = 2;
pub const ERROR: u8 = 4;
pub const VALID_STOP: u8 = 8;

#[derive(Clone, Copy, Debug, Default, PartialEq, Eq)]
pub struct Event {
    /// Time-of-flight channel, 0 to 511.
    pub t: u16,
    /// High channel, 0 to 4095.
    pub high: u16,
    /// Low channel, 0 to 2047.
    pub low: u16,
    /// FLG0 1, FLG1 2, error 4, valid stop 8.
    pub flags: u8,
}

impl Event {
    pub fn in_range(&self) -> bool {
        self.t <= 511 && self.high <= 4095 && self.low <= 2047 && self.flags <= 15
    }

    fn has(&self, flag: u8) -> bool {
        self.flags & flag != 0
    }
}

/// What rules 2 to 5 make of an event that is not discarded.
#[derive(Clone, Copy, Debug, PartialEq, Eq)]
pub struct Sorted {
    pub gain: u8,
    /// The channel used: high for gain 0, low for gain 1.
    pub channel: u16,
    /// Box, 6 to 116.
    pub b: u8,
    pub priority: u8,
    /// 1 to 12, or 0 for none.
    pub beacon: u8,
}

/// Boxes 1 to 116 and beacons 1 to 12 of an interval; place 0 of both is not used.
#[derive(Clone, Copy, Debug, PartialEq, Eq)]
pub struct Counts {
    pub boxes: [u32; 117],
    pub beacons: [u32; 13],
}

impl Counts {
    pub const ZERO: Counts = Counts { boxes: [0; 117], beacons: [0; 13] };

    /// Counts one event; a discarded one (none) goes to box 5 only.
    #[inline]
    pub fn count(&mut self, sorted: Option<&Sorted>) {
        let Some(s) = sorted else {
            self.boxes[5] += 1;
            return;
        };
        self.boxes[3 + s.gain as usize] += 1;
        self.boxes[s.b as usize] += 1;
        if s.b >= 7 {
            self.boxes[1 + s.priority as usize] += 1;
            if s.beacon != 0 {
                self.beacons[s.beacon as usize] += 1;
            }
        }
    }
}

/// f_m of rule 3, by document 02, Point 2: u / 3,584 towards minus infinity.
#[inline]
pub fn mass_column(u: i32) -> i32 {
    u.div_euclid(3_584)
}

/// f_e of rule 3: the numerator / 4,096 towards minus infinity.
#[inline]
pub fn energy_column(numerator: i32) -> i32 {
    numerator.div_euclid(4_096)
}

/// Rules 1 to 5; none if the event is discarded.
#[inline]
pub fn sort(event: &Event, tables: &Tables, settings: &Settings) -> Option<Sorted> {
    let no_stop = !event.has(VALID_STOP) && !settings.eonly;
    let with_error = event.has(ERROR) && !settings.toferror;
    if no_stop || with_error {
        return None;
    }

    let (gain, channel, energies, offset) = if event.high <= 2047 {
        (0, event.high, HIGH_ENERGY, KHI)
    } else {
        (1, event.low, LOW_ENERGY, KLO)
    };
    let e = word(tables, energies + channel as usize);
    let k = word(tables, offset);
    let t = word(tables, TIME_OF_FLIGHT + event.t as usize);
    let ktof = word(tables, KTOF);

    let f_m = mass_column(e - k + t - ktof + 65_536);
    let f_e = energy_column(ktof + 360_448 - t);
    if !(0..=127).contains(&f_m) || !(0..=127).contains(&f_e) {
        return Some(Sorted { gain, channel, b: 6, priority: 0, beacon: 0 });
    }

    let cell = position(MATRIX + (128 * f_m + f_e) as usize);
    let b = tables[cell] & 127;
    let beacon = tables[cell + 1];
    Some(Sorted {
        gain,
        channel,
        b: if (7..=116).contains(&b) { b } else { 7 },
        priority: tables[cell] >> 7,
        beacon: if beacon <= 12 { beacon } else { 0 },
    })
}

/// Boxes 8 to 116 are eligible as samples; boxes 6 and 7 only with junk 1.
#[inline]
pub fn eligible(b: u8, junk: bool) -> bool {
    b >= 8 || junk
}

/// From bit 31 down: t 9 bits, channel used 11, FLG0, FLG1, gain, error, box 7, priority.
#[inline]
pub fn record(event: &Event, s: &Sorted) -> u32 {
    (event.t as u32) << 23
        | (s.channel as u32) << 12
        | (event.has(FLG0) as u32) << 11
        | (event.has(FLG1) as u32) << 10
        | (s.gain as u32) << 9
        | (event.has(ERROR) as u32) << 8
        | (s.b as u32) << 1
        | s.priority as u32
}

#[cfg(test)]
mod tests {
    use super::*;

    #[test]
    fn mass_columns_at_the_edges() {
        let edges = [(-1, -1), (0, 0), (3_583, 0), (3_584, 1), (458_751, 127), (458_752, 128)];
        for (u, column) in edges {
            assert_eq!(mass_column(u), column, "u = {u}");
        }
    }

    #[test]
    fn energy_columns_at_the_edges() {
        // floor(numerator / 4,096): negative exactly when the numerator is.
        for (n, column) in [(-4_097, -2), (-4_096, -1), (-1, -1), (0, 0), (4_095, 0), (4_096, 1)] {
            assert_eq!(energy_column(n), column);
        }
        assert_eq!(energy_column(128 * 4_096 - 1), 127);
        assert_eq!(energy_column(128 * 4_096), 128);
    }

    #[test]
    fn the_record_of_document_01() {
        let event = Event { t: 300, high: 1_000, low: 0, flags: 0 };
        let sorted = Sorted { gain: 0, channel: 1_000, b: 60, priority: 1, beacon: 0 };
        assert_eq!(record(&event, &sorted), 0x963E8079);
    }

    #[test]
    fn each_bit_of_a_record() {
        let none = Sorted { gain: 0, channel: 0, b: 0, priority: 0, beacon: 0 };
        let event = |flags| Event { flags, ..Event::default() };
        assert_eq!(record(&event(FLG0), &none), 1 << 11);
        assert_eq!(record(&event(FLG1), &none), 1 << 10);
        assert_eq!(record(&event(0), &Sorted { gain: 1, ..none }), 1 << 9);
        assert_eq!(record(&event(ERROR), &none), 1 << 8);
        assert_eq!(record(&event(VALID_STOP), &none), 0);
    }

    /// Tables whose time-of-flight word 0 gives the middle column f_e = 88 and whose high
    /// energy word 0 gives f_m = 18: all words and offsets zero, u = 65,536.
    fn one_cell(first: u8, beacon: u8) -> Box<Tables> {
        let mut tables = Box::new([0; TABLE_BYTES]);
        let cell = position(MATRIX + 128 * 18 + 88);
        tables[cell..cell + 2].copy_from_slice(&[first, beacon]);
        tables
    }

    const STOP: Event = Event { t: 0, high: 0, low: 0, flags: VALID_STOP };

    #[test]
    fn the_cell_gives_box_priority_and_beacon() {
        let fresh = Settings::FRESH;
        let sorted = |first, beacon| sort(&STOP, &one_cell(first, beacon), &fresh).unwrap();
        let expect = |b, priority, beacon| Sorted { gain: 0, channel: 0, b, priority, beacon };
        assert_eq!(sorted(128 + 60, 10), expect(60, 1, 10));
        assert_eq!(sorted(116, 12), expect(116, 0, 12));
        // A box outside 7 to 116 is box 7, with its priority and beacon.
        assert_eq!(sorted(117, 1), expect(7, 0, 1));
        assert_eq!(sorted(128 + 6, 12), expect(7, 1, 12));
        assert_eq!(sorted(0, 13), expect(7, 0, 0));
        assert_eq!(sorted(255, 255), expect(7, 1, 0));
    }

    #[test]
    fn rule_1_discards() {
        let tables = one_cell(8, 0);
        let fresh = Settings::FRESH;
        let eonly = Settings { eonly: true, ..fresh };
        let toferror = Settings { toferror: true, ..fresh };
        let event = |flags| Event { flags, ..STOP };
        assert_eq!(sort(&event(0), &tables, &fresh), None);
        assert_eq!(sort(&event(VALID_STOP | ERROR), &tables, &fresh), None);
        assert_eq!(sort(&event(ERROR), &tables, &eonly), None);
        assert_eq!(sort(&event(ERROR), &tables, &toferror), None);
        assert!(sort(&event(0), &tables, &eonly).is_some());
        assert!(sort(&event(VALID_STOP | ERROR), &tables, &toferror).is_some());
    }

    #[test]
    fn out_of_bounds_is_box_6_without_priority_and_beacon() {
        // Khi of 65,537 makes u -1: column -1, not 0.
        let mut tables = Box::new([255; TABLE_BYTES]);
        for address in [HIGH_ENERGY, TIME_OF_FLIGHT, KTOF] {
            set_word(&mut tables, address, 0);
        }
        set_word(&mut tables, KHI, 65_537);
        let out = Sorted { gain: 0, channel: 0, b: 6, priority: 0, beacon: 0 };
        assert_eq!(sort(&STOP, &tables, &Settings::FRESH), Some(out));
        set_word(&mut tables, KHI, 65_536);
        assert_eq!(sort(&STOP, &tables, &Settings::FRESH).unwrap().b, 7);
        // With this Khi u is the energy word: the last one within the columns, and the next.
        set_word(&mut tables, HIGH_ENERGY, 458_751);
        assert_eq!(sort(&STOP, &tables, &Settings::FRESH).unwrap().b, 7);
        set_word(&mut tables, HIGH_ENERGY, 458_752);
        assert_eq!(sort(&STOP, &tables, &Settings::FRESH), Some(out));
    }

    #[test]
    fn the_high_channel_decides_the_gain() {
        let tables = one_cell(8, 0);
        let event = |high| Event { high, low: 5, ..STOP };
        let sorted = |high| sort(&event(high), &tables, &Settings::FRESH).unwrap();
        assert_eq!((sorted(2_047).gain, sorted(2_047).channel), (0, 2_047));
        assert_eq!((sorted(2_048).gain, sorted(2_048).channel), (1, 5));
    }
}
