//! States that are handed in: within every limit of document 01, at one, one below it and beyond
//! it, and odd ones that no limit forbids; and slots of right and odd boxes. Each is given calls,
//! and what a call leaves is shown, a refused one too.

use crate::calls::{self, Call, Form};
use crate::commands::{Keyword, Settings, Waiting};
use crate::generate::{lines, Random, Stream};
use crate::loads::{Addresses, Load, STAGING_BYTES};
use crate::processor::{Processor, MOST_COMMANDS, MOST_EVENTS, MOST_READINGS};
use crate::samples::{Samples, SLOTS};
use crate::sorting::{Event, VALID_STOP};
use crate::tables::{FIRST_WORD, LAST_WORD};

/// The largest value of each setting, in the order of `Keyword::ALL`.
const MOST: [u16; 6] = [704, 1, 1, 1, 1, 255];

/// A number from 0 to `most`, often one of the ends.
fn up_to(random: &mut Random, most: usize) -> usize {
    match random.below(4) {
        0 => 0,
        1 => most,
        _ => random.below(most + 1),
    }
}

/// One below the limit, the limit, one beyond it, or far beyond.
fn near(random: &mut Random, limit: usize) -> u32 {
    let limit = limit as u32;
    random.pick(&[limit.wrapping_sub(1), limit, limit.wrapping_add(1), u32::MAX])
}

/// A state within its limits.
pub fn lawful(random: &mut Random) -> Processor {
    let small = random.pick(&[0, 1, 5, 704, 1_000]);
    let taken = if random.percent(50) { small } else { up_to(random, MOST_EVENTS as usize) };
    let mut p = Processor { frame: random.bits() as u16, taken: taken as u32, ..Processor::FRESH };
    if random.percent(60) {
        p.counts.boxes[1..].fill_with(|| up_to(random, taken) as u32);
        p.counts.beacons[1..].fill_with(|| up_to(random, taken) as u32);
    }
    p.samples = samples(random, taken);
    p.readings = up_to(random, MOST_READINGS as usize) as u32;
    p.totals.fill_with(|| up_to(random, 65_535 * p.readings as usize) as u32);
    p.settings = settings(random);
    let reach = up_to(random, STAGING_BYTES);
    p.addresses = Addresses { next: up_to(random, reach), reach };
    p.accepted = up_to(random, MOST_COMMANDS);
    p.waits = up_to(random, p.accepted);
    waiting(random, &mut p);
    p
}

/// Numbers that an interval has, or any: more may be replaced than are used, or than LIMHI allows, and
/// fewer eligible than both together: no limit forbids that.
fn samples(random: &mut Random, taken: usize) -> Samples {
    let eligible = up_to(random, taken);
    let of_interval = eligible.min(SLOTS);
    if random.percent(50) {
        return Samples { eligible, used: of_interval, replaced: up_to(random, eligible - of_interval) };
    }
    Samples { eligible, used: up_to(random, taken.min(SLOTS)), replaced: up_to(random, taken) }
}

fn settings(random: &mut Random) -> Settings {
    let [eonly, toferror, junk, hv] = [(); 4].map(|()| random.percent(50));
    Settings { limhi: up_to(random, 704) as u16, eonly, toferror, junk, hv, hvstep: random.byte() }
}

/// The waiting commands, each one that a line gives, and behind them anything at all.
fn waiting(random: &mut Random, p: &mut Processor) {
    for one in &mut p.waiting[..p.waits] {
        let k = random.below(6);
        *one = Waiting::Set(Keyword::ALL[k], up_to(random, MOST[k] as usize) as u16);
    }
    if p.waits > 0 && p.addresses.reach > 0 && random.percent(50) {
        let y = random.below(3);
        let (first, last) = (FIRST_WORD, last_lawful(y, p.addresses.reach));
        if first <= last {
            let address = first + up_to(random, last - first);
            p.waiting[random.below(p.waits)] = Waiting::Load(address as u32, y as u8);
        }
    }
    if random.percent(30) {
        p.waiting[p.waits..].fill_with(|| anything(random));
    }
}

/// The last address from which a load of so many bytes stays in the tables.
fn last_lawful(y: usize, reach: usize) -> usize {
    (LAST_WORD + 1).saturating_sub(reach.div_ceil(Load::bytes_a_word(y).unwrap_or(3)))
}

fn anything(random: &mut Random) -> Waiting {
    if random.percent(50) {
        return Waiting::Load(random.bits() as u32, random.byte());
    }
    Waiting::Set(random.pick(&Keyword::ALL), random.bits() as u16)
}

/// A state of which one limit, or more, is met or passed; or none.
pub fn any(random: &mut Random) -> Processor {
    let mut p = if random.percent(30) { Processor::FRESH } else { lawful(random) };
    for _ in 0..random.pick(&[0, 1, 1, 1, 2]) {
        match random.below(3) {
            0 => at_a_count(random, &mut p),
            1 => at_a_number(random, &mut p),
            _ => at_a_waiting_command(random, &mut p),
        }
    }
    p
}

/// Taken, a box, a beacon, eligible events, the used and the replaced slots, readings or a total.
fn at_a_count(random: &mut Random, p: &mut Processor) {
    let taken = p.taken as usize;
    match random.below(8) {
        0 => p.taken = near(random, MOST_EVENTS as usize),
        1 => p.counts.boxes[1 + random.below(116)] = near(random, taken),
        2 => p.counts.beacons[1 + random.below(12)] = near(random, taken),
        3 => {
            let limit = random.pick(&[taken, SLOTS, SLOTS]);
            p.samples.used = near(random, limit) as usize;
        }
        4 => p.samples.replaced = near(random, taken) as usize,
        5 => p.samples.eligible = near(random, taken) as usize,
        6 => p.readings = near(random, MOST_READINGS as usize),
        _ => p.totals[random.below(8)] = near(random, 65_535 * p.readings.min(60) as usize),
    }
}

/// Accepted and waiting commands, how many; the addresses; LIMHI; the frame, which has no limit.
fn at_a_number(random: &mut Random, p: &mut Processor) {
    let Addresses { next, reach } = p.addresses;
    match random.below(6) {
        0 => {
            let limit = random.pick(&[MOST_COMMANDS, p.waits]);
            p.accepted = near(random, limit) as usize;
        }
        1 => {
            let limit = random.pick(&[MOST_COMMANDS, p.accepted]);
            p.waits = near(random, limit) as usize;
        }
        2 => p.addresses.next = near(random, reach) as usize,
        3 => {
            let limit = random.pick(&[STAGING_BYTES, next]);
            p.addresses.reach = near(random, limit) as usize;
        }
        4 => p.settings.limhi = near(random, 704) as u16,
        _ => p.frame = near(random, 65_536) as u16,
    }
}

/// A setting at its largest value or beyond, a load lawful or not, or a second load.
fn at_a_waiting_command(random: &mut Random, p: &mut Processor) {
    if p.waits == 0 {
        (p.accepted, p.waits) = random.pick(&[(1, 1), (32, 32), (1, 0)]);
    }
    let waits = p.waits.clamp(1, MOST_COMMANDS);
    let at = random.pick(&[0, waits - 1]);
    let reach = random.pick(&[p.addresses.reach, 1, 3, 7]);
    let y = random.pick(&[0, 1, 2, 2, 3, 255]);
    let last = last_lawful(y, reach);
    let address = random.pick(&[0, FIRST_WORD - 1, FIRST_WORD, last, last + 1, LAST_WORD + 1, 1 << 24]);
    let load = Waiting::Load(address as u32, y as u8);
    let k = random.below(6);
    match random.below(3) {
        0 => p.waiting[at] = Waiting::Set(Keyword::ALL[k], near(random, MOST[k] as usize) as u16),
        1 => {
            p.addresses = Addresses { next: p.addresses.next.min(reach), reach };
            p.waiting[at] = load;
        }
        _ => {
            p.addresses = Addresses { next: 0, reach: 3 };
            p.waiting[at] = Waiting::Load(FIRST_WORD as u32, 0);
            p.waiting[random.below(waits)] = Waiting::Load(LAST_WORD as u32, 0);
        }
    }
}

/// Slots of zeros and of records of boxes 6 to 116; some with a slot of another box.
fn slots(random: &mut Random) -> Vec<u32> {
    let empty = random.pick(&[0, 50, 100]);
    let mut slots = vec![0; SLOTS];
    for slot in &mut slots {
        if !random.percent(empty) {
            *slot = random.bits() as u32 & !0xFE | (6 + random.below(111) as u32) << 1;
        }
    }
    if random.percent(60) {
        let b = random.pick(&[0, 1, 5, 6, 7, 116, 117, 127]) << 1;
        let others = random.pick(&[0, 1, 0xFFFF_FF00, 0xFFFF_FF01, 0x0010_0000]);
        slots[random.pick(&[0, 1, 702, 703])] = others | b;
    }
    slots
}

fn bytes_of(slots: &[u32]) -> Vec<u8> {
    slots.iter().flat_map(|slot| slot.to_be_bytes()).collect()
}

impl Stream {
    fn hand_in(&mut self, state: Processor) {
        self.call(Call::State(Box::new(state)));
    }

    fn hand_in_slots(&mut self, slots: &[u32]) {
        self.call(Call::Slots(bytes_of(slots)));
    }

    /// Some states, each given some calls, and slots. At the end an interval that begins, so that what
    /// comes behind is carried out.
    pub fn handed_states(&mut self) {
        if self.form == Form::Minute {
            return;
        }
        for _ in 0..=self.random.below(6) {
            let state = any(&mut self.random);
            self.hand_in(state);
            self.call(Call::Show);
            if self.random.percent(40) {
                let slots = slots(&mut self.random);
                self.hand_in_slots(&slots);
            }
            for _ in 0..=self.random.below(8) {
                self.shown_call();
            }
        }
        let frame = self.random.bits() as u16;
        let settings = settings(&mut self.random);
        self.hand_in(Processor { frame, settings, ..Processor::FRESH });
        self.hand_in_slots(&[0; SLOTS]);
    }

    /// A state record with a waiting command of no kind, or of too large a value, or without its last
    /// number; slots one byte off.
    pub fn no_state(&mut self) {
        let from = self.bytes.len();
        if self.random.percent(30) {
            let length = self.random.pick(&[0, 4, 2_812, 2_815, 2_817, 2_820, 65_535]);
            let slots = vec![0; length];
            calls::write(&Call::Slots(slots), Form::Replay, &mut self.bytes);
            return;
        }
        let state = any(&mut self.random);
        calls::write(&Call::State(Box::new(state)), Form::Replay, &mut self.bytes);
        if self.random.percent(20) {
            self.bytes.truncate(self.bytes.len() - 4);
            return;
        }
        let entry = from + 1 + 574 + 6 * self.random.below(MOST_COMMANDS);
        if self.random.percent(50) {
            self.bytes[entry] = self.random.pick(&[6, 7, 127, 128, 254]);
        } else {
            self.bytes[entry] = self.random.below(6) as u8;
            self.bytes[entry + 1 + self.random.below(2)] = 1;
        }
    }

    /// A call aboard of any kind, and the state that it leaves.
    fn shown_call(&mut self) {
        match self.random.below(9) {
            0..=2 => self.events_up_to(1),
            3 => self.call(Call::Reading([1, 0, 0, 0, 0, 0, 0, 65_535])),
            4 | 5 => self.line_of(lines::any),
            6 => self.small_package(),
            7 => self.close(),
            _ => {
                let i = self.random.pick(&[0, 249, 250]);
                self.call(Call::Listing(i, self.time));
            }
        }
        self.call(Call::Show);
    }

    /// Every call aboard for one state, each from that state anew, and what it leaves.
    fn each_call(&mut self, state: Processor) {
        let event = Event { t: 5, high: 100, low: 0, flags: VALID_STOP };
        let calls = [
            Call::Event(event),
            Call::Event(Event { t: 512, ..event }),
            Call::Reading([1; 8]),
            Call::Line(b"hv 1".to_vec()),
            Call::Line(b"loadat 0".to_vec()),
            Call::Line(b"".to_vec()),
            Call::Package(vec![0, 3, 1, 0, 1]),
            Call::Listing(249, 60),
            Call::Listing(250, 60),
            Call::Close(60),
        ];
        for call in calls {
            self.hand_in(state);
            self.call(call);
            self.call(Call::Show);
        }
    }

    /// Every limit, in the paper's order: the state at it, one below and one beyond it.
    pub fn every_limit(&mut self) {
        self.most = usize::MAX;
        edges().into_iter().for_each(|state| self.each_call(state));
        self.slots_of_each_box();
        self.sums_of_samples();
        self.asks_of_each_cause();
        self.hand_in(Processor::FRESH);
        self.hand_in_slots(&[0; SLOTS]);
    }

    /// One slot that is not zero: only a close judges it.
    fn slots_of_each_box(&mut self) {
        for (at, others) in [(0, 0), (0, 1), (703, 0xFFFF_FF00), (703, 0xFFFF_FF01)] {
            for b in [0, 1, 5, 6, 7, 116, 117, 127] {
                let mut slots = [0; SLOTS];
                slots[at] = others | b << 1;
                for state in [Processor::FRESH, Processor { taken: 1_000_001, ..Processor::FRESH }] {
                    self.hand_in_slots(&slots);
                    self.each_call(state);
                }
            }
        }
        self.hand_in_slots(&[0; SLOTS]);
    }

    /// Eligible events, filled and replaced slots: those of an interval, and others, of which more are
    /// filled and replaced than were eligible. Each is closed at once, and after some events.
    fn sums_of_samples(&mut self) {
        for (eligible, filled, replaced) in [
            (704, 704, 0),
            (705, 704, 0),
            (705, 704, 1),
            (1_000, 704, 200),
            (1_000, 704, 296),
            (1_000, 704, 297),
            (5, 7, 0),
            (5, 7, 1),
            (5, 3, 2),
            (5, 3, 3),
            (5, 0, 6),
            (0, 703, 0),
            (1_000, 0, 0),
        ] {
            for events in [0, 10] {
                let mut slots = [60 << 1; SLOTS];
                slots[filled..].fill(0);
                self.hand_in_slots(&slots);
                let samples = Samples { eligible, used: eligible.min(SLOTS), replaced };
                self.hand_in(Processor { taken: 1_000, samples, ..Processor::FRESH });
                self.events(events);
                self.call(Call::Show);
                self.call(Call::Close(60));
                let beacon = self.written(12);
                self.call(Call::Packet(beacon.to_vec()));
            }
        }
    }

    /// Lines about staging while bytes are bad or not, a load waits or not, after 31 and 32 commands.
    /// All staged bytes are 255: the sum of 10 is 9f6, that of all f512f7 (hex).
    fn asks_of_each_cause(&mut self) {
        let ten = ["ask 7000 0", "commit 7000 0 9f6", "commit 7000 0 9f7", "commit 7000 0 9f5"];
        let others = ["load 0", "loadat a", "ask 6fff 0", "commit 6fff 0 9f6", "load 7000 0", "hv 1"];
        let all = ["ask 7000 0", "commit 7000 0 f512f7", "commit 7000 0 f512f8"];
        for (bad, reach) in [(None, 10), (Some(0), 10), (Some(9), 10), (Some(10), 10)]
            .into_iter()
            .chain([(None, 62_985), (Some(62_984), 62_985)])
        {
            self.stage(bad);
            let mut waits = reaching(reach);
            (waits.accepted, waits.waits) = (1, 1);
            waits.waiting[0] = Waiting::Load(0x7000, 0);
            let accepted = |accepted| Processor { accepted, ..reaching(reach) };
            let both = Processor { accepted: 32, ..waits };
            for state in [reaching(0), reaching(reach), accepted(31), accepted(32), waits, both] {
                for line in ten.iter().chain(&others).chain(&all) {
                    self.hand_in(state);
                    self.line(*line);
                    self.call(Call::Show);
                }
            }
        }
    }

    /// Every staged byte 255, and this one bad.
    fn stage(&mut self, bad: Option<usize>) {
        self.hand_in(Processor::FRESH);
        self.package(&[255; STAGING_BYTES], 0);
        if let Some(at) = bad {
            let addresses = Addresses { next: at, reach: STAGING_BYTES };
            self.hand_in(Processor { addresses, ..Processor::FRESH });
            self.package(&[255], 1);
        }
    }
}

fn reaching(reach: usize) -> Processor {
    Processor { addresses: Addresses { next: 0, reach }, ..Processor::FRESH }
}

/// The states of `every_limit`.
pub fn edges() -> Vec<Processor> {
    let mut states = vec![Processor::FRESH, Processor { frame: 65_535, ..Processor::FRESH }];
    count_edges(&mut states);
    reading_edges(&mut states);
    address_and_setting_edges(&mut states);
    command_edges(&mut states);
    load_edges(&mut states);
    states
}

/// "taken 1,000,000; every box, beacon and other event count at most taken; 704 slots used".
fn count_edges(states: &mut Vec<Processor>) {
    let of = |taken| Processor { taken, ..Processor::FRESH };
    states.extend([999_999, 1_000_000, 1_000_001, u32::MAX].map(of));
    for (taken, n) in [(0, 1), (5, 4), (5, 5), (5, 6), (1_000_000, 1_000_000), (1_000_000, 1_000_001)] {
        for at in [1, 5, 60, 116] {
            let mut p = of(taken);
            p.counts.boxes[at] = n;
            states.push(p);
        }
        for at in [1, 12] {
            let mut p = of(taken);
            p.counts.beacons[at] = n;
            states.push(p);
        }
    }
    for (taken, eligible, used, replaced) in [
        (5, 4, 4, 0),
        (5, 5, 5, 0),
        (5, 6, 5, 0),
        (5, 5, 6, 0),
        (1_000, 703, 703, 0),
        (1_000, 704, 704, 0),
        (1_000, 705, 705, 0),
        (5, 5, 5, 5),
        (5, 5, 5, 6),
        (5, 0, 0, 5),
        (1_000, 1_000, 0, 0),
        (1_000, 1_001, 0, 0),
        (1_000, u32::MAX as usize, 0, 0),
        (1_000_000, 1_000_000, 704, 500),
        (1_000_000, 1_000_001, 704, 500),
        (1_000, 1_000, 704, 499),
        (1_000, 1_000, 704, 500),
        (1_000, 704, 704, 1_000),
        (1_000, 704, 704, 1_001),
    ] {
        states.push(Processor { samples: Samples { eligible, used, replaced }, ..of(taken) });
    }
}

/// "readings 60; each total 65,535 × readings".
fn reading_edges(states: &mut Vec<Processor>) {
    let of = |readings| Processor { readings, ..Processor::FRESH };
    states.extend([59, 60, 61, u32::MAX].map(of));
    for (readings, total) in
        [(0, 1), (2, 131_069), (2, 131_070), (2, 131_071), (60, 3_932_100), (60, 3_932_101)]
    {
        for at in [0, 7] {
            let mut p = of(readings);
            p.totals[at] = total;
            states.push(p);
        }
    }
}

/// "next address ≤ reach ≤ 62,985; settings in the ranges below".
fn address_and_setting_edges(states: &mut Vec<Processor>) {
    for (next, reach) in [
        (1, 0),
        (99, 100),
        (100, 100),
        (101, 100),
        (0, 62_985),
        (0, 62_986),
        (62_984, 62_985),
        (62_985, 62_985),
        (62_986, 62_986),
        (0, u32::MAX as usize),
    ] {
        states.push(Processor { addresses: Addresses { next, reach }, ..Processor::FRESH });
    }
    for limhi in [0, 703, 704, 705, 65_535] {
        let settings = Settings { limhi, ..Settings::FRESH };
        states.push(Processor { settings, ..Processor::FRESH });
    }
    let settings =
        Settings { limhi: 500, eonly: true, toferror: true, junk: true, hv: true, hvstep: 255 };
    states.push(Processor { settings, ..Processor::FRESH });
}

/// "accepted commands 32, waiting ones no more", none "that no line could give".
fn command_edges(states: &mut Vec<Processor>) {
    for (accepted, waits) in [
        (31, 0),
        (32, 0),
        (33, 0),
        (0, 1),
        (1, 1),
        (1, 2),
        (31, 31),
        (32, 32),
        (32, 33),
        (33, 32),
        (33, 33),
        (u32::MAX as usize, u32::MAX as usize),
    ] {
        states.push(Processor { accepted, waits, ..Processor::FRESH });
    }
    for (keyword, most) in Keyword::ALL.into_iter().zip(MOST) {
        for value in [most - 1, most, most + 1, 65_535] {
            for waits in [0, 1] {
                let mut p = Processor { accepted: 1, waits, ..Processor::FRESH };
                p.waiting[0] = Waiting::Set(keyword, value);
                states.push(p);
            }
        }
    }
}

/// "at most one load waiting, lawful at the present reach".
fn load_edges(states: &mut Vec<Processor>) {
    for (a, y, reach) in [
        (0x7000, 0, 0),
        (0x7000, 0, 1),
        (0x7000, 0, 62_985),
        (0x7001, 0, 62_985),
        (0x7001, 0, 62_982),
        (0x7001, 0, 62_983),
        (0x7000, 1, 20_995),
        (0x7000, 1, 20_996),
        (0x7000, 2, 41_990),
        (0x7000, 2, 41_991),
        (0x7000, 3, 1),
        (0x7000, 255, 1),
        (0x6FFF, 0, 1),
        (0xC202, 0, 3),
        (0xC202, 0, 4),
        (0xC203, 0, 1),
        (0, 0, 1),
        (0x100_7000, 0, 1),
        (u32::MAX, 0, 1),
    ] {
        let mut p = Processor { accepted: 1, waits: 1, ..reaching(reach) };
        p.waiting[0] = Waiting::Load(a, y);
        states.push(p);
    }
    for last in [
        Waiting::Set(Keyword::Hv, 1),
        Waiting::Set(Keyword::Hv, 2),
        Waiting::Load(0xC202, 0),
        Waiting::Load(0x7000, 0),
    ] {
        for waits in [31, 32] {
            let mut p = Processor { accepted: 32, waits, ..reaching(3) };
            p.waiting[15] = Waiting::Load(0x7000, 0);
            p.waiting[31] = last;
            states.push(p);
        }
    }
}
