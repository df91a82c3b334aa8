//! Rate and beacon packets of both editions, made from counts or from codes.

use std::ops::Range;

use crate::codes::Edition;
use crate::commands::Settings;
use crate::generate::Random;
use crate::packets::*;
use crate::sample_counts::SampleCounts;
use crate::sorting::Counts;

/// Codes that some count has in both editions, and in the second alone.
const CODES: [u16; 10] = [0, 1, 0x07FF, 0x0800, 0x0FFF, 0x1800, 0x1FFF, 0x2800, 0xC800, 0xCFFF];
const SECOND_CODES: [u16; 8] = [0x1000, 0x1001, 0x1002, 0x17FF, 0x2000, 0x27FF, 0xC000, 0xCFFE];
/// The edges of both, to stand under every mark.
const EDGE_CODES: [u16; 7] = [0x0FFF, 0x1000, 0x17FF, 0x1800, 0xCFFF, 0xD000, 0xFFFF];

/// The bytes of a packet that are codes of rates.
pub fn codes_of(packet: &Bytes) -> Range<usize> {
    match number(packet) {
        RATE => RATE_CODES,
        BEACON => BEACON_CODES,
        _ => 0..0,
    }
}

/// Where some rate of a rate or beacon packet has its code.
pub fn code_place(random: &mut Random, packet: &Bytes) -> usize {
    let codes = codes_of(packet);
    codes.start + 2 * random.below(codes.len() / 2)
}

pub fn number(packet: &Bytes) -> u16 {
    u16::from_be_bytes([packet[0], packet[1]]) % 2_048
}

pub fn put(packet: &mut Bytes, at: usize, value: u16) {
    packet[at..at + 2].copy_from_slice(&value.to_be_bytes());
}

// Packets as written aboard, of counts.

/// A count of any magnitude.
fn count(random: &mut Random) -> u32 {
    (random.bits() as u32 & 0xFF_FFFF) >> random.below(25)
}

fn counts(random: &mut Random) -> Counts {
    Counts {
        boxes: std::array::from_fn(|_| count(random)),
        beacons: std::array::from_fn(|_| count(random)),
    }
}

pub fn rate(random: &mut Random, time: u32, frame: u16) -> Bytes {
    let any = random.byte();
    let settings = Settings {
        limhi: if random.percent(50) { 500 } else { random.below(705) as u16 },
        eonly: any & 1 != 0,
        toferror: any & 2 != 0,
        junk: any & 4 != 0,
        hv: any & 8 != 0,
        hvstep: random.byte(),
    };
    let totals = std::array::from_fn(|_| count(random));
    let table_sum = random.below(1 << 24) as u32;
    let mut packet = [0; PACKET_BYTES];
    write_rate(&mut packet, time, frame, &totals, &counts(random), &settings, table_sum);
    packet
}

pub fn beacon(random: &mut Random, time: u32, frame: u16) -> Bytes {
    let [eligible, replaced, dropped] = [(); 3].map(|()| count(random));
    beacon_of(random, time, frame, &SampleCounts { eligible, replaced, dropped })
}

/// One of the time before Point 7: it had no counts of samples.
pub fn old_beacon(random: &mut Random, time: u32, frame: u16) -> Bytes {
    beacon_of(random, time, frame, &SampleCounts::NONE)
}

fn beacon_of(random: &mut Random, time: u32, frame: u16, sample_counts: &SampleCounts) -> Bytes {
    let mut packet = [0; PACKET_BYTES];
    write_beacon(&mut packet, time, frame, &counts(random), sample_counts);
    packet
}

// The same in another edition, or under another mark.

/// A rate or beacon packet with the first edition's codes and mark, as the archive has them; any
/// other packet stays.
pub fn into_first(packet: &mut Bytes) {
    let codes = codes_of(packet);
    if codes.is_empty() || edition(packet[MARK_AT]) != Some(Edition::Second) {
        return;
    }
    for two in packet[codes].chunks_exact_mut(2) {
        let code = u16::from_be_bytes([two[0], two[1]]);
        let least = Edition::Second.least_count(code).expect("a packet as written");
        two.copy_from_slice(&Edition::First.code(least).to_be_bytes());
    }
    packet[MARK_AT] = FIRST_MARK;
    packet[271] = packet_sum(packet);
}

/// Other codes under this mark. Those of the second edition are of any counts, or of such as the first
/// has too; of these sometimes all but one.
pub fn recode(random: &mut Random, packet: &mut Bytes, mark: u8) {
    packet[MARK_AT] = mark;
    let codes = codes_of(packet);
    let in_both = mark != FIRST_MARK && random.percent(65);
    for two in packet[codes].chunks_exact_mut(2) {
        let code = lawful_code(random, mark);
        let code = if in_both { with_first_code(code) } else { code };
        two.copy_from_slice(&code.to_be_bytes());
    }
    if in_both && random.percent(50) {
        let place = code_place(random, packet);
        put(packet, place, lawful_code(random, mark));
    }
    packet[271] = packet_sum(packet);
}

/// The next code down whose least count the first edition has too: the second is twice as fine from
/// 1000 hex on, and there these are the even ones.
fn with_first_code(code: u16) -> u16 {
    if code < 0x1000 {
        code
    } else {
        code & !1
    }
}

/// A code that some count has in the edition of this mark.
pub fn lawful_code(random: &mut Random, mark: u8) -> u16 {
    let s = random.between(0, 12) as u16;
    let (any, edges) = match edition(mark) {
        Some(Edition::First) => (4_096 * s + random.between(2_048, 4_095) as u16, &CODES[..]),
        _ => (4_096 * s + random.below(4_096) as u16, &SECOND_CODES[..]),
    };
    match random.below(20) {
        0..=13 => any,
        14..=16 => random.pick(edges),
        _ => random.pick(&CODES),
    }
}

/// Codes at the edges of both editions in up to two places, whatever the mark.
pub fn put_edges(random: &mut Random, packet: &mut Bytes) {
    for _ in 0..random.below(3) {
        let place = code_place(random, packet);
        put(packet, place, random.pick(&EDGE_CODES));
    }
}
