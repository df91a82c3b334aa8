//! Packets for the reader, the converters and the gatherer: damaged ones, and changed ones that are
//! still lawful.

use crate::codes::Edition;
use crate::generate::rates::*;
use crate::generate::Random;
use crate::listing::*;
use crate::packets::*;

/// Codes that no count has in the first edition, and in the second.
const WRONG_FIRST: [u16; 12] =
    [0x1000, 0x1001, 0x17FF, 0x2000, 0x27FF, 0xC000, 0xC7FF, 0xD000, 0xD7FF, 0xD800, 0xF800, 0xFFFF];
const WRONG_SECOND: [u16; 5] = [0xD000, 0xD001, 0xDFFF, 0xE000, 0xFFFF];
const MARKS: [u8; 5] = [0, 1, 2, 3, 255];
const WRONG_MARKS: [u8; 5] = [3, 4, 16, 128, 255];

/// The packet changed somehow: most of these are refused, by 11 to 14.
pub fn changed(random: &mut Random, mut packet: Bytes) -> Vec<u8> {
    if random.percent(30) {
        into_first(&mut packet);
    }
    match random.below(14) {
        0 => return wrong_length(random, packet),
        1 => {
            byte_off(random, &mut packet);
            return packet.to_vec();
        }
        2 | 3 => header_fault(random, &mut packet),
        4 => {
            // Two faults: the lower number counts.
            body_fault(random, &mut packet);
            if random.percent(50) {
                header_fault(random, &mut packet);
            }
            wrong_sum(random, &mut packet);
            return packet.to_vec();
        }
        5 | 6 => lawful_change(random, &mut packet),
        7 | 8 => other_mark(random, &mut packet),
        _ => body_fault(random, &mut packet),
    }
    packet[271] = packet_sum(&packet);
    packet.to_vec()
}

/// One fault of the plainest kinds.
pub fn one_fault(random: &mut Random, mut packet: Bytes) -> Vec<u8> {
    match random.below(5) {
        0 => byte_off(random, &mut packet),
        1 => wrong_sum(random, &mut packet),
        2 => wrong_mark(random, &mut packet),
        3 => wrong_value(random, &mut packet),
        _ => {
            let mut packet = packet.to_vec();
            packet.resize(random.pick(&[0, 271, 273]), 0);
            return packet;
        }
    }
    packet.to_vec()
}

/// Some byte, under the sum of before.
fn byte_off(random: &mut Random, packet: &mut Bytes) {
    let at = random.below(PACKET_BYTES);
    packet[at] ^= random.between(1, 255) as u8;
}

pub fn wrong_sum(random: &mut Random, packet: &mut Bytes) {
    let error = random.between(1, 255) as u8;
    packet[271] = packet_sum(packet).wrapping_add(error);
}

/// A mark that no edition has, or a p that no sample packet has; the sum is right.
pub fn wrong_mark(random: &mut Random, packet: &mut Bytes) {
    packet[MARK_AT] = random.pick(if codes_of(packet).is_empty() { &[11, 255] } else { &WRONG_MARKS });
    packet[271] = packet_sum(packet);
}

/// A code that no count has, or a record of a box that no sample has; the sum is right.
pub fn wrong_value(random: &mut Random, packet: &mut Bytes) {
    if codes_of(packet).is_empty() {
        wrong_record(random, packet);
    } else {
        wrong_code(random, packet);
    }
    packet[271] = packet_sum(packet);
}

fn wrong_length(random: &mut Random, packet: Bytes) -> Vec<u8> {
    let mut packet = packet.to_vec();
    let any = random.below(PACKET_BYTES);
    packet.resize(random.pick(&[0, 1, 10, 11, 270, 271, 273, 544, any]), 0);
    packet
}

fn header_fault(random: &mut Random, packet: &mut Bytes) {
    let other = random.pick(&[604, 617, 618, 623, 625, 594, 0, 2_047]);
    match random.below(9) {
        0 => packet[0] ^= 0x20 << random.below(3),          // version
        1 => packet[0] ^= 0x10,                             // type
        2 => packet[0] ^= 0x08,                             // secondary flag
        3 | 4 => put(packet, 0, 1 << 11 | other),           // application number
        5 => packet[2] ^= random.pick(&[0x40, 0x80, 0xC0]), // sequence flags
        6 => put(packet, 4, random.pick(&[0, 264, 266, 265 + 256, 0xFFFF])),
        7 => packet[10] = random.pick(&[1, 128, 255]),
        _ => put(packet, 0, 1 << 11 | random.pick(&[605, 606, 610, 616, 624])), // another kind
    }
}

fn body_fault(random: &mut Random, packet: &mut Bytes) {
    let some = random.pick(&[1, 2, 16, 128, 255]);
    match number(packet) {
        RATE => rate_fault(random, packet, some),
        BEACON => beacon_fault(random, packet, some),
        LISTING => listing_fault(random, packet, some),
        _ => sample_fault(random, packet, some),
    }
}

fn rate_fault(random: &mut Random, packet: &mut Bytes, some: u8) {
    match random.below(8) {
        0..=2 => wrong_code(random, packet),
        3 => packet[259] = some,
        4 => packet[261] |= 1 << random.below(4),
        5 => wrong_end(random, packet, some),
        6 => put(packet, 262, 705),
        _ => put(packet, 262, random.between(705, 65_535) as u16),
    }
}

/// A mark that no edition has, or a byte behind it.
fn wrong_end(random: &mut Random, packet: &mut Bytes, some: u8) {
    if random.percent(50) {
        packet[MARK_AT] = random.pick(&WRONG_MARKS);
    } else {
        packet[270] = some;
    }
}

fn beacon_fault(random: &mut Random, packet: &mut Bytes, some: u8) {
    match random.below(5) {
        0 => wrong_code(random, packet),
        1 => wrong_end(random, packet, some),
        2 => packet[random.pick(&[41, 266])] = some,
        _ => packet[random.between(41, 266) as usize] = some,
    }
}

fn sample_fault(random: &mut Random, packet: &mut Bytes, some: u8) {
    match random.below(6) {
        0 => packet[269] = packet[269].wrapping_add(some),
        1 => put(packet, 0, 1 << 11 | random.between(606, 616) as u16),
        2 => packet[270] = some,
        _ => wrong_record(random, packet),
    }
}

fn wrong_record(random: &mut Random, packet: &mut Bytes) {
    let any = random.between(117, 127) as u32;
    let b = random.pick(&[0, 1, 5, 117, 127, any]);
    put_record(random, packet, b);
}

/// An address that is none of the 250, or a byte that must be zero, or both.
fn listing_fault(random: &mut Random, packet: &mut Bytes, some: u8) {
    let kind = random.below(6);
    if kind <= 2 {
        let i = random.below(LISTING_PACKETS);
        let between = first_address(i) + random.between(1, 83) as usize;
        let any = random.below(1 << 24);
        let (below, beyond) = (0x7000 - 84, 0xC1B4 + 84);
        let wrong = [between, below, beyond, 0x6FFF, 0x7001, 0xC1B5, 0xC202, 0x1_7000, 0, any];
        put_address(packet, random.pick(&wrong));
    }
    match kind {
        0 | 1 => {}
        2 | 3 => packet[random.between(11, 13) as usize] = some,
        _ => {
            // Behind the 79 words of the last packet.
            put_address(packet, first_address(LISTING_PACKETS - 1));
            packet[256..271].fill(0);
            packet[random.between(256, 270) as usize] = some;
        }
    }
}

/// Any sequence count, time and frame; other rates, settings, records and words.
fn lawful_change(random: &mut Random, packet: &mut Bytes) {
    if random.percent(50) {
        let any = random.bits().to_be_bytes();
        packet[2] = 0xC0 | any[0];
        packet[3] = any[1];
        packet[6..10].copy_from_slice(&any[2..6]);
        let frame = if number(packet) == LISTING { 14 } else { 267 };
        packet[frame..frame + 2].copy_from_slice(&any[6..]);
    }
    match number(packet) {
        RATE => {
            packet[260] = random.byte();
            packet[261] = random.byte() & 0xF0;
            put(packet, 262, if random.percent(50) { 704 } else { random.between(0, 704) as u16 });
            packet[264..267].copy_from_slice(&random.bits().to_be_bytes()[..3]);
            (0..random.below(30)).for_each(|_| other_code(random, packet));
        }
        BEACON => (0..random.below(5)).for_each(|_| other_code(random, packet)),
        LISTING => other_words(random, packet),
        _ => {
            for _ in 0..random.below(30) {
                let any = random.between(6, 116) as u32;
                let b = random.pick(&[6, 7, 8, 116, any]);
                put_record(random, packet, b);
            }
            if random.percent(20) {
                packet[11..267].fill(0);
            }
        }
    }
}

/// A listing packet of another table, otherwise right.
pub fn of_another_table(random: &mut Random, packet: &mut Bytes) {
    other_words(random, packet);
    packet[271] = packet_sum(packet);
}

/// Words of another table, sometimes at another of the 250 addresses.
fn other_words(random: &mut Random, packet: &mut Bytes) {
    for _ in 0..=random.below(3) {
        packet[random.between(19, 255) as usize] ^= random.between(1, 255) as u8;
    }
    if random.percent(20) {
        put_address(packet, first_address(random.below(LISTING_PACKETS)));
    }
}

/// Another mark, or the same; under it codes as they are and codes at the edges of both editions.
fn other_mark(random: &mut Random, packet: &mut Bytes) {
    if codes_of(packet).is_empty() {
        return lawful_change(random, packet);
    }
    packet[MARK_AT] = random.pick(&MARKS);
    put_edges(random, packet);
}

fn wrong_code(random: &mut Random, packet: &mut Bytes) {
    let s = random.between(1, 12) as u16;
    let first = random.percent(30).then_some(4_096 * s + random.below(2_048) as u16);
    let wrong = match edition(packet[MARK_AT]) {
        Some(Edition::First) => first.unwrap_or(random.pick(&WRONG_FIRST)),
        _ => random.pick(&WRONG_SECOND),
    };
    let place = code_place(random, packet);
    put(packet, place, wrong);
}

fn other_code(random: &mut Random, packet: &mut Bytes) {
    let place = code_place(random, packet);
    put(packet, place, lawful_code(random, packet[MARK_AT]));
}

/// A record of box b, not zero, in some place.
fn put_record(random: &mut Random, packet: &mut Bytes, b: u32) {
    let other_bits = if random.percent(20) { 1 } else { random.bits() as u32 | 1 };
    let record = other_bits & !(127 << 1) | b << 1;
    let place = 11 + 4 * random.below(64);
    packet[place..place + 4].copy_from_slice(&record.to_be_bytes());
}

fn put_address(packet: &mut Bytes, address: usize) {
    packet[16..19].copy_from_slice(&(address as u32).to_be_bytes()[1..]);
}
