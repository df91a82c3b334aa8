//! Document 01, "Packets": the thirteen packets of 272 bytes that close writes; document 02,
//! Point 5: rates in the second edition of their code; Point 7: three more of them in the beacon packet.

use std::ops::Range;

use crate::codes::Edition;
use crate::commands::Settings;
use crate::sample_counts::SampleCounts;
use crate::samples::Slots;
use crate::sorting::Counts;

pub const PACKET_BYTES: usize = 272;
/// The bytes of one packet.
pub type Bytes = [u8; PACKET_BYTES];
pub const OUTPUT_BYTES: usize = 13 * PACKET_BYTES;

pub const RATE: u16 = 605;
pub const FIRST_SAMPLE: u16 = 606;
pub const LAST_SAMPLE: u16 = 616;
pub const BEACON: u16 = 624;

/// Where a rate and a beacon packet have their mark, the edition of their codes.
pub const MARK_AT: usize = 269;
pub const FIRST_MARK: u8 = 0;
pub const SECOND_MARK: u8 = 1;
/// Second edition too: converted from the first on the ground (document 02, Point 6).
pub const CONVERTED_MARK: u8 = 2;

/// The codes of a rate packet, totals and boxes, and those of a beacon packet.
pub const RATE_CODES: Range<usize> = CODES_AT..259;
pub const BEACON_CODES: Range<usize> = CODES_AT..41;
pub const CODES_AT: usize = 11;

/// The edition that a mark stands for.
pub fn edition(mark: u8) -> Option<Edition> {
    match mark {
        FIRST_MARK => Some(Edition::First),
        SECOND_MARK | CONVERTED_MARK => Some(Edition::Second),
        _ => None,
    }
}

/// The sum of bytes 0 to 270 modulo 256, which stands in byte 271.
pub fn packet_sum(packet: &[u8]) -> u8 {
    packet[..271].iter().fold(0, |sum, byte| sum.wrapping_add(*byte))
}

/// Writes one packet: the header, `body`'s bytes, the sum.
pub fn write(packet: &mut [u8], number: u16, time: u32, frame: u16, body: impl FnOnce(&mut [u8])) {
    packet.fill(0);
    packet[0..2].copy_from_slice(&(1 << 11 | number).to_be_bytes()); // version 0, type 0, secondary flag 1
    packet[2..4].copy_from_slice(&((3 << 14) | (frame % 16_384)).to_be_bytes()); // sequence flags 3
    packet[4..6].copy_from_slice(&265u16.to_be_bytes());
    packet[6..10].copy_from_slice(&time.to_be_bytes()); // and byte 10 is zero
    body(packet);
    packet[271] = packet_sum(packet);
}

/// Writes one of close's packets, which have the frame number in bytes 267-268.
fn write_framed(packet: &mut [u8], number: u16, time: u32, frame: u16, body: impl FnOnce(&mut [u8])) {
    write(packet, number, time, frame, |packet| {
        body(packet);
        packet[267..269].copy_from_slice(&frame.to_be_bytes());
    });
}

/// Writes the codes of `counts` one after the other, and their mark.
fn write_codes<'a>(packet: &mut [u8], counts: impl Iterator<Item = &'a u32>) {
    for (two, n) in packet[CODES_AT..].chunks_exact_mut(2).zip(counts) {
        two.copy_from_slice(&Edition::Second.code(*n).to_be_bytes());
    }
    packet[MARK_AT] = SECOND_MARK;
}

pub fn write_rate(
    packet: &mut [u8],
    time: u32,
    frame: u16,
    totals: &[u32; 8],
    counts: &Counts,
    settings: &Settings,
    table_sum: u32,
) {
    write_framed(packet, RATE, time, frame, |packet| {
        write_codes(packet, totals.iter().chain(&counts.boxes[1..]));
        packet[260] = settings.hvstep;
        packet[261] = (settings.hv as u8) << 7
            | (settings.eonly as u8) << 6
            | (settings.toferror as u8) << 5
            | (settings.junk as u8) << 4;
        packet[262..264].copy_from_slice(&settings.limhi.to_be_bytes());
        packet[264..267].copy_from_slice(&table_sum.to_be_bytes()[1..]);
    });
}

/// Packet p, 0 to 10, with slots 64p to 64p + 63.
pub fn write_sample(packet: &mut [u8], time: u32, frame: u16, p: usize, slots: &Slots) {
    write_framed(packet, FIRST_SAMPLE + p as u16, time, frame, |packet| {
        let records = packet[11..267].chunks_exact_mut(4);
        for (four, slot) in records.zip(&slots[64 * p..64 * p + 64]) {
            four.copy_from_slice(&slot.to_be_bytes());
        }
        packet[269] = p as u8;
    });
}

/// Twelve beacons, then eligible, replaced and dropped.
pub fn write_beacon(
    packet: &mut [u8],
    time: u32,
    frame: u16,
    counts: &Counts,
    sample_counts: &SampleCounts,
) {
    write_framed(packet, BEACON, time, frame, |packet| {
        write_codes(packet, counts.beacons[1..].iter().chain(&sample_counts.in_order()));
    });
}

#[cfg(test)]
mod tests {
    use super::*;
    use crate::samples::SLOTS;

    const SETTINGS: Settings =
        Settings { limhi: 704, eonly: false, toferror: true, junk: false, hv: true, hvstep: 0xA5 };

    fn rate(frame: u16) -> [u8; PACKET_BYTES] {
        let mut counts = Counts::ZERO;
        counts.boxes[1] = 4_096;
        counts.boxes[116] = 1_000_000;
        let mut packet = [0xEE; PACKET_BYTES];
        write_rate(&mut packet, 0x01020304, frame, &[4_095; 8], &counts, &SETTINGS, 0x0A0B0C);
        packet
    }

    #[test]
    fn rate_header_of_frame_0() {
        assert_eq!(rate(0)[..6], [0x0A, 0x5D, 0xC0, 0x00, 0x01, 0x09]);
        assert_eq!(rate(0)[6..11], [1, 2, 3, 4, 0]);
    }

    #[test]
    fn the_sequence_count_is_the_frame_modulo_16_384() {
        assert_eq!(rate(16_383)[2..4], [0xFF, 0xFF]);
        assert_eq!(rate(16_385)[2..4], [0xC0, 0x01]);
        assert_eq!(rate(16_385)[267..269], [0x40, 0x01]);
    }

    #[test]
    fn rate_body() {
        let packet = rate(1);
        assert_eq!(packet[11..27], [0x0F, 0xFF].repeat(8));
        assert_eq!(packet[27..31], [0x10, 0x00, 0, 0]);
        assert_eq!(packet[257..259], [0x8E, 0x84]);
        assert_eq!(packet[259..271], [0, 0xA5, 128 + 32, 0x02, 0xC0, 0x0A, 0x0B, 0x0C, 0, 1, 1, 0]);
        let sum: u32 = packet[..271].iter().map(|b| *b as u32).sum();
        assert_eq!(packet[271] as u32, sum % 256);
    }

    #[test]
    fn sample_packets() {
        let mut slots = [0; SLOTS];
        slots[0] = 0x963E8079;
        slots[703] = 0x01020304;
        let mut packet = [0xEE; PACKET_BYTES];
        write_sample(&mut packet, 0, 2, 0, &slots);
        // Application number 606 is 25E hex.
        assert_eq!(packet[..6], [0x0A, 0x5E, 0xC0, 0x02, 0x01, 0x09]);
        assert_eq!(packet[11..16], [0x96, 0x3E, 0x80, 0x79, 0]);
        assert_eq!(packet[263..271], [0, 0, 0, 0, 0, 2, 0, 0]);
        write_sample(&mut packet, 0, 2, 10, &slots);
        assert_eq!(packet[..2], [0x0A, 0x68]);
        assert_eq!(packet[263..271], [1, 2, 3, 4, 0, 2, 10, 0]);
    }

    #[test]
    fn beacon_packet() {
        let mut counts = Counts::ZERO;
        counts.beacons[1] = 4_097;
        counts.beacons[12] = 8_191;
        let mut packet = [0xEE; PACKET_BYTES];
        let sample_counts = SampleCounts { eligible: 1_000_000, replaced: 704, dropped: 8_192 };
        write_beacon(&mut packet, 0, 0, &counts, &sample_counts);
        // Application number 624 is 270 hex.
        assert_eq!(packet[..2], [0x0A, 0x70]);
        assert_eq!(packet[11..13], [0x10, 0x01]);
        assert_eq!(packet[33..35], [0x1F, 0xFF]);
        // Eligible, replaced, dropped: 704 is 2C0 hex.
        assert_eq!(packet[35..41], [0x8E, 0x84, 0x02, 0xC0, 0x20, 0x00]);
        assert!(packet[41..269].iter().all(|b| *b == 0));
        assert_eq!(packet[269..271], [1, 0]);
    }
}
