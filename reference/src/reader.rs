//! The ground reader: document 01, "Packets" and causes 11 to 13; document 02, Points 5 and 6: both
//! editions of the rate code, by the packet's mark; Point 7: a beacon packet's fifteen rates.

use crate::causes::*;
use crate::codes::Edition;
use crate::commands::Settings;
use crate::packets::*;

/// What the reader returns of a packet.
#[derive(Debug, PartialEq, Eq)]
pub struct Packet<'a> {
    pub sequence: u16,
    pub time: u32,
    pub frame: u16,
    pub body: Body<'a>,
}

/// Rates are least counts, by the edition of the packet's mark; those of a beacon packet are twelve
/// beacons, then eligible, replaced and dropped.
#[derive(Debug, PartialEq, Eq)]
pub enum Body<'a> {
    Rate { mark: u8, totals: [u32; 8], boxes: [u32; 116], settings: Settings, table_sum: u32 },
    Sample { p: u8, records: &'a [u8] },
    Beacon { mark: u8, rates: [u32; 15] },
}

pub fn read(packet: &[u8]) -> Result<Packet<'_>, Number> {
    let known = |number| matches!(number, RATE | FIRST_SAMPLE..=LAST_SAMPLE | BEACON);
    let body = match application(packet, known)? {
        RATE => rate(packet),
        BEACON => beacon(packet),
        sample_number => sample(packet, sample_number),
    };
    Ok(Packet {
        sequence: two_bytes(packet, 2) % 16_384,
        time: (two_bytes(packet, 6) as u32) << 16 | two_bytes(packet, 8) as u32,
        frame: two_bytes(packet, 267),
        body: body.ok_or(BODY)?,
    })
}

/// The application number, one of those `known`; 11 for another packet or header, then 12.
/// Any sequence count and any time pass.
pub fn application(packet: &[u8], known: impl Fn(u16) -> bool) -> Result<u16, Number> {
    if packet.len() != PACKET_BYTES {
        return Err(HEADER);
    }
    let first = two_bytes(packet, 0);
    let number = first % 2_048;
    let right = first >> 11 == 1 // version 0, type 0, secondary flag 1
        && packet[2] >> 6 == 3
        && two_bytes(packet, 4) == 265
        && packet[10] == 0;
    if !right || !known(number) {
        return Err(HEADER);
    }
    if packet[271] != packet_sum(packet) {
        return Err(PACKET_SUM);
    }
    Ok(number)
}

fn rate(packet: &[u8]) -> Option<Body<'_>> {
    let unused = [packet[259], packet[261] & 15, packet[270]];
    let limhi = two_bytes(packet, 262);
    if unused != [0; 3] || limhi > 704 {
        return None;
    }
    let (mark, edition) = marked(packet)?;
    Some(Body::Rate {
        mark,
        totals: rates(packet, 11, edition)?,
        boxes: rates(packet, 27, edition)?,
        settings: Settings {
            limhi,
            hvstep: packet[260],
            hv: packet[261] & 128 != 0,
            eonly: packet[261] & 64 != 0,
            toferror: packet[261] & 32 != 0,
            junk: packet[261] & 16 != 0,
        },
        table_sum: three_bytes(packet, 264),
    })
}

fn sample(packet: &[u8], application: u16) -> Option<Body<'_>> {
    let p = packet[269];
    let records = &packet[11..267];
    let right = application == FIRST_SAMPLE + p as u16 && packet[270] == 0 && records_lawful(records);
    right.then_some(Body::Sample { p, records })
}

/// Whether each record is empty or of box 6 to 116. The box is the upper part of its last byte: with
/// that byte highest it is compared whole, and without an early exit several at once.
fn records_lawful(records: &[u8]) -> bool {
    let lawful = |record: &[u8]| {
        let mirrored = u32::from_le_bytes(record.try_into().expect("four bytes"));
        (mirrored == 0) | (6 << 25..117 << 25).contains(&mirrored)
    };
    records.chunks_exact(4).fold(true, |all, record| all & lawful(record))
}

fn beacon(packet: &[u8]) -> Option<Body<'_>> {
    let unused = [&packet[41..267], &packet[270..271]];
    if unused.into_iter().flatten().any(|byte| *byte != 0) {
        return None;
    }
    let (mark, edition) = marked(packet)?;
    Some(Body::Beacon { mark, rates: rates(packet, 11, edition)? })
}

/// The mark of a rate or beacon packet and its edition; none for any other byte.
fn marked(packet: &[u8]) -> Option<(u8, Edition)> {
    let mark = packet[MARK_AT];
    Some((mark, edition(mark)?))
}

/// The least counts of the N codes from byte `from` on.
fn rates<const N: usize>(packet: &[u8], from: usize, edition: Edition) -> Option<[u32; N]> {
    let mut counts = [0; N];
    for (i, count) in counts.iter_mut().enumerate() {
        *count = edition.least_count(two_bytes(packet, from + 2 * i))?;
    }
    Some(counts)
}

fn two_bytes(packet: &[u8], at: usize) -> u16 {
    u16::from_be_bytes([packet[at], packet[at + 1]])
}

pub fn three_bytes(packet: &[u8], at: usize) -> u32 {
    (packet[at] as u32) << 16 | two_bytes(packet, at + 1) as u32
}

#[cfg(test)]
mod tests {
    use super::*;
    use crate::sample_counts::SampleCounts;
    use crate::samples::SLOTS;
    use crate::sorting::Counts;

    const SETTINGS: Settings =
        Settings { limhi: 3, eonly: true, toferror: false, junk: true, hv: false, hvstep: 9 };

    fn rate_packet() -> [u8; PACKET_BYTES] {
        let mut counts = Counts::ZERO;
        counts.boxes[5] = 1_000_000;
        let mut packet = [0; PACKET_BYTES];
        write_rate(&mut packet, 60, 40_000, &[8_193; 8], &counts, &SETTINGS, 0x123456);
        packet
    }

    fn sample_packet(p: usize) -> [u8; PACKET_BYTES] {
        let mut packet = [0; PACKET_BYTES];
        write_sample(&mut packet, 60, 7, p, &[0x963E8079; SLOTS]);
        packet
    }

    fn beacon_packet() -> [u8; PACKET_BYTES] {
        let mut packet = [0; PACKET_BYTES];
        let counts = Counts { beacons: [5_000; 13], ..Counts::ZERO };
        let sample_counts = SampleCounts { eligible: 1_000_000, replaced: 500, dropped: 8_193 };
        write_beacon(&mut packet, 60, 7, &counts, &sample_counts);
        packet
    }

    /// The reader's number once byte `at` is changed, with the sum renewed.
    fn changed(mut packet: [u8; PACKET_BYTES], at: usize, value: u8) -> Number {
        packet[at] = value;
        packet[271] = packet_sum(&packet);
        read(&packet).err().unwrap_or(DONE)
    }

    #[test]
    fn a_rate_packet_reads_back() {
        let packet = rate_packet();
        let read = read(&packet).unwrap();
        // 40,000 modulo 16,384 is 7,232; 8,193 has least count 8,192, 1,000,000 7,812 x 128.
        assert_eq!((read.sequence, read.time, read.frame), (7_232, 60, 40_000));
        let mut boxes = [0; 116];
        boxes[4] = 999_936;
        let totals = [8_192; 8];
        let (mark, settings, table_sum) = (1, SETTINGS, 0x123456);
        assert_eq!(read.body, Body::Rate { mark, totals, boxes, settings, table_sum });
    }

    #[test]
    fn a_sample_packet_hands_back_its_own_bytes() {
        let packet = sample_packet(10);
        let Body::Sample { p, records } = read(&packet).unwrap().body else { panic!() };
        assert_eq!(p, 10);
        assert!(std::ptr::eq(records, &packet[11..267]));
    }

    #[test]
    fn a_beacon_packet_reads_back() {
        // 5,000 is below 8,192: every n has its own code. 8,193 has the least count 8,192.
        let mut rates = [5_000; 15];
        rates[12..].copy_from_slice(&[999_936, 500, 8_192]);
        assert_eq!(read(&beacon_packet()).unwrap().body, Body::Beacon { mark: 1, rates });
    }

    #[test]
    fn cause_11() {
        let packet = rate_packet();
        assert_eq!(read(&[]), Err(HEADER));
        assert_eq!(read(&packet[..271]), Err(HEADER));
        assert_eq!(read(&[&packet[..], &[0]].concat()), Err(HEADER));
        for (at, value) in [
            (0, 0x2A), // version 1
            (0, 0x1A), // type 1
            (0, 0x02), // secondary flag 0
            (1, 0x5C), // application number 604
            (1, 0x52), // 594, a listing packet
            (1, 0x69), // 617
            (1, 0x71), // 625
            (2, 0x80), // sequence flags 2
            (4, 0x02),
            (5, 0x08),
            (10, 1),
        ] {
            assert_eq!(changed(packet, at, value), HEADER, "byte {at}");
        }
        assert_eq!(changed(packet, 2, 0xFF), DONE, "any sequence count passes");
    }

    #[test]
    fn cause_12_comes_before_13() {
        let mut packet = rate_packet();
        packet[259] = 1;
        assert_eq!(read(&packet), Err(PACKET_SUM));
        packet[271] = packet[271].wrapping_add(1);
        assert_eq!(read(&packet), Err(BODY));
    }

    #[test]
    fn cause_13_in_each_unused_byte() {
        for at in [259, 270] {
            assert_eq!(changed(rate_packet(), at, 1), BODY);
        }
        for bit in 0..4 {
            assert_eq!(changed(rate_packet(), 261, 1 << bit), BODY);
            assert_eq!(changed(rate_packet(), 261, 16 << bit), DONE);
        }
        assert_eq!(changed(sample_packet(3), 270, 128), BODY);
        for at in (41..267).chain([270]) {
            assert_eq!(changed(beacon_packet(), at, 1), BODY);
        }
        for at in 11..41 {
            assert_eq!(changed(beacon_packet(), at, 1), DONE);
        }
    }

    #[test]
    fn cause_13_in_codes_and_limhi() {
        for at in [11, 25, 27, 257] {
            assert_eq!(changed(rate_packet(), at, 0x17), DONE);
            assert_eq!(changed(rate_packet(), at, 0xD0), BODY);
            assert_eq!(changed(rate_packet(), at, 0xCF), DONE);
        }
        for at in [11, 33, 35, 37, 39] {
            assert_eq!(changed(beacon_packet(), at, 0xFF), BODY);
        }
        let mut packet = rate_packet();
        packet[262] = 2;
        assert_eq!(changed(packet, 263, 0xC0), DONE); // 2C0 hex is 704
        assert_eq!(changed(packet, 263, 0xC1), BODY);
    }

    /// All rates of one code, under a mark.
    fn of_code(
        mut packet: [u8; PACKET_BYTES],
        codes: std::ops::Range<usize>,
        code: u16,
    ) -> [u8; PACKET_BYTES] {
        packet[codes].chunks_exact_mut(2).for_each(|two| two.copy_from_slice(&code.to_be_bytes()));
        packet
    }

    #[test]
    fn the_mark_says_by_which_edition_a_code_is_judged() {
        // Each code with its least count in the first and in the second edition.
        let codes: [(u16, Option<u32>, Option<u32>); 7] = [
            (0x0FFF, Some(4_095), Some(4_095)),
            (0x1000, None, Some(4_096)),
            (0x17FF, None, Some(6_143)),
            (0x1800, Some(4_096), Some(6_144)),
            (0xCFFF, Some(16_773_120), Some(16_775_168)),
            (0xD000, None, None),
            (0xFFFF, None, None),
        ];
        for (code, first, second) in codes {
            let rate = of_code(rate_packet(), RATE_CODES, code);
            let beacon = of_code(beacon_packet(), BEACON_CODES, code);
            for (mark, least) in [(0, first), (1, second), (2, second), (3, None), (255, None)] {
                let number = if least.is_some() { DONE } else { BODY };
                assert_eq!(changed(rate, 269, mark), number, "code {code:x}, mark {mark}");
                assert_eq!(changed(beacon, 269, mark), number, "code {code:x}, mark {mark}");
                let Some(least) = least else { continue };
                let mut marked = beacon;
                marked[269] = mark;
                marked[271] = packet_sum(&marked);
                let body = read(&marked).unwrap().body;
                assert_eq!(body, Body::Beacon { mark, rates: [least; 15] });
            }
        }
    }

    #[test]
    fn cause_13_in_samples() {
        assert_eq!(changed(sample_packet(3), 269, 4), BODY);
        assert_eq!(changed(sample_packet(3), 1, 0x5E), BODY); // number 606 with p 3
        for (b, number) in [(0, BODY), (5, BODY), (6, DONE), (116, DONE), (117, BODY), (127, BODY)] {
            assert_eq!(changed(sample_packet(3), 266, b << 1), number, "box {b}");
        }
    }
}
