//! What must hold of the conversions in every generated stream and archive, by a rule for the codes
//! themselves: from 4,096 counts on the first edition's code 4,096 s + q, with the least count
//! q x 2^s, is the second's 4,096 s + 2 q - 4,096, and an odd code of the second is none of the
//! first. And that conversions of every kind occur.

use std::collections::{BTreeMap, BTreeSet};
use std::slice::ChunksExactMut;

use reference::calls::{read, Call, Form};
use reference::convert::{to_first, to_second};
use reference::generate::archive::write_archive;
use reference::generate::Stream;
use reference::packets::{packet_sum, BEACON_CODES, RATE_CODES};
use reference::reader;

/// The codes of a rate or beacon packet, two bytes each.
fn codes(packet: &mut [u8]) -> ChunksExactMut<'_, u8> {
    let codes = match packet[1] {
        0x5D => RATE_CODES,
        0x70 => BEACON_CODES,
        _ => 0..0,
    };
    packet[codes].chunks_exact_mut(2)
}

/// The packet in the other edition, or the number.
fn expected(packet: &[u8], first: bool) -> Result<Vec<u8>, u8> {
    reader::read(packet)?;
    let mut out = packet.to_vec();
    if codes(&mut out).len() == 0 || (packet[269] == 0) == first {
        return Err(13);
    }
    for two in codes(&mut out) {
        let code = u16::from_be_bytes([two[0], two[1]]);
        let (s, rest) = (code / 4_096, code % 4_096);
        let other = match (s, first) {
            (0, _) => code,
            (_, false) => 4_096 * s + 2 * rest - 4_096,
            (_, true) if rest % 2 == 0 => 4_096 * s + rest / 2 + 2_048,
            _ => return Err(17),
        };
        two.copy_from_slice(&other.to_be_bytes());
    }
    out[269] = if first { 0 } else { 2 };
    out[271] = packet_sum(&out);
    Ok(out)
}

/// One converter's answer, which must be the expected one.
fn answered(packet: &[u8], first: bool) -> Result<Vec<u8>, u8> {
    let mut out = vec![0xEE; 272];
    let number = if first { to_first(packet, &mut out) } else { to_second(packet, &mut out) };
    assert!(number == 0 || out == [0xEE; 272]);
    let answer = if number == 0 { Ok(out) } else { Err(number) };
    assert_eq!(answer, expected(packet, first));
    answer
}

/// The packets that a stream gives to the converters, each with the way.
fn conversions(seed: u64) -> Vec<(Vec<u8>, bool)> {
    let mut stream = Stream::new(seed, Form::Replay);
    stream.tell(5_000);
    let (mut input, mut packets) = (&stream.bytes[..], Vec::new());
    while let Ok(Some(call)) = read(&mut input, Form::Replay) {
        match call {
            Call::ToSecond(packet) => packets.push((packet, false)),
            Call::ToFirst(packet) => packets.push((packet, true)),
            _ => {}
        }
    }
    packets
}

/// What a packet looks like.
fn kind(packet: &[u8]) -> &'static str {
    if packet.len() != 272 {
        return if [0, 271, 273].contains(&packet.len()) { "length" } else { "other length" };
    }
    match (packet[1], packet[269]) {
        (0x52, _) => "listing",
        (0x5E..=0x68, _) => "sample",
        (0x5D | 0x70, 0) => "mark 0",
        (0x5D | 0x70, 1) => "mark 1",
        (0x5D | 0x70, 2) => "mark 2",
        (0x5D | 0x70, 3 | 255) => "mark 3 or 255",
        _ => "other",
    }
}

/// How often at least each number is answered in 40 streams, for packets of each kind.
const TO_SECOND: [(&str, u8, usize); 11] = [
    ("mark 0", 0, 300),
    ("mark 0", 11, 5),
    ("mark 0", 12, 30),
    ("mark 0", 13, 50),
    ("mark 1", 13, 50),
    ("mark 2", 13, 50),
    ("mark 3 or 255", 13, 10),
    ("sample", 13, 30),
    ("listing", 11, 20),
    ("length", 11, 20),
    ("other", 11, 10),
];
const TO_FIRST: [(&str, u8, usize); 14] = [
    ("mark 0", 13, 100),
    ("mark 1", 0, 100),
    ("mark 1", 12, 20),
    ("mark 1", 13, 20),
    ("mark 1", 17, 50),
    ("mark 2", 0, 100),
    ("mark 2", 12, 20),
    ("mark 2", 13, 20),
    ("mark 2", 17, 50),
    ("mark 3 or 255", 13, 10),
    ("sample", 13, 30),
    ("listing", 11, 20),
    ("length", 11, 20),
    ("other", 11, 5),
];

#[test]
fn conversions_of_streams() {
    let mut seen: BTreeMap<(bool, &str, u8), usize> = BTreeMap::new();
    let mut and_back = 0;
    for seed in 0..40 {
        // What the call before this one wrote, and the other way.
        let mut last = None;
        for (packet, first) in conversions(seed) {
            let answer = answered(&packet, first);
            let number = answer.as_ref().err().copied().unwrap_or(0);
            and_back += (number == 0 && last == Some((packet.clone(), first))) as usize;
            *seen.entry((first, kind(&packet), number)).or_default() += 1;
            last = answer.ok().map(|converted| (converted, !first));
        }
    }
    for (first, cases) in [(false, &TO_SECOND[..]), (true, &TO_FIRST)] {
        for (kind, number, least) in cases {
            let times = seen.get(&(first, kind, *number)).copied().unwrap_or(0);
            assert!(times >= *least, "to first {first}, {kind}, {number}: {times}");
        }
    }
    assert!(and_back > 200, "{and_back}");
}

/// Codes at the edges, and the number answered for some packet with one of them.
const FIRST_EDGES: [(u16, usize); 7] =
    [(0x0FFF, 0), (0x1800, 0), (0xCFFF, 0), (0x1000, 13), (0x17FF, 13), (0xD000, 13), (0xFFFF, 13)];
const SECOND_EDGES: [(u16, usize); 9] = [
    (0x0FFF, 0),
    (0x1000, 0),
    (0x1800, 0),
    (0xCFFE, 0),
    (0x1001, 17),
    (0x17FF, 17),
    (0xCFFF, 17),
    (0xD000, 13),
    (0xFFFF, 13),
];

#[test]
fn edges_of_both_editions_are_converted_and_refused() {
    let mut seen: BTreeMap<(bool, u8, u16), [usize; 18]> = BTreeMap::new();
    for seed in 40..100 {
        for (mut packet, first) in conversions(seed) {
            let number = answered(&packet, first).err().unwrap_or(0);
            if packet.len() != 272 || [11, 12].contains(&number) {
                continue;
            }
            let mark = packet[269];
            for two in codes(&mut packet) {
                let code = u16::from_be_bytes([two[0], two[1]]);
                seen.entry((first, mark, code)).or_default()[number as usize] += 1;
            }
        }
    }
    let mut occurs = |first, mark, code, number: usize| {
        let times = seen.entry((first, mark, code)).or_default()[number];
        assert!(times > 0, "to first {first}, mark {mark}, code {code:x}, number {number}");
    };
    for (code, number) in FIRST_EDGES {
        occurs(false, 0, code, number);
    }
    for (code, number) in SECOND_EDGES {
        occurs(true, 1, code, number);
        occurs(true, 2, code, number);
    }
}

#[test]
fn counts_of_samples_are_converted_and_refused() {
    let mut seen = BTreeSet::new();
    for seed in 0..40 {
        for (packet, first) in conversions(seed) {
            if packet.len() == 272 && packet[1] == 0x70 && packet[35..41] != [0; 6] {
                let number = answered(&packet, first).err().unwrap_or(0);
                seen.insert((first, packet[269], number));
            }
        }
    }
    for case in [(false, 0, 0), (false, 0, 13), (true, 1, 0), (true, 2, 0), (true, 1, 17), (true, 2, 17)]
    {
        assert!(seen.contains(&case), "{case:?}");
    }
}

fn archive(seed: u64, packets: usize, damaged: bool) -> Vec<u8> {
    let mut bytes = Vec::new();
    write_archive(seed, packets, damaged, &mut bytes).unwrap();
    bytes
}

#[test]
fn an_archive_is_of_the_first_edition() {
    let bytes = archive(1, 1_000, false);
    assert_eq!(bytes.len(), 1_000 * 272);
    assert!(archive(1, 13, false) == bytes[..13 * 272]);
    let mut first = None;
    for (i, packet) in bytes.chunks(272).enumerate() {
        let read = reader::read(packet).unwrap();
        assert_eq!((read.frame, read.sequence), (i as u16 / 13, i as u16 / 13));
        // 605 to 616 and 624 are 25D to 268 and 270 hex.
        let k = i % 13;
        assert_eq!(packet[1] as usize, if k == 12 { 0x70 } else { 0x5D + k });
        // No counts of samples yet.
        assert!(k != 12 || packet[35..267].iter().all(|byte| *byte == 0));
        assert_eq!(answered(packet, false).is_ok(), k == 0 || k == 12);
        let time = *first.get_or_insert(read.time) + 60 * (i as u32 / 13);
        assert_eq!(read.time, time);
    }
}

#[test]
fn a_damaged_archive_is_the_same_but_for_some_packets() {
    let (whole, damaged) = (archive(2, 20_000, false), archive(2, 20_000, true));
    let end = damaged.len();
    assert!((19_999 * 272 + 1..20_000 * 272).contains(&end));
    let mut seen: BTreeMap<(&str, u8), usize> = BTreeMap::new();
    let mut foreign = 0;
    for (sent, kept) in whole.chunks(272).zip(damaged.chunks_exact(272)) {
        let number = answered(kept, true).err().unwrap_or(0);
        let taken = reader::read(kept).is_ok();
        *seen.entry((if taken { "taken" } else { "refused" }, number)).or_default() += 1;
        assert!(sent == kept || !taken || kept[269] == 1 || kept[269] == 2);
        foreign += !taken as usize;
    }
    // 20,000 / 50.
    assert!((300..500).contains(&foreign), "{foreign}");
    for case in [("taken", 0), ("taken", 17), ("refused", 11), ("refused", 12), ("refused", 13)] {
        assert!(seen.get(&case).is_some_and(|times| *times > 20), "{case:?} {seen:?}");
    }
    assert!(archive(2, 0, true).is_empty());
}
