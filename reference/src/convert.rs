//! Document 02, Point 6: rate and beacon packets from one edition of the rate code to the other. Each
//! rate's least count stays.

use crate::causes::*;
use crate::codes::Edition;
use crate::packets::*;
use crate::reader::{read, Body};

/// Why a packet is not converted.
#[derive(Clone, Copy, Debug, PartialEq, Eq)]
pub enum Kept {
    /// The reader takes it, but it is a sample packet or already in the edition wanted.
    NothingToConvert,
    /// The reader refuses it, or some rate has no first-edition code.
    Refused(Number),
}

impl Kept {
    fn number(self) -> Number {
        match self {
            Kept::NothingToConvert => BODY,
            Kept::Refused(number) => number,
        }
    }
}

/// The second edition of a packet of the first, in `out`. A refused one leaves `out` as it was.
pub fn to_second(packet: &[u8], out: &mut [u8]) -> Number {
    write_converted(packet, out, Edition::Second)
}

/// The first edition of a packet of the second, in `out`. A refused one leaves `out` as it was.
pub fn to_first(packet: &[u8], out: &mut [u8]) -> Number {
    write_converted(packet, out, Edition::First)
}

fn write_converted(packet: &[u8], out: &mut [u8], wanted: Edition) -> Number {
    let Ok(out) = <&mut Bytes>::try_from(out) else {
        return BUFFER;
    };
    match converted(packet, wanted) {
        Ok(bytes) => {
            *out = bytes;
            DONE
        }
        Err(kept) => kept.number(),
    }
}

/// The packet in the edition wanted.
pub fn converted(packet: &[u8], wanted: Edition) -> Result<Bytes, Kept> {
    match &read(packet).map_err(Kept::Refused)?.body {
        Body::Rate { mark, totals, boxes, .. } => {
            recoded(packet, *mark, totals.iter().chain(boxes), wanted)
        }
        Body::Beacon { mark, rates } => recoded(packet, *mark, rates.iter(), wanted),
        Body::Sample { .. } => Err(Kept::NothingToConvert),
    }
}

/// A rate or beacon packet that the reader took with this mark and these least counts.
fn recoded<'a>(
    packet: &[u8],
    mark: u8,
    least_counts: impl Iterator<Item = &'a u32>,
    wanted: Edition,
) -> Result<Bytes, Kept> {
    if edition(mark) == Some(wanted) {
        return Err(Kept::NothingToConvert);
    }
    let mut out: Bytes = packet.try_into().expect("272 bytes, as the reader took it");
    for (two, least) in out[CODES_AT..].chunks_exact_mut(2).zip(least_counts) {
        // On the way there every least count has a code.
        let code = wanted.code_of_least(*least).ok_or(Kept::Refused(NO_FIRST_CODE))?;
        two.copy_from_slice(&code.to_be_bytes());
    }
    out[MARK_AT] = match wanted {
        Edition::First => FIRST_MARK,
        Edition::Second => CONVERTED_MARK,
    };
    out[271] = packet_sum(&out);
    Ok(out)
}

#[cfg(test)]
mod tests {
    use super::*;
    use crate::commands::Settings;
    use crate::generate::{rates, Random};
    use crate::listing::write_listing;
    use crate::samples::SLOTS;
    use crate::sorting::Counts;
    use crate::tables::TABLE_BYTES;

    /// A rate packet of this mark whose codes are all `code`, or a beacon packet of them.
    fn of_code(number: u16, mark: u8, code: u16) -> Bytes {
        let mut packet = [0; PACKET_BYTES];
        let codes = if number == RATE { RATE_CODES } else { BEACON_CODES };
        write(&mut packet, number, 0x01020304, 40_000, |packet| {
            for two in packet[codes].chunks_exact_mut(2) {
                two.copy_from_slice(&code.to_be_bytes());
            }
            if number == RATE {
                packet[260..267].copy_from_slice(&[9, 0xF0, 0x02, 0xC0, 0xAB, 0xCD, 0xEF]);
            }
            packet[267..269].copy_from_slice(&40_000u16.to_be_bytes());
            packet[MARK_AT] = mark;
        });
        packet
    }

    /// A converter's packet; refused, its number, and `out` is as it was.
    fn answer(converter: fn(&[u8], &mut [u8]) -> Number, packet: &[u8]) -> Result<Bytes, Number> {
        let mut out = [0xEE; PACKET_BYTES];
        match converter(packet, &mut out) {
            DONE => Ok(out),
            number => {
                assert_eq!(out, [0xEE; PACKET_BYTES]);
                Err(number)
            }
        }
    }

    fn there(packet: &[u8]) -> Result<Bytes, Number> {
        answer(to_second, packet)
    }

    fn back(packet: &[u8]) -> Result<Bytes, Number> {
        answer(to_first, packet)
    }

    /// The packet with byte `at` changed and the sum renewed.
    fn changed(mut packet: Bytes, at: usize, value: u8) -> Bytes {
        packet[at] = value;
        packet[271] = packet_sum(&packet);
        packet
    }

    fn sample_packet() -> Bytes {
        let mut packet = [0; PACKET_BYTES];
        write_sample(&mut packet, 60, 7, 2, &[0x963E8079; SLOTS]);
        packet
    }

    #[test]
    fn codes_of_both_editions() {
        // The first edition's code, and the second's of the same least count.
        let codes = [
            (0x0000, 0x0000),
            (0x0FFF, 0x0FFF),
            // 4,096: e is 1, 4,096 + 4,096 - 4,096.
            (0x1800, 0x1000),
            // 2,049 x 2 = 4,098.
            (0x1801, 0x1002),
            // 1,000,000 has the least count 999,936 in both.
            (0x8F42, 0x8E84),
            // 4,095 x 4,096 = 16,773,120, between 2^23 and 2^24: e is 12, and
            // 49,152 + 16,773,120 / 2,048 - 4,096 = 49,152 + 8,190 - 4,096 = 53,246 = CFFE hex.
            (0xCFFF, 0xCFFE),
        ];
        for (first, second) in codes {
            for number in [RATE, BEACON] {
                let (old, new) = (of_code(number, 0, first), of_code(number, 2, second));
                assert_eq!(there(&old), Ok(new), "{first:x}");
                assert_eq!(back(&new), Ok(old), "{second:x}");
            }
        }
    }

    #[test]
    fn every_code_of_the_first_edition_there_and_back() {
        for code in 0..=u16::MAX {
            let packet = of_code(BEACON, 0, code);
            let (s, quotient) = (code / 4_096, code % 4_096);
            let wrong = s > 12 || s >= 1 && quotient < 2_048;
            // From 4,096 on the least count q x 2^s has e = s, and q x 2^s / 2^(s-1) = 2 q.
            let second = if s == 0 { code } else { 4_096 * (s - 1) + 2 * quotient };
            let expected = if wrong { Err(BODY) } else { Ok(of_code(BEACON, 2, second)) };
            assert_eq!(there(&packet), expected, "{code:x}");
            assert_eq!(there(&of_code(RATE, 0, code)).is_err(), wrong, "{code:x}");
            if let Ok(converted) = expected {
                assert_eq!(back(&converted), Ok(packet), "{code:x}");
            }
        }
    }

    #[test]
    fn cause_17_for_every_odd_code_from_1000_on() {
        assert_eq!(back(&of_code(RATE, 1, 0x1001)), Err(NO_FIRST_CODE)); // 4,097
        assert_eq!(back(&of_code(RATE, 1, 0x1002)), Ok(of_code(RATE, 0, 0x1801))); // 4,098
        for mark in [SECOND_MARK, CONVERTED_MARK] {
            for code in 0..=u16::MAX {
                let number = back(&of_code(BEACON, mark, code)).err().unwrap_or(DONE);
                let expected = match code {
                    0xD000.. => BODY,
                    0x1000.. if code % 2 == 1 => NO_FIRST_CODE,
                    _ => DONE,
                };
                assert_eq!(number, expected, "{code:x}");
            }
        }
    }

    #[test]
    fn one_rate_without_a_code_is_enough() {
        for (number, codes) in [(RATE, RATE_CODES), (BEACON, BEACON_CODES)] {
            let packet = of_code(number, 2, 0x1000);
            for at in codes.skip(1).step_by(2) {
                assert_eq!(back(&changed(packet, at, 1)), Err(NO_FIRST_CODE), "byte {at}");
                assert!(back(&changed(packet, at, 2)).is_ok(), "byte {at}");
            }
        }
    }

    #[test]
    fn the_counts_of_samples_are_converted_too() {
        // 4,096, 4,095 and 999,936 in bytes 35 to 40, all other rates 0.
        let of_counts = |mark: u8, codes: [u8; 6]| {
            let mut packet = of_code(BEACON, mark, 0);
            packet[35..41].copy_from_slice(&codes);
            changed(packet, MARK_AT, mark)
        };
        let old = of_counts(0, [0x18, 0x00, 0x0F, 0xFF, 0x8F, 0x42]);
        let new = of_counts(2, [0x10, 0x00, 0x0F, 0xFF, 0x8E, 0x84]);
        assert_eq!((there(&old), back(&new)), (Ok(new), Ok(old)));
        for (at, value, number) in [
            (36, 1, NO_FIRST_CODE),
            (38, 0xFF, DONE),
            (40, 0x85, NO_FIRST_CODE),
            (35, 0xD0, BODY),
            (37, 0xD0, BODY),
            (39, 0xD0, BODY),
            (41, 1, BODY),
            (266, 1, BODY),
        ] {
            let answer = back(&changed(new, at, value)).err().unwrap_or(DONE);
            assert_eq!(answer, number, "byte {at}");
        }
        assert_eq!(there(&changed(old, 35, 0x17)), Err(BODY));
        assert_eq!(there(&changed(old, 41, 1)), Err(BODY));
    }

    #[test]
    fn there_and_back_byte_for_byte() {
        let random = &mut Random::new(6);
        for i in 0..2_000 {
            let make = if i % 2 == 0 { rates::rate } else { rates::beacon };
            let mut packet = make(random, 60 * i, i as u16);
            rates::into_first(&mut packet);
            let converted = there(&packet).unwrap();
            assert_eq!(back(&converted), Ok(packet));
            // What the reader says of them differs in the mark alone.
            let (first, second) = (read(&packet).unwrap(), read(&converted).unwrap());
            assert_eq!(
                (first.sequence, first.time, first.frame),
                (second.sequence, second.time, second.frame)
            );
            assert_eq!(unmarked(first.body), unmarked(second.body));
        }
    }

    fn unmarked(body: Body) -> Body {
        match body {
            Body::Rate { totals, boxes, settings, table_sum, .. } => {
                Body::Rate { mark: 9, totals, boxes, settings, table_sum }
            }
            Body::Beacon { rates, .. } => Body::Beacon { mark: 9, rates },
            sample => sample,
        }
    }

    #[test]
    fn a_packet_marked_1_goes_back_and_comes_as_2() {
        // As written aboard; of 5,000 and 4,098 both codes are even.
        let mut aboard = [0; PACKET_BYTES];
        let counts = Counts { boxes: [4_098; 117], ..Counts::ZERO };
        write_rate(&mut aboard, 60, 7, &[5_000; 8], &counts, &Settings::FRESH, 0x123456);
        assert_eq!(aboard[MARK_AT], 1);
        let first = back(&aboard).unwrap();
        assert_eq!(first[MARK_AT], 0);
        assert_eq!(there(&first), Ok(changed(aboard, MARK_AT, 2)));
    }

    #[test]
    fn causes_11_to_13_as_the_reader() {
        for (converter, mark) in [(to_second as fn(&[u8], &mut [u8]) -> Number, 0), (to_first, 2)] {
            let right = of_code(RATE, mark, 0x0FFF);
            assert!(answer(converter, &right).is_ok());
            for packet in [&right[..0], &right[..271], &[&right[..], &[0]].concat()] {
                assert_eq!(answer(converter, packet), Err(HEADER));
            }
            let mut listing = [0; PACKET_BYTES];
            write_listing(&mut listing, 60, 7, 3, &[0; TABLE_BYTES]);
            assert_eq!(answer(converter, &listing), Err(HEADER));
            let mut wrong_sum = right;
            wrong_sum[271] = wrong_sum[271].wrapping_add(1);
            assert_eq!(answer(converter, &wrong_sum), Err(PACKET_SUM));
            for (at, value) in
                [(11, 0xD0), (259, 1), (261, 1), (263, 0xC1), (269, 3), (269, 255), (270, 1)]
            {
                assert_eq!(answer(converter, &changed(right, at, value)), Err(BODY), "byte {at}");
            }
        }
    }

    #[test]
    fn cause_13_for_samples_and_the_edition_wanted() {
        assert_eq!(there(&sample_packet()), Err(BODY));
        assert_eq!(back(&sample_packet()), Err(BODY));
        for number in [RATE, BEACON] {
            // 1001 hex has no first-edition code, which no packet of the second edition needs.
            for mark in [1, 2] {
                assert_eq!(there(&of_code(number, mark, 0x1001)), Err(BODY));
            }
            assert_eq!(back(&of_code(number, 0, 0x1800)), Err(BODY));
        }
    }

    #[test]
    fn faults_of_the_reader_are_told_from_nothing_to_convert() {
        let first = of_code(RATE, 0, 0x1800);
        let kept = |packet: &Bytes, wanted| converted(packet, wanted).unwrap_err();
        assert_eq!(kept(&first, Edition::First), Kept::NothingToConvert);
        assert_eq!(kept(&sample_packet(), Edition::First), Kept::NothingToConvert);
        assert_eq!(kept(&changed(first, 270, 1), Edition::First), Kept::Refused(BODY));
        assert_eq!(kept(&changed(sample_packet(), 270, 1), Edition::First), Kept::Refused(BODY));
    }

    #[test]
    fn causes_in_order() {
        // Faults join one another: 17, 13, 12, 11, 1 in turn.
        let mut packet = of_code(BEACON, 1, 0x1001);
        let mut number_with = |at: usize, value: u8, length: usize| {
            packet[at] = value;
            to_first(&packet, &mut [0; PACKET_BYTES + 1][..length])
        };
        assert_eq!(number_with(MARK_AT, 1, 272), NO_FIRST_CODE);
        number_with(MARK_AT, 3, 272);
        let sum = of_code(BEACON, 3, 0x1001)[271];
        assert_eq!(number_with(271, sum, 272), BODY);
        assert_eq!(number_with(271, sum.wrapping_add(1), 272), PACKET_SUM);
        assert_eq!(number_with(10, 1, 272), HEADER);
        for length in [0, 271, 273] {
            assert_eq!(number_with(10, 1, length), BUFFER);
            assert_eq!(to_second(&of_code(BEACON, 0, 0), &mut [0; 273][..length]), BUFFER);
            assert_eq!(to_second(&[], &mut [0; 273][..length]), BUFFER);
        }
    }
}
