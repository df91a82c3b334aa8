//! A state as bytes, as the records 20 and 21 of `replay` have it, most significant byte first.

use crate::commands::{Keyword, Settings, Waiting};
use crate::loads::Addresses;
use crate::processor::{Processor, MOST_COMMANDS};
use crate::samples::Samples;
use crate::sorting::Counts;

pub const STATE_BYTES: usize = 778;

pub type Image = [u8; STATE_BYTES];

const LOAD_KIND: u8 = 255;

/// frame 2; taken 4; boxes 116 × 4; beacons 12 × 4; used 4; replaced 4; readings 4; totals 8 × 4;
/// LIMHI 2; flags 1; hvstep 1; accepted 4; how many wait 4; 32 × 6; next address 4; reach 4;
/// eligible 4.
pub fn image(p: &Processor) -> Vec<u8> {
    let mut bytes = p.frame.to_be_bytes().to_vec();
    let mut words = vec![p.taken];
    words.extend(&p.counts.boxes[1..]);
    words.extend(&p.counts.beacons[1..]);
    words.extend([p.samples.used as u32, p.samples.replaced as u32, p.readings]);
    words.extend(p.totals);
    bytes.extend(words.iter().flat_map(|word| word.to_be_bytes()));
    bytes.extend(p.settings.limhi.to_be_bytes());
    bytes.extend([flags(&p.settings), p.settings.hvstep]);
    for count in [p.accepted, p.waits] {
        bytes.extend((count as u32).to_be_bytes());
    }
    bytes.extend(p.waiting.iter().flat_map(entry));
    for number in [p.addresses.next, p.addresses.reach, p.samples.eligible] {
        bytes.extend((number as u32).to_be_bytes());
    }
    bytes
}

/// hv 128, Eonly 64, toferror 32, junk 16.
fn flags(s: &Settings) -> u8 {
    let bits = [(s.hv, 128), (s.eonly, 64), (s.toferror, 32), (s.junk, 16)];
    bits.iter().filter(|(on, _)| *on).map(|(_, bit)| bit).sum()
}

/// kind 1 (0 limhi, 1 eonly, 2 toferror, 3 junk, 4 hv, 5 hvstep, 255 a load), value or address 4,
/// y 1, for a setting 0.
fn entry(one: &Waiting) -> [u8; 6] {
    let (kind, value, y) = match *one {
        Waiting::Set(keyword, value) => (keyword as u8, value as u32, 0),
        Waiting::Load(a, y) => (LOAD_KIND, a, y),
    };
    let [v0, v1, v2, v3] = value.to_be_bytes();
    [kind, v0, v1, v2, v3, y]
}

/// The state of these bytes: none if a waiting command is of another kind, or a setting's value
/// is over 65,535.
pub fn state(bytes: &Image) -> Option<Processor> {
    let mut rest = &bytes[..];
    let frame = two(&mut rest);
    let taken = four(&mut rest);
    let mut counts = Counts::ZERO;
    counts.boxes[1..].fill_with(|| four(&mut rest));
    counts.beacons[1..].fill_with(|| four(&mut rest));
    let [used, replaced] = [(); 2].map(|()| four(&mut rest) as usize);
    let readings = four(&mut rest);
    let totals = [(); 8].map(|()| four(&mut rest));
    let limhi = two(&mut rest);
    let [flags, hvstep] = part(&mut rest);
    let [hv, eonly, toferror, junk] = [128, 64, 32, 16].map(|bit| flags & bit != 0);
    let [accepted, waits] = [(); 2].map(|()| four(&mut rest) as usize);
    let mut waiting = [Waiting::EMPTY; MOST_COMMANDS];
    for one in &mut waiting {
        *one = read_entry(part(&mut rest))?;
    }
    let [next, reach, eligible] = [(); 3].map(|()| four(&mut rest) as usize);
    Some(Processor {
        frame,
        taken,
        counts,
        samples: Samples { eligible, used, replaced },
        readings,
        totals,
        settings: Settings { limhi, eonly, toferror, junk, hv, hvstep },
        accepted,
        waiting,
        waits,
        addresses: Addresses { next, reach },
    })
}

fn read_entry([kind, v0, v1, v2, v3, y]: [u8; 6]) -> Option<Waiting> {
    let value = u32::from_be_bytes([v0, v1, v2, v3]);
    if kind == LOAD_KIND {
        return Some(Waiting::Load(value, y));
    }
    let keyword = *Keyword::ALL.get(kind as usize)?;
    Some(Waiting::Set(keyword, value.try_into().ok()?))
}

fn part<const N: usize>(rest: &mut &[u8]) -> [u8; N] {
    let (first, behind) = rest.split_first_chunk().expect("the length of a state");
    *rest = behind;
    *first
}

fn two(rest: &mut &[u8]) -> u16 {
    u16::from_be_bytes(part(rest))
}

fn four(rest: &mut &[u8]) -> u32 {
    u32::from_be_bytes(part(rest))
}

#[cfg(test)]
mod tests {
    use super::*;
    use crate::generate::{states, Random};

    fn read(bytes: &[u8]) -> Option<Processor> {
        state(bytes.try_into().expect("778 bytes"))
    }

    #[test]
    fn every_state_comes_back() {
        let mut random = Random::new(7);
        for _ in 0..2_000 {
            let any = states::any(&mut random);
            assert_eq!(read(&image(&any)), Some(any));
        }
    }

    #[test]
    fn where_each_field_stands() {
        let mut p = Processor { frame: 0x0102, taken: 0x03040506, ..Processor::FRESH };
        p.counts.boxes[116] = 7;
        p.counts.beacons[1] = 8;
        p.samples = Samples { used: 9, replaced: 10, eligible: 0x1920_2122 };
        p.readings = 11;
        p.totals[7] = 12;
        p.settings = Settings { hv: true, toferror: true, hvstep: 13, ..Settings::FRESH };
        (p.accepted, p.waits) = (14, 15);
        p.waiting[0] = Waiting::Set(Keyword::Hvstep, 0x1011);
        p.waiting[31] = Waiting::Load(0x1213_1415, 16);
        p.addresses = Addresses { next: 17, reach: 18 };
        let bytes = image(&p);
        assert_eq!(bytes.len(), 778);
        assert_eq!(bytes[..6], [1, 2, 3, 4, 5, 6]);
        assert_eq!([bytes[469], bytes[473], bytes[521], bytes[525]], [7, 8, 9, 10]);
        assert_eq!([bytes[529], bytes[561]], [11, 12]);
        assert_eq!(bytes[562..566], [1, 0xF4, 160, 13]);
        assert_eq!([bytes[569], bytes[573]], [14, 15]);
        assert_eq!(bytes[574..580], [5, 0, 0, 0x10, 0x11, 0]);
        assert_eq!(bytes[580..586], [0; 6]); // an empty entry
        assert_eq!(bytes[760..766], [255, 0x12, 0x13, 0x14, 0x15, 16]);
        assert_eq!([bytes[769], bytes[773]], [17, 18]);
        assert_eq!(bytes[774..], [0x19, 0x20, 0x21, 0x22]);
    }

    #[test]
    fn bytes_that_are_no_state() {
        let fresh = image(&Processor::FRESH);
        let changed = |at: usize, bytes: &[u8]| {
            let mut image = fresh.clone();
            image[at..at + bytes.len()].copy_from_slice(bytes);
            read(&image)
        };
        for kind in [6, 7, 128, 254] {
            assert_eq!(changed(574 + 6 * 31, &[kind]), None, "{kind}");
        }
        assert_eq!(changed(574, &[5, 0, 1, 0, 0, 0]), None); // 65,536
        assert_eq!(changed(574, &[5, 1, 0, 0, 0, 0]), None);
        assert!(changed(574, &[255, 255, 255, 255, 255, 255]).is_some());
        // Other flags are ignored, and so is y of a setting.
        assert_eq!(changed(564, &[15]), Some(Processor::FRESH));
        assert_eq!(changed(579, &[99]), Some(Processor::FRESH));
    }
}
