//! Realistic tables and particles: formulas A1-5 to A1-9 of source document 000, with the
//! boxes of its Appendix 3 and the beacons of its Appendix 4.

use crate::generate::Random;
use crate::sorting::{Event, ERROR, FLG0, FLG1, VALID_STOP};
use crate::tables::*;

/// The scale of all table words.
const SCALE: f64 = 65_536.0;
/// Khi, Klo and Ktof (000, Appendix 2).
const OFFSET: f64 = 8.0;
/// MeV a channel (000, Table 1).
const HIGH_MEV: f64 = 0.01;
const LOW_MEV: f64 = 0.08;
/// The flight time of a channel in ns: a straight line through the entries of Table A2-3.
const FIRST_NS: f64 = 0.48;
const NS: f64 = 0.2506;
/// The constant of formula A1-7: einc = 1 / (0.021 tof^2).
const PATH: f64 = 0.021;

/// Natural logarithm by plain arithmetic, equal on every machine.
pub fn ln(x: f64) -> f64 {
    let (mut m, mut doublings) = (x, 0.0);
    while m > 1.5 {
        m /= 2.0;
        doublings += 1.0;
    }
    while m < 0.75 {
        m *= 2.0;
        doublings -= 1.0;
    }
    let z = (m - 1.0) / (m + 1.0);
    let (mut sum, mut power) = (0.0, z);
    for odd in (1..40).step_by(2) {
        sum += power / odd as f64;
        power *= z * z;
    }
    2.0 * sum + doublings * std::f64::consts::LN_2
}

/// Matrix rate boxes of one species: the first box, the mass range in AMU, and the
/// energies in MeV a nucleon between which its boxes lie.
struct Species {
    first: u8,
    mass: (f64, f64),
    energies: &'static [f64],
}

/// Edges spaced by the square root of two.
const EDGES: [f64; 18] = [
    0.0200, 0.0283, 0.0400, 0.0566, 0.0800, 0.1131, 0.1600, 0.2263, 0.3200, 0.4525, 0.6400, 0.9051,
    1.2800, 1.8102, 2.5600, 3.6204, 5.1200, 7.2408,
];
const HELIUM_EDGES: [f64; 17] = [
    0.0283, 0.0400, 0.0566, 0.0800, 0.1132, 0.1601, 0.2264, 0.3202, 0.4528, 0.6404, 0.9056, 1.2807,
    1.8112, 2.5614, 3.6224, 5.1228, 7.2448,
];

/// Table A3-1.
const SPECIES: [Species; 9] = [
    Species { first: 8, mass: (0.5, 1.5), energies: EDGES.split_at(4).1 }, // H
    Species { first: 21, mass: (2.5, 3.2), energies: &[0.15, 0.25] },      // 3He
    Species { first: 22, mass: (2.5, 3.2), energies: &[0.8, 1.2] },        // 3He
    Species { first: 23, mass: (3.5, 5.0), energies: &HELIUM_EDGES },      // 4He
    Species { first: 39, mass: (10.0, 13.0), energies: &EDGES },           // C
    Species { first: 56, mass: (15.0, 17.0), energies: &EDGES },           // O
    Species { first: 73, mass: (19.0, 34.0), energies: &EDGES },           // Ne to S
    Species { first: 90, mass: (40.0, 60.0), energies: EDGES.split_at(15).0 }, // Fe
    Species { first: 104, mass: (80.0, 240.0), energies: &[0.02, 0.04, 0.08, 0.16, 0.32, 0.64, 1.28] },
];

/// Table A4-2: the matrix rate boxes of each beacon.
const BEACONS: [&[u8]; 12] = [
    &[23],
    &[26, 27],
    &[30, 31],
    &[34, 35],
    &[39, 40, 56, 57],
    &[43, 44, 60, 61],
    &[47, 48, 64, 65],
    &[51, 52, 68, 69],
    &[90, 91],
    &[94, 95],
    &[98, 99],
    &[102, 103],
];

/// Masses from here on have priority 1.
const HEAVY: f64 = 8.0;

/// The box of a mass and an energy a nucleon, both as logarithms; 7 if it has none.
fn box_of(ln_mass: f64, ln_energy: f64) -> u8 {
    for species in &SPECIES {
        if ln_mass < ln(species.mass.0) || ln_mass >= ln(species.mass.1) {
            continue;
        }
        for (i, edge) in species.energies.windows(2).enumerate() {
            if ln_energy >= ln(edge[0]) && ln_energy < ln(edge[1]) {
                return species.first + i as u8;
            }
        }
    }
    7
}

fn beacon_of(b: u8) -> u8 {
    BEACONS.iter().position(|boxes| boxes.contains(&b)).map_or(0, |i| i as u8 + 1)
}

/// A table word of a logarithm: (value + K) x 2^16.
fn scaled(value: f64) -> u32 {
    ((value + OFFSET) * SCALE + 0.5).max(0.0) as u32
}

pub fn flight_time(channel: usize) -> f64 {
    FIRST_NS + NS * channel as f64
}

pub fn tables() -> Vec<u8> {
    let mut tables = Box::new([0; TABLE_BYTES]);
    // A1-5 and A1-6; channel 0 has no energy and keeps the word 0.
    for channel in 1..2_048 {
        set_word(&mut tables, HIGH_ENERGY + channel, scaled(ln(HIGH_MEV * channel as f64)));
        set_word(&mut tables, LOW_ENERGY + channel, scaled(ln(LOW_MEV * channel as f64)));
    }
    // A1-7.
    for channel in 0..512 {
        let tof = flight_time(channel);
        set_word(&mut tables, TIME_OF_FLIGHT + channel, scaled(ln(PATH * tof * tof)));
    }
    for offset in [KHI, KLO, KTOF] {
        set_word(&mut tables, offset, scaled(0.0));
    }
    // The matrix, by the middle of each cell: f_m is (ln mass + 1) 128 / 7, A1-8 as printed,
    // and f_e is 16 (ln energy + 5.5), A1-9.
    for f_m in 0..128 {
        for f_e in 0..128 {
            let ln_mass = (f_m as f64 + 0.5) * 7.0 / 128.0 - 1.0;
            let ln_energy = (f_e as f64 + 0.5) / 16.0 - 5.5;
            let b = box_of(ln_mass, ln_energy);
            let priority = if ln_mass >= ln(HEAVY) { 128 } else { 0 };
            let cell = position(MATRIX + 128 * f_m + f_e);
            tables[cell] = priority + b;
            tables[cell + 1] = beacon_of(b);
        }
    }
    tables.to_vec()
}

/// A kind of particle: its mass and the range of its energies in MeV a nucleon.
#[derive(Clone, Copy)]
pub struct Particle {
    pub mass: f64,
    pub energies: (f64, f64),
}

pub const PROTON: Particle = Particle { mass: 1.0, energies: (0.1, 8.0) };
pub const HELIUM: Particle = Particle { mass: 4.0, energies: (0.03, 8.0) };
pub const OXYGEN: Particle = Particle { mass: 16.0, energies: (0.02, 8.0) };
pub const IRON: Particle = Particle { mass: 56.0, energies: (0.02, 2.6) };
pub const PARTICLES: [Particle; 8] = [
    PROTON,
    Particle { mass: 3.0, ..HELIUM },
    HELIUM,
    Particle { mass: 12.0, ..OXYGEN },
    OXYGEN,
    Particle { mass: 24.0, ..OXYGEN },
    IRON,
    Particle { mass: 132.0, energies: (0.02, 1.28) },
];

/// An event of the particle: an energy from a spectrum that falls as E^-2, its flight time
/// by A1-2 and the detector's energy, both measured with some error.
pub fn particle_event(random: &mut Random, particle: Particle) -> Event {
    let (low, high) = particle.energies;
    let energy = 1.0 / (1.0 / low - random.unit() * (1.0 / low - 1.0 / high));
    let tof = (1.0 / (PATH * energy)).sqrt() + 0.15 * random.normal();
    let mev = particle.mass * energy * (1.0 + 0.02 * random.normal());
    let channel = |value: f64, most: f64| (value + 0.5).clamp(0.0, most) as u16;
    Event {
        t: channel((tof - FIRST_NS) / NS, 511.0),
        high: channel(mev / HIGH_MEV, 4_095.0),
        low: channel(mev / LOW_MEV, 2_047.0),
        flags: flags(random),
    }
}

/// An event of channels that have nothing to do with each other.
pub fn background_event(random: &mut Random) -> Event {
    Event {
        t: random.below(512) as u16,
        high: random.below(4_096) as u16,
        low: random.below(2_048) as u16,
        flags: flags(random),
    }
}

/// Mostly a valid stop and nothing else.
pub fn flags(random: &mut Random) -> u8 {
    let mut flags = 0;
    for (flag, percent) in [(FLG0, 3), (FLG1, 3), (ERROR, 3), (VALID_STOP, 96)] {
        if random.percent(percent) {
            flags |= flag;
        }
    }
    flags
}

#[cfg(test)]
mod tests {
    use super::*;
    use crate::commands::Settings;
    use crate::sorting::sort;

    #[test]
    fn logarithms() {
        for x in [1e-3, 0.021, 0.5, 1.0, 1.5, 2.0, 163.0, 1e6] {
            assert!((ln(x) - x.ln()).abs() < 1e-12, "{x}");
        }
    }

    #[test]
    fn words_are_those_of_appendix_2() {
        // The examples of Tables A2-1 and A2-2, whose first channel is our channel 1.
        let tables: Box<Tables> = Box::new(tables().try_into().unwrap());
        for (address, example) in [
            (HIGH_ENERGY + 1, 222_484),
            (HIGH_ENERGY + 2, 267_910),
            (HIGH_ENERGY + 3, 294_482),
            (LOW_ENERGY + 1, 358_762),
            (LOW_ENERGY + 2, 404_188),
            (LOW_ENERGY + 3, 430_761),
        ] {
            assert!((word(&tables, address) - example).abs() <= 1, "{address:x}");
        }
        // Table A2-3's example was made with nearly the same flight times.
        for (channel, example) in [(6, 360_973), (7, 376_556), (8, 390_482)] {
            assert!((word(&tables, TIME_OF_FLIGHT + channel) - example).abs() < 500);
        }
        for offset in [KHI, KLO, KTOF] {
            assert_eq!(word(&tables, offset), 8 << 16);
        }
    }

    #[test]
    fn boxes_are_those_of_appendix_3() {
        for (mass, energy, b, beacon) in [
            (1.0, 0.09, 8, 0),
            (1.0, 6.0, 20, 0),
            (3.0, 0.2, 21, 0),
            (3.0, 1.0, 22, 0),
            (4.0, 0.03, 23, 1),
            (4.0, 6.0, 38, 0),
            (12.0, 0.025, 39, 5),
            (16.0, 0.025, 56, 5),
            (16.0, 6.0, 72, 0),
            (24.0, 0.025, 73, 0),
            (56.0, 0.1, 94, 10),
            (56.0, 2.0, 103, 12),
            (132.0, 1.0, 109, 0),
            (2.0, 1.0, 7, 0),
            (1.0, 0.05, 7, 0),
        ] {
            assert_eq!(box_of(ln(mass), ln(energy)), b, "mass {mass}, energy {energy}");
            assert_eq!(beacon_of(b), beacon, "box {b}");
        }
    }

    #[test]
    fn cells_are_those_of_formula_a1_8() {
        let tables = tables();
        // At 0.1 MeV a nucleon (ln 0.1 + 5.5) x 16 is 51.2.
        for (f_m, cell) in [
            (18, [8, 0]),         // mass 1: 128 / 7 = 18.3
            (43, [26, 2]),        // mass 4: (1.386 + 1) x 128 / 7 = 43.6
            (68, [128 + 60, 6]),  // mass 16: 69.0
            (91, [128 + 94, 10]), // mass 56: 91.9
            // The middle of column 117 is mass 227; by 9 / 64 for one seventh it was 252.
            (117, [128 + 106, 0]),
            (119, [128 + 7, 0]), // mass 253
        ] {
            let at = position(MATRIX + 128 * f_m + 51);
            assert_eq!(tables[at..at + 2], cell, "column {f_m}");
        }
    }

    #[test]
    fn particles_fall_into_boxes_of_their_species() {
        let tables = Box::new(tables().try_into().unwrap());
        let mut random = Random::new(1);
        for (particle, boxes) in
            [(PROTON, 8..=20), (HELIUM, 23..=38), (OXYGEN, 56..=72), (IRON, 90..=103)]
        {
            let hits = (0..1_000).filter(|_| {
                let event = Event { flags: VALID_STOP, ..particle_event(&mut random, particle) };
                let sorted = sort(&event, &tables, &Settings::FRESH).unwrap();
                boxes.contains(&sorted.b)
            });
            assert!(hits.count() > 700, "mass {}", particle.mass);
        }
    }
}
