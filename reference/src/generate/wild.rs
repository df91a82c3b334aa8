//! Wild tables: columns on both sides of both edges, cells of every content.

use crate::generate::Random;
use crate::sorting::Event;
use crate::tables::*;

/// The numerators of one column: u of f_m (document 02, Point 2), and that of f_e.
const U_COLUMN: i64 = 3_584;
const W_COLUMN: i64 = 4_096;

/// A numerator at the edge of the 128 columns or of one of them, or anywhere in or near them.
fn numerator(random: &mut Random, column: i64) -> i64 {
    let last = 128 * column;
    match random.below(10) {
        0 => random.pick(&[-1, 0, column - 1, column, last - 1, last]),
        1 | 2 => column * random.between(0, 128) + random.between(-1, 1),
        3 => random.between(-last / 4, last + last / 4),
        _ => random.between(0, last - 1),
    }
}

/// u for a channel: first every multiple of a column and its neighbours in turn.
fn u_of(random: &mut Random, channel: i64) -> i64 {
    if channel < 3 * 129 {
        U_COLUMN * (channel / 3) + channel % 3 - 1
    } else {
        numerator(random, U_COLUMN)
    }
}

fn any_word(random: &mut Random) -> i64 {
    match random.below(8) {
        0 => 0,
        1 => 0xFF_FFFF,
        2 | 3 => random.between(0, 0xFF_FFFF),
        _ => random.between(400_000, 2_000_000),
    }
}

fn clamped(value: i64) -> u32 {
    value.clamp(0, 0xFF_FFFF) as u32
}

/// Wild tables, and events that hit the numerators their words were made for.
pub fn tables(random: &mut Random) -> (Vec<u8>, Vec<Event>) {
    let mut tables = Box::new([0; TABLE_BYTES]);
    let [khi, klo, ktof] = [KHI, KLO, KTOF].map(|address| {
        let k = any_word(random);
        set_word(&mut tables, address, clamped(k));
        k
    });
    for t in 0..512 {
        let w = numerator(random, W_COLUMN);
        let anything = random.percent(5);
        let value = if anything { any_word(random) } else { ktof + 360_448 - w };
        set_word(&mut tables, TIME_OF_FLIGHT + t, clamped(value));
    }
    let mut aimed = Vec::new();
    for channel in 0..2_048 {
        for (energies, k) in [(HIGH_ENERGY, khi), (LOW_ENERGY, klo)] {
            let t = random.below(512);
            let u = u_of(random, channel);
            let time_word = word(&tables, TIME_OF_FLIGHT + t) as i64;
            let anything = random.percent(5);
            let value = if anything { any_word(random) } else { u + k - time_word + ktof - 65_536 };
            set_word(&mut tables, energies + channel as usize, clamped(value));
            let (t, channel) = (t as u16, channel as u16);
            aimed.push(if energies == HIGH_ENERGY {
                Event { t, high: channel, low: random.below(2_048) as u16, flags: 0 }
            } else {
                Event { t, high: random.between(2_048, 4_095) as u16, low: channel, flags: 0 }
            });
        }
    }
    let high_priority = random.pick(&[5, 50, 95]);
    for address in MATRIX..TIME_OF_FLIGHT {
        let cell = cell(random, high_priority);
        tables[position(address)..][..3].copy_from_slice(&cell);
    }
    (tables.to_vec(), aimed)
}

fn cell(random: &mut Random, high_priority: usize) -> [u8; 3] {
    let b = match random.below(10) {
        0 => random.below(128) as u8,
        1 => random.pick(&[0, 1, 5, 6, 7, 8, 116, 117, 127]),
        _ => random.between(8, 116) as u8,
    };
    let beacon = match random.below(10) {
        0 => random.byte(),
        1..=4 => 0,
        _ => random.between(0, 13) as u8,
    };
    let priority = if random.percent(high_priority) { 128 } else { 0 };
    [priority + b, beacon, random.byte()]
}
