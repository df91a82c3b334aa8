//! Gives the gatherer and the converters buffers of the right length and one off, which no stream
//! can: one line a case, its name and the number answered.

use reference::causes::Number;
use reference::convert::{to_first, to_second};
use reference::gatherer::Gatherer;
use reference::packets::*;
use reference::processor::Processor;
use reference::tables::TABLE_BYTES;

/// Packet 0 of a table of zeros.
fn listing_packet() -> Vec<u8> {
    let mut out = vec![0; PACKET_BYTES];
    Processor::FRESH.listing(0, 60, &vec![0; TABLE_BYTES], &mut out);
    out
}

/// What a fresh gatherer with a table buffer of this length answers.
fn gather(packet: &[u8], length: usize) -> Number {
    let mut gatherer = Gatherer::FRESH;
    gatherer.gather(packet, &mut vec![0; length])
}

/// Packet 0 with buffers one off, then with packets that another cause refuses too.
fn gathering() {
    let packet = listing_packet();
    for length in [0, 62_984, 62_986] {
        println!("gather-tables-{length} {}", gather(&packet, length));
    }
    for (length, name) in [(62_984, "-tables-62984"), (TABLE_BYTES, "")] {
        println!("gather-of-no-byte{name} {}", gather(&[], length));
        println!("gather-packet-0{name} {}", gather(&packet, length));
    }
}

/// Both converters with a packet to convert and with none, and `out` of these lengths.
fn conversions() {
    type Converter = fn(&[u8], &mut [u8]) -> Number;
    let converters: [(&str, Converter, u8); 2] =
        [("second", to_second, FIRST_MARK), ("first", to_first, CONVERTED_MARK)];
    for (name, converter, mark) in converters {
        let mut packet = [0; PACKET_BYTES];
        write(&mut packet, RATE, 0, 0, |packet| packet[MARK_AT] = mark);
        for length in [0, 271, 272, 273] {
            let mut out = vec![0; length];
            println!("{name}-out-{length} {}", converter(&packet, &mut out));
            println!("{name}-out-{length}-of-no-byte {}", converter(&[], &mut out));
        }
    }
}

fn main() {
    gathering();
    conversions();
}
