//! Gives the processor calls buffers of the right length and one off, which no stream can: one
//! line a case, its name and the number answered.

use reference::causes::Number;
use reference::commands::ECHO_BYTES;
use reference::loads::{BITMAP_BYTES, STAGING_BYTES};
use reference::packets::{OUTPUT_BYTES, PACKET_BYTES};
use reference::processor::Processor;
use reference::sample_counts::EligibleEvents;
use reference::samples::SLOTS;
use reference::sorting::{Event, VALID_STOP};
use reference::tables::TABLE_BYTES;

const EVENT: Event = Event { t: 5, high: 100, low: 0, flags: VALID_STOP };
const EMPTY_PACKAGE: [u8; 4] = [0, 2, 0, 0];

fn fresh() -> Processor {
    Processor::FRESH
}

/// What is lent, of the right lengths at first.
#[derive(Clone)]
struct Lent {
    tables: Vec<u8>,
    staging: Vec<u8>,
    bitmap: Vec<u8>,
    slots: Vec<u32>,
    eligible_events: EligibleEvents,
    echo: Vec<u8>,
    output: Vec<u8>,
    /// For one packet.
    out: Vec<u8>,
}

impl Lent {
    fn right() -> Lent {
        Lent {
            tables: vec![0; TABLE_BYTES],
            staging: vec![0; STAGING_BYTES],
            bitmap: vec![0; BITMAP_BYTES],
            slots: vec![0; SLOTS],
            eligible_events: EligibleEvents::default(),
            echo: vec![0; ECHO_BYTES],
            output: vec![0; OUTPUT_BYTES],
            out: vec![0; PACKET_BYTES],
        }
    }

    // What a fresh processor answers.

    fn event(mut self, e: &Event) -> Number {
        fresh().event(e, &self.tables, &mut self.slots, &mut self.eligible_events)
    }

    fn line(mut self, bytes: &[u8]) -> Number {
        fresh().line(bytes, &self.staging, &self.bitmap, &mut self.echo).number
    }

    fn package(mut self, bytes: &[u8]) -> Number {
        fresh().package(bytes, &mut self.staging, &mut self.bitmap, &mut self.echo)
    }

    fn close(mut self) -> Number {
        let Lent { tables, staging, slots, eligible_events, output, .. } = &mut self;
        fresh().close(60, tables, staging, slots, eligible_events, output).number
    }

    fn listing(mut self, i: u16) -> Number {
        fresh().listing(i, 60, &self.tables, &mut self.out)
    }
}

fn lengths() {
    let right = Lent::right();
    let tables = [0, 62_984, 62_986].map(|n| (n, Lent { tables: vec![0; n], ..right.clone() }));
    let staging = [0, 62_984, 62_986].map(|n| (n, Lent { staging: vec![0; n], ..right.clone() }));
    let bitmap = [0, 7_873, 7_875].map(|n| (n, Lent { bitmap: vec![0; n], ..right.clone() }));
    let slots = [0, 703, 705].map(|n| (n, Lent { slots: vec![0; n], ..right.clone() }));
    let echoes = [0, 127, 129].map(|n| (n, Lent { echo: vec![0; n], ..right.clone() }));
    let outputs = [0, 3_535, 3_537].map(|n| (n, Lent { output: vec![0; n], ..right.clone() }));
    let outs = [0, 271, 273].map(|n| (n, Lent { out: vec![0; n], ..right.clone() }));
    each("event-tables", &tables, |lent| lent.event(&EVENT));
    each("close-tables", &tables, |lent| lent.close());
    each("event-slots", &slots, |lent| lent.event(&EVENT));
    each("close-slots", &slots, |lent| lent.close());
    each("package-staging", &staging, |lent| lent.package(&EMPTY_PACKAGE));
    each("close-staging", &staging, |lent| lent.close());
    each("line-echo", &echoes, |lent| lent.line(b"hv 1"));
    each("package-echo", &echoes, |lent| lent.package(&EMPTY_PACKAGE));
    each("close-output", &outputs, |lent| lent.close());
    each("line-staging", &staging, |lent| lent.line(b"hv 1"));
    each("line-bitmap", &bitmap, |lent| lent.line(b"hv 1"));
    each("package-bitmap", &bitmap, |lent| lent.package(&EMPTY_PACKAGE));
    each("listing-tables", &tables, |lent| lent.listing(0));
    each("listing-out", &outs, |lent| lent.listing(0));
}

fn each(name: &str, cases: &[(usize, Lent)], call: impl Fn(Lent) -> Number) {
    for (n, lent) in cases {
        println!("{name}-{n} {}", call(lent.clone()));
    }
}

/// Calls that another cause refuses too, and then with the right buffers.
fn lowest() {
    let right = Lent::right();
    let slots = Lent { slots: vec![0; 703], ..right.clone() };
    let echo = Lent { echo: vec![0; 127], ..right.clone() };
    let staging = Lent { staging: vec![0; 62_984], ..right.clone() };
    lowest_of([(&slots, "-slots-703"), (&echo, "-echo-127"), (&staging, "-staging-62984")]);
    lowest_of([(&right, ""); 3]);
    lowest_of_listing();
}

/// An event's call with the first of these buffers, lines with the second, a package with the third.
fn lowest_of([event, line, package]: [(&Lent, &str); 3]) {
    println!("event-t-512{} {}", event.1, event.0.clone().event(&Event { t: 512, ..EVENT }));
    let lines: [(&str, &[u8]); 3] =
        [("line-of-byte-9", &[9]), ("line-hv-2", b"hv 2"), ("empty-line", b"")];
    for (name, bytes) in lines {
        println!("{name}{} {}", line.1, line.0.clone().line(bytes));
    }
    println!("package-of-no-byte{} {}", package.1, package.0.clone().package(b""));
}

/// The same for listing packets.
fn lowest_of_listing() {
    let right = Lent::right();
    let out = Lent { out: vec![0; 271], ..right.clone() };
    for (lent, name) in [(&out, "-out-271"), (&right, "")] {
        for i in [249, 250, 256, 65_535] {
            println!("listing-{i}{name} {}", lent.clone().listing(i));
        }
    }
}

fn main() {
    lengths();
    lowest();
}
