//! The programs: `minute` of document 01, and `replay`, which prints every answer.

use std::fs::File;
use std::io::{stdin, stdout, BufReader, BufWriter, Read, Result, Write};

use crate::calls::{read, Call, Form};
use crate::causes::{Number, DONE};
use crate::commands::Settings;
use crate::image::image;
use crate::packets::PACKET_BYTES;
use crate::processor::Closed;
use crate::reader::{self, Body};
use crate::station::Station;
use crate::tables::TABLE_BYTES;

/// Runs a program on `tables.bin`, standard input and standard output; `judged` as in a station.
pub fn run(form: Form, judged: bool) -> Result<()> {
    let mut input = BufReader::with_capacity(1 << 16, stdin().lock());
    let mut out = BufWriter::with_capacity(1 << 16, stdout().lock());
    program(form, judged, tables_file(), &mut input, &mut out)?;
    out.flush()
}

/// The bytes of `tables.bin`; none for a missing file, one byte too many for a long one.
fn tables_file() -> Vec<u8> {
    let mut tables = Vec::new();
    if let Ok(file) = File::open("tables.bin") {
        if file.take(TABLE_BYTES as u64 + 1).read_to_end(&mut tables).is_err() {
            tables.clear();
        }
    }
    tables
}

pub fn program(
    form: Form,
    judged: bool,
    tables: Vec<u8>,
    input: &mut impl Read,
    out: &mut impl Write,
) -> Result<()> {
    let Some(mut station) = Station::new(tables) else {
        return writeln!(out, "refused 1");
    };
    station.judged = judged;
    loop {
        match (read(input, form), form) {
            (Ok(Some(call)), Form::Minute) => minute(&mut station, call, out)?,
            (Ok(Some(call)), Form::Replay) => replay(&mut station, call, out)?,
            (Ok(None), _) => return Ok(()),
            (Err(_), _) => return writeln!(out, "bad record"),
        }
    }
}

/// Carries out one call and prints what `minute` prints of it.
fn minute(station: &mut Station, call: Call, out: &mut impl Write) -> Result<()> {
    let number = match call {
        Call::Event(event) => station.event(&event),
        Call::Reading(counts) => station.reading(&counts),
        Call::Line(line) => station.line(&line),
        Call::Close(time) => {
            let frame = station.processor.frame;
            let closed = station.close(time);
            if closed.number == DONE {
                let [b5, b6, b7] = [5, 6, 7].map(|b| closed.counts.boxes[b]);
                writeln!(out, "{frame} {} {b5} {b6} {b7} {}", closed.taken, closed.filled)?;
            }
            closed.number
        }
        _ => DONE, // no record of minute
    };
    if number != DONE {
        writeln!(out, "refused {number}")?;
    }
    Ok(())
}

/// Carries out one call and prints the whole of its answer.
fn replay(station: &mut Station, call: Call, out: &mut impl Write) -> Result<()> {
    match call {
        Call::Event(event) => writeln!(out, "event {}", station.event(&event)),
        Call::Reading(counts) => writeln!(out, "reading {}", station.reading(&counts)),
        Call::Line(line) => {
            write!(out, "line {} ", station.line(&line))?;
            hex(out, &station.echo)?;
            writeln!(out, " {}", station.sum)
        }
        Call::Package(package) => {
            write!(out, "package {} ", station.package(&package))?;
            digits(out, &station.echo)
        }
        Call::Close(time) => {
            let frame = station.processor.frame;
            let closed = station.close(time);
            print_closed(out, frame, &closed, &station.output)
        }
        Call::Packet(packet) => print_packet(out, &packet),
        Call::Listing(i, time) => {
            let number = station.listing(i, time);
            print_written(out, "listing", number, &station.listed)
        }
        Call::Gather(packet) => {
            let number = station.gather(&packet);
            writeln!(out, "gather {number} {}", station.gatherer.missing())
        }
        Call::Gathered => print_gathered(out, station),
        Call::ToSecond(packet) => {
            let number = station.to_second(&packet);
            print_written(out, "second", number, &station.converted)
        }
        Call::ToFirst(packet) => {
            let number = station.to_first(&packet);
            print_written(out, "first", number, &station.converted)
        }
        Call::State(state) => {
            station.hand_in(*state);
            writeln!(out, "state")
        }
        Call::Show => {
            write!(out, "state ")?;
            digits(out, &image(&station.processor))
        }
        Call::Slots(slots) => {
            station.hand_in_slots(&slots);
            writeln!(out, "slots")
        }
    }
}

/// What is gathered; then a fresh gatherer begins.
fn print_gathered(out: &mut impl Write, station: &mut Station) -> Result<()> {
    write!(out, "gathered {} ", station.gatherer.missing())?;
    digits(out, &station.gathered)?;
    station.gather_anew();
    Ok(())
}

/// A call's name and number, and where this is 0 the packet it wrote.
fn print_written(out: &mut impl Write, name: &str, number: Number, packet: &[u8]) -> Result<()> {
    writeln!(out, "{name} {number}")?;
    if number == DONE {
        print_out(out, packet)?;
    }
    Ok(())
}

/// A packet that was written.
fn print_out(out: &mut impl Write, packet: &[u8]) -> Result<()> {
    write!(out, "out ")?;
    digits(out, packet)
}

fn print_closed(out: &mut impl Write, frame: u16, closed: &Closed, output: &[u8]) -> Result<()> {
    if closed.number != DONE {
        return writeln!(out, "close {}", closed.number);
    }
    let Closed { taken, filled, sample_counts, .. } = closed;
    numbers(out, &format!("close 0 {frame} {taken} {filled}"), &sample_counts.in_order())?;
    numbers(out, "boxes", &closed.counts.boxes[1..])?;
    numbers(out, "beacons", &closed.counts.beacons[1..])?;
    output.chunks_exact(PACKET_BYTES).try_for_each(|packet| print_out(out, packet))
}

fn print_packet(out: &mut impl Write, packet: &[u8]) -> Result<()> {
    let read = match reader::read(packet) {
        Ok(read) => read,
        Err(number) => return writeln!(out, "packet {number}"),
    };
    let header = format!("{} {} {}", read.sequence, read.time, read.frame);
    writeln!(out, "packet 0")?;
    match read.body {
        Body::Rate { mark, totals, boxes, settings, table_sum } => {
            writeln!(out, "rate {header} {mark}")?;
            numbers(out, "rates", &[&totals[..], &boxes].concat())?;
            let Settings { limhi, eonly, toferror, junk, hv, hvstep } = settings;
            let [hv, eonly, toferror, junk] = [hv, eonly, toferror, junk].map(u8::from);
            writeln!(out, "settings {hvstep} {hv} {eonly} {toferror} {junk} {limhi} {table_sum}")
        }
        Body::Sample { p, records } => {
            writeln!(out, "sample {header} {p}")?;
            write!(out, "records ")?;
            digits(out, records)
        }
        Body::Beacon { mark, rates } => {
            writeln!(out, "beacon {header} {mark}")?;
            numbers(out, "rates", &rates)
        }
    }
}

/// A line of what stands first and decimal numbers.
fn numbers(out: &mut impl Write, first: &str, values: &[u32]) -> Result<()> {
    write!(out, "{first}")?;
    for value in values {
        write!(out, " {value}")?;
    }
    writeln!(out)
}

/// The bytes as digits 0-9 a-f, and the end of the line.
fn digits(out: &mut impl Write, bytes: &[u8]) -> Result<()> {
    hex(out, bytes)?;
    writeln!(out)
}

fn hex(out: &mut impl Write, bytes: &[u8]) -> Result<()> {
    const DIGITS: &[u8; 16] = b"0123456789abcdef";
    let pair = |byte: &u8| [DIGITS[(byte >> 4) as usize], DIGITS[(byte & 15) as usize]];
    let text: Vec<u8> = bytes.iter().flat_map(pair).collect();
    out.write_all(&text)
}
