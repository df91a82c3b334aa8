//! The records of a stream: calls as `minute` and `replay` read them.

use std::io::{Error, ErrorKind, Read, Result};

use crate::commands::LINE_BYTES;
use crate::image;
use crate::processor::Processor;
use crate::samples::SLOTS;
use crate::sorting::Event;

#[derive(Clone, Copy, PartialEq, Eq)]
pub enum Form {
    Minute,
    Replay,
}

pub enum Call {
    Event(Event),
    Reading([u16; 8]),
    Line(Vec<u8>),
    Close(u32),
    Package(Vec<u8>),
    Packet(Vec<u8>),
    /// i and the time.
    Listing(u16, u32),
    Gather(Vec<u8>),
    Gathered,
    ToSecond(Vec<u8>),
    ToFirst(Vec<u8>),
    State(Box<Processor>),
    Show,
    /// All slots, four bytes a word.
    Slots(Vec<u8>),
}

/// Reads one record: none where the input stops before a kind byte, an error for an
/// unknown kind, a short body or a wrong one.
pub fn read(input: &mut impl Read, form: Form) -> Result<Option<Call>> {
    let Ok([kind]) = bytes(input) else {
        return Ok(None);
    };
    let call = match (kind, form) {
        (1, _) => Call::Event(event(bytes(input)?)),
        (2, _) => Call::Reading(reading(bytes(input)?)),
        (3, Form::Minute) => Call::Line(zero_filled(bytes(input)?)),
        (3, Form::Replay) => Call::Line(counted(input)?),
        (4, _) => Call::Close(u32::from_be_bytes(bytes(input)?)),
        (5, Form::Replay) => Call::Package(counted(input)?),
        (6, Form::Replay) => Call::Packet(counted(input)?),
        (7, Form::Replay) => {
            Call::Listing(u16::from_be_bytes(bytes(input)?), u32::from_be_bytes(bytes(input)?))
        }
        (8, Form::Replay) => Call::Gather(counted(input)?),
        (9, Form::Replay) => Call::Gathered,
        (10, Form::Replay) => Call::ToSecond(counted(input)?),
        (11, Form::Replay) => Call::ToFirst(counted(input)?),
        (20, Form::Replay) => Call::State(Box::new(image::state(&bytes(input)?).ok_or_else(bad)?)),
        (21, Form::Replay) => Call::Show,
        (22, Form::Replay) => Call::Slots(all_slots(counted(input)?)?),
        _ => return Err(bad()),
    };
    Ok(Some(call))
}

/// An unknown kind, bytes that are no state, or slots of another length.
fn bad() -> Error {
    Error::from(ErrorKind::InvalidData)
}

/// As many bytes as the slots have.
fn all_slots(body: Vec<u8>) -> Result<Vec<u8>> {
    if body.len() == 4 * SLOTS {
        Ok(body)
    } else {
        Err(bad())
    }
}

fn bytes<const N: usize>(input: &mut impl Read) -> Result<[u8; N]> {
    let mut body = [0; N];
    input.read_exact(&mut body)?;
    Ok(body)
}

fn event(b: [u8; 7]) -> Event {
    let two = |i| u16::from_be_bytes([b[i], b[i + 1]]);
    Event { t: two(0), high: two(2), low: two(4), flags: b[6] }
}

fn reading(b: [u8; 16]) -> [u16; 8] {
    std::array::from_fn(|i| u16::from_be_bytes([b[2 * i], b[2 * i + 1]]))
}

/// A line ends before its first zero byte.
fn zero_filled(body: [u8; LINE_BYTES]) -> Vec<u8> {
    body.into_iter().take_while(|byte| *byte != 0).collect()
}

/// A 16-bit length, then as many bytes.
fn counted(input: &mut impl Read) -> Result<Vec<u8>> {
    let mut body = vec![0; u16::from_be_bytes(bytes(input)?) as usize];
    input.read_exact(&mut body)?;
    Ok(body)
}

/// Writes one record; false, and nothing written, if the form has no such record.
pub fn write(call: &Call, form: Form, stream: &mut Vec<u8>) -> bool {
    match (call, form) {
        (Call::Event(e), _) => {
            stream.push(1);
            for field in [e.t, e.high, e.low] {
                stream.extend(field.to_be_bytes());
            }
            stream.push(e.flags);
        }
        (Call::Reading(counts), _) => {
            stream.push(2);
            stream.extend(counts.iter().flat_map(|count| count.to_be_bytes()));
        }
        (Call::Close(time), _) => {
            stream.push(4);
            stream.extend(time.to_be_bytes());
        }
        (Call::Line(line), Form::Minute) if line.len() <= LINE_BYTES => {
            stream.push(3);
            stream.extend(line);
            stream.resize(stream.len() + LINE_BYTES - line.len(), 0);
        }
        (_, Form::Minute) => return false,
        (Call::Line(body), _) => write_counted(3, body, stream),
        (Call::Package(body), _) => write_counted(5, body, stream),
        (Call::Packet(body), _) => write_counted(6, body, stream),
        (Call::Listing(i, time), _) => {
            stream.push(7);
            stream.extend(i.to_be_bytes());
            stream.extend(time.to_be_bytes());
        }
        (Call::Gather(body), _) => write_counted(8, body, stream),
        (Call::Gathered, _) => stream.push(9),
        (Call::ToSecond(body), _) => write_counted(10, body, stream),
        (Call::ToFirst(body), _) => write_counted(11, body, stream),
        (Call::State(state), _) => {
            stream.push(20);
            stream.extend(image::image(state));
        }
        (Call::Show, _) => stream.push(21),
        (Call::Slots(body), _) => write_counted(22, body, stream),
    }
    true
}

fn write_counted(kind: u8, body: &[u8], stream: &mut Vec<u8>) {
    stream.push(kind);
    stream.extend((body.len() as u16).to_be_bytes());
    stream.extend(body);
}
