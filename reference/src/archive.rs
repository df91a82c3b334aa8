//! The program `convert`: a whole archive, packets of 272 bytes one after the other, to one edition.
//! What is not converted stays where it stood, as it is.

use std::ffi::OsString;
use std::fmt::{self, Display, Formatter};
use std::io::{Error, ErrorKind, Read, Result, Write};

use crate::causes::*;
use crate::codes::Edition;
use crate::convert::{converted, Kept};
use crate::packets::PACKET_BYTES;

const USAGE: &str = "usage: convert second|first < packets > converted";

/// So much is read and written at a time, whole packets.
const PIECE_BYTES: usize = 1_024 * PACKET_BYTES;

/// What became of the packets.
#[derive(Default)]
struct Tally {
    converted: u64,
    passed_on: u64,
    /// By the number.
    refused: [u64; NO_FIRST_CODE as usize + 1],
}

impl Display for Tally {
    fn fmt(&self, f: &mut Formatter) -> fmt::Result {
        let Tally { converted, passed_on, refused } = self;
        let by = |number: Number| format!("{} by {number}", refused[number as usize]);
        let refused = [HEADER, PACKET_SUM, BODY, NO_FIRST_CODE].map(by).join(", ");
        write!(f, "{converted} converted, {passed_on} passed on, refused: {refused}")
    }
}

/// The whole program, given what stands behind its name and its three files.
pub fn program(
    arguments: &[OsString],
    input: &mut impl Read,
    out: &mut impl Write,
    errors: &mut impl Write,
) {
    let Some(wanted) = edition_wanted(arguments) else {
        return tell(errors, USAGE);
    };
    match convert_all(wanted, input, out, errors) {
        Ok(tally) => tell(errors, tally),
        // Whoever read the output wanted no more of it.
        Err(failure) if failure.kind() == ErrorKind::BrokenPipe => {}
        Err(failure) => tell(errors, format_args!("writing failed: {failure}")),
    }
}

fn edition_wanted(arguments: &[OsString]) -> Option<Edition> {
    match arguments {
        [word] if word == "second" => Some(Edition::Second),
        [word] if word == "first" => Some(Edition::First),
        _ => None,
    }
}

/// A line on standard error. If that fails there is nobody left to tell.
fn tell(errors: &mut impl Write, line: impl Display) {
    let _ = writeln!(errors, "{line}");
}

/// Converts all packets up to the end of the input, or up to where reading it fails. An error is one
/// of writing.
fn convert_all(
    wanted: Edition,
    input: &mut impl Read,
    out: &mut impl Write,
    errors: &mut impl Write,
) -> Result<Tally> {
    let mut piece = vec![0; PIECE_BYTES];
    let mut tally = Tally::default();
    loop {
        let (length, failure) = fill(&mut piece, input);
        if let Some(failure) = failure {
            tell(errors, format_args!("reading failed: {failure}"));
        }
        for packet in piece[..length].chunks_exact_mut(PACKET_BYTES) {
            convert_one(packet, wanted, &mut tally);
        }
        out.write_all(&piece[..length])?;
        if length < PIECE_BYTES {
            out.flush()?;
            tell_rest(errors, length % PACKET_BYTES);
            return Ok(tally);
        }
    }
}

fn tell_rest(errors: &mut impl Write, rest: usize) {
    if rest > 0 {
        tell(
            errors,
            format_args!("the input ends within a packet: its {rest} bytes are written as they are"),
        );
    }
}

/// Reads until the piece is full: how far it is, which is less only at the end of the input or where
/// reading failed.
fn fill(piece: &mut [u8], input: &mut impl Read) -> (usize, Option<Error>) {
    let mut length = 0;
    while length < piece.len() {
        match input.read(&mut piece[length..]) {
            Ok(0) => break,
            Ok(more) => length += more,
            Err(failure) if failure.kind() == ErrorKind::Interrupted => {}
            Err(failure) => return (length, Some(failure)),
        }
    }
    (length, None)
}

/// Converts one packet in its place, or leaves it, and counts it.
fn convert_one(packet: &mut [u8], wanted: Edition, tally: &mut Tally) {
    match converted(packet, wanted) {
        Ok(bytes) => {
            packet.copy_from_slice(&bytes);
            tally.converted += 1;
        }
        Err(Kept::NothingToConvert) => tally.passed_on += 1,
        Err(Kept::Refused(number)) => tally.refused[number as usize] += 1,
    }
}
