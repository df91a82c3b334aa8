//! The program `convert`, on archives and on input and output that fail.

use std::ffi::OsString;
use std::io::{self, Error, ErrorKind, Read, Write};
use std::process::{Command, Output, Stdio};

use reference::archive::program;
use reference::convert::{to_first, to_second};
use reference::generate::archive::write_archive;
use reference::reader;

const USAGE: &str = "usage: convert second|first < packets > converted\n";

fn archive(seed: u64, packets: usize, damaged: bool) -> Vec<u8> {
    let mut bytes = Vec::new();
    write_archive(seed, packets, damaged, &mut bytes).unwrap();
    bytes
}

/// What the program writes on standard output and standard error.
fn run(arguments: &[&str], input: &mut impl Read, mut out: impl Write) -> String {
    let arguments: Vec<OsString> = arguments.iter().map(OsString::from).collect();
    let mut errors = Vec::new();
    program(&arguments, input, &mut out, &mut errors);
    String::from_utf8(errors).unwrap()
}

fn converted(edition: &str, mut packets: &[u8]) -> (Vec<u8>, String) {
    let mut out = Vec::new();
    let errors = run(&[edition], &mut packets, &mut out);
    (out, errors)
}

/// The last line, by the reader's and the converter's answers.
fn expected_line(edition: &str, packets: &[u8]) -> String {
    let converter = if edition == "second" { to_second } else { to_first };
    let (mut done, mut passed_on, mut refused) = (0, 0, [0; 18]);
    for packet in packets.chunks_exact(272) {
        match (converter(packet, &mut [0; 272]), reader::read(packet)) {
            (0, _) => done += 1,
            (13, Ok(_)) => passed_on += 1,
            (number, _) => refused[number as usize] += 1,
        }
    }
    let [a, b, d, e] = [11, 12, 13, 17].map(|number| refused[number]);
    format!(
        "{done} converted, {passed_on} passed on, refused: {a} by 11, {b} by 12, {d} by 13, {e} by 17\n"
    )
}

#[test]
fn there_and_back_gives_the_archive() {
    // 4,004 packets are 308 frames, more than the program holds at a time: 616 rate and beacon
    // packets and 3,388 of samples.
    let packets = archive(1, 4_004, false);
    let line = "616 converted, 3388 passed on, refused: 0 by 11, 0 by 12, 0 by 13, 0 by 17\n";
    let (second, there) = converted("second", &packets);
    assert_eq!(there, line);
    for (old, new) in packets.chunks(272).zip(second.chunks(272)) {
        let is_sample = old[1] > 0x5D && old[1] < 0x70;
        assert!(if is_sample { new == old } else { new[269] == 2 && old[269] == 0 });
    }
    let (first, back) = converted("first", &second);
    assert_eq!(back, line);
    assert!(first == packets);
    // Already there: nothing is converted.
    let nothing = "0 converted, 4004 passed on, refused: 0 by 11, 0 by 12, 0 by 13, 0 by 17\n";
    assert_eq!(converted("second", &second), (second, nothing.to_string()));
    assert_eq!(converted("first", &first), (first, nothing.to_string()));
}

#[test]
fn a_damaged_archive_is_counted_and_keeps_its_places() {
    let packets = archive(3, 5_000, true);
    let rest = packets.len() % 272;
    let ends = format!("the input ends within a packet: its {rest} bytes are written as they are\n");
    for edition in ["second", "first"] {
        let (out, errors) = converted(edition, &packets);
        let line = expected_line(edition, &packets);
        assert_eq!(errors, ends.clone() + &line);
        assert_eq!(line.contains(" 0 by 17"), edition == "second", "{line}");
        assert!([11, 12, 13].iter().all(|number| !line.contains(&format!(" 0 by {number}"))), "{line}");
        assert_eq!(out.len(), packets.len());
        let converter = if edition == "second" { to_second } else { to_first };
        for (old, new) in packets.chunks(272).zip(out.chunks(272)) {
            let mut expected = old.to_vec();
            converter(old, &mut expected);
            assert_eq!(new, expected);
        }
    }
}

#[test]
fn the_input_ends_anywhere() {
    let packets = archive(4, 1_025, false);
    // 1,024 packets are read at a time.
    for length in [0, 1, 271, 272, 273, 1_024 * 272, 1_024 * 272 + 7, 1_025 * 272] {
        let (whole, rest) = (length / 272, length % 272);
        let (out, errors) = converted("second", &packets[..length]);
        assert_eq!(out.len(), length);
        let lines: Vec<&str> = errors.lines().collect();
        if rest > 0 {
            let ends =
                format!("the input ends within a packet: its {rest} bytes are written as they are");
            assert_eq!(lines[..lines.len() - 1], [ends]);
            assert_eq!(out[length - rest..], packets[length - rest..length]);
        } else {
            assert_eq!(lines.len(), 1);
        }
        // A rate packet and a beacon packet in each thirteen.
        let rates = usize::div_ceil(whole, 13) + whole / 13;
        assert!(lines[lines.len() - 1].starts_with(&format!("{rates} converted,")), "{errors}");
    }
}

/// Reads a few bytes at a time, is interrupted every other time, and fails at the end if it is to.
struct Halting<'a> {
    bytes: &'a [u8],
    calls: usize,
    fails: bool,
}

impl Read for Halting<'_> {
    fn read(&mut self, buffer: &mut [u8]) -> io::Result<usize> {
        self.calls += 1;
        match self.calls % 2 {
            1 => Err(Error::from(ErrorKind::Interrupted)),
            _ if self.bytes.is_empty() && self.fails => Err(Error::other("the tape is torn")),
            _ => {
                let few = buffer.len().min(3);
                self.bytes.read(&mut buffer[..few])
            }
        }
    }
}

#[test]
fn reading_goes_on_after_interrupts_and_ends_where_it_fails() {
    let packets = archive(5, 1_100, true);
    let (out, errors) = converted("second", &packets);
    for fails in [false, true] {
        let mut found = Vec::new();
        let told = run(&["second"], &mut Halting { bytes: &packets, calls: 0, fails }, &mut found);
        assert!(found == out);
        let failure = if fails { "reading failed: the tape is torn\n" } else { "" };
        assert_eq!(told, failure.to_string() + &errors);
    }
}

/// Takes so many bytes and then fails.
struct Full(usize, ErrorKind);

impl Write for Full {
    fn write(&mut self, bytes: &[u8]) -> io::Result<usize> {
        let taken = bytes.len().min(self.0);
        self.0 -= taken;
        if taken == 0 {
            return Err(Error::from(self.1));
        }
        Ok(taken)
    }

    fn flush(&mut self) -> io::Result<()> {
        Ok(())
    }
}

#[test]
fn a_failed_write_ends_the_run() {
    let packets = archive(6, 3_000, true);
    for room in [0, 100, 1_024 * 272] {
        let full = Full(room, ErrorKind::StorageFull);
        let told = run(&["second"], &mut &packets[..], full);
        assert_eq!(told, format!("writing failed: {}\n", Error::from(ErrorKind::StorageFull)));
        let gone = Full(room, ErrorKind::BrokenPipe);
        assert_eq!(run(&["second"], &mut &packets[..], gone), "");
    }
}

/// Runs the program itself.
fn started(arguments: &[&str], input: &[u8]) -> Output {
    let mut child = Command::new(env!("CARGO_BIN_EXE_convert"))
        .args(arguments)
        .stdin(Stdio::piped())
        .stdout(Stdio::piped())
        .stderr(Stdio::piped())
        .spawn()
        .unwrap();
    let mut stdin = child.stdin.take().unwrap();
    let input = input.to_vec();
    // It may end without reading, and may wait for its output to be read.
    let writer = std::thread::spawn(move || drop(stdin.write_all(&input)));
    let output = child.wait_with_output().unwrap();
    writer.join().unwrap();
    output
}

#[test]
fn usage() {
    for arguments in [&[][..], &["third"], &["Second"], &[""], &["second", "first"], &["first", ""]] {
        let mut input = &[1, 2, 3][..];
        let mut out = Vec::new();
        assert_eq!(run(arguments, &mut input, &mut out), USAGE);
        assert_eq!((input.len(), out.len()), (3, 0));
        let output = started(arguments, &[1, 2, 3]);
        assert!(output.status.success());
        assert_eq!(
            (output.stdout.len(), String::from_utf8(output.stderr).unwrap()),
            (0, USAGE.to_string())
        );
    }
}

#[test]
fn the_program_itself() {
    let packets = archive(7, 3_000, true);
    for edition in ["second", "first"] {
        let output = started(&[edition], &packets);
        assert!(output.status.success());
        let (out, errors) = converted(edition, &packets);
        assert!(output.stdout == out);
        assert_eq!(String::from_utf8(output.stderr).unwrap(), errors);
    }
}
