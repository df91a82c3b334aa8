//! Writes `tables.bin` and `stdin`, a stream for `replay` or `minute`, into a folder, or an archive
//! for `convert`.

use std::fs::{self, File};
use std::io::{self, BufWriter, Write};
use std::path::Path;
use std::process::exit;

use reference::calls::Form;
use reference::generate::archive::write_archive;
use reference::generate::{stories, Stream};

const USAGE: &str = "\
streams SEED CALLS DIR [options]   a stream of CALLS calls in DIR/stdin, its tables in DIR/tables.bin
    --minute         a stream for `minute`; else for `replay`
    --million        before them an interval of 1,000,000 events and events after it
    --full N         before them N intervals with all 704 slots filled
    --unclosed N     the same without the closes
    --busy           before them intervals in which slots are replaced and events dropped, in many ways
    --frames N       before them N intervals in which nothing happens
    --limits         before them a state at each limit, one below and one beyond it, and calls on each
    --states         among them states that are handed in, within their limits or not, and slots
    --wrong-tables   tables.bin is of another length
streams --example DIR              a minute with protons, helium, oxygen and iron, for `minute` or `replay`
streams --archive SEED N DIR       N packets of the first edition in DIR/archive, for `convert`
    --damaged        some of them damaged, foreign or of the second edition, the last one cut off";

fn main() {
    let arguments: Vec<String> = std::env::args().skip(1).collect();
    if write_files(&arguments).is_none() {
        eprintln!("{USAGE}");
        exit(2);
    }
}

/// None, and nothing written, if the arguments are wrong.
fn write_files(arguments: &[String]) -> Option<()> {
    match arguments {
        [option, dir] if option == "--example" => {
            let example = stories::example();
            save(dir, &example.tables, &example.bytes);
            Some(())
        }
        [option, rest @ ..] if option == "--archive" => archive(rest),
        _ => stream(arguments),
    }
}

fn stream(arguments: &[String]) -> Option<()> {
    let [seed, calls, dir, options @ ..] = arguments else {
        return None;
    };
    let form = if options.iter().any(|o| o == "--minute") { Form::Minute } else { Form::Replay };
    let mut stream = Stream::new(seed.parse().ok()?, form);
    let mut tables = stream.tables.clone();
    let mut options = options.iter();
    while let Some(option) = options.next() {
        match option.as_str() {
            "--minute" => {}
            "--million" => stream.million(),
            "--full" => stream.full_intervals(options.next()?.parse().ok()?, true),
            "--unclosed" => stream.full_intervals(options.next()?.parse().ok()?, false),
            "--busy" => stream.every_busy_interval(),
            "--frames" => stream.empty_intervals(options.next()?.parse().ok()?),
            "--limits" => stream.every_limit(),
            "--states" => stream.states = true,
            "--wrong-tables" => {
                let length = tables.len();
                tables.resize(stream.random.pick(&[0, 1, length - 1, length + 1, 2 * length]), 0);
            }
            _ => return None,
        }
    }
    stream.tell(calls.parse().ok()?);
    save(dir, &tables, &stream.bytes);
    Some(())
}

fn archive(arguments: &[String]) -> Option<()> {
    let [seed, packets, dir, options @ ..] = arguments else {
        return None;
    };
    let damaged = match options {
        [] => false,
        [option] if option == "--damaged" => true,
        _ => return None,
    };
    let (seed, packets) = (seed.parse().ok()?, packets.parse().ok()?);
    saved(dir, |dir| {
        let mut file = BufWriter::with_capacity(1 << 16, File::create(dir.join("archive"))?);
        write_archive(seed, packets, damaged, &mut file)?;
        file.flush()
    });
    Some(())
}

fn save(dir: &str, tables: &[u8], stream: &[u8]) {
    saved(dir, |dir| {
        fs::write(dir.join("tables.bin"), tables)?;
        fs::write(dir.join("stdin"), stream)
    });
}

/// Makes the folder and writes its files.
fn saved(dir: &str, files: impl FnOnce(&Path) -> io::Result<()>) {
    let dir = Path::new(dir);
    if let Err(error) = fs::create_dir_all(dir).and_then(|()| files(dir)) {
        eprintln!("{}: {error}", dir.display());
        exit(1);
    }
}
