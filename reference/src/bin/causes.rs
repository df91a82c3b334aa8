//! Reads what `replay` or `minute` printed, prints how often each number was answered.

use std::collections::BTreeMap;
use std::io::{stdin, BufRead, Result};

const KINDS: [&str; 11] = [
    "event", "reading", "line", "close", "package", "packet", "listing", "gather", "second", "first",
    "refused",
];

fn main() -> Result<()> {
    let mut answers: BTreeMap<u8, [u64; KINDS.len()]> = BTreeMap::new();
    let mut bad_records = 0u64;
    for line in stdin().lock().split(b'\n') {
        let line = String::from_utf8_lossy(&line?).into_owned();
        let mut words = line.split(' ');
        let kind = words.next().and_then(|word| KINDS.iter().position(|kind| *kind == word));
        let number = words.next().and_then(|word| word.parse().ok());
        if let (Some(kind), Some(number)) = (kind, number) {
            answers.entry(number).or_default()[kind] += 1;
        }
        bad_records += (line == "bad record") as u64;
    }
    print!("{:>6}", "number");
    KINDS.iter().for_each(|kind| print!(" {kind:>9}"));
    println!(" {:>10}", "together");
    for (number, counts) in &answers {
        print!("{number:>6}");
        counts.iter().for_each(|count| print!(" {count:>9}"));
        println!(" {:>10}", counts.iter().sum::<u64>());
    }
    println!("bad records: {bad_records}");
    Ok(())
}
