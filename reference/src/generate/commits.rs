//! Stories of staging: load packages, asks, commits, and what they leave in the tables.

use std::ops::Range;

use crate::calls::Call;
use crate::commands::Command;
use crate::generate::lines::{self, Staged};
use crate::generate::stream::offsets;
use crate::generate::{flight, wild, Random, Stream};
use crate::listing::listed_bytes;
use crate::loads::*;
use crate::processor::MOST_COMMANDS;
use crate::tables::{position, KHI, TABLE_BYTES};

/// Added to the sum of a package to make it wrong.
const SUM_ERRORS: [u16; 4] = [1, 255, 256, 65_535];

impl Stream {
    // Lines about staging.

    /// The reach; of a state over that limit, as far as staging goes.
    pub fn reach(&self) -> usize {
        self.station.processor.addresses.reach.min(STAGING_BYTES)
    }

    /// What lines depend on at present.
    pub fn staged(&self) -> Staged {
        let staging = self.station.staging.as_slice().try_into().expect("staging of the right length");
        Staged { reach: self.reach(), sum: staged_sum(staging, self.reach()) }
    }

    /// A line made for what is staged at present.
    pub fn line_of(&mut self, make: fn(&mut Random, Staged) -> Vec<u8>) {
        let staged = self.staged();
        let line = make(&mut self.random, staged);
        self.line(line);
    }

    /// loadat, sometimes with one byte too many.
    fn loadat(&mut self) {
        let reach = self.reach();
        let address = self.random.below(reach + 2);
        self.line(format!("loadat {address:x}"));
    }

    /// A commit of this load with the right sum.
    fn commit_to(&mut self, address: usize, y: usize) {
        let sum = self.staged().sum;
        self.line(format!("commit {address:x} {y} {sum:x}"));
    }

    /// Asks, and commits of right and wrong sums.
    pub fn asks_and_commits(&mut self) {
        for _ in 0..=self.random.below(3) {
            match self.random.below(5) {
                0..=1 => self.line_of(lines::ask),
                2 => self.line_of(lines::commit),
                _ => self.line_of(lines::commit_of_wrong_sum),
            }
        }
    }

    /// Closes if a commit waits, since only then packages are taken, or if this many commands
    /// more would be too many.
    fn settle(&mut self, commands: usize) {
        let processor = &self.station.processor;
        if processor.commit_waits() || processor.accepted + commands > MOST_COMMANDS {
            self.close();
        }
    }

    // Packages.

    /// A right package of some bytes, or one with a wrong sum.
    pub fn small_package(&mut self) {
        let random = &mut self.random;
        let length = match random.below(8) {
            0 => 0,
            1 => 300, // sums over 65,536
            _ => random.between(1, 40) as usize,
        };
        let bytes = if length == 300 { vec![255; length] } else { random.bytes(length) };
        let error = if random.percent(15) { random.pick(&SUM_ERRORS) } else { 0 };
        self.package(&bytes, error);
    }

    /// A package with no N, N below 2, or N not matching the bytes.
    fn wrong_package(&mut self) {
        let random = &mut self.random;
        let length = random.below(12);
        let body = random.bytes(length);
        let n = body.len() as i64 + random.pick(&[-1, 1, 2, 256]);
        let mut package = match random.below(6) {
            0 => Vec::new(),
            1 => vec![random.below(2) as u8],
            2 => vec![0, random.below(3) as u8],
            3 => vec![0, 1, random.byte()],
            4 => vec![0, 2, 0],
            _ => (n.max(0) as u16).to_be_bytes().to_vec(),
        };
        if package.len() == 2 && random.percent(70) {
            package.extend(body);
        }
        self.call(Call::Package(package));
    }

    pub fn packages_up_to(&mut self, most: usize) {
        for _ in 0..=self.random.below(most) {
            if self.random.percent(60) {
                self.small_package();
            } else {
                self.wrong_package();
            }
        }
    }

    /// A package of any bytes for these addresses.
    fn package_at(&mut self, staged: Range<usize>, error: u16) {
        self.line(format!("loadat {:x}", staged.start));
        let bytes = self.random.bytes(staged.len());
        self.package(&bytes, error);
    }

    /// The first bad bytes below the reach, as many as stand together.
    fn bad_bytes(&self) -> Option<Range<usize>> {
        let bitmap = self.station.bitmap.as_slice().try_into().expect("a bitmap of the right length");
        let first = (0..self.reach()).find(|i| is_bad(bitmap, *i))?;
        let behind = (first..self.reach()).find(|i| !is_bad(bitmap, *i));
        Some(first..behind.unwrap_or(self.reach()))
    }

    /// Right packages over bad bytes, and asks between: some cover all of them, some a part.
    fn repair(&mut self) {
        for _ in 0..6 {
            let Some(Range { start, end }) = self.bad_bytes() else {
                break;
            };
            let (inside, beside) = (self.random.below(end - start), self.random.below(3));
            let covered = match self.random.below(5) {
                0 => start..end - inside,
                1 => start + inside..end,
                2 => start.saturating_sub(beside)..(end + beside).min(STAGING_BYTES),
                _ => start..end,
            };
            self.package_at(covered, 0);
            if self.random.percent(50) {
                self.line_of(lines::ask);
            }
        }
    }

    /// Right and wrong packages over one another, partly and wholly, with asks and commits
    /// between; the last commit is carried out where no byte is left bad.
    pub fn overlapping_packages(&mut self) {
        self.settle(MOST_COMMANDS);
        self.line("load 0");
        let length = self.random.between(1, 60) as usize;
        let error = self.random.pick(&[0, 1]);
        self.package_at(0..length, error);
        for _ in 0..self.random.between(1, 5) {
            let reach = self.reach();
            let (some, more) = (self.random.below(reach + 1), self.random.below(5));
            let from = self.random.below(some + 1);
            let staged =
                self.random.pick(&[(from, some), (0, reach), (some, reach), (some, reach + more)]);
            let error = if self.random.percent(40) { self.random.pick(&SUM_ERRORS) } else { 0 };
            self.package_at(staged.0..staged.1, error);
            match self.random.below(4) {
                0 => self.line_of(lines::commit_of_wrong_sum),
                1 | 2 => self.line_of(lines::ask),
                _ => {}
            }
        }
        if self.random.percent(60) {
            self.repair();
        }
        self.line_of(lines::commit);
        self.while_a_commit_waits();
        self.close_and_list();
    }

    // Commits.

    /// Packages, a commit of them, and whatever comes while it waits.
    pub fn commit(&mut self) {
        if self.random.percent(70) {
            self.line("load 0");
        }
        for _ in 0..=self.random.below(4) {
            self.small_package();
            if self.random.percent(30) {
                self.loadat();
            }
        }
        if self.random.percent(60) {
            self.repair();
        }
        if self.random.percent(50) {
            self.asks_and_commits();
        }
        self.line_of(lines::commit);
        self.while_a_commit_waits();
        self.events_up_to(15);
        self.close_and_list();
        self.events_up_to(30);
    }

    fn while_a_commit_waits(&mut self) {
        for _ in 0..self.random.below(7) {
            match self.random.below(8) {
                0 => self.small_package(),
                1 => self.wrong_package(),
                2 => self.line("load 0"),
                3 => self.loadat(),
                4 => self.line_of(lines::ask),
                5 => self.line_of(lines::commit),
                6 => self.line_of(lines::commit_of_wrong_sum),
                _ => self.line_of(lines::any),
            }
        }
    }

    /// The load of the commit that waits, if one does.
    fn waiting_load(&self) -> Option<Load> {
        let processor = &self.station.processor;
        let waiting = processor.waiting.iter().take(processor.waits);
        waiting.into_iter().find_map(|one| match one.given(self.reach()) {
            Some(Command::Commit(load, _)) => Some(load),
            _ => None,
        })
    }

    /// A close; what a commit then loaded is listed sometimes, first and last word.
    fn close_and_list(&mut self) {
        let waiting = self.waiting_load();
        let bytes = self.reach();
        self.close();
        let Some(load) = waiting.filter(|_| self.random.percent(40)) else {
            return;
        };
        let words = bytes.div_ceil(load.bytes_a_word);
        for address in [load.address, load.address + words - 1] {
            let i = position(address) / listed_bytes(0).len();
            self.call(Call::Listing(i as u16, self.time));
        }
    }

    /// A commit of Khi, Klo and Ktof: those the tables were made with, each shifted.
    pub fn send_offsets(&mut self, shifts: &[i32]) {
        self.settle(12);
        self.line("load 0");
        let mut words = Vec::new();
        for offset in self.offsets {
            let word = offset + self.random.pick(shifts);
            words.extend(&word.clamp(0, 0xFF_FFFF).to_be_bytes()[1..]);
        }
        self.package(&words, 0);
        self.commit_to(KHI, 0);
    }

    /// Moves all columns a little, or back.
    pub fn new_offsets(&mut self) {
        self.send_offsets(&[0, 0, 1, -1, 3_584, -3_584, 70_000, -70_000]);
        self.events_up_to(20);
        self.close();
        self.events_up_to(40);
    }

    /// Fills staging to its last byte with tables a little changed; lines and packages at
    /// that bound.
    pub fn staging_to_the_end(&mut self) {
        self.settle(12);
        self.line("load 0");
        let mut bytes = self.station.tables.clone();
        for _ in 0..20 {
            let at = self.random.below(TABLE_BYTES);
            bytes[at] = self.random.byte();
        }
        if self.random.percent(30) {
            bytes.push(0);
            self.package(&bytes, 0); // one byte too many
            bytes.pop();
        }
        let most = STAGING_BYTES as i64;
        let split = self.random.pick(&[0, 1, most - 1, most]) as usize;
        self.package(&bytes[..split], 0);
        self.package(&bytes[split..], 0);
        (0..self.random.between(3, 9)).for_each(|_| self.at_the_end_of_staging(&bytes));
        if self.random.percent(70) {
            // The last bytes again, since some may be bad.
            self.line(format!("loadat {:x}", STAGING_BYTES - 4));
            self.package(&bytes[STAGING_BYTES - 4..], 0);
            self.line("ask 7000 0");
            self.commit_to(0x7000, 0);
            self.while_a_commit_waits();
            self.close();
        }
        self.events_up_to(40);
    }

    /// A line or a package at the end of staging, which is filled with these bytes.
    fn at_the_end_of_staging(&mut self, bytes: &[u8]) {
        match self.random.below(9) {
            0 => self.package(&[], 0),
            1 => self.package(&[], 1),
            2 => self.package(&[7], 0),
            3 => self.line(format!("loadat {:x}", STAGING_BYTES + 1)),
            4 => self.line("ask 7001 0"),
            5 => self.line("ask 7000 1"),
            6 => self.line("ask 7000 2"),
            _ => {
                let back = self.random.below(4);
                self.line(format!("loadat {:x}", STAGING_BYTES - back));
                let length = self.random.below(5);
                let error = self.random.pick(&[0, 0, 1]);
                self.package(&bytes[STAGING_BYTES - length..], error);
            }
        }
    }

    /// Loads other tables as an operator would: packages one after the other, one that
    /// failed sent again, an ask, and a commit of them all.
    pub fn new_tables(&mut self) {
        self.settle(20);
        let (tables, aimed) = if self.random.percent(50) {
            (flight::tables(), Vec::new())
        } else {
            wild::tables(&mut self.random)
        };
        self.line("load 0");
        let size = self.random.pick(&[4_096, 10_000, 30_000]);
        for part in tables.chunks(size) {
            let address = self.station.processor.addresses.next;
            if self.random.percent(10) {
                self.package(part, 1);
                self.line_of(lines::ask);
                self.line(format!("loadat {address:x}"));
            }
            self.package(part, 0);
        }
        self.line("ask 7000 0");
        self.commit_to(0x7000, 0);
        self.while_a_commit_waits();
        self.events_up_to(30);
        self.close();
        self.offsets = offsets(&tables);
        self.aimed = aimed;
        self.events_up_to(40);
    }
}
