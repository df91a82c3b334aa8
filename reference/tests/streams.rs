//! What must hold of every generated stream: the box balances, the sample rule and what became of the
//! samples, each computed from the whole list of an interval's events; what asks and commits answer,
//! from the whole list of packages; what a gatherer says, from the whole list of packets given to it;
//! and that all causes occur.

use std::collections::BTreeSet;
use std::ops::Range;

use reference::calls::{read, Call, Form};
use reference::commands::Settings;
use reference::generate::{stories, Stream};
use reference::listing::{first_address, listed_bytes};
use reference::packets::{packet_sum, BEACON_CODES, RATE_CODES};
use reference::processor::Closed;
use reference::programs::program;
use reference::reader::{self, Body};
use reference::sample_counts::SampleCounts;
use reference::samples::SLOTS;
use reference::sorting::{eligible, record, sort, Event, Sorted};
use reference::station::Station;
use reference::tables::*;

fn stream(seed: u64, calls: usize, form: Form) -> Stream {
    let mut stream = Stream::new(seed, form);
    stream.tell(calls);
    stream
}

/// Carries out a stream's calls in order; those that `own` takes over, and answers true for,
/// by `own` alone.
fn carried_out(seed: u64, own: impl FnMut(&mut Station, &Call) -> bool) {
    carried_out_of(stream(seed, 5_000, Form::Replay), own);
}

fn carried_out_of(stream: Stream, mut own: impl FnMut(&mut Station, &Call) -> bool) {
    let mut station = Station::new(stream.tables).unwrap();
    let mut input = &stream.bytes[..];
    while let Ok(Some(call)) = read(&mut input, Form::Replay) {
        if own(&mut station, &call) {
            continue;
        }
        match call {
            Call::Event(event) => drop(station.event(&event)),
            Call::Reading(counts) => drop(station.reading(&counts)),
            Call::Line(line) => drop(station.line(&line)),
            Call::Package(package) => drop(station.package(&package)),
            Call::Close(time) => drop(station.close(time)),
            _ => {}
        }
    }
}

/// The sample rule said of the whole list of eligible events, not step by step.
fn slots_of(eligible: &[(Event, Sorted)], limhi: usize) -> Vec<u32> {
    let (first, later) = eligible.split_at(eligible.len().min(SLOTS));
    let mut slots: Vec<u32> = first.iter().map(|(e, s)| record(e, s)).collect();
    for (h, (e, s)) in later.iter().filter(|(_, s)| s.priority == 1).take(limhi).enumerate() {
        slots[h] = record(e, s);
    }
    slots
}

/// Eligible, replaced and dropped, each from the same list.
fn sample_counts_of(eligible: &[(Event, Sorted)], limhi: usize) -> [u32; 3] {
    let late = || eligible.iter().skip(SLOTS).map(|(_, s)| s.priority);
    let replaced = late().filter(|priority| *priority == 1).count().min(limhi);
    // One after the other: the first LIMHI of priority 1 are none of them.
    let mut left = limhi;
    let dropped = late().filter(|priority| {
        let replaces = *priority == 1 && left > 0;
        left -= replaces as usize;
        !replaces
    });
    [eligible.len(), replaced, dropped.count()].map(|count| count as u32)
}

/// Rates read back are at most the counts, and short of them by less than one part in 4,096.
fn check_rates(output: &[u8], closed: &Closed, totals: &[u32; 8]) {
    let (mut counts, mut rates): (Vec<u32>, Vec<u32>) = Default::default();
    for packet in output.chunks(272) {
        match reader::read(packet).unwrap().body {
            Body::Rate { mark: 1, totals: read, boxes, .. } => {
                counts.extend(totals.iter().chain(&closed.counts.boxes[1..]));
                rates.extend(read.iter().chain(&boxes));
            }
            Body::Beacon { mark: 1, rates: read } => {
                counts.extend(closed.counts.beacons[1..].iter().chain(&closed.sample_counts.in_order()));
                rates.extend(&read);
            }
            body => assert!(matches!(body, Body::Sample { .. })),
        }
    }
    assert_eq!((counts.len(), rates.len()), (139, 139));
    for (n, least) in counts.iter().zip(&rates) {
        assert!(n == least || n > least && 4_096 * (n - least) < *n, "{n} {least}");
    }
}

fn check_boxes(boxes: &[usize; 117], events: usize, sorted: &[(Event, Sorted)]) {
    let classified: usize = boxes[7..].iter().sum();
    assert_eq!(events, boxes[5] + boxes[3] + boxes[4]);
    assert_eq!(boxes[3] + boxes[4], boxes[6] + classified);
    assert_eq!(boxes[1] + boxes[2], classified);
    for b in 6..=116 {
        assert_eq!(boxes[b], sorted.iter().filter(|(_, s)| s.b as usize == b).count());
    }
}

/// What the close of an interval of these events returned.
fn check_close(station: &mut Station, events: &[Event], time: u32) -> Closed {
    let settings = station.processor.settings;
    let tables = station.tables.as_slice().try_into().unwrap();
    let sorted: Vec<(Event, Sorted)> =
        events.iter().filter_map(|event| Some((*event, sort(event, tables, &settings)?))).collect();
    let limhi = settings.limhi as usize;
    let eligible: Vec<_> =
        sorted.iter().filter(|(_, s)| eligible(s.b, settings.junk)).copied().collect();
    let expected = slots_of(&eligible, limhi);

    let totals = station.processor.totals;
    let closed = station.close(time);
    let boxes = closed.counts.boxes.map(|n| n as usize);
    assert_eq!(closed.taken as usize, events.len());
    check_boxes(&boxes, events.len(), &sorted);
    assert_eq!(closed.filled, expected.len());
    let sample_counts = sample_counts_of(&eligible, limhi);
    assert_eq!(closed.sample_counts.in_order(), sample_counts);
    assert_eq!(sample_counts[0], closed.filled as u32 + sample_counts[1] + sample_counts[2]);
    let junk = if settings.junk { boxes[6] + boxes[7] } else { 0 };
    assert_eq!(sample_counts[0] as usize, boxes[8..].iter().sum::<usize>() + junk);

    let mut slots = Vec::new();
    for packet in station.output.chunks(272) {
        let packet = reader::read(packet).unwrap();
        if let Body::Sample { records, .. } = packet.body {
            slots.extend(records.chunks(4).map(|r| u32::from_be_bytes(r.try_into().unwrap())));
        }
    }
    check_rates(&station.output, &closed, &totals);
    assert_eq!(slots[..expected.len()], expected);
    assert!(slots[expected.len()..].iter().all(|slot| *slot == 0));
    closed
}

/// Checks every interval of a stream. Of each: junk, LIMHI, and what its close returned.
fn checked_intervals(stream: Stream) -> Vec<(bool, u16, Closed)> {
    let (mut events, mut intervals) = (Vec::new(), Vec::new());
    carried_out_of(stream, |station, call| {
        match call {
            Call::Event(event) if station.event(event) == 0 => events.push(*event),
            Call::Event(_) => {}
            Call::Close(time) => {
                let Settings { junk, limhi, .. } = station.processor.settings;
                intervals.push((junk, limhi, check_close(station, &events, *time)));
                events.clear();
            }
            _ => return false,
        }
        true
    });
    intervals
}

#[test]
fn balances_and_samples_of_every_interval() {
    for seed in 0..12 {
        checked_intervals(stream(seed, 5_000, Form::Replay));
    }
}

#[test]
fn samples_are_replaced_and_dropped_in_many_ways() {
    // Realistic tables, and wild ones of which half the cells have priority 1.
    for seed in [92, 93] {
        let mut stream = Stream::new(seed, Form::Replay);
        stream.every_busy_interval();
        let mut seen = BTreeSet::new();
        for (junk, limhi, closed) in checked_intervals(stream) {
            let SampleCounts { replaced, dropped, .. } = closed.sample_counts;
            let reached = if replaced == limhi as u32 { "reached" } else { "not reached" };
            seen.insert((junk, limhi, reached, dropped > 0));
        }
        for junk in [false, true] {
            assert!(seen.contains(&(junk, 0, "reached", false)));
            for limhi in [0, 1, 500, 704] {
                assert!(seen.contains(&(junk, limhi, "reached", true)), "{seed} {junk} {limhi}");
            }
            for limhi in [500, 704] {
                assert!(seen.contains(&(junk, limhi, "not reached", true)), "{seed} {junk} {limhi}");
            }
        }
    }
}

#[test]
fn u_meets_the_edges_of_every_mass_column() {
    let edges = (0..=128).flat_map(|column| [-1, 0, 1].map(|near| 3_584 * column + near));
    let mut unmet: BTreeSet<i32> = edges.collect();
    for seed in (1..40).step_by(2) {
        carried_out(seed, |station, call| {
            let Call::Event(event) = call else {
                return false;
            };
            if station.event(event) == 0 {
                u_of(event, station).map(|u| unmet.remove(&u));
            }
            true
        });
    }
    assert!(unmet.is_empty(), "{unmet:?}");
}

/// u = E - K + T - Ktof + 65,536 of an event that is not discarded.
fn u_of(event: &Event, station: &Station) -> Option<i32> {
    let tables = station.tables.as_slice().try_into().unwrap();
    let s = sort(event, tables, &station.processor.settings)?;
    let (energies, offset) = if s.gain == 0 { (HIGH_ENERGY, KHI) } else { (LOW_ENERGY, KLO) };
    let e = word(tables, energies + s.channel as usize) - word(tables, offset);
    let t = word(tables, TIME_OF_FLIGHT + event.t as usize) - word(tables, KTOF);
    Some(e + t + 65_536)
}

/// The mark and the codes of a rate or beacon packet whose header and sum are right.
fn mark_and_codes(packet: &[u8]) -> Option<(u8, Vec<u16>)> {
    let codes = match packet.get(..2)? {
        [0x0A, 0x5D] => RATE_CODES,
        [0x0A, 0x70] => BEACON_CODES,
        _ => return None,
    };
    let right = packet.len() == 272 && packet[2] >= 0xC0 && packet[4..6] == [1, 9] && packet[10] == 0;
    if !right || packet[271] != packet_sum(packet) {
        return None;
    }
    let codes = packet[codes].chunks(2).map(|two| u16::from_be_bytes([two[0], two[1]]));
    Some((packet[269], codes.collect()))
}

#[test]
fn codes_at_the_edges_stand_under_every_mark() {
    let edges = [0x0FFF, 0x1000, 0x17FF, 0x1800, 0xCFFF, 0xD000, 0xFFFF];
    let (mut seen, mut accepted) = (BTreeSet::new(), BTreeSet::new());
    for seed in 0..60 {
        carried_out(seed, |_, call| {
            let Call::Packet(packet) = call else {
                return false;
            };
            let Some((mark, codes)) = mark_and_codes(packet) else {
                return true;
            };
            let taken = reader::read(packet).is_ok();
            for code in codes.iter().filter(|code| edges.contains(code)) {
                seen.insert((mark, *code));
                if taken {
                    accepted.insert((mark, *code));
                }
            }
            true
        });
    }
    for mark in [0, 1, 2, 3, 255] {
        for code in edges {
            assert!(seen.contains(&(mark, code)), "mark {mark}, code {code:x}");
        }
    }
    let first = [0x0FFF, 0x1800, 0xCFFF].map(|code| (0, code));
    let second = [0x0FFF, 0x1000, 0x17FF, 0x1800, 0xCFFF];
    let second = [1, 2].into_iter().flat_map(|mark| second.map(|code| (mark, code)));
    assert_eq!(accepted, first.into_iter().chain(second).collect());
}

/// A package that was placed: its addresses, and whether its sum was wrong.
type Placed = (Range<usize>, bool);

/// Whether some byte below the reach was last written by a package with a wrong sum.
fn bad_below(reach: usize, placed: &[Placed]) -> bool {
    let last = |i: usize| placed.iter().rfind(|(bytes, _)| bytes.contains(&i));
    (0..reach).any(|i| last(i).is_some_and(|(_, wrong)| *wrong))
}

fn place(station: &mut Station, package: &[u8], placed: &mut Vec<Placed>) {
    let from = station.processor.addresses.next;
    let number = station.package(package);
    if [0, 10].contains(&number) {
        placed.push((from..station.processor.addresses.next, number == 10));
    }
}

/// A line that may be an ask or a commit; of these its keyword and number.
fn check_line(station: &mut Station, line: &[u8], placed: &[Placed]) -> Option<(String, u8)> {
    let reach = station.processor.addresses.reach;
    let number = station.line(line);
    let text = String::from_utf8_lossy(line);
    let words: Vec<&str> = text.split(' ').collect();
    let sum: u32 = station.staging[..reach].iter().map(|byte| *byte as u32).sum();
    if !["ask", "commit"].contains(&words[0]) {
        assert_eq!(station.sum, 0);
        return None;
    }
    assert_eq!(station.sum, if (words[0], number) == ("ask", 0) { sum } else { 0 });
    // Past 5, 6 and 7 only the bytes and, of a commit, the sum decide.
    if [0, 15, 16].contains(&number) {
        let another = words[0] == "commit" && u32::from_str_radix(words[3], 16) != Ok(sum);
        let expected = if bad_below(reach, placed) { 15 } else { 16 * another as u8 };
        assert_eq!(number, expected, "{text}");
    }
    Some((words[0].to_string(), number))
}

#[test]
fn asks_and_commits_answer_by_all_packages_before_them() {
    let mut seen = BTreeSet::new();
    let (mut repaired, mut listed) = (0, 0);
    for seed in 0..12 {
        let (mut placed, mut bad, mut loaded) = (Vec::new(), false, false);
        carried_out(seed, |station, call| {
            match call {
                Call::Package(package) => place(station, package, &mut placed),
                Call::Line(line) => {
                    let Some((keyword, number)) = check_line(station, line, &placed) else {
                        return true;
                    };
                    repaired += (bad && number == 0) as usize;
                    bad = number == 15;
                    seen.insert((keyword, number));
                }
                Call::Close(time) => {
                    loaded = station.processor.commit_waits();
                    station.close(*time);
                }
                Call::Listing(..) => listed += loaded as usize,
                _ => return false,
            }
            true
        });
    }
    for (keyword, numbers) in [("ask", &[0, 5, 6, 7, 15][..]), ("commit", &[0, 5, 6, 7, 15, 16])] {
        for number in numbers {
            assert!(seen.contains(&(keyword.to_string(), *number)), "{keyword} {number}");
        }
    }
    assert!(repaired > 10 && listed > 10, "{repaired} repaired, {listed} listed");
}

/// The gatherer's buffer and how many are missing, from all packets it accepted.
fn check_gathered(station: &Station, accepted: &[Vec<u8>]) {
    let from = |i: usize| {
        let address = first_address(i) as u32;
        accepted.iter().rfind(|packet| packet[16..19] == address.to_be_bytes()[1..])
    };
    let last: Vec<_> = (0..250).map(from).collect();
    assert_eq!(station.gatherer.missing(), last.iter().filter(|packet| packet.is_none()).count());
    for (i, packet) in last.iter().enumerate() {
        let words = &station.gathered[listed_bytes(i)];
        match packet {
            Some(packet) => assert_eq!(*words, packet[19..19 + words.len()]),
            None => assert!(words.iter().all(|byte| *byte == 0)),
        }
    }
}

#[test]
fn the_gatherer_holds_what_it_accepted() {
    let mut tables_gathered = 0;
    for seed in 0..12 {
        let (mut accepted, mut records) = (Vec::new(), 0);
        carried_out(seed, |station, call| {
            match call {
                Call::Gather(packet) if station.gather(packet) == 0 => accepted.push(packet.clone()),
                Call::Gathered => {
                    check_gathered(station, &accepted);
                    tables_gathered += (station.gathered == station.tables) as usize;
                    station.gather_anew();
                    accepted.clear();
                    records += 1;
                }
                _ => return false,
            }
            true
        });
        assert!(records <= 3, "each prints the whole buffer");
    }
    assert!(tables_gathered > 0);
}

/// Lines of `replay` that begin with a number answered.
const KINDS: [&str; 9] =
    ["event", "reading", "line", "package", "packet", "listing", "gather", "second", "first"];

#[test]
fn every_cause_of_a_short_stream_occurs() {
    let mut seen = BTreeSet::new();
    for seed in 0..50 {
        let stream = stream(seed, 5_000, Form::Replay);
        assert_eq!(stream.calls, 5_000);
        let mut out = Vec::new();
        program(Form::Replay, false, stream.tables, &mut &stream.bytes[..], &mut out).unwrap();
        for line in String::from_utf8(out).unwrap().lines() {
            let mut words = line.split(' ').map(str::to_string);
            let kind = words.next().unwrap();
            if KINDS.contains(&kind.as_str()) {
                seen.insert((kind, words.next().unwrap().parse::<u8>().unwrap()));
            }
        }
    }
    let all = |kind: &str, numbers: &[u8]| {
        for number in numbers {
            assert!(seen.contains(&(kind.to_string(), *number)), "{kind} {number}");
        }
    };
    all("event", &[0, 2]); // 3 needs a million events
    all("reading", &[0, 3]);
    all("line", &[0, 4, 5, 6, 7, 15, 16]);
    all("package", &[0, 6, 8, 9, 10]);
    all("packet", &[0, 11, 12, 13]);
    all("listing", &[0, 14]);
    all("gather", &[0, 11, 12, 13, 14]);
    all("second", &[0, 11, 12, 13]);
    all("first", &[0, 11, 12, 13, 17]);
}

/// What `replay` prints of a stream with states.
fn answers_with_states(seed: u64, limits: bool) -> Vec<String> {
    let mut stream = Stream::new(seed, Form::Replay);
    stream.states = true;
    if limits {
        stream.every_limit();
    } else {
        stream.tell(3_000);
    }
    let mut out = Vec::new();
    program(Form::Replay, false, stream.tables, &mut &stream.bytes[..], &mut out).unwrap();
    String::from_utf8(out).unwrap().lines().map(str::to_string).collect()
}

/// Lines of `replay` that begin with a call aboard and its number, and the state that is shown.
fn calls_and_states(lines: &[String]) -> Vec<(&str, &str)> {
    let words = |line: &&String| {
        ["event ", "reading ", "line ", "package ", "close ", "listing "]
            .iter()
            .any(|call| line.starts_with(call))
    };
    let kept = lines.iter().filter(|line| line.starts_with("state") || words(line));
    kept.map(|line| line.split_once(' ').unwrap_or((line, ""))).collect()
}

fn number(answer: &str) -> u8 {
    answer.split(' ').next().unwrap().parse().unwrap()
}

#[test]
fn a_refused_call_leaves_the_state() {
    let (mut kept, mut seen) = (0, BTreeSet::new());
    for seed in 0..12 {
        let lines = answers_with_states(seed, false);
        for three in calls_and_states(&lines).windows(3) {
            let [("state", before), (call, answer), ("state", after)] = three else {
                continue;
            };
            if *call == "state" || before.is_empty() || after.is_empty() {
                continue;
            }
            seen.insert((call.to_string(), number(answer)));
            if ![0, 10].contains(&number(answer)) {
                assert_eq!(before, after, "{call} {answer}");
                kept += 1;
            }
        }
    }
    assert!(kept > 500, "{kept}");
    for call in ["event", "reading", "line", "package", "close", "listing"] {
        for number in [0, 1] {
            assert!(seen.contains(&(call.to_string(), number)), "{call} {number}");
        }
    }
}

/// Four bytes of a state that is shown.
fn four_at(state: &str, byte: usize) -> i64 {
    i64::from_str_radix(&state[2 * byte..2 * byte + 8], 16).unwrap()
}

#[test]
fn closes_of_states_go_by_their_numbers() {
    let (mut replacing, mut dropping, mut odd) = (0, 0, 0);
    for (seed, limits) in (0..12).map(|seed| (seed, false)).chain([(1, true), (2, true)]) {
        let lines = answers_with_states(seed, limits);
        for two in calls_and_states(&lines).windows(2) {
            let [("state", before), ("close", answer)] = two else {
                continue;
            };
            let numbers: Vec<i64> = answer.split(' ').map(|word| word.parse().unwrap()).collect();
            let [0, _, _, filled, eligible, replaced, dropped] = numbers[..] else {
                continue;
            };
            if before.is_empty() {
                continue;
            }
            assert_eq!((eligible, replaced), (four_at(before, 774), four_at(before, 522)));
            let left = eligible - filled - replaced;
            assert_eq!(dropped, left.max(0));
            replacing += (replaced > 0) as usize;
            dropping += (left > 0) as usize;
            odd += (left < 0) as usize;
        }
    }
    assert!(replacing > 20 && dropping > 20 && odd > 20, "{replacing} {dropping} {odd}");
}

#[test]
fn every_limit_is_met_and_passed() {
    let lines = answers_with_states(1, true);
    let mut seen = BTreeSet::new();
    for (call, answer) in calls_and_states(&lines) {
        if call != "state" {
            seen.insert((call.to_string(), number(answer)));
        }
    }
    let all = |call: &str, numbers: &[u8]| {
        for number in numbers {
            assert!(seen.contains(&(call.to_string(), *number)), "{call} {number}");
        }
    };
    all("event", &[0, 1, 2, 3]);
    all("reading", &[0, 1, 3]);
    all("line", &[0, 1, 5, 6, 7, 15, 16]);
    all("package", &[0, 1, 6, 9, 10]);
    all("close", &[0, 1]);
    all("listing", &[0, 1, 14]);
}

#[test]
fn a_seed_gives_one_stream() {
    for form in [Form::Replay, Form::Minute] {
        let (a, b) = (stream(7, 2_000, form), stream(7, 2_000, form));
        assert!(a.tables == b.tables && a.bytes == b.bytes);
        assert!(stream(8, 2_000, form).bytes != a.bytes);
    }
}

#[test]
fn minute_and_replay_read_the_example_alike() {
    let example = stories::example();
    let run = |form| {
        let mut out = Vec::new();
        program(form, false, example.tables.clone(), &mut &example.bytes[..], &mut out).unwrap();
        String::from_utf8(out).unwrap()
    };
    let line = run(Form::Minute);
    let minute: Vec<&str> = line.trim_end().split(' ').collect();
    let text = run(Form::Replay);
    let close = text.lines().find(|line| line.starts_with("close")).unwrap();
    let [frame, taken, .., filled] = minute[..] else { panic!() };
    assert!(close.starts_with(&format!("close 0 {frame} {taken} {filled} ")), "{close}");
    assert_eq!(filled, "704");
}
