//! What the contract also asks of a call: the state goes in and comes out by value, and its
//! limits are judged each time. For the benchmark's second row.

use crate::causes::{Number, BUFFER};
use crate::commands::{Keyword, Waiting};
use crate::loads::{Load, STAGING_BYTES};
use crate::processor::*;
use crate::sample_counts::EligibleEvents;
use crate::samples::SLOTS;
use crate::sorting::Event;

/// "State limits" of document 01.
pub fn within_limits(p: &Processor) -> bool {
    let counts = at_most(p.taken, &p.counts.boxes) & at_most(p.taken, &p.counts.beacons);
    let most = p.samples.eligible.max(p.samples.used).max(p.samples.replaced);
    let samples = p.samples.used <= SLOTS && most <= p.taken as usize;
    let totals = at_most(65_535u32.wrapping_mul(p.readings), &p.totals);
    let commands = p.accepted <= MOST_COMMANDS && p.waits <= p.accepted && waiting_lawful(p);
    let addresses = p.addresses.next <= p.addresses.reach && p.addresses.reach <= STAGING_BYTES;
    let settings = p.settings.limhi as usize <= SLOTS;
    p.taken <= MOST_EVENTS
        && counts
        && samples
        && p.readings <= MOST_READINGS
        && totals
        && commands
        && addresses
        && settings
}

/// Every number is at most the bound; without early exit, so that it is done several at a time.
fn at_most(bound: u32, numbers: &[u32]) -> bool {
    numbers.iter().fold(true, |within, n| within & (*n <= bound))
}

/// Each waiting command is one that a line gives, and at most one is a commit.
fn waiting_lawful(p: &Processor) -> bool {
    let lawful = |waiting: &Waiting| match *waiting {
        Waiting::Set(Keyword::Limhi, value) => value as usize <= SLOTS,
        Waiting::Set(Keyword::Hvstep, value) => value <= 255,
        Waiting::Set(_, value) => value <= 1,
        Waiting::Load(a, y) => Load::asked(a as usize, y as usize, p.addresses.reach).is_some(),
    };
    let waiting = &p.waiting[..p.waits];
    waiting.iter().all(lawful) && waiting.iter().filter(|one| one.is_load()).count() <= 1
}

#[inline(never)]
pub fn event(
    p: Processor,
    event: &Event,
    tables: &[u8],
    slots: &mut [u32],
    eligible_events: &mut EligibleEvents,
) -> (Number, Processor) {
    let mut next = p;
    let within = within_limits(&p);
    let number = if within { next.event(event, tables, slots, eligible_events) } else { BUFFER };
    (number, next)
}

#[cfg(test)]
mod tests {
    use super::*;

    #[test]
    fn a_waiting_command_takes_three_words_at_most() {
        // 32 of them are handed on by value at every event.
        assert!(size_of::<Waiting>() <= 3 * size_of::<usize>());
    }

    #[test]
    fn a_fresh_state_is_within_limits_and_each_limit_counts() {
        let fresh = Processor::FRESH;
        assert!(within_limits(&fresh));
        assert!(!within_limits(&Processor { taken: MOST_EVENTS + 1, ..fresh }));
        assert!(!within_limits(&Processor { readings: MOST_READINGS + 1, ..fresh }));
        assert!(!within_limits(&Processor { accepted: MOST_COMMANDS + 1, ..fresh }));
        assert!(!within_limits(&Processor { waits: 1, ..fresh }));
        let mut p = fresh;
        p.counts.boxes[116] = 1;
        assert!(!within_limits(&p));
        p.taken = 1;
        assert!(within_limits(&p));
        p.totals[7] = 1;
        assert!(!within_limits(&p));
    }
}
