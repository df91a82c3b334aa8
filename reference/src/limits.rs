//! Document 01, "State limits" and cause 1: whether a state that anyone may hand in is within
//! them. A slot's limit is judged by close itself.

use crate::loads::Addresses;
use crate::processor::Processor;

/// "State limits", in the paper's order.
pub fn within_limits(p: &Processor) -> bool {
    events_within(p) && readings_within(p) && commands_within(p)
}

/// "taken 1,000,000; every box, beacon and other event count at most taken; 704 slots used".
fn events_within(p: &Processor) -> bool {
    let samples = [p.samples.eligible, p.samples.used, p.samples.replaced];
    p.taken <= 1_000_000
        && p.counts.boxes.iter().chain(&p.counts.beacons).all(|count| *count <= p.taken)
        && samples.iter().all(|count| *count <= p.taken as usize)
        && p.samples.used <= 704
}

/// "readings 60; each total 65,535 × readings".
fn readings_within(p: &Processor) -> bool {
    let most = 65_535 * p.readings as u64;
    p.readings <= 60 && p.totals.iter().all(|total| *total as u64 <= most)
}

/// "accepted commands 32, waiting ones no more; next address ≤ reach ≤ 62,985; settings in
/// the ranges below; at most one load waiting, lawful at the present reach", and no "waiting command
/// that no line could give"; what waits to load is a commit.
fn commands_within(p: &Processor) -> bool {
    let Addresses { next, reach } = p.addresses;
    let addresses = next <= reach && reach <= 62_985;
    let waiting = || p.waiting.iter().take(p.waits);
    p.accepted <= 32
        && p.waits <= p.accepted
        && addresses
        && p.settings.limhi <= 0x2c0
        && waiting().filter(|one| one.is_load()).count() <= 1
        && waiting().all(|one| one.given(reach).is_some())
}

#[cfg(test)]
mod tests {
    use super::*;
    use crate::commands::{Keyword, Waiting};
    use crate::generate::{states, Random};
    use crate::judged;
    use crate::samples::Samples;

    const FRESH: Processor = Processor::FRESH;

    fn waiting(one: Waiting, reach: usize) -> Processor {
        let mut p = Processor { accepted: 1, waits: 1, ..FRESH };
        p.addresses.reach = reach;
        p.waiting[0] = one;
        p
    }

    #[test]
    fn counts_and_totals_at_their_edge_and_one_beyond() {
        assert!(within_limits(&FRESH));
        let mut p = Processor { taken: 1_000_000, readings: 60, ..FRESH };
        p.counts.boxes[116] = 1_000_000;
        p.counts.beacons[12] = 1_000_000;
        p.samples = Samples { eligible: 1_000_000, used: 704, replaced: 1_000_000 };
        p.totals[7] = 3_932_100;
        assert!(within_limits(&p));
        assert!(!within_limits(&Processor { taken: 1_000_001, ..p }));
        assert!(!within_limits(&Processor { taken: 999_999, ..p }));
        assert!(!within_limits(&Processor { readings: 61, ..p }));
        assert!(!within_limits(&Processor { readings: 59, ..p }));
        p.samples.used = 705;
        assert!(!within_limits(&p));
    }

    #[test]
    fn event_counts_are_at_most_taken() {
        // Eligible, used, replaced: more may be used and replaced than were eligible.
        for (eligible, used, replaced, within) in
            [(5, 0, 0, true), (6, 0, 0, false), (0, 5, 5, true), (0, 6, 0, false), (0, 0, 6, false)]
        {
            let samples = Samples { eligible, used, replaced };
            assert_eq!(within_limits(&Processor { taken: 5, samples, ..FRESH }), within, "{samples:?}");
        }
    }

    #[test]
    fn commands_that_no_line_could_give() {
        for (keyword, most) in Keyword::ALL.into_iter().zip([704, 1, 1, 1, 1, 255]) {
            assert!(within_limits(&waiting(Waiting::Set(keyword, most), 0)));
            assert!(!within_limits(&waiting(Waiting::Set(keyword, most + 1), 0)));
        }
        assert!(within_limits(&waiting(Waiting::Load(0x7000, 2), 41_990)));
        assert!(!within_limits(&waiting(Waiting::Load(0x7000, 2), 41_991)));
        assert!(!within_limits(&waiting(Waiting::Load(0x7000, 3), 1)));
        let mut two = waiting(Waiting::Load(0x7000, 0), 3);
        two.waiting[1] = two.waiting[0];
        two.accepted = 2;
        assert!(within_limits(&two)); // one waits
        two.waits = 2;
        assert!(!within_limits(&two));
    }

    #[test]
    fn both_ways_of_judging_agree() {
        let mut random = Random::new(1);
        let within = (0..20_000).filter(|_| {
            let state = states::any(&mut random);
            assert_eq!(judged::within_limits(&state), within_limits(&state), "{state:?}");
            within_limits(&state)
        });
        assert!((2_000..18_000).contains(&within.count()));
    }
}
