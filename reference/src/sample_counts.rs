//! Document 02, Point 7: what became of an interval's eligible events. Each count is made from the list
//! of the events; none is what the others leave.

use crate::samples::{Samples, SLOTS};

/// An interval's eligible events in order, of each its priority; none as the interval begins.
#[derive(Clone, Debug, Default)]
pub struct EligibleEvents {
    /// Where a state or slots were handed in: the numbers of then, which have no events. The list goes
    /// on from them.
    handed: Option<Samples>,
    priorities: Vec<u8>,
}

/// "three more counts: eligible, replaced and dropped events"
#[derive(Clone, Copy, Debug, PartialEq, Eq)]
pub struct SampleCounts {
    pub eligible: u32,
    pub replaced: u32,
    pub dropped: u32,
}

impl SampleCounts {
    pub const NONE: SampleCounts = SampleCounts { eligible: 0, replaced: 0, dropped: 0 };

    /// As close returns them and the beacon packet has their codes.
    pub fn in_order(&self) -> [u32; 3] {
        [self.eligible, self.replaced, self.dropped]
    }
}

impl EligibleEvents {
    /// Those behind the ones that a state counts.
    pub fn after(handed: Samples) -> EligibleEvents {
        EligibleEvents { handed: Some(handed), priorities: Vec::new() }
    }

    /// The next interval begins.
    pub fn clear(&mut self) {
        self.handed = None;
        self.priorities.clear();
    }

    #[inline]
    pub fn add(&mut self, priority: u8) {
        self.priorities.push(priority);
    }

    #[inline]
    fn before(&self) -> Samples {
        self.handed.unwrap_or(Samples::NONE)
    }

    #[inline]
    pub fn number(&self) -> usize {
        self.before().eligible + self.priorities.len()
    }

    /// Those of a priority "after the 704th eligible one".
    fn later(&self, priority: u8) -> impl Iterator<Item = &u8> {
        let free = SLOTS.saturating_sub(self.before().used);
        self.priorities.iter().skip(free).filter(move |one| **one == priority)
    }

    /// "the priority 1 eligible events after the 704th eligible one, or .. LIMHI if less"
    fn replaced(&self, limhi: usize) -> usize {
        let before = self.before().replaced;
        before + self.later(1).count().min(limhi.saturating_sub(before))
    }

    /// "every other one after the 704th", where the list is the whole interval's: those of priority 0,
    /// and those of priority 1 behind the first LIMHI of them.
    fn dropped(&self, limhi: usize) -> usize {
        self.later(0).count() + self.later(1).skip(limhi).count()
    }

    /// The three counts at a close that finds so many slots filled.
    pub fn sample_counts(&self, limhi: u16, filled: usize) -> SampleCounts {
        let limhi = limhi as usize;
        let (eligible, replaced) = (self.number(), self.replaced(limhi));
        // "Eligible = filled + replaced + dropped", but the numbers of a state may be odd.
        let rest = eligible.saturating_sub(filled).saturating_sub(replaced);
        let dropped = if self.handed.is_none() { self.dropped(limhi) } else { rest };
        debug_assert_eq!(dropped, rest, "eligible {eligible}, filled {filled}, replaced {replaced}");
        SampleCounts { eligible: eligible as u32, replaced: replaced as u32, dropped: dropped as u32 }
    }
}

#[cfg(test)]
mod tests {
    use super::*;

    /// 704 eligible events, and late ones of these priorities.
    fn events(late: &[u8]) -> EligibleEvents {
        let mut events = EligibleEvents::default();
        (0..704).for_each(|i| events.add((i % 2) as u8));
        late.iter().for_each(|priority| events.add(*priority));
        events
    }

    #[test]
    fn nothing_is_late_before_the_704th() {
        let mut events = EligibleEvents::default();
        assert_eq!(events.sample_counts(500, 0), SampleCounts::NONE);
        (0..704).for_each(|_| events.add(1));
        assert_eq!(events.sample_counts(500, 704).in_order(), [704, 0, 0]);
        events.add(1);
        assert_eq!(events.sample_counts(500, 704).in_order(), [705, 1, 0]);
    }

    #[test]
    fn late_events_by_priority_and_limhi() {
        for (limhi, replaced, dropped) in
            [(0, 0, 6), (1, 1, 5), (3, 3, 3), (4, 4, 2), (5, 4, 2), (704, 4, 2)]
        {
            let sample_counts = events(&[0, 1, 1, 0, 1, 1]).sample_counts(limhi, 704);
            assert_eq!(sample_counts.in_order(), [710, replaced, dropped], "LIMHI {limhi}");
        }
        assert_eq!(events(&[0; 9]).sample_counts(500, 704).in_order(), [713, 0, 9]);
        assert_eq!(events(&[1; 705]).sample_counts(704, 704).in_order(), [1_409, 704, 1]);
    }

    #[test]
    fn numbers_without_events_and_events_after_them() {
        let after = |eligible, used, replaced, late: &[u8]| {
            let mut events = EligibleEvents::after(Samples { eligible, used, replaced });
            late.iter().for_each(|priority| events.add(*priority));
            events
        };
        // Two of the 704 slots are free; of the three late ones two have priority 1.
        assert_eq!(after(20, 702, 3, &[1, 1, 0, 1, 1]).sample_counts(9, 5).in_order(), [25, 5, 15]);
        assert_eq!(after(20, 702, 3, &[1, 1, 0, 1, 1]).sample_counts(4, 5).in_order(), [25, 4, 16]);
        assert_eq!(after(20, 702, 3, &[1, 1, 0, 1, 1]).sample_counts(2, 5).in_order(), [25, 3, 17]);
        // More filled and replaced than eligible.
        for (eligible, filled, replaced, dropped) in
            [(5, 7, 0, 0), (5, 7, 9, 0), (5, 5, 0, 0), (5, 3, 1, 1), (5, 3, 2, 0), (5, 3, 3, 0)]
        {
            let sample_counts = after(eligible, 0, replaced, &[]).sample_counts(500, filled);
            assert_eq!(sample_counts.in_order(), [eligible as u32, replaced as u32, dropped]);
        }
    }
}
