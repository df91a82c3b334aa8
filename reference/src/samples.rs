//! Document 01, "One event", the paragraph on samples.

pub const SLOTS: usize = 704;

pub type Slots = [u32; SLOTS];

/// A state's numbers of the interval's samples: how many events were eligible, how far the slots are
/// filled, and how many were then replaced.
#[derive(Clone, Copy, Debug, PartialEq, Eq)]
pub struct Samples {
    /// Of the list of eligible events (module `sample_counts`).
    pub eligible: usize,
    pub used: usize,
    pub replaced: usize,
}

impl Samples {
    pub const NONE: Samples = Samples { eligible: 0, used: 0, replaced: 0 };

    /// Offers an eligible event's record: the first 704 go into the slots in order; then
    /// those with priority 1 replace slots 0, 1, ... below LIMHI; all others drop out.
    #[inline]
    pub fn offer(&mut self, slots: &mut Slots, record: u32, priority: u8, limhi: u16) {
        if self.used < SLOTS {
            slots[self.used] = record;
            self.used += 1;
        } else if priority == 1 && self.replaced < limhi as usize {
            slots[self.replaced] = record;
            self.replaced += 1;
        }
    }
}

#[cfg(test)]
mod tests {
    use super::*;

    /// The slots after records 1, 2, ..., n of which those divisible by 3 have priority 1.
    fn slots_after(n: u32, limhi: u16) -> Slots {
        let (mut slots, mut samples) = ([0; SLOTS], Samples::NONE);
        for record in 1..=n {
            samples.offer(&mut slots, record, (record % 3 == 0) as u8, limhi);
        }
        slots
    }

    #[test]
    fn nothing_is_overwritten_before_slot_703_is_full() {
        let slots = slots_after(704, 500);
        assert!((0..704).all(|i| slots[i] == i as u32 + 1));
        // 705 = 3 * 235 has priority 1 and replaces slot 0.
        assert_eq!(slots_after(705, 500)[..2], [705, 2]);
    }

    #[test]
    fn later_events_of_priority_1_replace_slots_below_limhi() {
        let first = slots_after(704, 0);
        assert_eq!(slots_after(5_000, 0), first);
        assert_eq!(slots_after(5_000, 1)[..2], [705, 2]);
        let slots = slots_after(5_000, 500);
        // The h-th later one with priority 1 is 705 + 3h.
        assert!((0..500).all(|h| slots[h] == 705 + 3 * h as u32));
        assert_eq!(slots[500..], first[500..]);
        let slots = slots_after(5_000, 704);
        assert!((0..704).all(|h| slots[h] == 705 + 3 * h as u32));
    }
}
