//! The slots of a cycle that a hop takes.

/// A slot and every `step`-th one after it, up to the end of the cycle.
#[derive(Clone, Copy, Debug, PartialEq, Eq)]
pub struct Slots {
    pub first: usize,
    pub step: usize,
    /// Slots in the cycle.
    pub end: usize,
}

impl Slots {
    /// The slots in rising order.
    pub fn iter(self) -> impl Iterator<Item = usize> {
        (self.first..self.end).step_by(self.step)
    }

    pub fn contains(self, slot: usize) -> bool {
        (self.first..self.end).contains(&slot) && (slot - self.first).is_multiple_of(self.step)
    }

    /// Some slot is in both. It goes through those of the one with fewer.
    pub fn has_common_slot(self, other: Slots) -> bool {
        let (few, many) = if self.step > other.step { (self, other) } else { (other, self) };
        few.iter().any(|slot| many.contains(slot))
    }
}
