//! Times and key slots (crates/times).

use crate::raw;

/// What the slots of a chain are counted from.
#[derive(Clone, Copy, Debug)]
pub struct Slots {
    pub ns: u64,
    pub nmack: u64,
    /// Seconds of the root's sub-frame 0.
    pub root: u64,
}

impl Slots {
    pub(crate) fn in_range(&self) -> bool {
        (1..=36).contains(&self.ns) && (1..=3).contains(&self.nmack) && self.root < 1 << 33
    }

    /// Seconds of the time that is hashed with the key of slot `m`.
    pub fn slot_seconds(&self, m: u64) -> Option<u64> {
        // SAFETY: as above.
        (self.in_range() && m < 1 << 35)
            .then(|| unsafe { raw::leaf_slot_seconds(self.ns, self.nmack, self.root, m) })
    }
}
