//! What a decision gives.

use crate::{is_outer, VALVES};

/// The valves that are free after a decision.
#[derive(Clone, Copy, Debug, Default, PartialEq, Eq, Hash)]
pub struct Free(u64);

impl Free {
    /// No valve.
    pub const NONE: Free = Free(0);

    /// By a decision's number.
    pub(crate) const fn of(bits: u64) -> Free {
        Free(bits)
    }

    /// Valve 1 in bit 0, valve 48 in bit 47, 1 for free; the bits above are 0.
    pub const fn bits(self) -> u64 {
        self.0
    }

    /// Whether a valve, 1 to 48, is free. No other number is a valve, and none of them is free.
    pub const fn is_free(self, valve: u8) -> bool {
        match valve.checked_sub(1) {
            Some(bit @ 0..VALVES) => self.0.rotate_right(bit as u32) & 1 == 1,
            _ => false,
        }
    }

    /// Whether all 36 centre valves are free. Those of a group decide alike: where not all are, none is.
    pub fn centre(self) -> bool {
        self.all(|valve| !is_outer(valve))
    }

    /// Whether all twelve outer valves are free, six on each side.
    pub fn outer(self) -> bool {
        self.all(is_outer)
    }

    fn all(self, of: impl Fn(u8) -> bool) -> bool {
        let mut group = (1..=VALVES).filter(|valve| of(*valve));
        group.all(|valve| self.is_free(valve))
    }

    /// Each valve by its number, from 1, and whether it is free.
    pub fn iter(self) -> impl DoubleEndedIterator<Item = (u8, bool)> {
        (1..=VALVES).map(move |valve| (valve, self.is_free(valve)))
    }
}
