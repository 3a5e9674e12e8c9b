//! What a valve is between two decisions.

use core::fmt;

/// A valve after a decision.
#[derive(Clone, Copy, Debug, PartialEq, Eq, Hash)]
pub enum Valve {
    /// Free to follow the dose map.
    Free,
    /// Closed, and it stays so for this many further decisions, met or not.
    Closed {
        /// 2 after a change to closed, then 1, then 0: the next decision frees it if its limit is met.
        further: u8,
    },
}

impl Valve {
    /// By the state's byte: 3 free, 0 to 2 closed, and any other number counts as 0.
    pub(crate) const fn of(byte: u8) -> Valve {
        match byte {
            3 => Valve::Free,
            1 | 2 => Valve::Closed { further: byte },
            _ => Valve::Closed { further: 0 },
        }
    }
}

impl fmt::Display for Valve {
    fn fmt(&self, f: &mut fmt::Formatter<'_>) -> fmt::Result {
        match self {
            Valve::Free => f.write_str("free"),
            Valve::Closed { further: 0 } => f.write_str("closed"),
            Valve::Closed { further: 1 } => f.write_str("closed for 1 further decision"),
            Valve::Closed { further } => write!(f, "closed for {further} further decisions"),
        }
    }
}
