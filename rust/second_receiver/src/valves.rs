//! The valve gate: which of the boom's 48 valves are free, from what a core answers (02, P14; readings B82, B87 to B90).

use crate::numbers::{ACCEPTED, STOPPED};
use std::array;

/// Valves of the boom.
pub const VALVES: usize = 48;
/// Outer valves on each side: 1 to 6 and 43 to 48 (B90).
pub const OUTER_EACH_SIDE: usize = 6;
/// The oldest that four satellites may be, in sub-frames, for a centre valve and for an outer one.
pub const CENTRE_AGE: u32 = 20;
pub const OUTER_AGE: u32 = 10;
/// Decisions after a change to closed in which a valve stays closed.
const FURTHER: usize = 2;
/// Bytes of a gate's state in the library's interface: one a valve, and one that tells a stop.
pub const BYTES: usize = VALVES + 1;

/// One valve: all that was decided of it.
#[derive(Clone, Debug, Default, PartialEq, Eq)]
struct Valve {
    /// Whether it was free, decision by decision.
    decisions: Vec<bool>,
    /// The place of its last change to closed among them.
    closing: Option<usize>,
}

impl Valve {
    /// A valve with the fewest decisions after which the library's interface has this byte.
    fn of_byte(byte: u8) -> Valve {
        let mut valve = Valve::default();
        let met: &[bool] = match byte {
            3 => &[true],
            2 => &[true, false],
            1 => &[true, false, false],
            _ => &[],
        };
        met.iter().for_each(|&met| valve.decide(met));
        valve
    }

    /// "All valves begin closed".
    fn is_free(&self) -> bool {
        self.decisions.last() == Some(&true)
    }

    /// Decisions to come in which it stays closed, met or not. To begin closed is no change.
    fn further(&self) -> usize {
        let first = self.closing.map_or(0, |at| at + 1 + FURTHER);
        first.saturating_sub(self.decisions.len())
    }

    /// "After a change to closed, a valve stays closed for two further decisions, met or not; else it is free exactly when
    /// its limit is met."
    fn decide(&mut self, met: bool) {
        let free = met && self.further() == 0;
        if self.is_free() && !free {
            self.closing = Some(self.decisions.len());
        }
        self.decisions.push(free);
    }

    /// As the library's interface names it: 3 free, else the further decisions to come.
    fn byte(&self) -> u8 {
        match self.is_free() {
            true => 3,
            false => self.further() as u8,
        }
    }
}

/// Whether this valve, from 1, is one of the outer six of a side.
pub fn is_outer(valve: usize) -> bool {
    valve <= OUTER_EACH_SIDE || valve > VALVES - OUTER_EACH_SIDE
}

/// The gate: its valves, and whether the core is stopped by the answers that it was shown.
#[derive(Clone, Debug, PartialEq, Eq)]
pub struct Gate {
    /// Valve 1 first.
    valves: [Valve; VALVES],
    stopped: bool,
}

impl Gate {
    /// No decision was made and no answer shown.
    pub fn begin() -> Gate {
        Gate::of_bytes(&[0; BYTES])
    }

    /// A gate whose valves have the fewest decisions after which the library's interface has these bytes; any other number
    /// than 1 to 3 is a closed valve with no further decision to come, and any but 0 at the end a stop.
    pub fn of_bytes(bytes: &[u8; BYTES]) -> Gate {
        Gate {
            valves: array::from_fn(|at| Valve::of_byte(bytes[at])),
            stopped: bytes[VALVES] != 0,
        }
    }

    /// What a start was answered: an accepted one ends a stop, a refused one changes nothing (B82). Valves stay as they
    /// are (B89).
    pub fn started(&mut self, number: u32) {
        self.stopped &= number != u32::from(ACCEPTED);
    }

    /// What a word or a verdict was answered.
    pub fn answered(&mut self, number: u32) {
        self.stopped |= number == u32::from(STOPPED);
    }

    /// What the two halves of a sub-frame were answered: an emergency message's own is 0 and 4, a later one's 4 and 4.
    pub fn subframe(&mut self, hkroot: u32, mack: u32) {
        self.answered(hkroot);
        self.answered(mack);
    }

    /// One decision, by whether four satellites are no older than 20 sub-frames, and whether than 10: the free valves, valve
    /// 1 in the lowest bit. "A stopped core closes all, and a decision made then counts as limit unmet."
    pub fn decide(&mut self, met20: bool, met10: bool) -> u64 {
        for (valve, number) in self.valves.iter_mut().zip(1..) {
            let met = if is_outer(number) { met10 } else { met20 };
            valve.decide(met && !self.stopped);
        }
        self.free()
    }

    /// The free valves, valve 1 in the lowest bit.
    pub fn free(&self) -> u64 {
        let bits = self.valves.iter().zip(0..);
        bits.map(|(valve, bit)| u64::from(valve.is_free()) << bit)
            .sum()
    }

    pub fn is_stopped(&self) -> bool {
        self.stopped
    }

    /// The state in the library's interface.
    pub fn bytes(&self) -> [u8; BYTES] {
        array::from_fn(|at| match self.valves.get(at) {
            Some(valve) => valve.byte(),
            None => self.stopped.into(),
        })
    }
}
