//! The valve gate of a boom sprayer with 48 valves above the OSNMA core ([`osnma`]), for Rust: per half minute it decides for
//! each valve whether it is closed, or free to follow the dose map.
//!
//! The gate itself is written in Rattle and proved: every call equals its definition in
//! `crates/valve_rules/specs/Gate.antt`, for every contents of the memory that it is lent, and
//! `crates/valve_rules/specs/Claim.antt` says what holds over any run of decisions. This crate owns that memory, 49 bytes
//! ([`Gate`]), and lends it to each call. It allocates nothing, needs no standard library, and cannot panic.
//!
//! **The rule.** The 36 centre valves are free with four satellites whose data tags showed to be authentic, none older than 20
//! sub-frames of 30 seconds; the outer six on each side, 1 to 6 and 43 to 48, only with an age of at most 10. After a change to
//! closed a valve stays closed for two further decisions, met or not; else it is free exactly when its limit is met. All
//! valves begin closed, which is no change. A stopped core closes all at the next decision, and a decision made then counts as
//! limit unmet.
//!
//! **What the caller does**: it begins the gate before the core's start, or with it, and shows it what the core answers to
//! every start, word, verdict and sub-frame. It decides once a half minute, by a clock of its own that the signal cannot set,
//! also where no sub-frame came; between two decisions the valves stay as the last one said. A gate that is begun beside a core
//! that is stopped already learns of the stop by the next answer 4 alone.
//!
//! **The archive**: the build links `libvalve_gate.a`, which `tools/build valve_gate` writes beside the core's, in the way that
//! [`osnma`] links its own. One of another layout than this crate's does not link ([`LAYOUT`]).
//!
//! What stands behind a free valve and what does not, and how a boom controller is wired, is said in `docs/BOOM.md`.
//!
//! ```
//! use osnma::{Core, Gst, Refusal, Settings};
//! use valve_gate::{Gate, Valve};
//!
//! # let settings = Settings {
//! #     ns: 36, key_id: 3, key_type: 1, maclt: 27,
//! #     marks: [[0, 255, 255, 255, 255, 255, 255, 255, 255, 255, 255, 255, 255, 255]; 2],
//! #     tree_root: [0x5E; 32], key: [0x02; 67],
//! # };
//! let (mut core, mut gate) = (Core::new(), Gate::new());
//! gate.started(&core.start(&settings));
//!
//! // A half minute: the fields of all satellites, then the words, and what a chip says of a message that waits.
//! let mut records = osnma::NO_RECORDS;
//! let time = Gst::new(947, 432_000).ok_or(Refusal::OutOfRange)?;
//! gate.subframe(&core.subframe(18, time, &[0; 75], &mut records));
//! gate.answered(&core.word(18, time, &[0; 16]));
//!
//! // Its end: a decision. No satellite has authentic data yet.
//! let free = gate.decide(&core);
//! assert!(!free.centre() && !free.outer() && !free.is_free(24));
//! assert_eq!(gate.valve(24), Valve::Closed { further: 0 });
//! # Ok::<(), Refusal>(())
//! ```

#![no_std]
#![warn(missing_docs)]
#![deny(
    clippy::arithmetic_side_effects,
    clippy::expect_used,
    clippy::indexing_slicing,
    clippy::panic,
    clippy::unreachable,
    clippy::unwrap_used
)]

mod free;
pub mod lent;
mod raw;
mod valve;

pub use free::Free;
pub use valve::Valve;

use osnma::{Core, Refusal, SubframeAnswer};

/// The version of this crate, of `include/valve_gate.h` and of the archive's calls (`CHANGELOG.md`).
pub const VERSION: &str = env!("CARGO_PKG_VERSION");
/// The number of the layout that this crate lends: it rises whenever the state or the parameters of an export change, and with
/// the core's, of which a decision is lent two regions. The archive exports a function whose name ends in it, which each
/// decision calls, so that an archive of another layout does not link.
pub const LAYOUT: u32 = 1;

/// The valves: 1 to 48.
pub const VALVES: u8 = 48;
/// Bytes of the state: a valve each, and whether the core is known to be stopped.
pub const STATE_LEN: usize = 49;
/// The age, in sub-frames of 30 seconds, that the data of four satellites may have for the centre valves.
pub const CENTRE_LIMIT: u32 = 20;
/// The same for the outer valves.
pub const OUTER_LIMIT: u32 = 10;

// A decision is lent two regions of a core of this layout.
const _: () = assert!(osnma::LAYOUT == 2);

/// Whether a valve is one of the outer six on a side: 1 to 6 and 43 to 48.
pub const fn is_outer(valve: u8) -> bool {
    matches!(valve, 1..=6 | 43..=VALVES)
}

/// The gate: its state of 49 bytes.
#[derive(Clone, Debug, PartialEq, Eq)]
pub struct Gate {
    state: [u8; STATE_LEN],
}

impl Gate {
    /// All valves closed, which is no change, so that the first decision may free them; no stop of the core is known.
    pub fn new() -> Gate {
        let mut gate = Gate::from_bytes([0; STATE_LEN]);
        // The length is right here and below, so it answers 0.
        let _ = lent::begin(&mut gate.state);
        gate
    }

    /// A gate as [`as_bytes`](Gate::as_bytes) gave it. Any bytes are a state: 0 to 47 are valves 1 to 48, 3 for free, 0 to 2 for
    /// closed with so many further decisions to come in which it stays closed, and any other number counts as 0. Byte 48 is not
    /// 0 where the core is known to be stopped.
    pub const fn from_bytes(state: [u8; STATE_LEN]) -> Gate {
        Gate { state }
    }

    /// The state.
    pub const fn as_bytes(&self) -> &[u8; STATE_LEN] {
        &self.state
    }

    /// What the core answered to a start. An accepted one ends a stop and changes nothing else: valves stay as they are, and
    /// further decisions go on. A refused one changes nothing.
    pub fn started(&mut self, answer: &Result<(), Refusal>) {
        self.started_number(number(answer));
    }

    /// What the core answered to a word or to a verdict: [`Refusal::Stopped`] tells of a stop, any other answer of nothing.
    pub fn answered(&mut self, answer: &Result<(), Refusal>) {
        self.answered_number(number(answer));
    }

    /// What the core answered to a sub-frame: [`Refusal::Stopped`] in either half tells of a stop.
    pub fn subframe(&mut self, answer: &SubframeAnswer<'_>) {
        self.subframe_numbers(number(&answer.hkroot), number(&answer.mack));
    }

    /// [`started`](Gate::started) by the answer's number, 0 for accepted, where it was sent from elsewhere.
    pub fn started_number(&mut self, number: u32) {
        let _ = lent::started(&mut self.state, number);
    }

    /// [`answered`](Gate::answered) by the answer's number, 4 for a stop.
    pub fn answered_number(&mut self, number: u32) {
        let _ = lent::answered(&mut self.state, number);
    }

    /// [`subframe`](Gate::subframe) by the numbers of both halves.
    pub fn subframe_numbers(&mut self, hkroot: u32, mack: u32) {
        let _ = lent::subframe(&mut self.state, hkroot, mack);
    }

    /// Decides, once a half minute when the fields of all its satellites are lent. The core is asked for both limits, which
    /// stand in the proved code. The valves stay so until the next decision.
    ///
    /// With an archive that has the name of this [`LAYOUT`] and not its number no valve is free.
    ///
    /// **No time passes for the core but by sub-frames that are noted** ([`Core::four`]): where none comes any more, this
    /// goes on to free what it freed. A controller that cannot rule that out calls
    /// [`decide_silent`](Gate::decide_silent).
    pub fn decide(&mut self, core: &Core) -> Free {
        let lent = core.lent_to_four();
        decided(|free| lent::core_decide(&mut self.state, lent.clocks, lent.arrivals, free))
    }

    /// The same in a silence: `half_minutes` are the whole ones since a sub-frame was last noted, by a clock that the signal
    /// cannot set. They are taken off both limits, and a limit that they are more than is unmet. With 0 it is
    /// [`decide`](Gate::decide).
    pub fn decide_silent(&mut self, core: &Core, half_minutes: u32) -> Free {
        let met = |limit: u32| {
            let left = limit.checked_sub(half_minutes);
            left.is_some_and(|left| core.four(left))
        };
        self.decide_told(met(CENTRE_LIMIT), met(OUTER_LIMIT))
    }

    /// Decides by the core's two answers, where these were sent from elsewhere: whether four satellites have authentic data
    /// of at most [`CENTRE_LIMIT`] sub-frames, and of at most [`OUTER_LIMIT`] ([`Core::four`]).
    pub fn decide_told(&mut self, met20: bool, met10: bool) -> Free {
        decided(|free| lent::decide(&mut self.state, met20.into(), met10.into(), free))
    }

    /// Whether the core is known to be stopped: an answer told so, and no start was accepted since.
    pub const fn is_stopped(&self) -> bool {
        let [.., stopped] = self.state;
        stopped != 0
    }

    /// What a valve is, 1 to 48. No other number is a valve; it is closed.
    pub fn valve(&self, valve: u8) -> Valve {
        let [valves @ .., _] = &self.state;
        let byte = usize::from(valve)
            .checked_sub(1)
            .and_then(|at| valves.get(at));
        Valve::of(byte.copied().unwrap_or(0))
    }
}

/// The number of an answer.
fn number(answer: &Result<(), Refusal>) -> u32 {
    answer.err().map_or(0, Refusal::number)
}

/// What a decision gives, by an archive of this layout.
fn decided(decide: impl FnOnce(&mut u64) -> u32) -> Free {
    let mut free = 0;
    if layout() == LAYOUT {
        // The lengths are right, so it answers 0.
        let _ = decide(&mut free);
    }
    Free::of(free)
}

/// The layout that the archive was made for.
fn layout() -> u32 {
    // SAFETY: it takes nothing and returns a number.
    unsafe { raw::valve_gate_layout_1() }
}

impl Default for Gate {
    fn default() -> Gate {
        Gate::new()
    }
}
