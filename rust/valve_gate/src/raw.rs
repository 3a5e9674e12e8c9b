//! The exports of crates/valve_gate_c as they are (`include/valve_gate.h`). Each call is total: a count that is not right is
//! answered 1, and no contents, argument or count makes a call leave the memory that it is lent. Nothing is kept after a
//! call.
//!
//! Safety, for all: each pointer is aligned and good for the count beside it (for one element where there is none), to read,
//! and where it is `*mut` also to write; what is written overlaps nothing else that is lent.

extern "C" {
    /// The number of the layout, which is also its name's.
    pub fn valve_gate_layout_1() -> u32;

    pub fn valve_gate_state_begin(gate: *mut u8, gate_count: usize) -> u32;

    pub fn valve_gate_state_started(gate: *mut u8, gate_count: usize, number: u32) -> u32;

    pub fn valve_gate_state_answered(gate: *mut u8, gate_count: usize, number: u32) -> u32;

    pub fn valve_gate_state_subframe(
        gate: *mut u8,
        gate_count: usize,
        hkroot: u32,
        mack: u32,
    ) -> u32;

    pub fn valve_gate_state_decide(
        gate: *mut u8,
        gate_count: usize,
        met20: u8,
        met10: u8,
        free: *mut u64,
    ) -> u32;

    pub fn valve_gate_core_decide(
        gate: *mut u8,
        gate_count: usize,
        clocks: *const u32,
        clocks_count: usize,
        arrivals: *const u32,
        arrivals_count: usize,
        free: *mut u64,
    ) -> u32;
}
