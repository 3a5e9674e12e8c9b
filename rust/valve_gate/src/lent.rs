//! The calls over lent bytes of any length, for [`Gate`](crate::Gate) and for who keeps the bytes apart. Each answers 0, or 1
//! where a length is wrong; nothing is changed then, and no valve is free. Any 49 bytes are a state, and each call has a
//! stated effect on them.

use crate::raw;

/// All valves closed, and no stop seen.
pub fn begin(gate: &mut [u8]) -> u32 {
    // SAFETY: each pointer is of a live slice and has its length beside it, or of a live number; what is written is borrowed
    // for that alone.
    unsafe { raw::valve_gate_state_begin(gate.as_mut_ptr(), gate.len()) }
}

/// What the core answered to a start.
pub fn started(gate: &mut [u8], number: u32) -> u32 {
    // SAFETY: as above.
    unsafe { raw::valve_gate_state_started(gate.as_mut_ptr(), gate.len(), number) }
}

/// What the core answered to a word or a verdict.
pub fn answered(gate: &mut [u8], number: u32) -> u32 {
    // SAFETY: as above.
    unsafe { raw::valve_gate_state_answered(gate.as_mut_ptr(), gate.len(), number) }
}

/// What the core answered to a sub-frame: the numbers of its two halves.
pub fn subframe(gate: &mut [u8], hkroot: u32, mack: u32) -> u32 {
    // SAFETY: as above.
    unsafe { raw::valve_gate_state_subframe(gate.as_mut_ptr(), gate.len(), hkroot, mack) }
}

/// A decision by the core's answers for an age of 20 and for one of 10: 1 says yes, any other number no. `free` has valve 1 in
/// bit 0, valve 48 in bit 47, 1 for free.
pub fn decide(gate: &mut [u8], met20: u8, met10: u8, free: &mut u64) -> u32 {
    // SAFETY: as above.
    unsafe { raw::valve_gate_state_decide(gate.as_mut_ptr(), gate.len(), met20, met10, free) }
}

/// A decision that asks the core itself, by the two regions that its question is lent
/// ([`osnma::Core::lent_to_four`]).
pub fn core_decide(gate: &mut [u8], clocks: &[u32], arrivals: &[u32], free: &mut u64) -> u32 {
    // SAFETY: as above.
    unsafe {
        raw::valve_gate_core_decide(
            gate.as_mut_ptr(),
            gate.len(),
            clocks.as_ptr(),
            clocks.len(),
            arrivals.as_ptr(),
            arrivals.len(),
            free,
        )
    }
}
