//! The state of FIPS 202 as bytes, around somebody's permutation.

/// 25 lanes, lane (x, y) at 5 y + x.
pub type State = [u64; 25];

/// Bytes added to the state from its start, a whole number of lanes.
pub fn add(state: &mut State, bytes: &[u8]) {
    for (lane, bytes) in state.iter_mut().zip(bytes.chunks_exact(8)) {
        *lane ^= bytes.first_chunk().map_or(0, |b| u64::from_le_bytes(*b));
    }
}

/// The last bit of padding added, at the end of the rate.
pub fn end(state: &mut State, rate: usize) {
    state[rate / 8 - 1] ^= 1 << 63;
}

/// The first 32 bytes of the state.
pub fn digest(state: &State) -> [u8; 32] {
    let mut out = [0; 32];
    for (bytes, lane) in out.chunks_exact_mut(8).zip(state) {
        bytes.copy_from_slice(&lane.to_le_bytes());
    }
    out
}
