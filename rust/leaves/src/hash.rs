//! SHA-256, HMAC-SHA-256, SHA3-224 and SHA3-256 (crates/sha256, crates/hmac, crates/sha3).
//!
//! The contracts are in `crates/test_hash/specs/Calls.antt`: every call is total, equals FIPS 180-4,
//! FIPS 198-1 or FIPS 202, and changes nothing where a length is not as it must be. The functions here
//! lend what is needed with lengths that are right, so that the only refusal left is a message too long
//! for SHA-256; SHA3 takes every length. Nothing allocates and nothing panics.

use crate::raw;

/// A SHA-256 digest or an HMAC-SHA-256 code.
pub type Digest = [u8; 32];

/// A message or a key has 2^61 bytes or more (FIPS 180-4, 1). No slice is that long where addresses
/// have 57 bits or fewer.
#[derive(Clone, Copy, Debug, PartialEq, Eq)]
pub struct TooLong;

impl std::fmt::Display for TooLong {
    fn fmt(&self, f: &mut std::fmt::Formatter<'_>) -> std::fmt::Result {
        f.write_str("a message of 2^61 bytes or more")
    }
}

impl std::error::Error for TooLong {}

fn unless_refused<T>(answer: u32, value: T) -> Result<T, TooLong> {
    match answer {
        0 => Ok(value),
        _ => Err(TooLong),
    }
}

/// SHA-256 of a message (FIPS 180-4, 6.2).
pub fn sha256(message: &[u8]) -> Result<Digest, TooLong> {
    let mut out = [0; 32];
    // SAFETY: each pointer is of a live slice and has its length beside it.
    let answer =
        unsafe { raw::osnma_sha256(message.as_ptr(), message.len(), out.as_mut_ptr(), out.len()) };
    unless_refused(answer, out)
}

/// SHA-256 of `a` followed by `b`, without joining them in memory.
pub fn sha256_of_two(a: &[u8], b: &[u8]) -> Result<Digest, TooLong> {
    let mut out = [0; 32];
    // SAFETY: each pointer is of a live slice and has its length beside it.
    let answer = unsafe {
        raw::osnma_sha256_of_two(
            a.as_ptr(),
            a.len(),
            b.as_ptr(),
            b.len(),
            out.as_mut_ptr(),
            out.len(),
        )
    };
    unless_refused(answer, out)
}

/// HMAC-SHA-256 of a message under a key of any length (FIPS 198-1).
pub fn hmac(key: &[u8], message: &[u8]) -> Result<Digest, TooLong> {
    let mut out = [0; 32];
    // SAFETY: each pointer is of a live slice and has its length beside it.
    let answer = unsafe {
        raw::osnma_hmac(
            key.as_ptr(),
            key.len(),
            message.as_ptr(),
            message.len(),
            out.as_mut_ptr(),
            out.len(),
        )
    };
    unless_refused(answer, out)
}

/// A key with both pads hashed: each message under it takes two compressions fewer than [`hmac`].
#[derive(Clone)]
pub struct HmacKey([u32; 16]);

impl HmacKey {
    /// Hashes the key's pads. The key may have any length.
    pub fn new(key: &[u8]) -> Result<HmacKey, TooLong> {
        let mut words = [0; 16];
        // SAFETY: each pointer is of a live slice and has its length beside it.
        let answer = unsafe {
            raw::osnma_hmac_key(key.as_ptr(), key.len(), words.as_mut_ptr(), words.len())
        };
        unless_refused(answer, HmacKey(words))
    }

    /// The code of a message: the same as [`hmac`] under this key.
    pub fn mac(&self, message: &[u8]) -> Result<Digest, TooLong> {
        let mut out = [0; 32];
        // SAFETY: each pointer is of a live slice and has its length beside it.
        let answer = unsafe {
            raw::osnma_hmac_with(
                self.0.as_ptr(),
                self.0.len(),
                message.as_ptr(),
                message.len(),
                out.as_mut_ptr(),
                out.len(),
            )
        };
        unless_refused(answer, out)
    }
}

/// One block into a hash value (FIPS 180-4, 6.2.2).
pub fn compress(state: &mut [u32; 8], block: &[u8; 64]) {
    // SAFETY: both are live arrays of the lengths that the call takes.
    unsafe { raw::osnma_compress(state, block) }
}

/// SHA3-224 of a message (FIPS 202, 6.1).
pub fn sha3_224(message: &[u8]) -> [u8; 28] {
    let mut out = [0; 28];
    // SAFETY: each pointer is of a live slice and has its length beside it.
    unsafe { raw::osnma_sha3_224(message.as_ptr(), message.len(), out.as_mut_ptr(), out.len()) };
    out
}

/// SHA3-256 of a message (FIPS 202, 6.1).
pub fn sha3_256(message: &[u8]) -> [u8; 32] {
    let mut out = [0; 32];
    // SAFETY: each pointer is of a live slice and has its length beside it.
    unsafe { raw::osnma_sha3_256(message.as_ptr(), message.len(), out.as_mut_ptr(), out.len()) };
    out
}

/// KECCAK-f\[1600\] of a state, lane (x, y) at 5 y + x (FIPS 202, 3.3 and 3.4).
pub fn keccak(state: &mut [u64; 25]) {
    // SAFETY: a live array of the length that the call takes.
    unsafe { raw::osnma_keccak(state) }
}
