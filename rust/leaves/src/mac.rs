//! AES and CMAC (crates/aes, crates/cmac).
//!
//! The contracts are in `crates/test_mac/specs/Calls.antt`: every call is total, equals FIPS 197 or NIST
//! SP 800-38B, and changes nothing where a length is not as it must be. The functions here lend what is
//! needed with lengths that are right; a key has 16, 24 or 32 bytes. Nothing allocates and nothing panics.

use crate::raw;

/// A block of AES, or a CMAC code.
pub type Block = [u8; 16];

/// A key with its round keys.
#[derive(Clone)]
pub struct AesKey {
    /// Bytes of the key.
    len: usize,
    round_keys: [u8; 240],
}

impl AesKey {
    /// Expands a key (FIPS 197, 5.2). None unless it has 16, 24 or 32 bytes.
    pub fn new(key: &[u8]) -> Option<AesKey> {
        let mut w = [0; 240];
        // SAFETY: each pointer is of a live slice and has its length beside it.
        let answer =
            unsafe { raw::osnma_aes_expand(key.as_ptr(), key.len(), w.as_mut_ptr(), w.len()) };
        (answer == 0).then_some(AesKey {
            len: key.len(),
            round_keys: w,
        })
    }

    /// The block under this key (FIPS 197, 5.1).
    pub fn encrypt(&self, block: &Block) -> Block {
        let (w, mut out) = (&self.round_keys, [0; 16]);
        // SAFETY: each pointer is of a live slice and has its length beside it, or of a live block.
        unsafe {
            raw::osnma_aes_encrypt(
                self.len,
                w.as_ptr(),
                w.len(),
                block,
                out.as_mut_ptr(),
                out.len(),
            )
        };
        out
    }
}

/// CMAC of a message (SP 800-38B, 6.2). None unless the key has 16, 24 or 32 bytes.
pub fn cmac(key: &[u8], message: &[u8]) -> Option<Block> {
    let mut out = [0; 16];
    // SAFETY: each pointer is of a live slice and has its length beside it.
    let answer = unsafe {
        raw::osnma_cmac(
            key.as_ptr(),
            key.len(),
            message.as_ptr(),
            message.len(),
            out.as_mut_ptr(),
            out.len(),
        )
    };
    (answer == 0).then_some(out)
}

/// A key with its round keys and both subkeys.
#[derive(Clone)]
pub struct CmacKey([u8; 273]);

impl CmacKey {
    /// Expands a key and makes its subkeys (SP 800-38B, 6.1). None unless it has 16, 24 or 32 bytes.
    pub fn new(key: &[u8]) -> Option<CmacKey> {
        let mut kept = [0; 273];
        // SAFETY: the key is lent with its length, and what is kept has the length that the call takes.
        let answer = unsafe { raw::osnma_cmac_key(key.as_ptr(), key.len(), &mut kept) };
        (answer == 0).then_some(CmacKey(kept))
    }

    /// The code of a message: the same as [`cmac`] under this key.
    pub fn mac(&self, message: &[u8]) -> Block {
        let mut out = [0; 16];
        // SAFETY: as above, and each pointer of a slice has its length beside it.
        unsafe {
            raw::osnma_cmac_with(
                &self.0,
                message.as_ptr(),
                message.len(),
                out.as_mut_ptr(),
                out.len(),
            )
        };
        out
    }
}

/// The first `n` bits of a code, and zero bits after them (SP 800-38B, 6.2, step 7).
pub fn truncate(mut code: Block, n: usize) -> Block {
    // SAFETY: a live block.
    unsafe { raw::osnma_cmac_truncate(&mut code, n) };
    code
}
