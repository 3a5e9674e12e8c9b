//! The hash functions that a root can name for the steps of its chain (000, table 10; 02, P6). The
//! tree and HMAC stay on SHA-256 whatever HF says (B36).

use portable_hash::{sha256, sha3_224, sha3_256};

/// Bits of a digest by HF: SHA-256, SHA3-224, SHA3-256. Value 3 is reserved.
const DIGEST_BITS: [usize; 3] = [256, 224, 256];

/// Whether HF names a function whose digest has the bits of a key.
pub fn is_taken(hf: u8, key_bits: usize) -> bool {
    DIGEST_BITS
        .get(usize::from(hf))
        .is_some_and(|&bits| key_bits <= bits)
}

/// The first bytes of a message's digest by the function that HF names; `key` is no longer than it.
pub fn digest_into(hf: u8, message: &[u8], key: &mut [u8]) {
    let n = key.len();
    match hf {
        0 => key.copy_from_slice(&sha256(message)[..n]),
        1 => key.copy_from_slice(&sha3_224(message)[..n]),
        2 => key.copy_from_slice(&sha3_256(message)[..n]),
        _ => unreachable!("row 8 takes no other HF"),
    }
}
