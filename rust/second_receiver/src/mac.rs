//! The MAC functions that a root can name (000, table 11; 02, P1), for tags and MACSEQ alone.

use crate::bits::take;
use portable_aes::CmacKey;
use portable_hash::HmacKey;

const HMAC_SHA_256: u8 = 0;
const CMAC_AES: u8 = 1;

/// Whether MF names a function that takes keys of this size: HMAC-SHA-256 takes all, CMAC-AES those
/// of AES. Other values are reserved.
pub fn is_taken(mf: u8, key_bits: usize) -> bool {
    match mf {
        HMAC_SHA_256 => true,
        CMAC_AES => matches!(key_bits, 128 | 192 | 256),
        _ => false,
    }
}

/// A tag key, whole, under the function that its chain names.
#[derive(Clone)]
pub enum MacKey {
    Hmac(HmacKey),
    Cmac(CmacKey),
}

impl MacKey {
    /// None for a function and a size that no chain in force has.
    pub fn new(mf: u8, key: &[u8]) -> Option<MacKey> {
        match mf {
            HMAC_SHA_256 => Some(MacKey::Hmac(HmacKey::new(key))),
            CMAC_AES => CmacKey::new(key).map(MacKey::Cmac),
            _ => None,
        }
    }

    /// The first bits of a message's code.
    pub fn code(&self, message: &[u8], bits: usize) -> u64 {
        match self {
            MacKey::Hmac(key) => take(&key.mac(message), 0, bits),
            MacKey::Cmac(key) => take(&key.mac(message), 0, bits),
        }
    }
}
