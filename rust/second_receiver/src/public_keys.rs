//! The public keys held (01, HKROOT and "Verdicts").

use crate::numbers::{Number, NOT_NEWER};

pub const MAX_KEY_LEN: usize = 67;
pub const MAX_SIGNATURE_LEN: usize = 132;

/// Bytes of a public key of types 0 to 3.
pub fn key_len(key_type: u8) -> Option<usize> {
    [29, 33, 49, 67].get(usize::from(key_type)).copied()
}

/// Bytes of a signature under a key of types 0 to 3.
pub fn signature_len(key_type: u8) -> Option<usize> {
    [56, 64, 96, 132].get(usize::from(key_type)).copied()
}

/// Key IDs are 4 bits (A6).
pub fn is_key_id(id: u8) -> bool {
    id <= 15
}

#[derive(Clone, Debug, PartialEq, Eq)]
pub struct PublicKey {
    pub id: u8,
    /// 0 to 3.
    pub key_type: u8,
    /// As many as the type says.
    pub bytes: Vec<u8>,
}

/// The public keys held, in rising order of ID.
#[derive(Clone, Debug, Default, PartialEq, Eq)]
pub struct PublicKeys(Vec<PublicKey>);

impl PublicKeys {
    pub fn new(first: PublicKey) -> PublicKeys {
        PublicKeys(vec![first])
    }

    pub fn all(&self) -> &[PublicKey] {
        &self.0
    }

    pub fn get(&self, id: u8) -> Option<&PublicKey> {
        self.0.iter().find(|key| key.id == id)
    }

    /// A proved key with an ID above all held is added; the same key again changes nothing; else 9
    /// (A35, A36).
    pub fn add(&mut self, new: PublicKey) -> Result<(), Number> {
        if self.0.iter().all(|key| key.id < new.id) {
            self.0.push(new);
            Ok(())
        } else if self.0.contains(&new) {
            Ok(())
        } else {
            Err(NOT_NEWER)
        }
    }

    /// Drops keys of lower ID (A47).
    pub fn drop_below(&mut self, id: u8) {
        self.0.retain(|key| key.id >= id);
    }
}
