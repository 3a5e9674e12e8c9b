//! Public keys (crates/public_keys).

use crate::raw;

/// The region of the public keys held: for each ID the type plus 1, or 0, and 67 bytes.
#[derive(Clone, Debug, PartialEq, Eq)]
pub struct Pubkeys(pub [u8; 1088]);

impl Pubkeys {
    /// The key is held from now on.
    pub fn add(&mut self, id: u8, kind: u8, key: &[u8]) -> Option<()> {
        // SAFETY: as above.
        (id < 16 && kind < 4 && key.len() <= 67).then(|| unsafe {
            raw::leaf_add_key(
                self.0.as_mut_ptr(),
                self.0.len(),
                id,
                kind,
                key.as_ptr(),
                key.len(),
            )
        })
    }
}
