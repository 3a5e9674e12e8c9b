//! The key chain (crates/chain).

use crate::raw;
use crate::times::Slots;

/// The last slot that a chain's keys are asked for.
pub const LAST_SLOT: u64 = 1 << 34;

/// The numbers of a chain.
#[derive(Clone, Copy, Debug)]
pub struct Chain {
    pub slots: Slots,
    pub alpha: [u8; 6],
    /// The hash of its steps: 0 SHA-256, 1 SHA3-224, 2 SHA3-256.
    pub hf: u8,
    /// Bytes of a key.
    pub width: usize,
    /// Bits of a tag.
    pub ms: u64,
}

impl Chain {
    pub(crate) fn walks(&self) -> bool {
        let longest = match self.hf {
            0 | 2 => 32,
            1 => 28,
            _ => 0,
        };
        self.slots.in_range() && (12..=longest).contains(&self.width)
    }

    /// The key of slot `m + n` becomes the key of slot `m`.
    pub fn walk(&self, n: u64, m: u64, key: &mut [u8; 32]) -> Option<()> {
        let Slots { ns, nmack, root } = self.slots;
        // SAFETY: both arrays are lent; nothing is required.
        let code = unsafe {
            raw::osnma_walk(ns, nmack, root, &self.alpha, self.hf, self.width, n, m, key)
        };
        (code == 0).then_some(())
    }

    /// Whether `key`, of slot `sent`, belongs to the chain of the key that is held of slot `slot`.
    pub fn key_fits(&self, slot: u64, held: &[u8; 32], sent: u64, key: &[u8; 32]) -> Option<bool> {
        let Slots { ns, nmack, root } = self.slots;
        // SAFETY: the arrays are lent; the ranges are as required.
        (self.walks() && slot <= LAST_SLOT && sent <= LAST_SLOT).then(|| unsafe {
            raw::leaf_key_fits(
                ns,
                nmack,
                root,
                &self.alpha,
                self.hf,
                self.width,
                slot,
                held,
                sent,
                key,
            ) == 1
        })
    }
}
