//! The TESLA chain in force: its parameters, root and held key, and the walk down its keys (000,
//! 5.4; 01).

use crate::hash;
use crate::kroot::{ChainParameters, RootFields};
use crate::times::{RootTime, Slots};

const MAX_KEY_LEN: usize = 32;

/// A TESLA key of 12 to 32 bytes.
#[derive(Clone, Copy, Debug, PartialEq, Eq)]
pub struct TeslaKey {
    bytes: [u8; MAX_KEY_LEN],
    len: usize,
}

impl TeslaKey {
    /// The first `MAX_KEY_LEN` bytes of `key`.
    pub fn new(key: &[u8]) -> TeslaKey {
        let len = key.len().min(MAX_KEY_LEN);
        let mut bytes = [0; MAX_KEY_LEN];
        bytes[..len].copy_from_slice(&key[..len]);
        TeslaKey { bytes, len }
    }

    pub fn as_slice(&self) -> &[u8] {
        &self.bytes[..self.len]
    }
}

/// The chain in force.
#[derive(Clone, Debug, PartialEq, Eq)]
pub struct Chain {
    /// The signed message without its header: from CIDKR through KROOT.
    pub contents: Vec<u8>,
    pub parameters: ChainParameters,
    pub time: RootTime,
    /// KROOT, slot 0.
    pub root: TeslaKey,
    pub slots: Slots,
    /// The highest proved key.
    pub held: TeslaKey,
    pub held_slot: u64,
}

impl Chain {
    /// The chain of a message that has passed the checks of a DSM-KROOT. The held key begins at its
    /// root.
    pub fn new(contents: &[u8], ns: u8) -> Chain {
        let fields = RootFields::read(contents);
        let root = TeslaKey::new(&contents[12..]);
        Chain {
            contents: contents.to_vec(),
            time: fields.time,
            root,
            slots: Slots {
                ns,
                nmack: fields.parameters.nmack,
                start: fields.time.seconds(),
            },
            parameters: fields.parameters,
            held: root,
            held_slot: 0,
        }
    }

    /// Key m from key m + 1: the first KS bits of the hash of (key m + 1, GST_SF of slot m, alpha) that
    /// the root names.
    fn step(&self, key: &TeslaKey, slot: u64) -> TeslaKey {
        let mut message = [0; MAX_KEY_LEN + 4 + 6];
        let (n, time) = (key.len, self.slots.time(slot).0);
        message[..n].copy_from_slice(key.as_slice());
        message[n..n + 4].copy_from_slice(&time.to_be_bytes());
        message[n + 4..n + 10].copy_from_slice(&self.parameters.alpha);
        let mut below = *key;
        hash::digest_into(
            self.parameters.hf,
            &message[..n + 10],
            &mut below.bytes[..n],
        );
        below
    }

    /// The key of slot `to` from that of slot `from`, which is not below it.
    pub fn hash_down(&self, key: &TeslaKey, from: u64, to: u64) -> TeslaKey {
        (to..from)
            .rev()
            .fold(*key, |key, slot| self.step(&key, slot))
    }
}
