//! Roots and chains, read from the messages of good verdicts that the core answered 0.
//!
//! The core exports neither the chain in force nor the slots of keys. A verdict's message is the
//! root's own, and an answer of 0 says that the core took it; so its fields (000, table 7) are what
//! is in force.

use crate::time::{self, SUBFRAME};
use osnma::{Gst, TagRecord, MESSAGE_LEN};
use std::sync::Arc;

/// Bits of a key by KS's code (000, table 12).
const KEY_BITS: [u16; 9] = [96, 104, 112, 120, 128, 160, 192, 224, 256];
/// Bits of a tag by MS's code (000, table 13).
const TAG_BITS: [u16; 10] = [10, 12, 14, 16, 18, 20, 24, 28, 32, 40];

/// What makes a chain the same chain: CID, parameters and α.
#[derive(Clone, Debug, PartialEq, Eq)]
pub struct Chain {
    /// CIDKR.
    pub cid: u8,
    /// Blocks a section.
    pub nmack: u8,
    /// The code of the hash of the chain's steps: 0, SHA-256, 1, SHA3-224, or 2, SHA3-256; 3 is not taken.
    pub hf: u8,
    /// The MAC function's code: 0, HMAC-SHA-256, or 1, CMAC-AES; others are not taken.
    pub mf: u8,
    /// Bits of a key.
    pub key_bits: u16,
    /// Bits of a tag.
    pub tag_bits: u16,
    /// The MAC lookup table's number.
    pub maclt: u8,
    /// α.
    pub alpha: [u8; 6],
}

/// A good verdict that vouched for a root.
#[derive(Clone, Copy, Debug, PartialEq, Eq)]
pub struct Vouch {
    /// The verdict's place in the recording, from 1.
    pub place: u64,
    /// ID of the public key.
    pub key_id: u8,
    /// The last time noted when it came.
    pub at: Option<Gst>,
}

/// A root that was put in force.
#[derive(Clone, Debug, PartialEq, Eq)]
pub struct Root {
    /// The message without its NMA header.
    contents: [u8; MESSAGE_LEN - 1],
    /// The chain that it belongs to.
    pub chain: Chain,
    /// Week of the chain's sub-frame 0.
    pub week: u16,
    /// Hour of the chain's sub-frame 0.
    pub hour: u8,
    /// The verdict that put it in force.
    pub vouch: Vouch,
}

impl Root {
    /// The fields of a message, from CIDKR on.
    fn of(contents: [u8; MESSAGE_LEN - 1], vouch: Vouch) -> Root {
        let c = &contents;
        let bits = |table: &[u16], code: u8| table.get(usize::from(code)).copied().unwrap_or(0);
        Root {
            chain: Chain {
                cid: c[0] >> 6,
                nmack: c[0] >> 4 & 3,
                hf: c[0] >> 2 & 3,
                mf: c[0] & 3,
                key_bits: bits(&KEY_BITS, c[1] >> 4),
                tag_bits: bits(&TAG_BITS, c[1] & 15),
                maclt: c[2],
                alpha: [c[6], c[7], c[8], c[9], c[10], c[11]],
            },
            week: u16::from(c[3] & 15) << 8 | u16::from(c[4]),
            hour: c[5],
            contents,
            vouch,
        }
    }

    /// Seconds of the chain's sub-frame 0.
    pub fn start(&self) -> u64 {
        time::seconds(Gst::from_bits(u32::from(self.week) << 20)) + u64::from(self.hour) * 3_600
    }

    /// The root's time: 30 s before sub-frame 0 (01, Times and slots).
    pub fn time(&self) -> Gst {
        time::at(self.start().saturating_sub(SUBFRAME))
    }

    /// KROOT.
    pub fn key(&self) -> &[u8] {
        &self.contents[12..12 + usize::from(self.chain.key_bits / 8)]
    }

    /// The slot of a tag's key, counted from this root: the lowest of its block, in the sub-frame
    /// of its key. None for an ADKD without key and for a sub-frame before the root's.
    pub fn slot(&self, ns: u8, tag: &TagRecord) -> Option<u64> {
        let subframe = key_second(tag)?.checked_sub(self.start())? / SUBFRAME;
        let block = u64::from(tag.block).checked_sub(1)?;
        Some((subframe * u64::from(self.chain.nmack) + block) * u64::from(ns) + 1)
    }
}

/// Seconds of the sub-frame whose key a tag uses.
fn key_second(tag: &TagRecord) -> Option<u64> {
    let delay = match tag.adkd {
        0 => 0,
        11 => 1,
        12 => 10,
        _ => return None,
    };
    Some(time::seconds(tag.time) + delay * SUBFRAME)
}

/// What a good verdict changed.
#[derive(Clone, Copy, Debug, PartialEq, Eq)]
pub enum Change {
    /// Contents equal to those in force: nothing but the public keys.
    Again,
    /// The chain is no more in force, and no tag waits.
    Dropped,
    /// A root was put in force. Tags went on waiting only if the chain is the same.
    Root {
        /// Whether it is.
        same_chain: bool,
    },
}

/// Whether a chain is in force.
#[derive(Clone, Copy, Debug, Default, PartialEq, Eq, PartialOrd, Ord)]
pub enum Keys {
    /// None has been since the start.
    #[default]
    NotYet,
    /// One is.
    InForce,
    /// The last was dropped.
    Withdrawn,
}

/// The chain in force since the start.
#[derive(Clone, Debug, Default)]
pub struct Vouched {
    root: Option<Arc<Root>>,
    /// Whether a chain is in force.
    pub keys: Keys,
    /// The last good verdict with status 1 or 2.
    pub last: Option<Vouch>,
}

impl Vouched {
    /// The root in force.
    pub fn root(&self) -> Option<&Arc<Root>> {
        self.root.as_ref()
    }

    /// Takes in a good verdict that the core answered 0: by row 11 its status is 3 with the CID in
    /// force, or 1 or 2 with CIDKR equal to CID.
    pub fn good_verdict(&mut self, message: &[u8; MESSAGE_LEN], vouch: Vouch) -> Change {
        let [header, contents @ ..] = *message;
        if header >> 6 == 3 {
            self.root = None;
            self.keys = Keys::Withdrawn;
            return Change::Dropped;
        }
        self.last = Some(vouch);
        let old = self.root.as_ref();
        if old.is_some_and(|root| root.contents == contents) {
            return Change::Again;
        }
        let root = Root::of(contents, vouch);
        let same_chain = old.is_some_and(|old| old.chain == root.chain);
        self.root = Some(Arc::new(root));
        self.keys = Keys::InForce;
        Change::Root { same_chain }
    }

    /// Whether a waiting tag went on waiting through a change: the chain is the same, and its
    /// key's sub-frame is not before the root's sub-frame 0 (01, Verdicts).
    pub fn stays(&self, change: Change, tag: &TagRecord) -> bool {
        match change {
            Change::Again => true,
            Change::Dropped | Change::Root { same_chain: false } => false,
            Change::Root { same_chain: true } => self
                .root
                .as_ref()
                .zip(key_second(tag))
                .is_some_and(|(root, second)| second >= root.start()),
        }
    }
}
