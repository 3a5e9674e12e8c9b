//! The message that waits for the signature chip, and what a verdict on it does (01, "Verdicts").

use crate::chain::Chain;
use crate::gather::{header_cid, nma_status};
use crate::kroot::RootFields;
use crate::numbers::{Number, NOT_NEWER, NO_CHAIN};
use crate::public_keys::{PublicKeys, MAX_SIGNATURE_LEN};
use crate::sets::Sets;
use crate::tags::WaitingTag;
use crate::times::RootTime;

pub const MESSAGE_LEN: usize = 45;
pub const SIGNATURE_LEN: usize = MAX_SIGNATURE_LEN;

/// A DSM-KROOT that waits for a verdict.
#[derive(Clone, Debug, PartialEq, Eq)]
pub struct WaitingMessage {
    pub key_id: u8,
    /// The signed message: NMA header, then the DSM from byte 1 through KROOT.
    pub message: Vec<u8>,
    pub signature: Vec<u8>,
}

/// `short` followed by zeros.
pub fn filled<const N: usize>(short: &[u8]) -> [u8; N] {
    let mut all = [0; N];
    all[..short.len()].copy_from_slice(short);
    all
}

impl WaitingMessage {
    /// Whether a verdict's key ID, message and signature, short ones followed by zeros, are all of
    /// this (A39).
    pub fn is(&self, key_id: u8, message: &[u8], signature: &[u8]) -> bool {
        key_id == self.key_id
            && message == filled::<MESSAGE_LEN>(&self.message)
            && signature == filled::<SIGNATURE_LEN>(&self.signature)
    }
}

/// The chain in force with what goes and comes with it.
#[derive(Clone, Debug, Default, PartialEq, Eq)]
pub struct Vouched {
    pub chain: Option<Chain>,
    /// The time of the last root put in force since start; remembered over a drop (A48).
    pub last_root: Option<RootTime>,
    /// Tags that wait for their keys, in the order in which they came.
    pub waiting_tags: Vec<WaitingTag>,
}

impl Vouched {
    /// A good verdict on `waiting`: checks 11 and 9, then what its status says.
    pub fn good_verdict(
        &mut self,
        waiting: &WaitingMessage,
        keys: &mut PublicKeys,
        sets: &mut Sets,
        ns: u8,
    ) -> Result<(), Number> {
        let (header, contents) = (waiting.message[0], &waiting.message[1..]);
        match nma_status(header) {
            1 | 2 => self.vouch(header_cid(header), contents, sets, ns)?,
            3 => self.revoke(header_cid(header), sets)?,
            _ => return Err(NO_CHAIN),
        }
        // Status 1 or 2 drops keys of lower ID, also with contents equal to those in force; status
        // 3 none (A45, A47).
        if nma_status(header) != 3 {
            keys.drop_below(waiting.key_id);
        }
        Ok(())
    }

    /// Status 3 with the CID in force drops the chain, the waiting tags and the candidates.
    fn revoke(&mut self, cid: u8, sets: &mut Sets) -> Result<(), Number> {
        if self
            .chain
            .as_ref()
            .is_none_or(|chain| chain.parameters.cid != cid)
        {
            return Err(NO_CHAIN);
        }
        self.chain = None;
        self.waiting_tags.clear();
        sets.clear_candidates();
        Ok(())
    }

    /// Status 1 or 2 with CIDKR equal to CID puts the root in force.
    fn vouch(&mut self, cid: u8, contents: &[u8], sets: &mut Sets, ns: u8) -> Result<(), Number> {
        let fields = RootFields::read(contents);
        if fields.parameters.cid != cid {
            return Err(NO_CHAIN);
        }
        if let Some(chain) = &self.chain {
            // Contents equal to those in force change nothing but the public keys (A42).
            if chain.contents == contents {
                return Ok(());
            }
        }
        // What is no repeat must be later than the last root, whether its chain is in force or was
        // dropped.
        if self.last_root.is_some_and(|last| fields.time <= last) {
            return Err(NOT_NEWER);
        }
        let new = Chain::new(contents, ns);
        let unchanged = self
            .chain
            .as_ref()
            .is_some_and(|old| old.parameters == new.parameters);
        self.waiting_tags
            .retain(|tag| unchanged && tag.key_seconds() >= new.slots.start);
        // A later root of the same chain is no new chain (B21).
        if !unchanged {
            sets.clear_candidates();
        }
        self.last_root = Some(new.time);
        self.chain = Some(new);
        Ok(())
    }
}
