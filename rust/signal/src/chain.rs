//! A TESLA key chain from its seed key down to its root (000, 5.4; 01, Times and slots).

use crate::time::Gst;
use portable_hash::{sha256, sha3_224, sha3_256};
use std::sync::Arc;

/// Key bits for KS codes 0 to 8 (000, table 12).
pub const KEY_BITS: [usize; 9] = [96, 104, 112, 120, 128, 160, 192, 224, 256];
/// KS codes of the key sizes that CMAC-AES takes: 128, 192 and 256 bits (02, P1).
pub const AES_KEYS: [u8; 3] = [4, 6, 8];
/// Tag bits for MS codes 0 to 9 (000, table 13).
pub const TAG_BITS: [usize; 10] = [10, 12, 14, 16, 18, 20, 24, 28, 32, 40];

/// Whether a root may name this HF with this code of a key size: SHA3-224 has no 256 bits, 3 is reserved (02, P6).
pub fn hash_takes(hf: u8, ks: u8) -> bool {
    match hf {
        0 | 2 => true,
        1 => ks != 8,
        _ => false,
    }
}

/// The digest by HF; that of SHA3-224 is followed by zeros, a reserved HF is SHA-256.
fn digest(hf: u8, message: &[u8]) -> [u8; 32] {
    let mut out = [0; 32];
    match hf {
        1 => out[..28].copy_from_slice(&sha3_224(message)),
        2 => out = sha3_256(message),
        _ => out = sha256(message),
    }
    out
}

/// Slots between two stored keys of a chain.
const STRIDE: u64 = 32;

/// What DSM-KROOT says of a chain (000, table 7), each field as its code. Any codes can be held, also ones that a
/// receiver refuses.
#[derive(Clone, Copy, Debug, PartialEq, Eq)]
pub struct Params {
    /// CIDKR, the chain's ID.
    pub cid: u8,
    /// Blocks of a section.
    pub nmack: u8,
    /// Hash function; 0 is SHA-256, 1 SHA3-224, 2 SHA3-256.
    pub hf: u8,
    /// MAC function; 0 is HMAC-SHA-256, 1 CMAC-AES.
    pub mf: u8,
    /// Code of the key size.
    pub ks: u8,
    /// Code of the tag size.
    pub ms: u8,
    /// Row of the MAC lookup table.
    pub maclt: u8,
    /// Two reserved bits.
    pub rsvd: u8,
    /// MACK offset; 0 is none.
    pub mo: u8,
    /// The chain's random pattern.
    pub alpha: [u8; 6],
}

impl Params {
    /// SHA-256, HMAC-SHA-256 and no offset, with these codes.
    pub fn new(cid: u8, nmack: u8, ks: u8, ms: u8, maclt: u8, alpha: [u8; 6]) -> Self {
        Params {
            cid,
            nmack,
            hf: 0,
            mf: 0,
            ks,
            ms,
            maclt,
            rsvd: 0,
            mo: 0,
            alpha,
        }
    }

    /// The same with CMAC-AES for tags and MACSEQ.
    pub fn with_cmac(self) -> Self {
        Params { mf: 1, ..self }
    }

    /// The same with the keys of this hash.
    pub fn hashed(self, hf: u8) -> Self {
        Params { hf, ..self }
    }

    /// Whether it names a hash whose digest has the bits of its keys (02, P6).
    pub fn is_hashed(&self) -> bool {
        hash_takes(self.hf, self.ks)
    }

    /// Whether it names CMAC-AES with a key size that this takes.
    pub fn is_cmac(&self) -> bool {
        self.mf == 1 && AES_KEYS.contains(&self.ks)
    }

    /// KS in bits; 0 for a reserved code.
    pub fn key_bits(&self) -> usize {
        KEY_BITS.get(usize::from(self.ks)).copied().unwrap_or(0)
    }

    /// KS in bytes.
    pub fn key_len(&self) -> usize {
        self.key_bits() / 8
    }

    /// MS in bits; 0 for a reserved code.
    pub fn tag_bits(&self) -> usize {
        TAG_BITS.get(usize::from(self.ms)).copied().unwrap_or(0)
    }
}

/// The keys of a chain from its first root to its seed key. Every `STRIDE`th key is stored and the others are computed
/// from these, so that a million slots take a megabyte at most.
#[derive(Debug)]
struct Keys {
    hf: u8,
    alpha: [u8; 6],
    /// Slots of one sub-frame.
    slots: u64,
    start: Gst,
    top: u64,
    seed: Vec<u8>,
    /// Keys of slots 0, `STRIDE`, 2 `STRIDE`, ..., one after the other.
    stored: Vec<u8>,
}

impl Keys {
    fn new(params: &Params, slots: u64, start: Gst, top: u64, seed: &[u8]) -> Self {
        let stored = vec![0; top.div_ceil(STRIDE) as usize * seed.len()];
        let mut keys = Keys {
            hf: params.hf,
            alpha: params.alpha,
            slots,
            start,
            top,
            seed: seed.to_vec(),
            stored,
        };
        let mut key = seed.to_vec();
        for slot in (0..top).rev() {
            keys.step(&mut key, slot);
            if slot % STRIDE == 0 {
                let at = (slot / STRIDE) as usize * key.len();
                keys.stored[at..at + key.len()].copy_from_slice(&key);
            }
        }
        keys
    }

    /// GST_SF of a slot; the root's lies 30 s before sub-frame 0.
    fn time(&self, slot: u64) -> Gst {
        match slot {
            0 => self.start.plus(-1),
            m => self.start.plus(((m - 1) / self.slots) as i64),
        }
    }

    /// From the key of the slot above to the key of `slot`.
    fn step(&self, key: &mut [u8], slot: u64) {
        let (len, mut message) = (key.len(), [0; 42]);
        message[..len].copy_from_slice(key);
        message[len..len + 4].copy_from_slice(&self.time(slot).bytes());
        message[len + 4..len + 10].copy_from_slice(&self.alpha);
        key.copy_from_slice(&digest(self.hf, &message[..len + 10])[..len]);
    }

    fn key(&self, slot: u64) -> Vec<u8> {
        assert!(
            slot <= self.top,
            "no key of slot {slot}, the chain ends at {}",
            self.top
        );
        let (above, len) = (slot.div_ceil(STRIDE), self.seed.len());
        let at = above as usize * len;
        let (mut now, mut key) = match self.stored.get(at..at + len) {
            Some(key) => (above * STRIDE, key.to_vec()),
            None => (self.top, self.seed.clone()),
        };
        while now > slot {
            now -= 1;
            self.step(&mut key, now);
        }
        key
    }
}

/// A chain with the keys of slots 0 (its root) to its seed key's slot. What it says of itself can be changed, to make
/// roots that a receiver refuses; its keys stay.
#[derive(Clone, Debug)]
pub struct Chain {
    /// What its DSM-KROOT says.
    pub params: Params,
    /// Satellites with a key of their own in a block.
    pub ns: u8,
    /// Week and hour of the root.
    pub week: u32,
    /// Hour of the root's week.
    pub hour: u32,
    keys: Arc<Keys>,
    /// The root's slot among the keys.
    root: u64,
}

impl Chain {
    /// The chain whose key of slot `top` is `seed`, cut to KS.
    pub fn new(params: Params, ns: u8, week: u32, hour: u32, top: u64, seed: &[u8]) -> Self {
        let slots = u64::from(ns) * u64::from(params.nmack);
        let start = Gst::new(week, hour * 3600);
        let keys = Keys::new(&params, slots, start, top, &seed[..params.key_len()]);
        Chain {
            params,
            ns,
            week,
            hour,
            keys: Arc::new(keys),
            root: 0,
        }
    }

    /// The root's week and hour: the start of sub-frame 0.
    pub fn start(&self) -> Gst {
        Gst::new(self.week, self.hour * 3600)
    }

    /// Slots of one sub-frame.
    pub fn slots(&self) -> u64 {
        self.keys.slots
    }

    /// The highest slot that has a key.
    pub fn top(&self) -> u64 {
        self.keys.top - self.root
    }

    /// GST_SF of a slot.
    pub fn time(&self, slot: u64) -> Gst {
        self.keys.time(self.root + slot)
    }

    /// The key of a slot up to [`Chain::top`].
    pub fn key(&self, slot: u64) -> Vec<u8> {
        self.keys.key(self.root + slot)
    }

    /// KROOT, the key of slot 0.
    pub fn root(&self) -> Vec<u8> {
        self.key(0)
    }

    /// Sub-frames from sub-frame 0 to `gst`; negative before it.
    pub fn subframe(&self, gst: Gst) -> i64 {
        (gst.seconds() as i64 - self.start().seconds() as i64).div_euclid(30)
    }

    /// The slot of the key that `prn` sends in `block` (from 1) at `gst`.
    pub fn slot(&self, prn: u8, gst: Gst, block: u8) -> u64 {
        self.lowest_slot(gst, block) + u64::from(prn.wrapping_sub(1) % self.ns)
    }

    /// The lowest slot of a block: that of its tags' key.
    pub fn lowest_slot(&self, gst: Gst, block: u8) -> u64 {
        self.tag_slot(gst, 0, block)
    }

    /// The slot of the key for tags that come at `gst` and wait for `delay` sub-frames.
    pub fn tag_slot(&self, gst: Gst, delay: u64, block: u8) -> u64 {
        let s = self.subframe(gst);
        assert!(s >= 0, "before sub-frame 0");
        (s as u64 + delay) * self.slots() + u64::from(block - 1) * u64::from(self.ns) + 1
    }

    /// The same chain seen from a root `hours` later: a floating root (000, 6.3).
    pub fn floating(&self, hours: u32) -> Chain {
        let start = Gst::from_seconds(self.start().seconds() + u64::from(hours) * 3600);
        let root = self.root + u64::from(hours) * 120 * self.slots();
        assert!(root <= self.keys.top, "the chain has ended by then");
        Chain {
            week: start.week(),
            hour: start.second() / 3600,
            root,
            ..self.clone()
        }
    }
}

#[cfg(test)]
mod tests {
    use super::*;

    fn hex(bytes: &[u8]) -> String {
        bytes.iter().map(|b| format!("{b:02X}")).collect()
    }

    fn annex() -> Chain {
        let seed = 0xFEAE_8911_880E_FFFC_C81F_FA45_F427_F6EAu128.to_be_bytes();
        let params = Params::new(0, 2, 4, 1, 11, [0xF1, 0xCA, 0x38, 0x56, 0xA9, 0x75]);
        Chain::new(params, 36, 947, 120, 414_721, &seed)
    }

    // Table 24, and A.1.3's two steps.
    #[test]
    fn annex_keys() {
        let chain = annex();
        for (slot, second, key) in [
            (414_720, 604_770, "A8F6692E5C1258E3CCF941ADBAF21615"),
            (414_719, 604_770, "F7CFDA81E1C4E83B227F18F0F226ADC6"),
            (414_718, 604_770, "D35422AB710779BE8ADF24013D9230A6"),
            (108, 432_030, "5EA3A18FB127D4C7B31812C382D4C96D"),
            (73, 432_030, "4E0E2DA7F80F547B874D4A2533316389"),
            (72, 432_000, "47F767BFDC6674B6F108BE17A0198751"),
            (71, 432_000, "3CA9190D0B21026D70E7FF8BAD6C6ED0"),
            (2, 432_000, "22B30FBEE8C6C4A43480AF28A67D4A65"),
            (1, 432_000, "81AEE575195E13C06961A705A191B9CD"),
            (0, 431_970, "EE6772D9AB8396866DC57EADA1D29637"),
        ] {
            assert_eq!(hex(&chain.key(slot)), key, "slot {slot}");
            assert_eq!(chain.time(slot), Gst::new(947, second), "slot {slot}");
        }
    }

    // 01, Known points.
    #[test]
    fn known_slots() {
        let chain = annex();
        let (first, second) = (Gst::new(947, 432_000), Gst::new(947, 432_030));
        assert_eq!(chain.slot(2, first, 1), 2);
        assert_eq!(chain.slot(36, first, 2), 72);
        assert_eq!(chain.slot(18, second, 1), 90);
        assert_eq!(chain.lowest_slot(second, 1), 73);
    }

    // A floating root is a key of the chain, and the keys after it are the same.
    #[test]
    fn floating_root() {
        let chain = annex();
        let later = chain.floating(3);
        assert_eq!((later.week, later.hour), (947, 123));
        assert_eq!(later.root(), chain.key(3 * 120 * 72));
        let gst = later.start().plus(7);
        assert_eq!(
            later.key(later.slot(5, gst, 2)),
            chain.key(chain.slot(5, gst, 2))
        );
        assert_eq!(later.time(0), chain.time(3 * 120 * 72));
    }

    // One step of each hash on a key of 28 bytes, worked out apart: slot 0 of 1/hour 1, α of sevens.
    #[test]
    fn hashes() {
        for (hf, root) in [
            (
                0,
                "D4687BC4A9FB0E5FDEA3AE1C63C28346C212DBCAA709E2A93733B362",
            ),
            (
                1,
                "D4D678F65663922110C0802A90E6BFDE2F88292BEA580376054070C2",
            ),
            (
                2,
                "4E85D963A8D1916A295119C5AAB20E02B4CD548D184A53744C0F38C9",
            ),
        ] {
            let params = Params::new(0, 1, 7, 0, 0, [7; 6]).hashed(hf);
            let chain = Chain::new(params, 3, 1, 1, 1, &[9; 32]);
            assert_eq!(hex(&chain.root()), root, "HF {hf}");
        }
    }

    #[test]
    fn every_width() {
        for (hf, ks) in (0..3).flat_map(|hf| (0..9).map(move |ks| (hf, ks))) {
            let params = Params::new(0, 1, ks, 0, 0, [7; 6]).hashed(hf);
            let chain = Chain::new(params, 3, 1, 1, 700, &[9; 32]);
            assert_eq!(chain.root().len() * 8, KEY_BITS[usize::from(ks)]);
            assert_eq!(params.is_hashed(), (hf, ks) != (1, 8));
            for slot in [0, 1, 31, 32, 33, 299, 671, 672, 673, 699] {
                let mut key = chain.key(slot + 1);
                chain.keys.step(&mut key, slot);
                assert_eq!(key, chain.key(slot), "slot {slot}");
            }
        }
    }
}
