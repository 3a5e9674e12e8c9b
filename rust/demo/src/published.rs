//! Published values, computed anew by the proved library: SHA-256, SHA3, HMAC, AES, CMAC, and those of
//! 000's Annex A that are hashes. Where our copy of 000 prints a value wrongly, it stands here repaired
//! (docs/DECISIONS.md).

use leaves::hash::{hmac, sha256, sha256_of_two, sha3_224, sha3_256, HmacKey};
use leaves::mac::{cmac, AesKey, CmacKey};
use leaves::vectors::{
    hex, Coded, Enciphered, Hashed, Keyed, Sponged, FIPS_180_4, FIPS_197, FIPS_198_1, FIPS_202,
    NIST_ADDITIONAL, NIST_SHORT, RFC_4231, SP_800_38A, SP_800_38B, SP_800_38_MESSAGE,
};

/// How many of some published values came out right.
#[derive(Debug)]
pub struct Check {
    pub what: &'static str,
    pub right: usize,
    pub of: usize,
}

impl Check {
    fn new(what: &'static str, results: impl IntoIterator<Item = bool>) -> Check {
        let results: Vec<bool> = results.into_iter().collect();
        Check {
            what,
            right: results.iter().filter(|&&right| right).count(),
            of: results.len(),
        }
    }

    pub fn ok(&self) -> bool {
        self.of > 0 && self.right == self.of
    }
}

/// Bytes of pairs of hexadecimal digits; what is no pair of digits is left out, so that a slip in a
/// value here fails its check.
fn bytes(text: &str) -> Vec<u8> {
    let pair = |at| text.get(at..at + 2);
    (0..text.len())
        .step_by(2)
        .filter_map(|at| u8::from_str_radix(pair(at)?, 16).ok())
        .collect()
}

/// Whether the message has this SHA-256, whole and in two parts.
fn hashes(message: &[u8], digest: &str) -> bool {
    let (a, b) = message.split_at(message.len() / 2);
    [sha256(message), sha256_of_two(a, b)]
        .iter()
        .all(|found| found.is_ok_and(|found| hex(&found) == digest))
}

/// Whether the message has these two digests by SHA3.
fn has_sha3(v: &Sponged) -> bool {
    let message = v.message.bytes();
    hex(&sha3_224(&message)) == v.sha3_224 && hex(&sha3_256(&message)) == v.sha3_256
}

/// Whether the message has an HMAC that begins so, under a key that is new and under one kept.
fn codes(key: &[u8], message: &[u8], code: &str) -> bool {
    let kept = HmacKey::new(key).and_then(|kept| kept.mac(message));
    [hmac(key, message), kept]
        .iter()
        .all(|found| found.is_ok_and(|found| hex(&found).starts_with(code)))
}

/// Whether the block is this one under the key.
fn enciphers(v: &Enciphered) -> bool {
    let block = bytes(v.block).try_into().ok();
    let found = AesKey::new(&bytes(v.key)).zip(block);
    found.is_some_and(|(key, block)| hex(&key.encrypt(&block)) == v.cipher)
}

/// Whether the message has this CMAC, under a key that is new and under one kept.
fn has_cmac(v: &Keyed) -> bool {
    let (key, message) = (bytes(v.key), bytes(SP_800_38_MESSAGE));
    let message = message.get(..v.len).unwrap_or_default();
    let kept = CmacKey::new(&key).map(|kept| kept.mac(message));
    [cmac(&key, message), kept]
        .iter()
        .all(|found| found.is_some_and(|found| hex(&found) == v.code))
}

fn digest_list(what: &'static str, list: &[Hashed]) -> Check {
    Check::new(
        what,
        list.iter().map(|v| hashes(&v.message.bytes(), v.digest)),
    )
}

fn code_list(what: &'static str, list: &[Coded]) -> Check {
    Check::new(
        what,
        list.iter()
            .map(|v| codes(&v.key.bytes(), &v.message.bytes(), v.code)),
    )
}

/// A.1.3: key 2, and the hash whose start is key 1; key 1, and the hash whose start is the root.
/// A message is the key, GST_SF and α.
const KEY_STEPS: [(&str, &str); 2] = [
    (
        "22b30fbee8c6c4a43480af28a67d4a653b369780f1ca3856a975",
        "81aee575195e13c06961a705a191b9cdbd04d00ef3867c1b82d2e62fb7357b19",
    ),
    (
        "81aee575195e13c06961a705a191b9cd3b369762f1ca3856a975",
        "ee6772d9ab8396866dc57eada1d29637f96908257e39fad6898bb8230327e714",
    ),
];

/// Table 24: key 73, with which A.1.5's tag and MACSEQ are made.
const KEY_73: &str = "4e0e2da7f80f547b874d4a2533316389";

/// A.1.5: the message of MAC0 and its code, whose first twelve bits are the tag.
const TAG: (&str, &str) = (
    "123b36979e018507080cd1c003400000002a812d29050a1efea9227d27d28000000000000500000000000000\
     00000000000001914120000000070800000000000000032000000000000000",
    "e5819ab582f2269e68fcb6ab5b368041e4e87f25320905e08eb48113adee997a",
);

/// A.1.5: the message of MACSEQ and its code, whose first twelve bits are MACSEQ.
const MACSEQ: (&str, &str) = (
    "123b36979eff4012b0",
    "c24c7e4c55a29896758a48657e858425c396c648b3aac2b199e594f88f40e4b3",
);

/// A.1.7: leaf 0 of the tree, the nodes beside its way up (table 27), and the root (table 28).
const LEAF_0: &str = "0002d25bdf123d1cb876022bd071bc2372e4132dc62e627c1988d4e72726";
const NODES: [&str; 4] = [
    "a5e09c16a42d37d584d63797d684ed5d24f12cf99553033b01facbbc79eebf9c",
    "743a5bc50897f9a5e78fb0733d425b541874398abb0e12dd6c2d585035ecbf09",
    "c978d80c3f476d3d5b7129003f735cb5019e995bb9fb6cf7045ccff0039965f7",
    "75943c3286ba8222e1b6437d12507436c0bf38bbbb5fd856d9d948ef8fb3baec",
];
/// Tables 28: the nodes on leaf 0's way up, x0,0 to x4,0.
const WAY_UP: [&str; 5] = [
    "6f826e2ad5cf4292b8402aaee16d01afb6c8a2eb6603d1272be992229cbbd0e8",
    "097c2dc621590e80eff8b4278bccc35f016828d44eeb8421da3d2de15d2444be",
    "6eb60e650ec92b951c51167f3a88c089e8bb6e5a98250270962fe1fee818bd32",
    "ec676adb02bd018dfc67e0dc4c15321aa2e9e1ef120c4be43827162dc7ce2ae6",
    "5e53b01cc55a978180040e95ab129f2e2c4b65cbdfa849e4de9e26ac7315a49d",
];

/// Leaf 0's hash, and each node from the one below and the one beside it.
fn tree() -> Vec<bool> {
    let mut node = sha256(&bytes(LEAF_0));
    let mut right = Vec::new();
    for (place, printed) in WAY_UP.iter().enumerate() {
        right.push(node.is_ok_and(|node| hex(&node) == *printed));
        if let (Ok(below), Some(beside)) = (node, NODES.get(place)) {
            node = sha256_of_two(&below, &bytes(beside));
        }
    }
    right
}

/// Every check, in the order in which it is shown.
pub fn checks() -> Vec<Check> {
    let key = bytes(KEY_73);
    vec![
        digest_list("SHA-256, NIST's examples (FIPS 180-4)", FIPS_180_4),
        digest_list("SHA-256, NIST's additional examples", NIST_ADDITIONAL),
        digest_list("SHA-256, NIST's short messages", NIST_SHORT),
        Check::new(
            "SHA3-224 and SHA3-256, NIST's examples (FIPS 202)",
            FIPS_202.iter().map(has_sha3),
        ),
        code_list("HMAC, RFC 4231", RFC_4231),
        code_list("HMAC, NIST's examples (FIPS 198-1)", FIPS_198_1),
        Check::new("AES, FIPS 197", FIPS_197.iter().map(enciphers)),
        Check::new(
            "AES, NIST's examples (SP 800-38A)",
            SP_800_38A.iter().map(enciphers),
        ),
        Check::new(
            "CMAC, RFC 4493 and NIST's examples (SP 800-38B)",
            SP_800_38B.iter().map(has_cmac),
        ),
        Check::new(
            "OSNMA Annex A.1.3: key 2 to key 1 to the root",
            KEY_STEPS.map(|(message, digest)| hashes(&bytes(message), digest)),
        ),
        Check::new(
            "OSNMA Annex A.1.5: tag and MACSEQ",
            [TAG, MACSEQ].map(|(message, code)| codes(&key, &bytes(message), code)),
        ),
        Check::new("OSNMA Annex A.1.7: leaf 0 up to the root", tree()),
    ]
}

#[cfg(test)]
mod tests {
    use super::*;

    #[test]
    fn every_published_value() {
        for check in checks() {
            assert!(check.ok(), "{check:?}");
        }
    }

    #[test]
    fn a_wrong_value_fails() {
        let mut wrong = FIPS_180_4[0];
        wrong.digest = FIPS_180_4[1].digest;
        assert!(!digest_list("", &[FIPS_180_4[0], wrong]).ok());
        let mut wrong = FIPS_202[1];
        wrong.sha3_224 = FIPS_202[0].sha3_224;
        assert!(!has_sha3(&wrong));
        let mut wrong = RFC_4231[4];
        wrong.code = RFC_4231[3].code;
        assert!(!code_list("", &[wrong]).ok());
        let mut wrong = FIPS_197[1];
        wrong.cipher = FIPS_197[0].cipher;
        assert!(!enciphers(&wrong));
        let mut wrong = SP_800_38B[1];
        wrong.len += 1;
        assert!(!has_cmac(&wrong));
        assert!(!Check::new("nothing checked", []).ok());
    }
}
