//! SHA-256, SHA3 and HMAC as they are defined agree with `portable_hash`, which takes their place in the other tests.

mod common;

use common::with_rules;
use portable_hash::{hmac_sha256, sha256, sha3_224, sha3_256};
use rules_runner::program::Hashes;

fn message(len: usize) -> Vec<u8> {
    (0..len).map(|at| (at * 151 + len) as u8).collect()
}

// Around one block and two, where the padding changes its shape.
#[test]
fn digests() {
    with_rules(Hashes::Defined, |rules| {
        for len in [
            0, 1, 3, 54, 55, 56, 57, 63, 64, 65, 118, 119, 120, 127, 128, 129, 300,
        ] {
            let message = message(len);
            assert_eq!(rules.sha256(&message), sha256(&message), "{len} bytes");
        }
    });
}

/// Bytes of messages for SHA3: none, those of a chain's steps, and around one block and two of both rates.
const SHA3_LENGTHS: &[usize] = if cfg!(debug_assertions) {
    &[0, 22, 42, 135, 136, 143, 144]
} else {
    &[
        0, 1, 22, 23, 24, 25, 26, 30, 34, 38, 42, 63, 64, 135, 136, 137, 143, 144, 145, 271, 272,
        287, 288,
    ]
};

// Around one block and two, where the padding is one byte, begins a block, or stands within one.
#[test]
fn sha3_digests() {
    with_rules(Hashes::Defined, |rules| {
        for &len in SHA3_LENGTHS {
            let message = message(len);
            assert_eq!(rules.sha3_224(&message), sha3_224(&message), "{len} bytes");
            assert_eq!(rules.sha3_256(&message), sha3_256(&message), "{len} bytes");
        }
    });
}

// Keys of every width that a chain has, and keys around a block.
#[test]
fn codes() {
    with_rules(Hashes::Defined, |rules| {
        for key_len in [0, 12, 13, 14, 15, 16, 20, 24, 28, 32, 63, 64, 65, 131] {
            for len in [0, 17, 75, 76] {
                let (key, message) = (message(key_len), message(len));
                let want = hmac_sha256(&key, &message);
                assert_eq!(
                    rules.hmac(&key, &message),
                    want,
                    "{key_len} and {len} bytes"
                );
            }
        }
    });
}

// What takes their place is what was asked for.
#[test]
fn replaced() {
    with_rules(Hashes::Portable, |rules| {
        let (key, text) = (message(16), message(76));
        assert_eq!(rules.sha256(&text), sha256(&text));
        assert_eq!(rules.sha3_224(&text), sha3_224(&text));
        assert_eq!(rules.sha3_256(&text), sha3_256(&text));
        assert_eq!(rules.hmac(&key, &text), hmac_sha256(&key, &text));
    });
}
