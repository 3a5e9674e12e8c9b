//! The proved hashes against portable Rust, value by value, from fixed seeds. `HASH_ROUNDS=n` runs
//! the random parts with n seeds; 1 is the default.

use leaves::hash::{self, HmacKey};
use leaves::raw;
use portable_hash as portable;
use signal::rng::Rng;

fn seeds() -> std::ops::Range<u64> {
    let rounds = std::env::var("HASH_ROUNDS").map_or(1, |text| {
        text.parse().expect("HASH_ROUNDS is a number of seeds")
    });
    0..rounds
}

/// Every way to the digest of `m`, which is cut at `cut` for the call of two parts.
fn same_digest(m: &[u8], cut: usize) {
    let right = portable::sha256(m);
    let (a, b) = m.split_at(cut);
    assert_eq!(hash::sha256(m), Ok(right), "{} bytes", m.len());
    assert_eq!(
        hash::sha256_of_two(a, b),
        Ok(right),
        "{cut} of {} bytes",
        m.len()
    );
}

fn same_code(key: &[u8], m: &[u8]) {
    let right = portable::hmac_sha256(key, m);
    let (k, n) = (key.len(), m.len());
    assert_eq!(hash::hmac(key, m), Ok(right), "key {k}, message {n}");
    let kept = HmacKey::new(key).unwrap();
    for use_number in 1..=2 {
        assert_eq!(
            kept.mac(m),
            Ok(right),
            "kept key {k}, message {n}, use {use_number}"
        );
    }
}

#[test]
fn every_length_to_300() {
    for seed in seeds() {
        let mut rng = Rng::new(seed);
        for len in 0..=300 {
            let m = rng.bytes(len);
            for cut in [0, len / 2, len, rng.below(len as u64 + 1) as usize] {
                same_digest(&m, cut);
            }
        }
    }
}

// The first part ends at every place of a block and the second begins and ends at every place.
#[test]
fn every_pair_of_lengths_to_130() {
    let m = Rng::new(7).bytes(260);
    for a in 0..=130 {
        for b in 0..=130 {
            let joined = &m[..a + b];
            assert_eq!(
                hash::sha256_of_two(&joined[..a], &joined[a..]),
                Ok(portable::sha256(joined)),
                "{a} and {b} bytes"
            );
        }
    }
}

#[test]
fn long_messages() {
    let mut rng = Rng::new(11);
    let m = rng.bytes(4 << 20);
    for len in [4095, 4096, 65_535, 1_000_003, m.len() - 1, m.len()] {
        same_digest(&m[..len], rng.below(len as u64 + 1) as usize);
    }
    same_code(&m[..16], &m);
    same_code(&m, &m[..76]);
}

#[test]
fn every_key_length_to_200() {
    for seed in seeds() {
        let mut rng = Rng::new(100 + seed);
        for len in 0..=200 {
            let key = rng.bytes(len);
            for _ in 0..3 {
                let n = rng.below(301) as usize;
                same_code(&key, &rng.bytes(n));
            }
        }
    }
}

#[test]
fn every_message_length_to_300_under_a_key() {
    for seed in seeds() {
        let mut rng = Rng::new(200 + seed);
        for len in 0..=300 {
            let n = rng.below(201) as usize;
            same_code(&rng.bytes(n), &rng.bytes(len));
        }
    }
}

#[test]
fn blocks() {
    for seed in seeds() {
        let mut rng = Rng::new(300 + seed);
        let mut state: [u32; 8] = std::array::from_fn(|_| rng.number() as u32);
        for _ in 0..2000 {
            let block = rng.array();
            let mut right = state;
            portable::compress(&mut right, &block);
            hash::compress(&mut state, &block);
            assert_eq!(state, right);
        }
    }
}

// Lengths on both sides of the ends of four blocks, of either rate.
#[test]
fn sha3_of_every_length_to_600() {
    for seed in seeds() {
        let mut rng = Rng::new(700 + seed);
        for len in 0..=600 {
            let m = rng.bytes(len);
            assert_eq!(hash::sha3_224(&m), portable::sha3_224(&m), "{len} bytes");
            assert_eq!(hash::sha3_256(&m), portable::sha3_256(&m), "{len} bytes");
        }
    }
}

#[test]
fn permutations() {
    for seed in seeds() {
        let mut rng = Rng::new(800 + seed);
        for _ in 0..2000 {
            let mut state = std::array::from_fn(|_| rng.number());
            let mut right = state;
            portable::keccak_f(&mut right);
            hash::keccak(&mut state);
            assert_eq!(state, right);
        }
    }
}

/// What is written and what is lent lie in one array with marks on both sides.
#[test]
fn nothing_beside_the_output_is_written() {
    let mut rng = Rng::new(400);
    let m = rng.bytes(100);
    let before: [u8; 96] = rng.array();
    type Hash = unsafe extern "C" fn(*const u8, usize, *mut u8, usize) -> u32;
    let hashes: [(Hash, &[u8]); 3] = [
        (raw::osnma_sha256, &portable::sha256(&m)),
        (raw::osnma_sha3_224, &portable::sha3_224(&m)),
        (raw::osnma_sha3_256, &portable::sha3_256(&m)),
    ];
    for (hash, digest) in hashes {
        let mut area = before;
        let (out, end) = (area[32..].as_mut_ptr(), 32 + digest.len());
        // SAFETY: the digest's bytes of `area` from place 32 are lent to be written.
        assert_eq!(unsafe { hash(m.as_ptr(), m.len(), out, digest.len()) }, 0);
        assert_eq!(area[..32], before[..32]);
        assert_eq!(area[32..end], *digest);
        assert_eq!(area[end..], before[end..]);
    }
}

/// Lengths that are not `right`.
fn wrong(right: usize) -> impl Iterator<Item = usize> {
    (0..=80).filter(move |&n| n != right)
}

#[test]
fn wrong_lengths_are_refused_and_change_nothing() {
    let mut rng = Rng::new(500);
    let (key, m) = (rng.bytes(16), rng.bytes(76));
    let (k, kn, p, n) = (key.as_ptr(), key.len(), m.as_ptr(), m.len());
    let before: [u8; 80] = rng.array();
    let words: [u32; 80] = std::array::from_fn(|_| rng.number() as u32);
    for len in wrong(32) {
        let mut area = before;
        let out = area.as_mut_ptr();
        // SAFETY: `area` and `words` are longer than any length given here.
        let answers = unsafe {
            [
                raw::osnma_sha256(p, n, out, len),
                raw::osnma_sha256_of_two(k, kn, p, n, out, len),
                raw::osnma_hmac(k, kn, p, n, out, len),
                raw::osnma_hmac_with(words.as_ptr(), 16, p, n, out, len),
                raw::osnma_sha3_256(p, n, out, len),
            ]
        };
        assert_eq!(answers, [1; 5], "{len} bytes of output");
        assert_eq!(area, before, "{len} bytes of output");
    }
    for len in wrong(28) {
        let mut area = before;
        // SAFETY: `area` is longer than any length given here.
        let answer = unsafe { raw::osnma_sha3_224(p, n, area.as_mut_ptr(), len) };
        assert_eq!((answer, area), (1, before), "{len} bytes of output");
    }
    for len in wrong(16) {
        let (mut area, mut state) = (before, words);
        // SAFETY: `area`, `words` and `state` are longer than any length given here.
        let answers = unsafe {
            [
                raw::osnma_hmac_key(k, kn, state.as_mut_ptr(), len),
                raw::osnma_hmac_with(words.as_ptr(), len, p, n, area.as_mut_ptr(), 32),
            ]
        };
        assert_eq!(answers, [1; 2], "{len} words of a kept key");
        assert_eq!((area, state), (before, words), "{len} words of a kept key");
    }
}

/// A length of 2^61 or more is refused before anything is read, so that the pointer is not used.
#[test]
fn messages_too_long_are_refused_and_change_nothing() {
    let mut rng = Rng::new(600);
    let before: [u8; 32] = rng.array();
    let words: [u32; 16] = std::array::from_fn(|_| rng.number() as u32);
    let limit = 1usize << 61;
    let m = [0u8; 1];
    let p = m.as_ptr();
    for len in [limit, limit + 1, usize::MAX - 64, usize::MAX] {
        let (mut area, mut state) = (before, words);
        let out = area.as_mut_ptr();
        // SAFETY: these calls refuse by length alone (crates/test_hash/specs/Calls.antt).
        let answers = unsafe {
            [
                raw::osnma_sha256(p, len, out, 32),
                raw::osnma_sha256_of_two(p, len, p, 1, out, 32),
                raw::osnma_sha256_of_two(p, 1, p, len, out, 32),
                raw::osnma_sha256_of_two(p, limit / 2, p, len - limit / 2, out, 32),
                raw::osnma_hmac(p, len, p, 1, out, 32),
                raw::osnma_hmac(p, 1, p, len - 64, out, 32),
                raw::osnma_hmac_key(p, len, state.as_mut_ptr(), 16),
                raw::osnma_hmac_with(words.as_ptr(), 16, p, len - 64, out, 32),
            ]
        };
        assert_eq!(answers, [1; 8], "{len}");
        assert_eq!((area, state), (before, words), "{len}");
    }
}
