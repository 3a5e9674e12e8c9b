//! The proved walk down a key chain, by each of its hashes, against steps by portable Rust.

use leaves::chain::Chain;
use leaves::times::Slots;
use portable_hash::{sha256, sha3_224, sha3_256};
use signal::rng::Rng;

const WEEK: u64 = 604_800;

/// The hash of each HF, and the bytes of its digest.
type Hash = (u8, usize, fn(&[u8]) -> Vec<u8>);
const HASHES: [Hash; 3] = [
    (0, 32, |m| sha256(m).to_vec()),
    (1, 28, |m| sha3_224(m).to_vec()),
    (2, 32, |m| sha3_256(m).to_vec()),
];

/// A chain with any slots and α.
fn chain(rng: &mut Rng, hf: u8, width: usize) -> Chain {
    Chain {
        slots: Slots {
            ns: rng.range(1, 36),
            nmack: rng.range(1, 3),
            root: rng.range(1, 4000 * 168) * 3600,
        },
        alpha: rng.array(),
        hf,
        width,
        ms: 40,
    }
}

/// Key m from key m + 1 (01, "MACK"; 02, P6): the hash of that key, the GST_SF of slot m and α.
fn step(chain: &Chain, hash: fn(&[u8]) -> Vec<u8>, m: u64, key: &mut [u8; 32]) {
    let Slots { ns, nmack, root } = chain.slots;
    let seconds = match m {
        0 => root - 30,
        _ => root + (m - 1) / (ns * nmack) * 30,
    };
    let time = ((seconds / WEEK) << 20) + seconds % WEEK;
    let mut message = key[..chain.width].to_vec();
    message.extend((time as u32).to_be_bytes());
    message.extend(chain.alpha);
    key[..chain.width].copy_from_slice(&hash(&message)[..chain.width]);
}

#[test]
fn walks_of_every_hash_and_width() {
    let mut rng = Rng::new(1);
    for (hf, digest, hash) in HASHES {
        for width in 12..=digest {
            let chain = chain(&mut rng, hf, width);
            for (n, m) in [(0, 5), (1, 0), (1, 1), (2, 0), (150, 0), (200, 1_000_000)] {
                let mut key = rng.array();
                let mut right = key;
                for slot in (m..m + n).rev() {
                    step(&chain, hash, slot, &mut right);
                }
                assert_eq!(chain.walk(n, m, &mut key), Some(()));
                assert_eq!(key, right, "HF {hf}, {width} bytes, {n} steps to slot {m}");
            }
        }
    }
}

// A key is of the chain by its own hash alone.
#[test]
fn keys_fit_by_their_own_hash() {
    let mut rng = Rng::new(2);
    for (hf, digest, hash) in HASHES {
        for width in [12, 16, 20, 24, 28, 32] {
            let chain = chain(&mut rng, hf, width);
            let key: [u8; 32] = rng.array();
            if width > digest {
                assert_eq!(chain.key_fits(3, &key, 10, &key), None);
                continue;
            }
            let mut held = key;
            for slot in (3..10).rev() {
                step(&chain, hash, slot, &mut held);
            }
            for other in 0..3 {
                let by = Chain { hf: other, ..chain };
                if other != 1 || width <= 28 {
                    let fits = Some(other == hf);
                    assert_eq!(by.key_fits(3, &held, 10, &key), fits, "HF {hf}, {other}");
                    assert_eq!(by.key_fits(10, &key, 3, &held), fits, "HF {hf}, {other}");
                }
            }
        }
    }
}

// Keys are as long as a digest at most, and HF 3 is reserved.
#[test]
fn hashes_and_widths_that_are_refused() {
    let mut rng = Rng::new(3);
    for hf in 0..=255 {
        let widths = match hf {
            0 | 2 => 12..33,
            1 => 12..29,
            _ => 0..0,
        };
        for width in (0..40).chain([usize::MAX]) {
            let before: [u8; 32] = rng.array();
            let mut key = before;
            let answer = chain(&mut rng, hf, width).walk(3, 0, &mut key);
            let taken = widths.contains(&width);
            assert_eq!(answer.is_some(), taken, "HF {hf}, {width} bytes");
            assert_eq!(key == before, !taken, "HF {hf}, {width} bytes");
        }
    }
}
