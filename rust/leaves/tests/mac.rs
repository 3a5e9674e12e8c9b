//! The proved AES and CMAC against portable Rust, value by value, from fixed seeds. `HASH_ROUNDS=n` runs the
//! random parts with n seeds; 1 is the default.

use leaves::mac::{self, AesKey, CmacKey};
use leaves::raw;
use portable_aes as portable;
use signal::rng::Rng;

const KEYS: [usize; 3] = [16, 24, 32];

fn seeds() -> std::ops::Range<u64> {
    let rounds = std::env::var("HASH_ROUNDS").map_or(1, |text| {
        text.parse().expect("HASH_ROUNDS is a number of seeds")
    });
    0..rounds
}

// Each block under a key of its own, and each a block's cipher.
#[test]
fn blocks() {
    for seed in seeds() {
        let mut rng = Rng::new(400 + seed);
        for len in KEYS {
            let mut block = rng.array();
            for _ in 0..2_000 {
                let key = rng.bytes(len);
                let right = portable::AesKey::new(&key).unwrap().encrypt(&block);
                assert_eq!(AesKey::new(&key).unwrap().encrypt(&block), right);
                block = right;
            }
        }
    }
}

// Every byte in every place of a block meets the substitution table.
#[test]
fn every_byte() {
    for len in KEYS {
        let key = Rng::new(9).bytes(len);
        let (ours, theirs) = (
            AesKey::new(&key).unwrap(),
            portable::AesKey::new(&key).unwrap(),
        );
        for place in 0..16 {
            for byte in 0..=255 {
                let mut block = [0; 16];
                block[place] = byte;
                assert_eq!(ours.encrypt(&block), theirs.encrypt(&block));
            }
        }
    }
}

// Messages of every length to 200, under keys that are new and under kept ones.
#[test]
fn every_length_to_200() {
    for seed in seeds() {
        let mut rng = Rng::new(500 + seed);
        for key_len in KEYS {
            let kept_key = rng.bytes(key_len);
            let kept = CmacKey::new(&kept_key).unwrap();
            for len in 0..=200 {
                let (key, message) = (rng.bytes(key_len), rng.bytes(len));
                let right = portable::cmac(&key, &message);
                assert_eq!(
                    mac::cmac(&key, &message),
                    right,
                    "{key_len} and {len} bytes"
                );
                let again = CmacKey::new(&key).map(|key| key.mac(&message));
                assert_eq!(again, right, "{key_len} and {len} bytes, key kept");
                let right = portable::cmac(&kept_key, &message);
                assert_eq!(Some(kept.mac(&message)), right, "{len} bytes, one key");
            }
        }
    }
}

#[test]
fn long_messages() {
    let mut rng = Rng::new(11);
    let message = rng.bytes(1 << 20);
    for (key_len, len) in KEYS.into_iter().zip([65_535, 1_000_003, 1 << 20]) {
        let key = rng.bytes(key_len);
        let right = portable::cmac(&key, &message[..len]);
        assert_eq!(mac::cmac(&key, &message[..len]), right);
    }
}

#[test]
fn keys_of_other_lengths() {
    for len in (0..40).filter(|len| !KEYS.contains(len)) {
        let key = vec![7; len];
        assert!(AesKey::new(&key).is_none());
        assert!(CmacKey::new(&key).is_none());
        assert_eq!(mac::cmac(&key, b"abc"), None);
    }
}

// Every number of bits, and more than a code has.
#[test]
fn truncated_codes() {
    let mut rng = Rng::new(12);
    for n in (0..=140).chain([1 << 20, usize::MAX]) {
        let code: [u8; 16] = rng.array();
        let kept = match n {
            0 => 0,
            1..128 => u128::MAX << (128 - n),
            _ => u128::MAX,
        };
        let right = u128::from_be_bytes(code) & kept;
        assert_eq!(mac::truncate(code, n), right.to_be_bytes(), "{n} bits");
    }
}

// A wrong length is answered 1, and what would be written stays.
#[test]
fn wrong_lengths() {
    let bytes = [7; 300];
    let (p, block, kept) = (bytes.as_ptr(), &[7; 16], &[7; 273]);
    for wrong in [0, 1, 15, 17, 239, 241, 272, 274, 300] {
        let mut out = [9; 300];
        let o = out.as_mut_ptr();
        // SAFETY: every count is of bytes that are there.
        let answers = unsafe {
            [
                raw::osnma_aes_expand(p, 16, o, wrong),
                raw::osnma_aes_expand(p, wrong, o, 240),
                raw::osnma_aes_encrypt(16, p, 240, block, o, wrong),
                raw::osnma_aes_encrypt(16, p, wrong, block, o, 16),
                raw::osnma_aes_encrypt(wrong, p, 240, block, o, 16),
                raw::osnma_cmac(p, 16, p, 20, o, wrong),
                raw::osnma_cmac(p, wrong, p, 20, o, 16),
                raw::osnma_cmac_key(p, wrong, o.cast()),
                raw::osnma_cmac_with(kept, p, 20, o, wrong),
            ]
        };
        assert_eq!(answers, [1; 9], "{wrong}");
        assert_eq!(out, [9; 300], "{wrong}");
    }
}
