//! SHA-256 (FIPS 180-4), HMAC-SHA-256 (FIPS 198-1), SHA3-224 and SHA3-256 (FIPS 202) in plain, portable
//! Rust.
//!
//! Written from the standards for the second receiver, the bench signal and the benchmark; the job
//! sheet names its recording by it. It shares no code and no table with the proved library, so that
//! the two can be compared. The compression of SHA-256 keeps sixteen message words in place and does sixteen
//! rounds a turn, with one rotation inside another: of the portable forms tried, the one with the
//! fewest instructions.

#![forbid(unsafe_code)]

mod sha3;

pub use sha3::{keccak_f, one_block, sha3_224, sha3_256, State, RATE_224, RATE_256, SHORT_LEN};

/// Bytes of a SHA-256 digest.
pub const DIGEST_LEN: usize = 32;

/// Bytes of one SHA-256 block.
pub const BLOCK_LEN: usize = 64;

/// FIPS 180-4, 5.3.3: the initial hash value.
pub const INITIAL: [u32; 8] = [
    0x6a09e667, 0xbb67ae85, 0x3c6ef372, 0xa54ff53a, 0x510e527f, 0x9b05688c, 0x1f83d9ab, 0x5be0cd19,
];

/// FIPS 180-4, 4.2.2: the sixty-four round constants.
const K: [u32; 64] = [
    0x428a2f98, 0x71374491, 0xb5c0fbcf, 0xe9b5dba5, 0x3956c25b, 0x59f111f1, 0x923f82a4, 0xab1c5ed5,
    0xd807aa98, 0x12835b01, 0x243185be, 0x550c7dc3, 0x72be5d74, 0x80deb1fe, 0x9bdc06a7, 0xc19bf174,
    0xe49b69c1, 0xefbe4786, 0x0fc19dc6, 0x240ca1cc, 0x2de92c6f, 0x4a7484aa, 0x5cb0a9dc, 0x76f988da,
    0x983e5152, 0xa831c66d, 0xb00327c8, 0xbf597fc7, 0xc6e00bf3, 0xd5a79147, 0x06ca6351, 0x14292967,
    0x27b70a85, 0x2e1b2138, 0x4d2c6dfc, 0x53380d13, 0x650a7354, 0x766a0abb, 0x81c2c92e, 0x92722c85,
    0xa2bfe8a1, 0xa81a664b, 0xc24b8b70, 0xc76c51a3, 0xd192e819, 0xd6990624, 0xf40e3585, 0x106aa070,
    0x19a4c116, 0x1e376c08, 0x2748774c, 0x34b0bcb5, 0x391c0cb3, 0x4ed8aa4a, 0x5b9cca4f, 0x682e6ff3,
    0x748f82ee, 0x78a5636f, 0x84c87814, 0x8cc70208, 0x90befffa, 0xa4506ceb, 0xbef9a3f7, 0xc67178f2,
];

/// Σ0 of FIPS 180-4, 4.1.2. Here and below one rotation stands inside another, which gives the same
/// word in fewer instructions where a rotation overwrites its operand.
#[inline(always)]
fn big_sigma0(x: u32) -> u32 {
    ((x.rotate_right(9) ^ x).rotate_right(11) ^ x).rotate_right(2)
}

/// Σ1 of FIPS 180-4, 4.1.2.
#[inline(always)]
fn big_sigma1(x: u32) -> u32 {
    ((x.rotate_right(14) ^ x).rotate_right(5) ^ x).rotate_right(6)
}

/// σ0 of FIPS 180-4, 4.1.2.
#[inline(always)]
fn small_sigma0(x: u32) -> u32 {
    (x.rotate_right(11) ^ x).rotate_right(7) ^ (x >> 3)
}

/// σ1 of FIPS 180-4, 4.1.2.
#[inline(always)]
fn small_sigma1(x: u32) -> u32 {
    (x.rotate_right(2) ^ x).rotate_right(17) ^ (x >> 10)
}

/// One round; `kw` is the round's constant and word.
#[inline(always)]
fn round([a, b, c, d, e, f, g, h]: [u32; 8], kw: u32) -> [u32; 8] {
    let choose = g ^ (e & (f ^ g));
    // The same as the majority of three; a ^ b is b ^ c of the round after.
    let majority = b ^ ((a ^ b) & (b ^ c));
    let t1 = h
        .wrapping_add(big_sigma1(e))
        .wrapping_add(choose)
        .wrapping_add(kw);
    let t2 = big_sigma0(a).wrapping_add(majority);
    [t1.wrapping_add(t2), a, b, c, d.wrapping_add(t1), e, f, g]
}

/// Word `i` of the next sixteen, in the place of word `i`.
#[inline(always)]
fn advance(w: &mut [u32; 16], i: usize) {
    w[i] = w[i]
        .wrapping_add(small_sigma0(w[(i + 1) % 16]))
        .wrapping_add(w[(i + 9) % 16])
        .wrapping_add(small_sigma1(w[(i + 14) % 16]));
}

/// A step for each of 0 to 15, written out: the compiler does not unroll so long a loop by itself.
macro_rules! sixteen {
    ($i:ident => $step:expr) => {
        sixteen!($i => $step; 0 1 2 3 4 5 6 7 8 9 10 11 12 13 14 15)
    };
    ($i:ident => $step:expr; $($n:literal)*) => {
        $({
            const $i: usize = $n;
            $step;
        })*
    };
}

/// FIPS 180-4, 6.2.2: one block of 64 bytes.
pub fn compress(state: &mut [u32; 8], block: &[u8; BLOCK_LEN]) {
    let mut w = [0u32; 16];
    for (word, bytes) in w.iter_mut().zip(block.chunks_exact(4)) {
        *word = u32::from_be_bytes([bytes[0], bytes[1], bytes[2], bytes[3]]);
    }
    let mut s = *state;
    for turn in 0..4 {
        sixteen!(I => s = round(s, K[turn * 16 + I].wrapping_add(w[I])));
        if turn < 3 {
            sixteen!(I => advance(&mut w, I));
        }
    }
    for (h, v) in state.iter_mut().zip(s) {
        *h = h.wrapping_add(v);
    }
}

/// A message that comes in parts.
#[derive(Clone)]
pub struct Sha256 {
    state: [u32; 8],
    block: [u8; BLOCK_LEN],
    len: u64,
}

impl Default for Sha256 {
    fn default() -> Self {
        Self::new()
    }
}

impl Sha256 {
    pub fn new() -> Self {
        Sha256 {
            state: INITIAL,
            block: [0; BLOCK_LEN],
            len: 0,
        }
    }

    pub fn update(&mut self, mut data: &[u8]) {
        let used = (self.len % 64) as usize;
        self.len += data.len() as u64;
        if used > 0 {
            let n = data.len().min(64 - used);
            self.block[used..used + n].copy_from_slice(&data[..n]);
            if used + n < 64 {
                return;
            }
            compress(&mut self.state, &self.block);
            data = &data[n..];
        }
        let mut blocks = data.chunks_exact(64);
        for b in &mut blocks {
            self.block.copy_from_slice(b);
            compress(&mut self.state, &self.block);
        }
        let rest = blocks.remainder();
        self.block[..rest.len()].copy_from_slice(rest);
    }

    pub fn finish(mut self) -> [u8; DIGEST_LEN] {
        let used = (self.len % 64) as usize;
        self.block[used] = 0x80;
        self.block[used + 1..].fill(0);
        if used >= 56 {
            compress(&mut self.state, &self.block);
            self.block.fill(0);
        }
        self.block[56..].copy_from_slice(&(self.len * 8).to_be_bytes());
        compress(&mut self.state, &self.block);
        let mut out = [0; DIGEST_LEN];
        for (bytes, h) in out.chunks_exact_mut(4).zip(self.state) {
            bytes.copy_from_slice(&h.to_be_bytes());
        }
        out
    }
}

/// SHA-256 of a whole message.
pub fn sha256(message: &[u8]) -> [u8; DIGEST_LEN] {
    let mut h = Sha256::new();
    h.update(message);
    h.finish()
}

/// An HMAC key with its inner and outer pads already hashed.
#[derive(Clone)]
pub struct HmacKey {
    inner: Sha256,
    outer: Sha256,
}

impl HmacKey {
    pub fn new(key: &[u8]) -> Self {
        let mut k0 = [0u8; BLOCK_LEN];
        if key.len() > BLOCK_LEN {
            k0[..DIGEST_LEN].copy_from_slice(&sha256(key));
        } else {
            k0[..key.len()].copy_from_slice(key);
        }
        let (mut inner, mut outer) = (Sha256::new(), Sha256::new());
        inner.update(&k0.map(|b| b ^ 0x36));
        outer.update(&k0.map(|b| b ^ 0x5c));
        HmacKey { inner, outer }
    }

    pub fn mac(&self, message: &[u8]) -> [u8; DIGEST_LEN] {
        let (mut inner, mut outer) = (self.inner.clone(), self.outer.clone());
        inner.update(message);
        outer.update(&inner.finish());
        outer.finish()
    }
}

/// HMAC-SHA-256 under a key of any length.
pub fn hmac_sha256(key: &[u8], message: &[u8]) -> [u8; DIGEST_LEN] {
    HmacKey::new(key).mac(message)
}

#[cfg(test)]
mod tests {
    use super::*;

    fn hex(bytes: &[u8]) -> String {
        bytes.iter().map(|b| format!("{b:02x}")).collect()
    }

    // FIPS 180-4's examples, and one that ends in the second block of padding.
    #[test]
    fn digests() {
        assert_eq!(
            hex(&sha256(b"abc")),
            "ba7816bf8f01cfea414140de5dae2223b00361a396177a9cb410ff61f20015ad"
        );
        assert_eq!(
            hex(&sha256(
                b"abcdbcdecdefdefgefghfghighijhijkijkljklmklmnlmnomnopnopq"
            )),
            "248d6a61d20638b8e5c026930c3e6039a33ce45964ff2167f6ecedd419db06c1"
        );
        assert_eq!(
            hex(&sha256(b"")),
            "e3b0c44298fc1c149afbf4c8996fb92427ae41e4649b934ca495991b7852b855"
        );
        assert_eq!(
            hex(&sha256(&[b'a'; 1_000_000])),
            "cdc76e5c9914fb9281a1c7e284d73e67f1809a48a497200e046d39ccc7112cd0"
        );
    }

    // A message gives the same digest however it is cut into parts.
    #[test]
    fn parts() {
        let m: Vec<u8> = (0..300u32).map(|i| (i * 7) as u8).collect();
        for len in 0..m.len() {
            for cut in [0, 1, len / 2, len.saturating_sub(1), len] {
                let mut h = Sha256::new();
                h.update(&m[..cut.min(len)]);
                h.update(&m[cut.min(len)..len]);
                assert_eq!(h.finish(), sha256(&m[..len]));
            }
        }
    }

    // RFC 4231, cases 1, 2, 3 and 6 (a key longer than a block).
    #[test]
    fn macs() {
        assert_eq!(
            hex(&hmac_sha256(&[0x0b; 20], b"Hi There")),
            "b0344c61d8db38535ca8afceaf0bf12b881dc200c9833da726e9376c2e32cff7"
        );
        assert_eq!(
            hex(&hmac_sha256(b"Jefe", b"what do ya want for nothing?")),
            "5bdcc146bf60754e6a042426089575c75a003f089d2739839dec58b964ec3843"
        );
        assert_eq!(
            hex(&hmac_sha256(&[0xaa; 20], &[0xdd; 50])),
            "773ea91e36800e46854db8ebd09181a72959098b3ef8c122d9635514ced565fe"
        );
        assert_eq!(
            hex(&hmac_sha256(
                &[0xaa; 131],
                b"Test Using Larger Than Block-Size Key - Hash Key First"
            )),
            "60e431591ee0b67f0d8a26aacbf5b77f8e0bc6213728c5140546040f0ee37f54"
        );
    }
}
