//! AES encryption (FIPS 197) with keys of 16, 24 and 32 bytes, and CMAC over it (NIST SP 800-38B; RFC 4493 for 128
//! bits) in plain, portable Rust.
//!
//! Written from the standards for the second receiver, the bench signal and the benchmark. It shares no code and no
//! table with the proved library, so that the two can be compared. A round looks its four columns up in tables of
//! words (FIPS 197, 5.1.1 to 5.1.3 in one step); the tables are computed from the field rule when the crate is
//! compiled, none is typed in. The tables are read at secret places: this is for a test bench, not for a place where
//! someone measures time.

#![forbid(unsafe_code)]

/// Bytes of a block and of a CMAC code.
pub const BLOCK_LEN: usize = 16;

/// A block.
pub type Block = [u8; BLOCK_LEN];

/// Round keys of the longest key: 14 rounds and the one before them.
const ROUND_KEYS: usize = 15;

/// FIPS 197, 4.2.1: times {02} modulo x^8 + x^4 + x^3 + x + 1.
const fn xtime(a: u8) -> u8 {
    (a << 1) ^ ((a >> 7) * 0x1b)
}

/// FIPS 197, 4.2: the product of two field elements.
const fn times(a: u8, b: u8) -> u8 {
    let (mut power, mut product, mut bit) = (a, 0, 0);
    while bit < 8 {
        if b >> bit & 1 == 1 {
            product ^= power;
        }
        power = xtime(power);
        bit += 1;
    }
    product
}

/// FIPS 197, 4.2: the inverse, a^254; {00} stays.
const fn inverse(a: u8) -> u8 {
    // a^(2 + 4 + .. + 128).
    let (mut power, mut product, mut bit) = (a, 1, 1);
    while bit < 8 {
        power = times(power, power);
        product = times(product, power);
        bit += 1;
    }
    product
}

/// FIPS 197, 5.1.1: the inverse, then the affine map.
const fn sub_byte(a: u8) -> u8 {
    let b = inverse(a);
    b ^ b.rotate_left(1) ^ b.rotate_left(2) ^ b.rotate_left(3) ^ b.rotate_left(4) ^ 0x63
}

/// FIPS 197, 5.1.1: the substitution table.
const SBOX: [u8; 256] = {
    let (mut table, mut a) = ([0; 256], 0);
    while a < 256 {
        table[a] = sub_byte(a as u8);
        a += 1;
    }
    table
};

/// What a byte in row `row` adds to its new column: the substituted byte times that column of the matrix of 5.1.3.
const fn column_table(row: u32) -> [u32; 256] {
    let (mut table, mut a) = ([0; 256], 0);
    while a < 256 {
        let s = SBOX[a];
        table[a] = u32::from_be_bytes([times(s, 2), s, s, times(s, 3)]).rotate_right(8 * row);
        a += 1;
    }
    table
}

static COLUMNS: [[u32; 256]; 4] = [
    column_table(0),
    column_table(1),
    column_table(2),
    column_table(3),
];

/// The four columns of the state, row 0 in the top byte.
type State = [u32; 4];

fn state(block: &Block) -> State {
    std::array::from_fn(|c| {
        u32::from_be_bytes([
            block[4 * c],
            block[4 * c + 1],
            block[4 * c + 2],
            block[4 * c + 3],
        ])
    })
}

fn bytes(state: State) -> Block {
    let mut out = [0; BLOCK_LEN];
    for (four, word) in out.chunks_exact_mut(4).zip(state) {
        four.copy_from_slice(&word.to_be_bytes());
    }
    out
}

fn xor(a: State, b: &State) -> State {
    [a[0] ^ b[0], a[1] ^ b[1], a[2] ^ b[2], a[3] ^ b[3]]
}

/// The byte in row `row` of a column.
#[inline(always)]
fn row(word: u32, row: u32) -> usize {
    usize::from((word >> (24 - 8 * row)) as u8)
}

/// SubBytes, ShiftRows, MixColumns and AddRoundKey: row r of column c comes from column c + r.
#[inline(always)]
fn round(s: State, key: &State) -> State {
    let column = |c: usize| {
        COLUMNS[0][row(s[c], 0)]
            ^ COLUMNS[1][row(s[(c + 1) % 4], 1)]
            ^ COLUMNS[2][row(s[(c + 2) % 4], 2)]
            ^ COLUMNS[3][row(s[(c + 3) % 4], 3)]
            ^ key[c]
    };
    [column(0), column(1), column(2), column(3)]
}

/// The last round, which has no MixColumns.
#[inline(always)]
fn last_round(s: State, key: &State) -> State {
    let column = |c: usize| {
        u32::from_be_bytes([
            SBOX[row(s[c], 0)],
            SBOX[row(s[(c + 1) % 4], 1)],
            SBOX[row(s[(c + 2) % 4], 2)],
            SBOX[row(s[(c + 3) % 4], 3)],
        ]) ^ key[c]
    };
    [column(0), column(1), column(2), column(3)]
}

/// FIPS 197, 5.2: SUBWORD.
fn sub_word(word: u32) -> u32 {
    u32::from_be_bytes(word.to_be_bytes().map(|b| SBOX[usize::from(b)]))
}

/// A key with its round keys.
#[derive(Clone)]
pub struct AesKey {
    rounds: usize,
    round_keys: [State; ROUND_KEYS],
}

impl AesKey {
    /// FIPS 197, 5.2: KEYEXPANSION. None unless the key has 16, 24 or 32 bytes.
    pub fn new(key: &[u8]) -> Option<AesKey> {
        match key.len() {
            16 => Some(Self::expand::<4>(key)),
            24 => Some(Self::expand::<6>(key)),
            32 => Some(Self::expand::<8>(key)),
            _ => None,
        }
    }

    /// The key's NK words, then as many as Nr + 1 round keys have.
    fn expand<const NK: usize>(key: &[u8]) -> AesKey {
        let rounds = NK + 6;
        let mut words = [0; 4 * ROUND_KEYS];
        for (word, four) in words.iter_mut().zip(key.chunks_exact(4)) {
            *word = u32::from_be_bytes([four[0], four[1], four[2], four[3]]);
        }
        let mut constant = 1u8;
        for i in NK..4 * (rounds + 1) {
            let mut word = words[i - 1];
            if i % NK == 0 {
                word = sub_word(word.rotate_left(8)) ^ u32::from(constant) << 24;
                constant = xtime(constant);
            } else if NK > 6 && i % NK == 4 {
                word = sub_word(word);
            }
            words[i] = words[i - NK] ^ word;
        }
        AesKey {
            rounds,
            round_keys: std::array::from_fn(|k| std::array::from_fn(|c| words[4 * k + c])),
        }
    }

    /// FIPS 197, 5.1: CIPHER.
    pub fn encrypt(&self, block: &Block) -> Block {
        bytes(self.cipher(state(block)))
    }

    #[inline(always)]
    fn cipher(&self, block: State) -> State {
        let mut s = xor(block, &self.round_keys[0]);
        for key in &self.round_keys[1..self.rounds] {
            s = round(s, key);
        }
        last_round(s, &self.round_keys[self.rounds])
    }
}

/// A CMAC key: the cipher's, and the two subkeys.
#[derive(Clone)]
pub struct CmacKey {
    cipher: AesKey,
    /// For a message that ends with a whole block.
    k1: State,
    /// For one that was filled.
    k2: State,
}

/// SP 800-38B, 6.1: a block times x, modulo x^128 + x^7 + x^2 + x + 1.
fn doubled(block: State) -> State {
    let carry = |c: usize| block[(c + 1) % 4] >> 31;
    [
        block[0] << 1 | carry(0),
        block[1] << 1 | carry(1),
        block[2] << 1 | carry(2),
        (block[3] << 1) ^ (carry(3) * 0x87),
    ]
}

impl CmacKey {
    /// SP 800-38B, 6.1: the subkeys. None unless the key has 16, 24 or 32 bytes.
    pub fn new(key: &[u8]) -> Option<CmacKey> {
        let cipher = AesKey::new(key)?;
        let k1 = doubled(cipher.cipher([0; 4]));
        let k2 = doubled(k1);
        Some(CmacKey { cipher, k1, k2 })
    }

    /// SP 800-38B, 6.2: the code of a message of any number of bytes.
    pub fn mac(&self, message: &[u8]) -> Block {
        // Every block but the last; an empty message has one, which is filled.
        let whole = message.len().saturating_sub(1) / BLOCK_LEN * BLOCK_LEN;
        let (blocks, rest) = message.split_at(whole);
        let mut code = [0; 4];
        let mut block = [0; BLOCK_LEN];
        for sixteen in blocks.chunks_exact(BLOCK_LEN) {
            block.copy_from_slice(sixteen);
            code = self.cipher.cipher(xor(code, &state(&block)));
        }
        block = [0; BLOCK_LEN];
        block[..rest.len()].copy_from_slice(rest);
        let subkey = if rest.len() == BLOCK_LEN {
            &self.k1
        } else {
            block[rest.len()] = 0x80;
            &self.k2
        };
        let last = xor(xor(code, &state(&block)), subkey);
        bytes(self.cipher.cipher(last))
    }
}

/// The code of a message under a key that is used once. None unless the key has 16, 24 or 32 bytes.
pub fn cmac(key: &[u8], message: &[u8]) -> Option<Block> {
    CmacKey::new(key).map(|key| key.mac(message))
}

#[cfg(test)]
mod tests {
    use super::*;

    fn hex(text: &str) -> Vec<u8> {
        let digits: Vec<u32> = text.chars().filter_map(|c| c.to_digit(16)).collect();
        digits
            .chunks_exact(2)
            .map(|two| (two[0] << 4 | two[1]) as u8)
            .collect()
    }

    fn block(text: &str) -> Block {
        hex(text).try_into().expect("16 bytes")
    }

    fn encrypted(key: &str, plain: &str) -> Block {
        let key = AesKey::new(&hex(key)).expect("a key of AES");
        key.encrypt(&block(plain))
    }

    // FIPS 197, 4.2: its products; and each inverse.
    #[test]
    fn field() {
        assert_eq!(times(0x57, 0x83), 0xc1);
        assert_eq!(times(0x57, 0x13), 0xfe);
        assert_eq!(inverse(0), 0);
        for a in 1..=255 {
            assert_eq!(times(a, inverse(a)), 1);
        }
    }

    // FIPS 197, table 4: the corners, 5.1.1's own example, and that no value stands twice.
    #[test]
    fn substitution() {
        assert_eq!(SBOX[..4], [0x63, 0x7c, 0x77, 0x7b]);
        assert_eq!(SBOX[252..], [0xb0, 0x54, 0xbb, 0x16]);
        assert_eq!(SBOX[0x53], 0xed);
        let mut seen = SBOX;
        seen.sort_unstable();
        assert!(seen.iter().enumerate().all(|(a, &b)| a == usize::from(b)));
    }

    // FIPS 197, A.1, A.2, A.3: the last words of each expansion.
    #[test]
    fn expansions() {
        for (key, last) in [
            ("2b7e151628aed2a6abf7158809cf4f3c", 0xb663_0ca6),
            (
                "8e73b0f7da0e6452c810f32b809079e562f8ead2522c6b7b",
                0x0100_2202,
            ),
            (
                "603deb1015ca71be2b73aef0857d77811f352c073b6108d72d9810a30914dff4",
                0x706c_631e,
            ),
        ] {
            let key = AesKey::new(&hex(key)).unwrap();
            assert_eq!(key.round_keys[key.rounds][3], last);
        }
    }

    // FIPS 197, B and C.1 to C.3.
    #[test]
    fn ciphers() {
        assert_eq!(
            encrypted(
                "2b7e151628aed2a6abf7158809cf4f3c",
                "3243f6a8885a308d313198a2e0370734"
            ),
            block("3925841d02dc09fbdc118597196a0b32")
        );
        let plain = "00112233445566778899aabbccddeeff";
        for (key, cipher) in [
            (
                "000102030405060708090a0b0c0d0e0f",
                "69c4e0d86a7b0430d8cdb78070b4c55a",
            ),
            (
                "000102030405060708090a0b0c0d0e0f1011121314151617",
                "dda97ca4864cdfe06eaf70a0ec0d7191",
            ),
            (
                "000102030405060708090a0b0c0d0e0f101112131415161718191a1b1c1d1e1f",
                "8ea2b7ca516745bfeafc49904b496089",
            ),
        ] {
            assert_eq!(encrypted(key, plain), block(cipher));
        }
    }

    /// The message of RFC 4493, 4, and of SP 800-38B's examples.
    const MESSAGE: &str = "6bc1bee22e409f96e93d7e117393172aae2d8a571e03ac9c9eb76fac45af8e51\
                           30c81c46a35ce411e5fbc1191a0a52eff69f2445df4f9b17ad2b417be66c3710";

    // RFC 4493, 4, and SP 800-38B, D.1 to D.3: the subkeys, and the codes of 0, 16, 40 and 64 bytes.
    #[test]
    fn codes() {
        for (key, k1, k2, codes) in [
            (
                "2b7e151628aed2a6abf7158809cf4f3c",
                "fbeed618357133667c85e08f7236a8de",
                "f7ddac306ae266ccf90bc11ee46d513b",
                [
                    (0, "bb1d6929e95937287fa37d129b756746"),
                    (16, "070a16b46b4d4144f79bdd9dd04a287c"),
                    (40, "dfa66747de9ae63030ca32611497c827"),
                    (64, "51f0bebf7e3b9d92fc49741779363cfe"),
                ],
            ),
            (
                "8e73b0f7da0e6452c810f32b809079e562f8ead2522c6b7b",
                "448a5b1c93514b273ee6439dd4daa296",
                "8914b63926a2964e7dcc873ba9b5452c",
                [
                    (0, "d17ddf46adaacde531cac483de7a9367"),
                    (16, "9e99a7bf31e710900662f65e617c5184"),
                    (40, "8a1de5be2eb31aad089a82e6ee908b0e"),
                    (64, "a1d5df0eed790f794d77589659f39a11"),
                ],
            ),
            (
                "603deb1015ca71be2b73aef0857d77811f352c073b6108d72d9810a30914dff4",
                "cad1ed03299eedac2e9a99808621502f",
                "95a3da06533ddb585d3533010c42a0d9",
                [
                    (0, "028962f61b7bf89efc6b551f4667d983"),
                    (16, "28a7023f452e8f82bd4bf28d8c37c35c"),
                    (40, "aaf3d8f1de5640c232f5b169b9c911e6"),
                    (64, "e1992190549f6ed5696a2c056c315410"),
                ],
            ),
        ] {
            let kept = CmacKey::new(&hex(key)).unwrap();
            assert_eq!(bytes(kept.k1), block(k1));
            assert_eq!(bytes(kept.k2), block(k2));
            for (len, code) in codes {
                let message = &hex(MESSAGE)[..len];
                assert_eq!(kept.mac(message), block(code), "{len} bytes");
                assert_eq!(cmac(&hex(key), message), Some(block(code)));
            }
        }
    }

    // Keys of other lengths are none.
    #[test]
    fn key_lengths() {
        for len in 0..40 {
            let taken = matches!(len, 16 | 24 | 32);
            assert_eq!(AesKey::new(&vec![7; len]).is_some(), taken);
            assert_eq!(cmac(&vec![7; len], b"abc").is_some(), taken);
        }
    }
}
