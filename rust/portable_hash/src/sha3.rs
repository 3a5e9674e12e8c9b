//! SHA3-224 and SHA3-256 (FIPS 202).
//!
//! Constants, offsets and places are worked out from the standard's rules when the crate is compiled; none is typed in.
//! The rounds keep six lanes inverted, which leaves five inversions of a round's twenty-five, and stand twelve to a turn:
//! of the portable forms tried, the one with the fewest instructions.

/// Lane (x, y) stands at place 5 y + x.
pub type State = [u64; 25];

/// Bytes of a block of SHA3-224 and of SHA3-256.
pub const RATE_224: usize = 144;
pub const RATE_256: usize = 136;

/// Bytes lent for a message of one block: the message and the first byte of its padding.
pub const SHORT_LEN: usize = 64;

/// FIPS 202, 3.2.2: by how many bits each lane is rotated.
const OFFSETS: [u32; 25] = {
    let mut offsets = [0; 25];
    let (mut x, mut y, mut t) = (1, 0, 0);
    while t < 24 {
        offsets[5 * y + x] = (t + 1) * (t + 2) / 2 % 64;
        (x, y) = (y, (2 * x + 3 * y) % 5);
        t += 1;
    }
    offsets
};

/// FIPS 202, 3.2.5: the constant of each round, by the shift register of algorithm 5.
const CONSTANTS: [u64; 24] = {
    let mut constants = [0; 24];
    let (mut register, mut round) = (1u8, 0);
    while round < 24 {
        let mut j = 0;
        while j < 7 {
            constants[round] |= (register as u64 & 1) << ((1 << j) - 1);
            register = (register << 1) ^ ((register >> 7) * 0x71);
            j += 1;
        }
        round += 1;
    }
    constants
};

/// The lanes that are inverted before the first round and after the last.
const INVERTED: [usize; 6] = [1, 2, 8, 12, 17, 20];

#[inline(always)]
fn inverted(mut a: State) -> State {
    for at in INVERTED {
        a[at] = !a[at];
    }
    a
}

/// θ, ρ, π, χ and ι on a state with inverted lanes. Where a lane of χ or one beside it is inverted, its "and" with an
/// inverted lane becomes an "and" or an "or" of lanes as they are.
#[inline(always)]
fn round(a: State, constant: u64) -> State {
    let column = |x: usize| a[x] ^ a[x + 5] ^ a[x + 10] ^ a[x + 15] ^ a[x + 20];
    let c = [column(0), column(1), column(2), column(3), column(4)];
    let effect = |x: usize| c[(x + 4) % 5] ^ c[(x + 1) % 5].rotate_left(1);
    let d = [effect(0), effect(1), effect(2), effect(3), effect(4)];
    // Lane (x, y) after π comes from (x + 3 y, x).
    let lane = |x: usize, y: usize| {
        let from = 5 * x + (x + 3 * y) % 5;
        (a[from] ^ d[from % 5]).rotate_left(OFFSETS[from])
    };
    let row = |y: usize| [lane(0, y), lane(1, y), lane(2, y), lane(3, y), lane(4, y)];
    let mut e = [0; 25];

    let b = row(0);
    e[0] = b[0] ^ (b[1] | b[2]) ^ constant;
    e[1] = b[1] ^ (!b[2] | b[3]);
    e[2] = b[2] ^ (b[3] & b[4]);
    e[3] = b[3] ^ (b[4] | b[0]);
    e[4] = b[4] ^ (b[0] & b[1]);

    let b = row(1);
    e[5] = b[0] ^ (b[1] | b[2]);
    e[6] = b[1] ^ (b[2] & b[3]);
    e[7] = b[2] ^ (b[3] | !b[4]);
    e[8] = b[3] ^ (b[4] | b[0]);
    e[9] = b[4] ^ (b[0] & b[1]);

    let b = row(2);
    let not_3 = !b[3];
    e[10] = b[0] ^ (b[1] | b[2]);
    e[11] = b[1] ^ (b[2] & b[3]);
    e[12] = b[2] ^ (not_3 & b[4]);
    e[13] = not_3 ^ (b[4] | b[0]);
    e[14] = b[4] ^ (b[0] & b[1]);

    let b = row(3);
    let not_3 = !b[3];
    e[15] = b[0] ^ (b[1] & b[2]);
    e[16] = b[1] ^ (b[2] | b[3]);
    e[17] = b[2] ^ (not_3 | b[4]);
    e[18] = not_3 ^ (b[4] & b[0]);
    e[19] = b[4] ^ (b[0] | b[1]);

    let b = row(4);
    let not_1 = !b[1];
    e[20] = b[0] ^ (not_1 & b[2]);
    e[21] = not_1 ^ (b[2] | b[3]);
    e[22] = b[2] ^ (b[3] & b[4]);
    e[23] = b[3] ^ (b[4] | b[0]);
    e[24] = b[4] ^ (b[0] & b[1]);
    e
}

/// Twelve rounds, written out: the compiler does not unroll so long a loop by itself.
#[inline(always)]
fn twelve_rounds(a: State, constants: &[u64]) -> State {
    macro_rules! rounds {
        ($a:expr; $($n:literal)*) => {{
            let a = $a;
            $(let a = round(a, constants[$n]);)*
            a
        }};
    }
    rounds!(a; 0 1 2 3 4 5 6 7 8 9 10 11)
}

/// FIPS 202, 3.4: KECCAK-f[1600].
pub fn keccak_f(state: &mut State) {
    let mut a = inverted(*state);
    for constants in CONSTANTS.chunks_exact(12) {
        a = twelve_rounds(a, constants);
    }
    *state = inverted(a);
}

/// The bytes of eight at a time, the lowest first.
fn lanes(bytes: &[u8]) -> impl Iterator<Item = u64> + '_ {
    bytes.chunks_exact(8).map(|eight| {
        let mut lane = [0; 8];
        lane.copy_from_slice(eight);
        u64::from_le_bytes(lane)
    })
}

/// The first bytes of a state.
fn squeezed<const LEN: usize>(state: &State) -> [u8; LEN] {
    let mut out = [0; LEN];
    for (bytes, lane) in out.chunks_mut(8).zip(state) {
        bytes.copy_from_slice(&lane.to_le_bytes()[..bytes.len()]);
    }
    out
}

/// What a message of at most 63 bytes gives with a block of `RATE` bytes, 28 or 32 of its bytes the digest. `block` is
/// the message, a byte 0x06 and zeros. Of the first round most lanes are known and of the last one four are used, which
/// the compiler sees here.
pub fn one_block<const RATE: usize>(block: &[u8; SHORT_LEN]) -> [u8; 32] {
    let mut a = [0; 25];
    for (lane, word) in a.iter_mut().zip(lanes(block)) {
        *lane = word;
    }
    a[RATE / 8 - 1] = 1 << 63;
    let (first, last) = CONSTANTS.split_at(12);
    let a = twelve_rounds(twelve_rounds(inverted(a), first), last);
    squeezed(&inverted(a))
}

/// FIPS 202, 4: the sponge with blocks of `RATE` bytes, for the SHA-3 functions (6.1), whose digests are shorter than a
/// block.
fn sponge<const RATE: usize, const LEN: usize>(message: &[u8]) -> [u8; LEN] {
    let mut digest = [0; LEN];
    if message.len() < SHORT_LEN {
        let mut block = [0; SHORT_LEN];
        block[..message.len()].copy_from_slice(message);
        block[message.len()] = 0x06;
        digest.copy_from_slice(&one_block::<RATE>(&block)[..LEN]);
        return digest;
    }
    let mut state = [0; 25];
    let mut absorb = |block: &[u8]| {
        for (lane, word) in state.iter_mut().zip(lanes(block)) {
            *lane ^= word;
        }
        keccak_f(&mut state);
    };
    let blocks = message.chunks_exact(RATE);
    let rest = blocks.remainder();
    blocks.for_each(&mut absorb);
    let mut block = [0; RATE];
    block[..rest.len()].copy_from_slice(rest);
    block[rest.len()] = 0x06;
    block[RATE - 1] |= 0x80;
    absorb(&block);
    squeezed(&state)
}

/// SHA3-224 of a whole message.
pub fn sha3_224(message: &[u8]) -> [u8; 28] {
    sponge::<RATE_224, 28>(message)
}

/// SHA3-256 of a whole message.
pub fn sha3_256(message: &[u8]) -> [u8; 32] {
    sponge::<RATE_256, 32>(message)
}

#[cfg(test)]
mod tests {
    use super::*;

    fn hex(bytes: &[u8]) -> String {
        bytes.iter().map(|b| format!("{b:02x}")).collect()
    }

    fn message(len: usize) -> Vec<u8> {
        (0..len).map(|at| (at * 151 + len) as u8).collect()
    }

    // FIPS 202, table 2, with its lanes in the order of the state.
    #[test]
    fn offsets() {
        let table = [
            [0, 1, 190, 28, 91],
            [36, 300, 6, 55, 276],
            [3, 10, 171, 153, 231],
            [105, 45, 15, 21, 136],
            [210, 66, 253, 120, 78],
        ];
        let offsets: Vec<u32> = table.concat().iter().map(|offset| offset % 64).collect();
        assert_eq!(offsets, OFFSETS);
    }

    // The constants of the first and the last rounds.
    #[test]
    fn constants() {
        assert_eq!(CONSTANTS[..3], [1, 0x8082, 0x8000_0000_0000_808a]);
        assert_eq!(CONSTANTS[22..], [0x8000_0001, 0x8000_0000_8000_8008]);
    }

    // The permutation once and twice on zeros.
    #[test]
    fn permutation() {
        let mut state = [0; 25];
        keccak_f(&mut state);
        assert_eq!(state[0], 0xf125_8f79_40e1_dde7);
        assert_eq!(state[24], 0xeaf1_ff7b_5cec_a249);
        keccak_f(&mut state);
        assert_eq!(state[0], 0x2d5c_954d_f96e_cb3c);
        assert_eq!(state[24], 0x20d0_6cd2_6a8f_bf5c);
    }

    // NIST's examples: messages of 0, 24, 448, 896 and 1600 bits.
    #[test]
    fn digests() {
        let examples: [(&[u8], &str, &str); 5] = [
            (&b""[..], "6b4e03423667dbb73b6e15454f0eb1abd4597f9a1b078e3f5b5a6bc7", "a7ffc6f8bf1ed76651c14756a061d662f580ff4de43b49fa82d80a4b80f8434a"),
            (&b"abc"[..], "e642824c3f8cf24ad09234ee7d3c766fc9a3a5168d0c94ad73b46fdf", "3a985da74fe225b2045c172d6bd390bd855f086e3e9d525b46bfe24511431532"),
            (&b"abcdbcdecdefdefgefghfghighijhijkijkljklmklmnlmnomnopnopq"[..], "8a24108b154ada21c9fd5574494479ba5c7e7ab76ef264ead0fcce33", "41c0dba2a9d6240849100376a8235e2c82e1b9998a999e21db32dd97496d3376"),
            (&b"abcdefghbcdefghicdefghijdefghijkefghijklfghijklmghijklmnhijklmnoijklmnopjklmnopqklmnopqrlmnopqrsmnopqrstnopqrstu"[..], "543e6868e1666c1a643630df77367ae5a62a85070a51c14cbf665cbc", "916f6061fe879741ca6469b43971dfdb28b1a32dc36cb3254e812be27aad1d18"),
            (&[0xa3; 200], "9376816aba503f72f96ce7eb65ac095deee3be4bf9bbc2a1cb7e11e0", "79f38adec5c20307a98ef76e8324afbfd46cfd81b22e3973c65fa1bd9de31787"),
        ];
        for (message, of_224, of_256) in examples {
            assert_eq!(hex(&sha3_224(message)), of_224);
            assert_eq!(hex(&sha3_256(message)), of_256);
        }
    }

    // Around the ends of blocks of both rates, and of a message of one block.
    #[test]
    fn block_ends() {
        for (len, of_224, of_256) in [
            (
                63,
                "e9c93a24f8f660d09075316ab0fe98a78009d33f58cb677689e267ac",
                "ada67b9fe72a072317b3bb00a9a71fec4747da01a55bada7a138d3ca5e2ac226",
            ),
            (
                64,
                "4e65646c568db53f2ebaf3ce7848cf75d3c063a3e3ef18f775a0d81c",
                "4385f4a99d239ba39508cf5718b634cfb855e47e783d7eb0fbe50b8d55b0075c",
            ),
            (
                135,
                "68938a66a63bde4d50e9c5f62c64b72b6bd27661daa6d15ad3f8c9ed",
                "f6bc124a8bcbfb943fcb8faad7d50717d7bb7714bf65d1d7239301b937f9277c",
            ),
            (
                136,
                "df5ecafcd1ed34db5b7987cfa6be72253030cb58a426f8b7cbd7e38e",
                "dc8bf430187cb8b876e341abc46c1baba6acb76b4b3a7b37ae231bda295152ad",
            ),
            (
                137,
                "c390db413d0f953cc7fd1bcc471f45193940f7c48e0fd85c87d09155",
                "797653856a55f3946184b27dafc9a1997d346ca1fe89f83e225c15f8c7cff44a",
            ),
            (
                143,
                "a049e6a3e684541ec773a58945f4267cdc0cb2ff1c6c7336d2f311a1",
                "c5b92678bc272d58e4c8cca9702af0ebd3cd1f92cdabb00398223e828c168c68",
            ),
            (
                144,
                "67bfab88f75211e5b168dba544a75c64359b83db7c32245390a2f76f",
                "fa79152dda26d165b9d98de9ae665628e7631a8eff4791c84e780fccfd8512eb",
            ),
            (
                145,
                "739e1ff4e5c7afec5eb88ec496b42cca15809dc68e2aa595c303cd96",
                "d278bcb96142514a2b62122575e46bbcd51a3455533e5180450c2fd08e5408bc",
            ),
            (
                271,
                "7878abe46b499b2f34425bc483f1b00376e302ccb55408ed1147a0ed",
                "d2b4396bf54a7e1dd4dbda275919e7671bac6272ecfe8128084ecb75fb01e3dc",
            ),
            (
                272,
                "26f38efa1539ce8f534bbbc8160f6b128e312c5f3fe7ea2901bf62ef",
                "30e7c9fc5b81d117024191e96890845a4cb095e38a72670305f2d06bf9848b31",
            ),
            (
                273,
                "d808ba40a6478b43052c18e857eab8509ca077d6f85b5baa81b32ea5",
                "6ccf2f279fa4a0adda4f8c4831856794df2d7daab9163b0a01712fc6e3256cb2",
            ),
            (
                287,
                "58e998a172576bc36f878d09ceac171c1ba7820584ecd92fda03d7a7",
                "8eb2c06916f62f277e85e9c317143541c8cc04d5b4847a7bc9f52dc5a078b743",
            ),
            (
                288,
                "f8fea8be931d0b398fe7b40975a5f109b53245bb1023164d41fdeb20",
                "15a55079e0d3c2f48b27a8a4ad54150e43365d664d99193c06fe4b716d4e69c0",
            ),
            (
                289,
                "a06e11764547e479ba2ba9ae22cfcfb1485f2d937b100502e5a2db86",
                "8af78ab4bbe616df24ac5c8cadd60f2da45c375f936a577a45d8ab54d01dbf31",
            ),
        ] {
            assert_eq!(hex(&sha3_224(&message(len))), of_224, "{len} bytes");
            assert_eq!(hex(&sha3_256(&message(len))), of_256, "{len} bytes");
        }
    }

    // Every length up to 699 bytes: the digest of the digests.
    #[test]
    fn every_length() {
        let all = |hash: fn(&[u8]) -> Vec<u8>| -> Vec<u8> {
            let digests = (0..700).flat_map(|len| hash(&message(len)));
            hash(&digests.collect::<Vec<u8>>())
        };
        assert_eq!(
            hex(&all(|m| sha3_224(m).to_vec())),
            "a01a74ba34edc0d300d2a72ce11f8e406e259cbf10faf08baca605bf"
        );
        assert_eq!(
            hex(&all(|m| sha3_256(m).to_vec())),
            "9f19b2a6b25ae77d08aee569a1b9c52c2a5f4e7927416a3a8ae6ad53b595a276"
        );
    }

    // A message with its padding begun: a digest of SHA3-224 is 28 of the 32 bytes.
    #[test]
    fn one_blocks() {
        for len in 0..SHORT_LEN {
            let mut block = [0; SHORT_LEN];
            block[..len].copy_from_slice(&message(len));
            block[len] = 0x06;
            let digest = one_block::<RATE_224>(&block);
            assert_eq!(digest[..28], sha3_224(&message(len)));
            assert_eq!(one_block::<RATE_256>(&block), sha3_256(&message(len)));
        }
    }
}
