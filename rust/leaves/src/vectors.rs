//! Published examples of SHA-256, SHA3, HMAC-SHA-256, AES and CMAC, as data.

/// Bytes of a published message or key.
#[derive(Clone, Copy, Debug)]
pub enum Bytes {
    /// These bytes.
    Plain(&'static [u8]),
    /// One byte, so many times.
    Repeated(u8, usize),
    /// Bytes from the first to the last, each one more.
    Counting(u8, u8),
}

impl Bytes {
    /// All the bytes.
    pub fn bytes(&self) -> Vec<u8> {
        match *self {
            Bytes::Plain(bytes) => bytes.to_vec(),
            Bytes::Repeated(byte, count) => vec![byte; count],
            Bytes::Counting(first, last) => (first..=last).collect(),
        }
    }
}

/// A message and its digest.
#[derive(Clone, Copy, Debug)]
pub struct Hashed {
    /// The message.
    pub message: Bytes,
    /// Its SHA-256, in hexadecimal.
    pub digest: &'static str,
}

/// A message and its digests by SHA3.
#[derive(Clone, Copy, Debug)]
pub struct Sponged {
    /// The message.
    pub message: Bytes,
    /// Its SHA3-224, in hexadecimal.
    pub sha3_224: &'static str,
    /// Its SHA3-256, in hexadecimal.
    pub sha3_256: &'static str,
}

/// A key, a message and their code.
#[derive(Clone, Copy, Debug)]
pub struct Coded {
    /// The key.
    pub key: Bytes,
    /// The message.
    pub message: Bytes,
    /// The first digits of the HMAC, in hexadecimal: as many as were published.
    pub code: &'static str,
}

/// A key, a block and the block under the key, in hexadecimal.
#[derive(Clone, Copy, Debug)]
pub struct Enciphered {
    /// The key.
    pub key: &'static str,
    /// The block.
    pub block: &'static str,
    /// What AES makes of it.
    pub cipher: &'static str,
}

/// A key, the first bytes of [`SP_800_38_MESSAGE`] and their CMAC, in hexadecimal.
#[derive(Clone, Copy, Debug)]
pub struct Keyed {
    /// The key.
    pub key: &'static str,
    /// So many bytes of the message.
    pub len: usize,
    /// Their CMAC with AES.
    pub code: &'static str,
}

/// The bytes of pairs of hexadecimal digits.
pub fn unhex(text: &str) -> Vec<u8> {
    let digits: Vec<u8> = text
        .chars()
        .filter_map(|digit| digit.to_digit(16).map(|value| value as u8))
        .collect();
    digits
        .chunks_exact(2)
        .map(|two| two[0] << 4 | two[1])
        .collect()
}

/// Lower-case hexadecimal, as the lists here have it.
pub fn hex(bytes: &[u8]) -> String {
    bytes.iter().map(|byte| format!("{byte:02x}")).collect()
}

const fn hashed(message: Bytes, digest: &'static str) -> Hashed {
    Hashed { message, digest }
}

const fn sponged(message: Bytes, sha3_224: &'static str, sha3_256: &'static str) -> Sponged {
    Sponged {
        message,
        sha3_224,
        sha3_256,
    }
}

const fn coded(key: Bytes, message: &'static [u8], code: &'static str) -> Coded {
    let message = Bytes::Plain(message);
    Coded { key, message, code }
}

use Bytes::{Counting, Plain, Repeated};

const ABC: Bytes = Plain(b"abc");
const BITS_448: Bytes = Plain(b"abcdbcdecdefdefgefghfghighijhijkijkljklmklmnlmnomnopnopq");
const BITS_896: Bytes = Plain(
    b"abcdefghbcdefghicdefghijdefghijkefghijklfghijklmghijklmn\
      hijklmnoijklmnopjklmnopqklmnopqrlmnopqrsmnopqrstnopqrstu",
);
const MILLION: Bytes = Repeated(b'a', 1_000_000);

/// NIST's examples to FIPS 180-4: one block, two blocks, and the long ones of FIPS 180-2.
pub const FIPS_180_4: &[Hashed] = &[
    hashed(
        ABC,
        "ba7816bf8f01cfea414140de5dae2223b00361a396177a9cb410ff61f20015ad",
    ),
    hashed(
        BITS_448,
        "248d6a61d20638b8e5c026930c3e6039a33ce45964ff2167f6ecedd419db06c1",
    ),
    hashed(
        BITS_896,
        "cf5b16a778af8380036ce59e7b0492370b249b11e8f07a51afac45037afee9d1",
    ),
    hashed(
        MILLION,
        "cdc76e5c9914fb9281a1c7e284d73e67f1809a48a497200e046d39ccc7112cd0",
    ),
];

/// NIST's examples to FIPS 202, of 0 and 1,600 bits, and those of FIPS 180 by SHA3.
pub const FIPS_202: &[Sponged] = &[
    sponged(
        Plain(b""),
        "6b4e03423667dbb73b6e15454f0eb1abd4597f9a1b078e3f5b5a6bc7",
        "a7ffc6f8bf1ed76651c14756a061d662f580ff4de43b49fa82d80a4b80f8434a",
    ),
    sponged(
        Repeated(0xA3, 200),
        "9376816aba503f72f96ce7eb65ac095deee3be4bf9bbc2a1cb7e11e0",
        "79f38adec5c20307a98ef76e8324afbfd46cfd81b22e3973c65fa1bd9de31787",
    ),
    sponged(
        ABC,
        "e642824c3f8cf24ad09234ee7d3c766fc9a3a5168d0c94ad73b46fdf",
        "3a985da74fe225b2045c172d6bd390bd855f086e3e9d525b46bfe24511431532",
    ),
    sponged(
        BITS_448,
        "8a24108b154ada21c9fd5574494479ba5c7e7ab76ef264ead0fcce33",
        "41c0dba2a9d6240849100376a8235e2c82e1b9998a999e21db32dd97496d3376",
    ),
    sponged(
        BITS_896,
        "543e6868e1666c1a643630df77367ae5a62a85070a51c14cbf665cbc",
        "916f6061fe879741ca6469b43971dfdb28b1a32dc36cb3254e812be27aad1d18",
    ),
    sponged(
        MILLION,
        "d69335b93325192e516a912e6d19a15cb51c6ed5c15243e7a7fd653c",
        "5c8875ae474a3634ba4fd55ec85bffd661f32aca75c6d699d0cdcb6c115891c1",
    ),
];

/// NIST's additional examples of SHA-256.
pub const NIST_ADDITIONAL: &[Hashed] = &[
    hashed(
        Plain(b"\xbd"),
        "68325720aabd7c82f30f554b313d0570c95accbb7dc4b5aae11204c08ffe732b",
    ),
    hashed(
        Plain(b"\xc9\x8c\x8e\x55"),
        "7abc22c0ae5af26ce93dbb94433a0e0b2e119d014f8e7f65bd56c61ccccd9504",
    ),
    hashed(
        Repeated(0, 55),
        "02779466cdec163811d078815c633f21901413081449002f24aa3e80f0b88ef7",
    ),
    hashed(
        Repeated(0, 56),
        "d4817aa5497628e7c77e6b606107042bbba3130888c5f47a375e6179be789fbb",
    ),
    hashed(
        Repeated(0, 57),
        "65a16cb7861335d5ace3c60718b5052e44660726da4cd13bb745381b235a1785",
    ),
    hashed(
        Repeated(0, 64),
        "f5a5fd42d16a20302798ef6ed309979b43003d2320d9f0e8ea9831a92759fb4b",
    ),
    hashed(
        Repeated(0, 1000),
        "541b3e9daa09b20bf85fa273e5cbd3e80185aa4ec298e765db87742b70138a53",
    ),
    hashed(
        Repeated(0x41, 1000),
        "c2e686823489ced2017f6059b8b239318b6364f6dcd835d0a519105a1eadd6e4",
    ),
    hashed(
        Repeated(0x55, 1005),
        "f4d62ddec0f3dd90ea1380fa16a5ff8dc4c54b21740650f24afc4120903552b0",
    ),
    hashed(
        Repeated(0, 1_000_000),
        "d29751f2649b32ff572b5e0a9f541ea660a50f94ff0beedfb0b692b924cc8025",
    ),
];

/// The first of NIST's validation system, SHA256ShortMsg: 0 to 8 bytes.
pub const NIST_SHORT: &[Hashed] = &[
    hashed(
        Plain(b""),
        "e3b0c44298fc1c149afbf4c8996fb92427ae41e4649b934ca495991b7852b855",
    ),
    hashed(
        Plain(b"\xd3"),
        "28969cdfa74a12c82f3bad960b0b000aca2ac329deea5c2328ebc6f2ba9802c1",
    ),
    hashed(
        Plain(b"\x11\xaf"),
        "5ca7133fa735326081558ac312c620eeca9970d1e70a4b95533d956f072d1f98",
    ),
    hashed(
        Plain(b"\xb4\x19\x0e"),
        "dff2e73091f6c05e528896c4c831b9448653dc2ff043528f6769437bc7b975c2",
    ),
    hashed(
        Plain(b"\x74\xba\x25\x21"),
        "b16aa56be3880d18cd41e68384cf1ec8c17680c45a02b1575dc1518923ae8b0e",
    ),
    hashed(
        Plain(b"\xc2\x99\x20\x96\x82"),
        "f0887fe961c9cd3beab957e8222494abb969b1ce4c6557976df8b0f6d20e9166",
    ),
    hashed(
        Plain(b"\xe1\xdc\x72\x4d\x56\x21"),
        "eca0a060b489636225b4fa64d267dabbe44273067ac679f20820bddc6b6a90ac",
    ),
    hashed(
        Plain(b"\x06\xe0\x76\xf5\xa4\x42\xd5"),
        "3fd877e27450e6bbd5d74bb82f9870c64c66e109418baa8e6bbcff355e287926",
    ),
    hashed(
        Plain(b"\x57\x38\xc9\x29\xc4\xf4\xcc\xb6"),
        "963bb88f27f512777aab6c8b1a02c70ec0ad651d428f870036e1917120fb48bf",
    ),
];

/// RFC 4231, cases 1 to 7; case 5 gives 128 bits.
pub const RFC_4231: &[Coded] = &[
    coded(
        Repeated(0x0b, 20),
        b"Hi There",
        "b0344c61d8db38535ca8afceaf0bf12b881dc200c9833da726e9376c2e32cff7",
    ),
    coded(
        Plain(b"Jefe"),
        b"what do ya want for nothing?",
        "5bdcc146bf60754e6a042426089575c75a003f089d2739839dec58b964ec3843",
    ),
    coded(
        Repeated(0xaa, 20),
        &[0xdd; 50],
        "773ea91e36800e46854db8ebd09181a72959098b3ef8c122d9635514ced565fe",
    ),
    coded(
        Counting(1, 25),
        &[0xcd; 50],
        "82558a389a443c0ea4cc819899f2083a85f0faa3e578f8077a2e3ff46729665b",
    ),
    coded(
        Repeated(0x0c, 20),
        b"Test With Truncation",
        "a3b6167473100ee06e0c796c2955552b",
    ),
    coded(
        Repeated(0xaa, 131),
        b"Test Using Larger Than Block-Size Key - Hash Key First",
        "60e431591ee0b67f0d8a26aacbf5b77f8e0bc6213728c5140546040f0ee37f54",
    ),
    coded(
        Repeated(0xaa, 131),
        b"This is a test using a larger than block-size key and a larger than block-size data. \
          The key needs to be hashed before being used by the HMAC algorithm.",
        "9b09ffa71b942fcb27635fbcd5b0e944bfdc63644f0713938a7f51535c3a35e2",
    ),
];

/// NIST's examples to FIPS 198-1: a key as long as a block, shorter, longer, and a code cut to 128
/// bits.
pub const FIPS_198_1: &[Coded] = &[
    coded(
        Counting(0, 63),
        b"Sample message for keylen=blocklen",
        "8bb9a1db9806f20df7f77b82138c7914d174d59e13dc4d0169c9057b133e1d62",
    ),
    coded(
        Counting(0, 31),
        b"Sample message for keylen<blocklen",
        "a28cf43130ee696a98f14a37678b56bcfcbdd9e5cf69717fecf5480f0ebdf790",
    ),
    coded(
        Counting(0, 99),
        b"Sample message for keylen=blocklen",
        "bdccb6c72ddeadb500ae768386cb38cc41c63dbb0878ddb9c7a38a431b78378d",
    ),
    coded(
        Counting(0, 48),
        b"Sample message for keylen<blocklen, with truncated tag",
        "27a8b157839efeac98df070b331d5936",
    ),
];

const KEY_128: &str = "2b7e151628aed2a6abf7158809cf4f3c";
const KEY_192: &str = "8e73b0f7da0e6452c810f32b809079e562f8ead2522c6b7b";
const KEY_256: &str = "603deb1015ca71be2b73aef0857d77811f352c073b6108d72d9810a30914dff4";
const BLOCK: &str = "00112233445566778899aabbccddeeff";

const fn enciphered(key: &'static str, block: &'static str, cipher: &'static str) -> Enciphered {
    Enciphered { key, block, cipher }
}

const fn keyed(key: &'static str, len: usize, code: &'static str) -> Keyed {
    Keyed { key, len, code }
}

/// FIPS 197: appendix B, and C.1 to C.3.
pub const FIPS_197: &[Enciphered] = &[
    enciphered(
        KEY_128,
        "3243f6a8885a308d313198a2e0370734",
        "3925841d02dc09fbdc118597196a0b32",
    ),
    enciphered(
        "000102030405060708090a0b0c0d0e0f",
        BLOCK,
        "69c4e0d86a7b0430d8cdb78070b4c55a",
    ),
    enciphered(
        "000102030405060708090a0b0c0d0e0f1011121314151617",
        BLOCK,
        "dda97ca4864cdfe06eaf70a0ec0d7191",
    ),
    enciphered(
        "000102030405060708090a0b0c0d0e0f101112131415161718191a1b1c1d1e1f",
        BLOCK,
        "8ea2b7ca516745bfeafc49904b496089",
    ),
];

/// NIST SP 800-38A, F.1: single blocks under keys of 128, 192 and 256 bits.
pub const SP_800_38A: &[Enciphered] = &[
    enciphered(
        KEY_128,
        "6bc1bee22e409f96e93d7e117393172a",
        "3ad77bb40d7a3660a89ecaf32466ef97",
    ),
    enciphered(
        KEY_128,
        "ae2d8a571e03ac9c9eb76fac45af8e51",
        "f5d3d58503b9699de785895a96fdbaaf",
    ),
    enciphered(
        KEY_128,
        "30c81c46a35ce411e5fbc1191a0a52ef",
        "43b1cd7f598ece23881b00e3ed030688",
    ),
    enciphered(
        KEY_128,
        "f69f2445df4f9b17ad2b417be66c3710",
        "7b0c785e27e8ad3f8223207104725dd4",
    ),
    enciphered(
        KEY_192,
        "6bc1bee22e409f96e93d7e117393172a",
        "bd334f1d6e45f25ff712a214571fa5cc",
    ),
    enciphered(
        KEY_192,
        "ae2d8a571e03ac9c9eb76fac45af8e51",
        "974104846d0ad3ad7734ecb3ecee4eef",
    ),
    enciphered(
        KEY_192,
        "30c81c46a35ce411e5fbc1191a0a52ef",
        "ef7afd2270e2e60adce0ba2face6444e",
    ),
    enciphered(
        KEY_192,
        "f69f2445df4f9b17ad2b417be66c3710",
        "9a4b41ba738d6c72fb16691603c18e0e",
    ),
    enciphered(
        KEY_256,
        "6bc1bee22e409f96e93d7e117393172a",
        "f3eed1bdb5d2a03c064b5a7e3db181f8",
    ),
    enciphered(
        KEY_256,
        "ae2d8a571e03ac9c9eb76fac45af8e51",
        "591ccb10d410ed26dc5ba74a31362870",
    ),
    enciphered(
        KEY_256,
        "30c81c46a35ce411e5fbc1191a0a52ef",
        "b6ed21b99ca6f4f9f153e7b1beafed1d",
    ),
    enciphered(
        KEY_256,
        "f69f2445df4f9b17ad2b417be66c3710",
        "23304b7a39f9f3ff067d8d8f9e24ecc7",
    ),
];

/// The message of RFC 4493 and of SP 800-38B's examples.
pub const SP_800_38_MESSAGE: &str = "6bc1bee22e409f96e93d7e117393172aae2d8a571e03ac9c9eb76fac45af8e51\
                                     30c81c46a35ce411e5fbc1191a0a52eff69f2445df4f9b17ad2b417be66c3710";

/// RFC 4493, 4, and NIST's examples to SP 800-38B of both editions.
pub const SP_800_38B: &[Keyed] = &[
    keyed(KEY_128, 0, "bb1d6929e95937287fa37d129b756746"),
    keyed(KEY_128, 16, "070a16b46b4d4144f79bdd9dd04a287c"),
    keyed(KEY_128, 20, "7d85449ea6ea19c823a7bf78837dfade"),
    keyed(KEY_128, 40, "dfa66747de9ae63030ca32611497c827"),
    keyed(KEY_128, 64, "51f0bebf7e3b9d92fc49741779363cfe"),
    keyed(KEY_192, 0, "d17ddf46adaacde531cac483de7a9367"),
    keyed(KEY_192, 16, "9e99a7bf31e710900662f65e617c5184"),
    keyed(KEY_192, 20, "3d75c194ed96070444a9fa7ec740ecf8"),
    keyed(KEY_192, 40, "8a1de5be2eb31aad089a82e6ee908b0e"),
    keyed(KEY_192, 64, "a1d5df0eed790f794d77589659f39a11"),
    keyed(KEY_256, 0, "028962f61b7bf89efc6b551f4667d983"),
    keyed(KEY_256, 16, "28a7023f452e8f82bd4bf28d8c37c35c"),
    keyed(KEY_256, 20, "156727dc0878944a023c1fe03bad6d93"),
    keyed(KEY_256, 40, "aaf3d8f1de5640c232f5b169b9c911e6"),
    keyed(KEY_256, 64, "e1992190549f6ed5696a2c056c315410"),
];
