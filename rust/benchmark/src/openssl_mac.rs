//! OpenSSL's AES and CMAC, by the calls that reach its fastest code (AES-NI where the machine has it) and
//! keep the least between messages.

use crate::mac::{Block, Contender, Kind, Row};
use std::ffi::{c_int, c_void};
use std::ptr::{null, null_mut};

extern "C" {
    fn EVP_aes_128_ecb() -> *const c_void;
    fn EVP_aes_192_ecb() -> *const c_void;
    fn EVP_aes_256_ecb() -> *const c_void;
    fn EVP_aes_128_cbc() -> *const c_void;
    fn EVP_aes_192_cbc() -> *const c_void;
    fn EVP_aes_256_cbc() -> *const c_void;
    fn EVP_CIPHER_CTX_new() -> *mut c_void;
    fn EVP_CIPHER_CTX_free(context: *mut c_void);
    fn EVP_EncryptInit_ex(
        context: *mut c_void,
        cipher: *const c_void,
        engine: *mut c_void,
        key: *const u8,
        iv: *const u8,
    ) -> c_int;
    fn EVP_EncryptUpdate(
        context: *mut c_void,
        out: *mut u8,
        out_len: *mut c_int,
        data: *const u8,
        len: c_int,
    ) -> c_int;
    fn CMAC_CTX_new() -> *mut c_void;
    fn CMAC_CTX_free(context: *mut c_void);
    fn CMAC_Init(
        context: *mut c_void,
        key: *const c_void,
        key_len: usize,
        cipher: *const c_void,
        engine: *mut c_void,
    ) -> c_int;
    fn CMAC_Update(context: *mut c_void, data: *const c_void, len: usize) -> c_int;
    fn CMAC_Final(context: *mut c_void, out: *mut u8, out_len: *mut usize) -> c_int;
}

/// The cipher for keys of so many bits: for single blocks, or as CMAC takes it.
fn cipher(bits: usize, chained: bool) -> *const c_void {
    // SAFETY: these give constants.
    unsafe {
        match (bits, chained) {
            (128, false) => EVP_aes_128_ecb(),
            (192, false) => EVP_aes_192_ecb(),
            (_, false) => EVP_aes_256_ecb(),
            (128, true) => EVP_aes_128_cbc(),
            (192, true) => EVP_aes_192_cbc(),
            (_, true) => EVP_aes_256_cbc(),
        }
    }
}

fn blocks(row: Row, n: u64) -> Block {
    // SAFETY: a context is made, keyed once, used as OpenSSL's manual says, and freed. A whole block in
    // gives a whole block out.
    unsafe {
        let context = EVP_CIPHER_CTX_new();
        let (cipher, key) = (cipher(row.bits, false), row.key());
        EVP_EncryptInit_ex(context, cipher, null_mut(), key.as_ptr(), null());
        let last = row.blocks(n, |block| {
            let (mut out, mut len) = ([0; 32], 0);
            EVP_EncryptUpdate(context, out.as_mut_ptr(), &mut len, block.as_ptr(), 16);
            let mut block = [0; 16];
            block.copy_from_slice(&out[..16]);
            block
        });
        EVP_CIPHER_CTX_free(context);
        last
    }
}

/// The code of a message in a context that is keyed.
///
/// SAFETY: it is.
unsafe fn mac(context: *mut c_void, message: &[u8]) -> Block {
    let mut out = [0; 16];
    let mut len = 0;
    CMAC_Update(context, message.as_ptr().cast(), message.len());
    CMAC_Final(context, out.as_mut_ptr(), &mut len);
    out
}

fn tags(row: Row, n: u64) -> Block {
    let cipher = cipher(row.bits, true);
    // SAFETY: a context is made, keyed before each use or begun anew, used as OpenSSL's manual says, and
    // freed; keys and messages are lent with their lengths.
    unsafe {
        let context = CMAC_CTX_new();
        let init =
            |key: &[u8]| CMAC_Init(context, key.as_ptr().cast(), key.len(), cipher, null_mut());
        let last = if row.kind == Kind::TagNewKey {
            row.tags_new(n, |key, message| {
                init(key);
                mac(context, message)
            })
        } else {
            init(row.key());
            row.tags_kept(n, |message| {
                CMAC_Init(context, null(), 0, null(), null_mut());
                mac(context, message)
            })
        };
        CMAC_CTX_free(context);
        last
    }
}

pub const OPENSSL: Contender = Contender {
    name: "openssl",
    run: |row, n| match row.kind {
        Kind::Block => blocks(row, n),
        Kind::TagNewKey | Kind::TagKeptKey => tags(row, n),
    },
};
