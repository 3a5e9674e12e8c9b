//! OpenSSL's SHA-256, HMAC and SHA3, by the calls that keep the least between messages.

use crate::hash::{
    tags_kept, tags_new, words_to_bytes, Contender, Row, BLOCK, INITIAL, KEY, SHA3_BLOCK,
};
use std::ffi::{c_char, c_int, c_uint, c_void, CStr};
use std::ptr::{null, null_mut};

/// OpenSSL's SHA256_CTX: the hash value, and what a block alone does not touch.
#[repr(C)]
pub struct Context {
    pub h: [u32; 8],
    rest: [u32; 20],
}

extern "C" {
    fn SHA256_Transform(context: *mut Context, block: *const u8);
    fn EVP_sha256() -> *const c_void;
    fn HMAC(
        hash: *const c_void,
        key: *const c_void,
        key_len: c_int,
        message: *const u8,
        message_len: usize,
        out: *mut u8,
        out_len: *mut c_uint,
    ) -> *mut u8;
    fn HMAC_CTX_new() -> *mut c_void;
    fn HMAC_CTX_free(context: *mut c_void);
    fn HMAC_Init_ex(
        context: *mut c_void,
        key: *const c_void,
        key_len: c_int,
        hash: *const c_void,
        engine: *mut c_void,
    ) -> c_int;
    fn HMAC_Update(context: *mut c_void, data: *const u8, len: usize) -> c_int;
    fn HMAC_Final(context: *mut c_void, out: *mut u8, out_len: *mut c_uint) -> c_int;
    fn EVP_MD_fetch(
        library: *mut c_void,
        name: *const c_char,
        properties: *const c_char,
    ) -> *mut c_void;
    fn EVP_MD_free(method: *mut c_void);
    fn EVP_MD_CTX_new() -> *mut c_void;
    fn EVP_MD_CTX_free(context: *mut c_void);
    fn EVP_DigestInit_ex(context: *mut c_void, method: *const c_void, engine: *mut c_void)
        -> c_int;
    fn EVP_DigestUpdate(context: *mut c_void, data: *const c_void, len: usize) -> c_int;
    fn EVP_DigestFinal_ex(context: *mut c_void, out: *mut u8, out_len: *mut c_uint) -> c_int;
}

/// SHA3 with a method that is fetched once, and one context for all messages.
pub struct Sha3 {
    method: *mut c_void,
    context: *mut c_void,
}

impl Sha3 {
    /// By OpenSSL's name of the hash.
    pub fn new(name: &CStr) -> Sha3 {
        // SAFETY: the name ends in a zero byte; both pointers are freed where this is dropped.
        unsafe {
            Sha3 {
                method: EVP_MD_fetch(null_mut(), name.as_ptr(), null()),
                context: EVP_MD_CTX_new(),
            }
        }
    }

    /// The digest of a message of parts; a digest of 28 bytes has zeros after it.
    pub fn digest<'a>(&mut self, parts: impl IntoIterator<Item = &'a [u8]>) -> [u8; 32] {
        let mut out = [0; 32];
        // SAFETY: each part is lent with its length, and `out` has room for both digests.
        unsafe {
            EVP_DigestInit_ex(self.context, self.method, null_mut());
            for part in parts {
                EVP_DigestUpdate(self.context, part.as_ptr().cast(), part.len());
            }
            EVP_DigestFinal_ex(self.context, out.as_mut_ptr(), null_mut());
        }
        out
    }
}

impl Drop for Sha3 {
    fn drop(&mut self) {
        // SAFETY: they are from `new`, and not used any more.
        unsafe {
            EVP_MD_CTX_free(self.context);
            EVP_MD_free(self.method);
        }
    }
}

impl Context {
    pub fn new() -> Context {
        Context {
            h: INITIAL,
            rest: [0; 20],
        }
    }

    /// One block into the hash value.
    pub fn transform(&mut self, block: &[u8; 64]) {
        // SAFETY: this is OpenSSL's SHA256_CTX (112 bytes, checked by build.rs).
        unsafe { SHA256_Transform(self, block.as_ptr()) };
    }
}

fn block(n: u64) -> [u8; 32] {
    let mut context = Context::new();
    for _ in 0..n {
        context.transform(&BLOCK);
    }
    words_to_bytes(&context.h)
}

fn tag_new(n: u64) -> [u8; 32] {
    tags_new(n, |key, message| {
        let mut out = [0; 32];
        // SAFETY: key and message are lent with their lengths, `out` has 32 bytes.
        unsafe {
            HMAC(
                EVP_sha256(),
                key.as_ptr().cast(),
                key.len() as c_int,
                message.as_ptr(),
                message.len(),
                out.as_mut_ptr(),
                null_mut(),
            )
        };
        out
    })
}

fn tag_kept(n: u64) -> [u8; 32] {
    // SAFETY: a context is made, keyed once, used as OpenSSL's manual says, and freed.
    unsafe {
        let context = HMAC_CTX_new();
        HMAC_Init_ex(
            context,
            KEY.as_ptr().cast(),
            KEY.len() as c_int,
            EVP_sha256(),
            null_mut(),
        );
        let last = tags_kept(n, |message| {
            let mut out = [0; 32];
            HMAC_Init_ex(context, null(), 0, null(), null_mut());
            HMAC_Update(context, message.as_ptr(), message.len());
            HMAC_Final(context, out.as_mut_ptr(), null_mut());
            out
        });
        HMAC_CTX_free(context);
        last
    }
}

pub const OPENSSL: Contender = Contender {
    name: "openssl",
    run: |row, n| {
        Some(match row {
            Row::Block => block(n),
            Row::TagNewKey => tag_new(n),
            Row::TagKeptKey => tag_kept(n),
            Row::Sha3Block => Sha3::new(c"SHA3-256").digest((0..n).map(|_| &SHA3_BLOCK[..])),
        })
    },
};
