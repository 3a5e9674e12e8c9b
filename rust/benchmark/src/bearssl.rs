//! BearSSL's SHA-256 and HMAC. Its one-block function is an inner one of the static library.

use crate::hash::{tags_kept, tags_new, words_to_bytes, Contender, Row, BLOCK, INITIAL, KEY};
use std::ffi::c_void;

/// Room for any of its contexts (build.rs checks that this is enough).
#[repr(C, align(16))]
struct Context([u8; 1024]);

#[repr(C)]
struct HashClass {
    _private: [u8; 0],
}

extern "C" {
    static br_sha256_vtable: HashClass;
    fn br_sha2small_round(block: *const u8, value: *mut u32);
    fn br_hmac_key_init(
        context: *mut Context,
        hash: *const HashClass,
        key: *const c_void,
        key_len: usize,
    );
    fn br_hmac_init(context: *mut Context, key: *const Context, out_len: usize);
    fn br_hmac_update(context: *mut Context, data: *const c_void, len: usize);
    fn br_hmac_out(context: *const Context, out: *mut c_void) -> usize;
}

fn block(n: u64) -> [u8; 32] {
    let mut value = INITIAL;
    for _ in 0..n {
        // SAFETY: a block of 64 bytes and a value of 8 words.
        unsafe { br_sha2small_round(BLOCK.as_ptr(), value.as_mut_ptr()) };
    }
    words_to_bytes(&value)
}

fn keyed(kept: &mut Context, key: &[u8]) {
    // SAFETY: the context has room, and the key is lent with its length.
    unsafe {
        br_hmac_key_init(
            kept,
            &raw const br_sha256_vtable,
            key.as_ptr().cast(),
            key.len(),
        )
    }
}

fn mac(kept: &Context, context: &mut Context, message: &[u8]) -> [u8; 32] {
    let mut out = [0; 32];
    // SAFETY: both contexts have room, `kept` is keyed, and the message is lent with its length.
    unsafe {
        br_hmac_init(context, kept, 0);
        br_hmac_update(context, message.as_ptr().cast(), message.len());
        br_hmac_out(context, out.as_mut_ptr().cast());
    }
    out
}

fn tag_new(n: u64) -> [u8; 32] {
    let (mut kept, mut context) = (Context([0; 1024]), Context([0; 1024]));
    tags_new(n, |key, message| {
        keyed(&mut kept, key);
        mac(&kept, &mut context, message)
    })
}

fn tag_kept(n: u64) -> [u8; 32] {
    let (mut kept, mut context) = (Context([0; 1024]), Context([0; 1024]));
    keyed(&mut kept, &KEY);
    tags_kept(n, |message| mac(&kept, &mut context, message))
}

pub const BEARSSL: Contender = Contender {
    name: "bearssl",
    run: |row, n| match row {
        Row::Block => Some(block(n)),
        Row::TagNewKey => Some(tag_new(n)),
        Row::TagKeptKey => Some(tag_kept(n)),
        Row::Sha3Block => None,
    },
};
