//! BearSSL's AES: `aes_ct64`, which takes the same time for every key and block, and `aes_big`, which has a
//! table. It has no CMAC of its own; CMAC is made here of its CBC-MAC (SP 800-38B, 6).

use crate::mac::{Block, Contender, Kind, Row};
use std::ffi::c_void;

/// Room for any of its contexts (build.rs checks that this is enough).
#[repr(C, align(16))]
struct Context([u8; 512]);

extern "C" {
    fn br_aes_ct64_ctrcbc_init(context: *mut Context, key: *const c_void, len: usize);
    fn br_aes_ct64_ctrcbc_mac(
        context: *const Context,
        mac: *mut c_void,
        data: *const c_void,
        len: usize,
    );
    fn br_aes_big_ctrcbc_init(context: *mut Context, key: *const c_void, len: usize);
    fn br_aes_big_ctrcbc_mac(
        context: *const Context,
        mac: *mut c_void,
        data: *const c_void,
        len: usize,
    );
}

/// One of the two.
#[derive(Clone, Copy)]
struct Aes {
    init: unsafe extern "C" fn(*mut Context, *const c_void, usize),
    mac: unsafe extern "C" fn(*const Context, *mut c_void, *const c_void, usize),
}

const WITH_CT64: Aes = Aes {
    init: br_aes_ct64_ctrcbc_init,
    mac: br_aes_ct64_ctrcbc_mac,
};

const WITH_BIG: Aes = Aes {
    init: br_aes_big_ctrcbc_init,
    mac: br_aes_big_ctrcbc_mac,
};

/// A block times x.
fn doubled(block: Block) -> Block {
    let number = u128::from_be_bytes(block);
    ((number << 1) ^ ((number >> 127) * 0x87)).to_be_bytes()
}

struct Key {
    aes: Aes,
    context: Context,
    k1: Block,
    k2: Block,
}

impl Key {
    fn new(aes: Aes, key: &[u8]) -> Key {
        let mut context = Context([0; 512]);
        // SAFETY: the context has room, and the key is lent with its length.
        unsafe { (aes.init)(&mut context, key.as_ptr().cast(), key.len()) };
        let zero = [0; 16];
        let mut keyed = Key {
            aes,
            context,
            k1: zero,
            k2: zero,
        };
        keyed.k1 = doubled(keyed.chained(zero, &zero));
        keyed.k2 = doubled(keyed.k1);
        keyed
    }

    /// CBC-MAC of whole blocks from a value on.
    fn chained(&self, mut value: Block, blocks: &[u8]) -> Block {
        // SAFETY: the context is keyed; the value is a block, and whole blocks are lent with their length.
        unsafe {
            (self.aes.mac)(
                &self.context,
                value.as_mut_ptr().cast(),
                blocks.as_ptr().cast(),
                blocks.len(),
            )
        };
        value
    }

    fn mac(&self, message: &[u8]) -> Block {
        let whole = message.len().saturating_sub(1) / 16 * 16;
        let (blocks, rest) = message.split_at(whole);
        let mut last = if rest.len() == 16 { self.k1 } else { self.k2 };
        last.iter_mut()
            .zip(rest)
            .for_each(|(byte, own)| *byte ^= own);
        if rest.len() < 16 {
            last[rest.len()] ^= 0x80;
        }
        self.chained(self.chained([0; 16], blocks), &last)
    }
}

fn run(aes: Aes, row: Row, n: u64) -> Block {
    let kept = Key::new(aes, row.key());
    match row.kind {
        Kind::Block => row.blocks(n, |block| kept.chained([0; 16], block)),
        Kind::TagNewKey => row.tags_new(n, |key, message| Key::new(aes, key).mac(message)),
        Kind::TagKeptKey => row.tags_kept(n, |message| kept.mac(message)),
    }
}

pub const CT64: Contender = Contender {
    name: "bearssl-ct64",
    run: |row, n| run(WITH_CT64, row, n),
};

pub const BIG: Contender = Contender {
    name: "bearssl-big",
    run: |row, n| run(WITH_BIG, row, n),
};
