//! The exports of crates/test_hash, crates/test_mac and crates/test_leaves as they are. A slice is a pointer and a count of
//! elements, an array a pointer alone.
//!
//! Safety, for all: each pointer is aligned and good for what it stands for, to read, and where it is
//! `*mut` also to write; what is written overlaps nothing else that is lent; and what the function's
//! `requires` asks holds. It stands in the source that is named over the functions.

#![allow(clippy::missing_safety_doc)]

extern "C" {
    // crates/test_hash: total, 1 where a length is not as it must be
    pub fn osnma_sha256(m: *const u8, m_count: usize, out: *mut u8, out_count: usize) -> u32;
    pub fn osnma_sha256_of_two(
        a: *const u8,
        a_count: usize,
        b: *const u8,
        b_count: usize,
        out: *mut u8,
        out_count: usize,
    ) -> u32;
    pub fn osnma_hmac(
        key: *const u8,
        key_count: usize,
        m: *const u8,
        m_count: usize,
        out: *mut u8,
        out_count: usize,
    ) -> u32;
    pub fn osnma_hmac_key(
        key: *const u8,
        key_count: usize,
        state: *mut u32,
        state_count: usize,
    ) -> u32;
    pub fn osnma_hmac_with(
        state: *const u32,
        state_count: usize,
        m: *const u8,
        m_count: usize,
        out: *mut u8,
        out_count: usize,
    ) -> u32;
    pub fn osnma_compress(h: *mut [u32; 8], block: *const [u8; 64]);
    pub fn osnma_sha3_224(m: *const u8, m_count: usize, out: *mut u8, out_count: usize) -> u32;
    pub fn osnma_sha3_256(m: *const u8, m_count: usize, out: *mut u8, out_count: usize) -> u32;
    pub fn osnma_keccak(s: *mut [u64; 25]);

    // crates/test_mac: total, 1 where a length is not as it must be; n is the length of the key that w is of
    pub fn osnma_aes_expand(
        key: *const u8,
        key_count: usize,
        out: *mut u8,
        out_count: usize,
    ) -> u32;
    pub fn osnma_aes_encrypt(
        n: usize,
        w: *const u8,
        w_count: usize,
        block: *const [u8; 16],
        out: *mut u8,
        out_count: usize,
    ) -> u32;
    pub fn osnma_cmac(
        key: *const u8,
        key_count: usize,
        m: *const u8,
        m_count: usize,
        out: *mut u8,
        out_count: usize,
    ) -> u32;
    pub fn osnma_cmac_key(key: *const u8, key_count: usize, kept: *mut [u8; 273]) -> u32;
    pub fn osnma_cmac_with(
        kept: *const [u8; 273],
        m: *const u8,
        m_count: usize,
        out: *mut u8,
        out_count: usize,
    ) -> u32;
    pub fn osnma_cmac_truncate(code: *mut [u8; 16], n: usize);

    // crates/test_leaves, of_times
    pub fn leaf_slot_seconds(ns: u64, nmack: u64, root: u64, m: u64) -> u64;

    // crates/test_leaves, of_navdata
    pub fn leaf_store_word(
        words: *mut u8,
        words_count: usize,
        stamps: *mut u32,
        stamps_count: usize,
        prn: usize,
        kind: usize,
        w: *const u8,
        w_count: usize,
        stamp: u32,
    );
    pub fn leaf_usable(
        words: *const u8,
        words_count: usize,
        stamps: *const u32,
        stamps_count: usize,
        prn: usize,
        t: u32,
    ) -> u32;
    pub fn leaf_set_bytes(
        words: *const u8,
        words_count: usize,
        prn: usize,
        out: *mut u8,
        out_count: usize,
        to: usize,
    );
    pub fn leaf_set_of(words: *const u8, words_count: usize, prn: usize, out: *mut [u8; 69]);
    pub fn leaf_set_issue(set: *const u8, set_count: usize) -> u16;
    pub fn leaf_status_and_set(
        status: u8,
        set: *const u8,
        set_count: usize,
        out: *mut u8,
        out_count: usize,
        to: usize,
    );

    // crates/test_leaves, of_public_keys
    pub fn leaf_add_key(
        pubkeys: *mut u8,
        pubkeys_count: usize,
        id: u8,
        kind: u8,
        key: *const u8,
        key_count: usize,
    );

    // crates/test_leaves, of_kroot
    pub fn leaf_kroot_judge(
        pubkeys: *const u8,
        pubkeys_count: usize,
        config: *const u8,
        config_count: usize,
        offer: *mut u8,
        offer_count: usize,
        header: u8,
        d: *const u8,
        d_count: usize,
    ) -> u32;

    // crates/test_leaves, of_pkr
    pub fn leaf_pkr_code(
        pubkeys: *mut u8,
        pubkeys_count: usize,
        root: *const u8,
        root_count: usize,
        d: *const u8,
        d_count: usize,
    ) -> u32;
    pub fn leaf_pkr_stops(
        pubkeys: *mut u8,
        pubkeys_count: usize,
        root: *const u8,
        root_count: usize,
        d: *const u8,
        d_count: usize,
    ) -> u32;

    // crates/test_leaves, of_chain: the walk is total, 1 where a number is out of range
    pub fn osnma_walk(
        ns: u64,
        nmack: u64,
        root: u64,
        alpha: *const [u8; 6],
        hf: u8,
        width: usize,
        n: u64,
        m: u64,
        key: *mut [u8; 32],
    ) -> u32;
    pub fn leaf_key_fits(
        ns: u64,
        nmack: u64,
        root: u64,
        alpha: *const [u8; 6],
        hf: u8,
        width: usize,
        slot: u64,
        known: *const [u8; 32],
        sent: u64,
        key: *const [u8; 32],
    ) -> u32;

    // crates/test_leaves, of_tag_codes
    pub fn leaf_mac_bits(
        mf: u8,
        n: usize,
        key: *const u8,
        key_count: usize,
        message: *const u8,
        message_count: usize,
    ) -> u64;
    pub fn leaf_tag_matches(
        mf: u8,
        ms: u64,
        key: *const u8,
        key_count: usize,
        first: u32,
        sender: u8,
        prn: u8,
        position: u8,
        time: u32,
        status: u8,
        bits: u64,
        set: *const u8,
        set_count: usize,
    ) -> u32;
}
