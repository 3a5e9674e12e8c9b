//! The exports of crates/osnma_c as they are (`include/osnma.h`). A call is lent the regions that it
//! reads or writes, each a pointer and a count of elements, in the order of
//! crates/rules/specs/State.antt. Each call is total: a count that is
//! not right is answered 1, and no contents, argument or count makes a call leave the memory that
//! it is lent. Nothing is kept after a call.
//!
//! Safety, for all: each pointer is aligned and good for the count beside it (for one element where
//! there is none), to read, and where it is `*mut` also to write; what is written overlaps nothing
//! else that is lent.

extern "C" {
    /// The number of the layout, which is also its name's.
    pub fn osnma_layout_2() -> u32;

    pub fn osnma_regions_start(
        config: *mut u8,
        config_count: usize,
        clocks: *mut u32,
        clocks_count: usize,
        words: *mut u8,
        words_count: usize,
        stamps: *mut u32,
        stamps_count: usize,
        blocks: *mut u8,
        blocks_count: usize,
        headers: *mut u8,
        headers_count: usize,
        present: *mut u16,
        present_count: usize,
        since: *mut u32,
        since_count: usize,
        pubkeys: *mut u8,
        pubkeys_count: usize,
        offer: *mut u8,
        offer_count: usize,
        chain: *mut u8,
        chain_count: usize,
        numbers: *mut u64,
        numbers_count: usize,
        heldkey: *mut u8,
        heldkey_count: usize,
        waiting: *mut u8,
        waiting_count: usize,
        sets: *mut u8,
        sets_count: usize,
        arrivals: *mut u32,
        arrivals_count: usize,
        ns: u8,
        id: u8,
        kind: u8,
        maclt: u8,
        marks: *const u8,
        marks_count: usize,
        root: *const u8,
        root_count: usize,
        pubkey: *const u8,
        pubkey_count: usize,
    ) -> u32;

    pub fn osnma_regions_word(
        config: *const u8,
        config_count: usize,
        clocks: *mut u32,
        clocks_count: usize,
        words: *mut u8,
        words_count: usize,
        stamps: *mut u32,
        stamps_count: usize,
        prn: u8,
        time: u32,
        bytes: *const u8,
        bytes_count: usize,
    ) -> u32;

    pub fn osnma_regions_subframe(
        config: *mut u8,
        config_count: usize,
        clocks: *mut u32,
        clocks_count: usize,
        words: *const u8,
        words_count: usize,
        stamps: *const u32,
        stamps_count: usize,
        blocks: *mut u8,
        blocks_count: usize,
        headers: *mut u8,
        headers_count: usize,
        present: *mut u16,
        present_count: usize,
        since: *mut u32,
        since_count: usize,
        pubkeys: *mut u8,
        pubkeys_count: usize,
        offer: *mut u8,
        offer_count: usize,
        chain: *const u8,
        chain_count: usize,
        numbers: *mut u64,
        numbers_count: usize,
        heldkey: *mut u8,
        heldkey_count: usize,
        waiting: *mut u8,
        waiting_count: usize,
        sets: *mut u8,
        sets_count: usize,
        arrivals: *mut u32,
        arrivals_count: usize,
        area: *mut u8,
        area_count: usize,
        prn: u8,
        time: u32,
        marks: u16,
        bytes: *const u8,
        bytes_count: usize,
        hkroot: *mut u32,
        mack: *mut u32,
    ) -> u32;

    pub fn osnma_regions_verdict(
        config: *const u8,
        config_count: usize,
        pubkeys: *mut u8,
        pubkeys_count: usize,
        offer: *mut u8,
        offer_count: usize,
        chain: *mut u8,
        chain_count: usize,
        numbers: *mut u64,
        numbers_count: usize,
        heldkey: *mut u8,
        heldkey_count: usize,
        waiting: *mut u8,
        waiting_count: usize,
        arrivals: *mut u32,
        arrivals_count: usize,
        good: u8,
        id: u8,
        message: *const u8,
        message_count: usize,
        signature: *const u8,
        signature_count: usize,
    ) -> u32;

    pub fn osnma_regions_read_set(
        sets: *const u8,
        sets_count: usize,
        arrivals: *const u32,
        arrivals_count: usize,
        prn: u8,
        out: *mut u8,
        out_count: usize,
        issue: *mut u16,
        time: *mut u32,
    ) -> u32;

    pub fn osnma_regions_four(
        clocks: *const u32,
        clocks_count: usize,
        arrivals: *const u32,
        arrivals_count: usize,
        limit: u32,
        yes: *mut u8,
    ) -> u32;

    pub fn osnma_regions_read_message(
        pubkeys: *const u8,
        pubkeys_count: usize,
        offer: *const u8,
        offer_count: usize,
        message: *mut u8,
        message_count: usize,
        signature: *mut u8,
        signature_count: usize,
        pubkey: *mut u8,
        pubkey_count: usize,
        id: *mut u8,
        kind: *mut u8,
    ) -> u32;

    pub fn osnma_regions_progress(
        blocks: *const u8,
        blocks_count: usize,
        present: *const u16,
        present_count: usize,
        out: *mut u8,
        out_count: usize,
    ) -> u32;
}
