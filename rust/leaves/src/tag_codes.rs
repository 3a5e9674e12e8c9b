//! The codes of tags (crates/mac, crates/tag_codes), by the function that MF names.

use crate::raw;
use crate::tags::Tag;

/// The longest key of a chain.
const KEY_LIMIT: usize = 32;

/// The first n bits of the code of a message under a key.
pub fn mac_bits(mf: u8, n: usize, key: &[u8], message: &[u8]) -> Option<u64> {
    // SAFETY: the slices are lent with their lengths; the ranges are as required.
    (n <= 56 && message.len() <= 76 && key.len() <= KEY_LIMIT).then(|| unsafe {
        raw::leaf_mac_bits(
            mf,
            n,
            key.as_ptr(),
            key.len(),
            message.as_ptr(),
            message.len(),
        )
    })
}

/// Whether a tag of `ms` bits matches a set under a key; `first` for tag0, whose message has no PRN_N.
pub fn tag_matches(
    mf: u8,
    ms: u64,
    key: &[u8],
    first: bool,
    tag: &Tag,
    set: &[u8; 69],
) -> Option<bool> {
    // SAFETY: as above.
    (ms <= 40 && key.len() <= KEY_LIMIT).then(|| unsafe {
        raw::leaf_tag_matches(
            mf,
            ms,
            key.as_ptr(),
            key.len(),
            first.into(),
            tag.sender,
            tag.prn,
            tag.position,
            tag.time,
            tag.status,
            tag.bits,
            set.as_ptr(),
            set.len(),
        ) == 1
    })
}
