//! DSM-PKR (crates/pkr).

use crate::public_keys::Pubkeys;
use crate::raw;

/// A complete DSM-PKR is judged by the installed root: 01's number, and whether it stops the receiver. A
/// key that it brings is then in `pubkeys`.
pub fn pkr_judge(pubkeys: &mut Pubkeys, root: &[u8], dsm: &[u8]) -> Option<(u32, bool)> {
    if !(91..=208).contains(&dsm.len()) {
        return None;
    }
    let (root, root_len) = (root.as_ptr(), root.len());
    let (dsm, dsm_len) = (dsm.as_ptr(), dsm.len());
    let mut again = pubkeys.clone();
    // SAFETY: each is lent with its length; lengths are as required.
    let (code, stops) = unsafe {
        let (one, other) = (pubkeys.0.as_mut_ptr(), again.0.as_mut_ptr());
        (
            raw::leaf_pkr_code(one, 1088, root, root_len, dsm, dsm_len),
            raw::leaf_pkr_stops(other, 1088, root, root_len, dsm, dsm_len),
        )
    };
    assert_eq!(*pubkeys, again);
    Some((code, stops == 1))
}
