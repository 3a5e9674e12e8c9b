//! DSM-KROOT (crates/kroot).

use crate::public_keys::Pubkeys;
use crate::raw;
use crate::tags::Config;

/// A complete DSM-KROOT that came under `header` is judged under these settings: 01's number. What then
/// waits for a verdict is in `offer`.
pub fn kroot_judge(
    pubkeys: &Pubkeys,
    config: &Config,
    offer: &mut [u8; 179],
    header: u8,
    dsm: &[u8],
) -> Option<u32> {
    let (offer, offer_len) = (offer.as_mut_ptr(), offer.len());
    // SAFETY: each region is lent with its length; lengths are as required.
    (91 <= dsm.len()).then(|| unsafe {
        raw::leaf_kroot_judge(
            pubkeys.0.as_ptr(),
            pubkeys.0.len(),
            config.as_ptr(),
            config.len(),
            offer,
            offer_len,
            header,
            dsm.as_ptr(),
            dsm.len(),
        )
    })
}
