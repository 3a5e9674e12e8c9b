//! The proved leaves of the core, for tests and measurements: safe calls over the regions that the core lends them.
//!
//! A module is called as the crate whose functions it has. Each call tests what its leaf requires, and
//! gives `None` where that does not hold; lengths hold by the regions' types. What a leaf gives is said by
//! its contract in crates/test_leaves, for the hashes in crates/test_hash, and for AES and CMAC in
//! crates/test_mac.

#[doc(hidden)]
pub mod raw;

pub mod chain;
pub mod hash;
pub mod kroot;
pub mod mac;
pub mod navdata;
pub mod pkr;
pub mod public_keys;
pub mod tag_codes;
pub mod tags;
pub mod times;
pub mod vectors;
