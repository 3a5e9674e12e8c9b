//! The gate and the second receiver's model of it side by side.
//!
//! - `twin`: the same event in both, and all that is compared after it;
//! - `watch`: what 02 says of any run, seen by the decisions alone;
//! - `histories`: long histories drawn at random, with a tally of what was reached.

#![allow(dead_code)]

pub mod histories;
pub mod twin;
pub mod watch;
