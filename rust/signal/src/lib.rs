//! An OSNMA signal for the bench (000, v1.1; 01).
//!
//! The lower modules make the parts of a signal: key chains ([`chain`]), MACK sections ([`mack`]), DSM messages and
//! HKROOT sections ([`dsm`]), navigation words ([`navdata`]), the 75 bytes of a sub-frame ([`subframe`]). [`replay`]
//! writes them as records of the replay program, and [`scenario`] builds whole runs with what a receiver must answer.
//! [`air`] cuts such a recording into pages.
//!
//! A harness needs three calls: [`scenario::all`] for the named runs, [`scenario::random`] for a run from a seed, and
//! [`replay::Run::check`] to compare a replay program's answers with what the run intends.

#![forbid(unsafe_code)]
#![warn(missing_docs)]

pub mod air;
pub mod bits;
pub mod chain;
pub mod dsm;
pub mod mack;
pub mod navdata;
pub mod replay;
pub mod rng;
pub mod scenario;
pub mod subframe;
pub mod time;
