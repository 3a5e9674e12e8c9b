//! A second receiver of Galileo OSNMA (SIS testing specification v1.1), written from the papers
//! alone.
//!
//! "01" in a comment is the scope document, "02" the change requests, "000" the OSNMA
//! specification, "A<n>" and "B<n>" entries of the adopted readings. One module a topic, each rule
//! in one place:
//!
//! - `numbers`: the numbers that calls return;
//! - `received`: which fields of a sub-frame came;
//! - `bits`: bit strings read from and written to bytes;
//! - `times`: GST_SF, seconds, key slots;
//! - `navdata`: I/NAV words 1 to 5 of each satellite and the 549 authenticated bits;
//! - `gather`: DSM blocks gathered into whole messages;
//! - `public_keys`: the public keys held;
//! - `kroot`, `pkr`: the two kinds of DSM, read and judged;
//! - `hash`: the hash functions that a root can name;
//! - `mac`: the MAC functions that a root can name;
//! - `chain`: the TESLA chain in force and its key walk;
//! - `verdict`: the message that waits and what a verdict on it does;
//! - `mack`: the layout of a MACK section, what of it is missing, and the check of its keys;
//! - `sets`: authentic sets and candidates;
//! - `four`: how recent the tags of authentic sets are;
//! - `progress`: how far along each message is;
//! - `tags`: MACSEQ, tag outcomes, waiting tags, tag records;
//! - `receiver`: the calls of 01 over the whole state;
//! - `valves`: the boom's valve gate, above the receiver, from its answers alone;
//! - `replay`: the replay program's format.

#![forbid(unsafe_code)]

pub mod bits;
pub mod chain;
pub mod four;
pub mod gather;
pub mod hash;
pub mod kroot;
pub mod mac;
pub mod mack;
pub mod navdata;
pub mod numbers;
pub mod pkr;
pub mod progress;
pub mod public_keys;
pub mod received;
pub mod receiver;
pub mod replay;
pub mod sets;
pub mod tags;
pub mod times;
pub mod valves;
pub mod verdict;

pub use receiver::{Receiver, SetAnswer, SubframeAnswer, WaitingAnswer};
