//! The core and the second receiver side by side.
//!
//! - `expected`: what every region must hold, by the second receiver's state;
//! - `twin`: the same call into both, and all that is compared after it;
//! - `loose`: calls with one lent length wrong;
//! - `draw`: calls drawn at random, valid ones and ones to be refused;
//! - `stamps`: clocks and arrivals of any contents, asked whether four tags are recent;
//! - `stores`: blocks and marks of any contents, asked how far along each message is;
//! - `driver`: long sequences of them from many states, with a tally of the answers.

#![allow(dead_code)]

pub mod draw;
pub mod driver;
pub mod expected;
pub mod loose;
pub mod stamps;
pub mod stores;
pub mod twin;
