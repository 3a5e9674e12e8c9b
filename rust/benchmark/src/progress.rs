//! How far along each message is, asked of cores that hold less or more.

use osnma::regions::{Regions, UNKNOWN_TOTAL};
use std::hint::black_box;

/// What is held.
pub const STORES: [&str; 3] = ["no block", "block 0 of each", "15 of 16 blocks of each"];

/// A core for one of them, and the pair of each DSM ID.
fn core(store: &str) -> Option<(Box<Regions>, [u8; 2])> {
    let mut core = Box::new(Regions::zeroed());
    // NB 10: 16 blocks.
    core.blocks.fill(0xA0);
    let (present, pair) = match store {
        "no block" => (0, [0, UNKNOWN_TOTAL]),
        "block 0 of each" => (1, [1, 15]),
        "15 of 16 blocks of each" => (0x7FFF, [15, 1]),
        _ => return None,
    };
    core.present.fill(present);
    Some((core, pair))
}

/// Asks so many times.
pub fn ask(store: &str, turns: u64) -> Option<Result<(), String>> {
    let (core, right) = core(store)?;
    for _ in 0..turns {
        let mut pairs = [[77; 2]; 16];
        let number = black_box(&core).view().progress(pairs.as_flattened_mut());
        if (number, pairs) != (0, [right; 16]) {
            return Some(Err(format!("{store}: {number} and {pairs:?}")));
        }
    }
    Some(Ok(()))
}
