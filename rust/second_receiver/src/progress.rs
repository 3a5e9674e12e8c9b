//! How far along each message is: the blocks gathered of it and those still to come (02, P9).

use crate::gather::{block_count, BLOCK_LEN};

/// What is gathered of the message of one DSM ID.
#[derive(Clone, Copy, Debug, PartialEq, Eq)]
pub struct Progress {
    /// The number of blocks held.
    pub held: u8,
    /// The number still missing of the total that block 0 tells; without block 0 the total is unknown.
    pub missing: Option<u8>,
}

impl Progress {
    /// Of the blocks held of a DSM ID, by block ID. A block 0 with a reserved NB, which no receiver holds, tells no block.
    pub fn of(blocks: [Option<&[u8; BLOCK_LEN]>; 16]) -> Progress {
        let held = blocks.iter().flatten().count() as u8;
        let total = blocks[0].map(|block_0| block_count(block_0).unwrap_or(0));
        Progress {
            held,
            missing: total.map(|total| total.saturating_sub(held)),
        }
    }
}
