//! DSM-PKR: its fields, the tree check, and the checks of a complete one (000, 3.4, 5.2, 5.3; 01,
//! HKROOT).

use crate::gather::{least_count, BLOCK_LEN};
use crate::numbers::{Number, WRONG_NODES, WRONG_SIZE};
use crate::public_keys::{key_len, PublicKey};
use portable_hash::sha256;

pub const NODE_LEN: usize = 32;
/// Where the leaf begins: after NB, the message ID and four nodes.
const LEAF_AT: usize = 1 + 4 * NODE_LEN;
/// Bytes before the key.
const HEAD_LEN: usize = LEAF_AT + 1;

const EMERGENCY: u8 = 4;
const EMERGENCY_LEAST_COUNT: usize = 11;

/// What a proved DSM-PKR brings.
#[derive(Clone, Debug, PartialEq, Eq)]
pub enum Proved {
    Key(PublicKey),
    Emergency,
}

/// The root that a leaf and its four nodes give: the bits of the message ID, lowest first, say on
/// which side a node is joined; a 1 puts the node left (000, 5.3).
pub fn tree_root<'a>(
    message_id: u8,
    leaf: &[u8],
    nodes: impl Iterator<Item = &'a [u8]>,
) -> [u8; NODE_LEN] {
    nodes.enumerate().fold(sha256(leaf), |hash, (level, node)| {
        let left = message_id >> level & 1 == 1;
        sha256(&if left {
            [node, &hash].concat()
        } else {
            [&hash, node].concat()
        })
    })
}

/// The end of the leaf, or 6 if size or type or emergency ID is wrong.
fn leaf_end(dsm: &[u8]) -> Result<usize, Number> {
    let count = dsm.len() / BLOCK_LEN;
    // Under ten blocks there is no type to read, and every type would be 6 (A33).
    let &head = dsm.get(LEAF_AT).ok_or(WRONG_SIZE)?;
    let (key_type, id) = (head >> 4, head & 15);
    match key_len(key_type) {
        Some(len) if count == least_count(HEAD_LEN + len) => Ok(HEAD_LEN + len),
        // An emergency message's key runs to the last byte (A34).
        None if key_type == EMERGENCY && count >= EMERGENCY_LEAST_COUNT && id == 0 => Ok(dsm.len()),
        _ => Err(WRONG_SIZE),
    }
}

/// Checks 6 and 10 of a complete DSM-PKR.
pub fn judge(dsm: &[u8], installed_root: &[u8; NODE_LEN]) -> Result<Proved, Number> {
    let leaf = &dsm[LEAF_AT..leaf_end(dsm)?];
    let nodes = dsm[1..LEAF_AT].chunks_exact(NODE_LEN);
    if tree_root(dsm[0] & 15, leaf, nodes) != *installed_root {
        return Err(WRONG_NODES);
    }
    let (key_type, id) = (leaf[0] >> 4, leaf[0] & 15);
    if key_type == EMERGENCY {
        return Ok(Proved::Emergency);
    }
    Ok(Proved::Key(PublicKey {
        id,
        key_type,
        bytes: leaf[1..].to_vec(),
    }))
}
