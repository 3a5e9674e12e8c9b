//! DSM blocks, gathered per DSM ID from all satellites (01, HKROOT).

use crate::bits::take;
use crate::numbers::{Number, WRONG_SIZE};
use crate::times::Gst;

pub const HKROOT_LEN: usize = 15;
pub const BLOCK_LEN: usize = 13;
const MAX_AGE: u64 = 3_600;

/// The HKROOT section of a sub-frame.
#[derive(Clone, Copy, Debug, PartialEq, Eq)]
pub struct Hkroot {
    /// The NMA header byte.
    pub header: u8,
    pub dsm_id: u8,
    pub block_id: u8,
    pub block: [u8; BLOCK_LEN],
}

impl Hkroot {
    pub fn read(bytes: &[u8; HKROOT_LEN]) -> Hkroot {
        let mut block = [0; BLOCK_LEN];
        block.copy_from_slice(&bytes[2..]);
        Hkroot {
            header: bytes[0],
            dsm_id: bytes[1] >> 4,
            block_id: bytes[1] & 15,
            block,
        }
    }
}

/// The NMA status of a header byte: bits 0 and 1.
pub fn nma_status(header: u8) -> u8 {
    header >> 6
}

/// The CID of a header byte: bits 2 and 3.
pub fn header_cid(header: u8) -> u8 {
    header >> 4 & 3
}

/// The number of blocks that NB, the first four bits of block 0, stands for: 1 to 10 mean 7 to 16.
pub fn block_count(block_0: &[u8; BLOCK_LEN]) -> Option<u8> {
    match take(block_0, 0, 4) as u8 {
        nb @ 1..=10 => Some(nb + 6),
        _ => None,
    }
}

/// The least number of blocks, not under 7, that fits a message of `len` bytes (000, table 8).
pub fn least_count(len: usize) -> usize {
    len.div_ceil(BLOCK_LEN).max(7)
}

/// A block and the sub-frame in which it first came.
#[derive(Clone, Debug, PartialEq, Eq)]
pub struct TimedBlock {
    pub bytes: [u8; BLOCK_LEN],
    pub time: Gst,
}

/// The blocks stored under one DSM ID.
#[derive(Clone, Debug, Default, PartialEq, Eq)]
pub struct DsmStore {
    /// The NMA header that all these blocks came with; `None` if no block is stored.
    pub header: Option<u8>,
    pub blocks: [Option<TimedBlock>; 16],
}

impl DsmStore {
    /// The blocks present, marked in sixteen bits: block 0 is the lowest.
    pub fn present(&self) -> u16 {
        (0..16)
            .filter(|&id| self.blocks[id].is_some())
            .fold(0, |present, id| present | 1 << id)
    }

    /// The number of blocks told by the block 0 held.
    fn count(&self) -> Option<u8> {
        self.blocks[0]
            .as_ref()
            .and_then(|block| block_count(&block.bytes))
    }

    /// The stored blocks are dropped before `new` is stored if the oldest is over 3,600 s old, the
    /// header differs, the same block ID held other bytes, or `new` is a block 0 whose count is not
    /// above every stored ID.
    fn is_dropped_by(&self, new: &Hkroot, time: Gst) -> bool {
        let stored = || {
            self.blocks
                .iter()
                .zip(0u8..)
                .filter_map(|(block, id)| Some((id, block.as_ref()?)))
        };
        let too_old = stored().any(|(_, block)| time.seconds() - block.time.seconds() > MAX_AGE);
        let other_header = self.header.is_some_and(|header| header != new.header);
        let other_bytes =
            stored().any(|(id, block)| id == new.block_id && block.bytes != new.block);
        let count = if new.block_id == 0 {
            block_count(&new.block)
        } else {
            None
        };
        let too_few = count.is_some_and(|count| stored().any(|(id, _)| count <= id));
        too_old || other_header || other_bytes || too_few
    }

    /// A block comes. The complete DSM, if this block completes it, is taken out.
    pub fn add(&mut self, new: &Hkroot, time: Gst) -> Result<Option<Vec<u8>>, Number> {
        // A reserved NB drops only its block (A25).
        if new.block_id == 0 && block_count(&new.block).is_none() {
            return Err(WRONG_SIZE);
        }
        if self.is_dropped_by(new, time) {
            *self = DsmStore::default();
        }
        // Too high is called after these drops, against the block 0 held (A30).
        if self.count().is_some_and(|count| new.block_id >= count) {
            return Err(WRONG_SIZE);
        }
        // A block repeated with equal bytes keeps its first time.
        self.blocks[usize::from(new.block_id)].get_or_insert(TimedBlock {
            bytes: new.block,
            time,
        });
        self.header = Some(new.header);
        if self
            .count()
            .is_some_and(|count| self.present().count_ones() == u32::from(count))
        {
            let whole = std::mem::take(self);
            let bytes = whole
                .blocks
                .into_iter()
                .flatten()
                .flat_map(|block| block.bytes);
            return Ok(Some(bytes.collect()));
        }
        Ok(None)
    }
}

/// A complete DSM; its length is a whole number of blocks.
#[derive(Clone, Debug, PartialEq, Eq)]
pub enum Dsm {
    Kroot(Vec<u8>),
    Pkr(Vec<u8>),
}

/// The blocks of all sixteen DSM IDs.
#[derive(Clone, Debug, Default, PartialEq, Eq)]
pub struct Gathered {
    pub stores: [DsmStore; 16],
}

impl Gathered {
    /// A block comes; IDs 0 to 11 are DSM-KROOT, 12 to 15 DSM-PKR.
    pub fn add(&mut self, new: &Hkroot, time: Gst) -> Result<Option<Dsm>, Number> {
        let whole = self.stores[usize::from(new.dsm_id)].add(new, time)?;
        Ok(whole.map(|bytes| {
            if new.dsm_id <= 11 {
                Dsm::Kroot(bytes)
            } else {
                Dsm::Pkr(bytes)
            }
        }))
    }
}
