//! The gathering of a message.

use crate::regions::UNKNOWN_TOTAL;

/// How far along the message of a DSM ID is ([`Core::progress`](crate::Core::progress)).
#[derive(Clone, Copy, Debug, PartialEq, Eq)]
pub struct Progress {
    /// 0 to 11 for a DSM-KROOT, 12 to 15 for a DSM-PKR.
    pub dsm_id: u8,
    /// The blocks held: at most 15, since the last one completes the message, which is then taken out.
    pub held: u8,
    /// The blocks that are still missing, 1 to 15; none without block 0, which names the total.
    pub missing: Option<u8>,
}

impl Progress {
    pub(crate) fn of((dsm_id, [held, missing]): (u8, [u8; 2])) -> Progress {
        Progress {
            dsm_id,
            held,
            missing: (missing != UNKNOWN_TOTAL).then_some(missing),
        }
    }
}
