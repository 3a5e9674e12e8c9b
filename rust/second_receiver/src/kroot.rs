//! DSM-KROOT: its fields, and the checks of a complete one (000, 3.3 and 5.1; 01, HKROOT).

use crate::bits::take;
use crate::gather::{least_count, BLOCK_LEN};
use crate::hash;
use crate::mac;
use crate::numbers::{Number, KEY_NOT_HELD, WRONG_PARAMETER, WRONG_SIZE};
use crate::public_keys::{signature_len, PublicKeys};
use crate::times::RootTime;
use crate::verdict::WaitingMessage;

/// Bytes before KROOT.
const HEAD_LEN: usize = 13;
/// Bits of a MACK section.
pub const SECTION_BITS: usize = 480;
/// Bits of MAC-Info (000, table 18).
pub const INFO_BITS: usize = 16;

/// 000, table 12.
const KEY_BITS: [usize; 9] = [96, 104, 112, 120, 128, 160, 192, 224, 256];
/// 000, table 13.
const TAG_BITS: [usize; 10] = [10, 12, 14, 16, 18, 20, 24, 28, 32, 40];

/// What makes a chain the same chain: CID, parameters and alpha (01, "Verdicts"). Rsvd is none of
/// them (A41).
#[derive(Clone, Debug, PartialEq, Eq)]
pub struct ChainParameters {
    /// CIDKR.
    pub cid: u8,
    pub nmack: u8,
    pub hf: u8,
    pub mf: u8,
    pub ks_code: u8,
    pub ms_code: u8,
    pub maclt: u8,
    pub mo: u8,
    pub alpha: [u8; 6],
}

impl ChainParameters {
    /// KS in bits, if its code is not reserved.
    pub fn key_bits(&self) -> Option<usize> {
        KEY_BITS.get(usize::from(self.ks_code)).copied()
    }

    /// MS in bits, if its code is not reserved.
    pub fn tag_bits(&self) -> Option<usize> {
        TAG_BITS.get(usize::from(self.ms_code)).copied()
    }
}

/// The fields of table 7 from CIDKR up to alpha: the first twelve bytes of the contents that are
/// signed.
#[derive(Clone, Debug, PartialEq, Eq)]
pub struct RootFields {
    pub parameters: ChainParameters,
    pub rsvd: u8,
    pub time: RootTime,
}

impl RootFields {
    /// Reads the DSM from its byte 1, that is the signed message without its header.
    pub fn read(contents: &[u8]) -> RootFields {
        let field = |at, width| take(contents, at, width) as u8;
        let mut alpha = [0; 6];
        alpha.copy_from_slice(&contents[6..12]);
        RootFields {
            parameters: ChainParameters {
                cid: field(0, 2),
                nmack: field(2, 2),
                hf: field(4, 2),
                mf: field(6, 2),
                ks_code: field(8, 4),
                ms_code: field(12, 4),
                maclt: field(16, 8),
                mo: field(26, 2),
                alpha,
            },
            rsvd: field(24, 2),
            time: RootTime {
                week: take(contents, 28, 12) as u16,
                hour: field(40, 8),
            },
        }
    }

    /// Row 8. The bytes of a key if all is taken.
    pub fn check(&self, maclt: u8) -> Result<usize, Number> {
        let p = &self.parameters;
        let (Some(key_bits), Some(tag_bits)) = (p.key_bits(), p.tag_bits()) else {
            return Err(WRONG_PARAMETER);
        };
        let wrong_hash = !hash::is_taken(p.hf, key_bits);
        let wrong_function = wrong_hash || !mac::is_taken(p.mf, key_bits) || p.mo != 0;
        let block_too_short =
            p.nmack == 0 || SECTION_BITS / usize::from(p.nmack) < key_bits + tag_bits + INFO_BITS;
        let wrong_time = self.time.hour > 167 || self.time == RootTime { week: 0, hour: 0 };
        if wrong_function || block_too_short || p.maclt != maclt || wrong_time {
            return Err(WRONG_PARAMETER);
        }
        Ok(key_bits / 8)
    }
}

/// Checks 7, 8, 6 of a complete DSM-KROOT that came under `header`; what then waits for a verdict.
pub fn judge(
    header: u8,
    dsm: &[u8],
    keys: &PublicKeys,
    maclt: u8,
) -> Result<WaitingMessage, Number> {
    let key_id = dsm[0] & 15;
    let signature_len = keys
        .get(key_id)
        .and_then(|key| signature_len(key.key_type))
        .ok_or(KEY_NOT_HELD)?;
    let key_len = RootFields::read(&dsm[1..]).check(maclt)?;
    let signed_end = HEAD_LEN + key_len;
    let end = signed_end + signature_len;
    if dsm.len() / BLOCK_LEN != least_count(end) {
        return Err(WRONG_SIZE);
    }
    // The signed message is the NMA header, then the DSM from byte 1 through KROOT. Padding is not
    // examined.
    let mut message = vec![header];
    message.extend_from_slice(&dsm[1..signed_end]);
    Ok(WaitingMessage {
        key_id,
        message,
        signature: dsm[signed_end..end].to_vec(),
    })
}
