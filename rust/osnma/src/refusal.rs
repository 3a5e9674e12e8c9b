//! What calls answer where they refuse.

use core::fmt;

/// Why a call was refused: the numbers of document 01's table, and 17 of document 02. What a refusal leaves behind is said
/// at each call.
#[derive(Clone, Copy, Debug, PartialEq, Eq, Hash)]
#[non_exhaustive]
pub enum Refusal {
    /// 1: a lent length is wrong. [`Core`](crate::Core) lends right ones.
    WrongLength,
    /// 2: PRN, time, NS, key ID, key type, mark or verdict out of range; a word 4 whose SVID is not
    /// the PRN.
    OutOfRange,
    /// 3: a word or sub-frame earlier than the times noted allow.
    OutOfOrder,
    /// 4: an emergency message stopped the core; only a new start ends this.
    Stopped,
    /// 5: all fields that were received are zero bytes: 75 of them where none is lost.
    AllZero,
    /// 6: a block or message whose number of blocks, block ID, size or type cannot be.
    BlockUnfit,
    /// 7: a DSM-KROOT under a public key that is not held.
    KeyNotHeld,
    /// 8: a DSM-KROOT with parameters that are not taken. The hash of the chain may be SHA-256 or
    /// SHA3-256 with every key size, or SHA3-224 with keys of up to 224 bits; the MAC function
    /// HMAC-SHA-256 with every key size, or CMAC-AES with keys of 128, 192 or 256 bits.
    ParametersUnfit,
    /// 9: a root that is not later than the last put in force; a public key whose ID is not above
    /// all held.
    NotNewer,
    /// 10: a DSM-PKR whose nodes do not give the tree's root.
    TreeUnfit,
    /// 11: a verdict or section that does not go with its status, its CID or the chain in force.
    NotInForce,
    /// 12: a TESLA key fails, or a spare bit is 1.
    KeyUnfit,
    /// 13: a key more than 1,000,000 slots past the one held.
    TooFar,
    /// 14: nothing waits, or something else than the verdict names.
    NotWaiting,
    /// 15: the verdict is bad.
    VerdictBad,
    /// 16: no authentic set for this PRN since the start.
    NoSet,
    /// 17: fields of the sub-frame are missing: any for the HKROOT half, the first for the MACK
    /// half.
    FieldsMissing,
    /// A number that the table has not. The contracts of the proved calls leave none; it would tell
    /// of another library.
    Unlisted(u32),
}

impl Refusal {
    /// The refusals by number, from 1 on.
    pub const LISTED: [Refusal; 17] = [
        Refusal::WrongLength,
        Refusal::OutOfRange,
        Refusal::OutOfOrder,
        Refusal::Stopped,
        Refusal::AllZero,
        Refusal::BlockUnfit,
        Refusal::KeyNotHeld,
        Refusal::ParametersUnfit,
        Refusal::NotNewer,
        Refusal::TreeUnfit,
        Refusal::NotInForce,
        Refusal::KeyUnfit,
        Refusal::TooFar,
        Refusal::NotWaiting,
        Refusal::VerdictBad,
        Refusal::NoSet,
        Refusal::FieldsMissing,
    ];

    /// The number of document 01's table.
    pub const fn number(self) -> u32 {
        match self {
            Refusal::WrongLength => 1,
            Refusal::OutOfRange => 2,
            Refusal::OutOfOrder => 3,
            Refusal::Stopped => 4,
            Refusal::AllZero => 5,
            Refusal::BlockUnfit => 6,
            Refusal::KeyNotHeld => 7,
            Refusal::ParametersUnfit => 8,
            Refusal::NotNewer => 9,
            Refusal::TreeUnfit => 10,
            Refusal::NotInForce => 11,
            Refusal::KeyUnfit => 12,
            Refusal::TooFar => 13,
            Refusal::NotWaiting => 14,
            Refusal::VerdictBad => 15,
            Refusal::NoSet => 16,
            Refusal::FieldsMissing => 17,
            Refusal::Unlisted(number) => number,
        }
    }
}

/// The answer of a call by its number.
pub(crate) fn answered(number: u32) -> Result<(), Refusal> {
    if number == 0 {
        return Ok(());
    }
    let listed = Refusal::LISTED
        .iter()
        .find(|refusal| refusal.number() == number);
    Err(listed.copied().unwrap_or(Refusal::Unlisted(number)))
}

impl fmt::Display for Refusal {
    fn fmt(&self, f: &mut fmt::Formatter<'_>) -> fmt::Result {
        let text = match self {
            Refusal::WrongLength => "a lent length is wrong",
            Refusal::OutOfRange => "an argument is out of its range",
            Refusal::OutOfOrder => "earlier than what came before",
            Refusal::Stopped => "stopped by an emergency message",
            Refusal::AllZero => "nothing but zero bytes",
            Refusal::BlockUnfit => "a block or message of a size or type that cannot be",
            Refusal::KeyNotHeld => "the public key is not held",
            Refusal::ParametersUnfit => "chain parameters that are not taken",
            Refusal::NotNewer => "not newer than what is held",
            Refusal::TreeUnfit => "the tree's root is not met",
            Refusal::NotInForce => "does not go with the chain in force",
            Refusal::KeyUnfit => "a TESLA key or a spare bit is wrong",
            Refusal::TooFar => "a key too far past the one held",
            Refusal::NotWaiting => "this does not wait for a verdict",
            Refusal::VerdictBad => "the verdict is bad",
            Refusal::NoSet => "no authentic set",
            Refusal::FieldsMissing => "fields are missing",
            Refusal::Unlisted(_) => "a number that is not listed",
        };
        write!(f, "{text} ({})", self.number())
    }
}

impl core::error::Error for Refusal {}

#[cfg(test)]
mod tests {
    use super::*;

    #[test]
    fn numbers() {
        assert_eq!(answered(0), Ok(()));
        for (refusal, number) in Refusal::LISTED.into_iter().zip(1..) {
            assert_eq!(refusal.number(), number);
            assert_eq!(answered(number), Err(refusal));
        }
        for number in [18, u32::MAX] {
            assert_eq!(answered(number), Err(Refusal::Unlisted(number)));
        }
    }
}
