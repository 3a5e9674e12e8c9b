//! The numbers that calls return (01, "Numbers returned").

pub type Number = u8;

/// Nothing below applies.
pub const ACCEPTED: Number = 0;
/// A lent length is wrong.
pub const WRONG_LENGTH: Number = 1;
/// PRN, time, NS, key ID, key type, mark or verdict out of range; word 4 SVID not the PRN.
pub const OUT_OF_RANGE: Number = 2;
/// Sub-frame earlier than the last, or not later for its PRN; word earlier than that PRN's last.
pub const OUT_OF_ORDER: Number = 3;
/// Stopped by an emergency message.
pub const STOPPED: Number = 4;
/// 75 zero bytes.
pub const ZERO_FIELDS: Number = 5;
/// NB reserved, block ID too high, size or emergency ID wrong, PKR type above 4.
pub const WRONG_SIZE: Number = 6;
/// Key ID not held.
pub const KEY_NOT_HELD: Number = 7;
/// A parameter of a DSM-KROOT is not taken.
pub const WRONG_PARAMETER: Number = 8;
/// A public key whose ID is not above all held, or a root that is not later.
pub const NOT_NEWER: Number = 9;
/// The tree nodes do not give the root.
pub const WRONG_NODES: Number = 10;
/// A section or a verdict that does not go with the chain in force; also any call before a start.
pub const NO_CHAIN: Number = 11;
/// A key fails or a spare bit is 1.
pub const KEY_FAILS: Number = 12;
/// Slot over 1,000,000 past the key held when the section came.
pub const TOO_FAR: Number = 13;
/// Nothing waits, or other key ID or bytes.
pub const NOT_WAITING: Number = 14;
/// Verdict bad.
pub const BAD_VERDICT: Number = 15;
/// No authentic set for this PRN since start.
pub const NO_SET: Number = 16;
/// Fields of the sub-frame are missing (02, P3).
pub const FIELDS_MISSING: Number = 17;
