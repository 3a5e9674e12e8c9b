//! A tag, and the settings that fields are judged by (crates/tags).

/// The region of what a start gives: NS, MACLT, two lists of 14 marks, the tree's root and 1 where the
/// receiver is stopped.
pub type Config = [u8; 63];

/// A tag with what its message needs beside the set.
#[derive(Clone, Copy, Debug, PartialEq, Eq)]
pub struct Tag {
    pub sender: u8,
    pub prn: u8,
    pub adkd: u8,
    pub block: u8,
    pub position: u8,
    pub time: u32,
    pub status: u8,
    pub bits: u64,
}
