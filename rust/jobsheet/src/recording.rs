//! Recordings as the replay program reads them: 256-byte records, no header (01, The replay
//! program; 02, P3).

use crate::words::count;
use osnma::{Gst, Marks, Settings, FIELDS_LEN, MESSAGE_LEN, SIGNATURE_LEN, WORD_LEN};
use portable_hash::{Sha256, DIGEST_LEN};
use std::array::from_fn;
use std::fmt;
use std::io::{self, Read};

/// Bytes of a record.
pub const RECORD_LEN: usize = 256;

/// A record; byte 0 is its kind.
#[derive(Clone, Debug, PartialEq, Eq)]
pub enum Record {
    /// 1: what a start gives.
    Start(Box<Settings>),
    /// 2: an I/NAV word.
    Word {
        /// PRN of the satellite.
        prn: u8,
        /// The sub-frame that it came in.
        time: Gst,
        /// Its 16 bytes.
        word: [u8; WORD_LEN],
    },
    /// 3: the authentication fields of a sub-frame; 6: the same with their marks.
    Subframe {
        /// PRN of the satellite.
        prn: u8,
        /// The sub-frame.
        time: Gst,
        /// Which fields were received; all in records of kind 3.
        marks: Marks,
        /// Its 75 bytes.
        fields: [u8; FIELDS_LEN],
    },
    /// 4: a verdict of the signature chip.
    Verdict {
        /// 1 good, 0 bad.
        good: u8,
        /// ID of the public key.
        key_id: u8,
        /// The signed message, followed by zeros.
        message: [u8; MESSAGE_LEN],
        /// The signature, followed by zeros.
        signature: Box<[u8; SIGNATURE_LEN]>,
    },
    /// Any other kind.
    Other(u8),
}

impl Record {
    /// Takes a record apart; the rest of it is not read.
    pub fn of(bytes: &[u8; RECORD_LEN]) -> Record {
        let time = Gst::from_bits(u32::from_be_bytes(part(bytes, 2)));
        match bytes[0] {
            1 => Record::Start(Box::new(Settings {
                ns: bytes[1],
                key_id: bytes[2],
                key_type: bytes[3],
                maclt: bytes[4],
                marks: [part(bytes, 5), part(bytes, 19)],
                tree_root: part(bytes, 33),
                key: part(bytes, 65),
            })),
            2 => Record::Word {
                prn: bytes[1],
                time,
                word: part(bytes, 6),
            },
            3 | 6 => Record::Subframe {
                prn: bytes[1],
                time,
                marks: match bytes[0] {
                    6 => Marks::from_bits(u16::from_be_bytes(part(bytes, 81))),
                    _ => Marks::ALL,
                },
                fields: part(bytes, 6),
            },
            4 => Record::Verdict {
                good: bytes[1],
                key_id: bytes[2],
                message: part(bytes, 3),
                signature: Box::new(part(bytes, 48)),
            },
            kind => Record::Other(kind),
        }
    }
}

/// Whether records of this kind are a recording's.
pub fn is_kind(kind: u8) -> bool {
    matches!(kind, 1..=4 | 6)
}

/// The N bytes of a record from a place on.
fn part<const N: usize>(bytes: &[u8; RECORD_LEN], at: usize) -> [u8; N] {
    from_fn(|n| bytes[at + n])
}

/// A last record that ends too early.
#[derive(Clone, Copy, Debug, PartialEq, Eq)]
pub struct Cut {
    /// The record's place, from 1.
    pub place: u64,
    /// Its kind.
    pub kind: u8,
    /// Its bytes.
    pub len: usize,
}

/// Why there is no sheet of an input.
#[derive(Debug)]
pub enum Trouble {
    /// It cannot be read.
    Unreadable(io::Error),
    /// It has no byte.
    Empty,
    /// It ends in its first record.
    NoWholeRecord(Cut),
    /// It has no record of kinds 1 to 4 and 6.
    NotARecording,
    /// It has no accepted start.
    NoStart,
}

impl fmt::Display for Trouble {
    fn fmt(&self, f: &mut fmt::Formatter<'_>) -> fmt::Result {
        match self {
            Trouble::Unreadable(error) => write!(f, "cannot be read: {error}"),
            Trouble::Empty => write!(f, "is empty: a recording has records of 256 bytes"),
            Trouble::NoWholeRecord(Cut { place, len, .. }) => write!(
                f,
                "ends in the middle of record {place}: {} of {RECORD_LEN}, and no record is whole",
                count(*len as u64, "byte")
            ),
            Trouble::NotARecording => write!(
                f,
                "is no recording: none of its 256-byte records is of kinds 1 to 4 or 6"
            ),
            Trouble::NoStart => write!(
                f,
                "has no accepted start, so there is nothing that a sheet could show"
            ),
        }
    }
}

impl std::error::Error for Trouble {}

/// The whole records of an input, in order. After trouble there are no more.
pub struct Reader<R> {
    input: R,
    place: u64,
    ended: bool,
    cut: Option<Cut>,
    hash: Sha256,
}

impl<R: Read> Reader<R> {
    /// Reads `input` from where it is.
    pub fn new(input: R) -> Reader<R> {
        Reader {
            input,
            place: 0,
            ended: false,
            cut: None,
            hash: Sha256::new(),
        }
    }

    /// The record in which the input ended, where it was not whole.
    pub fn cut(&self) -> Option<Cut> {
        self.cut
    }

    /// SHA-256 of all bytes read, those of a record that is not whole too.
    pub fn sha256(&self) -> [u8; DIGEST_LEN] {
        self.hash.clone().finish()
    }

    fn read(&mut self) -> Result<Option<Record>, Trouble> {
        let mut bytes = [0; RECORD_LEN];
        let len = filled(&mut self.input, &mut bytes).map_err(Trouble::Unreadable)?;
        self.hash.update(&bytes[..len]);
        self.place += 1;
        if len == RECORD_LEN {
            return Ok(Some(Record::of(&bytes)));
        }
        self.cut = (len > 0).then_some(Cut {
            place: self.place,
            kind: bytes[0],
            len,
        });
        Ok(None)
    }
}

impl<R: Read> Iterator for Reader<R> {
    type Item = Result<Record, Trouble>;

    fn next(&mut self) -> Option<Self::Item> {
        if self.ended {
            return None;
        }
        let read = self.read().transpose();
        self.ended = !matches!(read, Some(Ok(_)));
        read
    }
}

/// Reads until the record is full or the input ends.
fn filled(input: &mut impl Read, bytes: &mut [u8; RECORD_LEN]) -> io::Result<usize> {
    let mut len = 0;
    while len < RECORD_LEN {
        match input.read(&mut bytes[len..]) {
            Ok(0) => break,
            Ok(n) => len += n,
            Err(error) if error.kind() == io::ErrorKind::Interrupted => {}
            Err(error) => return Err(error),
        }
    }
    Ok(len)
}
