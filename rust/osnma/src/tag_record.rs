//! What a section's tags became.

use crate::{Gst, RECORDS_LEN, RECORD_LEN};
use core::fmt;
use core::iter::FusedIterator;

/// What became of a tag: document 01's outcomes, and 8 and 9 of document 02.
///
/// A tag that matches its satellite's set agrees with it. Tag bits that agree on the same 549 bits of a
/// satellite are summed, and at [`AUTHENTIC_BITS`](crate::AUTHENTIC_BITS) the set is authentic. Until
/// then it is the satellite's candidate, which no read gives (`include/osnma.h` says more).
#[derive(Clone, Copy, Debug, PartialEq, Eq, Hash)]
#[non_exhaustive]
pub enum Outcome {
    /// 1: it agrees with its satellite's set, on which enough tag bits agree. The set is now authentic
    /// unless a later tag's set is held.
    Authentic,
    /// 2: it does not match.
    Wrong,
    /// 3: its satellite has no usable set: not all five words came, or not of one IODnav, or one of
    /// them is of this half minute and was lent before these fields.
    NoUsableSet,
    /// 4: an ADKD other than 0, 11 and 12, or not the fixed one of its field, or a PRN not 1 to 36.
    NotAllowed,
    /// 5: it waits for its key, with a copy of its set.
    Waits,
    /// 6: its field is flexible and MACSEQ fails.
    SequenceUnfit,
    /// 7: it would wait, but all 256 places are taken.
    NoPlace,
    /// 8: bits of it, of its block's key, of its field's MAC-Info or of what MACSEQ is made of are
    /// missing, so that it cannot be judged.
    BitsMissing,
    /// 9: it agrees with its satellite's set, on which too few tag bits agree so far.
    Agrees,
    /// A number that is no outcome. The contracts of the proved calls leave none; it would tell of
    /// another library.
    Unlisted(u8),
}

/// The outcomes by number, from 1 on.
const LISTED: [Outcome; 9] = [
    Outcome::Authentic,
    Outcome::Wrong,
    Outcome::NoUsableSet,
    Outcome::NotAllowed,
    Outcome::Waits,
    Outcome::SequenceUnfit,
    Outcome::NoPlace,
    Outcome::BitsMissing,
    Outcome::Agrees,
];

impl Outcome {
    /// The number of document 01.
    pub const fn number(self) -> u8 {
        match self {
            Outcome::Authentic => 1,
            Outcome::Wrong => 2,
            Outcome::NoUsableSet => 3,
            Outcome::NotAllowed => 4,
            Outcome::Waits => 5,
            Outcome::SequenceUnfit => 6,
            Outcome::NoPlace => 7,
            Outcome::BitsMissing => 8,
            Outcome::Agrees => 9,
            Outcome::Unlisted(number) => number,
        }
    }

    fn of(number: u8) -> Outcome {
        let listed = LISTED
            .into_iter()
            .find(|outcome| outcome.number() == number);
        listed.unwrap_or(Outcome::Unlisted(number))
    }
}

impl fmt::Display for Outcome {
    fn fmt(&self, f: &mut fmt::Formatter<'_>) -> fmt::Result {
        let text = match self {
            Outcome::Authentic => "authentic",
            Outcome::Wrong => "wrong",
            Outcome::NoUsableSet => "no usable set",
            Outcome::NotAllowed => "not allowed",
            Outcome::Waits => "waits for its key",
            Outcome::SequenceUnfit => "MACSEQ fails",
            Outcome::NoPlace => "no place to wait",
            Outcome::BitsMissing => "bits are missing",
            Outcome::Agrees => "agrees, too few bits so far",
            Outcome::Unlisted(_) => "a number that is not listed",
        };
        write!(f, "{text} ({})", self.number())
    }
}

/// A tag that was judged: one that had waited, or one of the section itself.
#[derive(Clone, Copy, Debug, PartialEq, Eq)]
pub struct TagRecord {
    /// What became of it.
    pub outcome: Outcome,
    /// PRN of the satellite that sent it.
    pub sender: u8,
    /// PRN of the satellite that it authenticates, as the tag names it; 0 where bits of it are
    /// missing.
    pub prn: u8,
    /// Its ADKD; 0 where bits of it are missing.
    pub adkd: u8,
    /// Block of the section that it came in, from 1.
    pub block: u8,
    /// Position in the block, from 1.
    pub position: u8,
    /// IODnav of its set; 0 for outcomes 3, 4, 6 and 8.
    pub iodnav: u16,
    /// When it came.
    pub time: Gst,
}

impl TagRecord {
    /// Takes the 12 bytes of a record apart.
    pub fn of(record: &[u8; RECORD_LEN]) -> TagRecord {
        let &[outcome, sender, prn, adkd, block, position, i0, i1, t0, t1, t2, t3] = record;
        TagRecord {
            outcome: Outcome::of(outcome),
            sender,
            prn,
            adkd,
            block,
            position,
            iodnav: u16::from_be_bytes([i0, i1]),
            time: Gst::from_bits(u32::from_be_bytes([t0, t1, t2, t3])),
        }
    }
}

/// The tag records of a sub-frame, in the order in which the tags were judged.
#[derive(Clone, Debug)]
pub struct TagRecords<'a> {
    left: &'a [u8],
}

impl<'a> TagRecords<'a> {
    /// The first `count` records of the area; no more than the area has.
    pub(crate) fn of(area: &'a [u8; RECORDS_LEN], count: u32) -> TagRecords<'a> {
        let bytes = usize::try_from(count).map_or(usize::MAX, |n| n.saturating_mul(RECORD_LEN));
        TagRecords {
            left: area.get(..bytes).unwrap_or(area),
        }
    }
}

impl Iterator for TagRecords<'_> {
    type Item = TagRecord;

    fn next(&mut self) -> Option<TagRecord> {
        let (record, rest) = self.left.split_first_chunk()?;
        self.left = rest;
        Some(TagRecord::of(record))
    }

    fn size_hint(&self) -> (usize, Option<usize>) {
        let left = self.left.len().wrapping_div(RECORD_LEN);
        (left, Some(left))
    }
}

impl ExactSizeIterator for TagRecords<'_> {}
impl FusedIterator for TagRecords<'_> {}

#[cfg(test)]
mod tests {
    use super::*;

    #[test]
    fn outcomes() {
        for (outcome, number) in LISTED.into_iter().zip(1..) {
            assert_eq!(outcome.number(), number);
            assert_eq!(Outcome::of(number), outcome);
        }
        for number in [0, 10, 255] {
            assert_eq!(Outcome::of(number), Outcome::Unlisted(number));
            assert_eq!(Outcome::of(number).number(), number);
        }
    }

    // As many as are asked for, in order, and never more than the area has.
    #[test]
    fn records() {
        let mut area = [0; RECORDS_LEN];
        for (at, record) in area.chunks_exact_mut(RECORD_LEN).enumerate() {
            record.copy_from_slice(&[1, 2, 3, 12, 1, 4, 0x03, 0xFF, 0x3B, 0x36, 0x97, at as u8]);
        }
        for (count, right) in [
            (0, 0),
            (1, 1),
            (269, 269),
            (270, 270),
            (271, 270),
            (u32::MAX, 270),
        ] {
            let records = TagRecords::of(&area, count);
            assert_eq!(records.len(), right, "{count}");
            for (at, record) in records.enumerate() {
                let right = TagRecord {
                    outcome: Outcome::Authentic,
                    sender: 2,
                    prn: 3,
                    adkd: 12,
                    block: 1,
                    position: 4,
                    iodnav: 1023,
                    time: Gst::from_bits(0x3B36_9700 | (at as u32 & 255)),
                };
                assert_eq!(record, right);
            }
        }
    }
}
