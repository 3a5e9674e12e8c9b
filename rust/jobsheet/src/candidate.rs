//! Data of a satellite that tags agree with, by fewer bits than a mark takes.
//!
//! The core says of each tag whether it marks its satellite's data (outcome 1) or only agrees with it (9),
//! and its reads give marked data alone. Which tags are summed is counted here as 02's P4 says.

use crate::history::Judged;
use osnma::{Gst, SET_LEN};

/// A candidate and the tags that agree with it.
#[derive(Clone, Debug, PartialEq, Eq)]
pub struct Candidate {
    /// The 549 bits.
    pub bytes: [u8; SET_LEN],
    /// The tags, in the order in which they were judged: four at the most, of ten bits.
    pub tags: Vec<Judged>,
    /// Their bits together.
    pub bits: u32,
}

impl Candidate {
    /// When the latest of its tags came.
    fn latest(&self) -> Option<Gst> {
        self.tags.iter().map(|tag| tag.record.time).max()
    }

    fn sum(&mut self, tag: Judged, tag_bits: u32) {
        self.bits += tag_bits;
        self.tags.push(tag);
    }
}

/// The candidate of a satellite, and the tags of the last one that was marked.
#[derive(Clone, Debug, Default)]
pub struct Candidates {
    now: Option<Candidate>,
    /// The last that had enough bits, with the tag that brought them.
    pub marked: Option<Candidate>,
    /// The most bits that agreed on data of this satellite, short of a mark.
    pub most: u32,
}

impl Candidates {
    /// The candidate.
    pub fn now(&self) -> Option<&Candidate> {
        self.now.as_ref()
    }

    /// A new chain, or a drop.
    pub fn clear(&mut self) {
        self.now = None;
    }

    /// A tag agrees with these bits, and they are not marked. Gives the bits that agree on them now; none
    /// where a later tag's data stays the candidate and this one counts nowhere.
    pub fn agrees(&mut self, bytes: [u8; SET_LEN], tag: Judged, tag_bits: u32) -> Option<u32> {
        match &mut self.now {
            Some(now) if now.bytes == bytes => now.sum(tag, tag_bits),
            Some(now) if now.latest() > Some(tag.record.time) => return None,
            now => {
                *now = Some(Candidate {
                    bytes,
                    tags: vec![tag],
                    bits: tag_bits,
                })
            }
        }
        let bits = self.now.as_ref()?.bits;
        self.most = self.most.max(bits);
        Some(bits)
    }

    /// A tag marks these bits: those of the candidate, which is none any more, or of marked data, and the
    /// candidate stays. A tag of enough bits needs no candidate.
    pub fn marks(&mut self, bytes: [u8; SET_LEN], tag: Judged, tag_bits: u32) {
        let candidate = self.now.take_if(|now| now.bytes == bytes);
        let alone = tag_bits >= osnma::AUTHENTIC_BITS;
        let none = Candidate {
            bytes,
            tags: Vec::new(),
            bits: 0,
        };
        if let Some(mut candidate) = candidate.or(alone.then_some(none)) {
            candidate.sum(tag, tag_bits);
            self.marked = Some(candidate);
        }
    }
}

#[cfg(test)]
mod tests {
    use super::*;
    use osnma::TagRecord;

    const A: [u8; SET_LEN] = [1; SET_LEN];
    const B: [u8; SET_LEN] = [2; SET_LEN];

    fn tag(half_minute: u32) -> Judged {
        let time = Gst::new(947, half_minute * 30).unwrap();
        Judged {
            place: 1,
            at: time,
            record: TagRecord {
                time,
                ..TagRecord::of(&[0; 12])
            },
            root: None,
            bits: None,
        }
    }

    fn held(all: &Candidates) -> Option<([u8; SET_LEN], u32, usize)> {
        let now = all.now()?;
        Some((now.bytes, now.bits, now.tags.len()))
    }

    #[test]
    fn tags_are_summed() {
        let mut all = Candidates::default();
        for (n, bits) in [(1, 12), (5, 24), (3, 36)] {
            assert_eq!(all.agrees(A, tag(n), 12), Some(bits));
        }
        // Other bits: a tag before the latest counts nowhere, one that came with it begins anew.
        assert_eq!(all.agrees(B, tag(4), 12), None);
        assert_eq!(held(&all), Some((A, 36, 3)));
        assert_eq!(all.agrees(B, tag(5), 12), Some(12));
        assert_eq!((held(&all), all.most), (Some((B, 12, 1)), 36));
        // A mark of other bits leaves the candidate, one of its own ends it.
        all.marks(A, tag(6), 12);
        assert_eq!(
            (held(&all), all.marked.is_some()),
            (Some((B, 12, 1)), false)
        );
        all.marks(B, tag(6), 28);
        assert_eq!(held(&all), None);
        let marked = all.marked.take().unwrap();
        assert_eq!((marked.bytes, marked.bits, marked.tags.len()), (B, 40, 2));
        all.agrees(A, tag(7), 12);
        all.clear();
        assert_eq!(held(&all), None);
        assert_eq!(all.agrees(A, tag(7), 12), Some(12));
    }

    // A tag of 40 bits needs no other.
    #[test]
    fn one_is_enough() {
        let mut all = Candidates::default();
        all.marks(A, tag(1), 40);
        let marked = all.marked.unwrap();
        assert_eq!((marked.bits, marked.tags.len()), (40, 1));
    }
}
