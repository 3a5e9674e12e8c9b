//! Navigation words and sets (crates/navdata).

use crate::raw;

/// The regions of words 1 to 5 of 36 satellites, and of their stamps: a sub-frame's time plus 1, or 0
/// where no word is held.
#[derive(Clone, Debug, PartialEq, Eq)]
pub struct Nav {
    pub words: [u8; 2880],
    pub stamps: [u32; 180],
}

fn is_prn(prn: usize) -> bool {
    (1..=36).contains(&prn)
}

impl Nav {
    pub fn store(&mut self, prn: usize, kind: usize, word: &[u8; 16], stamp: u32) -> Option<()> {
        let (words, stamps) = (&mut self.words, &mut self.stamps);
        // SAFETY: each pointer is lent with its length; lengths and ranges are as required.
        (is_prn(prn) && (1..=5).contains(&kind)).then(|| unsafe {
            raw::leaf_store_word(
                words.as_mut_ptr(),
                words.len(),
                stamps.as_mut_ptr(),
                stamps.len(),
                prn,
                kind,
                word.as_ptr(),
                word.len(),
                stamp,
            )
        })
    }

    /// Whether the satellite's set can be used for a section of sub-frame `t`.
    pub fn usable(&self, prn: usize, t: u32) -> Option<bool> {
        let (words, stamps) = (&self.words, &self.stamps);
        // SAFETY: as above.
        is_prn(prn).then(|| unsafe {
            raw::leaf_usable(
                words.as_ptr(),
                words.len(),
                stamps.as_ptr(),
                stamps.len(),
                prn,
                t,
            ) == 1
        })
    }

    /// The satellite's set into `out` from place `to`.
    pub fn set_bytes(&self, prn: usize, out: &mut [u8], to: usize) -> Option<()> {
        let fits = to.checked_add(69).is_some_and(|end| end <= out.len());
        let (words, len) = (&self.words, out.len());
        // SAFETY: as above.
        (is_prn(prn) && fits).then(|| unsafe {
            raw::leaf_set_bytes(words.as_ptr(), words.len(), prn, out.as_mut_ptr(), len, to)
        })
    }

    pub fn set_of(&self, prn: usize) -> Option<[u8; 69]> {
        let mut set = [0; 69];
        // SAFETY: as above.
        is_prn(prn).then(|| unsafe {
            raw::leaf_set_of(self.words.as_ptr(), self.words.len(), prn, &mut set)
        })?;
        Some(set)
    }
}

/// The IODnav of a set.
pub fn set_issue(set: &[u8; 69]) -> u16 {
    // SAFETY: the set is lent with its length, which is as required.
    unsafe { raw::leaf_set_issue(set.as_ptr(), set.len()) }
}

/// An NMA status and a set's bits into `out` from place `to`.
pub fn status_and_set(status: u8, set: &[u8; 69], out: &mut [u8], to: usize) -> Option<()> {
    let fits = to.checked_add(69).is_some_and(|end| end <= out.len());
    let len = out.len();
    // SAFETY: as above; `out` is lent with its length.
    fits.then(|| unsafe {
        raw::leaf_status_and_set(status, set.as_ptr(), set.len(), out.as_mut_ptr(), len, to)
    })
}
