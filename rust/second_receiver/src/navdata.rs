//! I/NAV words 1 to 5 of each satellite, and the set that tags authenticate (01, MACK).

use crate::bits::{take, BitString};
use crate::times::{Gst, SATELLITES};

pub const WORD_LEN: usize = 16;
pub const SET_LEN: usize = 69;

/// The authenticated bits of words 1 to 5: the first bit and their number. 549 bits in all.
const AUTHENTICATED: [(usize, usize); 5] = [(6, 120), (6, 120), (6, 122), (6, 120), (6, 67)];

/// The type of a word: bits 0 to 5.
pub fn word_type(word: &[u8; WORD_LEN]) -> u64 {
    take(word, 0, 6)
}

/// The SVID of a word of type 4: bits 16 to 21 (A22).
pub fn svid(word: &[u8; WORD_LEN]) -> u64 {
    take(word, 16, 6)
}

/// The IODnav of a word of types 1 to 4: bits 6 to 15.
fn word_iodnav(word: &[u8; WORD_LEN]) -> u64 {
    take(word, 6, 10)
}

/// The 549 authenticated bits of a satellite in 69 bytes, with three zero bits at the end.
#[derive(Clone, Debug, PartialEq, Eq)]
pub struct NavSet(pub [u8; SET_LEN]);

impl NavSet {
    pub const BITS: usize = 549;

    /// Packs words 1 to 5.
    pub fn pack(words: &[[u8; WORD_LEN]; 5]) -> NavSet {
        let mut string = BitString::default();
        for (word, (at, width)) in words.iter().zip(AUTHENTICATED) {
            string.push_bits(word, at, width);
        }
        let mut set = [0; SET_LEN];
        set.copy_from_slice(&string.into_bytes());
        NavSet(set)
    }

    /// IODnav: the set begins with that of word 1.
    pub fn iodnav(&self) -> u16 {
        take(&self.0, 0, 10) as u16
    }
}

/// A word and the sub-frame it came in.
#[derive(Clone, Debug, PartialEq, Eq)]
pub struct TimedWord {
    pub bytes: [u8; WORD_LEN],
    pub time: Gst,
}

/// The last word of each type 1 to 5 of one satellite, and that satellite's word clock.
#[derive(Clone, Debug, Default, PartialEq, Eq)]
pub struct SatelliteWords {
    pub words: [Option<TimedWord>; 5],
    pub clock: Option<Gst>,
}

impl SatelliteWords {
    /// A word earlier than this satellite's last one of types 1 to 5 is out of order (A14).
    pub fn is_out_of_order(&self, time: Gst) -> bool {
        self.clock.is_some_and(|last| time < last)
    }

    /// Holds a word of types 1 to 5; other types change nothing, the clock neither (A16).
    /// A word that comes again with equal bytes counts as coming now (A20).
    pub fn hold(&mut self, time: Gst, bytes: &[u8; WORD_LEN]) {
        if let kind @ 1..=5 = word_type(bytes) {
            self.words[kind as usize - 1] = Some(TimedWord {
                bytes: *bytes,
                time,
            });
            self.clock = Some(time);
        }
    }

    /// The set usable for a section at `section`: whole, of one IODnav, all words of earlier
    /// sub-frames (A19).
    pub fn usable(&self, section: Gst) -> Option<NavSet> {
        let mut words = [[0; WORD_LEN]; 5];
        for (bytes, word) in words.iter_mut().zip(&self.words) {
            let word = word.as_ref().filter(|word| word.time < section)?;
            *bytes = word.bytes;
        }
        let one_issue = words[1..4]
            .iter()
            .all(|word| word_iodnav(word) == word_iodnav(&words[0]));
        one_issue.then(|| NavSet::pack(&words))
    }
}

/// The words of all satellites.
#[derive(Clone, Debug, PartialEq, Eq)]
pub struct Words(Vec<SatelliteWords>);

impl Default for Words {
    fn default() -> Self {
        Words(vec![SatelliteWords::default(); SATELLITES])
    }
}

impl Words {
    pub fn of(&self, prn: u8) -> &SatelliteWords {
        &self.0[usize::from(prn) - 1]
    }

    pub fn of_mut(&mut self, prn: u8) -> &mut SatelliteWords {
        &mut self.0[usize::from(prn) - 1]
    }
}
