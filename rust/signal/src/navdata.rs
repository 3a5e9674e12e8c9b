//! Navigation words 1 to 5 and their 549 authenticated bits (01, MACK; Galileo OS SIS ICD, I/NAV words).

use crate::bits;
use crate::rng::Rng;

/// A navigation word; its type stands in bits 0 to 5.
pub type Word = [u8; 16];
/// The 549 bits of a set, followed by three zero bits.
pub type Authenticated = [u8; 69];

/// First and last bit that is authenticated in each of the words 1 to 5.
const MASK: [(usize, usize); 5] = [(6, 125), (6, 125), (6, 127), (6, 125), (6, 72)];

/// The words 1 to 5 of one satellite.
#[derive(Clone, Copy, Debug, PartialEq, Eq)]
pub struct NavSet {
    /// Words of types 1 to 5 in order.
    pub words: [Word; 5],
}

impl NavSet {
    /// A set of any bits, the unauthenticated ones too, with its types, IODnav and SVID.
    pub fn random(rng: &mut Rng, svid: u8, iodnav: u16) -> Self {
        let mut set = NavSet {
            words: [[0; 16]; 5],
        };
        for (i, word) in set.words.iter_mut().enumerate() {
            rng.fill(word);
            bits::put(word, 0, 6, i as u64 + 1);
        }
        set.set_iodnav(iodnav);
        set.set_svid(svid);
        set
    }

    /// Writes bits 6 to 15 of words 1 to 4.
    pub fn set_iodnav(&mut self, iodnav: u16) {
        for word in &mut self.words[..4] {
            bits::put(word, 6, 10, u64::from(iodnav));
        }
    }

    /// IODnav of word 1.
    pub fn iodnav(&self) -> u16 {
        bits::get(&self.words[0], 6, 10) as u16
    }

    /// Writes bits 16 to 21 of word 4.
    pub fn set_svid(&mut self, svid: u8) {
        bits::put(&mut self.words[3], 16, 6, u64::from(svid));
    }

    /// The bits that tags cover, packed.
    pub fn authenticated(&self) -> Authenticated {
        let (mut out, mut at) = ([0; 69], 0);
        for (word, (first, last)) in self.words.iter().zip(MASK) {
            bits::copy(&mut out, at, word, first, last + 1 - first);
            at += last + 1 - first;
        }
        out
    }

    /// The word and bit in it from which bit `at` (below 549) of the authenticated bits comes.
    pub fn place(mut at: usize) -> (usize, usize) {
        for (word, (first, last)) in MASK.into_iter().enumerate() {
            if at < last + 1 - first {
                return (word, first + at);
            }
            at -= last + 1 - first;
        }
        panic!("a set has 549 bits");
    }
}

#[cfg(test)]
mod tests {
    use super::*;

    #[test]
    fn masked_bits() {
        assert_eq!(MASK.iter().map(|(a, b)| b + 1 - a).sum::<usize>(), 549);
        let set = NavSet::random(&mut Rng::new(1), 18, 80);
        assert_eq!(set.iodnav(), 80);
        assert_eq!(bits::get(&set.words[3], 16, 6), 18);
        for at in [0, 119, 120, 239, 240, 361, 362, 481, 482, 548] {
            let (word, bit) = NavSet::place(at);
            let mut other = set;
            bits::flip(&mut other.words[word], bit);
            let (mut a, b) = (set.authenticated(), other.authenticated());
            bits::flip(&mut a, at);
            assert_eq!(a, b, "bit {at}");
        }
        let mut other = set;
        for (word, bit) in [(0, 126), (1, 127), (3, 126), (4, 73), (4, 127), (2, 5)] {
            bits::flip(&mut other.words[word], bit);
        }
        assert_eq!(set.authenticated(), other.authenticated());
    }
}
