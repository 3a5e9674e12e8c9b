//! The data of a satellite as it was heard: words 1 to 5, and the stretches between their changes.

use crate::time::{self, SUBFRAME};
use osnma::{Gst, Outcome, AUTHENTIC_BITS, SET_LEN, WORD_LEN};
use std::collections::VecDeque;

/// Stretches of a satellite that are kept.
pub const STRETCHES: usize = 128;

/// The last words answered 0 of types 1 to 5 of a satellite.
#[derive(Clone, Copy, Debug, Default)]
struct Words([Option<u128>; 5]);

impl Words {
    /// Bits of a word of this type that tags authenticate: from bit 6 to these (01, MACK).
    fn authenticated(kind: usize) -> u128 {
        let last = [125, 125, 127, 125, 72][kind - 1];
        u128::MAX >> 6 & u128::MAX << (127 - last)
    }

    /// The authenticated bits of all five, one after another, and three zero bits, as a read gives them.
    fn set(&self) -> Option<[u8; SET_LEN]> {
        let mut set = [0; SET_LEN];
        let mut at = 0;
        for (kind, word) in (1..).zip(self.0) {
            let authenticated = Words::authenticated(kind);
            // None begins so late in a byte that a bit would be lost.
            let bits = (word? & authenticated) << 6 >> (at % 8);
            for (byte, more) in set[at / 8..].iter_mut().zip(bits.to_be_bytes()) {
                *byte |= more;
            }
            at += authenticated.count_ones() as usize;
        }
        Some(set)
    }

    /// The one IODnav of words 1 to 4: their bits 6 to 15.
    fn iodnav(&self) -> Option<u16> {
        let mut all = self.0[..4].iter().map(|word| Some((*word)? >> 112 & 0x3FF));
        let first = all.next()??;
        all.all(|other| other == Some(first))
            .then_some(first as u16)
    }

    /// Holds a word of types 1 to 5. Whether one was held that other bits are authenticated of.
    fn hold(&mut self, kind: usize, word: u128) -> bool {
        let old = self.0[kind - 1].replace(word);
        old.is_some_and(|old| (old ^ word) & Words::authenticated(kind) != 0)
    }
}

/// Data that did not change, but for words that were missing and came.
#[derive(Clone, Debug, PartialEq, Eq)]
pub struct Stretch {
    /// The half minute of its first word.
    pub from: Gst,
    /// That of its last.
    last: Gst,
    /// Whether all five words are there.
    pub whole: bool,
    /// IODnav of words 1 to 4; none where they differ or lack.
    pub iodnav: Option<u16>,
    /// Tags that showed it to be authentic.
    pub authentic: u64,
    /// Bits of the tags that agree with it, these and those that were short of a mark.
    pub bits: u64,
    /// Tags that did not match it.
    pub wrong: u64,
    /// When the last that agrees came.
    last_match: Option<Gst>,
    /// When the first that did not match came.
    first_wrong: Option<Gst>,
}

impl Stretch {
    /// Whether it was authentic for a while and then no more: the system sends newer data.
    pub fn is_older(&self) -> bool {
        self.authentic > 0 && self.wrong > 0 && !self.is_disputed()
    }

    /// Whether it was marked and tags both match it and do not, so that a match may be by chance: one
    /// came with or after a wrong one, or too few bits before it. Data that was marked before and comes
    /// back is marked by a single tag (02, P4).
    pub fn is_disputed(&self) -> bool {
        let between = self.last_match.zip(self.first_wrong);
        let few = self.bits < u64::from(AUTHENTIC_BITS);
        self.authentic > 0 && between.is_some_and(|(last, first)| last >= first || few)
    }
}

/// Data that was not shown to be authentic.
#[derive(Clone, Copy, Debug, Default, PartialEq, Eq)]
pub struct Unproved {
    /// Data that no tag agrees with: there was none for it, or it could not be compared. The first half
    /// minute in which it came, and the last.
    pub span: Option<(Gst, Gst)>,
    /// The same of data that tags agree with, by too few bits.
    pub short: Option<(Gst, Gst)>,
    /// Seconds of the longest time in which nothing else came.
    pub longest: u64,
    /// Since when nothing else has come.
    since: Option<Gst>,
}

impl Unproved {
    /// Takes in the next stretch.
    fn add(&mut self, stretch: &Stretch) {
        if stretch.authentic > 0 {
            self.since = None;
            return;
        }
        let since = *self.since.get_or_insert(stretch.from);
        let span = match stretch.bits {
            0 => &mut self.span,
            _ => &mut self.short,
        };
        let (first, _) = span.unwrap_or((stretch.from, stretch.last));
        *span = Some((first, stretch.last));
        let seconds = time::seconds(stretch.last).saturating_sub(time::seconds(since));
        self.longest = self.longest.max(seconds);
    }
}

/// What a word did to the data of its satellite.
#[derive(Clone, Copy, Debug, PartialEq, Eq)]
pub struct Change {
    /// IODnav before.
    pub from: Option<u16>,
    /// IODnav after.
    pub to: Option<u16>,
}

/// A satellite's data.
#[derive(Clone, Debug, Default)]
pub struct Data {
    words: Words,
    stretches: VecDeque<Stretch>,
    /// Stretches that are no more kept, and what is known of them all.
    left_out: u64,
    before: Before,
    last_word: Option<Gst>,
}

/// What is known of stretches that are no more kept.
#[derive(Clone, Copy, Debug, Default)]
struct Before {
    disputed: bool,
    older: bool,
    unproved: Unproved,
}

impl Data {
    /// Takes in a word answered 0. Says what it changed, where one of its type with other
    /// authenticated bits was held.
    pub fn word(&mut self, at: Gst, word: &[u8; WORD_LEN]) -> Option<Change> {
        let word = u128::from_be_bytes(*word);
        let kind @ 1..=5 = (word >> 122) as usize else {
            return None;
        };
        self.last_word = Some(at);
        let from = self.words.iodnav();
        let changed = self.words.hold(kind, word);
        let to = self.words.iodnav();
        // What changes twice in a half minute is between two sets for that time.
        if self
            .stretches
            .back()
            .is_none_or(|now| changed && now.from != at)
        {
            self.begin(at);
        }
        if let Some(now) = self.stretches.back_mut() {
            now.last = at;
            now.iodnav = to;
            now.whole = self.words.0.iter().all(Option::is_some);
        }
        changed.then_some(Change { from, to })
    }

    fn begin(&mut self, from: Gst) {
        if self.stretches.len() == STRETCHES {
            self.leave_out();
        }
        self.stretches.push_back(Stretch {
            from,
            last: from,
            whole: false,
            iodnav: None,
            authentic: 0,
            bits: 0,
            wrong: 0,
            last_match: None,
            first_wrong: None,
        });
    }

    fn leave_out(&mut self) {
        if let Some(stretch) = self.stretches.pop_front() {
            self.left_out += 1;
            self.before.disputed |= stretch.is_disputed();
            self.before.older |= stretch.is_older();
            self.before.unproved.add(&stretch);
        }
    }

    /// Whether some of it is disputed.
    pub fn is_disputed(&self) -> bool {
        self.before.disputed || self.stretches.iter().any(Stretch::is_disputed)
    }

    /// Whether the system sent newer data than some of it while that was there.
    pub fn is_older(&self) -> bool {
        self.before.older || self.stretches.iter().any(Stretch::is_older)
    }

    /// The 549 bits that a tag which comes now is compared with, and three zero bits; none where a word
    /// lacks.
    pub fn set(&self) -> Option<[u8; SET_LEN]> {
        self.words.set()
    }

    /// What of it was not shown to be authentic.
    pub fn unproved(&self) -> Unproved {
        let mut all = self.before.unproved;
        self.stretches.iter().for_each(|stretch| all.add(stretch));
        all
    }

    /// The number of the present stretch, from 1; 0 where no word came.
    pub fn now(&self) -> u64 {
        self.left_out + self.stretches.len() as u64
    }

    /// A tag of so many bits that came at a time in the stretch of this number is authentic, agrees or
    /// is wrong. Gives the stretch, where it is kept.
    pub fn judge(
        &mut self,
        stretch: u64,
        at: Gst,
        outcome: Outcome,
        tag_bits: u32,
    ) -> Option<&Stretch> {
        let Some(place) = stretch.checked_sub(self.left_out + 1) else {
            // What else tags said of it is not known any more.
            self.before.disputed |= outcome == Outcome::Authentic;
            return None;
        };
        let stretch = self.stretches.get_mut(place as usize)?;
        if outcome == Outcome::Wrong {
            stretch.wrong += 1;
            let first = stretch.first_wrong.map_or(at, |first| first.min(at));
            stretch.first_wrong = Some(first);
        } else {
            stretch.authentic += u64::from(outcome == Outcome::Authentic);
            stretch.bits += u64::from(tag_bits);
            stretch.last_match = stretch.last_match.max(Some(at));
        }
        Some(stretch)
    }

    /// Whether no word came in the half minute before this one.
    pub fn is_old(&self, at: Gst) -> bool {
        let last = self.last_word.map(time::seconds);
        last.is_some_and(|last| last + SUBFRAME < time::seconds(at))
    }

    /// The stretches that are kept, in the order of time.
    pub fn stretches(&self) -> impl DoubleEndedIterator<Item = &Stretch> {
        self.stretches.iter()
    }
}

#[cfg(test)]
mod tests {
    use super::*;
    use Outcome::{Agrees, Authentic, Wrong};

    fn gst(half_minute: u32) -> Gst {
        Gst::new(947, half_minute * 30).unwrap()
    }

    /// A word of this type: IODnav in bits 6 to 15, and its last byte.
    fn word(kind: u8, iodnav: u16, last: u8) -> [u8; WORD_LEN] {
        let mut word = [0; WORD_LEN];
        word[0] = kind << 2 | (iodnav >> 8) as u8;
        word[1] = iodnav as u8;
        word[15] = last;
        word
    }

    fn all(data: &mut Data, at: u32, iodnav: u16) {
        for kind in 1..=5 {
            data.word(gst(at), &word(kind, iodnav, 0));
        }
    }

    #[test]
    fn changes_part_stretches() {
        let mut data = Data::default();
        assert_eq!(data.now(), 0);
        all(&mut data, 0, 66);
        all(&mut data, 1, 66);
        assert_eq!(data.now(), 1);
        // Spare bits are not authenticated; the last byte of word 3 is.
        assert_eq!(data.word(gst(2), &word(1, 66, 3)), None);
        assert_eq!(data.word(gst(2), &word(5, 66, 255)), None);
        let change = data.word(gst(2), &word(3, 66, 1)).unwrap();
        assert_eq!(
            change,
            Change {
                from: Some(66),
                to: Some(66)
            }
        );
        all(&mut data, 3, 67);
        assert_eq!(data.now(), 3);
        let told: Vec<_> = data
            .stretches()
            .map(|s| (s.from, s.whole, s.iodnav))
            .collect();
        assert_eq!(
            told,
            [
                (gst(0), true, Some(66)),
                (gst(2), true, Some(66)),
                (gst(3), true, Some(67))
            ]
        );
        for stretch in [0, 4] {
            assert_eq!(data.judge(stretch, gst(4), Authentic, 12), None);
        }
        let stretch = data.judge(3, gst(4), Authentic, 12).unwrap();
        assert_eq!((stretch.authentic, stretch.bits), (1, 12));
    }

    // 549 bits of five words in order: of all ones the last three bits are zero, and each word's first and
    // last authenticated bit stand where the lengths of those before it put them.
    #[test]
    fn sets() {
        let held = |word: u128| Words([Some(word); 5]).set().unwrap();
        let mut ones = [255; SET_LEN];
        ones[SET_LEN - 1] = 0xF8;
        assert_eq!(held(u128::MAX), ones);
        assert_eq!(held(0), [0; SET_LEN]);
        assert_eq!(held(!(u128::MAX >> 6)), [0; SET_LEN]);
        let mut at = 0;
        for (kind, last) in [125, 125, 127, 125, 72].into_iter().enumerate() {
            for bit in [6, last] {
                let mut words = Words([Some(0); 5]);
                words.0[kind] = Some(1 << (127 - bit));
                let place = at + bit - 6;
                let mut set = [0; SET_LEN];
                set[place / 8] = 128 >> (place % 8);
                assert_eq!(words.set(), Some(set), "word {kind}, bit {bit}");
            }
            at += last - 5;
        }
        let mut lacks = Words([Some(0); 5]);
        lacks.0[3] = None;
        assert_eq!(lacks.set(), None);
    }

    // Of marked data: a tag that matches with or after a wrong one; one alone before it, of 12 bits and of
    // 40; many before it. Data that tags only agree with is not marked, so that nothing is disputed.
    #[test]
    fn disputed() {
        let judged = |tags: &[(u32, Outcome)], bits: u32| {
            let mut data = Data::default();
            all(&mut data, 0, 66);
            for &(at, outcome) in tags {
                data.judge(1, gst(at), outcome, bits);
            }
            let stretch = data.stretches().next().unwrap();
            (stretch.is_disputed(), stretch.is_older())
        };
        let many = [(1, Agrees), (2, Agrees), (3, Agrees), (4, Authentic)];
        for tags in [&[][..], &many, &[(1, Wrong)], &[(1, Agrees), (1, Wrong)]] {
            assert_eq!(judged(tags, 12), (false, false));
        }
        let then = |more: &[(u32, Outcome)]| judged(&[&many[..], more].concat(), 12);
        assert_eq!(then(&[(5, Wrong), (6, Wrong)]), (false, true));
        assert_eq!(then(&[(4, Wrong)]), (true, false));
        assert_eq!(then(&[(5, Wrong), (6, Authentic)]), (true, false));
        let one = [(1, Authentic), (2, Wrong), (3, Wrong)];
        assert_eq!(
            (judged(&one, 12), judged(&one, 40)),
            ((true, false), (false, true))
        );
    }

    // Data that tags agree with, by too few bits, is told apart from data without a tag.
    #[test]
    fn short() {
        let mut data = Data::default();
        all(&mut data, 0, 66);
        data.judge(1, gst(1), Agrees, 12);
        all(&mut data, 2, 67);
        let unproved = data.unproved();
        assert_eq!(
            (unproved.span, unproved.short, unproved.longest),
            (Some((gst(2), gst(2))), Some((gst(0), gst(0))), 60)
        );
        data.judge(1, gst(1), Authentic, 12);
        assert_eq!((data.unproved().short, data.unproved().longest), (None, 0));
    }

    // Words that do not go together can be compared with nothing, however often they change.
    #[test]
    fn unproved() {
        let mut data = Data::default();
        assert_eq!(data.unproved(), Unproved::default());
        all(&mut data, 0, 66);
        data.judge(1, gst(1), Authentic, 40);
        all(&mut data, 1, 66);
        assert_eq!(data.unproved().span, None);
        for at in 2..9 {
            data.word(gst(at), &word(1, at as u16, 0));
        }
        let unproved = data.unproved();
        assert_eq!(
            (unproved.span, unproved.longest),
            (Some((gst(2), gst(8))), 180)
        );
        all(&mut data, 9, 66);
        data.judge(data.now(), gst(10), Authentic, 40);
        data.word(gst(10), &word(1, 70, 0));
        let unproved = data.unproved();
        assert_eq!(
            (unproved.span, unproved.longest),
            (Some((gst(2), gst(10))), 180)
        );
    }

    #[test]
    fn old() {
        let mut data = Data::default();
        assert!(!data.is_old(gst(9)));
        all(&mut data, 1, 66);
        assert!(!data.is_old(gst(2)) && data.is_old(gst(3)));
    }

    // However often the data changes, a bounded number of stretches.
    #[test]
    fn bounded() {
        let mut data = Data::default();
        for n in 0..1_000 {
            all(&mut data, n, n as u16 % 1_024);
        }
        assert_eq!((data.now(), data.stretches().count()), (1_000, STRETCHES));
        let unproved = |data: &Data| (data.unproved().span, data.unproved().longest);
        assert_eq!(unproved(&data), (Some((gst(0), gst(999))), 999 * 30));
        data.judge(1_000, gst(1_000), Authentic, 40);
        assert_eq!(unproved(&data), (Some((gst(0), gst(998))), 998 * 30));
        assert!(!data.is_disputed());
        // A match of data that is no more kept: others may have called it wrong.
        assert_eq!(data.judge(3, gst(1_000), Agrees, 12), None);
        assert!(!data.is_disputed());
        assert_eq!(data.judge(3, gst(1_000), Authentic, 40), None);
        assert!(data.is_disputed());
        let matched: Vec<Gst> = data
            .stretches()
            .filter(|s| s.authentic > 0)
            .map(|s| s.from)
            .collect();
        assert_eq!(matched, [gst(999)]);
    }
}
