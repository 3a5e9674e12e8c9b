//! A recording in the order of the air: its words and sub-frames cut into E1-B pages, page by page and satellites side
//! by side, as a receiver that has the collector of `rust/osnma` or `include/osnma_collector.h` gets them.
//!
//! The result has records of 256 bytes like a recording. Starts and verdicts stand as they are. Beside them:
//!
//! - [`PAGE`]: PRN, week and second at which its even part began (12 and 20 bits), its even and its odd part of 15 bytes;
//! - [`FIELD`] and [`WORD`]: PRN, GST_SF and the place and 40-bit field of a page, or a word. Every fourth satellite comes
//!   so, as from a receiver that has taken its pages apart; so do words without a page, and those that a collector must
//!   refuse;
//! - [`END`]: the half minute is over, and the next one begins with nothing lent.
//!
//! Sub-frames that no pages can bring (of no satellite, at no time, with no field received) stand as they are too. A
//! half minute whose records a receiver would lend in another order (a sub-frame after a word, or of a lower PRN) is cut
//! where it happens.

use crate::bits;
use crate::navdata::Word;
use crate::replay::{record, RECORD};
use crate::subframe::{came, Received, ALL_CAME};
use std::collections::BTreeMap;

/// Kind of a record that brings a page.
pub const PAGE: u8 = 80;
/// Kind of a record that brings a word alone.
pub const WORD: u8 = 81;
/// Kind of a record that ends a half minute.
pub const END: u8 = 82;
/// Kind of a record that brings the field of a page alone.
pub const FIELD: u8 = 83;

/// Pages of a sub-frame.
const PAGES: usize = 15;
/// Bytes of a part of a page.
pub const PART: usize = 15;

/// A page: its even and its odd part. What a receiver does not read, from the SAR field on, is ones.
pub fn page(word: &Word, field: &[u8]) -> ([u8; PART], [u8; PART]) {
    let (mut even, mut odd) = ([0xFF; PART], [0xFF; PART]);
    bits::put(&mut even, 0, 2, 0b00);
    bits::put(&mut odd, 0, 2, 0b10);
    bits::copy(&mut even, 2, word, 0, 112);
    bits::copy(&mut odd, 2, word, 112, 16);
    bits::copy(&mut odd, 18, field, 0, 40);
    (even, odd)
}

/// The page that a word's type has in table 26 of 000.
fn page_of(word: &Word) -> usize {
    match word[0] >> 2 {
        2 => 0,
        4 => 1,
        1 => 10,
        3 => 11,
        5 => 12,
        _ => 2,
    }
}

/// When the even part of a page of the sub-frame at `time` began: 000, table 26.
fn began(time: &[u8; 4], page: usize) -> [u8; 4] {
    (u32::from_be_bytes(*time) + 1 + 2 * page as u32).to_be_bytes()
}

/// A word of type 63, the dummy word.
const DUMMY: Word = [0xFF; 16];

/// Whether a satellite's pages come taken apart.
fn comes_apart(prn: u8) -> bool {
    prn % 4 == 3
}

/// A satellite's sub-frame and the words on its pages.
struct Sent {
    marks: Received,
    fields: Vec<u8>,
    words: [Option<Word>; PAGES],
}

impl Sent {
    /// Puts the word on the first page from its own on that came and has none.
    fn put(&mut self, word: &Word) -> bool {
        let free = |&page: &usize| came(self.marks, page) && self.words[page].is_none();
        let page = (page_of(word)..PAGES).find(free);
        if let Some(page) = page {
            self.words[page] = Some(*word);
        }
        page.is_some()
    }
}

#[derive(Default)]
struct Air {
    out: Vec<u8>,
    /// GST_SF of the half minute that is cut.
    time: [u8; 4],
    /// By PRN.
    sent: BTreeMap<u8, Sent>,
    /// Words of satellites without a sub-frame, and those that no page is left for.
    before: Vec<[u8; RECORD]>,
    after: Vec<[u8; RECORD]>,
    words_began: bool,
}

impl Air {
    fn is_empty(&self) -> bool {
        self.sent.is_empty() && !self.words_began
    }

    /// Writes the half minute in the order of the air.
    fn send(&mut self) {
        self.before.drain(..).for_each(|word| self.out.extend(word));
        for at in 0..PAGES {
            // The satellite of the highest PRN first, so that the collector has something to put in order.
            for (&prn, sent) in self.sent.iter().rev() {
                if !came(sent.marks, at) {
                    continue;
                }
                let time = &self.time;
                let (word, field) = (sent.words[at].unwrap_or(DUMMY), &sent.fields[5 * at..][..5]);
                if comes_apart(prn) {
                    self.out.extend(record(&[&[WORD, prn], time, &word]));
                    self.out
                        .extend(record(&[&[FIELD, prn], time, &[at as u8], field]));
                } else {
                    let (even, odd) = page(&word, field);
                    self.out
                        .extend(record(&[&[PAGE, prn], &began(time, at), &even, &odd]));
                }
            }
        }
        self.after.drain(..).for_each(|word| self.out.extend(word));
        self.sent.clear();
        self.words_began = false;
    }

    /// The same, and the receiver is told that it is over.
    fn end(&mut self) {
        if !self.is_empty() {
            self.send();
            self.out.extend(record(&[&[END]]));
        }
    }

    /// A record of the half minute at `time`, which `fits` behind what there is of it. Only a later half minute shows
    /// the receiver by itself that this one is over.
    fn at(&mut self, time: [u8; 4], fits: bool) {
        if time > self.time {
            self.send();
        } else if time < self.time || !fits {
            self.end();
        }
        self.time = time;
    }

    fn word(&mut self, r: &[u8], time: [u8; 4]) {
        let prn = r[1];
        let word: Word = r[6..22].try_into().expect("16 bytes");
        let alone = record(&[&[WORD], &r[1..22]]);
        if word[0] >> 2 == 4 && word[2] >> 2 != prn {
            self.out.extend(alone);
            return;
        }
        self.at(time, true);
        self.words_began = true;
        match self.sent.get_mut(&prn) {
            None => self.before.push(alone),
            Some(sent) => {
                if !sent.put(&word) {
                    self.after.push(alone);
                }
            }
        }
    }

    fn subframe(&mut self, r: &[u8], time: [u8; 4], marks: Received) {
        let last = self.sent.keys().next_back();
        let fits = !self.words_began && last.is_none_or(|last| r[1] > *last);
        self.at(time, fits);
        let sent = Sent {
            marks,
            fields: r[6..81].to_vec(),
            words: [None; PAGES],
        };
        self.sent.insert(r[1], sent);
    }

    fn record(&mut self, r: &[u8]) {
        let time: [u8; 4] = r[2..6].try_into().expect("4 bytes");
        let second = u32::from_be_bytes(time) & 0xF_FFFF;
        let on_air = (1..=36).contains(&r[1]) && second <= 604_770 && second.is_multiple_of(30);
        let marks = match r[0] {
            6 => Received::from_be_bytes([r[81], r[82]]) & ALL_CAME,
            _ => ALL_CAME,
        };
        match r[0] {
            2 if on_air => self.word(r, time),
            2 => self.out.extend(record(&[&[WORD], &r[1..22]])),
            3 | 6 if on_air && marks != 0 => self.subframe(r, time, marks),
            1 | 3 | 4 | 6 => {
                self.end();
                self.out.extend(r);
            }
            _ => {}
        }
    }
}

/// Cuts a recording. A short last record and records of other kinds are left out.
pub fn cut(recording: &[u8]) -> Vec<u8> {
    let mut air = Air::default();
    recording
        .chunks_exact(RECORD)
        .for_each(|record| air.record(record));
    air.end();
    air.out
}

#[cfg(test)]
mod tests {
    use super::*;
    use crate::replay;
    use crate::time::Gst;

    fn kinds(air: &[u8]) -> Vec<u8> {
        air.chunks_exact(RECORD).map(|record| record[0]).collect()
    }

    /// PRN of each record, and the second of its half minute.
    fn places(air: &[u8]) -> Vec<(u8, u32)> {
        let second = |r: &[u8]| bits::get(r, 28, 20) as u32 % 30;
        let records = air.chunks_exact(RECORD);
        records.map(|r| (r[1], second(r))).collect()
    }

    // The word is on both parts, the field on the odd one: 000, table 26, the first page.
    #[test]
    fn parts() {
        let mut word = [0; 16];
        word[..4].copy_from_slice(&[0x08, 0x50, 0xA1, 0xEF]);
        word[15] = 1;
        let (even, odd) = page(&word, &[0x18, 0x24, 0x44, 0x8F, 0x40]);
        assert_eq!(even[..4], [0x02, 0x14, 0x28, 0x7B]);
        assert_eq!((even[13], even[14]), (0x00, 0x3F));
        assert_eq!(odd[..4], [0x80, 0x00, 0x46, 0x09]);
    }

    #[test]
    fn order_of_the_air() {
        let gst = Gst::new(947, 432_000);
        let word = |kind: u8| [kind << 2; 16];
        let mut input = Vec::new();
        for prn in [2, 6] {
            input.extend(replay::subframe(prn, gst, &[prn; 75]));
        }
        for kind in [1, 2] {
            input.extend(replay::word(6, gst, &word(kind)));
        }
        input.extend(replay::word(9, gst, &word(1)));
        let air = cut(&input);
        assert_eq!(kinds(&air), [&[WORD][..], &[PAGE; 30], &[END]].concat());
        assert_eq!(places(&air)[1..5], [(6, 1), (2, 1), (6, 3), (2, 3)]);
        // A sub-frame behind a word of its half minute, and one of a lower PRN, are of another lending; so is what
        // comes before a verdict. A later time needs no end.
        input.extend(replay::subframe(8, gst, &[8; 75]));
        input.extend(replay::subframe(2, gst, &[2; 75]));
        input.extend(replay::subframe(2, gst.plus(1), &[2; 75]));
        let ends = |input: &[u8]| kinds(&cut(input)).iter().filter(|&&k| k == END).count();
        assert_eq!(ends(&input), 3);
        // Lost pages are not there, and their words find others.
        let marks = crate::subframe::without(&[0, 2]);
        let mut input = replay::subframe_marked(4, gst, marks, &[3; 75]).to_vec();
        input.extend(replay::word(4, gst, &word(2)));
        let pages = [1, 3, 4, 5, 6, 7, 8, 9, 10, 11, 12, 13, 14].map(|page| (4, 1 + 2 * page));
        assert_eq!(places(&cut(&input))[..13], pages);
        // Every fourth satellite comes taken apart.
        let apart = kinds(&cut(&replay::subframe(3, gst, &[3; 75])));
        assert_eq!(apart, [&[WORD, FIELD].repeat(15)[..], &[END]].concat());
        // No page can bring these.
        for record in [
            replay::subframe(37, gst, &[1; 75]),
            replay::subframe(3, Gst(gst.0 + 1), &[1; 75]),
            replay::subframe_marked(3, gst, 1, &[1; 75]),
        ] {
            assert_eq!(cut(&record), record);
        }
    }
}
