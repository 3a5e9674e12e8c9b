//! The air as a receiver hears it, and what a collector must lend of it: an own and plain statement of its rules.

use signal::air::{page, END, FIELD, PAGE, PART, WORD};
use signal::bits;
use signal::navdata::Word;
use signal::replay::{subframe_marked, word, RECORD};
use signal::rng::Rng;
use signal::subframe::{without, Field};
use signal::time::Gst;
use std::collections::BTreeMap;

/// What a record of the air brings.
#[derive(Clone)]
struct Item {
    prn: u8,
    /// GST_SF.
    time: u32,
    word: Option<Word>,
    /// The page that it comes on, and its field.
    field: Option<(usize, [u8; 5])>,
}

/// The bytes of a record from a place on.
fn bytes<const N: usize>(record: &[u8], at: usize) -> [u8; N] {
    record[at..at + N].try_into().expect("as many")
}

impl Item {
    /// Nothing where it brings no page, word or field.
    fn of(r: &[u8]) -> Option<Item> {
        let (prn, time) = (r[1], u32::from_be_bytes(bytes(r, 2)));
        let item = |time, word, field| {
            Some(Item {
                prn,
                time,
                word,
                field,
            })
        };
        match r[0] {
            WORD => item(time, Some(bytes(r, 6)), None),
            FIELD => item(time, None, Some((r[6].into(), bytes(r, 7)))),
            PAGE => {
                let (even, odd): ([u8; PART], [u8; PART]) = (bytes(r, 6), bytes(r, 21));
                let (mut word, mut field) = ([0; 16], [0; 5]);
                bits::copy(&mut word, 0, &even, 2, 112);
                bits::copy(&mut word, 112, &odd, 2, 16);
                bits::copy(&mut field, 0, &odd, 18, 40);
                // The pages of a sub-frame begin at its seconds 1, 3 .. 29.
                let second = (time & 0xF_FFFF) % 30;
                let place = (second / 2) as usize;
                item(time - second, Some(word), Some((place, field)))
            }
            _ => None,
        }
    }

    fn record(&self) -> Vec<u8> {
        let time = |past: u32| (self.time + past).to_be_bytes();
        let mut record = match (self.word, self.field) {
            (Some(word), Some((place, field))) => {
                let (even, odd) = page(&word, &field);
                let began = time(1 + 2 * place as u32);
                [&[PAGE, self.prn][..], &began, &even, &odd].concat()
            }
            (None, Some((place, field))) => {
                [&[FIELD, self.prn][..], &time(0), &[place as u8], &field].concat()
            }
            (word, None) => [&[WORD, self.prn][..], &time(0), &word.unwrap_or([0; 16])].concat(),
        };
        record.resize(RECORD, 0);
        record
    }

    /// A word 4 of another satellite, a satellite that there is not or a time that begins no sub-frame.
    fn is_refused(&self) -> bool {
        let second = self.time & 0xF_FFFF;
        let named = |word: Word| word[0] >> 2 != 4 || word[2] >> 2 == self.prn;
        let is_start = second <= 604_770 && second.is_multiple_of(30);
        !(1..=36).contains(&self.prn) || !is_start || !self.word.is_none_or(named)
    }

    /// The same with other bits, as from a repeater; the type of the word stays.
    fn other(&self, rng: &mut Rng) -> Item {
        let mut other = self.clone();
        if let Some(word) = &mut other.word {
            rng.fill(&mut word[3..]);
        }
        if let Some((_, field)) = &mut other.field {
            rng.fill(field);
        }
        other
    }
}

/// Puts in any order.
fn shuffle(items: &mut [Item], rng: &mut Rng) {
    for at in (1..items.len()).rev() {
        items.swap(at, rng.below(at as u64 + 1) as usize);
    }
}

/// A half minute as it is heard. What is held back comes in a later one.
fn disturbed_half_minute(items: Vec<Item>, held_back: &mut Vec<Item>, rng: &mut Rng) -> Vec<Item> {
    // A satellite that rises or sets, and when.
    let changes = rng.range(1, 36) as u8;
    let (moment, rises) = (rng.below(15) as usize, rng.once_in(2));
    let mut late = std::mem::take(held_back);
    let mut heard = Vec::new();
    for item in items {
        let place = item.field.map_or(0, |(place, _)| place);
        let hidden = item.prn == changes && (place < moment) == rises;
        if hidden || rng.once_in(40) {
            continue;
        }
        match rng.below(60) {
            0 => held_back.push(item),
            // Twice the same; the right one after another, or before it.
            1 => heard.extend([item.clone(), item]),
            2 => heard.extend([item.other(rng), item]),
            3 => heard.extend([item.clone(), item.other(rng)]),
            _ => heard.push(item),
        }
    }
    match rng.below(4) {
        0 => shuffle(&mut heard, rng),
        // Satellite by satellite, each in the order of the air.
        1 => heard.sort_by_key(|item| item.prn),
        _ => {}
    }
    let at = heard.len().min(1);
    shuffle(&mut late, rng);
    heard.splice(at..at, late);
    heard
}

/// The later half of a half minute, as of the one before it: the receiver is turned on in its middle.
fn before(items: &[Item]) -> Vec<Item> {
    let half = items[items.len() / 2..].iter().cloned();
    let earlier = |item: Item| Item {
        time: Gst(item.time).plus(-1).0,
        ..item
    };
    half.map(earlier).collect()
}

/// Records of the air, disturbed half minute by half minute; starts, verdicts and ends stay where they are. Up to the first
/// verdict, which is on a message that must have come, pages are only put in another order. Once a page has a time some
/// half minutes ahead, and until then all others are late.
pub fn disturbed(air: &[u8], rng: &mut Rng) -> Vec<u8> {
    let records: Vec<&[u8]> = air.chunks_exact(RECORD).collect();
    let time = |r: &&[u8]| Item::of(r).map(|item| item.time);
    let half_minutes = records.chunk_by(|a, b| time(a).is_some() && time(a) == time(b));
    let (mut out, mut held_back, mut vouched) = (Vec::new(), Vec::new(), None);
    let jump = rng.range(10, 20) as usize;
    for (at, half_minute) in half_minutes.enumerate() {
        let items: Vec<Item> = half_minute.iter().filter_map(|r| Item::of(r)).collect();
        let mut heard = Vec::new();
        if items.is_empty() {
            // What was held back is not heard any more.
            held_back.clear();
            out.extend(half_minute.concat());
            if half_minute[0][0] == 4 {
                vouched.get_or_insert(at);
            }
        } else if let Some(vouched) = vouched {
            heard = disturbed_half_minute(items, &mut held_back, rng);
            if at == vouched + jump {
                let ahead = rng.range(2, 4) as i64;
                let early = heard.last().map(|item| Item {
                    time: Gst(item.time).plus(ahead).0,
                    ..item.clone()
                });
                heard.extend(early);
            }
        } else {
            if at == 1 {
                heard = before(&items);
            }
            let from = heard.len();
            heard.extend(items);
            shuffle(&mut heard[from..], rng);
        }
        heard.iter().for_each(|item| out.extend(item.record()));
    }
    out
}

/// What a satellite sent in a half minute.
#[derive(Default)]
struct Sent {
    fields: BTreeMap<usize, [u8; 5]>,
    /// By type.
    words: BTreeMap<u8, Word>,
}

/// Lends a half minute: the sub-frames of all satellites, then the words of all.
fn lend(time: u32, sent: &BTreeMap<u8, Sent>, out: &mut Vec<u8>) {
    for (&prn, sent) in sent.iter().filter(|(_, sent)| !sent.fields.is_empty()) {
        let lost: Vec<usize> = (0..15).filter(|at| !sent.fields.contains_key(at)).collect();
        let mut fields: Field = [0xA5; 75];
        for (at, field) in &sent.fields {
            fields[5 * at..][..5].copy_from_slice(field);
        }
        out.extend(subframe_marked(prn, Gst(time), without(&lost), &fields));
    }
    for (&prn, sent) in sent {
        for bytes in sent.words.values() {
            out.extend(word(prn, Gst(time), bytes));
        }
    }
}

/// What a receiver with a collector lends of records of the air, as a recording. Of what comes twice the later counts; what
/// is earlier than the half minute that began is not taken.
pub fn heard(air: &[u8]) -> Vec<u8> {
    let mut out = Vec::new();
    let (mut now, mut sent) = (None, BTreeMap::<u8, Sent>::new());
    for r in air.chunks_exact(RECORD) {
        let Some(item) = Item::of(r) else {
            match (r[0], now.take()) {
                (END, Some(time)) => lend(time, &std::mem::take(&mut sent), &mut out),
                (END, None) => {}
                (_, now) => {
                    assert_eq!(now, None, "an end comes before a start or verdict");
                    out.extend(r);
                }
            }
            continue;
        };
        if item.is_refused() || now.is_some_and(|now| item.time < now) {
            continue;
        }
        if let Some(before) = now.filter(|&now| item.time > now) {
            lend(before, &std::mem::take(&mut sent), &mut out);
        }
        now = Some(item.time);
        let sent = sent.entry(item.prn).or_default();
        if let Some((place, field)) = item.field {
            sent.fields.insert(place, field);
        }
        if let Some(word) = item.word.filter(|word| matches!(word[0] >> 2, 1..=5)) {
            sent.words.insert(word[0] >> 2, word);
        }
    }
    if let Some(time) = now {
        lend(time, &sent, &mut out);
    }
    out
}
