//! What the second receiver answers to a recording, and the sheet of the same.

// Each test file uses some of this.
#![allow(dead_code)]

use jobsheet::csv::Rows;
use jobsheet::history::History;
use jobsheet::recording::RECORD_LEN;
use jobsheet::sheet::{RunSheet, Sheet};
use jobsheet::{html, text};
use second_receiver::navdata::SET_LEN;
use second_receiver::progress::Progress;
use second_receiver::receiver::RECORDS_LEN;
use second_receiver::replay::{answer, replay};
use second_receiver::sets::Candidate;
use second_receiver::verdict::WaitingMessage;
use second_receiver::Receiver;
use signal::scenario::{self, SEED};
use std::collections::BTreeMap;
use std::sync::{Arc, OnceLock};

/// Chains of a million slots and more, which other tests walk.
const LONG: [&str; 5] = ["sections", "gaps", "held_key", "gap_full", "sha3_gaps"];

/// The other named scenarios that end in a whole record, and some random runs.
fn built() -> Vec<(String, Vec<u8>)> {
    let left_out = |name| name == "short_record" || LONG.contains(&name);
    let named = scenario::all().iter().filter(|s| !left_out(s.name));
    let named = named.map(|s| (s.name.to_string(), s.run(SEED).bytes));
    let random = (0..24).map(|seed| (format!("random {seed}"), scenario::random(seed).bytes));
    named
        .chain(random)
        .chain([
            ("few heard".to_string(), few_heard()),
            ("spoiled word".to_string(), spoiled_word()),
            ("short".to_string(), short_of_a_mark()),
            ("newer data short".to_string(), newer_data_short()),
            ("late keys".to_string(), late_keys()),
            ("no first block".to_string(), without_block(0)),
            ("no last block".to_string(), without_block(7)),
            ("few new keys".to_string(), few_new_keys()),
            ("no keys of two".to_string(), lost(&few_new_keys(), 7)),
            ("chip says no".to_string(), chip_says_no()),
            ("late again".to_string(), late_again()),
            ("no new keys".to_string(), withdrawn(Some(6))),
            ("new keys denied".to_string(), withdrawn(None)),
        ])
        .map(|(name, mut bytes)| {
            bytes.truncate(bytes.len() / RECORD_LEN * RECORD_LEN);
            (name, bytes)
        })
        .collect()
}

/// The fitter's half hour with three of its satellites heard from the fifth minute on: the system goes
/// on with tags for the others.
pub fn few_heard() -> Vec<u8> {
    let bytes = recording("fitter");
    let time = |r: &[u8]| u32::from_be_bytes([r[2], r[3], r[4], r[5]]);
    let records = || bytes.chunks_exact(RECORD_LEN);
    let subframes = records().filter(|r| r[0] == 3);
    let fifth = subframes.map(time).min().unwrap() + 300;
    let heard = |r: &&[u8]| ![2, 3].contains(&r[0]) || [25, 31, 36].contains(&r[1]);
    let kept = records().filter(|r| heard(r) || time(r) < fifth);
    kept.flatten().copied().collect()
}

/// Twelve minutes in which, from the fourth on, a repeater spoils one word of satellite 9: its data can be
/// compared with nothing, so that no tag is wrong.
pub fn spoiled_word() -> Vec<u8> {
    let mut bytes = recording("nominal");
    let from = bytes.len() / RECORD_LEN / 3;
    for record in bytes.chunks_exact_mut(RECORD_LEN).skip(from) {
        if record[..2] == [2, 9] && record[6] >> 2 == 1 {
            record[7] ^= 0x55;
        }
    }
    bytes
}

/// The records up to the first after which the second receiver holds such sets.
fn cut(name: &str, such: impl Fn(&Held) -> bool) -> Vec<u8> {
    let mut bytes = recording(name);
    let held = Held::after_each(&bytes);
    let place = held.iter().position(|held| such(held)).unwrap();
    bytes.truncate((place + 1) * RECORD_LEN);
    bytes
}

/// The fitter's half hour, cut off after the first section whose tags agree with data: none is marked yet.
pub fn short_of_a_mark() -> Vec<u8> {
    cut("fitter", |held| !held.candidates.is_empty())
}

/// Cut off while the newer data of satellite 18 is a candidate and the older one marked.
pub fn newer_data_short() -> Vec<u8> {
    let is = |held: &Held| held.sets.contains_key(&18) && held.candidates.contains_key(&18);
    cut("nominal", is)
}

/// The block ID of a record that has a block of the fitter's message.
fn block(r: &[u8]) -> Option<u8> {
    (r[0] == 3 && r[11] >> 4 == 5).then_some(r[11] & 15)
}

/// A recording in which one block of the fitter's message is never heard and the chip says nothing: that
/// message never comes whole.
fn lost(bytes: &[u8], id: u8) -> Vec<u8> {
    let records = bytes.chunks_exact(RECORD_LEN);
    let kept = records.filter(|r| r[0] != 4 && block(r) != Some(id));
    kept.flatten().copied().collect()
}

/// The fitter's half hour so.
pub fn without_block(id: u8) -> Vec<u8> {
    lost(&recording("fitter"), id)
}

/// The fitter's half hour in which two satellites are heard at first, one of them not in the fourth half
/// minute, and the others from the ninth on, so that the message with the keys comes whole late. A
/// verdict follows it.
pub fn late_keys() -> Vec<u8> {
    let bytes = recording("fitter");
    let records = || bytes.chunks_exact(RECORD_LEN);
    let first = records().find(|r| r[0] == 3).map(subframe_time).unwrap();
    let heard = |r: &&[u8]| match (r[1], (subframe_time(r) - first) / 30) {
        (_, 8..) | (14, _) => true,
        (7, half_minute) => half_minute != 3,
        _ => false,
    };
    let kept = records().filter(|r| r[0] == 1 || [2, 3].contains(&r[0]) && heard(r));
    let kept: Vec<u8> = kept.flatten().copied().collect();
    let held = Held::after_each(&kept);
    let whole = held.iter().position(|held| held.message.is_some()).unwrap() + 1;
    let (before, after) = kept.split_at(whole * RECORD_LEN);
    let verdict = records().find(|r| r[0] == 4).unwrap();
    [before, verdict, after].concat()
}

/// The fitter's half hour in which, from the sixth minute on, two satellites send four blocks of a public
/// key, which has fourteen, and of other keys, which have eight. A third does so for four minutes, then sends
/// blocks that are refused.
pub fn few_new_keys() -> Vec<u8> {
    let mut bytes = recording("fitter");
    let first = bytes.chunks_exact(RECORD_LEN).find(|r| r[0] == 3);
    let sixth = first.map(subframe_time).unwrap() + 300;
    for r in bytes.chunks_exact_mut(RECORD_LEN) {
        let (dsm_id, nb) = match r[1] {
            4 => (13, 8),
            11 => (6, 2),
            27 => (7, 2),
            _ => continue,
        };
        let refused = r[1] == 27 && subframe_time(r) >= sixth + 240;
        if let (Some(block), true) = (block(r), subframe_time(r) >= sixth) {
            let id = if refused { 9 } else { block & 3 };
            r[11] = dsm_id << 4 | id;
            (2..15).for_each(|byte| r[6 + 5 * byte] = id);
            r[16] |= if id == 0 { nb << 4 } else { 0 };
        }
    }
    bytes
}

/// The fitter's half hour in which one block is not heard from the third minute to the fifteenth: the message
/// with the keys comes whole again late.
pub fn late_again() -> Vec<u8> {
    let bytes = recording("fitter");
    let records = || bytes.chunks_exact(RECORD_LEN);
    let first = records().find(|r| r[0] == 3).map(subframe_time).unwrap();
    let lost = |r: &&[u8]| block(r) == Some(7) && (120..900).contains(&(subframe_time(r) - first));
    let kept = records().filter(|r| !lost(r));
    kept.flatten().copied().collect()
}

/// The keys are withdrawn, and so many sub-frames come after it; or all, and the chip says no.
pub fn withdrawn(subframes: Option<usize>) -> Vec<u8> {
    let mut bytes = recording("chain_revoked");
    let records = || bytes.chunks_exact(RECORD_LEN);
    let dropped = records().position(|r| r[0] == 4 && r[3] >> 6 == 3);
    let after = dropped.unwrap() + 1;
    let mut last = records().enumerate().skip(after).filter(|(_, r)| r[0] == 3);
    let last = subframes.map(|n| last.nth(n - 1).unwrap().0);
    for r in bytes.chunks_exact_mut(RECORD_LEN).skip(after) {
        r[1] &= if r[0] == 4 { 0 } else { 255 };
    }
    bytes.truncate(last.map_or(bytes.len(), |last| (last + 1) * RECORD_LEN));
    bytes
}

/// The fitter's half hour in which the chip says no whenever the message with the keys is whole.
pub fn chip_says_no() -> Vec<u8> {
    let bytes = recording("fitter");
    let records = || bytes.chunks_exact(RECORD_LEN);
    let mut no = records().find(|r| r[0] == 4).unwrap().to_vec();
    no[1] = 0;
    let (mut receiver, mut area) = (Receiver::new(), [0; RECORDS_LEN]);
    let mut kept = Vec::new();
    for r in records().filter(|r| r[0] != 4) {
        kept.extend(r);
        answer(&mut receiver, r.try_into().unwrap(), &mut area);
        if receiver.waiting_message().is_some() {
            kept.extend(&no);
            answer(&mut receiver, no[..].try_into().unwrap(), &mut area);
        }
    }
    kept
}

/// Them all, built once.
pub fn recordings() -> &'static [(String, Vec<u8>)] {
    static ALL: OnceLock<Vec<(String, Vec<u8>)>> = OnceLock::new();
    ALL.get_or_init(built)
}

pub fn recording(name: &str) -> Vec<u8> {
    scenario::find(name).unwrap().run(SEED).bytes
}

/// What the core answered, through the program's own library.
pub fn history(recording: &[u8]) -> History {
    jobsheet::replay(recording, |_| ()).unwrap()
}

/// The rows of a recording, through the program's own library.
pub fn rows(recording: &[u8]) -> String {
    let mut rows = Rows::new(Vec::new());
    jobsheet::replay(recording, |history| rows.note(history)).unwrap();
    String::from_utf8(rows.finish().unwrap()).unwrap()
}

/// One line of the second receiver's replay and the tag records under it.
#[derive(Clone, Debug)]
pub struct Line {
    pub place: u64,
    pub first: u32,
    pub second: u32,
    pub tags: Vec<[u8; 12]>,
    /// What the second receiver holds after it.
    pub after: Arc<Held>,
}

/// What a receiver holds.
#[derive(Clone, Debug, Default)]
pub struct Held {
    /// By satellite, what a read gives: IODnav and the time of the tag.
    pub sets: BTreeMap<u8, (u16, u32)>,
    /// By satellite, what no read gives.
    pub candidates: BTreeMap<u8, Candidate>,
    /// By DSM ID.
    pub progress: Vec<Progress>,
    /// What waits for a verdict.
    pub message: Option<WaitingMessage>,
    /// Whether a chain is in force.
    pub in_force: bool,
}

impl Held {
    fn of(receiver: &Receiver) -> Held {
        let read = |prn: u8| {
            let read = receiver.read_set(prn, &mut [0; SET_LEN]);
            (read.number == 0).then_some((prn, (read.iodnav, read.time)))
        };
        let candidate = |prn| Some((prn, receiver.candidate(prn)?.clone()));
        Held {
            sets: (1..=36).filter_map(read).collect(),
            candidates: (1..=36).filter_map(candidate).collect(),
            progress: receiver.progress().to_vec(),
            message: receiver.waiting_message().cloned(),
            in_force: receiver.chain().is_some(),
        }
    }

    /// After each whole record.
    fn after_each(recording: &[u8]) -> Vec<Arc<Held>> {
        let (mut receiver, mut area) = (Receiver::new(), [0; RECORDS_LEN]);
        let mut held = Arc::new(Held::default());
        let records = recording.chunks_exact(RECORD_LEN);
        let after = |record: &[u8]| {
            answer(&mut receiver, record.try_into().unwrap(), &mut area);
            // A word leaves them as they are.
            if record[0] != 2 {
                held = Arc::new(Held::of(&receiver));
            }
            held.clone()
        };
        records.map(after).collect()
    }
}

/// The second receiver's replay: its text, its lines taken apart, and the receiver after them.
pub fn second(recording: &[u8]) -> Replayed {
    let mut text = Vec::new();
    let receiver = replay(recording, &mut text).unwrap();
    let text = String::from_utf8(text).unwrap();
    let mut after = Held::after_each(recording).into_iter();
    let mut lines: Vec<Line> = Vec::new();
    for line in text.lines() {
        let numbers: Vec<u64> = line.split(' ').flat_map(str::parse).collect();
        if let ([place, first, second, _], true) = (&numbers[..], line.contains(' ')) {
            lines.push(Line {
                place: *place,
                first: *first as u32,
                second: *second as u32,
                tags: Vec::new(),
                after: after.next().unwrap(),
            });
        } else {
            let digit = |n: usize| u8::from_str_radix(&line[2 * n..2 * n + 2], 16).unwrap();
            lines
                .last_mut()
                .unwrap()
                .tags
                .push(std::array::from_fn(digit));
        }
    }
    (text, lines, receiver)
}

/// What [`second`] gives.
type Replayed = (String, Vec<Line>, Receiver);

/// The second receiver's replay of each of [`recordings`], done once.
pub fn replayed(name: &str) -> &'static Replayed {
    static ALL: OnceLock<BTreeMap<&str, Replayed>> = OnceLock::new();
    let replayed = |(name, bytes): &'static (String, Vec<u8>)| (name.as_str(), second(bytes));
    let all = ALL.get_or_init(|| recordings().iter().map(replayed).collect());
    &all[name]
}

/// The lines of it.
pub fn lines(name: &str) -> &'static [Line] {
    &replayed(name).1
}

/// The lines of one run.
pub fn lines_of_run(name: &str, history: &History, run: usize) -> &'static [Line] {
    let from = history.runs[run].place as usize - 1;
    let next = history
        .runs
        .get(run + 1)
        .map(|next| next.place as usize - 1);
    let lines = lines(name);
    &lines[from..next.unwrap_or(lines.len())]
}

/// The records of one run. Its start forgets everything, so they alone are the same run again.
pub fn of_run<'a>(recording: &'a [u8], history: &History, run: usize) -> &'a [u8] {
    let from = history.runs[run].place as usize - 1;
    let next = history
        .runs
        .get(run + 1)
        .map(|next| next.place as usize - 1);
    let to = next.unwrap_or(recording.len() / RECORD_LEN);
    &recording[from * RECORD_LEN..to * RECORD_LEN]
}

/// The recordings that have a sheet, each with what the core answered.
pub fn shown() -> impl Iterator<Item = (&'static str, &'static [u8], &'static History)> {
    static ALL: OnceLock<Vec<Option<History>>> = OnceLock::new();
    let replayed = |(_, bytes): &(String, Vec<u8>)| jobsheet::replay(&bytes[..], |_| ()).ok();
    let all = ALL.get_or_init(|| recordings().iter().map(replayed).collect());
    let both = recordings().iter().zip(all);
    both.filter_map(|((name, bytes), all)| Some((name.as_str(), &bytes[..], all.as_ref()?)))
}

/// What stands between two texts.
pub fn between<'a>(text: &'a str, from: &str, to: &str) -> Option<(&'a str, &'a str)> {
    let (_, rest) = text.split_once(from)?;
    rest.split_once(to)
}

/// A set as the page shows it: satellite, IODnav, check value, digits, and the lines under it.
pub type Shown = (String, String, String, String, Vec<String>);

/// The sets of the page at the end of a run, or those before them.
pub fn sets(page: &str, class: &str) -> Vec<Shown> {
    let mut all = Vec::new();
    let mut rest = page;
    let begin = format!("<article class=\"{class}\" data-set=\"");
    while let Some((article, after)) = between(rest, &begin, "</article>") {
        let part = |from: &str, to: &str| between(article, from, to).unwrap().0.to_string();
        let mut lines = Vec::new();
        let mut list = article;
        while let Some((line, after)) = between(list, "<dd>", "</dd>") {
            lines.push(line.to_string());
            list = after;
        }
        all.push((
            part("<h3>", "</h3>"),
            part("IODnav <b>", "</b>"),
            part("class=\"check\">", "</p>"),
            part("<pre>", "</pre>").replace([' ', '\n'], ""),
            lines,
        ));
        rest = after;
    }
    all
}

/// The sheet of one run of a recording.
pub fn sheet_of(name: &str, all: &History, run: usize) -> Sheet {
    let one = History {
        runs: vec![all.runs[run].clone()],
        ..History::default()
    };
    Sheet::of(name, &one, None)
}

/// Its page and text.
pub fn run_page(name: &str, all: &History, run: usize) -> (String, String) {
    let sheet = sheet_of(name, all, run);
    (html::page(&sheet), text::sheet(&sheet))
}

/// One run of a recording: the second receiver's lines, the records, and what the sheet has of it.
pub struct OneRun {
    pub name: &'static str,
    pub lines: &'static [Line],
    pub records: &'static [u8],
    pub sheet: RunSheet,
    pub page: String,
    pub text: String,
}

/// The runs of all recordings that have a sheet, made once.
pub fn runs() -> &'static [OneRun] {
    static ALL: OnceLock<Vec<OneRun>> = OnceLock::new();
    let one = |(name, bytes, all, run): (&'static str, &'static [u8], &'static History, usize)| {
        let (page, text) = run_page(name, all, run);
        OneRun {
            name,
            lines: lines_of_run(name, all, run),
            records: of_run(bytes, all, run),
            sheet: sheet_of(name, all, run).runs.remove(0),
            page,
            text,
        }
    };
    let each = |(name, bytes, all): (&'static str, &'static [u8], &'static History)| {
        (0..all.runs.len()).map(move |run| (name, bytes, all, run))
    };
    ALL.get_or_init(|| shown().flat_map(each).map(one).collect())
}

/// The time of a sub-frame's or word's record.
pub fn subframe_time(record: &[u8]) -> u32 {
    u32::from_be_bytes(record[2..6].try_into().unwrap())
}
