//! Every figure of the sheet beside the second receiver's replay of the same recording: the lines,
//! the tag records, the reads, the strips as they stand in the page, and the chain in force.

mod back;
#[path = "../common/mod.rs"]
mod common;
mod gathering;
mod marks;

use back::Heard;
use common::{
    between, history, lines, lines_of_run, of_run, recording, recordings, replayed, rows, run_page,
    second, sets, sheet_of, shown, subframe_time, Line,
};
use jobsheet::history::{History, Reads};
use jobsheet::receiver::{Answer, Receiver};
use jobsheet::recording::{Reader, Record, RECORD_LEN};
use jobsheet::time::Clock;
use jobsheet::{csv, html, phone, time};
use osnma::{AuthenticSet, Gst, Marks, Outcome, Progress, Refusal, TagRecord, WaitingMessage};
use second_receiver::navdata::SET_LEN;
use std::collections::{BTreeMap, BTreeSet};
use std::fmt::Write;

fn number(answer: Result<(), Refusal>) -> u32 {
    answer.err().map_or(0, Refusal::number)
}

// The program's answers, as the replay program would print them.
#[test]
fn answers_are_the_replays() {
    for (name, bytes) in recordings() {
        let mut receiver = Receiver::new();
        let mut lines = String::new();
        for (place, record) in (1..).zip(Reader::new(&bytes[..])) {
            let answer = receiver.answer(&record.unwrap());
            let (first, second) = (number(answer.first), number(answer.second));
            writeln!(lines, "{place} {first} {second} {}", answer.tags.len()).unwrap();
            for t in &answer.tags {
                let head = [
                    t.outcome.number(),
                    t.sender,
                    t.prn,
                    t.adkd,
                    t.block,
                    t.position,
                ];
                head.iter()
                    .for_each(|byte| write!(lines, "{byte:02X}").unwrap());
                writeln!(lines, "{:04X}{:08X}", t.iodnav, t.time.bits()).unwrap();
            }
        }
        assert!(lines == replayed(name).0, "{name}");
    }
}

#[test]
fn csv_has_every_tag_record() {
    let mut records = 0;
    let mut sums: BTreeMap<&str, usize> = BTreeMap::new();
    for (name, bytes, _) in shown() {
        let text = rows(bytes);
        let mut rows = text.lines();
        assert_eq!(rows.next(), Some(csv::HEAD));
        for line in lines(name) {
            for (n, tag) in line.tags.iter().enumerate() {
                let row: Vec<&str> = rows.next().unwrap().split(',').collect();
                assert_eq!(row.len(), csv::HEAD.split(',').count());
                // The bits that agree: after the last such tag of its satellite here, those of the second
                // receiver's candidate, if it is still that tag's.
                let bits = row[15].parse::<usize>().ok();
                assert!(bits.is_none_or(|bits| tag[0] == 9 && bits < 40), "{name}");
                let is_last = |later: &[u8; 12]| ![1, 9].contains(&later[0]) || later[2] != tag[2];
                let candidate = line.after.candidates.get(&tag[2]);
                if let (9, true, Some(held)) =
                    (tag[0], line.tags[n + 1..].iter().all(is_last), candidate)
                {
                    let counted = bits == Some(held.total());
                    let older = bits.is_none()
                        && held.latest().0.to_be_bytes() > tag[8..12].try_into().unwrap();
                    assert!(counted || older, "{name}: {row:?}, {held:?}");
                    let what = if counted { "counted" } else { "counts nowhere" };
                    *sums.entry(what).or_default() += 1;
                }
                let n = |at: usize| row[at].parse::<u32>().unwrap();
                let [i, t] = [n(9), n(10) << 20 | n(11)];
                let mut told: Vec<u8> = [2, 4, 5, 6, 7, 8].map(|at| n(at) as u8).to_vec();
                told.extend([(i >> 8) as u8, i as u8]);
                told.extend(t.to_be_bytes());
                assert_eq!((n(1), &told[..]), (line.place as u32, &tag[..]), "{name}");
                records += 1;
            }
        }
        assert_eq!(rows.next(), None, "{name}");
    }
    assert!(records > 10_000);
    assert!(sums["counted"] > 100, "{sums:?}");
}

// After every record the sheet has counted the candidates that the second receiver holds: bits, tags and
// their sum.
#[test]
fn candidates_are_the_second_receivers() {
    let (mut held, mut gone) = (0, 0);
    for (name, bytes, _) in shown() {
        let mut lines = lines(name).iter();
        let mut before = 0;
        let each = |all: &History| {
            let right = &lines.next().unwrap().after.candidates;
            let Some(run) = all.runs.last() else {
                return;
            };
            let mine = run.candidates.iter();
            let mine = mine.filter_map(|(prn, of)| Some((*prn, of.now()?)));
            let mine: BTreeMap<_, _> = mine
                .map(|(prn, now)| {
                    let times = now.tags.iter().map(|tag| tag.record.time.bits());
                    (prn, (now.bytes, now.bits as usize, Vec::from_iter(times)))
                })
                .collect();
            let right: BTreeMap<_, _> = right
                .iter()
                .map(|(prn, of)| {
                    let times = of.tags.iter().map(|tag| tag.time.0);
                    (*prn, (of.set.0, of.total(), Vec::from_iter(times)))
                })
                .collect();
            assert_eq!(mine, right, "{name}, record {}", all.records);
            held += usize::from(mine.len() > before);
            gone += usize::from(mine.len() < before);
            before = mine.len();
        };
        jobsheet::replay(bytes, each).unwrap();
    }
    assert!(held > 100 && gone > 100, "{held}, {gone}");
}

// The marked bytes of the page are what the second receiver reads at the end of each run.
#[test]
fn marked_bytes_are_the_reads() {
    let mut compared = 0;
    for (name, bytes, all) in shown() {
        for run in 0..all.runs.len() {
            let (_, _, receiver) = second(of_run(bytes, all, run));
            let (page, text) = run_page(name, all, run);
            let mut shown = sets(&page, "set").into_iter();
            for prn in 1..=36 {
                let mut set = [0; SET_LEN];
                let read = receiver.read_set(prn, &mut set);
                if read.number != 0 {
                    continue;
                }
                let (e, iodnav, check, digits, lines) = shown.next().unwrap();
                let hex: String = set.iter().map(|byte| format!("{byte:02X}")).collect();
                assert_eq!((e, digits), (format!("E{prn:02}"), hex), "{name}");
                assert_eq!(iodnav, read.iodnav.to_string(), "{name}");
                assert_eq!(check, phone::check_value(&set), "{name}");
                let (week, second) = (read.time >> 20, read.time & 0xF_FFFF);
                assert!(
                    lines[1].ends_with(&format!("({week}/{second})")),
                    "{name}: {lines:?}"
                );
                assert!(
                    text.contains(&html::grouped(&set).replace('\n', "\n       ")),
                    "{name}"
                );
                compared += 1;
            }
            assert_eq!(shown.next(), None, "{name}, run {run}");
        }
    }
    assert!(compared > 200);
}

/// Reads that give this set of every satellite.
struct Given(AuthenticSet);

impl Reads for Given {
    fn set(&self, _: u8) -> Option<AuthenticSet> {
        Some(self.0.clone())
    }

    fn message(&self) -> Option<WaitingMessage> {
        None
    }

    fn four(&self, _: u32) -> bool {
        false
    }

    fn progress(&self) -> Vec<Progress> {
        Vec::new()
    }
}

// Other bits under the same IODnav are another set: it has an entry of its own. The read is made by
// hand here, since no scenario marks such a set.
#[test]
fn same_iodnav_other_bits() {
    let bytes = recording("nominal");
    let (mut receiver, mut all) = (Receiver::new(), History::default());
    let mut tags: Vec<TagRecord> = Vec::new();
    for record in Reader::new(&bytes[..]) {
        let record = record.unwrap();
        let answer = receiver.answer(&record);
        all.note(&record, &answer, receiver.core());
        tags.extend(&answer.tags);
    }
    let set = receiver.core().read_set(18).unwrap();
    let before = all.runs[0].marked[&18].kept.len();
    let is = |tag: &&TagRecord| tag.prn == 18 && tag.outcome == Outcome::Authentic;
    let record = tags.iter().rfind(|tag| is(tag) && tag.time == set.time);
    let mut other = set.clone();
    other.bytes[40] ^= 1;
    let subframe = Record::Subframe {
        prn: 1,
        time: set.time,
        marks: Marks::ALL,
        fields: [1; 75],
    };
    let answer = Answer {
        first: Ok(()),
        second: Ok(()),
        tags: vec![*record.unwrap()],
    };
    all.note(&subframe, &answer, &Given(other.clone()));
    let sets = &all.runs[0].marked[&18].kept;
    assert_eq!(sets.len(), before + 1);
    assert_eq!(sets[before].iodnav, sets[before - 1].iodnav);
    assert_eq!(sets[before].bytes, other.bytes);
    assert_eq!(sets[before - 1].bytes, set.bytes);
}

// The tag, its slot, its root and its verdict. The tag is found in the second receiver's lines: the
// last that was judged authentic of those that came at the time read.
#[test]
fn what_a_mark_rests_on() {
    for name in [
        "fitter",
        "floating_root",
        "chain_renewal",
        "data_change",
        "new_public_key",
    ] {
        let bytes = recording(name);
        let (_, lines, receiver) = second(&bytes);
        let all = history(&bytes);
        let (page, _) = run_page(name, &all, 0);
        let clock_of_page = sheet_of(name, &all, 0).runs[0].clock;
        let records: Vec<&[u8]> = bytes.chunks_exact(RECORD_LEN).collect();
        for (e, _, _, _, shown) in sets(&page, "set") {
            let prn: u8 = e[1..].parse().unwrap();
            let read = receiver.read_set(prn, &mut [0; SET_LEN]);
            let (iodnav, time) = (read.iodnav.to_be_bytes(), read.time.to_be_bytes());
            // One that agreed before may be the latest.
            let is = |tag: &&[u8; 12]| {
                let of_set = tag[2] == prn && tag[6..8] == iodnav && tag[8..] == time;
                [1, 9].contains(&tag[0]) && of_set
            };
            let found = |line: &Line| line.tags.iter().rfind(is).map(|tag| (line.place, *tag));
            let (place, tag) = lines.iter().rev().find_map(found).unwrap();
            let [_, sender, _, adkd, block, position, ..] = tag;
            assert_eq!(
                shown[0],
                format!("from E{sender:02}, block {block}, position {position}, ADKD {adkd}")
            );
            // The root in force when it was judged: the second receiver after that record.
            let (_, _, then) = second(&bytes[..place as usize * RECORD_LEN]);
            let chain = then.chain().unwrap();
            let arrival = second_receiver::times::Gst(u32::from_be_bytes(time)).seconds();
            let delay = [(0, 0), (11, 30), (12, 300)]
                .iter()
                .find(|d| d.0 == adkd)
                .unwrap()
                .1;
            let slot = chain.slots.of_tags(arrival + delay, block);
            let at = time::at(
                second_receiver::times::Gst(subframe_time(records[place as usize - 1])).seconds(),
            );
            assert!(
                shown[2].starts_with(&format!("slot {slot}; judged ")),
                "{name}: {shown:?}"
            );
            let clock = Clock::default();
            assert!(
                shown[2].contains(&clock.time_of_day(at)),
                "{name}: {shown:?}"
            );
            assert!(
                shown[2].ends_with(&format!("record {place}")),
                "{name}: {shown:?}"
            );
            // Its verdict: the first with these contents that was answered 0.
            let verdict = |line: &&Line| {
                let record = records[line.place as usize - 1];
                record[0] == 4 && line.first == 0 && record[4..48].starts_with(&chain.contents)
            };
            let verdict = lines.iter().find(verdict).unwrap().place;
            let root = chain.slots.time(0);
            let told = format!(
                "{}/{}; good verdict: record {verdict}, key ",
                root.week(),
                root.second_of_week()
            );
            assert!(shown[3].starts_with(&told), "{name}: {shown:?}, {told}");
            // The tags that were summed: all agreed, the last brought the fortieth bit.
            let (sum, summed) = shown[4].split_once(": ").unwrap();
            let summed: Vec<&str> = summed.split(", ").collect();
            let (n, size) = (summed.len(), chain.parameters.tag_bits().unwrap());
            let s = if n == 1 { "" } else { "s" };
            assert_eq!(sum, format!("{} bits of {n} tag{s}", n * size), "{name}");
            assert!(n * size >= 40 && (n - 1) * size < 40, "{name}: {sum}");
            for (k, told) in summed.into_iter().enumerate() {
                let outcome = if k + 1 == n { 1 } else { 9 };
                let is = |t: &[u8; 12]| {
                    let time = u32::from_be_bytes([t[8], t[9], t[10], t[11]]);
                    let when = clock_of_page.say(Gst::from_bits(time));
                    let of_set = t[0] == outcome && t[2] == prn && t[6..8] == iodnav;
                    of_set && told == format!("E{:02} {when}", t[1])
                };
                let found = lines.iter().any(|line| line.tags.iter().any(is));
                assert!(found, "{name}, {e}: {told}");
            }
        }
    }
}

// The head's chain is the second receiver's, and as many tags wait.
#[test]
fn chain_in_force() {
    let mut functions = BTreeSet::new();
    for (name, _, all) in shown() {
        let run = all.runs.last().unwrap();
        let (_, _, receiver) = replayed(name);
        assert_eq!(run.waiting(), receiver.waiting_tags().len(), "{name}");
        assert_eq!(run.stopped.is_some(), receiver.is_stopped(), "{name}");
        let waits = receiver.waiting_message().is_some();
        assert_eq!(run.message_since().is_some(), waits, "{name}");
        let mine = run.vouched.root().map(|root| {
            let chain = &root.chain;
            let bits = (usize::from(chain.key_bits), usize::from(chain.tag_bits));
            let start = (root.week, root.hour, root.start());
            (
                (chain.cid, chain.hf, chain.mf),
                chain.nmack,
                bits,
                chain.alpha,
                start,
                root.key().to_vec(),
            )
        });
        let other = receiver.chain().map(|chain| {
            let p = &chain.parameters;
            let bits = (p.key_bits().unwrap(), p.tag_bits().unwrap());
            let start = (chain.time.week, chain.time.hour, chain.slots.start);
            let key = chain.contents[12..12 + bits.0 / 8].to_vec();
            ((p.cid, p.hf, p.mf), p.nmack, bits, p.alpha, start, key)
        });
        assert_eq!(mine, other, "{name}");
        let (page, text) = run_page(name, all, all.runs.len() - 1);
        let told = receiver
            .chain()
            .map_or("none in force at the end".into(), |chain| {
                let p = &chain.parameters;
                let bits = (p.key_bits().unwrap(), p.tag_bits().unwrap());
                functions.insert((p.hf, p.mf));
                let hash = ["SHA-256", "SHA3-224", "SHA3-256"][usize::from(p.hf)];
                let function = ["HMAC-SHA-256", "CMAC-AES"][usize::from(p.mf)];
                format!(
                    "CID {}, {hash}, {function}, keys of {} bits, tags of {} bits",
                    p.cid, bits.0, bits.1
                )
            });
        assert!(page.contains(&told), "{name}");
        assert!(
            text.replace(['\n', ' '], "")
                .contains(&told.replace(' ', "")),
            "{name}"
        );
    }
    for hf in 0..3 {
        assert!(functions.contains(&(hf, 0)), "HF {hf} in no recording");
    }
    assert!(functions.contains(&(0, 1)), "MF 1 in no recording");
}

// After every verdict as many tags wait as in the second receiver: roots, chains and drops.
#[test]
fn tags_that_stay() {
    let mut verdicts = 0;
    for name in [
        "waiting_tags",
        "floating_root",
        "chain_renewal",
        "chain_revoked",
        "mf_changes",
        "hf_changes",
    ] {
        let bytes = recording(name);
        for (place, record) in bytes.chunks_exact(RECORD_LEN).enumerate() {
            if record[0] == 4 {
                let so_far = &bytes[..(place + 1) * RECORD_LEN];
                let waiting = history(so_far).runs.last().map(|run| run.waiting());
                let other = second(so_far).2.waiting_tags().len();
                assert_eq!(waiting, Some(other), "{name}, record {}", place + 1);
                verdicts += 1;
            }
        }
    }
    assert!(verdicts > 10);
}

/// The drawings of a page: those of the front, and all where the front has an overview.
fn drawings(page: &str) -> (&str, &str) {
    let (front, rest) = page
        .split_once("<section class=\"back\">")
        .unwrap_or((page, ""));
    assert!(!rest.contains("data-strip"));
    let (front, detail) = front
        .split_once("<section class=\"detail\">")
        .unwrap_or((front, front));
    (front, detail)
}

/// The signs of a satellite's strip, without those laid over them.
fn signs(drawings: &str, prn: u8) -> Vec<String> {
    let mut all = Vec::new();
    let mut rest = drawings;
    while let Some((mut strip, after)) = between(rest, &format!("data-strip=\"E{prn:02}\""), "</g>")
    {
        while let Some((sign, after)) = between(strip, "href=\"#", "\"") {
            if !["ownrefused", "changed"].contains(&sign) {
                all.push(sign.to_string());
            }
            strip = after;
        }
        rest = after;
    }
    all
}

/// The name of a cell's sign by the last outcomes of its tags, worst first.
fn expected(outcomes: &[u8], refused: bool) -> &'static str {
    let order = [
        (2, "wrong"),
        (1, "authentic"),
        (9, "agrees"),
        (5, "waits"),
        (7, "noplace"),
        (4, "nottaken"),
        (6, "nottaken"),
        (3, "noset"),
        (8, "missing"),
    ];
    let first = order.iter().find(|(outcome, _)| outcomes.contains(outcome));
    match (first, refused) {
        (Some((_, name)), _) => name,
        (None, true) => "refused",
        (None, false) => "nothing",
    }
}

/// What the strips of a run must show, from the second receiver's lines alone.
#[derive(Default)]
struct Expected {
    /// By arrival, sender, block and position: each tag's satellite and last outcome.
    tags: ByTag<(u8, u8)>,
    /// Satellites and times of sections that were refused.
    refused: BTreeSet<(u8, u32)>,
    times: BTreeSet<u32>,
    /// Satellites with the times of their words and sub-frames.
    heard: BTreeSet<(u8, u32)>,
    /// After the last sub-frame of each time: when the tag of each satellite's set came.
    marked: BTreeMap<u32, BTreeMap<u8, u32>>,
}

impl Expected {
    fn of(lines: &[Line], run: &[u8]) -> Expected {
        let mut all = Expected::default();
        for (line, bytes) in lines.iter().zip(run.chunks_exact(RECORD_LEN)) {
            for t in &line.tags {
                let time = u32::from_be_bytes([t[8], t[9], t[10], t[11]]);
                all.tags.insert((time, t[1], t[4], t[5]), (t[2], t[0]));
            }
            match Record::of(bytes.try_into().unwrap()) {
                Record::Subframe { prn, time, .. } if ![2, 3, 4].contains(&line.first) => {
                    all.times.insert(time.bits());
                    all.heard.insert((prn, time.bits()));
                    if ![0, 4].contains(&line.second) {
                        all.refused.insert((prn, time.bits()));
                    }
                    let sets = line.after.sets.iter();
                    let marked = sets.map(|(prn, set)| (*prn, set.1)).collect();
                    all.marked.insert(time.bits(), marked);
                }
                Record::Word { prn, time, .. } if line.first == 0 => {
                    all.times.insert(time.bits());
                    all.heard.insert((prn, time.bits()));
                }
                _ => {}
            }
        }
        all
    }

    fn of_run(name: &str, bytes: &[u8], all: &History, run: usize) -> Expected {
        Expected::of(lines_of_run(name, all, run), of_run(bytes, all, run))
    }

    /// The half minutes in cells of so many.
    fn cells(&self, step: u64) -> Vec<Vec<u32>> {
        let mut cells: BTreeMap<u64, Vec<u32>> = BTreeMap::new();
        for &time in &self.times {
            let number = time::seconds(Gst::from_bits(time)) / 30 / step;
            cells.entry(number).or_default().push(time);
        }
        cells.into_values().collect()
    }

    fn signs(&self, prn: u8, step: u64) -> Vec<&'static str> {
        let sign = |times: &Vec<u32>| {
            let at = |&time: &u32| self.tags.range((time, 0, 0, 0)..=(time, 255, 255, 255));
            let of = times.iter().flat_map(at).filter(|(_, tag)| tag.0 == prn);
            let outcomes: Vec<u8> = of.map(|(_, tag)| tag.1).collect();
            let refused = times
                .iter()
                .any(|&time| self.refused.contains(&(prn, time)));
            expected(&outcomes, refused)
        };
        self.cells(step).iter().map(sign).collect()
    }

    /// How many half minutes of each cell a satellite was heard in, of how many.
    fn heard(&self, prn: u8, step: u64) -> Vec<(usize, usize)> {
        let heard = |times: &Vec<u32>| {
            let own = times
                .iter()
                .filter(|&&time| self.heard.contains(&(prn, time)));
            (own.count(), times.len())
        };
        self.cells(step).iter().map(heard).collect()
    }

    /// How many sets are at most so many half minutes old, at the least of each cell.
    fn lately(&self, limit: u64, step: u64) -> Vec<Option<usize>> {
        let seconds = |time: u32| time::seconds(Gst::from_bits(time));
        let count = |time: &u32| {
            let tags = self.marked.get(time)?.values();
            let young = |tag: &&u32| (seconds(*time) - seconds(**tag)) / 30 <= limit;
            Some(tags.filter(young).count())
        };
        let cells = self.cells(step);
        cells
            .iter()
            .map(|times| times.iter().filter_map(count).min())
            .collect()
    }
}

fn letter(sign: &str) -> char {
    let letters = [
        ("authentic", '#'),
        ("agrees", '='),
        ("wrong", 'X'),
        ("waits", 'w'),
        ("noset", '-'),
        ("noplace", 'o'),
        ("nottaken", '?'),
        ("missing", ':'),
        ("refused", '/'),
        ("nothing", '.'),
    ];
    letters.iter().find(|(name, _)| *name == sign).unwrap().1
}

#[test]
fn strips_are_the_replays_outcomes() {
    let mut seen: BTreeMap<&str, usize> = BTreeMap::new();
    let mut overviews = 0;
    for (name, bytes, all) in shown() {
        for run in 0..all.runs.len() {
            let right = Expected::of_run(name, bytes, all, run);
            let (page, text) = run_page(name, all, run);
            let shown = &sheet_of(name, all, run).runs[0];
            let (front, detail) = drawings(&page);
            // In the text a satellite that is not heard has blanks.
            let text = text.replace(' ', ".");
            let step = shown.overview.step;
            overviews += usize::from(step > 1);
            for prn in 1..=36 {
                let few = right.signs(prn, step);
                let (right, shown) = (right.signs(prn, 1), signs(detail, prn));
                if shown.is_empty() {
                    assert!(
                        right.iter().all(|&sign| sign == "nothing"),
                        "{name}, E{prn:02}"
                    );
                    continue;
                }
                assert_eq!(shown, right, "{name}, E{prn:02}");
                assert_eq!(signs(front, prn), few, "{name}, E{prn:02}, overview");
                right
                    .iter()
                    .for_each(|sign| *seen.entry(sign).or_default() += 1);
                for row in right.chunks(60) {
                    let row: String = row.iter().map(|sign| letter(sign)).collect();
                    assert!(
                        text.contains(&format!("..E{prn:02}..{row}")),
                        "{name}, E{prn:02}"
                    );
                }
            }
        }
    }
    assert_eq!(seen.len(), 10, "{seen:?}");
    assert!(overviews > 0);
}

/// A number in an attribute.
fn attribute(text: &str, name: &str) -> Option<usize> {
    between(text, &format!("{name}=\"")[..], "\"")?
        .0
        .parse()
        .ok()
}

/// A row over the strips, as it is drawn: of each cell how many satellites were marked lately, and whether four.
fn drawn_lately(drawings: &str, limit: u64) -> Vec<Option<(usize, bool)>> {
    let mut shown = Vec::new();
    let mut rest = drawings;
    while let Some((row, after)) = between(rest, &format!("data-lately=\"{limit}\""), "</g>") {
        for rect in row.split("<rect ").skip(1) {
            let count = attribute(rect, "data-count");
            let four = between(rect, "data-four=\"", "\"").unwrap().0;
            // Dark, light or with a border; in words where there is room.
            let class = between(rect, "class=\"", "\"").unwrap().0;
            let classes: &[&str] = match four {
                "no" => &["few"],
                "yes" => &["just", "enough"],
                _ => &["none"],
            };
            assert!(classes.contains(&class), "{rect}");
            assert_eq!(class == "just", four == "yes" && count == Some(4), "{rect}");
            let told = between(rect, "<text ", "</text>").unwrap().0;
            let told = told.split_once('>').unwrap().1;
            let figure = count.map_or(String::new(), |n| n.to_string());
            let cells = attribute(rect, "data-cells").unwrap();
            let in_words = count.is_some() && told == format!("{four}, {figure}");
            let in_short = (cells < 5 || count.is_none()) && told == figure;
            assert!(in_words || in_short, "{rect}");
            shown.extend(vec![count.map(|n| (n, four == "yes")); cells]);
        }
        rest = after;
    }
    shown
}

/// The same in the text.
fn written_lately(text: &str, minutes: u64) -> (String, String) {
    let (mut yes, mut figures) = (String::new(), String::new());
    let mut lines = text.lines();
    while let Some(line) = lines.next() {
        let Some(row) = line.strip_prefix(&format!("  {minutes:>2}m  ")) else {
            continue;
        };
        let end = format!("  4 marked, {minutes} min");
        yes.push_str(row.strip_suffix(&end).unwrap());
        let row = lines.next().unwrap().strip_prefix("       ").unwrap();
        figures.push_str(row.strip_suffix("  so many").unwrap());
    }
    (yes, figures)
}

// The rows over the strips: whether four satellites were marked in the last 5 and 10 minutes, and how many. The core
// says yes exactly where there are four by the second receiver's reads.
#[test]
fn marked_lately() {
    let mut seen = BTreeSet::new();
    for (name, bytes, all) in shown() {
        for run in 0..all.runs.len() {
            let right = Expected::of_run(name, bytes, all, run);
            let (page, text) = run_page(name, all, run);
            let step = sheet_of(name, all, run).runs[0].overview.step;
            let (front, detail) = drawings(&page);
            for limit in [10, 20] {
                for (drawings, step) in [(front, step), (detail, 1)] {
                    let with_four = |count: Option<usize>| count.map(|n| (n, n >= 4));
                    let right = right.lately(limit, step).into_iter().map(with_four);
                    let right = Vec::from_iter(right);
                    let shown = drawn_lately(drawings, limit);
                    assert_eq!(shown, right, "{name}, run {run}, {limit}");
                    seen.extend(shown);
                }
                // Several half minutes a cell, then each.
                let right = match step {
                    1 => right.lately(limit, 1),
                    _ => [right.lately(limit, step), right.lately(limit, 1)].concat(),
                };
                let sign = |count: &Option<usize>| match count {
                    None => ' ',
                    Some(0..4) => 'n',
                    Some(_) => 'y',
                };
                let digit = |n: usize| char::from_digit(n as u32, 10).unwrap_or('+');
                let figure = |count: &Option<usize>| count.map_or(' ', digit);
                let right = (
                    right.iter().map(sign).collect(),
                    right.iter().map(figure).collect(),
                );
                assert_eq!(written_lately(&text, limit / 2), right, "{name}, run {run}");
            }
        }
    }
    assert!(seen.len() > 8, "{seen:?}");
    assert!(seen.contains(&Some((3, false))) && seen.contains(&Some((4, true))));
}

/// A core that says the contrary of four satellites.
struct Contrary<'a>(&'a osnma::Core);

impl Reads for Contrary<'_> {
    fn set(&self, prn: u8) -> Option<AuthenticSet> {
        self.0.set(prn)
    }

    fn message(&self) -> Option<WaitingMessage> {
        self.0.message()
    }

    fn four(&self, limit: u32) -> bool {
        !self.0.four(limit)
    }

    fn progress(&self) -> Vec<Progress> {
        self.0.progress().collect()
    }
}

// Yes and no are the core's, not the count's: where the core says the contrary, rows and box say it too.
#[test]
fn four_is_the_cores_answer() {
    let bytes = recording("fitter");
    let (mut receiver, mut all) = (Receiver::new(), History::default());
    for record in Reader::new(&bytes[..]) {
        let record = record.unwrap();
        let answer = receiver.answer(&record);
        all.note(&record, &answer, &Contrary(receiver.core()));
    }
    let right = history(&bytes);
    let (page, text) = run_page("fitter", &all, 0);
    let (right_page, right_text) = run_page("fitter", &right, 0);
    for limit in [10, 20] {
        let row = drawn_lately(drawings(&page).0, limit).into_iter();
        let contrary = row.map(|cell| cell.map(|(n, four)| (n, !four)));
        let right = drawn_lately(drawings(&right_page).0, limit);
        assert_eq!(Vec::from_iter(contrary), right);
        let (yes, figures) = written_lately(&text, limit / 2);
        let (right_yes, right_figures) = written_lately(&right_text, limit / 2);
        let contrary = yes.replace('y', "-").replace('n', "y").replace('-', "n");
        assert_eq!((contrary, figures), (right_yes, right_figures));
    }
    let words = sheet_of("fitter", &all, 0).runs[0].finding.text.join(" ");
    let told = "it had them from 00:00:00 on, but in 58 half minutes";
    assert!(words.contains(told), "{words}");
}

// The line under the cells: when the satellite was heard itself.
#[test]
fn heard_itself() {
    let mut silent = 0;
    for (name, bytes, all) in shown() {
        for run in 0..all.runs.len() {
            let right = Expected::of_run(name, bytes, all, run);
            let sheet = sheet_of(name, all, run);
            let (page, _) = run_page(name, all, run);
            let (front, _) = drawings(&page);
            let overview = &sheet.runs[0].overview;
            let heard: BTreeSet<u8> = right.heard.iter().map(|(prn, _)| *prn).collect();
            assert_eq!(sheet.runs[0].heard, heard.len(), "{name}");
            assert!(
                page.contains(&format!("<b>{} satellite", heard.len())),
                "{name}"
            );
            for strip in &overview.rows {
                let right = right.heard(strip.prn, overview.step);
                let cells = strip.cells.iter().zip(&overview.columns);
                let told: Vec<(usize, usize)> = cells
                    .map(|(cell, head)| (cell.heard as usize, head.half_minutes as usize))
                    .collect();
                assert_eq!(told, right, "{name}, E{:02}", strip.prn);
                // Lines drawn under the cells of the page.
                let mut drawn = vec![false; right.len()];
                let row = between(front, &format!("data-strip=\"E{:02}\"", strip.prn), "</g>")
                    .unwrap()
                    .0;
                for line in row.split("class=\"heard\"").skip(1) {
                    let from = attribute(line, "data-from").unwrap();
                    drawn[from..from + attribute(line, "data-cells").unwrap()].fill(true);
                }
                let any: Vec<bool> = right.iter().map(|(own, _)| *own > 0).collect();
                assert_eq!(drawn, any, "{name}, E{:02}", strip.prn);
                silent += any.iter().filter(|heard| !**heard).count();
            }
        }
    }
    assert!(silent > 100);
}

// The table of wrong data: how many tags, when they came, what they were compared with, and what was
// marked when the first came, when the last came, and at the end.
#[test]
fn story_of_wrong_data() {
    let (mut rows, mut old_rows) = (0, 0);
    for (name, bytes, all) in shown() {
        for run in 0..all.runs.len() {
            let shown = sheet_of(name, all, run);
            let shown = &shown.runs[0];
            let told = |title: &str| {
                let found = shown.front.iter().find(|w| w.title.starts_with(title));
                found.map_or(Vec::new(), |w| w.table.clone().unwrap().rows)
            };
            let lines = lines_of_run(name, all, run);
            let (wrong, old) = stories(lines, of_run(bytes, all, run));
            let right = wrong.rows(shown.clock);
            assert_eq!(told("Wrong data for"), right, "{name}, run {run}");
            let right_old = old.rows(shown.clock);
            assert_eq!(told("Data out of date for"), right_old, "{name}, run {run}");
            let (page, text) = run_page(name, all, run);
            for row in right.iter().chain(&right_old) {
                let fields = row.iter().map(|field| format!("<td>{field}</td>"));
                assert!(
                    page.contains(&fields.collect::<String>()),
                    "{name}: {row:?}"
                );
                assert!(text.contains(&row[4]), "{name}");
            }
            rows += right.len();
            old_rows += right_old.len();
            // What the box says of it.
            let words = format!("{} {}", shown.finding.title, shown.finding.text.join(" "));
            let span = wrong
                .span()
                .map(|(first, last)| shown.clock.span(first, last));
            match span {
                None => assert!(!words.contains("WRONG DATA"), "{name}: {words}"),
                Some(span) => {
                    let of = format!("for {} of {} satellite", right.len(), shown.heard);
                    assert!(
                        words.contains(&format!("WRONG DATA came in {span} {of}")),
                        "{name}: {words}"
                    );
                }
            }
            // At the end, too, where nothing newer was marked.
            let still = old.tags.iter().filter(|(prn, tags)| {
                let newest = tags.iter().map(|tag| tag.time).max();
                old.at_end.get(prn).map(|set| set.1) <= newest
            });
            match still.count() {
                0 => assert!(!words.contains("OUT OF DATE"), "{name}: {words}"),
                n => {
                    let told = format!("OUT OF DATE for {n} of {} satellite", shown.heard);
                    assert!(words.contains(&told), "{name}: {words}");
                }
            }
        }
    }
    assert!(rows > 20 && old_rows > 0, "{rows}, {old_rows}");
}

/// A set as a read gives it: IODnav and the time of its tag.
type Set = (u16, u32);
/// By arrival, sender, block and position.
type ByTag<T> = BTreeMap<(u32, u8, u8, u8), T>;

/// A wrong tag.
struct WrongTag {
    time: u32,
    iodnav: u16,
    /// Its satellite's set when it came.
    set: Option<Set>,
}

/// Wrong tags by satellite, and its set at the end.
#[derive(Default)]
struct Story {
    tags: BTreeMap<u8, Vec<WrongTag>>,
    at_end: BTreeMap<u8, Set>,
}

impl Story {
    fn span(&self) -> Option<(Gst, Gst)> {
        let times = || {
            self.tags
                .values()
                .flatten()
                .map(|tag| Gst::from_bits(tag.time))
        };
        times().min().zip(times().max())
    }

    fn rows(&self, clock: Clock) -> Vec<Vec<String>> {
        let row = |(prn, tags): (&u8, &Vec<WrongTag>)| {
            let set = |set: Option<Set>| {
                let told =
                    |(iodnav, time)| format!("{iodnav} ({})", clock.say(Gst::from_bits(time)));
                set.map_or("none".into(), told)
            };
            let first = tags.iter().min_by_key(|tag| tag.time).unwrap();
            // Of those that came last the first judged.
            let last = tags.iter().rev().max_by_key(|tag| tag.time).unwrap();
            let (a, b) = (Gst::from_bits(first.time), Gst::from_bits(last.time));
            let issues: BTreeSet<u16> = tags.iter().map(|tag| tag.iodnav).collect();
            vec![
                format!("E{prn:02}"),
                tags.len().to_string(),
                if a == b {
                    clock.say(a)
                } else {
                    clock.range(a, b)
                },
                match issues.len() {
                    1..=4 => Vec::from_iter(issues.iter().map(u16::to_string)).join(", "),
                    n => format!("{n} issues"),
                },
                set(first.set),
                set(last.set),
                set(self.at_end.get(prn).copied()),
            ]
        };
        self.tags.iter().map(row).collect()
    }
}

/// Wrong data, and data out of date, from the second receiver's lines.
fn stories(lines: &[Line], run: &[u8]) -> (Story, Story) {
    let (mut wrong, mut old) = (Story::default(), Story::default());
    // The sets before each record.
    let mut marked: &BTreeMap<u8, Set> = &BTreeMap::new();
    // Of each tag when it came: its satellite's set, whether no word came in the half minute before, and how
    // often the satellite's data had changed.
    let mut then: ByTag<(Option<Set>, bool, usize)> = BTreeMap::new();
    let mut last_word: BTreeMap<u8, Gst> = BTreeMap::new();
    let mut heard: BTreeMap<u8, Heard> = BTreeMap::new();
    // Data that a tag agreed with.
    let mut right: BTreeSet<(u8, usize)> = BTreeSet::new();
    for (line, record) in lines.iter().zip(run.chunks_exact(RECORD_LEN)) {
        if let Record::Word { prn, time, word } = Record::of(record.try_into().unwrap()) {
            if line.first == 0 && (1..=5).contains(&(word[0] >> 2)) {
                last_word.insert(prn, time);
                heard.entry(prn).or_default().word(time, &word);
            }
        }
        let before = std::mem::replace(&mut marked, &line.after.sets);
        for t in &line.tags {
            let time = u32::from_be_bytes([t[8], t[9], t[10], t[11]]);
            let iodnav = u16::from_be_bytes([t[6], t[7]]);
            let age = |last: &Gst| time::seconds(Gst::from_bits(time)) - time::seconds(*last);
            let is_old = last_word.get(&t[2]).is_some_and(|last| age(last) > 30);
            let stretch = heard.get(&t[2]).map_or(0, |heard| heard.stretches.len());
            let known = (before.get(&t[2]).copied(), is_old, stretch);
            let name = (time, t[1], t[4], t[5]);
            let (set, is_old, stretch) = *then.entry(name).or_insert(known);
            if [1, 9].contains(&t[0]) {
                right.insert((t[2], stretch));
            }
            if t[0] == 2 {
                let story = match is_old && right.contains(&(t[2], stretch)) {
                    true => &mut old,
                    false => &mut wrong,
                };
                let tags = story.tags.entry(t[2]).or_default();
                tags.push(WrongTag { time, iodnav, set });
            }
        }
    }
    wrong.at_end = marked.clone();
    old.at_end = marked.clone();
    (wrong, old)
}

// What the box says of the boom: the counts of the first row, at the end of each half minute.
#[test]
fn box_counts_for_the_boom() {
    let (mut never, mut always, mut short) = (0, 0, 0);
    for (name, bytes, all) in shown() {
        for run in 0..all.runs.len() {
            let right = Expected::of_run(name, bytes, all, run);
            let shown = &sheet_of(name, all, run).runs[0];
            let words = shown.finding.text.join(" ");
            if !words.contains("the boom needs 4") && !words.contains("The boom needs 4") {
                continue;
            }
            // Where all data is right, the title says it too.
            let titled = |few: Option<String>| {
                let title = &shown.finding.title;
                let told = title.split_once(" TOO FEW SATELLITES for the boom");
                let told = told.map(|(_, when)| when.trim_end_matches('.').to_string());
                assert!(
                    !title.starts_with("All data") || told == few,
                    "{name}: {title}"
                );
            };
            let times = right.marked.keys().map(|time| Gst::from_bits(*time));
            let counts = right.lately(10, 1).into_iter().flatten();
            let all: Vec<(Gst, usize)> = times.zip(counts).collect();
            let Some(since) = all.iter().position(|(_, n)| *n >= 4) else {
                assert!(
                    words.contains("At no time did 4 satellites have a mark"),
                    "{name}: {words}"
                );
                titled(Some(", all the time".into()));
                never += 1;
                continue;
            };
            let fewest = all[since..].iter().map(|(_, n)| *n).min().unwrap();
            let few: Vec<Gst> = all[since..]
                .iter()
                .filter(|(_, n)| *n < 4)
                .map(|(at, _)| *at)
                .collect();
            let from = shown.clock.say(all[since].0);
            match (few.first(), few.last()) {
                (Some(first), Some(last)) => {
                    let span = shown.clock.span(*first, *last);
                    let told = format!("from {from} on, but in {} half minute", few.len());
                    assert!(
                        words.contains(&told) && words.contains(&span),
                        "{name}: {words}"
                    );
                    assert!(
                        words.contains(&format!("fewer, {fewest} at the least")),
                        "{name}: {words}"
                    );
                    titled(Some(format!(" {span}")));
                    short += 1;
                }
                _ => {
                    let told = format!("From {from} on never fewer than {fewest} satellites");
                    assert!(words.contains(&told), "{name}: {words}");
                    titled(None);
                    always += 1;
                }
            }
        }
    }
    assert!(
        never > 0 && always > 0 && short > 0,
        "{never}, {always}, {short}"
    );
}

// Events: from verdicts and sub-frames by the second receiver's answers.
#[test]
fn events_are_the_replays() {
    let mut seen: BTreeMap<&str, usize> = BTreeMap::new();
    for (name, bytes, all) in shown() {
        for run in 0..all.runs.len() {
            let shown = &sheet_of(name, all, run).runs[0];
            let records = of_run(bytes, all, run);
            let right = events(lines_of_run(name, all, run), records);
            assert_eq!(
                shown.events.len(),
                right.len(),
                "{name}: {:?}",
                shown.events
            );
            let (page, _) = run_page(name, all, run);
            for (event, (at, what)) in shown.events.iter().zip(right) {
                let when = at.map_or("at the start".into(), |at| shown.clock.say(at));
                assert_eq!(event.when, when, "{name}");
                assert!(event.what.starts_with(what), "{name}: {event:?}, {what}");
                assert!(page.contains(&html::escaped(&event.what)), "{name}");
                *seen.entry(what).or_default() += 1;
            }
        }
    }
    assert_eq!(seen.len(), 8, "{seen:?}");
}

fn events(lines: &[Line], run: &[u8]) -> Vec<(Option<Gst>, &'static str)> {
    let mut all = Vec::new();
    let (mut noted, mut ever) = (None, false);
    let mut in_force: Option<Vec<u8>> = None;
    let mut key = run[2];
    for (line, r) in lines.iter().zip(run.chunks_exact(RECORD_LEN)) {
        match (r[0], line.first) {
            (3 | 6, first) if ![2, 3, 4].contains(&first) => {
                noted = Some(Gst::from_bits(subframe_time(r)));
                if (first, line.second) == (0, 4) {
                    all.push((noted, "STOPPED"));
                }
            }
            (4, 15) => all.push((noted, "The signature chip said NO")),
            (4, 0) if r[3] >> 6 == 3 => {
                in_force = None;
                all.push((noted, "KEYS WITHDRAWN"));
            }
            (4, 0) => {
                if std::mem::replace(&mut key, r[2]) != r[2] {
                    all.push((noted, "New public key"));
                }
                let contents = r[4..48].to_vec();
                // CID and parameters, and α.
                let chain = |c: &[u8]| (c[..3].to_vec(), c[6..12].to_vec());
                let what = match &in_force {
                    Some(old) if *old == contents => None,
                    Some(old) if chain(old) == chain(&contents) => Some("The system signed"),
                    Some(_) => Some("New keys in force, in place"),
                    None if ever => Some("New keys in force: tags are judged again"),
                    None => Some("Keys in force"),
                };
                all.extend(what.map(|what| (noted, what)));
                (in_force, ever) = (Some(contents), true);
            }
            _ => {}
        }
    }
    all
}

// Counts of tags and refusals on the back.
#[test]
fn counts_are_the_replays() {
    let mut reasons = BTreeSet::new();
    for (name, bytes, all) in shown() {
        for (n, run) in all.runs.iter().enumerate() {
            let right = Expected::of_run(name, bytes, all, n);
            let (page, _) = run_page(name, all, n);
            let count = |outcome: u8| right.tags.values().filter(|tag| tag.1 == outcome).count();
            let (authentic, agree, wrong) = (count(1), count(9), count(2));
            let rest = right.tags.len() - authentic - agree - wrong - run.waiting();
            let told = format!(
                "{authentic} authentic, {agree} agree, {wrong} wrong, {} wait still, {rest} without \
                 judgement",
                run.waiting()
            );
            assert!(page.contains(&told), "{name}: {told}");
            let refused = refused(lines_of_run(name, all, n), of_run(bytes, all, n));
            let mut sums: BTreeMap<(&str, u32), u64> = BTreeMap::new();
            for sum in run.refused.all() {
                *sums
                    .entry((sum.part.name(), sum.refusal.number()))
                    .or_default() += sum.count;
                let s = if sum.count == 1 { "" } else { "s" };
                let line = format!("<b>{} {}{s} refused.</b>", sum.count, sum.part.name());
                let in_stop = format!("{} {}{s}", sum.count, sum.part.name());
                let stop = sum.refusal == Refusal::Stopped;
                assert!(
                    page.contains(if stop { &in_stop } else { &line }),
                    "{name}: {line}"
                );
                reasons.insert(sum.refusal.number());
            }
            assert_eq!(sums, refused, "{name}, run {n}");
            let lost = refused.get(&("message block", 17)).copied().unwrap_or(0);
            let subframes = lines_of_run(name, all, n)
                .iter()
                .zip(of_run(bytes, all, n).chunks_exact(RECORD_LEN));
            let noted = subframes
                .filter(|(line, r)| [3, 6].contains(&r[0]) && ![2, 3, 4].contains(&line.first))
                .count();
            let told = format!("Reception was broken in {lost} of {noted} half minutes");
            assert_eq!(page.contains(&told), lost > 0, "{name}: {told}");
        }
    }
    assert!(reasons.len() > 10, "{reasons:?}");
}

/// How often each part was refused for each reason.
fn refused(lines: &[Line], run: &[u8]) -> BTreeMap<(&'static str, u32), u64> {
    let mut all: BTreeMap<(&str, u32), u64> = BTreeMap::new();
    for (line, r) in lines.iter().zip(run.chunks_exact(RECORD_LEN)) {
        let parts = match (r[0], line.first, line.second) {
            (3 | 6, first @ 2..=5, _) => vec![("sub-frame", first)],
            (3 | 6, 0, 4) => vec![],
            (3 | 6, first, second) => vec![("message block", first), ("section", second)],
            (1, first, _) => vec![("start", first)],
            (2, first, _) => vec![("word", first)],
            (4, first, _) => vec![("verdict", first)],
            (_, first, _) => vec![("record", first)],
        };
        for part in parts.into_iter().filter(|part| part.1 != 0) {
            *all.entry(part).or_default() += 1;
        }
    }
    all
}
