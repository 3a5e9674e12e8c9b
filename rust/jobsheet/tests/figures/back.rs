//! The back's facts, refusals and changes of data, and what the box says beside wrong data.

use crate::common::{history, recording, runs, second, sheet_of, subframe_time, Line};
use crate::{refused, ByTag, Expected};
use jobsheet::html;
use jobsheet::recording::{Record, RECORD_LEN};
use jobsheet::time::{self, Clock};
use osnma::Gst;
use std::collections::{BTreeMap, BTreeSet};

fn count(n: usize, what: &str) -> String {
    format!("{n} {what}{}", if n == 1 { "" } else { "s" })
}

fn gst(week: u32, second: u32) -> Gst {
    Gst::from_bits(week << 20 | second)
}

fn dated(time: Gst) -> String {
    let full = time::full(time);
    format!("{full} ({}/{})", time.week(), time.second())
}

/// The time of a root's message: 30 s before its week and hour.
fn root_time(message: &[u8]) -> Gst {
    let (week, hour) = (
        u32::from(message[4] & 15) << 8 | u32::from(message[5]),
        message[6],
    );
    match u32::from(hour) * 3_600 {
        0 => gst(week - 1, 604_770),
        second => gst(week, second - 30),
    }
}

/// The facts of a run that verdicts bring, and those of the whole run.
fn facts(lines: &[Line], run: &[u8]) -> Vec<(&'static str, String)> {
    let heard = Expected::of(lines, run);
    let records = || lines.iter().zip(run.chunks_exact(RECORD_LEN));
    let satellites: BTreeSet<u8> = heard.heard.iter().map(|(prn, _)| *prn).collect();
    let noted =
        |(line, r): &(&Line, &[u8])| [3, 6].contains(&r[0]) && ![2, 3, 4].contains(&line.first);
    let is_word =
        |(line, r): &(&Line, &[u8])| r[0] == 2 && line.first == 0 && (1..=5).contains(&(r[6] >> 2));
    let time = |time: Option<&u32>| time.map_or("none".into(), |time| dated(Gst::from_bits(*time)));
    let mut all = vec![
        ("First half minute", time(heard.times.first())),
        ("Last half minute", time(heard.times.last())),
        (
            "Heard",
            format!(
                "{}, {}, {}",
                count(satellites.len(), "satellite"),
                count(records().filter(noted).count(), "sub-frame"),
                count(records().filter(is_word).count(), "word")
            ),
        ),
        (
            "Start",
            format!(
                "record {}: public key {} (type {}), NS {}, MACLT {}",
                lines[0].place, run[2], run[3], run[1], run[4]
            ),
        ),
    ];
    let mut in_turn = Vec::new();
    let (mut in_force, mut key, mut key_place): (Option<(&[u8], u64)>, u8, u64) = (None, run[2], 0);
    for (line, r) in records().filter(|(line, r)| r[0] == 4 && line.first == 0) {
        let (message, place) = (&r[3..48], line.place);
        if message[0] >> 6 == 3 {
            in_force = None;
            in_turn.push(format!("dropped by record {place}"));
            continue;
        }
        key_place = place;
        if std::mem::replace(&mut key, r[2]) != r[2] {
            in_turn.push(format!("public key {key} by record {place}"));
        }
        if in_force.is_none_or(|(old, _)| old[1..] != message[1..]) {
            in_force = Some((message, place));
            let root = root_time(message);
            let root = format!("{}/{}", root.week(), root.second());
            in_turn.push(format!(
                "CID {}, root {root} by record {place}",
                message[1] >> 6
            ));
        }
    }
    if let Some((message, place)) = in_force {
        let root = dated(root_time(message));
        all.push((
            "Root in force",
            format!("{root}, vouched for by the verdict in record {place}"),
        ));
        let told = format!("ID {key}, by the verdict in record {key_place}");
        all.push(("Public key in force", told));
    } else {
        all.push(("Chain", "none in force at the end".into()));
    }
    if in_turn.len() > 1 {
        all.push(("Chains and roots in turn", in_turn.join("; ")));
    }
    all
}

#[test]
fn facts_are_the_replays() {
    let mut seen = BTreeSet::new();
    for run in runs() {
        let (name, shown) = (run.name, &run.sheet.facts);
        let right = facts(run.lines, run.records);
        for (what, value) in right {
            let told = shown.iter().find(|fact| fact.0 == what);
            assert_eq!(told.map(|fact| &fact.1), Some(&value), "{name}, {what}");
            let line = format!("<dt>{what}</dt><dd>{}</dd>", html::escaped(&value));
            assert!(run.page.contains(&line), "{name}: {line}");
            seen.insert(what);
        }
        let others = ["Tags", "Chain in force", "Root message"];
        let other = |fact: &&(&str, String)| !seen.contains(fact.0) && !others.contains(&fact.0);
        assert_eq!(shown.iter().find(other), None, "{name}");
    }
    assert_eq!(seen.len(), 8, "{seen:?}");
}

/// Times of refused parts: when the first and the last of each came.
fn spans(lines: &[Line], run: &[u8]) -> BTreeMap<(&'static str, u32), (Gst, Gst)> {
    let mut all: BTreeMap<(&str, u32), (Gst, Gst)> = BTreeMap::new();
    // Whether there was a chain yet, and whether there is one.
    let (mut ever, mut now) = (false, false);
    for (line, r) in lines.iter().zip(run.chunks_exact(RECORD_LEN)) {
        match (r[0], line.first) {
            (4, 0) => (ever, now) = (true, r[3] >> 6 != 3),
            (3 | 6, first) if !(2..=5).contains(&first) => {
                let at = Gst::from_bits(subframe_time(r));
                let section = match (line.second, ever, now) {
                    (11, false, _) => "section before keys",
                    (11, true, false) => "section after a drop",
                    _ => "section",
                };
                for part in [("message block", first), (section, line.second)] {
                    if part.1 != 0 && (first, line.second) != (0, 4) {
                        all.entry(part).or_insert((at, at)).1 = at;
                    }
                }
            }
            _ => {}
        }
    }
    all
}

// When parts were refused, by the back's lines; without keys by the front's too.
#[test]
fn times_of_refusals() {
    let mut seen = BTreeSet::new();
    for run in runs() {
        let (name, shown) = (run.name, &run.sheet);
        for ((part, number), (first, last)) in spans(run.lines, run.records) {
            let span = shown.clock.span(first, last);
            let title = part.split(' ').next().unwrap();
            let of = |w: &&jobsheet::warnings::Warning| {
                w.title.contains(title) && w.text.contains(&format!("(number {number})."))
            };
            let told: Vec<_> = shown.back.iter().filter(of).collect();
            assert!(
                told.iter().any(|w| w.text.contains(&span)),
                "{name}: {part} {number} {span} {told:?}"
            );
            let (when, what) = (span[..1].to_uppercase() + &span[1..], &shown.front);
            let front = |words: &str| what.iter().any(|w| w.title == format!("{when} {words}"));
            match part {
                "section after a drop" => assert!(front("the keys were withdrawn."), "{name}"),
                "section before keys" => assert!(
                    front("no keys were in force yet.") || front("no keys were in force."),
                    "{name}"
                ),
                _ => {}
            }
            seen.insert((part, number));
        }
    }
    assert!(seen.len() > 10, "{seen:?}");
}

// Tags that were not judged, keys that are not the system's, and what a stop refused.
#[test]
fn counts_of_warnings() {
    let mut seen: BTreeMap<&str, usize> = BTreeMap::new();
    for run in runs() {
        let (name, shown) = (run.name, &run.sheet);
        let (lines, records) = (run.lines, run.records);
        let right = Expected::of(lines, records);
        let titles = || {
            shown
                .front
                .iter()
                .chain(&shown.back)
                .map(|w| w.title.as_str())
        };
        let tags = |outcome: u8| right.tags.values().filter(|tag| tag.1 == outcome).count();
        let refused = refused(lines, records);
        let sum = |part| refused.get(&part).copied().unwrap_or(0) as usize;
        let keys = sum(("section", 12)) + sum(("message block", 10));
        for (kind, n, title) in [
            (
                "no place",
                tags(7),
                format!("No place for {}.", count(tags(7), "slow tag")),
            ),
            (
                "missing",
                tags(8),
                format!("Bits missing of {}.", count(tags(8), "tag")),
            ),
            (
                "not allowed",
                tags(4),
                format!("{} not taken.", count(tags(4), "tag")),
            ),
            (
                "sequence",
                tags(6),
                format!("{} not taken.", count(tags(6), "tag")),
            ),
            (
                "keys",
                keys,
                format!(
                    "Keys that are not the system's came in {}.",
                    count(keys, "time")
                ),
            ),
        ] {
            if n > 0 {
                assert!(titles().any(|shown| shown == title), "{name}: {title}");
                *seen.entry(kind).or_default() += 1;
            }
        }
        for (begin, n) in [
            ("No place for ", tags(7)),
            ("Bits missing of ", tags(8)),
            ("Keys that are not the system's", keys),
        ] {
            assert_eq!(
                titles().any(|title| title.starts_with(begin)),
                n > 0,
                "{name}: {begin}"
            );
        }
        let stop = lines.iter().zip(records.chunks_exact(RECORD_LEN));
        let mut stop = stop
            .skip_while(|(line, r)| ![3, 6].contains(&r[0]) || (line.first, line.second) != (0, 4));
        let words = shown.finding.text.join(" ");
        match (stop.next(), stop.count()) {
            (Some((line, r)), n) => {
                let at = shown.clock.say(Gst::from_bits(subframe_time(r)));
                assert!(
                    shown.finding.title.starts_with(&format!("STOPPED at {at}")),
                    "{name}"
                );
                let told = format!("nothing was taken ({})", count(n, "record"));
                assert_eq!(words.contains(&told), n > 0, "{name}: {words}");
                let title = format!("The core stopped in record {}.", line.place);
                let refused = |after: &Line| after.place > line.place && after.first == 4;
                let refused = lines.iter().any(refused);
                assert!(
                    !refused || titles().any(|shown| shown == title),
                    "{name}: {title}"
                );
                *seen.entry("stop").or_default() += 1;
            }
            (None, _) => assert!(!shown.finding.title.contains("STOPPED"), "{name}"),
        }
    }
    assert_eq!(seen.len(), 6, "{seen:?}");
}

/// Authenticated bits of a word of types 1 to 5.
fn bits(word: u128) -> u128 {
    let last = [125, 125, 127, 125, 72][(word >> 122) as usize - 1];
    word << 6 >> (6 + 127 - last) << (127 - last)
}

/// The words of a satellite as they are heard, and what tags said of them.
#[derive(Default)]
pub struct Heard {
    words: [Option<u128>; 5],
    /// Between changes: the first half minute and the last, and the best that a tag said.
    pub stretches: Vec<(Gst, Gst, Best)>,
}

/// The best that a tag said of data.
#[derive(Clone, Copy, Debug, PartialEq, Eq, PartialOrd, Ord)]
pub enum Best {
    Nothing,
    Agrees,
    Authentic,
}

impl Heard {
    fn iodnav(&self) -> String {
        let all: BTreeSet<Option<u128>> = self.words[..4]
            .iter()
            .map(|word| Some((*word)? >> 112 & 0x3FF))
            .collect();
        match (all.len(), all.first()) {
            (1, Some(Some(n))) => n.to_string(),
            _ => "mixed".into(),
        }
    }

    /// Whether the word changes what is held.
    pub fn word(&mut self, at: Gst, word: &[u8; 16]) -> bool {
        let word = u128::from_be_bytes(*word);
        let old = self.words[(word >> 122) as usize - 1].replace(word);
        let changed = old.is_some_and(|old| bits(old) != bits(word));
        match self.stretches.last_mut() {
            Some(now) if !changed || now.0 == at => now.1 = at,
            _ => self.stretches.push((at, at, Best::Nothing)),
        }
        changed
    }

    /// The first half minute of data of which tags said this at the best, and the last.
    fn span(&self, best: Best) -> Option<(Gst, Gst)> {
        let of = || self.stretches.iter().filter(|stretch| stretch.2 == best);
        Some((of().next()?.0, of().next_back()?.1))
    }

    /// The longest time of data that was not marked.
    fn longest(&self) -> u64 {
        let length = |part: &[(Gst, Gst, Best)]| {
            let (first, last) = (part.first()?, part.last()?);
            Some(time::seconds(last.1) - time::seconds(first.0))
        };
        let parts = self.stretches.split(|stretch| stretch.2 == Best::Authentic);
        parts.filter_map(length).max().unwrap_or(0)
    }
}

/// Data that changed while tags waited: from, to, and the last outcomes of those tags with their IODnav.
struct Changed {
    from: String,
    to: String,
    tags: Vec<(u32, u8, u8, u8)>,
}

/// What is heard in a run.
#[derive(Default)]
struct AllHeard {
    satellites: BTreeMap<u8, Heard>,
    /// Changes of data under waiting tags, by satellite and half minute.
    changes: BTreeMap<u8, BTreeMap<Gst, Changed>>,
    /// Each tag's satellite, last outcome and IODnav.
    tags: ByTag<(u8, u8, u16)>,
}

fn heard(lines: &[Line], run: &[u8]) -> AllHeard {
    let AllHeard {
        mut satellites,
        mut changes,
        mut tags,
    } = AllHeard::default();
    let mut came: ByTag<usize> = BTreeMap::new();
    for (line, record) in lines.iter().zip(run.chunks_exact(RECORD_LEN)) {
        for t in &line.tags {
            let name = (
                u32::from_be_bytes([t[8], t[9], t[10], t[11]]),
                t[1],
                t[4],
                t[5],
            );
            tags.insert(name, (t[2], t[0], u16::from_be_bytes([t[6], t[7]])));
            let heard = satellites.entry(t[2]).or_default();
            let stretch = *came.entry(name).or_insert(heard.stretches.len());
            let best = match t[0] {
                1 => Best::Authentic,
                9 => Best::Agrees,
                _ => Best::Nothing,
            };
            if let Some(now) = stretch.checked_sub(1) {
                let said = &mut heard.stretches[now].2;
                *said = best.max(*said);
            }
        }
        match Record::of(record.try_into().unwrap()) {
            Record::Word { prn, time, word }
                if line.first == 0 && (1..=5).contains(&(word[0] >> 2)) =>
            {
                let heard = satellites.entry(prn).or_default();
                let from = heard.iodnav();
                let changed = heard.word(time, &word);
                let waiting = tags.iter().filter(|(_, tag)| (tag.0, tag.1) == (prn, 5));
                let waiting: Vec<_> = waiting.map(|(name, _)| *name).collect();
                let of = changes.entry(prn).or_default();
                if let Some(change) = of.get_mut(&time) {
                    change.to = heard.iodnav();
                } else if changed && !waiting.is_empty() {
                    let (to, tags) = (heard.iodnav(), waiting);
                    of.insert(time, Changed { from, to, tags });
                }
            }
            _ => {}
        }
    }
    changes.retain(|_, of| !of.is_empty());
    AllHeard {
        satellites,
        changes,
        tags,
    }
}

/// The rows of the table of changes.
fn rows(all: &AllHeard, clock: Clock) -> Vec<[String; 3]> {
    let when = |(at, change): (&Gst, &Changed)| {
        format!("{} ({} to {})", clock.say(*at), change.from, change.to)
    };
    let then = |change: &Changed| {
        let of = |outcome: u8| {
            change
                .tags
                .iter()
                .map(|name| all.tags[name])
                .filter(move |tag| tag.1 == outcome)
        };
        let issues = |outcome| {
            let all: BTreeSet<String> = of(outcome).map(|tag| tag.2.to_string()).collect();
            Vec::from_iter(all).join(", ")
        };
        let named = |what: &str, outcome| match of(outcome).count() {
            0 => None,
            n => Some(format!("{n} {what} ({})", issues(outcome))),
        };
        let waits = match of(5).count() {
            0 => None,
            n => Some(format!("{n} still waiting")),
        };
        let parts = [
            named("authentic", 1),
            named("agree", 9),
            named("wrong", 2),
            waits,
        ];
        Vec::from_iter(parts.into_iter().flatten()).join(", ")
    };
    let row = |(prn, of): (&u8, &BTreeMap<Gst, Changed>)| {
        [
            format!("E{prn:02}"),
            Vec::from_iter(of.iter().map(when)).join("\n"),
            Vec::from_iter(of.values().map(then)).join("\n"),
        ]
    };
    all.changes.iter().map(row).collect()
}

// Data that changed while slow tags waited, where no chain or root gives tags up.
#[test]
fn changes_under_waiting_tags() {
    let mut seen = 0;
    for name in ["fitter", "data_change", "nominal", "trees"] {
        let bytes = recording(name);
        let (_, lines, _) = second(&bytes);
        let all = history(&bytes);
        let shown = &sheet_of(name, &all, 0).runs[0];
        let right = heard(&lines, &bytes);
        let table = shown
            .back
            .iter()
            .find(|w| w.title.starts_with("Data changed while slow tags"));
        let told = table.map_or(Vec::new(), |w| w.table.clone().unwrap().rows);
        let told: Vec<[String; 3]> = told
            .iter()
            .map(|row| [0, 1, 2].map(|n| row[n].clone()))
            .collect();
        assert_eq!(told, rows(&right, shown.clock), "{name}");
        seen += told.len();
    }
    assert!(seen > 5, "{seen}");
}

// Data that was not marked: where there is none, and only there, the box says that all was authentic. Data
// that tags agree with is told apart from data without a tag.
#[test]
fn data_without_proof() {
    let mut boxes: BTreeMap<&str, usize> = BTreeMap::new();
    for run in runs() {
        let (name, shown) = (run.name, &run.sheet);
        let (title, text) = (&shown.finding.title, shown.finding.text.join(" "));
        let heard = heard(run.lines, run.records).satellites;
        let spans = |best| -> BTreeSet<(Gst, Gst)> {
            heard
                .values()
                .filter_map(|heard| heard.span(best))
                .collect()
        };
        let (without, short) = (spans(Best::Nothing), spans(Best::Agrees));
        let kind = [
            "All data heard",
            "All data that was judged",
            "All data that enough tags judged",
            "NOT ALL DATA WAS PROVED",
        ]
        .into_iter()
        .find(|kind| title.starts_with(kind));
        let Some(kind) = kind else {
            continue;
        };
        *boxes.entry(kind).or_default() += 1;
        let long = heard.values().filter(|heard| heard.longest() > 300).count();
        let none = without.is_empty() && short.is_empty();
        match kind {
            "All data heard" => assert!(none, "{name}: {title}"),
            "All data that was judged" | "All data that enough tags judged" => {
                assert!(!none && long == 0, "{name}: {title}");
                assert_eq!(short.is_empty(), kind.ends_with("was judged"), "{name}");
                let (begin, end) = match text.split_once("Tags agree with data that came for ") {
                    Some((begin, end)) => (begin, end),
                    None => (&text[..], ""),
                };
                for (spans, told) in [(&without, begin), (&short, end)] {
                    for (first, last) in spans.iter().rev().take(3) {
                        let span = shown.clock.span(*first, *last);
                        assert!(told.contains(&span), "{name}: {span} in {told}");
                    }
                }
            }
            _ => {
                let with_data = heard
                    .iter()
                    .filter(|(_, heard)| !heard.stretches.is_empty());
                let without = with_data.filter(|(_, heard)| {
                    let is_marked = |of: &(Gst, Gst, Best)| of.2 == Best::Authentic;
                    heard.longest() > 300 || !heard.stretches.iter().any(is_marked)
                });
                let told = format!("for {} of {} satellite", without.count(), shown.heard);
                assert!(title.contains(&told), "{name}: {title}, {told}");
            }
        }
    }
    assert_eq!(boxes.len(), 4, "{boxes:?}");
}
