//! What the page says in words, and that it stands alone.

mod common;

use common::{history, recording, recordings};
use jobsheet::history::{History, WordsChanged, EVENTS};
use jobsheet::receiver::{Answer, Receiver};
use jobsheet::recording::{Record, RECORD_LEN};
use jobsheet::sheet::Sheet;
use jobsheet::time::Zone;
use jobsheet::warnings::Grade;
use jobsheet::{html, text};
use osnma::{Outcome, Refusal};
use second_receiver::sets::Candidate;
use std::collections::{BTreeMap, BTreeSet};
use std::time::{Duration, Instant};

fn sheet(name: &str) -> Sheet {
    Sheet::of(name, &history(&recording(name)), None)
}

/// Titles and texts of the warnings of this grade, front and back.
fn told(name: &str, grade: Grade) -> Vec<String> {
    let sheet = sheet(name);
    let warnings = sheet
        .runs
        .iter()
        .flat_map(|run| run.front.iter().chain(&run.back));
    warnings
        .filter(|warning| warning.grade == grade)
        .map(|warning| format!("{} {}", warning.title, warning.text))
        .collect()
}

#[track_caller]
fn says(told: &[String], parts: &[&str]) {
    let one = told
        .iter()
        .any(|text| parts.iter().all(|part| text.contains(part)));
    assert!(one, "{parts:?} in none of {told:#?}");
}

// The fault that started this: a repeater's words (IODnav 500) come while a slow tag of satellite 2
// waits. The set that the tag came with is marked.
#[test]
fn data_changed_while_a_slow_tag_waited() {
    let sheet = sheet("data_change");
    let run = &sheet.runs[0];
    let warning = run
        .back
        .iter()
        .find(|warning| warning.title == "Data changed while slow tags waited: E02.")
        .unwrap();
    assert_eq!(warning.grade, Grade::Note);
    let row = &warning.table.as_ref().unwrap().rows[0];
    assert!(row[1].ends_with("(66 to 500)"), "{row:?}");
    assert!(row[2].contains("authentic (66)"), "{row:?}");
    assert_eq!(row[3], "IODnav 66");
    let strip = run
        .overview
        .rows
        .iter()
        .find(|strip| strip.prn == 2)
        .unwrap();
    assert_eq!(strip.cells.iter().filter(|cell| cell.changed).count(), 1);
    assert!(run.marked.iter().all(|set| set.set.iodnav != 500));
    says(
        &told("data_change", Grade::Warning),
        &["Wrong data for E02."],
    );
}

// A data change without a slow tag is no warning: with tags of ADKD 0 alone nothing waits.
#[test]
fn changes_are_marked_only_where_tags_waited() {
    let mut changes = 0;
    for (name, bytes) in recordings() {
        let Ok(all) = jobsheet::replay(&bytes[..], |_| ()) else {
            continue;
        };
        for (run, shown) in all.runs.iter().zip(&Sheet::of(name, &all, None).runs) {
            let strips = shown.detail.as_ref().unwrap_or(&shown.overview);
            let marks = strips.rows.iter().flat_map(|strip| &strip.cells);
            assert_eq!(
                marks.filter(|cell| cell.changed).count(),
                run.changed
                    .iter()
                    .map(|c| (c.prn, c.at))
                    .collect::<BTreeSet<_>>()
                    .len(),
                "{name}"
            );
            let waited = |c: &WordsChanged| {
                let w = &c.waited;
                w.authentic.count + w.agree.count + w.wrong.count + w.waits + w.given_up
            };
            assert!(run.changed.iter().all(|c| waited(c) > 0), "{name}");
            changes += run.changed.len();
        }
    }
    assert!(changes > 50);
}

#[test]
fn plain_words() {
    let warnings = |name| told(name, Grade::Warning);
    says(
        &warnings("fitter"),
        &["Wrong data for E04, E11, E19 and E27."],
    );
    let notes = told("fitter", Grade::Note);
    says(&notes, &["24 sections refused.", "All 12 satellites"]);
    says(
        &notes,
        &["From 00:00:00 to 00:00:30 no keys were in force yet. Ordinary after switching on."],
    );
    says(
        &told("full_sky", Grade::Note),
        &["No place for 1422 slow tags."],
    );
    says(&warnings("verdicts"), &["The signature chip said NO"]);
    says(&told("chain_renewal", Grade::Note), &["given up"]);
    assert!(told("nominal", Grade::Warning).is_empty());
    let page = html::page(&sheet("nominal"));
    assert!(page.contains("Nothing to warn of."));
    assert!(text::sheet(&sheet("nominal")).contains("Nothing to warn of."));
}

/// The box of each part: title, text and what to do.
fn boxes(bytes: &[u8]) -> Vec<String> {
    let sheet = Sheet::of("x", &history(bytes), None);
    let page = html::page(&sheet);
    let told = |run: &jobsheet::sheet::RunSheet| {
        let f = &run.finding;
        let class = if f.good { "good" } else { "bad" };
        assert!(page.contains(&format!("<section class=\"finding {class}\">")));
        assert!(page.contains(&html::escaped(&f.title)));
        format!("{} {} Do: {}", f.title, f.text.join(" "), f.to_do)
    };
    sheet.runs.iter().map(told).collect()
}

fn records(name: &str) -> Vec<Vec<u8>> {
    let bytes = recording(name);
    bytes.chunks_exact(RECORD_LEN).map(<[u8]>::to_vec).collect()
}

/// The records with the first word of each type of a satellite in place of all that follow, as from a
/// repeater that is late.
fn older_words(records: &[Vec<u8>], prn: u8) -> Vec<u8> {
    let mut first: BTreeMap<u8, Vec<u8>> = BTreeMap::new();
    let older = |record: &Vec<u8>| {
        let mut record = record.clone();
        if record[..2] == [2, prn] {
            let word = first
                .entry(record[6] >> 2)
                .or_insert(record[6..22].to_vec());
            record[6..22].copy_from_slice(word);
        }
        record
    };
    records.iter().flat_map(older).collect()
}

// The first words of the sheet, for what can happen in the field.
#[test]
fn findings() {
    says(
        &boxes(&recording("fitter")),
        &[
            "WRONG DATA came in from 00:12:30 to 00:17:00 for 4 of 12 satellites (E04, E11, E19 and E27). \
             It was not taken: what was marked before stayed.",
            "From 00:01:00 on never fewer than 12 satellites had a mark of the last 5 minutes; the boom needs 4.",
            "Do: keep the recording.",
            "repeater",
        ],
    );
    for name in ["nominal", "trees"] {
        let told = boxes(&recording(name));
        says(
            &told,
            &["All data heard was authentic. 8 satellites with data, all marked."],
        );
        assert!(!told[0].contains("WRONG"), "{told:?}");
    }
    let told = boxes(&recording("emergency"));
    says(
        &told[..1],
        &[
            "STOPPED at 2017-10-20 00:01:30",
            "nothing was taken (6 records)",
            "do not spray",
        ],
    );
    says(
        &told[1..],
        &["NOTHING WAS JUDGED: the system's keys were not heard whole."],
    );
    says(
        &boxes(&recording("chain_revoked")),
        &[
            "THE SYSTEM WITHDREW ITS KEYS at 2017-10-20 00:02:00. New ones were taken at 2017-10-20 00:04:30.",
            "3 satellites with data, all marked. E01 to E08 sent none.",
            "At no time did 4 satellites have a mark of the last 5 minutes; the boom needs 4.",
            "Do: before you spray, see that the first row below ends in yes (light, or y): 4 satellites or more.",
        ],
    );
    let fitter = records("fitter");
    says(
        &boxes(&fitter[0]),
        &[
            "NOTHING WAS HEARD. The receiver was started, but no satellite's data came.",
            "Do: check the antenna",
        ],
    );
    let zeros = [fitter[0].clone(), vec![0; 2 * RECORD_LEN]].concat();
    says(
        &boxes(&zeros),
        &["NOTHING WAS HEARD. The receiver was started, but all that came was refused (2 parts)"],
    );
    // Satellites without authentication fields.
    let zero = |record: &Vec<u8>| {
        let mut record = record.clone();
        if record[0] == 3 {
            record[6..81].fill(0);
        }
        record
    };
    says(
        &boxes(&Vec::from_iter(fitter.iter().take(200).flat_map(zero))),
        &["NOTHING WAS JUDGED: the satellites heard sent no keys and no tags."],
    );
    // A chip that never answers, and one that says no.
    let without: Vec<u8> = fitter
        .iter()
        .filter(|r| r[0] != 4)
        .flatten()
        .copied()
        .collect();
    says(
        &boxes(&without),
        &["NOTHING WAS JUDGED: the system's keys have waited for the signature chip since 00:00:30."],
    );
    let no = |record: &Vec<u8>| {
        let mut record = record.clone();
        record[1] &= if record[0] == 4 { 0 } else { 255 };
        record
    };
    let refused = fitter.iter().take(200).flat_map(no);
    says(
        &boxes(&Vec::from_iter(refused)),
        &[
            "NOTHING WAS JUDGED: the signature chip said NO to the keys, last at 00:00:30.",
            "Keys have waited for the chip again since 00:01:00.",
        ],
    );
    // The last root is dropped and none comes after it.
    let revoked = records("chain_revoked");
    let place = revoked
        .iter()
        .position(|r| r[0] == 4 && r[3] >> 6 == 3)
        .unwrap();
    says(
        &boxes(&revoked[..=place].concat()),
        &["THE SYSTEM WITHDREW ITS KEYS at 2017-10-20 00:02:00, and no new ones came."],
    );
    // Three of twelve satellites are heard from the fifth minute on. E09 has newer data later, which
    // nobody heard: that is out of date, not wrong.
    let few = boxes(&common::few_heard());
    says(
        &few,
        &[
            "DATA OUT OF DATE for 1 of 12 satellites (E09). Not heard any more when the system sent newer \
             data, since 00:20:30",
            "never fewer than 11 satellites",
        ],
    );
    assert!(!few[0].contains("WRONG"), "{few:?}");
    // E09 is heard on, but with its old data: no data that nobody heard, but older than the system's.
    let older = older_words(&fitter, 9);
    let told = boxes(&older);
    says(
        &told,
        &[
            "WRONG DATA came in",
            "For E09 it is data that was right before and is still heard",
        ],
    );
    // The words in which E18's data changes are lost: out of date for a half minute, and right again.
    let mut lost = records("nominal");
    let is = |r: &&Vec<u8>| r[0] == 2 && r[1] == 18;
    let first = lost.iter().find(is).unwrap()[6..22].to_vec();
    let change = lost
        .iter()
        .filter(is)
        .find(|r| r[6] == first[0] && r[7] != first[1]);
    let change = change.unwrap()[2..6].to_vec();
    lost.retain(|r| r[..2] != [2, 18] || r[2..6] != change);
    let lost = lost.concat();
    says(
        &boxes(&lost),
        &["All data heard was authentic.", "Do: nothing."],
    );
    let sheet = Sheet::of("lost", &history(&lost), None);
    let note = sheet.runs[0]
        .front
        .iter()
        .find(|w| w.title == "Data out of date for E18.")
        .unwrap();
    assert_eq!(note.grade, Grade::Note);
    assert!(
        note.text.contains("Newer data was marked later."),
        "{note:?}"
    );
    // All data right, but a key is damaged on the way.
    let mut damaged = records("nominal");
    let last = damaged.iter().rposition(|r| r[0] == 3).unwrap();
    damaged[last][32] ^= 1;
    says(
        &boxes(&damaged.concat()),
        &[
            "All data heard was authentic.",
            "Do: read the warnings below",
        ],
    );
    // All data right, but of two satellites.
    says(
        &boxes(&recording("week_change")),
        &["All data heard was authentic. TOO FEW SATELLITES for the boom, all the time."],
    );
    // Words without a tag for them.
    let few: Vec<u8> = fitter[..140].concat();
    says(&boxes(&few), &["NO DATA WAS PROVED."]);
}

// The box does not call data authentic that could be compared with nothing.
#[test]
fn words_that_do_not_go_together() {
    says(
        &boxes(&common::spoiled_word()),
        &[
            "NOT ALL DATA WAS PROVED for 1 of 14 satellites (E09).",
            "No tag has judged data that came for E09 from 2017-10-20 00:03:30 to 00:11:30.",
        ],
    );
    // Only the words of the last half minute have no tag.
    says(
        &boxes(&recording("full_sky")),
        &["All data that was judged was authentic. No tag has judged data that came for all 36 satellites at 00:29:30."],
    );
}

/// How many bits each candidate has, the most first, as the box says it.
fn bits_so_far(candidates: &BTreeMap<u8, Candidate>) -> String {
    let mut bits: Vec<usize> = candidates.values().map(|of| of.total()).collect();
    bits.sort_by(|a, b| b.cmp(a));
    bits.dedup();
    let have = |bits: &usize| {
        let of = |(prn, of): (&u8, &Candidate)| (of.total() == *bits).then(|| format!("E{prn:02}"));
        let names = Vec::from_iter(candidates.iter().filter_map(of));
        match &names[..] {
            [one] => format!("{one} has {bits}"),
            [others @ .., last] => format!("{} and {last} have {bits}", others.join(", ")),
            [] => unreachable!(),
        }
    };
    Vec::from_iter(bits.iter().map(have)).join("; ")
}

/// The first cell of each candidate's satellite with the sign of a tag that agrees says its bits.
fn cells_say_bits(page: &str, candidates: &BTreeMap<u8, Candidate>) {
    for (prn, of) in candidates {
        let (_, strip) = page
            .split_once(&format!("data-strip=\"E{prn:02}\""))
            .unwrap();
        let (strip, _) = strip.split_once("</g>").unwrap();
        let (_, cell) = strip.split_once("href=\"#agrees\"").unwrap();
        let (cell, _) = cell.split_once("</title>").unwrap();
        let bits = format!(" agrees, {} of 40 bits", of.total());
        assert!(cell.contains(&bits), "{cell}: {bits}");
    }
}

// Data that tags agree with, short of a mark: its sign and bits, and why it is not marked.
#[test]
fn short_of_a_mark() {
    let bytes = common::short_of_a_mark();
    let candidates = &common::second(&bytes).1.pop().unwrap().after.candidates;
    let all = bits_so_far(candidates);
    assert!(candidates.len() > 1, "{all}");
    let told = boxes(&bytes);
    says(
        &told,
        &[
            "NO DATA WAS PROVED. No tag has shown the data of ",
            "is not marked. Tags agree with the data heard, but a mark takes 40 bits of tags for the \
             same data: E",
        ],
    );
    let sheet = Sheet::of("short", &history(&bytes), None);
    let warning = sheet.runs[0]
        .front
        .iter()
        .find(|warning| warning.text.starts_with("Tags agree with the data heard"))
        .unwrap();
    assert_eq!(warning.grade, Grade::Warning);
    let page = html::page(&sheet);
    let told_of = |text: &str| text.contains(&format!(" same data: {all}."));
    assert!(
        told_of(&told[0]) && told_of(&warning.text),
        "{told:?}: {all}"
    );
    cells_say_bits(&page, candidates);
    assert!(page.contains("<b>agrees</b> tags match, too few bits so far"));
    assert!(sheet.runs[0].marked.is_empty());
    // Newer data, while the older stays marked.
    says(
        &boxes(&common::newer_data_short()),
        &[
            "All data that enough tags judged was authentic.",
            "Tags agree with data that came for E18 ",
            ", but by fewer than the 40 bits that a mark takes.",
        ],
    );
}

// The words of the box are the largest of the page.
#[test]
fn verdict_is_largest() {
    let page = html::page(&sheet("fitter"));
    let (_, style) = page.split_once("<style>").unwrap();
    let (style, _) = style.split_once("</style>").unwrap();
    let size = |rule: &str| {
        let (name, rest) = rule.split_once('{')?;
        let (_, rest) = rest.split_once("font-size: ")?;
        let (points, _) = rest.split_once("pt")?;
        Some((points.parse::<f64>().ok()?, name.trim().to_string()))
    };
    let mut sizes: Vec<(f64, String)> = style.split('}').filter_map(size).collect();
    sizes.sort_by(|a, b| b.0.total_cmp(&a.0));
    assert_eq!(sizes[0].1, ".finding .first", "{sizes:?}");
    assert!(
        sizes.len() > 10 && sizes[0].0 > sizes[1].0 + 2.0,
        "{sizes:?}"
    );
    assert!(page.contains("<p class=\"first\">WRONG DATA came in"));
}

// The legend has the signs that occur, and no others.
#[test]
fn legend() {
    let keys = |name: &str| {
        let page = html::page(&sheet(name));
        let (_, rest) = page.split_once("<ul class=\"legend\">").unwrap();
        let (legend, _) = rest.split_once("</ul>").unwrap();
        let key = |part: &str| part.split_once('"').unwrap().0.to_string();
        Vec::from_iter(legend.split("href=\"#").skip(1).map(key))
    };
    assert_eq!(
        keys("fitter"),
        ["authentic", "wrong", "refused", "changed", "selfheard"]
    );
    assert!(keys("lost_keys").contains(&"missing".into()));
}

// A tag that matches data which others call wrong: the page does not call that data proved. One of the
// tags that came with the repeater's words is made to match by hand, since in no scenario one does.
#[test]
fn disputed_data() {
    let mut all = history(&recording("fitter"));
    let (first, _) = all.runs[0].timeline.span().unwrap();
    assert!(jobsheet::finding::disputed(&all.runs[0]).is_empty());
    let data = all.runs[0].data.get_mut(&4).unwrap();
    let wrong = (1..=data.now()).find(|n| data.stretches().nth(*n as usize - 1).unwrap().wrong > 0);
    data.judge(wrong.unwrap(), first, Outcome::Authentic, 12);
    let sheet = Sheet::of("fitter", &all, None);
    let text = sheet.runs[0].finding.text.join(" ");
    assert!(
        text.contains("For E04 a tag also MATCHED the data that others called wrong"),
        "{text}"
    );
    assert!(!text.contains("It was not taken"), "{text}");
    assert!(html::page(&sheet).contains("The same data called both authentic and wrong: E04."));
}

/// Times and words of the events.
fn events(name: &str) -> Vec<String> {
    let sheet = sheet(name);
    let events = sheet.runs.iter().flat_map(|run| &run.events);
    events
        .map(|event| format!("{} {}", event.when, event.what))
        .collect()
}

#[test]
fn events_have_a_line_each() {
    let told = events("chain_revoked");
    assert_eq!(told.len(), 3, "{told:?}");
    assert!(
        told[0].starts_with("2017-10-19 23:59:30 Keys in force"),
        "{told:?}"
    );
    assert!(
        told[1].starts_with("2017-10-20 00:02:00 KEYS WITHDRAWN"),
        "{told:?}"
    );
    assert!(
        told[2].starts_with("2017-10-20 00:04:30 New keys in force: tags are judged again"),
        "{told:?}"
    );
    for name in ["chain_renewal", "mf_changes", "hf_changes"] {
        says(
            &events(name),
            &["New keys in force, in place of the old ones."],
        );
    }
    says(
        &events("floating_root"),
        &["The system signed the keys in force anew."],
    );
    says(&events("new_public_key"), &["New public key (9) in use"]);
    says(
        &events("stopped"),
        &["STOPPED by the system's emergency message"],
    );
    says(&events("verdicts"), &["The signature chip said NO"]);
    let page = html::page(&sheet("chain_revoked"));
    assert!(page.contains(
        "<dt class=\"alert\">2017-10-20 00:02:00</dt><dd class=\"alert\">KEYS WITHDRAWN"
    ));
    assert!(!page.contains("<h2>All events</h2>"));
    // Many events: those that warn on the front, all on the back.
    let mut many = sheet("chain_revoked");
    let run = &mut many.runs[0];
    run.events = [&run.events[..], &run.events, &run.events].concat();
    let page = html::page(&many);
    let (front, back) = page.split_once("<section class=\"back\">").unwrap();
    assert_eq!(
        front.matches("<dd class=\"alert\">KEYS WITHDRAWN").count(),
        3
    );
    assert!(!front.contains("Keys in force") && front.contains("9 in all: see the back."));
    let (_, all) = back.split_once("<h2>All events</h2>").unwrap();
    assert_eq!(all.matches("<dd>Keys in force").count(), 3);
}

// More events than are kept: the box does not depend on those that have no line.
#[test]
fn many_events() {
    let (mut receiver, mut all) = (Receiver::new(), History::default());
    let revoked = records("chain_revoked");
    for bytes in &revoked {
        let record = Record::of(bytes[..].try_into().unwrap());
        if matches!(&record, Record::Verdict { message, .. } if message[0] >> 6 == 3) {
            let no = Answer {
                first: Err(Refusal::VerdictBad),
                second: Ok(()),
                tags: Vec::new(),
            };
            (0..200).for_each(|_| all.note(&record, &no, receiver.core()));
        }
        let answer = receiver.answer(&record);
        all.note(&record, &answer, receiver.core());
    }
    let sheet = Sheet::of("x", &all, None);
    let run = &sheet.runs[0];
    assert!(run.finding.title.contains(
        "WITHDREW ITS KEYS at 2017-10-20 00:02:00. New ones were taken at 2017-10-20 00:04:30."
    ));
    assert_eq!(run.events.len(), EVENTS + 1);
    let more = &run.events[EVENTS];
    assert_eq!(
        more.what,
        format!("{} more, not shown here.", all.runs[0].events_left_out)
    );
    assert_eq!(all.runs[0].events_left_out, 3 + 200 + 200 - EVENTS as u64);
}

// Sections without a chain: before the first root ordinary, after a drop a warning.
#[test]
fn without_keys() {
    let (warnings, notes) = (
        told("chain_revoked", Grade::Warning),
        told("chain_revoked", Grade::Note),
    );
    says(
        &warnings,
        &["From 2017-10-20 00:02:30 to 00:04:30 the keys were withdrawn."],
    );
    says(
        &notes,
        &["At 2017-10-19 23:59:30 no keys were in force yet. Ordinary after switching on."],
    );
    says(&warnings, &["The chain was dropped by status 3"]);
}

// What a stop refuses is one line: words, sub-frames and verdicts together.
#[test]
fn one_line_for_a_stop() {
    let stop = records("stopped");
    let mut bytes = stop.concat();
    let last = |kind: u8| stop.iter().rfind(|r| r[0] == kind).unwrap();
    for kind in [2, 3, 4] {
        bytes.extend(last(kind));
    }
    let sheet = Sheet::of("stopped", &history(&bytes), None);
    let run = sheet.runs.last().unwrap();
    let lines: Vec<_> = run
        .front
        .iter()
        .chain(&run.back)
        .filter(|w| w.text.contains("number 4") || w.title.contains("stopped"))
        .collect();
    assert_eq!(lines.len(), 1, "{lines:#?}");
    for part in ["sub-frame", "word", "1 verdict"] {
        assert!(lines[0].text.contains(part), "{lines:?}");
    }
    let stops = run
        .events
        .iter()
        .filter(|event| event.what.contains("STOPPED"));
    assert_eq!(stops.count(), 1);
}

// A satellite that falls silent after five minutes: the line under its cells ends, and a note says so.
#[test]
fn silent_satellite() {
    let mut records = records("fitter");
    let time = |r: &[u8]| u32::from_be_bytes([r[2], r[3], r[4], r[5]]);
    let begin = records
        .iter()
        .filter(|r| r[0] == 3)
        .map(|r| time(r))
        .min()
        .unwrap();
    records.retain(|r| ![2, 3].contains(&r[0]) || r[1] != 1 || time(r) < begin + 300);
    let bytes = records.concat();
    let sheet = Sheet::of("silent", &history(&bytes), None);
    let run = &sheet.runs[0];
    let strip = &run.overview.rows[0];
    let heard = strip.cells.iter().map(|cell| cell.heard);
    assert_eq!(
        (strip.prn, heard.collect::<Vec<_>>()),
        (1, [[1; 10].as_slice(), &[0; 50]].concat())
    );
    let titles: Vec<&str> = run.front.iter().map(|w| w.title.as_str()).collect();
    // The strip says it where the line under its cells ends.
    let page = html::page(&sheet);
    let (_, strip) = page.split_once("data-strip=\"E01\"").unwrap();
    let (strip, others) = strip.split_once("</g>").unwrap();
    assert!(strip.contains("class=\"silent\" font-size=\"20\">not heard</text>"));
    assert!(!others.contains("class=\"silent\""));
    let note = "Not heard to the end: E01 since 00:04:30.";
    assert!(titles.contains(&note), "{titles:?}");
    let text = text::sheet(&sheet);
    let row = text
        .lines()
        .find(|line| line.starts_with("  E01  "))
        .unwrap();
    assert!(row.ends_with("heard to 00:04:30"), "{row}");
}

// Half an hour under trees: nothing to warn of, two notes on what was lost.
#[test]
fn lost_fields() {
    for name in ["trees", "trees_1", "trees_3"] {
        assert_eq!(told(name, Grade::Warning), [""; 0], "{name}");
        let notes = told(name, Grade::Note);
        says(
            &notes,
            &[
                "Reception was broken in ",
                "half minutes, counted for each satellite. Ordinary under trees. What came was used; in ",
                "of them the tags could not be.",
            ],
        );
        says(&notes, &["Bits missing of", "tags."]);
        says(
            &notes,
            &["message blocks refused. A field of the sub-frame was lost (number 17)."],
        );
        let sheet = sheet(name);
        let page = html::page(&sheet);
        assert!(page.contains("with bits missing</dd>"), "{name}");
        assert!(text::sheet(&sheet).contains(": missing"));
        let csv = common::rows(&recording(name));
        assert!(csv.contains(",8,bits missing,"), "{name}");
    }
    // In a strip such a tag shows where no other came.
    assert!(html::page(&sheet("lost_keys")).contains("<use href=\"#missing\" x="));
    // Where nothing is lost nothing is said of it.
    let page = html::page(&sheet("nominal"));
    assert!(!page.contains("bits missing<") && !page.contains("Reception was broken"));
}

// Local time by a zone: every time on the sheet moves, and what they are is said once.
#[test]
fn local_time() {
    let all = history(&recording("fitter"));
    let zone: Zone = "+02:00".parse().unwrap();
    let page = html::page(&Sheet::of("fitter", &all, Some(zone)));
    assert!(page.contains("WRONG DATA came in from 02:12:12 to 02:16:42 for 4 of 12"));
    assert!(page.contains("2017-10-20 01:59:42 to 02:29:12"));
    assert!(page.contains("class=\"axis\">02:05</text>"));
    assert_eq!(page.matches("UTC\u{a0}+\u{a0}18\u{a0}s").count(), 1);
    assert!(page.contains("local time (UTC+02:00)"));
    assert!(!page.contains("00:12:30"));
    let gst = html::page(&Sheet::of("fitter", &all, None));
    assert_eq!(gst.matches("UTC\u{a0}+\u{a0}18\u{a0}s").count(), 1);
    assert!(gst.contains("class=\"axis\">00:05</text>"));
}

// On the front no word that only the papers explain; the back has them.
#[test]
fn front_in_plain_words() {
    for (name, bytes) in recordings() {
        let Ok(all) = jobsheet::replay(&bytes[..], |_| ()) else {
            continue;
        };
        let page = html::page(&Sheet::of("x", &all, None));
        for part in page.split("<main>").skip(1) {
            let (front, back) = part.split_once("<section class=\"back\">").unwrap();
            let words = front.replace("<section", "").replace("</section", "");
            for word in [
                "root",
                "chain",
                "MACLT",
                "CID",
                "IODnav",
                "sub-frame",
                "section",
                "MACK",
                "DSM",
                "ADKD",
                "verdict",
                "number 1",
                "slot",
                "status",
            ] {
                assert!(!words.contains(word), "{name}: {word}");
            }
            assert!(back.contains("MACLT"), "{name}");
        }
    }
}

// The strips and tables of the fitter's half hour, and of one under trees, fit a terminal of 100 columns.
#[test]
fn text_is_narrow() {
    for name in ["fitter", "trees"] {
        for line in text::sheet(&sheet(name)).lines() {
            assert!(line.chars().count() <= 100, "{line}");
        }
    }
}

// What it comes to stands first, then the strips, what happened, and at last the back.
#[test]
fn front_before_back() {
    let page = html::page(&sheet("fitter"));
    let order = [
        "<h1>Job sheet</h1>",
        "<section class=\"finding bad\">",
        "<h2>What was authentic when",
        "<h2>Events",
        "<h2>Warnings",
        "<h2>For the engineer",
        "<h2>Marked bytes",
    ];
    let places: Vec<usize> = order.iter().map(|part| page.find(part).unwrap()).collect();
    assert!(places.is_sorted(), "{places:?}");
    // Counts are of satellites heard, not of those that others' tags name.
    let revoked = html::page(&sheet("outcomes"));
    let heard = history(&recording("outcomes")).runs[0].heard.len();
    assert!(revoked.contains(&format!("<b>{heard} satellite")));
}

// No network, no script; a name cannot leave its place; every element that is opened is closed.
#[test]
fn page_stands_alone() {
    for name in [
        "fitter",
        "emergency",
        "starts",
        "week_change",
        "records",
        "trees",
    ] {
        let sheet = Sheet::of("<a&\"'b>.rec", &history(&recording(name)), None);
        let page = html::page(&sheet);
        assert!(page.contains("&lt;a&amp;&quot;&#39;b&gt;.rec"));
        for foreign in [
            "<a&", "http", "<script", "src=", "@import", "url(", "<link", "<iframe",
        ] {
            assert!(!page.contains(foreign), "{name}: {foreign}");
        }
        for element in [
            "main", "section", "article", "svg", "g", "table", "dl", "div", "p",
        ] {
            let count = |begin: String| page.matches(&begin).count();
            let opened = count(format!("<{element} ")) + count(format!("<{element}>"));
            assert_eq!(opened, count(format!("</{element}>")), "{name}: {element}");
        }
    }
}

// A receiver that was started again: a part for each start, and all that they come to on the first page.
#[test]
fn several_starts() {
    let first = sheet("emergency");
    assert_eq!(first.runs.len(), 2);
    let page = html::page(&first);
    assert!(page.contains("Part 1 of 2") && page.contains("Part 2 of 2"));
    // What they come to together stands before the first part.
    let (first, _) = page
        .split_once("<h2 class=\"part\">Part 1 of 2</h2>")
        .unwrap();
    assert!(first.contains("<section class=\"finding bad\">"));
    for told in [
        "<p class=\"first\">Started 2 times: SOMETHING IS WRONG in every part.</p>",
        "<p>Part 1: STOPPED at 2017-10-20 00:01:30",
        "<p>Part 2: NOTHING WAS JUDGED",
        "<p><b>Do:</b> read the box of parts 1 and 2.</p>",
    ] {
        assert!(first.contains(told), "{told}");
    }
    // A good part does not hide a bad one.
    let good = recording("nominal");
    let mixed = [good.clone(), recording("fitter"), good.clone()].concat();
    let mixed = Sheet::of("x", &history(&mixed), None);
    let all = mixed.all_parts.unwrap();
    assert_eq!(all.title, "Started 3 times: SOMETHING IS WRONG in part 2.");
    assert!(!all.good && all.to_do == "read the box of part 2.");
    assert!(all
        .text
        .iter()
        .any(|line| line.starts_with("Part 2: WRONG DATA came in")));
    let good_parts: Vec<bool> = mixed.runs.iter().map(|run| run.finding.good).collect();
    assert_eq!(good_parts, [true, false, true]);
    let twice = Sheet::of("x", &history(&good.repeat(2)), None);
    let all = twice.all_parts.unwrap();
    assert_eq!(all.title, "Started 2 times: nothing is wrong in any part.");
    assert!(all.good);
    assert!(sheet("nominal").all_parts.is_none());
    // Neighbours that come to the same have one line.
    let thrice = Sheet::of("x", &history(&recording("week_change").repeat(3)), None);
    let told = "Parts 1 to 3: All data heard was authentic. TOO FEW SATELLITES for the boom, all the time.";
    assert_eq!(thrice.all_parts.unwrap().text[1..], [told]);
}

// More starts than parts: the last have one, and what the others came to is said.
#[test]
fn many_starts() {
    let three = [recording("emergency"), recording("data_change")].concat();
    let all = history(&three.repeat(30));
    assert_eq!((all.runs.len(), all.left_out.runs), (64, 26));
    assert_eq!(all.left_out.stopped, 9);
    let sheet = Sheet::of("many", &all, None);
    let page = html::page(&sheet);
    assert!(page.contains("Part 27 of 90") && page.contains("Part 90 of 90"));
    assert!(!page.contains("Part 26 of 90"));
    let parts = sheet.all_parts.as_ref().unwrap();
    assert!(parts
        .title
        .starts_with("Started 90 times: SOMETHING IS WRONG in"));
    // One of each title, and that there are others.
    assert!(parts.text.len() <= 15, "{:#?}", parts.text);
    let told = format!(
        "Parts 1 to 26 are left out: {} wrong tags in them, 9 of them stopped.",
        all.left_out.wrong_tags
    );
    assert!(
        all.left_out.wrong_tags > 0 && page.contains(&told),
        "{told}"
    );
}

// A recording that ends in a record: a bar over every part, and the same in every foot.
#[test]
fn cut_short() {
    let whole = recording("emergency");
    let all = history(&whole[..whole.len() - 100]);
    let sheet = Sheet::of("cut", &all, None);
    let page = html::page(&sheet);
    assert_eq!(all.records, 71);
    assert_eq!(
        page.matches(
            "<p class=\"cut\"><b>CUT SHORT in record 72.</b> It ends after 156 of 256 bytes."
        )
        .count(),
        2
    );
    assert_eq!(page.matches("<footer>CUT SHORT in record 72 ").count(), 2);
    assert!(page.contains("@bottom-left { content: \"CUT SHORT in record 72 "));
    assert!(text::sheet(&sheet).starts_with("CUT SHORT in record 72."));
    assert!(!html::page(&Sheet::of("whole", &history(&whole), None)).contains("CUT SHORT"));
}

// The hash of a chain's steps is the one that its root names; its tags are under HMAC-SHA-256 whatever that is.
#[test]
fn hash_of_the_chain() {
    for (name, hash) in [
        ("nominal", "SHA-256"),
        ("sha3_224", "SHA3-224"),
        ("sha3_256", "SHA3-256"),
    ] {
        let sheet = sheet(name);
        let told = format!(", {hash}, HMAC-SHA-256, keys of ");
        assert!(html::page(&sheet).contains(&told), "{name}");
        let text = text::sheet(&sheet).replace(['\n', ' '], "");
        assert!(text.contains(&told.replace(' ', "")), "{name}");
    }
}

// Which recording it is: SHA-256 of all its bytes, also those of a record that is not whole.
#[test]
fn hash_of_the_recording() {
    let whole = recording("nominal");
    for bytes in [&whole[..], &whole[..whole.len() - 7]] {
        let sheet = Sheet::of("x", &history(bytes), None);
        let right: String = portable_hash::sha256(bytes)
            .iter()
            .map(|b| format!("{b:02X}"))
            .collect();
        assert_eq!(sheet.sha256, right);
        let foot = format!(
            "jobsheet {0}, osnma {0} \u{b7} recording's SHA-256 {right}",
            env!("CARGO_PKG_VERSION")
        );
        let page = html::page(&sheet);
        assert!(page.contains(&format!("{foot}\"")), "foot on paper");
        assert!(page.contains(&html::escaped(&foot)), "foot on the screen");
        assert!(text::sheet(&sheet).contains(&right));
    }
}

// However much comes, what is kept is bounded.
#[test]
fn bounded() {
    let start = records("fitter")[0].clone();
    // Records of no kind, words of times far apart, sub-frames with another time each, starts.
    let mut word = [0; RECORD_LEN];
    let mut other = Vec::from_iter((0..20_000).map(|_| [0u8; RECORD_LEN]));
    for n in 0..20_000u32 {
        let time = ((n / 700) << 20) | ((n % 700) * 840);
        word[..2].copy_from_slice(&[2, (n % 36) as u8 + 1]);
        word[2..6].copy_from_slice(&time.to_be_bytes());
        word[6..8].copy_from_slice(&[4, n as u8]);
        other.push(word);
        let mut subframe = word;
        subframe[0] = 3;
        other.push(subframe);
    }
    let bytes = [start, other.concat()].concat();
    let all = history(&bytes);
    let run = &all.runs[0];
    assert!(run.timeline.len() <= jobsheet::timeline::COLUMNS && run.timeline.step() > 1);
    assert!(run.refused.all().count() < 10, "{:?}", run.refused);
    assert!(run
        .data
        .values()
        .all(|data| data.stretches().count() <= jobsheet::data::STRETCHES));
    let sheet = Sheet::of("x", &all, None);
    assert!(sheet.runs[0].overview.columns.len() <= jobsheet::sheet::FRONT_COLUMNS);
    assert!(html::page(&sheet).len() < 12 << 20);
}

// Half an hour of 36 satellites in under two seconds, page and all.
#[test]
fn full_sky_is_quick() {
    let bytes = recording("full_sky");
    let began = Instant::now();
    let page = html::page(&Sheet::of("full_sky", &history(&bytes), None));
    let took = began.elapsed();
    assert!(page.len() > 100_000);
    assert!(
        cfg!(debug_assertions) || took < Duration::from_secs(2),
        "{took:?}"
    );
}
