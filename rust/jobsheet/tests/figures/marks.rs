//! Marks: when each set was marked, and how many are at the end.

use crate::common::{
    between, history, recording, run_page, runs, second, sets, subframe_time, Line,
};
use crate::{drawings, Expected};
use jobsheet::phone::check_value;
use jobsheet::recording::RECORD_LEN;
use osnma::Gst;
use second_receiver::navdata::SET_LEN;
use second_receiver::sets::Candidate;
use std::collections::{BTreeMap, BTreeSet};

/// A satellite's set, as reads gave it first.
#[derive(Clone)]
struct Mark {
    at: Gst,
    iodnav: u16,
    /// The satellite's candidate before that record, and since when it was.
    candidate: Option<(Candidate, Gst)>,
}

/// By satellite: when a read first gave data of another IODnav.
fn marks(lines: &[Line], run: &[u8]) -> BTreeMap<u8, Vec<Mark>> {
    let mut all: BTreeMap<u8, Vec<Mark>> = BTreeMap::new();
    let mut candidates: BTreeMap<u8, (Candidate, Gst)> = BTreeMap::new();
    for (line, record) in lines.iter().zip(run.chunks_exact(RECORD_LEN)) {
        let at = Gst::from_bits(subframe_time(record));
        for (prn, (iodnav, _)) in &line.after.sets {
            let sets = all.entry(*prn).or_default();
            if sets.last().is_none_or(|set| set.iodnav != *iodnav) {
                // A tag that agrees after one that is authentic begins another candidate.
                let of_set = |t: &&[u8; 12]| t[2] == *prn && t[6..8] == iodnav.to_be_bytes();
                let tags = line.tags.iter().filter(of_set);
                let anew = tags.skip_while(|t| t[0] != 1).any(|t| t[0] == 9);
                sets.push(Mark {
                    at,
                    iodnav: *iodnav,
                    candidate: candidates.get(prn).filter(|_| !anew).cloned(),
                });
            }
        }
        let now = line.after.candidates.iter();
        // One that is gone and begins anew has other tags, or other bits were the candidate between.
        let since = |(prn, of): (&u8, &Candidate)| {
            let goes_on = |before: &&(Candidate, Gst)| {
                let others = line.tags.iter().any(|t| {
                    let time = u32::from_be_bytes([t[8], t[9], t[10], t[11]]);
                    let other = t[6..8] != of.set.iodnav().to_be_bytes();
                    t[0] == 9 && t[2] == *prn && other && time >= before.0.latest().0
                });
                before.0.set == of.set && of.tags.starts_with(&before.0.tags) && !others
            };
            let before = candidates.get(prn).filter(goes_on);
            (*prn, (of.clone(), before.map_or(at, |before| before.1)))
        };
        candidates = now.map(since).collect();
    }
    all
}

/// The texts of this class in a drawing.
fn texts<'a>(drawing: &'a str, class: &str) -> Vec<&'a str> {
    let begin = format!("class=\"{class}\"");
    let text = |part: &'a str| between(part, ">", "</text>").unwrap().0;
    drawing.split(&begin[..]).skip(1).map(text).collect()
}

// From when to when each set was marked, those before the last too.
#[test]
fn periods() {
    let (mut earlier, mut from_candidates) = (0, 0);
    for run in runs() {
        let (name, clock) = (run.name, run.sheet.clock);
        let mut articles = run.page.split("<article class=\"set").skip(1);
        for (prn, sets) in &marks(run.lines, run.records) {
            for (n, mark) in sets.iter().enumerate().rev() {
                let (at, iodnav) = (&mark.at, mark.iodnav);
                let article = articles.next().unwrap();
                let from = clock.say(*at);
                let digits = between(article, "<pre>", "</pre>").unwrap().0;
                let bytes = unhex(&digits.replace([' ', '\n'], ""));
                let candidate = match &mark.candidate {
                    Some((before, since)) if before.set.0[..] == bytes && since < at => {
                        from_candidates += 1;
                        format!("; candidate from {}", clock.say(*since))
                    }
                    _ => String::new(),
                };
                let told = match sets.get(n + 1) {
                    None => format!("<p>authentic from {from} to the end{candidate}</p>"),
                    Some(Mark { at: until, .. }) => {
                        earlier += 1;
                        format!(
                            "<p>was authentic from {from} until {}{candidate}</p>",
                            clock.say(*until)
                        )
                    }
                };
                for part in [
                    &format!("data-set=\"E{prn:02}\""),
                    &format!("IODnav <b>{iodnav}</b>"),
                    &told,
                ] {
                    assert!(article.contains(part), "{name}, E{prn:02}: {part}");
                }
            }
        }
        assert_eq!(articles.next(), None, "{name}");
    }
    assert!(earlier > 10, "{earlier}");
    assert!(from_candidates > 10, "{from_candidates}");
}

// The bytes of every set, those before the last too, are what the second receiver reads after the
// record that the page names.
#[test]
fn bytes_of_every_set() {
    let mut earlier = 0;
    for name in ["fitter", "data_change", "nominal", "chain_renewal"] {
        let bytes = recording(name);
        let (page, _) = run_page(name, &history(&bytes), 0);
        let before = sets(&page, "set earlier");
        earlier += before.len();
        for (e, iodnav, check, digits, lines) in sets(&page, "set").into_iter().chain(before) {
            let (_, place) = lines[2].rsplit_once("record ").unwrap();
            let place: usize = place.parse().unwrap();
            let (_, _, receiver) = second(&bytes[..place * RECORD_LEN]);
            let mut set = [0; SET_LEN];
            let read = receiver.read_set(e[1..].parse().unwrap(), &mut set);
            let hex: String = set.iter().map(|byte| format!("{byte:02X}")).collect();
            assert_eq!((read.number, digits), (0, hex), "{name}, {e}");
            assert_eq!(iodnav, read.iodnav.to_string(), "{name}, {e}");
            assert_eq!(check, check_value(&set), "{name}, {e}");
        }
    }
    assert!(earlier > 1, "{earlier}");
}

// The head: how many are marked at the end, and the check value of all. Each strip: issue and check
// value at the end, and over the cells the issue from where it was marked.
#[test]
fn head_and_strips() {
    let mut heads = BTreeSet::new();
    for run in runs() {
        let (name, page) = (run.name, &run.page);
        let right = marks(run.lines, run.records);
        let expected = Expected::of(run.lines, run.records);
        let heard: BTreeSet<u8> = expected.heard.iter().map(|(prn, _)| *prn).collect();
        let (head, told) = match right.len() {
            0 => (0, "<span>none marked</span>".to_string()),
            n if n == heard.len() => (1, "<span>all marked at the end</span>".into()),
            n => (2, format!("<span>{n} marked at the end</span>")),
        };
        heads.insert(head);
        assert!(page.contains(&told), "{name}: {told}");
        let told = format!("{} marked at the end.", right.len());
        assert!(run.text.contains(&told), "{name}");
        let at_end = sets(page, "set");
        let bytes: Vec<u8> = at_end.iter().flat_map(|set| unhex(&set.3)).collect();
        let check = (!bytes.is_empty()).then(|| check_value(&bytes));
        let shown = between(page, "check of all <b>", "</b>").map(|(shown, _)| shown);
        assert_eq!(shown, check.as_deref(), "{name}");

        let (front, _) = drawings(page);
        let cells = expected.cells(run.sheet.overview.step);
        for strip in &run.sheet.overview.rows {
            let e = format!("E{:02}", strip.prn);
            let (row, _) = between(front, &format!("data-strip=\"{e}\""), "</g>").unwrap();
            let end = at_end.iter().find(|set| set.0 == e);
            let issue = end.map(|set| &set.1[..]);
            let not_heard = (!heard.contains(&strip.prn)).then_some("not heard");
            let at_the_end = Vec::from_iter(issue.or(not_heard));
            assert_eq!(texts(row, "issue"), at_the_end, "{name}, {e}");
            let check = Vec::from_iter(end.map(|set| &set.2[..]));
            assert_eq!(texts(row, "check"), check, "{name}, {e}");

            let sets = right.get(&strip.prn).cloned().unwrap_or_default();
            let of = |times: &Vec<u32>| {
                let mut here = sets.iter().filter(|set| times.contains(&set.at.bits()));
                here.next_back().map(|set| set.iodnav)
            };
            let begins: Vec<Option<u16>> = cells.iter().map(of).collect();
            let marked: Vec<Option<u16>> = strip.cells.iter().map(|cell| cell.marked).collect();
            assert_eq!(marked, begins, "{name}, {e}");
            let begins = || begins.iter().flatten();
            let lines = row.matches("class=\"held\"").count();
            assert_eq!(lines, begins().count(), "{name}, {e}");
            // Where there is no room for two numbers the first stands.
            let labels = texts(row, "set");
            let mut all = begins().map(u16::to_string);
            assert_eq!(labels.is_empty(), lines == 0, "{name}, {e}");
            assert!(
                labels.iter().all(|label| all.any(|one| one == *label)),
                "{name}, {e}"
            );
        }
    }
    assert_eq!(heads.len(), 3, "{heads:?}");
}

fn unhex(digits: &str) -> Vec<u8> {
    let byte = |n: usize| u8::from_str_radix(&digits[n..n + 2], 16).unwrap();
    (0..digits.len()).step_by(2).map(byte).collect()
}
