//! What the sheet shows, for every form of it: each figure is a core's answer or read, or comes
//! from the message of a verdict that it answered 0.

use crate::boom::ByLimit;
use crate::finding::{self, Finding};
use crate::history::{History, Judged, Marked, Run, What};
use crate::phone::check_value;
use crate::recording::RECORD_LEN;
use crate::time::{Clock, Zone};
use crate::timeline::{Cell, Timeline};
use crate::vouched::{Root, Vouch};
use crate::warnings::{self, Grade, Warning};
use crate::words::{count, hex, parts};
use osnma::{Gst, Outcome};
use std::collections::BTreeSet;
use std::sync::Arc;

/// Version of this program.
pub const PROGRAM: &str = env!("CARGO_PKG_VERSION");
/// Version of the library.
pub const LIBRARY: &str = osnma::VERSION;

/// Columns of the front's strips at most.
pub const FRONT_COLUMNS: usize = 60;

/// The first half minute and the last of a column, and the satellites that were marked lately.
#[derive(Clone, Debug, PartialEq, Eq)]
pub struct ColumnHead {
    /// The first half minute.
    pub first: Gst,
    /// The last.
    pub last: Gst,
    /// How many came.
    pub half_minutes: u32,
    /// By each of the boom's limits; of several half minutes the least.
    pub marked_lately: Option<ByLimit>,
}

/// A satellite's half minutes.
#[derive(Clone, Debug, PartialEq, Eq)]
pub struct Strip {
    /// PRN of the satellite.
    pub prn: u8,
    /// As many as there are columns.
    pub cells: Vec<Cell>,
    /// IODnav and check value of the set that a read gives at the end.
    pub at_end: Option<(u16, String)>,
    /// The last half minute in which it was heard.
    pub last_heard: Option<Gst>,
}

/// A strip for each satellite heard or named by a tag.
#[derive(Clone, Debug, PartialEq, Eq)]
pub struct Strips {
    /// Half minutes that a cell can hold.
    pub step: u64,
    /// The columns.
    pub columns: Vec<ColumnHead>,
    /// The strips.
    pub rows: Vec<Strip>,
}

impl Strips {
    fn of(run: &Run, timeline: &Timeline, prns: &BTreeSet<u8>) -> Strips {
        let head = |column: &crate::timeline::Column| ColumnHead {
            first: column.first,
            last: column.last,
            half_minutes: column.half_minutes,
            marked_lately: column.marked_lately.by_limit(),
        };
        let strip = |&prn: &u8| {
            let cells = timeline
                .columns()
                .map(|column| column.cell_of(prn).cloned());
            let last = run.marked_last(prn);
            Strip {
                prn,
                cells: cells.map(Option::unwrap_or_default).collect(),
                at_end: last.map(|set| (set.iodnav, check_value(&set.bytes))),
                last_heard: run.heard.get(&prn).copied(),
            }
        };
        Strips {
            step: timeline.step(),
            columns: timeline.columns().map(head).collect(),
            rows: prns.iter().map(strip).collect(),
        }
    }

    /// What a cell is: `a half minute`, `5 minutes`, `2 hours`.
    pub fn cell_told(&self) -> String {
        match self.step {
            1 => "a half minute".into(),
            2 => "a minute".into(),
            120 => "an hour".into(),
            step if step.is_multiple_of(120) => format!("{} hours", step / 120),
            step => format!("{} minutes", step / 2),
        }
    }
}

/// A set that was marked and what that rests on.
#[derive(Clone, Debug, PartialEq, Eq)]
pub struct MarkedSet {
    /// As the core gave it.
    pub set: Marked,
    /// Whether a read at the end gives it.
    pub at_end: bool,
    /// Its check value.
    pub check: String,
    /// The slot of its tag's key.
    pub slot: Option<u64>,
    /// The root that the key hashes to.
    pub root: Option<Arc<Root>>,
    /// Whether the verdict's public key was given at the start; else the tree proved it.
    pub key_given: bool,
}

impl MarkedSet {
    /// From when to when a read gave it, and from when it was a candidate before.
    pub fn period(&self, clock: Clock) -> String {
        let from = clock.say(self.set.since);
        let first = self.set.by.as_ref().and_then(|by| by.tags.first());
        let candidate = match first {
            Some(tag) if tag.at < self.set.since => {
                format!("; candidate from {}", clock.say(tag.at))
            }
            _ => String::new(),
        };
        match self.set.until {
            None => format!("from {from} to the end{candidate}"),
            Some(until) => format!("from {from} until {}{candidate}", clock.say(until)),
        }
    }

    /// The tags that were summed until they had enough bits: each with its sender and arrival.
    fn summed(&self, clock: Clock) -> String {
        let Some(by) = &self.set.by else {
            return "none".into();
        };
        let tag =
            |tag: &Judged| format!("E{:02} {}", tag.record.sender, clock.say(tag.record.time));
        format!(
            "{} of {}: {}",
            count(by.bits.into(), "bit"),
            count(by.tags.len() as u64, "tag"),
            Vec::from_iter(by.tags.iter().map(tag)).join(", ")
        )
    }

    /// The latest tag, its arrival, its key, the root with its verdict, and the tags that first marked
    /// the set: a line each.
    pub fn rests_on(&self, clock: Clock) -> [String; 5] {
        let (judged, tag) = (&self.set.last, &self.set.last.record);
        let (when, place) = (clock.say(judged.at), judged.place);
        let slot = self.slot.map_or("none".into(), |slot| slot.to_string());
        let root = self.root.as_ref().map_or("none".into(), |root| {
            let how = if self.key_given { "given" } else { "proved" };
            let Vouch { place, key_id, .. } = root.vouch;
            format!(
                "{}; good verdict: record {place}, key {key_id} ({how})",
                root.time()
            )
        });
        [
            format!(
                "from E{:02}, block {}, position {}, ADKD {}",
                tag.sender, tag.block, tag.position, tag.adkd
            ),
            format!("{} ({})", clock.say(tag.time), tag.time),
            format!("slot {slot}; judged {when}, record {place}"),
            root,
            self.summed(clock),
        ]
    }
}

/// What the lines of [`MarkedSet::rests_on`] are.
pub const RESTS_ON: [&str; 5] = ["Tag", "Came", "Key", "Root", "Sum"];

/// Something that happened, with its time.
#[derive(Clone, Debug, PartialEq, Eq)]
pub struct EventLine {
    /// How much it matters.
    pub grade: Grade,
    /// When.
    pub when: String,
    /// What.
    pub what: String,
}

/// One accepted start and what came of it.
#[derive(Clone, Debug)]
pub struct RunSheet {
    /// Its number among the starts and how many there were, where there were several.
    pub part: Option<(u64, u64)>,
    /// The place of its start in the recording, from 1.
    pub place: u64,
    /// How its times are said.
    pub clock: Clock,
    /// From when to when it was heard.
    pub span: String,
    /// Satellites heard.
    pub heard: usize,
    /// What it comes to.
    pub finding: Finding,
    /// What happened, in order.
    pub events: Vec<EventLine>,
    /// What to look at.
    pub front: Vec<Warning>,
    /// The same for the engineer.
    pub back: Vec<Warning>,
    /// The engineer's facts: what and its value.
    pub facts: Vec<(&'static str, String)>,
    /// The front's strips.
    pub overview: Strips,
    /// All strips, where the front's have cells of several half minutes of them.
    pub detail: Option<Strips>,
    /// By satellite; the set at the end first, then those before it, the latest first.
    pub marked: Vec<MarkedSet>,
    /// Sets that are not among them.
    pub sets_left_out: u64,
    /// Check value of all sets that reads give at the end, one after another.
    pub check_of_all: Option<String>,
}

impl RunSheet {
    /// What stands in place of warnings where there is none.
    pub fn no_warning(&self) -> Option<&'static str> {
        let note = |warning: &Warning| warning.grade == Grade::Note;
        let none = match self.finding.good {
            true => "Nothing to warn of.",
            false => "Nothing beyond what the box says.",
        };
        self.front.iter().all(note).then_some(none)
    }

    /// How many satellites have a set at the end.
    pub fn marked_at_end(&self) -> usize {
        self.marked.iter().filter(|set| set.at_end).count()
    }
}

/// The sheet of a recording.
#[derive(Clone, Debug)]
pub struct Sheet {
    /// The recording's name.
    pub name: String,
    /// Its records.
    pub records: u64,
    /// Its SHA-256.
    pub sha256: String,
    /// Where it is cut short: in which record, and the rest of the sentence.
    pub cut: Option<(String, String)>,
    /// What came before the first accepted start.
    pub before_start: Option<String>,
    /// What the parts come to together, where there are several.
    pub all_parts: Option<Finding>,
    /// One for each accepted start.
    pub runs: Vec<RunSheet>,
}

impl Sheet {
    /// The sheet of what the core answered to a recording of this name, in the local time of a zone
    /// or in GST.
    pub fn of(name: &str, history: &History, zone: Option<Zone>) -> Sheet {
        let starts = history.left_out.runs + history.runs.len() as u64;
        let numbers = history.left_out.runs + 1..;
        let runs = numbers.zip(&history.runs).map(|(number, run)| RunSheet {
            part: (starts > 1).then_some((number, starts)),
            ..run_sheet(run, zone)
        });
        let runs: Vec<RunSheet> = runs.collect();
        Sheet {
            name: name.into(),
            records: history.records,
            sha256: hex(&history.sha256),
            cut: history.cut.map(|cut| {
                (
                    format!("CUT SHORT in record {}", cut.place),
                    format!(
                        "It ends after {} of {RECORD_LEN} bytes. This sheet is of {} before it; \
                         what came later is not known.",
                        cut.len,
                        count(history.records, "whole record")
                    ),
                )
            }),
            before_start: (history.before_start > 0).then(|| {
                format!(
                    "{} came before the first accepted start and did nothing.",
                    count(history.before_start, "record")
                )
            }),
            all_parts: all_parts(history, &runs),
            runs,
        }
    }

    /// The program and the library that made it.
    pub fn made_by() -> String {
        format!("jobsheet {PROGRAM}, osnma {LIBRARY}")
    }
}

/// What several starts come to together: said first, so that a good part does not hide a bad one.
fn all_parts(history: &History, runs: &[RunSheet]) -> Option<Finding> {
    let left_out = &history.left_out;
    let starts = left_out.runs + runs.len() as u64;
    let number = |run: &RunSheet| run.part.map_or(0, |(number, _)| number);
    let bad: Vec<u64> = runs
        .iter()
        .filter(|run| !run.finding.good)
        .map(number)
        .collect();
    let mut text = vec!["Each start forgets everything before it, marks too.".to_string()];
    if left_out.runs > 0 {
        text.push(format!(
            "Parts 1 to {} are left out: {} in them, {} of them stopped. To see them, cut the \
             recording before record {}.",
            left_out.runs,
            count(left_out.wrong_tags, "wrong tag"),
            left_out.stopped,
            runs.first().map_or(0, |run| run.place)
        ));
    }
    text.extend(parts_told(runs));
    let shown = match left_out.runs {
        0 => "",
        _ => " shown here",
    };
    let wrong = match bad.len() {
        0 => format!("nothing is wrong in any part{shown}"),
        n if n == runs.len() => format!("SOMETHING IS WRONG in every part{shown}"),
        _ => format!("SOMETHING IS WRONG in {}", parts(&bad)),
    };
    (starts > 1).then(|| Finding {
        good: bad.is_empty() && left_out.runs == 0,
        title: format!("Started {starts} times: {wrong}."),
        text,
        to_do: match &bad[..] {
            [] => "nothing. Clip this sheet to the job.".into(),
            bad => format!("read the box of {}.", parts(bad)),
        },
    })
}

/// What each part comes to: neighbours that come to the same in one line. Where there are too many
/// lines, those of parts that are not good.
fn parts_told(runs: &[RunSheet]) -> Vec<String> {
    const LINES: usize = 12;
    let mut lines: Vec<(u64, u64, &Finding)> = Vec::new();
    for run in runs {
        let (number, _) = run.part.unwrap_or_default();
        match lines.last_mut() {
            Some((_, last, other)) if other.title == run.finding.title => *last = number,
            _ => lines.push((number, number, &run.finding)),
        }
    }
    let many = lines.len() > LINES;
    lines.retain(|(_, _, finding)| !many || !finding.good);
    let line = |(first, last, finding): &(u64, u64, &Finding)| match first == last {
        true => format!("Part {first}: {}", finding.title),
        false => format!("Parts {first} to {last}: {}", finding.title),
    };
    let mut told: Vec<String> = lines.iter().take(LINES).map(line).collect();
    if many {
        told.push("What the other parts come to, each says itself.".into());
    }
    told
}

fn run_sheet(run: &Run, zone: Option<Zone>) -> RunSheet {
    let clock = match run.timeline.span() {
        Some((first, last)) => Clock::over(zone, first, last),
        None => Clock { zone, dated: false },
    };
    let marked = marked_sets(run);
    let at_end: Vec<u8> = marked
        .iter()
        .filter(|set| set.at_end)
        .flat_map(|set| set.set.bytes)
        .collect();
    let named = run.timeline.columns().flat_map(|column| column.prns());
    let prns: BTreeSet<u8> = run.heard.keys().copied().chain(named).collect();
    let few = run.timeline.overview(FRONT_COLUMNS);
    let front = warnings::front(run, clock);
    let mut finding = finding::of(run, clock);
    if finding.good && front.iter().any(|warning| warning.grade == Grade::Warning) {
        finding.to_do = "read the warnings below, then clip this sheet to the job.".into();
    }
    RunSheet {
        part: None,
        place: run.place,
        clock,
        span: run.timeline.span().map_or(String::new(), |(first, last)| {
            clock.dated().range(first, last)
        }),
        heard: run.heard.len(),
        finding,
        events: events(run, clock),
        front,
        back: warnings::back(run, clock),
        facts: facts(run, clock),
        overview: Strips::of(run, &few, &prns),
        detail: (few.step() > run.timeline.step()).then(|| Strips::of(run, &run.timeline, &prns)),
        check_of_all: (!at_end.is_empty()).then(|| check_value(&at_end)),
        sets_left_out: run.marked.values().map(|sets| sets.left_out).sum(),
        marked,
    }
}

fn events(run: &Run, clock: Clock) -> Vec<EventLine> {
    let line = |event: &crate::history::Event| {
        let (is_warning, what) = finding::event_told(event);
        EventLine {
            grade: if is_warning {
                Grade::Warning
            } else {
                Grade::Note
            },
            when: event.at.map_or("at the start".into(), |at| clock.say(at)),
            what,
        }
    };
    let mut all: Vec<EventLine> = run.events.iter().map(line).collect();
    if run.events_left_out > 0 {
        all.push(EventLine {
            grade: Grade::Warning,
            when: "later".into(),
            what: format!("{} more, not shown here.", run.events_left_out),
        });
    }
    all
}

/// `2017-10-20 00:00:00 (947/432000)`.
fn dated(clock: Clock, time: Gst) -> String {
    format!("{} ({time})", clock.full(time))
}

fn facts(run: &Run, clock: Clock) -> Vec<(&'static str, String)> {
    let time = |time: Option<Gst>| time.map_or("none".into(), |time| dated(clock, time));
    let settings = &run.settings;
    let span = run.timeline.span();
    let mut rows = vec![
        ("First half minute", time(span.map(|span| span.0))),
        ("Last half minute", time(span.map(|span| span.1))),
        (
            "Heard",
            format!(
                "{}, {}, {}",
                count(run.heard.len() as u64, "satellite"),
                count(run.counts.0, "sub-frame"),
                count(run.counts.1, "word")
            ),
        ),
        ("Tags", tags_told(run)),
        (
            "Start",
            format!(
                "record {}: public key {} (type {}), NS {}, MACLT {}",
                run.place, settings.key_id, settings.key_type, settings.ns, settings.maclt
            ),
        ),
    ];
    match (run.vouched.root(), run.vouched.last) {
        (Some(root), Some(vouch)) => rows.extend(chain_told(clock, root, vouch)),
        _ => rows.push(("Chain", "none in force at the end".into())),
    }
    rows.extend(roots_told(run).map(|told| ("Chains and roots in turn", told)));
    if let Some(since) = run.message_since() {
        rows.push((
            "Root message",
            format!("waits for the signature chip since {}", dated(clock, since)),
        ));
    }
    rows
}

/// Every root put in force, and every drop, where that is more than one root.
fn roots_told(run: &Run) -> Option<String> {
    let told = run.events.iter().filter_map(|event| match &event.what {
        What::Root { root, .. } => Some(format!(
            "CID {}, root {} by record {}",
            root.chain.cid,
            root.time(),
            event.place
        )),
        What::Withdrawn => Some(format!("dropped by record {}", event.place)),
        What::PublicKey(id) => Some(format!("public key {id} by record {}", event.place)),
        _ => None,
    });
    let told: Vec<String> = told.collect();
    (told.len() > 1).then(|| told.join("; "))
}

fn tags_told(run: &Run) -> String {
    let n = |outcome| run.tally(outcome).count;
    let (authentic, wrong) = (n(Outcome::Authentic), n(Outcome::Wrong));
    let (agree, waits) = (n(Outcome::Agrees), run.waiting() as u64);
    let missing = match n(Outcome::BitsMissing) {
        0 => String::new(),
        n => format!(", of these {n} with bits missing"),
    };
    format!(
        "{authentic} authentic, {agree} agree, {wrong} wrong, {waits} wait still, {} without \
         judgement{missing}",
        run.tags() - authentic - agree - wrong - waits
    )
}

fn chain_told(clock: Clock, root: &Root, vouch: Vouch) -> [(&'static str, String); 3] {
    let chain = &root.chain;
    let name = |code: u8, names: &[&str]| match names.get(usize::from(code)) {
        Some(name) => name.to_string(),
        None => format!("function {code}"),
    };
    [
        (
            "Chain in force",
            format!(
                "CID {}, {}, {}, keys of {} bits, tags of {} bits, {} a section, α {}",
                chain.cid,
                name(chain.hf, &["SHA-256", "SHA3-224", "SHA3-256"]),
                name(chain.mf, &["HMAC-SHA-256", "CMAC-AES"]),
                chain.key_bits,
                chain.tag_bits,
                count(u64::from(chain.nmack), "block"),
                hex(&chain.alpha)
            ),
        ),
        (
            "Root in force",
            format!(
                "{}, vouched for by the verdict in record {}",
                dated(clock, root.time()),
                root.vouch.place
            ),
        ),
        (
            "Public key in force",
            format!(
                "ID {}, by the verdict in record {}",
                vouch.key_id, vouch.place
            ),
        ),
    ]
}

fn marked_sets(run: &Run) -> Vec<MarkedSet> {
    let of = |set: &Marked| {
        let root = set.last.root.as_ref();
        MarkedSet {
            at_end: set.until.is_none(),
            check: check_value(&set.bytes),
            slot: root.and_then(|root| root.slot(run.settings.ns, &set.last.record)),
            key_given: root.is_some_and(|root| root.vouch.key_id == run.settings.key_id),
            root: root.cloned(),
            set: set.clone(),
        }
    };
    let satellites = run.marked.values();
    satellites
        .flat_map(|sets| sets.kept.iter().rev().map(of))
        .collect()
}

#[cfg(test)]
mod tests {
    use super::*;

    #[test]
    fn cells() {
        let told = |step| {
            let (columns, rows) = (Vec::new(), Vec::new());
            let strips = Strips {
                step,
                columns,
                rows,
            };
            strips.cell_told()
        };
        let steps = [1, 2, 10, 64, 120, 360];
        let right = [
            "a half minute",
            "a minute",
            "5 minutes",
            "32 minutes",
            "an hour",
            "3 hours",
        ];
        assert_eq!(steps.map(told), right);
    }

    // The library's version is the one that this program is built with.
    #[test]
    fn versions() {
        let lock = include_str!("../../Cargo.lock");
        let of = |name: &str| {
            let (_, rest) = lock
                .split_once(&format!("name = \"{name}\"\nversion = \""))
                .unwrap();
            rest.split_once('"').unwrap().0
        };
        assert_eq!((PROGRAM, LIBRARY), (of("jobsheet"), of("osnma")));
    }
}
