//! The examples of a boom controller, `examples/boom.rs` and `examples/boom.c`: on the named runs of the bench signal, and on
//! runs with half minutes left out, both print what the second receiver and 02's rule over its answers give.

#[path = "../../../examples/boom.rs"]
mod boom;
#[path = "../../osnma/tests/compiled/mod.rs"]
mod compiled;

use compiled::{build_with, cpp_compilers, run, C99, CPP17};
use second_receiver::replay::answer;
use second_receiver::Receiver;
use signal::replay::RECORD;
use signal::scenario::{all, find, Scenario, SEED};
use std::collections::BTreeMap;
use std::fmt::Write;
use std::path::Path;
use std::sync::atomic::{AtomicUsize, Ordering::Relaxed};
use std::sync::Mutex;
use std::thread;

const EXAMPLE: &str = "examples/boom.c";
const BOTH: &[&str] = &["valve_gate", "osnma"];

/// Half minutes of a silence after which the example decides no more.
const SETTLED: u64 = 24;

/// Runs that walk long key chains, which takes most of the time of all, and free no valve.
const LONG_WALKS: [&str; 6] = [
    "gap_full",
    "gaps",
    "held_key",
    "lost_keys",
    "sections",
    "sha3_gaps",
];

/// The half minute of a record, if it has a time that is the start of a sub-frame.
fn half_minute(record: &[u8]) -> Option<u64> {
    let time = u32::from_be_bytes(record[2..6].try_into().expect("4 bytes"));
    let (week, second) = (u64::from(time >> 20), u64::from(time & 0xF_FFFF));
    let timed = matches!(record[0], 2 | 3 | 6) && second % 30 == 0 && second < 604_800;
    timed.then_some(week * 20_160 + second / 30)
}

/// A group of valves: its limit, and whether it was free after each decision.
struct Group {
    limit: u64,
    free: Vec<bool>,
}

impl Group {
    fn new(limit: u64) -> Group {
        let free = Vec::new();
        Group { limit, free }
    }

    /// The decision that was so many before the last was a change to closed.
    fn closed(&self, before: usize) -> bool {
        let mut last = self.free.iter().rev().skip(before);
        matches!((last.next(), last.next()), (Some(false), Some(true)))
    }

    /// A decision, where four satellites have sets of at most this age; gives what is printed.
    fn decide(&mut self, age: Option<u64>, stopped: bool) -> &'static str {
        let met = !stopped && age.is_some_and(|age| age <= self.limit);
        let (first, second) = (self.closed(0), self.closed(1));
        let free = met && !first && !second;
        self.free.push(free);
        match (free, first, second) {
            (true, ..) => "free",
            (_, true, _) => "closed (first of two further)",
            (_, _, true) => "closed (second of two further)",
            _ if stopped => "closed (core stopped)",
            _ => "closed (limit not met)",
        }
    }

    fn totals(&self) -> String {
        let free = self.free.iter().filter(|free| **free).count();
        let closings = self.free.windows(2).filter(|w| w == &[true, false]).count();
        format!("free after {free}, changes to closed {closings}")
    }
}

/// What the examples print, by the second receiver.
struct Wanted {
    receiver: Receiver,
    /// The half minute in which a sub-frame was last noted.
    noted: Option<u64>,
    centre: Group,
    outer: Group,
    printed: String,
    lines: String,
}

impl Wanted {
    fn decide(&mut self, now: u64) {
        let silence = self.noted.map_or(0, |noted| now - noted);
        let age = self.receiver.least_limit().map(|age| age + silence);
        let stopped = self.receiver.is_stopped();
        let centre = self.centre.decide(age, stopped);
        let outer = self.outer.decide(age, stopped);
        let printed = format!("centre {centre}, outer {outer}");
        if printed != self.printed {
            let (week, second) = (now / 20_160, now % 20_160 * 30);
            writeln!(self.lines, "{week}/{second}: {printed}").unwrap();
            self.printed = printed;
        }
    }

    /// Takes a record; whether it was a start that is accepted. A sub-frame is noted where it moves its satellite's clock.
    fn take(&mut self, record: &[u8], now: Option<u64>) -> bool {
        let clocks = |receiver: &Receiver| {
            (1..=36)
                .map(|prn| receiver.subframe_clock(prn))
                .collect::<Vec<_>>()
        };
        let (before, mut area) = (clocks(&self.receiver), [0; 3240]);
        let record = record.try_into().expect("a record");
        let given = answer(&mut self.receiver, record, &mut area);
        let started = record[0] == 1 && given.hkroot == 0;
        if started {
            self.noted = None;
        } else if clocks(&self.receiver) != before {
            self.noted = now;
        }
        started
    }

    /// The decisions before a record of a half minute.
    fn pass(&mut self, now: u64, then: u64, restarted: bool) -> u64 {
        if then < now && !restarted || then == now {
            return now;
        }
        self.decide(now);
        (now + 1..then.min(now + 1 + SETTLED)).for_each(|silent| self.decide(silent));
        then
    }
}

fn wanted(recording: &[u8]) -> String {
    let mut wanted = Wanted {
        receiver: Receiver::new(),
        noted: None,
        centre: Group::new(20),
        outer: Group::new(10),
        printed: String::new(),
        lines: String::new(),
    };
    let (mut now, mut restarted) = (None, false);
    for record in recording.chunks_exact(RECORD) {
        if let Some(then) = half_minute(record).filter(|_| wanted.receiver.is_started()) {
            let began = now.unwrap_or(then);
            now = Some(wanted.pass(began, then, restarted));
            restarted = false;
        }
        restarted |= wanted.take(record, now);
    }
    if let Some(now) = now {
        wanted.decide(now);
    }
    let (centre, outer) = (wanted.centre.totals(), wanted.outer.totals());
    let decisions = wanted.outer.free.len();
    writeln!(wanted.lines, "decisions: {decisions}").unwrap();
    writeln!(wanted.lines, "centre: {centre}\nouter: {outer}").unwrap();
    wanted.lines
}

fn in_rust(recording: &[u8]) -> String {
    let mut lines = Vec::new();
    boom::run(&mut &recording[..], &mut lines).expect("lines");
    String::from_utf8(lines).expect("text")
}

/// Both languages print what is wanted; gives that.
fn compare(name: &str, recording: &[u8], program: &Path) -> String {
    let want = wanted(recording);
    assert_eq!(in_rust(recording), want, "{name}");
    assert_eq!(run(program, &[], recording), want, "{name} in C");
    want
}

/// How often each line on both groups is printed, over the named runs but those of long walks.
fn said_of_every_run(program: &Path) -> BTreeMap<String, usize> {
    let short = |scenario: &&Scenario| !LONG_WALKS.contains(&scenario.name);
    let taken: Vec<&Scenario> = all().iter().filter(short).collect();
    assert_eq!(taken.len() + LONG_WALKS.len(), all().len());
    let (next, said) = (AtomicUsize::new(0), Mutex::new(BTreeMap::new()));
    let work = || {
        while let Some(scenario) = taken.get(next.fetch_add(1, Relaxed)) {
            let want = compare(scenario.name, &scenario.run(SEED).bytes, program);
            let mut said = said.lock().expect("no other thread failed");
            for line in want.lines().filter(|line| line.contains('/')) {
                let (_, groups) = line.split_once(": ").expect("a time");
                *said.entry(groups.to_string()).or_default() += 1;
            }
        }
    };
    let threads = thread::available_parallelism().map_or(1, usize::from);
    thread::scope(|scope| {
        (0..threads).for_each(|_| {
            scope.spawn(work);
        });
    });
    said.into_inner().expect("no thread failed")
}

#[test]
fn every_run() {
    let program = build_with(BOTH, "cc", C99, EXAMPLE, "boom_c99");
    let said = said_of_every_run(&program);
    println!("{said:#?}");
    // The groups agree and differ, for every reason.
    for groups in [
        "centre free, outer free",
        "centre free, outer closed (limit not met)",
        "centre free, outer closed (first of two further)",
        "centre free, outer closed (second of two further)",
        "centre closed (limit not met), outer closed (limit not met)",
        "centre closed (core stopped), outer closed (core stopped)",
        "centre closed (first of two further), outer closed (first of two further)",
        "centre closed (second of two further), outer closed (second of two further)",
        "centre closed (first of two further), outer closed (limit not met)",
    ] {
        assert!(said.contains_key(groups), "{groups}");
    }
}

/// A recording without the records of so many half minutes from its twentieth on.
fn silent(recording: &[u8], count: u64) -> Vec<u8> {
    let first = recording.chunks_exact(RECORD).find_map(half_minute);
    let from = first.expect("a time") + 20;
    let left_out = |record: &&[u8]| {
        half_minute(record).is_some_and(|time| (from..from + count).contains(&time))
    };
    let records = recording.chunks_exact(RECORD);
    records
        .filter(|r| !left_out(r))
        .collect::<Vec<_>>()
        .concat()
}

// Where no sub-frame comes the own clock closes the valves: the outer ones after ten half minutes, the centre after twenty.
#[test]
fn silence_closes() {
    let program = build_with(BOTH, "cc", C99, EXAMPLE, "boom_silent");
    let recording = find("fitter").expect("a scenario").run(SEED).bytes;
    for (count, centre, outer) in [
        (0, 0, 0),
        (1, 0, 0),
        (10, 0, 0),
        (11, 0, 1),
        (20, 0, 1),
        (21, 1, 1),
        (24, 1, 1),
        (39, 1, 1),
    ] {
        let name = format!("{count} silent");
        let want = compare(&name, &silent(&recording, count), &program);
        let closings = |group: &str, n: usize| {
            let line = want.lines().find(|line| line.starts_with(group));
            let ends = line.expect("totals").ends_with(&format!("closed {n}"));
            assert!(ends, "{name}: {want}");
        };
        closings("centre: ", centre);
        closings("outer: ", outer);
    }
}

#[test]
fn in_cpp() {
    let recording = find("four_stopped").expect("a scenario").run(SEED).bytes;
    for compiler in cpp_compilers() {
        let name = format!("boom_{compiler}");
        let program = build_with(BOTH, compiler, CPP17, EXAMPLE, &name);
        compare(compiler, &recording, &program);
    }
}
