//! The core and the gate above it on runs of the bench signal, beside the second receiver and its model of the gate: a decision
//! at the end of each half minute.

mod common;
#[path = "../../osnma/tests/common/mod.rs"]
mod core_common;

use common::twin::{same, Event};
use common::watch::{Watch, CENTRE, OUTER};
use core_common::driver::call_of;
use core_common::twin::{Call, Kind};
use osnma::{Core, Gst, Marks, Records, Refusal, NO_RECORDS};
use second_receiver::replay::answer;
use second_receiver::{valves, Receiver};
use signal::replay::{Freed, Run, RECORD};
use signal::scenario;
use valve_gate::{Free, Gate, CENTRE_LIMIT, OUTER_LIMIT};

/// Half minutes without a sub-frame that are decided at most, one after another.
const SILENCE: u64 = 100;

/// The core and two gates, one that asks the core and one that is told its answers; the second receiver and the model.
struct Boom {
    core: Core,
    records: Records,
    asking: Gate,
    told: Gate,
    receiver: Receiver,
    model: valves::Gate,
    watch: Watch,
    decisions: Tally,
}

/// Decisions by what they free, and those of a stopped core.
#[derive(Clone, Copy, Debug, Default, PartialEq, Eq)]
struct Tally {
    all: u64,
    centre: u64,
    none: u64,
    stopped: u64,
}

fn number(answer: &Result<(), Refusal>) -> u32 {
    answer.err().map_or(0, Refusal::number)
}

fn freed(free: Free) -> Freed {
    Freed {
        outer: free.outer(),
        centre: free.centre(),
    }
}

impl Boom {
    fn new() -> Boom {
        Boom {
            core: Core::new(),
            records: NO_RECORDS,
            asking: Gate::new(),
            told: Gate::new(),
            receiver: Receiver::new(),
            model: valves::Gate::begin(),
            watch: Watch::default(),
            decisions: Tally::default(),
        }
    }

    /// A record in both receivers, and its answer to the gates.
    fn record(&mut self, record: &[u8; RECORD]) -> Result<(), String> {
        let Some(call) = call_of(record) else {
            return Ok(());
        };
        if !self.receiver.is_started() && call.kind() != Kind::Start {
            return Ok(());
        }
        let right = answer(&mut self.receiver, record, &mut self.records.clone());
        let right = (u32::from(right.hkroot), u32::from(right.mack));
        let given = self.shown(&call);
        same("answer", &given, &right)?;
        let event = match call.kind() {
            Kind::Start => Event::Started(right.0),
            Kind::Subframe => Event::Subframe(right.0, right.1),
            _ => Event::Answered(right.0),
        };
        self.model_sees(event);
        self.watch.sees(event, None)?;
        self.compare()
    }

    /// Makes a call of the core, and shows both gates what it answers: one the answer, the other its numbers.
    fn shown(&mut self, call: &Call) -> (u32, u32) {
        let (core, asking, told) = (&mut self.core, &mut self.asking, &mut self.told);
        let answer = match call {
            Call::Start(settings) => {
                let answer = core.start(settings);
                asking.started(&answer);
                told.started_number(number(&answer));
                return (number(&answer), 0);
            }
            Call::Subframe {
                prn,
                time,
                marks,
                fields,
            } => {
                let marks = marks.map_or(Marks::ALL, Marks::from_bits);
                let time = Gst::from_bits(*time);
                let answer = core.subframe_marked(*prn, time, marks, fields, &mut self.records);
                asking.subframe(&answer);
                let numbers = (number(&answer.hkroot), number(&answer.mack));
                told.subframe_numbers(numbers.0, numbers.1);
                return numbers;
            }
            Call::Word { prn, time, word } => core.word(*prn, Gst::from_bits(*time), word),
            Call::Verdict {
                good: good @ (0 | 1),
                key_id,
                message,
                signature,
            } => core.verdict(*good == 1, *key_id, message, signature),
            // `Core` takes no other verdict.
            _ => Err(Refusal::OutOfRange),
        };
        asking.answered(&answer);
        told.answered_number(number(&answer));
        (number(&answer), 0)
    }

    fn model_sees(&mut self, event: Event) {
        match event {
            Event::Started(number) => self.model.started(number),
            Event::Subframe(hkroot, mack) => self.model.subframe(hkroot, mack),
            Event::Answered(number) => self.model.answered(number),
            Event::Decide(..) => {}
        }
    }

    fn compare(&self) -> Result<(), String> {
        let right = self.model.bytes();
        same("the gate that asks", self.asking.as_bytes(), &right)?;
        same("the gate that is told", self.told.as_bytes(), &right)?;
        let stopped = self.core.is_stopped();
        same("stop", &self.asking.is_stopped(), &stopped)
    }

    /// The end of a half minute.
    fn decide(&mut self) -> Result<Freed, String> {
        let limits = [CENTRE_LIMIT, OUTER_LIMIT];
        let [met20, met10] = limits.map(|limit| self.core.four(limit));
        let asked = self.asking.decide(&self.core);
        let told = self.told.decide_told(met20, met10);
        let right = [20, 10].map(|limit| self.receiver.four(limit));
        let right = self.model.decide(right[0], right[1]);
        same("asked", &asked.bits(), &right)?;
        same("told", &told.bits(), &right)?;
        self.watch.sees(Event::Decide(met20, met10), Some(right))?;
        self.compare()?;
        let tally = &mut self.decisions;
        match right {
            0 => tally.none += 1,
            CENTRE => tally.centre += 1,
            free if free == CENTRE | OUTER => tally.all += 1,
            free => return Err(format!("free: {free:012x}")),
        }
        tally.stopped += u64::from(self.core.is_stopped());
        Ok(freed(asked))
    }
}

fn records(run: &Run) -> impl Iterator<Item = (usize, &[u8; RECORD])> {
    let records = run.bytes.chunks_exact(RECORD);
    (1..).zip(records.map(|record| record.try_into().unwrap()))
}

/// The half minute of a record, if it is a sub-frame of a satellite.
fn half_minute(record: &[u8; RECORD]) -> Option<u64> {
    match call_of(record)? {
        Call::Subframe {
            prn: 1..=36, time, ..
        } => Some(second_receiver::times::Gst(time).seconds() / 30),
        _ => None,
    }
}

/// A decision for each half minute, before the first sub-frame of another: one for each that went by in between, too. And one
/// at the end.
fn by_time(run: &Run) -> Result<Tally, String> {
    let (mut boom, mut last) = (Boom::new(), None);
    for (place, record) in records(run) {
        let at = |error| format!("record {place}: {error}");
        if let Some(now) = half_minute(record) {
            let ended = match last {
                Some(last) if now > last => SILENCE.min(now - last),
                Some(last) => u64::from(now < last),
                None => 0,
            };
            for _ in 0..ended {
                boom.decide().map_err(at)?;
            }
            last = Some(now);
        }
        boom.record(record).map_err(at)?;
    }
    boom.decide()?;
    Ok(boom.decisions)
}

/// Decisions where the run states them.
fn as_stated(run: &Run) -> Result<Tally, String> {
    let (mut boom, mut stated) = (Boom::new(), run.expects.decisions.iter().peekable());
    for (place, record) in records(run) {
        boom.record(record)
            .map_err(|error| format!("record {place}: {error}"))?;
        while let Some((_, right)) = stated.next_if(|(at, _)| *at == place) {
            let decided = boom
                .decide()
                .and_then(|freed| same("decision", &freed, right));
            decided.map_err(|error| format!("decision after record {place}: {error}"))?;
        }
    }
    match stated.next() {
        None => Ok(boom.decisions),
        Some(decision) => Err(format!("not made: {decision:?}")),
    }
}

fn run(name: &str) -> Run {
    scenario::find(name).unwrap().run(scenario::SEED)
}

fn tally(name: &str, decide: fn(&Run) -> Result<Tally, String>) -> Tally {
    let tally = decide(&run(name)).unwrap_or_else(|error| panic!("{name}: {error}"));
    println!("{name}: {tally:?}");
    tally
}

// The runs that state their decisions, by a count of their own.
#[test]
fn stated_decisions() {
    let stated = |s: &&scenario::Scenario| s.name.starts_with("boom_");
    let names: Vec<&str> = scenario::all()
        .iter()
        .filter(stated)
        .map(|s| s.name)
        .collect();
    assert_eq!(names, ["boom_lost_sky", "boom_stop_and_start"]);
    let lost_sky = tally(names[0], as_stated);
    let right = Tally {
        all: 97,
        centre: 13,
        none: 16,
        stopped: 0,
    };
    assert_eq!(lost_sky, right);
    let stop_and_start = tally(names[1], as_stated);
    let right = Tally {
        all: 8,
        centre: 0,
        none: 13,
        stopped: 8,
    };
    assert_eq!(stop_and_start, right);
}

// The fitter's half hour: free from the half minute on in which four have data, to the end.
#[test]
fn the_fitters_half_hour() {
    let fitter = tally("fitter", by_time);
    assert!(fitter.all > 50 && fitter.none < 10, "{fitter:?}");
    assert_eq!((fitter.centre, fitter.stopped), (0, 0));
}

// Runs with emergency messages, starts, ages past both limits, jumps of hours and weeks.
#[test]
fn named_runs() {
    let names = [
        "nominal",
        "chain_renewal",
        "chain_revoked",
        "emergency",
        "stopped",
        "week_change",
        "trees",
        "emergencies",
        "verdicts",
        "starts",
        "four_ages",
        "four_week_end",
        "four_candidates",
        "four_stopped",
        "four_starts",
        "boom_lost_sky",
        "boom_stop_and_start",
    ];
    let mut sum = Tally::default();
    for name in names {
        let tally = tally(name, by_time);
        sum.all += tally.all;
        sum.centre += tally.centre;
        sum.none += tally.none;
        sum.stopped += tally.stopped;
    }
    println!("{sum:?}");
    let counts = [sum.all, sum.centre, sum.none, sum.stopped];
    assert!(counts.iter().all(|&count| count > 20), "{sum:?}");
}
