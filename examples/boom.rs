//! A boom controller's side: core and valve gate over a recording, with a decision at the end of each half minute.
//!
//! ```text
//! boom < RECORDING
//! ```
//!
//! RECORDING are records of 256 bytes (docs/RECORDING.md), as `signal NAME` of the bench signal writes them. A line is printed
//! for each decision after which a group of valves is another than before, or is closed for another reason:
//!
//! ```text
//! 947/432330: centre free, outer closed (limit not met)
//! ```
//!
//! A closed group's limit is not met, or the core is stopped, or it closed at one of the last two decisions ("first of two
//! further", "second of two further"). At the end stand the totals.
//!
//! On a sprayer a clock that the signal cannot set says when a half minute is over. A file has none; here the times of its
//! records are that clock, and where they leave half minutes out a decision is made for each of these too, with the silence
//! that it has lasted.

use osnma::{Core, Gst, Marks, Records, Refusal, Settings, NO_RECORDS};
use std::io::{self, Read, Write};
use valve_gate::{Gate, Valve};

#[allow(dead_code)] // the tests call `run`
fn main() -> io::Result<()> {
    run(&mut io::stdin().lock(), &mut io::stdout().lock())
}

/// Kinds of records.
const START: u8 = 1;
const WORD: u8 = 2;
const SUBFRAME: u8 = 3;
const VERDICT: u8 = 4;
const SUBFRAME_MARKED: u8 = 6;

/// A valve of each group stands for it: those of a group decide alike.
const CENTRE: u8 = 24;
const OUTER: u8 = 1;

/// After so many half minutes of silence no further decision changes anything.
const SETTLED: u32 = 24;

/// Half minutes of a week.
const OF_WEEK: u32 = 20_160;

/// Takes whole records until the input ends.
pub fn run(input: &mut impl Read, output: &mut impl Write) -> io::Result<()> {
    let mut boom = Boom {
        core: Core::new(),
        gate: Gate::new(),
        records: NO_RECORDS,
        now: None,
        noted: None,
        started: false,
        restarted: false,
        decisions: 0,
        centre: Group::default(),
        outer: Group::default(),
        output,
    };
    let mut record = [0; 256];
    loop {
        match input.read_exact(&mut record) {
            Ok(()) => boom.record(&record)?,
            Err(error) if error.kind() == io::ErrorKind::UnexpectedEof => break,
            Err(error) => return Err(error),
        }
    }
    boom.end()
}

/// What was printed of a group last, and its totals.
#[derive(Default)]
struct Group {
    printed: Option<&'static str>,
    free: u64,
    closings: u64,
}

impl Group {
    /// Counts a decision; whether it is to be printed.
    fn tell(&mut self, text: &'static str, is: Valve) -> bool {
        self.free += u64::from(is == Valve::Free);
        self.closings += u64::from(is == Valve::Closed { further: 2 });
        self.printed.replace(text) != Some(text)
    }
}

struct Boom<'a, W: Write> {
    core: Core,
    gate: Gate,
    records: Records,
    /// The half minute that is under way, and the last one in which a sub-frame was noted.
    now: Option<u32>,
    noted: Option<u32>,
    started: bool,
    /// Since the last accepted start no time has come.
    restarted: bool,
    decisions: u64,
    centre: Group,
    outer: Group,
    output: &'a mut W,
}

fn time(record: &[u8; 256]) -> Gst {
    Gst::from_bits(u32::from_be_bytes(bytes(record, 2)))
}

/// The bytes of a record from a place on.
fn bytes<const N: usize>(record: &[u8; 256], at: usize) -> [u8; N] {
    core::array::from_fn(|i| record[at + i])
}

/// The half minute of a time, if it is the start of a sub-frame.
fn half_minute(time: Gst) -> Option<u32> {
    let (week, second) = (time.week(), time.second());
    let starts = second % 30 == 0 && second / 30 < OF_WEEK;
    starts.then(|| u32::from(week) * OF_WEEK + second / 30)
}

/// Whether a half is refused in a way that leaves its sub-frame unnoted.
fn unnoted(half: Result<(), Refusal>) -> bool {
    half.is_err_and(|refusal| refusal.number() <= Refusal::Stopped.number())
}

impl<W: Write> Boom<'_, W> {
    fn record(&mut self, r: &[u8; 256]) -> io::Result<()> {
        match r[0] {
            START => self.start(r),
            _ if !self.started => {}
            WORD => {
                self.pass_to(time(r))?;
                self.gate
                    .answered(&self.core.word(r[1], time(r), &bytes(r, 6)));
            }
            SUBFRAME => {
                self.pass_to(time(r))?;
                self.subframe(r, Marks::ALL);
            }
            SUBFRAME_MARKED => {
                self.pass_to(time(r))?;
                self.subframe(r, Marks::from_bits(u16::from_be_bytes(bytes(r, 81))));
            }
            VERDICT => {
                let (message, signature) = (bytes(r, 3), bytes(r, 48));
                let answer = match r[1] {
                    0 | 1 => self.core.verdict(r[1] == 1, r[2], &message, &signature),
                    // In Rust a verdict is a bool.
                    _ => Err(Refusal::OutOfRange),
                };
                self.gate.answered(&answer);
            }
            _ => {}
        }
        Ok(())
    }

    fn start(&mut self, r: &[u8; 256]) {
        let answer = self.core.start(&Settings {
            ns: r[1],
            key_id: r[2],
            key_type: r[3],
            maclt: r[4],
            marks: [bytes(r, 5), bytes(r, 19)],
            tree_root: bytes(r, 33),
            key: bytes(r, 65),
        });
        self.gate.started(&answer);
        if answer.is_ok() {
            (self.started, self.restarted) = (true, true);
            self.noted = None;
        }
    }

    /// The gate is shown what the core answers; a sub-frame is noted unless both halves are refused with 1 to 4.
    fn subframe(&mut self, r: &[u8; 256], marks: Marks) {
        let (core, records) = (&mut self.core, &mut self.records);
        let answer = core.subframe_marked(r[1], time(r), marks, &bytes(r, 6), records);
        self.gate.subframe(&answer);
        if !(unnoted(answer.hkroot) && answer.mack == answer.hkroot) {
            self.noted = self.now;
        }
    }

    /// A record of this time has come: the half minutes before it are over. After a start times may begin anew; else an
    /// earlier one is no half minute of its own.
    fn pass_to(&mut self, time: Gst) -> io::Result<()> {
        let Some(then) = half_minute(time) else {
            return Ok(());
        };
        let now = *self.now.get_or_insert(then);
        if then > now || then < now && self.restarted {
            self.decide(now)?;
            for silent in (now + 1..then).take(SETTLED as usize) {
                self.decide(silent)?;
            }
            self.now = Some(then);
        }
        self.restarted = false;
        Ok(())
    }

    /// A half minute is over: a boom sets its valves by `free.is_free(valve)` now.
    fn decide(&mut self, now: u32) -> io::Result<()> {
        let before = self.gate.clone();
        let silence = self.noted.map_or(0, |noted| now - noted);
        let free = self.gate.decide_silent(&self.core, silence);
        let said = [(free.centre(), CENTRE), (free.outer(), OUTER)];
        let [centre, outer] = said.map(|(is_free, valve)| match is_free {
            true => "free",
            false => why_closed(before.valve(valve), self.gate.is_stopped()),
        });
        let of_centre = self.centre.tell(centre, self.gate.valve(CENTRE));
        let of_outer = self.outer.tell(outer, self.gate.valve(OUTER));
        self.decisions += 1;
        if of_centre || of_outer {
            let (week, second) = (now / OF_WEEK, now % OF_WEEK * 30);
            writeln!(
                self.output,
                "{week}/{second}: centre {centre}, outer {outer}"
            )?;
        }
        Ok(())
    }

    /// The last half minute is over too.
    fn end(&mut self) -> io::Result<()> {
        if let Some(now) = self.now {
            self.decide(now)?;
        }
        writeln!(self.output, "decisions: {}", self.decisions)?;
        for (name, group) in [("centre", &self.centre), ("outer", &self.outer)] {
            let (free, closings) = (group.free, group.closings);
            writeln!(
                self.output,
                "{name}: free after {free}, changes to closed {closings}"
            )?;
        }
        self.output.flush()
    }
}

/// Why a group is closed after a decision, by what it was before.
fn why_closed(was: Valve, stopped: bool) -> &'static str {
    match was {
        Valve::Closed { further: 2 } => "closed (first of two further)",
        Valve::Closed { further: 1 } => "closed (second of two further)",
        _ if stopped => "closed (core stopped)",
        _ => "closed (limit not met)",
    }
}
