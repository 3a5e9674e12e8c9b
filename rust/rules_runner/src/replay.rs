//! The replay program over the definitions (crates/rules/specs/Replay.antt): 256-byte records in, lines out.

use crate::rules::{Replay, Rules, Run};
use std::fmt::Write;

const INPUT_LEN: usize = 256;
/// In the place of a number of missing blocks where the total is unknown.
const UNKNOWN_TOTAL: u8 = 255;

fn hex(bytes: &[u8]) -> String {
    bytes.iter().map(|byte| format!("{byte:02X}")).collect()
}

/// What all reads give: `A PRN 0 SET IODnav GST_SF` or `A PRN 16` for PRN 1 to 36, then
/// `W 0 KEYID MESSAGE SIGNATURE TYPE KEY` or `W 14`; `no start` alone before an accepted start.
fn reads(rules: &Rules, started: bool, run: &Run) -> String {
    if !started {
        return "no start\n".into();
    }
    let mut lines = String::new();
    for prn in 1..=36 {
        let read = run.read_set(prn);
        let line = match read.number {
            0 => format!(" {} {} {:08X}", hex(&read.set), read.iodnav, read.time),
            _ => String::new(),
        };
        writeln!(lines, "A {prn} {}{line}", read.number).expect("a string grows");
    }
    let read = run.read_offer();
    let line = match read.number {
        0 => format!(
            " {} {} {} {} {}",
            read.id,
            hex(&read.message),
            hex(&read.signature),
            read.key_type,
            hex(&read.key[..rules.key_len(read.key_type)])
        ),
        _ => String::new(),
    };
    writeln!(lines, "W {}{line}", read.number).expect("a string grows");
    lines
}

/// The candidates: `C PRN TOTAL SET IODnav GST_SF`, by PRN.
fn candidates(run: &Run) -> String {
    let line = |prn: u8| {
        let c = run.candidate(prn)?;
        let set = hex(&c.set);
        Some(format!(
            "C {prn} {} {set} {} {:08X}\n",
            c.total, c.iodnav, c.time
        ))
    };
    (1..=36).filter_map(line).collect()
}

/// The least limit with which four satellites have a recent authentic set: `F LIMIT`, or `F -` where none is enough. A
/// limit below which the answer is no and from which on it is yes is searched for.
fn four(run: &Run) -> String {
    let yes = |limit| {
        let answer = run.four(limit);
        assert_eq!(answer.number, 0, "a state of the right lengths");
        answer.yes == 1
    };
    if !yes(u32::MAX) {
        return "F -\n".into();
    }
    let (mut low, mut high) = (0, u32::MAX);
    while low < high {
        let middle = low + (high - low) / 2;
        match yes(middle) {
            true => high = middle,
            false => low = middle + 1,
        }
    }
    format!("F {high}\n")
}

/// How far along each message is: `D`, then `HELD/MISSING` for each DSM ID, `?` where the total is unknown.
fn progress(run: &Run) -> String {
    let read = run.progress(&[0; 32]);
    assert_eq!(read.number, 0, "a state of the right lengths");
    let pairs = read.pairs.chunks_exact(2).map(|pair| match pair[1] {
        UNKNOWN_TOTAL => format!(" {}/?", pair[0]),
        missing => format!(" {}/{missing}", pair[0]),
    });
    format!("D{}\n", pairs.collect::<String>())
}

/// What a replay program prints for an input, what all reads give after it, the candidates that are held then, the least
/// limit with which four satellites have a recent authentic set, and how far along each message is.
pub struct Replayed {
    pub lines: String,
    pub reads: String,
    pub candidates: String,
    pub four: String,
    pub progress: String,
}

/// The definition of one record is run for each; `whole` runs that of a whole input.
pub fn replay(rules: &Rules, input: &[u8]) -> Replayed {
    replay_and_ask(rules, input, |_, _| {})
}

/// The same; `each` sees each record and the core as it left it.
pub fn replay_and_ask(rules: &Rules, input: &[u8], mut each: impl FnMut(&[u8], &Run)) -> Replayed {
    let mut replay = Replay::new(rules);
    let records = input.chunks(INPUT_LEN);
    let lines = records.map(|record| {
        let lines = replay.record(record);
        each(record, &replay.run());
        lines
    });
    let lines = lines.collect();
    let run = replay.run();
    Replayed {
        lines,
        reads: reads(rules, replay.started(), &run),
        candidates: candidates(&run),
        four: four(&run),
        progress: progress(&run),
    }
}

/// What a replay program prints for an input, by the definition of a whole input. It joins what it printed so far anew
/// for each record.
pub fn whole(rules: &Rules, input: &[u8]) -> String {
    rules.replayed_whole(input)
}
