//! A recorded half hour: what was heard, what the tags said, and which set of each satellite was
//! authentic before, while and after a repeater's older words came in.

use crate::{boom, proved};
use jobsheet::gathering::Blocks;
use osnma::{Core, Progress};
use replay::replayed;
use second_receiver::navdata::SET_LEN;
use second_receiver::numbers::ACCEPTED;
use second_receiver::receiver::RECORDS_LEN;
use second_receiver::replay::{answer, replay, write_reads};
use second_receiver::times::Gst;
use second_receiver::Receiver;
use signal::replay::{Run, RECORD};
use std::collections::{BTreeMap, BTreeSet};

/// Kinds of record (01, The replay program).
const WORD: u8 = 2;
const SUBFRAME: u8 = 3;

/// Outcomes of tags (01, MACK; 02, P4).
const AUTHENTIC: u8 = 1;
const WRONG: u8 = 2;
const WAITS: u8 = 5;
const AGREES: u8 = 9;

/// IODnav of a satellite's words, from this record on.
#[derive(Clone, Copy, Debug, PartialEq, Eq)]
struct Heard {
    record: usize,
    time: Gst,
    iodnav: u16,
}

/// The time of a record, from its bytes.
pub fn gst(bytes: &[u8]) -> Gst {
    Gst(bytes.iter().fold(0, |n, &b| n << 8 | u32::from(b)))
}

/// For each satellite, the IODnav of its words of type 1 as they changed.
fn heard(run: &Run) -> BTreeMap<u8, Vec<Heard>> {
    let mut all: BTreeMap<u8, Vec<Heard>> = BTreeMap::new();
    for (record, r) in run.bytes.chunks_exact(RECORD).enumerate() {
        if r[0] == WORD && r[6] >> 2 == 1 {
            let iodnav = u16::from(r[6] & 3) << 8 | u16::from(r[7]);
            let of = all.entry(r[1]).or_default();
            if of.last().is_none_or(|last| last.iodnav != iodnav) {
                of.push(Heard {
                    record,
                    time: gst(&r[2..6]),
                    iodnav,
                });
            }
        }
    }
    all
}

/// A tag record (01, MACK).
struct Tag {
    outcome: u8,
    prn: u8,
    adkd: u8,
    iodnav: u16,
}

/// The tag records in a replay's answers: the lines of 24 digits.
fn tags(answers: &str) -> Vec<Tag> {
    let byte = |line: &str, at: usize| {
        let digits = line.get(2 * at..2 * at + 2)?;
        u8::from_str_radix(digits, 16).ok()
    };
    answers
        .lines()
        .filter(|line| line.len() == 24 && !line.contains(' '))
        .filter_map(|line| {
            Some(Tag {
                outcome: byte(line, 0)?,
                prn: byte(line, 2)?,
                adkd: byte(line, 3)?,
                iodnav: u16::from_be_bytes([byte(line, 6)?, byte(line, 7)?]),
            })
        })
        .collect()
}

/// An authentic set, as a read gives it.
#[derive(Clone, Copy, Debug, PartialEq, Eq)]
struct Set {
    bits: [u8; SET_LEN],
    iodnav: u16,
    time: Gst,
}

fn read(receiver: &Receiver, prn: u8) -> Result<Set, String> {
    let mut bits = [0; SET_LEN];
    let answer = receiver.read_set(prn, &mut bits);
    match answer.number {
        ACCEPTED => Ok(Set {
            bits,
            iodnav: answer.iodnav,
            time: Gst(answer.time),
        }),
        number => Err(format!("a read of E{prn:02} answers {number}")),
    }
}

/// The second receiver after the first records of a run, and the proved replay program's lines: every
/// line of the two and of the proved core must be equal, and every authentic set of core and receiver.
fn after(run: &Run, records: usize) -> Result<(Receiver, String), String> {
    let mut answers = Vec::new();
    let input = &run.bytes[..records * RECORD];
    let receiver = replay(input, &mut answers).map_err(|e| e.to_string())?;
    let program = replayed(input)?;
    require(program == answers, || {
        "the proved replay program and the second receiver print different lines".into()
    })?;
    let (core, lines) = proved::replayed(input)?;
    require(lines.as_bytes() == program, || {
        "the proved replay program and the proved core have different lines".into()
    })?;
    for prn in 1..=36 {
        let mut bytes = [0; SET_LEN];
        let other = receiver.read_set(prn, &mut bytes);
        let same = match core.read_set(prn) {
            Ok(set) => {
                other.number == ACCEPTED && set.bytes == bytes && set.time.bits() == other.time
            }
            Err(refusal) => u32::from(other.number) == refusal.number(),
        };
        require(same, || format!("the two read different sets of E{prn:02}"))?;
    }
    let lines = String::from_utf8(program).map_err(|e| e.to_string())?;
    Ok((receiver, lines))
}

/// An error where something is not as it must be.
pub fn require(condition: bool, otherwise: impl FnOnce() -> String) -> Result<(), String> {
    if condition {
        Ok(())
    } else {
        Err(otherwise())
    }
}

/// How far along each message is after a record, as the core says it; the second receiver says the same.
fn progress(core: &Core, other: &Receiver) -> Result<Vec<Progress>, String> {
    let now: Vec<Progress> = core.progress().collect();
    let figures = now.iter().map(|of| (of.held, of.missing));
    let others = other.progress();
    require(
        figures.eq(others.iter().map(|of| (of.held, of.missing))),
        || "the proved core and the second receiver hold different blocks".into(),
    )?;
    Ok(now)
}

/// How the first message with keys came together, until it was whole: a line for each block that was new.
/// Nothing held after that is the whole message, which was taken out.
fn gathered(run: &Run, clock: impl Fn(Gst) -> String) -> Result<Vec<String>, String> {
    let (mut receiver, mut area) = (Receiver::new(), [0; RECORDS_LEN]);
    let mut before: Vec<Progress> = Vec::new();
    let mut lines = Vec::new();
    let mut whole = false;
    proved::followed(&run.bytes, |record, core, _| {
        let bytes = record.try_into().map_err(|_| "a record is short")?;
        answer(&mut receiver, bytes, &mut area);
        let now = progress(core, &receiver)?;
        for (old, new) in before.iter().zip(&now).filter(|(old, new)| old != new) {
            let blocks = match new.held {
                0 => Blocks {
                    held: old.held + 1,
                    missing: Some(0),
                },
                held => Blocks {
                    held,
                    missing: new.missing,
                },
            };
            let told = match new.held {
                0 => format!("{0} of {0}: whole", blocks.held),
                _ => blocks.told(),
            };
            if !whole {
                let (at, bar) = (clock(gst(&record[2..6])), blocks.bar());
                lines.push(format!("{at}   DSM {}  {bar:<10} {told}", new.dsm_id));
            }
            whole |= new.held == 0;
        }
        before = now;
        Ok(())
    })?;
    require(whole, || "no message came whole".into())?;
    Ok(lines)
}

/// Replays the run and tells it, or says what is not as it must be.
pub fn told(run: &Run) -> Result<Vec<String>, String> {
    let (receiver, answers) = after(run, run.places())?;
    let mut reads = Vec::new();
    write_reads(&receiver, &mut reads).map_err(|e| e.to_string())?;
    run.check(&answers, Some(&String::from_utf8_lossy(&reads)))?;

    let heard = heard(run);
    let records = || run.bytes.chunks_exact(RECORD);
    let count = |kind| records().filter(|r| r[0] == kind).count();
    let times = || {
        records()
            .filter(|r| r[0] == SUBFRAME)
            .map(|r| gst(&r[2..6]))
    };
    let (Some(first), Some(last)) = (times().min(), times().max()) else {
        return Err("no sub-frame".into());
    };
    // Minutes and seconds since the first sub-frame.
    let clock = |time: Gst| {
        let s = time.seconds().saturating_sub(first.seconds());
        format!("{:02}:{:02}", s / 60, s % 60)
    };

    let tags = tags(&answers);
    let outcomes = |outcome| tags.iter().filter(move |t| t.outcome == outcome);
    let (authentic, agree, wrong, waited) = (
        outcomes(AUTHENTIC).count(),
        outcomes(AGREES).count(),
        outcomes(WRONG).count(),
        outcomes(WAITS).count(),
    );
    let slow_judged = tags
        .iter()
        .filter(|t| t.adkd != 0 && [AUTHENTIC, AGREES, WRONG].contains(&t.outcome))
        .count();
    let other = tags.len() - authentic - agree - wrong - waited;

    // A repeater: words that go back to an older set and return.
    let away: Vec<(u8, [Heard; 3])> = heard
        .iter()
        .filter_map(|(&prn, of)| Some((prn, <[Heard; 3]>::try_from(&of[..]).ok()?)))
        .filter(|(_, [own, other, own_again])| {
            own.iodnav == own_again.iodnav && other.iodnav < own.iodnav
        })
        .collect();
    let begin = away.iter().map(|(_, of)| of[1].record).min();
    let end = away.iter().map(|(_, of)| of[2].record).min();
    let (Some(begin), Some(end)) = (begin, end) else {
        return Err("no repeater is heard".into());
    };
    let (before, _) = after(run, begin)?;
    let (during, _) = after(run, end)?;
    let (from, to) = (away[0].1[1].time, away[0].1[2].time);
    let names = |prns: &mut dyn Iterator<Item = u8>| {
        let names: Vec<String> = prns.map(|prn| format!("E{prn:02}")).collect();
        names.join(", ")
    };

    let mut lines = vec![
        format!(
            "{} satellites, {} sub-frames and {} words; first sub-frame GST {}/{}, last {} after it (minutes:seconds)",
            heard.len(),
            count(SUBFRAME),
            count(WORD),
            first.week(),
            first.second_of_week(),
            clock(last)
        ),
        format!(
            "tags judged: {authentic} authentic, {agree} agree with data that has fewer than 40 tag bits, \
             {wrong} wrong, {other} not usable"
        ),
        format!(
            "tags that had to wait for their key: {waited}, of which {} wait still",
            waited - slow_judged
        ),
        String::new(),
        "How the keys' message was gathered, block by block (# held, . missing, ? how many is unknown):"
            .into(),
        String::new(),
    ];
    lines.extend(gathered(run, clock)?);
    lines.extend([
        String::new(),
        "What the boom's valves did, as the proved gate (libvalve_gate.a) decided at the end of each half minute:".into(),
        String::new(),
    ]);
    lines.extend(boom::told(run, clock)?);
    lines.extend([
        String::new(),
        format!(
            "From {} to {} a repeater's older words came in for {}.",
            clock(from),
            clock(to),
            names(&mut away.iter().map(|(prn, _)| *prn))
        ),
        "Their tags were wrong then; what was authentic stayed what it was:".into(),
        String::new(),
        "        IODnav heard     authentic set: IODnav (time of its tag)".into(),
        "        own, repeater    before         meanwhile        at the end".into(),
    ]);
    for (prn, [own, other, _]) in &away {
        let (old, kept, now) = (
            read(&before, *prn)?,
            read(&during, *prn)?,
            read(&receiver, *prn)?,
        );
        require(old.iodnav == own.iodnav, || {
            format!("E{prn:02}: the set read before is not the one heard")
        })?;
        require(kept.bits == old.bits && kept.time <= from, || {
            format!("E{prn:02}: the repeater's words changed the authentic set")
        })?;
        require(now.bits == old.bits && now.time > to, || {
            format!("E{prn:02}: the satellite's own words are not authentic at the end")
        })?;
        let matched = [AUTHENTIC, AGREES].into_iter().flat_map(&outcomes);
        let mut of_repeater = matched.filter(|t| t.prn == *prn && t.iodnav == other.iodnav);
        require(of_repeater.next().is_none(), || {
            format!("E{prn:02}: a tag matched the repeater's words")
        })?;
        lines.push(format!(
            "   E{prn:02}  {:>3}, {:>3}         {:>3} ({})    {:>3} ({})      {:>3} ({})",
            own.iodnav,
            other.iodnav,
            old.iodnav,
            clock(old.time),
            kept.iodnav,
            clock(kept.time),
            now.iodnav,
            clock(now.time)
        ));
    }
    let denied: BTreeSet<u8> = outcomes(WRONG).map(|t| t.prn).collect();
    let repeated: BTreeSet<u8> = away.iter().map(|(prn, _)| *prn).collect();
    require(denied == repeated, || {
        format!(
            "wrong tags for {}",
            names(&mut denied.symmetric_difference(&repeated).copied())
        )
    })?;
    lines.push(String::new());
    lines.push(
        "In all three columns the 549 bits are the same. No other satellite had a wrong tag."
            .into(),
    );

    // New data of a satellite itself.
    for (prn, of) in heard.iter().filter(|(prn, _)| !repeated.contains(prn)) {
        let now = read(&receiver, *prn)?;
        let newest = of[of.len() - 1];
        require(now.iodnav == newest.iodnav, || {
            format!("E{prn:02}: the newest words are not authentic at the end")
        })?;
        if of.len() > 1 {
            lines.push(format!(
                "E{prn:02} sent new data at {} (IODnav {}): authentic at the end, its latest tag of {}.",
                clock(newest.time),
                newest.iodnav,
                clock(now.time)
            ));
        }
    }
    Ok(lines)
}

#[cfg(test)]
mod tests {
    use super::*;
    use signal::scenario::{find, SEED};

    fn run(name: &str) -> Run {
        find(name).unwrap().run(SEED)
    }

    #[test]
    fn fitter() {
        let lines = told(&run("fitter")).unwrap();
        assert!(lines.iter().any(|line| line.contains("E04, E11, E19, E27")));
        // Block 0, which names the total, comes last.
        let blocks = Vec::from_iter(lines.iter().filter(|line| line.contains("DSM 5")));
        assert_eq!(blocks.len(), 8, "{blocks:?}");
        assert_eq!(
            blocks[0],
            "00:00   DSM 5  #?         1 block held, total unknown"
        );
        assert_eq!(
            blocks[6],
            "00:30   DSM 5  #######?   7 blocks held, total unknown"
        );
        assert_eq!(blocks[7], "00:30   DSM 5  ########   8 of 8: whole");
        let free = "01:00   centre valves free    outer valves free";
        assert!(lines.iter().any(|line| line == free));
    }

    // The first half minute alone lacks block 0 and another.
    #[test]
    fn no_message() {
        let mut short = run("fitter");
        short.bytes.truncate(13 * RECORD);
        let told = gathered(&short, |_| String::new());
        assert_eq!(told, Err("no message came whole".into()));
    }

    #[test]
    fn no_repeater() {
        assert_eq!(told(&run("nominal")), Err("no repeater is heard".into()));
    }

    // Words that change by one bit in the last half minutes.
    #[test]
    fn changed_words() {
        let mut changed = run("fitter");
        let half = changed.bytes.len() / RECORD / 2;
        for r in changed.bytes.chunks_exact_mut(RECORD).skip(half) {
            if r[0] == WORD && r[1] == 7 && r[6] >> 2 == 2 {
                r[20] ^= 1;
            }
        }
        assert!(told(&changed).is_err());
    }
}
