//! The calls of the core beside the second receiver's.
//!
//! - `calls time SLICES`: a half minute of 36 satellites, a section of it with nothing due, a section
//!   after a gap of 1,000,000 slots with 256 tags due, beside the proved walk over the gap alone, and 36
//!   damaged sections after such a gap, beside the proved walks alone; of these a quarter of the slices
//! - `calls count WHO TURNS`: half minutes alone, to be counted by callgrind
//! - `calls damaged WHO COUNT`: the first COUNT of those alone, or of the walks, to be counted by callgrind
//! - `calls slices COUNT`: the time of one half minute by the proved core in each of COUNT slices, in nanoseconds
//! - `calls tags TURNS`: what these half minutes have: sections, and tags judged by their codes
//! - `calls questions`: whether four satellites have a recent set, the cores of which it is asked
//! - `calls four QUESTION TURNS`: one of them alone, to be counted by callgrind
//! - `calls stores`: how far along each message is, the stores of which it is asked
//! - `calls progress STORE TURNS`: one of them alone, to be counted by callgrind
//! - `calls stack`: the bytes of a core and the deepest stack of each call
//!
//! The answers of both are compared before anything is measured.

use crate::call_stacks::stacks;
use crate::four;
use crate::progress;
use crate::sky::{time, Answer, Damaged, Gap, HalfMinutes, Who, ALL};
use crate::time::{rows, timed, Work, HEADING};
use leaves::chain::Chain;
use leaves::times::Slots;
use second_receiver::chain;
use second_receiver::times::Gst;
use std::hint::black_box;
use std::time::Duration;

pub const USAGE: &str =
    "calls time SLICES | count WHO TURNS | damaged WHO COUNT | slices COUNT | tags TURNS | questions | four QUESTION TURNS | stores | progress STORE TURNS | stack";

/// Half minutes that are compared, and that a slice takes: all of the run.
const HALVES: u32 = 36;
/// Damaged sections that a slice takes: all.
const SECTIONS: usize = 36;

/// The answers to the half minutes' calls.
fn answers(who: Who) -> Vec<Answer> {
    let (mut half_minutes, mut answers) = (HalfMinutes::new(who), Vec::new());
    for _ in 0..HALVES {
        half_minutes.hear(|_, answer, _| answers.push(answer));
    }
    answers
}

/// Whether both answer alike, also after a gap.
fn compare() -> Result<(), String> {
    if answers(Who::Proved) != answers(Who::Second) {
        return Err("the second receiver answers otherwise".into());
    }
    for (who, name) in ALL {
        let Gap {
            mut before,
            section,
        } = Gap::new(who);
        let answer = before.call(&section);
        if (answer.hkroot, answer.mack, answer.records) != (0, 0, 270) {
            return Err(format!("after the gap: {answer:?} by {name}"));
        }
        let Damaged {
            mut before,
            sections,
        } = Damaged::new(who);
        for section in &sections {
            let answer = before.call(section);
            if (answer.hkroot, answer.mack, answer.records) != (0, 12, 0) {
                return Err(format!("damaged section: {answer:?} by {name}"));
            }
        }
    }
    Ok(())
}

fn half_minute(who: Who) -> Work<'static> {
    let mut half_minutes = HalfMinutes::new(who);
    Box::new(move || timed(|| half_minutes.hear_all(HALVES.into())) / HALVES)
}

/// Sections of the half minutes that judge their own tags alone.
fn section(who: Who) -> Work<'static> {
    let own = answers(who).into_iter().map(|answer| answer.records);
    let own = own.filter(|&records| records > 0).min();
    let mut half_minutes = HalfMinutes::new(who);
    Box::new(move || {
        let (mut all, mut count) = (Duration::ZERO, 0);
        for _ in 0..HALVES {
            half_minutes.hear(|call, answer, took| {
                if call[0] == 3 && Some(answer.records) == own {
                    all += took;
                    count += 1;
                }
            });
        }
        all / count.max(1)
    })
}

fn gap(who: Who) -> Work<'static> {
    let Gap { before, section } = Gap::new(who);
    Box::new(move || {
        let mut heard = before.clone();
        timed(|| {
            black_box(heard.call(&section));
        })
    })
}

/// The proved chain leaf of a chain.
fn leaf(chain: &chain::Chain) -> Chain {
    Chain {
        slots: Slots {
            ns: chain.slots.ns.into(),
            nmack: chain.slots.nmack.into(),
            root: chain.slots.start,
        },
        alpha: chain.parameters.alpha,
        hf: chain.parameters.hf,
        width: chain.held.as_slice().len(),
        ms: 10,
    }
}

/// The proved walks of so many steps each, down to slot `low`, from any key.
fn walks(chain: &chain::Chain, low: u64, steps: Vec<u64>) -> Work<'static> {
    let leaf = leaf(chain);
    Box::new(move || {
        timed(|| {
            for &steps in &steps {
                leaf.walk(black_box(steps), low, black_box(&mut [0x5A; 32]))
                    .expect("in range");
            }
        })
    })
}

/// The proved walk from the key of the section after the gap down to the one held before.
fn walk() -> Work<'static> {
    let Gap {
        mut before,
        section,
    } = Gap::new(Who::Second);
    let low = before.second.chain().expect("a chain").held_slot;
    before.call(&section);
    let chain = before.second.chain().expect("a chain");
    walks(chain, low, vec![chain.held_slot - low])
}

/// The first `count` of the damaged sections.
fn damaged(who: Who, count: usize) -> Work<'static> {
    let Damaged { before, sections } = Damaged::new(who);
    Box::new(move || {
        let mut heard = before.clone();
        timed(|| {
            for section in sections.iter().take(count) {
                black_box(heard.call(section));
            }
        })
    })
}

/// The proved walks from the keys of the first `count` of the damaged sections down to the held one.
fn damaged_walks(count: usize) -> Work<'static> {
    let Damaged { before, sections } = Damaged::new(Who::Second);
    let chain = before.second.chain().expect("a chain");
    let slot = |call| chain.slots.of_key(Gst(time(call)).seconds(), 1, call[1]);
    let steps = sections.iter().map(|call| slot(call) - chain.held_slot);
    walks(chain, chain.held_slot, steps.take(count).collect())
}

fn times(slices: usize) {
    let names = ALL.map(|(_, name)| name);
    println!("{HEADING}");
    let works = ALL.map(|(who, _)| half_minute(who)).into();
    rows("half minute of 36 satellites", &names, slices, works);
    let works = ALL.map(|(who, _)| section(who)).into();
    rows("section, nothing due", &names, slices, works);
    let names = ["proved", "the walk alone", "second"];
    let works = vec![gap(Who::Proved), walk(), gap(Who::Second)];
    rows("section, gap of 1,000,000, 256 due", &names, slices, works);
    let works = vec![
        damaged(Who::Proved, SECTIONS),
        damaged_walks(SECTIONS),
        damaged(Who::Second, SECTIONS),
    ];
    let slices = slices.div_ceil(4);
    rows(
        "36 damaged sections, gap of 1,000,000",
        &names,
        slices,
        works,
    );
}

/// Sections that were answered 0, and tags that were judged by their codes.
fn tags(turns: u64) {
    let (mut half_minutes, mut sections, mut tags) = (HalfMinutes::new(Who::Second), 0, 0);
    for _ in 0..turns {
        half_minutes.hear(|call, answer, _| {
            sections += u64::from(call[0] == 3 && answer.mack == 0);
            tags += answer.judged;
        });
    }
    println!("{sections} {tags}");
}

pub fn command(words: &[&str]) -> Option<Result<(), String>> {
    match words {
        ["time", slices] => {
            let slices = slices.parse().ok()?;
            Some(compare().map(|()| times(slices)))
        }
        ["count", who, turns] => {
            let (who, _) = ALL.into_iter().find(|(_, name)| name == who)?;
            HalfMinutes::new(who).hear_all(turns.parse().ok()?);
            Some(Ok(()))
        }
        ["damaged", who, count] => {
            let count = count.parse().ok()?;
            let mut work = match *who {
                "proved" => damaged(Who::Proved, count),
                "second" => damaged(Who::Second, count),
                "walk" => damaged_walks(count),
                _ => return None,
            };
            work();
            Some(Ok(()))
        }
        ["slices", count] => {
            let mut work = half_minute(Who::Proved);
            for _ in 0..count.parse().ok()? {
                println!("{}", work().as_nanos());
            }
            Some(Ok(()))
        }
        ["tags", turns] => {
            tags(turns.parse().ok()?);
            Some(Ok(()))
        }
        ["questions"] => {
            println!("{}", four::QUESTIONS.join("\n"));
            Some(Ok(()))
        }
        ["four", question, turns] => four::ask(question, turns.parse().ok()?),
        ["stores"] => {
            println!("{}", progress::STORES.join("\n"));
            Some(Ok(()))
        }
        ["progress", store, turns] => progress::ask(store, turns.parse().ok()?),
        ["stack"] => {
            stacks();
            Some(Ok(()))
        }
        _ => None,
    }
}
