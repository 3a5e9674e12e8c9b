//! What the tests share: the definitions of this repository, and where two outputs part.

use rules_runner::machine::with_large_stack;
use rules_runner::program::Hashes;
use rules_runner::replay::replay_and_ask;
use rules_runner::rules::{Rules, Run};
use second_receiver::receiver::RECORDS_LEN;
use second_receiver::replay as second;
use second_receiver::Receiver;
use std::path::{Path, PathBuf};

pub fn crates() -> PathBuf {
    Path::new(env!("CARGO_MANIFEST_DIR")).join("../../crates")
}

/// Gives `work` the definitions, on a large stack.
#[allow(dead_code)]
pub fn with_rules<T: Send>(hashes: Hashes, work: impl FnOnce(&Rules) -> T + Send) -> T {
    with_large_stack(|| match Rules::load(&crates(), hashes) {
        Ok(rules) => work(&rules),
        Err(error) => panic!("{error}"),
    })
}

/// The first line in which two outputs differ.
#[allow(dead_code)]
pub fn first_difference(got: &str, want: &str) -> Option<String> {
    let (mut got, mut want) = (got.split('\n'), want.split('\n'));
    for line in 1.. {
        match (got.next(), want.next()) {
            (None, None) => break,
            (g, w) if g == w => {}
            (g, w) => return Some(format!("line {line}: got {g:?}, want {w:?}")),
        }
    }
    None
}

/// Whether the definitions and the second receiver say the same of four satellites: with the least limit that is enough
/// and the one below it, or with any where none is; with others too if all are asked.
fn same_four(run: &Run, receiver: &Receiver, all: bool) -> Result<(), String> {
    let least = receiver.least_limit().map(|limit| limit as u32);
    let mut limits = vec![least.unwrap_or(u32::MAX)];
    limits.extend(least.and_then(|limit| limit.checked_sub(1)));
    if all {
        limits.extend([0, 10, 20, u32::MAX]);
    }
    let differs = |limit: &u32| {
        let told = run.four(*limit);
        (told.number, told.yes) != (0, receiver.four(*limit).into())
    };
    match limits.into_iter().find(differs) {
        None => Ok(()),
        Some(limit) => Err(format!("four with limit {limit}, the least is {least:?}")),
    }
}

/// Whether the definitions and the second receiver say the same of how far along each message is.
fn same_progress(run: &Run, receiver: &Receiver) -> Result<(), String> {
    let told = run.progress(&[0x5A; 32]);
    let right = receiver.progress();
    let pairs = right.map(|of_id| [of_id.held, of_id.missing.unwrap_or(255)]);
    match (told.number, told.pairs == pairs.as_flattened()) {
        (0, true) => Ok(()),
        (number, _) => Err(format!("progress {number} {:?}, not {right:?}", told.pairs)),
    }
}

/// The second receiver one record on.
fn go_on(receiver: &mut Receiver, record: &[u8]) {
    if let Ok(record) = record.try_into() {
        second::answer(receiver, record, &mut [0; RECORDS_LEN]);
    }
}

/// Where the definitions and the second receiver part on an input: lines, reads after it, candidates, whether four
/// satellites have a recent authentic set, after each record that can change it and at the end, or how far along each
/// message is, after each record.
#[allow(dead_code)]
pub fn beside_second(rules: &Rules, input: &[u8]) -> Option<String> {
    let (mut beside, mut asked, mut place) = (Receiver::new(), Ok(()), 0);
    let got = replay_and_ask(rules, input, |record, run| {
        place += 1;
        go_on(&mut beside, record);
        if asked.is_ok() && record[0] != 2 {
            asked = same_four(run, &beside, false).map_err(|e| format!("record {place}: {e}"));
        }
        if asked.is_ok() && place == input.len().div_ceil(256) {
            asked = same_four(run, &beside, true);
        }
        if asked.is_ok() {
            asked = same_progress(run, &beside).map_err(|e| format!("record {place}: {e}"));
        }
    });
    let [mut lines, mut reads, mut candidates, mut four, mut progress] = [const { Vec::new() }; 5];
    let receiver = second::replay(input, &mut lines).unwrap();
    second::write_reads(&receiver, &mut reads).unwrap();
    second::write_candidates(&receiver, &mut candidates).unwrap();
    second::write_four(&receiver, &mut four).unwrap();
    second::write_progress(&receiver, &mut progress).unwrap();
    let pairs = [
        ("lines", got.lines, lines),
        ("reads", got.reads, reads),
        ("candidates", got.candidates, candidates),
        ("four", got.four, four),
        ("progress", got.progress, progress),
    ];
    let difference = pairs.into_iter().find_map(|(what, got, want)| {
        let difference = first_difference(&got, &String::from_utf8(want).unwrap())?;
        Some(format!("{what}, {difference}"))
    });
    difference.or(asked.err())
}
