//! The definitions and the second receiver give the same lines and the same reads on runs of the bench signal.

mod common;

use common::{beside_second, with_rules};
use rules_runner::program::Hashes;
use signal::replay::Run;
use signal::scenario;
use std::collections::HashSet;

/// Named runs that take long here: by their length, or by long ways down the key chain.
const LONG: [&str; 16] = [
    "cmac_damaged",
    "every_ns",
    "field_bits",
    "fitter",
    "full_sky",
    "gap_full",
    "lost_fields_1",
    "lost_fields_2",
    "message_bits",
    "outcomes",
    "sections",
    "sizes_1",
    "sizes_2",
    "trees",
    "trees_3",
    "word_bits",
];

/// Random mixes that are run.
const MIXES: u64 = 100;

/// Seeds that lie far apart.
fn seed(at: u64) -> u64 {
    at * 1_000_003 + 17
}

fn check(runs: impl Iterator<Item = Run> + Send) {
    let differences: Vec<String> = with_rules(Hashes::Portable, |rules| {
        runs.filter_map(|run| {
            let difference = beside_second(rules, &run.bytes)?;
            Some(format!("{}: {difference}", run.name))
        })
        .collect()
    });
    assert!(differences.is_empty(), "{}", differences.join("\n"));
}

fn named(long: bool) -> impl Iterator<Item = Run> {
    let chosen = move |s: &&scenario::Scenario| LONG.contains(&s.name) == long;
    scenario::all()
        .iter()
        .filter(chosen)
        .map(|s| s.run(scenario::SEED))
}

#[test]
fn named_runs() {
    for name in LONG {
        assert!(scenario::find(name).is_some(), "no scenario {name}");
    }
    check(named(false));
}

#[test]
#[ignore = "takes minutes"]
fn long_named_runs() {
    check(named(true));
}

// Each seed gives a run of its own.
#[test]
fn random_mixes() {
    let runs: Vec<Run> = (0..MIXES).map(|at| scenario::random(seed(at))).collect();
    let inputs: HashSet<&[u8]> = runs.iter().map(|run| &run.bytes[..]).collect();
    assert_eq!(inputs.len(), runs.len(), "different runs");
    check(runs.into_iter());
}
