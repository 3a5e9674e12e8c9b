//! The definitions give the lines, the reads, the candidates and the least limits that are recorded for the replay inputs.

mod common;

use common::{first_difference, with_rules};
use rules_runner::program::Hashes;
use rules_runner::replay::{replay, whole};
use std::collections::BTreeSet;
use std::fs;
use std::path::{Path, PathBuf};

/// The recorded inputs that are run here.
const RUN: [&str; 28] = [
    "P1_cmac_nominal",
    "P1_mf_changes",
    "P3_hkroot",
    "P3_lost_2_128_12",
    "P4_candidates",
    "P4_nominal",
    "P5_four",
    "P6_nominal",
    "P9_progress",
    "a_empty",
    "a_example",
    "a_framing",
    "a_kroot_checks",
    "a_macseq",
    "a_pkr_checks",
    "a_short_one",
    "a_verdicts",
    "a_waiting_full",
    "a_words",
    "c_verdict_table",
    "f_mix_01",
    "f_mix_02",
    "r_annex_a",
    "r_annex_a_tree",
    "r_data_change",
    "r_drop",
    "r_emergency",
    "r_nominal_1",
];

/// Those that take longer: `cargo test --release -- --ignored` runs them.
const LONG: [&str; 1] = ["r_floating"];

fn folder() -> PathBuf {
    Path::new(env!("CARGO_MANIFEST_DIR")).join("../second_receiver/tests/cases")
}

fn read(name: &str, extension: &str) -> Vec<u8> {
    let path = folder().join(name).with_extension(extension);
    // Where there are no candidates, no limit is enough or no block is held, there is no file of them.
    match extension {
        "candidates" if !path.exists() => Vec::new(),
        "four" if !path.exists() => b"F -\n".to_vec(),
        "progress" if !path.exists() => format!("D{}\n", " 0/?".repeat(16)).into(),
        _ => fs::read(&path).unwrap_or_else(|error| panic!("{}: {error}", path.display())),
    }
}

fn check(names: &[&str]) {
    let differences = with_rules(Hashes::Portable, |rules| {
        let mut differences = Vec::new();
        for name in names {
            let got = replay(rules, &read(name, "in"));
            for (extension, got) in [
                ("out", got.lines),
                ("reads", got.reads),
                ("candidates", got.candidates),
                ("four", got.four),
                ("progress", got.progress),
            ] {
                let want = String::from_utf8(read(name, extension)).unwrap();
                if let Some(difference) = first_difference(&got, &want) {
                    differences.push(format!("{name}.{extension} {difference}"));
                }
            }
        }
        differences
    });
    assert!(differences.is_empty(), "{}", differences.join("\n"));
}

#[test]
fn recorded_runs() {
    check(&RUN);
}

#[test]
#[ignore = "takes longer than the others"]
fn long_recorded_runs() {
    check(&LONG);
}

// The definition of a whole input, where it is short.
#[test]
fn whole_inputs() {
    for name in [
        "a_empty",
        "a_example",
        "a_framing",
        "a_short_one",
        "a_words",
    ] {
        let got = with_rules(Hashes::Portable, |rules| whole(rules, &read(name, "in")));
        let want = String::from_utf8(read(name, "out")).unwrap();
        assert_eq!(first_difference(&got, &want), None, "{name}");
    }
}

// No recorded input is left out by mistake.
#[test]
fn every_input_is_listed() {
    let mut found = BTreeSet::new();
    for entry in fs::read_dir(folder()).unwrap() {
        let path = entry.unwrap().path();
        if path.extension().is_some_and(|extension| extension == "in") {
            found.insert(path.file_stem().unwrap().to_string_lossy().into_owned());
        }
    }
    let listed = RUN
        .iter()
        .chain(&LONG)
        .map(|name| name.to_string())
        .collect();
    assert_eq!(found, listed);
}
