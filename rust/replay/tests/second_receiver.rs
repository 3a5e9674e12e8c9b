//! The proved replay program prints what the second receiver's prints, byte for byte.

use signal::rng::Rng;
use signal::scenario::{all, random, SEED};
use std::fs;
use std::iter;
use std::path::Path;

/// Bytes of a record.
const RECORD: usize = 256;

/// Records that the program reads at a time.
const AT_ONCE: usize = 16;

fn second(input: &[u8]) -> Vec<u8> {
    let mut lines = Vec::new();
    second_receiver::replay::replay(input, &mut lines).expect("the second receiver's lines");
    lines
}

fn proved(input: &[u8]) -> Vec<u8> {
    replay::replayed(input).unwrap_or_else(|text| panic!("{text}"))
}

/// Fails at the first line in which two outputs differ.
fn same(what: &str, got: &[u8], want: &[u8]) {
    if got == want {
        return;
    }
    let (got, want) = (String::from_utf8_lossy(got), String::from_utf8_lossy(want));
    let place = got.lines().zip(want.lines()).take_while(|(g, w)| g == w);
    let place = place.count();
    panic!(
        "{what}: line {}: the proved program prints {:?}, the second receiver {:?}",
        place + 1,
        got.lines().nth(place),
        want.lines().nth(place)
    );
}

fn compare(what: &str, input: &[u8]) {
    same(what, &proved(input), &second(input));
}

#[test]
fn recorded_runs() {
    let folder = Path::new(env!("CARGO_MANIFEST_DIR")).join("../second_receiver/tests/cases");
    let mut count = 0;
    for entry in fs::read_dir(folder).expect("the recorded runs") {
        let path = entry.expect("a recorded run").path();
        if path.extension().is_some_and(|extension| extension == "in") {
            let input = fs::read(&path).expect("an input");
            let lines = proved(&input);
            let name = path.display().to_string();
            same(&name, &lines, &second(&input));
            let recorded = fs::read(path.with_extension("out")).expect("its lines");
            assert!(lines == recorded, "{name}: not the lines recorded");
            count += 1;
        }
    }
    assert_eq!(count, 29, "recorded runs found");
}

/// What `rt ci` runs.
#[test]
fn the_run_of_the_gate() {
    let folder = Path::new(env!("CARGO_MANIFEST_DIR")).join("../../crates/replay");
    let input = fs::read(folder.join("stdin")).expect("stdin");
    let lines = fs::read(folder.join("stdout")).expect("stdout");
    same("the gate's run", &lines, &second(&input));
}

#[test]
fn signals() {
    for scenario in all() {
        let run = scenario.run(SEED);
        let lines = proved(&run.bytes);
        same(scenario.name, &lines, &second(&run.bytes));
        let text = String::from_utf8(lines).expect("text");
        if let Err(difference) = run.check(&text, None) {
            panic!("{}: {difference}", scenario.name);
        }
    }
}

#[test]
fn random_signals() {
    for seed in 1..=20 {
        compare(&format!("random signal {seed}"), &random(seed).bytes);
    }
}

/// An accepted start, and records of every kind behind it.
fn mixed(rng: &mut Rng, records: usize) -> Vec<u8> {
    let mut input = signal::scenario::find("nominal")
        .expect("a scenario")
        .run(SEED)
        .bytes[..RECORD]
        .to_vec();
    for _ in 1..records {
        let mut record = rng.bytes(RECORD);
        if !rng.once_in(4) {
            record[0] = rng.below(7) as u8;
        }
        // Mostly a satellite, and a time of some week.
        if !rng.once_in(4) {
            record[1] = rng.range(1, 36) as u8;
            let time = (rng.range(940, 950) << 20) | (30 * rng.below(20_160));
            record[2..6].copy_from_slice(&(time as u32).to_be_bytes());
        }
        input.extend(record);
    }
    input
}

/// Every length about a record's end and about what is read at a time.
#[test]
fn lengths() {
    let input = mixed(&mut Rng::new(3), 2 * AT_ONCE + 2);
    for records in [0, 1, 2, AT_ONCE - 1, AT_ONCE, AT_ONCE + 1, 2 * AT_ONCE] {
        let end = records * RECORD;
        for len in end.saturating_sub(1)..=end + 1 {
            compare(&format!("{len} bytes"), &input[..len]);
        }
    }
    compare("255 bytes", &input[..255]);
}

#[test]
fn kinds() {
    for kind in 0..=255 {
        let record = vec![kind; RECORD];
        compare(&format!("kind {kind} before a start"), &record);
        let input = [&mixed(&mut Rng::new(1), 1)[..], &record].concat();
        compare(&format!("kind {kind} after a start"), &input);
    }
}

#[test]
fn random_bytes() {
    let mut rng = Rng::new(2);
    for turn in 0..200 {
        let len = rng.below(40 * RECORD as u64) as usize;
        compare(&format!("random bytes, turn {turn}"), &rng.bytes(len));
        let records = rng.range(1, 60) as usize;
        let mut input = mixed(&mut rng, records);
        let short = rng.below(RECORD as u64) as usize;
        input.extend(rng.bytes(short));
        compare(&format!("random records, turn {turn}"), &input);
    }
}

/// An input that comes in pieces is the same input.
#[test]
fn pieces() {
    let input = &mixed(&mut Rng::new(4), 60)[..59 * RECORD + 100];
    let lines = second(input);
    for piece in [1, 7, 255, 256, 257, 4095, 4096, 4097, 10_000] {
        let got = replay::replayed_in_pieces(input, piece).unwrap_or_else(|text| panic!("{text}"));
        same(&format!("pieces of {piece} bytes"), &got, &lines);
    }
}

/// A recording of many days, to its last record: after a start, records of another kind, whose answers are short. More than a count of turns in 16
/// bits would read.
#[test]
fn a_long_recording() {
    const BLOCKS: usize = 1 << 16;
    let start = mixed(&mut Rng::new(5), 1);
    let other = vec![9; AT_ONCE * RECORD];
    let blocks = iter::repeat_n(&other[..], BLOCKS);
    let lines = replay::replayed_pieces(iter::once(&start[..]).chain(blocks));
    let lines = String::from_utf8(lines.unwrap_or_else(|text| panic!("{text}"))).expect("text");
    let mut places = 0;
    for line in lines.lines() {
        places += 1;
        let answers = if places == 1 { "0 0 0" } else { "2 0 0" };
        assert_eq!(line, format!("{places} {answers}"), "line {places}");
    }
    assert_eq!(places, 1 + BLOCKS * AT_ONCE, "lines printed");
}
