//! A digest of all that the core answers and leaves: `digest_calls COUNT SEED [sha256] [whole]`.
//!
//! Makes every call of the named runs and COUNT calls drawn at random, and prints a digest of every answer, tag record
//! and byte of every region: of each run, then of the random calls so far after every 10,000. With `sha256` no root names
//! SHA3, for an archive that does not know it: a named run's roots that do name HF 3, and its line says so. With `whole`
//! no sub-frame has marks, for an archive that does not know them.
//! Two archives of the core print the same lines only if they do the same; `side_by_side` compares them.

#[path = "../tests/common/mod.rs"]
mod common;

use common::driver::{call_of, input_without_marks, restrict_input, Driver};
use common::twin::{Answer, Twin};
use osnma::regions::Regions;
use signal::replay::RECORD;
use signal::rng::Rng;
use signal::scenario::{self, Functions, Pages};
use std::process::ExitCode;

const EVERY: u64 = 10_000;

/// Two numbers that every byte enters, so that one that differs shows in the lines from then on.
struct Digest {
    lanes: [u64; 2],
    calls: u64,
}

impl Digest {
    fn new() -> Digest {
        Digest {
            lanes: [1, 2],
            calls: 0,
        }
    }

    fn number(&mut self, number: u64) {
        self.lanes[0] = (self.lanes[0] ^ number)
            .wrapping_mul(0x9E37_79B9_7F4A_7C15)
            .rotate_left(29);
        self.lanes[1] =
            (self.lanes[1].rotate_left(23) ^ number).wrapping_mul(0xD6E8_FEB8_6659_FD93);
    }

    fn bytes(&mut self, bytes: &[u8]) {
        let mut eights = bytes.chunks_exact(8);
        for eight in &mut eights {
            self.number(u64::from_le_bytes(eight.try_into().expect("eight bytes")));
        }
        for &byte in eights.remainder() {
            self.number(byte.into());
        }
        self.number(bytes.len() as u64);
    }

    fn regions(&mut self, r: &Regions) {
        for bytes in [
            &r.config[..],
            &r.words,
            &r.blocks,
            &r.headers,
            &r.pubkeys,
            &r.offer,
            &r.chain,
            &r.heldkey,
            &r.waiting,
            &r.sets,
        ] {
            self.bytes(bytes);
        }
        for numbers in [&r.clocks[..], &r.stamps, &r.since, &r.arrivals] {
            numbers
                .iter()
                .for_each(|&number| self.number(number.into()));
        }
        r.present
            .iter()
            .for_each(|&number| self.number(number.into()));
        r.numbers.iter().for_each(|&number| self.number(number));
    }

    /// What a call answered and left; the record area has the records.
    fn call(&mut self, answer: &Answer, twin: &Twin) {
        self.number(answer.number.into());
        self.number(answer.mack.into());
        self.number(answer.tags.len() as u64);
        self.bytes(twin.area());
        self.regions(twin.core.regions());
        self.calls += 1;
    }

    fn print(&self, what: &str) {
        let [a, b] = self.lanes;
        println!("{what}: {} calls, {a:016X}{b:016X}", self.calls);
    }
}

/// The calls of a run, each with the reads after it.
fn replay(input: &[u8], digest: &mut Digest) -> Result<(), String> {
    let mut twin = Twin::new(&mut Rng::new(1));
    for (place, record) in input.chunks_exact(RECORD).enumerate() {
        let Some(call) = call_of(record) else {
            continue;
        };
        if twin.receiver.is_started() || record[0] == 1 {
            let answer = twin.call(&call, place as u8 % 36 + 1);
            digest.call(
                &answer.map_err(|error| format!("record {}: {error}", place + 1))?,
                &twin,
            );
        }
    }
    Ok(())
}

fn run(count: u64, seed: u64, functions: Functions, pages: Pages) -> Result<(), String> {
    for scenario in scenario::all() {
        let mut digest = Digest::new();
        let mut run = scenario.run(scenario::SEED);
        let whole = run.bytes.clone();
        restrict_input(&mut run.bytes, functions);
        if run.bytes != whole {
            run.name += " with HF 3 for SHA3";
        }
        if pages == Pages::Whole {
            input_without_marks(&mut run.bytes);
        }
        replay(&run.bytes, &mut digest).map_err(|error| format!("{}: {error}", run.name))?;
        digest.print(&run.name);
    }
    let mut digest = Digest::new();
    let mut driver = Driver::new(seed, 60, functions, pages)?;
    for _ in 0..count.div_ceil(EVERY) {
        driver.run_and_show(EVERY, |answer, twin| digest.call(answer, twin))?;
        digest.print("random");
    }
    print!("{}", driver.tally);
    Ok(())
}

fn main() -> ExitCode {
    let words: Vec<String> = std::env::args().skip(1).collect();
    let numbers: Vec<u64> = words.iter().map_while(|word| word.parse().ok()).collect();
    let [count, seed] = numbers[..] else {
        eprintln!("digest_calls COUNT SEED [sha256] [whole]");
        return ExitCode::from(2);
    };
    let says = |wanted: &str| words.iter().any(|word| word == wanted);
    let functions = Functions {
        sha3: !says("sha256"),
        ..Functions::ALL
    };
    let pages = match says("whole") {
        true => Pages::Whole,
        false => Pages::Lost,
    };
    match run(count, seed, functions, pages) {
        Ok(()) => ExitCode::SUCCESS,
        Err(error) => {
            println!("DIFFERENCE from the second receiver: {error}");
            ExitCode::FAILURE
        }
    }
}
