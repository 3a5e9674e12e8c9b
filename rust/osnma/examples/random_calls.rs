//! Random calls into the core and the second receiver: `random_calls COUNT SEED [hmac] [sha256] [whole]`.
//! Stops at the first difference; prints how often each answer came for each call. With `hmac` no root
//! names CMAC-AES, with `sha256` none names SHA3, with `whole` no sub-frame has marks.

#[path = "../tests/common/mod.rs"]
mod common;

use common::driver::Driver;
use signal::scenario::{Functions, Pages};
use std::process::ExitCode;
use std::time::Instant;

fn main() -> ExitCode {
    let words: Vec<String> = std::env::args().skip(1).collect();
    let says = |wanted: &str| words.iter().any(|word| word == wanted);
    let functions = Functions {
        cmac: !says("hmac"),
        sha3: !says("sha256"),
    };
    let pages = match says("whole") {
        true => Pages::Whole,
        false => Pages::Lost,
    };
    let numbers: Vec<u64> = words.iter().map_while(|word| word.parse().ok()).collect();
    let [count, seed] = numbers[..] else {
        eprintln!("random_calls COUNT SEED [hmac] [sha256] [whole]");
        return ExitCode::from(2);
    };
    let began = Instant::now();
    let run = Driver::new(seed, 60, functions, pages).and_then(|mut driver| {
        let result = driver.run(count);
        println!("seed {seed}, {} states to begin at", driver.states());
        print!("{}", driver.tally);
        let missing = driver.tally.missing();
        if !missing.is_empty() {
            println!("never came: {}", missing.join(", "));
        }
        result
    });
    println!("{} s", began.elapsed().as_secs());
    match run {
        Ok(()) => {
            println!("no difference");
            ExitCode::SUCCESS
        }
        Err(error) => {
            println!("DIFFERENCE: {error}");
            ExitCode::FAILURE
        }
    }
}
