//! How far along each message is, on blocks and marks drawn at random: `progress_states COUNT SEED`. Stops where the core and
//! the second receiver's rule differ; prints what was told of the DSM IDs, how often.

#[path = "../tests/common/mod.rs"]
mod common;

use common::stores::{compare, TOLD};
use std::process::ExitCode;

fn main() -> ExitCode {
    let words = std::env::args().skip(1);
    let numbers: Vec<u64> = words.map_while(|word| word.parse().ok()).collect();
    let [count, seed] = numbers[..] else {
        eprintln!("progress_states COUNT SEED");
        return ExitCode::from(2);
    };
    match compare(count, seed) {
        Ok(sums) => {
            for (told, times) in TOLD.iter().zip(sums) {
                println!("{times:>9}  {told}");
            }
            println!("{count} states, seed {seed}: no difference");
            ExitCode::SUCCESS
        }
        Err(error) => {
            println!("DIFFERENCE: {error}");
            ExitCode::FAILURE
        }
    }
}
