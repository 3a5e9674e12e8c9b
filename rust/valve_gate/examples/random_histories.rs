//! The gate and the second receiver's model of it on long histories drawn at random: `random_histories COUNT SEED`. Stops
//! where they differ, or where a decision is not what 02 says of any run; prints what was reached, how often.

#[path = "../tests/common/mod.rs"]
mod common;

use common::histories::compare;
use std::process::ExitCode;

fn main() -> ExitCode {
    let words = std::env::args().skip(1);
    let numbers: Vec<u64> = words.map_while(|word| word.parse().ok()).collect();
    let [count, seed] = numbers[..] else {
        eprintln!("random_histories COUNT SEED");
        return ExitCode::from(2);
    };
    match compare(count, seed) {
        Ok(tally) => {
            for (what, times) in &tally.reached {
                println!("{times:>9}  {what}");
            }
            for what in tally.missing() {
                println!("    never  {what}");
            }
            let decisions = tally.decisions;
            println!("{count} histories, {decisions} decisions, seed {seed}: no difference");
            ExitCode::SUCCESS
        }
        Err(error) => {
            println!("DIFFERENCE: {error}");
            ExitCode::FAILURE
        }
    }
}
