//! Whether four satellites have a recent set, on clocks and arrivals drawn at random: `four_states COUNT SEED`. Stops
//! where the core and the second receiver's rule differ; prints how many tags were recent, how often.

#[path = "../tests/common/mod.rs"]
mod common;

use common::stamps::compare;
use std::process::ExitCode;

fn main() -> ExitCode {
    let words = std::env::args().skip(1);
    let numbers: Vec<u64> = words.map_while(|word| word.parse().ok()).collect();
    let [count, seed] = numbers[..] else {
        eprintln!("four_states COUNT SEED");
        return ExitCode::from(2);
    };
    match compare(count, seed) {
        Ok(seen) => {
            for (seen, times) in seen {
                match seen {
                    None => println!("{times:>9}  no sub-frame noted"),
                    Some((recent, false)) => println!("{times:>9}  {recent} recent"),
                    Some((recent, true)) => {
                        println!("{times:>9}  {recent} recent, one just too old")
                    }
                }
            }
            println!("{count} states, seed {seed}: no difference");
            ExitCode::SUCCESS
        }
        Err(error) => {
            println!("DIFFERENCE: {error}");
            ExitCode::FAILURE
        }
    }
}
