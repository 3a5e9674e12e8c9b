//! Half hours of the bench signal, some of twelve minutes and with CMAC-AES, some under trees, with random damage,
//! into the core and the second receiver: `half_hours COUNT SEED`. Records are left out, repeated, exchanged, or
//! changed in a bit or in their satellite. Stops at the first difference; prints how often each answer came
//! for each call.

#[path = "../tests/common/mod.rs"]
mod common;

use common::driver::{replay, Tally};
use common::twin::Twin;
use signal::replay::RECORD;
use signal::rng::Rng;
use signal::scenario::find;
use std::process::ExitCode;
use std::time::Instant;

/// Bytes of a record that are read, by its kind.
const READ: [u64; 7] = [1, 132, 22, 81, 180, 1, 83];

/// The records with about one in `rate` damaged.
fn damaged(records: &[u8], rng: &mut Rng, rate: u64) -> Vec<u8> {
    let mut records: Vec<[u8; RECORD]> = records
        .chunks_exact(RECORD)
        .map(|record| record.try_into().expect("a record"))
        .collect();
    let mut at = 1;
    while at < records.len() {
        // Without its start, message or verdict a half hour has no tags: they are spared but for one time in twenty.
        let needed = matches!(records[at][0], 1 | 4) || at < 300;
        if rng.once_in(rate) && (!needed || rng.once_in(20)) {
            let kind = usize::from(records[at][0]);
            match rng.below(16) {
                0 => drop(records.remove(at)),
                1 => records.insert(at, records[at]),
                2 if at + 1 < records.len() => records.swap(at, at + 1),
                3 => records[at][1] = rng.range(1, 37) as u8,
                _ => {
                    let place = rng.below(READ[kind % 7]) as usize;
                    records[at][place] ^= 1 << rng.below(8);
                }
            }
        }
        at += 1;
    }
    records.concat()
}

fn main() -> ExitCode {
    let numbers: Vec<u64> = std::env::args()
        .skip(1)
        .map_while(|word| word.parse().ok())
        .collect();
    let [count, seed] = numbers[..] else {
        eprintln!("half_hours COUNT SEED");
        return ExitCode::from(2);
    };
    let (began, mut tally) = (Instant::now(), Tally::default());
    for at in 0..count {
        let mut rng = Rng::new(seed ^ at << 32);
        let name = match at % 8 {
            0 => "full_sky",
            1 => "cmac_128",
            2 => "cmac_192",
            3 => "cmac_256",
            4 => ["trees", "trees_1", "trees_3"][(at / 8 % 3) as usize],
            5 => ["sha3_224", "sha3_256", "sha3_cmac"][(at / 8 % 3) as usize],
            _ => "fitter",
        };
        let run = find(name).expect("a scenario").run(rng.number());
        let rate = *rng.pick(&[10, 50, 200, 1000]);
        let input = damaged(&run.bytes, &mut rng, rate);
        let each = |_: &Twin, _: usize, _: &mut Rng| Ok(());
        if let Err(error) = replay(&input, &mut rng, &mut tally, each) {
            println!("DIFFERENCE: half hour {at} ({name}), seed {seed}: {error}");
            return ExitCode::FAILURE;
        }
    }
    print!("{tally}");
    println!(
        "{count} half hours, seed {seed}, {} s",
        began.elapsed().as_secs()
    );
    println!("no difference");
    ExitCode::SUCCESS
}
