//! `signal list` names the scenarios; `signal NAME [SEED]` writes a replay input to standard output; `signal air NAME
//! [SEED]` writes the same cut into pages in the order of the air; `signal check NAME [SEED] [READS]` reads a replay
//! program's answers from standard input and compares them with what the run intends.

#![forbid(unsafe_code)]

use signal::air;
use signal::replay::Run;
use signal::scenario;
use std::io::{Read, Write};
use std::process::ExitCode;

fn main() -> ExitCode {
    let args: Vec<String> = std::env::args().skip(1).collect();
    let words: Vec<&str> = args.iter().map(String::as_str).collect();
    match command(&words) {
        Ok(()) => ExitCode::SUCCESS,
        Err(text) => {
            eprintln!("{text}");
            ExitCode::FAILURE
        }
    }
}

fn command(words: &[&str]) -> Result<(), String> {
    match words {
        ["list"] => {
            for s in scenario::all() {
                println!("{:<20} {}", s.name, s.about);
            }
            println!(
                "{:<20} a mix of valid, damaged and random records, by seed",
                "random"
            );
            Ok(())
        }
        ["check", name, rest @ ..] if rest.len() <= 2 => {
            let run = build(name, rest.first().copied())?;
            let mut answers = String::new();
            std::io::stdin()
                .read_to_string(&mut answers)
                .map_err(|e| e.to_string())?;
            let reads = rest
                .get(1)
                .map(std::fs::read_to_string)
                .transpose()
                .map_err(|e| e.to_string())?;
            run.check(&answers, reads.as_deref())
        }
        ["air", name, rest @ ..] if rest.len() <= 1 => {
            let run = build(name, rest.first().copied())?;
            write(&air::cut(&run.bytes))
        }
        [name, rest @ ..] if rest.len() <= 1 => write(&build(name, rest.first().copied())?.bytes),
        _ => Err(
            "signal list | signal NAME [SEED] | signal air NAME [SEED] | signal check NAME [SEED] [READS]"
                .into(),
        ),
    }
}

fn write(bytes: &[u8]) -> Result<(), String> {
    std::io::stdout()
        .write_all(bytes)
        .map_err(|e| e.to_string())
}

fn build(name: &str, seed: Option<&str>) -> Result<Run, String> {
    let seed = seed
        .map_or(Ok(scenario::SEED), str::parse)
        .map_err(|_| "a seed is a number")?;
    if name == "random" {
        return Ok(scenario::random(seed));
    }
    let found = scenario::find(name).ok_or(format!("no scenario {name}; try: signal list"))?;
    Ok(found.run(seed))
}
