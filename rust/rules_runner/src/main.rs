//! The replay program over the definitions: records on standard input, lines on standard output.
//! With `--reads FILE` it also writes to FILE what every read gives after the last record, with `--candidates FILE` the
//! candidates that are held then, with `--four FILE` the least limit with which four satellites have a recent authentic
//! set, with `--progress FILE` how far along each message is; `--crates DIR` names the folder of crates whose definitions are run.

#![forbid(unsafe_code)]

use rules_runner::machine::with_large_stack;
use rules_runner::program::Hashes;
use rules_runner::replay::replay;
use rules_runner::rules::Rules;
use std::error::Error;
use std::fs;
use std::io::{self, Read, Write};
use std::path::PathBuf;
use std::process::ExitCode;

struct Options {
    crates: PathBuf,
    reads: Option<PathBuf>,
    candidates: Option<PathBuf>,
    four: Option<PathBuf>,
    progress: Option<PathBuf>,
}

fn options() -> Option<Options> {
    let mut options = Options {
        crates: concat!(env!("CARGO_MANIFEST_DIR"), "/../../crates").into(),
        reads: None,
        candidates: None,
        four: None,
        progress: None,
    };
    let mut arguments = std::env::args().skip(1);
    while let Some(argument) = arguments.next() {
        match argument.as_str() {
            "--crates" => options.crates = arguments.next()?.into(),
            "--reads" => options.reads = Some(arguments.next()?.into()),
            "--candidates" => options.candidates = Some(arguments.next()?.into()),
            "--four" => options.four = Some(arguments.next()?.into()),
            "--progress" => options.progress = Some(arguments.next()?.into()),
            _ => return None,
        }
    }
    Some(options)
}

fn run(options: &Options) -> Result<(), Box<dyn Error + Send + Sync>> {
    let rules = Rules::load(&options.crates, Hashes::Portable)?;
    let mut input = Vec::new();
    io::stdin().lock().read_to_end(&mut input)?;
    let replayed = replay(&rules, &input);
    io::stdout().lock().write_all(replayed.lines.as_bytes())?;
    if let Some(path) = &options.reads {
        fs::write(path, replayed.reads)?;
    }
    if let Some(path) = &options.candidates {
        fs::write(path, replayed.candidates)?;
    }
    if let Some(path) = &options.four {
        fs::write(path, replayed.four)?;
    }
    if let Some(path) = &options.progress {
        fs::write(path, replayed.progress)?;
    }
    Ok(())
}

fn main() -> ExitCode {
    let Some(options) = options() else {
        eprintln!("usage: rules_runner [--crates DIR] [--reads FILE] [--candidates FILE] [--four FILE] [--progress FILE] < INPUT");
        return ExitCode::from(2);
    };
    match with_large_stack(|| run(&options)) {
        Ok(()) => ExitCode::SUCCESS,
        Err(error) => {
            eprintln!("rules_runner: {error}");
            ExitCode::FAILURE
        }
    }
}
