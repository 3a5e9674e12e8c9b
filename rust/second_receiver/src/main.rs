//! The replay program of the second receiver: records on standard input, lines on standard output.
//! With `--reads FILE` it also writes to FILE what every read gives after the last record, with
//! `--candidates FILE` the candidates that are held then, with `--four FILE` the least limit with
//! which four satellites have a recent authentic set, with `--progress FILE` how far along the message
//! of each DSM ID is.

#![forbid(unsafe_code)]

use second_receiver::replay::{replay, write_candidates, write_four, write_progress, write_reads};
use std::fs::File;
use std::io::{self, BufReader, BufWriter};
use std::process::ExitCode;

#[derive(Default)]
struct Options {
    reads: Option<String>,
    candidates: Option<String>,
    four: Option<String>,
    progress: Option<String>,
}

fn options() -> Option<Options> {
    let mut options = Options::default();
    let mut arguments = std::env::args().skip(1);
    while let Some(argument) = arguments.next() {
        let file = match argument.as_str() {
            "--reads" => &mut options.reads,
            "--candidates" => &mut options.candidates,
            "--four" => &mut options.four,
            "--progress" => &mut options.progress,
            _ => return None,
        };
        *file = Some(arguments.next()?);
    }
    Some(options)
}

fn run(options: &Options) -> io::Result<()> {
    let receiver = replay(
        BufReader::new(io::stdin().lock()),
        BufWriter::new(io::stdout().lock()),
    )?;
    if let Some(path) = &options.reads {
        write_reads(&receiver, BufWriter::new(File::create(path)?))?;
    }
    if let Some(path) = &options.candidates {
        write_candidates(&receiver, BufWriter::new(File::create(path)?))?;
    }
    if let Some(path) = &options.four {
        write_four(&receiver, BufWriter::new(File::create(path)?))?;
    }
    if let Some(path) = &options.progress {
        write_progress(&receiver, BufWriter::new(File::create(path)?))?;
    }
    Ok(())
}

fn main() -> ExitCode {
    let Some(options) = options() else {
        eprintln!(
            "usage: second_receiver [--reads FILE] [--candidates FILE] [--four FILE] [--progress FILE] < INPUT"
        );
        return ExitCode::from(2);
    };
    match run(&options) {
        Ok(()) => ExitCode::SUCCESS,
        Err(error) => {
            eprintln!("second_receiver: {error}");
            ExitCode::FAILURE
        }
    }
}
