//! The proved replay program beside the second receiver's: a whole run of each, from a file.
//!
//! - `replay time SLICES`: the first 10,000 records of half an hour of 36 satellites
//!
//! What both print is compared before anything is measured.

use crate::time::{rows, timed, Work, HEADING};
use signal::scenario::{find, SEED};
use std::fs::{self, File};
use std::io;
use std::path::{Path, PathBuf};
use std::process::{Command, Stdio};

pub const USAGE: &str = "replay time SLICES";

const RECORDS: usize = 10_000;

/// The proved program and, beside this one, the second receiver's.
fn programs() -> Result<[PathBuf; 2], String> {
    let here = std::env::current_exe().map_err(|error| error.to_string())?;
    let second = here.with_file_name("second_receiver");
    if !second.is_file() {
        return Err(format!("{} is missing", second.display()));
    }
    Ok([::replay::program()?, second])
}

/// A file of its own that goes when it is dropped.
struct Input(PathBuf);

impl Input {
    fn new() -> io::Result<Input> {
        let run = find("full_sky").map(|scenario| scenario.run(SEED).bytes);
        let name = format!("osnma_replay_{}", std::process::id());
        let path = std::env::temp_dir().join(name);
        let records = run.unwrap_or_default();
        let input = records.get(..RECORDS * signal::replay::RECORD);
        fs::write(&path, input.ok_or_else(|| io::Error::other("a short run"))?)?;
        Ok(Input(path))
    }
}

impl Drop for Input {
    fn drop(&mut self) {
        let _ = fs::remove_file(&self.0);
    }
}

fn reads(program: &Path, input: &Path) -> io::Result<Command> {
    let mut command = Command::new(program);
    command.stdin(File::open(input)?);
    Ok(command)
}

fn lines(program: &Path, input: &Path) -> Result<Vec<u8>, String> {
    let output = reads(program, input).and_then(|mut command| command.output());
    let output = output.map_err(|error| format!("{}: {error}", program.display()))?;
    if output.status.success() {
        Ok(output.stdout)
    } else {
        Err(format!("{}: {}", program.display(), output.status))
    }
}

fn run<'a>(program: &'a Path, input: &'a Path) -> Work<'a> {
    Box::new(move || {
        timed(|| {
            let mut command = reads(program, input).expect("the input");
            let status = command.stdout(Stdio::null()).status();
            assert!(status.is_ok_and(|status| status.success()), "a run failed");
        })
    })
}

fn times(slices: usize) -> Result<(), String> {
    let [proved, second] = programs()?;
    let input = Input::new().map_err(|error| error.to_string())?;
    if lines(&proved, &input.0)? != lines(&second, &input.0)? {
        return Err("the second receiver's program prints other lines".into());
    }
    println!("{HEADING}");
    let works = vec![run(&proved, &input.0), run(&second, &input.0)];
    rows(
        "replay of 10,000 records",
        &["proved", "second"],
        slices,
        works,
    );
    Ok(())
}

pub fn command(words: &[&str]) -> Option<Result<(), String>> {
    match words {
        ["time", slices] => Some(times(slices.parse().ok()?)),
        _ => None,
    }
}
