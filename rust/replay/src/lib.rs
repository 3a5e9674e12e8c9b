//! The proved replay program (`crates/replay`), run as a program of its own: records in, lines out.

#![forbid(unsafe_code)]

use std::io::{self, Read, Write};
use std::path::{Path, PathBuf};
use std::process::{Child, Command, Stdio};
use std::thread;

/// Where `tools/build replay` and `.ci/run` leave the program that they proved.
///
/// # Errors
///
/// Says how to make it where it is not there.
pub fn program() -> Result<PathBuf, String> {
    let path = Path::new(env!("CARGO_MANIFEST_DIR")).join("../../target/bin/replay");
    if path.is_file() {
        Ok(path)
    } else {
        Err(format!(
            "The proved replay program is not built: {} is missing. Run `tools/build replay` at the top of the repository first.",
            path.display()
        ))
    }
}

/// What the program prints for an input.
///
/// # Errors
///
/// Where the program is missing, cannot be run or does not end well.
pub fn replayed(input: &[u8]) -> Result<Vec<u8>, String> {
    replayed_in_pieces(input, input.len().max(1))
}

/// The same, with the input written so many bytes at a time.
///
/// # Errors
///
/// As [`replayed`].
pub fn replayed_in_pieces(input: &[u8], piece: usize) -> Result<Vec<u8>, String> {
    replayed_pieces(input.chunks(piece))
}

/// The same for an input that is these pieces, one after the other.
///
/// # Errors
///
/// As [`replayed`].
pub fn replayed_pieces<'a>(
    pieces: impl Iterator<Item = &'a [u8]> + Send,
) -> Result<Vec<u8>, String> {
    let path = program()?;
    let child = Command::new(&path)
        .stdin(Stdio::piped())
        .stdout(Stdio::piped())
        .spawn();
    let told = |error: io::Error| format!("{}: {error}", path.display());
    let mut child = child.map_err(told)?;
    let lines = through(&mut child, pieces).map_err(told)?;
    let status = child.wait().map_err(told)?;
    if status.success() {
        Ok(lines)
    } else {
        Err(format!("{}: {status}", path.display()))
    }
}

/// Writes the input while the output is read, so that neither side waits for the other.
fn through<'a>(
    child: &mut Child,
    pieces: impl Iterator<Item = &'a [u8]> + Send,
) -> io::Result<Vec<u8>> {
    let missing = || io::Error::other("no pipe");
    let mut to = child.stdin.take().ok_or_else(missing)?;
    let mut from = child.stdout.take().ok_or_else(missing)?;
    thread::scope(|scope| {
        let writer = scope.spawn(move || -> io::Result<()> {
            for piece in pieces {
                to.write_all(piece)?;
                to.flush()?;
            }
            Ok(())
        });
        let mut lines = Vec::new();
        from.read_to_end(&mut lines)?;
        match writer.join() {
            Ok(written) => written.map(|()| lines),
            Err(_) => Err(io::Error::other("the writer stopped")),
        }
    })
}
