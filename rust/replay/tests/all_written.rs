//! The program ends with status 0 also where its output cannot be written. docs/RECORDING.md has a command that tells.

use signal::scenario::{find, SEED};
use std::fs::{self, File};
use std::path::Path;
use std::process::{Command, Stdio};

/// The command of docs/RECORDING.md that counts the lines.
fn documented() -> String {
    let page = Path::new(env!("CARGO_MANIFEST_DIR")).join("../../docs/RECORDING.md");
    let page = fs::read_to_string(page).expect("a page");
    let mut commands = page.lines().filter_map(|line| line.strip_prefix("    "));
    let count = commands.find(|line| line.ends_with(" LINES") && !line.contains("> LINES"));
    count.expect("a command that reads LINES").to_string()
}

/// Whether the command takes these lines for those of the recording.
fn all_written(folder: &Path, lines: &[u8]) -> bool {
    fs::write(folder.join("LINES"), lines).expect("a file");
    let mut shell = Command::new("sh");
    shell.args(["-c", &documented()]).current_dir(folder);
    shell.status().expect("a shell").success()
}

#[test]
fn lines_are_counted() {
    let folder = Path::new(env!("CARGO_TARGET_TMPDIR"));
    let recording = find("fitter").expect("a scenario").run(SEED).bytes;
    // Up to a sub-frame with tags that are judged; and with a short last record.
    let records = recording.chunks_exact(256).enumerate();
    let last = records.skip(3000).find(|(_, record)| record[0] == 3);
    let end = 256 * (last.expect("a sub-frame").0 + 1);
    for input in [&recording[..end], &recording[..end + 100]] {
        fs::write(folder.join("RECORDING"), input).expect("a file");
        let lines = replay::replayed(input).expect("lines");
        assert!(all_written(folder, &lines));
        // The line break of the last line is all that may be missing.
        let cuts = (2..60).chain([lines.len() / 2, lines.len()]);
        for cut in cuts {
            assert!(!all_written(folder, &lines[..lines.len() - cut]), "{cut}");
        }
    }
}

#[test]
fn status_does_not_tell() {
    let (Ok(full), Ok(folder)) = (File::create("/dev/full"), File::open("/")) else {
        return;
    };
    let recording = find("nominal").expect("a scenario").run(SEED).bytes;
    let path = Path::new(env!("CARGO_TARGET_TMPDIR")).join("nominal");
    fs::write(&path, recording).expect("a file");
    let recording = File::open(path).expect("a file");
    for (input, output) in [(recording, Stdio::from(full)), (folder, Stdio::piped())] {
        let mut program = Command::new(replay::program().expect("the program"));
        let run = program.stdin(input).stdout(output).output();
        let run = run.expect("it ends");
        assert_eq!((run.status.code(), run.stdout), (Some(0), Vec::new()));
    }
}
