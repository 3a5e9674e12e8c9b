//! The program: forms, outputs, and bad input.

mod common;

use common::{history, recording, rows};
use jobsheet::sheet::Sheet;
use jobsheet::{html, text};
use std::fs::{self, File};
use std::os::unix::fs::{lchown, symlink, FileTypeExt, MetadataExt, PermissionsExt};
use std::os::unix::process::CommandExt;
use std::path::{Path, PathBuf};
use std::process::{Command, Output, Stdio};

/// A folder of this test's own.
fn folder(test: &str) -> PathBuf {
    let folder = Path::new(env!("CARGO_TARGET_TMPDIR")).join(test);
    let _ = fs::remove_dir_all(&folder);
    fs::create_dir_all(&folder).unwrap();
    folder
}

fn jobsheet(folder: &Path, args: &[&str]) -> Output {
    let mut command = Command::new(env!("CARGO_BIN_EXE_jobsheet"));
    command.current_dir(folder).args(args).output().unwrap()
}

fn names(folder: &Path) -> Vec<String> {
    let entries = fs::read_dir(folder).unwrap();
    let mut names: Vec<String> = entries
        .map(|entry| entry.unwrap().file_name().into_string().unwrap())
        .collect();
    names.sort();
    names
}

#[test]
fn forms_and_outputs() {
    let folder = folder("forms");
    let bytes = recording("nominal");
    fs::write(folder.join("run.rec"), &bytes).unwrap();
    let all = history(&bytes);
    let sheet = Sheet::of("run.rec", &all, None);

    let output = jobsheet(&folder, &["run.rec"]);
    assert!(output.status.success() && output.stdout.is_empty());
    let page = fs::read_to_string(folder.join("run.html")).unwrap();
    assert_eq!(page, html::page(&sheet));
    for args in [&["run.rec", "-o", "-"][..], &["-o", "-", "run.rec"]] {
        assert_eq!(jobsheet(&folder, args).stdout, page.as_bytes());
    }
    let output = jobsheet(&folder, &["run.rec", "--text"]);
    assert_eq!(output.stdout, text::sheet(&sheet).as_bytes());
    let output = jobsheet(&folder, &["--csv", "run.rec", "-o", "tags.csv"]);
    assert!(output.status.success());
    let written = fs::read_to_string(folder.join("tags.csv")).unwrap();
    assert_eq!(written, rows(&bytes));
    let output = jobsheet(&folder, &["run.rec", "--text", "--zone", "-3"]);
    let local = Sheet::of("run.rec", &all, "-3".parse().ok());
    assert_eq!(output.stdout, text::sheet(&local).as_bytes());
    assert_eq!(names(&folder), ["run.html", "run.rec", "tags.csv"]);
    let help = jobsheet(&folder, &["--help"]);
    assert!(help.status.success());
    let help = String::from_utf8(help.stdout).unwrap();
    for part in [
        "--zone",
        "Exit status: 0",
        "3 it is written",
        "Memory: at most",
    ] {
        assert!(help.contains(part), "{part}");
    }
}

// Exit status 2, a message that names the file, and nothing written; what was there stays.
#[test]
fn bad_input() {
    let folder = folder("bad");
    let good = recording("nominal");
    let mut no_start = recording("nominal");
    no_start[1] = 37;
    // Bytes of any kind, none of them at the place of a kind that recordings have.
    let rubbish = Vec::from_iter((0..100_000u32).map(|n| match n % 256 {
        0 => 0xFF,
        _ => (n.wrapping_mul(2_654_435_761) >> 24) as u8,
    }));
    let cases: [(&str, &[u8], &str); 8] = [
        ("empty", b"", "is empty"),
        (
            "one_byte",
            &good[..1],
            "1 byte of 256, and no record is whole",
        ),
        ("rubbish", &rubbish, "is no recording"),
        ("cut_text", &[b'<'; 700], "is no recording"),
        (
            "tiny",
            &good[..5],
            "ends in the middle of record 1: 5 bytes of 256",
        ),
        ("text", b"Dear fitter, ...", "is no recording"),
        ("page", &[b'<'; 512], "is no recording"),
        ("no_start", &no_start, "has no accepted start"),
    ];
    for (name, bytes, said) in cases {
        fs::write(folder.join(name), bytes).unwrap();
        fs::write(folder.join("sheet.html"), "from before").unwrap();
        let before = names(&folder);
        for form in [&[][..], &["--text"], &["--csv"]] {
            let output = jobsheet(&folder, &[&[name, "-o", "sheet.html"], form].concat());
            let message = String::from_utf8(output.stderr).unwrap();
            assert_eq!(output.status.code(), Some(2), "{name}: {message}");
            assert!(
                message.contains(name) && message.contains(said),
                "{message}"
            );
            assert!(output.stdout.is_empty(), "{name}");
        }
        assert_eq!(names(&folder), before, "{name}");
        let kept = fs::read_to_string(folder.join("sheet.html")).unwrap();
        assert_eq!(kept, "from before", "{name}");
    }
}

#[test]
fn files_that_cannot_be_read_or_written() {
    let folder = folder("files");
    fs::create_dir(folder.join("folder")).unwrap();
    for name in ["nothing.rec", "folder"] {
        let output = jobsheet(&folder, &[name]);
        let message = String::from_utf8(output.stderr).unwrap();
        assert_eq!(output.status.code(), Some(2), "{message}");
        assert!(
            message.contains(&format!("{name} cannot be read")),
            "{message}"
        );
    }
    fs::write(folder.join("run.rec"), recording("nominal")).unwrap();
    let output = jobsheet(&folder, &["run.rec", "-o", "nowhere/sheet.html"]);
    assert_eq!(output.status.code(), Some(1));
    // A folder stands where the sheet should: the temporary file goes again.
    let output = jobsheet(&folder, &["run.rec", "-o", "folder"]);
    assert_eq!(output.status.code(), Some(1));
    let output = jobsheet(&folder, &["run.rec", "-o", "run.rec"]);
    assert_eq!(output.status.code(), Some(2));
    assert_eq!(names(&folder), ["folder", "run.rec"]);
}

// Exit status 3: the whole records of a recording that is cut short have a sheet, and it says so.
#[test]
fn cut_short() {
    let folder = folder("cut");
    let good = recording("nominal");
    let cut = &good[..good.len() - 1];
    fs::write(folder.join("cut.rec"), cut).unwrap();
    let sheet = Sheet::of("cut.rec", &history(cut), None);
    let output = jobsheet(&folder, &["cut.rec"]);
    let message = String::from_utf8(output.stderr).unwrap();
    let place = good.len() / 256;
    assert_eq!(output.status.code(), Some(3), "{message}");
    assert!(
        message.contains(&format!("cut.rec is CUT SHORT in record {place}")),
        "{message}"
    );
    let page = fs::read_to_string(folder.join("cut.html")).unwrap();
    assert_eq!(page, html::page(&sheet));
    let output = jobsheet(&folder, &["cut.rec", "--csv"]);
    assert_eq!(
        (output.status.code(), output.stdout),
        (Some(3), rows(cut).into_bytes())
    );
    let output = jobsheet(&folder, &["cut.rec", "--text"]);
    assert_eq!(output.status.code(), Some(3));
    assert!(output.stdout.starts_with(b"CUT SHORT in record "));
}

/// A folder of this test's own that every user reaches.
fn shared_folder(test: &str) -> PathBuf {
    let name = format!("jobsheet-{test}-{}", std::process::id());
    let folder = std::env::temp_dir().join(name);
    let _ = fs::remove_dir_all(&folder);
    fs::create_dir_all(&folder).unwrap();
    folder
}

/// An ordinary user: this one, or where this is root, nobody.
fn ordinary_user() -> u32 {
    match fs::metadata("/proc/self").unwrap().uid() {
        0 => 65_534,
        own => own,
    }
}

/// Makes a file, a link or a folder with all in it an ordinary user's.
fn give(path: &Path) {
    lchown(path, Some(ordinary_user()), Some(ordinary_user())).unwrap();
    if fs::symlink_metadata(path).unwrap().is_dir() {
        names(path).iter().for_each(|name| give(&path.join(name)));
    }
}

/// The same program as an ordinary user. Where this is root, the program is copied into the folder,
/// and all of it is made that user's.
fn as_ordinary_user(folder: &Path, args: &[&str]) -> Command {
    let mut program = PathBuf::from(env!("CARGO_BIN_EXE_jobsheet"));
    let root = fs::metadata("/proc/self").unwrap().uid() == 0;
    if root {
        let copied = folder.join("jobsheet");
        if !copied.exists() {
            // Not by this process: a program that another thread's child has open cannot be run.
            let mut copy = Command::new("cp");
            copy.arg(&program).arg(&copied);
            assert!(copy.status().unwrap().success());
        }
        give(folder);
        program = copied;
    }
    let mut command = Command::new(program);
    command.current_dir(folder).args(args);
    if root {
        command.uid(ordinary_user()).gid(ordinary_user());
    }
    command
}

// Links are followed, by an ordinary user, and a file keeps its mode.
#[test]
fn links_and_modes() {
    let folder = shared_folder("links");
    fs::write(folder.join("run.rec"), recording("nominal")).unwrap();
    let page = jobsheet(&folder, &["run.rec", "-o", "-"]).stdout;
    fs::create_dir(folder.join("sheets")).unwrap();
    let old = folder.join("sheets/old.html");
    fs::write(&old, "from before").unwrap();
    fs::set_permissions(&old, fs::Permissions::from_mode(0o640)).unwrap();
    symlink("sheets/old.html", folder.join("link.html")).unwrap();
    symlink("link.html", folder.join("second.html")).unwrap();
    symlink("sheets/new.html", folder.join("nowhere.html")).unwrap();
    for (link, target) in [
        ("link.html", "old"),
        ("second.html", "old"),
        ("nowhere.html", "new"),
    ] {
        let output = as_ordinary_user(&folder, &["run.rec", "-o", link])
            .output()
            .unwrap();
        assert!(output.status.success(), "{output:?}");
        assert!(
            fs::symlink_metadata(folder.join(link))
                .unwrap()
                .is_symlink(),
            "{link}"
        );
        let target = folder.join(format!("sheets/{target}.html"));
        assert_eq!(fs::read(&target).unwrap(), page, "{link}");
        assert_eq!(fs::metadata(&target).unwrap().uid(), ordinary_user());
        fs::write(&target, "from before").unwrap();
    }
    let mode = fs::metadata(&old).unwrap().permissions().mode();
    assert_eq!(mode & 0o7777, 0o640);
    assert_eq!(names(&folder.join("sheets")), ["new.html", "old.html"]);
    // A link to the recording would replace it.
    symlink("run.rec", folder.join("self.html")).unwrap();
    let output = jobsheet(&folder, &["run.rec", "-o", "self.html"]);
    assert_eq!(output.status.code(), Some(2), "{output:?}");
    let kept = fs::read(folder.join("run.rec")).unwrap();
    assert!(kept == recording("nominal"));
    symlink("round.html", folder.join("round.html")).unwrap();
    let output = jobsheet(&folder, &["run.rec", "-o", "round.html"]);
    assert_eq!(output.status.code(), Some(1), "{output:?}");
    fs::remove_dir_all(&folder).unwrap();
}

// A device and a pipe are written into, by an ordinary user too, and stay what they are.
#[test]
fn devices_and_pipes() {
    let folder = shared_folder("devices");
    fs::write(folder.join("run.rec"), recording("nominal")).unwrap();
    let page = jobsheet(&folder, &["run.rec", "-o", "-"]).stdout;
    let made = Command::new("mkfifo")
        .arg(folder.join("pipe"))
        .status()
        .unwrap();
    assert!(made.success());
    symlink("pipe", folder.join("to_pipe")).unwrap();

    let output = as_ordinary_user(&folder, &["run.rec", "-o", "/dev/null"])
        .output()
        .unwrap();
    assert!(output.status.success(), "{output:?}");
    assert!(fs::metadata("/dev/null")
        .unwrap()
        .file_type()
        .is_char_device());

    for name in ["pipe", "to_pipe"] {
        for (form, right) in [
            (&[][..], &page),
            (&["--csv"], &rows(&recording("nominal")).into_bytes()),
        ] {
            let args = [&["run.rec", "-o", name], form].concat();
            let mut child = as_ordinary_user(&folder, &args)
                .stderr(Stdio::piped())
                .spawn()
                .unwrap();
            // A program that fails before it opens the pipe must not hold the test up.
            let mut reader = Command::new("timeout");
            reader.args(["60", "cat"]).arg(folder.join("pipe"));
            let read = reader.output().unwrap().stdout;
            assert!(child.wait().unwrap().success());
            assert_eq!(read.len(), right.len(), "{name}");
            assert!(&read == right, "{name}");
        }
        assert!(fs::metadata(folder.join(name))
            .unwrap()
            .file_type()
            .is_fifo());
    }
    fs::remove_dir_all(&folder).unwrap();
}

// A reader that goes away is no panic: status 1 and a message.
#[test]
fn closed_pipe() {
    let folder = folder("closed");
    fs::write(folder.join("run.rec"), recording("nominal")).unwrap();
    for args in [
        &["run.rec", "--text"][..],
        &["run.rec", "--csv"],
        &["run.rec", "-o", "-"],
        &["--help"],
    ] {
        let (reader, writer) = std::io::pipe().unwrap();
        drop(reader);
        let mut command = Command::new(env!("CARGO_BIN_EXE_jobsheet"));
        command.current_dir(&folder).args(args).stdout(writer);
        let output = command.output().unwrap();
        let message = String::from_utf8(output.stderr).unwrap();
        assert_eq!(output.status.code(), Some(1), "{args:?}: {message}");
        assert!(
            message.contains("standard output") && !message.contains("panicked"),
            "{message}"
        );
        // Nor is a closed standard error.
        let (reader, writer) = std::io::pipe().unwrap();
        drop(reader);
        let mut command = Command::new(env!("CARGO_BIN_EXE_jobsheet"));
        command
            .current_dir(&folder)
            .args(["nothing.rec"])
            .stderr(writer);
        assert_eq!(command.status().unwrap().code(), Some(2));
    }
}

// Memory does not grow with the recording: in an address space of 32 MB, 100 MB of records of no kind,
// and 5,000 half minutes of 36 satellites that send zeros, of which a page of all would be larger.
#[test]
fn bounded_memory() {
    let folder = folder("memory");
    let start = &recording("nominal")[..256];
    fs::write(folder.join("zeros.rec"), start).unwrap();
    let zeros = File::options().append(true).open(folder.join("zeros.rec"));
    zeros.unwrap().set_len(400_001 * 256).unwrap();
    let subframe = |n: u32| {
        let time = ((947 << 20) | (n / 36 * 30)).to_be_bytes();
        let mut record = [0; 256];
        record[..2].copy_from_slice(&[3, (n % 36) as u8 + 1]);
        record[2..6].copy_from_slice(&time);
        record
    };
    let subframes = (0..5_000 * 36).flat_map(subframe);
    let all: Vec<u8> = start.iter().copied().chain(subframes).collect();
    fs::write(folder.join("many.rec"), all).unwrap();
    for name in ["zeros", "many"] {
        let mut command = Command::new("sh");
        command.args(["-c", "ulimit -v 32768 && exec \"$0\" \"$1\""]);
        command.arg(env!("CARGO_BIN_EXE_jobsheet"));
        let output = command
            .current_dir(&folder)
            .arg(format!("{name}.rec"))
            .output()
            .unwrap();
        assert!(output.status.success(), "{name}: {output:?}");
        let page = fs::read_to_string(folder.join(format!("{name}.html"))).unwrap();
        assert!(page.ends_with("</html>\n"), "{name}");
    }
    fs::remove_dir_all(&folder).unwrap();
}

#[test]
fn usage() {
    let folder = folder("usage");
    let wrong: [&[&str]; 9] = [
        &["a", "--zone"],
        &["a", "--zone", "CET"],
        &["a", "--zone", "+1", "--zone", "+2"],
        &[],
        &["a", "b"],
        &["a", "-o"],
        &["a", "--pdf"],
        &["a", "--text", "--csv"],
        &["a", "-o", "x", "-o", "y"],
    ];
    for args in wrong {
        let output = jobsheet(&folder, args);
        assert_eq!(output.status.code(), Some(2), "{args:?}");
        assert!(!output.stderr.is_empty(), "{args:?}");
    }
    assert!(names(&folder).is_empty());
}
