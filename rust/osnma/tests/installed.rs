//! `make install-lib`, and an example for each library that is compiled with what pkg-config says of it.

mod compiled;

use compiled::{skipped, top, Program, C99};
use std::fs;
use std::path::Path;
use std::process::Command;

/// What a command prints, or nothing where it is not there or fails.
fn told(command: &mut Command) -> Option<String> {
    let output = command.output().ok()?;
    let text = String::from_utf8(output.stdout).ok()?;
    output.status.success().then_some(text)
}

/// Whether make and pkg-config are there.
fn tools() -> bool {
    ["make", "pkg-config"].into_iter().all(|tool| {
        let there = told(Command::new(tool).arg("--version")).is_some();
        if !there {
            skipped(&format!("{tool} is not there to install with"));
        }
        there
    })
}

const LIBRARIES: [&str; 2] = ["osnma", "valve_gate"];
const HEADERS: [&str; 3] = ["osnma.h", "osnma_collector.h", "valve_gate.h"];

fn archive(library: &str) -> String {
    format!("target/staticlib/lib{library}.a")
}

/// Installs below a folder. The archives are what the tests link; they are not made again here.
fn install(folder: &Path) {
    let _ = fs::remove_dir_all(folder);
    let mut make = Command::new("make");
    make.current_dir(top())
        .args(["install-lib", "PREFIX=/opt/osnma"])
        .args(LIBRARIES.map(|library| format!("--old-file={}", archive(library))))
        .arg(format!("DESTDIR={}", folder.display()));
    assert!(told(&mut make).is_some(), "make install-lib fails");
    let same = |from: &str, to: &str| {
        let (from, to) = (top().join(from), folder.join("opt/osnma").join(to));
        let (from, to) = (fs::read(from), fs::read(to));
        assert_eq!(from.expect("a file"), to.expect("a file"));
    };
    for library in LIBRARIES {
        same(&archive(library), &format!("lib/lib{library}.a"));
    }
    for header in HEADERS {
        same(&format!("include/{header}"), &format!("include/{header}"));
    }
}

/// What pkg-config says of an installed library.
fn pkg_config(folder: &Path, library: &str, words: &[&str]) -> String {
    let mut command = Command::new("pkg-config");
    command
        .env("PKG_CONFIG_PATH", folder.join("opt/osnma/lib/pkgconfig"))
        .env("PKG_CONFIG_SYSROOT_DIR", folder)
        .args(words)
        .arg(library);
    told(&mut command).unwrap_or_else(|| panic!("pkg-config knows no {library}"))
}

#[test]
fn from_where_it_is_installed() {
    if !tools() {
        return;
    }
    let folder = Path::new(env!("CARGO_TARGET_TMPDIR")).join("installed");
    install(&folder);
    // The gate's brings the core's.
    for (library, source, linked) in [
        ("osnma", "examples/receiver.c", &["-losnma"][..]),
        (
            "valve_gate",
            "examples/boom.c",
            &["-lvalve_gate", "-losnma"],
        ),
    ] {
        let version = pkg_config(&folder, library, &["--modversion"]);
        assert_eq!(version.trim(), osnma::VERSION);
        let flags = pkg_config(&folder, library, &["--cflags", "--libs"]);
        let flags: Vec<&str> = flags.split_whitespace().collect();
        let inside = |flag: &&&str| flag.contains(&*folder.to_string_lossy());
        assert_eq!(flags.iter().filter(inside).count(), 2, "{flags:?}");
        let libraries = flags.iter().filter(|flag| flag.starts_with("-l"));
        assert!(libraries.eq(linked), "{flags:?}");
        let program = Program {
            compiler: "cc",
            language: C99,
            source,
            include: None,
            archives: &[],
            libraries: &flags,
        };
        let built = program.built(&format!("{library}_installed"));
        built.unwrap_or_else(|error| panic!("{library}: {error}"));
    }
}
