//! C programs: compiled without a warning, linked with proved libraries and run.

#![allow(dead_code)]

use std::io::{self, Write};
use std::path::{Path, PathBuf};
use std::process::{Command, Stdio};
use std::thread;

/// The top of the repository.
pub fn top() -> PathBuf {
    Path::new(env!("CARGO_MANIFEST_DIR")).join("../..")
}

/// As the header says that it compiles.
pub const C99: &[&str] = &["-std=c99"];
pub const CPP17: &[&str] = &["-std=c++17", "-x", "c++"];
pub const WARNINGS: [&str; 5] = ["-Wall", "-Wextra", "-pedantic", "-Wconversion", "-Werror"];

/// Says what is not tried here and why; a test's own output is shown only where it fails.
pub fn skipped(why: &str) {
    let _ = writeln!(io::stderr(), "skipped: {why}");
}

/// The compilers of C++ that are there.
pub fn cpp_compilers() -> Vec<&'static str> {
    let (there, missing): (Vec<_>, Vec<_>) = ["g++", "clang++"]
        .into_iter()
        .partition(|compiler| is_there(compiler));
    if !missing.is_empty() {
        skipped(&format!("no {}", missing.join(", no ")));
    }
    there
}

fn is_there(compiler: &str) -> bool {
    Command::new(compiler).arg("--version").output().is_ok()
}

/// A program to be made of a source of the repository.
pub struct Program<'a> {
    pub compiler: &'a str,
    pub language: &'a [&'a str],
    pub source: &'a str,
    /// The folder of the headers; None where `libraries` names it.
    pub include: Option<&'a Path>,
    /// The proved libraries of the repository that are linked, by name.
    pub archives: &'a [&'a str],
    /// What is linked behind them.
    pub libraries: &'a [&'a str],
}

impl Program<'_> {
    /// Compiles and links it, or gives what the compiler says.
    pub fn built(&self, name: &str) -> Result<PathBuf, String> {
        let program = Path::new(env!("CARGO_TARGET_TMPDIR")).join(name);
        let mut compiler = Command::new(self.compiler);
        compiler.arg("-O1").args(self.language).args(WARNINGS);
        compiler.arg(top().join(self.source)).args(["-x", "none"]);
        if let Some(include) = self.include {
            compiler.arg("-I").arg(include);
        }
        for name in self.archives {
            compiler.arg(top().join(format!("target/staticlib/lib{name}.a")));
        }
        let output = compiler
            .args(self.libraries)
            .arg("-o")
            .arg(&program)
            .output()
            .map_err(|error| format!("{}: {error}", self.compiler))?;
        match output.status.success() {
            true => Ok(program),
            false => Err(String::from_utf8_lossy(&output.stderr).into_owned()),
        }
    }
}

/// Compiles a source of the repository, linked with the core's library alone.
pub fn build(compiler: &str, language: &[&str], source: &str, name: &str) -> PathBuf {
    build_with(&["osnma"], compiler, language, source, name)
}

/// Compiles a source of the repository, linked with proved libraries alone.
pub fn build_with(
    archives: &[&str],
    compiler: &str,
    language: &[&str],
    source: &str,
    name: &str,
) -> PathBuf {
    let program = Program {
        compiler,
        language,
        source,
        include: Some(&top().join("include")),
        archives,
        libraries: &[],
    };
    let built = program.built(name);
    built.unwrap_or_else(|error| panic!("{compiler}: {error}"))
}

/// What the program prints for an input.
pub fn run(program: &Path, words: &[&str], input: &[u8]) -> String {
    let name = program.display();
    let failed = |error: io::Error| panic!("{name}: {error}");
    let mut child = Command::new(program)
        .args(words)
        .stdin(Stdio::piped())
        .stdout(Stdio::piped())
        .stderr(Stdio::piped())
        .spawn()
        .unwrap_or_else(failed);
    let mut to = child.stdin.take().expect("a pipe");
    let output = thread::scope(|scope| {
        // Where the program does not read all, its status or what it prints tells why.
        scope.spawn(move || to.write_all(input));
        child.wait_with_output()
    });
    let output = output.unwrap_or_else(|error| panic!("{name}: {error}"));
    let errors = String::from_utf8_lossy(&output.stderr);
    assert!(output.status.success(), "{name}: {errors}");
    String::from_utf8(output.stdout).expect("text")
}
