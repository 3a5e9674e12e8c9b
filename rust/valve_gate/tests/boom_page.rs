//! docs/BOOM.md: its run of decisions is what the gate decides, and its loop in C compiles without a warning.

#[path = "../../osnma/tests/compiled/mod.rs"]
mod compiled;

use compiled::{cpp_compilers, top};
use std::fs;
use std::path::Path;
use std::process::Command;
use valve_gate::Gate;

fn page() -> String {
    fs::read_to_string(top().join("docs/BOOM.md")).expect("a page")
}

/// The cells of the rows that begin with the number of a decision.
fn rows(page: &str) -> Vec<Vec<String>> {
    let cells = |line: &str| -> Vec<String> {
        let line = line.trim_matches('|');
        line.split('|')
            .map(|cell| cell.trim().to_string())
            .collect()
    };
    let rows = page
        .lines()
        .filter(|line| line.starts_with("| "))
        .map(cells);
    rows.filter(|row| row[0].parse::<u32>().is_ok()).collect()
}

fn is_yes(cell: &str) -> bool {
    match cell {
        "yes" => true,
        "no" => false,
        _ => panic!("{cell} is neither yes nor no"),
    }
}

#[test]
fn the_run_is_what_the_gate_decides() {
    let rows = rows(&page());
    assert_eq!(rows.len(), 16);
    let mut gate = Gate::new();
    for (row, number) in rows.iter().zip(1..) {
        assert_eq!(row[0], number.to_string());
        match row[1].as_str() {
            "" => {}
            "stops" => gate.answered_number(4),
            "is started" => gate.started_number(0),
            other => panic!("{other}"),
        }
        let free = gate.decide_told(is_yes(&row[2]), is_yes(&row[3]));
        let (centre, outer) = (gate.valve(24).to_string(), gate.valve(48).to_string());
        assert_eq!([&row[4], &row[5]], [&centre, &outer], "decision {number}");
        assert_eq!(free.centre(), row[4] == "free");
        assert_eq!(free.outer(), row[5] == "free");
    }
}

// The warnings are those of the other C programs.
#[test]
fn the_loop_compiles() {
    let page = page();
    let (_, block) = page.split_once("\n```c\n").expect("a loop");
    let (block, rest) = block.split_once("\n```\n").expect("its end");
    assert!(!rest.contains("```c"), "a second one is not compiled");
    let folder = Path::new(env!("CARGO_TARGET_TMPDIR"));
    let source = folder.join("boom_page.c");
    fs::write(&source, format!("{block}\n")).expect("a source");
    let languages = [("cc", "-std=c99", "c")].into_iter();
    let cpp = cpp_compilers().into_iter();
    for (compiler, standard, language) in languages.chain(cpp.map(|c| (c, "-std=c++17", "c++"))) {
        let output = Command::new(compiler)
            .args([standard, "-O1", "-c", "-x", language])
            .args(compiled::WARNINGS)
            .arg(&source)
            .arg("-I")
            .arg(top().join("include"))
            .arg("-o")
            .arg(folder.join("boom_page.o"))
            .output()
            .expect("a compiler");
        let errors = String::from_utf8_lossy(&output.stderr);
        assert!(output.status.success(), "{compiler}: {errors}");
    }
}
