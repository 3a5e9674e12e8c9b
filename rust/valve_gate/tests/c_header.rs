//! include/valve_gate.h from C: tests/c/gate.c is compiled as C99, C11 and, where there is a C++ compiler, as C++, without a
//! warning, linked with both proved libraries and run. What stands beside the calls is the Rust binding's and the proved
//! source's. A header of another layout does not link, and beside an osnma.h of another layout it does not compile.

#[path = "../../osnma/tests/compiled/mod.rs"]
mod compiled;

use compiled::{build_with, cpp_compilers, run, top, Program, C99, CPP17};
use std::fmt::Write;
use std::fs;
use std::path::{Path, PathBuf};
use valve_gate::{is_outer, Gate, CENTRE_LIMIT, LAYOUT, OUTER_LIMIT, STATE_LEN, VALVES, VERSION};

const CALLS: &str = "rust/valve_gate/tests/c/gate.c";
const BOTH: &[&str] = &["valve_gate", "osnma"];
const C11: &[&str] = &["-std=c11"];
const CPP11: &[&str] = &["-std=c++11", "-x", "c++"];

fn read(path: &str) -> String {
    fs::read_to_string(top().join(path)).expect("a text")
}

fn calls(compiler: &str, language: &[&str], name: &str) {
    let program = build_with(BOTH, compiler, language, CALLS, name);
    let printed = run(&program, &[], &[]);
    assert!(printed.contains("calls"), "{printed}");
}

#[test]
fn as_c() {
    calls("cc", C99, "gate_c99");
    calls("cc", C11, "gate_c11");
}

#[test]
fn as_cpp() {
    for compiler in cpp_compilers() {
        calls(compiler, CPP11, &format!("gate_{compiler}_11"));
        calls(compiler, CPP17, &format!("gate_{compiler}_17"));
    }
}

// Who includes the header and calls nothing needs no library and sees no warning of what he does not use.
#[test]
fn header_alone() {
    let header = "rust/valve_gate/tests/c/header.c";
    for (language, name) in [(C99, "c99"), (C11, "c11")] {
        build_with(&[], "cc", language, header, &format!("header_{name}"));
    }
    for compiler in cpp_compilers() {
        build_with(&[], compiler, CPP11, header, &format!("header_{compiler}"));
    }
}

/// What tests/c/glue.c prints, of the Rust binding.
fn glue() -> String {
    let core = osnma::LAYOUT;
    let mut lines = format!("version {VERSION}, layout {LAYOUT}, core layout {core}\n");
    writeln!(lines, "{VALVES} valves, {STATE_LEN} bytes").unwrap();
    writeln!(lines, "limits {CENTRE_LIMIT} and {OUTER_LIMIT}").unwrap();
    for byte in 0..6 {
        let valve = Gate::from_bytes([byte; STATE_LEN]).valve(1);
        writeln!(lines, "{byte}: {valve}").unwrap();
    }
    for valve in 0..50 {
        writeln!(lines, "valve {valve}: {}", u8::from(is_outer(valve))).unwrap();
    }
    lines
}

#[test]
fn one_glue() {
    let glue_c = "rust/valve_gate/tests/c/glue.c";
    let program = build_with(&[], "cc", C99, glue_c, "gate_glue");
    let printed = run(&program, &[], &[]);
    assert_eq!(printed, glue());
    for text in ["3: free", "2: closed for 2 further decisions", "5: closed"] {
        assert!(printed.lines().any(|line| line == text), "{text}");
    }
}

/// A constant of the proved source.
fn proved(name: &str) -> u64 {
    let source = read("crates/valve_gate/src/lib.rt");
    let mut found = source.lines().filter_map(|line| {
        let rest = line.strip_prefix(&format!("pub const {name}: "))?;
        rest.split_once(" = ")?.1.strip_suffix(';')
    });
    let (Some(number), None) = (found.next(), found.next()) else {
        panic!("not one {name}");
    };
    number.parse().expect("a number")
}

#[test]
fn constants_of_the_proved_source() {
    assert_eq!(proved("GATE_LENGTH"), STATE_LEN as u64);
    assert_eq!(proved("CENTRE_LIMIT"), u64::from(CENTRE_LIMIT));
    assert_eq!(proved("OUTER_LIMIT"), u64::from(OUTER_LIMIT));
    let source = read("crates/valve_gate/src/lib.rt");
    assert!(source.contains(&format!("fn valve_gate_layout_{LAYOUT}() -> u32\n")));
    assert_eq!(STATE_LEN, usize::from(VALVES) + 1);
}

/// What a header's layout lends: the core's layout, the bytes of the state and the exported parameters.
fn lent(header: &str) -> u64 {
    let is_number = |line: &&str| {
        let words = ["#define VALVE_GATE_STATE ", "#if OSNMA_LAYOUT "];
        words.iter().any(|word| line.starts_with(word))
    };
    let numbers = header.lines().filter(is_number);
    let (_, exports) = header
        .split_once("\nuint32_t valve_gate_state_begin(")
        .expect("a first export");
    let (exports, _) = exports.split_once("\n/* ---- ").expect("an end");
    let words = numbers.chain(exports.lines());
    let text: String = words.flat_map(str::split_whitespace).collect();
    let digest = portable_hash::sha256(text.as_bytes());
    u64::from_be_bytes(*digest.first_chunk().expect("32 bytes"))
}

/// The first bytes of SHA-256 of what each layout lends. A line is added with each layout, and none is changed.
const LAYOUTS: [(u32, u64); 1] = [(1, 0xF2E9_0921_8834_A033)];

// Who changes the state, a parameter or the core's layout raises the gate's, and the version has its place in CHANGELOG.md.
#[test]
fn layout_rises_with_what_is_lent() {
    let header = read("include/valve_gate.h");
    let now = lent(&header);
    let wanted = *LAYOUTS.last().expect("a layout");
    assert_eq!(
        (LAYOUT, now),
        wanted,
        "raise the layout and add a line: {now:#X}"
    );
    for (old, new) in [
        ("VALVE_GATE_STATE 49u", "VALVE_GATE_STATE 50u"),
        ("#if OSNMA_LAYOUT != 2", "#if OSNMA_LAYOUT != 3"),
        (
            "uint32_t hkroot, uint32_t mack",
            "uint32_t mack, uint32_t hkroot",
        ),
        (
            "uint8_t met20, uint8_t met10",
            "uint8_t met10, uint8_t met20",
        ),
        (
            "uint64_t *free);\n\nuint32_t",
            "uint32_t *free);\n\nuint32_t",
        ),
        ("const uint32_t *clocks, size_t clocks_count,\n", ""),
    ] {
        assert!(header.contains(old), "{old}");
        assert_ne!(lent(&header.replacen(old, new, 1)), now, "{new}");
    }
    let heading = format!("\n## {VERSION}, layout {}\n", osnma::LAYOUT);
    let changes = read("CHANGELOG.md");
    let (_, section) = changes.split_once(&heading).expect("the version's section");
    let section = section.split("\n## ").next().expect("a section");
    assert!(
        section.contains(&format!("gate layout {LAYOUT}")),
        "{section}"
    );
}

/// A folder with the headers, of which one has a line that is changed.
fn headers_with(folder: &str, changed: &str, old: &str, new: &str) -> PathBuf {
    let folder = Path::new(env!("CARGO_TARGET_TMPDIR")).join(folder);
    fs::create_dir_all(&folder).expect("a folder");
    for name in ["osnma.h", "valve_gate.h"] {
        let text = read(&format!("include/{name}"));
        assert!(name != changed || text.contains(old), "{name}: {old}");
        let text = if name == changed {
            text.replacen(old, new, 1)
        } else {
            text
        };
        fs::write(folder.join(name), text).expect("a header");
    }
    folder
}

/// What the compiler and the linker say of the calls with these headers.
fn built(include: &Path, name: &str) -> Result<PathBuf, String> {
    let program = Program {
        compiler: "cc",
        language: &["-std=c99", "-O2"],
        source: CALLS,
        include: Some(include),
        archives: BOTH,
        libraries: &[],
    };
    program.built(name)
}

// An older or newer header and this archive do not link, and the linker names the layout.
#[test]
fn another_layout_does_not_link() {
    let define = |layout: u32| format!("#define VALVE_GATE_LAYOUT {layout}\n");
    for layout in [LAYOUT, LAYOUT + 1, LAYOUT - 1] {
        let name = format!("gate_of_layout_{layout}");
        let include = headers_with(&name, "valve_gate.h", &define(LAYOUT), &define(layout));
        match built(&include, &format!("program_{name}")) {
            Ok(_) => assert_eq!(layout, LAYOUT, "a header of layout {layout} links"),
            Err(error) => {
                assert_ne!(layout, LAYOUT, "{error}");
                let symbol = format!("valve_gate_layout_{layout}");
                assert!(error.contains(&symbol), "{error}");
            }
        }
    }
}

// Beside the osnma.h of another core it does not compile, and says what to do.
#[test]
fn another_core_does_not_compile() {
    let define = |layout: u32| format!("#define OSNMA_LAYOUT {layout}\n");
    let (now, next) = (define(osnma::LAYOUT), define(osnma::LAYOUT + 1));
    let include = headers_with("gate_beside_another_core", "osnma.h", &now, &next);
    let error = built(&include, "program_beside_another_core").expect_err("it compiles");
    assert!(error.contains("made for a core of layout 2"), "{error}");
}
