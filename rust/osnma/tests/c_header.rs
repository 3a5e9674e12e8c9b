//! include/osnma.h from C: tests/c/calls.c is compiled as C99 and, where there is a C++ compiler, as C++, without a
//! warning, linked with the archive and run. What stands beside the calls is the Rust binding's. A header of another
//! layout does not link.

mod compiled;

use compiled::{build, cpp_compilers, run, top, Program, C99, CPP17};
use osnma::collector::NotTaken;
use osnma::regions::{Regions, UNKNOWN_TOTAL};
use osnma::{Gst, WaitingMessage, AUTHENTIC_BITS, DSM_IDS, LAYOUT, VERSION};
use std::fmt::Write;
use std::fs;
use std::mem::offset_of;
use std::path::Path;

const CALLS: &str = "rust/osnma/tests/c/calls.c";

#[test]
fn as_c99() {
    let program = build("cc", C99, CALLS, "calls_c99");
    let printed = run(&program, &[], &[]);
    assert!(printed.contains("calls"), "{printed}");
}

#[test]
fn as_cpp() {
    for compiler in cpp_compilers() {
        let program = build(compiler, CPP17, CALLS, &format!("calls_{compiler}"));
        let printed = run(&program, &[], &[]);
        assert!(printed.contains("calls"), "{printed}");
    }
}

// The regions of `Core` and of `struct osnma_core` lie at the same places.
#[test]
fn one_layout() {
    let program = build("cc", C99, CALLS, "calls_layout");
    let mut layout = String::new();
    macro_rules! add {
        ($($name:ident)*) => {
            $(writeln!(layout, "{} {}", stringify!($name), offset_of!(Regions, $name)).unwrap();)*
        };
    }
    add!(
        config clocks words stamps blocks headers present since
        pubkeys offer chain numbers heldkey waiting sets arrivals
    );
    assert_eq!(run(&program, &["layout"], &[]), layout);
}

/// The text of a refusal or outcome without its number.
fn text(shown: impl std::fmt::Display) -> String {
    let shown = shown.to_string();
    shown
        .rsplit_once(" (")
        .map_or(shown.clone(), |(text, _)| text.into())
}

/// What tests/c/glue.c prints, of the Rust binding.
fn glue() -> String {
    let mut lines = format!("version {VERSION}, layout {LAYOUT}\n");
    writeln!(lines, "authentic at {AUTHENTIC_BITS} bits").unwrap();
    writeln!(lines, "{DSM_IDS} DSM IDs, unknown total {UNKNOWN_TOTAL}").unwrap();
    writeln!(lines, "answer 0: done").unwrap();
    let unlisted = "a number that is not listed";
    for number in 1..20 {
        let refusal = osnma::Refusal::LISTED.get(number - 1);
        let text = refusal.map_or(unlisted.into(), text);
        writeln!(lines, "answer {number}: {text}").unwrap();
    }
    for number in 0..11 {
        let mut record = [0; 12];
        record[0] = number;
        let outcome = osnma::TagRecord::of(&record).outcome;
        writeln!(lines, "outcome {number}: {}", text(outcome)).unwrap();
    }
    writeln!(lines, "collected 0: taken").unwrap();
    let not_taken = [
        NotTaken::Over,
        NotTaken::Late,
        NotTaken::OutOfRange,
        NotTaken::NotNominal,
        NotTaken::OtherSatellite,
    ];
    for number in 1..8 {
        let text = not_taken.get(number - 1);
        let text = text.map_or(unlisted.into(), NotTaken::to_string);
        writeln!(lines, "collected {number}: {text}").unwrap();
    }
    let mut waiting = WaitingMessage {
        message: [0; 45],
        signature: [0; 132],
        key: [0; 67],
        key_id: 0,
        key_type: 0,
    };
    for ks in 0..16 {
        waiting.message[2] = ks << 4 | 15;
        writeln!(lines, "KS {ks}: {} bytes signed", waiting.signed().len()).unwrap();
    }
    for key_type in 0..6 {
        waiting.key_type = key_type;
        let (signature, key) = (waiting.signature_bytes().len(), waiting.key_bytes().len());
        writeln!(
            lines,
            "key type {key_type}: signature {signature}, key {key}"
        )
        .unwrap();
    }
    for bits in [0, 0x3B36_9762, 0xFFF9_3A62, 0xFFFF_FFFF] {
        writeln!(lines, "{}", Gst::from_bits(bits)).unwrap();
    }
    for second in [0, 1, 2, 29, 30, 31, 432_001, 432_029, 604_799, 604_801] {
        match Gst::of_page(947, second) {
            None => writeln!(lines, "no page at {second}").unwrap(),
            Some((time, page)) => {
                writeln!(lines, "page at {second}: {}, {page}", time.second()).unwrap();
            }
        }
    }
    lines
}

#[test]
fn one_glue() {
    let program = build("cc", C99, "rust/osnma/tests/c/glue.c", "glue");
    assert_eq!(run(&program, &[], &[]), glue());
}

// docs/RECORDING.md has every number and outcome of the header, by its name.
#[test]
fn documented() {
    let read = |path: &str| fs::read_to_string(top().join(path)).expect("a text");
    let (header, page) = (read("include/osnma.h"), read("docs/RECORDING.md"));
    let listed: Vec<String> = header
        .lines()
        .filter_map(|line| line.strip_prefix("    OSNMA_")?.split_once(" = "))
        .map(|(name, number)| format!("| {} | `OSNMA_{name}` |", number.trim_end_matches(',')))
        .collect();
    assert_eq!(listed.len(), 18 + 9);
    for row in listed {
        assert!(page.contains(&row), "{row} is not in docs/RECORDING.md");
    }
}

/// The parameters of an export, and the header without it.
fn parted<'a>(header: &'a str, export: &str) -> (&'a str, String) {
    let (before, rest) = header
        .split_once(&format!("\nuint32_t {export}("))
        .unwrap_or_else(|| panic!("{export} is not declared"));
    let (parameters, after) = rest.split_once(");\n").expect("an end");
    (parameters, [before, after].concat())
}

/// The regions' counts and the exported parameters of a header.
fn lent(header: &str) -> String {
    let is_count = |line: &&str| line.starts_with("#define OSNMA_") && line.contains("_COUNT ");
    let counts: Vec<&str> = header.lines().filter(is_count).collect();
    assert_eq!(counts.len(), 16);
    let (_, calls) = header
        .split_once("\nuint32_t osnma_regions_start(")
        .unwrap();
    let (calls, _) = calls.split_once("\n/* ---- ").expect("an end");
    let words = counts.into_iter().chain(calls.lines());
    words.flat_map(str::split_whitespace).collect()
}

/// The first bytes of SHA-256 of what each layout lent when it began. A line is added with each layout, and none is changed.
const LAYOUTS: [(u32, u64); 2] = [(1, 0x861F_34CF_E277_74A6), (2, 0x2CBB_81E3_24AE_1A95)];

/// The exports that came to a layout later, with those of their parameters. A line is added with each export, and none is
/// changed.
const ADDED: [(u32, &str, u64); 2] = [
    (2, "osnma_regions_four", 0xC01E_278E_04BE_2922),
    (2, "osnma_regions_progress", 0x2F65_3A2B_3B3B_E3AE),
];

fn first_bytes(text: &str) -> u64 {
    let digest = portable_hash::sha256(text.as_bytes());
    u64::from_be_bytes(*digest.first_chunk().expect("32 bytes"))
}

/// What the header's layout lends: what it began with, then each export that came to it.
fn digests(header: &str) -> Vec<u64> {
    let (mut first, mut added) = (header.to_string(), Vec::new());
    for (_, export, _) in ADDED.iter().filter(|(layout, ..)| *layout == LAYOUT) {
        let (parameters, without) = parted(&first, export);
        let parameters: String = parameters.split_whitespace().collect();
        added.push(first_bytes(&parameters));
        first = without;
    }
    [vec![first_bytes(&lent(&first))], added].concat()
}

// Who changes a region or a parameter raises the layout, and the version and the layout have their place in CHANGELOG.md.
#[test]
fn layout_rises_with_what_is_lent() {
    let read = |path: &str| fs::read_to_string(top().join(path)).expect("a text");
    let header = read("include/osnma.h");
    let of_layout = |&&(layout, ..): &&(u32, &str, u64)| layout == LAYOUT;
    let (layout, first) = *LAYOUTS.last().expect("a layout");
    let added = ADDED.iter().filter(of_layout).map(|(.., digest)| *digest);
    let right: Vec<u64> = std::iter::once(first).chain(added).collect();
    assert_eq!(layout, LAYOUT, "add a line");
    assert_eq!(
        digests(&header),
        right,
        "raise the layout, or add the export, and add a line"
    );
    for (old, new) in [
        ("OSNMA_WAITING_COUNT 21504u", "OSNMA_WAITING_COUNT 21760u"),
        ("uint16_t marks,\n    const", "uint32_t marks,\n    const"),
        (
            "uint8_t *id, uint8_t *kind);",
            "uint8_t *kind, uint8_t *id);",
        ),
        ("uint32_t limit,", "uint16_t limit,"),
        ("const uint16_t *present,", "const uint8_t *present,"),
        (
            "/* ---- the calls over a core, by",
            "uint32_t osnma_regions_five(uint8_t *yes);\n\n/* ---- the calls over a core, by",
        ),
    ] {
        assert!(header.contains(old), "{old}");
        assert_ne!(digests(&header.replacen(old, new, 1)), digests(&header));
    }
    let heading = format!("\n## {VERSION}, layout {LAYOUT}\n");
    assert!(read("CHANGELOG.md").contains(&heading), "{heading}");
}

/// A folder with the headers, of which osnma.h says this layout.
fn headers_of_layout(layout: u32) -> std::path::PathBuf {
    let folder = Path::new(env!("CARGO_TARGET_TMPDIR")).join(format!("layout_{layout}"));
    fs::create_dir_all(&folder).expect("a folder");
    for name in ["osnma.h", "osnma_collector.h"] {
        let text = fs::read_to_string(top().join("include").join(name)).expect("a header");
        let (old, new) = (
            format!("#define OSNMA_LAYOUT {LAYOUT}\n"),
            format!("#define OSNMA_LAYOUT {layout}\n"),
        );
        assert_eq!(text.contains(&old), name == "osnma.h", "{name}");
        fs::write(folder.join(name), text.replace(&old, &new)).expect("a header");
    }
    folder
}

// An older or newer header and this archive do not link, and the linker names the layout.
#[test]
fn another_layout_does_not_link() {
    for layout in [LAYOUT, LAYOUT + 1, LAYOUT - 1] {
        let program = Program {
            compiler: "cc",
            language: &["-std=c99", "-O2"],
            source: "examples/receiver.c",
            include: Some(&headers_of_layout(layout)),
            archives: &["osnma"],
            libraries: &[],
        };
        match program.built(&format!("receiver_of_layout_{layout}")) {
            Ok(_) => assert_eq!(layout, LAYOUT, "a header of layout {layout} links"),
            Err(error) => {
                assert_ne!(layout, LAYOUT, "{error}");
                let symbol = format!("osnma_layout_{layout}");
                assert!(error.contains(&symbol), "{error}");
            }
        }
    }
}
