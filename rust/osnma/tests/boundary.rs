//! What the libraries export: the proved calls and nothing beside them, declared in C and Rust as they are in Rattle.

#[path = "boundary/archive.rs"]
mod archive;
#[path = "boundary/assurance.rs"]
mod assurance;
#[path = "boundary/contracts.rs"]
mod contracts;
#[path = "boundary/declarations.rs"]
mod declarations;
mod elf;

use archive::Symbols;
use contracts::{contracts, imports};
use declarations::{of_header, of_rattle, of_rust, Declarations};
use std::collections::BTreeSet;
use std::fs;
use std::path::{Path, PathBuf};

fn top() -> PathBuf {
    Path::new(env!("CARGO_MANIFEST_DIR")).join("../..")
}

fn read(path: &str) -> String {
    let path = top().join(path);
    fs::read_to_string(&path).unwrap_or_else(|error| panic!("{}: {error}", path.display()))
}

fn entries(folder: &Path) -> Vec<PathBuf> {
    let read = fs::read_dir(folder).unwrap_or_else(|error| panic!("{}: {error}", folder.display()));
    let mut entries: Vec<PathBuf> = read.map(|entry| entry.unwrap().path()).collect();
    entries.sort();
    entries
}

/// The crates that export functions, and these functions.
fn exports() -> Vec<(String, Declarations)> {
    let mut found = Vec::new();
    for folder in entries(&top().join("crates")) {
        let mut exports = Declarations::new();
        for source in entries(&folder.join("src")) {
            exports.extend(of_rattle(&fs::read_to_string(source).unwrap()));
        }
        if !exports.is_empty() {
            let name = folder.file_name().unwrap().to_string_lossy();
            found.push((name.into_owned(), exports));
        }
    }
    found
}

fn exports_of(wanted: impl Fn(&str) -> bool) -> Declarations {
    let all = exports().into_iter().filter(|(name, _)| wanted(name));
    all.flat_map(|(_, exports)| exports).collect()
}

const BOUNDARY: &str = "crates/assurance/proofs/Boundary.antt";
const CONTRACTS: &str = "crates/assurance/proofs/Contracts.antt";
const RUN: &str = "crates/assurance/specs/Run.antt";

/// The calls of crates/osnma that crates/assurance holds to the rules and has in its runs.
fn covered() -> BTreeSet<String> {
    assurance::covered(&read(BOUNDARY), &read(CONTRACTS), &read(RUN)).unwrap()
}

/// The core's exports that are no call of 01, with the reason why no run has them. They are lent nothing.
const NO_CALLS: [(&str, &str); 1] = [(
    "osnma_layout_2",
    "gives the number of the layout; that it links says that the layout is the caller's",
)];

/// What C and Rust declare of a library for receivers and controllers.
struct Declared {
    library: &'static str,
    /// The crate with the calls, and the one that exports them.
    calls: &'static str,
    exports: &'static str,
    header: &'static str,
    /// What the macros of the header begin with.
    prefix: &'static str,
    raw: &'static str,
}

const CORE: Declared = Declared {
    library: "osnma",
    calls: "osnma",
    exports: "osnma_c",
    header: "include/osnma.h",
    prefix: "OSNMA",
    raw: "rust/osnma/src/raw.rs",
};

const GATE: Declared = Declared {
    library: "valve_gate",
    calls: "valve_gate",
    exports: "valve_gate_c",
    header: "include/valve_gate.h",
    prefix: "VALVE_GATE",
    raw: "rust/valve_gate/src/raw.rs",
};

fn no_calls() -> BTreeSet<String> {
    NO_CALLS.map(|(name, _)| name.to_string()).into()
}

fn names(declarations: &Declarations) -> BTreeSet<String> {
    declarations.keys().cloned().collect()
}

fn archive(name: &str) -> Symbols {
    Symbols::of(&top().join(format!("target/staticlib/lib{name}.a")))
}

// Nobody can link anything of the core but the calls whose contracts are the rules.
#[test]
fn the_core_exports_what_assurance_covers() {
    let exported = archive("osnma").defined;
    assert!(exported.len() >= 5, "{exported:?}");
    let known = covered().union(&no_calls()).cloned().collect();
    assert_eq!(exported, known);
    assert_eq!(exported, names(&exports_of(|name| name == CORE.exports)));
}

// What is no call has nothing to read or write.
#[test]
fn no_calls_are_lent_nothing() {
    let core = exports_of(|name| name == CORE.exports);
    for (name, reason) in NO_CALLS {
        assert!(core[name].parameters.is_empty(), "{name}: {reason}");
    }
}

/// The sections of a manifest in which a feature is turned on.
fn turning_on<'a>(manifest: &'a str, feature: &str) -> Vec<&'a str> {
    let (mut section, mut found) = ("", Vec::new());
    for line in manifest.lines() {
        if line.starts_with('[') {
            section = line;
        } else if line.contains(&format!("\"{feature}\"")) {
            found.push(section);
        }
    }
    found
}

// Whoever builds a receiver cannot write the regions by hand: tests and the benchmark alone have the feature that shows them.
#[test]
fn tests_alone_see_the_regions() {
    let mut users = 0;
    for folder in entries(&top().join("rust")) {
        let manifest = folder.join("Cargo.toml");
        if folder.ends_with("target") || !manifest.exists() {
            continue;
        }
        for section in turning_on(&fs::read_to_string(manifest).unwrap(), "regions") {
            let measures = folder.ends_with("benchmark") && section == "[dependencies]";
            assert!(
                measures || section == "[dev-dependencies]",
                "{}: {section}",
                folder.display()
            );
            users += 1;
        }
    }
    assert!(users >= 2, "{users}");
    // A build of all packages at once turns the feature on for each of them.
    let mut receivers = Vec::new();
    for folder in ["demo", "jobsheet", "leaves", "replay", "valve_gate/src"] {
        sources(&top().join("rust").join(folder), &mut receivers);
    }
    sources(&top().join("examples"), &mut receivers);
    assert!(receivers.len() > 20, "{} sources", receivers.len());
    for path in receivers {
        let text = fs::read_to_string(&path).unwrap();
        let writes = text.contains("regions_mut") || text.contains("osnma::regions");
        assert!(!writes, "{}", path.display());
    }
    assert_eq!(
        turning_on("[features]\ndefault = [\"regions\"]\n", "regions"),
        ["[features]"]
    );
}

// As the header says: memcpy and memset of a C library and nothing else.
#[test]
fn the_core_needs_two_functions() {
    let listed = ["memcpy", "memset"].map(String::from).into();
    assert_eq!(archive("osnma").needed, listed);
}

// The gate needs nothing from elsewhere. Of the core it has what its question takes, under no name that can be linked: it and
// the core's library stand in one program, and neither takes the other's functions.
#[test]
fn the_gate_stands_alone_beside_the_core() {
    let (gate, core) = (archive("valve_gate"), archive("osnma"));
    assert_eq!(gate.needed, BTreeSet::new());
    assert_eq!(gate.defined.len(), 7, "{:?}", gate.defined);
    assert!(gate.defined.is_disjoint(&core.defined));
    assert!(gate.defined.is_disjoint(&core.needed));
}

// The other libraries too have the functions of their sources and no other, and no other crate exports any.
#[test]
fn libraries_export_their_sources() {
    for (name, exports) in exports() {
        let linked = [CORE, GATE].into_iter().find(|of| of.exports == name);
        assert!(linked.is_some() || name.starts_with("test_"), "{name}");
        let library = linked.map_or(&name[..], |of| of.library);
        assert_eq!(archive(library).defined, names(&exports), "{name}");
    }
}

fn source_of(name: &str) -> String {
    read(&format!("crates/{name}/src/lib.rt"))
}

/// What an export's source states otherwise than the source of the calls, or under names that mean something else there.
fn stated_otherwise(exports: &str, calls: &str) -> Option<String> {
    let (of_calls, of_exports) = (contracts(calls), contracts(exports));
    let differs =
        |name: &&String| of_exports[*name] != of_calls.get(*name).cloned().unwrap_or_default();
    let (known, named) = (imports(calls), imports(exports));
    let name = of_exports.keys().find(differs);
    name.or_else(|| named.difference(&known).next()).cloned()
}

// crates/assurance and crates/valve_safety speak of the calls' contracts: each export has its call's, parameters and clauses
// word for word.
#[test]
fn exports_state_what_their_calls_do() {
    for of in [CORE, GATE] {
        let (exports, calls) = (source_of(of.exports), source_of(of.calls));
        let stated = contracts(&exports);
        assert_eq!(
            stated.keys().cloned().collect::<BTreeSet<_>>(),
            names(&exports_of(|name| name == of.exports))
        );
        assert_eq!(stated_otherwise(&exports, &calls), None);
    }
    let (exports, calls) = (source_of(CORE.exports), source_of(CORE.calls));
    for (old, new) in [
        ("ensures { result ≡ 2 }", "ensures { result ≡ result }"),
        ("blocks: &mut [u8],", "blocks: &[u8],"),
        ("≡ word_call (word_lent s", "≡ word_call (verdict_lent s"),
        ("fn osnma_regions_four(", "fn osnma_regions_many("),
        ("{told, ", "{subframe as told, "),
    ] {
        assert!(exports.contains(old), "{old}");
        let changed = exports.replacen(old, new, 1);
        assert!(stated_otherwise(&changed, &calls).is_some(), "{new}");
    }
}

/// The first difference between declarations and the Rattle sources.
fn difference(declared: &Declarations, exports: &Declarations) -> Option<String> {
    if names(declared) != names(exports) {
        let differ = names(declared)
            .symmetric_difference(&names(exports))
            .cloned()
            .collect::<Vec<_>>();
        return Some(format!("{} on one side alone", differ.join(", ")));
    }
    let (name, _) = declared.iter().find(|(name, d)| &exports[*name] != *d)?;
    let (declared, export) = (&declared[name], &exports[name]);
    let pairs = declared.parameters.iter().zip(&export.parameters);
    for (at, (declared, export)) in pairs.enumerate() {
        if declared != export {
            return Some(format!("{name}, {at}: {declared:?}, not {export:?}"));
        }
    }
    Some(format!("{name}: {declared:?}, not {export:?}"))
}

// Order, names, types and mutability.
#[test]
fn declarations_are_those_of_the_sources() {
    for of in [CORE, GATE] {
        let exports = exports_of(|name| name == of.exports);
        let (header, raw) = (read(of.header), read(of.raw));
        assert_eq!(difference(&of_header(&header, of.prefix), &exports), None);
        assert_eq!(difference(&of_rust(&raw), &exports), None);
    }
    let tests = exports_of(|name| name.starts_with("test_"));
    assert_eq!(
        difference(&of_rust(&read("rust/leaves/src/raw.rs")), &tests),
        None
    );
}

/// All Rust sources under a folder.
fn sources(folder: &Path, found: &mut Vec<PathBuf>) {
    for path in entries(folder) {
        if path.is_dir() && !path.ends_with("target") {
            sources(&path, found);
        } else if path.extension().is_some_and(|extension| extension == "rs") {
            found.push(path);
        }
    }
}

// No other Rust source declares an exported function.
#[test]
fn declarations_stand_in_one_place() {
    let exported = names(&exports_of(|_| true));
    let mut found = Vec::new();
    sources(&top().join("rust"), &mut found);
    assert!(found.len() > 50, "{} sources", found.len());
    for path in found {
        let text = fs::read_to_string(&path).unwrap();
        if path.ends_with("src/raw.rs") || !text.contains("extern \"C\" {") {
            continue;
        }
        for name in &exported {
            assert!(
                !text.contains(&format!("fn {name}(")),
                "{}: {name}",
                path.display()
            );
        }
    }
}

/// Each change of a library's declarations, in the header and in Rust, is seen as a difference from its source.
fn changes_are_seen(of: Declared, in_c: &[(&str, &str)], in_rust: &[(&str, &str)]) {
    let exports = exports_of(|name| name == of.exports);
    let (header, raw) = (read(of.header), read(of.raw));
    let from_header = |header: &str| difference(&of_header(header, of.prefix), &exports);
    let from_raw = |raw: &str| difference(&of_rust(raw), &exports);
    assert_eq!((from_header(&header), from_raw(&raw)), (None, None));
    for (old, new) in in_c {
        assert!(header.contains(old), "{old}");
        let changed = header.replacen(old, new, 1);
        assert!(from_header(&changed).is_some(), "{new}");
    }
    for (old, new) in in_rust {
        assert!(raw.contains(old), "{old}");
        let changed = raw.replacen(old, new, 1);
        assert!(from_raw(&changed).is_some(), "{new}");
    }
}

// The comparison sees a parameter left out, moved, renamed, of another type or another mutability, and another result.
#[test]
fn one_change_of_a_declaration_is_seen() {
    let in_c = [
        ("    uint32_t *clocks, size_t clocks_count,\n", ""),
        ("uint8_t ns, uint8_t id", "uint8_t id, uint8_t ns"),
        ("uint32_t *since, size_t", "uint32_t *sinc, size_t"),
        (
            "uint8_t prn, uint32_t time,\n    const",
            "uint8_t prn, uint16_t time,\n    const",
        ),
        (
            "uint32_t time, uint16_t marks,\n    const",
            "uint32_t time, uint8_t marks,\n    const",
        ),
        ("uint32_t *clocks", "const uint32_t *clocks"),
        ("const uint32_t *arrivals", "uint32_t *arrivals"),
        (
            "uint32_t limit,\n    uint8_t",
            "uint16_t limit,\n    uint8_t",
        ),
        ("uint8_t *yes);", "const uint8_t *yes);"),
        ("const uint16_t *present", "uint16_t *present"),
        (
            "uint8_t *out, size_t out_count);",
            "const uint8_t *out, size_t out_count);",
        ),
        ("uint32_t osnma_regions_word", "uint8_t osnma_regions_word"),
        (
            "uint32_t osnma_regions_word",
            "uint32_t osnma_regions_words",
        ),
    ];
    let in_rust = [
        ("        prn: u8,\n", ""),
        ("ns: u8,\n        id: u8", "id: u8,\n        ns: u8"),
        ("since: *mut u32", "sinc: *mut u32"),
        ("time: u32", "time: u64"),
        ("marks: u16", "marks: u32"),
        ("clocks: *mut u32", "clocks: *const u32"),
        ("arrivals: *const u32", "arrivals: *mut u32"),
        ("limit: u32", "limit: u64"),
        ("yes: *mut u8", "yes: *const u8"),
        ("present: *const u16", "present: *mut u16"),
        (") -> u32;", ") -> u8;"),
        (") -> u32;", ");"),
    ];
    changes_are_seen(CORE, &in_c, &in_rust);
}

// So it does of the gate's.
#[test]
fn one_change_of_a_declaration_of_the_gate_is_seen() {
    let in_c = [
        (
            "uint32_t hkroot, uint32_t mack",
            "uint32_t mack, uint32_t hkroot",
        ),
        (
            "uint8_t met20, uint8_t met10",
            "uint8_t met10, uint8_t met20",
        ),
        ("const uint32_t *clocks", "uint32_t *clocks"),
        ("uint8_t *gate, size_t gate_count,", "uint8_t *gate,"),
        ("uint64_t *free);", "uint32_t *free);"),
        (
            "#define VALVE_GATE_LAYOUT 1\n",
            "#define VALVE_GATE_LAYOUT 2\n",
        ),
        (
            "uint32_t valve_gate_state_started(uint8_t *gate, size_t gate_count, uint32_t number);\n",
            "",
        ),
    ];
    let in_rust = [
        (
            "hkroot: u32,\n        mack: u32",
            "mack: u32,\n        hkroot: u32",
        ),
        (
            "met20: u8,\n        met10: u8",
            "met10: u8,\n        met20: u8",
        ),
        ("clocks: *const u32", "clocks: *mut u32"),
        ("free: *mut u64", "free: *mut u32"),
        ("gate_count: usize,\n", ""),
        ("valve_gate_layout_1", "valve_gate_layout_2"),
        ("number: u32) -> u32", "number: u8) -> u32"),
    ];
    changes_are_seen(GATE, &in_c, &in_rust);
}

// An export that is added to the source is seen in its declarations.
#[test]
fn an_added_export_is_seen() {
    let source = "#[unsafe(no_mangle)]\npub extern \"C\" fn osnma_mark(arrivals: &mut [u32]) {}\n";
    let mut core = exports_of(|name| name == CORE.exports);
    let header = of_header(&read(CORE.header), CORE.prefix);
    assert_eq!(difference(&header, &core), None);
    core.extend(of_rattle(source));
    assert!(difference(&header, &core).is_some());
    assert_ne!(&covered() | &no_calls(), names(&core));
}

// A statement of the boundary, a constructor of the runs or what it takes, left out or of another call.
#[test]
fn a_call_that_is_not_covered_is_seen() {
    let (boundary, contracts, run) = (read(BOUNDARY), read(CONTRACTS), read(RUN));
    assert!(assurance::covered(&boundary, &contracts, &run).is_ok());
    let constructor = "  worded : WordDid k.word s c reply s' → Did k s c reply s'\n";
    for (old, new) in [
        (constructor, ""),
        (
            constructor,
            "  worded : StartDid k.start s c reply s' → Did k s c reply s'\n",
        ),
        ("pub data Did", "data Did"),
    ] {
        assert!(run.contains(old), "{old}");
        let changed = run.replacen(old, new, 1);
        assert!(
            assurance::covered(&boundary, &contracts, &changed).is_err(),
            "{new}"
        );
    }
    for (old, new) in [
        ("× word-reads.Learnt", "× start-reads.Learnt"),
        ("osnma_regions_word.Reads", "osnma_regions_words.Reads"),
    ] {
        assert!(contracts.contains(old), "{old}");
        let changed = contracts.replacen(old, new, 1);
        assert!(
            assurance::covered(&boundary, &changed, &run).is_err(),
            "{new}"
        );
    }
    for (old, new) in [
        ("osnma_regions_word.Reads", "osnma_regions_words.Reads"),
        ("→ word-reads.Asked κs args", "→ Unit {0}"),
        (
            "→ word_rule κs args r last → word-reads.Learnt",
            "→ word_rule κs args r last → start-reads.Learnt",
        ),
    ] {
        assert!(boundary.contains(old), "{old}");
        let changed = boundary.replacen(old, new, 1);
        assert!(
            assurance::covered(&changed, &contracts, &run).is_err(),
            "{new}"
        );
    }
}
