//! What is shown beside the code's own contracts stands in the contract of a function that does nothing: the check of its crate
//! fails where the theorem is missing or weaker. Here the functions are held to be there, and to be in docs/ASSURANCE.md.

use std::fs;
use std::path::{Path, PathBuf};

/// Crate, function, and the statement in its contract.
const SHOWN: [(&str, &str, &str); 14] = [
    ("annex_a", "vectors", "AnnexA"),
    ("assurance", "claim", "ExportedClaim"),
    ("cmac", "laws_of_padding", "Padding"),
    ("cmac", "laws_of_truncation", "Truncation"),
    (
        "hash_vectors",
        "published_examples",
        "(ShaExamples × (Sha3Examples × HmacExamples)) × (AesExamples × CmacExamples)",
    ),
    ("nav_sets", "each_bit", "EachBit"),
    ("replay_records", "pieces_join", "PiecesJoin"),
    ("rules", "known_points", "KnownPoints"),
    ("rules", "tag_truncation", "TagTruncation"),
    ("rules_examples", "sha3_steps", "Sha3Steps"),
    ("rules_examples", "slow_tag_run", "SlowTagRun"),
    ("valve_rules", "claim", "Claim"),
    ("valve_safety", "claim", "Safe"),
    ("valve_safety", "gate_claim", "ExportedGate"),
];

fn top() -> PathBuf {
    Path::new(env!("CARGO_MANIFEST_DIR")).join("../..")
}

/// The functions of a source that do nothing, each with what its contract says.
fn shown(source: &str) -> Vec<(String, String)> {
    let lines: Vec<&str> = source.lines().collect();
    let found = lines.windows(3).filter(|lines| lines[2] == "{}");
    found
        .map(|lines| {
            let name = lines[0].strip_prefix("pub fn ");
            let name = name.and_then(|name| name.strip_suffix("()"));
            let says = lines[1].strip_prefix("    ensures { ");
            let says = says.and_then(|says| says.strip_suffix(" }"));
            match (name, says) {
                (Some(name), Some(says)) => (name.to_string(), says.to_string()),
                _ => panic!("a function that does nothing, in another form: {lines:?}"),
            }
        })
        .collect()
}

#[test]
fn statements_stand_in_contracts() {
    let mut found = Vec::new();
    for entry in fs::read_dir(top().join("crates")).unwrap() {
        let folder = entry.unwrap().path();
        let of = folder.file_name().unwrap().to_string_lossy().into_owned();
        if let Ok(source) = fs::read_to_string(folder.join("src/lib.rt")) {
            let shown = shown(&source).into_iter();
            found.extend(shown.map(|(name, says)| (of.clone(), name, says)));
        }
    }
    found.sort();
    let wanted = SHOWN.map(|(of, name, says)| (of.into(), name.into(), says.into()));
    assert_eq!(found, wanted);
}

#[test]
fn the_document_names_them() {
    let document = fs::read_to_string(top().join("docs/ASSURANCE.md")).unwrap();
    for (of, name, _) in SHOWN {
        let named = document.lines().any(|line| {
            line.starts_with(&format!("| `{of}::")) && line.contains(&format!("{name}`"))
        });
        assert!(named, "{of}::{name}");
    }
}
