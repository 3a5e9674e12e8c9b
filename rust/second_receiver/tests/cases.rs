//! Every replay input under tests/cases gives the lines, the reads, the candidates, the least limit and the progress of each
//! message beside it.

use second_receiver::replay::{replay, write_candidates, write_four, write_progress, write_reads};
use std::fs;
use std::path::Path;

/// The first line in which two outputs differ.
fn first_difference(got: &[u8], want: &[u8]) -> Option<String> {
    let (got, want) = (String::from_utf8_lossy(got), String::from_utf8_lossy(want));
    let (mut got, mut want) = (got.split('\n'), want.split('\n'));
    for line in 1.. {
        match (got.next(), want.next()) {
            (None, None) => break,
            (g, w) if g == w => {}
            (g, w) => return Some(format!("line {line}: got {g:?}, want {w:?}")),
        }
    }
    None
}

#[test]
fn all_cases() {
    let directory = Path::new(env!("CARGO_MANIFEST_DIR")).join("tests/cases");
    let mut differences = Vec::new();
    let mut count = 0;
    for entry in fs::read_dir(directory).unwrap() {
        let path = entry.unwrap().path();
        if path.extension().is_none_or(|extension| extension != "in") {
            continue;
        }
        count += 1;
        let [mut lines, mut reads, mut candidates, mut four, mut progress] =
            [const { Vec::new() }; 5];
        let receiver = replay(&fs::read(&path).unwrap()[..], &mut lines).unwrap();
        write_reads(&receiver, &mut reads).unwrap();
        write_candidates(&receiver, &mut candidates).unwrap();
        write_four(&receiver, &mut four).unwrap();
        write_progress(&receiver, &mut progress).unwrap();
        for (extension, got) in [
            ("out", lines),
            ("reads", reads),
            ("candidates", candidates),
            ("four", four),
            ("progress", progress),
        ] {
            let file = path.with_extension(extension);
            // Where there are no candidates, no limit is enough or no block is held, there is no file of them.
            let want = match extension {
                "candidates" if !file.exists() => Vec::new(),
                "four" if !file.exists() => b"F -\n".to_vec(),
                "progress" if !file.exists() => format!("D{}\n", " 0/?".repeat(16)).into(),
                _ => fs::read(file).unwrap(),
            };
            if let Some(difference) = first_difference(&got, &want) {
                differences.push(format!("{} {extension} {difference}", path.display()));
            }
        }
    }
    assert_eq!(count, 29, "inputs found");
    assert!(differences.is_empty(), "{}", differences.join("\n"));
}
