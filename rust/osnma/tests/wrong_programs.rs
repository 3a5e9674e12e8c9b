//! The wrong programs, in and outside the gate: each edit of them applies to the sources, at one place. An edit that applies
//! nowhere would be no wrong program, and one that applies twice would not be the one that its name says.

use std::collections::{BTreeMap, BTreeSet};
use std::fs;
use std::path::{Path, PathBuf};

fn top() -> PathBuf {
    Path::new(env!("CARGO_MANIFEST_DIR")).join("../..")
}

fn read(path: &Path) -> String {
    fs::read_to_string(path).unwrap_or_else(|error| panic!("{}: {error}", path.display()))
}

fn entries(folder: &Path) -> Vec<PathBuf> {
    let Ok(read) = fs::read_dir(folder) else {
        return Vec::new();
    };
    let mut entries: Vec<PathBuf> = read.map(|entry| entry.unwrap().path()).collect();
    entries.sort();
    entries
}

fn name(path: &Path) -> String {
    path.file_name().unwrap().to_string_lossy().into_owned()
}

/// A change of one place of a file: the text that is there, and the text in its place.
struct Change {
    file: String,
    old: String,
    new: String,
}

fn changes(edit: &str) -> Result<Vec<Change>, String> {
    let (mut file, mut old, mut changes) = (None, None, Vec::new());
    for line in edit.lines() {
        if let Some(path) = line.strip_prefix("file: ") {
            file = Some(path.to_string());
        } else if let Some(text) = line.strip_prefix("old: ") {
            old = Some(text.to_string());
        } else if let Some(text) = line.strip_prefix("new:") {
            changes.push(Change {
                file: file.clone().ok_or("no file")?,
                old: old.take().ok_or("new without old")?,
                new: text.strip_prefix(' ').unwrap_or(text).to_string(),
            });
        } else if !line.is_empty() && !line.starts_with("--") {
            return Err(format!("a line that is no change: {line}"));
        }
    }
    match (old, changes.is_empty()) {
        (None, false) => Ok(changes),
        _ => Err("no change, or one without its new text".into()),
    }
}

/// Applies the changes in order to the sources of a crate; each must find its text at one place, and change it.
fn apply(sources: &Path, edit: &str) -> Result<(), String> {
    let mut texts = BTreeMap::new();
    for change in changes(edit)? {
        let text = texts
            .entry(change.file.clone())
            .or_insert_with(|| read(&sources.join(&change.file)));
        let places = text.matches(&change.old).count();
        if places != 1 {
            return Err(format!("'{}' stands at {places} places", change.old));
        }
        if change.old == change.new {
            return Err(format!("'{}' stays as it is", change.old));
        }
        *text = text.replacen(&change.old, &change.new, 1);
    }
    Ok(())
}

/// The edits of each crate: of the gate, and the others.
fn edits() -> Vec<(String, PathBuf)> {
    let gate = entries(&top().join("crates")).into_iter();
    let gate = gate.map(|folder| (name(&folder), folder.join("must-fail")));
    let others = entries(&top().join("wrong_programs")).into_iter();
    let others = others.map(|folder| (name(&folder), folder));
    let mut edits = Vec::new();
    for (of, folder) in gate.chain(others) {
        edits.extend(entries(&folder).into_iter().map(|edit| (of.clone(), edit)));
    }
    edits
}

#[test]
fn each_edit_applies_at_one_place() {
    let (mut seen, mut wrong) = (BTreeSet::new(), Vec::new());
    for (of, edit) in edits() {
        if let Err(error) = apply(&top().join("crates").join(&of), &read(&edit)) {
            wrong.push(format!("{}: {error}", edit.display()));
        }
        let place = (of, name(&edit));
        if !seen.insert(place.clone()) {
            wrong.push(format!("{place:?} stands twice"));
        }
    }
    assert!(seen.len() > 500, "{}", seen.len());
    assert!(wrong.is_empty(), "{}", wrong.join("\n"));
}

#[test]
fn an_edit_that_does_not_apply_is_seen() {
    let sources = top().join("crates/regions");
    let edit = |old: &str, new: &str| format!("file: src/lib.rt\nold: {old}\nnew: {new}\n");
    let once = "pub const ENTRY_LENGTH: usize = 84;";
    assert_eq!(apply(&sources, &edit(once, "")), Ok(()));
    for wrong in [
        edit("pub const ENTRY_LENGTH: usize = 85;", ""),
        edit("pub const", "const"),
        edit(once, once),
        edit(once, "") + &edit(once, ""),
        format!("old: {once}\nnew: x\n"),
        "file: src/lib.rt\n".to_string(),
        "file: src/lib.rt\nold: x\n".to_string(),
    ] {
        assert!(apply(&sources, &wrong).is_err(), "{wrong}");
    }
}
