//! What a Rattle source declares of its public functions, and the names that their clauses use.

use std::collections::{BTreeMap, BTreeSet};

/// A text in one line, the same however its lines are broken.
fn joined(text: &str) -> String {
    let words: Vec<&str> = text.split_whitespace().collect();
    let line = words.join(" ");
    line.replace("( ", "(").replace(", )", ")")
}

/// Parameters, result and clauses of each public function, by its name: all that stands before the body, whose bracket has a
/// line of its own.
pub fn contracts(text: &str) -> BTreeMap<String, String> {
    let mut found = BTreeMap::new();
    let mut lines = text.lines();
    while let Some(line) = lines.next() {
        let kinds = ["pub fn ", "pub extern \"C\" fn "];
        let Some(rest) = kinds.iter().find_map(|kind| line.strip_prefix(kind)) else {
            continue;
        };
        let (name, rest) = rest.split_once('(').expect("parameters");
        let clauses: Vec<&str> = lines.by_ref().take_while(|line| *line != "{").collect();
        let contract = joined(&format!("({rest} {}", clauses.join(" ")));
        assert!(contract.contains("ensures"), "{name} states nothing");
        let before = found.insert(name.to_string(), contract);
        assert!(before.is_none(), "{name} is declared twice");
    }
    found
}

/// The names that clauses use, each with the module that it is of.
pub fn imports(text: &str) -> BTreeSet<String> {
    let uses = text
        .lines()
        .filter_map(|line| line.strip_prefix("ghost use "));
    uses.flat_map(|line| {
        let line = line.trim_end_matches(';');
        match line.split_once(".{") {
            None => vec![line.to_string()],
            Some((path, names)) => {
                let names = names.trim_end_matches('}').split(", ");
                names.map(|name| format!("{path}.{name}")).collect()
            }
        }
    })
    .collect()
}
