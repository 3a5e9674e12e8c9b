//! The calls of crates/osnma that crates/assurance holds to the rules (proofs/Boundary.antt) and has in its runs: specs/Run.antt, whose runs are over the
//! clauses of the calls, and proofs/Contracts.antt, which has what the checker makes of each.

use std::collections::{BTreeMap, BTreeSet};

/// The aliases under which a file names what the checker makes of a call's contract, by the call's name.
fn readings(text: &str) -> Result<BTreeMap<String, String>, String> {
    let mut found = BTreeMap::new();
    for line in text.lines() {
        let rest = line.strip_prefix("use Rattle.osnma.proofs.");
        let Some((name, alias)) = rest.and_then(|rest| rest.split_once(".Reads as ")) else {
            continue;
        };
        if found.insert(name.into(), alias.into()).is_some() {
            return Err(format!("{name} twice"));
        }
    }
    Ok(found)
}

/// What a call asks, and what a caller learns, in both directions: stated of each call that is named.
fn stated(boundary: &str) -> Result<BTreeSet<String>, String> {
    let statements = || boundary.lines().filter(|line| line.starts_with("pub "));
    let readings = readings(boundary)?;
    for alias in readings.values() {
        let rule = format!(
            "{}_rule",
            alias.trim_end_matches("-reads").replace('-', "_")
        );
        for what in [
            format!("→ {alias}.Asked κs args"),
            format!("{alias}.Learnt κs args r last → {rule} κs args r last"),
            format!("{rule} κs args r last → {alias}.Learnt κs args r last"),
        ] {
            if !statements().any(|line| line.contains(&what)) {
                return Err(format!("assurance does not state '{what}'"));
            }
        }
    }
    Ok(readings.into_keys().collect())
}

/// The words of a text: names as antt writes them, with their points and dashes.
fn words(text: &str) -> impl Iterator<Item = &str> {
    text.split(|c: char| c.is_whitespace() || "(){};,".contains(c))
}

/// The declaration of a name: its lines up to an empty one.
fn declaration<'a>(run: &'a str, name: &str) -> Option<&'a str> {
    let mut paragraphs = run.split("\n\n");
    let declares = |line: &str| {
        let kinds = ["abbrev pub ", "unfoldable pub ", "pub record ", "pub "];
        let rest = kinds.iter().find_map(|kind| line.strip_prefix(kind));
        rest.and_then(|rest| words(rest).next()) == Some(name)
    };
    paragraphs.find(|paragraph| paragraph.lines().any(declares))
}

/// The records that the constructors of `Did` take, and the clause that each is over.
fn constructors(run: &str) -> Result<Vec<(String, String)>, String> {
    let after = run.split_once("\npub data Did ").ok_or("no data Did")?.1;
    let lines = after.lines().skip(1);
    let lines = lines.take_while(|line| line.starts_with("  "));
    lines
        .filter(|line| !line.trim_start().starts_with("--"))
        .map(|line| {
            let missing = || format!("no constructor: {line}");
            let (_, of) = line.split_once(" : ").ok_or_else(missing)?;
            let mut of = words(of);
            let record = of.next().ok_or_else(missing)?;
            let clause = of.next().and_then(|word| word.strip_prefix("k."));
            Ok((record.into(), clause.ok_or_else(missing)?.into()))
        })
        .collect()
}

/// The calls that a step of a run can be: each has a constructor of `Did`, whose clause is what is learnt of it.
fn in_runs(run: &str, contracts: &str) -> Result<BTreeSet<String>, String> {
    let readings = readings(contracts)?;
    let mut found = BTreeSet::new();
    for (record, clause) in constructors(run)? {
        let text = declaration(run, &record).ok_or(format!("{record} is not declared"))?;
        let args = record.trim_end_matches("Did").to_string() + "Args";
        if !text.contains(&format!("Made {args} Learnt ")) {
            return Err(format!("{record} is not over its clause"));
        }
        let is = format!("      {clause} = ");
        let mut lines = contracts.lines().filter(|line| line.starts_with(&is));
        let (Some(text), None) = (lines.next(), lines.next()) else {
            return Err(format!("{clause} is not one clause"));
        };
        let learns = |alias: &str| words(text).any(|word| word == format!("{alias}.Learnt"));
        let mut learnt = readings.iter().filter(|(_, alias)| learns(alias));
        let (Some((name, _)), None) = (learnt.next(), learnt.next()) else {
            return Err(format!("{clause} has not one call's `Learnt`"));
        };
        if !found.insert(name.clone()) {
            return Err(format!("{name} has two constructors"));
        }
    }
    let without = readings.keys().find(|name| !found.contains(*name));
    without.map_or(Ok(found), |name| Err(format!("{name} has no constructor")))
}

/// The calls that the files cover; an error where one lacks what another has.
pub fn covered(boundary: &str, contracts: &str, run: &str) -> Result<BTreeSet<String>, String> {
    let (stated, in_runs) = (stated(boundary)?, in_runs(run, contracts)?);
    match stated.symmetric_difference(&in_runs).next() {
        Some(name) => Err(format!("{name} in one of both alone")),
        None => Ok(stated),
    }
}
