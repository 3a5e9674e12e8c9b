//! Words that every part of the sheet uses.

use crate::history::Run;
use crate::time::Clock;
use osnma::Gst;
use std::collections::BTreeSet;

/// `1 tag`, `2 tags`.
pub fn count(n: u64, what: &str) -> String {
    format!("{n} {what}{}", if n == 1 { "" } else { "s" })
}

/// `a`, `a and b`, `a, b and c`.
pub fn listed(names: &[String]) -> String {
    match names.split_last() {
        Some((last, [])) => last.clone(),
        Some((last, others)) => format!("{} and {last}", others.join(", ")),
        None => "none".into(),
    }
}

/// `1`, `1 and 2`, `1 to 3 and 5`, each by its name: neighbours are joined where they are three or more.
fn joined(numbers: impl IntoIterator<Item = u64>, name: impl Fn(u64) -> String) -> String {
    let mut spans: Vec<(u64, u64)> = Vec::new();
    for n in numbers {
        match spans.last_mut() {
            Some((_, last)) if n - *last == 1 => *last = n,
            _ => spans.push((n, n)),
        }
    }
    let names: Vec<String> = spans
        .into_iter()
        .flat_map(|(first, last)| match last - first {
            0 => vec![name(first)],
            1 => vec![name(first), name(last)],
            _ => vec![format!("{} to {}", name(first), name(last))],
        })
        .collect();
    listed(&names)
}

/// `E04, E11 and E27`, `E01 to E35 and E36`.
pub fn satellites(prns: &BTreeSet<u8>) -> String {
    let numbers = prns.iter().map(|prn| u64::from(*prn));
    joined(numbers, |prn| format!("E{prn:02}"))
}

/// `part 2`, `parts 1 to 3 and 5`.
pub fn parts(numbers: &[u64]) -> String {
    let s = if numbers.len() == 1 { "" } else { "s" };
    let names = joined(numbers.iter().copied(), |n| n.to_string());
    format!("part{s} {names}")
}

/// The satellites of a run, by name where they are few.
pub fn which(run: &Run, prns: &BTreeSet<u8>) -> String {
    if prns.len() > 8 && prns.iter().eq(run.heard.keys()) {
        format!("all {} satellites", prns.len())
    } else {
        satellites(prns)
    }
}

/// Issues of data, by number where they are few.
pub fn issues(all: &BTreeSet<u16>) -> String {
    match all.len() {
        0 => "none".into(),
        1..=4 => Vec::from_iter(all.iter().map(u16::to_string)).join(", "),
        n => format!("{n} issues"),
    }
}

/// One issue of data; words of several are mixed.
pub fn issue(iodnav: Option<u16>) -> String {
    iodnav.map_or("mixed".into(), |n| n.to_string())
}

/// `from .. to ..`, where there is a time.
pub fn span(clock: Clock, times: Option<(Gst, Gst)>) -> String {
    times.map_or(String::new(), |(first, last)| clock.span(first, last))
}

/// With its first letter large.
pub fn capital(mut text: String) -> String {
    if let Some(first) = text.get_mut(..1) {
        first.make_ascii_uppercase();
    }
    text
}

/// Capital hexadecimal digits.
pub fn hex(bytes: &[u8]) -> String {
    bytes.iter().map(|byte| format!("{byte:02X}")).collect()
}

#[cfg(test)]
mod tests {
    use super::*;

    #[test]
    fn names() {
        let of = |prns: &[u8]| satellites(&prns.iter().copied().collect());
        assert_eq!(of(&[]), "none");
        assert_eq!(of(&[4]), "E04");
        assert_eq!(of(&[4, 11, 12, 27]), "E04, E11, E12 and E27");
        assert_eq!(of(&[1, 2, 3, 4, 36]), "E01 to E04 and E36");
        assert_eq!(of(&[0, 255]), "E00 and E255");
    }

    #[test]
    fn issues_by_number() {
        let of = |all: &[u16]| issues(&all.iter().copied().collect());
        assert_eq!(of(&[]), "none");
        assert_eq!(of(&[110, 73, 110]), "73, 110");
        assert_eq!(of(&[0, 1, 2, 3, 4]), "5 issues");
    }
}
