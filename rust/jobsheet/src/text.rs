//! The sheet as text for a terminal.

use crate::boom::{minutes, Lately, LIMITS, NEEDED};
use crate::finding::Finding;
use crate::html::grouped;
use crate::phone;
use crate::sheet::{MarkedSet, RunSheet, Sheet, Strip, Strips, RESTS_ON};
use crate::time::Clock;
use crate::timeline::{Cell, Said};
use crate::warnings::{Grade, Table, Warning};
use crate::words::count;
use std::fmt::Write;

/// Columns of a line of text.
const WIDTH: usize = 96;
/// Half minutes a line.
const CELLS: usize = 60;

/// The letter of a cell.
pub fn letter(said: Said) -> char {
    match said {
        Said::Authentic => '#',
        Said::Agrees => '=',
        Said::Wrong => 'X',
        Said::Waits => 'w',
        Said::NoSet => '-',
        Said::NoPlace => 'o',
        Said::NotTaken => '?',
        Said::Missing => ':',
        Said::Refused => '/',
        Said::Nothing => '.',
    }
}

/// The text in lines of the width, each after `indent`; the first after `first`.
fn wrapped(out: &mut String, first: &str, indent: &str, text: &str) {
    let mut line = first.to_string();
    let mut bare = true;
    for word in text.split(' ') {
        if !bare && line.chars().count() + 1 + word.chars().count() > WIDTH {
            let _ = writeln!(out, "{}", line.trim_end());
            line = indent.to_string();
            bare = true;
        }
        if !bare {
            line.push(' ');
        }
        line.push_str(word);
        bare = false;
    }
    let _ = writeln!(out, "{}", line.trim_end());
}

/// All of the sheet.
pub fn sheet(sheet: &Sheet) -> String {
    told(sheet, true)
}

/// The sheet without the marked bytes and what they rest on.
pub fn summary(sheet: &Sheet) -> String {
    told(sheet, false)
}

fn told(sheet: &Sheet, with_bytes: bool) -> String {
    let mut out = String::new();
    if let Some((cut, rest)) = &sheet.cut {
        wrapped(&mut out, "", "", &format!("{cut}. {rest}"));
        out.push('\n');
    }
    let _ = writeln!(
        out,
        "JOB SHEET of {} ({} records)\nSHA-256 {}\nby {}",
        sheet.name,
        sheet.records,
        sheet.sha256,
        Sheet::made_by()
    );
    if let Some(before) = &sheet.before_start {
        wrapped(&mut out, "", "  ", before);
    }
    if let Some(all) = &sheet.all_parts {
        finding(&mut out, all, &all.text);
    }
    for run in &sheet.runs {
        if let Some((n, of)) = run.part {
            let _ = writeln!(out, "\nPART {n} OF {of}");
        }
        finding(&mut out, &run.finding, &[run.finding.text.join(" ")]);
        counted(&mut out, run);
        shown(&mut out, run.clock, &run.overview);
        events(&mut out, run);
        out.push_str("\nWARNINGS\n");
        if let Some(none) = run.no_warning() {
            let _ = writeln!(out, "  {none}");
        }
        warnings(&mut out, &run.front);
        if let Some(detail) = &run.detail {
            shown(&mut out, run.clock, detail);
        }
        if with_bytes {
            back(&mut out, run);
            marked(&mut out, run);
        }
    }
    out
}

/// What it comes to, its text in lines.
fn finding(out: &mut String, finding: &Finding, lines: &[String]) {
    out.push('\n');
    let sign = if finding.good { "  " } else { "! " };
    wrapped(out, sign, "  ", &finding.title);
    for line in lines {
        wrapped(out, "  ", "  ", line);
    }
    wrapped(out, "  ", "  ", &format!("Do: {}", finding.to_do));
}

fn counted(out: &mut String, run: &RunSheet) {
    let _ = writeln!(
        out,
        "\n  {} heard, {} marked at the end. {}",
        count(run.heard as u64, "satellite"),
        run.marked_at_end(),
        run.span
    );
    wrapped(out, "  ", "  ", &format!("Times are {}.", run.clock.told()));
}

fn events(out: &mut String, run: &RunSheet) {
    if run.events.is_empty() {
        return;
    }
    out.push_str("\nEVENTS\n");
    for event in &run.events {
        let sign = match event.grade {
            Grade::Warning => "! ",
            Grade::Note => "  ",
        };
        wrapped(
            out,
            &format!("{sign}{}  ", event.when),
            "            ",
            &event.what,
        );
    }
}

fn warnings(out: &mut String, all: &[Warning]) {
    for warning in all {
        let sign = match warning.grade {
            Grade::Warning => "! ",
            Grade::Note => "  ",
        };
        wrapped(
            out,
            sign,
            "  ",
            &format!("{} {}", warning.title, warning.text),
        );
        if let Some(table) = &warning.table {
            rows(out, table);
        }
    }
}

fn rows(out: &mut String, table: &Table) {
    let head: Vec<String> = table.head.iter().map(|name| name.to_string()).collect();
    let all = || std::iter::once(&head).chain(&table.rows);
    let width = |column: usize| {
        let lines = all().flat_map(|row| row[column].lines());
        lines.map(|line| line.chars().count()).max().unwrap_or(0)
    };
    let widths: Vec<usize> = (0..head.len()).map(width).collect();
    for row in all() {
        // The lines of its fields, side by side.
        let height = row.iter().map(|field| field.lines().count()).max();
        for n in 0..height.unwrap_or(0) {
            let line: String = row
                .iter()
                .zip(&widths)
                .map(|(field, width)| format!("{:<width$}  ", field.lines().nth(n).unwrap_or("")))
                .collect();
            let _ = writeln!(out, "    {}", line.trim_end());
        }
    }
}

fn back(out: &mut String, run: &RunSheet) {
    out.push_str("\nFOR THE ENGINEER\n");
    for (what, value) in &run.facts {
        wrapped(out, &format!("  {what:<25} "), &" ".repeat(28), value);
    }
    warnings(out, &run.back);
}

fn shown(out: &mut String, clock: Clock, strips: &Strips) {
    if strips.columns.is_empty() {
        return;
    }
    let _ = write!(
        out,
        "\nWHAT WAS AUTHENTIC WHEN (a sign is {})\n  ",
        strips.cell_told()
    );
    let sign = |said: Said| format!("{} {}", letter(said), said.words().0);
    out.push_str(&Said::ALL.map(sign).join("  "));
    let [few, more] = LIMITS.map(minutes);
    let _ = writeln!(
        out,
        "\n  . no tag, but heard   v data changed while a slow tag waited\n  \
         {few}m, {more}m: whether {NEEDED} satellites, as the boom needs, had a mark at most so old (y yes, n no),\n  \
         and under it how many had (+ ten and more)"
    );
    for from in (0..strips.columns.len()).step_by(CELLS) {
        let to = (from + CELLS).min(strips.columns.len());
        let _ = writeln!(
            out,
            "\n  {}",
            clock
                .dated()
                .range(strips.columns[from].first, strips.columns[to - 1].last)
        );
        lately(out, strips, from, to);
        for strip in &strips.rows {
            row(out, clock, strip, from, to, to == strips.columns.len());
        }
    }
}

/// Whether four satellites were marked lately, a letter each, and how many, a digit each.
fn lately(out: &mut String, strips: &Strips, from: usize, to: usize) {
    let yes = |lately: Lately| if lately.four { 'y' } else { 'n' };
    let digit = |lately: Lately| char::from_digit(lately.count.into(), 10).unwrap_or('+');
    for (n, limit) in LIMITS.iter().enumerate() {
        let columns = strips.columns[from..to].iter();
        let columns = columns.map(|column| column.marked_lately.map(|all| all[n]));
        let signs = |sign: fn(Lately) -> char| -> String {
            columns.clone().map(|one| one.map_or(' ', sign)).collect()
        };
        let limit = minutes(*limit);
        let _ = writeln!(
            out,
            "  {limit:>2}m  {}  {NEEDED} marked, {limit} min",
            signs(yes)
        );
        let _ = writeln!(out, "       {}  so many", signs(digit));
    }
}

/// The letter of a cell; a blank where nothing came from the satellite or for it.
fn of_cell(cell: &Cell) -> char {
    match cell.said() {
        Said::Nothing if cell.heard == 0 => ' ',
        said => letter(said),
    }
}

fn row(out: &mut String, clock: Clock, strip: &Strip, from: usize, to: usize, last: bool) {
    let cells = &strip.cells[from..to];
    let line: String = cells.iter().map(of_cell).collect();
    if cells.iter().any(|cell| cell.changed) {
        let sign = |changed| if changed { 'v' } else { ' ' };
        let marks: String = cells.iter().map(|cell| sign(cell.changed)).collect();
        let _ = writeln!(out, "       {}", marks.trim_end());
    }
    let silent = strip.cells.last().is_some_and(|cell| cell.heard == 0);
    let mut end = String::new();
    if let (true, Some((iodnav, check))) = (last, &strip.at_end) {
        end = format!("  issue {iodnav:>4}  {check}");
    }
    if last && silent {
        let told = strip.last_heard.map_or("not heard".into(), |at| {
            format!("heard to {}", clock.time_of_day(at))
        });
        let _ = write!(end, "  {told}");
    }
    let _ = writeln!(out, "  E{:02}  {line}{end}", strip.prn);
}

fn marked(out: &mut String, run: &RunSheet) {
    out.push_str("\nMARKED BYTES\n");
    if run.marked.is_empty() {
        out.push_str("  No data was marked.\n");
        return;
    }
    wrapped(out, "  ", "  ", phone::HOW);
    if let Some(check) = &run.check_of_all {
        let _ = writeln!(out, "  All sets at the end, one after another: {check}");
    }
    for set in &run.marked {
        one_set(out, run, set);
    }
}

fn one_set(out: &mut String, run: &RunSheet, set: &MarkedSet) {
    let _ = writeln!(
        out,
        "\n  E{:02}  IODnav {}  check value {}  {} {}",
        set.set.prn,
        set.set.iodnav,
        set.check,
        if set.at_end {
            "authentic"
        } else {
            "was authentic"
        },
        set.period(run.clock)
    );
    for line in grouped(&set.set.bytes).lines() {
        let _ = writeln!(out, "       {line}");
    }
    for (what, value) in RESTS_ON.iter().zip(set.rests_on(run.clock)) {
        let _ = writeln!(out, "       {what:<5} {value}");
    }
}
