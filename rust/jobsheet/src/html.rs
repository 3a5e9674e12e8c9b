//! The sheet as one page of HTML: no network, no script, prints on A4.

use crate::finding::Finding;
use crate::phone;
use crate::sheet::{EventLine, MarkedSet, RunSheet, Sheet, RESTS_ON};
use crate::strip_svg::{sign, strips, DETAIL_ROWS, FRONT_ROWS, SIGNS};
use crate::time::Clock;
use crate::timeline::{Cell, Said};
use crate::warnings::{Grade, Table, Warning};
use crate::words::count;
use osnma::AUTHENTIC_BITS;
use std::fmt::Write;

const STYLE: &str = include_str!("sheet.css");

/// Lines of events on the front; where there are more, all stand on the back.
const FRONT_EVENTS: usize = 8;

/// Text between tags or in an attribute.
pub fn escaped(text: &str) -> String {
    let mut out = String::with_capacity(text.len());
    for c in text.chars() {
        match c {
            '&' => out.push_str("&amp;"),
            '<' => out.push_str("&lt;"),
            '>' => out.push_str("&gt;"),
            '"' => out.push_str("&quot;"),
            '\'' => out.push_str("&#39;"),
            c => out.push(c),
        }
    }
    out
}

/// The page.
pub fn page(sheet: &Sheet) -> String {
    let name = escaped(&sheet.name);
    let mut out = format!(
        "<!DOCTYPE html>\n<html lang=\"en\">\n<head>\n<meta charset=\"utf-8\">\n\
         <meta name=\"viewport\" content=\"width=device-width, initial-scale=1\">\n\
         <title>Job sheet: {name}</title>\n<style>\n{}{STYLE}</style>\n</head>\n<body>\n{SIGNS}",
        paper_foot(sheet)
    );
    for (n, run) in sheet.runs.iter().enumerate() {
        out.push_str("<main>\n");
        front(&mut out, sheet, run, n == 0);
        if let Some(detail) = &run.detail {
            let _ = writeln!(
                out,
                "<section class=\"detail\">\n<h2>What was authentic when <span>a cell is {}</span></h2>",
                detail.cell_told()
            );
            strips(&mut out, run, detail, DETAIL_ROWS);
            out.push_str("</section>\n");
        }
        back(&mut out, run);
        marked(&mut out, &name, run);
        let _ = writeln!(out, "<footer>{}</footer>\n</main>", escaped(&foot(sheet)));
    }
    out.push_str("</body>\n</html>\n");
    out
}

/// What stands at the foot: what made the sheet, and of which recording.
fn foot(sheet: &Sheet) -> String {
    let cut = sheet
        .cut
        .as_ref()
        .map_or(String::new(), |(cut, _)| format!("{cut} \u{b7} "));
    format!(
        "{cut}{} \u{b7} recording's SHA-256 {}",
        Sheet::made_by(),
        sheet.sha256
    )
}

/// The foot of every page on paper. Nothing in it needs escaping in a style sheet.
fn paper_foot(sheet: &Sheet) -> String {
    let weight = if sheet.cut.is_some() { 700 } else { 400 };
    let font = "\"Liberation Sans\", Arial, sans-serif; color: #333;";
    format!(
        "@page {{ size: A4; margin: 11mm 10mm 12mm; \
         @bottom-left {{ content: \"{}\"; font: {weight} 6.6pt {font} white-space: nowrap; }} \
         @bottom-right {{ content: counter(page) \" of \" counter(pages); font: 7.5pt {font} }} }}\n",
        foot(sheet)
    )
}

fn front(out: &mut String, sheet: &Sheet, run: &RunSheet, first: bool) {
    if let Some((cut, rest)) = &sheet.cut {
        let _ = writeln!(
            out,
            "<p class=\"cut\"><b>{}.</b> {}</p>",
            escaped(cut),
            escaped(rest)
        );
    }
    title(out, sheet, run);
    if let (true, Some(before)) = (first, &sheet.before_start) {
        let _ = writeln!(out, "<p class=\"remark\">{}</p>", escaped(before));
    }
    if let (true, Some(all)) = (first, &sheet.all_parts) {
        let lines = all
            .text
            .iter()
            .map(|line| format!("<p>{}</p>", escaped(line)));
        finding(out, all, &lines.collect::<String>());
    }
    if let Some((n, of)) = run.part {
        let _ = writeln!(out, "<h2 class=\"part\">Part {n} of {of}</h2>");
    }
    let text = escaped(&run.finding.text.join(" "));
    finding(out, &run.finding, &format!("<p>{text}</p>"));
    if !run.overview.columns.is_empty() {
        out.push_str("<section class=\"when\">\n<h2>What was authentic when</h2>\n");
        strips(out, run, &run.overview, FRONT_ROWS);
        legend(out, run);
        out.push_str("</section>\n");
    }
    events(out, &run.events);
    warnings(out, run);
}

fn title(out: &mut String, sheet: &Sheet, run: &RunSheet) {
    let part = run
        .part
        .map_or(String::new(), |(n, of)| format!(" \u{b7} Part {n} of {of}"));
    let check = run.check_of_all.as_ref().map_or(String::new(), |check| {
        format!("<span class=\"check-all\">check of all <b>{check}</b></span>")
    });
    let marked = match run.marked_at_end() {
        0 => "none marked".into(),
        n if n == run.heard => "all marked at the end".into(),
        n => format!("{n} marked at the end"),
    };
    let _ = writeln!(
        out,
        "<header>\n<div><h1>Job sheet</h1>\n\
         <p class=\"file\"><b>{}</b>, {}{part}</p>\n\
         <p class=\"span\">{}<span>Times are {}.</span></p></div>\n\
         <div class=\"score\"><b>{} heard</b><span>{marked}</span>{check}</div>\n</header>",
        escaped(&sheet.name),
        count(sheet.records, "record"),
        escaped(&match run.span.as_str() {
            "" => String::new(),
            span => format!("{span}. "),
        }),
        escaped(&run.clock.told()),
        count(run.heard as u64, "satellite"),
    );
}

/// The first words: what the run comes to, in a box, with a sign that differs without colour.
fn finding(out: &mut String, finding: &Finding, text: &str) {
    let class = if finding.good { "good" } else { "bad" };
    let _ = writeln!(
        out,
        "<section class=\"finding {class}\">\n\
         <svg viewBox=\"0 0 40 40\" role=\"img\" aria-label=\"{class}\"><use href=\"#is{class}\"/></svg>\n\
         <div>\n<p class=\"first\">{}</p>\n{text}\n<p><b>Do:</b> {}</p>\n</div>\n</section>",
        escaped(&finding.title),
        escaped(&finding.to_do)
    );
}

fn events(out: &mut String, events: &[EventLine]) {
    if events.is_empty() {
        return;
    }
    out.push_str("<section class=\"events\">\n<h2>Events</h2>\n<dl>\n");
    let many = events.len() > FRONT_EVENTS;
    let front = events
        .iter()
        .filter(|event| !many || event.grade == Grade::Warning);
    for event in front.take(FRONT_EVENTS) {
        event_line(out, event);
    }
    if many {
        let _ = writeln!(
            out,
            "<dt>and others</dt><dd>{} in all: see the back.</dd>",
            events.len()
        );
    }
    out.push_str("</dl>\n</section>\n");
}

fn event_line(out: &mut String, event: &EventLine) {
    let class = match event.grade {
        Grade::Warning => " class=\"alert\"",
        Grade::Note => "",
    };
    let _ = writeln!(
        out,
        "<dt{class}>{}</dt><dd{class}>{}</dd>",
        escaped(&event.when),
        escaped(&event.what)
    );
}

fn warnings(out: &mut String, run: &RunSheet) {
    out.push_str("<section class=\"warnings\">\n<h2>Warnings</h2>\n");
    if let Some(none) = run.no_warning() {
        let _ = writeln!(out, "<p class=\"fine\">{none}</p>");
    }
    for warning in &run.front {
        one_warning(out, warning);
    }
    out.push_str("</section>\n");
}

fn one_warning(out: &mut String, warning: &Warning) {
    let (class, sign) = match warning.grade {
        Grade::Warning => ("warning", "!"),
        Grade::Note => ("note", "i"),
    };
    let _ = writeln!(
        out,
        "<div class=\"{class}\"><span class=\"sign\">{sign}</span><div><p><b>{}</b> {}</p>",
        escaped(&warning.title),
        escaped(&warning.text)
    );
    if let Some(table) = &warning.table {
        rows(out, table);
    }
    out.push_str("</div></div>\n");
}

fn rows(out: &mut String, table: &Table) {
    out.push_str(match table.bar {
        None => "<table><thead><tr>",
        Some(_) => "<table class=\"blocks\"><thead><tr>",
    });
    for name in &table.head {
        let _ = write!(out, "<th>{}</th>", escaped(name));
    }
    out.push_str("</tr></thead><tbody>\n");
    for row in &table.rows {
        let fields: String = row
            .iter()
            .enumerate()
            .map(|(n, field)| match table.bar == Some(n) {
                false => format!("<td>{}</td>", escaped(&field.replace('\n', "; "))),
                true => format!("<td>{}</td>", bar(field)),
            })
            .collect();
        let _ = writeln!(out, "<tr>{fields}</tr>");
    }
    out.push_str("</tbody></table>\n");
}

/// Blocks side by side: full ones are held, empty ones missing.
fn bar(blocks: &str) -> String {
    let mut out = format!(
        "<svg viewBox=\"0 0 {} 12\" style=\"width: {:.1}mm\" aria-hidden=\"true\">",
        10 * blocks.len(),
        2.4 * blocks.len() as f64
    );
    for (n, block) in blocks.chars().enumerate() {
        let x = 10 * n + 1;
        let _ = match block {
            '?' => write!(out, "<text x=\"{x}\" y=\"10.5\">?</text>"),
            _ => write!(
                out,
                "<rect x=\"{x}\" y=\"1\" width=\"8\" height=\"10\" class=\"{}\"/>",
                if block == '#' { "held" } else { "lacks" }
            ),
        };
    }
    out.push_str("</svg>");
    out
}

/// For the engineer: chain and root, refusals with their numbers, data that changed.
fn back(out: &mut String, run: &RunSheet) {
    out.push_str("<section class=\"back\">\n<h2>For the engineer</h2>\n<dl>\n");
    for (what, value) in &run.facts {
        let _ = writeln!(out, "<dt>{}</dt><dd>{}</dd>", escaped(what), escaped(value));
    }
    out.push_str("</dl>\n");
    for warning in &run.back {
        one_warning(out, warning);
    }
    if run.events.len() > FRONT_EVENTS {
        out.push_str("<h2>All events</h2>\n<dl>\n");
        for event in &run.events {
            event_line(out, event);
        }
        out.push_str("</dl>\n");
    }
    out.push_str("</section>\n");
}

/// A sign of the legend with its words.
fn key(out: &mut String, name: &str, what: &str, more: &str) {
    let _ = write!(
        out,
        "<li><svg viewBox=\"0 0 20 24\"><use href=\"#{name}\" width=\"20\" height=\"24\"/></svg>\
         <span><b>{what}</b> {more}</span></li>"
    );
}

fn legend(out: &mut String, run: &RunSheet) {
    let strips = &run.overview;
    let (several, least) = match strips.step {
        1 => ("", ""),
        _ => (", the worst of them", ", at the least"),
    };
    let _ = writeln!(
        out,
        "<p class=\"how\">A tag is a short code that the system sends. Data that tags of {AUTHENTIC_BITS} \
         bits together match is the system\u{2019}s own, and is marked; with fewer they only agree. A \
         cell is {} with what the tags for that satellite said{several}; slow tags are judged later. Over the cells: since when data is marked, with \
         its issue number. Under them: when the satellite was heard. Figures of the first rows: how many \
         satellites had such marks{least}.</p>\n<ul class=\"legend\">",
        strips.cell_told()
    );
    let cells = || strips.rows.iter().flat_map(|strip| &strip.cells);
    for said in Said::ALL {
        if cells().any(|cell| cell.said() == said) {
            let (what, more) = said.words();
            key(out, sign(said), what, more);
        }
    }
    if cells().any(Cell::has_bar) {
        key(
            out,
            "ownrefused",
            "refused",
            "the same, but others sent tags for it",
        );
    }
    if cells().any(|cell| cell.changed) {
        key(out, "changed", "data changed", "while a slow tag waited");
    }
    key(out, "selfheard", "heard itself", "");
    out.push_str("</ul>\n");
}

fn marked(out: &mut String, name: &str, run: &RunSheet) {
    let _ = writeln!(
        out,
        "<section class=\"marked\">\n<h2>Marked bytes <span>of {name}</span></h2>"
    );
    if run.marked.is_empty() {
        out.push_str("<p>No data was marked.</p>\n");
    } else {
        marked_sets(out, run);
    }
    out.push_str(
        "<p class=\"handed\"><span>Job</span><span>Machine</span><span>Fitter</span>\
         <span>Date</span></p>\n</section>\n",
    );
}

fn marked_sets(out: &mut String, run: &RunSheet) {
    let _ = writeln!(
        out,
        "<p class=\"how\">Words 1 to 5 of the satellite: 549 bits and three zero bits, 69 bytes. \
         Each rests on tags of {AUTHENTIC_BITS} bits or more together that match these very bits, each \
         under the key of its slot; that key hashes down to the root; a good verdict vouched for the \
         root, under a public key that was given at the start or proved by the tree. Shown are the \
         latest tag and the tags that were summed. {} The check of all is over the sets at the end, \
         one after another.</p>\n<div class=\"sets\">",
        escaped(phone::HOW)
    );
    for set in &run.marked {
        one_set(out, set, run.clock);
    }
    if run.sets_left_out > 0 {
        let _ = writeln!(
            out,
            "<p>{} of data that were marked before these are not shown.</p>",
            count(run.sets_left_out, "issue")
        );
    }
    out.push_str("</div>\n");
}

/// Hexadecimal digits in groups of three bytes, eight groups a line.
pub fn grouped(bytes: &[u8]) -> String {
    let group = |three: &[u8]| {
        three
            .iter()
            .map(|byte| format!("{byte:02X}"))
            .collect::<String>()
    };
    let line = |part: &[u8]| Vec::from_iter(part.chunks(3).map(group)).join(" ");
    Vec::from_iter(bytes.chunks(24).map(line)).join("\n")
}

fn one_set(out: &mut String, set: &MarkedSet, clock: Clock) {
    let (class, is) = match set.at_end {
        true => ("set", "authentic"),
        false => ("set earlier", "was authentic"),
    };
    let _ = writeln!(
        out,
        "<article class=\"{class}\" data-set=\"E{0:02}\">\n\
         <div><h3>E{0:02}</h3><p>IODnav <b>{1}</b></p><p class=\"check\">{2}</p></div>\n\
         <div><pre>{3}</pre><p>{is} {4}</p></div>\n<dl>",
        set.set.prn,
        set.set.iodnav,
        set.check,
        grouped(&set.set.bytes),
        escaped(&set.period(clock))
    );
    for (what, value) in RESTS_ON.iter().zip(set.rests_on(clock)) {
        let _ = writeln!(out, "<dt>{what}</dt><dd>{}</dd>", escaped(&value));
    }
    out.push_str("</dl></article>\n");
}
