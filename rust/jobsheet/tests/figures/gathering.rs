//! How the keys came: the rows of the sheet beside what the second receiver holds after each sub-frame, and
//! what the box says where keys never came whole.

use crate::common::{
    history, recording, run_page, runs, sheet_of, subframe_time, without_block, Held, Line, OneRun,
};
use jobsheet::history::{History, Reads};
use jobsheet::html;
use jobsheet::receiver::Receiver;
use jobsheet::recording::{Reader, RECORD_LEN};
use jobsheet::time::{self, Clock};
use osnma::{AuthenticSet, Core, Gst, Progress, WaitingMessage};
use std::collections::BTreeMap;

/// When, message, bar, blocks held, and what became of it.
type Row = [String; 5];

/// A noted sub-frame: its time, DSM ID and answer, and what was held before and after it.
struct Noted<'a> {
    at: Gst,
    dsm_id: usize,
    first: u32,
    second: u32,
    before: &'a Held,
    after: &'a Held,
    /// Its place among the lines of its run.
    line: usize,
}

fn noted<'a>(lines: &'a [Line], records: &[u8], nothing: &'a Held) -> Vec<Noted<'a>> {
    let mut all = Vec::new();
    for (n, (line, r)) in lines
        .iter()
        .zip(records.chunks_exact(RECORD_LEN))
        .enumerate()
    {
        if [3, 6].contains(&r[0]) && ![2, 3, 4].contains(&line.first) {
            all.push(Noted {
                at: Gst::from_bits(subframe_time(r)),
                dsm_id: usize::from(r[11] >> 4),
                first: line.first,
                second: line.second,
                before: if n == 0 { nothing } else { &lines[n - 1].after },
                after: &line.after,
                line: n,
            });
        }
    }
    all
}

/// Blocks held and missing.
type Figures = (u8, Option<u8>);

fn figures(held: &Held, id: usize) -> Figures {
    let none = || (0, None);
    let of = held.progress.get(id);
    of.map_or_else(none, |of| (of.held, of.missing))
}

/// `###.....`, `3 of 8`, `5 missing`.
fn told((held, missing): Figures) -> [String; 3] {
    let bar = "#".repeat(held.into());
    match missing {
        None => [bar + "?", format!("{held}, total unknown"), String::new()],
        Some(missing) => [
            bar + &".".repeat(missing.into()),
            format!("{held} of {}", held + missing),
            format!("{missing} missing"),
        ],
    }
}

/// What the signature chip said of the message that waits after this line, or what else ended the wait.
fn answered(lines: &[Line], records: &[u8], line: usize, clock: Clock) -> String {
    let message = &lines[line].after.message;
    let mut at = String::new();
    for (line, r) in lines
        .iter()
        .zip(records.chunks_exact(RECORD_LEN))
        .skip(line)
    {
        if [3, 6].contains(&r[0]) && ![2, 3, 4].contains(&line.first) {
            at = clock.say(Gst::from_bits(subframe_time(r)));
        }
        if line.after.message != *message {
            return match (r[0], line.first) {
                (4, 0) => format!("whole; the chip said yes at {at}"),
                (4, 15) => format!("whole; the chip said NO at {at}"),
                (4, _) => format!("whole; the chip said yes at {at}, not taken"),
                _ => format!("whole; replaced at {at}"),
            };
        }
    }
    "whole; waits for the chip".into()
}

/// What became of a whole message.
fn then(run: &OneRun, of: &Noted) -> String {
    let refused = |why: &str| format!("whole; refused: {why}");
    match (of.first, of.dsm_id < 12) {
        (0, true) => answered(run.lines, run.records, of.line, run.sheet.clock),
        (0, false) if of.second == 4 => "whole; STOPPED the receiver".into(),
        (0, false) => "whole; a public key".into(),
        (7, _) => refused("signed under a public key not held"),
        (8, _) => refused("parameters not taken here"),
        (9, _) => refused("not newer than what is held"),
        (10, _) => refused("not the system's"),
        _ => refused("its size cannot be"),
    }
}

/// Sub-frames from the one that brought a DSM ID's first block to the one that ended the gathering, or the last.
struct Spell<'a> {
    id: usize,
    of: &'a [Noted<'a>],
    ended: bool,
}

/// The gatherings of a DSM ID. Nothing held after some is a whole message; other blocks, and no more of them,
/// are a new gathering.
fn spells<'a>(all: &'a [Noted<'a>], id: usize) -> Vec<Spell<'a>> {
    let mut found = Vec::new();
    let mut from = 0;
    for (n, of) in all.iter().enumerate() {
        let (before, after) = (figures(of.before, id), figures(of.after, id));
        let ended = before.0 > 0 && after != before && after.0 <= before.0;
        if ended {
            let of = &all[from..=n];
            found.push(Spell { id, of, ended });
        }
        if after.0 > 0 && (ended || before.0 == 0) {
            from = n;
        }
    }
    if all.last().is_some_and(|of| figures(of.after, id).0 > 0) {
        let (of, ended) = (&all[from..], false);
        found.push(Spell { id, of, ended });
    }
    found
}

impl Spell<'_> {
    fn last(&self) -> &Noted<'_> {
        &self.of[self.of.len() - 1]
    }

    /// Whether no chain was in force at the end, and no message waited before.
    fn is_wanting(&self, run: &OneRun) -> bool {
        if !self.ended {
            let held = &run.lines[run.lines.len() - 1].after;
            return !held.in_force && held.message.is_none();
        }
        let (before, after) = (&self.last().before.message, &self.last().after.message);
        let new = after.is_some() && after != before;
        !self.last().after.in_force && (new || before.is_none())
    }

    /// Which rows it is among: before the first keys, after they were dropped, or of long ones.
    fn group(&self, run: &OneRun) -> usize {
        let upto = if self.ended {
            self.last().line
        } else {
            run.lines.len() - 1
        };
        let mut before = run.lines[..=upto].iter();
        match self.is_wanting(run) {
            true if before.any(|line| line.after.in_force) => 1,
            true => 0,
            false => 2,
        }
    }

    /// From the first block to the last that was answered 0, or to the one that ended it.
    fn span(&self) -> (Gst, Gst) {
        let came = |of: &&Noted| of.dsm_id == self.id && of.first == 0;
        let last = self.of.iter().rfind(came).map(|of| of.at);
        let end = if self.ended {
            Some(self.last().at)
        } else {
            last
        };
        (self.of[0].at, end.unwrap())
    }

    fn is_long(&self) -> bool {
        let (first, last) = self.span();
        time::seconds(last) - time::seconds(first) > 600
    }

    /// The figures at the ends of its half minutes, but of the one in which it ended.
    fn at_ends(&self) -> BTreeMap<Gst, Figures> {
        let of = &self.of[..self.of.len() - usize::from(self.ended)];
        let mut all: BTreeMap<_, _> = of
            .iter()
            .map(|of| (of.at, figures(of.after, self.id)))
            .collect();
        if self.ended {
            all.remove(&self.last().at);
        }
        all
    }

    fn rows(&self, run: &OneRun) -> Vec<Row> {
        let clock = run.sheet.clock;
        let name = match self.id {
            0..12 => format!("keys {}", self.id),
            _ => format!("public key {}", self.id),
        };
        let row = |first: Gst, last: Gst, figures: Figures| {
            let when = match first == last {
                true => clock.say(first),
                false => clock.range(first, last),
            };
            let [bar, held, missing] = told(figures);
            [when, name.clone(), bar, held, missing]
        };
        let (first, last) = self.span();
        let mut rows = Vec::new();
        if self.is_wanting(run) {
            let at_ends = Vec::from_iter(self.at_ends());
            for same in at_ends.chunk_by(|a, b| a.1 == b.1) {
                rows.push(row(same[0].0, same[same.len() - 1].0, same[0].1));
            }
        } else if !self.ended {
            rows.push(row(first, last, figures(self.last().after, self.id)));
        }
        let (before, after) = (self.last().before, self.last().after);
        if self.ended && figures(after, self.id).0 == 0 {
            let all = figures(before, self.id).0 + 1;
            let first = if self.is_wanting(run) { last } else { first };
            let mut whole = row(first, last, (all, Some(0)));
            whole[4] = then(run, self.last());
            rows.push(whole);
        } else if self.ended {
            if !self.is_wanting(run) {
                rows.push(row(first, last, figures(before, self.id)));
            }
            if let Some([.., then]) = rows.last_mut() {
                let parted = if then.is_empty() { "" } else { "; " };
                *then += &format!("{parted}dropped at {}", clock.say(last));
            }
        }
        rows
    }
}

/// The rows that the sheet must have, each with its group, and how many gatherings it leaves out.
fn expected(run: &OneRun) -> (Vec<(usize, Row)>, usize) {
    let nothing = Held::default();
    let all = noted(run.lines, run.records, &nothing);
    let found = (0..16).flat_map(|id| spells(&all, id));
    let shown = found.filter(|spell| spell.is_wanting(run) || spell.is_long());
    let (mut ended, open): (Vec<Spell>, Vec<Spell>) = shown.partition(|spell| spell.ended);
    ended.sort_by_key(|spell| spell.last().line);
    let left_out = ended.len().saturating_sub(32);
    ended.truncate(32);
    ended.extend(open);
    ended.sort_by_key(|spell| spell.of[0].at);
    let rows = ended.iter().flat_map(|spell| {
        let group = spell.group(run);
        spell.rows(run).into_iter().map(move |row| (group, row))
    });
    (rows.collect(), left_out)
}

/// The rows of a table of the page: the bar by its squares.
fn drawn(table: &str) -> Vec<Row> {
    let field = |td: &str| {
        let Some((_, svg)) = td.split_once("<svg") else {
            return td.replace("&#39;", "'");
        };
        let signs = svg.split('<').filter_map(|tag| match tag {
            tag if tag.contains("class=\"held\"") => Some('#'),
            tag if tag.contains("class=\"lacks\"") => Some('.'),
            tag if tag.starts_with("text") => tag.chars().last(),
            _ => None,
        });
        signs.collect()
    };
    let row = |row: &str| -> Row {
        let fields = row.split("<td>").skip(1);
        let fields = fields.map(|td| field(td.split_once("</td>").unwrap().0));
        Vec::from_iter(fields).try_into().unwrap()
    };
    let (_, rows) = table.split_once("<tbody>").unwrap();
    rows.split("<tr>").skip(1).map(row).collect()
}

/// The tables of blocks in a part of the page.
fn tables(page: &str) -> Vec<Vec<Row>> {
    let tables = page.split("<table class=\"blocks\">").skip(1);
    tables
        .map(|table| drawn(table.split_once("</table>").unwrap().0))
        .collect()
}

/// The same in the text, without blanks.
fn written(text: &str) -> Vec<Vec<String>> {
    let mut tables = Vec::new();
    let mut lines = text.lines();
    while let Some(line) = lines.next() {
        if line.starts_with("    When ") {
            let rows = lines.clone().take_while(|row| row.starts_with("    "));
            tables.push(rows.map(|row| row.replace(' ', "")).collect());
        }
    }
    tables
}

// Every row on page and text, of every recording: one of a group in words, the last ten of several in a table,
// and all on the back where that is not all.
#[test]
fn how_the_keys_came() {
    let mut seen: BTreeMap<String, usize> = BTreeMap::new();
    let (mut none, mut single, mut many, mut most) = (0, 0, 0, 0);
    for run in runs() {
        let name = run.name;
        let (right, left_out) = expected(run);
        let rows = |such: &dyn Fn(usize) -> bool| -> Vec<Row> {
            let of = right.iter().filter(|(group, _)| such(*group));
            of.map(|(_, row)| row.clone()).collect()
        };
        let groups = [0, 1, 2].map(|group| rows(&|of| of == group));
        let mut front: Vec<&[Row]> = groups
            .iter()
            .filter(|rows| rows.len() > 1)
            .map(|rows| &rows[rows.len().saturating_sub(10)..])
            .collect();
        let cut = groups.iter().any(|rows| rows.len() > 10);
        let (page_front, page_back) = run.page.split_once("<section class=\"back\">").unwrap();
        let mut on_front = tables(page_front);
        let mut in_text = written(&run.text);
        // Warnings stand before notes.
        on_front.sort();
        front.sort();
        assert_eq!(on_front, front, "{name}");
        let mut words = 0;
        for rows in &groups {
            if let [[when, message, _, held, then]] = &rows[..] {
                let parted = if then.is_empty() { "" } else { ", " };
                let told = format!("Blocks of {message} held, {when}: {held}{parted}{then}.");
                assert!(page_front.contains(&html::escaped(&told)), "{name}: {told}");
                let [text, told] = [&run.text, &told].map(|text| text.replace([' ', '\n'], ""));
                assert!(text.contains(&told), "{name}: {told}");
                words += 1;
            }
        }
        assert_eq!(page_front.matches("Blocks of ").count(), words, "{name}");
        single += words;
        let last = "the last lines; all stand on the back:";
        let longer = groups.iter().filter(|rows| rows.len() > 10).count();
        assert_eq!(page_front.matches(last).count(), longer, "{name}");
        let mut back: Vec<Vec<Row>> = Vec::new();
        back.extend((cut || left_out > 0).then(|| rows(&|_| true)));
        assert_eq!(tables(page_back), back, "{name}");
        let plain = |rows: &[Row]| -> Vec<String> {
            let rows = rows.iter().map(|row| row.concat().replace(' ', ""));
            rows.collect()
        };
        let mut all = Vec::from_iter(front.iter().map(|rows| plain(rows)));
        all.extend(back.iter().map(|rows| plain(rows)));
        all.sort();
        in_text.sort();
        assert_eq!(in_text, all, "{name}");
        let told = match left_out {
            1 => "1 message that ended later".to_string(),
            n => format!("{n} messages that ended later"),
        };
        for sheet in [page_back, &run.text] {
            assert_eq!(sheet.contains("that ended later"), left_out > 0, "{name}");
            assert!(left_out == 0 || sheet.contains(&told), "{name}: {told}");
        }
        none += usize::from(right.is_empty());
        many += usize::from(cut);
        most += usize::from(left_out > 0);
        for (group, [.., held, then]) in right {
            let what = match then.split_once("; ") {
                _ if then.ends_with("not taken") => "not taken".into(),
                _ if then.contains("dropped") => "dropped".into(),
                Some((_, then)) => then.split(" at ").next().unwrap().to_string(),
                None if held.ends_with("unknown") => "unknown".into(),
                None => "missing".into(),
            };
            *seen.entry(format!("{group}: {what}")).or_default() += 1;
        }
    }
    let found = [none, single, many, most];
    assert!(found.iter().all(|n| *n > 0), "{found:?}");
    let before_keys = [
        "unknown",
        "missing",
        "dropped",
        "waits for the chip",
        "the chip said yes",
        "the chip said NO",
        "not taken",
        "replaced",
        "a public key",
        "STOPPED the receiver",
        "refused: signed under a public key not held",
        "refused: parameters not taken here",
        "refused: its size cannot be",
        "refused: not newer than what is held",
        "refused: not the system's",
    ];
    for what in before_keys {
        assert!(seen.contains_key(&format!("0: {what}")), "{what}: {seen:?}");
    }
    for what in [
        "1: the chip said yes",
        "1: not taken",
        "2: unknown",
        "2: missing",
        "2: dropped",
    ] {
        assert!(seen.contains_key(what), "{what}: {seen:?}");
    }
    assert!(seen.contains_key("2: waits for the chip"), "{seen:?}");
}

/// What the box must say of the message with the keys, where keys are wanting at the end: by the gatherings since
/// the last verdict that was answered 0.
fn wanting_told(run: &OneRun) -> String {
    let (clock, nothing) = (run.sheet.clock, Held::default());
    let all = noted(run.lines, run.records, &nothing);
    let verdict = |(line, r): (&Line, &[u8])| r[0] == 4 && line.first == 0;
    let mut lines = run.lines.iter().zip(run.records.chunks_exact(RECORD_LEN));
    let since = lines.rposition(verdict).unwrap_or(0);
    let roots = || (0..12).flat_map(|id| spells(&all, id));
    let is_whole = |spell: &Spell| figures(spell.last().after, spell.id).0 == 0;
    let whole = roots().filter(|spell| spell.ended && is_whole(spell) && spell.is_wanting(run));
    let mut whole: Vec<Spell> = whole.filter(|spell| spell.last().line > since).collect();
    whole.sort_by_key(|spell| spell.last().line);
    if let Some(last) = whole.last() {
        let then = then(run, last.last());
        let why = match then.split_once("; ").unwrap().1 {
            why if why.starts_with("refused") => why,
            why if why.contains("NO") => "the signature chip said NO",
            _ => "the system does not use these keys now",
        };
        let (n, at) = (whole.len(), clock.say(last.last().at));
        let s = if n == 1 { "" } else { "s" };
        return format!("The message with the keys came whole {n} time{s}, last at {at}; {why}.");
    }
    let open: Vec<Spell> = roots().filter(|spell| !spell.ended).collect();
    let grown = |spell: &Spell| {
        let ends = Vec::from_iter(spell.at_ends());
        let last = ends.chunk_by(|a, b| a.1 == b.1).next_back();
        last.unwrap()[0].0
    };
    let Some(at) = open.iter().map(grown).max() else {
        return "No block of the message with the keys came.".into();
    };
    let told = |spell: &Spell| {
        let of = match open.len() {
            1 => String::new(),
            _ => format!(" (message {})", spell.id),
        };
        match figures(spell.last().after, spell.id) {
            (1, None) => format!("1 block held, total unknown{of}"),
            (held, None) => format!("{held} blocks held, total unknown{of}"),
            (held, Some(missing)) => {
                format!(
                    "{held} of {} blocks held, {missing} missing{of}",
                    held + missing
                )
            }
        }
    };
    let held = Vec::from_iter(open.iter().map(told)).join("; ");
    let at = clock.say(at);
    format!("The message with the keys never came whole: at the end {held}. The last new block came at {at}.")
}

// The box says why no keys came, in figures, where that is the reason that nothing was judged or is any more.
#[test]
fn keys_that_never_came() {
    let mut seen: BTreeMap<&str, usize> = BTreeMap::new();
    for run in runs() {
        let finding = &run.sheet.finding;
        let words = finding.text.join(" ");
        let end = &run.lines[run.lines.len() - 1].after;
        let none_judged = [
            "were not heard whole.",
            "came whole, but were not taken.",
            "sent no keys and no tags.",
        ];
        let none_judged = none_judged.iter().any(|why| finding.title.ends_with(why));
        let no_new = finding.title.ends_with("and no new ones came.");
        let wanting = !end.in_force && end.message.is_none();
        if !(none_judged || no_new && wanting) {
            assert!(
                !words.contains("The message with the keys"),
                "{}: {words}",
                run.name
            );
            continue;
        }
        let told = wanting_told(run);
        assert!(words.contains(&told), "{}: {words}, {told}", run.name);
        let whole = told.starts_with("The message with the keys came whole");
        assert_eq!(
            finding.title.contains("came whole"),
            whole && none_judged,
            "{}",
            run.name
        );
        let page = html::escaped(&told);
        assert!(run.page.contains(&page), "{}: {page}", run.name);
        let kinds = [
            "total unknown",
            "missing",
            "(message",
            "refused",
            "said NO",
            "does not use",
            "No block",
        ];
        for kind in kinds.into_iter().filter(|kind| told.contains(kind)) {
            *seen.entry(kind).or_default() += 1;
        }
        *seen
            .entry(if no_new { "no new" } else { "none" })
            .or_default() += 1;
    }
    assert_eq!(seen.len(), 9, "{seen:?}");
}

/// A core that says the contrary of its blocks: what is missing is held, and of an unknown total one block more.
struct Contrary<'a>(&'a Core);

impl Reads for Contrary<'_> {
    fn set(&self, prn: u8) -> Option<AuthenticSet> {
        self.0.set(prn)
    }

    fn message(&self) -> Option<WaitingMessage> {
        self.0.message()
    }

    fn four(&self, limit: u32) -> bool {
        self.0.four(limit)
    }

    fn progress(&self) -> Vec<Progress> {
        let contrary = |of: Progress| match of.missing {
            Some(missing) => Progress {
                held: missing,
                missing: Some(of.held),
                ..of
            },
            None if of.held > 0 => Progress {
                held: of.held + 1,
                ..of
            },
            None => of,
        };
        self.0.progress().map(contrary).collect()
    }
}

// The figures are the core's, not a count over the recording: where it says the contrary, rows and box do too.
#[test]
fn blocks_are_the_cores_answer() {
    let told = |bytes: &[u8]| {
        let (mut receiver, mut all) = (Receiver::new(), History::default());
        for record in Reader::new(bytes) {
            let record = record.unwrap();
            let answer = receiver.answer(&record);
            all.note(&record, &answer, &Contrary(receiver.core()));
        }
        let (page, text) = run_page("contrary", &all, 0);
        let words = sheet_of("contrary", &all, 0).runs[0].finding.text.join(" ");
        let rows = tables(&page).concat();
        let plain = rows.iter().map(|row| row.concat().replace(' ', ""));
        assert_eq!(written(&text).concat(), Vec::from_iter(plain));
        let rows = rows
            .into_iter()
            .map(|[when, _, bar, held, _]| [when, bar, held]);
        (Vec::from_iter(rows), words)
    };
    // Six blocks and no first, then all but the first.
    let (rows, words) = told(&without_block(0));
    let right = [
        ["00:00:00", "#######?", "7, total unknown"],
        ["00:00:30 to 00:29:30", "########?", "8, total unknown"],
    ];
    assert_eq!(rows, right);
    assert!(
        words.contains("at the end 8 blocks held, total unknown."),
        "{words}"
    );
    // Five and no first, then seven of eight.
    let (rows, words) = told(&without_block(7));
    let right = [
        ["00:00:00", "######?", "6, total unknown"],
        ["00:00:30 to 00:29:30", "#.......", "1 of 8"],
    ];
    assert_eq!(rows[0], right[0]);
    assert_eq!(rows[rows.len() - 1], right[1]);
    assert!(
        words.contains("at the end 1 of 8 blocks held, 7 missing."),
        "{words}"
    );
}

// A recording in which no block comes, and one of which the first half minute brings all: no table.
#[test]
fn without_a_cold_start() {
    let zeros = |r: &[u8]| {
        let mut r = r.to_vec();
        if r[0] == 3 {
            r[6..81].fill(0);
        }
        r
    };
    let bytes = recording("full_sky");
    let silent: Vec<u8> = bytes
        .chunks_exact(RECORD_LEN)
        .take(200)
        .flat_map(zeros)
        .collect();
    let (page, text) = run_page("silent", &history(&silent), 0);
    assert!(
        tables(&page).is_empty() && !page.contains("Blocks of "),
        "{page}"
    );
    assert!(
        written(&text).is_empty() && !text.contains("Blocks of "),
        "{text}"
    );
    assert!(page.contains("No block of the message with the keys came."));
    let (page, text) = run_page("full_sky", &history(&bytes), 0);
    assert!(tables(&page).is_empty() && written(&text).is_empty());
    let told = "Blocks of keys 5 held, 00:00:00: 8 of 8, whole; the chip said yes at 00:00:00.";
    assert!(page.contains(told), "{page}");
}
