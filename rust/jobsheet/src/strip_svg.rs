//! Strips as a drawing: it prints as it is, whatever a browser does with backgrounds, and its signs
//! differ without colour.

use crate::boom::{minutes, Lately, LIMITS, NEEDED};
use crate::sheet::{ColumnHead, RunSheet, Strip, Strips};
use crate::time::{self, Clock, SUBFRAME};
use crate::timeline::{Cell, Said};
use std::fmt::Write;
use std::ops::Range;

/// Columns of a drawing.
const COLUMNS: usize = 60;

// Tenths of a millimetre on paper.
const WIDTH: f64 = 1900.0;
const LEFT: f64 = 106.0;
const CELLS: f64 = 1480.0;
const GAP: f64 = 10.0;
const LATELY: f64 = 36.0;
/// Room for a letter in a row of the boom's.
const LETTER: f64 = 12.0;
const AXIS: f64 = 34.0;
const ISSUE: f64 = 1676.0;
const CHECK: f64 = 1900.0;
/// Cells at the end of a strip in which its satellite is not heard, so that it is said.
const SILENT: usize = 4;
/// For all strips of the front's drawing, at the most: with 36 the rest of the front has room.
pub const FRONT_ROWS: f64 = 1215.0;
/// For those of a drawing behind it: two drawings a page.
pub const DETAIL_ROWS: f64 = 1110.0;

/// Heights in a strip: all of it, what is over the cells, and the cells.
#[derive(Clone, Copy)]
struct Heights {
    row: f64,
    over: f64,
    cell: f64,
}

impl Heights {
    /// With many strips each is lower, so that all stand within `most`.
    fn of(strips: usize, most: f64) -> Heights {
        let row = (most / strips.max(1) as f64).min(60.0);
        Heights {
            row,
            over: row * 0.43,
            cell: row * 0.44,
        }
    }
}

impl Heights {
    /// The size of what stands over the cells.
    fn label(self) -> f64 {
        (self.row * 0.42).min(20.0)
    }

    /// The size of what stands beside them.
    fn name(self) -> f64 {
        (self.row * 0.62).min(29.0)
    }
}

/// The signs, once a page. A cell is 20 by 24 here.
pub const SIGNS: &str = r##"<svg width="0" height="0" aria-hidden="true"><defs>
<symbol id="authentic" viewBox="0 0 20 24" preserveAspectRatio="none"><rect width="20" height="24" fill="#66b0a8"/></symbol>
<symbol id="agrees" viewBox="0 0 20 24" preserveAspectRatio="none"><rect x=".6" y=".6" width="18.8" height="22.8" fill="#fff" stroke="#2c7a70" stroke-width="1.2"/><path d="M.6 .6L19.4 23.4H.6Z" fill="#66b0a8"/></symbol>
<symbol id="wrong" viewBox="0 0 20 24" preserveAspectRatio="none"><rect width="20" height="24" fill="#9c1118"/><path d="M4 5L16 19M16 5L4 19" stroke="#fff" stroke-width="3.6" fill="none"/></symbol>
<symbol id="waits" viewBox="0 0 20 24" preserveAspectRatio="none"><rect x=".6" y=".6" width="18.8" height="22.8" fill="#fdeec2" stroke="#8a7a45" stroke-width="1.2"/><circle cx="10" cy="12" r="3.4" fill="#4a4024"/></symbol>
<symbol id="noset" viewBox="0 0 20 24" preserveAspectRatio="none"><rect x=".6" y=".6" width="18.8" height="22.8" fill="#fff" stroke="#888" stroke-width="1.2"/><path d="M5 12H15" stroke="#333" stroke-width="2.6"/></symbol>
<symbol id="noplace" viewBox="0 0 20 24" preserveAspectRatio="none"><rect x=".6" y=".6" width="18.8" height="22.8" fill="#fdeec2" stroke="#8a7a45" stroke-width="1.2"/><circle cx="10" cy="12" r="5" fill="none" stroke="#4a4024" stroke-width="2.4"/></symbol>
<symbol id="nottaken" viewBox="0 0 20 24" preserveAspectRatio="none"><rect x=".6" y=".6" width="18.8" height="22.8" fill="#fff" stroke="#888" stroke-width="1.2"/><text x="10" y="18.6" font-size="18" font-weight="700" text-anchor="middle" fill="#222">?</text></symbol>
<symbol id="missing" viewBox="0 0 20 24" preserveAspectRatio="none"><rect x=".6" y=".6" width="18.8" height="22.8" fill="#d3e3f4" stroke="#56789c" stroke-width="1.2"/><path d="M10 3V9M10 15V21" stroke="#173a5e" stroke-width="3.2" fill="none"/></symbol>
<symbol id="refused" viewBox="0 0 20 24" preserveAspectRatio="none"><rect x=".6" y=".6" width="18.8" height="22.8" fill="#fff" stroke="#777" stroke-width="1.2"/><path d="M1 9L9 1M1 17L17 1M2 23L19 6M10 23L19 14" stroke="#666" stroke-width="1.8" fill="none"/></symbol>
<symbol id="nothing" viewBox="0 0 20 24" preserveAspectRatio="none"><circle cx="10" cy="12" r="1.4" fill="#aaa"/></symbol>
<symbol id="selfheard" viewBox="0 0 20 24" preserveAspectRatio="none"><path d="M0 22H20" stroke="#333" stroke-width="2.4"/></symbol>
<symbol id="ownrefused" viewBox="0 0 20 24" preserveAspectRatio="none"><rect y="19" width="20" height="5" fill="#000"/></symbol>
<symbol id="isbad" viewBox="0 0 40 40"><path d="M20 2L39 37H1Z" fill="#9c1118"/><path d="M20 14V25M20 29V33" stroke="#fff" stroke-width="4" fill="none"/></symbol>
<symbol id="isgood" viewBox="0 0 40 40"><circle cx="20" cy="20" r="17" fill="none" stroke="#2c7a70" stroke-width="3.4"/><path d="M11 21L18 28L30 13" fill="none" stroke="#2c7a70" stroke-width="4.4"/></symbol>
<symbol id="changed" viewBox="0 0 20 20"><path d="M1 3H19L10 19Z" fill="#000"/></symbol>
</defs></svg>
"##;

/// The name of a sign.
pub fn sign(said: Said) -> &'static str {
    match said {
        Said::Authentic => "authentic",
        Said::Agrees => "agrees",
        Said::Wrong => "wrong",
        Said::Waits => "waits",
        Said::NoSet => "noset",
        Said::NoPlace => "noplace",
        Said::NotTaken => "nottaken",
        Said::Missing => "missing",
        Said::Refused => "refused",
        Said::Nothing => "nothing",
    }
}

/// Where the columns of a drawing stand; a jump in time is a gap.
struct Columns<'a> {
    heads: &'a [ColumnHead],
    x: Vec<f64>,
    width: f64,
}

impl Columns<'_> {
    fn of(heads: &[ColumnHead], step: u64) -> Columns<'_> {
        let number = |head: &ColumnHead| time::seconds(head.first) / (SUBFRAME * step);
        let jumps = |pair: &[ColumnHead]| number(&pair[0]) + 1 != number(&pair[1]);
        let gaps = heads.windows(2).filter(|pair| jumps(pair)).count();
        let width = (CELLS - GAP * gaps as f64) / COLUMNS as f64;
        let mut x = vec![LEFT];
        let mut here = LEFT;
        for pair in heads.windows(2) {
            here += width + if jumps(pair) { GAP } else { 0.0 };
            x.push(here);
        }
        Columns { heads, x, width }
    }

    /// Where the last column ends.
    fn end(&self) -> f64 {
        self.x[self.x.len() - 1] + self.width
    }

    /// The first column and its x, after it those after a jump.
    fn after_jumps(&self) -> impl Iterator<Item = (usize, f64)> + '_ {
        let jump = |n: usize| n == 0 || self.x[n] > self.x[n - 1] + self.width + GAP / 2.0;
        let all = self.x.iter().copied().enumerate();
        all.filter(move |(n, _)| jump(*n))
    }

    /// Times over the first column and after a jump, and round times where there is room.
    fn axis(&self, out: &mut String, clock: Clock, y: f64) {
        let every = self.round();
        let mut marks: Vec<(f64, String)> = self
            .after_jumps()
            .map(|(n, x)| (x, clock.time_of_day(self.heads[n].first)))
            .collect();
        for (head, &x) in self.heads.iter().zip(&self.x) {
            let (from, to) = (clock.wall(head.first), clock.wall(head.last) + SUBFRAME);
            let round = from.next_multiple_of(every);
            if round < to {
                let part = (round - from) as f64 / (to - from) as f64;
                let second = round % 86_400;
                let label = format!("{:02}:{:02}", second / 3_600, second / 60 % 60);
                marks.push((x + part * self.width, label));
            }
        }
        // A round time stands before the first half minute's own where both would.
        marks.sort_by(|a, b| a.0.total_cmp(&b.0).then(a.1.len().cmp(&b.1.len())));
        let mut free = 0.0;
        for (x, label) in marks {
            if x >= free {
                let _ = writeln!(
                    out,
                    "<path d=\"M{x:.1} {:.1}v-7\" stroke=\"#555\" stroke-width=\"1.5\"/>\
                     <text x=\"{x:.1}\" y=\"{:.1}\" class=\"axis\">{label}</text>",
                    y + AXIS,
                    y + 22.0
                );
                free = x + 14.0 * label.len() as f64 + 20.0;
            }
        }
    }

    /// Seconds between round times: five minutes, or so that there are no more than ten.
    fn round(&self) -> u64 {
        const EVERY: [u64; 7] = [300, 900, 1_800, 3_600, 7_200, 14_400, 43_200];
        let (first, last) = (&self.heads[0], &self.heads[self.heads.len() - 1]);
        let span = time::seconds(last.last) - time::seconds(first.first);
        let fits = |every: &u64| span / every <= 10;
        EVERY.into_iter().find(fits).unwrap_or(86_400)
    }
}

/// Strips of a run, sixty columns a drawing, each drawing's within `most`.
pub fn strips(out: &mut String, run: &RunSheet, strips: &Strips, most: f64) {
    let heights = Heights::of(strips.rows.len(), most);
    for from in (0..strips.columns.len()).step_by(COLUMNS) {
        let to = (from + COLUMNS).min(strips.columns.len());
        panel(out, run.clock, strips, from..to, heights);
    }
}

fn panel(out: &mut String, clock: Clock, strips: &Strips, range: Range<usize>, heights: Heights) {
    let columns = Columns::of(&strips.columns[range.clone()], strips.step);
    let last = range.end == strips.columns.len();
    let top = LATELY * LIMITS.len() as f64 + AXIS;
    let height = top + heights.row * strips.rows.len() as f64 + 4.0;
    let (first, end) = (&columns.heads[0], &columns.heads[columns.heads.len() - 1]);
    let _ = writeln!(
        out,
        "<figure class=\"panel\"><figcaption>{}. First rows: did {NEEDED} satellites, as the boom needs, \
         have marks at most {} and {} minutes old? Light yes, dark no.</figcaption>\n\
         <div><svg class=\"strips\" viewBox=\"0 0 {WIDTH} {height:.0}\" role=\"img\" \
         aria-label=\"Strips of the satellites; a cell is {}\">",
        clock.dated().range(first.first, end.last),
        minutes(LIMITS[0]),
        minutes(LIMITS[1]),
        strips.cell_told()
    );
    for (n, limit) in LIMITS.iter().enumerate() {
        let cells = columns.heads.iter();
        let cells = Vec::from_iter(cells.map(|head| Some(head.marked_lately?[n])));
        lately(out, *limit, &columns, &cells, LATELY * n as f64);
    }
    columns.axis(out, clock, top - AXIS);
    if last {
        let y = top - AXIS + 22.0;
        let _ = writeln!(
            out,
            "<text x=\"{ISSUE}\" y=\"{y}\" class=\"axis\" text-anchor=\"end\">issue</text>\
             <text x=\"{CHECK}\" y=\"{y}\" class=\"axis\" text-anchor=\"end\">check value</text>"
        );
    }
    for (n, strip) in strips.rows.iter().enumerate() {
        let row = Row {
            strip,
            columns: &columns,
            range: &range,
            heights,
            y: top + heights.row * n as f64,
        };
        row.draw(out, clock, last);
    }
    out.push_str("</svg></div></figure>\n");
}

/// Stretches of neighbours that are equal: the first, how many, and what they are.
fn stretches<T: PartialEq + Copy>(all: &[T]) -> Vec<(usize, usize, T)> {
    let mut out: Vec<(usize, usize, T)> = Vec::new();
    for (n, &one) in all.iter().enumerate() {
        match out.last_mut() {
            Some((_, len, other)) if *other == one => *len += 1,
            _ => out.push((n, 1, one)),
        }
    }
    out
}

/// A row of the boom's: whether four satellites were marked lately, and how many. Where there is room it
/// is said in words.
fn lately(out: &mut String, limit: u32, columns: &Columns, cells: &[Option<Lately>], y: f64) {
    let _ = writeln!(
        out,
        "<g data-lately=\"{limit}\"><text x=\"0\" y=\"{:.1}\" class=\"limit\">\u{2264} {} min</text>",
        y + 24.0,
        minutes(limit)
    );
    for (from, len, lately) in stretches(cells) {
        let x = columns.x[from];
        let width = columns.x[from + len - 1] + columns.width - x - 2.0;
        let (class, answer) = match lately {
            None => ("none", ""),
            Some(lately) if !lately.four => ("few", "no"),
            Some(lately) if lately.count == NEEDED => ("just", "yes"),
            Some(_) => ("enough", "yes"),
        };
        let count = lately.map_or(String::new(), |lately| lately.count.to_string());
        let words = format!("{answer}, {count}");
        let fits = LETTER * words.len() as f64 + 8.0 <= width;
        let told = if lately.is_some() && fits {
            &words
        } else {
            &count
        };
        let (size, anchor, inset) = match len {
            1 => (20, "middle", (columns.width - 2.0) / 2.0),
            _ => (25, "start", 6.0),
        };
        let _ = writeln!(
            out,
            "<rect x=\"{x:.1}\" y=\"{y:.1}\" width=\"{width:.1}\" height=\"30\" class=\"{class}\" \
             data-cells=\"{len}\" data-four=\"{answer}\" data-count=\"{count}\"/>\
             <text x=\"{:.1}\" y=\"{:.1}\" class=\"{class}\" font-size=\"{size}\" text-anchor=\"{anchor}\">{told}</text>",
            x + inset,
            y + 23.5
        );
    }
    out.push_str("</g>\n");
}

/// A satellite's strip in a drawing.
struct Row<'a> {
    strip: &'a Strip,
    columns: &'a Columns<'a>,
    range: &'a Range<usize>,
    heights: Heights,
    y: f64,
}

impl Row<'_> {
    fn cells(&self) -> &[Cell] {
        &self.strip.cells[self.range.clone()]
    }

    fn draw(&self, out: &mut String, clock: Clock, last: bool) {
        let Heights { over, cell, .. } = self.heights;
        let base = self.y + over + cell - 3.0;
        let prn = self.strip.prn;
        let size = self.heights.name();
        let _ = writeln!(
            out,
            "<g data-strip=\"E{prn:02}\"><text x=\"0\" y=\"{base:.1}\" class=\"name\" font-size=\"{size:.0}\">E{prn:02}</text>",
        );
        self.over(out);
        self.silent(out);
        for (cell, (head, &x)) in self
            .cells()
            .iter()
            .zip(self.columns.heads.iter().zip(&self.columns.x))
        {
            let title = format!("E{prn:02}, {}: {}", clock.say(head.first), cell.told());
            self.cell(out, cell, x, &title);
        }
        self.heard(out);
        let mut end = |x: f64, class: &str, text: &str| {
            let _ = writeln!(
                out,
                "<text x=\"{x}\" y=\"{base:.1}\" class=\"{class}\" font-size=\"{size:.0}\" text-anchor=\"end\">{text}</text>"
            );
        };
        if let (true, Some((iodnav, check))) = (last, &self.strip.at_end) {
            end(ISSUE, "issue", &iodnav.to_string());
            end(CHECK, "check", check);
        } else if last && self.strip.last_heard.is_none() {
            end(CHECK, "issue", "not heard");
        }
        out.push_str("</g>\n");
    }

    /// The line over the cells: from where a read gives a set, with its IODnav.
    fn over(&self, out: &mut String) {
        let (strip, columns) = (self.strip, self.columns);
        let before = strip.cells[..self.range.start].iter().rev();
        let from_before = before.filter_map(|cell| cell.marked).next();
        let here = self.cells().iter().zip(&columns.x);
        let begins = here.filter_map(|(cell, &x)| Some((cell.marked?, x)));
        let mut sets: Vec<(u16, f64)> = begins.collect();
        if let Some(iodnav) = from_before {
            if sets.first().is_none_or(|&(_, x)| x > LEFT) {
                sets.insert(0, (iodnav, LEFT));
            }
        }
        let line = self.y + self.heights.over - 2.0;
        let mut free = 0.0;
        for (n, &(iodnav, x)) in sets.iter().enumerate() {
            let to = sets.get(n + 1).map_or(columns.end(), |next| next.1);
            let _ = write!(
                out,
                "<path d=\"M{x:.1} {line:.1}H{:.1}\" class=\"held\"/>",
                to - 4.0
            );
            if x >= free {
                let _ = writeln!(
                    out,
                    "<text x=\"{x:.1}\" y=\"{:.1}\" class=\"set\" font-size=\"{:.0}\">{iodnav}</text>",
                    line - 3.5,
                    self.heights.label()
                );
                free = x + 45.0;
            }
        }
    }

    /// Over the cells from which on a marked satellite is not heard any more, where there is room.
    fn silent(&self, out: &mut String) {
        const ROOM: f64 = 140.0;
        let cells = &self.strip.cells;
        let silent = cells
            .iter()
            .rev()
            .take_while(|cell| cell.heard == 0)
            .count();
        let from = cells.len() - silent;
        let is_label = |(cell, x): (&Cell, &f64)| cell.marked.map(|_| *x);
        let is_marked = self.strip.at_end.is_some();
        if !is_marked || silent < SILENT || !self.range.contains(&from) {
            return;
        }
        let x = self.columns.x[from - self.range.start];
        let labels = self
            .cells()
            .iter()
            .zip(&self.columns.x)
            .filter_map(is_label);
        let is_free = |label: f64| label + 45.0 < x || label > x + ROOM;
        if labels.into_iter().all(is_free) {
            let _ = writeln!(
                out,
                "<text x=\"{x:.1}\" y=\"{:.1}\" class=\"silent\" font-size=\"{:.0}\">not heard</text>",
                self.y + self.heights.over - 5.5,
                self.heights.label()
            );
        }
    }

    fn cell(&self, out: &mut String, cell: &Cell, x: f64, title: &str) {
        let (y, inner, height) = (
            self.y + self.heights.over + 1.0,
            self.columns.width - 2.0,
            self.heights.cell,
        );
        let mut put = |name: &str, title: &str| {
            let title = match title {
                "" => String::new(),
                title => format!("<title>{title}</title>"),
            };
            let _ = writeln!(
                out,
                "<use href=\"#{name}\" x=\"{x:.1}\" y=\"{y:.1}\" width=\"{inner:.1}\" height=\"{height:.1}\">{title}</use>"
            );
        };
        put(sign(cell.said()), title);
        if cell.has_bar() {
            put("ownrefused", "");
        }
        if cell.changed {
            let size = self.heights.over * 0.68;
            let _ = writeln!(
                out,
                "<use href=\"#changed\" x=\"{:.1}\" y=\"{:.1}\" width=\"{size:.1}\" height=\"{size:.1}\"/>",
                x + (inner - size) / 2.0,
                y - size - 1.0
            );
        }
    }

    /// The line under the cells in which the satellite was heard itself; in a cell of several half
    /// minutes it is as long as they are many.
    fn heard(&self, out: &mut String) {
        let part = |(cell, head): (&Cell, &ColumnHead)| {
            let part = f64::from(cell.heard) / f64::from(head.half_minutes.max(1));
            (part.min(1.0) * 100.0).round() as u32
        };
        let parts: Vec<u32> = self
            .cells()
            .iter()
            .zip(self.columns.heads)
            .map(part)
            .collect();
        let y = self.y + self.heights.over + self.heights.cell + 4.0;
        let mut path = |from: usize, len: usize, end: f64| {
            let _ = writeln!(
                out,
                "<path d=\"M{:.1} {y:.1}H{end:.1}\" class=\"heard\" data-from=\"{from}\" data-cells=\"{len}\"/>",
                self.columns.x[from]
            );
        };
        for (from, len, part) in stretches(&parts) {
            let x = |n: usize| self.columns.x[n];
            match part {
                0 => {}
                100 => path(from, len, x(from + len - 1) + self.columns.width - 2.0),
                _ => (from..from + len)
                    .for_each(|n| path(n, 1, x(n) + self.columns.width * f64::from(part) / 100.0)),
            }
        }
    }
}
