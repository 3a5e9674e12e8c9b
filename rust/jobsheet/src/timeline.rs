//! Half minutes of a run with what tags said of each satellite: a bounded number of columns, however
//! long the run is. Where there would be more, columns of two half minutes are made of columns of one,
//! then of four, and so on.

use crate::boom::Least;
use crate::time::{self, SUBFRAME};
use osnma::{Gst, Outcome, AUTHENTIC_BITS};
use std::collections::BTreeMap;

/// Columns at most: eight hours of half minutes.
pub const COLUMNS: usize = 960;

/// What the tags that came for a satellite in one half minute said: the first that applies.
#[derive(Clone, Copy, Debug, PartialEq, Eq, PartialOrd, Ord)]
pub enum Said {
    /// At least one did not match.
    Wrong,
    /// At least one marked the data, none was wrong.
    Authentic,
    /// At least one agrees with the data, by too few bits to mark it.
    Agrees,
    /// A slow one has no answer: its key has not come, or it was given up.
    Waits,
    /// A slow one found no place.
    NoPlace,
    /// Not allowed where it stood, or MACSEQ failed.
    NotTaken,
    /// There was no usable set.
    NoSet,
    /// Bits were missing, so that it could not be judged.
    Missing,
    /// None came, and the satellite's own section was refused.
    Refused,
    /// None came.
    Nothing,
}

impl Said {
    /// What a tag can say, the first that applies first.
    const BY_TAGS: [Said; 8] = [
        Said::Wrong,
        Said::Authentic,
        Said::Agrees,
        Said::Waits,
        Said::NoPlace,
        Said::NotTaken,
        Said::NoSet,
        Said::Missing,
    ];

    /// All that have a sign, in the order of the legend.
    pub const ALL: [Said; 9] = [
        Said::Authentic,
        Said::Agrees,
        Said::Wrong,
        Said::Waits,
        Said::NoSet,
        Said::NoPlace,
        Said::NotTaken,
        Said::Missing,
        Said::Refused,
    ];

    /// What a tag of this outcome says.
    pub fn of(outcome: Outcome) -> Said {
        match outcome {
            Outcome::Authentic => Said::Authentic,
            Outcome::Agrees => Said::Agrees,
            Outcome::Wrong => Said::Wrong,
            Outcome::Waits => Said::Waits,
            Outcome::NoPlace => Said::NoPlace,
            Outcome::NoUsableSet => Said::NoSet,
            Outcome::BitsMissing => Said::Missing,
            _ => Said::NotTaken,
        }
    }

    /// For the legend.
    pub fn words(self) -> (&'static str, &'static str) {
        match self {
            Said::Authentic => ("authentic", "data marked, no tag was wrong"),
            Said::Agrees => ("agrees", "tags match, too few bits so far"),
            Said::Wrong => ("wrong", "a tag did not match"),
            Said::Waits => ("waits", "slow tag without an answer"),
            Said::NoSet => ("no data", "nothing whole to compare"),
            Said::NoPlace => ("no place", "too many slow tags waited"),
            Said::NotTaken => ("not taken", "tag not allowed there"),
            Said::Missing => ("missing", "part of the tag was lost"),
            Said::Refused => ("refused", "what it sent was refused"),
            Said::Nothing => ("", "no tag"),
        }
    }
}

/// A satellite's half minute, or several.
#[derive(Clone, Debug, Default, PartialEq, Eq)]
pub struct Cell {
    /// How many tags said what, in the order of [`Said`].
    tags: [u32; Said::BY_TAGS.len()],
    /// The bits that agree on its satellite's candidate, with the last tag of here that agrees.
    pub bits: Option<u32>,
    /// Whether its own section was refused.
    pub section_refused: bool,
    /// Whether its words changed while a slow tag waited.
    pub changed: bool,
    /// IODnav of the set that a read gave from here on, where that is another set.
    pub marked: Option<u16>,
    /// Half minutes in which it was heard itself.
    pub heard: u32,
    /// The last of them.
    heard_at: Option<Gst>,
}

impl Cell {
    /// A tag that came here says this.
    pub fn says(&mut self, said: Said) {
        self.tags[said as usize] += 1;
    }

    /// A tag that waited says this now.
    pub fn says_instead(&mut self, said: Said) {
        let waits = &mut self.tags[Said::Waits as usize];
        *waits = waits.saturating_sub(1);
        self.says(said);
    }

    /// Its satellite was heard.
    pub fn hear(&mut self, at: Gst) {
        if self.heard_at != Some(at) {
            self.heard += 1;
            self.heard_at = Some(at);
        }
    }

    /// What its tags said.
    pub fn said(&self) -> Said {
        let by_tags = Said::BY_TAGS.into_iter().zip(self.tags);
        let first = by_tags.filter(|(_, n)| *n > 0).map(|(said, _)| said).next();
        first.unwrap_or(match self.section_refused {
            true => Said::Refused,
            false => Said::Nothing,
        })
    }

    /// Whether its own section was refused, but others' tags came.
    pub fn has_bar(&self) -> bool {
        self.section_refused && self.said() != Said::Refused
    }

    /// `3 authentic, 1 waits`; `1 agrees, 24 of 40 bits`.
    pub fn told(&self) -> String {
        let tags = Said::BY_TAGS.into_iter().zip(self.tags);
        let bits = |said| match (said, self.bits) {
            (Said::Agrees, Some(bits)) => format!(", {bits} of {AUTHENTIC_BITS} bits"),
            _ => String::new(),
        };
        let mut parts: Vec<String> = tags
            .filter(|(_, n)| *n > 0)
            .map(|(said, n)| format!("{n} {}{}", said.words().0, bits(said)))
            .collect();
        if parts.is_empty() {
            parts.push(Said::Nothing.words().1.into());
        }
        if self.section_refused {
            parts.push("what it sent was refused".into());
        }
        if self.changed {
            parts.push("data changed while a slow tag waited".into());
        }
        if self.heard == 0 {
            parts.push("not heard itself".into());
        }
        parts.join(", ")
    }

    fn join(&mut self, later: &Cell) {
        for (n, more) in self.tags.iter_mut().zip(later.tags) {
            *n += more;
        }
        self.bits = later.bits.or(self.bits);
        self.section_refused |= later.section_refused;
        self.changed |= later.changed;
        self.marked = later.marked.or(self.marked);
        self.heard += later.heard;
        self.heard_at = later.heard_at.or(self.heard_at);
    }
}

/// One half minute of all satellites, or several.
#[derive(Clone, Debug, PartialEq, Eq)]
pub struct Column {
    /// Its first half minute.
    pub first: Gst,
    /// Its last.
    pub last: Gst,
    /// How many came.
    pub half_minutes: u32,
    /// Whether four satellites were marked lately in all of them, and how many at the least.
    pub marked_lately: Least,
    cells: BTreeMap<u8, Cell>,
}

impl Column {
    fn new(at: Gst) -> Column {
        Column {
            first: at,
            last: at,
            half_minutes: 1,
            marked_lately: Least::default(),
            cells: BTreeMap::new(),
        }
    }

    /// Its half minute comes, again or as another.
    fn come(&mut self, at: Gst) {
        if at < self.first || at > self.last {
            self.half_minutes += 1;
        }
        self.first = self.first.min(at);
        self.last = self.last.max(at);
    }

    /// The cell of a satellite.
    pub fn cell(&mut self, prn: u8) -> &mut Cell {
        self.cells.entry(prn).or_default()
    }

    /// The satellites that something is known of here.
    pub fn prns(&self) -> impl Iterator<Item = u8> + '_ {
        self.cells.keys().copied()
    }

    /// The same; none where nothing is known of it here.
    pub fn cell_of(&self, prn: u8) -> Option<&Cell> {
        self.cells.get(&prn)
    }

    fn join(&mut self, later: Column) {
        self.last = later.last;
        self.half_minutes += later.half_minutes;
        self.marked_lately.join(&later.marked_lately);
        for (prn, cell) in later.cells {
            self.cell(prn).join(&cell);
        }
    }
}

/// The columns of a run.
#[derive(Clone, Debug)]
pub struct Timeline {
    /// Half minutes that a column can hold.
    step: u64,
    /// By their numbers: half minutes since week 0, divided by the step.
    columns: BTreeMap<u64, Column>,
}

impl Default for Timeline {
    fn default() -> Timeline {
        Timeline {
            step: 1,
            columns: BTreeMap::new(),
        }
    }
}

impl Timeline {
    fn number(&self, at: Gst) -> u64 {
        time::seconds(at) / (SUBFRAME * self.step)
    }

    /// The column of a half minute that comes.
    pub fn at(&mut self, at: Gst) -> &mut Column {
        let new = |columns: &BTreeMap<u64, Column>, number| !columns.contains_key(&number);
        while self.columns.len() == COLUMNS && new(&self.columns, self.number(at)) {
            *self = self.in_steps(self.step * 2);
        }
        let column = self.columns.entry(self.number(at));
        let column = column.or_insert_with(|| Column::new(at));
        column.come(at);
        column
    }

    /// The column of a half minute that came.
    pub fn known(&mut self, at: Gst) -> Option<&mut Column> {
        self.columns.get_mut(&self.number(at))
    }

    /// The same in columns of so many half minutes, a multiple of the present step.
    fn in_steps(&self, step: u64) -> Timeline {
        let mut columns: BTreeMap<u64, Column> = BTreeMap::new();
        for (number, column) in &self.columns {
            let number = number * self.step / step;
            match columns.get_mut(&number) {
                Some(before) => before.join(column.clone()),
                None => {
                    columns.insert(number, column.clone());
                }
            }
        }
        Timeline { step, columns }
    }

    /// The same in at most so many columns, of a step that is easy to read.
    pub fn overview(&self, most: usize) -> Timeline {
        // 1, 2, 5, 10, 15 and 30 minutes, 1, 2, 3, 4, 6 and 12 hours, a day.
        const EASY: [u64; 14] = [
            1, 2, 4, 10, 20, 30, 60, 120, 240, 360, 480, 720, 1_440, 2_880,
        ];
        let doubled = (1..).map(|n| self.step << n);
        let easy = EASY
            .into_iter()
            .filter(|step| step.is_multiple_of(self.step));
        let mut steps = easy.chain(doubled).map(|step| self.in_steps(step));
        let fits = |timeline: &Timeline| timeline.columns.len() <= most;
        steps.find(fits).unwrap_or_default()
    }

    /// Half minutes that a column can hold.
    pub fn step(&self) -> u64 {
        self.step
    }

    /// How many columns there are.
    pub fn len(&self) -> usize {
        self.columns.len()
    }

    /// Whether no half minute came.
    pub fn is_empty(&self) -> bool {
        self.columns.is_empty()
    }

    /// The columns, in the order of time.
    pub fn columns(&self) -> impl Iterator<Item = &Column> {
        self.columns.values()
    }

    /// The first half minute and the last.
    pub fn span(&self) -> Option<(Gst, Gst)> {
        let (first, last) = (self.columns().next()?, self.columns.values().last()?);
        Some((first.first, last.last))
    }
}

#[cfg(test)]
mod tests {
    use super::*;

    fn gst(half_minute: u64) -> Gst {
        time::at(half_minute * SUBFRAME)
    }

    // However many half minutes come, and from wherever: a bounded number of columns, and nothing of
    // what was said is lost.
    #[test]
    fn bounded() {
        let scattered = |n: u64| n * 7_919 % 82_000_000;
        for time in [&|n: u64| n + 5, &scattered as &dyn Fn(u64) -> u64] {
            let mut all = Timeline::default();
            for n in 0..5_000 {
                let column = all.at(gst(time(n)));
                column.cell(7).says(Said::Waits);
                column.cell(7).hear(gst(time(n)));
                if n % 2 == 0 {
                    let column = all.known(gst(time(n))).unwrap();
                    column.cell(7).says_instead(Said::Wrong);
                }
            }
            assert!(
                all.len() <= COLUMNS && all.len() > COLUMNS / 4,
                "{}",
                all.len()
            );
            let tags = |said: Said| -> u32 {
                let cells = all.columns().filter_map(|column| column.cell_of(7));
                cells.map(|cell| cell.tags[said as usize]).sum()
            };
            assert_eq!((tags(Said::Wrong), tags(Said::Waits)), (2_500, 2_500));
            let heard = all.columns().map(|column| column.cell_of(7).unwrap().heard);
            assert_eq!(heard.sum::<u32>(), 5_000);
        }
    }

    // The worst shows in a joined cell.
    #[test]
    fn overviews() {
        let mut all = Timeline::default();
        for n in 0..500 {
            let said = if n == 77 {
                Said::Wrong
            } else {
                Said::Authentic
            };
            all.at(gst(n)).cell(3).says(said);
        }
        assert_eq!(all.step(), 1);
        let few = all.overview(60);
        assert_eq!((few.step(), few.len()), (10, 50));
        let said = few
            .columns()
            .map(|column| column.cell_of(3).unwrap().said());
        let wrong: Vec<usize> = said
            .enumerate()
            .filter(|(_, said)| *said == Said::Wrong)
            .map(|(n, _)| n)
            .collect();
        assert_eq!(wrong, [7]);
        assert!(few.columns().all(|column| column.half_minutes == 10));
        assert_eq!(all.overview(500).step(), 1);
        assert_eq!(all.overview(1).len(), 1);
    }
}
