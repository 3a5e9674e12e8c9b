//! What somebody should look at: on the front in the fitter's words, on the back in the engineer's.

use crate::finding::{self, STORY};
use crate::gathering::{self, Row, Wanting, LONG};
use crate::history::{Became, Run, Tally, WordsChanged, WrongTags};
use crate::refused::{Part, Refused};
use crate::time::Clock;
use crate::vouched::Keys;
use crate::words::{capital, count, issue, issues, span, which};
use osnma::{Gst, Outcome, Refusal};
use std::collections::{BTreeMap, BTreeSet};

/// How much it matters.
#[derive(Clone, Copy, Debug, PartialEq, Eq)]
pub enum Grade {
    /// Something is wrong, or may be.
    Warning,
    /// Good to know.
    Note,
}

/// Rows under a head.
#[derive(Clone, Debug, PartialEq, Eq)]
pub struct Table {
    /// What the columns are.
    pub head: Vec<&'static str>,
    /// As many fields a row as the head has; a field may have several lines.
    pub rows: Vec<Vec<String>>,
    /// The column with blocks side by side: `#` is held, `.` missing, `?` an unknown total.
    pub bar: Option<usize>,
}

/// One of them.
#[derive(Clone, Debug, PartialEq, Eq)]
pub struct Warning {
    /// How much it matters.
    pub grade: Grade,
    /// What happened.
    pub title: String,
    /// What it means.
    pub text: String,
    /// Which satellites and when.
    pub table: Option<Table>,
}

impl Warning {
    fn new(grade: Grade, title: String, text: impl Into<String>) -> Warning {
        Warning {
            grade,
            title,
            text: text.into(),
            table: None,
        }
    }
}

/// Lines of blocks on the front, the last; where there are more, all stand on the back.
const FRONT_BLOCKS: usize = 10;

/// Satellites whose data changes are said one by one; with more, those of one time are joined.
const SINGLE_ROWS: usize = 16;

fn by_grade(mut all: Vec<Warning>) -> Vec<Warning> {
    // A stable sort: the order in which they came within each grade.
    all.sort_by_key(|warning| warning.grade == Grade::Note);
    all
}

/// The front's: what is wrong first, then notes.
pub fn front(run: &Run, clock: Clock) -> Vec<Warning> {
    let mut all = Vec::new();
    all.extend(wrong(run, clock));
    all.extend(disputed(run));
    all.extend(out_of_date(run, clock));
    all.extend(not_marked(run));
    all.extend(foreign_keys(run, clock));
    all.extend(others_refused(run));
    all.extend(without_keys(run, clock));
    all.extend(silent(run, clock));
    all.extend(pages_lost(run, clock));
    all.extend(no_place(run, clock));
    all.extend(long_messages(run, clock));
    by_grade(all)
}

/// The back's.
pub fn back(run: &Run, clock: Clock) -> Vec<Warning> {
    let mut all = Vec::new();
    all.extend(changed(run, clock));
    all.extend(not_taken(run, clock));
    all.extend(refusals(run, clock));
    all.extend(bits_missing(run, clock));
    all.extend(given_up(run));
    all.extend(all_messages(run, clock));
    by_grade(all)
}

/// A row for each satellite, after its title.
fn told_by_story(
    run: &Run,
    clock: Clock,
    all: &BTreeMap<u8, WrongTags>,
    title: &str,
    text: &str,
) -> Option<Warning> {
    let prns: BTreeSet<u8> = all.keys().copied().collect();
    let rows = all
        .iter()
        .map(|(prn, wrong)| finding::story(run, clock, *prn, wrong));
    let table = Table {
        head: STORY.to_vec(),
        rows: rows.collect(),
        bar: None,
    };
    (!prns.is_empty()).then(|| Warning {
        table: Some(table),
        ..Warning::new(
            Grade::Warning,
            format!("{title} {}.", which(run, &prns)),
            text,
        )
    })
}

fn wrong(run: &Run, clock: Clock) -> Option<Warning> {
    told_by_story(
        run,
        clock,
        &run.wrong,
        "Wrong data for",
        "What was heard is not what the system signed. A wrong tag marks nothing. Data is given by \
         its issue number; marked data with the time of its tag.",
    )
}

fn out_of_date(run: &Run, clock: Clock) -> Option<Warning> {
    let told = told_by_story(
        run,
        clock,
        &run.out_of_date,
        "Data out of date for",
        "Not heard while the system sent newer data: the tags are for that. The data that was heard \
         was right before.",
    )?;
    Some(match finding::still_out_of_date(run).is_empty() {
        true => Warning {
            grade: Grade::Note,
            text: format!("{} Newer data was marked later.", told.text),
            ..told
        },
        false => told,
    })
}

fn disputed(run: &Run) -> Option<Warning> {
    let prns = finding::disputed(run);
    (!prns.is_empty()).then(|| {
        Warning::new(
            Grade::Warning,
            format!("The same data called both authentic and wrong: {}.", which(run, &prns)),
            "Some tags matched it and some did not. A short tag matches wrong data by chance now and \
             then, and one is enough for data that was marked before. Do not rely on this mark.",
        )
    })
}

/// Satellites without a marked set: those whose words came, and those that sent none.
fn not_marked(run: &Run) -> Vec<Warning> {
    let heard = run.heard.keys().copied();
    let without: BTreeSet<u8> = heard.filter(|prn| !run.data.contains_key(prn)).collect();
    let short = finding::short(run);
    let (agreed, unjudged) = finding::unmarked(run)
        .into_iter()
        .partition(|prn| short.contains_key(prn));
    let warning = |grade, prns: BTreeSet<u8>, why: &str| {
        let title = format!("Nothing marked for {}.", which(run, &prns));
        (!prns.is_empty()).then(|| Warning::new(grade, title, why))
    };
    let told = [
        warning(
            Grade::Warning,
            unjudged,
            "Data was heard, but no tag has shown it to be authentic.",
        ),
        warning(Grade::Warning, agreed, &finding::short_told(&short)),
        warning(Grade::Note, without, "Heard, but without orbit data."),
    ];
    told.into_iter().flatten().collect()
}

/// Keys that the core refused as not the system's.
fn foreign_keys(run: &Run, clock: Clock) -> Option<Warning> {
    let refused = || {
        let sections = run.refused.of(Part::Section, Refusal::KeyUnfit);
        sections.chain(run.refused.of(Part::Message, Refusal::TreeUnfit))
    };
    let n = refused().map(|sum| sum.count).sum();
    let prns: BTreeSet<u8> = refused().flat_map(|sum| &sum.prns).copied().collect();
    let first = refused().filter_map(|sum| Some(sum.span?.0)).min();
    let last = refused().filter_map(|sum| Some(sum.span?.1)).max();
    (n > 0).then(|| {
        Warning::new(
            Grade::Warning,
            format!(
                "Keys that are not the system's came in {}.",
                count(n, "time")
            ),
            format!(
                "Damaged on the way, or forged; they were refused. Sent as {}, {}.",
                which(run, &prns),
                span(clock, first.zip(last))
            ),
        )
    })
}

/// Refusals that have no line of their own on the front.
fn others_refused(run: &Run) -> Option<Warning> {
    let own_line = |sum: &Refused| {
        matches!(
            (sum.part, sum.refusal),
            (Part::Section, Refusal::KeyUnfit | Refusal::FieldsMissing)
                | (Part::Message, Refusal::TreeUnfit | Refusal::FieldsMissing)
                | (_, Refusal::Stopped)
        ) || is_without_keys(sum)
    };
    let others = run.refused.all().filter(|sum| !own_line(sum));
    let n = others
        .filter(|sum| why(sum).0 == Grade::Warning)
        .map(|sum| sum.count)
        .sum();
    (n > 0).then(|| {
        Warning::new(
            Grade::Warning,
            format!("{} of the input refused.", capital(count(n, "part"))),
            "It changed nothing. The reasons stand on the back, for the engineer.",
        )
    })
}

/// Sections that came while no chain was in force.
fn is_without_keys(sum: &Refused) -> bool {
    let section = sum.part == Part::Section && sum.refusal == Refusal::NotInForce;
    section && sum.keys != Keys::InForce
}

/// Before the first keys, and after they were withdrawn.
fn without_keys(run: &Run, clock: Clock) -> Vec<Warning> {
    let told = |sum: &Refused| {
        let when = capital(span(clock, sum.span));
        match (sum.keys, run.vouched.keys) {
            (Keys::Withdrawn, _) => Warning::new(
                Grade::Warning,
                format!("{when} the keys were withdrawn."),
                format!("The tags of {} could not be judged.", which(run, &sum.prns)),
            ),
            (_, Keys::NotYet) => Warning::new(
                Grade::Warning,
                format!("{when} no keys were in force."),
                "No tag could be judged.",
            ),
            _ => Warning::new(
                Grade::Note,
                format!("{when} no keys were in force yet."),
                "Ordinary after switching on.",
            ),
        }
    };
    let mut all = Vec::new();
    for keys in [Keys::NotYet, Keys::Withdrawn] {
        let of = |sum: &&Refused| is_without_keys(sum) && sum.keys == keys;
        let refused = run.refused.all().find(of).map(told);
        let rows = blocks(run, clock, Some(keys));
        let bare = || Warning::new(Grade::Note, "How the keys came.".into(), "");
        let warning = refused.or_else(|| (!rows.is_empty()).then(bare));
        let what = "Blocks held of the signed message at the end of each half minute";
        all.extend(warning.map(|warning| with_blocks(warning, what, &rows)));
    }
    all
}

/// How messages came while keys were wanting so.
fn blocks(run: &Run, clock: Clock, wanting: Wanting) -> Vec<Row> {
    let mut rows = gathering::rows(&run.gathering, run.wanting(), clock);
    rows.retain(|row| row.wanting == wanting);
    rows
}

fn block_table(rows: &[Row]) -> Table {
    Table {
        head: vec!["When", "Message", "Blocks", "Held", ""],
        rows: rows.iter().map(|row| row.fields().to_vec()).collect(),
        bar: Some(2),
    }
}

/// The same with these rows: one in words, several in a table, of many the last.
fn with_blocks(warning: Warning, what: &str, rows: &[Row]) -> Warning {
    let before = rows.len().saturating_sub(FRONT_BLOCKS);
    let (more, table) = match (rows, before) {
        ([], _) => (String::new(), None),
        ([row], _) => (row.told(), None),
        (_, 0) => (format!("{what}:"), Some(block_table(rows))),
        _ => (
            format!("{what}, the last lines; all stand on the back:"),
            Some(block_table(&rows[before..])),
        ),
    };
    let parts = [warning.text, more].into_iter();
    let parts = parts.filter(|part| !part.is_empty());
    Warning {
        text: Vec::from_iter(parts).join(" "),
        table,
        ..warning
    }
}

/// Messages that took long though keys were in force.
fn long_messages(run: &Run, clock: Clock) -> Option<Warning> {
    let rows = blocks(run, clock, None);
    let title = format!(
        "Messages of the system that took more than {} minutes.",
        LONG / 60
    );
    let warning = || Warning::new(Grade::Note, title, "");
    let what = "Blocks held, each from its first on";
    (!rows.is_empty()).then(|| with_blocks(warning(), what, &rows))
}

/// All lines of blocks, where the front has not all.
fn all_messages(run: &Run, clock: Clock) -> Option<Warning> {
    let all = [Some(Keys::NotYet), Some(Keys::Withdrawn), None];
    let many = |wanting| blocks(run, clock, wanting).len() > FRONT_BLOCKS;
    let left_out = run.gathering.left_out;
    let text = match left_out {
        0 => String::new(),
        n => format!("{} that ended later are not shown.", count(n, "message")),
    };
    let rows = gathering::rows(&run.gathering, run.wanting(), clock);
    (left_out > 0 || all.into_iter().any(many)).then(|| Warning {
        table: Some(block_table(&rows)),
        ..Warning::new(Grade::Note, "How the keys came.".into(), text)
    })
}

fn silent(run: &Run, clock: Clock) -> Option<Warning> {
    let silent = finding::silent(run);
    let mut by_time: BTreeMap<Gst, BTreeSet<u8>> = BTreeMap::new();
    for (prn, last) in &silent {
        by_time.entry(*last).or_default().insert(*prn);
    }
    let told = |(last, prns): (&Gst, &BTreeSet<u8>)| {
        format!("{} since {}", which(run, prns), clock.say(*last))
    };
    let told = Vec::from_iter(by_time.iter().map(told)).join("; ");
    (!silent.is_empty()).then(|| {
        Warning::new(
            Grade::Note,
            format!("Not heard to the end: {told}."),
            match run.vouched.keys {
                Keys::InForce => "Tags that others send still judge the data heard before.",
                Keys::NotYet | Keys::Withdrawn => "",
            },
        )
    })
}

/// Sub-frames of which fields were lost: both halves in one.
fn pages_lost(run: &Run, clock: Clock) -> Option<Warning> {
    // One lost field is enough for this half.
    let lost = run
        .refused
        .of(Part::Message, Refusal::FieldsMissing)
        .next()?;
    let sections = run.refused.of(Part::Section, Refusal::FieldsMissing);
    Some(Warning::new(
        Grade::Note,
        format!(
            "Reception was broken in {} of {} half minutes, counted for each satellite.",
            lost.count, run.counts.0
        ),
        format!(
            "Ordinary under trees. What came was used{}. {}, {}.",
            match sections.map(|sum| sum.count).sum() {
                0 => String::new(),
                n => format!("; in {n} of them the tags could not be"),
            },
            capital(which(run, &lost.prns)),
            span(clock, lost.span)
        ),
    ))
}

fn no_place(run: &Run, clock: Clock) -> Option<Warning> {
    let tags = run.tally(Outcome::NoPlace);
    (tags.count > 0).then(|| {
        Warning::new(
            Grade::Note,
            format!("No place for {}.", count(tags.count, "slow tag")),
            format!(
                "256 were waiting already. These say nothing for or against the data of {}, {}.",
                which(run, &tags.prns),
                span(clock, tags.span)
            ),
        )
    })
}

/// What became of tags that waited: `3 authentic (68), 1 still waiting`.
fn became(all: &Became) -> String {
    let named = |what: &str, tags: &Tally| {
        let text = format!("{} {what} ({})", tags.count, issues(&tags.issues));
        (tags.count > 0).then_some(text)
    };
    let counted = |what: &str, n: u64| (n > 0).then(|| format!("{n} {what}"));
    let parts = [
        named("authentic", &all.authentic),
        named("agree", &all.agree),
        named("wrong", &all.wrong),
        counted("still waiting", all.waits),
        counted("given up", all.given_up),
    ];
    Vec::from_iter(parts.into_iter().flatten()).join(", ")
}

fn changed(run: &Run, clock: Clock) -> Option<Warning> {
    let prns: BTreeSet<u8> = run.changed.iter().map(|change| change.prn).collect();
    let any_wrong = run
        .changed
        .iter()
        .any(|change| change.waited.wrong.count > 0);
    let rows = if prns.len() <= SINGLE_ROWS {
        single_rows(run, clock)
    } else {
        joined_rows(run, clock)
    };
    let table = Table {
        head: vec![
            "Satellite",
            "Words changed (IODnav)",
            "Slow tags that waited then (IODnav)",
            "Marked at the end",
        ],
        rows,
        bar: None,
    };
    let grade = if any_wrong {
        Grade::Warning
    } else {
        Grade::Note
    };
    let more = match run.changes_left_out {
        0 => String::new(),
        n => format!(" {} not shown.", capital(count(n, "later change"))),
    };
    (!prns.is_empty()).then(|| Warning {
        table: Some(table),
        ..Warning::new(
            grade,
            format!(
                "Data changed while slow tags waited: {}.",
                which(run, &prns)
            ),
            format!(
                "Each slow tag was judged by the data held when it came, never by what came after: \
                 it can mark that data alone.{more}"
            ),
        )
    })
}

/// A row a satellite.
fn single_rows(run: &Run, clock: Clock) -> Vec<Vec<String>> {
    let mut satellites: BTreeMap<u8, Vec<&WordsChanged>> = BTreeMap::new();
    for change in &run.changed {
        satellites.entry(change.prn).or_default().push(change);
    }
    let when = |change: &&WordsChanged| {
        let (from, to) = (issue(change.from), issue(change.to));
        format!("{} ({from} to {to})", clock.say(change.at))
    };
    let then = |change: &&WordsChanged| became(&change.waited);
    let row = |(prn, changes): (u8, Vec<&WordsChanged>)| {
        let last = run
            .marked_last(prn)
            .map(|set| format!("IODnav {}", set.iodnav));
        vec![
            format!("E{prn:02}"),
            Vec::from_iter(changes.iter().map(when)).join("\n"),
            Vec::from_iter(changes.iter().map(then)).join("\n"),
            last.unwrap_or("none".into()),
        ]
    };
    satellites.into_iter().map(row).collect()
}

/// A row for all changes of one half minute.
fn joined_rows(run: &Run, clock: Clock) -> Vec<Vec<String>> {
    let mut times: BTreeMap<Gst, (BTreeSet<u8>, Became)> = BTreeMap::new();
    for change in &run.changed {
        let (prns, all) = times.entry(change.at).or_default();
        prns.insert(change.prn);
        all.join(&change.waited);
    }
    let row = |(at, (prns, all)): (Gst, (BTreeSet<u8>, Became))| {
        vec![
            which(run, &prns),
            clock.say(at),
            became(&all),
            "see the strips".into(),
        ]
    };
    times.into_iter().map(row).collect()
}

fn not_taken(run: &Run, clock: Clock) -> Vec<Warning> {
    let reasons = [
        (
            Outcome::NotAllowed,
            "Their type or satellite may not stand where they stood. They were not judged",
        ),
        (
            Outcome::SequenceUnfit,
            "MACSEQ did not fit, so their place in the section is not sure. They were not judged",
        ),
    ];
    let warning = |(outcome, why): (Outcome, &str)| {
        let tags = run.tally(outcome);
        (tags.count > 0).then(|| {
            Warning::new(
                Grade::Warning,
                format!("{} not taken.", count(tags.count, "tag")),
                format!(
                    "{why}: sent by {}, {}.",
                    which(run, &tags.senders),
                    span(clock, tags.span)
                ),
            )
        })
    };
    reasons.into_iter().filter_map(warning).collect()
}

/// Tags that could not be judged for want of bits.
fn bits_missing(run: &Run, clock: Clock) -> Option<Warning> {
    let tags = run.tally(Outcome::BitsMissing);
    (tags.count > 0).then(|| {
        Warning::new(
            Grade::Note,
            format!("Bits missing of {}.", count(tags.count, "tag")),
            format!(
                "They, their key or their places in the section were lost, so that they say \
                 nothing for or against any data: sent by {}, {}.",
                which(run, &tags.senders),
                span(clock, tags.span)
            ),
        )
    })
}

fn given_up(run: &Run) -> Option<Warning> {
    (run.given_up > 0).then(|| {
        Warning::new(
            Grade::Note,
            format!("{} given up.", count(run.given_up, "slow tag")),
            "Their chain was dropped, or a new chain or a later root came before their keys.",
        )
    })
}

/// Refusals by what and why; all of a stop in one.
fn refusals(run: &Run, clock: Clock) -> Vec<Warning> {
    let (stop, others): (Vec<&Refused>, Vec<&Refused>) = run
        .refused
        .all()
        .partition(|sum| sum.refusal == Refusal::Stopped);
    let mut all: Vec<Warning> = others
        .into_iter()
        .map(|sum| refusal(run, clock, sum))
        .collect();
    all.extend(after_stop(run, &stop));
    all
}

fn after_stop(run: &Run, refused: &[&Refused]) -> Option<Warning> {
    let (place, _) = run.stopped?;
    let parts: Vec<String> = refused
        .iter()
        .map(|sum| count(sum.count, sum.part.name()))
        .collect();
    (!parts.is_empty()).then(|| {
        Warning::new(
            Grade::Warning,
            format!("The core stopped in record {place}."),
            format!(
                "An emergency message, proved by the tree of public keys, stopped it. After it {} \
                 came, and were refused (number 4).",
                crate::words::listed(&parts)
            ),
        )
    })
}

fn refusal(run: &Run, clock: Clock, sum: &Refused) -> Warning {
    let mut place = Vec::new();
    if !sum.prns.is_empty() {
        place.push(which(run, &sum.prns));
    }
    if sum.span.is_some() {
        place.push(span(clock, sum.span));
    }
    if sum.count == 1 || place.is_empty() {
        place.push(format!("record {}", sum.place));
    }
    let (grade, why) = why(sum);
    Warning::new(
        grade,
        format!("{} refused.", count(sum.count, sum.part.name())),
        format!(
            "{why} (number {}). {}.",
            sum.refusal.number(),
            capital(place.join(", "))
        ),
    )
}

/// A refusal in the engineer's words.
fn why(sum: &Refused) -> (Grade, &'static str) {
    use Grade::{Note, Warning};
    use Part::{Kind, Message, Section, Start, Subframe, Verdict};
    match (sum.part, sum.refusal) {
        (Section, Refusal::NotInForce) => match sum.keys {
            Keys::NotYet => (
                Note,
                "No chain was in force yet; a root must be vouched for first",
            ),
            Keys::Withdrawn => (
                Warning,
                "The chain was dropped by status 3; a later root must be vouched for",
            ),
            Keys::InForce => (
                Warning,
                "It does not go with the chain in force, or its status says not to use it",
            ),
        },
        (Message, Refusal::FieldsMissing) => (Note, "A field of the sub-frame was lost"),
        (Section, Refusal::FieldsMissing) => (Note, "The first field of the sub-frame was lost"),
        (_, Refusal::KeyUnfit) => (
            Warning,
            "A key does not hash down to the one proved before, or a spare bit is set: damaged or \
             not the system's",
        ),
        (_, Refusal::TooFar) => (
            Warning,
            "A key lies more than 1,000,000 steps past the one held",
        ),
        (_, Refusal::AllZero) => (
            Note,
            "All zeros: this satellite sent no authentication fields",
        ),
        (_, Refusal::Stopped) => (Warning, "The core is stopped"),
        (_, Refusal::OutOfOrder) => (Warning, "Its time is not later than what came before"),
        (Subframe, Refusal::OutOfRange) => (Warning, "No such satellite or time"),
        (Start, Refusal::OutOfRange) => (
            Warning,
            "A setting is out of its range; the core went on as before",
        ),
        (Kind, _) => (Warning, "Of a kind that recordings have not"),
        (Verdict, Refusal::OutOfRange) => (Warning, "No such verdict or key ID"),
        (_, Refusal::OutOfRange) => (
            Warning,
            "No such satellite or time, or the word names another satellite",
        ),
        (_, Refusal::VerdictBad) => (
            Warning,
            "The signature chip said NO: the root message is not the system's",
        ),
        (_, Refusal::NotWaiting) => (Warning, "It is not about the message that waits"),
        (Verdict, Refusal::NotInForce) => (
            Warning,
            "The message's status or chain ID does not let it count now",
        ),
        (Verdict, Refusal::NotNewer) => (Warning, "The root is not later than the last one"),
        (Message, Refusal::BlockUnfit) => (Warning, "A block or message of a size that cannot be"),
        (Message, Refusal::KeyNotHeld) => (Warning, "A root message under a key that is not held"),
        (Message, Refusal::ParametersUnfit) => {
            (Warning, "A root message with parameters not taken here")
        }
        (Message, Refusal::TreeUnfit) => (
            Warning,
            "A public key that the tree does not prove: not the system's",
        ),
        (Message, Refusal::NotNewer) => (Warning, "A public key that is not newer than those held"),
        _ => (Warning, "Refused"),
    }
}
