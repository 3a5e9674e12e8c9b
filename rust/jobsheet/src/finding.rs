//! What a run comes to, in a few plain sentences: read first, and without the papers.

use crate::boom::{minutes, LIMITS, NEEDED};
use crate::data::{Data, Unproved};
use crate::gathering::{refused_told, Gathered, Then};
use crate::history::{Event, Mark, Run, What, WrongTags};
use crate::refused::Part;
use crate::time::{self, Clock, SUBFRAME};
use crate::vouched::Keys;
use crate::words::{capital, count, issues, satellites, which};
use osnma::{Gst, Refusal, AUTHENTIC_BITS};
use std::collections::{BTreeMap, BTreeSet};

/// Seconds after which a satellite that is not heard is called silent.
const LONG: u64 = 120;

/// The first words of a run's part of the sheet.
#[derive(Clone, Debug, PartialEq, Eq)]
pub struct Finding {
    /// Whether nothing is wrong.
    pub good: bool,
    /// What it comes to.
    pub title: String,
    /// More of it.
    pub text: Vec<String>,
    /// What to do.
    pub to_do: String,
}

impl Finding {
    fn bad(title: String, text: Vec<String>, to_do: impl Into<String>) -> Finding {
        Finding {
            good: false,
            title,
            text,
            to_do: to_do.into(),
        }
    }
}

/// The finding of a run: the first that applies.
pub fn of(run: &Run, clock: Clock) -> Finding {
    nothing_heard(run)
        .or_else(|| stopped(run, clock))
        .or_else(|| wrong(run, clock))
        .or_else(|| no_keys(run, clock))
        .or_else(|| withdrawn(run, clock))
        .or_else(|| out_of_date(run, clock))
        .or_else(|| not_proved(run, clock))
        .unwrap_or_else(|| authentic(run, clock))
}

fn nothing_heard(run: &Run) -> Option<Finding> {
    let refused = run.refused.all().map(|sum| sum.count).sum();
    run.heard.is_empty().then(|| {
        Finding::bad(
            "NOTHING WAS HEARD.".into(),
            vec![match refused {
                0 => "The receiver was started, but no satellite's data came.".into(),
                n => format!(
                    "The receiver was started, but all that came was refused ({}): the reasons stand \
                     on the back.",
                    count(n, "part")
                ),
            }],
            "check the antenna, its cable and the receiver's Galileo setting, then record again.",
        )
    })
}

fn stopped(run: &Run, clock: Clock) -> Option<Finding> {
    let (place, at) = run.stopped?;
    let mut text = vec![format!(
        "{}What is marked was marked before.",
        match run.last_place - place {
            0 => String::new(),
            after => format!(
                "Of what came after it nothing was taken ({}). ",
                count(after, "record")
            ),
        }
    )];
    text.extend(wrong_title(run, clock));
    Some(Finding::bad(
        format!(
            "STOPPED at {} by the system's emergency message.",
            clock.say(at)
        ),
        text,
        "do not spray by this receiver. It judges nothing until it is started anew with the \
         system's new keys. Keep the recording.",
    ))
}

/// From when to when wrong data came, and for which satellites.
fn wrong_title(run: &Run, clock: Clock) -> Option<String> {
    let prns: BTreeSet<u8> = run.wrong.keys().copied().collect();
    let spans = || run.wrong.values().filter_map(|wrong| wrong.tags.span);
    let first = spans().map(|(first, _)| first).min()?;
    let last = spans().map(|(_, last)| last).max()?;
    Some(format!(
        "WRONG DATA came in {} for {} of {} ({}).",
        clock.span(first, last),
        prns.len(),
        count(run.heard.len() as u64, "satellite"),
        satellites(&prns)
    ))
}

/// Satellites with wrong tags of which some data is such.
fn with(run: &Run, such: fn(&Data) -> bool) -> BTreeSet<u8> {
    let of = |prn: &&u8| run.data.get(prn).is_some_and(such);
    run.wrong.keys().filter(of).copied().collect()
}

/// Satellites of which tags both matched and did not match the same data, so that the match may be
/// by chance.
pub fn disputed(run: &Run) -> BTreeSet<u8> {
    with(run, Data::is_disputed)
}

fn wrong(run: &Run, clock: Clock) -> Option<Finding> {
    let title = wrong_title(run, clock)?;
    let (disputed, older) = (disputed(run), with(run, Data::is_older));
    let mut text = Vec::new();
    if !disputed.is_empty() {
        text.push(format!(
            "For {} a tag also MATCHED the data that others called wrong: a short tag can match by \
             chance, so do not rely on that mark.",
            satellites(&disputed)
        ));
    }
    if !older.is_empty() {
        text.push(format!(
            "For {} it is data that was right before and is still heard, though the system sends \
             newer: the older is what is marked.",
            satellites(&older)
        ));
    }
    if text.is_empty() {
        text.push(not_taken(run).into());
    }
    text.extend(withdrawn(run, clock).map(|finding| finding.title));
    text.extend(out_of_date(run, clock).map(|finding| finding.title));
    text.push(boom(run, clock));
    Some(Finding::bad(title, text, where_from(run)))
}

/// What became of the marks while wrong data came.
fn not_taken(run: &Run) -> &'static str {
    let set = |mark: Option<Mark>| mark.map(|mark| mark.set);
    let stayed =
        |wrong: &WrongTags| wrong.before.is_some() && set(wrong.before) == set(wrong.meanwhile);
    if run.wrong.values().all(stayed) {
        "It was not taken: what was marked before stayed."
    } else {
        "It was not taken: no data that a tag called wrong was marked."
    }
}

/// What wrong tags point to.
fn where_from(run: &Run) -> &'static str {
    let other_issue = run.wrong.iter().filter(|(prn, wrong)| {
        let marked = run.marked.get(prn).into_iter().flat_map(|sets| &sets.kept);
        let marked: BTreeSet<u16> = marked.map(|set| set.iodnav).collect();
        wrong.tags.issues.is_disjoint(&marked)
    });
    match (run.wrong.len(), other_issue.count()) {
        (2.., 2..) => {
            "keep the recording. Wrong data for several satellites at once points to a repeater or a \
             forged signal near the field: find it before you spray there."
        }
        _ => {
            "keep the recording. If it is one satellite or comes with bad reception, look at the \
             antenna; if it comes back in the same place, look for a repeater near the field."
        }
    }
}

/// Whether every sub-frame had zeros in place of authentication fields.
fn only_zeros(run: &Run) -> bool {
    let zeros = run.refused.of(Part::Subframe, Refusal::AllZero);
    run.counts.0 > 0 && zeros.map(|sum| sum.count).sum::<u64>() == run.counts.0
}

fn no_keys(run: &Run, clock: Clock) -> Option<Finding> {
    if run.vouched.keys != Keys::NotYet {
        return None;
    }
    let said_no = run.said_no.as_ref().and_then(|event| event.at);
    let waits = run.message_since();
    let (title, to_do) = match (said_no, waits) {
        (Some(at), _) => (
            format!(
                "the signature chip said NO to the keys, last at {}.",
                clock.say(at)
            ),
            "keep the recording. Keys that the chip refuses are not the system's, or the chip has \
             another public key than the receiver.",
        ),
        (None, Some(since)) => (
            format!(
                "the system's keys have waited for the signature chip since {}.",
                clock.say(since)
            ),
            "check the signature chip and its wiring. Without its yes no key is taken.",
        ),
        (None, None) if only_zeros(run) => (
            "the satellites heard sent no keys and no tags.".into(),
            "check the receiver's Galileo setting. If it is right, the system sends none now.",
        ),
        (None, None) if run.gathering.whole.is_some() => (
            "the system's keys came whole, but were not taken.".into(),
            "check the public key and the settings that the receiver is started with.",
        ),
        (None, None) => (
            "the system's keys were not heard whole.".into(),
            "leave the receiver under open sky for some minutes more, then record again.",
        ),
    };
    let mut text = vec![format!(
        "{} heard, none marked: without keys no data can be shown to be authentic.",
        count(run.heard.len() as u64, "satellite")
    )];
    if said_no.is_none() && waits.is_none() {
        text.push(still_to_come(run, clock));
    }
    if let (Some(_), Some(since)) = (said_no, waits) {
        text.push(format!(
            "Keys have waited for the chip again since {}.",
            clock.say(since)
        ));
    }
    Some(Finding::bad(
        format!("NOTHING WAS JUDGED: {title}"),
        text,
        to_do,
    ))
}

/// Why no keys wait for the chip: their message was not taken, or is not whole.
fn still_to_come(run: &Run, clock: Clock) -> String {
    if let Some((n, at, then)) = run.gathering.whole {
        let why = match then {
            Then::Refused(refusal) => format!("refused: {}", refused_told(refusal)),
            Then::SaidNo(_) => "the signature chip said NO".into(),
            _ => "the system does not use these keys now".into(),
        };
        return format!(
            "The message with the keys came whole {}, last at {}; {why}.",
            count(n, "time"),
            clock.say(at)
        );
    }
    let open = run.gathering.open().into_iter();
    let open: Vec<Gathered> = open.filter(Gathered::is_root).collect();
    let told = |one: &Gathered| {
        let of = match open.len() {
            1 => String::new(),
            _ => format!(" (message {})", one.dsm_id),
        };
        one.blocks().told() + &of
    };
    let grown = |one: &Gathered| one.steps.last().map(|step| step.first);
    match open.iter().filter_map(grown).max() {
        None => "No block of the message with the keys came.".into(),
        Some(at) => format!(
            "The message with the keys never came whole: at the end {}. The last new block came at {}.",
            Vec::from_iter(open.iter().map(told)).join("; "),
            clock.say(at)
        ),
    }
}

fn withdrawn(run: &Run, clock: Clock) -> Option<Finding> {
    let event = run.withdrawn.as_ref()?;
    let since = |event: &Event| {
        event
            .at
            .map_or(String::new(), |at| format!(" at {}", clock.say(at)))
    };
    let mut text = vec![marked_told(run)];
    if run.renewed.is_none() && run.wanting().is_some() {
        text.push(still_to_come(run, clock));
    }
    let (title, to_do) = match &run.renewed {
        None => (
            format!(
                "THE SYSTEM WITHDREW ITS KEYS{}, and no new ones came.",
                since(event)
            ),
            "do not rely on older marks. Leave the receiver on until new keys are in force.".into(),
        ),
        Some(new) => (
            format!(
                "THE SYSTEM WITHDREW ITS KEYS{}. New ones were taken{}.",
                since(event),
                since(new)
            ),
            // Light on the page, y in the text; a narrow stretch of the page has no word.
            format!(
                "before you spray, see that the first row below ends in yes (light, or y): {NEEDED} satellites or more."
            ),
        ),
    };
    text.push(boom(run, clock));
    Some(Finding::bad(title, text, to_do))
}

/// Satellites whose data is out of date at the end: nothing newer was marked.
pub fn still_out_of_date(run: &Run) -> BTreeSet<u8> {
    let still = |(prn, old): &(&u8, &WrongTags)| {
        let newest = old.tags.span.map(|(_, last)| last);
        run.mark(**prn).map(|mark| mark.tag) <= newest
    };
    let old = run.out_of_date.iter().filter(still);
    old.map(|(prn, _)| *prn).collect()
}

/// Data of satellites that were not heard any more, and for which the system has newer.
fn out_of_date(run: &Run, clock: Clock) -> Option<Finding> {
    let prns = still_out_of_date(run);
    let spans = prns.iter().filter_map(|prn| run.out_of_date[prn].tags.span);
    let since = spans.map(|(first, _)| first).min()?;
    let text = format!(
        "Not heard any more when the system sent newer data, since {}: what was heard is the older.",
        clock.say(since)
    );
    Some(Finding::bad(
        format!(
            "DATA OUT OF DATE for {} of {} ({}).",
            prns.len(),
            count(run.heard.len() as u64, "satellite"),
            satellites(&prns)
        ),
        vec![text, boom(run, clock)],
        "look at the antenna and its view of the sky.",
    ))
}

/// Satellites whose data was heard and not marked.
pub fn unmarked(run: &Run) -> BTreeSet<u8> {
    let unmarked = run.data.keys().filter(|prn| !run.marked.contains_key(prn));
    unmarked.copied().collect()
}

/// Satellites whose data was heard and not marked, though tags agree with it: with the most bits that did.
pub fn short(run: &Run) -> BTreeMap<u8, u32> {
    let most = |prn| Some((prn, run.candidates.get(&prn)?.most));
    let all = unmarked(run).into_iter().filter_map(most);
    all.filter(|(_, bits)| *bits > 0).collect()
}

/// Why tags that agree with data have not marked it, with the bits of each satellite.
pub fn short_told(short: &BTreeMap<u8, u32>) -> String {
    let mut by_bits: BTreeMap<u32, BTreeSet<u8>> = BTreeMap::new();
    for (prn, bits) in short {
        by_bits.entry(*bits).or_default().insert(*prn);
    }
    let told = |(bits, prns): (&u32, &BTreeSet<u8>)| {
        let have = if prns.len() == 1 { "has" } else { "have" };
        format!("{} {have} {bits}", satellites(prns))
    };
    format!(
        "Tags agree with the data heard, but a mark takes {AUTHENTIC_BITS} bits of tags for the same \
         data: {}.",
        Vec::from_iter(by_bits.iter().rev().map(told)).join("; ")
    )
}

/// A span of the unproved data of a satellite.
type Span = fn(&Unproved) -> Option<(Gst, Gst)>;

/// What of the data of these satellites was not proved, and when it came: data without a tag, then data
/// that tags agree with.
fn unproved(run: &Run, of: impl Fn(u8, &Unproved) -> bool, clock: Clock) -> Vec<String> {
    let without = spans(run, &of, |unproved| unproved.span, clock);
    let short = spans(run, &of, |unproved| unproved.short, clock);
    let told = [
        without.map(|spans| format!("No tag has judged data that came for {spans}.")),
        short.map(|spans| {
            format!(
                "Tags agree with data that came for {spans}, but by fewer than the {AUTHENTIC_BITS} \
                 bits that a mark takes."
            )
        }),
    ];
    told.into_iter().flatten().collect()
}

/// When such data came, and for which of these satellites.
fn spans(
    run: &Run,
    of: &impl Fn(u8, &Unproved) -> bool,
    span: Span,
    clock: Clock,
) -> Option<String> {
    const MOST: usize = 3;
    let mut by_span: BTreeMap<(Gst, Gst), BTreeSet<u8>> = BTreeMap::new();
    for (prn, data) in &run.data {
        let unproved = data.unproved();
        if let Some(span) = span(&unproved).filter(|_| of(*prn, &unproved)) {
            by_span.entry(span).or_default().insert(*prn);
        }
    }
    let told = |((first, last), prns): (&(Gst, Gst), &BTreeSet<u8>)| {
        format!("{} {}", which(run, prns), clock.span(*first, *last))
    };
    let some = Vec::from_iter(by_span.iter().rev().take(MOST).map(told)).join("; ");
    let others = match by_span.len() > MOST {
        true => "; and others",
        false => "",
    };
    (!by_span.is_empty()).then(|| format!("{some}{others}"))
}

/// Whether data came for longer than a mark may be old and was not marked.
fn is_long(unproved: &Unproved) -> bool {
    unproved.longest > u64::from(LIMITS[0]) * SUBFRAME
}

fn not_proved(run: &Run, clock: Clock) -> Option<Finding> {
    let to_do =
        "leave the receiver on for some minutes more. If it stays so, look at its reception.";
    if run.data.is_empty() {
        let title = "NO ORBIT DATA WAS HEARD: there was nothing to judge.";
        return Some(Finding::bad(title.into(), Vec::new(), to_do));
    }
    let unmarked = unmarked(run);
    let long = run
        .data
        .iter()
        .filter(|(_, data)| is_long(&data.unproved()));
    let prns: BTreeSet<u8> = long.map(|(prn, _)| *prn).chain(unmarked.clone()).collect();
    let title = match run.marked.len() {
        0 => "NO DATA WAS PROVED.".into(),
        _ => format!(
            "NOT ALL DATA WAS PROVED for {} of {} ({}).",
            prns.len(),
            count(run.heard.len() as u64, "satellite"),
            satellites(&prns)
        ),
    };
    let mut text = Vec::new();
    let short = short(run);
    let without = unmarked.iter().filter(|prn| !short.contains_key(prn));
    let without: BTreeSet<u8> = without.copied().collect();
    if !without.is_empty() {
        text.push(format!(
            "No tag has shown the data of {} to be authentic; none has shown it to be wrong.",
            which(run, &without)
        ));
    }
    if !short.is_empty() {
        let prns = short.keys().copied().collect();
        text.push(format!(
            "The data of {} is not marked. {}",
            which(run, &prns),
            short_told(&short)
        ));
    }
    let of = |prn, unproved: &Unproved| is_long(unproved) && !unmarked.contains(&prn);
    text.extend(unproved(run, of, clock));
    text.push(boom(run, clock));
    (!prns.is_empty()).then(|| Finding::bad(title, text, to_do))
}

fn authentic(run: &Run, clock: Clock) -> Finding {
    let mut text = unproved(run, |_, _| true, clock);
    let is_short = |data: &Data| data.unproved().short.is_some();
    let title = match text.is_empty() {
        true => "All data heard was authentic.",
        false if run.data.values().any(is_short) => {
            "All data that enough tags judged was authentic."
        }
        false => "All data that was judged was authentic.",
    };
    text.push(marked_told(run));
    text.push(boom(run, clock));
    match too_few(run, clock) {
        None => Finding {
            good: true,
            title: title.into(),
            text,
            to_do: "nothing. Clip this sheet to the job.".into(),
        },
        Some(few) => Finding::bad(
            format!("{title} {few}"),
            text,
            "look at the antenna and its view of the sky.",
        ),
    }
}

/// How many satellites were heard and marked.
fn marked_told(run: &Run) -> String {
    let without: BTreeSet<u8> = run
        .heard
        .keys()
        .copied()
        .filter(|prn| !run.data.contains_key(prn))
        .collect();
    let of = run.data.len() as u64;
    let marked = match run.marked.len() as u64 {
        n if n == of => format!("{} with data, all marked.", count(of, "satellite")),
        n => format!("{} with data, {n} marked.", count(of, "satellite")),
    };
    let others = match without.len() {
        0 => String::new(),
        _ => format!(" {} sent none.", capital(which(run, &without))),
    };
    marked + &others
}

/// Where the boom had too few satellites.
fn too_few(run: &Run, clock: Clock) -> Option<String> {
    let when = match run.watch[0].kept() {
        None => ", all the time".into(),
        Some(kept) => {
            let (_, first, last) = kept.short?;
            format!(" {}", clock.span(first, last))
        }
    };
    Some(format!("TOO FEW SATELLITES for the boom{when}."))
}

/// What the boom goes by: that there were four, or not, is the core's answer.
fn boom(run: &Run, clock: Clock) -> String {
    let marks = format!("a mark of the last {} minutes", minutes(LIMITS[0]));
    let Some(kept) = run.watch[0].kept() else {
        return format!(
            "At no time did {NEEDED} satellites have {marks}; the boom needs {NEEDED}."
        );
    };
    match kept.short {
        None => format!(
            "From {} on never fewer than {} satellites had {marks}; the boom needs {NEEDED}.",
            clock.say(kept.since),
            kept.fewest
        ),
        Some((n, first, last)) => format!(
            "The boom needs {NEEDED} satellites with {marks}: it had them from {} on, but in {} {} \
             fewer, {} at the least.",
            clock.say(kept.since),
            count(n, "half minute"),
            clock.span(first, last),
            kept.fewest
        ),
    }
}

/// Satellites whose data was heard, but nothing in the last two minutes, each with its last half minute.
pub fn silent(run: &Run) -> Vec<(u8, Gst)> {
    let Some((_, end)) = run.timeline.span() else {
        return Vec::new();
    };
    let is = |(_, last): &(&u8, &Gst)| time::seconds(**last) + LONG <= time::seconds(end);
    let with_data = run
        .heard
        .iter()
        .filter(|(prn, _)| run.data.contains_key(prn));
    let silent = with_data.filter(is);
    silent.map(|(prn, last)| (*prn, *last)).collect()
}

/// An event in plain words, and whether it is a warning.
pub fn event_told(event: &Event) -> (bool, String) {
    match &event.what {
        What::Root {
            before: Keys::NotYet,
            ..
        } => (
            false,
            "Keys in force: the signature chip vouched for them, and tags are judged from here on."
                .into(),
        ),
        What::Root {
            before: Keys::Withdrawn,
            ..
        } => (
            false,
            "New keys in force: tags are judged again from here on.".into(),
        ),
        What::Root {
            same_chain: true, ..
        } => (false, "The system signed the keys in force anew.".into()),
        What::Root { .. } => (false, "New keys in force, in place of the old ones.".into()),
        What::Withdrawn => (
            true,
            "KEYS WITHDRAWN by the system: no tag is judged until new keys come.".into(),
        ),
        What::PublicKey(id) => (
            false,
            format!("New public key ({id}) in use, in place of the one before."),
        ),
        What::ChipSaidNo => (
            true,
            "The signature chip said NO: what it was asked about is not the system's.".into(),
        ),
        What::Stopped => (
            true,
            "STOPPED by the system's emergency message: nothing is judged until a new start."
                .into(),
        ),
    }
}

/// Tags that did not match one satellite's data: the fields of a row of [`STORY`].
pub fn story(run: &Run, clock: Clock, prn: u8, wrong: &WrongTags) -> Vec<String> {
    let mark = |mark: Option<Mark>| {
        mark.map_or("none".into(), |mark| {
            format!("{} ({})", mark.iodnav, clock.say(mark.tag))
        })
    };
    vec![
        format!("E{prn:02}"),
        wrong.tags.count.to_string(),
        wrong
            .tags
            .span
            .map_or(String::new(), |(first, last)| match first == last {
                true => clock.say(first),
                false => clock.range(first, last),
            }),
        issues(&wrong.tags.issues),
        mark(wrong.before),
        mark(wrong.meanwhile),
        mark(run.mark(prn)),
    ]
}

/// The head of the table of wrong data.
pub const STORY: [&str; 7] = [
    "Satellite",
    "Wrong tags",
    "Came",
    "Heard",
    "Marked before",
    "Meanwhile",
    "At the end",
];
