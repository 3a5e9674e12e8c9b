//! The gate against the second receiver's model, which keeps each valve's history in the place of a state: all short
//! histories, and long ones drawn at random.

mod common;

use common::histories::compare;
use common::twin::{Event, Twin};
use common::watch::{Watch, CENTRE, OUTER};

/// Seven kinds of events: decisions with each answer of the core to its two questions, the sub-frame that brings an emergency
/// message, an accepted start and a refused one.
const KINDS: [Event; 7] = [
    Event::Decide(true, true),
    Event::Decide(true, false),
    Event::Decide(false, true),
    Event::Decide(false, false),
    Event::Subframe(0, 4),
    Event::Started(0),
    Event::Started(2),
];

/// Events of the longest histories that are all tried.
const EVENTS: u32 = if cfg!(debug_assertions) { 4 } else { 6 };

const HISTORIES: u64 = if cfg!(debug_assertions) { 50 } else { 2_000 };

/// Goes on with each kind of event, and so on; gives the number of histories that are `left` events longer.
fn all(twin: &Twin, watch: &Watch, left: u32, events: &mut Vec<Event>) -> u64 {
    if left == 0 {
        return 1;
    }
    let mut histories = 0;
    for event in KINDS {
        events.push(event);
        let (mut twin, mut watch) = (twin.clone(), watch.clone());
        let seen = twin.happens(event).and_then(|free| watch.sees(event, free));
        assert_eq!(seen, Ok(()), "{events:?}");
        histories += all(&twin, &watch, left - 1, events);
        events.pop();
    }
    histories
}

#[test]
fn all_short_histories() {
    let begun = Twin::new();
    assert_eq!(begun.compare(), Ok(()));
    let histories = all(&begun, &Watch::default(), EVENTS, &mut Vec::new());
    assert_eq!(histories, 7u64.pow(EVENTS));
}

// Each thing that a history can reach is.
#[test]
fn random_histories() {
    let tally = compare(HISTORIES, 1).unwrap_or_else(|error| panic!("{error}"));
    println!("{tally:?}");
    assert_eq!(tally.missing(), [""; 0], "never reached");
}

/// Events that the watch is shown, each with the valves that a decision frees.
fn watched(events: &[(Event, u64)]) -> Result<(), String> {
    let mut watch = Watch::default();
    let mut events = events.iter();
    events.try_for_each(|&(event, free)| watch.sees(event, Some(free)))
}

const ALL: u64 = OUTER | CENTRE;
const MET: Event = Event::Decide(true, true);
const CENTRE_MET: Event = Event::Decide(true, false);
const UNMET: Event = Event::Decide(false, false);
const STOP: Event = Event::Subframe(0, 4);

#[test]
fn the_watch_passes() {
    for right in [
        &[(MET, ALL), (CENTRE_MET, CENTRE), (UNMET, 0)][..],
        &[(MET, 0), (MET, 0), (MET, ALL), (MET, ALL)],
        &[(MET, 0), (UNMET, 0), (MET, 0), (MET, 0), (MET, ALL)],
        &[(MET, 0), (CENTRE_MET, 0), (CENTRE_MET, CENTRE), (MET, ALL)],
        &[(STOP, 0), (MET, 0), (Event::Started(0), 0), (MET, ALL)],
    ] {
        assert_eq!(watched(right), Ok(()), "{right:x?}");
    }
}

// Decisions that break what 02 says of any run are seen, whatever the model says.
#[test]
fn the_watch_sees() {
    for wrong in [
        &[(MET, ALL | 1 << 48)][..],
        &[(MET, 1)],
        &[(MET, ALL & !(1 << 47))],
        &[(MET, ALL & !(1 << 6))],
        &[(UNMET, ALL)],
        &[(UNMET, CENTRE)],
        &[(CENTRE_MET, ALL)],
        &[(Event::Decide(false, true), CENTRE)],
        &[(STOP, 0), (MET, ALL)],
        &[(Event::Subframe(4, 0), 0), (MET, OUTER)],
        &[(Event::Answered(4), 0), (Event::Started(2), 0), (MET, ALL)],
        &[(MET, 0), (MET, 0), (MET, 0)],
        &[(MET, ALL), (MET, ALL), (MET, CENTRE)],
        &[(CENTRE_MET, 0), (CENTRE_MET, 0), (MET, OUTER)],
    ] {
        assert!(watched(wrong).is_err(), "{wrong:x?}");
    }
}
