//! The definitions of the valve gate (crates/valve_rules/specs) beside the second receiver's model of it: short histories,
//! random ones, and each call on any bytes, numbers and lengths.

mod common;

use common::crates;
use rules_runner::machine::with_large_stack;
use rules_runner::valves::{Event, GateRules, Given};
use second_receiver::valves::{is_outer, Gate, BYTES, VALVES};
use signal::rng::Rng;

/// Decisions with each answer of the core to its two questions, the sub-frame that brings an emergency message, an accepted
/// start and a refused one.
const KINDS: [Event; 7] = [
    Event::Decide(true, true),
    Event::Decide(true, false),
    Event::Decide(false, true),
    Event::Decide(false, false),
    Event::Subframe(0, 4),
    Event::Started(0),
    Event::Started(2),
];

/// Events of the short histories, of which all are tried.
const EVENTS: u32 = if cfg!(debug_assertions) { 2 } else { 4 };
/// Random histories, and random calls.
const HISTORIES: u64 = if cfg!(debug_assertions) { 5 } else { 100 };
const CALLS: u64 = if cfg!(debug_assertions) { 100 } else { 5_000 };

fn with_gate<T: Send>(work: impl FnOnce(&GateRules) -> T + Send) -> T {
    with_large_stack(|| match GateRules::load(&crates()) {
        Ok(rules) => work(&rules),
        Err(error) => panic!("{error}"),
    })
}

/// An event in the model: the free valves where it is a decision.
fn happens(model: &mut Gate, event: Event) -> Option<u64> {
    match event {
        Event::Started(number) => model.started(number),
        Event::Answered(number) => model.answered(number),
        Event::Subframe(hkroot, mack) => model.subframe(hkroot, mack),
        Event::Decide(met20, met10) => return Some(model.decide(met20, met10)),
    }
    None
}

/// Goes on with each kind of event from a gate and its model, and so on.
fn all(rules: &GateRules, gate: &[u8], model: &Gate, left: u32, events: &mut Vec<Event>) -> u64 {
    if left == 0 {
        assert_eq!(rules.gate(events), gate, "{events:?}");
        assert_eq!(rules.stopped(events), model.is_stopped(), "{events:?}");
        return 1;
    }
    let mut histories = 0;
    for event in KINDS {
        events.push(event);
        let (after, mut model) = (rules.after(gate, event), model.clone());
        happens(&mut model, event);
        assert_eq!(after, model.bytes(), "{events:?}");
        assert_eq!(rules.free_valves(&after), model.free(), "{events:?}");
        histories += all(rules, &after, &model, left - 1, events);
        events.pop();
    }
    histories
}

#[test]
fn all_short_histories() {
    let histories = with_gate(|rules| {
        let begun = rules.begun();
        assert_eq!(begun, [0; BYTES]);
        all(rules, &begun, &Gate::begin(), EVENTS, &mut Vec::new())
    });
    assert_eq!(histories, 7u64.pow(EVENTS));
}

fn number(rng: &mut Rng) -> u32 {
    match rng.below(6) {
        0 => 4,
        1 => *rng.pick(&[1, 3, 5, 0x104, 0x400, 1 << 31 | 4, u32::MAX]),
        _ => *rng.pick(&[0, 2, 11, 12, 17]),
    }
}

fn draw(rng: &mut Rng) -> Event {
    match rng.below(16) {
        0 => Event::Answered(number(rng)),
        1 => Event::Subframe(number(rng), number(rng)),
        2 => Event::Started(0),
        3 => Event::Started(number(rng)),
        // Mostly met, as on a field.
        _ => Event::Decide(!rng.once_in(4), !rng.once_in(3)),
    }
}

/// What the history says of each valve's own limit: the newest decision first.
fn mets(events: &[Event], outer: bool) -> Vec<bool> {
    let (mut model, mut mets) = (Gate::begin(), Vec::new());
    for &event in events {
        if let Event::Decide(met20, met10) = event {
            let met = if outer { met10 } else { met20 };
            mets.insert(0, met && !model.is_stopped());
        }
        happens(&mut model, event);
    }
    mets
}

// The gate of the whole history; what it says of a stop and of the limits; which valves are free.
#[test]
fn random_histories() {
    with_gate(|rules| {
        let mut rng = Rng::new(31);
        for _ in 0..HISTORIES {
            let count = rng.below(40);
            let events: Vec<Event> = (0..count).map(|_| draw(&mut rng)).collect();
            let mut model = Gate::begin();
            for &event in &events {
                happens(&mut model, event);
            }
            let gate = rules.gate(&events);
            assert_eq!(gate, model.bytes(), "{events:?}");
            assert_eq!(rules.stopped(&events), model.is_stopped(), "{events:?}");
            for place in 0..VALVES as u64 {
                let free = model.free() >> place & 1 == 1;
                assert_eq!(rules.is_free(&gate, place), free, "{place} {events:?}");
            }
            for place in [0, 5, 6, 41, 42, 47] {
                let right = mets(&events, is_outer(place as usize + 1));
                assert_eq!(rules.mets_of(place, &events), right, "{place} {events:?}");
            }
        }
    });
}

/// What a call gives by the model where the length is right; `None` for the one that begins a gate. An answer of the core moves
/// the last byte alone, and bytes that no call leaves stay.
fn right(before: &[u8; BYTES], event: Option<Event>) -> Given {
    let mut after = *before;
    match event {
        None => after = [0; BYTES],
        Some(Event::Started(0)) => after[VALVES] = 0,
        Some(Event::Answered(4) | Event::Subframe(4, _) | Event::Subframe(_, 4)) => {
            after[VALVES] = 1
        }
        Some(Event::Decide(met20, met10)) => {
            let mut model = Gate::of_bytes(before);
            let free = model.decide(met20, met10);
            after[..VALVES].copy_from_slice(&model.bytes()[..VALVES]);
            return given(after, free);
        }
        Some(_) => {}
    }
    given(after, 0)
}

fn given(gate: [u8; BYTES], free: u64) -> Given {
    Given {
        number: 0,
        gate: gate.to_vec(),
        free,
    }
}

// Each call on any bytes; where their number is not 49, it answers 1, leaves them, and frees no valve.
#[test]
fn any_bytes_and_lengths() {
    with_gate(|rules| {
        let mut rng = Rng::new(32);
        for at in 0..CALLS {
            let len = if rng.once_in(4) { rng.below(101) } else { 49 };
            let mut lent = rng.bytes(len as usize);
            if rng.once_in(2) {
                lent.iter_mut().for_each(|byte| *byte %= 5);
            }
            if rng.once_in(2) && len == 49 {
                lent[VALVES] = 0;
            }
            let answers = [(); 2].map(|()| *rng.pick(&[0, 1, 1, 1, 2, 255]));
            let event = (!rng.once_in(8)).then(|| match draw(&mut rng) {
                Event::Decide(..) => Event::Decide(answers[0] == 1, answers[1] == 1),
                event => event,
            });
            let got = match event {
                None => rules.begin(&lent),
                Some(Event::Decide(..)) => rules.decide(&lent, answers[0], answers[1]),
                Some(event) => rules.shown(&lent, event),
            };
            let right = match lent[..].try_into() {
                Ok(lent) => right(lent, event),
                Err(_) => Given {
                    number: 1,
                    gate: lent.clone(),
                    free: 0,
                },
            };
            assert_eq!(got, right, "call {at}: {event:?} {answers:?} on {lent:?}");
        }
    });
}
