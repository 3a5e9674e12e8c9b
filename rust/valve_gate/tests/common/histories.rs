//! Long histories drawn at random: library and model side by side, and what 02 says of any run.

use super::twin::{Event, Twin};
use super::watch::{Watch, CENTRE, GROUPS, OUTER};
use signal::rng::Rng;
use std::collections::BTreeMap;
use valve_gate::{Gate, Valve};

/// What a history can reach.
pub const REACHED: [&str; 26] = [
    "outer valves freed",
    "outer valves closed",
    "outer valves stay closed in the two further decisions, met",
    "outer valves stay closed in the two further decisions, unmet",
    "outer valves free at the first decision",
    "centre valves freed",
    "centre valves closed",
    "centre valves stay closed in the two further decisions, met",
    "centre valves stay closed in the two further decisions, unmet",
    "centre valves free at the first decision",
    "outer valves free, centre closed",
    "centre valves free, outer closed",
    "stopped decision closes free valves",
    "stopped decision of closed valves",
    "stopped decision in the two further",
    "stop by a word or a verdict",
    "stop by a sub-frame's first number",
    "stop by a sub-frame's second number",
    "stop by both numbers",
    "stop told again",
    "accepted start ends a stop",
    "accepted start ends a stop in the two further decisions",
    "accepted start ends a stop that no decision saw",
    "accepted start without a stop",
    "refused start of a stopped core",
    "refused start without a stop",
];

/// How often each was reached, and how many decisions there were.
#[derive(Clone, Debug, Default, PartialEq, Eq)]
pub struct Tally {
    pub decisions: u64,
    pub reached: BTreeMap<&'static str, u64>,
}

impl Tally {
    fn reach(&mut self, what: &'static str) {
        debug_assert!(REACHED.contains(&what), "{what}");
        *self.reached.entry(what).or_default() += 1;
    }

    /// What was never reached.
    pub fn missing(&self) -> Vec<&'static str> {
        let never = |what: &&str| !self.reached.contains_key(what);
        REACHED.into_iter().filter(never).collect()
    }
}

/// How a history is drawn.
struct Mood {
    /// A limit's answer turns over once in so many decisions.
    turns: u64,
    /// Another event than a decision comes once in so many.
    other: u64,
    /// A 4 comes once in so many answers, an accepted start once in so many of these events.
    stops: u64,
    starts: u64,
    met: [bool; 2],
}

impl Mood {
    fn draw(rng: &mut Rng) -> Mood {
        Mood {
            turns: rng.range(1, 8),
            other: rng.range(1, 5),
            stops: rng.range(2, 40),
            starts: rng.range(2, 8),
            met: [rng.once_in(2), rng.once_in(2)],
        }
    }

    /// An answer of the core, mostly none that tells a stop; or a number near one.
    fn number(&self, rng: &mut Rng) -> u32 {
        match rng.below(self.stops) {
            0 => 4,
            1 if rng.once_in(2) => *rng.pick(&[3, 5, 0x104, 0x400, 1 << 31 | 4, u32::MAX]),
            _ => *rng.pick(&[0, 0, 0, 0, 2, 3, 5, 6, 11, 12, 13, 14, 15, 17]),
        }
    }

    fn event(&mut self, rng: &mut Rng) -> Event {
        if !rng.once_in(self.other) {
            for met in &mut self.met {
                *met ^= rng.once_in(self.turns);
            }
            return Event::Decide(self.met[0], self.met[1]);
        }
        match rng.below(4) {
            0 if rng.once_in(self.starts) => Event::Started(0),
            0 => Event::Started(*rng.pick(&[1, 2, 4, 0x100, 1 << 31, u32::MAX])),
            1 => Event::Answered(self.number(rng)),
            2 => {
                // The sub-frame of a stopped core answers twice the same.
                let number = self.number(rng);
                Event::Subframe(number, number)
            }
            _ => Event::Subframe(self.number(rng), self.number(rng)),
        }
    }
}

/// Valve 1 and valve 7: one of each group, outer first.
fn groups(gate: &Gate) -> [Valve; 2] {
    [1, 7].map(|valve| gate.valve(valve))
}

fn is_waiting(valve: Valve) -> bool {
    matches!(valve, Valve::Closed { further: 1 | 2 })
}

/// One of five names of [`REACHED`] for each group.
fn name(group: usize, of_group: usize) -> &'static str {
    REACHED[5 * group + of_group]
}

fn tell_decision(tally: &mut Tally, before: &Gate, met: [bool; 2], free: u64, first: bool) {
    tally.decisions += 1;
    for (group, valve) in groups(before).into_iter().enumerate() {
        let is_free = free & GROUPS[group] != 0;
        match valve {
            Valve::Free if !is_free => tally.reach(name(group, 1)),
            Valve::Closed { .. } if is_free => tally.reach(name(group, 0)),
            valve if is_waiting(valve) && met[group] => tally.reach(name(group, 2)),
            valve if is_waiting(valve) => tally.reach(name(group, 3)),
            _ => {}
        }
        if first && is_free {
            tally.reach(name(group, 4));
        }
    }
    match free {
        OUTER => tally.reach("outer valves free, centre closed"),
        CENTRE => tally.reach("centre valves free, outer closed"),
        _ => {}
    }
    if before.is_stopped() && met == [true; 2] {
        let valves = groups(before);
        tally.reach(match valves {
            [Valve::Free, _] | [_, Valve::Free] => "stopped decision closes free valves",
            [outer, centre] if is_waiting(outer) || is_waiting(centre) => {
                "stopped decision in the two further"
            }
            _ => "stopped decision of closed valves",
        });
    }
}

/// Tells what an event met; `unseen` says that no decision was made since a stop was told.
fn tell_answer(tally: &mut Tally, before: &Gate, event: Event, unseen: bool) {
    let stopped = before.is_stopped();
    let stop = match event {
        Event::Answered(4) => Some("stop by a word or a verdict"),
        Event::Subframe(4, 4) => Some("stop by both numbers"),
        Event::Subframe(4, _) => Some("stop by a sub-frame's first number"),
        Event::Subframe(_, 4) => Some("stop by a sub-frame's second number"),
        _ => None,
    };
    if let Some(stop) = stop {
        tally.reach(if stopped { "stop told again" } else { stop });
    }
    match event {
        Event::Started(0) if stopped => {
            tally.reach("accepted start ends a stop");
            if groups(before).into_iter().any(is_waiting) {
                tally.reach("accepted start ends a stop in the two further decisions");
            }
            if unseen {
                tally.reach("accepted start ends a stop that no decision saw");
            }
        }
        Event::Started(0) => tally.reach("accepted start without a stop"),
        Event::Started(_) if stopped => tally.reach("refused start of a stopped core"),
        Event::Started(_) => tally.reach("refused start without a stop"),
        _ => {}
    }
}

/// One history.
fn run(rng: &mut Rng, tally: &mut Tally) -> Result<(), String> {
    let (mut twin, mut watch, mut mood) = (Twin::new(), Watch::default(), Mood::draw(rng));
    let (mut first, mut unseen, mut events) = (true, false, Vec::new());
    for _ in 0..rng.range(50, 400) {
        let event = mood.event(rng);
        events.push(event);
        let before = twin.gate.clone();
        let happened = twin
            .happens(event)
            .and_then(|free| watch.sees(event, free).and(Ok(free)));
        match happened {
            Err(error) => return Err(format!("{error} after {events:?}")),
            Ok(Some(free)) => {
                let Event::Decide(met20, met10) = event else {
                    return Err(format!("{event:?} gave valves"));
                };
                tell_decision(tally, &before, [met10, met20], free, first);
                (first, unseen) = (false, false);
            }
            Ok(None) => {
                tell_answer(tally, &before, event, unseen);
                unseen |= twin.gate.is_stopped() && !before.is_stopped();
            }
        }
    }
    Ok(())
}

/// This many histories from a seed, each of 50 to 400 events.
pub fn compare(count: u64, seed: u64) -> Result<Tally, String> {
    let (mut rng, mut tally) = (Rng::new(seed), Tally::default());
    for at in 1..=count {
        run(&mut rng, &mut tally).map_err(|error| format!("history {at}: {error}"))?;
    }
    Ok(tally)
}
