//! The calls of the valve gate.
//!
//! - `gate works`: the calls, and the cores that a decision asks
//! - `gate count WORK TURNS`: one of them alone, to be counted by callgrind
//! - `gate stack`: the deepest stack of each export

use crate::four;
use crate::stack::of_call;
use osnma::regions::Regions;
use std::hint::black_box;
use valve_gate::{lent, CENTRE_LIMIT, OUTER_LIMIT, STATE_LEN};

pub const USAGE: &str = "gate works | count WORK TURNS | stack";

type State = [u8; STATE_LEN];

/// What a call answers, and the valves that it frees.
type Told = (u32, u64);

const ALL: u64 = (1 << 48) - 1;

/// A call that is lent the state alone, and leaves it as it was.
struct Call {
    name: &'static str,
    /// The byte of all valves.
    valves: u8,
    frees: u64,
    make: fn(&mut State) -> Told,
}

const CALLS: [Call; 6] = [
    Call {
        name: "begin",
        valves: 0,
        frees: 0,
        make: |gate| (lent::begin(gate), 0),
    },
    Call {
        name: "answer to a start",
        valves: 3,
        frees: 0,
        make: |gate| (lent::started(gate, black_box(0)), 0),
    },
    Call {
        name: "answer to a word or a verdict",
        valves: 3,
        frees: 0,
        make: |gate| (lent::answered(gate, black_box(0)), 0),
    },
    Call {
        name: "answers to a sub-frame",
        valves: 3,
        frees: 0,
        make: |gate| (lent::subframe(gate, black_box(0), black_box(0)), 0),
    },
    Call {
        name: "decision by two answers, all free",
        valves: 3,
        frees: ALL,
        make: |gate| decide(gate, 1),
    },
    Call {
        name: "decision by two answers, all closed",
        valves: 0,
        frees: 0,
        make: |gate| decide(gate, 0),
    },
];

fn decide(gate: &mut State, met: u8) -> Told {
    let mut free = 77;
    let number = lent::decide(gate, black_box(met), black_box(met), &mut free);
    (number, free)
}

/// A decision that asks a core, by where the sets are; all limits are met, or none.
const ASKED: &str = "decision that asks the core, ";

/// No sub-frame was noted.
const UNNOTED: &str = "no sub-frame noted";

fn questions() -> impl Iterator<Item = &'static str> {
    four::QUESTIONS.into_iter().chain([UNNOTED])
}

/// The core of a question, and the valves that are free by it.
fn core(question: &str) -> Option<(Box<Regions>, u64)> {
    if question == UNNOTED {
        return Some((Box::new(Regions::zeroed()), 0));
    }
    // Sets that meet the lower limit, or fail to meet the higher one by a sub-frame.
    let (met, _) = four::core(question, OUTER_LIMIT)?;
    match four::core(question, CENTRE_LIMIT)? {
        (_, 1) => Some((met, ALL)),
        (unmet, _) => Some((unmet, 0)),
    }
}

fn ask(gate: &mut State, core: &Regions) -> Told {
    let mut free = 77;
    let number = lent::core_decide(gate, &core.clocks, &core.arrivals, &mut free);
    (number, free)
}

/// A state with the same byte for all valves, and no stop.
fn state(valves: u8) -> State {
    let mut state = [valves; STATE_LEN];
    state[STATE_LEN - 1] = 0;
    state
}

/// Makes a call so many times, and looks at what it tells and leaves.
fn made(
    valves: u8,
    frees: u64,
    turns: u64,
    call: impl Fn(&mut State) -> Told,
) -> Result<(), String> {
    let mut gate = state(valves);
    for _ in 0..turns {
        let told = call(black_box(&mut gate));
        if told != (0, frees) {
            return Err(format!("{told:?}, not 0 and {frees:X}"));
        }
    }
    match gate == state(valves) {
        true => Ok(()),
        false => Err(format!("{gate:?} is left")),
    }
}

fn count(work: &str, turns: u64) -> Option<Result<(), String>> {
    if let Some(question) = work.strip_prefix(ASKED) {
        let (core, frees) = core(question)?;
        let valves = if frees == 0 { 0 } else { 3 };
        return Some(made(valves, frees, turns, |gate| ask(gate, &core)));
    }
    let call = CALLS.into_iter().find(|call| call.name == work)?;
    Some(made(call.valves, call.frees, turns, call.make))
}

/// The deepest stack of a call, with the frames of the Rust functions that make it.
fn stack() -> Option<()> {
    println!("| Call | Deepest stack, bytes |");
    println!("|---|---|");
    for call in CALLS {
        let right = (0, call.frees);
        let bytes = of_call(&mut state(call.valves), |gate| {
            assert_eq!((call.make)(gate), right);
        });
        println!("| {} | {bytes} |", call.name);
    }
    for question in questions() {
        let (core, frees) = core(question)?;
        let right = (0, frees);
        let bytes = of_call(&mut state(0), |gate| assert_eq!(ask(gate, &core), right));
        println!("| {ASKED}{question} | {bytes} |");
    }
    Some(())
}

pub fn command(words: &[&str]) -> Option<Result<(), String>> {
    match words {
        ["works"] => {
            CALLS.iter().for_each(|call| println!("{}", call.name));
            questions().for_each(|question| println!("{ASKED}{question}"));
            Some(Ok(()))
        }
        ["count", work, turns] => count(work, turns.parse().ok()?),
        ["stack"] => stack().map(Ok),
        _ => None,
    }
}
