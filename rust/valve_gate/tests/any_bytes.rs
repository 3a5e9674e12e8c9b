//! Each call on any bytes, numbers and lengths: the state that it leaves, its answer and the free valves are the stated ones, by
//! the second receiver's model and by the definitions themselves (crates/valve_rules/specs/Gate.antt and
//! crates/valve_gate/specs/Asked.antt).

#[path = "../../osnma/tests/common/stamps.rs"]
#[allow(dead_code)]
mod stamps;

use osnma::regions::Regions;
use rules_runner::machine::with_large_stack;
use rules_runner::valves::{Event, GateRules, Given};
use second_receiver::four::met;
use second_receiver::valves::{self, BYTES, CENTRE_AGE, OUTER_AGE, VALVES};
use signal::rng::Rng;
use std::path::Path;
use valve_gate::lent;

const CALLS: u64 = if cfg!(debug_assertions) {
    2_000
} else {
    100_000
};

/// A call over lent bytes with any numbers.
#[derive(Clone, Copy, Debug)]
enum Call {
    Begin,
    Started(u32),
    Answered(u32),
    Subframe(u32, u32),
    /// By the core's answers as it sends them.
    Decide(u8, u8),
    /// Asks a core.
    CoreDecide,
}

use Call::*;

/// Mostly numbers that tell something, and those that look like them in some of their bytes.
fn number(rng: &mut Rng) -> u32 {
    match rng.below(4) {
        0 => 4,
        1 => *rng.pick(&[0, 1, 3, 5, 0x104, 0x400, 4 << 16, 1 << 31 | 4, u32::MAX]),
        2 => rng.below(20) as u32,
        _ => rng.number() as u32,
    }
}

fn answer(rng: &mut Rng) -> u8 {
    match rng.below(3) {
        0 => rng.number() as u8,
        _ => rng.below(3) as u8,
    }
}

fn draw(rng: &mut Rng) -> Call {
    match rng.below(8) {
        0 => Begin,
        1 if rng.once_in(2) => Started(0),
        1 => Started(number(rng)),
        2 => Answered(number(rng)),
        3 | 4 => Subframe(number(rng), number(rng)),
        5 | 6 => Decide(answer(rng), answer(rng)),
        _ => CoreDecide,
    }
}

/// Bytes of a state: valves as decisions leave them, or any; a stop as it is told, or by any byte.
fn bytes(rng: &mut Rng) -> [u8; BYTES] {
    let any = rng.below(3);
    let mut bytes = rng.array();
    for byte in &mut bytes[..VALVES] {
        *byte = match any {
            0 => rng.below(4) as u8,
            1 => rng.below(8) as u8,
            _ => *byte,
        };
    }
    match rng.below(3) {
        0 => bytes[VALVES] = 0,
        1 => bytes[VALVES] = 1,
        _ => {}
    }
    bytes
}

/// Makes a call; the number that it answers. A decision that asks is lent these two regions of a core.
fn made(call: Call, gate: &mut [u8], [clocks, arrivals]: [&[u32]; 2], free: &mut u64) -> u32 {
    match call {
        Begin => lent::begin(gate),
        Started(number) => lent::started(gate, number),
        Answered(number) => lent::answered(gate, number),
        Subframe(hkroot, mack) => lent::subframe(gate, hkroot, mack),
        Decide(met20, met10) => lent::decide(gate, met20, met10, free),
        CoreDecide => lent::core_decide(gate, clocks, arrivals, free),
    }
}

fn asked(regions: &Regions) -> [&[u32]; 2] {
    [&regions.clocks, &regions.arrivals]
}

/// Whether four satellites are as young, by the second receiver's rule.
fn four(regions: &Regions) -> [bool; 2] {
    let least = stamps::least_limit_of(regions);
    [CENTRE_AGE, OUTER_AGE].map(|limit| met(least, limit))
}

/// The bytes that a call leaves, and the free valves where it decides.
fn right(call: Call, before: &[u8; BYTES], regions: &Regions) -> ([u8; BYTES], Option<u64>) {
    let mut after = *before;
    let mut stop = |stop: bool, byte: u8| {
        if stop {
            after[VALVES] = byte;
        }
    };
    let [met20, met10] = match call {
        Begin => return ([0; BYTES], None),
        Started(number) => {
            stop(number == 0, 0);
            return (after, None);
        }
        Answered(number) => {
            stop(number == 4, 1);
            return (after, None);
        }
        Subframe(hkroot, mack) => {
            stop(hkroot == 4 || mack == 4, 1);
            return (after, None);
        }
        Decide(met20, met10) => [met20 == 1, met10 == 1],
        CoreDecide => four(regions),
    };
    let mut model = valves::Gate::of_bytes(before);
    let free = model.decide(met20, met10);
    after[..VALVES].copy_from_slice(&model.bytes()[..VALVES]);
    (after, Some(free))
}

/// What stands before and behind the lent bytes.
const GUARD: u8 = 0xA5;
const ROOM: usize = 16;

/// Lends these bytes out of a larger room, and looks at what stands around them.
fn lend(bytes: &[u8], call: impl FnOnce(&mut [u8]) -> u32) -> (u32, Vec<u8>) {
    let mut room = vec![GUARD; ROOM];
    room.extend(bytes);
    room.extend([GUARD; ROOM]);
    let place = ROOM..ROOM + bytes.len();
    let number = call(&mut room[place.clone()]);
    let after = room.drain(place).collect();
    assert_eq!(room, [GUARD; 2 * ROOM], "around the lent bytes");
    (number, after)
}

#[test]
fn any_state_and_numbers() {
    let (mut rng, mut regions) = (Rng::new(21), Regions::zeroed());
    let mut decided = [0u64; 4];
    for at in 0..CALLS {
        let (call, before) = (draw(&mut rng), bytes(&mut rng));
        if matches!(call, CoreDecide) {
            stamps::draw(&mut rng, &mut regions);
            let [met20, met10] = four(&regions).map(usize::from);
            decided[2 * met20 + met10] += 1;
        }
        let (clocks, arrivals, any) = (regions.clocks, regions.arrivals, rng.number());
        let mut free = any;
        let (number, after) = lend(&before, |gate| made(call, gate, asked(&regions), &mut free));
        let (right, valves) = right(call, &before, &regions);
        let told = (number, after, free);
        let right = (0, right.to_vec(), valves.unwrap_or(any));
        assert_eq!(told, right, "call {at}: {call:?} on {before:?}");
        assert_eq!((clocks, arrivals), (regions.clocks, regions.arrivals));
    }
    // An age of 10 is one of 20.
    assert_eq!(decided[1], 0);
    assert!([0, 2, 3].map(|at| decided[at]).iter().all(|&n| n > 10));
}

// Where a length is wrong, 1, no byte is changed, and a decision frees none.
#[test]
fn any_length() {
    let (mut rng, mut regions) = (Rng::new(22), Regions::zeroed());
    for len in 0..=100 {
        for _ in 0..CALLS / 500 {
            stamps::draw(&mut rng, &mut regions);
            let (call, mut before) = (draw(&mut rng), rng.bytes(len));
            if rng.once_in(2) {
                before.iter_mut().for_each(|byte| *byte %= 4);
            }
            let any = rng.number();
            let mut free = any;
            let (number, after) =
                lend(&before, |gate| made(call, gate, asked(&regions), &mut free));
            assert_eq!(number, u32::from(len != BYTES), "{len}: {call:?}");
            if len != BYTES {
                let decides = matches!(call, Decide(..) | CoreDecide);
                assert_eq!(after, before, "{len}: {call:?}");
                assert_eq!(free, if decides { 0 } else { any }, "{len}: {call:?}");
            }
        }
    }
}

// A decision that is lent a core's region of another length.
#[test]
fn any_length_of_a_region() {
    let regions = Regions::zeroed();
    let right = (regions.clocks.len(), regions.arrivals.len(), BYTES);
    let around = |right: usize| [0, 1, right - 1, right, right + 1, 2 * right];
    for clocks in around(right.0) {
        for arrivals in around(right.1) {
            for gate in around(right.2) {
                let (lengths, before, mut free) = ((clocks, arrivals, gate), vec![0; gate], 77);
                let (clocks, arrivals) = (vec![1; clocks], vec![1; arrivals]);
                let (number, after) = lend(&before, |gate| {
                    lent::core_decide(gate, &clocks, &arrivals, &mut free)
                });
                let refused = lengths != right;
                assert_eq!(number, u32::from(refused), "{lengths:?}");
                assert_eq!(free, if refused { 0 } else { (1 << 48) - 1 });
                assert!(!refused || after == before, "{lengths:?}");
            }
        }
    }
}

/// What the definitions give of a call.
fn defined(rules: &GateRules, call: Call, gate: &[u8], [clocks, arrivals]: [&[u32]; 2]) -> Given {
    match call {
        Begin => rules.begin(gate),
        Started(number) => rules.shown(gate, Event::Started(number)),
        Answered(number) => rules.shown(gate, Event::Answered(number)),
        Subframe(hkroot, mack) => rules.shown(gate, Event::Subframe(hkroot, mack)),
        Decide(met20, met10) => rules.decide(gate, met20, met10),
        CoreDecide => rules.core_decide(gate, clocks, arrivals),
    }
}

/// Elements of any length, mostly of their own.
fn resized<T: Copy + From<u8>>(elements: &[T], rng: &mut Rng) -> Vec<T> {
    let (mut elements, len) = (elements.to_vec(), elements.len());
    if rng.once_in(6) {
        let len = *rng.pick(&[0, 1, len - 1, len + 1, 2 * len]);
        elements.resize(len, 1.into());
    }
    elements
}

// The same by the definitions: any bytes and lengths of a gate, any contents and lengths of the regions that a core is asked by.
#[test]
fn as_defined() {
    let crates = Path::new(env!("CARGO_MANIFEST_DIR")).join("../../crates");
    let numbers = with_large_stack(|| {
        let rules = GateRules::load(&crates).unwrap_or_else(|error| panic!("{error}"));
        let (mut rng, mut regions) = (Rng::new(24), Regions::zeroed());
        let mut numbers = [0u64; 2];
        for at in 0..CALLS / 20 {
            let call = draw(&mut rng);
            let before = resized(&bytes(&mut rng), &mut rng);
            stamps::draw(&mut rng, &mut regions);
            let lent = asked(&regions).map(|region| resized(region, &mut rng));
            let lent = [&lent[0][..], &lent[1]];
            let mut free = 0;
            let (number, gate) = lend(&before, |gate| made(call, gate, lent, &mut free));
            numbers[number as usize] += 1;
            let number = number.into();
            let given = Given { number, gate, free };
            let right = defined(&rules, call, &before, lent);
            assert_eq!(given, right, "call {at}: {call:?} on {before:?}");
        }
        numbers
    });
    assert!(numbers.iter().all(|&count| count > 10), "{numbers:?}");
}
