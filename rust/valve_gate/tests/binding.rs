//! The Rust binding beside the proved calls over bytes: typed answers, the two regions of a core, bits and bytes by valve.

use osnma::{Core, Gst, Refusal, NO_RECORDS};
use valve_gate::{is_outer, lent, Free, Gate, Valve, CENTRE_LIMIT, OUTER_LIMIT, STATE_LEN, VALVES};

/// Every answer of a call, and its number.
fn answers() -> impl Iterator<Item = (Result<(), Refusal>, u32)> {
    let refused = Refusal::LISTED.into_iter().chain([Refusal::Unlisted(18)]);
    let refused = refused.map(|refusal| (Err(refusal), refusal.number()));
    std::iter::once((Ok(()), 0)).chain(refused)
}

/// A gate with these valves, the core stopped or not.
fn gate_of(valves: u8, stopped: u8) -> Gate {
    let mut bytes = [valves; STATE_LEN];
    bytes[48] = stopped;
    Gate::from_bytes(bytes)
}

/// A core in which so many satellites have a set of this age, in half minutes.
fn core_with(count: usize, age: u32) -> Core {
    let mut core = Core::new();
    let regions = core.regions_mut();
    regions.clocks[0] = 1 + 6_000;
    regions.arrivals[36 - count..36].fill(1 + 6_000 - 30 * age);
    core
}

#[test]
fn begins_closed() {
    let gate = Gate::new();
    assert_eq!(gate.as_bytes(), &[0; STATE_LEN]);
    assert_eq!(gate, Gate::default());
    assert!(!gate.is_stopped());
    let mut bytes = [0xA5; STATE_LEN];
    assert_eq!((lent::begin(&mut bytes), bytes), (0, [0; STATE_LEN]));
}

// An accepted start ends a stop; 4 of a word, of a verdict or of either half begins one. Nothing else tells.
#[test]
fn answers_tell_of_a_stop() {
    let mut core = Core::new();
    for (answer, number) in answers() {
        for stopped in [0, 1, 7] {
            let before = gate_of(3, stopped);
            let mut gate = before.clone();
            gate.started(&answer);
            assert_eq!(gate, gate_of(3, if number == 0 { 0 } else { stopped }));
            let after = gate_of(3, if number == 4 { 1 } else { stopped });
            let mut gate = before.clone();
            gate.answered(&answer);
            assert_eq!(gate, after, "{answer:?}");
            for (hkroot, mack) in [(answer, Ok(())), (Ok(()), answer)] {
                let mut gate = before.clone();
                let mut records = NO_RECORDS;
                let mut halves = core.subframe(0, Gst::from_bits(0), &[0; 75], &mut records);
                (halves.hkroot, halves.mack) = (hkroot, mack);
                gate.subframe(&halves);
                assert_eq!(gate, after, "{hkroot:?} {mack:?}");
                assert_eq!(gate.is_stopped(), after.as_bytes()[48] != 0);
            }
        }
    }
}

#[test]
fn numbers_are_the_answers() {
    for (answer, number) in answers() {
        let (mut by_answer, mut by_number) = (gate_of(1, 1), gate_of(1, 1));
        by_answer.started(&answer);
        by_number.started_number(number);
        assert_eq!(by_answer, by_number);
        let (mut by_answer, mut by_number) = (gate_of(1, 0), gate_of(1, 0));
        by_answer.answered(&answer);
        by_number.answered_number(number);
        assert_eq!(by_answer, by_number);
    }
    let mut gate = gate_of(2, 0);
    gate.subframe_numbers(4, 0);
    assert!(gate.is_stopped());
}

// The centre goes by 20, the outer valves by 10, also where the answers are told.
#[test]
fn limits_are_those_of_each_valve() {
    for age in 0..23 {
        for count in [0, 3, 4, 36] {
            let core = core_with(count, age);
            let (mut asked, mut told) = (Gate::new(), Gate::new());
            let free = asked.decide(&core);
            let met = |limit| count >= 4 && age <= limit;
            assert_eq!((free.centre(), free.outer()), (met(20), met(10)), "{age}");
            let answers = (core.four(CENTRE_LIMIT), core.four(OUTER_LIMIT));
            assert_eq!(free, told.decide_told(answers.0, answers.1));
            assert_eq!(asked, told);
        }
    }
}

// The half minutes of a silence are taken off both limits; with none it is the decision that asks the core itself.
#[test]
fn a_silence_ages() {
    for age in 0..23 {
        let core = core_with(4, age);
        assert_eq!(
            Gate::new().decide_silent(&core, 0),
            Gate::new().decide(&core)
        );
        for silence in (0..23).chain([u32::MAX - 1, u32::MAX]) {
            let free = Gate::new().decide_silent(&core, silence);
            let met = |limit: u32| age.saturating_add(silence) <= limit;
            assert_eq!(
                (free.centre(), free.outer()),
                (met(20), met(10)),
                "{age} {silence}"
            );
        }
    }
}

// Bit k is valve k + 1, and byte k too: one valve is free beside others that stay closed.
#[test]
fn valves_have_their_bits_and_bytes() {
    for wanted in 1..=VALVES {
        let mut bytes = *gate_of(2, 0).as_bytes();
        bytes[usize::from(wanted) - 1] = 3;
        let mut gate = Gate::from_bytes(bytes);
        assert_eq!(gate.valve(wanted), Valve::Free);
        let free = gate.decide_told(true, true);
        assert_eq!(free.bits(), 1 << (wanted - 1));
        for (valve, is_free) in free.iter() {
            assert_eq!(is_free, valve == wanted);
            assert_eq!(is_free, free.is_free(valve));
            assert_eq!(is_free, gate.valve(valve) == Valve::Free);
            assert!(is_free || gate.valve(valve) == Valve::Closed { further: 1 });
        }
        assert!(!free.centre() && !free.outer());
    }
    assert_eq!(
        Free::NONE.iter().rev().map(|(valve, _)| valve).next(),
        Some(48)
    );
    assert_eq!(Free::NONE.iter().count(), 48);
}

// A group is free where all its valves are, whatever the other group's are.
#[test]
fn groups() {
    for (met20, met10) in [(false, false), (true, false), (false, true), (true, true)] {
        let free = Gate::new().decide_told(met20, met10);
        assert_eq!((free.centre(), free.outer()), (met20, met10));
    }
    for closed in 1..=VALVES {
        let mut bytes = *gate_of(3, 0).as_bytes();
        bytes[usize::from(closed) - 1] = 2;
        let free = Gate::from_bytes(bytes).decide_told(true, true);
        let outer = is_outer(closed);
        assert_eq!((free.centre(), free.outer()), (outer, !outer), "{closed}");
    }
}

// Numbers that are no valve are neither free nor outer.
#[test]
fn other_numbers_are_no_valves() {
    let mut gate = gate_of(3, 0);
    let free = gate.decide_told(true, true);
    for valve in (0..=255).filter(|valve| !(1..=48).contains(valve)) {
        assert!(!free.is_free(valve) && !is_outer(valve), "{valve}");
        assert_eq!(gate.valve(valve), Valve::Closed { further: 0 });
    }
    let outer: Vec<u8> = (0..=255).filter(|valve| is_outer(*valve)).collect();
    assert_eq!(outer, [1, 2, 3, 4, 5, 6, 43, 44, 45, 46, 47, 48]);
}

// Wrong lengths of each call over bytes: 1, nothing changed and no valve free.
#[test]
fn lengths() {
    let core = core_with(4, 0);
    let lent_core = core.lent_to_four();
    let (clocks, arrivals) = (lent_core.clocks, lent_core.arrivals);
    for length in [0, 1, 48, 50, 98] {
        let mut gate = vec![3; length];
        let mut free = 7;
        let answers = [
            lent::begin(&mut gate),
            lent::started(&mut gate, 0),
            lent::answered(&mut gate, 4),
            lent::subframe(&mut gate, 4, 4),
            lent::decide(&mut gate, 0, 0, &mut free),
        ];
        assert_eq!((answers, free), ([1; 5], 0));
        free = 7;
        assert_eq!(lent::core_decide(&mut gate, clocks, arrivals, &mut free), 1);
        assert_eq!((gate, free), (vec![3; length], 0));
    }
    for (few_clocks, few_arrivals) in [(1, 0), (0, 1), (73, 108)] {
        let (mut gate, mut free) = ([3; STATE_LEN], 7);
        let (clocks, arrivals) = (&clocks[few_clocks..], &arrivals[few_arrivals..]);
        assert_eq!(lent::core_decide(&mut gate, clocks, arrivals, &mut free), 1);
        assert_eq!((gate, free), ([3; STATE_LEN], 0));
    }
}
