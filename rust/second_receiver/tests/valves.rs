//! The valve gate (02, P14; readings B82, B87 to B90): runs of decisions whose answers were worked out by hand from 02's
//! sentences.

use second_receiver::valves::{is_outer, Gate, BYTES, VALVES};

/// Valves 7 to 42, and 1 to 6 with 43 to 48.
const CENTRE: u64 = 0x03FF_FFFF_FFC0;
const OUTER: u64 = 0xFC00_0000_003F;

/// What happens to a gate, a letter each. Decisions: `2` both limits met, `1` that of 20 alone, `0` neither, `x` that of 10
/// alone, which no core answers. Answers: `E` an emergency message's sub-frame, 0 and 4; `e` a later one, 4 and 4; `h` 4 and 0;
/// `w` a word or a verdict 4; `A` an accepted start; `R` a refused one. Gives the free valves where it is a decision.
fn happens(gate: &mut Gate, letter: char) -> Option<u64> {
    match letter {
        '2' => return Some(gate.decide(true, true)),
        '1' => return Some(gate.decide(true, false)),
        '0' => return Some(gate.decide(false, false)),
        'x' => return Some(gate.decide(false, true)),
        'E' => gate.subframe(0, 4),
        'e' => gate.subframe(4, 4),
        'h' => gate.subframe(4, 0),
        'w' => gate.answered(4),
        'A' => gate.started(0),
        'R' => gate.started(2),
        other => panic!("no letter {other}"),
    }
    None
}

/// A letter for each decision: `F` all free, `C` the centre alone, `O` the outer alone, `-` all closed.
fn decided(gate: &mut Gate, letters: &str) -> String {
    let free = letters
        .chars()
        .filter_map(|letter| happens(gate, letter))
        .map(|free| match free {
            0 => '-',
            CENTRE => 'C',
            OUTER => 'O',
            free if free == CENTRE | OUTER => 'F',
            free => panic!("{free:012x}: valves of a group part"),
        });
    free.collect()
}

#[track_caller]
fn gives(letters: &str, right: &str) {
    assert_eq!(decided(&mut Gate::begin(), letters), right, "{letters}");
}

// "else it is free exactly when its limit is met. All valves begin closed, which is no change."
#[test]
fn the_first_decision_may_free() {
    let gate = Gate::begin();
    assert_eq!((gate.free(), gate.is_stopped()), (0, false));
    gives("2", "F");
    gives("22", "FF");
    gives("0", "-");
    gives("02", "-F");
    gives("00002", "----F");
}

// "Centre valves are free with four authentic satellites no older than 20 sub-frames. The outer six on each side are free
// only with an age limit of 10."
#[test]
fn the_outer_six_on_each_side() {
    let outer: Vec<usize> = (1..=VALVES).filter(|&valve| is_outer(valve)).collect();
    assert_eq!(outer, [1, 2, 3, 4, 5, 6, 43, 44, 45, 46, 47, 48]);
    gives("1", "C");
    gives("x", "O");
    gives("11211", "CCFCC");
    // The outer closed with the fourth, and stay so for the fifth and sixth.
    gives("221222", "FFCCCF");
    // The centre closes while the outer are in their further decisions.
    gives("2102222", "FC--OFF");
}

// "After a change to closed, a valve stays closed for two further decisions, met or not".
#[test]
fn two_further_decisions() {
    gives("2022", "F---");
    gives("20222", "F---F");
    gives("220222", "FF---F");
    gives("2022202222", "F---F---FF");
    // A valve that is closed already does not change to closed.
    gives("2000000002", "F--------F");
    gives("20002", "F---F");
}

// Unmet during the two does not begin them anew (B88).
#[test]
fn unmet_in_between() {
    gives("20022", "F---F");
    gives("20202", "F---F");
    gives("20002", "F---F");
    gives("2020022", "F----FF");
    gives("200022", "F---FF");
}

// "A stopped core closes all, and a decision made then counts as limit unmet." It closes with the next decision, which is the
// change (B87).
#[test]
fn a_stopped_core() {
    for stop in ["E", "e", "h", "w"] {
        let with = |letters: &str| letters.replace('E', stop);
        gives(&with("E2222"), "----");
        gives(&with("22E2222"), "FF----");
        gives(&with("E2A2"), "-F");
        // The second decision closes; two further, then free.
        gives(&with("2E2A222"), "F---F");
        gives(&with("2E2222A22"), "F----FF");
        // The start comes within the two further decisions: unmet then is no change.
        gives(&with("2E22A22"), "F---F");
        // No decision was made while it was stopped.
        gives(&with("2EA22"), "FFF");
        // Stopped again.
        gives(&with("2E2A2E2A22"), "F---FF");
    }
    let mut gate = Gate::begin();
    assert_eq!(decided(&mut gate, "2E"), "F");
    assert_eq!(gate.free(), CENTRE | OUTER, "until the next decision");
}

// Any 4 of a word, of a verdict or of either half; no other number (B82).
#[test]
fn what_tells_a_stop() {
    for number in (0..300).chain([260, 1 << 16 | 4, 1 << 31 | 4, u32::MAX]) {
        let mut gates = [(); 3].map(|()| Gate::begin());
        gates[0].answered(number);
        gates[1].subframe(number, 0);
        gates[2].subframe(12, number);
        for gate in gates {
            assert_eq!(gate.is_stopped(), number == 4, "{number}");
        }
        // One that is stopped stays so, but for an accepted start.
        let mut gate = Gate::begin();
        gate.subframe(0, 4);
        gate.answered(number);
        gate.subframe(number, number);
        assert!(gate.is_stopped(), "{number}");
        gate.started(number);
        assert_eq!(gate.is_stopped(), number != 0, "{number}");
        // A start stops nothing.
        let mut gate = Gate::begin();
        gate.started(number);
        assert!(!gate.is_stopped(), "{number}");
    }
}

#[test]
fn a_refused_start() {
    gives("22E2R22R2", "FF----");
    gives("2R2", "FF");
    gives("20R222", "F---F");
    gives("2E2RA222", "F---F");
}

// An accepted start ends a stop and changes no valve (B89).
#[test]
fn an_accepted_start() {
    gives("2A2", "FF");
    gives("20A222", "F---F");
    gives("202A22", "F---F");
    gives("2A0A2A2A2", "F---F");
    let mut gate = Gate::begin();
    decided(&mut gate, "20");
    let before = gate.clone();
    gate.started(0);
    assert_eq!(gate, before);
}

// "a valve whose limit is met three decisions running is free at the third", whatever came before; and "no valve is free
// while its own limit is unmet".
#[test]
fn free_at_the_third() {
    for before in 0..3u32.pow(6) {
        let letters: String = (0..6)
            .map(|at| ['2', '1', '0'][(before / 3u32.pow(at) % 3) as usize])
            .collect();
        let mut gate = Gate::begin();
        let free = decided(&mut gate, &letters);
        for (met, free) in letters.chars().zip(free.chars()) {
            let unmet = match met {
                '2' => "",
                '1' => "FO",
                _ => "FCO",
            };
            assert!(!unmet.contains(free), "{letters}: {free} with {met}");
        }
        let (mut both, mut centre) = (gate.clone(), gate);
        assert_eq!(decided(&mut both, "222").pop(), Some('F'), "{letters}");
        assert_eq!(decided(&mut centre, "111").pop(), Some('C'), "{letters}");
    }
}

/// The bytes of a gate whose outer valves have this byte, the centre that one, and the last the third.
fn bytes(outer: u8, centre: u8, stopped: u8) -> [u8; BYTES] {
    let mut bytes = [centre; BYTES];
    bytes[..6].fill(outer);
    bytes[42..48].fill(outer);
    bytes[48] = stopped;
    bytes
}

// The state as the library's interface names it: 3 free, 2, 1 and 0 closed with so many further decisions to come.
#[test]
fn the_bytes_of_a_state() {
    let mut gate = Gate::begin();
    assert_eq!(gate.bytes(), [0; 49]);
    for (letter, outer, centre, stopped) in [
        ('1', 0, 3, 0),
        ('2', 3, 3, 0),
        ('1', 2, 3, 0),
        ('0', 1, 2, 0),
        ('2', 0, 1, 0),
        ('E', 0, 1, 1),
        ('e', 0, 1, 1),
        ('2', 0, 0, 1),
        ('2', 0, 0, 1),
        ('R', 0, 0, 1),
        ('A', 0, 0, 0),
        ('1', 0, 3, 0),
        ('x', 3, 2, 0),
        ('w', 3, 2, 1),
        ('2', 2, 1, 1),
    ] {
        happens(&mut gate, letter);
        assert_eq!(gate.bytes(), bytes(outer, centre, stopped), "{letter}");
    }
}

// From any bytes: what they say, and what comes of it.
#[test]
fn a_gate_of_any_bytes() {
    for byte in 0..=u8::MAX {
        for at in 0..VALVES {
            let mut state = [0; BYTES];
            (state[at], state[VALVES]) = (byte, byte);
            let mut gate = Gate::of_bytes(&state);
            state[at] = if byte < 4 { byte } else { 0 };
            state[VALVES] = u8::from(byte != 0);
            assert_eq!(gate.bytes(), state);
            assert_eq!(gate.free(), u64::from(byte == 3) << at);
            gate.started(0);
            let others = (CENTRE | OUTER) & !(1 << at);
            let own = u64::from(!matches!(byte, 1 | 2)) << at;
            assert_eq!(gate.decide(true, true), others | own, "{byte} at {at}");
            let own = u64::from(byte != 2) << at;
            assert_eq!(gate.decide(true, true), others | own, "{byte} at {at}");
            assert_eq!(gate.decide(true, true), CENTRE | OUTER);
        }
    }
}
