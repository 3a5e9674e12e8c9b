//! "walks at most 1,000,000 hash steps": how far a section's keys are walked. What a call answers does not tell whether a gap
//! was walked once or twice, so the compressions of one sub-frame call are counted.

#![cfg(all(target_os = "linux", target_arch = "x86_64"))]

mod common;
mod compiled;
mod counted;
mod elf;

use common::driver::call_of;
use common::twin::{Call, Twin};
use compiled::skipped;
use counted::calls_of;
use signal::replay::RECORD;
use signal::rng::Rng;
use signal::scenario::{find, section_after_gap, SEED};

/// Sub-frames of the gap.
const GAP: u64 = 150;

/// From slot 1, satellite 1's in sub-frame 0, to satellite 2's after the gap: each step is one compression.
const STEPS: u64 = 36 * GAP + 1;

/// More than the tags of a section take, or those that fall due in it.
const TAGS: u64 = 200;

/// The compressions of the section after the gap, where 13 tags of these ADKDs came before it; those with a delay fall due in
/// it. None where they cannot be counted.
fn compressions(adkds: [u8; 2]) -> Option<u64> {
    let run = section_after_gap(GAP, adkds);
    let calls = run.bytes.chunks_exact(RECORD);
    let calls: Vec<Call> = calls.map(|record| call_of(record).unwrap()).collect();
    let (section, before) = calls.split_last().unwrap();
    let mut twin = Twin::new(&mut Rng::new(1));
    for call in before {
        twin.call(call, 1).unwrap();
    }
    let records = if adkds == [0; 2] { 14 } else { 13 + 14 };
    calls_of("sha256::compress", || {
        let answer = twin.call(section, 1);
        answer.is_ok_and(|a| (a.number, a.mack, a.tags.len()) == (0, 0, records))
    })
}

#[test]
fn a_gap_is_walked_once() {
    let Some(without) = compressions([0; 2]) else {
        skipped("no process may trace its child here, so no compression is counted");
        return;
    };
    assert!((STEPS..STEPS + TAGS).contains(&without), "{without}");
    // Keys of the next sub-frame, of the tenth after, and of both: nine sub-frames lie between them.
    for (adkds, way) in [([11; 2], 0), ([12; 2], 0), ([11, 12], 9 * 36)] {
        let with = compressions(adkds).unwrap();
        let more = with.checked_sub(without);
        assert!(
            more.is_some_and(|more| (way + 1..way + TAGS).contains(&more)),
            "{with} with tags of ADKD {adkds:?} due, {without} without"
        );
    }
}

/// Of the half hour of all satellites, the half minute that is counted: the chain is in force, and of the later satellites'
/// sections no slow tag falls due.
const HALF_MINUTE: usize = 3;

/// The compressions of each of its 36 sections but the first, which alone goes up from the half minute before. None where they
/// cannot be counted.
fn sections() -> Option<Vec<u64>> {
    let run = find("full_sky").unwrap().run(SEED);
    let calls = run.bytes.chunks_exact(RECORD);
    let mut twin = Twin::new(&mut Rng::new(1));
    let (mut subframes, mut counted) = (0, Vec::new());
    for call in calls.map(|record| call_of(record).unwrap()) {
        if let Call::Subframe { .. } = call {
            if subframes / 36 == HALF_MINUTE && subframes % 36 > 0 {
                counted.push(calls_of("sha256::compress", || {
                    let answer = twin.call(&call, 1);
                    answer.is_ok_and(|a| (a.number, a.mack) == (0, 0))
                })?);
            }
            subframes += 1;
        }
        if subframes / 36 > HALF_MINUTE {
            return Some(counted);
        }
        twin.call(&call, 1).unwrap();
    }
    panic!("{subframes} sub-frames")
}

// Each step of a section's way is made once. With satellites in order and two blocks of 36 slots, satellite p's section goes from
// the held key, satellite p - 1's of block 2, down to its own of block 1 and on to block 1's lowest slot, and from its own key
// of block 2 to the held one: 35 + p steps. What is left is for the codes of MACSEQ and tags.
#[test]
fn a_section_is_walked_once() {
    let Some(counted) = sections() else {
        skipped("no process may trace its child here, so no compression is counted");
        return;
    };
    assert_eq!(counted.len(), 35);
    let rest: Vec<u64> = (2..).zip(&counted).map(|(p, n)| n - (35 + p)).collect();
    assert!(rest.iter().all(|&n| n == rest[0] && n < 40), "{counted:?}");
}
