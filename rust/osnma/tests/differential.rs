//! The core against the second receiver: the same calls into both, and after each the answers, the tag
//! records, the reads, and every byte of every region and of the record area.

mod common;

use common::driver::{replay, Driver, Tally};
use common::expected::difference;
use common::loose::{parts, refused, regions_of, WRONG};
use common::stamps;
use common::stores;
use common::twin::{garbage, Call, Twin};
use common::{draw, driver};
use osnma::regions::Regions;
use osnma::{Core, Gst, Refusal};
use signal::replay::Progress;
use signal::rng::Rng;
use signal::scenario::{self, Functions, Pages};
use std::fs;
use std::path::Path;

/// Runs of long key walks, which take seconds.
const LONG: [&str; 5] = ["sections", "gaps", "held_key", "gap_full", "sha3_gaps"];

const CALLS: u64 = if cfg!(debug_assertions) {
    5_000
} else {
    200_000
};

/// Whether the core says that this is the least limit with which four satellites have a recent set.
fn says(core: &Core, least: Option<u64>) -> Result<(), String> {
    let least = least.map(|limit| limit as u32);
    let right = match least {
        None => !core.four(u32::MAX),
        Some(0) => core.four(0),
        Some(limit) => core.four(limit) && !core.four(limit - 1),
    };
    match right {
        true => Ok(()),
        false => Err(format!("{least:?} is not the least limit")),
    }
}

/// Whether the core and the second receiver say this of how far along each message is.
fn tells(twin: &Twin, right: &Progress) -> Result<(), String> {
    let core = twin
        .core
        .progress()
        .map(|of_id| (of_id.held, of_id.missing));
    let receiver = twin
        .receiver
        .progress()
        .map(|of_id| (of_id.held, of_id.missing));
    match core.eq(*right) && receiver == *right {
        true => Ok(()),
        false => Err(format!("progress: {receiver:?}, not {right:?}")),
    }
}

fn replay_named(long: bool) -> Tally {
    let (mut tally, mut stated, mut asked) = (Tally::default(), [0; 2], [0; 2]);
    for scenario in scenario::all() {
        if LONG.contains(&scenario.name) == long {
            let run = scenario.run(scenario::SEED);
            let (least, progress) = (&run.expects.least, &run.expects.progress);
            stated = [stated[0] + least.len(), stated[1] + progress.len()];
            let each = |twin: &Twin, place: usize, _: &mut Rng| {
                for (_, least) in least.iter().filter(|(at, _)| *at == place) {
                    asked[0] += 1;
                    says(&twin.core, *least)?;
                }
                for (_, progress) in progress.iter().filter(|(at, _)| *at == place) {
                    asked[1] += 1;
                    tells(twin, progress)?;
                }
                Ok(())
            };
            if let Err(error) = replay(&run.bytes, &mut Rng::new(1), &mut tally, each) {
                panic!("{}: {error}", run.name);
            }
        }
    }
    println!("{tally}");
    assert_eq!(asked, stated);
    let [least, progress] = stated;
    assert!(long || least > 90 && progress > 300, "{stated:?}");
    tally
}

// Every named run. Every number that a call can answer comes, but for 1, which `wrong_lengths` has, and those of reads, which
// are made after each call; so does every outcome, and an area full of records.
#[test]
fn named_runs() {
    let tally = replay_named(false);
    assert!(tally.calls > 10_000);
    let not_here = |name: &String| name.ends_with(" 1") || name.starts_with("Read");
    let missing: Vec<String> = tally
        .missing_answers()
        .into_iter()
        .filter(|name| !not_here(name))
        .collect();
    assert_eq!(missing, ["MACK 13"; 0], "never came");
    assert_eq!(tally.records, 270);
}

#[test]
#[cfg_attr(debug_assertions, ignore = "takes long without optimisation")]
fn long_named_runs() {
    assert!(replay_named(true).calls > 100);
}

// Calls drawn at random, from a fixed seed; every answer that a call can give comes.
#[test]
fn random_calls() {
    let mut driver =
        Driver::new(1, 12, Functions::ALL, Pages::Lost).unwrap_or_else(|error| panic!("{error}"));
    let result = driver.run(CALLS);
    println!("{} states, {}", driver.states(), driver.tally);
    assert_eq!(result, Ok(()));
    if CALLS >= 200_000 {
        assert_eq!(driver.tally.missing(), [""; 0], "never came");
    }
}

// Each lent length wrong, alone, with arguments that are right and with ones that are refused by
// other numbers.
#[test]
fn wrong_lengths() {
    let mut rng = Rng::new(3);
    let tree = draw::tree(&mut rng);
    let states =
        driver::states(3, 0, Functions::ALL, Pages::Lost).unwrap_or_else(|error| panic!("{error}"));
    for round in 0..40 {
        let twin = rng.pick(&states).twin.clone();
        let receiver = &twin.receiver;
        let mut calls = vec![
            Call::Start(draw::settings(&mut rng, &tree)),
            Call::Start(draw::bad_settings(&mut rng, &tree)),
            Call::ReadSet(rng.range(1, 36) as u8),
            Call::ReadSet(37),
            Call::ReadMessage,
            Call::Four(0),
            Call::Four(u32::MAX),
            Call::Progress,
        ];
        calls.extend((0..2).map(|_| draw::word(&mut rng, receiver)));
        calls.extend((0..2).map(|_| draw::verdict(&mut rng, receiver)));
        calls.extend((0..2).map(|_| draw::subframe(&mut rng, receiver)));
        calls.extend((0..2).map(|_| {
            let call = draw::subframe(&mut rng, receiver);
            draw::with_marks(&mut rng, call)
        }));
        let regions = match round % 4 {
            0 => garbage(&mut rng),
            _ => twin.core.regions().clone(),
        };
        for call in calls {
            for what in regions_of(&call).iter().chain(parts(&call)) {
                for wrong in WRONG {
                    let result = refused(&regions, &call, what, wrong);
                    assert_eq!(result, Ok(()), "{call:?}");
                }
            }
        }
    }
}

// Whether four satellites have a recent set, on clocks and arrivals of any contents; three, four and more recent ones
// come, with and without another that is one sub-frame too old.
#[test]
fn four_on_any_stamps() {
    let seen = stamps::compare(CALLS, 8).unwrap_or_else(|error| panic!("{error}"));
    println!("{seen:?}");
    for recent in 0..=6 {
        for older in [false, true] {
            assert!(
                seen.contains_key(&Some((recent, older))),
                "{recent} {older}"
            );
        }
    }
    assert!(seen.contains_key(&None));
}

// How far along each message is, on blocks and marks of any contents; all that can be told is.
#[test]
fn progress_on_any_blocks() {
    let told = stores::compare(CALLS, 10).unwrap_or_else(|error| panic!("{error}"));
    println!("{told:?}");
    assert!(told.iter().all(|&count| count > CALLS / 10), "{told:?}");
}

/// The recorded progress of each message; where none is, no block is held.
fn recorded_progress(input: &Path) -> Progress {
    let Ok(line) = fs::read_to_string(input.with_extension("progress")) else {
        return [(0, None); 16];
    };
    let mut words = line["D ".len()..].split_whitespace();
    let progress = [(); 16].map(|()| {
        let (held, missing) = words.next().unwrap().split_once('/').unwrap();
        (held.parse().unwrap(), missing.parse().ok())
    });
    assert_eq!(words.next(), None);
    progress
}

// After each recorded run the core says the least limit that is recorded beside it, where none is, that no limit is enough;
// and how far along each message is.
#[test]
fn recorded_answers() {
    let folder = Path::new(env!("CARGO_MANIFEST_DIR")).join("../second_receiver/tests/cases");
    let files = fs::read_dir(&folder).unwrap();
    let files = files.map(|file| file.unwrap().path());
    let (mut runs, mut enough, mut held) = (0, 0, 0);
    for input in files.filter(|file| file.extension().is_some_and(|name| name == "in")) {
        let recorded = fs::read_to_string(input.with_extension("four")).ok();
        let least = recorded.map(|line| line["F ".len()..].trim_end().parse().unwrap());
        let progress = recorded_progress(&input);
        let mut last = Ok(());
        let each = |twin: &Twin, _: usize, _: &mut Rng| {
            if twin.receiver.is_started() {
                last = says(&twin.core, least).and(tells(twin, &progress));
            }
            Ok(())
        };
        let bytes = fs::read(&input).unwrap();
        let replayed = replay(&bytes, &mut Rng::new(2), &mut Tally::default(), each);
        assert_eq!(replayed.and(last), Ok(()), "{}", input.display());
        runs += 1;
        enough += u32::from(least.is_some());
        held += u32::from(progress != [(0, None); 16]);
    }
    let counts = [runs, enough, held];
    assert!(runs > 20 && enough > 5 && held > 10, "{counts:?}");
}

// Before a sub-frame is noted no limit is enough, and a start forgets the clock and the sets.
#[test]
fn four_by_a_core() {
    let mut rng = Rng::new(9);
    let tree = draw::tree(&mut rng);
    let mut core = Core::new();
    assert!(!core.four(u32::MAX));
    let stamp = Gst::new(1000, 0).unwrap().bits() + 1;
    core.regions_mut().arrivals[..4].fill(stamp);
    assert!(!core.four(u32::MAX));
    core.regions_mut().clocks[0] = stamp + 30;
    assert_eq!([0, 1, 2].map(|limit| core.four(limit)), [false, true, true]);
    let refused = draw::bad_settings(&mut rng, &tree);
    assert!(core.start(&refused).is_err());
    assert!(core.four(1));
    assert_eq!(core.start(&draw::settings(&mut rng, &tree)), Ok(()));
    assert!(!core.four(u32::MAX));
}

// An accepted start writes every byte, whatever was there; a refused one none.
#[test]
fn starts_on_any_bytes() {
    let mut rng = Rng::new(4);
    let tree = draw::tree(&mut rng);
    for round in 0..400 {
        let mut twin = Twin::new(&mut rng);
        let refused = Call::Start(draw::bad_settings(&mut rng, &tree));
        let mut number = |call: &Call| twin.call(call, 1).map(|answer| answer.number);
        assert_eq!(number(&refused), Ok(2), "round {round}");
        let accepted = Call::Start(draw::settings(&mut rng, &tree));
        assert_eq!(number(&accepted), Ok(0), "round {round}");
    }
}

// Before a start the calls go by the zeros that are there, and a start forgets all of it.
#[test]
fn before_a_start() {
    let mut core = Core::new();
    assert_eq!(core.regions(), &Regions::zeroed());
    assert_eq!(core.read_set(1), Err(Refusal::NoSet));
    assert_eq!(core.read_set(0), Err(Refusal::OutOfRange));
    assert_eq!(core.read_message(), Err(Refusal::NotWaiting));
    let verdict = core.verdict(true, 0, &[0; 45], &[0; 132]);
    assert_eq!(verdict, Err(Refusal::NotWaiting));
    assert_eq!(core.regions(), &Regions::zeroed());
    let (time, word) = (Gst::from_bits(30), [4; 16]);
    assert_eq!(core.word(1, time, &word), Ok(()));
    assert_eq!(
        core.word(1, Gst::from_bits(0), &word),
        Err(Refusal::OutOfOrder)
    );
    let mut rng = Rng::new(5);
    let tree = draw::tree(&mut rng);
    let settings = draw::settings(&mut rng, &tree);
    let mut other = Core::new();
    assert_eq!(core.start(&settings), Ok(()));
    assert_eq!(other.start(&settings), Ok(()));
    assert_eq!(core.regions(), other.regions());
}

// The comparison sees every element of every region: one bit changed on one side is a difference.
#[test]
fn one_bit_changed_is_seen() {
    let mut rng = Rng::new(6);
    let states =
        driver::states(6, 0, Functions::ALL, Pages::Lost).unwrap_or_else(|error| panic!("{error}"));
    for state in &states {
        let mut twin = state.twin.clone();
        assert_eq!(twin.compare(), Ok(()));
        macro_rules! changed {
            ($($name:ident)*) => {
                $({
                    let at = rng.below(twin.want.$name.len() as u64) as usize;
                    let bit = rng.below(8 * std::mem::size_of_val(&twin.want.$name[0]) as u64);
                    twin.core.regions_mut().$name[at] ^= 1 << bit;
                    let seen = twin.compare().expect_err(stringify!($name));
                    let place = format!("{}[{at}] is ", stringify!($name));
                    assert!(seen.starts_with(&place), "{seen}");
                    twin.core.regions_mut().$name[at] ^= 1 << bit;
                })*
            };
        }
        changed!(
            config clocks words stamps blocks headers present since
            pubkeys offer chain numbers heldkey waiting sets arrivals
        );
    }
    let zeroed = Regions::zeroed();
    macro_rules! every {
        ($($name:ident)*) => {
            $(for at in 0..zeroed.$name.len() {
                let mut other = zeroed.clone();
                other.$name[at] = 1;
                let text = format!("{}[{at}] is 1, not 0", stringify!($name));
                assert_eq!(difference(&other, &zeroed), Some(text));
            })*
        };
    }
    every!(
        config clocks words stamps blocks headers present since
        pubkeys offer chain numbers heldkey waiting sets arrivals
    );
}

// A changed bit is also seen after a call that does not touch it.
#[test]
fn a_call_does_not_hide_a_change() {
    let mut rng = Rng::new(7);
    let states =
        driver::states(7, 0, Functions::ALL, Pages::Lost).unwrap_or_else(|error| panic!("{error}"));
    for state in &states {
        let mut twin = state.twin.clone();
        let place = rng.below(21504) as usize;
        twin.core.regions_mut().waiting[place] ^= 1;
        let call = Call::ReadSet(rng.range(1, 36) as u8);
        assert!(twin.call(&call, 1).is_err(), "waiting[{place}]");
    }
}
