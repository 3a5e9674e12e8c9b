//! The boom's valves (02, P14): runs in which the sky is lost and comes back, and in which the core is stopped and started.
//! Each half minute ends with a decision, and the run says which valves it frees: by its own count of satellites and of what
//! was decided before.

use super::four::{Refused, Sky};
use crate::replay::{Freed, Run};

/// The sky, and the boom under it.
struct Boom {
    sky: Sky,
    stopped: bool,
    /// Whether the outer valves were free, and the centre ones, decision by decision.
    outer: Vec<bool>,
    centre: Vec<bool>,
}

/// "After a change to closed, a valve stays closed for two further decisions, met or not; else it is free exactly when its
/// limit is met."
fn decide(decided: &mut Vec<bool>, met: bool) -> bool {
    let free = |back: usize| decided.iter().nth_back(back - 1) == Some(&true);
    let changed = |back: usize| free(back + 1) && !free(back);
    let free = met && !changed(1) && !changed(2);
    decided.push(free);
    free
}

impl Boom {
    /// A start and a chain with tags of 40 bits.
    fn new(name: &str, about: &str, seed: u64) -> Boom {
        Boom {
            sky: Sky::new(name, about, seed, 120, 9),
            stopped: false,
            outer: Vec::new(),
            centre: Vec::new(),
        }
    }

    /// Ends a half minute for each letter, with a decision that frees all valves (`F`), those of the centre (`C`), the outer ones
    /// (`O`) or none (`-`). After the first, nothing comes in a half minute.
    fn decides(&mut self, letters: &str) {
        for letter in letters.chars() {
            let met = |limit| !self.stopped && self.sky.count(limit) >= 4;
            let [met10, met20] = [10, 20].map(met);
            let outer = decide(&mut self.outer, met10);
            let centre = decide(&mut self.centre, met20);
            let right = match (outer, centre) {
                (true, true) => 'F',
                (false, true) => 'C',
                (true, false) => 'O',
                (false, false) => '-',
            };
            let (name, at) = (&self.sky.b.run.name, self.outer.len());
            assert_eq!(letter, right, "{name}: decision {at}");
            self.sky.b.run.decision(Freed { outer, centre });
            self.sky.b.step();
        }
    }

    /// Half minutes of zero fields, from this least limit on.
    fn grows_old(&mut self, least: u64, letters: &str) {
        for (least, letter) in (least..).zip(letters.chars()) {
            self.sky.note(Refused::Zeros, Some(least));
            self.decides(&letter.to_string());
        }
    }

    /// Four satellites with sections of this half minute.
    fn four_come(&mut self, prns: [u8; 4], least: [Option<u64>; 4]) {
        for (prn, least) in prns.into_iter().zip(least) {
            self.sky.come(prn, least);
        }
    }

    /// The last block of an emergency message.
    fn stops(&mut self) {
        self.sky.emergency(true);
        self.stopped = true;
    }

    /// An accepted start, and the root of the chain that was in force, in this half minute.
    fn starts(&mut self) {
        let chain = self.sky.b.force.clone().expect("a chain is in force");
        self.sky.start_alone();
        self.stopped = false;
        let now = self.sky.b.now;
        self.sky.b.adopt(&chain);
        (self.sky.b.now, self.sky.last) = (now, Some(now));
        self.sky.says(None);
    }
}

/// Satellites that send no block of a root or of an emergency message.
const FOUR: [u8; 4] = [9, 17, 33, 36];
/// Four that come one by one where there were none.
const FIRST: [Option<u64>; 4] = [None, None, None, Some(0)];

/// Four grow old past both limits and come back one by one; they come back while valves stay closed, and after; no sub-frame comes
/// for half an hour.
pub fn lost_sky(name: &str, about: &str, seed: u64) -> Run {
    let mut boom = Boom::new(name, about, seed);
    boom.decides("-");
    for prn in [33, 9, 17] {
        boom.sky.come(prn, None);
        boom.decides("-");
    }
    boom.sky.come(36, Some(3));
    boom.decides("F");
    // An age of 10 and one of 20 count.
    boom.grows_old(4, "FFFFFFFCCCCCCCCCC---");
    for prn in [33, 9, 17] {
        boom.sky.come(prn, Some(23));
        boom.decides("-");
    }
    boom.sky.come(36, Some(3));
    boom.decides("F");
    // The outer valves close, and the four come in the next half minute: two further decisions.
    boom.decides("FFFFFF");
    boom.grows_old(10, "FC");
    boom.four_come(FOUR, [Some(12), Some(12), Some(9), Some(0)]);
    boom.decides("C");
    boom.grows_old(1, "CFF");
    // Both close, and the limits stay unmet for the two: free as soon as they are met.
    boom.decides(&"F".repeat(17));
    boom.grows_old(21, "---");
    boom.four_come(FOUR, [Some(24), Some(24), Some(24), Some(0)]);
    boom.decides("F");
    // No sub-frame comes, so no age grows; the first that is noted tells.
    boom.decides(&"F".repeat(60));
    boom.sky.note(Refused::Zeros, Some(61));
    boom.decides("-");
    boom.four_come(FOUR, [Some(62), Some(62), Some(62), Some(0)]);
    boom.decides("--F");
    boom.sky.b.run
}

/// Emergency messages, refused starts and accepted ones: shortly after the stop, long after it, and before any decision saw it.
pub fn stop_and_start(name: &str, about: &str, seed: u64) -> Run {
    let mut boom = Boom::new(name, about, seed);
    boom.four_come(FOUR, FIRST);
    boom.sky.refused_start();
    boom.decides("F");
    // Free until the last block; the stopped core still says four.
    boom.sky.emergency(false);
    boom.decides("F");
    boom.stops();
    boom.sky.says(Some(2));
    boom.decides("-");
    // Within the two further decisions.
    boom.starts();
    boom.four_come(FOUR, FIRST);
    boom.decides("--F");
    boom.sky.emergency(false);
    boom.decides("F");
    boom.stops();
    boom.decides("-----");
    boom.sky.unheard();
    boom.sky.refused_start();
    boom.decides("--");
    // Long after them: free at once.
    boom.starts();
    boom.four_come(FOUR, FIRST);
    boom.decides("F");
    // A stop that ends before the next decision.
    boom.sky.emergency(false);
    boom.decides("F");
    boom.stops();
    boom.starts();
    boom.four_come(FOUR, FIRST);
    boom.decides("F");
    // A start alone, without a stop: no satellite is left, and the change to closed has its two further decisions.
    boom.starts();
    boom.decides("-");
    boom.four_come(FOUR, FIRST);
    boom.decides("--F");
    boom.sky.b.run
}
