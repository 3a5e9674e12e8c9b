//! Runs of the bench signal as calls into the core and the second receiver, and the rows that are measured.

use osnma::{Core, Gst, Records, Settings, NO_RECORDS};
use second_receiver::Receiver;
use signal::replay::RECORD;
use signal::scenario::{self, find};
use std::time::{Duration, Instant};

#[derive(Clone, Copy, Debug, PartialEq, Eq)]
pub enum Who {
    Proved,
    Second,
}

pub const ALL: [(Who, &str); 2] = [(Who::Proved, "proved"), (Who::Second, "second")];

/// A record of the replay program, taken apart by its kind when it is lent.
pub type Call = [u8; RECORD];

/// A receiver with its record area; only the one that is measured is used.
#[derive(Clone)]
pub struct Heard {
    pub who: Who,
    pub core: Box<Core>,
    pub second: Receiver,
    records: Box<Records>,
}

/// What a call answered.
#[derive(Clone, Copy, Debug, Default, PartialEq, Eq)]
pub struct Answer {
    /// Its number; of a sub-frame the HKROOT half's.
    pub hkroot: u32,
    pub mack: u32,
    /// Tag records, and those of them whose tags were judged by their codes: outcomes 1, 2 and 9.
    pub records: usize,
    pub judged: usize,
}

pub fn time(call: &Call) -> u32 {
    u32::from_be_bytes([call[2], call[3], call[4], call[5]])
}

/// `N` bytes of a record from a place.
pub fn part<const N: usize>(call: &Call, at: usize) -> &[u8; N] {
    call[at..].first_chunk().expect("a record is longer")
}

fn number(answer: Result<(), osnma::Refusal>) -> u32 {
    answer.err().map_or(0, osnma::Refusal::number)
}

pub fn settings(call: &Call) -> Settings {
    Settings {
        ns: call[1],
        key_id: call[2],
        key_type: call[3],
        maclt: call[4],
        marks: [*part(call, 5), *part(call, 19)],
        tree_root: *part(call, 33),
        key: *part(call, 65),
    }
}

impl Heard {
    fn new(who: Who) -> Heard {
        Heard {
            who,
            core: Box::new(Core::new()),
            second: Receiver::new(),
            records: Box::new(NO_RECORDS),
        }
    }

    pub fn call(&mut self, call: &Call) -> Answer {
        match self.who {
            Who::Proved => self.by_core(call),
            Who::Second => self.by_second(call),
        }
    }

    fn by_core(&mut self, call: &Call) -> Answer {
        let (core, gst) = (&mut self.core, Gst::from_bits(time(call)));
        let first = match call[0] {
            1 => core.start(&settings(call)),
            2 => core.word(call[1], gst, part(call, 6)),
            3 => {
                let told = core.subframe(call[1], gst, part(call, 6), &mut self.records);
                return Answer {
                    hkroot: number(told.hkroot),
                    mack: number(told.mack),
                    records: told.tags.len(),
                    judged: told
                        .tags
                        .filter(|tag| matches!(tag.outcome.number(), 1 | 2 | 9))
                        .count(),
                };
            }
            _ => core.verdict(call[1] == 1, call[2], part(call, 3), part(call, 48)),
        };
        Answer {
            hkroot: number(first),
            ..Answer::default()
        }
    }

    fn by_second(&mut self, call: &Call) -> Answer {
        let second = &mut self.second;
        let first = match call[0] {
            1 => second.start(
                call[1],
                call[2],
                call[3],
                call[4],
                part::<14>(call, 5),
                part::<14>(call, 19),
                part::<32>(call, 33),
                part::<67>(call, 65),
            ),
            2 => second.word(call[1], time(call), part::<16>(call, 6)),
            3 => {
                let fields = part::<75>(call, 6);
                let told = second.subframe(call[1], time(call), fields, &mut self.records[..]);
                let records = self.records.chunks_exact(12).take(told.records);
                return Answer {
                    hkroot: told.hkroot.into(),
                    mack: told.mack.into(),
                    records: told.records,
                    judged: records
                        .filter(|record| matches!(record[0], 1 | 2 | 9))
                        .count(),
                };
            }
            _ => second.verdict(call[1], call[2], part::<45>(call, 3), part::<132>(call, 48)),
        };
        Answer {
            hkroot: first.into(),
            ..Answer::default()
        }
    }
}

/// The calls of a scenario.
pub fn calls(name: &str) -> Vec<Call> {
    let run = find(name).map(|scenario| scenario.run(scenario::SEED));
    let bytes = run.map(|run| run.bytes).unwrap_or_default();
    let records = bytes.chunks_exact(RECORD);
    records
        .map(|record| *record.first_chunk().expect("a record"))
        .filter(|record: &Call| matches!(record[0], 1..=4))
        .collect()
}

/// Half minutes of a run, and a receiver that has heard all before them.
pub struct HalfMinutes {
    before: Heard,
    now: Heard,
    halves: Vec<Vec<Call>>,
    next: usize,
}

impl HalfMinutes {
    /// The half hour of 36 satellites, from its twelfth minute on.
    pub fn new(who: Who) -> HalfMinutes {
        let mut halves: Vec<Vec<Call>> = Vec::new();
        for call in calls("full_sky") {
            let same = |half: &Vec<Call>| half.iter().any(|c| time(c) == time(&call));
            // A half minute begins with a sub-frame of a new time.
            if call[0] == 3 && !halves.last().is_some_and(same) || halves.is_empty() {
                halves.push(Vec::new());
            }
            halves.last_mut().expect("a half minute").push(call);
        }
        let mut before = Heard::new(who);
        let rest = halves.split_off(24);
        for call in halves.iter().flatten() {
            before.call(call);
        }
        HalfMinutes {
            now: before.clone(),
            before,
            halves: rest,
            next: 0,
        }
    }

    /// The calls of the next half minute; after the last the first one comes again.
    fn next(&mut self) -> (&mut Heard, &[Call]) {
        if self.next == self.halves.len() {
            self.next = 0;
            self.now.clone_from(&self.before);
        }
        self.next += 1;
        (&mut self.now, &self.halves[self.next - 1])
    }

    /// Hears the next half minute. `each` sees each call's answer and time.
    pub fn hear(&mut self, mut each: impl FnMut(&Call, Answer, Duration)) {
        let (heard, calls) = self.next();
        for call in calls {
            let began = Instant::now();
            let answer = heard.call(call);
            each(call, answer, began.elapsed());
        }
    }

    /// Hears half minutes and measures nothing.
    pub fn hear_all(&mut self, turns: u64) {
        for _ in 0..turns {
            let (heard, calls) = self.next();
            for call in calls {
                heard.call(call);
            }
        }
    }
}

/// The section after a gap of 1,000,000 slots, with 256 tags due.
pub struct Gap {
    pub before: Heard,
    pub section: Call,
}

impl Gap {
    pub fn new(who: Who) -> Gap {
        let mut calls = calls("gap_full");
        let section = calls.pop().expect("a section");
        let mut before = Heard::new(who);
        for call in &calls {
            before.call(call);
        }
        Gap { before, section }
    }
}

/// Sections of 36 satellites in one half minute whose keys are wrong, from satellite 36 down. The first one's slot is
/// 1,000,000 past the held key's, each other's is one less far.
pub struct Damaged {
    pub before: Heard,
    pub sections: Vec<Call>,
}

impl Damaged {
    pub fn new(who: Who) -> Damaged {
        let mut calls = calls("gap_full");
        let last = calls.pop().expect("a section");
        // With the sections of the first eight satellites alone slot 8 is held. Slot 1,000,008 is satellite 36's, half a
        // minute before the run's last section, which in the place of others has the key of another slot.
        calls.retain(|call| call[0] != 3 || call[1] <= 8);
        let mut before = Heard::new(who);
        for call in &calls {
            before.call(call);
        }
        let damaged = |prn| {
            let mut section = last;
            section[1] = prn;
            section[2..6].copy_from_slice(&(time(&last) - 30).to_be_bytes());
            section
        };
        Damaged {
            before,
            sections: (1..=36).rev().map(damaged).collect(),
        }
    }
}
