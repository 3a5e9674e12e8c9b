//! Four satellites, or not yet (02, P5): authentic sets come one by one and grow old while refused sections note the
//! time; over the ends of weeks, beside candidates, around an emergency message and starts. Each step says the least
//! limit with which there are four, by a count over all satellites.

use super::bench::*;
use super::parameters;
use crate::chain::Params;
use crate::dsm;
use crate::mack::Info;
use crate::replay::{self, Run};
use crate::subframe;
use crate::time::{Gst, SUBFRAME};

/// Sends what is refused but notes the time.
const OTHER: u8 = 20;

/// The bench, and what was noted and came since the start.
pub(super) struct Sky {
    pub b: Bench,
    pub last: Option<Gst>,
    /// When the tag of each authentic set came, by PRN - 1.
    pub tags: [Option<Gst>; 36],
}

/// A sub-frame of satellite 20 that is refused and notes the time all the same.
#[derive(Clone, Copy)]
pub(super) enum Refused {
    Zeros,
    OtherChain,
    WrongKey,
    FirstLost,
    SecondLost,
    Far,
}

use Refused::*;

impl Sky {
    /// A start, and a chain from this hour on with tags of this size.
    pub fn new(name: &str, about: &str, seed: u64, hour: u32, ms: u8) -> Sky {
        let mut sky = Sky {
            b: Bench::new(name, about, seed),
            last: None,
            tags: [None; 36],
        };
        sky.begin(hour, ms);
        sky
    }

    /// Nothing is held or noted but what the root's blocks note.
    fn begin(&mut self, hour: u32, ms: u8) {
        let params = Params {
            ms,
            ..self.b.params(0)
        };
        let chain = self.b.chain_at(params, 947, hour, 130);
        parameters::fresh(&mut self.b, &chain);
        self.tags = [None; 36];
        self.last = Some(chain.start().plus(-1));
        self.says(None);
    }

    /// How many have a set whose tag came within so many sub-frames.
    pub fn count(&self, limit: u64) -> usize {
        let Some(last) = self.last else { return 0 };
        let recent = |tag: &&Gst| last.seconds() - tag.seconds() <= limit * SUBFRAME;
        self.tags.iter().flatten().filter(recent).count()
    }

    /// States the least limit: with it there are four, and with one less there are not; `None` where no limit is
    /// enough.
    pub fn says(&mut self, least: Option<u64>) {
        let four = |limit| self.count(limit) >= 4;
        let right = match least {
            None => !four(u64::from(u32::MAX)),
            Some(0) => four(0),
            Some(limit) => four(limit) && !four(limit - 1),
        };
        assert!(right, "{}: {least:?} is not the least", self.b.run.name);
        self.b.run.least(least);
    }

    /// The words of a satellite in the half minute before, then its section with this many tags of its own; its set
    /// is authentic with the last if that has outcome 1.
    fn send(&mut self, prn: u8, outcomes: &[u8]) {
        let b = &mut self.b;
        b.now = b.now.plus(-1);
        b.words(prn);
        b.step();
        let fields = b.layout().fields();
        let mut infos = vec![Info::new(0, 0, 0); fields];
        infos[..outcomes.len()].fill(Info::new(prn, 0, 0));
        let rest = vec![4; fields - outcomes.len()];
        b.send_fields(prn, &infos, &[outcomes, &rest].concat());
        self.last = Some(b.now);
        if outcomes.ends_with(&[1]) {
            self.tags[usize::from(prn) - 1] = Some(b.now);
        }
    }

    /// A section whose first tag has 40 bits.
    pub fn come(&mut self, prn: u8, least: Option<u64>) {
        self.send(prn, &[1]);
        self.says(least);
    }

    /// The time goes on, with nothing but a refused sub-frame.
    pub fn note(&mut self, refused: Refused, least: Option<u64>) {
        let b = &mut self.b;
        let (idle, now, wrong) = (b.idle(), b.now, [0xC3; 60]);
        let field = subframe::join(&idle, &wrong);
        match refused {
            Zeros => {
                b.run.push(replay::subframe(OTHER, now, &[0; 75]));
                b.run.gives(5, 5);
            }
            OtherChain => {
                let mut other = idle;
                other[0] = dsm::header(OPERATIONAL, 3, NOMINAL);
                b.subframe(OTHER, now, &other, &wrong);
                b.run.gives(0, 11);
            }
            WrongKey | Far => {
                b.subframe(OTHER, now, &idle, &wrong);
                b.run.gives(0, if matches!(refused, Far) { 13 } else { 12 });
            }
            FirstLost => {
                b.subframe_marked(OTHER, 0x7FFF, &field);
                b.run.gives(17, 17);
            }
            SecondLost => {
                b.subframe_marked(OTHER, 0xBFFF, &field);
                b.run.gives(17, 12);
            }
        }
        self.last = Some(self.b.now);
        self.says(least);
    }

    /// Blocks of the emergency message, each from another satellite: all but the last with sections that are refused, or the
    /// last, whose section is not judged.
    pub fn emergency(&mut self, last: bool) {
        let b = &mut self.b;
        let message = b.tree.pkr(15);
        let blocks = dsm::blocks(&message);
        for block in (0..blocks).filter(|block| (block + 1 == blocks) == last) {
            let hkroot = dsm::hkroot(b.header, 12, &message, block);
            b.subframe(22 + block as u8, b.now, &hkroot, &[0xC3; 60]);
            b.run.gives(0, if last { 4 } else { 12 });
        }
        self.last = Some(b.now);
    }

    /// A start that is refused.
    pub fn refused_start(&mut self) {
        let mut refused = self.b.start.clone();
        refused.ns = 37;
        self.b.run.push(replay::start(&refused));
        self.b.run.gives(2, 0);
    }

    /// A start alone: nothing is noted or held.
    pub fn start_alone(&mut self) {
        self.b.start();
        (self.last, self.tags) = (None, [None; 36]);
    }

    /// Calls to a stopped core, a sub-frame and a word of satellite 3; a stopped core answers 4.
    pub fn unheard(&mut self) {
        let b = &mut self.b;
        b.run.push(replay::subframe(3, b.now, &[0; 75]));
        b.run.gives(4, 4);
        let word = b.sets[2].words[0];
        b.run.push(replay::word(3, b.now, &word));
        b.run.gives(4, 0);
    }

    /// Calls that note no time: refused with 2 and 3, and words.
    fn unnoted(&mut self, least: Option<u64>) {
        let b = &mut self.b;
        let (next, field) = (b.now.plus(1), subframe::join(&b.idle(), &[0xC3; 60]));
        for (prn, time, number) in [
            (37, next, 2),
            (21, Gst(next.0 + 1), 2),
            (21, b.now.plus(-1), 3),
            (OTHER, b.now, 3),
        ] {
            b.run.push(replay::subframe(prn, time, &field));
            b.run.gives(number, number);
            b.run.least(least);
        }
        // Satellite 30's words run ahead.
        b.now = b.now.plus(40);
        b.words(30);
        b.now = b.now.plus(-40);
        self.says(least);
    }
}

/// Four come one by one and grow old past limits 10 and 20 while only refused sections note the time; three come
/// back, then the fourth.
pub fn ages(name: &str, about: &str, seed: u64) -> Run {
    let mut sky = Sky::new(name, about, seed, 120, 9);
    for prn in [33, 7, 1] {
        sky.come(prn, None);
        sky.b.step();
    }
    sky.come(36, Some(3));
    let refused = [Zeros, OtherChain, WrongKey, FirstLost, SecondLost];
    for (least, refused) in (4..=23).zip(refused.into_iter().cycle()) {
        sky.b.step();
        sky.note(refused, Some(least));
    }
    sky.unnoted(Some(23));
    for prn in [33, 7, 1] {
        sky.b.step();
        sky.come(prn, Some(23));
    }
    // Five: the four youngest count.
    sky.come(2, Some(2));
    sky.b.step();
    sky.come(36, Some(2));
    // 1,000,000 slots are 13,889 sub-frames.
    sky.b.now = sky.b.now.plus(13_900);
    sky.note(Far, Some(13_902));
    sky.b.run
}

/// Tags of the last half minutes of a week, seen from the next weeks.
pub fn week_end(name: &str, about: &str, seed: u64) -> Run {
    let mut sky = Sky::new(name, about, seed, 167, 9);
    let end = Gst::new(947, 604_770);
    sky.b.now = end.plus(-2);
    sky.come(4, None);
    sky.come(5, None);
    sky.b.step();
    sky.come(6, None);
    sky.b.step();
    sky.come(8, Some(2));
    assert_eq!(sky.b.now, end);
    for least in 3..=5 {
        sky.b.step();
        sky.note(Zeros, Some(least));
    }
    sky.come(9, Some(5));
    // The fourth youngest came three sub-frames before week 948.
    for week in [949, 1_000, 4_095] {
        sky.b.now = Gst::new(week, 0);
        sky.note(Zeros, Some((u64::from(week) - 948) * 20_160 + 3));
    }
    sky.b.run
}

/// Tags of 12 bits: candidates do not count, nor make a set younger.
pub fn candidates(name: &str, about: &str, seed: u64) -> Run {
    let mut sky = Sky::new(name, about, seed, 120, 1);
    let prns = [1, 2, 35, 36, 18];
    for prn in prns {
        sky.send(prn, &[9; 3]);
        sky.says(None);
    }
    sky.b.step();
    for prn in [1, 2, 35] {
        sky.come(prn, None);
    }
    sky.note(Zeros, None);
    sky.b.step();
    sky.come(36, Some(1));
    // New data of all: candidates beside the sets.
    for prn in prns {
        sky.b.change(prn);
    }
    for least in [2, 3] {
        sky.b.step();
        for prn in [1, 2, 35, 36] {
            let outcomes: &[u8] = if least == 2 { &[9, 9] } else { &[9] };
            sky.send(prn, outcomes);
            sky.says(Some(least));
        }
    }
    // The fourth tag makes the new data authentic: one by one they are young.
    sky.b.step();
    for (prn, least) in [(36, 4), (35, 4), (2, 4), (1, 0)] {
        sky.come(prn, Some(least));
    }
    sky.b.run
}

/// The sub-frame of an emergency message notes its time; then nothing does, and the answer stays.
pub fn stopped(name: &str, about: &str, seed: u64) -> Run {
    let mut sky = Sky::new(name, about, seed, 120, 9);
    for prn in [12, 13, 14, 15] {
        sky.send(prn, &[1]);
    }
    sky.says(Some(0));
    sky.b.now = sky.b.now.plus(9);
    sky.note(Zeros, Some(9));
    sky.b.step();
    emergency(&mut sky);
    sky.says(Some(11));
    // All is 4 from here on.
    sky.unheard();
    sky.says(Some(11));
    sky.b.run
}

/// The emergency message's blocks in one half minute, the last in the next.
fn emergency(sky: &mut Sky) {
    sky.emergency(false);
    sky.b.step();
    sky.emergency(true);
    sky.b.step();
}

/// Refused starts change nothing; accepted ones forget the clock and the sets.
pub fn starts(name: &str, about: &str, seed: u64) -> Run {
    let mut sky = Sky::new(name, about, seed, 120, 9);
    for round in 0..3 {
        for prn in [3, 9, 27, 36] {
            sky.send(prn, &[1]);
        }
        sky.b.step();
        sky.note(Zeros, Some(1));
        sky.refused_start();
        sky.says(Some(1));
        if round == 1 {
            sky.b.step();
            emergency(&mut sky);
            sky.says(Some(3));
        }
        // Nothing is noted, then a time without sets.
        sky.start_alone();
        sky.says(None);
        sky.note(Zeros, None);
        sky.begin(120, 9);
    }
    sky.b.run
}
