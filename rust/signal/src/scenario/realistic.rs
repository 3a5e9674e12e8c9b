//! Runs that a receiver meets in the field (000, 6; 00, The setting).

use super::bench::*;
use crate::chain::{Chain, Params};
use crate::dsm;
use crate::mack::{Info, FLEXIBLE};
use crate::navdata::NavSet;
use crate::replay::{self, Read, Run};
use crate::subframe;
use crate::time::Gst;
use std::rc::Rc;

/// Half a minute of all satellites seen: their fields, then their words.
fn half_minute(b: &mut Bench) {
    half_minute_with_change(b, &[]);
}

/// The same; these satellites have new data from this half minute's words on.
fn half_minute_with_change(b: &mut Bench, changed: &[u8]) {
    for prn in b.seen.clone() {
        b.send(prn);
    }
    for &prn in changed {
        b.change(prn);
    }
    b.all_words();
    b.step();
}

/// A start, a chain in force, and the words of all satellites seen.
fn running(b: &mut Bench, subframes: u64) -> Rc<Chain> {
    running_with(b, subframes, |params| params)
}

/// The same with other parameters.
fn running_with(b: &mut Bench, subframes: u64, change: fn(Params) -> Params) -> Rc<Chain> {
    b.start();
    let params = change(b.params(0));
    let chain = b.chain(params, subframes);
    b.adopt(&chain);
    b.now = b.now.plus(-1);
    b.all_words();
    b.step();
    chain
}

pub fn nominal(name: &str, about: &str, seed: u64) -> Run {
    nominal_with(name, about, seed, |params| params)
}

/// The same with other parameters.
pub(super) fn nominal_with(
    name: &str,
    about: &str,
    seed: u64,
    change: fn(Params) -> Params,
) -> Run {
    let mut b = Bench::new(name, about, seed);
    b.seen = vec![1, 4, 9, 11, 18, 24, 30, 36];
    running_with(&mut b, 40, change);
    for n in 0..24 {
        half_minute_with_change(&mut b, if n == 15 { &[18] } else { &[] });
    }
    b.run.expects.some = vec![1, 5];
    b.run.expects.never = vec![2, 3, 4, 6, 7];
    let last = b.now.plus(-1);
    for prn in b.seen.clone() {
        let read = b.set_read(prn, last);
        b.reads(prn, read);
    }
    b.reads(2, Read::None);
    b.run
}

pub fn floating_root(name: &str, about: &str, seed: u64) -> Run {
    let mut b = Bench::new(name, about, seed);
    b.seen = vec![2, 3, 5, 8];
    let chain = running(&mut b, 400);
    b.now = chain.start().plus(108);
    for _ in 0..6 {
        half_minute(&mut b);
    }
    // Slow tags of sub-frames 108 to 113 wait for keys of 118 to 123. The new root begins at sub-frame 120: those of
    // 110 to 113 stay.
    let later = Rc::new(chain.floating(1));
    let root = b.root(b.header, &later);
    b.now = chain.start().plus(115);
    b.deliver(b.header, 7, &root.dsm, 0);
    b.verdict(&root.verdict, 0);
    b.force = Some(later.clone());
    b.now = later.start().plus(-1);
    b.send(2);
    b.step();
    for _ in 0..12 {
        half_minute(&mut b);
    }
    // The same contents again change nothing; the root before it is refused.
    let again = b.root(b.header, &later);
    b.deliver(b.header, 7, &again.dsm, 0);
    b.verdict(&again.verdict, 0);
    half_minute(&mut b);
    let earlier = b.root(b.header, &chain);
    b.deliver(b.header, 8, &earlier.dsm, 0);
    b.verdict(&earlier.verdict, 9);
    half_minute(&mut b);
    b.run.expects.some = vec![1, 5];
    b.run.expects.never = vec![2, 4, 6, 7];
    b.run
}

pub fn chain_renewal(name: &str, about: &str, seed: u64) -> Run {
    let mut b = Bench::new(name, about, seed);
    b.seen = vec![6, 7, 12];
    let old = running(&mut b, 400);
    b.now = old.start().plus(100);
    let params = b.params(1);
    let next = b.chain_at(params, 947, 121, 400);
    // Step 1 (000, 6.4): end of chain, the next chain's root alternates with the present one. Its CID is not yet in
    // force.
    b.header = dsm::header(OPERATIONAL, 0, END_OF_CHAIN);
    let early = b.root(b.header, &next);
    b.deliver(b.header, 3, &early.dsm, 0);
    b.verdict(&early.verdict, 11);
    for _ in 0..12 {
        half_minute(&mut b);
    }
    // Step 2: at the root's hour the new chain is in force. Waiting tags of the old chain are gone.
    b.now = next.start();
    b.header = dsm::header(OPERATIONAL, 1, NOMINAL);
    b.send(6);
    b.step();
    let root = b.root(b.header, &next);
    b.deliver(b.header, 4, &root.dsm, 0);
    b.verdict(&root.verdict, 0);
    b.force = Some(next);
    for _ in 0..12 {
        half_minute(&mut b);
    }
    b.run.expects.some = vec![1, 5];
    b.run.expects.never = vec![2, 4, 6, 7];
    b.run
}

pub fn chain_revoked(name: &str, about: &str, seed: u64) -> Run {
    let mut b = Bench::new(name, about, seed);
    b.seen = vec![10, 20, 30];
    let old = running(&mut b, 400);
    for _ in 0..4 {
        half_minute(&mut b);
    }
    // Step 1 (000, 6.4): "Don't Use" with the CID in force.
    b.header = dsm::header(DONT_USE, 0, CHAIN_REVOKED);
    let params = b.params(1);
    let past = b.chain_at(params, 947, 119, 400);
    let drop = b.root(b.header, &past);
    b.deliver(b.header, 3, &drop.dsm, 0);
    b.verdict(&drop.verdict, 0);
    b.force = None;
    b.send(10);
    b.step();
    // A second time there is no chain to drop.
    b.deliver(b.header, 3, &drop.dsm, 0);
    b.verdict(&drop.verdict, 11);
    // Only a later root counts: the old contents and a root of the past are refused.
    b.header = dsm::header(OPERATIONAL, 0, CHAIN_REVOKED);
    let same = b.root(b.header, &old);
    b.deliver(b.header, 4, &same.dsm, 0);
    b.verdict(&same.verdict, 9);
    b.header = dsm::header(OPERATIONAL, 1, CHAIN_REVOKED);
    let root = b.root(b.header, &past);
    b.deliver(b.header, 5, &root.dsm, 0);
    b.verdict(&root.verdict, 9);
    let params = b.params(1);
    let next = b.chain_at(params, 947, 121, 200);
    let root = b.root(b.header, &next);
    b.deliver(b.header, 6, &root.dsm, 0);
    b.verdict(&root.verdict, 0);
    b.force = Some(next.clone());
    b.send(20);
    b.now = next.start();
    for _ in 0..12 {
        half_minute(&mut b);
    }
    b.run.expects.some = vec![1, 5];
    b.run.expects.never = vec![2, 3, 4, 6, 7];
    b.run
}

pub fn new_public_key(name: &str, about: &str, seed: u64) -> Run {
    let mut b = Bench::new(name, about, seed);
    b.seen = vec![3, 13];
    let chain = running(&mut b, 100);
    // A root under the next key is refused until the key is known.
    b.header = dsm::header(OPERATIONAL, 0, NEW_PUBLIC_KEY);
    let under_new = b.root_under(b.header, &chain, 9, 2);
    b.deliver(b.header, 1, &under_new.dsm, 7);
    // Step 1 (000, 6.5): the new key's message.
    let pkr = b.tree.pkr(9);
    b.deliver(b.header, 13, &pkr, 0);
    b.deliver(b.header, 13, &pkr, 0);
    let under_old = b.root(b.header, &chain);
    b.deliver(b.header, 1, &under_old.dsm, 0);
    b.verdict(&under_old.verdict, 0);
    // Step 2: a root under the new key drops the lower one, though its contents are those in force.
    b.deliver(b.header, 2, &under_new.dsm, 0);
    b.verdict(&under_new.verdict, 0);
    let under_old = b.root(b.header, &chain);
    b.deliver(b.header, 1, &under_old.dsm, 7);
    // A lower key does not come back, a higher one comes.
    let (lower, higher) = (b.tree.pkr(4), b.tree.pkr(14));
    b.deliver(b.header, 14, &lower, 9);
    b.deliver(b.header, 15, &higher, 0);
    b.all_words();
    b.step();
    for _ in 0..3 {
        half_minute(&mut b);
    }
    b.run.expects.some = vec![1, 5];
    b.run.expects.never = vec![2, 4, 6, 7];
    b.run
}

/// A receiver that an emergency message stopped, with a root waiting: the verdict that would be good for it.
fn stopped_bench(b: &mut Bench) -> Root {
    b.seen = vec![1, 2];
    let chain = running(b, 100);
    half_minute(b);
    half_minute(b);
    let root = b.root(b.header, &chain);
    b.deliver(b.header, 6, &root.dsm, 0);
    b.stop();
    root
}

pub fn emergency(name: &str, about: &str, seed: u64) -> Run {
    let mut b = Bench::new(name, about, seed);
    let root = stopped_bench(&mut b);
    // Stopped: words, sub-frames and verdicts are 4. A refused start leaves it stopped, a good one begins anew.
    let word = b.sets[0].words[0];
    b.run.push(replay::word(1, b.now, &word));
    b.run.gives(4, 0);
    let (hkroot, mack) = (b.idle(), b.section(1, b.now));
    b.subframe(1, b.now, &hkroot, &mack);
    b.run.gives(4, 4);
    b.subframe(1, b.now.plus(-5), &hkroot, &mack);
    b.run.gives(4, 4);
    b.verdict(&root.verdict, 4);
    let mut bad = b.start.clone();
    bad.ns = 37;
    b.run.push(replay::start(&bad));
    b.run.gives(2, 0);
    b.verdict(&root.verdict, 4);
    b.start();
    b.verdict(&root.verdict, 14);
    b.reads(1, Read::None);
    b.reads(2, Read::None);
    b.send(1);
    b.run
}

pub fn stopped(name: &str, about: &str, seed: u64) -> Run {
    let mut b = Bench::new(name, about, seed);
    stopped_bench(&mut b);
    // The last tags that were judged came in the sub-frame of the emergency message, before its last block.
    let last = b.now.plus(-1);
    for prn in [1, 2] {
        let read = b.set_read(prn, last);
        b.reads(prn, read);
    }
    b.reads(3, Read::None);
    b.run
}

/// The fields of a section of NMACK 1, KS 128, MS 32: seven tags, by the marks of [`slow_bench`].
fn slow_fields(own: u8, slow: u8) -> [Info; 7] {
    let i = |adkd| Info::new(own, adkd, 0);
    [
        i(0),
        Info::new(slow, 12, 0),
        Info::new(slow, 0, 0),
        Info::new(slow, 11, 0),
        i(0),
        i(0),
        i(0),
    ]
}

/// Two satellites, seven tags a section: 0 12 0 11 0 0 0, under a MAC function. Their 32 bits are short of a set, those
/// of two are not.
fn slow_bench(b: &mut Bench, change: fn(Params) -> Params) {
    b.start.marks = [marks(&[0, 12, 0, 11]); 2];
    b.seen = vec![1, 2];
    b.start();
    let params = Params {
        nmack: 1,
        ks: 4,
        ms: 8,
        ..b.params(0)
    };
    let chain = b.chain(change(params), 100);
    b.adopt(&chain);
    b.now = chain.start().plus(-1);
    b.all_words();
    b.step();
}

pub fn data_change(name: &str, about: &str, seed: u64) -> Run {
    data_change_with(name, about, seed, |params| params)
}

/// The same under other functions.
pub(super) fn data_change_with(
    name: &str,
    about: &str,
    seed: u64,
    change: fn(Params) -> Params,
) -> Run {
    let mut b = Bench::new(name, about, seed);
    slow_bench(&mut b, change);
    let arrival = b.now;
    b.send_fields(1, &slow_fields(1, 2), &[9, 5, 9, 5, 1, 1, 1]);
    let good = b.sets[1];
    // A repeater's words replace satellite 2's set while its slow tags wait. The system goes on to authenticate the
    // good set.
    let repeater = NavSet::random(&mut b.rng, 2, 500);
    for word in repeater.words {
        b.run.push(replay::word(2, b.now, &word));
        b.run.gives(0, 0);
    }
    b.step();
    b.send_fields(1, &slow_fields(1, 2), &[1, 1, 5, 2, 5, 1, 1, 1]);
    b.step();
    for n in 2..10 {
        // Before each due tag of ADKD 11 the set was the repeater's.
        b.send_fields(1, &slow_fields(1, 2), &[2, 1, 5, 2, 5, 1, 1, 1]);
        assert_eq!(b.now, arrival.plus(n));
        b.step();
    }
    // The key of the first slow tag: it matches the set that was held when it came, and those bits are marked.
    b.send_fields(1, &slow_fields(1, 2), &[1, 2, 1, 5, 2, 5, 1, 1, 1]);
    b.step();
    b.send_fields(1, &slow_fields(1, 2), &[2, 2, 1, 5, 2, 5, 1, 1, 1]);
    assert_eq!(good, b.sets[1]);
    let read = b.set_read(2, arrival);
    b.reads(2, read);
    b.run
}

pub fn newer_set_stays(name: &str, about: &str, seed: u64) -> Run {
    let mut b = Bench::new(name, about, seed);
    slow_bench(&mut b, |params| params);
    // A slow tag of old data comes due after newer data was marked: it agrees, and the newer set stays. The old set was
    // authentic with its second tag; its third is then one of neither set.
    b.send_fields(1, &slow_fields(1, 2), &[9, 5, 9, 5, 1, 1, 1]);
    b.change(2);
    b.words(2);
    b.step();
    b.send_fields(1, &slow_fields(1, 2), &[1, 1, 5, 9, 5, 1, 1, 1]);
    let newest = b.now;
    // Only satellite 1 is authenticated from here on. The second section's ADKD 11 tag is due before the first one's
    // ADKD 12 tag, so that the old set's tag is the last to be judged.
    let quiet = [Info::new(1, 0, 0); 7];
    b.step();
    b.send_fields(1, &quiet, &[1, 1, 4, 1, 4, 1, 1, 1]);
    b.now = newest.plus(9);
    b.send_fields(1, &quiet, &[9, 1, 4, 1, 4, 1, 1, 1]);
    let read = b.set_read(2, newest);
    b.reads(2, read);
    b.run
}

pub fn week_change(name: &str, about: &str, seed: u64) -> Run {
    let mut b = Bench::new(name, about, seed);
    b.seen = vec![17, 21];
    b.now = Gst::new(947, 604_770).plus(-30);
    b.start();
    let params = b.params(2);
    let chain = b.chain_at(params, 947, 167, 160);
    b.adopt(&chain);
    b.now = Gst::new(947, 604_770).plus(-12);
    b.all_words();
    b.step();
    for _ in 0..26 {
        half_minute(&mut b);
    }
    // A chain that begins with the week: its root's time is the last half minute of the week before.
    let params = b.params(3);
    let next = b.chain_at(params, 948, 0, 60);
    b.adopt(&next);
    b.all_words();
    b.step();
    for _ in 0..3 {
        half_minute(&mut b);
    }
    b.run.expects.some = vec![1, 5];
    b.run.expects.never = vec![2, 4, 6, 7];
    b.run
}

pub fn last_week(name: &str, about: &str, seed: u64) -> Run {
    let mut b = Bench::new(name, about, seed);
    b.seen = vec![33, 34];
    b.now = Gst::new(4095, 604_770).plus(-40);
    b.start();
    let params = b.params(1);
    let chain = b.chain_at(params, 4095, 167, 120);
    b.adopt(&chain);
    b.now = Gst::new(4095, 604_770).plus(-13);
    b.all_words();
    b.step();
    for _ in 0..12 {
        half_minute(&mut b);
    }
    // The last half minute of the last week; its slow tags never fall due. A second of 604800 is refused.
    assert_eq!(b.now, Gst::new(4095, 604_770));
    half_minute(&mut b);
    let (hkroot, mack) = (b.idle(), [0xC3; 60]);
    b.subframe(33, Gst::new(4095, 604_800), &hkroot, &mack);
    b.run.gives(2, 2);
    b.run.expects.some = vec![1, 5];
    b.run.expects.never = vec![2, 3, 4, 6, 7];
    b.run
}

/// Half an hour of the satellites seen, a DSM-KROOT going round all the time.
struct HalfHour {
    root: Root,
    /// Pages of a sub-frame are lost now and then.
    trees: bool,
    vouched: bool,
    turn: usize,
    /// Blocks sent so far, a bit each.
    sent: u16,
}

impl HalfHour {
    fn begin(b: &mut Bench) -> Self {
        Self::begin_with(b, |params| params)
    }

    /// The same with other parameters.
    fn begin_with(b: &mut Bench, change: fn(Params) -> Params) -> Self {
        b.start();
        let params = change(b.params(0));
        let chain = b.chain(params, 90);
        let root = b.root(b.header, &chain);
        b.now = chain.start();
        b.force = Some(chain);
        HalfHour {
            root,
            trees: false,
            vouched: false,
            turn: 0,
            sent: 0,
        }
    }

    /// Fields, then new data of the changed satellites, then the words that are heard of each. Blocks go out with an
    /// offset by PRN (000, 6.13).
    fn half_minute(&mut self, b: &mut Bench, changed: &[u8], heard: impl Fn(&Bench, u8) -> NavSet) {
        let count = dsm::blocks(&self.root.dsm);
        for prn in b.seen.clone() {
            let block = (self.turn + usize::from(prn) % 8) % count;
            let hkroot = dsm::hkroot(self.root.header, 5, &self.root.dsm, block);
            let mack = b.section(prn, b.now);
            let second = if self.vouched { 0 } else { 11 };
            if !self.trees {
                self.sent |= 1 << block;
                b.subframe(prn, b.now, &hkroot, &mack);
                b.run.gives(0, second);
                continue;
            }
            let marks = subframe::under_trees(&mut b.rng);
            b.subframe_marked(prn, marks, &subframe::join(&hkroot, &mack));
            if subframe::all_came(marks) {
                self.sent |= 1 << block;
                b.run.gives(0, second);
            } else {
                b.run
                    .gives(17, if subframe::came(marks, 0) { second } else { 17 });
            }
        }
        if !self.vouched && self.sent.count_ones() as usize == count {
            b.verdict(&self.root.verdict.clone(), 0);
            self.vouched = true;
        }
        for &prn in changed {
            b.change(prn);
        }
        for prn in b.seen.clone() {
            for word in heard(b, prn).words {
                b.run.push(replay::word(prn, b.now, &word));
                b.run.gives(0, 0);
            }
        }
        self.turn += 1;
        b.step();
    }
}

/// Satellites whose words the repeater sends, and the half minutes in which it is heard.
const REPEATED: [u8; 4] = [4, 11, 19, 27];
const REPEATER: std::ops::Range<usize> = 24..34;

pub fn fitter(name: &str, about: &str, seed: u64) -> Run {
    let mut b = Bench::new(name, about, seed);
    b.seen = vec![1, 4, 7, 9, 11, 14, 19, 21, 25, 27, 31, 36];
    // The repeater has the words of an hour before.
    let old: Vec<NavSet> = b
        .sets
        .iter()
        .zip(1..)
        .map(|(s, prn)| NavSet::random(&mut b.rng, prn, s.iodnav() - 4))
        .collect();
    let mut signal = HalfHour::begin(&mut b);
    for n in 0..60 {
        signal.half_minute(&mut b, if n == 40 { &[9] } else { &[] }, |b, prn| {
            let heard = if REPEATER.contains(&n) && REPEATED.contains(&prn) {
                &old
            } else {
                &b.sets
            };
            heard[usize::from(prn) - 1]
        });
    }
    b.run.expects.some = vec![1, 2, 5];
    b.run.expects.never = vec![3, 4, 6, 7];
    let last = b.now.plus(-1);
    for prn in b.seen.clone() {
        let read = b.set_read(prn, last);
        b.reads(prn, read);
    }
    b.run
}

pub fn full_sky(name: &str, about: &str, seed: u64) -> Run {
    let mut b = Bench::new(name, about, seed);
    b.seen = (1..=36).collect();
    let mut signal = HalfHour::begin(&mut b);
    let all: Vec<u8> = (1..=36).collect();
    for n in 0..60 {
        let changed = if n % 20 == 19 { &all[..] } else { &[] };
        signal.half_minute(&mut b, changed, |b, prn| b.sets[usize::from(prn) - 1]);
    }
    b.run.expects.some = vec![1, 5, 7];
    b.run.expects.never = vec![2, 3, 4, 6];
    b.run
}

/// Under windbreak trees a page or two of a sub-frame is often missing (02, P3).
fn trees_with(name: &str, about: &str, seed: u64, change: fn(Params) -> Params) -> Run {
    let mut b = Bench::new(name, about, seed);
    b.seen = vec![2, 5, 8, 13, 17, 22, 28, 34];
    let mut signal = HalfHour::begin_with(&mut b, change);
    signal.trees = true;
    for n in 0..60 {
        let changed: &[u8] = if n == 35 { &[8] } else { &[] };
        signal.half_minute(&mut b, changed, |b, prn| b.sets[usize::from(prn) - 1]);
    }
    b.run.expects.some = vec![1, 5, 8];
    b.run.expects.never = vec![2, 3, 4, 6, 7];
    b.run
}

/// Two blocks of four fields, the second and third flexible.
pub fn trees(name: &str, about: &str, seed: u64) -> Run {
    trees_with(name, about, seed, |params| params)
}

/// One block of six fields under CMAC-AES.
pub fn trees_1(name: &str, about: &str, seed: u64) -> Run {
    let change = |params| Params {
        nmack: 1,
        mf: 1,
        ks: 8,
        ms: 5,
        ..params
    };
    trees_with(name, about, seed, change)
}

/// Three blocks of two fields.
pub fn trees_3(name: &str, about: &str, seed: u64) -> Run {
    let change = |params| Params {
        nmack: 3,
        ks: 1,
        ms: 0,
        ..params
    };
    trees_with(name, about, seed, change)
}

/// A chain whose tags all are flexible and slow.
pub fn places_full(name: &str, about: &str, seed: u64) -> Run {
    let mut b = Bench::new(name, about, seed);
    let mut all = [FLEXIBLE; 14];
    all[0] = 0;
    b.start.marks = [all; 2];
    b.seen = (1..=20).collect();
    let chain = running_with(&mut b, 60, |params| Params {
        nmack: 1,
        ks: 0,
        ms: 0,
        ..params
    });
    let slow: Vec<Info> = (0..14).map(|n| Info::new(n + 1, 12, 0)).collect();
    // 19 sections of 13 slow tags take 247 places, the next takes nine and has none for the other four.
    let send_slow = |b: &mut Bench, prn: u8, due: &[u8], waits: usize| {
        let (waits, none) = (vec![5; waits], vec![7; 13 - waits]);
        let told = [due, &b.agree([prn]), &waits, &none].concat();
        b.send_fields(prn, &slow, &told);
    };
    for prn in 1..=19 {
        send_slow(&mut b, prn, &[], 13);
    }
    send_slow(&mut b, 20, &[], 9);
    b.step();
    send_slow(&mut b, 1, &[], 0);
    // Tags with no delay need no place, and those of ADKD 11 find none.
    let mixed: Vec<Info> = (0..14)
        .map(|n| Info::new(n + 1, if n % 2 == 0 { 0 } else { 11 }, 0))
        .collect();
    let told = [2, 3, 5, 7, 9, 11, 13].map(|prn| [b.agrees(prn), 7]);
    b.send_fields(2, &mixed, told.as_flattened());
    b.now = chain.start().plus(9);
    send_slow(&mut b, 1, &[], 0);
    b.step();
    // All 256 fall due in one section and free their places before its own tags: 270 records.
    let due = b.agree((0..256).map(|n| slow[n % 13 + 1].prn));
    send_slow(&mut b, 3, &due, 13);
    send_slow(&mut b, 4, &[], 13);
    b.run
}
