//! Sets that need tags of 40 bits together (02, P4): tags of every size, two sets of a satellite in turn, slow tags
//! between, and what a root and a drop do to the sums.

use super::bench::*;
use super::parameters;
use crate::chain::{Chain, Params};
use crate::dsm;
use crate::mack::{Info, Layout, FLEXIBLE};
use crate::navdata::NavSet;
use crate::replay::Run;
use crate::time::Gst;
use std::rc::Rc;

/// A satellite without words: the first tag of its sections has outcome 3.
const SENDER: u8 = 5;
/// The satellite whose sets change.
const PRN: u8 = 2;

/// Tags of satellite 2: at once, or ten sub-frames later.
const QUICK: (u8, u8) = (PRN, 0);
const SLOW: (u8, u8) = (PRN, 12);

fn bench(name: &str, about: &str, seed: u64) -> Bench {
    let mut b = Bench::new(name, about, seed);
    let mut flexible = [FLEXIBLE; 14];
    flexible[0] = 0;
    b.start.marks = [flexible; 2];
    b.start.ns = 3;
    b
}

/// A start and a chain with tags of this size: one block, KS 96.
fn begin(b: &mut Bench, ms: u8) -> Rc<Chain> {
    let params = Params {
        nmack: 1,
        ks: 0,
        ms,
        ..b.params(0)
    };
    let chain = b.chain(params, 400);
    parameters::fresh(b, &chain);
    chain
}

/// The present section of a satellite with these tags behind its first; the other fields are not allowed.
fn send_from(b: &mut Bench, sender: u8, tags: &[(u8, u8)], due: &[u8], own: &[u8]) {
    let fields = b.layout().fields();
    let mut infos = vec![Info::new(0, 0, 0); fields];
    for (info, &(prn, adkd)) in infos[1..].iter_mut().zip(tags) {
        *info = Info::new(prn, adkd, 0);
    }
    assert!(tags.len() < fields && tags.len() == own.len());
    let mack = b.section_of(sender, b.now, &infos);
    let hkroot = b.idle();
    b.subframe(sender, b.now, &hkroot, &mack);
    b.run.gives(0, 0);
    let rest = vec![4; fields - 1 - own.len()];
    b.run.outcomes(&[due, &[3], own, &rest].concat());
}

/// The same from the usual sender, then the next sub-frame.
fn send(b: &mut Bench, tags: &[(u8, u8)], due: &[u8], own: &[u8]) {
    send_from(b, SENDER, tags, due, own);
    b.step();
}

/// Outcomes of the n-th tags on one set: 9 until their bits are enough.
fn summed(bits: usize, tags: std::ops::RangeInclusive<usize>) -> Vec<u8> {
    tags.map(|n| if n * bits < ENOUGH { 9 } else { 1 })
        .collect()
}

/// Satellite 2 has this set from the half minute before on.
fn go_to(b: &mut Bench, set: NavSet) {
    b.sets[usize::from(PRN) - 1] = set;
    b.now = b.now.plus(-1);
    b.words(PRN);
    b.step();
}

/// Two sets of satellite 2, the first of which it has.
fn two_sets_of(b: &mut Bench) -> (NavSet, NavSet) {
    let first = b.sets[usize::from(PRN) - 1];
    let second = NavSet::random(&mut b.rng, PRN, 700);
    (first, second)
}

/// Every MS and number of blocks: two satellites' tags, one after the other, over several sections.
pub fn tag_sizes(name: &str, about: &str, seed: u64) -> Run {
    let mut b = bench(name, about, seed);
    for nmack in 1..=3 {
        for ms in 0..10 {
            let params = Params {
                nmack,
                ks: 0,
                ms,
                ..b.params(0)
            };
            let Some(layout) = Layout::new(&params) else {
                continue;
            };
            let chain = b.chain(params, 20);
            parameters::fresh(&mut b, &chain);
            for _ in 0..6 {
                // Satellite 1 sends: its first tag is its own.
                let infos: Vec<Info> = (0..layout.fields())
                    .map(|n| Info::new(n as u8 % 3 % 2 + 1, 0, 0))
                    .collect();
                let told = b.agree(infos.iter().map(|info| info.prn));
                b.send_fields(1, &infos, &told);
                b.step();
            }
        }
    }
    b.run.expects.some = vec![1, 9];
    b.run.expects.never = vec![2, 3, 4, 5, 6, 7, 8];
    b.run
}

/// From one set to another and back, with every MS: each change begins the candidate's sum anew, and the authentic set's
/// tags touch no candidate.
pub fn two_sets(name: &str, about: &str, seed: u64) -> Run {
    let mut b = bench(name, about, seed);
    for ms in 0..10 {
        let bits = begin(&mut b, ms).params.tag_bits();
        let enough = ENOUGH.div_ceil(bits);
        let short = vec![QUICK; enough - 1];
        let (first, second) = two_sets_of(&mut b);
        // All but one tag for each in turn, four times.
        for set in [first, second, first, second] {
            go_to(&mut b, set);
            send(&mut b, &short, &[], &summed(bits, 1..=enough - 1));
        }
        // The first is authentic, then a candidate beside it.
        go_to(&mut b, first);
        send(&mut b, &vec![QUICK; enough], &[], &summed(bits, 1..=enough));
        go_to(&mut b, second);
        send(&mut b, &short, &[], &summed(bits, 1..=enough - 1));
        go_to(&mut b, first);
        send(&mut b, &[QUICK, QUICK], &[], &[1, 1]);
        go_to(&mut b, second);
        send(&mut b, &[QUICK, QUICK], &[], &[1, 1]);
        // The first begins anew.
        go_to(&mut b, first);
        send(&mut b, &vec![QUICK; enough], &[], &summed(bits, 1..=enough));
    }
    let read = b.set_read(PRN, b.now.plus(-1));
    b.reads(PRN, read);
    b.run
}

/// A start and a chain where satellite 2 has this set. Gives the time of the first section.
fn begin_with(b: &mut Bench, set: NavSet, ms: u8) -> Gst {
    b.sets[usize::from(PRN) - 1] = set;
    begin(b, ms);
    b.now
}

/// Slow tags of the first set fall due once tags of the second were judged. MS 12: four tags are enough.
fn newer_stays(b: &mut Bench, first: NavSet, second: NavSet) {
    // A newer candidate stays; the older tags count nowhere.
    let arrival = begin_with(b, first, 1);
    send(b, &[SLOW; 4], &[], &[5; 4]);
    go_to(b, second);
    send(b, &[QUICK], &[], &[9]);
    b.now = arrival.plus(10);
    send(b, &[], &[9; 4], &[]);
    send(b, &[QUICK; 3], &[], &[9, 9, 1]);
    // A newer authentic set stays; the candidate goes with its fourth tag.
    let arrival = begin_with(b, first, 1);
    send(b, &[SLOW; 2], &[], &[5; 2]);
    send(b, &[SLOW; 2], &[], &[5; 2]);
    go_to(b, second);
    send(b, &[QUICK; 4], &[], &[9, 9, 9, 1]);
    b.now = arrival.plus(10);
    send(b, &[], &[9, 9], &[]);
    send(b, &[], &[9, 1], &[]);
    // The same in one section, where a fifth tag begins it anew.
    let arrival = begin_with(b, first, 1);
    send(b, &[SLOW; 5], &[], &[5; 5]);
    go_to(b, second);
    send(b, &[QUICK; 4], &[], &[9, 9, 9, 1]);
    b.now = arrival.plus(10);
    send(b, &[QUICK], &[9, 9, 9, 1, 9], &[1]);
    go_to(b, first);
    send(b, &[QUICK; 3], &[], &[9, 9, 1]);
}

/// Slow tags of an older set: they do not replace a newer candidate or a newer authentic set, and do not set the
/// candidate's latest tag back.
pub fn slow_tags_between(name: &str, about: &str, seed: u64) -> Run {
    let mut b = bench(name, about, seed);
    let (first, second) = two_sets_of(&mut b);
    newer_stays(&mut b, first, second);
    // Due tags of both sets in one section, those of the first before those of the second.
    begin_with(&mut b, first, 1);
    send(&mut b, &[SLOW; 3], &[], &[5; 3]);
    go_to(&mut b, second);
    send(&mut b, &[SLOW; 3], &[], &[5; 3]);
    b.now = b.now.plus(12);
    send(&mut b, &[QUICK], &[9; 6], &[1]);
    // Slow tags alone, of 10 bits: four are just enough.
    let arrival = begin_with(&mut b, first, 0);
    send(&mut b, &[SLOW; 4], &[], &[5; 4]);
    b.now = arrival.plus(10);
    send(&mut b, &[], &[9, 9, 9, 1], &[]);
    // Slow and quick tags of one set: the latest to come is the set's.
    let arrival = begin_with(&mut b, first, 1);
    send(&mut b, &[SLOW; 2], &[], &[5; 2]);
    b.now = arrival.plus(4);
    let read = b.set_read(PRN, b.now);
    send(&mut b, &[QUICK, QUICK], &[], &[9, 9]);
    b.now = arrival.plus(10);
    send(&mut b, &[], &[9, 1], &[]);
    b.reads(PRN, read);
    b.run
}

/// Tags of one time on two sets: those judged last replace the candidate, and the authentic set.
pub fn same_time(name: &str, about: &str, seed: u64) -> Run {
    let mut b = bench(name, about, seed);
    let (first, second) = two_sets_of(&mut b);
    // MS 12: slow tags on the first set and quick ones on the second; what is told when the slow ones fall due.
    for (slow, quick, due) in [(1, 2, &[9][..]), (4, 4, &[9, 9, 9, 1])] {
        begin_with(&mut b, first, 1);
        b.step();
        let arrival = b.now;
        let first_read = b.set_read(PRN, arrival);
        send_from(&mut b, SENDER, &vec![SLOW; slow], &[], &vec![5; slow]);
        go_to(&mut b, second);
        let told = summed(12, 1..=quick);
        send_from(&mut b, SENDER + 1, &vec![QUICK; quick], &[], &told);
        b.now = arrival.plus(10);
        send(&mut b, &[], due, &[]);
        if slow == 1 {
            // The second set begins anew.
            send(&mut b, &[QUICK; 4], &[], &[9, 9, 9, 1]);
        } else {
            b.reads(PRN, first_read);
        }
    }
    b.run
}

/// A DSM-KROOT and a verdict on it; its sections bring no key.
fn vouch(b: &mut Bench, chain: &Chain, header: u8, good: bool, answer: u8) {
    let root = b.root(header, chain);
    let in_force = b.force.is_some() && matches!(header >> 6, 1 | 2);
    let same_cid = b
        .force
        .as_ref()
        .is_some_and(|c| c.params.cid == header >> 4 & 3);
    let second = if in_force && same_cid { 12 } else { 11 };
    for block in 0..dsm::blocks(&root.dsm) {
        let hkroot = dsm::hkroot(header, 1, &root.dsm, block);
        b.subframe(block as u8 + 1, b.now, &hkroot, &[0xC3; 60]);
        b.run.gives(0, second);
    }
    b.step();
    let mut verdict = root.verdict;
    verdict.good = u8::from(good);
    b.verdict(&verdict, answer);
}

/// A chain an hour later with other parameters and keys of its own.
fn another(b: &mut Bench, chain: &Chain, params: Params) -> Chain {
    let later = chain.floating(1);
    let seed = b.rng.bytes(32);
    let top = 100 * u64::from(params.nmack) * u64::from(later.ns);
    Chain::new(params, later.ns, later.week, later.hour, top, &seed)
}

/// What comes between two sections while candidates stand.
#[derive(Clone, Copy)]
enum Between {
    /// A verdict that leaves the chain as it is: equal contents, a bad one, a root that is refused.
    Equal,
    Bad,
    Earlier,
    NotItsCid,
    /// A later root of the same chain, with other reserved bits too.
    Floating,
    Reserved,
    /// A later root of another chain.
    Alpha,
    Cid,
    TagSize,
    Function,
    /// Status 3, then a later root of the same chain.
    Drop,
}

impl Between {
    const ALL: [Between; 11] = [
        Between::Equal,
        Between::Bad,
        Between::Earlier,
        Between::NotItsCid,
        Between::Floating,
        Between::Reserved,
        Between::Alpha,
        Between::Cid,
        Between::TagSize,
        Between::Function,
        Between::Drop,
    ];

    /// Candidates go with another chain and with a drop.
    fn clears(self) -> bool {
        use Between::*;
        matches!(self, Alpha | Cid | TagSize | Function | Drop)
    }

    /// Sends it. Gives the chain in force then, if it is another or has another root.
    fn send(self, b: &mut Bench, chain: &Chain) -> Option<Chain> {
        let (header, mut later) = (b.header, chain.floating(1));
        let with = |b: &mut Bench, change: fn(&mut Params)| {
            let mut params = chain.params;
            change(&mut params);
            another(b, chain, params)
        };
        let (root, header, good, answer) = match self {
            Between::Equal => (chain.clone(), header, true, 0),
            Between::Bad => (with(b, |p| p.alpha[0] ^= 1), header, false, 15),
            Between::Earlier => {
                later.hour -= 2;
                (later, header, true, 9)
            }
            Between::NotItsCid => (with(b, |p| p.cid = 3), header, true, 11),
            Between::Floating => (later, header, true, 0),
            Between::Reserved => {
                later.params.rsvd = 2;
                (later, header, true, 0)
            }
            Between::Alpha => (with(b, |p| p.alpha[0] ^= 1), header, true, 0),
            Between::Cid => {
                let header = dsm::header(OPERATIONAL, 1, NOMINAL);
                (with(b, |p| p.cid = 1), header, true, 0)
            }
            Between::TagSize => (with(b, |p| p.ms = 0), header, true, 0),
            Between::Function => (with(b, |p| p.mf = 1), header, true, 0),
            Between::Drop => {
                let dont_use = dsm::header(DONT_USE, 0, CHAIN_REVOKED);
                vouch(b, chain, dont_use, true, 0);
                b.force = None;
                (later, header, true, 0)
            }
        };
        vouch(b, &root, header, good, answer);
        b.header = header;
        (answer == 0 && root.start() > chain.start()).then_some(root)
    }
}

/// Candidates over verdicts: those of the same chain go on, the others begin anew. Of the authentic set a single tag is
/// enough, also under another chain.
pub fn over_roots(name: &str, about: &str, seed: u64) -> Run {
    let mut b = bench(name, about, seed);
    let (first, second) = two_sets_of(&mut b);
    for between in Between::ALL {
        // KS 128, which CMAC-AES takes too.
        let params = Params {
            nmack: 1,
            ..b.params(0)
        };
        let chain = b.chain(params, 400);
        b.sets[usize::from(PRN) - 1] = first;
        parameters::fresh(&mut b, &chain);
        b.now = chain.start().plus(100);
        send(&mut b, &[QUICK; 4], &[], &[9, 9, 9, 1]);
        go_to(&mut b, second);
        // Satellite 1 has a candidate too.
        let tags = [QUICK, QUICK, (1, 0)];
        send(&mut b, &tags, &[], &[9; 3]);
        if let Some(next) = between.send(&mut b, &chain) {
            b.now = next.start();
            b.force = Some(Rc::new(next));
        }
        let clears = between.clears();
        let told = if clears { [9, 9, 9] } else { [9, 1, 9] };
        send(&mut b, &tags, &[], &told);
        // The first set is still authentic where the second one is not.
        go_to(&mut b, first);
        send(&mut b, &[QUICK], &[], &[if clears { 1 } else { 9 }]);
    }
    b.run
}

/// Half an hour of eight satellites with tags of 10 bits whose data changes often, every third time back to what it was.
pub fn thin_tags(name: &str, about: &str, seed: u64) -> Run {
    let mut b = Bench::new(name, about, seed);
    b.seen = vec![1, 3, 6, 12, 15, 20, 29, 36];
    b.start();
    let params = Params {
        ms: 0,
        ..b.params(0)
    };
    let chain = b.chain(params, 80);
    b.adopt(&chain);
    b.now = chain.start().plus(-1);
    b.all_words();
    b.step();
    let first: Vec<NavSet> = b.sets.clone();
    for n in 0..60usize {
        for prn in b.seen.clone() {
            b.send(prn);
        }
        for (at, prn) in b.seen.clone().into_iter().enumerate() {
            match (n + 5 * at) % 12 {
                3 | 7 => b.change(prn),
                11 => b.sets[usize::from(prn) - 1] = first[usize::from(prn) - 1],
                _ => {}
            }
        }
        b.all_words();
        b.step();
    }
    b.run.expects.some = vec![1, 5, 9];
    b.run.expects.never = vec![2, 3, 4, 6, 7, 8];
    b.run
}
