//! Tags: usable sets, outcomes in their order, waiting tags (01, MACK).

use super::bench::*;
use crate::bits;
use crate::chain::{Chain, Params};
use crate::dsm;
use crate::mack::{Info, Layout, FLEXIBLE};
use crate::navdata::NavSet;
use crate::replay::{self, Read, Run};
use std::rc::Rc;

/// One block of KS 96 and MS 40: six fields, each tag enough for its set. Satellites 1 to 4 have their words.
fn six_fields(b: &mut Bench, first: [u8; 6], second: [u8; 6]) -> Rc<Chain> {
    b.start.marks = [marks(&first), marks(&second)];
    let params = Params {
        nmack: 1,
        ks: 0,
        ms: 9,
        ..b.params(0)
    };
    let chain = b.chain(params, 900);
    fresh(b, &chain);
    chain
}

fn fresh(b: &mut Bench, chain: &Rc<Chain>) {
    b.seen = vec![1, 2, 3, 4];
    b.now = chain.start().plus(-1);
    b.start();
    b.adopt(chain);
    b.now = chain.start().plus(-1);
    b.all_words();
    b.step();
}

pub fn outcomes(name: &str, about: &str, seed: u64) -> Run {
    let mut b = Bench::new(name, about, seed);
    let flex = FLEXIBLE;
    let chain = six_fields(&mut b, [0, flex, flex, 0, 11, 12], [0, 0, 12, flex, 3, 15]);
    let i = |prn, adkd| Info::new(prn, adkd, 9);
    // Second 0: two flexible fields, then ADKD 0, 11 and 12.
    b.send_fields(
        1,
        &[i(0, 0), i(2, 0), i(3, 0), i(4, 0), i(1, 11), i(2, 12)],
        &[1, 1, 1, 1, 5, 5],
    );
    b.step();
    // Second 30: ADKD 0, 12, one flexible field, and marks that no tag can meet. The ADKD 11 tag is due.
    b.send_fields(
        1,
        &[i(0, 0), i(2, 0), i(3, 12), i(4, 11), i(1, 3), i(2, 15)],
        &[1, 1, 1, 5, 5, 4, 4],
    );
    b.step();
    // Fields that are not the fixed ones.
    b.send_fields(
        2,
        &[i(0, 0), i(2, 0), i(3, 0), i(4, 11), i(1, 12), i(2, 0)],
        &[1, 1, 1, 1, 4, 4, 4],
    );
    b.step();
    b.send_fields(
        2,
        &[i(0, 0), i(2, 12), i(3, 0), i(4, 0), i(1, 0), i(2, 12)],
        &[1, 4, 4, 1, 4, 4],
    );
    b.step();
    // PRNs out of range, in flexible and in fixed fields: 4, and flexible ones still enter MACSEQ.
    for (p, q) in [(0, 37), (38, 63), (64, 95), (100, 255)] {
        fresh(&mut b, &chain);
        b.send_fields(
            3,
            &[i(0, 0), i(p, 0), i(3, 0), i(q, 0), i(q, 11), i(p, 12)],
            &[1, 4, 1, 4, 4, 4],
        );
    }
    // Flexible fields with each ADKD.
    for adkd in 0..16 {
        fresh(&mut b, &chain);
        let outcome = match adkd {
            0 => 1,
            11 | 12 => 5,
            _ => 4,
        };
        b.send_fields(
            3,
            &[i(0, 0), i(4, adkd), i(3, 0), i(1, 0), i(1, 11), i(2, 12)],
            &[1, outcome, 1, 1, 5, 5],
        );
    }
    // A fixed field with each mark and each ADKD.
    for mark in 0..16 {
        b.start.marks[0][3] = mark;
        for adkd in 0..16 {
            fresh(&mut b, &chain);
            let outcome = match adkd {
                _ if adkd != mark => 4,
                0 => 1,
                11 | 12 => 5,
                _ => 4,
            };
            b.send_fields(
                3,
                &[i(0, 0), i(4, 0), i(3, 0), i(1, adkd), i(1, 11), i(2, 12)],
                &[1, 1, 1, outcome, 5, 5],
            );
        }
    }
    b.run
}

pub fn outcome_order(name: &str, about: &str, seed: u64) -> Run {
    let mut b = Bench::new(name, about, seed);
    let flex = FLEXIBLE;
    let chain = six_fields(
        &mut b,
        [0, flex, flex, flex, 0, 12],
        [0, flex, flex, flex, 0, 12],
    );
    let layout = Layout::new(&chain.params).expect("six fields");
    let i = |prn, adkd| Info::new(prn, adkd, 0);
    // Satellite 20 has no set. Fields: no tag over words, no set, good, good, good and slow.
    let infos = [i(0, 0), i(2, 5), i(20, 0), i(2, 0), i(3, 0), i(3, 12)];
    let wrong = |b: &mut Bench, flips: &[usize], outcomes: &[u8]| {
        fresh(b, &chain);
        let mut mack = b.section_of(1, b.now, &infos);
        flips.iter().for_each(|&bit| bits::flip(&mut mack, bit));
        let hkroot = b.idle();
        b.subframe(1, b.now, &hkroot, &mack);
        b.run.gives(0, 0);
        b.run.outcomes(outcomes);
    };
    let tag = |n: usize| layout.tag(n).end - 1;
    wrong(&mut b, &[], &[1, 4, 3, 1, 1, 5]);
    // MACSEQ fails: flexible fields are 6, save those that are 4; fixed fields do not mind.
    for bit in layout.macseq() {
        wrong(&mut b, &[bit], &[1, 4, 6, 6, 1, 5]);
    }
    // Wrong tags: 4, 6 and 3 come before 2; a slow tag waits whatever its bits.
    let all: Vec<usize> = (0..6).map(tag).collect();
    wrong(&mut b, &all, &[2, 4, 3, 2, 2, 5]);
    let with_macseq: Vec<usize> = all.iter().copied().chain([layout.macseq().start]).collect();
    wrong(&mut b, &with_macseq, &[2, 4, 6, 6, 2, 5]);
    // The IOD of a flexible field enters MACSEQ, that of tag0 and of a fixed field enters nothing.
    for field in 1..4 {
        for bit in layout.iod(field) {
            wrong(&mut b, &[bit], &[1, 4, 6, 6, 1, 5]);
        }
    }
    for field in [0, 4, 5] {
        for bit in layout.iod(field) {
            wrong(&mut b, &[bit], &[1, 4, 3, 1, 1, 5]);
        }
    }
    // The PRN of a fixed field, 3 with one bit turned: 131 and 67 are out of range, 35 to 7 have no set, 1 and 2 have
    // another. Its ADKD is then not the fixed one.
    for (bit, outcome) in layout.prn(4).zip([4, 4, 3, 3, 3, 3, 2, 2]) {
        wrong(&mut b, &[bit], &[1, 4, 3, 1, outcome, 5]);
    }
    for bit in layout.adkd(4) {
        wrong(&mut b, &[bit], &[1, 4, 3, 1, 4, 5]);
    }
    // A slow tag that is wrong is judged so when its key comes.
    wrong(&mut b, &[tag(5)], &[1, 4, 3, 1, 1, 5]);
    b.now = b.now.plus(10);
    b.send_fields(1, &infos, &[2, 1, 4, 3, 1, 1, 5]);
    b.run
}

/// No flexible field: MACSEQ is not looked at.
pub fn no_flexible(name: &str, about: &str, seed: u64) -> Run {
    let mut b = Bench::new(name, about, seed);
    let chain = six_fields(&mut b, [0; 6], [0, 0, 0, 0, 0, FLEXIBLE]);
    let layout = Layout::new(&chain.params).expect("six fields");
    for bit in layout.macseq() {
        for outcomes in [[1; 6], [1, 1, 1, 1, 1, 6]] {
            let mut mack = b.section_of(1, b.now, &[Info::new(1, 0, 0); 6]);
            bits::flip(&mut mack, bit);
            let hkroot = b.idle();
            b.subframe(1, b.now, &hkroot, &mack);
            b.run.gives(0, 0);
            b.run.outcomes(&outcomes);
            b.step();
        }
    }
    // Marks past the number of fields are not used: a flexible one there has no field.
    b.start.marks = [marks(&[0, 0, 0, 0, 0, 0, FLEXIBLE]); 2];
    fresh(&mut b, &chain);
    let mut mack = b.section_of(1, b.now, &[Info::new(1, 0, 0); 6]);
    bits::flip(&mut mack, layout.macseq().start);
    let hkroot = b.idle();
    b.subframe(1, b.now, &hkroot, &mack);
    b.run.gives(0, 0);
    b.run.outcomes(&[1; 6]);
    b.run
}

/// The flexible fields of a section enter MACSEQ. These marks come first in both lists.
fn flexible_among(b: &mut Bench, first: &[u8], params: Params) {
    b.start.marks = [marks(first), marks(first)];
    let chain = b.chain(params, 30);
    let layout = Layout::new(&params).expect("it fits");
    fresh(b, &chain);
    let infos: Vec<Info> = (0..layout.fields())
        .map(|n| Info::new(n as u8 % 4 + 1, 0, n as u8))
        .collect();
    let told = b.agree(infos.iter().map(|info| info.prn));
    b.send_fields(1, &infos, &told);
    // The IOD of the last flexible field is changed: all flexible fields are 6.
    let flexible = |n: &usize| first.get(*n) == Some(&FLEXIBLE);
    if let Some(last) = (0..layout.fields()).rev().find(flexible) {
        b.step();
        let mut mack = b.section_of(1, b.now, &infos);
        bits::flip(&mut mack, layout.iod(last).end - 1);
        let hkroot = b.idle();
        b.subframe(1, b.now, &hkroot, &mack);
        b.run.gives(0, 0);
        let outcomes: Vec<u8> = (0..layout.fields())
            .map(|n| match flexible(&n) {
                true => 6,
                false => b.agrees(infos[n].prn),
            })
            .collect();
        b.run.outcomes(&outcomes);
    }
}

/// Flexible fields in every block enter MACSEQ, in order.
pub fn flexible_blocks(name: &str, about: &str, seed: u64) -> Run {
    let mut b = Bench::new(name, about, seed);
    for (nmack, ks) in [(2, 0), (3, 0), (3, 4)] {
        for first in [
            [0, 255, 255, 255, 255, 255],
            [0, 0, 0, 255, 0, 255],
            [0, 0, 255, 0, 0, 0],
        ] {
            let params = Params {
                nmack,
                ks,
                ms: 2,
                ..b.params(0)
            };
            flexible_among(&mut b, &first, params);
        }
    }
    b.run
}

pub fn usable_sets(name: &str, about: &str, seed: u64) -> Run {
    let mut b = Bench::new(name, about, seed);
    let chain = six_fields(&mut b, [0; 6], [0; 6]);
    let own = [Info::new(1, 0, 0); 6];
    // Each word missing.
    for missing in 0..5 {
        b.now = chain.start().plus(-1);
        b.start();
        b.adopt(&chain);
        b.now = chain.start();
        for (n, word) in b.sets[0].words.into_iter().enumerate() {
            if n != missing {
                b.run.push(replay::word(1, b.now, &word));
            }
        }
        b.step();
        b.send_fields(1, &own, &[3; 6]);
        // It comes in this sub-frame: usable for the next.
        let word = b.sets[0].words[missing];
        b.run.push(replay::word(1, b.now, &word));
        b.send_fields(2, &own, &[3; 6]);
        b.step();
        b.send_fields(1, &own, &[1; 6]);
        // A word that comes again with equal bytes counts as coming now.
        b.run.push(replay::word(1, b.now, &word));
        b.send_fields(2, &own, &[3; 6]);
        b.step();
        b.send_fields(1, &own, &[1; 6]);
        // A word of the future is not usable up to its own time.
        b.run.push(replay::word(1, b.now.plus(2), &word));
        for outcome in [3, 3, 1] {
            b.step();
            b.send_fields(1, &own, &[outcome; 6]);
        }
        // Another IODnav in one word of 1 to 4; word 5 has none.
        let mut other = b.sets[0];
        other.set_iodnav(999);
        b.run.push(replay::word(1, b.now, &other.words[missing]));
        b.step();
        b.send_fields(1, &own, &[if missing == 4 { 1 } else { 3 }; 6]);
        // The other words follow: one IODnav again, and other bits than the tag's.
        for word in other.words {
            b.run.push(replay::word(1, b.now, &word));
        }
        b.step();
        b.send_fields(1, &own, &[2; 6]);
        let before = b.sets[0];
        b.sets[0] = other;
        b.step();
        b.send_fields(1, &own, &[1; 6]);
        b.sets[0] = before;
    }
    b.run
}

/// Each bit of words 1 to 5 turned over, one at a time.
pub fn word_bits(name: &str, about: &str, seed: u64) -> Run {
    let mut b = Bench::new(name, about, seed);
    let chain = six_fields(&mut b, [0; 6], [0; 6]);
    let own = [Info::new(1, 0, 0); 6];
    let good = b.sets[0];
    for n in 0..5 {
        for bit in 0..128 {
            let mut word = good.words[n];
            bits::flip(&mut word, bit);
            let kind = bits::get(&word, 0, 6) as usize;
            // A word 4 must name its satellite; words 1 to 5 replace the one held.
            let refused = kind == 4 && bits::get(&word, 16, 6) != 1;
            b.run.push(replay::word(1, b.now, &word));
            b.run.gives(if refused { 2 } else { 0 }, 0);
            let mut held = good;
            if !refused && (1..=5).contains(&kind) {
                held.words[kind - 1] = word;
            }
            let iodnavs: Vec<u64> = held.words[..4]
                .iter()
                .map(|w| bits::get(w, 6, 10))
                .collect();
            let outcome = match iodnavs.iter().all(|i| *i == iodnavs[0]) {
                false => 3,
                true if held.authenticated() == good.authenticated() => 1,
                true => 2,
            };
            b.step();
            b.send_fields(1, &own, &[outcome; 6]);
            b.words(1);
            if b.now == chain.start().plus(880) {
                fresh(&mut b, &chain);
            }
        }
    }
    b.run
}

/// Each bit of a sub-frame's field turned over, one at a time.
pub fn field_bits(name: &str, about: &str, seed: u64) -> Run {
    let mut b = Bench::new(name, about, seed);
    // Two blocks of KS 104, MS 28: three fields and four spare bits.
    let params = Params {
        ks: 1,
        ms: 7,
        ..b.params(0)
    };
    let chain = b.chain(params, 1300);
    turn_field_bits(&mut b, &chain);
    b.run
}

/// The same for a chain with two blocks of three fields.
pub(super) fn turn_field_bits(b: &mut Bench, chain: &Rc<Chain>) {
    b.start.marks = [marks(&[0, FLEXIBLE, 0]); 2];
    fresh(b, chain);
    let layout = b.layout();
    let infos: Vec<Info> = (0..6).map(|n| Info::new(n % 4 + 1, 0, 0)).collect();
    for bit in 0..480 {
        let mut mack = b.section_of(1, b.now, &infos);
        bits::flip(&mut mack, bit);
        let hkroot = b.idle();
        b.subframe(1, b.now, &hkroot, &mack);
        let refused =
            (1..=2).any(|n| layout.key(n).contains(&bit) || layout.spare(n).contains(&bit));
        b.run.gives(0, if refused { 12 } else { 0 });
        if !refused {
            let outcomes: Vec<u8> = (0..6)
                .map(|n| {
                    let mut moved = infos[n];
                    if layout.prn(n).contains(&bit) {
                        moved.prn ^= 0x80 >> (bit - layout.prn(n).start);
                    }
                    let flexible_moved = layout.prn(1).start <= bit && bit < layout.iod(1).end;
                    let macseq = layout.macseq().contains(&bit) || flexible_moved;
                    match (n, moved.prn) {
                        (0, _) if layout.tag(0).contains(&bit) => 2,
                        (0, _) => b.agrees(1),
                        _ if layout.adkd(n).contains(&bit) && n != 1 => 4,
                        _ if layout.adkd(1).contains(&bit) && n == 1 => 4,
                        (_, 0 | 37..) => 4,
                        (1, _) if macseq => 6,
                        (_, 5..) => 3,
                        _ if moved != infos[n] || layout.tag(n).contains(&bit) => 2,
                        _ => b.agrees(infos[n].prn),
                    }
                })
                .collect();
            b.run.outcomes(&outcomes);
        }
        b.step();
    }
    // HKROOT: the header decides the MACK half, the status enters the tags, the rest leaves the section alone.
    for bit in 0..120 {
        let mack = b.section_of(1, b.now, &infos);
        let mut hkroot = b.idle();
        bits::flip(&mut hkroot, bit);
        b.subframe(1, b.now, &hkroot, &mack);
        let (status, cid) = (hkroot[0] >> 6, hkroot[0] >> 4 & 3);
        b.run.gives(
            0,
            if matches!(status, 1 | 2) && cid == 0 {
                0
            } else {
                11
            },
        );
        b.step();
    }
}

/// The set of a satellite when the tag arrives, over every kind of change while it waits.
pub fn waiting_sets(name: &str, about: &str, seed: u64) -> Run {
    let mut b = Bench::new(name, about, seed);
    let chain = six_fields(&mut b, [0, 11, 12, 0, 0, 0], [0, 11, 12, 0, 0, 0]);
    // Fields for satellite 2: ADKD 11 and 12; tags with no delay for satellite 1.
    let slow =
        |prn| [0, 11, 12, 0, 0, 0].map(|adkd| Info::new(if adkd > 0 { prn } else { 1 }, adkd, 0));
    let quiet = [0, 0, 0, 0, 0, 0].map(|adkd| Info::new(1, adkd, 0));
    let arrival = b.now;
    b.send_fields(1, &slow(2), &[1, 5, 5, 1, 1, 1]);
    // The tags wait while all words of satellite 2 are replaced, its set is broken, and its words come anew.
    let good = b.sets[1];
    for n in 1..10 {
        let repeater = NavSet::random(&mut b.rng, 2, 3 * n);
        for word in &repeater.words[..usize::from(n % 5) + 1] {
            b.run.push(replay::word(2, b.now, word));
            b.run.gives(0, 0);
        }
        b.step();
        let due: &[u8] = if n == 1 { &[1] } else { &[] };
        b.send_fields(1, &quiet, &[due, &[1, 4, 4, 1, 1, 1]].concat());
    }
    b.step();
    b.send_fields(1, &quiet, &[1, 1, 4, 4, 1, 1, 1]);
    assert_eq!(b.sets[1], good);
    let read = b.set_read(2, arrival);
    b.reads(2, read);
    // Two slow tags of one satellite for different sets: the one that came later stays, whichever falls due last.
    b.words(3);
    b.step();
    b.send_fields(1, &slow(3), &[1, 5, 5, 1, 1, 1]);
    b.change(3);
    b.words(3);
    b.step();
    // Satellite 2's set is now the repeater's.
    b.send_fields(2, &slow(3), &[1, 2, 5, 5, 1, 1, 1]);
    let newer = b.now;
    b.now = newer.plus(10);
    b.send_fields(4, &quiet, &[1, 1, 1, 1, 4, 4, 1, 1, 1]);
    let read = b.set_read(3, newer);
    b.reads(3, read);
    b.reads(9, Read::None);
    assert!(b.now < chain.time(chain.top()));
    b.run
}

/// Two sections of one time that saw different sets: the set of the tag that is judged last stays.
pub fn same_time_sets(name: &str, about: &str, seed: u64) -> Run {
    let mut b = Bench::new(name, about, seed);
    let chain = six_fields(&mut b, [0, 12, 0, 0, 0, 0], [0, 12, 0, 0, 0, 0]);
    let slow = [0, 12, 0, 0, 0, 0].map(|adkd| Info::new(if adkd > 0 { 3 } else { 1 }, adkd, 0));
    b.step();
    let arrival = b.now;
    b.send_fields(1, &slow, &[1, 5, 1, 1, 1, 1]);
    let first = b.set_read(3, arrival);
    // Words of the half minute before, lent after fields of this one, are usable for the next section.
    b.now = arrival.plus(-1);
    b.change(3);
    b.words(3);
    b.now = arrival;
    b.send_fields(2, &[Info::new(3, 0, 0); 6], &[1, 4, 1, 1, 1, 1]);
    b.now = chain.start().plus(11);
    b.send_fields(1, &[Info::new(1, 0, 0); 6], &[1, 1, 4, 1, 1, 1, 1]);
    b.reads(3, first);
    b.run
}

/// What a new root, a new chain and a drop do to the tags that wait.
/// Puts a later root in force, whose sub-frame 0 is the present time then. Gives the blocks of its message.
fn renew(b: &mut Bench, later: Chain) -> usize {
    let root = b.root(b.header, &later);
    b.deliver(b.header, 1, &root.dsm, 0);
    b.verdict(&root.verdict, 0);
    b.now = later.start();
    b.force = Some(Rc::new(later));
    dsm::blocks(&root.dsm)
}

pub fn waiting_tags(name: &str, about: &str, seed: u64) -> Run {
    let mut b = Bench::new(name, about, seed);
    let chain = six_fields(&mut b, [0, 0, 12, 0, 0, 0], [0, 0, 12, 0, 0, 0]);
    let slow = [0, 0, 12, 0, 0, 0].map(|adkd| Info::new(1, adkd, 0));
    let quiet = [Info::new(1, 0, 0); 6];
    let plain = [1, 1, 4, 1, 1, 1];
    // A floating root an hour on: slow tags of sub-frames 109 and 110 wait for keys of 119 and 120.
    for (rsvd, alpha) in [(0, false), (2, false), (0, true)] {
        fresh(&mut b, &chain);
        b.now = chain.start().plus(109);
        b.send_fields(1, &slow, &[1, 1, 5, 1, 1, 1]);
        b.step();
        b.send_fields(1, &slow, &[1, 1, 5, 1, 1, 1]);
        b.step();
        let mut later = chain.floating(1);
        later.params.rsvd = rsvd;
        if alpha {
            // Another α: another chain, and no waiting tag stays.
            let params = Params {
                alpha: [1; 6],
                ..later.params
            };
            let seed = b.rng.bytes(32);
            later = Chain::new(
                params,
                later.ns,
                later.week,
                later.hour,
                40 * later.slots(),
                &seed,
            );
        }
        let blocks = renew(&mut b, later);
        let due: &[u8] = if alpha { &[] } else { &[1] };
        b.send_fields(1, &quiet, &[due, &plain].concat());
        b.step();
        // The sub-frame that brought the root had a slow tag from each satellite.
        let due = if alpha { 0 } else { blocks };
        b.send_fields(1, &quiet, &[&vec![1; due][..], &plain].concat());
    }
    // Status 3 drops the tags; the next chain begins with none.
    fresh(&mut b, &chain);
    b.send_fields(1, &slow, &[1, 1, 5, 1, 1, 1]);
    b.step();
    let header = dsm::header(DONT_USE, 0, CHAIN_REVOKED);
    let drop = b.root(header, &chain);
    b.deliver(header, 1, &drop.dsm, 0);
    b.verdict(&drop.verdict, 0);
    b.force = None;
    let params = Params {
        cid: 1,
        ..chain.params
    };
    let next = b.chain_at(params, 947, 121, 40);
    b.adopt(&next);
    b.now = next.start();
    b.send_fields(1, &quiet, &plain);
    b.header = dsm::header(OPERATIONAL, 0, NOMINAL);
    // A tag keeps the NMA status of its arrival: status 1 then, 2 when its key comes.
    fresh(&mut b, &chain);
    b.header = dsm::header(1, 0, NOMINAL);
    b.send_fields(1, &slow, &[1, 1, 5, 1, 1, 1]);
    b.header = dsm::header(OPERATIONAL, 0, NOMINAL);
    b.now = chain.start().plus(10);
    b.send_fields(1, &quiet, &[&[1][..], &plain].concat());
    // A section that is refused judges no waiting tag; the next good one does.
    fresh(&mut b, &chain);
    b.send_fields(1, &slow, &[1, 1, 5, 1, 1, 1]);
    b.now = chain.start().plus(10);
    let mut mack = b.section_of(1, b.now, &quiet);
    bits::flip(&mut mack, b.layout().key(1).start);
    let hkroot = b.idle();
    b.subframe(1, b.now, &hkroot, &mack);
    b.run.gives(0, 12);
    b.run.outcomes(&[]);
    b.send_fields(2, &quiet, &[&[1][..], &plain].concat());
    b.run
}

/// One size of the chain alone changes while slow tags wait: it is another chain, and none of them stays.
pub fn changed_sizes(name: &str, about: &str, seed: u64) -> Run {
    let mut b = Bench::new(name, about, seed);
    let adkds = [0, 0, 12, 0, 0, 0];
    let chain = six_fields(&mut b, adkds, adkds);
    let slow = adkds.map(|adkd| Info::new(1, adkd, 0));
    let changes: [fn(&mut Params); 3] = [|p| p.ms = 8, |p| p.nmack = 2, |p| p.ks = 1];
    for change in changes {
        fresh(&mut b, &chain);
        b.now = chain.start().plus(110);
        b.send_fields(1, &slow, &[1, 1, 5, 1, 1, 1]);
        b.step();
        // A later root an hour on, of the same keys where they fit.
        let mut later = chain.floating(1);
        change(&mut later.params);
        if later.params.nmack != chain.params.nmack || later.params.ks != chain.params.ks {
            let (seed, top) = (b.rng.bytes(32), 4000);
            later = Chain::new(later.params, later.ns, later.week, later.hour, top, &seed);
        }
        // The keys of the tags that waited come in sub-frames 0 and 1 of the new root.
        renew(&mut b, later);
        let fields = b.layout().fields();
        let own: Vec<u8> = (0..fields).map(|n| if n == 2 { 4 } else { 1 }).collect();
        for _ in 0..2 {
            b.send_fields(1, &vec![Info::new(1, 0, 0); fields], &own);
            b.step();
        }
    }
    b.run
}

/// A root an hour later, of chains of one block whose fields are ADKD 0, 12, 11 and 0 from then on, vouched for while
/// slow tags wait; then it judges. `between` is given the chain from before and fields without delay.
pub(super) fn change_root(
    b: &mut Bench,
    later: Chain,
    between: impl Fn(&mut Bench, &Rc<Chain>, &[Info]),
) {
    let chain = b.force.clone().expect("a chain is in force");
    let fields = b.layout().fields();
    let tail = |first: &[u8]| [first, &vec![1; fields - 3]].concat();
    let slow: Vec<Info> = (0..fields)
        .map(|n| Info::new(1, [0, 12, 11, 0][n.min(3)], 0))
        .collect();
    let quiet = vec![Info::new(1, 0, 0); fields];
    // Their keys are of the sub-frames 122 and 113, after the new root's start and before it.
    b.now = chain.start().plus(112);
    b.send_fields(1, &slow, &tail(&[1, 5, 5]));
    b.step();
    let later = Rc::new(later);
    let root = b.root(b.header, &later);
    for block in 0..dsm::blocks(&root.dsm) {
        let hkroot = dsm::hkroot(b.header, 1, &root.dsm, block);
        // Zero keys: these sections are refused, so that no tag is judged and none comes to wait.
        b.subframe(block as u8 + 1, b.now, &hkroot, &[0; 60]);
        b.run.gives(0, 12);
    }
    b.verdict(&root.verdict, 0);
    b.force = Some(later.clone());
    b.now = later.start().plus(2);
    // The tag of ADKD 11 goes with its key's time; that of ADKD 12 stays only with the same functions.
    let due: &[u8] = if later.params == chain.params {
        &[1]
    } else {
        &[]
    };
    b.send_fields(1, &quiet, &[due, &tail(&[1, 4, 4])].concat());
    b.step();
    between(b, &chain, &quiet);
    // Slow tags under the functions of the new root.
    b.send_fields(1, &slow, &tail(&[1, 5, 5]));
    b.step();
    b.send_fields(1, &quiet, &[&[1][..], &tail(&[1, 4, 4])].concat());
    b.now = later.start().plus(14);
    b.send_fields(1, &quiet, &[&[1][..], &tail(&[1, 4, 4])].concat());
    b.step();
}
