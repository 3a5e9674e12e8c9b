//! Every key size, tag size, number of blocks and NS; gaps at the limit; bits of the messages.

use super::bench::*;
use crate::bits;
use crate::chain::{Chain, Params};
use crate::dsm;
use crate::mack::{Info, Layout, FLEXIBLE};
use crate::replay::{Run, Verdict};
use crate::time::Gst;
use std::rc::Rc;

/// A new start, this chain in force, the words of satellites 1 and 2 held; the present time is sub-frame 0.
pub(super) fn fresh(b: &mut Bench, chain: &Rc<Chain>) {
    b.seen = vec![1, 2];
    b.header = dsm::header(OPERATIONAL, chain.params.cid, NOMINAL);
    b.now = chain.start().plus(-1);
    b.start();
    b.adopt(chain);
    b.now = chain.start().plus(-1);
    b.all_words();
    b.step();
}

/// A section of the present time with some bits turned over.
fn send_turned(
    b: &mut Bench,
    sender: u8,
    infos: &[Info],
    turned: &[usize],
    second: u8,
    outcomes: &[u8],
) {
    let mut mack = b.section_of(sender, b.now, infos);
    turned.iter().for_each(|&bit| bits::flip(&mut mack, bit));
    let hkroot = b.idle();
    b.subframe(sender, b.now, &hkroot, &mack);
    b.run.gives(0, second);
    b.run.outcomes(outcomes);
    b.step();
}

/// Fast and slow tags, wrong tags, a wrong key and a spare bit.
pub(super) fn exercise(b: &mut Bench, chain: &Rc<Chain>, sender: u8) {
    let layout = Layout::new(&chain.params).expect("it fits");
    let fields = layout.fields();
    let adkd = |n: usize| [0, 12, 11, 0][n % 4];
    let prn = |n: usize| n as u8 % 2 + 1;
    let slow: Vec<Info> = (0..fields)
        .map(|n| Info::new(prn(n), adkd(n), n as u8))
        .collect();
    let fast: Vec<Info> = (0..fields).map(|n| Info::new(prn(n), 0, 0)).collect();
    // The outcome of a field's right tag. Tag0 of another satellite than 1 and 2 finds no set.
    let right = |b: &mut Bench, n: usize| match if n == 0 { sender } else { prn(n) } {
        prn @ 1..=2 => b.agrees(prn),
        _ => 3,
    };
    let waits: Vec<u8> = (0..fields)
        .map(|n| if adkd(n) == 0 { right(b, n) } else { 5 })
        .collect();
    // The slow tags of one ADKD fall due, then come right ones with no delay.
    let after_due = |b: &mut Bench, slow: u8| -> Vec<u8> {
        let due = (0..fields).filter(|&n| adkd(n) == slow);
        due.chain(0..fields).map(|n| right(b, n)).collect()
    };
    let mut wrong = vec![2; fields];
    wrong[0] = if sender <= 2 { 2 } else { 3 };
    send_turned(b, sender, &slow, &[], 0, &waits);
    let told = after_due(b, 11);
    send_turned(b, sender, &fast, &[], 0, &told);
    // The last bit and the first bit of every tag.
    let last: Vec<usize> = (0..fields).map(|n| layout.tag(n).end - 1).collect();
    send_turned(b, sender, &fast, &last, 0, &wrong);
    let head: Vec<usize> = (0..fields).map(|n| layout.tag(n).start).collect();
    send_turned(b, sender, &fast, &head, 0, &wrong);
    // The first bit of the first key, the last of the last; each block's first and last spare bit.
    let last_block = layout.blocks as u8;
    send_turned(b, sender, &fast, &[layout.key(1).start], 12, &[]);
    send_turned(b, sender, &fast, &[layout.key(last_block).end - 1], 12, &[]);
    for block in 1..=last_block {
        let spare = layout.spare(block);
        if !spare.is_empty() {
            b.now = chain.start().plus(5 + i64::from(block));
            send_turned(
                b,
                sender,
                &fast,
                &[if block == 1 {
                    spare.start
                } else {
                    spare.end - 1
                }],
                12,
                &[],
            );
        }
    }
    b.now = chain.start().plus(10);
    let told = after_due(b, 12);
    send_turned(b, sender, &fast, &[], 0, &told);
}

fn sizes(name: &str, about: &str, seed: u64, nmack: u8) -> Run {
    let mut b = Bench::new(name, about, seed);
    let mut all = [FLEXIBLE; 14];
    all[0] = 0;
    b.start.marks = [all; 2];
    for ks in 0..9 {
        for ms in 0..10 {
            let params = Params {
                nmack,
                ks,
                ms,
                ..b.params((ks + ms) % 4)
            };
            let chain = b.chain(params, 25);
            if Layout::new(&params).is_some() {
                fresh(&mut b, &chain);
                exercise(&mut b, &chain, 1);
            } else {
                // No room for a field.
                b.now = chain.start();
                b.start();
                let root = b.root(b.header, &chain);
                b.deliver(b.header, 0, &root.dsm, 8);
            }
        }
    }
    b.run
}

pub fn sizes_1(name: &str, about: &str, seed: u64) -> Run {
    sizes(name, about, seed, 1)
}

pub fn sizes_2(name: &str, about: &str, seed: u64) -> Run {
    sizes(name, about, seed, 2)
}

pub fn sizes_3(name: &str, about: &str, seed: u64) -> Run {
    sizes(name, about, seed, 3)
}

pub fn every_ns(name: &str, about: &str, seed: u64) -> Run {
    let mut b = Bench::new(name, about, seed);
    let mut all = [FLEXIBLE; 14];
    all[0] = 0;
    b.start.marks = [all; 2];
    for ns in 1..=36 {
        b.start.ns = ns;
        let params = Params {
            nmack: ns % 3 + 1,
            ks: 1,
            ms: 5,
            ..b.params(0)
        };
        let chain = b.chain(params, 25);
        // The satellite of the first slot, of the last, the first that shares a slot, and the last of all.
        for sender in [1, ns, ns % 36 + 1, 36] {
            fresh(&mut b, &chain);
            exercise(&mut b, &chain, sender);
        }
        // All satellites in one half minute, in an order of their own: keys above and below the held one.
        fresh(&mut b, &chain);
        for prn in (1..=36).map(|n: u16| n * 17 % 37) {
            b.send(prn as u8);
        }
    }
    b.run
}

/// Sends the present section of a satellite with correct keys and states the answer.
pub(super) fn reach(b: &mut Bench, prn: u8, second: u8) {
    let mack = b.section(prn, b.now);
    let hkroot = b.idle();
    b.subframe(prn, b.now, &hkroot, &mack);
    b.run.gives(0, second);
}

pub fn gaps(name: &str, about: &str, seed: u64) -> Run {
    let mut b = Bench::new(name, about, seed);
    b.start.marks = [[0; 14]; 2];
    // One block: slot = 36 s + PRN.
    let params = Params {
        nmack: 1,
        ..b.params(0)
    };
    let chain = b.chain(params, 55_600);
    fresh(&mut b, &chain);
    b.now = chain.start().plus(27_777);
    // 1,000,001 past the root; 1,000,000; then from the key held there.
    reach(&mut b, 29, 13);
    reach(&mut b, 36, 13);
    reach(&mut b, 28, 0);
    reach(&mut b, 30, 0);
    b.now = chain.start().plus(55_555);
    reach(&mut b, 23, 13);
    reach(&mut b, 22, 0);
    reach(&mut b, 1, 0);
    // Two and three blocks: the last block's slot decides, counted from the key held when the section came. The first
    // section is of the satellite that makes the slot 1,000,000 further on one of the last block.
    for nmack in [2, 3] {
        let slots = 36 * u64::from(nmack);
        let params = Params {
            nmack,
            ..b.params(1)
        };
        let chain = b.chain(params, 1_000_200 / slots + 2);
        let far = |prn: u8| chain.slot(prn, chain.start(), nmack) + 1_000_000;
        let in_last = |slot: u64| (slot - 1) % slots >= slots - 36 && (slot - 1) % 36 < 33;
        let first = (1..=36)
            .find(|&prn| in_last(far(prn)))
            .expect("one of them");
        let prn = ((far(first) - 1) % 36) as u8 + 1;
        fresh(&mut b, &chain);
        reach(&mut b, first, 0);
        b.now = chain.time(far(first));
        assert_eq!(chain.slot(prn, b.now, nmack), far(first));
        reach(&mut b, prn + 1, 13);
        reach(&mut b, prn, 0);
        reach(&mut b, prn + 2, 0);
    }
    b.run
}

/// 256 slow tags that all fall due at the far end of the longest gap.
pub fn gap_full(name: &str, about: &str, seed: u64) -> Run {
    let mut b = Bench::new(name, about, seed);
    let mut all = [FLEXIBLE; 14];
    all[0] = 0;
    b.start.marks = [all; 2];
    let params = Params {
        nmack: 1,
        ks: 0,
        ms: 0,
        ..b.params(0)
    };
    let chain = b.chain(params, 27_800);
    fresh(&mut b, &chain);
    let infos: Vec<Info> = (0..14)
        .map(|n| Info::new(n % 2 + 1, if n % 3 == 0 { 11 } else { 12 }, 0))
        .collect();
    // 19 sections of 13 slow tags and nine of the next take all places. Of the first tags two find a set.
    for prn in 1..=20 {
        let first = if prn <= 2 { b.agrees(prn) } else { 3 };
        let waits = if prn < 20 { 13 } else { 9 };
        let told = [&[first][..], &vec![5; waits], &vec![7; 13 - waits]].concat();
        b.send_fields(prn, &infos, &told);
    }
    // The held slot is 20. Slot 1,000,020 is satellite 12's.
    b.now = chain.start().plus(27_778);
    assert_eq!(chain.slot(12, b.now, 1), 1_000_020);
    reach(&mut b, 13, 13);
    let due = b.agree((0..256).map(|n| infos[n % 13 + 1].prn));
    let told = [due, vec![3], b.agree([1; 13])].concat();
    b.send_fields(12, &[Info::new(1, 0, 0); 14], &told);
    b.run
}

/// No named run: a section of satellite 2 so many sub-frames after one of satellite 1 whose tags, but for the first, have these ADKDs by turns. One
/// block a section, so a sub-frame is 36 slots; tags with a delay fall due in the second section.
pub fn section_after_gap(subframes: u64, adkds: [u8; 2]) -> Run {
    let mut b = Bench::new("section_after_gap", "a section after a gap", super::SEED);
    let mut all = [FLEXIBLE; 14];
    all[0] = 0;
    b.start.marks = [all; 2];
    let params = Params {
        nmack: 1,
        ks: 0,
        ms: 0,
        ..b.params(0)
    };
    let chain = b.chain(params, subframes + 2);
    fresh(&mut b, &chain);
    for (prn, time, adkds) in [
        (1, b.now, adkds),
        (2, chain.start().plus(subframes as i64), [0; 2]),
    ] {
        b.now = time;
        let infos: Vec<Info> = (0..14).map(|n| Info::new(1, adkds[n % 2], 0)).collect();
        let mack = b.section_of(prn, b.now, &infos);
        let hkroot = b.idle();
        b.subframe(prn, b.now, &hkroot, &mack);
        b.run.gives(0, 0);
    }
    b.run
}

/// From which key a gap is counted: equal contents leave the held key, a new root takes it back to slot 0.
pub fn held_key(name: &str, about: &str, seed: u64) -> Run {
    let mut b = Bench::new(name, about, seed);
    b.start.marks = [[0; 14]; 2];
    let params = Params {
        nmack: 1,
        ..b.params(0)
    };
    let chain = b.chain(params, 30_300);
    fresh(&mut b, &chain);
    b.now = chain.start().plus(25_000);
    reach(&mut b, 1, 0);
    b.step();
    let vouch = |b: &mut Bench, chain: &Rc<Chain>| {
        let root = b.root(b.header, chain);
        for block in 0..dsm::blocks(&root.dsm) {
            // Zero keys: these sections are refused.
            let hkroot = dsm::hkroot(root.header, 4, &root.dsm, block);
            b.subframe(block as u8 + 1, b.now, &hkroot, &[0; 60]);
            b.run.gives(0, 12);
        }
        b.verdict(&root.verdict, 0);
        b.step();
    };
    vouch(&mut b, &chain);
    b.now = chain.start().plus(30_000);
    reach(&mut b, 2, 0);
    b.step();
    // The same contents as an hour ago, but for the root: 1,078,561 slots to the section after it.
    let later = Rc::new(chain.floating(1));
    vouch(&mut b, &later);
    b.force = Some(later);
    b.now = chain.start().plus(30_080);
    reach(&mut b, 1, 13);
    b.step();
    let near = Rc::new(chain.floating(200));
    let root = b.root(b.header, &near);
    for block in 0..dsm::blocks(&root.dsm) {
        let hkroot = dsm::hkroot(root.header, 5, &root.dsm, block);
        b.subframe(block as u8 + 1, b.now, &hkroot, &[0; 60]);
        b.run.gives(0, 13);
    }
    b.verdict(&root.verdict, 0);
    b.force = Some(near);
    b.step();
    reach(&mut b, 1, 0);
    b.run
}

/// Slots and seconds that need more than 32 bits: a root of week 0 and sections thousands of weeks later.
pub fn wide_slots(name: &str, about: &str, seed: u64) -> Run {
    let mut b = Bench::new(name, about, seed);
    b.start.marks = [[0; 14]; 2];
    let params = Params {
        nmack: 3,
        ks: 0,
        ms: 0,
        ..b.params(0)
    };
    let chain = b.chain_at(params, 0, 1, 50);
    fresh(&mut b, &chain);
    reach(&mut b, 1, 0);
    // Slots that are near again if only 32 bits are kept, then the last sub-frame of all.
    let wrapped = ((1u64 << 32) / 108) as i64;
    for after in [
        wrapped,
        wrapped + 1,
        wrapped + 2,
        2 * wrapped,
        2 * wrapped + 2,
    ] {
        b.now = chain.start().plus(after);
        let hkroot = b.idle();
        b.subframe(2, b.now, &hkroot, &[0; 60]);
        b.run.gives(0, 13);
    }
    b.now = Gst::new(4095, 604_770);
    let hkroot = b.idle();
    b.subframe(2, b.now, &hkroot, &[0; 60]);
    b.run.gives(0, 13);
    // A root of the last hour is later than all.
    let params = Params {
        nmack: 3,
        ks: 0,
        ms: 0,
        ..b.params(0)
    };
    let last = b.chain_at(params, 4095, 167, 121);
    b.force = None;
    b.now = last.start();
    b.start();
    b.adopt(&last);
    b.now = Gst::new(4095, 604_770);
    reach(&mut b, 36, 0);
    b.run
}

/// Each bit of a waiting message and its signature, of the DSM-KROOT and of a DSM-PKR turned over.
pub fn message_bits(name: &str, about: &str, seed: u64) -> Run {
    let mut b = Bench::new(name, about, seed);
    let params = b.params(0);
    let chain = b.chain(params, 2);
    let root = b.root(b.header, &chain);
    b.start();
    b.deliver(b.header, 3, &root.dsm, 0);
    // Verdicts on other bytes, good or bad, leave the message waiting.
    for bit in 0..8 * (45 + 132usize) {
        let mut v = Verdict {
            good: bit as u8 & 1,
            ..root.verdict.clone()
        };
        match bit.checked_sub(8 * 45) {
            None => bits::flip(&mut v.message, bit),
            Some(bit) => bits::flip(&mut v.signature, bit),
        }
        b.verdict(&v, 14);
    }
    for key_id in (0..=255).filter(|&id| id != START_KEY) {
        b.verdict(
            &Verdict {
                key_id,
                ..root.verdict.clone()
            },
            if key_id < 16 { 14 } else { 2 },
        );
    }
    b.verdict(&root.verdict, 0);

    // The DSM-KROOT: all bits but the padding's are in the verdict, NB or PKID.
    for bit in (0..104).chain((104..832).step_by(7)) {
        let mut dsm = root.dsm.clone();
        bits::flip(&mut dsm, bit);
        b.now = Gst::new(947, 431_970);
        b.start();
        for block in 0..8 {
            let mack = [0xC3; 60];
            b.subframe(
                block as u8 + 1,
                b.now,
                &dsm::hkroot(root.header, 3, &dsm, block),
                &mack,
            );
        }
        b.verdict(&root.verdict, if bit < 8 * 93 { 14 } else { 0 });
    }

    // The DSM-PKR of leaf 5: type 1, 13 blocks, six bytes of padding.
    let pkr = b.tree.pkr(5);
    for bit in (4..8).chain((8..1032).step_by(9)).chain(1032..1352) {
        let mut dsm = pkr.clone();
        bits::flip(&mut dsm, bit);
        let first = match bit {
            // Types 9, 5 and 3 are reserved or longer; type 0 has as many blocks.
            1032..=1034 => 6,
            1304.. => 0,
            _ => 10,
        };
        b.now = Gst::new(947, 431_970);
        b.start();
        b.deliver(b.header, 13, &dsm, first);
    }
    // All leaves with their four nodes; those that are not above the start's key are refused unless it is the same.
    for leaf in 0..15 {
        b.now = Gst::new(947, 431_970);
        b.start();
        let dsm = b.tree.pkr(leaf);
        b.deliver(
            b.header,
            13,
            &dsm,
            if leaf < usize::from(START_KEY) { 9 } else { 0 },
        );
        b.deliver(
            b.header,
            12,
            &dsm,
            if leaf < usize::from(START_KEY) { 9 } else { 0 },
        );
    }
    b.run
}
