//! Sub-frames of which pages are lost (02, P3).

use super::bench::*;
use super::parameters;
use crate::bits;
use crate::chain::{Chain, Params, AES_KEYS};
use crate::dsm;
use crate::mack::{Info, Layout, Marks, FLEXIBLE};
use crate::replay::Run;
use crate::subframe::{self, all_came, came, without, Mack, Received};
use std::ops::Range;
use std::rc::Rc;

/// Which tags of a section have outcome 8.
fn lost(layout: &Layout, list: &Marks, marks: Received) -> Vec<bool> {
    let whole = |mut bits: Range<usize>| bits.all(|bit| came(marks, bit / 32));
    let info = |n: usize| whole(layout.prn(n).start..layout.iod(n).end);
    let flexible = |n: usize| n > 0 && list[n] == FLEXIBLE;
    let macseq = whole(layout.macseq()) && (0..layout.fields()).all(|n| !flexible(n) || info(n));
    let judged = |n: usize| {
        let own = if flexible(n) {
            macseq
        } else {
            n == 0 || info(n)
        };
        whole(layout.key(layout.position(n).0)) && whole(layout.tag(n)) && own
    };
    (0..layout.fields()).map(|n| !judged(n)).collect()
}

/// The present sub-frame of a satellite with this section and these marks. `second` is what the MACK half answers if
/// its first page came, `outcomes` what the tags have that are not lost; `due` those of tags that waited.
fn send(
    b: &mut Bench,
    prn: u8,
    mack: &Mack,
    marks: Received,
    second: u8,
    due: &[u8],
    outcomes: &[u8],
) {
    let field = subframe::join(&b.idle(), mack);
    b.subframe_marked(prn, marks, &field);
    let second = if came(marks, 0) { second } else { 17 };
    b.run.gives(if all_came(marks) { 0 } else { 17 }, second);
    let mut all = Vec::new();
    if second == 0 {
        let lost = lost(&b.layout(), b.marks_at(b.now), marks);
        let own = lost
            .iter()
            .zip(outcomes)
            .map(|(&lost, &outcome)| if lost { 8 } else { outcome });
        all = due.iter().copied().chain(own).collect();
    }
    b.run.outcomes(&all);
}

/// What the tags of a section have that all agree, as far as they are not lost.
fn agreeing(b: &mut Bench, infos: &[Info], marks: Received) -> Vec<u8> {
    if !came(marks, 0) {
        return Vec::new();
    }
    let lost = lost(&b.layout(), b.marks_at(b.now), marks);
    let each = infos.iter().zip(lost);
    each.map(|(info, lost)| if lost { 8 } else { b.agrees(info.prn) })
        .collect()
}

/// The first list fixed to ADKD 0, the second flexible but for its first.
fn both_lists(b: &mut Bench) {
    let mut flexible = [FLEXIBLE; 14];
    flexible[0] = 0;
    b.start.marks = [[0; 14], flexible];
}

/// Each page lost in turn, then two neighbours, with fixed fields and with flexible ones.
fn walk(b: &mut Bench, chain: &Rc<Chain>) {
    parameters::fresh(b, chain);
    let fields = b.layout().fields();
    let infos: Vec<Info> = (0..fields)
        .map(|n| Info::new(n as u8 % 2 + 1, 0, n as u8))
        .collect();
    let marks = (0..15).map(|page| without(&[page]));
    let pairs = (1..14).step_by(4).map(|page| without(&[page, page + 1]));
    for marks in marks.chain(pairs) {
        // One sub-frame at second 0, one at second 30; the sixteenth mark is any.
        for _ in 0..2 {
            let mack = b.section_of(1, b.now, &infos);
            let any = b.rng.below(2) as Received;
            let told = agreeing(b, &infos, marks);
            send(b, 1, &mack, marks | any, 0, &[], &told);
            b.step();
        }
    }
}

fn walks(name: &str, about: &str, seed: u64, nmack: u8) -> Run {
    let mut b = Bench::new(name, about, seed);
    both_lists(&mut b);
    b.start.ns = 5;
    for ks in 0..9 {
        for ms in 0..10 {
            let mf = u8::from(AES_KEYS.contains(&ks) && ms % 2 == 1);
            let params = Params {
                nmack,
                mf,
                ks,
                ms,
                ..b.params(ms % 4)
            };
            if Layout::new(&params).is_some() {
                let chain = b.chain(params, 50);
                walk(&mut b, &chain);
            }
        }
    }
    b.run.expects.some = vec![1, 8];
    b.run.expects.never = vec![2, 3, 4, 5, 6, 7];
    b.run
}

pub fn fields_1(name: &str, about: &str, seed: u64) -> Run {
    walks(name, about, seed, 1)
}

pub fn fields_2(name: &str, about: &str, seed: u64) -> Run {
    walks(name, about, seed, 2)
}

pub fn fields_3(name: &str, about: &str, seed: u64) -> Run {
    walks(name, about, seed, 3)
}

/// A page that has bits of a block's key and of nothing else.
fn within_key(layout: &Layout, block: u8) -> usize {
    layout.key(block).start.div_ceil(32)
}

/// KS 96, MS 40, NMACK 2: two fields a block, 32 spare bits that begin in the middle of a page.
fn spare_params(b: &mut Bench) -> Params {
    Params {
        ks: 0,
        ms: 9,
        ..b.params(0)
    }
}

/// Sections whose keys are lost, one or both.
pub fn keys(name: &str, about: &str, seed: u64) -> Run {
    let mut b = Bench::new(name, about, seed);
    b.start.marks = [marks(&[0, 12, 0, 11]); 2];
    b.start.ns = 7;
    let params = spare_params(&mut b);
    let chain = b.chain(params, 220);
    parameters::fresh(&mut b, &chain);
    let layout = b.layout();
    let (one, two) = (within_key(&layout, 1), within_key(&layout, 2));
    // A slow tag in each block.
    let slow = [
        Info::new(1, 0, 0),
        Info::new(2, 12, 0),
        Info::new(2, 0, 0),
        Info::new(1, 11, 0),
    ];
    let right = [1, 5, 1, 5];
    let section = |b: &Bench| b.section_of(1, b.now, &slow);
    // Both keys lost: nothing falls due, nothing waits, and the held key stays.
    let mack = section(&b);
    send(&mut b, 1, &mack, without(&[one, two]), 0, &[], &right);
    b.step();
    // Block 2's key alone comes: its slow tag waits.
    let mack = section(&b);
    send(&mut b, 1, &mack, without(&[one]), 0, &[], &right);
    b.step();
    // No key comes, then block 1's alone: the slot of block 2's waiting tag is not reached; then both.
    let mack = section(&b);
    send(&mut b, 1, &mack, without(&[one, two]), 0, &[], &right);
    let mack = b.section_of(2, b.now, &slow);
    send(&mut b, 2, &mack, without(&[two]), 0, &[], &right);
    b.step();
    let mack = section(&b);
    send(&mut b, 1, &mack, subframe::ALL_CAME, 0, &[1], &right);
    // The held key is of this sub-frame already: tags of a block whose key is lost are 8 all the same.
    let mack = b.section_of(2, b.now, &slow);
    send(&mut b, 2, &mack, without(&[two]), 0, &[], &right);
    b.step();
    // Damaged keys: one that is lost is not checked, one that came is.
    for (damaged, lost, second) in [
        (1, vec![one], 0),
        (1, vec![two], 12),
        (2, vec![two], 0),
        (2, vec![one], 12),
        (2, vec![one, two], 0),
    ] {
        parameters::fresh(&mut b, &chain);
        let mut mack = section(&b);
        bits::flip(&mut mack, layout.key(damaged).start);
        send(&mut b, 1, &mack, without(&lost), second, &[], &right);
    }
    b.step();
    // Spare bits of both blocks: those that came are judged, with the key and without it.
    for block in 1..=2 {
        for bit in layout.spare(block) {
            for lost in [
                vec![bit / 32],
                vec![within_key(&layout, block)],
                vec![bit / 32, within_key(&layout, block)],
            ] {
                let mut mack = section(&b);
                bits::flip(&mut mack, bit);
                let second = if lost.contains(&(bit / 32)) { 0 } else { 12 };
                send_any(&mut b, &mack, without(&lost), second);
            }
        }
    }
    far_keys(&mut b);
    b.run
}

/// The present section, of which only the answers are stated: slow tags fall due by and by.
fn send_any(b: &mut Bench, mack: &Mack, marks: Received, second: u8) {
    let field = subframe::join(&b.idle(), mack);
    b.subframe_marked(1, marks, &field);
    b.run.gives(17, second);
    b.step();
}

/// Keys that lie 1,000,000 slots and more past the root: only those that came are too far.
fn far_keys(b: &mut Bench) {
    b.start.ns = 36;
    let params = spare_params(b);
    let chain = b.chain(params, 20);
    let layout = Layout::new(&params).expect("it fits");
    let (one, two) = (within_key(&layout, 1), within_key(&layout, 2));
    // 72 slots a sub-frame: the first key that is too far is in block 2 of sub-frame 13,888. Any bytes are no key.
    for (subframe, lost, second) in [
        (13_888, vec![one], 13),
        (13_888, vec![two], 12),
        (13_888, vec![one, two], 0),
        (13_889, vec![one], 13),
        (13_890, vec![two], 13),
        (13_891, vec![one, two], 0),
    ] {
        parameters::fresh(b, &chain);
        b.now = chain.start().plus(subframe);
        let mut mack: Mack = b.rng.array();
        for block in 1..=2 {
            layout
                .spare(block)
                .for_each(|bit| bits::put(&mut mack, bit, 1, 0));
        }
        // PRN 36 has the highest slot of a block.
        let field = subframe::join(&b.idle(), &mack);
        b.subframe_marked(36, without(&lost), &field);
        b.run.gives(17, second);
    }
}

/// Tags, MAC-Info and MACSEQ lost where the tags would have other outcomes too.
pub fn parts(name: &str, about: &str, seed: u64) -> Run {
    let mut b = Bench::new(name, about, seed);
    let list = marks(&[0, FLEXIBLE, 0, FLEXIBLE, 12, FLEXIBLE]);
    b.start.marks = [list; 2];
    b.start.ns = 3;
    for (nmack, ks, ms) in [
        (1, 4, 9),
        (1, 0, 3),
        (2, 0, 4),
        (2, 4, 6),
        (3, 0, 1),
        (1, 6, 5),
    ] {
        let params = Params {
            nmack,
            ks,
            ms,
            ..b.params(0)
        };
        let chain = b.chain(params, 200);
        parameters::fresh(&mut b, &chain);
        let layout = b.layout();
        // Not allowed, no set, wrong tag, MACSEQ wrong.
        let other = [(200, 0, 4), (30, 0, 3), (2, 7, 4)];
        for page in 1..15 {
            let marks = without(&[page]);
            for (damage, kind) in [
                (None, 0),
                (None, 1),
                (None, 2),
                (Some(layout.macseq().start), 3),
            ] {
                let of = |n: usize| match (list[n], kind) {
                    (12, _) => (1, 12, 5),
                    (_, 3) if n > 0 && list[n] == FLEXIBLE => (2, 0, 6),
                    (_, 0..=2) if n > 0 => other[(n + kind) % 3],
                    _ => (1, 0, 1),
                };
                let infos: Vec<Info> = (0..layout.fields())
                    .map(|n| Info::new(of(n).0, of(n).1, page as u8))
                    .collect();
                let mut mack = b.section_of(1, b.now, &infos);
                if let Some(bit) = damage {
                    bits::flip(&mut mack, bit);
                }
                // Slow tags fall due by and by: only the answers are stated.
                let field = subframe::join(&b.idle(), &mack);
                b.subframe_marked(1, marks, &field);
                b.run.gives(17, 0);
                b.step();
            }
        }
    }
    b.run.expects.some = vec![1, 3, 4, 5, 6, 8];
    b.run.expects.never = vec![2, 7];
    b.run
}

/// Messages of which blocks lose bytes: nothing is stored of them; zeros where pages are lost.
pub fn blocks(name: &str, about: &str, seed: u64) -> Run {
    let mut b = Bench::new(name, about, seed);
    b.start();
    let params = b.params(0);
    let chain = b.chain(params, 60);
    let root = b.root(b.header, &chain);
    let count = dsm::blocks(&root.dsm);
    // Every block has lost one page, another for each; the message does not get whole.
    for round in 0..2 {
        for block in 0..count {
            let hkroot = dsm::hkroot(b.header, 3, &root.dsm, block);
            let page = (block * 2 + round) % 15;
            let field = subframe::join(&hkroot, &[0xC3; 60]);
            b.subframe_marked(block as u8 + 1, without(&[page]), &field);
            b.run.gives(17, if page == 0 { 17 } else { 11 });
        }
        b.step();
        b.verdict(&root.verdict, 14);
    }
    // All but the last whole; the last one loses each of its bytes in turn, under a header and bytes that would drop
    // the others. Then it comes whole.
    for block in 0..count {
        let hkroot = dsm::hkroot(b.header, 3, &root.dsm, block);
        let field = subframe::join(&hkroot, &[0xC3; 60]);
        if block + 1 < count {
            b.subframe_marked(block as u8 + 1, subframe::ALL_CAME, &field);
            b.run.gives(0, 11);
            continue;
        }
        for page in 0..15 {
            let mut other = hkroot;
            other[0] ^= 2;
            other[1] = other[1] & 0xF0 | (page % count) as u8;
            let field = subframe::join(&other, &[0xC3; 60]);
            b.subframe_marked(20 + page as u8, without(&[page]), &field);
            b.run.gives(17, if page == 0 { 17 } else { 11 });
        }
        b.verdict(&root.verdict, 14);
        b.subframe_marked(36, subframe::ALL_CAME | 1, &field);
        b.run.gives(0, 11);
    }
    b.step();
    b.verdict(&root.verdict, 0);
    zeros(&mut b);
    // An emergency message stops the receiver once its last block is whole.
    let emergency = b.tree.pkr(15);
    let last = dsm::blocks(&emergency) - 1;
    for block in 0..=last {
        let field = subframe::join(&dsm::hkroot(b.header, 12, &emergency, block), &[0xC3; 60]);
        if block == last {
            b.subframe_marked(34, without(&[14]), &field);
            b.run.gives(17, 12);
            b.subframe_marked(35, subframe::ALL_CAME, &field);
            b.run.gives(0, 4);
        } else {
            b.subframe_marked(block as u8 + 1, subframe::ALL_CAME, &field);
            b.run.gives(0, 12);
        }
    }
    b.subframe_marked(36, without(&[0]), &[7; 75]);
    b.run.gives(4, 4);
    b.run
}

/// Number 5 by the pages that came.
fn zeros(b: &mut Bench) {
    for page in 0..15 {
        let mut field = [0; 75];
        field[5 * page + 2] = 1;
        for (marks, answers) in [
            (without(&[page]), (5, 5)),
            (0x8000 >> page, if page == 0 { (17, 11) } else { (17, 17) }),
            (0, (17, 17)),
            (1, (17, 17)),
        ] {
            b.subframe_marked(1, marks, &field);
            b.run.gives(answers.0, answers.1);
            b.subframe_marked(1, subframe::ALL_CAME, &field);
            b.run.gives(3, 3);
            b.step();
        }
    }
    b.subframe_marked(37, without(&[0]), &[0; 75]);
    b.run.gives(2, 2);
}
