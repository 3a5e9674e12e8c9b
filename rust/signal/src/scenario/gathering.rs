//! The rules by which DSM blocks are gathered and dropped (01, HKROOT). Whether a message became complete shows by the
//! verdict after it: 0 if it waits, 14 if nothing does.

use super::bench::*;
use crate::bits;
use crate::dsm;
use crate::replay::Run;
use crate::time::Gst;

/// The DSM ID of the messages.
const ID: u8 = 6;

struct Gathering {
    b: Bench,
    root: Root,
}

impl Gathering {
    fn new(name: &str, about: &str, seed: u64) -> Self {
        let mut b = Bench::new(name, about, seed);
        // The root lies in the last hour, so that every section comes before its sub-frame 0.
        let params = b.params(0);
        let chain = b.chain_at(params, 4095, 167, 2);
        let root = b.root(b.header, &chain);
        Gathering { b, root }
    }

    /// A case: a good start, time begins anew.
    fn case(&mut self) {
        self.case_at(Gst::new(947, 400_020));
    }

    fn case_at(&mut self, gst: Gst) {
        self.b.now = gst;
        self.b.start();
    }

    /// A block of the message from the next satellite in the next half minute.
    fn block(&mut self, block: usize) {
        let hkroot = dsm::hkroot(self.root.header, ID, &self.root.dsm, block);
        self.send(hkroot, 0);
    }

    fn blocks(&mut self, blocks: std::ops::RangeInclusive<usize>) {
        blocks.for_each(|n| self.block(n));
    }

    fn send(&mut self, hkroot: [u8; 15], first: u8) {
        self.b.send_hkroot(11, &hkroot, first);
        self.b.step();
    }

    /// A block with other bytes, header or IDs.
    fn odd(&mut self, block: usize, change: impl Fn(&mut [u8; 15]), first: u8) {
        let mut hkroot = dsm::hkroot(self.root.header, ID, &self.root.dsm, block);
        change(&mut hkroot);
        self.send(hkroot, first);
    }

    /// The verdict: the message waits, or it does not.
    fn complete(&mut self, waits: bool) {
        let verdict = self.root.verdict.clone();
        self.b.verdict(&verdict, if waits { 0 } else { 14 });
    }
}

pub fn drops(name: &str, about: &str, seed: u64) -> Run {
    let mut g = Gathering::new(name, about, seed);
    // Any order, any repeats with equal bytes.
    g.case();
    for n in [7, 3, 3, 0, 1, 0, 6, 2, 5, 7] {
        g.block(n);
    }
    g.complete(false);
    g.block(4);
    g.complete(true);
    // A complete message is taken out: its blocks do not serve again.
    g.blocks(1..=7);
    g.complete(false);

    // The oldest block is 3,600 s old: it stays. 30 s more: all go, and the block that came is stored.
    // The same across the end of a week and in the last week.
    for (week, second) in [
        (947, 400_020),
        (947, 604_770),
        (947, 603_000),
        (4095, 590_010),
    ] {
        for (late, waits) in [(120, true), (121, false)] {
            g.case_at(Gst::new(week, second));
            let begin = g.b.now;
            g.blocks(0..=6);
            g.b.now = begin.plus(late);
            g.block(7);
            g.complete(waits);
            g.blocks(0..=6);
            g.complete(!waits);
        }
    }

    // A block repeated with equal bytes keeps its first time, also where the repeat comes when it is too old.
    g.case();
    let begin = g.b.now;
    g.blocks(0..=6);
    g.b.now = begin.plus(100);
    g.block(0);
    g.b.now = begin.plus(121);
    g.block(7);
    g.complete(false);
    g.case();
    let begin = g.b.now;
    g.blocks(0..=6);
    g.b.now = begin.plus(121);
    g.block(3);
    g.block(7);
    g.complete(false);
    g.blocks(0..=2);
    g.blocks(4..=6);
    g.complete(true);

    // The age of the oldest block counts, not that of the first block ID.
    g.case();
    let begin = g.b.now;
    g.block(5);
    g.b.now = begin.plus(110);
    g.blocks(0..=4);
    g.block(6);
    g.b.now = begin.plus(121);
    g.block(7);
    g.complete(false);
    g.block(5);
    g.complete(false);

    // Each bit of the NMA header: another header drops what was stored.
    for bit in 0..8 {
        g.case();
        g.blocks(0..=6);
        g.odd(7, |h| bits::flip(h, bit), 0);
        g.block(7);
        g.complete(false);
        g.blocks(0..=6);
        g.complete(true);
    }

    // Each byte of a block: the same ID with other bytes drops all, and the newer block is stored.
    for byte in 2..15 {
        g.case();
        g.blocks(0..=6);
        g.odd(5, |h| h[byte] ^= 1, 0);
        g.block(7);
        g.complete(false);
        g.block(5);
        g.block(7);
        g.complete(false);
        g.blocks(0..=4);
        g.block(6);
        g.complete(true);
    }
    g.b.run
}

pub fn counts(name: &str, about: &str, seed: u64) -> Run {
    let mut g = Gathering::new(name, about, seed);
    // A reserved NB drops only its block, whatever else would drop the others: other bytes, another header, age.
    for nb in [0, 11, 12, 13, 14, 15] {
        g.case();
        g.blocks(1..=7);
        g.odd(0, |h| h[2] = nb << 4 | h[2] & 15, 6);
        g.odd(0, |h| (h[0], h[2]) = (h[0] ^ 2, nb << 4), 6);
        g.block(0);
        g.complete(true);
        g.case();
        let begin = g.b.now;
        g.blocks(0..=6);
        g.b.now = begin.plus(120);
        g.odd(0, |h| h[2] = nb << 4 | h[2] & 15, 6);
        g.b.now = begin.plus(120);
        g.b.send_hkroot(
            12,
            &dsm::hkroot(g.root.header, ID, &g.root.dsm.clone(), 7),
            0,
        );
        g.complete(true);
        g.case();
        let begin = g.b.now;
        g.blocks(0..=6);
        g.b.now = begin.plus(130);
        g.odd(0, |h| h[2] = nb << 4 | h[2] & 15, 6);
        g.block(7);
        g.complete(false);
    }

    // With block 0 held, a block ID at or above its count is too high and leaves the others.
    for id in 8..16 {
        g.case();
        g.blocks(0..=6);
        g.odd(1, |h| h[1] = ID << 4 | id, 6);
        g.block(7);
        g.complete(true);
        // Without block 0 no ID is too high; block 0 then drops those that are not below its count.
        g.case();
        g.blocks(1..=7);
        g.odd(1, |h| h[1] = ID << 4 | id, 0);
        g.block(0);
        g.complete(false);
        g.blocks(1..=7);
        g.complete(true);
    }
    // The drops go first: with another header, or too old, the block is alone and not too high.
    g.case();
    g.blocks(0..=6);
    g.odd(1, |h| (h[0], h[1]) = (h[0] ^ 4, ID << 4 | 15), 0);
    g.block(7);
    g.complete(false);
    g.case();
    let begin = g.b.now;
    g.blocks(0..=6);
    g.b.now = begin.plus(121);
    g.odd(1, |h| h[1] = ID << 4 | 15, 0);
    g.block(7);
    g.complete(false);
    g.block(0);
    g.blocks(1..=7);
    g.complete(true);

    // Another block 0 with a greater or lesser count: other bytes drop all, and the count is the newer one's.
    for (nb, last) in [(1u8, 6usize), (3, 8), (10, 15)] {
        g.case();
        g.blocks(0..=6);
        g.odd(0, |h| h[2] = nb << 4 | h[2] & 15, 0);
        g.odd(1, |h| h[1] = ID << 4 | (last as u8), 0);
        if last < 15 {
            g.odd(1, |h| h[1] = ID << 4 | (last as u8 + 1), 6);
        }
        g.complete(false);
    }
    // Block 15 of 16, block 0 last: NB 10 is above it, and the sixteenth block completes. Its size is wrong.
    g.case();
    for id in 1..16 {
        g.odd(1, |h| h[1] = ID << 4 | id, 0);
    }
    g.odd(0, |h| h[2] = 10 << 4 | h[2] & 15, 6);
    g.complete(false);
    // It was taken out.
    g.blocks(0..=7);
    g.complete(true);
    g.b.run
}

pub fn identities(name: &str, about: &str, seed: u64) -> Run {
    let mut g = Gathering::new(name, about, seed);
    // Sixteen IDs are gathered side by side; the last block of each in turn completes it. A newer message replaces
    // the one that waits.
    g.case();
    let roots: Vec<Root> = (0..12)
        .map(|_| {
            let params = g.b.params(0);
            let chain = g.b.chain(params, 1);
            g.b.root(g.root.header, &chain)
        })
        .collect();
    let messages: Vec<Vec<u8>> = roots
        .iter()
        .map(|r| r.dsm.clone())
        .chain((5..9).map(|leaf| g.b.tree.pkr(leaf)))
        .collect();
    let most = messages.iter().map(|m| dsm::blocks(m)).max().unwrap_or(0);
    for block in (0..most).rev() {
        for (id, dsm) in messages
            .iter()
            .enumerate()
            .filter(|(_, m)| block < dsm::blocks(m))
        {
            // One half minute for each block ID, one satellite for each DSM ID.
            g.b.send_hkroot(
                id as u8 + 1,
                &dsm::hkroot(g.root.header, id as u8, dsm, block),
                0,
            );
            if block == 0 && id > 0 && id < 12 {
                g.b.verdict(&roots[id - 1].verdict, 14);
            }
        }
        g.b.step();
    }
    g.b.verdict(&roots[11].verdict, 0);
    g.b.verdict(&roots[11].verdict, 14);

    // Blocks come from all satellites, at the same time or later.
    g.case();
    for (prn, block) in (20..28).zip([3, 1, 7, 0, 2, 6, 5, 4]) {
        let hkroot = dsm::hkroot(g.root.header, ID, &g.root.dsm, block);
        g.b.send_hkroot(prn, &hkroot, 0);
    }
    g.complete(true);
    // A refused message leaves the one that waits; an equal one replaces it.
    g.b.step();
    g.case();
    g.blocks(0..=7);
    let mut wrong = g.root.dsm.clone();
    // The reserved HF.
    wrong[1] |= 12;
    for block in 0..8 {
        g.send(
            dsm::hkroot(g.root.header, 1, &wrong, block),
            if block == 7 { 8 } else { 0 },
        );
    }
    g.blocks(0..=7);
    g.complete(true);
    g.complete(false);

    // A sub-frame whose MACK half is refused still brings its block; one that is refused whole does not.
    g.case();
    g.blocks(0..=6);
    g.b.now = g.b.now.plus(-1);
    let field = crate::subframe::join(&dsm::hkroot(g.root.header, ID, &g.root.dsm, 7), &[0; 60]);
    g.b.run.push(crate::replay::subframe(11, g.b.now, &field));
    g.b.run.gives(3, 3);
    g.complete(false);
    g.b.step();
    g.block(7);
    g.complete(true);
    g.b.run
}
