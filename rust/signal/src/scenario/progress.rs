//! How far along each message is (02, P9). Each step says of its block whether it is held, alone or beside those before it,
//! and whether it completes its message; what is then held and missing is counted over all block IDs.

use super::bench::*;
use crate::dsm;
use crate::replay::{self, Run};
use crate::subframe::{self, Hkroot};
use crate::time::Gst;

/// The DSM ID of most messages.
const ID: u8 = 6;

/// What a block does to the blocks held of its DSM ID.
#[derive(Clone, Copy, PartialEq)]
enum Does {
    /// It is held beside them, or is one of them already.
    Joins,
    /// They go, and it is held alone.
    Replaces,
    /// It completes them, and all go.
    Completes,
    /// It is not held.
    Fails,
}

use Does::*;

struct Gathering {
    b: Bench,
    root: Root,
    /// The blocks held, by DSM ID and block ID; of a block 0 the number of blocks that it names.
    held: [[Option<u8>; 16]; 16],
    /// The satellite that sends next.
    prn: u8,
}

impl Gathering {
    /// A start, and a root of eight blocks.
    fn new(name: &str, about: &str, seed: u64) -> Gathering {
        let mut b = Bench::new(name, about, seed);
        let params = b.params(0);
        // The chain begins in the last hour: no section is judged.
        let chain = b.chain_at(params, 4095, 167, 2);
        let root = b.root(b.header, &chain);
        assert_eq!(dsm::blocks(&root.dsm), 8);
        let mut g = Gathering {
            b,
            root,
            held: [[None; 16]; 16],
            prn: 1,
        };
        g.start();
        g
    }

    fn start(&mut self) {
        self.b.start();
        self.held = [[None; 16]; 16];
        self.states();
    }

    /// States what is held and missing of each DSM ID: of the block IDs that block 0 names, those that are not there.
    fn states(&mut self) {
        let progress = self.held.map(|blocks| {
            let held = blocks.iter().flatten().count() as u8;
            let missing = |count: u8| blocks[..usize::from(count)].iter().filter(|b| b.is_none());
            (held, blocks[0].map(|count| missing(count).count() as u8))
        });
        self.b.run.progress(progress);
    }

    /// What was stated last of a DSM ID.
    fn says(&self, id: u8, held: u8, missing: Option<u8>) {
        let (_, progress) = self.b.run.expects.progress.last().expect("a statement");
        let name = &self.b.run.name;
        assert_eq!(progress[usize::from(id)], (held, missing), "{name}");
    }

    /// The next satellite; with the last one a new half minute begins.
    fn next(&mut self) -> u8 {
        let prn = self.prn;
        self.prn = prn % 36 + 1;
        if self.prn == 1 {
            self.b.step();
        }
        prn
    }

    /// Goes on by so many half minutes.
    fn later(&mut self, subframes: i64) {
        self.b.now = self.b.now.plus(subframes);
        self.prn = 1;
    }

    /// Notes what a block does, and states what is held then.
    fn note(&mut self, hkroot: &Hkroot, does: Does) {
        let (id, block) = (usize::from(hkroot[1] >> 4), usize::from(hkroot[1] & 15));
        if matches!(does, Replaces | Completes) {
            self.held[id] = [None; 16];
        }
        if matches!(does, Joins | Replaces) {
            self.held[id][block] = Some((hkroot[2] >> 4) + 6);
        }
        self.states();
    }

    /// A block that is answered with this number.
    fn send(&mut self, hkroot: Hkroot, does: Does, number: u8) {
        let prn = self.next();
        self.b.send_hkroot(prn, &hkroot, number);
        self.note(&hkroot, does);
    }

    /// A block of the root.
    fn block(&mut self, block: usize, does: Does) {
        self.odd(block, |_| {}, does, 0);
    }

    fn blocks(&mut self, blocks: impl IntoIterator<Item = usize>) {
        blocks.into_iter().for_each(|n| self.block(n, Joins));
    }

    /// A block of the root with other bytes, header or IDs.
    fn odd(&mut self, block: usize, change: impl Fn(&mut Hkroot), does: Does, number: u8) {
        let mut hkroot = dsm::hkroot(self.root.header, ID, &self.root.dsm, block);
        change(&mut hkroot);
        self.send(hkroot, does, number);
    }

    /// Blocks of a message under another ID.
    fn part(&mut self, id: u8, dsm: &[u8], blocks: impl IntoIterator<Item = usize>, does: Does) {
        for block in blocks {
            self.send(dsm::hkroot(self.root.header, id, dsm, block), does, 0);
        }
    }
}

pub fn cold_start(name: &str, about: &str, seed: u64) -> Run {
    let mut g = Gathering::new(name, about, seed);
    // Block 0 last but one, with repeats: the total is unknown until it comes.
    for (n, held) in [
        (7, 1),
        (3, 2),
        (3, 2),
        (1, 3),
        (6, 4),
        (7, 4),
        (2, 5),
        (5, 6),
    ] {
        g.block(n, Joins);
        g.says(ID, held, None);
    }
    g.block(0, Joins);
    g.says(ID, 7, Some(1));
    g.block(0, Joins);
    g.block(4, Completes);
    g.says(ID, 0, None);
    let verdict = g.root.verdict.clone();
    g.b.verdict(&verdict, 0);
    g.states();
    // Its repeats begin anew, block 0 first.
    for (n, missing) in [(0, 7), (0, 7), (2, 6), (1, 5), (1, 5)] {
        g.block(n, Joins);
        g.says(ID, 8 - missing, Some(missing));
    }
    // Seven without block 0, which completes them.
    g.start();
    g.blocks(1..8);
    g.says(ID, 7, None);
    g.block(0, Completes);
    g.says(ID, 0, None);
    // A message that is refused when complete was taken out too.
    g.start();
    let mut wrong = g.root.dsm.clone();
    wrong[1] |= 12;
    g.part(1, &wrong, 0..7, Joins);
    g.says(1, 7, Some(1));
    g.send(dsm::hkroot(g.root.header, 1, &wrong, 7), Completes, 8);
    g.says(1, 0, None);
    // Sixteen blocks are too many for this root.
    for id in 1..16 {
        g.odd(1, |h| h[1] = ID << 4 | id, Joins, 0);
    }
    g.says(ID, 15, None);
    g.odd(0, |h| h[2] = 0xA0 | h[2] & 15, Completes, 6);
    g.says(ID, 0, None);
    // Every count that NB can name.
    for nb in 1..=10 {
        g.start();
        g.odd(0, |h| h[2] = nb << 4 | h[2] & 15, Joins, 0);
        g.says(ID, 1, Some(nb + 5));
        for id in (2..nb + 6).rev() {
            g.odd(1, |h| h[1] = ID << 4 | id, Joins, 0);
        }
        g.says(ID, nb + 5, Some(1));
    }
    g.b.run
}

pub fn identities(name: &str, about: &str, seed: u64) -> Run {
    let mut g = Gathering::new(name, about, seed);
    let root = g.root.dsm.clone();
    let keys: Vec<Vec<u8>> = [5, 9, 13].map(|leaf| g.b.tree.pkr(leaf)).to_vec();
    // Two at once, a root and a public key, block by block.
    g.part(3, &root, [2], Joins);
    g.part(12, &keys[0], [0], Joins);
    g.says(3, 1, None);
    g.says(12, 1, Some(12));
    g.part(3, &root, [0, 5, 7], Joins);
    g.part(12, &keys[0], [12, 6], Joins);
    g.says(3, 4, Some(4));
    g.says(12, 3, Some(10));
    // The same message under other IDs is another one.
    g.part(4, &root, [0], Joins);
    g.part(2, &root, [1], Joins);
    g.part(15, &keys[2], [15, 0, 1], Joins);
    g.part(14, &keys[1], [1, 3], Joins);
    for (id, held, missing) in [
        (2, 1, None),
        (3, 4, Some(4)),
        (4, 1, Some(7)),
        (12, 3, Some(10)),
        (14, 2, None),
        (15, 3, Some(13)),
    ] {
        g.says(id, held, missing);
    }
    // The key is complete and taken out, the others stay; then the next message under its ID begins.
    g.part(12, &keys[0], (1..12).filter(|n| *n != 6 && *n != 3), Joins);
    g.says(12, 12, Some(1));
    g.part(12, &keys[0], [3], Completes);
    g.says(12, 0, None);
    g.says(3, 4, Some(4));
    g.part(12, &keys[1], [13], Joins);
    g.says(12, 1, None);
    // Each ID in turn, with a count of its own.
    g.start();
    for id in 0..16u8 {
        let mut hkroot = dsm::hkroot(g.root.header, id, &root, 0);
        hkroot[2] = (id % 10 + 1) << 4 | hkroot[2] & 15;
        if id % 4 != 1 {
            g.send(hkroot, Joins, 0);
            g.says(id, 1, Some(id % 10 + 6));
        }
        g.part(id, &root, 1..1 + usize::from(id % 5), Joins);
    }
    g.says(4, 5, Some(6));
    g.says(13, 3, None);
    g.b.run
}

pub fn drops(name: &str, about: &str, seed: u64) -> Run {
    let mut g = Gathering::new(name, about, seed);
    let begin = |g: &mut Gathering| {
        g.start();
        g.blocks(0..=4);
        g.says(ID, 5, Some(3));
    };
    // Another header; then the first one again.
    begin(&mut g);
    g.odd(5, |h| h[0] ^= 2, Replaces, 0);
    g.says(ID, 1, None);
    g.block(5, Replaces);
    g.block(0, Joins);
    g.says(ID, 2, Some(6));
    // The same block ID with other bytes.
    begin(&mut g);
    g.odd(3, |h| h[14] ^= 1, Replaces, 0);
    g.says(ID, 1, None);
    // Another block 0.
    begin(&mut g);
    g.odd(0, |h| h[14] ^= 1, Replaces, 0);
    g.says(ID, 1, Some(7));
    g.odd(0, |h| h[2] = 0x90 | h[2] & 15, Replaces, 0);
    g.says(ID, 1, Some(14));
    // A block 0 whose count is not above a stored ID; one whose count is.
    for (nb, does, held, missing) in [(1, Replaces, 1, 6), (2, Completes, 0, 0), (3, Joins, 8, 1)] {
        g.start();
        g.blocks(1..=7);
        let number = if does == Completes { 8 } else { 0 };
        // The reserved HF of the complete one is refused.
        g.odd(
            0,
            |h| (h[2], h[3]) = (nb << 4 | h[2] & 15, h[3] | 12),
            does,
            number,
        );
        g.says(ID, held, (does != Completes).then_some(missing));
    }
    // 3,600 s old; 30 s more, seen by other sub-frames, blocks of other IDs, and refused ones of this ID; then the next
    // block comes.
    for late in [120, 121, 4_000] {
        g.start();
        g.later(1);
        g.blocks(0..=4);
        g.later(late);
        let prn = g.next();
        g.b.run.push(replay::subframe(prn, g.b.now, &[0; 75]));
        g.b.run.gives(5, 5);
        g.states();
        g.odd(1, |h| h[1] = 0x51, Joins, 0);
        g.odd(0, |h| h[2] = 0xF0, Fails, 6);
        g.says(ID, 5, Some(3));
        g.says(5, 1, None);
        let (does, held, missing) = match late {
            120 => (Joins, 6, Some(2)),
            _ => (Replaces, 2, None),
        };
        g.block(4, does);
        g.block(5, Joins);
        g.says(ID, held, missing);
    }
    g.b.run
}

pub fn refused(name: &str, about: &str, seed: u64) -> Run {
    let mut g = Gathering::new(name, about, seed);
    // A reserved NB: nothing held, blocks without block 0, and block 0.
    for round in 0..3 {
        for nb in [0, 11, 12, 13, 14, 15] {
            g.odd(0, |h| h[2] = nb << 4 | h[2] & 15, Fails, 6);
        }
        let want = [(0, None), (2, None), (3, Some(5))][round];
        g.says(ID, want.0, want.1);
        g.blocks([vec![1, 2], vec![0], vec![]][round].clone());
    }
    // Too high for the block 0 held.
    for id in 8..16 {
        g.odd(3, |h| h[1] = ID << 4 | id, Fails, 6);
        g.says(ID, 3, Some(5));
    }
    // A field did not come, whichever; the lowest bit of the marks is not read.
    let hkroot = dsm::hkroot(g.root.header, ID, &g.root.dsm, 3);
    let field = subframe::join(&hkroot, &[0xC3; 60]);
    for lost in 0..16 {
        let prn = g.next();
        g.b.subframe_marked(prn, !(0x8000 >> lost), &field);
        let (does, first, second) = match lost {
            0 => (Fails, 17, 17),
            15 => (Joins, 0, 11),
            _ => (Fails, 17, 11),
        };
        g.b.run.gives(first, second);
        g.note(&hkroot, does);
        let held = if does == Joins { 4 } else { 3 };
        g.says(ID, held, Some(8 - held));
    }
    // Sub-frames that are refused whole, words and verdicts.
    let field = subframe::join(&dsm::hkroot(g.root.header, ID, &g.root.dsm, 4), &[0xC3; 60]);
    g.later(1);
    g.block(3, Joins);
    for (prn, time, number) in [
        (37, g.b.now, 2),
        (2, Gst(g.b.now.0 + 1), 2),
        (1, g.b.now, 3),
        (2, g.b.now.plus(-1), 3),
    ] {
        g.b.run.push(replay::subframe(prn, time, &field));
        g.b.run.gives(number, number);
        g.states();
    }
    g.b.words(7);
    g.states();
    let verdict = g.root.verdict.clone();
    g.b.verdict(&verdict, 14);
    g.states();
    g.says(ID, 4, Some(4));
    g.b.run
}

pub fn stopped(name: &str, about: &str, seed: u64) -> Run {
    let mut g = Gathering::new(name, about, seed);
    let root = g.root.dsm.clone();
    let emergency = g.b.tree.pkr(15);
    for round in 0..2 {
        g.blocks([0, 2]);
        g.part(2, &root, [3], Joins);
        let refuse = |g: &mut Gathering| {
            let mut start = g.b.start.clone();
            start.ns = 37;
            g.b.run.push(replay::start(&start));
            g.b.run.gives(2, 0);
            g.states();
            g.says(ID, 2, Some(6));
            g.says(2, 1, None);
        };
        refuse(&mut g);
        let last = dsm::blocks(&emergency) - 1;
        g.part(13, &emergency, 0..last, Joins);
        g.says(13, 10, Some(1));
        if round == 0 {
            g.start();
            continue;
        }
        // It stops the receiver, and its section is not judged.
        let hkroot = dsm::hkroot(g.root.header, 13, &emergency, last);
        for (hkroot, does, first) in [
            (hkroot, Completes, 0),
            (dsm::hkroot(g.root.header, ID, &root, 4), Fails, 4),
        ] {
            let prn = g.next();
            g.b.subframe(prn, g.b.now, &hkroot, &[0xC3; 60]);
            g.b.run.gives(first, 4);
            g.note(&hkroot, does);
        }
        g.says(13, 0, None);
        refuse(&mut g);
        g.start();
        g.says(ID, 0, None);
        g.part(13, &emergency, [1], Joins);
    }
    g.b.run
}
