//! The conditions of 01's table, each alone and in pairs, so that the order of the checks shows.
//!
//! A scenario lists the conditions of one call in the order of "Checks go ...". Each case begins with a good start,
//! spoils a good call by none, one or two of them, and states the number of the first; records after it show what
//! was left behind.

use super::bench::*;
use crate::bits;
use crate::chain::{Chain, Params};
use crate::dsm::{self, Tree};
use crate::mack::Info;
use crate::navdata::{NavSet, Word};
use crate::replay::{self, Run, Start, Verdict};
use crate::subframe::{Hkroot, Mack};
use crate::time::Gst;
use std::rc::Rc;

/// A number of 01's table and what brings it about.
type Condition<T> = (u8, fn(&mut T));

/// The empty choice, each condition alone, each pair.
fn choices<T>(conditions: &[Condition<T>]) -> Vec<Vec<Condition<T>>> {
    let mut out = vec![vec![]];
    for (i, a) in conditions.iter().enumerate() {
        out.push(vec![*a]);
        for b in &conditions[i + 1..] {
            out.push(vec![*a, *b]);
        }
    }
    out
}

/// Spoils a call. The earlier condition is applied last, so that it holds whatever the other did.
fn spoil<T>(call: &mut T, choice: &[Condition<T>]) {
    for (_, condition) in choice.iter().rev() {
        condition(call);
    }
}

/// The number of the first condition; 0 if there is none.
fn number<T>(choice: &[Condition<T>]) -> u8 {
    choice.first().map_or(0, |c| c.0)
}

/// Two fields a block of 32 bits over ADKD 0, and 16 spare bits. Two tags make a set authentic.
fn plain_chain(b: &mut Bench, subframes: u64) -> Rc<Chain> {
    b.start.marks = [[0; 14]; 2];
    let params = Params {
        ms: 8,
        ..b.params(0)
    };
    b.chain(params, subframes)
}

/// A new start with this chain in force; the present time is its sub-frame 0.
fn fresh(b: &mut Bench, chain: &Rc<Chain>) {
    b.now = chain.start().plus(-1);
    b.header = dsm::header(OPERATIONAL, 0, NOMINAL);
    b.start();
    b.adopt(chain);
}

/// The satellite whose calls are spoilt.
const PRN: u8 = 5;

struct WordCall {
    prn: u8,
    gst: Gst,
    word: Word,
    stopped: bool,
}

pub fn words(name: &str, about: &str, seed: u64) -> Run {
    let conditions: &[Condition<WordCall>] = &[
        (2, |c| c.prn = 0),
        (2, |c| c.prn = 37),
        (2, |c| c.gst = Gst(c.gst.0 + 1)),
        (2, |c| c.gst = Gst(c.gst.0 + 15)),
        (2, |c| c.gst = Gst::new(947, 604_800)),
        (2, |c| bits::flip(&mut c.word, 21)),
        (4, |c| c.stopped = true),
        (3, |c| c.gst = c.gst.plus(-2)),
    ];
    let mut b = Bench::new(name, about, seed);
    let chain = plain_chain(&mut b, 20);
    let other = NavSet::random(&mut b.rng, PRN, b.sets[usize::from(PRN) - 1].iodnav()).words[3];
    for choice in choices(conditions) {
        fresh(&mut b, &chain);
        b.words(PRN);
        b.step();
        let mut call = WordCall {
            prn: PRN,
            gst: b.now,
            word: other,
            stopped: false,
        };
        spoil(&mut call, &choice);
        if call.stopped {
            b.stop();
        }
        b.run.push(replay::word(call.prn, call.gst, &call.word));
        b.run.gives(number(&choice), 0);
        if !call.stopped {
            // The word counts only if it was taken.
            b.step();
            let told = if choice.is_empty() {
                vec![2; 4]
            } else {
                b.agree([PRN; 4])
            };
            b.send_fields(PRN, &[Info::new(PRN, 0, 0); 4], &told);
        }
    }
    other_words(&mut b, &chain);
    b.run
}

/// Words of other types are checked as well, answer 0 and change nothing, the word clock included.
fn other_words(b: &mut Bench, chain: &Rc<Chain>) {
    fresh(b, chain);
    b.words(PRN);
    b.step();
    for kind in (0..64).filter(|k| !(1..=5).contains(k)) {
        let mut word: Word = b.rng.array();
        bits::put(&mut word, 0, 6, kind);
        for (prn, gst, first) in [
            (PRN, b.now.plus(3), 0),
            (37, b.now, 2),
            (PRN, b.now.plus(-3), 3),
        ] {
            b.run.push(replay::word(prn, gst, &word));
            b.run.gives(first, 0);
        }
    }
    let word = b.sets[usize::from(PRN) - 1].words[1];
    b.run.push(replay::word(PRN, b.now, &word));
    b.run.gives(0, 0);
    b.step();
    let told = b.agree([PRN; 4]);
    b.send_fields(PRN, &[Info::new(PRN, 0, 0); 4], &told);
    // Every week is taken, and the last second of a week.
    for week in [0, 1, 2047, 4095] {
        for second in [0, 30, 604_770] {
            b.run.push(replay::word(
                PRN + 1,
                Gst::new(week, second),
                &b.sets[usize::from(PRN)].words[0],
            ));
            b.run.gives(0, 0);
        }
    }
}

struct FieldCall {
    prn: u8,
    gst: Gst,
    hkroot: Hkroot,
    mack: Mack,
    /// The good call comes before it.
    again: bool,
    stopped: bool,
}

pub fn subframes(name: &str, about: &str, seed: u64) -> Run {
    let conditions: &[Condition<FieldCall>] = &[
        (2, |c| c.prn = 0),
        (2, |c| c.prn = 37),
        (2, |c| c.prn = 255),
        (2, |c| c.gst = Gst(c.gst.0 + 29)),
        (2, |c| c.gst = Gst::new(947, 604_800)),
        (4, |c| c.stopped = true),
        (3, |c| c.gst = c.gst.plus(-1)),
        (3, |c| c.again = true),
        (5, |c| (c.hkroot, c.mack) = ([0; 15], [0; 60])),
        // Block 0 of an ID with a reserved NB.
        (6, |c| c.hkroot[1..3].copy_from_slice(&[0x30, 0xB4])),
        (11, |c| c.hkroot[0] |= 0xC0),
    ];
    let mut b = Bench::new(name, about, seed);
    let chain = plain_chain(&mut b, 20);
    for choice in choices(conditions) {
        fresh(&mut b, &chain);
        b.words(PRN);
        b.step();
        b.send(PRN);
        if choice.iter().any(|c| c.0 == 4) {
            b.step();
            b.stop();
        } else {
            // The last sub-frame is another satellite's, a minute later.
            b.now = b.now.plus(2);
            b.send(PRN + 1);
        }
        let (hkroot, mack) = (b.idle(), b.section(PRN, b.now));
        let mut call = FieldCall {
            prn: PRN,
            gst: b.now,
            hkroot,
            mack,
            again: false,
            stopped: false,
        };
        spoil(&mut call, &choice);
        if call.again && !call.stopped {
            b.send(PRN);
        }
        b.subframe(call.prn, call.gst, &call.hkroot, &call.mack);
        let (first, second) = match number(&choice) {
            n @ 1..=5 => (n, n),
            _ => {
                let half = |n: u8| choice.iter().map(|c| c.0).find(|&m| m == n).unwrap_or(0);
                (half(6), half(11))
            }
        };
        b.run.gives(first, second);
        // Numbers 2 to 4 note no time: the good call is still taken. All others note it.
        b.subframe(PRN, b.now, &hkroot, &mack);
        match (call.stopped, call.again, first) {
            (true, ..) => b.run.gives(4, 4),
            (_, false, 2 | 3) => b.run.gives(0, 0),
            _ => b.run.gives(3, 3),
        }
        b.step();
        if !call.stopped {
            // The satellite's first section brought a tag already.
            b.send_fields(PRN, &[Info::new(PRN, 0, 0); 4], &[1; 4]);
        }
    }
    b.run
}

struct SectionCall {
    chain: bool,
    header: u8,
    /// Sub-frames after sub-frame 0.
    after: i64,
    prn: u8,
    flips: Vec<usize>,
}

/// Bits of the key and of the spare bits of each block: NMACK 2, KS 128, MS 32.
const KEY: [usize; 2] = [96, 336];
const SPARE: [usize; 2] = [224, 479];

pub fn sections(name: &str, about: &str, seed: u64) -> Run {
    let conditions: &[Condition<SectionCall>] = &[
        (11, |c| c.chain = false),
        (11, |c| c.header &= 0x3F),
        (11, |c| c.header |= 0xC0),
        (11, |c| c.header ^= 0x10),
        (11, |c| c.after = -1),
        // Block 1's slot is 1,000,009, then block 2's slot alone is past reach.
        (13, |c| (c.after, c.prn) = (13_889, 1)),
        (12, |c| c.flips.push(KEY[0])),
        (12, |c| c.flips.push(SPARE[0])),
        (13, |c| (c.after, c.prn) = (13_888, 36)),
        (12, |c| c.flips.push(KEY[1])),
        (12, |c| c.flips.push(SPARE[1])),
    ];
    let mut b = Bench::new(name, about, seed);
    let chain = plain_chain(&mut b, 13_900);
    for choice in choices(conditions) {
        let header = dsm::header(OPERATIONAL, 0, NOMINAL);
        let mut call = SectionCall {
            chain: true,
            header,
            after: 0,
            prn: PRN,
            flips: vec![],
        };
        spoil(&mut call, &choice);
        b.now = chain.start().plus(-3);
        b.header = header;
        b.start();
        if call.chain {
            b.adopt(&chain);
        }
        b.now = chain.start().plus(-2);
        b.words(PRN);
        b.force = Some(chain.clone());
        let mut mack = b.section(call.prn, chain.start().plus(call.after.max(0)));
        for bit in &call.flips {
            bits::flip(&mut mack, *bit);
        }
        let mut hkroot = b.idle();
        hkroot[0] = call.header;
        b.now = chain.start().plus(call.after);
        b.subframe(call.prn, b.now, &hkroot, &mack);
        b.run.gives(0, number(&choice));
        // Whatever was refused, the next good section is taken if there is a chain.
        if call.after <= 0 {
            b.now = chain.start().plus(1);
            let mack = b.section(PRN, b.now);
            let hkroot = b.idle();
            b.subframe(PRN, b.now, &hkroot, &mack);
            b.run.gives(0, if call.chain { 0 } else { 11 });
        }
    }
    b.run
}

struct RootCall {
    chain: Chain,
    key_id: u8,
    blocks: usize,
}

pub fn root_messages(name: &str, about: &str, seed: u64) -> Run {
    let conditions: &[Condition<RootCall>] = &[
        (7, |c| c.key_id = START_KEY + 1),
        (7, |c| c.key_id = 0),
        (8, |c| c.chain.params.hf = 3),
        // SHA3-224 with a key of 256 bits.
        (8, |c| (c.chain.params.hf, c.chain.params.ks) = (1, 8)),
        (8, |c| c.chain.params.mf = 2),
        (8, |c| c.chain.params.mf = 3),
        // CMAC-AES with a key of 160 bits.
        (8, |c| (c.chain.params.mf, c.chain.params.ks) = (1, 5)),
        (8, |c| c.chain.params.mo = 1),
        (8, |c| c.chain.params.mo = 2),
        (8, |c| c.chain.params.nmack = 0),
        (8, |c| c.chain.params.ks = 9),
        (8, |c| c.chain.params.ks = 15),
        (8, |c| c.chain.params.ms = 10),
        (8, |c| c.chain.params.ms = 15),
        (8, |c| c.chain.params.maclt = MACLT + 1),
        // A block of 160 bits, and 128 + 18 + 16.
        (8, |c| (c.chain.params.nmack, c.chain.params.ms) = (3, 4)),
        (8, |c| c.chain.hour = 168),
        (8, |c| c.chain.hour = 255),
        (8, |c| (c.chain.week, c.chain.hour) = (0, 0)),
        (6, |c| c.blocks = 9),
        (6, |c| c.blocks = 7),
        (6, |c| c.blocks = 16),
    ];
    // What is next to a condition and is none.
    let good: &[fn(&mut RootCall)] = &[
        |c| c.chain.params.rsvd = 3,
        |c| c.chain.params.hf = 1,
        |c| c.chain.params.hf = 2,
        |c| c.chain.params.mf = 1,
        |c| (c.chain.params.hf, c.chain.params.mf) = (2, 1),
        |c| c.chain.params.nmack = 1,
        |c| (c.chain.params.nmack, c.chain.params.ms) = (3, 3),
        |c| c.chain.params.ms = 9,
        |c| (c.chain.week, c.chain.hour) = (0, 1),
        |c| (c.chain.week, c.chain.hour) = (1, 0),
        |c| (c.chain.week, c.chain.hour) = (4095, 167),
    ];
    let mut b = Bench::new(name, about, seed);
    let chain = plain_chain(&mut b, 5);
    let mut cases: Vec<(Vec<Condition<RootCall>>, u8)> = choices(conditions)
        .into_iter()
        .map(|c| (c.clone(), number(&c)))
        .collect();
    cases.extend(good.iter().map(|g| (vec![(0, *g)], 0)));
    // SHA3 alone does not hide a wrong size.
    let sha3: [fn(&mut RootCall); 2] = [|c| c.chain.params.hf = 1, |c| c.chain.params.hf = 2];
    cases.extend(sha3.map(|hf| (vec![(0, hf), (6, |c| c.blocks = 9)], 6)));
    for (choice, first) in cases {
        let mut call = RootCall {
            chain: (*chain).clone(),
            key_id: START_KEY,
            blocks: 8,
        };
        spoil(&mut call, &choice);
        b.now = chain.start().plus(-1);
        b.start();
        let signature = b.rng.bytes(64);
        let dsm = dsm::kroot_of(
            b.header,
            call.key_id,
            &call.chain,
            &chain.root(),
            &signature,
            Some(call.blocks),
        );
        b.deliver(b.header, 9, &dsm, first);
        // Only a message that was taken waits.
        let message = dsm::signed(b.header, &dsm, 16);
        b.verdict(
            &Verdict::new(1, call.key_id, &message, &signature),
            if first == 0 { 0 } else { 14 },
        );
    }
    b.run
}

/// Each key type with each KS: the least number of blocks is taken, one more and one less are not.
pub fn root_sizes(name: &str, about: &str, seed: u64) -> Run {
    let mut b = Bench::new(name, about, seed);
    b.start.marks = [[0; 14]; 2];
    for (key_type, leaf) in [0, 4, 8, 12].into_iter().enumerate() {
        b.start_with_leaf(leaf);
        for ks in 0..9 {
            let params = Params {
                nmack: 1,
                ks,
                ..b.params(0)
            };
            let chain = b.chain(params, 2);
            b.now = chain.start().plus(-4);
            b.start();
            let root = b.root(b.header, &chain);
            let blocks = dsm::blocks(&root.dsm);
            let signature = root.verdict.signature[..dsm::SIGNATURE_LEN[key_type]].to_vec();
            for wrong in [blocks - 1, blocks + 1] {
                if wrong >= 7 {
                    let dsm = dsm::kroot_of(
                        b.header,
                        leaf,
                        &chain,
                        &chain.root(),
                        &signature,
                        Some(wrong),
                    );
                    b.deliver(b.header, 0, &dsm, 6);
                }
            }
            b.verdict(&root.verdict, 14);
            b.deliver(b.header, 0, &root.dsm, 0);
            b.verdict(&root.verdict, 0);
        }
    }
    b.run
}

struct KeyCall {
    id: u8,
    leaf: usize,
    blocks: Option<usize>,
    flip: Option<usize>,
}

/// Leaves that a receiver must refuse though they stand in the tree: types 5 and 15, an emergency message with an ID,
/// and one without room for its key.
fn odd_tree(b: &mut Bench) {
    let mut leaves: Vec<Vec<u8>> = (0..16).map(|i| b.tree.leaf(i).to_vec()).collect();
    leaves[10] = dsm::leaf(5, 10, &b.rng.bytes(33));
    leaves[11] = dsm::leaf(15, 11, &b.rng.bytes(33));
    leaves[12] = dsm::leaf(dsm::EMERGENCY, 12, &b.rng.bytes(26));
    leaves[13] = dsm::leaf(dsm::EMERGENCY, 0, &[]);
    b.tree = Tree::new(leaves);
    b.start.tree_root = b.tree.root();
}

pub fn key_messages(name: &str, about: &str, seed: u64) -> Run {
    let conditions: &[Condition<KeyCall>] = &[
        (6, |c| c.blocks = Some(14)),
        (6, |c| c.blocks = Some(12)),
        (6, |c| c.blocks = Some(10)),
        (6, |c| c.blocks = Some(7)),
        (6, |c| (c.leaf, c.id) = (10, 10)),
        (6, |c| (c.leaf, c.id) = (11, 11)),
        (6, |c| (c.leaf, c.id) = (12, 12)),
        (6, |c| (c.leaf, c.id) = (13, 13)),
        (10, |c| c.flip = Some(8)),
        (10, |c| c.flip = Some(8 + 1023)),
        (10, |c| c.id ^= 1),
        (10, |c| c.id ^= 8),
        // An ID below, and the start's ID with another key.
        (9, |c| (c.leaf, c.id) = (2, 2)),
        (9, |c| (c.leaf, c.id) = (4, 4)),
    ];
    let mut b = Bench::new(name, about, seed);
    odd_tree(&mut b);
    b.start.key = b.rng.bytes(33);
    let chain = plain_chain(&mut b, 5);
    for choice in choices(conditions) {
        let mut call = KeyCall {
            id: 5,
            leaf: 5,
            blocks: None,
            flip: None,
        };
        spoil(&mut call, &choice);
        b.now = chain.start().plus(-3);
        b.start();
        let (nodes, leaf) = (b.tree.nodes(call.leaf), b.tree.leaf(call.leaf).to_vec());
        let blocks = match (call.leaf, call.blocks) {
            (12 | 13, _) => None,
            (_, blocks) => blocks,
        };
        let mut dsm = dsm::pkr_of(call.id, &nodes, &leaf, blocks, &b.tree.root());
        if let Some(bit) = call.flip.filter(|&bit| bit < 8 * dsm.len()) {
            bits::flip(&mut dsm, bit);
        }
        b.deliver(b.header, 12, &dsm, number(&choice));
        // Key 5 is held only if its message was taken.
        let root = b.root_under(b.header, &chain, 5, 1);
        b.deliver(
            b.header,
            1,
            &root.dsm,
            if choice.is_empty() { 0 } else { 7 },
        );
    }
    b.run
}

/// Emergency messages of every length that can be, and what they leave.
pub fn emergencies(name: &str, about: &str, seed: u64) -> Run {
    let mut b = Bench::new(name, about, seed);
    for blocks in 11..=16 {
        for leaf in [0, 15, 6] {
            let mut leaves: Vec<Vec<u8>> = (0..16).map(|i| b.tree.leaf(i).to_vec()).collect();
            leaves[leaf] = dsm::leaf(dsm::EMERGENCY, 0, &b.rng.bytes(13 * (blocks - 10)));
            let tree = Tree::new(leaves);
            b.start.tree_root = tree.root();
            b.now = Gst::new(947, 431_970);
            b.start();
            let dsm = tree.pkr(leaf);
            assert_eq!(dsm::blocks(&dsm), blocks);
            // One bit wrong: the nodes do not give the root, and the receiver goes on.
            let mut wrong = dsm.clone();
            bits::flip(&mut wrong, 8 * 13 * blocks - 1);
            b.deliver(b.header, 14, &wrong, 10);
            b.deliver(b.header, 14, &dsm, 0);
            let last = b.run.expects.answers.last_mut().expect("blocks were sent");
            (last.1, last.2) = (0, 4);
            let hkroot = b.idle();
            b.subframe(1, b.now, &hkroot, &[1; 60]);
            b.run.gives(4, 4);
        }
    }
    b.run
}

/// Which calls drop public keys: only a good verdict with status 1 or 2, and only lower ones.
pub fn keys_kept(name: &str, about: &str, seed: u64) -> Run {
    let mut b = Bench::new(name, about, seed);
    // Leaf 7 has the key bytes of the start's key under another ID.
    let mut leaves: Vec<Vec<u8>> = (0..16).map(|i| b.tree.leaf(i).to_vec()).collect();
    leaves[7] = dsm::leaf(1, 7, &b.start.key);
    b.tree = Tree::new(leaves);
    b.start.tree_root = b.tree.root();
    let chain = plain_chain(&mut b, 400);
    let later = Rc::new(chain.floating(1));
    let last = Rc::new(chain.floating(2));
    fresh(&mut b, &chain);
    let held = |b: &mut Bench, key_id: u8, first: u8| {
        let root = b.root_under(b.header, &chain, key_id, 1);
        b.deliver(b.header, 10, &root.dsm, first);
    };
    held(&mut b, 7, 7);
    let (same, higher) = (b.tree.pkr(4), b.tree.pkr(7));
    b.deliver(b.header, 12, &same, 0);
    b.deliver(b.header, 12, &higher, 0);
    b.deliver(b.header, 12, &higher, 0);
    held(&mut b, 7, 0);
    held(&mut b, START_KEY, 0);
    // A message between those held.
    let between = b.tree.pkr(5);
    b.deliver(b.header, 12, &between, 9);
    // Refused verdicts under key 7: bad, other CID, earlier root.
    let root = b.root_under(b.header, &later, 7, 1);
    b.deliver(b.header, 1, &root.dsm, 0);
    b.verdict(
        &Verdict {
            good: 0,
            ..root.verdict
        },
        15,
    );
    let header = dsm::header(OPERATIONAL, 1, NOMINAL);
    let root = b.root_under(header, &later, 7, 1);
    b.deliver(header, 1, &root.dsm, 0);
    b.verdict(&root.verdict, 11);
    let mut odd = (*chain).clone();
    odd.hour -= 1;
    let root = b.root_under(b.header, &odd, 7, 1);
    b.deliver(b.header, 1, &root.dsm, 0);
    b.verdict(&root.verdict, 9);
    held(&mut b, START_KEY, 0);
    // A drop under key 7 takes the chain and no key.
    let header = dsm::header(DONT_USE, 0, CHAIN_REVOKED);
    let root = b.root_under(header, &chain, 7, 1);
    b.deliver(header, 1, &root.dsm, 0);
    b.verdict(&root.verdict, 0);
    b.force = None;
    held(&mut b, START_KEY, 0);
    // A root under the lower key keeps the higher one; then one under the higher key drops the lower.
    let root = b.root_under(b.header, &later, START_KEY, 1);
    b.deliver(b.header, 1, &root.dsm, 0);
    b.verdict(&root.verdict, 0);
    b.now = later.start();
    b.force = Some(later);
    let root = b.root_under(b.header, &last, 7, 1);
    b.deliver(b.header, 1, &root.dsm, 0);
    b.verdict(&root.verdict, 0);
    b.force = Some(last);
    held(&mut b, START_KEY, 7);
    held(&mut b, 7, 0);
    b.deliver(b.header, 12, &same, 9);
    b.deliver(b.header, 12, &higher, 0);
    b.run
}

/// What makes a key another one: the highest ID there is, and the same ID and bytes under another type.
pub fn key_identities(name: &str, about: &str, seed: u64) -> Run {
    let mut b = Bench::new(name, about, seed);
    let mut leaves: Vec<Vec<u8>> = (0..16).map(|i| b.tree.leaf(i).to_vec()).collect();
    // Zeros fill a short key's place, so a longer key can have the same bytes there.
    let mut longer = b.start.key.clone();
    longer.resize(dsm::KEY_LEN[2], 0);
    leaves[6] = dsm::leaf(2, START_KEY, &longer);
    leaves[14] = dsm::leaf(1, 15, &b.rng.bytes(dsm::KEY_LEN[1]));
    b.tree = Tree::new(leaves);
    b.start.tree_root = b.tree.root();
    let chain = plain_chain(&mut b, 400);
    let later = Rc::new(chain.floating(1));
    fresh(&mut b, &chain);
    let [same, other_type, highest, lower] = [4, 6, 14, 9].map(|leaf| b.tree.pkr(leaf));
    b.deliver(b.header, 12, &same, 0);
    b.deliver(b.header, 12, &other_type, 9);
    // Above ID 15 there is none.
    b.deliver(b.header, 12, &highest, 0);
    b.deliver(b.header, 12, &lower, 9);
    b.deliver(b.header, 12, &highest, 0);
    // A root under it drops all others.
    let root = b.root_under(b.header, &later, 15, 1);
    b.deliver(b.header, 1, &root.dsm, 0);
    b.verdict(&root.verdict, 0);
    b.force = Some(later.clone());
    b.deliver(b.header, 12, &lower, 9);
    let root = b.root(b.header, &later);
    b.deliver(b.header, 1, &root.dsm, 7);
    let root = b.root_under(b.header, &later, 15, 1);
    b.deliver(b.header, 1, &root.dsm, 0);
    b.run
}

/// A verdict on a message that waits, and the message.
struct VerdictCall {
    verdict: Vec<fn(&mut Verdict)>,
    waits: bool,
    stopped: bool,
    status: u8,
    cid: u8,
    cidkr: u8,
    /// Hours of the root after that in force.
    hours: i32,
    rsvd: u8,
    chain: bool,
}

pub fn verdicts(name: &str, about: &str, seed: u64) -> Run {
    // Those up to 15 are of the call, the others of the message that waits.
    let conditions: &[Condition<VerdictCall>] = &[
        (2, |c| c.verdict.push(|v| v.good = 2)),
        (2, |c| c.verdict.push(|v| v.good = 255)),
        (2, |c| c.verdict.push(|v| v.key_id = 16)),
        (4, |c| c.stopped = true),
        (14, |c| c.waits = false),
        (14, |c| c.verdict.push(|v| v.key_id ^= 1)),
        (14, |c| c.verdict.push(|v| v.message[0] ^= 2)),
        (14, |c| c.verdict.push(|v| v.message[28] ^= 1)),
        (14, |c| c.verdict.push(|v| v.message[44] = 1)),
        (14, |c| c.verdict.push(|v| v.signature[0] ^= 128)),
        (14, |c| c.verdict.push(|v| v.signature[131] = 1)),
        (14, |c| {
            c.verdict
                .push(|v| (v.good, v.signature[63]) = (0, !v.signature[63]))
        }),
        (15, |c| c.verdict.push(|v| v.good = 0)),
        (11, |c| c.status = 0),
        (11, |c| (c.status, c.cid) = (3, 3)),
        (11, |c| (c.status, c.chain) = (3, false)),
        (11, |c| (c.status, c.cidkr) = (1, c.cid ^ 2)),
        (11, |c| (c.status, c.cidkr) = (2, c.cid ^ 1)),
        (9, |c| c.hours = -1),
        (9, |c| (c.hours, c.rsvd) = (0, 1)),
        (9, |c| c.hours = 0),
    ];
    let mut b = Bench::new(name, about, seed);
    let held = plain_chain(&mut b, 20);
    let params = Params {
        ms: 8,
        ..b.params(1)
    };
    let next = b.chain(params, 5);
    for choice in choices(conditions) {
        let mut call = VerdictCall {
            verdict: vec![],
            waits: true,
            stopped: false,
            status: 2,
            cid: 1,
            cidkr: 1,
            hours: 1,
            rsvd: 0,
            chain: true,
        };
        spoil(&mut call, &choice);
        b.now = held.start().plus(-1);
        b.header = dsm::header(OPERATIONAL, 0, NOMINAL);
        b.start();
        if call.chain {
            b.adopt(&held);
        }
        let mut chain = (*next).clone();
        (chain.params.cid, chain.params.rsvd) = (call.cidkr, call.rsvd);
        chain.hour = chain.hour.wrapping_add_signed(call.hours);
        let header = dsm::header(call.status, call.cid, NOMINAL);
        let root = b.root(header, &chain);
        if call.waits {
            b.deliver(header, 3, &root.dsm, 0);
        }
        if call.stopped {
            b.stop();
        }
        let mut verdict = root.verdict.clone();
        for change in &call.verdict {
            change(&mut verdict);
        }
        let number = number(&choice);
        b.verdict(&verdict, number);
        // 2, 4 and 14 leave the message waiting, all others end the wait.
        let message = choice
            .iter()
            .map(|c| c.0)
            .find(|n| matches!(n, 9 | 11))
            .unwrap_or(0);
        let after = match number {
            2 | 4 | 14 if call.stopped => 4,
            2 | 4 | 14 if call.waits => message,
            _ => 14,
        };
        b.verdict(&root.verdict, after);
        // The chain in force goes on unless the new root was taken.
        if call.chain && !call.stopped && number != 0 && after != 0 {
            b.step();
            b.send(PRN);
        }
    }
    b.run
}

pub fn starts(name: &str, about: &str, seed: u64) -> Run {
    let mut b = Bench::new(name, about, seed);
    let chain = plain_chain(&mut b, 400);
    let good = b.start.clone();
    // Before an accepted start; a refused one changes nothing.
    let before = |b: &mut Bench| {
        b.run.push(replay::word(1, b.now, &[0; 16]));
        b.run.gives(11, 0);
        b.run.push(replay::subframe(0, Gst(u32::MAX), &[0; 75]));
        b.run.gives(11, 11);
        b.run.push(replay::subframe_marked(37, Gst(0), 0, &[9; 75]));
        b.run.gives(11, 11);
        b.run.push(replay::verdict(&Verdict::new(7, 77, &[], &[])));
        b.run.gives(11, 0);
        b.run.push([5; replay::RECORD]);
        b.run.gives(2, 0);
    };
    before(&mut b);
    let mut bad: Vec<Start> = Vec::new();
    let mut spoilt = |change: &dyn Fn(&mut Start)| {
        let mut s = good.clone();
        change(&mut s);
        bad.push(s);
    };
    for ns in [0, 37, 128, 255] {
        spoilt(&|s| s.ns = ns);
    }
    for id in [16, 17, 255] {
        spoilt(&|s| s.key_id = id);
    }
    for kind in [4, 5, 255] {
        spoilt(&|s| s.key_type = kind);
    }
    for list in 0..2 {
        for mark in [1, 11, 12, 15, 16, 254, 255] {
            spoilt(&|s| s.marks[list][0] = mark);
        }
        for field in 1..14 {
            for mark in [16, 128, 254] {
                spoilt(&|s| s.marks[list][field] = mark);
            }
        }
    }
    b.run.push(replay::start(&bad[0]));
    b.run.gives(2, 0);
    before(&mut b);
    fresh(&mut b, &chain);
    b.words(PRN);
    b.step();
    for s in &bad {
        // All stays as it was: the section is judged by the words, the chain and the marks from before.
        b.run.push(replay::start(s));
        b.run.gives(2, 0);
        let told = b.agree([PRN; 4]);
        b.send_fields(PRN, &[Info::new(PRN, 0, 0); 4], &told);
        b.step();
    }
    // Good starts next to the refused ones; a start forgets everything.
    for (ns, key_id) in [(1, 0), (36, 15)] {
        for key_type in 0..4 {
            for mark in [0, 1, 15, 255] {
                let mut s = Start {
                    ns,
                    key_id,
                    key_type,
                    maclt: mark,
                    ..good.clone()
                };
                s.marks = [marks(&[0, mark]), marks(&[0, 0, mark])];
                s.key = b.rng.bytes(67);
                b.run.push(replay::start(&s));
                b.run.gives(0, 0);
                let (hkroot, mack) = (b.idle(), b.section(PRN, b.now));
                b.subframe(PRN, b.now.plus(-2), &hkroot, &mack);
                b.run.gives(0, 11);
            }
        }
    }
    b.run
}

/// Kinds of records, and bytes that are not read.
pub fn records(name: &str, about: &str, seed: u64) -> Run {
    let mut b = Bench::new(name, about, seed);
    for kind in (0..=255).filter(|k| !matches!(k, 1..=4 | 6)) {
        let mut record = [0xEE; replay::RECORD];
        record[0] = kind;
        b.run.push(record);
        b.run.gives(2, 0);
    }
    // The rest of a record is not read: what follows a short key, and the bytes after the last part.
    let noisy =
        |b: &mut Bench, mut record: [u8; replay::RECORD], used: usize, answers: (u8, u8)| {
            b.rng.fill(&mut record[used..]);
            b.run.push(record);
            b.run.gives(answers.0, answers.1);
        };
    let chain = plain_chain(&mut b, 20);
    let start = replay::start(&b.start);
    noisy(&mut b, start, 65 + 33, (0, 0));
    let root = b.root(b.header, &chain);
    b.deliver(b.header, 2, &root.dsm, 0);
    let verdict = replay::verdict(&root.verdict);
    noisy(&mut b, verdict, 180, (0, 0));
    b.force = Some(chain);
    for word in b.sets[0].words {
        let record = replay::word(1, b.now, &word);
        noisy(&mut b, record, 22, (0, 0));
    }
    b.step();
    let field = crate::subframe::join(&b.idle(), &b.section(1, b.now));
    let record = replay::subframe(1, b.now, &field);
    noisy(&mut b, record, 81, (0, 0));
    b.run.outcomes(&[9, 3, 3, 3]);
    b.step();
    let field = crate::subframe::join(&b.idle(), &b.section(1, b.now));
    let record = replay::subframe_marked(1, b.now, crate::subframe::ALL_CAME, &field);
    noisy(&mut b, record, 83, (0, 0));
    b.run.outcomes(&[1, 3, 3, 3]);
    b.run
}

/// A last record that is too short, of a kind that has two answers otherwise.
pub fn short_record(name: &str, about: &str, seed: u64) -> Run {
    let mut b = Bench::new(name, about, seed);
    b.start();
    b.send(1);
    let short = replay::subframe(1, b.now, &[0; 75]);
    b.run.bytes.extend(&short[..255]);
    b.run.expects.answers.push((3, 1, 0));
    b.run
}
