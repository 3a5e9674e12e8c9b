//! Random mixes: a valid run with events, damage and reordered calls, all from one seed.

use super::bench::*;
use crate::bits;
use crate::chain::{hash_takes, Chain, Params, AES_KEYS};
use crate::dsm;
use crate::mack::{Info, Layout, FLEXIBLE};
use crate::navdata::NavSet;
use crate::replay::{self, Run, Verdict, RECORD};
use crate::rng::Rng;
use crate::subframe::{self, Hkroot, Mack};
use crate::time::Gst;
use std::rc::Rc;

/// Weeks and hours at which the first chain begins.
const BEGINNINGS: [(u32, u32); 6] = [
    (947, 120),
    (947, 120),
    (947, 167),
    (0, 1),
    (1, 0),
    (4095, 165),
];

/// Sub-frames for which a chain has keys.
const SUBFRAMES: u64 = 330;

/// The functions that the chains of a mix name beside SHA-256 and HMAC-SHA-256. Damage can still turn a root's HF and MF
/// over.
#[derive(Clone, Copy, Debug, PartialEq, Eq)]
pub struct Functions {
    /// CMAC-AES, where the key size allows it.
    pub cmac: bool,
    /// SHA3-224 and SHA3-256, where their digests have the key's size.
    pub sha3: bool,
}

impl Functions {
    /// All of them.
    pub const ALL: Functions = Functions {
        cmac: true,
        sha3: true,
    };
}

/// What comes of the pages of a mix's sub-frames.
#[derive(Clone, Copy, Debug, PartialEq, Eq)]
pub enum Pages {
    /// All of them.
    Whole,
    /// Some are lost: half of the sub-frames have marks.
    Lost,
}

struct Mix {
    b: Bench,
    functions: Functions,
    pages: Pages,
    /// One in so many calls is damaged; 0 for none.
    damage: u64,
    /// Few tags of few bits for a satellite, whose data goes to and fro: sets stay candidates for some time.
    thin: bool,
    /// Other data of each satellite, by PRN - 1.
    others: Vec<[NavSet; 3]>,
    /// The leaf of the tree whose key signs the roots.
    leaf: u8,
    /// Start of the last root put in force since the start, and whether a drop came after it.
    last: Option<(Gst, bool)>,
    stopped: bool,
}

/// A mix from a seed. A quarter of the seeds give undamaged runs, the others are damaged more and more.
pub fn random(seed: u64) -> Run {
    random_with(seed, Functions::ALL, Pages::Lost)
}

/// The same with chains of these functions, and sub-frames of which pages are lost or not.
pub fn random_with(seed: u64, functions: Functions, pages: Pages) -> Run {
    let name = format!("random_{seed}");
    let mut b = Bench::new(&name, "a mix of valid, damaged and random records", seed);
    let damage = [0, 40, 12, 4][(seed % 4) as usize];
    let leaf = b.rng.below(12) as u8;
    let mut mix = Mix {
        thin: b.rng.once_in(2),
        others: (1..=36)
            .map(|prn| [500, 600, 700].map(|iodnav| NavSet::random(&mut b.rng, prn, iodnav)))
            .collect(),
        b,
        functions,
        pages,
        damage,
        leaf,
        last: None,
        stopped: false,
    };
    let count = mix.b.rng.range(1, if mix.thin { 3 } else { 12 });
    mix.b.seen = (0..count).map(|_| mix.b.rng.range(1, 36) as u8).collect();
    mix.b.seen.sort_unstable();
    mix.b.seen.dedup();
    if mix.hit(3) {
        mix.noise();
    }
    mix.restart();
    for _ in 0..mix.b.rng.range(8, 40) {
        mix.event();
    }
    let mut run = mix.b.run;
    run.expects = Default::default();
    if damage > 0 {
        shuffle(&mut run.bytes, &mut mix.b.rng, damage);
    }
    run
}

/// Moves, repeats, drops and spoils whole records; sometimes the last one is cut short.
fn shuffle(bytes: &mut Vec<u8>, rng: &mut Rng, damage: u64) {
    let mut records: Vec<Vec<u8>> = bytes.chunks(RECORD).map(<[u8]>::to_vec).collect();
    for at in 1..records.len() {
        if !rng.once_in(damage * 4) {
            continue;
        }
        let other = rng.below(records.len() as u64) as usize;
        match rng.below(4) {
            0 => records.swap(at - 1, at),
            1 => records[at] = records[other].clone(),
            2 => records[at][0] = rng.below(7) as u8,
            _ => {
                let bit = rng.below(8 * 182) as usize;
                bits::flip(&mut records[at], bit);
            }
        }
    }
    *bytes = records.concat();
    if rng.once_in(8) {
        bytes.truncate(bytes.len() - rng.range(1, 255) as usize);
    }
}

impl Mix {
    /// True once in `n` times, and never in an undamaged run.
    fn hit(&mut self, n: u64) -> bool {
        self.damage > 0 && self.b.rng.once_in(n)
    }

    fn event(&mut self) {
        // A chain has keys for some sub-frames only, and the weeks end.
        let gone = self
            .b
            .force
            .as_ref()
            .is_some_and(|c| c.subframe(self.b.now) > 170);
        let ends = self.b.now.plus(400) < self.b.now;
        if ends || gone || self.stopped && self.b.rng.once_in(2) {
            return self.restart();
        }
        match self.b.rng.below(24) {
            0..=11 => self.half_minute(),
            12 if self.damage > 0 => self.odd_root(),
            12 => self.same_root(),
            13 | 14 => self.floating_root(),
            15 => self.next_chain(),
            16 => self.revoke(),
            17 | 18 => self.public_key(),
            19 => {
                self.b.now = self
                    .b
                    .now
                    .plus([1, 9, 10, 11, 119, 120, 121][self.b.rng.below(7) as usize])
            }
            20 => self.change_words(),
            21 if self.b.rng.once_in(4) => self.restart(),
            22 if self.b.rng.once_in(6) => {
                let dsm = self.b.tree.pkr(15);
                self.deliver_as(self.b.header, 15, &dsm);
                self.stopped = true;
            }
            23 if self.damage > 0 => self.noise(),
            _ => self.half_minute(),
        }
    }

    /// A start with new marks, NS and key, and a chain in force soon after.
    fn restart(&mut self) {
        let rng = &mut self.b.rng;
        let ns = if rng.once_in(2) {
            36
        } else {
            rng.range(1, 36) as u8
        };
        for list in &mut self.b.start.marks {
            for mark in &mut list[1..] {
                *mark = *rng.pick(&[0, 0, 0, 11, 12, 12, FLEXIBLE, FLEXIBLE, FLEXIBLE]);
            }
            if rng.once_in(6) {
                list[rng.range(1, 13) as usize] = rng.below(16) as u8;
            }
        }
        self.b.start.ns = ns;
        self.b.start.maclt = self.b.rng.number() as u8;
        self.b.start_with_leaf(self.leaf);
        let (week, hour) = *self.b.rng.pick(&BEGINNINGS);
        let params = self.params(0);
        let chain = self.b.chain_at(params, week, hour, SUBFRAMES);
        self.b.now = chain.start().plus(90 + self.b.rng.below(30) as i64);
        self.b.header = dsm::header(OPERATIONAL, params.cid, NOMINAL);
        (self.last, self.stopped) = (None, false);
        self.b.start();
        if self.hit(6) {
            let mut bad = self.b.start.clone();
            bad.ns = 0;
            self.b.run.push(replay::start(&bad));
        }
        self.b.all_words();
        self.b.step();
        self.send_root(&chain, self.b.header);
    }

    fn params(&mut self, cid: u8) -> Params {
        loop {
            let rng = &mut self.b.rng;
            let (nmack, ks, ms) = (
                rng.range(1, 3) as u8,
                rng.below(9) as u8,
                rng.below(if self.thin { 4 } else { 10 }) as u8,
            );
            let alpha = rng.array();
            let params = Params::new(cid, nmack, ks, ms, self.b.start.maclt, alpha);
            if Layout::new(&params).is_some() {
                return self.with_any_functions(params);
            }
        }
    }

    /// The same with any hash that has the key's size, and with CMAC-AES or not where it takes the key.
    fn with_any_functions(&mut self, params: Params) -> Params {
        let params = params.hashed(self.any_hash(params.ks));
        if self.functions.cmac && AES_KEYS.contains(&params.ks) && self.b.rng.once_in(2) {
            params.with_cmac()
        } else {
            params
        }
    }

    /// A hash that keys of this size may be made with.
    fn any_hash(&mut self, ks: u8) -> u8 {
        let drawn = match self.functions.sha3 {
            true => self.b.rng.below(3) as u8,
            false => 0,
        };
        if hash_takes(drawn, ks) {
            drawn
        } else {
            0
        }
    }

    /// The key under which roots are sent now.
    fn root(&mut self, header: u8, chain: &Chain) -> Root {
        let kind = self.b.tree.leaf(usize::from(self.leaf))[0] >> 4;
        self.b.root_under(header, chain, self.leaf, kind)
    }

    /// Sends a root and a verdict on it; the chain is in force then if the rules for roots allow it.
    fn send_root(&mut self, chain: &Rc<Chain>, header: u8) {
        let root = self.root(header, chain);
        self.deliver(header, &root.dsm);
        let good = !self.b.rng.once_in(16);
        self.verdict(&root.verdict, good);
        let taken = match self.last {
            None => true,
            Some((last, dropped)) => {
                chain.start() > last || chain.start() == last && !dropped && self.in_force(chain)
            }
        };
        if good && taken && matches!(header >> 6, 1 | 2) && header >> 4 & 3 == chain.params.cid {
            self.last = Some((chain.start(), false));
            self.b.force = Some(chain.clone());
            self.b.header = header;
        }
    }

    fn in_force(&self, chain: &Rc<Chain>) -> bool {
        self.b.force.as_ref().is_some_and(|c| Rc::ptr_eq(c, chain))
    }

    fn verdict(&mut self, verdict: &Verdict, good: bool) {
        let mut v = Verdict {
            good: u8::from(good),
            ..verdict.clone()
        };
        if self.hit(self.damage) {
            match self.b.rng.below(4) {
                0 => v.good = self.b.rng.below(4) as u8,
                1 => v.key_id = self.b.rng.below(18) as u8,
                2 => bits::flip(&mut v.message, self.b.rng.below(360) as usize),
                _ => bits::flip(&mut v.signature, self.b.rng.below(1056) as usize),
            }
            self.b.run.push(replay::verdict(&v));
        }
        if !self.hit(10) {
            self.b.run.push(replay::verdict(&Verdict {
                good: u8::from(good),
                ..verdict.clone()
            }));
        }
    }

    /// All blocks of a message from the satellites seen, from any block on.
    fn deliver(&mut self, header: u8, message: &[u8]) {
        // ID 11 carries the idle block.
        let id = self.b.rng.below(11) as u8;
        self.deliver_as(header, id, message);
    }

    fn deliver_as(&mut self, header: u8, id: u8, message: &[u8]) {
        let count = dsm::blocks(message);
        let turn = self.b.rng.below(count as u64) as usize;
        let senders = self.b.seen.clone();
        for n in 0..count {
            if n > 0 && n % senders.len() == 0 {
                if self.thin {
                    self.turn();
                }
                self.b.step();
            }
            if self.hit(self.damage * 8) {
                continue;
            }
            let mut hkroot = dsm::hkroot(header, id, message, (n + turn) % count);
            if self.hit(self.damage * 8) {
                bits::flip(&mut hkroot, self.b.rng.below(120) as usize);
            }
            self.subframe(senders[n % senders.len()], &hkroot);
        }
        self.b.step();
    }

    /// The MAC-Info of a field, mostly one that its mark allows.
    fn info(&mut self, sender: u8, mark: u8) -> Info {
        let rng = &mut self.b.rng;
        let adkd = match mark {
            _ if rng.once_in(24) => rng.below(16) as u8,
            FLEXIBLE => *rng.pick(&[0, 0, 11, 12, 12, 4]),
            fixed => fixed,
        };
        let prn = match rng.below(if self.thin { 36 } else { 12 }) {
            0..=3 => sender,
            4..=10 => *rng.pick(&self.b.seen),
            _ => rng.below(40) as u8,
        };
        Info::new(prn, adkd, rng.below(16) as u8)
    }

    /// The section of the chain in force, or any bytes where it has none.
    fn section(&mut self, sender: u8) -> Mack {
        let now = self.b.now;
        let fits = |c: &Rc<Chain>| (0..(c.top() / c.slots()) as i64).contains(&c.subframe(now));
        if !self.b.force.as_ref().is_some_and(fits) {
            return self.b.rng.array();
        }
        let layout = self.b.layout();
        let list = *self.b.marks_at(now);
        let infos: Vec<Info> = (0..layout.fields())
            .map(|n| self.info(sender, list[n]))
            .collect();
        let mut mack = self.b.section_of(sender, now, &infos);
        if self.hit(self.damage) {
            let field = self.b.rng.below(layout.fields() as u64) as usize;
            let block = self.b.rng.range(1, layout.blocks as u64) as u8;
            let part = match self.b.rng.below(6) {
                0 | 1 => layout.tag(field),
                2 => layout.macseq(),
                3 => layout.prn(field).start..layout.iod(field).end,
                4 => layout.key(block),
                _ => layout.spare(block),
            };
            if !part.is_empty() {
                bits::flip(
                    &mut mack,
                    part.start + self.b.rng.below(part.len() as u64) as usize,
                );
            }
        }
        mack
    }

    fn subframe(&mut self, prn: u8, hkroot: &Hkroot) {
        let header = self.b.header;
        self.b.header = hkroot[0];
        let mack = self.section(prn);
        self.b.header = header;
        let mut field = subframe::join(hkroot, &mack);
        let (mut prn, mut gst) = (prn, self.b.now);
        if self.hit(self.damage * 4) {
            match self.b.rng.below(5) {
                0 => prn = self.b.rng.below(40) as u8,
                1 => gst = gst.plus(self.b.rng.below(5) as i64 - 3),
                2 => gst = Gst(gst.0.wrapping_add(self.b.rng.below(40) as u32)),
                3 => field = [0; 75],
                _ => bits::flip(&mut field, self.b.rng.below(600) as usize),
            }
        }
        if self.pages == Pages::Lost && self.b.rng.once_in(2) {
            let rng = &mut self.b.rng;
            let marks = match rng.below(16) {
                0 => rng.number() as u16,
                _ => subframe::under_trees(rng),
            };
            subframe::spoil(rng, marks, &mut field);
            self.b
                .run
                .push(replay::subframe_marked(prn, gst, marks, &field));
        } else {
            self.b.run.push(replay::subframe(prn, gst, &field));
        }
    }

    fn half_minute(&mut self) {
        let mut senders = self.b.seen.clone();
        if self.b.rng.once_in(4) {
            let extra = self.b.rng.range(1, 36) as u8;
            senders.push(extra);
        }
        let turns = self.b.rng.once_in(if self.thin { 2 } else { 6 });
        let often = if self.thin { 2 } else { 10 };
        for (at, prn) in senders.into_iter().enumerate() {
            if !self.b.rng.once_in(often) {
                let hkroot = self.b.idle();
                self.subframe(prn, &hkroot);
            }
            // Words of the half minute before, between two sections of one time.
            if turns && at == 0 {
                self.b.now = self.b.now.plus(-1);
                self.turn();
                self.b.step();
            }
        }
        if self.b.rng.once_in(if self.thin { 2 } else { 4 }) {
            self.turn();
        }
        for prn in self.b.seen.clone() {
            if self.b.rng.once_in(3) {
                let set = self.b.sets[usize::from(prn) - 1];
                self.words(prn, &set);
            }
        }
        self.b.step();
    }

    fn words(&mut self, prn: u8, set: &NavSet) {
        for word in set.words {
            let (mut word, mut gst) = (word, self.b.now);
            if self.hit(self.damage * 6) {
                match self.b.rng.below(3) {
                    0 => bits::flip(&mut word, self.b.rng.below(128) as usize),
                    1 => gst = gst.plus(self.b.rng.below(4) as i64 - 2),
                    _ => continue,
                }
            }
            self.b.run.push(replay::word(prn, gst, &word));
        }
    }

    /// A satellite goes to other data that it may have had before.
    fn turn(&mut self) {
        let prn = *self.b.rng.pick(&self.b.seen);
        let (at, other) = (usize::from(prn) - 1, self.b.rng.below(3) as usize);
        std::mem::swap(&mut self.b.sets[at], &mut self.others[at][other]);
        let set = self.b.sets[at];
        self.words(prn, &set);
    }

    /// New data, or a repeater's words.
    fn change_words(&mut self) {
        let prn = *self.b.rng.pick(&self.b.seen);
        if self.b.rng.once_in(2) {
            self.b.change(prn);
            let set = self.b.sets[usize::from(prn) - 1];
            self.words(prn, &set);
        } else {
            let iodnav = self.b.rng.below(1024) as u16;
            let set = NavSet::random(&mut self.b.rng, prn, iodnav);
            self.words(prn, &set);
        }
    }

    fn same_root(&mut self) {
        if let Some(chain) = self.b.force.clone() {
            self.send_root(&chain, self.b.header);
        }
    }

    /// A root with a field, a size or a key ID that a receiver may refuse.
    fn odd_root(&mut self) {
        let Some(chain) = self.b.force.clone() else {
            return;
        };
        let (mut odd, rng) = ((*chain).clone(), &mut self.b.rng);
        let (mut key_id, mut blocks) = (self.leaf, None);
        for _ in 0..rng.range(1, 2) {
            match rng.below(12) {
                0 => odd.params.hf = rng.below(4) as u8,
                1 => odd.params.mf = rng.below(4) as u8,
                2 => odd.params.mo = rng.below(4) as u8,
                3 => odd.params.nmack = rng.below(4) as u8,
                4 => odd.params.ks = rng.below(16) as u8,
                5 => odd.params.ms = rng.below(16) as u8,
                6 => odd.params.maclt ^= 1 << rng.below(8),
                7 => odd.params.cid = rng.below(4) as u8,
                8 => odd.hour = rng.below(256) as u32,
                9 => odd.week = rng.below(4096) as u32,
                10 => key_id = rng.below(16) as u8,
                _ => blocks = Some(rng.range(7, 16) as usize),
            }
        }
        let kind = self.b.tree.leaf(usize::from(self.leaf))[0] >> 4;
        let signature = rng.bytes(dsm::SIGNATURE_LEN[usize::from(kind)]);
        let header = dsm::header(rng.below(4) as u8, chain.params.cid, NOMINAL);
        let dsm = dsm::kroot_of(header, key_id, &odd, &chain.root(), &signature, blocks);
        let message = dsm::signed(header, &dsm, chain.params.key_len());
        self.deliver(header, &dsm);
        self.verdict(&Verdict::new(1, key_id, &message, &signature), true);
    }

    /// A root an hour later, of the same chain or with one thing changed.
    fn floating_root(&mut self) {
        let Some(chain) = self.b.force.clone() else {
            return;
        };
        if chain.top() <= 130 * chain.slots() {
            return self.same_root();
        }
        let mut later = chain.floating(1);
        if self.b.rng.once_in(4) {
            later.params.rsvd ^= 1;
        }
        // Another MF is another chain with the same keys.
        let can_change = AES_KEYS.contains(&later.params.ks);
        if self.functions.cmac && can_change && self.b.rng.once_in(4) {
            later.params.mf ^= 1;
        }
        let mut later = Rc::new(later);
        // Another HF is another chain, mostly with keys of its own; with the same ones no section fits.
        if self.functions.sha3 && self.b.rng.once_in(4) {
            let params = later.params.hashed(self.any_hash(later.params.ks));
            if self.b.rng.once_in(8) {
                Rc::make_mut(&mut later).params = params;
            } else if params != later.params {
                later = self.b.chain_at(params, later.week, later.hour, SUBFRAMES);
            }
        }
        self.send_root(&later, self.b.header);
    }

    /// A chain with the next CID, at the present hour or the next one.
    fn next_chain(&mut self) {
        let Some(old) = self.b.force.clone() else {
            return;
        };
        let params = self.params((old.params.cid + 1) % 4);
        let hours = self.b.now.seconds() / 3600 + self.b.rng.below(2);
        let start = Gst::from_seconds(hours * 3600);
        let chain = self
            .b
            .chain_at(params, start.week(), start.second() / 3600, SUBFRAMES);
        let header = dsm::header(*self.b.rng.pick(&[1, 2, 2]), params.cid, NOMINAL);
        if self.b.rng.once_in(3) {
            // Announced under the present CID first.
            let root = self.root(self.b.header, &chain);
            self.deliver(self.b.header, &root.dsm);
            self.verdict(&root.verdict, true);
        }
        self.send_root(&chain, header);
    }

    /// "Don't Use", then another root.
    fn revoke(&mut self) {
        let Some(chain) = self.b.force.clone() else {
            return;
        };
        let cid = if self.b.rng.once_in(4) {
            chain.params.cid ^ 1
        } else {
            chain.params.cid
        };
        let root = self.root(dsm::header(DONT_USE, cid, CHAIN_REVOKED), &chain);
        self.deliver(root.header, &root.dsm);
        self.verdict(&root.verdict, true);
        if cid == chain.params.cid {
            self.last = self.last.map(|(gst, _)| (gst, true));
        }
        match self.b.rng.below(4) {
            0 => self.same_root(),
            1 | 2 => self.floating_root(),
            _ => self.next_chain(),
        }
    }

    /// A public key message; roots may then be sent under the new key.
    fn public_key(&mut self) {
        let leaf = self.b.rng.below(15) as u8;
        let mut dsm = self.b.tree.pkr(usize::from(leaf));
        if self.hit(4) {
            bits::flip(&mut dsm, self.b.rng.below(1032 + 64) as usize);
        }
        let id = self.b.rng.range(12, 15) as u8;
        self.deliver_as(self.b.header, id, &dsm);
        if leaf > self.leaf && self.b.rng.once_in(2) {
            self.leaf = leaf;
            self.same_root();
        }
    }

    /// Random records: any bytes, a plausible head with any bytes after it, or an earlier record again.
    fn noise(&mut self) {
        for _ in 0..self.b.rng.range(1, 4) {
            let mut record: [u8; RECORD] = self.b.rng.array();
            let places = self.b.run.places();
            match self.b.rng.below(3) {
                0 => record[0] = self.b.rng.below(7) as u8,
                1 => {
                    record[0] = *self.b.rng.pick(&[2, 3, 6]);
                    record[1] = self.b.rng.range(1, 36) as u8;
                    record[2..6].copy_from_slice(&self.b.now.bytes());
                }
                _ if places > 0 => {
                    let at = RECORD * self.b.rng.below(places as u64) as usize;
                    record.copy_from_slice(&self.b.run.bytes[at..at + RECORD]);
                }
                _ => {}
            }
            self.b.run.push(record);
        }
    }
}
