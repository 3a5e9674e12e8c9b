//! What the scenarios are built with: a constellation, its public keys and chains, and the run that is being written.

use crate::chain::{Chain, Params};
use crate::dsm::{self, Tree};
use crate::mack::{Info, Layout, Marks, Sending, FLEXIBLE};
use crate::navdata::NavSet;
use crate::replay::{self, Read, Run, Start, Verdict};
use crate::rng::Rng;
use crate::subframe::{self, Field, Hkroot, Mack, Received};
use crate::time::Gst;
use std::rc::Rc;

/// NMA status "Operational" (000, table 2).
pub const OPERATIONAL: u8 = 2;
/// NMA status "Don't Use".
pub const DONT_USE: u8 = 3;
/// CPKS values (000, table 3).
pub const NOMINAL: u8 = 1;
pub const END_OF_CHAIN: u8 = 2;
pub const CHAIN_REVOKED: u8 = 3;
pub const NEW_PUBLIC_KEY: u8 = 4;

/// The key ID that a start is given unless a scenario says otherwise: leaf 4 of the tree, type 1.
pub const START_KEY: u8 = 4;
/// The MACLT number of the starts and chains.
pub const MACLT: u8 = 11;

/// Bits of tags at which a set is authentic (02, P4).
pub const ENOUGH: usize = 40;

/// Lists of 14 marks with the given ones first and ADKD 0 for the rest.
pub fn marks(first: &[u8]) -> Marks {
    let mut out = [0; 14];
    out[..first.len()].copy_from_slice(first);
    out
}

/// MACLT 11 for four fields a block (000, table 30): 00S FLX FLX 00E, 00S 00E 00E 00E.
pub fn table_marks() -> Marks {
    marks(&[0, FLEXIBLE, FLEXIBLE])
}

/// A DSM-KROOT with the verdict that would be good for it.
#[derive(Clone, Debug)]
pub struct Root {
    pub header: u8,
    pub dsm: Vec<u8>,
    pub verdict: Verdict,
}

pub struct Bench {
    pub run: Run,
    pub rng: Rng,
    pub start: Start,
    pub tree: Tree,
    /// The chain in force.
    pub force: Option<Rc<Chain>>,
    /// NMA header of the sub-frames.
    pub header: u8,
    /// What each satellite sends, by PRN - 1.
    pub sets: Vec<NavSet>,
    /// Satellites whose data is authenticated by others.
    pub seen: Vec<u8>,
    pub now: Gst,
    /// Bits of the tags that [`Bench::agrees`] counted since the start, by PRN - 1.
    agreed: [usize; 36],
}

impl Bench {
    /// A run at 947/431970, half a minute before the hour at which the chains begin.
    pub fn new(name: &str, about: &str, seed: u64) -> Self {
        // Each scenario draws numbers of its own from a seed.
        let of_name = name
            .bytes()
            .fold(0, |n: u64, b| n.rotate_left(5) ^ u64::from(b));
        let mut rng = Rng::new(Rng::new(seed).number() ^ of_name);
        let leaves = (0..16).map(|i| public_key(&mut rng, i)).collect();
        let tree = Tree::new(leaves);
        let start = Start {
            ns: 36,
            key_id: START_KEY,
            key_type: 1,
            maclt: MACLT,
            marks: [table_marks(); 2],
            tree_root: tree.root(),
            key: tree.leaf(usize::from(START_KEY))[1..].to_vec(),
        };
        let sets = (1..=36)
            .map(|prn| NavSet::random(&mut rng, prn, 64 + u16::from(prn)))
            .collect();
        Bench {
            run: Run::new(name, about),
            rng,
            start,
            tree,
            force: None,
            header: dsm::header(OPERATIONAL, 0, NOMINAL),
            sets,
            seen: (1..=8).collect(),
            now: Gst::new(947, 431_970),
            agreed: [0; 36],
        }
    }

    /// Gives the start key the ID and type of another leaf of the tree.
    pub fn start_with_leaf(&mut self, leaf: u8) {
        let bytes = self.tree.leaf(usize::from(leaf));
        (self.start.key_type, self.start.key_id) = (bytes[0] >> 4, bytes[0] & 15);
        self.start.key = bytes[1..].to_vec();
    }

    /// A good start. The receiver then has no chain.
    pub fn start(&mut self) {
        self.force = None;
        self.agreed = [0; 36];
        self.run.push(replay::start(&self.start));
        self.run.gives(0, 0);
    }

    /// NMACK 2, KS 128 and MS 12 with α of its own (000, A.1).
    pub fn params(&mut self, cid: u8) -> Params {
        Params::new(cid, 2, 4, 1, self.start.maclt, self.rng.array())
    }

    /// A chain from week 947, hour 120, with keys for this many sub-frames.
    pub fn chain(&mut self, params: Params, subframes: u64) -> Rc<Chain> {
        self.chain_at(params, 947, 120, subframes)
    }

    pub fn chain_at(&mut self, params: Params, week: u32, hour: u32, subframes: u64) -> Rc<Chain> {
        let seed = self.rng.bytes(32);
        let top = subframes * u64::from(self.start.ns) * u64::from(params.nmack);
        Rc::new(Chain::new(params, self.start.ns, week, hour, top, &seed))
    }

    /// The DSM-KROOT of a chain under the start's key, with a signature of any bytes.
    pub fn root(&mut self, header: u8, chain: &Chain) -> Root {
        self.root_under(header, chain, self.start.key_id, self.start.key_type)
    }

    pub fn root_under(&mut self, header: u8, chain: &Chain, key_id: u8, key_type: u8) -> Root {
        let signature = self.rng.bytes(dsm::SIGNATURE_LEN[usize::from(key_type)]);
        let dsm = dsm::kroot(header, key_id, chain, &signature);
        let message = dsm::signed(header, &dsm, chain.params.key_len());
        Root {
            header,
            dsm,
            verdict: Verdict::new(1, key_id, &message, &signature),
        }
    }

    /// The number that a MACK half with correct keys gets: 0, or 11 where its conditions hold.
    fn second(&self, header: u8, gst: Gst) -> u8 {
        match &self.force {
            Some(c)
                if matches!(header >> 6, 1 | 2)
                    && header >> 4 & 3 == c.params.cid
                    && gst >= c.start() =>
            {
                0
            }
            _ => 11,
        }
    }

    /// An HKROOT section whose block is stored and never completes a message.
    pub fn idle(&self) -> Hkroot {
        let mut out = [0x5A; 15];
        out[0] = self.header;
        out[1] = 0xB5;
        out
    }

    /// The list of marks for a half minute: the first at second 0 of the minute, the second at 30.
    pub fn marks_at(&self, gst: Gst) -> &Marks {
        &self.start.marks[usize::from(!gst.second().is_multiple_of(60))]
    }

    /// MAC-Info of each field: tag0, then by the marks; flexible fields take ADKD 12, 11 and 0 in turn. The PRNs go
    /// round the satellites seen.
    pub fn infos(&self, sender: u8, gst: Gst, layout: &Layout) -> Vec<Info> {
        let marks = self.marks_at(gst);
        let mut flexible = 0;
        (0..layout.fields())
            .map(|n| {
                let adkd = match marks[n] {
                    FLEXIBLE => {
                        flexible += 1;
                        [12, 11, 0][(flexible - 1) % 3]
                    }
                    fixed => fixed,
                };
                let other = self.seen[(usize::from(sender) + n) % self.seen.len()];
                let prn = if n == 0 || adkd > 0 && n % 2 == 1 {
                    sender
                } else {
                    other
                };
                Info::new(prn, adkd, self.iod(prn))
            })
            .collect()
    }

    /// The IOD of a set: no change, and the low bits of its IODnav (000, table 22).
    fn iod(&self, prn: u8) -> u8 {
        self.sets
            .get(usize::from(prn).wrapping_sub(1))
            .map_or(0, |s| s.iodnav() as u8 & 7)
    }

    /// The correct section of a satellite under the chain in force, with these fields.
    pub fn section_of(&self, sender: u8, gst: Gst, infos: &[Info]) -> Mack {
        let chain = self.force.as_ref().expect("a chain is in force");
        let marks = self.marks_at(gst);
        let sending = Sending {
            chain,
            sender,
            gst,
            status: self.header >> 6,
            marks,
            infos,
        };
        sending.section(|prn| {
            self.sets
                .get(usize::from(prn).wrapping_sub(1))
                .map(NavSet::authenticated)
        })
    }

    pub fn section(&self, sender: u8, gst: Gst) -> Mack {
        let layout = self.layout();
        self.section_of(sender, gst, &self.infos(sender, gst, &layout))
    }

    /// The layout of the chain in force.
    pub fn layout(&self) -> Layout {
        Layout::new(&self.force.as_ref().expect("a chain is in force").params)
            .expect("it has fields")
    }

    pub fn subframe(&mut self, prn: u8, gst: Gst, hkroot: &Hkroot, mack: &Mack) {
        self.run
            .push(replay::subframe(prn, gst, &subframe::join(hkroot, mack)));
    }

    /// A sub-frame with its marks, at the present time; any bytes where a page did not come.
    pub fn subframe_marked(&mut self, prn: u8, marks: Received, field: &Field) {
        let mut field = *field;
        subframe::spoil(&mut self.rng, marks, &mut field);
        let record = replay::subframe_marked(prn, self.now, marks, &field);
        self.run.push(record);
    }

    /// A correct sub-frame at the present time; without a chain that it fits, a MACK section of ones and zeros.
    pub fn send(&mut self, prn: u8) {
        let hkroot = self.idle();
        self.send_hkroot(prn, &hkroot, 0);
    }

    /// The same with an HKROOT section whose answer is `first`.
    pub fn send_hkroot(&mut self, prn: u8, hkroot: &Hkroot, first: u8) {
        let (second, header) = (self.second(hkroot[0], self.now), self.header);
        self.header = hkroot[0];
        let mack = if second == 0 {
            self.section(prn, self.now)
        } else {
            [0xC3; 60]
        };
        self.header = header;
        self.subframe(prn, self.now, hkroot, &mack);
        self.run.gives(first, second);
    }

    /// The present sub-frame's correct section with the given fields and the outcomes of all tag records.
    pub fn send_fields(&mut self, prn: u8, infos: &[Info], outcomes: &[u8]) {
        let mack = self.section_of(prn, self.now, infos);
        let hkroot = self.idle();
        self.subframe(prn, self.now, &hkroot, &mack);
        self.run.gives(0, 0);
        self.run.outcomes(outcomes);
    }

    /// The outcome of one more tag of the chain in force that agrees with a satellite's set: 9 until the bits of these
    /// tags are enough, 1 from then on (02, P4). For a satellite with one set since the start, of which each tag that
    /// agrees is told here in the order of judging.
    pub fn agrees(&mut self, prn: u8) -> u8 {
        let chain = self.force.as_ref().expect("a chain is in force");
        let total = &mut self.agreed[usize::from(prn) - 1];
        *total += chain.params.tag_bits();
        if *total < ENOUGH {
            9
        } else {
            1
        }
    }

    /// The outcomes of such tags over the sets of these satellites.
    pub fn agree(&mut self, prns: impl IntoIterator<Item = u8>) -> Vec<u8> {
        prns.into_iter().map(|prn| self.agrees(prn)).collect()
    }

    /// Sends all blocks of a message at the present time, one a satellite from PRN 1 on, then goes to the next
    /// sub-frame. The last block's HKROOT answer is `last`.
    pub fn deliver(&mut self, header: u8, id: u8, dsm: &[u8], last: u8) {
        let blocks = dsm::blocks(dsm);
        for block in 0..blocks {
            let first = if block + 1 == blocks { last } else { 0 };
            self.send_hkroot(block as u8 + 1, &dsm::hkroot(header, id, dsm, block), first);
        }
        self.step();
    }

    /// Goes to the next sub-frame.
    pub fn step(&mut self) {
        self.now = self.now.plus(1);
    }

    pub fn verdict(&mut self, v: &Verdict, first: u8) {
        self.run.push(replay::verdict(v));
        self.run.gives(first, 0);
    }

    /// Delivers a chain's root, has it vouched for and goes by the chain from now on.
    pub fn adopt(&mut self, chain: &Rc<Chain>) {
        let header = dsm::header(OPERATIONAL, chain.params.cid, NOMINAL);
        let root = self.root(header, chain);
        self.deliver(header, 2, &root.dsm, 0);
        self.verdict(&root.verdict, 0);
        self.force = Some(chain.clone());
        self.header = header;
    }

    /// The five words of a satellite at the present time.
    pub fn words(&mut self, prn: u8) {
        for word in self.sets[usize::from(prn) - 1].words {
            self.run.push(replay::word(prn, self.now, &word));
            self.run.gives(0, 0);
        }
    }

    /// The words of all satellites seen.
    pub fn all_words(&mut self) {
        for prn in self.seen.clone() {
            self.words(prn);
        }
    }

    /// New data with another IODnav for a satellite.
    pub fn change(&mut self, prn: u8) {
        let iodnav = (self.sets[usize::from(prn) - 1].iodnav() + 37) % 1024;
        self.sets[usize::from(prn) - 1] = NavSet::random(&mut self.rng, prn, iodnav);
    }

    /// Delivers the emergency message, leaf 15: the receiver stops.
    pub fn stop(&mut self) {
        let dsm = self.tree.pkr(15);
        for block in 0..dsm::blocks(&dsm) {
            let hkroot = dsm::hkroot(self.header, 12, &dsm, block);
            self.send_hkroot(block as u8 + 1, &hkroot, 0);
        }
        let last = self
            .run
            .expects
            .answers
            .last_mut()
            .expect("blocks were sent");
        (last.1, last.2) = (0, 4);
        self.step();
    }

    /// States what a read of a satellite's set gives at the end.
    pub fn reads(&mut self, prn: u8, read: Read) {
        self.run.expects.reads.push((prn, read));
    }

    /// The set of a satellite as a read gives it after a tag of that time.
    pub fn set_read(&self, prn: u8, gst: Gst) -> Read {
        let set = &self.sets[usize::from(prn) - 1];
        Read::Set {
            bits: set.authenticated(),
            iodnav: set.iodnav(),
            gst,
        }
    }
}

/// Leaf `i` of the tree: key ID i, types 0 to 3 in fours (000, table 29); leaf 15 is an emergency message with ID 0
/// that fills 11 blocks.
fn public_key(rng: &mut Rng, i: u8) -> Vec<u8> {
    match i {
        15 => dsm::leaf(dsm::EMERGENCY, 0, &rng.bytes(13)),
        _ => dsm::leaf(i / 4, i, &rng.bytes(dsm::KEY_LEN[usize::from(i / 4)])),
    }
}
