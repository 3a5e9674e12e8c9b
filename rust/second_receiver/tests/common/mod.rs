//! What the tests share: a small chain of their own, sections built from it, and a receiver with
//! its lent area. Slots, times, messages and bit layouts are worked out here anew, without the
//! receiver's code.

#![allow(dead_code)]

pub mod annex;

use portable_aes::cmac;
use portable_hash::{hmac_sha256, sha256, sha3_224, sha3_256};
use second_receiver::received::Received;
use second_receiver::receiver::RECORDS_LEN;
use second_receiver::Receiver;

pub fn hex(text: &str) -> Vec<u8> {
    assert!(text.len().is_multiple_of(2), "{} digits", text.len());
    let digit = |at| u8::from_str_radix(&text[at..at + 2], 16).unwrap();
    (0..text.len()).step_by(2).map(digit).collect()
}

pub fn upper(bytes: &[u8]) -> String {
    bytes.iter().map(|byte| format!("{byte:02X}")).collect()
}

pub fn gst(week: u32, second: u32) -> u32 {
    week << 20 | second
}

/// `gst` moved by a number of sub-frames.
pub fn later(gst: u32, subframes: i64) -> u32 {
    let seconds = i64::from(gst >> 20) * 604_800 + i64::from(gst & 0xF_FFFF) + 30 * subframes;
    (seconds / 604_800) as u32 * (1 << 20) + (seconds % 604_800) as u32
}

/// A string of '0' and '1'.
pub fn binary(bytes: &[u8]) -> String {
    bytes.iter().map(|byte| format!("{byte:08b}")).collect()
}

/// Bytes of a string of '0' and '1', filled with zero bits.
pub fn packed(bits: &str) -> Vec<u8> {
    let byte =
        |chunk: &[u8]| chunk.iter().fold(0, |b, &c| b << 1 | (c - b'0')) << (8 - chunk.len());
    bits.as_bytes().chunks(8).map(byte).collect()
}

/// The 75 bytes of a sub-frame: one HKROOT byte, then four of MACK, fifteen times.
pub fn fields(hkroot: &[u8], section: &[u8]) -> Vec<u8> {
    assert_eq!((hkroot.len(), section.len()), (15, 60));
    hkroot
        .iter()
        .zip(section.chunks(4))
        .flat_map(|(h, s)| [&[*h], s].concat())
        .collect()
}

/// The HKROOT section of one DSM block.
pub fn hkroot(header: u8, dsm_id: u8, block_id: u8, block: &[u8]) -> Vec<u8> {
    [&[header, dsm_id << 4 | block_id], block].concat()
}

/// Block 0 of a DSM of `count` blocks.
pub fn block_0(count: u8) -> [u8; 13] {
    let mut block = [3; 13];
    block[0] = (count - 6) << 4;
    block
}

/// The five words of a satellite, made from a seed; types, IODnav and SVID as given.
pub fn words(prn: u8, iodnav: u16, seed: u8) -> [[u8; 16]; 5] {
    let mut words = [[0; 16]; 5];
    for (word, kind) in words.iter_mut().zip(1u8..) {
        word.copy_from_slice(&sha256(&[prn, seed, kind])[..16]);
        let mut bits = binary(word);
        bits.replace_range(0..6, &format!("{kind:06b}"));
        if kind < 5 {
            bits.replace_range(6..16, &format!("{iodnav:010b}"));
        }
        if kind == 4 {
            bits.replace_range(16..22, &format!("{prn:06b}"));
        }
        word.copy_from_slice(&packed(&bits));
    }
    words
}

/// The 549 authenticated bits of five words, in 69 bytes.
pub fn set(words: &[[u8; 16]; 5]) -> Vec<u8> {
    let part = |word: &[u8; 16], end: usize| binary(word)[6..end].to_string();
    let ends = [126, 126, 128, 126, 73];
    let bits: String = words
        .iter()
        .zip(ends)
        .map(|(word, end)| part(word, end))
        .collect();
    assert_eq!(bits.len(), 549);
    packed(&bits)
}

/// A chain with all its keys up to a highest slot.
#[derive(Clone)]
pub struct TestChain {
    pub ns: u8,
    pub nmack: u8,
    /// Hash function.
    pub hf: u8,
    /// MAC function.
    pub mf: u8,
    pub key_bits: usize,
    pub ks_code: u8,
    pub tag_bits: usize,
    pub ms_code: u8,
    pub cid: u8,
    pub maclt: u8,
    pub rsvd: u8,
    pub alpha: [u8; 6],
    pub week: u32,
    pub hour: u32,
    /// By slot; slot 0 is the root.
    pub keys: Vec<Vec<u8>>,
}

impl TestChain {
    /// NS 4, NMACK 2, KS 128, MS 12, CID 1, MACLT 7, root at 1000/hour 10, keys of forty
    /// sub-frames.
    pub fn usual() -> TestChain {
        TestChain::with(4, 2, (4, 128), (1, 12)).keyed(320)
    }

    /// The same with MS 40, two fields a block: one tag that matches is enough for its set.
    pub fn wide() -> TestChain {
        TestChain::with(4, 2, (4, 128), (9, 40)).keyed(320)
    }

    pub fn with(ns: u8, nmack: u8, ks: (u8, usize), ms: (u8, usize)) -> TestChain {
        TestChain {
            ns,
            nmack,
            hf: 0,
            mf: 0,
            ks_code: ks.0,
            key_bits: ks.1,
            ms_code: ms.0,
            tag_bits: ms.1,
            cid: 1,
            maclt: 7,
            rsvd: 0,
            alpha: [1, 2, 3, 4, 5, 6],
            week: 1000,
            hour: 10,
            keys: Vec::new(),
        }
    }

    /// The same with CMAC-AES for its tags and MACSEQ.
    pub fn with_cmac(self) -> TestChain {
        TestChain { mf: 1, ..self }
    }

    /// The same with another hash for its keys, which are made after this.
    pub fn hashed(self, hf: u8) -> TestChain {
        TestChain { hf, ..self }
    }

    /// The digest by the chain's hash.
    fn digest(&self, message: &[u8]) -> Vec<u8> {
        match self.hf {
            1 => sha3_224(message).to_vec(),
            2 => sha3_256(message).to_vec(),
            _ => sha256(message).to_vec(),
        }
    }

    /// Makes the keys down from a highest slot.
    pub fn keyed(mut self, top: usize) -> TestChain {
        let n = self.key_bits / 8;
        let mut key = sha256(&[self.cid, self.week as u8, self.hour as u8])[..n].to_vec();
        let mut keys = vec![key.clone()];
        for slot in (0..top).rev() {
            let time = self.slot_time(slot).to_be_bytes();
            key = self.digest(&[&key[..], &time, &self.alpha].concat())[..n].to_vec();
            keys.push(key.clone());
        }
        keys.reverse();
        self.keys = keys;
        self
    }

    /// A later root of the same chain, moved on by whole hours; its keys are those that this chain
    /// has left.
    pub fn floated(&self, hours: u32) -> TestChain {
        let slots = hours as usize * 120 * usize::from(self.ns) * usize::from(self.nmack);
        TestChain {
            hour: self.hour + hours,
            keys: self.keys[slots..].to_vec(),
            ..self.clone()
        }
    }

    pub fn start(&self) -> u32 {
        gst(self.week, self.hour * 3600)
    }

    /// The time of a sub-frame counted from the root.
    pub fn at(&self, subframe: i64) -> u32 {
        later(self.start(), subframe)
    }

    fn slot_time(&self, slot: usize) -> u32 {
        let a_subframe = usize::from(self.ns) * usize::from(self.nmack);
        self.at(if slot == 0 {
            -1
        } else {
            ((slot - 1) / a_subframe) as i64
        })
    }

    /// The first slot of a block (from 1) of a sub-frame.
    pub fn first_slot(&self, subframe: usize, block: usize) -> usize {
        (subframe * usize::from(self.nmack) + block - 1) * usize::from(self.ns) + 1
    }

    /// Table 7 from CIDKR through KROOT.
    pub fn contents(&self) -> Vec<u8> {
        let mut bits = format!("{:02b}{:02b}", self.cid, self.nmack);
        bits += &format!("{:02b}{:02b}", self.hf, self.mf);
        bits += &format!("{:04b}{:04b}{:08b}", self.ks_code, self.ms_code, self.maclt);
        bits += &format!("{:02b}00{:012b}{:08b}", self.rsvd, self.week, self.hour);
        [packed(&bits), self.alpha.to_vec(), self.keys[0].clone()].concat()
    }

    /// A whole DSM-KROOT with the least number of blocks.
    pub fn dsm(&self, key_id: u8, signature: &[u8]) -> Vec<u8> {
        dsm_kroot(key_id, &self.contents(), signature)
    }

    /// The signed message.
    pub fn message(&self, header: u8) -> Vec<u8> {
        [&[header], &self.contents()[..]].concat()
    }

    /// Fields in a block.
    pub fn block_fields(&self) -> usize {
        (480 / usize::from(self.nmack) - self.key_bits) / (self.tag_bits + 16)
    }

    /// The chain's MAC; a tag whose key the chain does not have is under an empty one.
    fn mac(&self, key: Option<&Vec<u8>>, message: &[u8]) -> Vec<u8> {
        let key = key.map_or(&[][..], |key| &key[..]);
        match self.mf {
            1 => cmac(key, message).map_or(vec![0; 16], |code| code.to_vec()),
            _ => hmac_sha256(key, message).to_vec(),
        }
    }

    /// A section of `prn`, sub-frames counted from the root. The fields of all blocks in order;
    /// `specs` may be short, the rest are tags 0 of PRN 0. `flexible` are the places that MACSEQ
    /// covers.
    pub fn section(&self, sent: Sent, specs: &[Spec], flexible: &[usize]) -> Vec<u8> {
        let block_bits = 480 / usize::from(self.nmack);
        let n = self.block_fields();
        let time = self.at(sent.subframe as i64).to_be_bytes();
        let empty = Spec::new(0, 0, &[]);
        let spec = |i: usize| specs.get(i).unwrap_or(&empty);
        let infos: Vec<[u8; 2]> = flexible.iter().map(|&i| spec(i).info()).collect();
        let macseq = self.mac(
            self.keys.get(self.first_slot(sent.subframe, 1)),
            &[&[sent.prn], &time[..], &infos.concat()].concat(),
        );
        let mut bits = String::new();
        for block in 1..=usize::from(self.nmack) {
            for position in 1..=n {
                let spec = spec((block - 1) * n + position - 1);
                let tag0 = block == 1 && position == 1;
                let mut message = if tag0 {
                    String::new()
                } else {
                    binary(&[spec.prn])
                };
                message += &binary(&[&[sent.prn], &time[..], &[position as u8]].concat());
                message += &format!("{:02b}", sent.status);
                let set = binary(&spec.set);
                message += if set.is_empty() { "" } else { &set[..549] };
                let delay = [(11, 1), (12, 10)]
                    .iter()
                    .find(|d| d.0 == spec.adkd)
                    .map_or(0, |d| d.1);
                let key = self.keys.get(self.first_slot(sent.subframe + delay, block));
                let mut mac = self.mac(key, &packed(&message));
                for bit in &spec.flipped {
                    mac[bit / 8] ^= 0x80 >> (bit % 8);
                }
                bits += &binary(&mac)[..self.tag_bits];
                bits += &if tag0 {
                    binary(&macseq)[..12].to_string() + &format!("{:04b}", spec.iod)
                } else {
                    binary(&spec.info())
                };
            }
            let own = usize::from((sent.prn - 1) % self.ns);
            bits += &binary(&self.keys[self.first_slot(sent.subframe, block) + own]);
            bits += &"0".repeat(block * block_bits - bits.len());
        }
        packed(&bits)
    }
}

/// A whole DSM-KROOT with the least number of blocks, padded with 0xA5.
pub fn dsm_kroot(key_id: u8, contents: &[u8], signature: &[u8]) -> Vec<u8> {
    let used = 1 + contents.len() + signature.len();
    let blocks = used.div_ceil(13).max(7);
    let mut dsm = [&[(blocks as u8 - 6) << 4 | key_id], contents, signature].concat();
    dsm.resize(blocks * 13, 0xA5);
    dsm
}

/// A tree whose leaf `at` is `leaf`: its root and a DSM-PKR of `blocks` blocks.
pub fn tree_message(leaf: &[u8], at: u8, blocks: usize) -> (Vec<u8>, Vec<u8>) {
    let nodes: Vec<[u8; 32]> = (0..4).map(|level| sha256(&[at, level])).collect();
    let root = (0..4).fold(sha256(leaf), |hash, level| match at >> level & 1 {
        1 => sha256(&[nodes[level], hash].concat()),
        _ => sha256(&[hash, nodes[level]].concat()),
    });
    let mut dsm = [&[(blocks as u8 - 6) << 4 | at], &nodes.concat()[..], leaf].concat();
    dsm.resize(blocks * 13, 0x5A);
    (root.to_vec(), dsm)
}

/// A leaf with `len` bytes of key.
pub fn leaf(key_type: u8, id: u8, len: usize) -> Vec<u8> {
    let mut leaf = vec![key_type << 4 | id];
    leaf.extend((0..len).map(|i| i as u8 ^ 0x3C));
    leaf
}

/// Who sends a section, when, under which NMA status.
#[derive(Clone, Copy)]
pub struct Sent {
    pub prn: u8,
    pub subframe: usize,
    pub status: u8,
}

/// A field to build: a tag over `set`, with some of its bits flipped.
#[derive(Clone)]
pub struct Spec {
    pub prn: u8,
    pub adkd: u8,
    pub iod: u8,
    pub set: Vec<u8>,
    pub flipped: Vec<usize>,
}

impl Spec {
    pub fn new(prn: u8, adkd: u8, set: &[u8]) -> Spec {
        Spec {
            prn,
            adkd,
            iod: 5,
            set: set.to_vec(),
            flipped: Vec::new(),
        }
    }

    pub fn flip(mut self, bit: usize) -> Spec {
        self.flipped.push(bit);
        self
    }

    fn info(&self) -> [u8; 2] {
        [self.prn, self.adkd << 4 | self.iod]
    }
}

/// The arguments of a start.
#[derive(Clone)]
pub struct Start {
    pub ns: u8,
    pub key_id: u8,
    pub key_type: u8,
    pub maclt: u8,
    pub marks_0: Vec<u8>,
    pub marks_30: Vec<u8>,
    pub tree_root: Vec<u8>,
    pub key: Vec<u8>,
}

impl Default for Start {
    /// NS 4, key 3 of type 1, MACLT 7; every field of second 0 is fixed to ADKD 0, those of second
    /// 30 are flexible.
    fn default() -> Start {
        let mut marks_30 = vec![255; 14];
        marks_30[0] = 0;
        Start {
            ns: 4,
            key_id: 3,
            key_type: 1,
            maclt: 7,
            marks_0: vec![0; 14],
            marks_30,
            tree_root: vec![0x77; 32],
            key: (0..67).collect(),
        }
    }
}

impl Start {
    pub fn send(&self, receiver: &mut Receiver) -> u8 {
        receiver.start(
            self.ns,
            self.key_id,
            self.key_type,
            self.maclt,
            &self.marks_0,
            &self.marks_30,
            &self.tree_root,
            &self.key,
        )
    }
}

/// Operational, CID 1, CPKS nominal: the header of most sub-frames here.
pub const HEADER: u8 = 0b1001_0010;

/// A receiver with its lent record area.
#[derive(Clone)]
pub struct Bench {
    pub receiver: Receiver,
    pub area: Vec<u8>,
}

/// The two numbers of a sub-frame.
pub type Numbers = (u8, u8);

impl Bench {
    pub fn started(start: &Start) -> Bench {
        let mut receiver = Receiver::new();
        assert_eq!(start.send(&mut receiver), 0);
        Bench {
            receiver,
            area: vec![0xEE; RECORDS_LEN],
        }
    }

    /// Started, with `chain` in force under key 3 of type 1 by blocks of PRN 36 that end just
    /// before sub-frame 0.
    pub fn in_force(start: &Start, chain: &TestChain) -> Bench {
        let mut bench = Bench::started(start);
        let dsm = chain.dsm(3, &[9; 64]);
        let first = later(chain.start(), -40);
        assert_eq!(bench.dsm(36, first, HEADER, 0, &dsm), 0);
        assert_eq!(bench.good(3, &chain.message(HEADER), &[9; 64]), 0);
        bench
    }

    /// The usual start and the usual chain in force.
    pub fn usual() -> (Bench, TestChain) {
        let chain = TestChain::usual();
        (Bench::in_force(&Start::default(), &chain), chain)
    }

    /// The usual start and the wide chain in force.
    pub fn wide() -> (Bench, TestChain) {
        let chain = TestChain::wide();
        (Bench::in_force(&Start::default(), &chain), chain)
    }

    /// Lends a sub-frame; its numbers and its tag records. Checks that the bytes past the records
    /// stay.
    pub fn subframe(
        &mut self,
        prn: u8,
        gst: u32,
        hkroot: &[u8],
        section: &[u8],
    ) -> (Numbers, Vec<Vec<u8>>) {
        self.received(prn, gst, u16::MAX, &fields(hkroot, section))
    }

    /// Lends the 75 bytes of a sub-frame with its marks.
    pub fn received(
        &mut self,
        prn: u8,
        gst: u32,
        marks: u16,
        fields: &[u8],
    ) -> (Numbers, Vec<Vec<u8>>) {
        let before = self.area.clone();
        let marks = Received(marks);
        let answer = self
            .receiver
            .subframe_received(prn, gst, marks, fields, &mut self.area);
        let used = 12 * answer.records;
        assert_eq!(self.area[used..], before[used..], "bytes past the records");
        let records = self.area[..used].chunks(12).map(<[u8]>::to_vec).collect();
        ((answer.hkroot, answer.mack), records)
    }

    /// Lends one DSM block with a section of zeros; the HKROOT number.
    pub fn block(&mut self, prn: u8, gst: u32, header: u8, ids: (u8, u8), block: &[u8]) -> u8 {
        self.subframe(prn, gst, &hkroot(header, ids.0, ids.1, block), &[0; 60])
            .0
             .0
    }

    /// Lends the blocks of a DSM from one satellite in a row; the last HKROOT number, those before
    /// being 0.
    pub fn dsm(&mut self, prn: u8, first: u32, header: u8, dsm_id: u8, dsm: &[u8]) -> u8 {
        let mut last = 0;
        for (i, block) in dsm.chunks(13).enumerate() {
            assert_eq!(last, 0, "before block {i}");
            last = self.block(
                prn,
                later(first, i as i64),
                header,
                (dsm_id, i as u8),
                block,
            );
        }
        last
    }

    /// A section under `header`, its HKROOT part a block that is always 0.
    pub fn section(&mut self, prn: u8, gst: u32, header: u8, section: &[u8]) -> (u8, Vec<Vec<u8>>) {
        let ((hk, mack), records) =
            self.subframe(prn, gst, &hkroot(header, 11, 1, &[0; 13]), section);
        assert_eq!(hk, 0);
        (mack, records)
    }

    /// Builds and lends a section of `chain` under the usual header.
    pub fn send(
        &mut self,
        chain: &TestChain,
        prn: u8,
        subframe: usize,
        specs: &[Spec],
    ) -> (u8, Vec<Vec<u8>>) {
        let time = chain.at(subframe as i64);
        // The usual marks: all flexible at second 30, none at second 0.
        let count = chain.block_fields() * usize::from(chain.nmack);
        let flexible: Vec<usize> = if (time & 0xF_FFFF).is_multiple_of(60) {
            vec![]
        } else {
            (1..count).collect()
        };
        let sent = Sent {
            prn,
            subframe,
            status: 2,
        };
        let header = HEADER & 0xCF | chain.cid << 4;
        self.section(prn, time, header, &chain.section(sent, specs, &flexible))
    }

    pub fn verdict(&mut self, verdict: u8, key_id: u8, message: &[u8], signature: &[u8]) -> u8 {
        let (mut m, mut s) = (message.to_vec(), signature.to_vec());
        m.resize(45, 0);
        s.resize(132, 0);
        self.receiver.verdict(verdict, key_id, &m, &s)
    }

    pub fn good(&mut self, key_id: u8, message: &[u8], signature: &[u8]) -> u8 {
        self.verdict(1, key_id, message, signature)
    }

    /// Lends words 1 to 5 of a satellite.
    pub fn words(&mut self, prn: u8, gst: u32, words: &[[u8; 16]; 5]) {
        for word in words {
            assert_eq!(self.receiver.word(prn, gst, word), 0);
        }
    }

    /// The set, IODnav and GST_SF that a read gives, or its number.
    pub fn read(&self, prn: u8) -> Result<(Vec<u8>, u16, u32), u8> {
        let mut set = vec![0xEE; 69];
        let answer = self.receiver.read_set(prn, &mut set);
        match answer.number {
            0 => Ok((set, answer.iodnav, answer.time)),
            number => {
                assert_eq!(set, [0xEE; 69], "a refused read");
                Err(number)
            }
        }
    }
}

/// The NMA header of this status and CID.
pub fn header(status: u8, cid: u8) -> u8 {
    status << 6 | cid << 4 | 2
}

/// Lends a DSM-KROOT of `chain` under `header` and key `key_id` at `first`, and a good verdict on
/// it.
pub fn vouch(bench: &mut Bench, chain: &TestChain, header: u8, key_id: u8, first: u32) -> u8 {
    let signature = [first as u8; 64];
    assert_eq!(
        bench.dsm(35, first, header, 5, &chain.dsm(key_id, &signature)),
        0
    );
    let number = bench.good(key_id, &chain.message(header), &signature);
    assert!(
        bench.receiver.waiting_message().is_none(),
        "the wait has ended"
    );
    number
}

/// The first byte of each record: the outcomes.
pub fn outcomes(records: &[Vec<u8>]) -> Vec<u8> {
    records.iter().map(|record| record[0]).collect()
}

/// The records with 1 for 9, where the bits of all tags that agree are not the point.
pub fn agreeing_as_1(mut records: Vec<Vec<u8>>) -> Vec<Vec<u8>> {
    for record in records.iter_mut().filter(|record| record[0] == 9) {
        record[0] = 1;
    }
    records
}

/// The outcomes of those records.
pub fn found(records: &[Vec<u8>]) -> Vec<u8> {
    outcomes(&agreeing_as_1(records.to_vec()))
}
