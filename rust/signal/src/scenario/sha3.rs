//! Chains whose keys are made with SHA3-224 and SHA3-256 (02, P6).

use super::bench::*;
use super::parameters::{self, reach};
use super::{realistic, tags};
use crate::bits;
use crate::chain::{hash_takes, Chain, Params, AES_KEYS, KEY_BITS};
use crate::dsm;
use crate::mack::{Info, Layout, FLEXIBLE};
use crate::replay::Run;
use std::rc::Rc;

/// Two blocks of four fields.
pub fn nominal_224(name: &str, about: &str, seed: u64) -> Run {
    realistic::nominal_with(name, about, seed, |params| params.hashed(1))
}

/// One block of nine fields.
pub fn nominal_224_whole(name: &str, about: &str, seed: u64) -> Run {
    let change = |params| Params {
        nmack: 1,
        hf: 1,
        ks: 7,
        ..params
    };
    realistic::nominal_with(name, about, seed, change)
}

/// One block of eight fields.
pub fn nominal_256(name: &str, about: &str, seed: u64) -> Run {
    let change = |params| Params {
        nmack: 1,
        hf: 2,
        ks: 8,
        ..params
    };
    realistic::nominal_with(name, about, seed, change)
}

/// Two blocks of one field.
pub fn nominal_cmac(name: &str, about: &str, seed: u64) -> Run {
    let change = |params| Params {
        hf: 2,
        mf: 1,
        ks: 6,
        ..params
    };
    realistic::nominal_with(name, about, seed, change)
}

pub fn data_change(name: &str, about: &str, seed: u64) -> Run {
    realistic::data_change_with(name, about, seed, |params| params.hashed(1))
}

/// Every KS that each hash gives with every number of blocks, and two MS each, one of them 10.
pub fn sizes(name: &str, about: &str, seed: u64) -> Run {
    let mut b = Bench::new(name, about, seed);
    let mut all = [FLEXIBLE; 14];
    all[0] = 0;
    b.start.marks = [all; 2];
    for (hf, ks) in [1, 2]
        .into_iter()
        .flat_map(|hf| (0..9).map(move |ks| (hf, ks)))
    {
        for nmack in 1..=3 {
            for ms in [0, (3 * ks + nmack) % 9 + 1] {
                let params = Params {
                    nmack,
                    hf,
                    mf: u8::from(AES_KEYS.contains(&ks) && ms > 0),
                    ks,
                    ms,
                    ..b.params((ks + hf) % 4)
                };
                if params.is_hashed() && Layout::new(&params).is_some() {
                    let chain = b.chain(params, 25);
                    parameters::fresh(&mut b, &chain);
                    parameters::exercise(&mut b, &chain, 1);
                }
            }
        }
    }
    b.run
}

/// Every HF with every KS code, with the least number of blocks and with one more: SHA-256 and SHA3-256 give all sizes,
/// SHA3-224 all but 256, 3 is reserved.
pub fn functions(name: &str, about: &str, seed: u64) -> Run {
    let mut b = Bench::new(name, about, seed);
    for (hf, ks) in (0..4).flat_map(|hf| (0..16).map(move |ks| (hf, ks))) {
        for more in 0..2 {
            let params = Params {
                nmack: 1,
                hf,
                ks: ks.min(8),
                ..b.params(0)
            };
            let mut chain = (*b.chain(params, 2)).clone();
            let root = chain.root();
            chain.params.ks = ks;
            b.now = chain.start().plus(-2);
            b.start();
            let signature = b.rng.bytes(64);
            let dsm =
                |blocks| dsm::kroot_of(b.header, START_KEY, &chain, &root, &signature, blocks);
            let blocks = dsm::blocks(&dsm(None)) + more;
            let dsm = dsm(Some(blocks));
            let first = match usize::from(ks) < KEY_BITS.len() && hash_takes(hf, ks) {
                true => [0, 6][more],
                false => 8,
            };
            b.deliver(b.header, 1, &dsm, first);
        }
    }
    b.run
}

/// The present section of a satellite with another chain's keys, which are refused.
fn send_keys_of(b: &mut Bench, other: &Rc<Chain>, prn: u8) {
    let named = b.force.replace(other.clone());
    reach(b, prn, 12);
    b.force = named;
}

pub fn keys(name: &str, about: &str, seed: u64) -> Run {
    let mut b = Bench::new(name, about, seed);
    b.start.ns = 5;
    for (hf, ks) in [(1, 0), (1, 7), (2, 4), (2, 8)] {
        // One block, MS 40.
        let params = Params {
            nmack: 1,
            hf,
            ks,
            ms: 9,
            ..b.params(0)
        };
        let seed = b.rng.bytes(32);
        let made = |hf| {
            let chain = Chain::new(params.hashed(hf), 5, 947, 120, 2000, &seed);
            Rc::new(chain)
        };
        let (chain, others) = (made(hf), [0, 1, 2].map(made));
        parameters::fresh(&mut b, &chain);
        // Above the held key, below it and at it.
        for (after, prn) in [(3, 4), (3, 2), (3, 5), (4, 5), (4, 1), (30, 3)] {
            b.now = chain.start().plus(after);
            // Keys of another hash for the same slot, from the next satellites that share it.
            for (other, own) in others.iter().zip(0..) {
                if own != hf {
                    send_keys_of(&mut b, other, prn + 5 * (own + 1));
                }
            }
            reach(&mut b, prn, 0);
        }
        let key = b.layout().key(1);
        for bit in key {
            b.step();
            let prn = 1 + bit as u8 % 5;
            let mut mack = b.section(prn, b.now);
            bits::flip(&mut mack, bit);
            let hkroot = b.idle();
            b.subframe(prn, b.now, &hkroot, &mack);
            b.run.gives(0, 12);
        }
        b.step();
        reach(&mut b, 5, 0);
    }
    b.run
}

pub fn gaps(name: &str, about: &str, seed: u64) -> Run {
    let mut b = Bench::new(name, about, seed);
    b.start.marks = [marks(&[0, 12, 11]); 2];
    for (hf, ks) in [(1, 7), (2, 8)] {
        // One block, MS 40: slot = 36 s + PRN.
        let params = Params {
            nmack: 1,
            hf,
            ks,
            ms: 9,
            ..b.params(0)
        };
        let chain = b.chain(params, 27_800);
        parameters::fresh(&mut b, &chain);
        b.now = chain.start().plus(27_777);
        reach(&mut b, 29, 13);
        reach(&mut b, 28, 0);
        // Slow tags wait, and their keys lie on the way down from a later one.
        parameters::fresh(&mut b, &chain);
        let fields = b.layout().fields();
        let infos = |slow: [u8; 2]| -> Vec<Info> {
            let adkd = |n: usize| [0, slow[0], slow[1], 0][n.min(3)];
            (0..fields).map(|n| Info::new(1, adkd(n), 0)).collect()
        };
        let tail = |first: &[u8]| [first, &vec![1; fields - 3]].concat();
        b.send_fields(1, &infos([12, 11]), &tail(&[1, 5, 5]));
        b.now = chain.start().plus(400);
        b.send_fields(
            1,
            &infos([0, 0]),
            &[&[1, 1], &tail(&[1, 4, 4])[..]].concat(),
        );
    }
    b.run
}

/// A chain an hour later of which the hash alone and its keys differ.
fn with_hash(b: &mut Bench, hf: u8) -> Chain {
    let later = b.force.as_ref().expect("a chain is in force").floating(1);
    if later.params.hf == hf {
        return later;
    }
    let chain = b.chain_at(later.params.hashed(hf), later.week, later.hour, 500);
    (*chain).clone()
}

/// From each hash to each other and back, in chains that are otherwise the same.
pub fn hf_changes(name: &str, about: &str, seed: u64) -> Run {
    let mut b = Bench::new(name, about, seed);
    b.start.marks = [marks(&[0, 12, 11]); 2];
    for (from, to, ks, mf) in [
        (0, 1, 4, 0),
        (1, 2, 7, 0),
        (2, 0, 8, 0),
        (2, 1, 6, 1),
        (0, 2, 4, 1),
    ] {
        // One block, MS 40: six, four, four, five and six fields.
        let params = Params {
            nmack: 1,
            hf: from,
            mf,
            ks,
            ms: 9,
            ..b.params(0)
        };
        let chain = b.chain(params, 500);
        parameters::fresh(&mut b, &chain);
        for hf in [from, to, to, from] {
            let later = with_hash(&mut b, hf);
            tags::change_root(&mut b, later, |b, before, _| {
                if before.params.hf != hf {
                    send_keys_of(b, before, 2);
                }
            });
        }
        // The root's key is the chain's, and the root names another hash: no key of the chain hashes down to it.
        let mut other = b.force.as_ref().expect("a chain is in force").floating(1);
        other.params.hf = to;
        b.now = other.start().plus(-2);
        let last = b.now;
        b.adopt(&Rc::new(other));
        b.now = b.now.plus(2);
        reach(&mut b, 1, 12);
        // The set of satellite 1, authentic under both in turn, is that of the last tag.
        b.run.expects.reads.clear();
        let read = b.set_read(1, last);
        b.reads(1, read);
    }
    b.run
}
