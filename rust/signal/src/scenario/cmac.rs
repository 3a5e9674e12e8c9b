//! Chains whose tags and MACSEQ are under CMAC-AES (02, P1).

use super::bench::*;
use super::{parameters, realistic, tags};
use crate::chain::{Params, AES_KEYS, KEY_BITS};
use crate::dsm;
use crate::mack::{Info, Layout, FLEXIBLE};
use crate::replay::Run;
use std::rc::Rc;

/// Two blocks of four fields.
pub fn nominal_128(name: &str, about: &str, seed: u64) -> Run {
    realistic::nominal_with(name, about, seed, Params::with_cmac)
}

/// Two blocks of one field.
pub fn nominal_192(name: &str, about: &str, seed: u64) -> Run {
    let change = |params| Params {
        ks: 6,
        mf: 1,
        ..params
    };
    realistic::nominal_with(name, about, seed, change)
}

/// One block of eight fields.
pub fn nominal_256(name: &str, about: &str, seed: u64) -> Run {
    let change = |params| Params {
        nmack: 1,
        ks: 8,
        mf: 1,
        ..params
    };
    realistic::nominal_with(name, about, seed, change)
}

pub fn data_change(name: &str, about: &str, seed: u64) -> Run {
    realistic::data_change_with(name, about, seed, Params::with_cmac)
}

/// Every KS of AES and MS with every number of blocks.
pub fn sizes(name: &str, about: &str, seed: u64) -> Run {
    let mut b = Bench::new(name, about, seed);
    let mut all = [FLEXIBLE; 14];
    all[0] = 0;
    b.start.marks = [all; 2];
    for nmack in 1..=3 {
        for ks in AES_KEYS {
            for ms in 0..10 {
                let params = Params {
                    nmack,
                    mf: 1,
                    ks,
                    ms,
                    ..b.params((ks + ms) % 4)
                };
                if Layout::new(&params).is_some() {
                    let chain = b.chain(params, 25);
                    parameters::fresh(&mut b, &chain);
                    parameters::exercise(&mut b, &chain, 1);
                }
            }
        }
    }
    b.run
}

/// Every MF with every KS code: HMAC-SHA-256 takes all sizes, CMAC-AES those of AES, 2 and 3 are reserved.
pub fn functions(name: &str, about: &str, seed: u64) -> Run {
    let mut b = Bench::new(name, about, seed);
    for mf in 0..4 {
        for ks in 0..16 {
            let params = Params {
                nmack: 1,
                mf,
                ks: ks.min(8),
                ..b.params(0)
            };
            let mut chain = (*b.chain(params, 2)).clone();
            let root = chain.root();
            chain.params.ks = ks;
            b.now = chain.start().plus(-2);
            b.start();
            let signature = b.rng.bytes(64);
            let dsm = dsm::kroot_of(b.header, START_KEY, &chain, &root, &signature, None);
            let taken =
                usize::from(ks) < KEY_BITS.len() && mf < 2 && (mf == 0 || chain.params.is_cmac());
            b.deliver(b.header, 1, &dsm, if taken { 0 } else { 8 });
        }
    }
    b.run
}

/// The present section of satellite 1 with the tags and MACSEQ of the function that its chain does not name.
fn send_other_function(b: &mut Bench, infos: &[Info], outcomes: &[u8]) {
    let named = b.force.clone().expect("a chain is in force");
    let mut other = (*named).clone();
    other.params.mf = 1 - other.params.mf;
    b.force = Some(Rc::new(other));
    b.send_fields(1, infos, outcomes);
    b.force = Some(named);
    b.step();
}

/// From one function to the other and back, in chains that are otherwise the same.
pub fn mf_changes(name: &str, about: &str, seed: u64) -> Run {
    let mut b = Bench::new(name, about, seed);
    b.start.marks = [marks(&[0, 12, 11]); 2];
    for ks in AES_KEYS {
        for mf in [0, 1] {
            // One block, MS 40: six, five and four fields.
            let params = Params {
                nmack: 1,
                mf,
                ks,
                ms: 9,
                ..b.params(0)
            };
            let chain = b.chain(params, 500);
            parameters::fresh(&mut b, &chain);
            for mf in [1 - mf, 1 - mf, mf] {
                let mut later = b.force.as_ref().expect("a chain is in force").floating(1);
                later.params.mf = mf;
                tags::change_root(&mut b, later, |b, _, infos| {
                    let fields = infos.len();
                    send_other_function(b, infos, &[&[2, 4, 4][..], &vec![2; fields - 3]].concat());
                });
            }
        }
    }
    // The set of satellite 1, authentic under both in turn, is that of the last tag.
    let last = b.now.plus(-1);
    let read = b.set_read(1, last);
    b.reads(1, read);
    b.run
}

/// Each bit of a sub-frame's field turned over, and the tags of the other function.
pub fn damaged(name: &str, about: &str, seed: u64) -> Run {
    let mut b = Bench::new(name, about, seed);
    // Two blocks of KS 128, MS 20: three fields and four spare bits.
    let params = Params {
        ms: 5,
        ..b.params(0)
    }
    .with_cmac();
    let chain = b.chain(params, 1300);
    tags::turn_field_bits(&mut b, &chain);
    // The second of six fields is flexible: MACSEQ fails first.
    send_other_function(&mut b, &[Info::new(1, 0, 0); 6], &[2, 6, 2, 2, 2, 2]);
    b.run
}
