//! Chains whose keys are made with SHA3-224 and SHA3-256 (02, P6).

mod common;

use common::*;
use second_receiver::hash::{digest_into, is_taken};

const KEYS: [(u8, usize); 9] = [
    (0, 96),
    (1, 104),
    (2, 112),
    (3, 120),
    (4, 128),
    (5, 160),
    (6, 192),
    (7, 224),
    (8, 256),
];

/// Each HF with each KS that its digest has, the hash of document 01 among them.
fn all() -> impl Iterator<Item = (u8, (u8, usize))> {
    let pairs = (0..3).flat_map(|hf| KEYS.map(|ks| (hf, ks)));
    pairs.filter(|&(hf, ks)| hf != 1 || ks.1 <= 224)
}

/// In force, with the words of PRN 2 held.
fn bench_of(chain: &TestChain) -> (Bench, [[u8; 16]; 5]) {
    let start = Start {
        ns: chain.ns,
        ..Start::default()
    };
    let mut bench = Bench::in_force(&start, chain);
    let two = words(2, 9, 0);
    bench.words(2, chain.at(0), &two);
    (bench, two)
}

// FIPS 180-4's and FIPS 202's examples: the first bytes of a digest, up to all of it.
#[test]
fn published_digests() {
    let abc = [
        "ba7816bf8f01cfea414140de5dae2223b00361a396177a9cb410ff61f20015ad",
        "e642824c3f8cf24ad09234ee7d3c766fc9a3a5168d0c94ad73b46fdf",
        "3a985da74fe225b2045c172d6bd390bd855f086e3e9d525b46bfe24511431532",
    ];
    for (hf, digest) in (0..).zip(abc.map(hex)) {
        for (_, bits) in KEYS {
            assert_eq!(is_taken(hf, bits), bits <= 8 * digest.len(), "HF {hf}");
            if bits <= 8 * digest.len() {
                let mut key = vec![0; bits / 8];
                digest_into(hf, b"abc", &mut key);
                assert_eq!(key, digest[..bits / 8]);
            }
        }
    }
    assert!(!KEYS.iter().any(|&(_, bits)| is_taken(3, bits)));
}

// One step of each hash, worked out apart: key 1 of 16 bytes, slot 0 of the chain of 1000/hour 10,
// alpha 1 to 6.
#[test]
fn one_step() {
    for (hf, root) in [
        (0, "dcaf2d445fa0018a8d0f750160f68b36"),
        (1, "d0768d7b9ff881a312f5969e905c8a48"),
        (2, "eaafd69b84d1b207a16fa2b3b94a7892"),
    ] {
        let mut chain = TestChain::with(1, 1, (4, 128), (9, 40)).hashed(hf);
        chain.keys = vec![hex(root), vec![7; 16]];
        let (mut bench, _) = bench_of(&chain);
        assert_eq!(bench.send(&chain, 1, 0, &[]).0, 0, "HF {hf}");
        assert_eq!(bench.receiver.chain().unwrap().held_slot, 1);
    }
}

// Every HF and KS: keys above the held one hash down to it, those below equal it hashed down; one
// bit of a key is seen.
#[test]
fn keys_above_and_below() {
    for (hf, ks) in all() {
        let chain = TestChain::with(5, 1, ks, (5, 20)).hashed(hf).keyed(80);
        let (mut bench, _) = bench_of(&chain);
        let key_at = chain.block_fields() * (20 + 16);
        let lend = |bench: &mut Bench, prn, subframe: usize, damaged: Option<usize>| {
            let sent = Sent {
                prn,
                subframe,
                status: 2,
            };
            let mut section = chain.section(sent, &[], &[]);
            if let Some(bit) = damaged {
                section[(key_at + bit) / 8] ^= 0x80 >> ((bit + key_at) % 8);
            }
            bench
                .section(prn, chain.at(subframe as i64), HEADER, &section)
                .0
        };
        for (subframe, prn, slot) in [(3, 4, 19), (3, 2, 19), (3, 5, 20), (9, 1, 46), (9, 3, 48)] {
            for bit in [0, ks.1 / 2, ks.1 - 1] {
                let number = lend(&mut bench.clone(), prn, subframe, Some(bit));
                assert_eq!(number, 12, "HF {hf} KS {} bit {bit}", ks.1);
            }
            assert_eq!(
                lend(&mut bench, prn, subframe, None),
                0,
                "HF {hf} KS {}",
                ks.1
            );
            let held = bench.receiver.chain().unwrap();
            assert_eq!((held.held_slot, held.parameters.hf), (slot, hf));
            assert_eq!(held.held.as_slice(), chain.keys[slot as usize]);
        }
    }
}

// Sections of a chain that is made with another hash are refused, whichever the root names.
#[test]
fn another_hash_is_wrong() {
    for (hf, ks) in all() {
        let named = TestChain::with(5, 1, ks, (5, 20)).hashed(hf).keyed(80);
        for (other, _) in all().filter(|&(other, own)| other != hf && own == ks) {
            // Another hash below the same key of the highest slot.
            let made = TestChain::with(5, 1, ks, (5, 20)).hashed(other).keyed(80);
            assert_eq!(made.keys[80], named.keys[80]);
            let (mut bench, _) = bench_of(&named);
            let mut sections = made.clone();
            sections.keys[0] = named.keys[0].clone();
            assert_eq!(bench.clone().send(&sections, 2, 3, &[]).0, 12);
            // A root of the other hash: its own key is slot 0 of the sections.
            sections = TestChain { hf, ..made.clone() };
            let (mut wrong, _) = bench_of(&sections);
            assert_eq!(wrong.send(&made, 2, 3, &[]).0, 12, "HF {hf} not {other}");
            assert_eq!(bench.send(&named, 2, 3, &[]).0, 0);
        }
    }
}

// Every HF and KS, both MAC functions: tags at once and slow ones, under the keys of the chain's hash;
// one damaged bit is seen.
#[test]
fn tags() {
    for (hf, ks) in all() {
        for mf in [0, 1] {
            if mf == 1 && !matches!(ks.1, 128 | 192 | 256) {
                continue;
            }
            let chain = TestChain {
                mf,
                ..TestChain::with(4, 1, ks, (5, 20)).hashed(hf).keyed(80)
            };
            let (mut bench, two) = bench_of(&chain);
            let tag = |adkd| Spec::new(2, adkd, &set(&two));
            let fields = [tag(0), tag(11), tag(12), tag(12).flip(15)];
            let (number, records) = bench.send(&chain, 2, 3, &fields);
            assert_eq!((number, &outcomes(&records)[..4]), (0, &[9, 5, 5, 5][..]));
            // Its words change while they wait.
            bench.words(2, chain.at(3), &words(2, 10, 1));
            let (_, records) = bench.send(&chain, 3, 5, &[]);
            assert_eq!(records[0][..4], [1, 2, 2, 11]);
            let (_, records) = bench.send(&chain, 3, 13, &[]);
            assert_eq!(outcomes(&records)[..2], [1, 2]);
            assert_eq!(bench.read(2), Ok((set(&two), 9, chain.at(3))));
        }
    }
}

// A long way down, with every hash.
#[test]
fn a_gap() {
    for hf in 0..3 {
        let chain = TestChain {
            hour: 0,
            ..TestChain::with(1, 1, (7, 224), (0, 10))
        };
        let chain = chain.hashed(hf).keyed(20_001);
        let (mut bench, _) = bench_of(&chain);
        assert_eq!(bench.send(&chain, 1, 20_000, &[]).0, 0, "HF {hf}");
        let held = bench.receiver.chain().unwrap();
        assert_eq!(held.held.as_slice(), chain.keys[20_001]);
    }
}

// The root changes HF and nothing else: another chain, so that waiting tags go, also those whose key
// comes after it. Then the keys are of the other hash, and sets authentic under either are read.
#[test]
fn hf_changes_between_two_sections() {
    for (hf, ks) in all() {
        let before = TestChain::with(1, 1, ks, (9, 40)).hashed(hf).keyed(400);
        for (other, _) in all().filter(|&(other, own)| other != hf && own == ks) {
            let after = TestChain {
                hour: before.hour + 1,
                ..before.clone().hashed(other)
            }
            .keyed(280);
            // The same KROOT, from which no key of the other hash follows.
            let mut same_root = before.floated(1);
            same_root.hf = other;
            let (mut bench, two) = bench_of(&before);
            let five = words(5, 700, 0);
            bench.words(5, before.at(0), &five);
            let tags = |adkd| [Spec::new(1, 0, &[]), Spec::new(2, adkd, &set(&two))];
            let (_, records) = bench.send(&before, 1, 112, &tags(0));
            assert_eq!(outcomes(&records)[1], 1);
            // Its key is of the sub-frame after the root's.
            let (_, records) = bench.send(&before, 1, 113, &tags(12));
            assert_eq!(outcomes(&records)[1], 5);
            let put = |root: &TestChain| {
                let mut bench = bench.clone();
                assert_eq!(vouch(&mut bench, root, HEADER, 3, before.at(114)), 0);
                assert_eq!(bench.receiver.chain().unwrap().parameters.hf, root.hf);
                bench
            };
            let mut same = put(&before.floated(1));
            assert_eq!(same.receiver.waiting_tags().len(), 1, "the same chain");
            let (number, records) = same.send(&before, 1, 124, &[]);
            assert_eq!((number, &records[0][..4]), (0, &[1, 1, 2, 12][..]));

            let mut changed = put(&same_root);
            assert_eq!(changed.receiver.waiting_tags(), []);
            assert_eq!(changed.send(&before, 1, 124, &[]).0, 12);

            let mut bench = put(&after);
            assert_eq!(bench.receiver.waiting_tags(), []);
            let own = [Spec::new(1, 0, &[]), Spec::new(5, 0, &set(&five))];
            let (number, records) = bench.send(&after, 1, 4, &own);
            assert_eq!((number, outcomes(&records)[1]), (0, 1));
            assert!(records.iter().all(|r| r[3] == 0), "no slow tag falls due");
            assert_eq!(bench.read(2), Ok((set(&two), 9, before.at(112))));
            assert_eq!(bench.read(5), Ok((set(&five), 700, after.at(4))));
        }
    }
}

// The tree stays on SHA-256: under a chain of every hash a key by DSM-PKR is added.
#[test]
fn the_tree_stays() {
    for hf in 0..3 {
        let chain = TestChain::usual().hashed(hf).keyed(320);
        let leaf = leaf(1, 5, 33);
        let (root, dsm) = tree_message(&leaf, 9, 13);
        let start = Start {
            tree_root: root,
            ..Start::default()
        };
        let mut bench = Bench::in_force(&start, &chain);
        assert_eq!(bench.dsm(35, chain.at(1), HEADER, 12, &dsm), 0);
        assert!(bench.receiver.public_keys().iter().any(|key| key.id == 5));
    }
}
