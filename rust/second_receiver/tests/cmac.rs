//! Chains whose tags and MACSEQ are under CMAC-AES (02, P1).

mod common;

use common::*;
use second_receiver::mac::MacKey;

/// The KS codes and bits of AES keys.
const AES_KEYS: [(u8, usize); 3] = [(4, 128), (6, 192), (8, 256)];
const TAGS: [(u8, usize); 10] = [
    (0, 10),
    (1, 12),
    (2, 14),
    (3, 16),
    (4, 18),
    (5, 20),
    (6, 24),
    (7, 28),
    (8, 32),
    (9, 40),
];

fn hex(text: &str) -> Vec<u8> {
    (0..text.len() / 2)
        .map(|i| u8::from_str_radix(&text[2 * i..2 * i + 2], 16).unwrap())
        .collect()
}

/// In force, with the words of PRN 2 held.
fn bench_of(chain: &TestChain) -> (Bench, [[u8; 16]; 5]) {
    let start = Start {
        ns: chain.ns,
        ..Start::default()
    };
    let mut bench = Bench::in_force(&start, chain);
    let two = words(2, 9, 0);
    bench.words(2, chain.at(0), &two);
    (bench, two)
}

// RFC 4493, 4, and the examples of SP 800-38B: the first bits of a code.
#[test]
fn published_codes() {
    let message =
        hex("6bc1bee22e409f96e93d7e117393172aae2d8a571e03ac9c9eb76fac45af8e5130c81c46a35ce411");
    for (key, codes) in [
        (
            "2b7e151628aed2a6abf7158809cf4f3c",
            [
                (0, 0xbb1d_6929_e959_3728),
                (16, 0x070a_16b4_6b4d_4144),
                (40, 0xdfa6_6747_de9a_e630),
            ],
        ),
        (
            "8e73b0f7da0e6452c810f32b809079e562f8ead2522c6b7b",
            [
                (0, 0xd17d_df46_adaa_cde5),
                (16, 0x9e99_a7bf_31e7_1090),
                (40, 0x8a1d_e5be_2eb3_1aad),
            ],
        ),
        (
            "603deb1015ca71be2b73aef0857d77811f352c073b6108d72d9810a30914dff4",
            [
                (0, 0x0289_62f6_1b7b_f89e),
                (16, 0x28a7_023f_452e_8f82),
                (40, 0xaaf3_d8f1_de56_40c2u64),
            ],
        ),
    ] {
        let key = MacKey::new(1, &hex(key)).unwrap();
        for (len, code) in codes {
            for bits in TAGS.map(|ms| ms.1) {
                assert_eq!(key.code(&message[..len], bits), code >> (64 - bits));
            }
        }
    }
    // No other key size, and no other function.
    for len in 0..40 {
        let taken = matches!(len, 16 | 24 | 32);
        assert_eq!(MacKey::new(1, &vec![5; len]).is_some(), taken);
        assert!(MacKey::new(2, &vec![5; len]).is_none());
        assert!(MacKey::new(3, &vec![5; len]).is_none());
    }
}

// Every NMACK, KS of AES and MS that fits: each field is judged, fixed and flexible; the first and
// the last bit of a tag count.
#[test]
fn every_layout() {
    for nmack in 1..=3 {
        for ks in AES_KEYS {
            for ms in TAGS {
                if 480 / usize::from(nmack) < ks.1 + ms.1 + 16 {
                    continue;
                }
                let chain = TestChain::with(3, nmack, ks, ms).keyed(60).with_cmac();
                let (mut bench, two) = bench_of(&chain);
                let right = Spec::new(2, 0, &set(&two));
                let fields = chain.block_fields() * usize::from(nmack);
                for subframe in [1, 2] {
                    let all = vec![right.clone(); fields];
                    let (number, records) = bench.send(&chain, 2, subframe, &all);
                    assert_eq!((number, found(&records)), (0, vec![1; fields]));
                }
                for bit in [0, ms.1 - 1] {
                    let all = vec![right.clone().flip(bit); fields];
                    let (number, records) = bench.clone().send(&chain, 2, 4, &all);
                    assert_eq!((number, outcomes(&records)), (0, vec![2; fields]));
                }
            }
        }
    }
}

/// The same sections with the tags and MACSEQ of the other function.
fn with_other_function(chain: &TestChain) -> TestChain {
    TestChain {
        mf: 1 - chain.mf,
        ..chain.clone()
    }
}

// A tag of the other function is wrong, and so is its MACSEQ, whichever of the two the root names.
#[test]
fn the_other_function_is_wrong() {
    for ks in AES_KEYS {
        let hmac = TestChain::with(4, 1, ks, (9, 40)).keyed(80);
        for chain in [hmac.clone(), hmac.with_cmac()] {
            let (bench, two) = bench_of(&chain);
            let all = vec![Spec::new(2, 0, &set(&two)); chain.block_fields()];
            let sent = |sections: &TestChain, subframe| {
                let (number, records) = bench.clone().send(sections, 2, subframe, &all);
                assert_eq!(number, 0, "the keys are the chain's");
                outcomes(&records)
            };
            assert!(sent(&chain, 2).iter().all(|&outcome| outcome == 1));
            assert!(sent(&chain, 3).iter().all(|&outcome| outcome == 1));
            let other = with_other_function(&chain);
            assert!(sent(&other, 2).iter().all(|&outcome| outcome == 2));
            // Flexible fields of second 30: MACSEQ goes first.
            let flexible = sent(&other, 3);
            assert_eq!(flexible[0], 2);
            assert!(flexible[1..].iter().all(|&outcome| outcome == 6));
        }
    }
}

// MACSEQ is the first 12 bits of its message's code under the key of block 1's tags.
#[test]
fn macseq() {
    for (ks, nmack) in [(AES_KEYS[0], 2), (AES_KEYS[1], 2), (AES_KEYS[2], 1)] {
        let chain = TestChain::with(4, nmack, ks, (3, 16)).keyed(80).with_cmac();
        let (bench, two) = bench_of(&chain);
        let fields = chain.block_fields() * usize::from(nmack);
        let flexible: Vec<usize> = (1..fields).collect();
        let sent = Sent {
            prn: 2,
            subframe: 3,
            status: 2,
        };
        let all = vec![Spec::new(2, 0, &set(&two)); fields];
        let section = chain.section(sent, &all, &flexible);
        let lend = |section: &[u8]| {
            let (number, records) = bench.clone().section(2, chain.at(3), HEADER, section);
            assert_eq!(number, 0);
            found(&records)
        };
        assert_eq!(lend(&section), vec![1; fields]);
        for bit in 16..28 {
            let mut damaged = section.clone();
            damaged[bit / 8] ^= 0x80 >> (bit % 8);
            assert_eq!(lend(&damaged)[1..], vec![6; fields - 1], "bit {bit}");
            assert_eq!(lend(&damaged)[0], 1, "bit {bit}");
        }
    }
}

// Slow tags wait and are judged under CMAC-AES when their key comes; one damaged bit is seen.
#[test]
fn slow_tags() {
    for ks in AES_KEYS {
        let chain = TestChain::with(4, 1, ks, (5, 20)).keyed(80).with_cmac();
        let (mut bench, two) = bench_of(&chain);
        let tag = |adkd| Spec::new(2, adkd, &set(&two));
        let fields = [tag(0), tag(11), tag(12), tag(12).flip(15)];
        let (_, records) = bench.send(&chain, 2, 3, &fields);
        assert_eq!(outcomes(&records)[..4], [9, 5, 5, 5]);
        // Its words change while they wait.
        bench.words(2, chain.at(3), &words(2, 10, 1));
        let (_, records) = bench.send(&chain, 3, 5, &[]);
        assert_eq!(records[0][..4], [1, 2, 2, 11]);
        let (_, records) = bench.send(&chain, 3, 13, &[]);
        assert_eq!(outcomes(&records)[..2], [1, 2]);
        assert_eq!(bench.read(2), Ok((set(&two), 9, chain.at(3))));
    }
}

/// Puts a root in force by blocks of PRN 35.
fn vouch(bench: &mut Bench, chain: &TestChain, first: u32) {
    let signature = [first as u8; 64];
    assert_eq!(
        bench.dsm(35, first, HEADER, 5, &chain.dsm(3, &signature)),
        0
    );
    assert_eq!(bench.good(3, &chain.message(HEADER), &signature), 0);
}

// The root changes MF and nothing else: another chain, so that waiting tags go, also those whose key
// comes after it. Then the other function judges, and sets authentic under either are read.
#[test]
fn mf_changes_between_two_sections() {
    for ks in AES_KEYS {
        let hmac = TestChain::with(1, 1, ks, (9, 40)).keyed(400);
        for before in [hmac.clone(), hmac.clone().with_cmac()] {
            let after = with_other_function(&before).floated(1);
            let (mut bench, two) = bench_of(&before);
            let five = words(5, 700, 0);
            bench.words(5, before.at(0), &five);
            let tags = |adkd| [Spec::new(1, 0, &[]), Spec::new(2, adkd, &set(&two))];
            let (_, records) = bench.send(&before, 1, 112, &tags(0));
            assert_eq!(outcomes(&records)[1], 1);
            // Its key is of the sub-frame after the root's.
            let (_, records) = bench.send(&before, 1, 111 + 2, &tags(12));
            assert_eq!(outcomes(&records)[1], 5);
            let mut same = bench.clone();
            vouch(&mut same, &before.floated(1), before.at(114));
            assert_eq!(same.receiver.waiting_tags().len(), 1, "the same chain");

            vouch(&mut bench, &after, before.at(114));
            let held = bench.receiver.chain().unwrap();
            assert_eq!(held.parameters.mf, after.mf);
            assert_eq!(bench.receiver.waiting_tags(), []);
            let own = [Spec::new(1, 0, &[]), Spec::new(5, 0, &set(&five))];
            let (number, records) = bench.send(&after, 1, 4, &own);
            assert_eq!((number, outcomes(&records)[1]), (0, 1));
            assert!(records.iter().all(|r| r[3] == 0), "no slow tag falls due");
            assert_eq!(bench.read(2), Ok((set(&two), 9, before.at(112))));
            assert_eq!(bench.read(5), Ok((set(&five), 700, after.at(4))));
        }
    }
}
