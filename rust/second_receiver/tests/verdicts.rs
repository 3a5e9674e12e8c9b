//! What verdicts do (01, "Verdicts").

mod common;

use common::*;

/// A tag that waits at sub-frame 3, second 30 of the minute, its key ten sub-frames later.
fn with_waiting_tags() -> (Bench, TestChain) {
    let (mut bench, chain) = Bench::usual();
    let two = words(2, 9, 0);
    bench.words(2, chain.at(0), &two);
    let fields = [
        Spec::new(2, 0, &set(&two)),
        Spec::new(2, 11, &set(&two)),
        Spec::new(2, 12, &set(&two)),
    ];
    let (number, records) = bench.send(&chain, 2, 3, &fields);
    assert_eq!((number, &outcomes(&records)[..3]), (0, &[9, 5, 5][..]));
    assert_eq!(bench.receiver.waiting_tags().len(), 2);
    (bench, chain)
}

#[test]
fn number_11_by_status() {
    let (bench, chain) = Bench::usual();
    let newer = TestChain {
        hour: 20,
        ..chain.clone()
    };
    for status in 0..4 {
        for cid in 0..4 {
            let mut bench = bench.clone();
            let before = bench.receiver.chain().cloned();
            let number = vouch(&mut bench, &newer, header(status, cid), 3, chain.at(0));
            let right = status != 0 && cid == 1;
            assert_eq!(
                number,
                if right { 0 } else { 11 },
                "status {status} CID {cid}"
            );
            match (right, status) {
                (true, 3) => assert_eq!(bench.receiver.chain(), None),
                (true, _) => assert_eq!(bench.receiver.chain().unwrap().time.hour, 20),
                _ => assert_eq!(bench.receiver.chain().cloned(), before),
            }
        }
    }
    // CIDKR, not the CID in force, must equal CID; for status 3 the CID in force counts, not CIDKR.
    let next = TestChain {
        cid: 2,
        hour: 20,
        ..chain.clone()
    };
    assert_eq!(
        vouch(&mut bench.clone(), &next, header(2, 2), 3, chain.at(0)),
        0
    );
    assert_eq!(
        vouch(&mut bench.clone(), &next, header(2, 1), 3, chain.at(0)),
        11
    );
    assert_eq!(
        vouch(&mut bench.clone(), &next, header(3, 1), 3, chain.at(0)),
        0
    );
    assert_eq!(
        vouch(&mut bench.clone(), &next, header(3, 2), 3, chain.at(0)),
        11
    );
    // Status 3 with no chain.
    let mut none = Bench::started(&Start::default());
    assert_eq!(vouch(&mut none, &chain, header(3, 1), 3, chain.at(0)), 11);
    assert_eq!(none.receiver.last_root(), None);
}

#[test]
fn number_9_roots() {
    let (bench, chain) = Bench::usual();
    let try_root = |week, hour, change: fn(&mut TestChain)| {
        let mut root = TestChain {
            week,
            hour,
            ..chain.clone()
        };
        change(&mut root);
        let mut bench = bench.clone();
        let before = bench.receiver.clone();
        let number = vouch(&mut bench, &root, header(2, root.cid), 3, chain.at(0));
        if number == 9 {
            assert_eq!(bench.receiver.chain(), before.chain());
            assert_eq!(bench.receiver.public_keys(), before.public_keys());
        }
        number
    };
    assert_eq!(try_root(1000, 9, |_| {}), 9, "earlier");
    assert_eq!(
        try_root(1000, 10, |_| {}),
        0,
        "equal with the same contents"
    );
    assert_eq!(
        try_root(1000, 10, |c| c.rsvd = 1),
        9,
        "equal with other contents"
    );
    assert_eq!(
        try_root(1000, 10, |c| c.cid = 2),
        9,
        "equal with other contents"
    );
    assert_eq!(
        try_root(1000, 10, |c| c.keys[0][15] ^= 1),
        9,
        "equal with other contents"
    );
    assert_eq!(try_root(1000, 11, |_| {}), 0, "later");
    assert_eq!(try_root(999, 167, |_| {}), 9, "an earlier week");
    assert_eq!(try_root(1001, 0, |_| {}), 0, "a later week");
    assert_eq!(try_root(1000, 167, |c| c.cid = 3), 0, "another chain");
    // 11 before 9.
    let mut early = bench.clone();
    let root = TestChain {
        hour: 9,
        ..chain.clone()
    };
    assert_eq!(vouch(&mut early, &root, header(2, 2), 3, chain.at(0)), 11);
    // A first root is taken whatever its time.
    for (week, hour) in [(0, 1), (4095, 167)] {
        let mut first = Bench::started(&Start::default());
        let root = TestChain {
            week,
            hour,
            ..chain.clone()
        };
        assert_eq!(vouch(&mut first, &root, header(1, 1), 3, chain.at(0)), 0);
    }
}

// Status 3 drops chain and waiting tags, and only a later root counts then.
#[test]
fn a_drop() {
    let (mut bench, chain) = with_waiting_tags();
    let before = bench.receiver.clone();
    let later_root = TestChain {
        hour: 12,
        ..chain.clone()
    };
    assert_eq!(
        vouch(&mut bench, &later_root, header(3, 1), 3, chain.at(4)),
        0
    );
    assert_eq!(bench.receiver.chain(), None);
    assert!(bench.receiver.waiting_tags().is_empty());
    assert_eq!(
        bench.receiver.last_root(),
        before.last_root(),
        "not that of the status 3 message"
    );
    assert_eq!(bench.receiver.public_keys(), before.public_keys());
    assert_eq!(bench.receiver.authentic_set(2), before.authentic_set(2));
    assert_eq!(bench.receiver.words(2), before.words(2));
    assert_eq!(bench.send(&chain, 2, 20, &[]).0, 11);
    let mut time = chain.at(21);
    let mut again = |hour, cid| {
        let root = TestChain {
            hour,
            cid,
            ..chain.clone()
        };
        let number = vouch(&mut bench, &root, header(2, cid), 3, time);
        time = later(time, 10);
        number
    };
    assert_eq!(again(9, 1), 9, "earlier");
    assert_eq!(again(10, 1), 9, "the same contents again");
    assert_eq!(again(10, 2), 9, "the same time");
    assert_eq!(again(11, 2), 0, "later");
    assert_eq!(again(12, 2), 0);
}

#[test]
fn status_3_with_the_contents_in_force_drops() {
    let (mut bench, chain) = with_waiting_tags();
    assert_eq!(vouch(&mut bench, &chain, header(3, 1), 3, chain.at(4)), 0);
    assert_eq!(bench.receiver.chain(), None);
}

#[test]
fn equal_contents_change_nothing_but_the_keys() {
    let (mut bench, chain) = with_waiting_tags();
    let before = bench.receiver.clone();
    // Another status and CPKS: the header is not of the contents.
    assert_eq!(
        vouch(&mut bench, &chain, header(1, 1) ^ 0x0C, 3, chain.at(4)),
        0
    );
    assert_eq!(bench.receiver.chain(), before.chain());
    assert!(
        bench.receiver.chain().unwrap().held_slot > 0,
        "nothing is taken back"
    );
    assert_eq!(bench.receiver.waiting_tags(), before.waiting_tags());
    assert_eq!(bench.receiver.last_root(), before.last_root());
}

/// A receiver that holds key 3 and key 7, the latter proved by the tree.
fn with_two_keys() -> (Bench, TestChain) {
    let leaf: Vec<u8> = [&[0x17], &[0x42; 33][..]].concat();
    let nodes = [[1; 32], [2; 32], [3; 32], [4; 32]];
    let join = |hash, node: &[u8; 32]| portable_hash::sha256(&[hash, *node].concat());
    let root = nodes.iter().fold(portable_hash::sha256(&leaf), join);
    let mut dsm = [&[0x70], &nodes.concat()[..], &leaf].concat();
    dsm.resize(13 * 13, 0);
    let chain = TestChain::usual();
    let start = Start {
        tree_root: root.to_vec(),
        ..Start::default()
    };
    let mut bench = Bench::in_force(&start, &chain);
    assert_eq!(bench.dsm(34, chain.at(-20), HEADER, 12, &dsm), 0);
    assert_eq!(ids(&bench), [3, 7]);
    (bench, chain)
}

fn ids(bench: &Bench) -> Vec<u8> {
    bench
        .receiver
        .public_keys()
        .iter()
        .map(|key| key.id)
        .collect()
}

#[test]
fn keys_of_lower_id_go() {
    let (bench, chain) = with_two_keys();
    let newer = TestChain {
        hour: 12,
        ..chain.clone()
    };
    let older = TestChain {
        hour: 9,
        ..chain.clone()
    };
    let after = |root: &TestChain, header, key_id| {
        let mut bench = bench.clone();
        let number = vouch(&mut bench, root, header, key_id, chain.at(0));
        (number, ids(&bench))
    };
    assert_eq!(
        after(&newer, header(2, 1), 3),
        (0, vec![3, 7]),
        "none below 3"
    );
    assert_eq!(after(&newer, header(2, 1), 7), (0, vec![7]));
    assert_eq!(after(&newer, header(1, 1), 7), (0, vec![7]));
    assert_eq!(
        after(&chain, header(2, 1), 7),
        (0, vec![7]),
        "equal contents too"
    );
    assert_eq!(
        after(&chain, header(3, 1), 7),
        (0, vec![3, 7]),
        "not with status 3"
    );
    assert_eq!(after(&older, header(2, 1), 7), (9, vec![3, 7]));
    assert_eq!(after(&newer, header(2, 2), 7), (11, vec![3, 7]));
    let mut bad = bench.clone();
    bad.dsm(35, chain.at(0), HEADER, 5, &newer.dsm(7, &[9; 64]));
    assert_eq!(bad.verdict(0, 7, &newer.message(HEADER), &[9; 64]), 15);
    assert_eq!(ids(&bad), [3, 7]);
    // A key that was dropped is not held: 7, and the same key proved again is 9.
    let mut gone = bench.clone();
    vouch(&mut gone, &newer, header(2, 1), 7, chain.at(0));
    assert_eq!(
        gone.dsm(34, chain.at(20), HEADER, 5, &newer.dsm(3, &[9; 64])),
        7
    );
}

// The held key begins again at a new root, also one that lies behind it.
#[test]
fn the_held_key_begins_again() {
    let mut chain = TestChain::with(1, 1, (4, 128), (1, 12)).keyed(300);
    chain.hour = 10;
    let mut bench = Bench::in_force(
        &Start {
            ns: 1,
            ..Start::default()
        },
        &chain,
    );
    assert_eq!(bench.send(&chain, 1, 150, &[]).0, 0);
    assert_eq!(bench.receiver.chain().unwrap().held_slot, 151);
    let floated = chain.floated(1);
    assert_eq!(vouch(&mut bench, &floated, HEADER, 3, chain.at(151)), 0);
    let now = bench.receiver.chain().unwrap();
    assert_eq!(
        (now.held_slot, now.held.as_slice()),
        (0, &floated.keys[0][..])
    );
    assert_eq!((now.root, now.time.hour), (now.held, 11));
    assert_eq!(bench.receiver.last_root().unwrap().hour, 11);
    // Sub-frame 45 of the new root is sub-frame 165 of the old.
    assert_eq!(bench.send(&floated, 1, 45, &[]).0, 0);
    assert_eq!(bench.receiver.chain().unwrap().held_slot, 46);
    assert_eq!(
        bench.receiver.chain().unwrap().held.as_slice(),
        chain.keys[166]
    );
}

// Waiting tags stay only if CID, parameters and alpha are unchanged; Rsvd is no parameter.
#[test]
fn waiting_tags_stay_with_an_unchanged_chain() {
    // The next root is 120 sub-frames after this one.
    let chain = TestChain::with(1, 2, (4, 128), (1, 12)).keyed(400);
    let mut bench = Bench::in_force(
        &Start {
            ns: 1,
            ..Start::default()
        },
        &chain,
    );
    let two = words(2, 9, 0);
    bench.words(2, chain.at(0), &two);
    let slow = Spec::new(2, 12, &set(&two));
    let quick = Spec::new(2, 11, &set(&two));
    let empty = Spec::new(2, 0, &set(&two));
    bench.send(&chain, 1, 109, &[empty.clone(), slow.clone()]); // Its key is of sub-frame 119.
    bench.send(&chain, 1, 111, &[empty.clone(), slow.clone()]); // Its key is of sub-frame 121.
    bench.send(&chain, 1, 113, &[empty.clone(), slow.clone(), quick, slow]);
    assert_eq!(bench.receiver.waiting_tags().len(), 5);
    let times = |bench: &Bench| {
        let tags = bench.receiver.waiting_tags().iter();
        tags.map(|w| (w.tag.time.0, w.tag.adkd)).collect::<Vec<_>>()
    };
    let floated = chain.floated(1);
    let after = |change: fn(&mut TestChain)| {
        let mut root = floated.clone();
        change(&mut root);
        let mut bench = bench.clone();
        let number = vouch(&mut bench, &root, header(2, root.cid), 3, chain.at(114));
        assert_eq!(number, 0);
        times(&bench)
    };
    let stay = vec![
        (chain.at(111), 12),
        (chain.at(113), 12),
        (chain.at(113), 12),
    ];
    assert_eq!(after(|_| {}), stay);
    assert_eq!(after(|root| root.rsvd = 2), stay);
    assert_eq!(after(|root| root.cid = 2), []);
    assert_eq!(after(|root| root.alpha[5] ^= 1), []);
    assert_eq!(after(|root| (root.ms_code, root.tag_bits) = (2, 14)), []);
    assert_eq!(after(|root| root.nmack = 1), []);
    assert_eq!(after(|root| root.hf = 1), []);
    assert_eq!(after(|root| root.hf = 2), []);
    assert_eq!(after(|root| root.mf = 1), []);
    let shorter_keys = |root: &mut TestChain| {
        (root.ks_code, root.key_bits) = (3, 120);
        root.keys[0].truncate(15);
    };
    assert_eq!(after(shorter_keys), []);
}

// A key's sub-frame that is the root's sub-frame 0 is not before it.
#[test]
fn a_tag_whose_key_is_of_sub_frame_0_stays() {
    let chain = TestChain::with(1, 1, (4, 128), (9, 40)).keyed(400);
    let start = Start {
        ns: 1,
        marks_0: Start::default().marks_30,
        ..Start::default()
    };
    let mut bench = Bench::in_force(&start, &chain);
    let two = words(2, 9, 0);
    bench.words(2, chain.at(0), &two);
    for (subframe, adkd) in [(109, 12), (110, 12), (118, 11), (119, 11)] {
        let sent = Sent {
            prn: 1,
            subframe,
            status: 2,
        };
        let section = chain.section(
            sent,
            &[Spec::new(2, 0, &[]), Spec::new(2, adkd, &set(&two))],
            &[1, 2, 3, 4, 5],
        );
        let (number, records) = bench.section(1, chain.at(subframe as i64), HEADER, &section);
        let last = records.iter().rev().nth(4).unwrap();
        assert_eq!((number, last[0]), (0, 5), "sub-frame {subframe}");
    }
    let floated = chain.floated(1);
    assert_eq!(vouch(&mut bench, &floated, HEADER, 3, chain.at(120)), 0);
    let tags = bench.receiver.waiting_tags();
    let kept: Vec<u32> = tags.iter().map(|w| w.tag.time.0).collect();
    assert_eq!(kept, [chain.at(110), chain.at(119)]);
    // They are judged by the new root's slots, in arrival order.
    let sent = Sent {
        prn: 1,
        subframe: 10,
        status: 2,
    };
    let (number, records) =
        bench.section(1, floated.at(10), HEADER, &floated.section(sent, &[], &[]));
    assert_eq!((number, &outcomes(&records)[..2]), (0, &[1, 1][..]));
    assert!(bench.receiver.waiting_tags().is_empty());
    assert_eq!(bench.read(2), Ok((set(&two), 9, chain.at(119))));
}
