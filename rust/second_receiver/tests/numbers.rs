//! Each condition of 01's table of numbers: a call whose answer is that number, and one next to it
//! whose answer isn't. Then pairs of conditions, so that the order of checks shows.

mod common;

use common::*;
use second_receiver::Receiver;

const T: u32 = 1000 << 20 | 36_000;

/// A change that makes one valid value another.
type Change<T> = fn(&mut T);

fn start_number(change: impl Fn(&mut Start)) -> u8 {
    let mut start = Start::default();
    change(&mut start);
    start.send(&mut Receiver::new())
}

#[test]
fn number_1_start() {
    let changes: [Change<Start>; 8] = [
        |s| s.marks_0.truncate(13),
        |s| s.marks_0.push(0),
        |s| s.marks_30.truncate(13),
        |s| s.marks_30.push(0),
        |s| s.tree_root.truncate(31),
        |s| s.tree_root.push(0),
        |s| s.key.truncate(66),
        |s| s.key.push(0),
    ];
    assert_eq!(start_number(|_| {}), 0);
    for change in changes {
        assert_eq!(start_number(change), 1);
        // 1 goes before 2 (A80).
        assert_eq!(start_number(|s| (change(s), s.ns = 0).1), 1);
        assert_eq!(start_number(|s| (change(s), s.key_type = 4).1), 1);
    }
}

#[test]
fn number_1_other_calls() {
    let (bench, chain) = Bench::usual();
    let mut r = bench.receiver.clone();
    let word = words(1, 3, 0)[0];
    assert_eq!(r.word(1, T, &word[..15]), 1);
    assert_eq!(r.word(1, T, &[&word[..], &[0]].concat()), 1);
    assert_eq!(r.word(99, T, &word[..15]), 1, "1 before 2");
    assert_eq!(r.word(1, T, &word), 0);

    let mut r = bench.receiver.clone();
    for (fields, area) in [
        (74, 3240),
        (76, 3240),
        (75, 3239),
        (75, 3241),
        (75, 0),
        (0, 3240),
    ] {
        let mut lent = vec![0xEE; area];
        for prn in [1, 37] {
            let answer = r.subframe(prn, T, &vec![1; fields], &mut lent);
            assert_eq!((answer.hkroot, answer.mack, answer.records), (1, 1, 0));
        }
        assert_eq!(lent, vec![0xEE; area]);
    }
    assert_eq!(r, bench.receiver);
    assert_ne!(r.subframe(1, T, &[1; 75], &mut [0; 3240]).hkroot, 1);

    let mut r = bench.receiver.clone();
    for (message, signature) in [(44, 132), (46, 132), (45, 131), (45, 133)] {
        assert_eq!(r.verdict(1, 3, &vec![0; message], &vec![0; signature]), 1);
        assert_eq!(
            r.verdict(2, 3, &vec![0; message], &vec![0; signature]),
            1,
            "1 before 2"
        );
    }
    assert_eq!(r.verdict(1, 3, &[0; 45], &[0; 132]), 14);

    for len in [0, 68, 70] {
        assert_eq!(r.read_set(1, &mut vec![0; len]).number, 1);
        assert_eq!(r.read_set(37, &mut vec![0; len]).number, 1, "1 before 2");
    }
    assert_eq!(r.read_set(1, &mut [0; 69]).number, 16);

    let mut bench = bench;
    bench.dsm(35, T, HEADER, 1, &chain.dsm(3, &[8; 64]));
    for (m, s, k) in [
        (44, 132, 67),
        (46, 132, 67),
        (45, 131, 67),
        (45, 133, 67),
        (45, 132, 66),
        (45, 132, 68),
    ] {
        let (mut m, mut s, mut k) = (vec![0xEE; m], vec![0xEE; s], vec![0xEE; k]);
        assert_eq!(
            bench.receiver.read_waiting(&mut m, &mut s, &mut k).number,
            1
        );
        assert!([m, s, k].concat().iter().all(|&byte| byte == 0xEE));
    }
    assert_eq!(
        bench
            .receiver
            .read_waiting(&mut [0; 45], &mut [0; 132], &mut [0; 67])
            .number,
        0
    );
}

#[test]
fn number_2_start() {
    for (ns, number) in [(0, 2), (1, 0), (36, 0), (37, 2), (255, 2)] {
        assert_eq!(start_number(|s| s.ns = ns), number, "NS {ns}");
    }
    for (key_id, number) in [(0, 0), (15, 0), (16, 2), (255, 2)] {
        assert_eq!(
            start_number(|s| s.key_id = key_id),
            number,
            "key ID {key_id}"
        );
    }
    for (key_type, number) in [(0, 0), (3, 0), (4, 2), (255, 2)] {
        assert_eq!(
            start_number(|s| s.key_type = key_type),
            number,
            "key type {key_type}"
        );
    }
    for maclt in [0, 255] {
        assert_eq!(start_number(|s| s.maclt = maclt), 0, "MACLT {maclt}");
    }
    for (mark, number) in [(0, 0), (15, 0), (16, 2), (254, 2), (255, 0)] {
        for place in 1..14 {
            assert_eq!(
                start_number(|s| s.marks_0[place] = mark),
                number,
                "mark {place} {mark}"
            );
            assert_eq!(
                start_number(|s| s.marks_30[place] = mark),
                number,
                "mark {place} {mark}"
            );
        }
    }
    for first in [1, 11, 12, 15, 255] {
        assert_eq!(start_number(|s| s.marks_0[0] = first), 2);
        assert_eq!(start_number(|s| s.marks_30[0] = first), 2);
    }
}

/// An authentic set of PRN 2 and a candidate of PRN 5, by a section of sub-frame 1.
fn with_set_and_candidate(bench: &mut Bench, chain: &TestChain) {
    bench.words(2, chain.at(0), &words(2, 9, 0));
    bench.words(5, chain.at(0), &words(5, 9, 0));
    let tag = |prn| Spec::new(prn, 0, &set(&words(prn, 9, 0)));
    bench.send(chain, 2, 1, &[tag(2), tag(2), tag(2), tag(2), tag(5)]);
    assert!(bench.read(2).is_ok());
    assert!(bench.receiver.candidate(5).is_some());
}

// A refused start leaves all as before; an accepted one holds only what it was given.
#[test]
fn starts_again() {
    let (mut bench, chain) = Bench::usual();
    with_set_and_candidate(&mut bench, &chain);
    let before = bench.receiver.clone();
    assert_eq!(
        Start {
            ns: 0,
            ..Start::default()
        }
        .send(&mut bench.receiver),
        2
    );
    assert_eq!(bench.receiver, before);
    let start = Start {
        key_id: 5,
        key_type: 2,
        ns: 7,
        ..Start::default()
    };
    assert_eq!(start.send(&mut bench.receiver), 0);
    assert_eq!(bench.receiver, Bench::started(&start).receiver);
    assert_eq!(bench.read(2), Err(16));
    let keys = bench.receiver.public_keys();
    assert_eq!((keys.len(), keys[0].id, keys[0].key_type), (1, 5, 2));
    assert_eq!(keys[0].bytes, (0..49).collect::<Vec<u8>>());
}

// A word with the time `gst` for `prn`, of a type that has no SVID.
fn word_number(bench: &Bench, prn: u8, gst: u32) -> u8 {
    bench.receiver.clone().word(prn, gst, &words(1, 3, 0)[0])
}

fn subframe_numbers(bench: &Bench, prn: u8, gst: u32) -> (u8, u8) {
    bench
        .clone()
        .subframe(prn, gst, &hkroot(HEADER, 11, 1, &[0; 13]), &[0; 60])
        .0
}

#[test]
fn number_2_prn_and_time() {
    let bench = Bench::started(&Start::default());
    for (prn, number) in [(0, 2), (1, 0), (36, 0), (37, 2), (255, 2)] {
        assert_eq!(word_number(&bench, prn, T), number, "word {prn}");
        let numbers = if number == 0 { (0, 11) } else { (2, 2) };
        assert_eq!(subframe_numbers(&bench, prn, T), numbers, "sub-frame {prn}");
        assert_eq!(
            bench.read(prn),
            Err(if number == 0 { 16 } else { 2 }),
            "read {prn}"
        );
    }
    for week in [0, 947, 4095] {
        for (second, number) in [
            (0, 0),
            (30, 0),
            (604_770, 0),
            (604_800, 2),
            (604_785, 2),
            (1, 2),
            (0xF_FFF0, 2),
        ] {
            assert_eq!(
                word_number(&bench, 1, gst(week, second)),
                number,
                "word {second}"
            );
            let numbers = if number == 0 { (0, 11) } else { (2, 2) };
            assert_eq!(
                subframe_numbers(&bench, 1, gst(week, second)),
                numbers,
                "sub-frame {second}"
            );
        }
    }
}

#[test]
fn number_2_svid() {
    let mut bench = Bench::started(&Start::default());
    for prn in [1, 18, 36] {
        assert_eq!(bench.receiver.word(prn, T, &words(prn, 3, 0)[3]), 0);
        assert_eq!(bench.receiver.word(prn, T, &words(prn ^ 32, 3, 0)[3]), 2);
        assert_eq!(bench.receiver.word(prn, T, &words(prn ^ 1, 3, 0)[3]), 2);
        // Other types have no SVID.
        for kind in [0, 1, 2, 4] {
            assert_eq!(bench.receiver.word(prn, T, &words(prn ^ 1, 3, 0)[kind]), 0);
        }
    }
}

#[test]
fn number_2_verdict() {
    let mut bench = Bench::started(&Start::default());
    for (verdict, key_id, number) in [
        (0, 3, 14),
        (1, 3, 14),
        (2, 3, 2),
        (255, 3, 2),
        (1, 15, 14),
        (1, 16, 2),
    ] {
        assert_eq!(
            bench.verdict(verdict, key_id, &[1], &[]),
            number,
            "{verdict} {key_id}"
        );
    }
}

#[test]
fn number_3_subframes() {
    let mut bench = Bench::started(&Start::default());
    let numbers = |bench: &Bench, prn, moved| subframe_numbers(bench, prn, later(T, moved));
    bench.block(5, T, HEADER, (11, 1), &[0; 13]);
    assert_eq!(numbers(&bench, 5, 0), (3, 3), "not later for its PRN");
    assert_eq!(numbers(&bench, 5, -1), (3, 3));
    assert_eq!(numbers(&bench, 5, 1), (0, 11));
    assert_eq!(
        numbers(&bench, 6, 0),
        (0, 11),
        "another PRN at the same time"
    );
    assert_eq!(numbers(&bench, 6, -1), (3, 3), "earlier than the last");
    // Refused ones touch no clock.
    let before = bench.receiver.clone();
    bench.subframe(6, later(T, -1), &[1; 15], &[0; 60]);
    bench.subframe(37, later(T, 9), &[1; 15], &[0; 60]);
    bench.subframe(5, T, &[1; 15], &[0; 60]);
    assert_eq!(bench.receiver, before);
    // Words move no clock of sub-frames, and sub-frames none of words (A13, A14).
    bench.words(5, later(T, 4), &words(5, 3, 0));
    assert_eq!(numbers(&bench, 5, 1), (0, 11));
    assert_eq!(word_number(&bench, 6, later(T, -9)), 0);
    // The week before is earlier.
    let mut bench = Bench::started(&Start::default());
    bench.block(5, gst(1001, 0), HEADER, (11, 1), &[0; 13]);
    assert_eq!(subframe_numbers(&bench, 6, gst(1000, 604_770)), (3, 3));
}

#[test]
fn number_3_words() {
    let mut bench = Bench::started(&Start::default());
    let [one, two, ..] = words(5, 3, 0);
    let mut other = one;
    other[0] = 6 << 2;
    assert_eq!(bench.receiver.word(5, later(T, 3), &other), 0);
    assert_eq!(
        bench.receiver.words(5).unwrap().clock,
        None,
        "other types move no clock"
    );
    assert_eq!(bench.receiver.word(5, T, &one), 0);
    assert_eq!(
        bench.receiver.word(5, later(T, -1), &two),
        3,
        "one clock for all types"
    );
    assert_eq!(
        bench.receiver.word(5, later(T, -1), &other),
        3,
        "other types too"
    );
    assert_eq!(bench.receiver.word(5, T, &two), 0, "the same sub-frame");
    assert_eq!(bench.receiver.word(6, later(T, -1), &two), 0, "another PRN");
    let before = bench.receiver.clone();
    for kind in [0, 6, 63] {
        other[0] = kind << 2;
        assert_eq!(bench.receiver.word(5, later(T, 9), &other), 0);
    }
    assert_eq!(bench.receiver, before);
}

/// A receiver whose tree proves `leaf`, and its HKROOT number for the DSM-PKR of `blocks` blocks.
fn pkr_number(leaf: &[u8], at: u8, blocks: usize) -> (Bench, u8) {
    let (tree_root, dsm) = tree_message(leaf, at, blocks);
    let mut bench = Bench::started(&Start {
        tree_root,
        ..Start::default()
    });
    let number = bench.dsm(7, T, HEADER, 12, &dsm);
    (bench, number)
}

#[test]
fn number_4_stopped() {
    let (tree_root, dsm) = tree_message(&leaf(4, 0, 13), 6, 11);
    let chain = TestChain::usual();
    let mut bench = Bench::in_force(
        &Start {
            tree_root,
            ..Start::default()
        },
        &chain,
    );
    let tag = |prn| Spec::new(prn, 0, &set(&words(prn, 9, 0)));
    with_set_and_candidate(&mut bench, &chain);
    bench.dsm(3, chain.at(1), HEADER, 3, &chain.dsm(3, &[8; 64]));
    let last = chain.at(20);
    for (i, block) in dsm.chunks(13).enumerate().take(10) {
        let time = chain.at(9 + i as i64);
        assert_eq!(bench.block(7, time, HEADER, (13, i as u8), block), 0);
    }
    assert!(!bench.receiver.is_stopped());
    // Its section would be 12 or 0; it is not judged.
    let sent = Sent {
        prn: 7,
        subframe: 20,
        status: 2,
    };
    let section = chain.section(sent, &[tag(2)], &[]);
    let answer = bench.subframe(7, last, &hkroot(HEADER, 13, 10, &dsm[130..]), &section);
    assert_eq!(answer, ((0, 4), vec![]));
    assert!(bench.receiver.is_stopped());
    assert_eq!(
        bench.receiver.subframe_clock(7).unwrap().0,
        last,
        "its time noted"
    );
    assert_eq!(
        bench.receiver.last_subframe().unwrap().0,
        last,
        "its time noted"
    );

    let stopped = bench.receiver.clone();
    assert_eq!(
        bench.receiver.word(2, later(last, 1), &words(2, 9, 0)[0]),
        4
    );
    assert_eq!(
        bench.receiver.word(2, chain.at(-9), &words(2, 9, 0)[0]),
        4,
        "4 before 3"
    );
    assert_eq!(
        bench.receiver.word(2, last, &words(3, 9, 0)[3]),
        2,
        "2 before 4"
    );
    assert_eq!(
        bench.subframe(8, later(last, 1), &[0; 15], &[0; 60]).0,
        (4, 4),
        "4 before 5"
    );
    assert_eq!(
        bench.subframe(8, later(last, -1), &[1; 15], &[0; 60]).0,
        (4, 4),
        "4 before 3"
    );
    assert_eq!(
        bench.subframe(38, last, &[1; 15], &[0; 60]).0,
        (2, 2),
        "2 before 4"
    );
    assert_eq!(bench.good(3, &chain.message(HEADER), &[8; 64]), 4);
    assert_eq!(bench.good(3, &[7], &[8; 64]), 4, "4 before 14");
    assert_eq!(bench.receiver, stopped, "all as before");
    // Reads are answered as otherwise, and candidates stay.
    assert!(bench.read(2).is_ok());
    assert!(bench.receiver.candidate(5).is_some());
    let waiting = bench
        .receiver
        .read_waiting(&mut [0; 45], &mut [0; 132], &mut [0; 67]);
    assert_eq!(
        (waiting.number, waiting.key_id, waiting.key_type),
        (0, 3, 1)
    );
    assert_eq!(
        Start {
            ns: 99,
            ..Start::default()
        }
        .send(&mut bench.receiver),
        2
    );
    assert!(bench.receiver.is_stopped());
    assert_eq!(Start::default().send(&mut bench.receiver), 0);
    assert_eq!(bench.receiver.word(2, T, &words(2, 9, 0)[0]), 0);
}

#[test]
fn number_5_zero_bytes() {
    let mut bench = Bench::started(&Start::default());
    assert_eq!(bench.subframe(18, T, &[0; 15], &[0; 60]).0, (5, 5));
    assert_eq!(
        bench.receiver.subframe_clock(18).unwrap().0,
        T,
        "time noted"
    );
    assert_eq!(bench.receiver.last_subframe().unwrap().0, T, "time noted");
    assert_eq!(
        bench.subframe(18, T, &[0; 15], &[0; 60]).0,
        (3, 3),
        "3 before 5"
    );
    assert_eq!(
        bench.subframe(17, later(T, -1), &[0; 15], &[0; 60]).0,
        (3, 3),
        "3 before 5"
    );
    assert_eq!(
        bench.subframe(37, T, &[0; 15], &[0; 60]).0,
        (2, 2),
        "2 before 5"
    );
    let mut section = [0; 60];
    section[59] = 1;
    // Block 0 with NB 0 is reserved.
    assert_eq!(
        bench.subframe(1, T, &[0; 15], &section).0,
        (6, 11),
        "a single bit"
    );
    assert_eq!(
        bench.subframe(2, T, &hkroot(0, 0, 1, &[0; 13]), &[0; 60]).0,
        (0, 11),
        "a single bit"
    );
}

#[test]
fn number_6_nb_and_block_ids() {
    let bench = Bench::started(&Start::default());
    for nb in 0..16u8 {
        let mut bench = bench.clone();
        let reserved = nb == 0 || nb > 10;
        let mut block_0 = [3; 13];
        block_0[0] = nb << 4;
        let number = bench.block(1, T, HEADER, (2, 0), &block_0);
        assert_eq!(number, if reserved { 6 } else { 0 }, "NB {nb}");
        // The last block completes a DSM under key ID 0, which is not held; then there is no block
        // 0.
        for id in 1..16 {
            let complete = !reserved && id == nb + 5;
            let number = bench.block(1 + id, T, HEADER, (2, id), &[id; 13]);
            assert_eq!(number, if complete { 7 } else { 0 }, "NB {nb} block {id}");
        }
    }
    // Too high against the block 0 held; the other blocks stay.
    let mut bench = bench;
    assert_eq!(bench.block(1, T, HEADER, (2, 0), &[0x10; 13]), 0);
    assert_eq!(bench.block(2, T, HEADER, (2, 6), &[1; 13]), 0);
    let before = bench.receiver.dsm(2).unwrap().clone();
    assert_eq!(bench.block(3, T, HEADER, (2, 7), &[1; 13]), 6);
    assert_eq!(bench.block(4, T, HEADER, (2, 15), &[1; 13]), 6);
    assert_eq!(bench.receiver.dsm(2).unwrap(), &before);
    assert_eq!(bench.block(5, T, HEADER, (2, 5), &[1; 13]), 0);
}

/// The HKROOT number of a DSM-KROOT under key 3, of which `change` has changed the contents.
fn kroot_number(start: &Start, change: impl Fn(&mut Vec<u8>)) -> u8 {
    let mut contents = TestChain::usual().contents();
    change(&mut contents);
    let dsm = dsm_kroot(3, &contents, &[9; 64]);
    Bench::started(start).dsm(5, T, HEADER, 4, &dsm)
}

#[test]
fn number_6_kroot_size() {
    let signatures = [56, 64, 96, 132];
    let sizes = [12, 13, 14, 15, 16, 20, 24, 28, 32];
    for (key_type, signature) in (0..).zip(signatures) {
        for (code, size) in (0..).zip(sizes) {
            let chain = TestChain::with(4, 1, (code, size * 8), (1, 12)).keyed(1);
            let dsm = chain.dsm(3, &vec![9; signature]);
            let number = |blocks: usize| {
                let mut dsm = dsm.clone();
                dsm[0] = (blocks as u8 - 6) << 4 | 3;
                dsm.resize(blocks * 13, 0);
                let start = Start {
                    key_type,
                    ..Start::default()
                };
                let mut bench = Bench::started(&start);
                (bench.dsm(5, T, HEADER, 4, &dsm), bench)
            };
            let least = (13 + size + signature).div_ceil(13).max(7);
            for blocks in 7..=16 {
                let (number, bench) = number(blocks);
                assert_eq!(
                    number,
                    if blocks == least { 0 } else { 6 },
                    "type {key_type} size {size}"
                );
                assert_eq!(bench.receiver.waiting_message().is_some(), number == 0);
            }
            let (_, bench) = number(least);
            let (mut m, mut s, mut k) = ([1; 45], [1; 132], [1; 67]);
            let answer = bench.receiver.read_waiting(&mut m, &mut s, &mut k);
            assert_eq!(
                (answer.number, answer.key_id, answer.key_type),
                (0, 3, key_type)
            );
            let mut message = chain.message(HEADER);
            message.resize(45, 0);
            assert_eq!(m[..], message);
            assert_eq!(s[..signature], vec![9; signature]);
            assert!(s[signature..].iter().all(|&byte| byte == 0));
            let len = [29, 33, 49, 67][usize::from(key_type)];
            assert_eq!(k[..len], (0..len as u8).collect::<Vec<_>>());
            assert!(k[len..].iter().all(|&byte| byte == 0));
        }
    }
}

#[test]
fn number_6_pkr() {
    for (key_type, len, least) in [(0, 29, 13), (1, 33, 13), (2, 49, 14), (3, 67, 16)] {
        for blocks in 10..=16 {
            let (bench, number) = pkr_number(&leaf(key_type, 9, len), 5, blocks);
            let right = blocks == least;
            assert_eq!(
                number,
                if right { 0 } else { 6 },
                "type {key_type} blocks {blocks}"
            );
            assert_eq!(
                bench.receiver.public_keys().len(),
                if right { 2 } else { 1 }
            );
        }
    }
    for blocks in 11..=16 {
        let len = blocks * 13 - 130;
        let (bench, number) = pkr_number(&leaf(4, 0, len), 5, blocks);
        assert_eq!(
            (number, bench.receiver.is_stopped()),
            (0, true),
            "emergency of {blocks} blocks"
        );
        let (bench, number) = pkr_number(&leaf(4, 1, len), 5, blocks);
        assert_eq!(
            (number, bench.receiver.is_stopped()),
            (6, false),
            "emergency ID 1"
        );
        for key_type in [5, 15] {
            assert_eq!(
                pkr_number(&leaf(key_type, 0, len), 5, blocks).1,
                6,
                "type {key_type}"
            );
        }
    }
    // Ten blocks hold no emergency key; under ten there is no type.
    let (bench, number) = pkr_number(&leaf(4, 0, 0), 5, 10);
    assert_eq!((number, bench.receiver.is_stopped()), (6, false));
    for blocks in 7..10 {
        let mut dsm = vec![0x40; blocks * 13];
        dsm[0] = (blocks as u8 - 6) << 4;
        assert_eq!(
            Bench::started(&Start::default()).dsm(5, T, HEADER, 12, &dsm),
            6
        );
    }
}

#[test]
fn number_7_key_not_held() {
    let chain = TestChain::usual();
    for (id, number) in [(2, 7), (3, 0), (4, 7), (0, 7), (15, 7)] {
        let mut bench = Bench::started(&Start::default());
        assert_eq!(
            bench.dsm(5, T, HEADER, 4, &chain.dsm(id, &[9; 64])),
            number,
            "key {id}"
        );
        assert_eq!(bench.receiver.dsm(4).unwrap().present(), 0, "taken out");
        assert_eq!(bench.receiver.waiting_message().is_some(), number == 0);
    }
}

#[test]
fn number_8_parameters() {
    let start = Start::default();
    assert_eq!(kroot_number(&start, |_| {}), 0);
    for value in 1..4 {
        assert_eq!(
            kroot_number(&start, |c| c[3] |= value << 4),
            8,
            "MO {value}"
        );
        assert_eq!(
            kroot_number(&start, |c| c[3] |= value << 6),
            0,
            "Rsvd {value}"
        );
    }
    for (nmack, number) in [(0, 8), (1, 0), (2, 0), (3, 0)] {
        assert_eq!(
            kroot_number(&start, |c| c[0] = c[0] & 0xCF | nmack << 4),
            number,
            "NMACK {nmack}"
        );
    }
    for code in 0..16u8 {
        // A size of another key than the contents have may then be 6, but not 8.
        let number = kroot_number(&start, |c| {
            c[0] = c[0] & 0xCF | 1 << 4;
            c[1] = c[1] & 15 | code << 4;
        });
        assert_eq!(number == 8, code > 8, "KS code {code}");
        let number = kroot_number(&start, |c| {
            c[0] = c[0] & 0xCF | 1 << 4;
            c[1] = c[1] & 0xF0 | code;
        });
        assert_eq!(number, if code > 9 { 8 } else { 0 }, "MS code {code}");
    }
    assert_eq!(kroot_number(&start, |c| c[2] = 8), 8, "other MACLT");
    assert_eq!(
        kroot_number(
            &Start {
                maclt: 8,
                ..Start::default()
            },
            |c| c[2] = 8
        ),
        0
    );
    for (hour, number) in [(0, 0), (167, 0), (168, 8), (255, 8)] {
        assert_eq!(kroot_number(&start, |c| c[5] = hour), number, "hour {hour}");
    }
    let at = |week: u16, hour| {
        move |c: &mut Vec<u8>| (c[3], c[4], c[5]) = ((week >> 8) as u8, week as u8, hour)
    };
    assert_eq!(kroot_number(&start, at(0, 0)), 8, "week 0 hour 0");
    assert_eq!(kroot_number(&start, at(0, 1)), 0, "week 0 hour 1");
    assert_eq!(kroot_number(&start, at(1, 0)), 0, "week 1 hour 0");
    assert_eq!(kroot_number(&start, at(0x100, 0)), 0, "week 256 hour 0");
    assert_eq!(kroot_number(&start, at(4095, 167)), 0);
}

// Every MF with every KS: HMAC-SHA-256 takes all sizes, CMAC-AES those of AES, 2 and 3 are
// reserved.
#[test]
fn number_8_mac_functions() {
    let keys = [96, 104, 112, 120, 128, 160, 192, 224, 256];
    for mf in 0..4 {
        for (ks, key) in (0..).zip(keys) {
            let taken = mf == 0 || mf == 1 && matches!(key, 128 | 192 | 256);
            for nmack in 1..=3 {
                let chain = TestChain {
                    mf,
                    ..TestChain::with(4, nmack, (ks, key), (1, 12)).keyed(1)
                };
                let fits = 480 / usize::from(nmack) >= key + 12 + 16;
                let mut bench = Bench::started(&Start::default());
                let number = bench.dsm(5, T, HEADER, 4, &chain.dsm(3, &[9; 64]));
                let expected = if taken && fits { 0 } else { 8 };
                assert_eq!(number, expected, "MF {mf} KS {key} NMACK {nmack}");
                let waits = bench.receiver.waiting_message().is_some();
                assert_eq!(waits, number == 0, "MF {mf} KS {key}");
            }
            // HF and MO are judged with every MF; 8 goes before 6.
            for change in [|c: &mut Vec<u8>| c[0] |= 12, |c: &mut Vec<u8>| c[3] |= 16] {
                let mut contents = TestChain {
                    mf,
                    ..TestChain::with(4, 1, (ks, key), (1, 12)).keyed(1)
                }
                .contents();
                change(&mut contents);
                let mut dsm = dsm_kroot(3, &contents, &[9; 64]);
                dsm[0] += 0x10;
                dsm.resize(dsm.len() + 13, 0);
                let number = Bench::started(&Start::default()).dsm(5, T, HEADER, 4, &dsm);
                assert_eq!(number, 8, "MF {mf} KS {key}");
            }
        }
        for code in 9..16 {
            let number = kroot_number(&Start::default(), |c| {
                c[0] |= mf;
                c[1] = c[1] & 15 | code << 4;
            });
            assert_eq!(number, 8, "MF {mf} KS code {code}");
        }
    }
}

// Every HF with every KS: SHA-256 and SHA3-256 give all sizes, SHA3-224 all but 256, 3 is reserved.
// With a wrong size 6 is left where HF is taken.
#[test]
fn number_8_hash_functions() {
    let keys = [96, 104, 112, 120, 128, 160, 192, 224, 256];
    for hf in 0..4 {
        for (ks, key) in (0..).zip(keys) {
            let taken = hf == 0 || hf == 2 || hf == 1 && key != 256;
            for nmack in 1..=3 {
                let chain = TestChain::with(4, nmack, (ks, key), (1, 12)).keyed(1);
                let chain = chain.hashed(hf);
                let fits = 480 / usize::from(nmack) >= key + 12 + 16;
                for (more, right) in [(0, 0), (1, 6)] {
                    let mut dsm = chain.dsm(3, &[9; 64]);
                    dsm[0] += more << 4;
                    dsm.resize(dsm.len() + 13 * usize::from(more), 0);
                    let mut bench = Bench::started(&Start::default());
                    let number = bench.dsm(5, T, HEADER, 4, &dsm);
                    let expected = if taken && fits { right } else { 8 };
                    assert_eq!(number, expected, "HF {hf} KS {key} NMACK {nmack}");
                    let waits = bench.receiver.waiting_message().is_some();
                    assert_eq!(waits, number == 0, "HF {hf} KS {key}");
                }
            }
            // MF and MO are judged with every HF, the key ID before it.
            for (change, id, expected) in [
                (&|c: &mut Vec<u8>| c[0] |= 2, 3, 8),
                (&|c: &mut Vec<u8>| c[3] |= 16, 3, 8),
                (&|_: &mut Vec<u8>| (), 2, 7),
            ] as [(&dyn Fn(&mut Vec<u8>), u8, u8); 3]
            {
                let chain = TestChain::with(4, 1, (ks, key), (1, 12)).keyed(1);
                let mut contents = chain.hashed(hf).contents();
                change(&mut contents);
                let dsm = dsm_kroot(id, &contents, &[9; 64]);
                let number = Bench::started(&Start::default()).dsm(5, T, HEADER, 4, &dsm);
                assert_eq!(number, expected, "HF {hf} KS {key}");
            }
        }
        for code in 9..16 {
            let number = kroot_number(&Start::default(), |c| {
                c[0] |= hf << 2;
                c[1] = c[1] & 15 | code << 4;
            });
            assert_eq!(number, 8, "HF {hf} KS code {code}");
        }
    }
}

// A block shorter than KS + MS + 16, for every NMACK, KS and MS.
#[test]
fn number_8_block_too_short() {
    let keys = [96, 104, 112, 120, 128, 160, 192, 224, 256];
    let tags = [10, 12, 14, 16, 18, 20, 24, 28, 32, 40];
    for nmack in 1..=3u8 {
        for (ks, key) in (0..).zip(keys) {
            for (ms, tag) in (0..).zip(tags) {
                let chain = TestChain::with(4, nmack, (ks, key), (ms, tag)).keyed(1);
                let mut bench = Bench::started(&Start::default());
                let number = bench.dsm(5, T, HEADER, 4, &chain.dsm(3, &[9; 64]));
                let short = 480 / usize::from(nmack) < key + tag + 16;
                assert_eq!(
                    number,
                    if short { 8 } else { 0 },
                    "NMACK {nmack} KS {key} MS {tag}"
                );
            }
        }
    }
}

#[test]
fn order_of_kroot_checks() {
    let short = |dsm: &mut Vec<u8>| {
        dsm[0] += 0x10;
        dsm.resize(dsm.len() + 13, 0);
    };
    let mut contents = TestChain::usual().contents();
    contents[2] = 99;
    let number = |key_id, contents: &[u8], resized: bool| {
        let mut dsm = dsm_kroot(key_id, contents, &[9; 64]);
        if resized {
            short(&mut dsm);
        }
        Bench::started(&Start::default()).dsm(5, T, HEADER, 4, &dsm)
    };
    let right = TestChain::usual().contents();
    assert_eq!(number(2, &contents, true), 7, "7 before 8 and 6");
    assert_eq!(number(2, &right, true), 7, "7 before 6");
    assert_eq!(number(3, &contents, true), 8, "8 before 6");
    assert_eq!(number(3, &right, true), 6);
    assert_eq!(number(3, &right, false), 0);
}

#[test]
fn number_9_public_keys() {
    // Key 3 is held at the start, with the bytes 0 to 32.
    let number = |leaf: &[u8]| pkr_number(leaf, 9, leaf.len().div_ceil(13).max(3) + 10).1;
    assert_eq!(number(&leaf(1, 2, 33)), 9, "below");
    assert_eq!(number(&leaf(1, 3, 33)), 9, "the same ID, other bytes");
    assert_eq!(number(&leaf(1, 4, 33)), 0, "above");
    assert_eq!(number(&leaf(0, 3, 29)), 9, "the same ID, another type");
    let held: Vec<u8> = [&[0x13], &(0..33).collect::<Vec<u8>>()[..]].concat();
    let (bench, same) = pkr_number(&held, 9, 13);
    assert_eq!(same, 0, "the same key");
    assert_eq!(bench.receiver.public_keys().len(), 1);
    let mut lower = held.clone();
    lower[0] = 0x12;
    assert_eq!(number(&lower), 9, "the same bytes under a lower ID");
    lower[0] = 0x14;
    assert_eq!(number(&lower), 0, "the same bytes under a higher ID");
}

#[test]
fn number_10_nodes() {
    for at in 0..16 {
        let good = leaf(1, 9, 33);
        assert_eq!(pkr_number(&good, at, 13).1, 0, "leaf {at}");
        let (tree_root, dsm) = tree_message(&good, at, 13);
        // Each node, each byte of the leaf, the message ID; padding is not examined.
        for place in [1, 32, 33, 64, 65, 96, 97, 128, 130, 162] {
            let mut wrong = dsm.clone();
            wrong[place] ^= 4;
            let mut bench = Bench::started(&Start {
                tree_root: tree_root.clone(),
                ..Start::default()
            });
            assert_eq!(
                bench.dsm(7, T, HEADER, 12, &wrong),
                10,
                "leaf {at} byte {place}"
            );
            assert_eq!(bench.receiver.public_keys().len(), 1);
        }
        for bit in 0..4 {
            let mut wrong = dsm.clone();
            wrong[0] ^= 1 << bit;
            let mut bench = Bench::started(&Start {
                tree_root: tree_root.clone(),
                ..Start::default()
            });
            assert_eq!(
                bench.dsm(7, T, HEADER, 12, &wrong),
                10,
                "leaf {at} as {}",
                wrong[0] & 15
            );
        }
        let mut padded = dsm.clone();
        padded[163] ^= 4;
        let mut bench = Bench::started(&Start {
            tree_root,
            ..Start::default()
        });
        assert_eq!(bench.dsm(7, T, HEADER, 12, &padded), 0);
    }
    // An emergency message that is not proved does not stop.
    let (_, dsm) = tree_message(&leaf(4, 0, 13), 6, 11);
    let mut bench = Bench::started(&Start::default());
    assert_eq!(bench.dsm(7, T, HEADER, 12, &dsm), 10);
    assert!(!bench.receiver.is_stopped());
}

#[test]
fn order_of_pkr_checks() {
    let start = |tree_root: Vec<u8>| {
        Bench::started(&Start {
            tree_root,
            ..Start::default()
        })
    };
    // 6 before 10: a wrong size whose nodes are wrong too.
    let (_, dsm) = tree_message(&leaf(1, 2, 33), 5, 14);
    assert_eq!(start(vec![0; 32]).dsm(7, T, HEADER, 12, &dsm), 6);
    // 6 before 9.
    let (root, dsm) = tree_message(&leaf(1, 2, 33), 5, 14);
    assert_eq!(start(root).dsm(7, T, HEADER, 12, &dsm), 6);
    // 10 before 9.
    let (root, dsm) = tree_message(&leaf(1, 2, 33), 5, 13);
    assert_eq!(start(vec![0; 32]).dsm(7, T, HEADER, 12, &dsm), 10);
    assert_eq!(start(root).dsm(7, T, HEADER, 12, &dsm), 9);
}

#[test]
fn number_11_section() {
    let (bench, chain) = Bench::usual();
    let sent = Sent {
        prn: 2,
        subframe: 0,
        status: 2,
    };
    let section = chain.section(sent, &[], &[]);
    let at = |header, moved, section: &[u8]| {
        let mut bench = bench.clone();
        let (number, records) = bench.section(2, chain.at(moved), header, section);
        assert_eq!(
            bench.receiver.subframe_clock(2).unwrap().0,
            chain.at(moved),
            "time noted"
        );
        assert_eq!(records.is_empty(), number != 0);
        number
    };
    for status in 0..4 {
        for cid in 0..4 {
            let header = status << 6 | cid << 4 | 2;
            let right = (status == 1 || status == 2) && cid == 1;
            assert_eq!(
                at(header, 0, &section),
                if right { 0 } else { 11 },
                "{header:08b}"
            );
        }
    }
    // CPKS and the reserved bit do not matter.
    assert_eq!(at(HEADER ^ 15, 0, &section), 0);
    assert_eq!(at(HEADER, -1, &section), 11, "before sub-frame 0");
    assert_eq!(
        at(HEADER, 1, &section),
        12,
        "11 no more, but the keys of another time"
    );
    // No chain.
    let mut none = Bench::started(&Start::default());
    assert_eq!(none.section(2, chain.at(0), HEADER, &section).0, 11);
    // 11 before 13 and 12.
    assert_eq!(at(HEADER ^ 0x10, 200_000, &section), 11);
    assert_eq!(at(HEADER, 200_000, &section), 13);
}

#[test]
fn number_12_keys_and_spare_bits() {
    // KS 128, MS 16: three fields of 32 bits, 16 spare bits a block.
    let chain = TestChain::with(4, 2, (4, 128), (3, 16)).keyed(80);
    let bench = Bench::in_force(&Start::default(), &chain);
    let sent = Sent {
        prn: 3,
        subframe: 2,
        status: 2,
    };
    let right = chain.section(sent, &[], &[]);
    let number = |bit: Option<usize>| {
        let mut section = right.clone();
        if let Some(bit) = bit {
            section[bit / 8] ^= 0x80 >> (bit % 8);
        }
        let mut bench = bench.clone();
        let before = bench.receiver.chain().unwrap().clone();
        let (number, records) = bench.section(3, chain.at(2), HEADER, &section);
        if number != 0 {
            assert_eq!(bench.receiver.chain(), Some(&before), "nothing held");
            assert!(records.is_empty());
        }
        number
    };
    assert_eq!(number(None), 0);
    for bit in 0..480 {
        let in_fields = bit % 240 < 96;
        assert_eq!(
            number(Some(bit)),
            if in_fields { 0 } else { 12 },
            "bit {bit}"
        );
    }
}

#[test]
fn number_12_keys_at_and_below_the_held() {
    let (mut bench, chain) = Bench::usual();
    // PRN 4's key of block 2 is the highest of sub-frame 3.
    assert_eq!(bench.send(&chain, 4, 3, &[]).0, 0);
    assert_eq!(bench.receiver.chain().unwrap().held_slot, 32);
    assert_eq!(
        bench.receiver.chain().unwrap().held.as_slice(),
        chain.keys[32]
    );
    let held = bench.receiver.chain().cloned();
    for prn in [1, 2, 3, 8] {
        let sent = Sent {
            prn,
            subframe: 3,
            status: 2,
        };
        let section = chain.section(sent, &[], &[]);
        for bit in [112, 239, 352, 479] {
            let mut wrong = section.clone();
            wrong[bit / 8] ^= 0x80 >> (bit % 8);
            let mut bench = bench.clone();
            assert_eq!(bench.section(prn, chain.at(3), HEADER, &wrong).0, 12);
        }
        assert_eq!(
            bench.section(prn, chain.at(3), HEADER, &section).0,
            0,
            "PRN {prn}"
        );
        assert_eq!(
            bench.receiver.chain().cloned(),
            held,
            "the highest proved key stays"
        );
    }
}

/// A chain of which one key is known at slots `keys`, with NS and NMACK 1: slot s + 1 is that of
/// sub-frame s.
fn far_chain(top: usize) -> TestChain {
    TestChain {
        hour: 0,
        ..TestChain::with(1, 1, (0, 96), (0, 10))
    }
    .keyed(top)
}

#[test]
fn number_13_gap() {
    let start = Start {
        ns: 1,
        ..Start::default()
    };
    let chain = far_chain(1_000_002);
    let bench = Bench::in_force(&start, &chain);
    let far = |bench: &Bench, subframe| {
        let sent = Sent {
            prn: 1,
            subframe,
            status: 2,
        };
        let section = chain.section(sent, &[], &[]);
        let mut bench = bench.clone();
        (
            bench
                .section(1, chain.at(subframe as i64), HEADER, &section)
                .0,
            bench,
        )
    };
    assert_eq!(far(&bench, 999_999).0, 0, "slot 1,000,000");
    assert_eq!(far(&bench, 1_000_000).0, 13, "slot 1,000,001");
    let mut near = bench.clone();
    assert_eq!(near.send(&chain, 1, 0, &[]).0, 0);
    let (number, held) = far(&near, 1_000_000);
    assert_eq!(number, 0, "slot 1,000,001 from slot 1");
    assert_eq!(held.receiver.chain().unwrap().held_slot, 1_000_001);
    assert_eq!(
        held.receiver.chain().unwrap().held.as_slice(),
        chain.keys[1_000_001]
    );
    assert_eq!(far(&near, 1_000_001).0, 13, "slot 1,000,002 from slot 1");
    // A slot past 32 bits is far, too, where its low 32 bits are near.
    let chain = TestChain {
        week: 1,
        hour: 1,
        ..TestChain::with(36, 3, (0, 96), (0, 10))
    }
    .keyed(1);
    let mut bench = Bench::in_force(
        &Start {
            ns: 36,
            ..Start::default()
        },
        &chain,
    );
    let subframe = 39_768_216;
    assert_eq!((subframe * 108 + 1) as u32, 33);
    assert_eq!(bench.section(1, chain.at(subframe), HEADER, &[0; 60]).0, 13);
}

// Per block first 13, then 12; the gap is counted from the key held when the section came.
#[test]
fn order_of_section_checks() {
    // 36 keys a block and two blocks: block 1 of sub-frame 13888 is slot 999,937 for PRN 1, block 2
    // slot 999,973.
    let start = Start {
        ns: 36,
        ..Start::default()
    };
    let chain = TestChain {
        hour: 0,
        ..TestChain::with(36, 2, (4, 128), (1, 12))
    }
    .keyed(1_000_080);
    let bench = Bench::in_force(&start, &chain);
    let number = |prn, change: &[usize]| {
        let mut section = chain.section(
            Sent {
                prn,
                subframe: 13_888,
                status: 2,
            },
            &[],
            &[],
        );
        for bit in change {
            section[bit / 8] ^= 0x80 >> (bit % 8);
        }
        bench
            .clone()
            .section(prn, chain.at(13_888), HEADER, &section)
            .0
    };
    assert_eq!(number(1, &[]), 0);
    assert_eq!(number(28, &[]), 0, "block 2 is slot 1,000,000");
    assert_eq!(
        number(29, &[]),
        13,
        "block 2 is slot 1,000,001, near block 1's key"
    );
    assert_eq!(
        number(29, &[120]),
        12,
        "a bad key in block 1 before 13 in block 2"
    );
    assert_eq!(number(29, &[360]), 13, "13 before 12 in block 2");
    assert_eq!(number(28, &[360]), 12);
}

#[test]
fn numbers_14_and_15() {
    let (mut bench, chain) = Bench::usual();
    let chain = TestChain { hour: 11, ..chain };
    let message = chain.message(HEADER);
    let signature = [8; 64];
    assert_eq!(bench.good(3, &message, &signature), 14, "nothing waits");
    bench.dsm(5, T, HEADER, 4, &chain.dsm(3, &signature));
    let waits = bench.receiver.clone();
    assert!(waits.waiting_message().is_some());
    for verdict in [0, 1] {
        assert_eq!(
            bench.verdict(verdict, 2, &message, &signature),
            14,
            "other key ID"
        );
        for byte in 0..45 {
            let mut other = message.clone();
            other.resize(45, 0);
            other[byte] ^= 1;
            assert_eq!(
                bench.verdict(verdict, 3, &other, &signature),
                14,
                "message byte {byte}"
            );
        }
        for byte in 0..132 {
            let mut other = signature.to_vec();
            other.resize(132, 0);
            other[byte] ^= 1;
            assert_eq!(
                bench.verdict(verdict, 3, &message, &other),
                14,
                "signature byte {byte}"
            );
        }
    }
    assert_eq!(bench.receiver, waits, "all as before");
    let mut good = bench.clone();
    assert_eq!(good.good(3, &message, &signature), 0);
    assert_eq!(good.good(3, &message, &signature), 14, "the wait has ended");
    assert_eq!(bench.verdict(0, 3, &message, &signature), 15);
    assert_eq!(
        bench.good(3, &message, &signature),
        14,
        "waiting message dropped"
    );
    assert_eq!(bench.receiver.chain(), waits.chain());
    let (mut m, mut s, mut k) = ([7; 45], [7; 132], [7; 67]);
    let answer = bench.receiver.read_waiting(&mut m, &mut s, &mut k);
    assert_eq!((answer.number, m, s, k), (14, [7; 45], [7; 132], [7; 67]));
}

#[test]
fn number_16() {
    let (mut bench, chain) = Bench::wide();
    let two = words(2, 9, 0);
    bench.words(2, chain.at(0), &two);
    assert_eq!(bench.read(2), Err(16));
    bench.send(&chain, 2, 1, &[Spec::new(2, 0, &set(&two)).flip(11)]);
    assert_eq!(bench.read(2), Err(16), "a wrong tag marks nothing");
    bench.send(&chain, 2, 2, &[Spec::new(2, 0, &set(&two))]);
    assert_eq!(bench.read(2), Ok((set(&two), 9, chain.at(2))));
    assert_eq!(bench.read(1), Err(16));
    assert_eq!(bench.read(3), Err(16));
}

// Before an accepted start.
#[test]
fn before_a_start() {
    let mut r = Receiver::new();
    let calls = |r: &mut Receiver| {
        let subframe = r.subframe(1, T, &[1; 75], &mut [0; 3240]);
        [
            r.word(1, T, &words(1, 3, 0)[0]),
            subframe.hkroot,
            subframe.mack,
            r.verdict(1, 3, &[0; 45], &[0; 132]),
        ]
    };
    assert_eq!(calls(&mut r), [11; 4]);
    assert_eq!(
        Start {
            ns: 0,
            ..Start::default()
        }
        .send(&mut r),
        2
    );
    assert_eq!(calls(&mut r), [11; 4]);
    assert_eq!(r, Receiver::new());
    assert_eq!(Start::default().send(&mut r), 0);
    assert_eq!(calls(&mut r), [0, 0, 11, 14]);
}
