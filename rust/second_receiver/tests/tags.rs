//! Tags: outcomes, MACSEQ, waiting, due, authentic sets, records (01, MACK).

mod common;

use common::*;
use second_receiver::mack::Layout;
use second_receiver::tags::PLACES;

/// Every list flexible but its first.
fn all_flexible() -> Start {
    let marks = Start::default().marks_30;
    Start {
        marks_0: marks.clone(),
        marks_30: marks,
        ..Start::default()
    }
}

/// The places that MACSEQ covers if all but the first are flexible.
fn all_places(chain: &TestChain) -> Vec<usize> {
    (1..chain.block_fields() * usize::from(chain.nmack)).collect()
}

fn sent(prn: u8, subframe: usize) -> Sent {
    Sent {
        prn,
        subframe,
        status: 2,
    }
}

/// `bytes` with one bit changed.
fn with_bit(bytes: &[u8], bit: usize) -> Vec<u8> {
    let mut bytes = bytes.to_vec();
    bytes[bit / 8] ^= 0x80 >> (bit % 8);
    bytes
}

/// A record as 01 lays it out.
fn record(
    outcome: u8,
    sender: u8,
    prn: u8,
    adkd: u8,
    place: (u8, u8),
    iodnav: u16,
    time: u32,
) -> Vec<u8> {
    let head = [outcome, sender, prn, adkd, place.0, place.1];
    [&head[..], &iodnav.to_be_bytes(), &time.to_be_bytes()].concat()
}

#[test]
fn outcomes_1_2_and_9() {
    let (mut bench, chain) = Bench::usual();
    let (two, five) = (words(2, 9, 0), words(5, 700, 0));
    bench.words(2, chain.at(0), &two);
    bench.words(5, chain.at(0), &five);
    let good = |prn: u8| Spec::new(prn, 0, &set(if prn == 2 { &two } else { &five }));
    // Second 0 of the minute: all are fixed to ADKD 0.
    let fields = [
        good(2),
        good(5),
        good(2),
        good(5),
        good(5),
        good(2),
        good(5).flip(3),
        good(2),
    ];
    let (number, records) = bench.send(&chain, 2, 2, &fields);
    assert_eq!(number, 0);
    let time = chain.at(2);
    let expected = [
        record(9, 2, 2, 0, (1, 1), 9, time),
        record(9, 2, 5, 0, (1, 2), 700, time),
        record(9, 2, 2, 0, (1, 3), 9, time),
        record(9, 2, 5, 0, (1, 4), 700, time),
        record(9, 2, 5, 0, (2, 1), 700, time),
        record(9, 2, 2, 0, (2, 2), 9, time),
        record(2, 2, 5, 0, (2, 3), 700, time),
        record(1, 2, 2, 0, (2, 4), 9, time),
    ];
    assert_eq!(records, expected);
    assert_eq!(bench.read(2), Ok((set(&two), 9, time)));
    assert_eq!(bench.read(5), Err(16));
}

// Each bit of a tag counts, whatever MS; and each bit of the set.
#[test]
fn every_bit_of_a_tag_and_of_its_set() {
    for ms in [
        (0, 10),
        (1, 12),
        (2, 14),
        (3, 16),
        (4, 18),
        (5, 20),
        (6, 24),
        (7, 28),
        (8, 32),
        (9, 40),
    ] {
        let chain = TestChain::with(4, 2, (4, 128), ms).keyed(80);
        let mut bench = Bench::in_force(&Start::default(), &chain);
        let two = words(2, 9, 0);
        bench.words(2, chain.at(0), &two);
        let right = Spec::new(2, 0, &set(&two));
        for bit in 0..ms.1 {
            for spec in [
                [right.clone().flip(bit), right.clone()],
                [right.clone(), right.clone().flip(bit)],
            ] {
                let wrong = if spec[0].flipped.is_empty() {
                    [1, 2]
                } else {
                    [2, 1]
                };
                let (number, records) = bench.clone().send(&chain, 2, 2, &spec);
                assert_eq!(
                    (number, &found(&records)[..2]),
                    (0, &wrong[..]),
                    "MS {} bit {bit}",
                    ms.1
                );
            }
        }
    }
    let (mut bench, chain) = Bench::usual();
    let two = words(2, 9, 0);
    bench.words(2, chain.at(0), &two);
    for bit in (0..549).step_by(4) {
        let wrong = Spec::new(2, 0, &with_bit(&set(&two), bit));
        let (_, records) = bench.clone().send(&chain, 2, 2, &[wrong]);
        assert_eq!(records[0][0], 2, "bit {bit}");
    }
}

#[test]
fn the_549_bits() {
    let (mut bench, chain) = Bench::usual();
    for prn in [1, 17, 36] {
        for seed in 0..4 {
            let five = words(prn, 1000 - u16::from(seed), seed);
            let at = 2 * usize::from(seed) + 2;
            bench.words(prn, chain.at(at as i64 - 1), &five);
            let (number, records) =
                bench
                    .clone()
                    .send(&chain, prn, at, &[Spec::new(prn, 0, &set(&five))]);
            assert_eq!((number, records[0][0]), (0, 9));
        }
    }
}

#[test]
fn outcome_3() {
    let (bench, chain) = Bench::usual();
    let two = words(2, 9, 0);
    let good = Spec::new(2, 0, &set(&two));
    let outcome = |bench: &Bench| {
        let (number, records) = bench
            .clone()
            .send(&chain, 2, 4, std::slice::from_ref(&good));
        assert_eq!(number, 0);
        let iodnav = if records[0][0] == 3 { 0 } else { 9 };
        assert_eq!(
            records[0],
            record(records[0][0], 2, 2, 0, (1, 1), iodnav, chain.at(4))
        );
        records[0][0]
    };
    assert_eq!(outcome(&bench), 3, "no word");
    for missing in 0..5 {
        let mut bench = bench.clone();
        for (i, word) in two.iter().enumerate().filter(|(i, _)| *i != missing) {
            assert_eq!(bench.receiver.word(2, chain.at(i as i64 - 5), word), 0);
        }
        assert_eq!(outcome(&bench), 3, "no word {}", missing + 1);
        let mut late = bench.clone();
        late.receiver.word(2, chain.at(4), &two[missing]);
        assert_eq!(
            outcome(&late),
            3,
            "word {} of the same sub-frame",
            missing + 1
        );
        let mut future = bench.clone();
        future.receiver.word(2, chain.at(5), &two[missing]);
        assert_eq!(
            outcome(&future),
            3,
            "word {} of a later sub-frame",
            missing + 1
        );
        bench.receiver.word(2, chain.at(3), &two[missing]);
        assert_eq!(
            outcome(&bench),
            9,
            "word {} of the sub-frame before",
            missing + 1
        );
        // A word that comes again with equal bytes counts as coming now.
        bench.receiver.word(2, chain.at(4), &two[missing]);
        assert_eq!(outcome(&bench), 3, "word {} again", missing + 1);
    }
    // Each bit of the IODnav of each of words 1 to 4.
    for other in 0..4 {
        for bit in 0..10 {
            let mut bench = bench.clone();
            bench.words(2, chain.at(2), &two);
            bench
                .receiver
                .word(2, chain.at(3), &words(2, 9 ^ 1 << bit, 0)[other]);
            assert_eq!(outcome(&bench), 3, "IODnav bit {bit} in word {}", other + 1);
        }
    }
    // Word 5 is not tied to an issue; words of years ago are usable.
    let mut bench = bench;
    bench.words(2, gst(0, 0), &two);
    assert_eq!(outcome(&bench), 9);
    bench.receiver.word(2, chain.at(3), &words(2, 10, 7)[4]);
    assert_eq!(outcome(&bench), 2);
}

#[test]
fn outcome_4() {
    let chain = TestChain::usual();
    let two = words(2, 9, 0);
    let outcome = |mark: u8, prn: u8, adkd: u8| {
        let mut start = Start::default();
        start.marks_0[2] = mark;
        let mut bench = Bench::in_force(&start, &chain);
        bench.words(2, chain.at(0), &two);
        let fields = [
            Spec::new(2, 0, &set(&two)),
            Spec::new(2, 0, &set(&two)),
            Spec::new(prn, adkd, &set(&two)),
        ];
        let flexible: &[usize] = if mark == 255 { &[2] } else { &[] };
        let section = chain.section(sent(2, 2), &fields, flexible);
        let (number, records) = bench.section(2, chain.at(2), HEADER, &section);
        assert_eq!((number, &found(&records)[..2]), (0, &[1, 1][..]));
        if records[2][0] == 4 {
            assert_eq!(records[2], record(4, 2, prn, adkd, (1, 3), 0, chain.at(2)));
        }
        records[2][0]
    };
    for adkd in 0..16 {
        let taken = [(0, 9), (11, 5), (12, 5)]
            .iter()
            .find(|t| t.0 == adkd)
            .map_or(4, |t| t.1);
        assert_eq!(outcome(255, 2, adkd), taken, "flexible, ADKD {adkd}");
        assert_eq!(outcome(adkd, 2, adkd), taken, "fixed and ADKD {adkd}");
        assert_eq!(
            outcome((adkd + 1) % 16, 2, adkd),
            4,
            "not the fixed one, {adkd}"
        );
        for prn in [0, 37, 64, 255] {
            assert_eq!(outcome(255, prn, adkd), 4, "PRN {prn}");
        }
    }
    assert_eq!(outcome(12, 2, 11), 4);
    assert_eq!(outcome(255, 36, 0), 3);
    assert_eq!(outcome(255, 1, 0), 3);
}

#[test]
fn outcome_6() {
    let chain = TestChain::usual();
    let mut start = Start::default();
    // Flexible: the second and fourth of block 1, the third of block 2.
    for place in [1, 3, 6] {
        start.marks_0[place] = 255;
    }
    let mut bench = Bench::in_force(&start, &chain);
    let two = words(2, 9, 0);
    bench.words(2, chain.at(0), &two);
    let good = Spec::new(2, 0, &set(&two));
    let run = |specs: &[Spec], flexible: &[usize], bit: Option<usize>| {
        let mut section = chain.section(sent(2, 2), specs, flexible);
        if let Some(bit) = bit {
            section = with_bit(&section, bit);
        }
        let (number, records) = bench.clone().section(2, chain.at(2), HEADER, &section);
        assert_eq!(number, 0);
        found(&records)
    };
    let all = vec![good.clone(); 8];
    assert_eq!(run(&all, &[1, 3, 6], None), [1; 8]);
    let failed = [1, 6, 1, 6, 1, 1, 6, 1];
    for bit in 12..24 {
        assert_eq!(run(&all, &[1, 3, 6], Some(bit)), failed, "MACSEQ bit {bit}");
    }
    // The IOD of the first field does not enter MACSEQ; that of a flexible field does, of a fixed
    // one not.
    assert_eq!(run(&all, &[1, 3, 6], Some(27)), [1; 8]);
    assert_eq!(run(&all, &[1, 3, 6], Some(28 + 27)), failed);
    assert_eq!(run(&all, &[1, 3, 6], Some(56 + 27)), [1; 8]);
    assert_eq!(run(&all, &[1, 3], None), failed, "block 2 counts");
    assert_eq!(
        run(&all, &[1, 2, 3, 6], None),
        failed,
        "a fixed one too many"
    );
    assert_eq!(
        run(&all, &[3, 1, 6], None),
        [1; 8],
        "equal fields in any order"
    );
    // 4 before 6, and a field of outcome 4 enters MACSEQ.
    let mut four = all.clone();
    four[3].prn = 99;
    assert_eq!(run(&four, &[1, 3, 6], None), [1, 1, 1, 4, 1, 1, 1, 1]);
    assert_eq!(run(&four, &[1, 6], None), [1, 6, 1, 4, 1, 1, 6, 1]);
    assert_eq!(
        run(&four, &[3, 1, 6], None),
        [1, 6, 1, 4, 1, 1, 6, 1],
        "in order"
    );
    // 6 before 3; 6 before 5.
    let mut no_set = all.clone();
    no_set[1].prn = 7;
    no_set[6].adkd = 12;
    assert_eq!(run(&no_set, &[1, 3, 6], None), [1, 3, 1, 1, 1, 1, 5, 1]);
    assert_eq!(run(&no_set, &[], None), failed);
}

// Without a flexible field MACSEQ is not looked at.
#[test]
fn macseq_without_flexible_fields() {
    let (mut bench, chain) = Bench::usual();
    let two = words(2, 9, 0);
    bench.words(2, chain.at(0), &two);
    let section = chain.section(sent(2, 2), &vec![Spec::new(2, 0, &set(&two)); 8], &[]);
    for bit in 12..24 {
        let (_, records) = bench
            .clone()
            .section(2, chain.at(2), HEADER, &with_bit(&section, bit));
        assert_eq!(found(&records), [1; 8]);
    }
}

// The first list goes with second 0 of the minute, the second with second 30.
#[test]
fn the_list_by_the_second_of_the_minute() {
    let chain = TestChain::usual();
    let mut start = Start::default();
    start.marks_0[1] = 11;
    start.marks_30 = vec![0; 14];
    start.marks_30[1] = 12;
    let mut bench = Bench::in_force(&start, &chain);
    let two = words(2, 9, 0);
    bench.words(2, chain.at(0), &two);
    for (subframe, expected) in [(2, [5, 4]), (3, [4, 5])] {
        for (adkd, outcome) in [11, 12].into_iter().zip(expected) {
            let fields = [Spec::new(2, 0, &set(&two)), Spec::new(2, adkd, &set(&two))];
            let section = chain.section(sent(2, subframe), &fields, &[]);
            let (_, records) =
                bench
                    .clone()
                    .section(2, chain.at(subframe as i64), HEADER, &section);
            assert_eq!(
                outcomes(&records)[..2],
                [9, outcome],
                "sub-frame {subframe} ADKD {adkd}"
            );
        }
    }
}

/// The usual chain, everyone's words at sub-frame 0, all fields flexible.
fn flexible_bench() -> (Bench, TestChain) {
    flexible_bench_of(TestChain::usual())
}

fn flexible_bench_of(chain: TestChain) -> (Bench, TestChain) {
    let mut bench = Bench::in_force(&all_flexible(), &chain);
    for prn in 1..=36 {
        bench.words(prn, chain.at(0), &words(prn, 9, 0));
    }
    (bench, chain)
}

/// Lends a section of `prn` all of whose fields but the first are flexible.
fn lend(bench: &mut Bench, chain: &TestChain, sent: Sent, specs: &[Spec]) -> Vec<Vec<u8>> {
    let section = chain.section(sent, specs, &all_places(chain));
    let header = header_of(sent.status);
    let (number, records) =
        bench.section(sent.prn, chain.at(sent.subframe as i64), header, &section);
    assert_eq!(number, 0);
    records
}

fn header_of(status: u8) -> u8 {
    status << 6 | HEADER & 0x3F
}

// A slow tag is due when the held slot reaches its key's, not before: the lowest slot of its own
// block.
#[test]
fn slow_tags_fall_due() {
    for (adkd, delay) in [(11, 1), (12, 10)] {
        for place in [1, 2, 3] {
            let (mut bench, chain) = flexible_bench_of(TestChain::wide());
            let two = set(&words(2, 9, 0));
            let mut fields = vec![Spec::new(0, 0, &[]); 4];
            fields[place] = Spec::new(2, adkd, &two);
            let records = lend(&mut bench, &chain, sent(3, 5), &fields);
            let (block, position) = (place as u8 / 2 + 1, place as u8 % 2 + 1);
            let waits = record(5, 3, 2, adkd, (block, position), 9, chain.at(5));
            assert_eq!(records[place], waits);
            assert_eq!(bench.receiver.waiting_tags().len(), 1);
            // The highest key of the sub-frame before is just below the slot of block 1.
            let before = 5 + delay - 1;
            if delay > 1 {
                let records = lend(&mut bench, &chain, sent(4, before), &[]);
                assert_eq!((records.len(), bench.receiver.waiting_tags().len()), (4, 1));
            }
            // A refused section judges nothing.
            let mut refused = bench.clone();
            let section = chain.section(sent(1, 5 + delay), &[], &[]);
            let (number, records) = refused.section(
                1,
                chain.at((5 + delay) as i64),
                HEADER,
                &with_bit(&section, 470),
            );
            assert_eq!(
                (number, records.len(), refused.receiver.waiting_tags().len()),
                (12, 0, 1)
            );
            // PRN 1 sends the lowest slot of each block: for block 2 the held slot is just reached.
            let records = lend(&mut bench, &chain, sent(1, 5 + delay), &[]);
            assert_eq!(records.len(), 5);
            assert_eq!(
                records[0],
                record(1, 3, 2, adkd, (block, position), 9, chain.at(5))
            );
            assert!(bench.receiver.waiting_tags().is_empty());
            assert_eq!(bench.read(2), Ok((two.clone(), 9, chain.at(5))));
        }
    }
}

// While a slow tag waits, the satellite's words are replaced: its own copy is judged and marked.
#[test]
fn a_data_change_while_a_slow_tag_waits() {
    let (mut bench, chain) = flexible_bench_of(TestChain::wide());
    let (old, new) = (words(2, 9, 0), words(2, 44, 1));
    let fields = [Spec::new(0, 0, &[]), Spec::new(2, 12, &set(&old))];
    lend(&mut bench, &chain, sent(3, 5), &fields);
    bench.words(2, chain.at(6), &new);
    let records = lend(&mut bench, &chain, sent(3, 15), &[]);
    assert_eq!(records[0], record(1, 3, 2, 12, (1, 2), 9, chain.at(5)));
    assert_eq!(bench.read(2), Ok((set(&old), 9, chain.at(5))));
    // A slow tag over the new set that came before the new set was usable is wrong.
    let (mut bench, chain) = flexible_bench_of(TestChain::wide());
    lend(
        &mut bench,
        &chain,
        sent(3, 5),
        &[Spec::new(0, 0, &[]), Spec::new(2, 12, &set(&new))],
    );
    bench.words(2, chain.at(6), &new);
    let records = lend(&mut bench, &chain, sent(3, 15), &[]);
    assert_eq!(records[0], record(2, 3, 2, 12, (1, 2), 9, chain.at(5)));
    assert_eq!(bench.read(2), Err(16));
}

// An old slow tag does not replace a newer authentic set; of equal times the one judged last
// stands.
#[test]
fn a_newer_authentic_set_stays() {
    let (old, new) = (words(2, 9, 0), words(2, 44, 1));
    let slow = [Spec::new(0, 0, &[]), Spec::new(2, 12, &set(&old))];
    let (mut bench, chain) = flexible_bench_of(TestChain::wide());
    lend(&mut bench, &chain, sent(3, 5), &slow);
    bench.words(2, chain.at(5), &new);
    lend(
        &mut bench,
        &chain,
        sent(2, 6),
        &[Spec::new(2, 0, &set(&new))],
    );
    assert_eq!(bench.read(2), Ok((set(&new), 44, chain.at(6))));
    let records = lend(&mut bench, &chain, sent(3, 15), &[]);
    assert_eq!(records[0], record(1, 3, 2, 12, (1, 2), 9, chain.at(5)));
    assert_eq!(
        bench.read(2),
        Ok((set(&new), 44, chain.at(6))),
        "the newer set stays"
    );
    // The same GST_SF: PRN 3's section comes with the old words, then words of an earlier
    // sub-frame, then PRN 2's.
    let (mut bench, chain) = flexible_bench_of(TestChain::wide());
    lend(&mut bench, &chain, sent(3, 5), &slow);
    bench.words(2, chain.at(4), &new);
    lend(
        &mut bench,
        &chain,
        sent(2, 5),
        &[Spec::new(2, 0, &set(&new))],
    );
    assert_eq!(bench.read(2), Ok((set(&new), 44, chain.at(5))));
    lend(&mut bench, &chain, sent(3, 15), &[]);
    assert_eq!(
        bench.read(2),
        Ok((set(&old), 9, chain.at(5))),
        "judged last"
    );
    // An older set is replaced.
    lend(
        &mut bench,
        &chain,
        sent(2, 16),
        &[Spec::new(2, 0, &set(&new))],
    );
    assert_eq!(bench.read(2), Ok((set(&new), 44, chain.at(16))));
}

// A slow tag's message keeps the status, time and position of its arrival.
#[test]
fn a_waiting_tag_keeps_its_status() {
    for (came, judged) in [(1, 2), (2, 1), (1, 1)] {
        let (mut bench, chain) = flexible_bench();
        let fields = [
            Spec::new(0, 0, &[]),
            Spec::new(2, 11, &set(&words(2, 9, 0))),
        ];
        lend(
            &mut bench,
            &chain,
            Sent {
                prn: 3,
                subframe: 5,
                status: came,
            },
            &fields,
        );
        let records = lend(
            &mut bench,
            &chain,
            Sent {
                prn: 3,
                subframe: 6,
                status: judged,
            },
            &[],
        );
        assert_eq!(records[0][0], 9, "{came} then {judged}");
    }
    // A tag made for another status is wrong.
    let (mut bench, chain) = flexible_bench();
    let section = chain.section(
        sent(2, 5),
        &[Spec::new(2, 0, &set(&words(2, 9, 0)))],
        &all_places(&chain),
    );
    let (_, records) = bench.section(2, chain.at(5), header_of(1), &section);
    assert_eq!(records[0][0], 2);
}

// Due tags come first, in the order in which they came, then the section's own in field order.
#[test]
fn order_of_records() {
    let (mut bench, chain) = flexible_bench();
    let spec = |prn, adkd| Spec::new(prn, adkd, &set(&words(prn, 9, 0)));
    let none = Spec::new(0, 0, &[]);
    lend(
        &mut bench,
        &chain,
        sent(3, 5),
        &[none.clone(), spec(7, 12), spec(8, 12)],
    );
    lend(&mut bench, &chain, sent(2, 5), &[none.clone(), spec(9, 12)]);
    lend(
        &mut bench,
        &chain,
        sent(1, 14),
        &[none.clone(), spec(10, 11), spec(11, 12), spec(12, 11)],
    );
    lend(
        &mut bench,
        &chain,
        sent(2, 14),
        &[none.clone(), spec(13, 11).flip(0)],
    );
    let records = lend(
        &mut bench,
        &chain,
        sent(4, 15),
        &[spec(4, 0), spec(14, 0), spec(15, 12)],
    );
    let told: Vec<(u8, u8, u8)> = records.iter().map(|r| (r[0], r[1], r[2])).collect();
    let due = [
        (9, 3, 7),
        (9, 3, 8),
        (9, 2, 9),
        (9, 1, 10),
        (9, 1, 12),
        (2, 2, 13),
    ];
    assert_eq!(told[..6], due);
    assert_eq!(told[6..9], [(9, 4, 4), (9, 4, 14), (5, 4, 15)]);
    assert_eq!(records.len(), 6 + 8);
    let left: Vec<u8> = bench
        .receiver
        .waiting_tags()
        .iter()
        .map(|w| w.tag.prn)
        .collect();
    assert_eq!(left, [11, 15]);
}

// 256 places over all satellites; due tags free theirs before the section's own are placed; 270
// records.
#[test]
fn places() {
    let chain = TestChain::with(36, 1, (0, 96), (0, 10)).keyed(36 * 40);
    let start = Start {
        ns: 36,
        ..all_flexible()
    };
    let mut bench = Bench::in_force(&start, &chain);
    assert_eq!(chain.block_fields(), 14);
    for prn in 1..=36 {
        bench.words(prn, chain.at(0), &words(prn, 9, 0));
    }
    let slow = |prn: u8| Spec::new(prn, 12, &set(&words(prn, 9, 0)));
    let full = |prn: u8| [&[Spec::new(prn, 0, &[])], &vec![slow(prn); 13][..]].concat();
    for prn in 1..=19 {
        let records = lend(&mut bench, &chain, sent(prn, 5), &full(prn));
        assert_eq!(outcomes(&records)[1..], [5; 13]);
    }
    // 247 places are taken, nine are free.
    let records = lend(&mut bench, &chain, sent(20, 5), &full(20));
    assert_eq!(
        outcomes(&records)[1..],
        [5, 5, 5, 5, 5, 5, 5, 5, 5, 7, 7, 7, 7]
    );
    assert_eq!(records[13], record(7, 20, 20, 12, (1, 14), 9, chain.at(5)));
    assert_eq!(bench.receiver.waiting_tags().len(), PLACES);
    // A quick tag needs no place.
    let quick = Spec::new(21, 0, &set(&words(21, 9, 0)));
    let records = lend(&mut bench, &chain, sent(21, 5), &[quick, slow(21)]);
    assert_eq!(outcomes(&records)[..2], [9, 7]);
    // All 256 fall due at once, and the section's own find places.
    let records = lend(&mut bench, &chain, sent(22, 15), &full(22));
    assert_eq!(records.len(), 270);
    assert_eq!(found(&records)[..256], [1; 256]);
    assert_eq!(outcomes(&records)[257..], [5; 13]);
    assert_eq!(bench.receiver.waiting_tags().len(), 13);
}

// Every NMACK, KS and MS that fits: the number of fields, and that each one is judged.
#[test]
fn every_layout() {
    let keys = [96, 104, 112, 120, 128, 160, 192, 224, 256];
    let tags = [10, 12, 14, 16, 18, 20, 24, 28, 32, 40];
    let two = words(2, 9, 0);
    for nmack in 1..=3u8 {
        for (ks, key) in (0..).zip(keys) {
            for (ms, tag) in (0..).zip(tags) {
                if 480 / usize::from(nmack) < key + tag + 16 {
                    continue;
                }
                let chain = TestChain::with(3, nmack, (ks, key), (ms, tag)).keyed(60);
                let mut bench = Bench::in_force(
                    &Start {
                        ns: 3,
                        ..Start::default()
                    },
                    &chain,
                );
                bench.words(2, chain.at(0), &two);
                let fields = chain.block_fields();
                let all = vec![Spec::new(2, 0, &set(&two)); 14];
                for subframe in [1, 2] {
                    let (number, records) = bench.send(&chain, 2, subframe, &all);
                    let expected = vec![1; fields * usize::from(nmack)];
                    assert_eq!(
                        (number, found(&records)),
                        (0, expected),
                        "{nmack} {key} {tag}"
                    );
                }
                let layout = Layout::of(&bench.receiver.chain().unwrap().parameters).unwrap();
                assert_eq!(
                    (layout.fields, layout.key_bits, layout.tag_bits),
                    (fields, key, tag)
                );
            }
        }
    }
    let fields = |nmack, ks, ms| TestChain::with(36, nmack, ks, ms).block_fields();
    assert_eq!(fields(2, (4, 128), (1, 12)), 4);
    assert_eq!(fields(3, (4, 128), (3, 16)), 1);
    assert_eq!(fields(1, (0, 96), (0, 10)), 14);
}

// Every NS: each satellite's keys lie at its own slots, the tags of a block under the lowest.
#[test]
fn every_ns() {
    let two = words(2, 9, 0);
    for ns in 1..=36u8 {
        let chain = TestChain::with(ns, 2, (4, 128), (1, 12)).keyed(usize::from(ns) * 2 * 6);
        let mut bench = Bench::in_force(
            &Start {
                ns,
                ..Start::default()
            },
            &chain,
        );
        bench.words(2, chain.at(0), &two);
        for prn in 1..=36 {
            let fields = vec![Spec::new(2, 0, &set(&two)); 8];
            let (number, records) = bench.send(&chain, prn, 2, &fields);
            // Tag 0 is of the sender's own data.
            let own = if prn == 2 { 1 } else { 3 };
            assert_eq!(
                (number, &found(&records)[..]),
                (0, &[own, 1, 1, 1, 1, 1, 1, 1][..])
            );
        }
        let held = bench.receiver.chain().unwrap();
        assert_eq!(held.held_slot, u64::from(ns) * 6, "NS {ns}");
        assert_eq!(held.held.as_slice(), chain.keys[usize::from(ns) * 6]);
    }
}

// Over a change of week, and in the last week.
#[test]
fn over_a_change_of_week() {
    for week in [1000, 4094] {
        let chain = TestChain {
            week,
            hour: 167,
            ..TestChain::with(2, 1, (4, 128), (1, 12))
        }
        .keyed(300);
        let mut bench = Bench::in_force(
            &Start {
                ns: 2,
                ..all_flexible()
            },
            &chain,
        );
        bench.words(2, chain.at(100), &words(2, 9, 0));
        let fields = [
            Spec::new(2, 0, &set(&words(2, 9, 0))),
            Spec::new(2, 12, &set(&words(2, 9, 0))),
        ];
        assert_eq!(
            outcomes(&lend(&mut bench, &chain, sent(2, 115), &fields))[..2],
            [9, 5]
        );
        assert_eq!(chain.at(125), gst(week + 1, 150));
        let records = lend(&mut bench, &chain, sent(1, 125), &[]);
        assert_eq!(
            records[0],
            record(9, 2, 2, 12, (1, 2), 9, gst(week, 604_650))
        );
    }
    // A tag whose key would lie past the last week waits on.
    let chain = TestChain {
        week: 4095,
        hour: 167,
        ..TestChain::with(1, 1, (4, 128), (1, 12))
    }
    .keyed(120);
    let mut bench = Bench::in_force(
        &Start {
            ns: 1,
            ..all_flexible()
        },
        &chain,
    );
    bench.words(2, chain.at(100), &words(2, 9, 0));
    let fields = [
        Spec::new(2, 0, &set(&words(2, 9, 0))),
        Spec::new(2, 12, &set(&words(2, 9, 0))),
    ];
    assert_eq!(
        outcomes(&lend(&mut bench, &chain, sent(2, 119), &fields))[..2],
        [9, 5]
    );
    assert_eq!(bench.receiver.waiting_tags().len(), 1);
}

// 256 tags that fall due at slots of their own after a gap of nearly 1,000,000 cost two walks, not
// 256.
#[test]
fn many_due_tags_after_a_far_gap() {
    let chain = TestChain {
        hour: 0,
        ..TestChain::with(36, 3, (0, 96), (0, 10))
    }
    .keyed(1_000_000);
    let mut bench = Bench::in_force(
        &Start {
            ns: 36,
            ..all_flexible()
        },
        &chain,
    );
    for prn in 1..=36 {
        bench.words(prn, chain.at(0), &words(prn, 9, 0));
    }
    let mut waiting = 0;
    for subframe in 1..=9 {
        for prn in 1..=36 {
            let specs = vec![Spec::new(prn, 12, &set(&words(prn, 9, 0))); 6];
            let records = lend(&mut bench, &chain, sent(prn, subframe), &specs);
            waiting += outcomes(&records)
                .iter()
                .filter(|&&outcome| outcome == 5)
                .count();
        }
    }
    assert_eq!(waiting, PLACES);
    let before = std::time::Instant::now();
    let records = lend(&mut bench, &chain, sent(1, 9_200), &[]);
    assert_eq!(found(&records)[..256], [1; 256]);
    assert!(before.elapsed().as_secs() < 60, "{:?}", before.elapsed());
}
