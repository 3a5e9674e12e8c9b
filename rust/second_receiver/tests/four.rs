//! Four satellites, or not yet: ages of authentic sets at the last noted sub-frame (02, P5; readings B30 to B33).

mod common;

use common::*;
use second_receiver::four::{least_limit, met};
use second_receiver::replay::write_four;
use second_receiver::times::Gst;
use second_receiver::Receiver;

/// A chain with tags of 40 bits in force, and a tree that proves an emergency message.
struct Sky {
    bench: Bench,
    chain: TestChain,
    emergency: Vec<u8>,
}

impl Sky {
    fn new() -> Sky {
        Sky::of(TestChain::wide())
    }

    fn of(chain: TestChain) -> Sky {
        let (tree_root, emergency) = tree_message(&leaf(4, 0, 13), 6, 11);
        let start = Start {
            ns: chain.ns,
            tree_root,
            ..Start::default()
        };
        Sky {
            bench: Bench::in_force(&start, &chain),
            chain,
            emergency,
        }
    }

    /// PRN 1 to 4 have authentic sets of sub-frame 3.
    fn with_four() -> Sky {
        let mut sky = Sky::new();
        (1..=4).for_each(|prn| sky.authenticate(prn, 3));
        sky
    }

    /// Words of a satellite, and in the next sub-frame a section whose first tag matches them.
    fn authenticate(&mut self, prn: u8, subframe: usize) {
        let words = words(prn, 9, 0);
        self.bench
            .words(prn, self.chain.at(subframe as i64 - 1), &words);
        let tags = [Spec::new(prn, 0, &set(&words))];
        let (number, records) = self.bench.send(&self.chain, prn, subframe, &tags);
        assert_eq!((number, records[0][0]), (0, 1), "PRN {prn}");
    }

    /// Zero fields, which note the time.
    fn note(&mut self, gst: u32) {
        let numbers = self.bench.subframe(20, gst, &[0; 15], &[0; 60]).0;
        assert_eq!(numbers, (5, 5));
    }

    /// The least limit, after a question with it and with the one below.
    fn least(&self) -> Option<u64> {
        let receiver = &self.bench.receiver;
        let least = receiver.least_limit();
        assert_eq!(receiver.four(u32::MAX), least.is_some());
        assert_eq!(receiver.four(0), least == Some(0));
        if let Some(limit) = least.map(|limit| u32::try_from(limit).unwrap()) {
            assert!(receiver.four(limit));
            assert!(limit == 0 || !receiver.four(limit - 1));
        }
        least
    }
}

#[test]
fn three_and_four() {
    let mut sky = Sky::new();
    for prn in [1, 2, 36] {
        assert_eq!(sky.least(), None);
        sky.authenticate(prn, 3);
    }
    assert_eq!(sky.least(), None, "three");
    sky.authenticate(20, 4);
    assert_eq!(sky.least(), Some(1), "four");
    // A fifth: the four youngest count.
    sky.authenticate(35, 4);
    assert_eq!(sky.least(), Some(1));
    sky.authenticate(3, 4);
    sky.authenticate(34, 4);
    assert_eq!(sky.least(), Some(0));
    // One satellite twice is one.
    let mut sky = Sky::new();
    for subframe in 3..=7 {
        (1..=3).for_each(|prn| sky.authenticate(prn, subframe));
    }
    assert_eq!(sky.least(), None);
}

#[test]
fn an_age_equal_to_the_limit() {
    let mut sky = Sky::with_four();
    assert_eq!(sky.least(), Some(0));
    for age in 1..=25 {
        sky.note(sky.chain.at(3 + i64::from(age)));
        for limit in [0, 9, 10, 11, 19, 20, 21, 24, 25, 26, u32::MAX] {
            let yes = sky.bench.receiver.four(limit);
            assert_eq!(yes, age <= limit, "age {age}, limit {limit}");
        }
        assert_eq!(sky.least(), Some(age.into()));
    }
    // A tag of its own makes a satellite younger, those of three are not enough.
    (1..=3).for_each(|prn| sky.authenticate(prn, 29));
    assert_eq!(sky.least(), Some(26));
    sky.authenticate(4, 30);
    assert_eq!(sky.least(), Some(1));
}

#[test]
fn over_a_weeks_end() {
    let last_hour = TestChain {
        hour: 167,
        ..TestChain::with(1, 2, (4, 128), (9, 40))
    };
    let mut sky = Sky::of(last_hour.keyed(260));
    for (prn, subframe) in [(1, 117), (2, 118), (3, 119), (4, 119)] {
        sky.authenticate(prn, subframe);
    }
    assert_eq!(sky.chain.at(119), gst(1000, 604_770));
    assert_eq!(sky.least(), Some(2));
    sky.note(gst(1001, 0));
    assert_eq!(sky.least(), Some(3));
    sky.authenticate(5, 121);
    assert_eq!(sky.least(), Some(3));
    // A year, and the last sub-frame of all.
    sky.note(gst(1053, 0));
    assert_eq!(sky.least(), Some(52 * 20_160 + 2));
    sky.note(gst(4095, 604_770));
    assert_eq!(sky.least(), Some(3_095 * 20_160 + 1));
}

#[test]
fn before_any_is_noted() {
    let tags = [gst(1000, 30); 36].map(Gst);
    assert_eq!(least_limit(None, tags), None);
    assert!(!met(least_limit(None, tags), u32::MAX));
    assert_eq!(least_limit(Some(tags[0]), tags), Some(0));
    assert!(!Receiver::new().four(u32::MAX));
    let mut sky = Sky {
        bench: Bench::started(&Start::default()),
        ..Sky::new()
    };
    assert_eq!(sky.least(), None);
    sky.bench.words(1, sky.chain.at(0), &words(1, 9, 0));
    assert_eq!(sky.least(), None);
}

// A tag later than the last noted sub-frame, and times that no sub-frame has.
#[test]
fn any_times() {
    let four = |tags: [(u32, u32); 4], last: (u32, u32)| {
        let tags = tags.map(|(week, second)| Gst::new(week, second));
        least_limit(Some(Gst::new(last.0, last.1)), tags)
    };
    assert_eq!(four([(6, 0); 4], (5, 604_770)), Some(0));
    assert_eq!(
        four([(6, 0), (5, 0), (5, 60), (4095, 604_770)], (5, 90)),
        Some(3)
    );
    // Rounded down.
    for (seconds, age) in [(0, 0), (29, 0), (30, 1), (59, 1), (60, 2)] {
        assert_eq!(four([(5, 7); 4], (5, 7 + seconds)), Some(age));
    }
    // Seconds past a week's end.
    assert_eq!(four([(5, 604_800); 4], (6, 30)), Some(1));
    assert_eq!(four([(5, 0xF_FFFF); 4], (6, 443_775 + 30)), Some(1));
    assert_eq!(
        four([(0, 0); 4], (4095, 0xF_FFFF)),
        Some(4_095 * 20_160 + 34_952)
    );
}

// The least limit is where the count over all satellites comes to four.
#[test]
fn the_count_over_all() {
    let mut number = 1u32;
    let mut draw = |below: u32| {
        number = number.wrapping_mul(1_664_525).wrapping_add(1_013_904_223);
        (number >> 8) % below
    };
    for _ in 0..2_000 {
        let last = Gst::new(7, 30 * 40);
        let tags: Vec<Gst> = (0..draw(12)).map(|_| Gst::new(7, 30 * draw(41))).collect();
        let least = least_limit(Some(last), tags.clone());
        for limit in 0..=41 {
            let recent = tags
                .iter()
                .filter(|tag| last.second_of_week() - tag.second_of_week() <= 30 * limit);
            assert_eq!(met(least, limit), recent.count() >= 4);
        }
    }
}

/// A sub-frame that notes the time: the age that it makes of 4, and its two numbers.
fn noted(sky: &mut Sky, prn: u8, age: i64, marks: u16, fields: &[u8]) -> Numbers {
    let time = sky.chain.at(3 + age);
    let numbers = sky.bench.received(prn, time, marks, fields).0;
    assert_eq!(sky.least(), Some(age as u64), "after {numbers:?}");
    numbers
}

#[test]
fn what_notes_the_time() {
    let sky = &mut Sky::with_four();
    let idle = hkroot(HEADER, 11, 1, &[0; 13]);
    let other = hkroot(header(2, 3), 11, 1, &[0; 13]);
    let block = |section: &[u8]| fields(&idle, section);
    assert_eq!(noted(sky, 1, 1, u16::MAX, &[0; 75]), (5, 5));
    assert_eq!(noted(sky, 20, 2, u16::MAX, &[0; 75]), (5, 5));
    assert_eq!(
        noted(sky, 21, 3, u16::MAX, &fields(&other, &[1; 60])),
        (0, 11)
    );
    assert_eq!(noted(sky, 22, 4, u16::MAX, &block(&[1; 60])), (0, 12));
    assert_eq!(noted(sky, 23, 5, 0x7FFF, &block(&[1; 60])), (17, 17));
    assert_eq!(noted(sky, 24, 6, 0xBFFF, &block(&[1; 60])), (17, 12));
    assert_eq!(noted(sky, 25, 7, 0, &[0; 75]), (17, 17));
    // NB 11 is reserved: 6, and 12.
    let reserved = hkroot(HEADER, 10, 0, &[0xB0; 13]);
    let reserved = fields(&reserved, &[1; 60]);
    assert_eq!(noted(sky, 26, 8, u16::MAX, &reserved), (6, 12));
    // 1,000,000 slots are 125,000 sub-frames here.
    assert_eq!(noted(sky, 27, 130_000, u16::MAX, &block(&[1; 60])), (0, 13));
}

/// Lends the blocks of the emergency message from sub-frame `first` on, the last with a section of ones.
fn stop(sky: &mut Sky, first: i64) {
    let message = sky.emergency.clone();
    for (at, block) in (0..).zip(message.chunks(13)) {
        let time = sky.chain.at(first + i64::from(at));
        let hkroot = hkroot(HEADER, 13, at, block);
        let numbers = sky.bench.subframe(30, time, &hkroot, &[1; 60]).0;
        assert_eq!(numbers, if at < 10 { (0, 12) } else { (0, 4) });
    }
    assert!(sky.bench.receiver.is_stopped());
}

// The emergency's own sub-frame notes the time; then the answer stays.
#[test]
fn a_stopped_receiver() {
    let mut sky = Sky::with_four();
    stop(&mut sky, 4);
    assert_eq!(sky.least(), Some(11));
    let stopped = sky.bench.receiver.clone();
    let numbers = sky.bench.subframe(8, sky.chain.at(15), &[1; 15], &[1; 60]);
    assert_eq!(numbers.0, (4, 4));
    assert_eq!(sky.least(), Some(11));
    assert_eq!(sky.bench.receiver, stopped, "a read changes nothing");
    // Three stay three.
    let mut sky = Sky::new();
    (1..=3).for_each(|prn| sky.authenticate(prn, 3));
    stop(&mut sky, 4);
    assert_eq!(sky.least(), None);
}

#[test]
fn what_notes_no_time() {
    let mut sky = Sky::with_four();
    sky.note(sky.chain.at(5));
    let at = |subframe| sky.chain.at(subframe);
    let (idle, bench) = (hkroot(HEADER, 11, 1, &[0; 13]), &mut sky.bench);
    let whole = fields(&idle, &[1; 60]);
    let mut area = vec![0; 3_240];
    for (prn, time, len, area_len, number) in [
        (9, at(6), 74, 3_240, 1),
        (9, at(6), 75, 3_239, 1),
        (0, at(6), 75, 3_240, 2),
        (37, at(6), 75, 3_240, 2),
        (9, at(6) + 1, 75, 3_240, 2),
        (9, gst(1000, 604_800), 75, 3_240, 2),
        (9, at(4), 75, 3_240, 3),
        (20, at(5), 75, 3_240, 3),
    ] {
        let area = &mut area[..area_len];
        let answer = bench.receiver.subframe(prn, time, &whole[..len], area);
        assert_eq!((answer.hkroot, answer.mack), (number, number));
        assert_eq!(bench.receiver.least_limit(), Some(2), "after {number}");
    }
    // Words and verdicts, taken and refused.
    bench.words(1, at(9), &words(1, 9, 0));
    bench.words(7, at(30), &words(7, 9, 0));
    assert_eq!(bench.receiver.word(7, at(29), &[4; 16]), 3);
    assert_eq!(bench.good(3, &[1; 45], &[1; 132]), 14);
    assert_eq!(sky.least(), Some(2));
}

// A satellite's own sub-frames are not what ages are taken against.
#[test]
fn the_clock_is_of_all_satellites() {
    let mut sky = Sky::with_four();
    sky.note(sky.chain.at(9));
    assert_eq!(sky.least(), Some(6));
    let own = sky.bench.receiver.subframe_clock(1).unwrap();
    assert_eq!(own.0, sky.chain.at(3));
}

/// The usual chain: tags of 12 bits, of which four make a set.
#[test]
fn candidates_never_count() {
    let mut sky = Sky::of(TestChain::usual());
    let tag = |prn, iodnav| Spec::new(prn, 0, &set(&words(prn, iodnav, 0)));
    for prn in 1..=4 {
        sky.bench.words(prn, sky.chain.at(0), &words(prn, 9, 0));
    }
    let send = |sky: &mut Sky, prn, subframe, tags: &[Spec]| {
        let (number, records) = sky.bench.send(&sky.chain, prn, subframe, tags);
        assert_eq!(number, 0);
        outcomes(&records)[..tags.len()].to_vec()
    };
    for prn in 1..=4 {
        assert_eq!(send(&mut sky, prn, 3, &vec![tag(prn, 9); 3]), [9; 3]);
        assert_eq!(sky.least(), None, "{prn} candidates");
    }
    for prn in 1..=3 {
        assert_eq!(send(&mut sky, prn, 4, &[tag(prn, 9)]), [1]);
    }
    assert_eq!(sky.least(), None, "three sets and a candidate");
    assert_eq!(send(&mut sky, 4, 5, &[tag(4, 9)]), [1]);
    assert_eq!(sky.least(), Some(1));
    // A candidate beside an authentic set does not make it younger.
    for prn in 1..=4 {
        sky.bench.words(prn, sky.chain.at(6), &words(prn, 44, 0));
    }
    for prn in 1..=4 {
        assert_eq!(send(&mut sky, prn, 9, &vec![tag(prn, 44); 3]), [9; 3]);
    }
    assert_eq!(sky.least(), Some(5));
}

// A slow tag came when its section came, not when it was judged.
#[test]
fn slow_tags() {
    let mut sky = Sky::new();
    // Sub-frame 3 is at second 30: its fields behind the first are flexible.
    (1..=3).for_each(|prn| sky.authenticate(prn, 3));
    let four = words(4, 9, 0);
    sky.bench.words(4, sky.chain.at(2), &four);
    let tags = [Spec::new(9, 0, &[]), Spec::new(4, 12, &set(&four))];
    let (_, records) = sky.bench.send(&sky.chain, 9, 3, &tags);
    assert_eq!(outcomes(&records)[..2], [3, 5]);
    (1..=3).for_each(|prn| sky.authenticate(prn, 12));
    assert_eq!(sky.least(), None);
    let (_, records) = sky.bench.send(&sky.chain, 9, 13, &[]);
    assert_eq!(outcomes(&records)[0], 1);
    assert_eq!(sky.least(), Some(10));
}

#[test]
fn starts() {
    let mut sky = Sky::with_four();
    sky.note(sky.chain.at(8));
    let before = sky.bench.receiver.clone();
    let refused = Start {
        ns: 37,
        ..Start::default()
    };
    assert_eq!(refused.send(&mut sky.bench.receiver), 2);
    assert_eq!(sky.least(), Some(5));
    assert_eq!(sky.bench.receiver, before);
    assert_eq!(Start::default().send(&mut sky.bench.receiver), 0);
    assert_eq!(sky.least(), None);
    sky.note(sky.chain.at(2));
    assert_eq!(sky.least(), None);
}

#[test]
fn the_line_of_the_least_limit() {
    let line = |sky: &Sky| {
        let mut line = Vec::new();
        write_four(&sky.bench.receiver, &mut line).unwrap();
        String::from_utf8(line).unwrap()
    };
    assert_eq!(line(&Sky::new()), "F -\n");
    let mut sky = Sky::with_four();
    assert_eq!(line(&sky), "F 0\n");
    sky.note(gst(1001, 36_090));
    assert_eq!(line(&sky), "F 20160\n");
}
