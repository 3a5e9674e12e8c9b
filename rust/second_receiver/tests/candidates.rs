//! Forty bits before a set is authentic: candidates, outcome 9, and what clears them (02, P4; readings
//! B16 to B26).

mod common;

use common::*;

/// MS codes and bits.
const TAGS: [(u8, usize); 10] = [
    (0, 10),
    (1, 12),
    (2, 14),
    (3, 16),
    (4, 18),
    (5, 20),
    (6, 24),
    (7, 28),
    (8, 32),
    (9, 40),
];

/// Two data sets of a satellite.
fn first(prn: u8) -> [[u8; 16]; 5] {
    words(prn, 9, 0)
}

fn second(prn: u8) -> [[u8; 16]; 5] {
    words(prn, 44, 1)
}

/// The usual chain in force, every field but the first of a section flexible. PRN 3 sends; it has no
/// words, so that its first tag is outcome 3.
struct Sky {
    bench: Bench,
    chain: TestChain,
}

/// What is held of PRN 2: the authentic set's IODnav and sub-frame; the candidate's IODnav, the
/// sub-frame of its latest tag and its total.
type Held = (Option<(u16, i64)>, Option<(u16, i64, usize)>);

impl Sky {
    /// The first data of PRN 2 held from sub-frame 0 on.
    fn new() -> Sky {
        Sky::of(TestChain::usual())
    }

    fn of(chain: TestChain) -> Sky {
        let marks = Start::default().marks_30;
        let start = Start {
            ns: chain.ns,
            marks_0: marks.clone(),
            marks_30: marks,
            ..Start::default()
        };
        let mut bench = Bench::in_force(&start, &chain);
        bench.words(2, chain.at(0), &first(2));
        Sky { bench, chain }
    }

    /// Sends a section of these tags behind the first; the outcomes of due tags and of these.
    fn send_from(&mut self, prn: u8, subframe: usize, tags: &[Spec]) -> Vec<u8> {
        let specs = [&[Spec::new(0, 0, &[])], tags].concat();
        let count = self.chain.block_fields() * usize::from(self.chain.nmack);
        assert!(specs.len() <= count);
        let sent = Sent {
            prn,
            subframe,
            status: 2,
        };
        let flexible: Vec<usize> = (1..count).collect();
        let section = self.chain.section(sent, &specs, &flexible);
        let header = header(2, self.chain.cid);
        let time = self.chain.at(subframe as i64);
        let (number, records) = self.bench.section(prn, time, header, &section);
        assert_eq!(number, 0);
        let mut told = outcomes(&records);
        let own = told.split_off(told.len() - count);
        told.extend(&own[1..1 + tags.len()]);
        told
    }

    fn send(&mut self, subframe: usize, tags: &[Spec]) -> Vec<u8> {
        self.send_from(3, subframe, tags)
    }

    /// PRN 2's words from this sub-frame on.
    fn change(&mut self, subframe: i64, words: &[[u8; 16]; 5]) {
        self.bench.words(2, self.chain.at(subframe), words);
    }

    fn held(&self) -> Held {
        let subframe = |gst: u32| {
            (-40..200)
                .find(|&n| self.chain.at(n) == gst)
                .expect("a sub-frame of the chain")
        };
        let receiver = &self.bench.receiver;
        let authentic = receiver.authentic_set(2);
        let candidate = receiver.candidate(2);
        let held = (
            authentic.map(|held| (held.set.iodnav(), subframe(held.time.0))),
            candidate.map(|c| (c.set.iodnav(), subframe(c.latest().0), c.total())),
        );
        // The IODnav tells the set.
        for set in authentic
            .map(|held| &held.set)
            .into_iter()
            .chain(candidate.map(|c| &c.set))
        {
            let words = if set.iodnav() == 9 {
                first(2)
            } else {
                second(2)
            };
            assert_eq!(set.0[..], common::set(&words));
        }
        held
    }
}

/// A tag of PRN 2 over its first data, its second, and slow ones.
fn old() -> Spec {
    Spec::new(2, 0, &set(&first(2)))
}

fn new() -> Spec {
    Spec::new(2, 0, &set(&second(2)))
}

fn slow(spec: Spec) -> Spec {
    Spec { adkd: 12, ..spec }
}

// Every MS: 9 until the sum is 40 or more, 1 with the tag that makes it so, then 1 alone.
#[test]
fn forty_bits() {
    for ms in TAGS {
        let mut sky = Sky::of(TestChain::with(4, 1, (0, 96), ms).keyed(100));
        let told: Vec<u8> = (1..=5).map(|n| if n * ms.1 < 40 { 9 } else { 1 }).collect();
        assert!(told.ends_with(&[1]));
        // All in one section.
        let mut whole = Sky {
            bench: sky.bench.clone(),
            chain: sky.chain.clone(),
        };
        assert_eq!(whole.send(3, &vec![old(); 5]), told, "MS {}", ms.1);
        assert_eq!(whole.held(), (Some((9, 3)), None));
        // One a section.
        for (n, &outcome) in (1..).zip(&told) {
            let subframe = 2 + n;
            assert_eq!(sky.send(subframe, &[old()]), [outcome], "MS {}", ms.1);
            let at = subframe as i64;
            let held = match outcome {
                9 => (None, Some((9, at, n * ms.1))),
                _ => (Some((9, at)), None),
            };
            assert_eq!(sky.held(), held, "MS {}", ms.1);
            let read = if outcome == 9 { Err(16) } else { Ok(()) };
            assert_eq!(sky.bench.read(2).map(|_| ()), read);
        }
    }
}

// A wrong tag between them counts nothing and takes nothing away.
#[test]
fn wrong_tags_between() {
    let mut sky = Sky::new();
    let tags = [old(), old().flip(0), old(), old().flip(11), old()];
    assert_eq!(sky.send(3, &tags), [9, 2, 9, 2, 9]);
    assert_eq!(sky.send(4, &[new()]), [2]);
    assert_eq!(sky.held(), (None, Some((9, 3, 36))));
    assert_eq!(sky.send(5, &[old()]), [1]);
}

// B16: the IODnav of the set judged, which a slow tag has a copy of.
#[test]
fn iodnav_of_outcome_9() {
    let mut sky = Sky::new();
    assert_eq!(sky.send(5, &[slow(old()), old()]), [5, 9]);
    sky.change(6, &second(2));
    let specs = [Spec::new(0, 0, &[]), new()];
    let sent = Sent {
        prn: 3,
        subframe: 15,
        status: 2,
    };
    let section = sky.chain.section(sent, &specs, &[1, 2, 3, 4, 5, 6, 7]);
    let (_, records) = sky.bench.section(3, sky.chain.at(15), HEADER, &section);
    let time = sky.chain.at(5).to_be_bytes();
    let slow = [&[9, 3, 2, 12, 1, 2, 0, 9][..], &time].concat();
    assert_eq!(records[0], slow);
    let time = sky.chain.at(15).to_be_bytes();
    let quick = [&[9, 3, 2, 0, 1, 2, 0, 44][..], &time].concat();
    assert_eq!(records[2], quick);
}

// Bits of neither set begin a new candidate and a new total, the old ones again too.
#[test]
fn another_set_begins_anew() {
    let mut sky = Sky::new();
    assert_eq!(sky.send(3, &[old(), old(), old()]), [9; 3]);
    sky.change(3, &second(2));
    assert_eq!(sky.send(4, &[new()]), [9]);
    assert_eq!(sky.held(), (None, Some((44, 4, 12))));
    sky.change(4, &first(2));
    assert_eq!(sky.send(5, &[old()]), [9]);
    assert_eq!(sky.held(), (None, Some((9, 5, 12))));
    assert_eq!(sky.send(6, &[old(), old(), old()]), [9, 9, 1]);
    assert_eq!(sky.held(), (Some((9, 6)), None));
}

// Each of the 549 bits counts, also where the IODnav is the same; bits beside them do not.
#[test]
fn sets_of_one_iodnav() {
    // A word, a bit of it, and whether that is authenticated.
    for (kind, bit, counts) in [
        (0, 16, true),
        (0, 125, true),
        (0, 126, false),
        (1, 40, true),
        (1, 127, false),
        (2, 127, true),
        (3, 22, true),
        (3, 126, false),
        (4, 6, true),
        (4, 72, true),
        (4, 73, false),
    ] {
        let mut changed = first(2);
        changed[kind][bit / 8] ^= 0x80 >> (bit % 8);
        let other = Spec::new(2, 0, &set(&changed));
        assert_eq!(other.set != old().set, counts);
        let case = format!("word {} bit {bit}", kind + 1);
        // Beside a candidate of 36 bits, then beside an authentic set.
        let mut sky = Sky::new();
        assert_eq!(sky.send(3, &vec![old(); 3]), [9; 3]);
        sky.change(3, &changed);
        let told = if counts { 9 } else { 1 };
        assert_eq!(sky.send(4, std::slice::from_ref(&other)), [told], "{case}");
        let mut sky = Sky::new();
        assert_eq!(sky.send(3, &vec![old(); 4]), [9, 9, 9, 1]);
        sky.change(3, &changed);
        assert_eq!(sky.send(4, &[other]), [told], "{case}");
    }
}

// A match on the authentic set's bits is 1 and touches no candidate; the set's time goes on with a
// single tag, and is not set back (B17).
#[test]
fn tags_on_the_authentic_set() {
    let mut sky = Sky::new();
    assert_eq!(sky.send(3, &vec![old(); 4]), [9, 9, 9, 1]);
    assert_eq!(sky.send(4, &[old()]), [1]);
    assert_eq!(sky.held(), (Some((9, 4)), None));
    // A slow tag on it, then another set as candidate.
    assert_eq!(sky.send(5, &[slow(old())]), [5]);
    sky.change(5, &second(2));
    assert_eq!(sky.send(6, &[new(), new()]), [9, 9]);
    assert_eq!(sky.held(), (Some((9, 4)), Some((44, 6, 24))));
    sky.change(6, &first(2));
    assert_eq!(sky.send(7, &[old(), old()]), [1, 1]);
    assert_eq!(sky.held(), (Some((9, 7)), Some((44, 6, 24))));
    // The slow tag came before.
    assert_eq!(sky.send(15, &[]), [1]);
    assert_eq!(sky.held(), (Some((9, 7)), Some((44, 6, 24))));
    // The candidate goes on where it stood.
    sky.change(15, &second(2));
    assert_eq!(sky.send(16, &[new(), new(), new()]), [9, 1, 1]);
    assert_eq!(sky.held(), (Some((44, 16)), None));
}

// B18: the latest tag is the latest to come; one that is judged later does not set it back.
#[test]
fn the_latest_tag_is_the_latest_to_come() {
    let mut sky = Sky::new();
    assert_eq!(sky.send(5, &[slow(old()), slow(old())]), [5, 5]);
    assert_eq!(sky.send(8, &[old(), old()]), [9, 9]);
    // Two slow tags of sub-frame 5: the second makes it 48 bits.
    assert_eq!(sky.send(15, &[]), [9, 1]);
    assert_eq!(sky.held(), (Some((9, 8)), None));
    // With one of them it is still a candidate.
    let mut sky = Sky::new();
    assert_eq!(sky.send(5, &[slow(old())]), [5]);
    assert_eq!(sky.send(8, &[old()]), [9]);
    assert_eq!(sky.send(15, &[]), [9]);
    assert_eq!(sky.held(), (None, Some((9, 8, 24))));
    // The section's own tag, judged after the due one, came later.
    assert_eq!(sky.send(16, &[old()]), [9]);
    assert_eq!(sky.held(), (None, Some((9, 16, 36))));
}

// B19: bits of neither while the candidate's latest tag came later: 9, and it counts nowhere.
#[test]
fn an_older_tag_does_not_replace_the_candidate() {
    let mut sky = Sky::new();
    let four = vec![slow(old()); 4];
    assert_eq!(sky.send(5, &four), [5; 4]);
    sky.change(5, &second(2));
    assert_eq!(sky.send(6, &[new()]), [9]);
    // Four of them would be enough.
    assert_eq!(sky.send(15, &[]), [9; 4]);
    assert_eq!(sky.held(), (None, Some((44, 6, 12))));
    assert_eq!(sky.send(16, &[new(), new(), new()]), [9, 9, 1]);
    assert_eq!(sky.held(), (Some((44, 16)), None));
}

// The candidate's latest tag decides, not its first or the authentic set's.
#[test]
fn the_latest_of_the_candidate_decides() {
    let mut sky = Sky::new();
    // The second data's candidate has tags of sub-frames 3 and 7; the first data's came between.
    sky.change(2, &second(2));
    assert_eq!(sky.send(3, &[new()]), [9]);
    sky.change(4, &first(2));
    assert_eq!(sky.send(5, &[slow(old())]), [5]);
    sky.change(6, &second(2));
    assert_eq!(sky.send(7, &[new()]), [9]);
    assert_eq!(sky.send(15, &[]), [9]);
    assert_eq!(sky.held(), (None, Some((44, 7, 24))));
}

/// Tags of two data sets that came at sub-frame 5, those of the first slow, due at 15.
fn of_one_time(tags: usize, sky: &mut Sky) {
    assert_eq!(sky.send(5, &vec![slow(old()); tags]), vec![5; tags]);
    sky.change(4, &second(2));
}

// B20: at equal times the new bits replace the candidate, and a candidate becomes the set.
#[test]
fn equal_times() {
    let mut sky = Sky::new();
    of_one_time(1, &mut sky);
    assert_eq!(sky.send_from(4, 5, &[new(), new()]), [9, 9]);
    assert_eq!(sky.held(), (None, Some((44, 5, 24))));
    assert_eq!(sky.send(15, &[]), [9]);
    assert_eq!(sky.held(), (None, Some((9, 5, 12))));

    let mut sky = Sky::new();
    of_one_time(4, &mut sky);
    assert_eq!(sky.send_from(4, 5, &vec![new(); 4]), [9, 9, 9, 1]);
    assert_eq!(sky.held(), (Some((44, 5)), None));
    assert_eq!(sky.send(15, &[]), [9, 9, 9, 1]);
    assert_eq!(sky.held(), (Some((9, 5)), None));
}

// B22: a candidate that gets its forty bits goes if the old set's tag came later than its latest;
// its last tag is 1 all the same.
#[test]
fn a_newer_authentic_set_stays() {
    let mut sky = Sky::new();
    assert_eq!(sky.send(5, &vec![slow(old()); 5]), [5; 5]);
    sky.change(5, &second(2));
    assert_eq!(sky.send(6, &vec![new(); 4]), [9, 9, 9, 1]);
    // The fifth begins anew: the first data is neither set then.
    assert_eq!(sky.send(15, &[]), [9, 9, 9, 1, 9]);
    assert_eq!(sky.held(), (Some((44, 6)), Some((9, 5, 12))));

    // Tags of sub-frames 5 and 7 for the candidate: it is the newer one, by its latest.
    let mut sky = Sky::new();
    assert_eq!(sky.send(5, &vec![slow(old()); 3]), [5; 3]);
    sky.change(5, &second(2));
    assert_eq!(sky.send(6, &vec![new(); 4]), [9, 9, 9, 1]);
    sky.change(6, &first(2));
    assert_eq!(sky.send(7, &[old()]), [9]);
    assert_eq!(sky.send(15, &[]), [9, 9, 1]);
    assert_eq!(sky.held(), (Some((9, 7)), None));
}

// Due tags count before the section's own, and all in the order in which they are judged.
#[test]
fn due_tags_and_own_tags() {
    let mut sky = Sky::new();
    assert_eq!(sky.send(5, &[slow(old()), slow(old())]), [5, 5]);
    assert_eq!(sky.send(15, &[old(), old(), old()]), [9, 9, 9, 1, 1]);
    assert_eq!(sky.held(), (Some((9, 15)), None));
    // Own tags of another set: the due ones' candidate goes.
    let mut sky = Sky::new();
    assert_eq!(sky.send(5, &[slow(old()), slow(old())]), [5, 5]);
    sky.change(14, &second(2));
    assert_eq!(sky.send(15, &[new()]), [9, 9, 9]);
    assert_eq!(sky.held(), (None, Some((44, 15, 12))));
}

// Each satellite has a candidate of its own.
#[test]
fn satellites_beside_each_other() {
    let mut sky = Sky::new();
    for prn in [1, 3, 35, 36] {
        sky.bench.words(prn, sky.chain.at(0), &first(prn));
    }
    let tag = |prn| Spec::new(prn, 0, &set(&first(prn)));
    let tags = [tag(1), old(), tag(3), tag(35), tag(36)];
    for (subframe, outcome) in [(3, 9), (4, 9), (5, 9), (6, 1)] {
        assert_eq!(sky.send_from(4, subframe, &tags), [outcome; 5]);
    }
    let mut sky = Sky::new();
    sky.bench.words(1, sky.chain.at(0), &first(1));
    sky.bench.words(3, sky.chain.at(0), &first(3));
    let three = |prn| vec![tag(prn); 3];
    for (subframe, prn) in [(3, 1), (4, 2), (5, 3)] {
        assert_eq!(sky.send_from(4, subframe, &three(prn)), [9; 3]);
    }
    assert_eq!(sky.send_from(4, 6, &[old()]), [1]);
    for prn in [1, 3] {
        assert_eq!(sky.bench.read(prn), Err(16));
        assert_eq!(sky.bench.receiver.candidate(prn).unwrap().total(), 36);
    }
    for prn in (1..=36).filter(|prn| ![1, 3].contains(prn)) {
        assert!(sky.bench.receiver.candidate(prn).is_none(), "PRN {prn}");
    }
}

// What stood as candidate in a section is known until the next one is judged, though it became the
// authentic set in it; a set that needs one tag never stands.
#[test]
fn what_stood_as_candidate() {
    let stood = |sky: &Sky| {
        sky.bench
            .receiver
            .stood_as_candidate(2)
            .map(|s| s.0.to_vec())
    };
    let mut sky = Sky::new();
    assert_eq!(sky.send(3, &vec![old(); 4]), [9, 9, 9, 1]);
    assert_eq!(stood(&sky), Some(old().set));
    assert_eq!(sky.held(), (Some((9, 3)), None));
    // A refused section judges no tag.
    assert_eq!(
        sky.bench.section(9, sky.chain.at(3), HEADER, &[1; 60]).0,
        12
    );
    assert_eq!(stood(&sky), Some(old().set));
    assert_eq!(sky.send(4, &[old()]), [1]);
    assert_eq!(stood(&sky), None);
    sky.change(4, &second(2));
    assert_eq!(sky.send(5, &[new()]), [9]);
    assert_eq!(stood(&sky), Some(new().set));
    let mut sky = Sky::of(TestChain::wide());
    assert_eq!(sky.send(3, &[old()]), [1]);
    assert_eq!(stood(&sky), None);
}

/// An authentic set of PRN 2, a candidate of PRN 2 and one of PRN 5, 118 sub-frames after the root.
fn with_candidates() -> Sky {
    let mut sky = Sky::of(TestChain::with(1, 2, (4, 128), (1, 12)).keyed(400));
    sky.bench.words(5, sky.chain.at(0), &first(5));
    assert_eq!(sky.send(109, &vec![old(); 4]), [9, 9, 9, 1]);
    sky.change(109, &second(2));
    let five = Spec::new(5, 0, &set(&first(5)));
    assert_eq!(sky.send(110, &[new(), five]), [9, 9]);
    assert_eq!(sky.held(), (Some((9, 109)), Some((44, 110, 12))));
    sky
}

// B21, B23: another CID, parameter or α is a new chain: the candidates of all satellites go, the
// authentic sets stay. A later root of the same chain clears none.
#[test]
fn a_new_chain() {
    let sky = with_candidates();
    let floated = sky.chain.floated(1);
    let left = |root: &TestChain| {
        let mut bench = sky.bench.clone();
        let header = header(2, root.cid);
        assert_eq!(vouch(&mut bench, root, header, 3, sky.chain.at(111)), 0);
        let (before, after) = (&sky.bench.receiver, &bench.receiver);
        assert_eq!(after.authentic_set(2), before.authentic_set(2));
        let candidates = [2, 5].map(|prn| after.candidate(prn).cloned());
        if candidates[0].is_some() {
            assert_eq!(
                candidates,
                [2, 5].map(|prn| before.candidate(prn).cloned()),
                "as they were"
            );
        }
        candidates.iter().flatten().count()
    };
    let changed = |change: fn(&mut TestChain)| {
        let mut root = floated.clone();
        change(&mut root);
        left(&root)
    };
    assert_eq!(left(&sky.chain), 2, "equal contents");
    assert_eq!(changed(|_| {}), 2, "a later root");
    assert_eq!(changed(|root| root.rsvd = 2), 2, "Rsvd is no parameter");
    assert_eq!(changed(|root| root.cid = 2), 0);
    assert_eq!(changed(|root| root.alpha[5] ^= 1), 0);
    assert_eq!(changed(|root| (root.ms_code, root.tag_bits) = (2, 14)), 0);
    assert_eq!(changed(|root| root.nmack = 1), 0);
    assert_eq!(changed(|root| root.hf = 1), 0);
    assert_eq!(changed(|root| root.hf = 2), 0);
    assert_eq!(changed(|root| root.mf = 1), 0);
    let shorter_keys = |root: &mut TestChain| {
        (root.ks_code, root.key_bits) = (3, 120);
        root.keys[0].truncate(15);
    };
    assert_eq!(changed(shorter_keys), 0);
}

// A later root of the same chain: the sum goes on under it, also with a tag from before it.
#[test]
fn a_floating_root() {
    let mut sky = with_candidates();
    assert_eq!(sky.send(111, &[slow(new()), new()]), [5, 9]);
    let floated = sky.chain.floated(1);
    assert_eq!(
        vouch(&mut sky.bench, &floated, HEADER, 3, sky.chain.at(112)),
        0
    );
    assert_eq!(sky.bench.receiver.waiting_tags().len(), 1);
    let before = std::mem::replace(&mut sky.chain, floated);
    // 24 bits and the slow tag, then 48.
    assert_eq!(sky.send(1, &[new()]), [9, 1]);
    let read = (set(&second(2)), 44, before.at(121));
    assert_eq!(sky.bench.read(2), Ok(read));
}

// A drop clears candidates; after it, under another chain, a single tag on the authentic set's bits
// is 1 and others begin anew (B23).
#[test]
fn a_drop() {
    let mut sky = with_candidates();
    let drop = header(3, sky.chain.cid);
    // Status 3 with another CID drops nothing (11).
    let mut other = sky.bench.clone();
    let other_cid = header(3, sky.chain.cid ^ 1);
    assert_eq!(
        vouch(&mut other, &sky.chain, other_cid, 3, sky.chain.at(111)),
        11
    );
    assert!(other.receiver.candidate(2).is_some());
    assert_eq!(
        vouch(&mut sky.bench, &sky.chain, drop, 3, sky.chain.at(111)),
        0
    );
    for prn in 1..=36 {
        assert!(sky.bench.receiver.candidate(prn).is_none());
    }
    assert_eq!(sky.held(), (Some((9, 109)), None));
    let floated = sky.chain.floated(1);
    assert_eq!(
        vouch(&mut sky.bench, &floated, HEADER, 3, sky.chain.at(119)),
        0
    );
    assert!(sky.bench.receiver.candidate(2).is_none(), "it stays gone");
    sky.chain = floated;
    assert_eq!(sky.send(8, &[new(), new(), new()]), [9, 9, 9]);
    sky.change(8, &first(2));
    assert_eq!(sky.send(9, &[old()]), [1]);
    sky.change(9, &second(2));
    assert_eq!(sky.send(10, &[new()]), [1]);
}

/// Verdicts that are refused, from sub-frame 113 on.
fn refused_verdicts(bench: &mut Bench, chain: &TestChain) {
    let newer = TestChain {
        hour: 12,
        alpha: [9; 6],
        ..chain.clone()
    };
    assert_eq!(
        bench.dsm(35, chain.at(113), HEADER, 5, &newer.dsm(3, &[9; 64])),
        0
    );
    // Bad (15), nothing waits (14), earlier (9), CIDKR not CID (11).
    assert_eq!(bench.verdict(0, 3, &newer.message(HEADER), &[9; 64]), 15);
    assert_eq!(bench.good(3, &newer.message(HEADER), &[9; 64]), 14);
    let earlier = TestChain {
        hour: 9,
        ..newer.clone()
    };
    assert_eq!(vouch(bench, &earlier, HEADER, 3, chain.at(122)), 9);
    assert_eq!(vouch(bench, &newer, header(2, 2), 3, chain.at(131)), 11);
}

// B26: nothing else clears a candidate or adds to it.
#[test]
fn what_clears_nothing() {
    let sky = with_candidates();
    let candidates = |bench: &Bench| [2, 5].map(|prn| bench.receiver.candidate(prn).cloned());
    let before = candidates(&sky.bench);
    let mut bench = sky.bench.clone();
    let at = |subframe| sky.chain.at(subframe);
    // Words of a third data set; zero fields; another CID; a key that fails; one that is too far.
    bench.words(2, at(111), &words(2, 77, 3));
    assert_eq!(bench.subframe(7, at(111), &[0; 15], &[0; 60]).0, (5, 5));
    assert_eq!(bench.section(8, at(111), header(2, 3), &[1; 60]).0, 11);
    assert_eq!(bench.section(9, at(111), HEADER, &[1; 60]).0, 12);
    // Outcome 8 adds no bits (02, P3): all keys lost.
    let sent = Sent {
        prn: 3,
        subframe: 112,
        status: 2,
    };
    let specs = [Spec::new(0, 0, &[]), new(), new(), new()];
    let section = sky.chain.section(sent, &specs, &[1, 2, 3, 4, 5, 6, 7]);
    let whole = fields(&hkroot(HEADER, 11, 1, &[0; 13]), &section);
    let (numbers, records) = bench.received(3, at(112), !(0x8000 >> 5 | 0x8000 >> 13), &whole);
    assert_eq!((numbers, outcomes(&records)), ((17, 0), vec![8; 8]));
    refused_verdicts(&mut bench, &sky.chain);
    // 1,000,000 slots and more past the held key; years of it.
    let far = bench.section(6, gst(2000, 0), HEADER, &[1; 60]);
    assert_eq!(far.0, 13);
    assert_eq!(candidates(&bench), before);
}
