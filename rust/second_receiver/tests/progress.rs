//! How far along each message is: blocks held and missing, by DSM ID (02, P9; reading B65).

mod common;

use common::*;
use second_receiver::progress::Progress;
use second_receiver::replay::write_progress;
use second_receiver::Receiver;

const T: u32 = 1000 << 20 | 36_000;
/// The DSM ID of most blocks here.
const ID: u8 = 9;

/// Held and missing of each DSM ID of which blocks are held; the others have none and an unknown total.
fn gathered(receiver: &Receiver) -> Vec<(u8, u8, Option<u8>)> {
    let before = receiver.clone();
    let all = receiver.progress();
    assert_eq!(receiver, &before, "a read changes nothing");
    let told = (0..).zip(all).map(|(id, p)| (id, p.held, p.missing));
    told.filter(|told| (told.1, told.2) != (0, None)).collect()
}

/// A receiver to which blocks of one DSM ID come from ever new half minutes.
struct Gathering {
    bench: Bench,
    time: u32,
}

impl Gathering {
    fn new() -> Gathering {
        Gathering {
            bench: Bench::started(&Start::default()),
            time: T,
        }
    }

    /// A block with bytes of its own comes.
    fn comes(&mut self, block_id: u8) {
        assert_eq!(self.block(HEADER, block_id, &[block_id; 13]), 0);
    }

    /// Block 0 of a message of so many blocks comes.
    fn counts(&mut self, count: u8) {
        assert_eq!(self.block(HEADER, 0, &block_0(count)), 0);
    }

    fn block(&mut self, header: u8, block_id: u8, block: &[u8]) -> u8 {
        self.time = later(self.time, 1);
        let ids = (ID, block_id);
        self.bench.block(1, self.time, header, ids, block)
    }

    fn says(&self, held: u8, missing: Option<u8>) {
        assert_eq!(gathered(&self.bench.receiver), [(ID, held, missing)]);
    }
}

#[test]
fn nothing_held() {
    assert_eq!(gathered(&Receiver::new()), []);
    assert_eq!(gathered(&Gathering::new().bench.receiver), []);
}

// Without block 0 the total is unknown, however many blocks are held.
#[test]
fn block_0_last() {
    let mut g = Gathering::new();
    for (held, id) in (1..).zip([15, 3, 7, 1, 14, 2, 4, 13, 5, 12, 6, 8, 11, 9]) {
        g.comes(id);
        g.says(held, None);
    }
    g.counts(16);
    g.says(15, Some(1));
}

// Each count that NB can name; a repeat counts once.
#[test]
fn block_0_first() {
    for count in 7..=16 {
        let mut g = Gathering::new();
        g.counts(count);
        g.says(1, Some(count - 1));
        for id in 1..count - 1 {
            g.comes(id);
            g.says(id + 1, Some(count - 1 - id));
            g.comes(id);
            g.counts(count);
            g.says(id + 1, Some(count - 1 - id));
        }
    }
}

// Each DSM ID counts its own blocks and goes by its own block 0.
#[test]
fn ids_side_by_side() {
    let mut bench = Bench::started(&Start::default());
    let mut comes = |id: u8, block_id: u8, block: [u8; 13]| {
        let prn = 2 * id + 1 + block_id % 2;
        assert_eq!(bench.block(prn, T, HEADER, (id, block_id), &block), 0);
    };
    for id in 0..16 {
        if id % 3 == 0 {
            comes(id, 0, block_0(7 + id / 2));
        }
        if id % 2 == 0 {
            comes(id, 5, [id; 13]);
        }
    }
    let want: Vec<_> = (0..16)
        .filter_map(|id| {
            let held = u8::from(id % 3 == 0) + u8::from(id % 2 == 0);
            let missing = (id % 3 == 0).then(|| 7 + id / 2 - held);
            (held > 0).then_some((id, held, missing))
        })
        .collect();
    assert_eq!(gathered(&bench.receiver), want);
}

// What drops an ID's blocks leaves the block that came.
#[test]
fn drops() {
    let begun = || {
        let mut g = Gathering::new();
        g.counts(9);
        (1..=4).for_each(|id| g.comes(id));
        g.says(5, Some(4));
        g
    };
    let mut g = begun();
    assert_eq!(g.block(HEADER ^ 1, 5, &[5; 13]), 0);
    g.says(1, None);
    let mut g = begun();
    assert_eq!(g.block(HEADER, 4, &[5; 13]), 0);
    g.says(1, None);
    let mut g = begun();
    g.counts(10);
    g.says(1, Some(9));
    // A count that is not above a stored ID.
    let mut g = Gathering::new();
    (1..=8).for_each(|id| g.comes(id));
    g.counts(8);
    g.says(1, Some(7));
    let mut g = Gathering::new();
    (1..=8).for_each(|id| g.comes(id));
    g.counts(10);
    g.says(9, Some(1));
}

// Over 3,600 s old they count until the next block of their ID comes.
#[test]
fn old_blocks_count() {
    let mut g = Gathering::new();
    g.counts(9);
    g.comes(1);
    g.time = later(g.time, 500);
    let fields = [0; 75];
    assert_eq!(g.bench.received(5, g.time, u16::MAX, &fields).0, (5, 5));
    g.says(2, Some(7));
    // A block of another ID, and one that is refused.
    assert_eq!(g.bench.block(6, g.time, HEADER, (3, 1), &[1; 13]), 0);
    assert_eq!(g.block(HEADER, 0, &[0xF0; 13]), 6);
    let both = [(3, 1, None), (ID, 2, Some(7))];
    assert_eq!(gathered(&g.bench.receiver), both);
    g.comes(2);
    let both = [(3, 1, None), (ID, 1, None)];
    assert_eq!(gathered(&g.bench.receiver), both);
}

// Refused with 6 or 17, or in a sub-frame that is refused whole: not held.
#[test]
fn refused_blocks() {
    let mut g = Gathering::new();
    for nb in [0, 11, 15] {
        assert_eq!(g.block(HEADER, 0, &[nb << 4; 13]), 6);
        assert_eq!(gathered(&g.bench.receiver), []);
    }
    g.comes(1);
    assert_eq!(g.block(HEADER, 0, &[0; 13]), 6);
    g.says(1, None);
    g.counts(7);
    for id in 7..16 {
        assert_eq!(g.block(HEADER, id, &[9; 13]), 6);
        g.says(2, Some(5));
    }
    // Each lost field of the block; a lost spare mark is none.
    let whole = fields(&hkroot(HEADER, ID, 2, &[2; 13]), &[0; 60]);
    for field in 0..15 {
        g.time = later(g.time, 1);
        let answer = g.bench.received(1, g.time, !(0x8000 >> field), &whole);
        assert_eq!(answer.0 .0, 17);
        g.says(2, Some(5));
    }
    for (prn, time, number) in [(37, g.time, 2), (1, g.time + 1, 2), (1, g.time, 3)] {
        assert_eq!(g.bench.received(prn, time, u16::MAX, &whole).0 .0, number);
        g.says(2, Some(5));
    }
    g.time = later(g.time, 1);
    assert_eq!(g.bench.received(1, g.time, 0xFFFE, &whole).0 .0, 0);
    g.says(3, Some(4));
}

// A complete message is taken out, taken or refused; its repeats begin anew.
#[test]
fn completion() {
    let chain = TestChain::usual();
    for (key_id, number) in [(3, 0), (4, 7)] {
        let mut bench = Bench::started(&Start::default());
        let dsm = chain.dsm(key_id, &[9; 64]);
        for (at, block) in (0..).zip(dsm.chunks(13)) {
            let given = bench.block(at + 1, T, HEADER, (ID, at), block);
            let last = at == 7;
            assert_eq!(given, if last { number } else { 0 });
            let want = if last {
                vec![]
            } else {
                vec![(ID, at + 1, Some(7 - at))]
            };
            assert_eq!(gathered(&bench.receiver), want);
        }
        assert_eq!(bench.receiver.waiting_message().is_some(), number == 0);
        assert_eq!(bench.block(20, T, HEADER, (ID, 7), &dsm[91..]), 0);
        assert_eq!(gathered(&bench.receiver), [(ID, 1, None)]);
    }
}

// A DSM-PKR beside a DSM-KROOT; the emergency message stops the receiver, which answers on until a start.
#[test]
fn a_stopped_receiver_and_starts() {
    let (tree_root, emergency) = tree_message(&leaf(4, 0, 13), 6, 11);
    let start = Start {
        tree_root,
        ..Start::default()
    };
    let mut bench = Bench::started(&start);
    assert_eq!(bench.block(1, T, HEADER, (2, 0), &block_0(8)), 0);
    for (at, block) in (0..).zip(emergency.chunks(13)) {
        assert_eq!(bench.block(at + 2, T, HEADER, (14, at), block), 0);
        let pkr = (14, at + 1, Some(10 - at));
        let want = [(2, 1, Some(7)), pkr];
        assert_eq!(gathered(&bench.receiver), want[..1 + usize::from(at < 10)]);
    }
    assert!(bench.receiver.is_stopped());
    assert_eq!(bench.block(20, T, HEADER, (2, 1), &[1; 13]), 4);
    assert_eq!(gathered(&bench.receiver), [(2, 1, Some(7))]);
    let refused = Start {
        ns: 37,
        ..start.clone()
    };
    assert_eq!(refused.send(&mut bench.receiver), 2);
    assert_eq!(gathered(&bench.receiver), [(2, 1, Some(7))]);
    assert_eq!(start.send(&mut bench.receiver), 0);
    assert_eq!(gathered(&bench.receiver), []);
}

// Of blocks that no receiver holds: a reserved NB tells no block, what is missing is not below 0, and a block past the
// total counts as held.
#[test]
fn any_blocks() {
    for (nb, marks, held, missing) in [
        (0, 0, 0, None),
        (1, 0xFFFE, 15, None),
        (0, 1, 1, Some(0)),
        (11, 0x1F, 5, Some(0)),
        (15, 0xFFFF, 16, Some(0)),
        (1, 0x3F, 6, Some(1)),
        (1, 0x7F, 7, Some(0)),
        (1, 0xFF, 8, Some(0)),
        (1, 0xC001, 3, Some(4)),
        (10, 1, 1, Some(15)),
        (10, 0xFFFF, 16, Some(0)),
    ] {
        let bytes = [nb << 4; 13];
        let block = |id: usize| (marks >> id & 1 == 1).then_some(&bytes);
        let told = Progress::of(std::array::from_fn(block));
        assert_eq!(told, Progress { held, missing }, "NB {nb}, {marks:#b}");
    }
}

#[test]
fn the_line_of_the_progress() {
    let mut line = Vec::new();
    let mut g = Gathering::new();
    g.counts(16);
    g.comes(1);
    let ids = (0, 7);
    assert_eq!(g.bench.block(3, g.time, HEADER, ids, &[7; 13]), 0);
    write_progress(&g.bench.receiver, &mut line).unwrap();
    let want = format!("D 1/?{} 2/14{}\n", " 0/?".repeat(8), " 0/?".repeat(6));
    assert_eq!(String::from_utf8(line).unwrap(), want);
}
