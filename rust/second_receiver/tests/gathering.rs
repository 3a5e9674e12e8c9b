//! The gathering of DSM blocks: what is dropped before a block is stored, what stays (01, HKROOT).

mod common;

use common::*;

const T: u32 = 1000 << 20 | 36_000;

fn present(bench: &Bench, id: u8) -> u16 {
    bench.receiver.dsm(id).unwrap().present()
}

fn times(bench: &Bench, id: u8) -> Vec<u32> {
    let store = bench.receiver.dsm(id).unwrap();
    store
        .blocks
        .iter()
        .flatten()
        .map(|block| block.time.0)
        .collect()
}

/// Blocks 1 and 2 of DSM ID 2 at T and T + 30.
fn two_blocks() -> Bench {
    let mut bench = Bench::started(&Start::default());
    assert_eq!(bench.block(1, T, HEADER, (2, 1), &[1; 13]), 0);
    assert_eq!(bench.block(1, later(T, 1), HEADER, (2, 2), &[2; 13]), 0);
    assert_eq!(present(&bench, 2), 0b110);
    bench
}

#[test]
fn old_blocks_are_dropped() {
    // T + 3600 is not over 3,600 s, T + 3630 is.
    for (moved, after) in [(120, 0b1110), (121, 0b1000)] {
        let mut bench = two_blocks();
        assert_eq!(bench.block(1, later(T, moved), HEADER, (2, 3), &[3; 13]), 0);
        assert_eq!(present(&bench, 2), after, "after {moved} sub-frames");
    }
    // Over a change of week.
    let week_end = gst(1000, 604_770);
    for (moved, after) in [(120, 0b110), (121, 0b100)] {
        let mut bench = Bench::started(&Start::default());
        bench.block(1, week_end, HEADER, (2, 1), &[1; 13]);
        bench.block(1, later(week_end, moved), HEADER, (2, 2), &[2; 13]);
        assert_eq!(present(&bench, 2), after, "after {moved} sub-frames");
    }
    // Other IDs are not looked at, and a repeat is judged too.
    let mut bench = two_blocks();
    bench.block(1, later(T, 200), HEADER, (3, 1), &[3; 13]);
    assert_eq!(present(&bench, 2), 0b110);
    bench.block(2, later(T, 200), HEADER, (2, 1), &[1; 13]);
    assert_eq!(
        (present(&bench, 2), times(&bench, 2)),
        (0b10, vec![later(T, 200)])
    );
}

#[test]
fn a_repeat_keeps_its_first_time() {
    let mut bench = two_blocks();
    let before = bench.receiver.dsm(2).unwrap().clone();
    assert_eq!(bench.block(1, later(T, 100), HEADER, (2, 1), &[1; 13]), 0);
    assert_eq!(bench.receiver.dsm(2), Some(&before));
    // So block 1 is old at T + 3630.
    assert_eq!(bench.block(1, later(T, 121), HEADER, (2, 2), &[2; 13]), 0);
    assert_eq!(
        (present(&bench, 2), times(&bench, 2)),
        (0b100, vec![later(T, 121)])
    );
}

#[test]
fn another_header_drops() {
    for bit in 0..8 {
        let mut bench = two_blocks();
        assert_eq!(
            bench.block(2, later(T, 1), HEADER ^ 1 << bit, (2, 3), &[3; 13]),
            0
        );
        assert_eq!(present(&bench, 2), 0b1000, "header bit {bit}");
        assert_eq!(
            bench.receiver.dsm(2).unwrap().header,
            Some(HEADER ^ 1 << bit)
        );
        // A repeat as well.
        let mut bench = two_blocks();
        assert_eq!(
            bench.block(2, later(T, 1), HEADER ^ 1 << bit, (2, 2), &[2; 13]),
            0
        );
        assert_eq!(present(&bench, 2), 0b100, "header bit {bit}");
    }
    // Each ID has a header of its own.
    let mut bench = two_blocks();
    bench.block(2, later(T, 1), HEADER ^ 1, (3, 3), &[3; 13]);
    assert_eq!((present(&bench, 2), present(&bench, 3)), (0b110, 0b1000));
}

#[test]
fn other_bytes_drop() {
    for byte in 0..13 {
        let mut bench = two_blocks();
        let mut block = [2; 13];
        block[byte] ^= 0x80;
        assert_eq!(bench.block(2, later(T, 1), HEADER, (2, 2), &block), 0);
        assert_eq!(
            (present(&bench, 2), times(&bench, 2)),
            (0b100, vec![later(T, 1)]),
            "byte {byte}"
        );
        assert_eq!(
            bench.receiver.dsm(2).unwrap().blocks[2]
                .as_ref()
                .unwrap()
                .bytes,
            block
        );
    }
    let mut bench = two_blocks();
    assert_eq!(
        bench.block(2, later(T, 1), HEADER, (2, 3), &[9; 13]),
        0,
        "another block ID"
    );
    assert_eq!(present(&bench, 2), 0b1110);
}

#[test]
fn a_count_not_above_every_id_drops() {
    for (stored, count, after) in [
        (7, 7, 1),
        (7, 8, 0x81),
        (15, 15, 1),
        (15, 16, 0x8001),
        (6, 7, 0x41),
    ] {
        let mut bench = Bench::started(&Start::default());
        bench.block(1, T, HEADER, (2, stored), &[1; 13]);
        assert_eq!(bench.block(2, T, HEADER, (2, 0), &block_0(count)), 0);
        assert_eq!(present(&bench, 2), after, "{stored} stored, {count} blocks");
    }
}

#[test]
fn too_high_is_called_after_the_drops() {
    let mut bench = Bench::started(&Start::default());
    bench.block(1, T, HEADER, (2, 0), &block_0(7));
    assert_eq!(bench.clone().block(2, T, HEADER, (2, 9), &[9; 13]), 6);
    // Another header, or age: the block 0 is gone, and the block is stored.
    let mut other = bench.clone();
    assert_eq!(other.block(2, T, HEADER ^ 1, (2, 9), &[9; 13]), 0);
    assert_eq!(present(&other, 2), 1 << 9);
    let mut old = bench.clone();
    assert_eq!(
        old.clone()
            .block(2, later(T, 120), HEADER, (2, 9), &[9; 13]),
        6
    );
    assert_eq!(old.block(2, later(T, 121), HEADER, (2, 9), &[9; 13]), 0);
    assert_eq!(present(&old, 2), 1 << 9);
}

#[test]
fn a_reserved_nb_drops_only_its_block() {
    for nb in [0, 11, 15] {
        let mut bench = two_blocks();
        bench.block(2, later(T, 1), HEADER, (2, 0), &block_0(9));
        let before = bench.receiver.dsm(2).unwrap().clone();
        // Other bytes, another header, and age besides.
        let number = bench.block(2, later(T, 300), HEADER ^ 1, (2, 0), &[nb << 4; 13]);
        assert_eq!(
            (number, bench.receiver.dsm(2)),
            (6, Some(&before)),
            "NB {nb}"
        );
    }
}

// Blocks from several satellites, out of order; the bytes in order; taken out when complete.
#[test]
fn a_dsm_from_several_satellites() {
    let chain = TestChain::usual();
    let dsm = chain.dsm(3, &[9; 64]);
    let blocks: Vec<&[u8]> = dsm.chunks(13).collect();
    assert_eq!(blocks.len(), 8);
    let mut bench = Bench::started(&Start::default());
    for (prn, id) in [
        (4, 3),
        (9, 7),
        (20, 0),
        (33, 6),
        (1, 2),
        (2, 3),
        (3, 1),
        (36, 5),
    ] {
        assert_eq!(
            bench.block(prn, T, HEADER, (9, id), blocks[usize::from(id)]),
            0
        );
        assert!(bench.receiver.waiting_message().is_none());
    }
    assert_eq!(bench.block(7, T, HEADER, (9, 4), blocks[4]), 0);
    let waiting = bench.receiver.waiting_message().unwrap();
    assert_eq!(
        (waiting.key_id, &waiting.message),
        (3, &chain.message(HEADER))
    );
    assert_eq!(waiting.signature, [9; 64]);
    assert_eq!(
        (present(&bench, 9), bench.receiver.dsm(9).unwrap().header),
        (0, None)
    );
    // The next block begins anew.
    assert_eq!(bench.block(8, T, HEADER ^ 1, (9, 4), blocks[4]), 0);
    assert_eq!(present(&bench, 9), 1 << 4);
}

// A newer message replaces the one that waits; a refused one leaves it. IDs 0 to 11 are DSM-KROOT.
#[test]
fn a_newer_message_replaces_what_waits() {
    let chain = TestChain::usual();
    let mut bench = Bench::started(&Start::default());
    let signature = |bench: &Bench| bench.receiver.waiting_message().unwrap().signature[0];
    for id in 0..12 {
        let time = later(T, i64::from(id) * 10);
        assert_eq!(
            bench.dsm(5, time, HEADER, id, &chain.dsm(3, &[id + 1; 64])),
            0
        );
        assert_eq!(signature(&bench), id + 1);
    }
    assert_eq!(
        bench.dsm(5, later(T, 120), HEADER, 0, &chain.dsm(4, &[77; 64])),
        7
    );
    assert_eq!(signature(&bench), 12);
    for id in 12..16 {
        let time = later(T, 10 + i64::from(id) * 10);
        assert_eq!(
            bench.dsm(5, time, HEADER, id, &chain.dsm(3, &[88; 64])),
            6,
            "a PKR of 8 blocks"
        );
    }
}
