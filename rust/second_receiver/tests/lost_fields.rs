//! Sub-frames of which fields did not come (02, P3; readings B3 to B15).

mod common;

use common::*;
use second_receiver::replay::{replay, write_reads};
use std::fs;
use std::ops::Range;
use std::path::Path;

const KS: [(u8, usize); 9] = [
    (0, 96),
    (1, 104),
    (2, 112),
    (3, 120),
    (4, 128),
    (5, 160),
    (6, 192),
    (7, 224),
    (8, 256),
];
const MS: [(u8, usize); 10] = [
    (0, 10),
    (1, 12),
    (2, 14),
    (3, 16),
    (4, 18),
    (5, 20),
    (6, 24),
    (7, 28),
    (8, 32),
    (9, 40),
];

/// Marks with these fields lost.
fn without(lost: &[usize]) -> u16 {
    lost.iter()
        .fold(0xFFFE, |marks, field| marks & !(0x8000 >> field))
}

fn came(marks: u16, field: usize) -> bool {
    marks & (0x8000 >> field) != 0
}

fn fill_lost(fields: &[u8], marks: u16, fill: u8) -> Vec<u8> {
    let byte = |(i, byte): (usize, &u8)| if came(marks, i / 5) { *byte } else { fill };
    fields.iter().enumerate().map(byte).collect()
}

/// Lends a sub-frame with its marks. What the lost bytes hold, and the sixteenth mark, change no
/// number, record or state.
fn lend(
    bench: &mut Bench,
    prn: u8,
    gst: u32,
    marks: u16,
    fields: &[u8],
) -> (Numbers, Vec<Vec<u8>>) {
    let before = bench.clone();
    let answer = bench.received(prn, gst, marks, fields);
    for (fill, sixteenth) in [(0, 0), (0xFF, 1)] {
        let mut other = before.clone();
        let filled = fill_lost(fields, marks, fill);
        let again = other.received(prn, gst, marks & 0xFFFE | sixteenth, &filled);
        assert_eq!(again, answer);
        assert!(other.receiver == bench.receiver, "lost bytes in the state");
    }
    answer
}

/// A section's bits as its layout parts them, worked out anew.
struct Bits {
    tags: Vec<Range<usize>>,
    infos: Vec<Range<usize>>,
    keys: Vec<Range<usize>>,
    spares: Vec<Range<usize>>,
    block_fields: usize,
}

fn bits_of(chain: &TestChain) -> Bits {
    let mut bits = Bits {
        tags: vec![],
        infos: vec![],
        keys: vec![],
        spares: vec![],
        block_fields: chain.block_fields(),
    };
    let mut at = 0;
    let mut next = |width| {
        at += width;
        at - width..at
    };
    for block in 1..=usize::from(chain.nmack) {
        for _ in 0..chain.block_fields() {
            bits.tags.push(next(chain.tag_bits));
            bits.infos.push(next(16));
        }
        bits.keys.push(next(chain.key_bits));
        let used = bits.keys[block - 1].end;
        bits.spares
            .push(next(block * 480 / usize::from(chain.nmack) - used));
    }
    bits
}

impl Bits {
    /// Of each tag: whether it is outcome 8 and, if so, which of PRN and ADKD are shown.
    fn expected(&self, marks: u16, flexible: &[bool]) -> Vec<Option<(bool, bool)>> {
        let whole = |bits: Range<usize>| bits.into_iter().all(|bit| came(marks, bit / 32));
        let info = |j: usize, from, to| whole(self.infos[j].start + from..self.infos[j].start + to);
        let macseq = info(0, 0, 12);
        let infos = (0..self.tags.len()).all(|j| !flexible[j] || info(j, 0, 16));
        let judged = |j: usize| {
            let own = match (j, flexible[j]) {
                (_, true) => macseq && infos,
                (0, false) => true,
                (j, false) => info(j, 0, 16),
            };
            whole(self.keys[j / self.block_fields].clone()) && whole(self.tags[j].clone()) && own
        };
        let shown = |j| (j == 0 || info(j, 0, 8), j == 0 || info(j, 8, 12));
        (0..self.tags.len())
            .map(|j| (!judged(j)).then(|| shown(j)))
            .collect()
    }
}

/// Every NMACK, KS and MS that fits.
fn layouts() -> Vec<TestChain> {
    let all = (1..=3).flat_map(|nmack| {
        KS.into_iter()
            .flat_map(move |ks| MS.map(|ms| (nmack, ks, ms)))
    });
    all.filter(|&(nmack, ks, ms)| 480 / usize::from(nmack) >= ks.1 + ms.1 + 16)
        .map(|(nmack, ks, ms)| TestChain::with(3, nmack, ks, ms))
        .collect()
}

/// A chain in force, the words of PRN 2 held, and sections of PRN 2 with right tags.
struct Sky {
    bench: Bench,
    chain: TestChain,
    set: Vec<u8>,
}

impl Sky {
    /// A start with the usual marks: all fixed to ADKD 0 at second 0, flexible at second 30.
    fn of(chain: &TestChain) -> Sky {
        let ns = chain.ns;
        Sky::started(
            &Start {
                ns,
                ..Start::default()
            },
            chain,
        )
    }

    fn started(start: &Start, chain: &TestChain) -> Sky {
        let mut bench = Bench::in_force(start, chain);
        let two = words(2, 9, 0);
        bench.words(2, chain.at(0), &two);
        Sky {
            bench,
            chain: chain.clone(),
            set: set(&two),
        }
    }

    fn count(&self) -> usize {
        self.chain.block_fields() * usize::from(self.chain.nmack)
    }

    fn right(&self) -> Vec<Spec> {
        vec![Spec::new(2, 0, &self.set); self.count()]
    }

    /// The 75 bytes of a section of PRN 2. `flexible` are the places that MACSEQ covers.
    fn fields_of(&self, subframe: usize, specs: &[Spec], flexible: &[usize]) -> Vec<u8> {
        let sent = Sent {
            prn: 2,
            subframe,
            status: 2,
        };
        let section = self.chain.section(sent, specs, flexible);
        fields(&hkroot(HEADER, 11, 1, &[0; 13]), &section)
    }

    /// Lends a section to a copy: the MACK number and the records, 1 for every tag that agrees.
    fn judged(&self, subframe: usize, specs: &[Spec], flexible: &[usize], marks: u16) -> Judged {
        self.lent(subframe, &self.fields_of(subframe, specs, flexible), marks)
    }

    fn lent(&self, subframe: usize, fields: &[u8], marks: u16) -> Judged {
        let (mut bench, time) = (self.bench.clone(), self.chain.at(subframe as i64));
        let ((hkroot, number), records) = lend(&mut bench, 2, time, marks, fields);
        let records = agreeing_as_1(records);
        assert_eq!(hkroot, if marks | 1 == 0xFFFF { 0 } else { 17 });
        Judged {
            number,
            records,
            bench,
        }
    }
}

struct Judged {
    number: u8,
    records: Vec<Vec<u8>>,
    bench: Bench,
}

impl Judged {
    fn outcomes(&self) -> Vec<u8> {
        assert_eq!(self.number, 0);
        outcomes(&self.records)
    }
}

/// The places that MACSEQ covers if all but the first are flexible.
fn but_the_first(count: usize) -> Vec<usize> {
    (1..count).collect()
}

/// `fields` with bits of the section changed.
fn with_bit(fields: &[u8], bit: usize) -> Vec<u8> {
    let mut fields = fields.to_vec();
    fields[bit / 32 * 5 + 1 + bit % 32 / 8] ^= 0x80 >> (bit % 8);
    fields
}

// B3, B5, B6, B14 in every layout: each field lost alone and with its neighbour, and any marks; all
// tags fixed, all but the first flexible. A tag that is not 8 is as in the whole section.
#[test]
fn every_layout() {
    let mut random = 1u64;
    for chain in layouts() {
        let sky = Sky::of(&chain.keyed(27));
        let (bits, count) = (bits_of(&sky.chain), sky.count());
        let mut marks = vec![0xFFFE];
        marks.extend((1..15).map(|field| without(&[field])));
        marks.extend((1..14).map(|field| without(&[field, field + 1])));
        marks.extend((0..6).map(|_| {
            random = random
                .wrapping_mul(6_364_136_223_846_793_005)
                .wrapping_add(1);
            (random >> 33) as u16 | 0x8000
        }));
        for (subframe, is_flexible) in [(1, true), (2, false)] {
            let flexible = if is_flexible {
                but_the_first(count)
            } else {
                vec![]
            };
            let fields = sky.fields_of(subframe, &sky.right(), &flexible);
            let flexible: Vec<bool> = (0..count).map(|j| flexible.contains(&j)).collect();
            for &marks in &marks {
                let judged = sky.lent(subframe, &fields, marks);
                assert_eq!((judged.number, judged.records.len()), (0, count));
                let time = sky.chain.at(subframe as i64).to_be_bytes();
                let expected = bits.expected(marks, &flexible);
                for (j, (record, expected)) in judged.records.iter().zip(expected).enumerate() {
                    let (block, position) = (j / bits.block_fields + 1, j % bits.block_fields + 1);
                    let (outcome, prn, iodnav) = match expected {
                        None => (1, 2, 9),
                        Some((prn, _)) => (8, if prn { 2 } else { 0 }, 0),
                    };
                    let head = [outcome, 2, prn, 0, block as u8, position as u8, 0, iodnav];
                    let right = [&head[..], &time].concat();
                    assert_eq!(
                        record,
                        &right,
                        "{} {} {marks:04X}",
                        chain_name(&sky.chain),
                        j
                    );
                }
            }
        }
    }
}

fn chain_name(chain: &TestChain) -> String {
    format!(
        "NMACK {} KS {} MS {}",
        chain.nmack, chain.key_bits, chain.tag_bits
    )
}

// B4: MAC-Info is PRN, ADKD and IOD. MS 18: bit 64 of the section is the first of the second
// field's IOD.
#[test]
fn a_lost_iod_of_a_fixed_field() {
    let sky = Sky::of(&TestChain::with(4, 1, (4, 128), (4, 18)).keyed(60));
    let mut specs = sky.right();
    specs[1] = Spec::new(33, 7, &sky.set);
    let judged = sky.judged(2, &specs, &[], without(&[2]));
    assert_eq!(judged.outcomes()[..2], [1, 8]);
    // PRN and ADKD came, and are shown.
    assert_eq!(judged.records[1][..8], [8, 2, 33, 7, 1, 2, 0, 0]);
    // The third field's tag and PRN are lost, its ADKD is not.
    assert_eq!(bits_of(&sky.chain).infos[2], 86..102);
    specs[2] = Spec::new(33, 7, &sky.set);
    let judged = sky.judged(2, &specs, &[], without(&[2]));
    assert_eq!(judged.records[2][..8], [8, 2, 0, 0, 1, 3, 0, 0]);
    let judged = sky.judged(2, &specs, &[], without(&[3]));
    assert_eq!(
        judged.records[2][..8],
        [8, 2, 33, 0, 1, 3, 0, 0],
        "ADKD alone"
    );
}

// B5: MACSEQ and the first IOD. The second field of the sub-frame has bits 32 to 63 of the section.
#[test]
fn the_first_field_of_the_section() {
    // MS 24: MACSEQ lies in both. tag0 is judged, no flexible tag is.
    let sky = Sky::of(&TestChain::with(4, 1, (4, 128), (6, 24)).keyed(60));
    let count = sky.count();
    let judged = sky.judged(1, &sky.right(), &but_the_first(count), without(&[1]));
    assert_eq!(judged.outcomes()[0], 1);
    assert_eq!(judged.outcomes()[1..], vec![8; count - 1]);
    let fixed = sky.judged(2, &sky.right(), &[], without(&[1]));
    assert_eq!(fixed.outcomes()[..4], [1, 8, 1, 1]);

    // MS 20: its IOD alone is lost, with the second tag and its PRN. That field is fixed, the others
    // flexible: MACSEQ is judged.
    let mut marks = vec![255; 14];
    (marks[0], marks[1]) = (0, 0);
    let start = Start {
        marks_0: marks,
        ..Start::default()
    };
    let sky = Sky::started(&start, &TestChain::with(4, 1, (4, 128), (5, 20)).keyed(60));
    let flexible: Vec<usize> = (2..sky.count()).collect();
    let judged = sky.judged(2, &sky.right(), &flexible, without(&[1]));
    let mut right = vec![1; sky.count()];
    right[1] = 8;
    assert_eq!(judged.outcomes(), right);

    // MS 40: tag0 ends in it. Its PRN is the sender's, its ADKD 0.
    let sky = Sky::of(&TestChain::with(4, 1, (4, 128), (9, 40)).keyed(60));
    let judged = sky.judged(2, &sky.right(), &[], without(&[1]));
    assert_eq!(judged.records[0][..8], [8, 2, 2, 0, 1, 1, 0, 0]);
    assert_eq!(judged.outcomes()[..3], [8, 8, 1]);
}

// B6: all tags of a block whose key is missing, though its key is known otherwise; slow ones too.
// KS 128, MS 12, NMACK 2: the keys are bits 112 to 239 and 352 to 479.
#[test]
fn a_missing_key() {
    let mut sky = Sky::of(&TestChain::usual());
    for (field, outcomes) in [
        (4, [8, 8, 8, 8, 1, 1, 1, 1]),
        (6, [8, 8, 8, 8, 1, 1, 1, 1]),
        (11, [1, 1, 1, 1, 8, 8, 8, 8]),
        (14, [1, 1, 1, 1, 8, 8, 8, 8]),
    ] {
        let judged = sky.judged(2, &sky.right(), &[], without(&[field]));
        assert_eq!(judged.outcomes(), outcomes, "field {field}");
        // The highest key that came is held: PRN 2's of a block of sub-frame 2.
        let slot = if field < 7 { 22 } else { 18 };
        let held = judged.bench.receiver.chain().unwrap();
        assert_eq!(
            (held.held_slot, held.held.as_slice()),
            (slot, &sky.chain.keys[slot as usize][..])
        );
    }
    // Slow tags do not wait.
    let slow = vec![Spec::new(2, 12, &sky.set); 8];
    let all = but_the_first(8);
    let judged = sky.judged(3, &slow, &all, without(&[14]));
    assert_eq!(judged.outcomes()[1..], [5, 5, 5, 8, 8, 8, 8]);
    assert_eq!(judged.records[5][..6], [8, 2, 2, 12, 2, 2]);
    assert_eq!(judged.bench.receiver.waiting_tags().len(), 3);
    // A key of this sub-frame and a higher one is held.
    assert_eq!(sky.bench.send(&sky.chain, 4, 2, &[]).0, 0);
    let judged = sky.judged(2, &sky.right(), &[], without(&[14]));
    assert_eq!(judged.outcomes(), [1, 1, 1, 1, 8, 8, 8, 8]);
    assert_eq!(judged.bench.receiver.chain(), sky.bench.receiver.chain());
}

// A missing key is left unchecked: wrong bits of it that came are nothing.
#[test]
fn a_missing_key_is_not_checked() {
    let sky = Sky::of(&TestChain::usual());
    let right = sky.fields_of(2, &sky.right(), &[]);
    for bit in [112, 127, 192, 239] {
        let wrong = with_bit(&right, bit);
        assert_eq!(sky.lent(2, &wrong, 0xFFFE).number, 12);
        let judged = sky.lent(2, &wrong, without(&[4]));
        assert_eq!(judged.outcomes(), [8, 8, 8, 8, 1, 1, 1, 1], "bit {bit}");
        // The other block's key is still checked.
        assert_eq!(sky.lent(2, &wrong, without(&[12])).number, 12);
    }
    // Which of its keys is missing decides whether the section goes with the chain.
    let wrong = with_bit(&with_bit(&right, 120), 360);
    assert_eq!(sky.lent(2, &wrong, without(&[4])).number, 12);
    assert_eq!(sky.lent(2, &wrong, without(&[4, 12])).number, 0);
}

// B6b: the flexible tags of block 2 are judged though block 1's key is missing, with MACSEQ.
#[test]
fn macseq_without_the_key_of_block_1() {
    let sky = Sky::of(&TestChain::usual());
    let all = but_the_first(8);
    let judged = sky.judged(1, &sky.right(), &all, without(&[5]));
    assert_eq!(judged.outcomes(), [8, 8, 8, 8, 1, 1, 1, 1]);
    let wrong = with_bit(&sky.fields_of(1, &sky.right(), &all), 12);
    let judged = sky.lent(1, &wrong, without(&[5]));
    assert_eq!(judged.outcomes(), [8, 8, 8, 8, 6, 6, 6, 6]);
    // Three blocks, of which only the last key came.
    let sky = Sky::of(&TestChain::with(4, 3, (0, 96), (1, 12)).keyed(60));
    let all = but_the_first(3 * 2);
    let judged = sky.judged(1, &sky.right(), &all, without(&[3, 8]));
    assert_eq!(judged.outcomes(), [8, 8, 8, 8, 1, 1]);
}

// B6c: MS 40: bits 64 to 95 are of the second tag alone.
#[test]
fn a_flexible_field_whose_tag_alone_is_lost() {
    let sky = Sky::of(&TestChain::with(4, 1, (4, 128), (9, 40)).keyed(60));
    let all = but_the_first(sky.count());
    let judged = sky.judged(1, &sky.right(), &all, without(&[2]));
    let mut right = vec![1; sky.count()];
    right[1] = 8;
    assert_eq!(judged.outcomes(), right);
    assert_eq!(judged.records[1][..8], [8, 2, 2, 0, 1, 2, 0, 0]);
    // MACSEQ is judged: its damage is seen.
    let wrong = with_bit(&sky.fields_of(1, &sky.right(), &all), 40);
    let judged = sky.lent(1, &wrong, without(&[2]));
    assert_eq!(judged.outcomes()[..3], [1, 8, 6]);
}

// One flexible MAC-Info is missing: no flexible tag is judged, fixed ones are.
#[test]
fn a_flexible_mac_info_is_missing() {
    let marks: Vec<u8> = (0..14).map(|j| if j % 2 == 1 { 255 } else { 0 }).collect();
    let start = Start {
        marks_0: marks,
        ..Start::default()
    };
    // MS 16: a field of the section is one of the sub-frame.
    let sky = Sky::started(&start, &TestChain::with(4, 1, (4, 128), (3, 16)).keyed(60));
    let count = sky.count();
    let flexible: Vec<usize> = (1..count).step_by(2).collect();
    for lost in 1..count {
        let judged = sky.judged(2, &sky.right(), &flexible, without(&[lost]));
        let of = |j: usize| {
            if j == lost || (lost % 2 == 1 && j % 2 == 1) {
                8
            } else {
                1
            }
        };
        let right: Vec<u8> = (0..count).map(of).collect();
        assert_eq!(judged.outcomes(), right, "field {lost}");
    }
    // Also with a MACSEQ that fails: 8 stands before 6.
    let wrong = with_bit(&sky.fields_of(2, &sky.right(), &flexible), 16);
    assert_eq!(
        sky.lent(2, &wrong, without(&[2])).outcomes()[..4],
        [1, 6, 8, 6]
    );
    assert_eq!(
        sky.lent(2, &wrong, without(&[3])).outcomes()[..4],
        [1, 8, 1, 8]
    );
}

// B7: of the spare bits those that came are judged. KS 96, MS 40, NMACK 2: key 112 to 207, spare 208
// to 239 in the sub-frame's fields 6 and 7.
#[test]
fn spare_bits() {
    let sky = Sky::of(&TestChain::with(4, 2, (0, 96), (9, 40)).keyed(60));
    let bits = bits_of(&sky.chain);
    assert_eq!(
        (bits.keys[0].clone(), bits.spares[0].clone()),
        (112..208, 208..240)
    );
    let right = sky.fields_of(2, &sky.right(), &[]);
    for bit in 208..240 {
        let wrong = with_bit(&right, bit);
        let of_field = bit / 32;
        for lost in 1..15 {
            let number = if lost == of_field { 0 } else { 12 };
            // With its key whole or missing.
            assert_eq!(
                sky.lent(2, &wrong, without(&[lost])).number,
                number,
                "{bit} {lost}"
            );
            let marks = without(&[lost, 4]);
            assert_eq!(
                sky.lent(2, &wrong, marks).number,
                number,
                "{bit} {lost} no key"
            );
        }
    }
    // NMACK 1, KS 96: spare bits 432 to 479 after a key that came; fields 13 and 14.
    let sky = Sky::of(&TestChain::with(4, 1, (0, 96), (9, 40)).keyed(60));
    let right = sky.fields_of(2, &sky.right(), &[]);
    for bit in [448, 463, 479] {
        let judged = sky.lent(2, &with_bit(&right, bit), without(&[14]));
        assert_eq!(judged.outcomes(), vec![1; 6]);
    }
    assert_eq!(
        sky.lent(2, &with_bit(&right, 447), without(&[14])).number,
        12
    );
}

// B7b: 13 counts only keys that came, from the key held when the section came; block by block.
#[test]
fn number_13() {
    let start = Start {
        ns: 1,
        ..Start::default()
    };
    // NS 1, NMACK 2: block b of sub-frame s has slot 2 s + b. KS 96, MS 40: see `spare_bits`.
    let chain = TestChain::with(1, 2, (0, 96), (9, 40)).keyed(1_000_001);
    let sky = Sky::started(&start, &chain);
    let section = |subframe: usize| {
        let slot = |block| chain.first_slot(subframe, block);
        let key = |block| match chain.keys.get(slot(block)) {
            Some(key) => binary(key),
            None => "1".repeat(96),
        };
        let fields = "0".repeat(112);
        let bits = [
            &fields[..],
            &key(1),
            &"0".repeat(32),
            &fields,
            &key(2),
            &"0".repeat(32),
        ]
        .concat();
        fields_with(&packed(&bits))
    };
    let number = |subframe: usize, marks, section: &[u8]| sky.lent(subframe, section, marks).number;
    let block_1 = |subframe| number(subframe, without(&[4]), &section(subframe));
    let block_2 = |subframe| number(subframe, without(&[12]), &section(subframe));
    // Slots 999,999 and 1,000,000.
    assert_eq!(number(499_999, 0xFFFE, &section(499_999)), 0);
    // Slots 1,000,001 and 1,000,002.
    assert_eq!(number(500_000, 0xFFFE, &section(500_000)), 13);
    assert_eq!(block_1(500_000), 13);
    assert_eq!(block_2(500_000), 13);
    assert_eq!(
        number(500_000, without(&[4, 12]), &section(500_000)),
        0,
        "no key came"
    );
    assert_eq!(
        number(900_000, without(&[4, 12]), &section(900_000)),
        0,
        "no key came"
    );
    // 12 of block 1's spare bits before block 2's 13.
    let spare = with_bit(&section(500_000), 210);
    assert_eq!(number(500_000, without(&[4]), &spare), 12);
    assert_eq!(number(500_000, without(&[12]), &spare), 13);

    // A held key between: block 1 is 1,000,000 past it, block 2 one more.
    let mut sky = sky;
    let one = sky.bench.send(&chain, 1, 0, &[]);
    assert_eq!(
        (one.0, sky.bench.receiver.chain().unwrap().held_slot),
        (0, 2)
    );
    let mut held_1 = Sky::started(&start, &chain);
    let fields = held_1.fields_of(0, &[], &[]);
    let marks = without(&[12]);
    assert_eq!(
        lend(&mut held_1.bench, 2, chain.at(0), marks, &fields).0 .1,
        0
    );
    assert_eq!(held_1.bench.receiver.chain().unwrap().held_slot, 1);
    assert_eq!(held_1.lent(500_000, &section(500_000), 0xFFFE).number, 13);
    assert_eq!(
        held_1
            .lent(500_000, &section(500_000), without(&[12]))
            .number,
        0
    );
    assert_eq!(
        held_1
            .lent(500_000, &section(500_000), without(&[4]))
            .number,
        13
    );
}

/// A section under the usual header.
fn fields_with(section: &[u8]) -> Vec<u8> {
    fields(&hkroot(HEADER, 11, 1, &[0; 13]), section)
}

// B8: all keys are missing: 0, all tags 8, the held key stays, nothing falls due.
#[test]
fn all_keys_are_missing() {
    let mut sky = Sky::of(&TestChain::usual());
    let specs = [Spec::new(2, 0, &sky.set), Spec::new(2, 11, &sky.set)];
    sky.bench.send(&sky.chain, 1, 1, &specs);
    assert_eq!(sky.bench.receiver.waiting_tags().len(), 1);
    let chain = sky.bench.receiver.chain().cloned();
    let judged = sky.judged(2, &sky.right(), &[], without(&[5, 13]));
    assert_eq!(judged.outcomes(), vec![8; 8]);
    assert_eq!(judged.bench.receiver.chain().cloned(), chain);
    assert_eq!(
        judged.bench.receiver.waiting_tags(),
        sky.bench.receiver.waiting_tags()
    );
    assert_eq!(judged.bench.read(2), Err(16));
    // Flexible fields: no MACSEQ is computed, also in a section far past the held key.
    let judged = sky.judged(31, &sky.right(), &but_the_first(8), without(&[5, 13]));
    assert_eq!(judged.outcomes(), vec![8; 8]);
    assert_eq!(judged.bench.receiver.chain().cloned(), chain);
    // One key came: the tag that waits is due, and is told before the section's own.
    let judged = sky.judged(2, &sky.right(), &[], without(&[13]));
    assert_eq!(judged.outcomes(), [1, 1, 1, 1, 1, 8, 8, 8, 8]);
    assert_eq!(judged.records[0][..6], [1, 1, 2, 11, 1, 2]);
}

// B15: losses do not touch what came before. A tag that waits is judged under a key of a section
// whose own tags are all 8.
#[test]
fn due_tags_of_earlier_sections() {
    // MS 40, NMACK 2: two tags a block, of which one field of the sub-frame can take both.
    let mut sky = Sky::of(&TestChain::with(4, 2, (4, 128), (9, 40)).keyed(200));
    let specs = [Spec::new(2, 0, &sky.set), Spec::new(2, 12, &sky.set)];
    sky.bench.send(&sky.chain, 2, 3, &specs);
    let waiting = sky.bench.receiver.waiting_tags().len();
    assert_eq!(waiting, 1);
    let judged = sky.judged(14, &sky.right(), &[], without(&[1]));
    assert_eq!(judged.records[0][..6], [1, 2, 2, 12, 1, 2]);
    assert_eq!(judged.outcomes()[1], 8);
    assert_eq!(judged.bench.receiver.waiting_tags(), []);
    assert_eq!(judged.bench.read(2).unwrap().0, sky.set);
}

// B15: 8 stands before 4 and 3.
#[test]
fn before_the_other_outcomes() {
    // MS 40: bits 64 to 95 are of the second tag alone.
    let sky = Sky::of(&TestChain::with(4, 1, (4, 128), (9, 40)).keyed(60));
    for (prn, adkd, otherwise) in [(200, 0, 4), (0, 0, 4), (2, 5, 4), (30, 0, 3)] {
        let mut specs = sky.right();
        specs[1] = Spec::new(prn, adkd, &sky.set);
        let judged = sky.judged(2, &specs, &[], without(&[2]));
        assert_eq!(judged.records[1][..8], [8, 2, prn, adkd, 1, 2, 0, 0]);
        assert_eq!(sky.judged(2, &specs, &[], 0xFFFE).outcomes()[1], otherwise);
    }
    // 8 marks no set and takes no place.
    let slow = vec![Spec::new(2, 12, &sky.set); sky.count()];
    let judged = sky.judged(3, &slow, &but_the_first(sky.count()), without(&[2]));
    assert_eq!(judged.outcomes()[..3], [2, 8, 5]);
    assert_eq!(judged.bench.receiver.waiting_tags().len(), sky.count() - 2);
    let wrong: Vec<Spec> = sky.right().into_iter().map(|spec| spec.flip(0)).collect();
    let mut one = wrong.clone();
    one[1] = Spec::new(2, 0, &sky.set);
    assert_eq!(sky.judged(2, &one, &[], 0xFFFE).bench.read(2).unwrap().1, 9);
    assert_eq!(
        sky.judged(2, &one, &[], without(&[2])).bench.read(2),
        Err(16)
    );
}

// B9, B9b: 17 in the HKROOT half with any field lost, in the MACK half with the first, before 11.
#[test]
fn number_17() {
    let (bench, chain) = Bench::usual();
    let started = Bench::started(&Start::default());
    let section = chain.section(
        Sent {
            prn: 2,
            subframe: 2,
            status: 2,
        },
        &[],
        &[],
    );
    let right = fields_with(&section);
    let time = chain.at(2);
    for field in 0..15 {
        let marks = without(&[field]);
        let in_force = lend(&mut bench.clone(), 2, time, marks, &right).0;
        let no_chain = lend(&mut started.clone(), 2, time, marks, &right).0;
        let first = field == 0;
        assert_eq!(
            in_force,
            if first { (17, 17) } else { (17, 0) },
            "field {field}"
        );
        assert_eq!(
            no_chain,
            if first { (17, 17) } else { (17, 11) },
            "field {field}"
        );
    }
    // Status and CID are read from the first field: 11 with those that came.
    for (header, number) in [
        (HEADER, 0),
        (HEADER ^ 0xC0, 0),
        (HEADER & 0x3F, 11),
        (HEADER ^ 0x30, 11),
    ] {
        let fields = fields(&hkroot(header, 11, 1, &[0; 13]), &section);
        assert_eq!(
            lend(&mut bench.clone(), 2, time, without(&[9]), &fields).0,
            (17, number)
        );
        assert_eq!(
            lend(&mut bench.clone(), 2, time, without(&[0]), &fields).0,
            (17, 17)
        );
    }
    // Nothing is known of a section but its time, whatever came.
    let mut after = bench.clone();
    assert_eq!(lend(&mut after, 2, time, without(&[0]), &right).0, (17, 17));
    assert_eq!(after.receiver.chain(), bench.receiver.chain());
    assert_eq!(
        after.receiver.subframe_clock(2).unwrap().0,
        time,
        "time noted"
    );
    assert_eq!(
        after.receiver.last_subframe().unwrap().0,
        time,
        "time noted"
    );
    // 1 to 4 stand before, and note nothing.
    assert_eq!(lend(&mut after, 2, time, 0, &right).0, (3, 3));
    assert_eq!(
        lend(&mut after, 3, later(time, -1), without(&[0]), &right).0,
        (3, 3)
    );
    assert_eq!(lend(&mut after, 37, time, without(&[0]), &right).0, (2, 2));
    let mut short = after.clone();
    let marks = second_receiver::received::Received(0x8000);
    let answer = short
        .receiver
        .subframe_received(3, time, marks, &right[1..], &mut short.area);
    assert_eq!((answer.hkroot, answer.mack), (1, 1));
}

// The DSM store with 17: nothing is stored, dropped or taken out.
#[test]
fn the_store_with_17() {
    let chain = TestChain::usual();
    let dsm = chain.dsm(3, &[9; 64]);
    let blocks: Vec<&[u8]> = dsm.chunks(13).collect();
    let mut bench = Bench::started(&Start::default());
    let time = chain.at(-200);
    for (i, block) in blocks[..blocks.len() - 1].iter().enumerate() {
        assert_eq!(
            bench.block(36, later(time, i as i64), HEADER, (0, i as u8), block),
            0
        );
    }
    let last = (blocks.len() - 1) as u8;
    let store = bench.receiver.dsm(0).cloned();
    let sent = |bench: &Bench, at: i64, marks, header, id, block: &[u8]| {
        let mut bench = bench.clone();
        let fields = fields(&hkroot(header, 0, id, block), &[1; 60]);
        let numbers = lend(&mut bench, 36, later(time, at), marks, &fields).0;
        (numbers.0, bench)
    };
    for field in 0..15 {
        let marks = without(&[field]);
        for (at, header, id, block) in [
            // The block that completes it.
            (20, HEADER, last, blocks[last as usize]),
            // Another header; other bytes; a block 0 with fewer blocks; too old; a reserved NB.
            (20, HEADER ^ 2, last, blocks[last as usize]),
            (20, HEADER, 1, &[7; 13][..]),
            (20, HEADER, 0, &[0x10; 13][..]),
            (130, HEADER, last, blocks[last as usize]),
            (20, HEADER, 0, &[0; 13][..]),
        ] {
            let (number, after) = sent(&bench, at, marks, header, id, block);
            assert_eq!(number, 17);
            assert_eq!(after.receiver.dsm(0).cloned(), store);
            assert!(after.receiver.waiting_message().is_none());
            assert_eq!(
                after.receiver.subframe_clock(36).unwrap().0,
                later(time, at)
            );
        }
    }
    let (number, after) = sent(&bench, 20, 0xFFFE, HEADER, last, blocks[last as usize]);
    assert_eq!(number, 0);
    assert!(after.receiver.waiting_message().is_some());
}

// B10: 5 on the fields that came, if any.
#[test]
fn number_5() {
    let bench = Bench::started(&Start::default());
    let time = gst(947, 432_000);
    let numbers = |marks, fields: &[u8]| {
        let mut bench = bench.clone();
        let numbers = lend(&mut bench, 18, time, marks, fields).0;
        assert_eq!(
            bench.receiver.subframe_clock(18).unwrap().0,
            time,
            "time noted"
        );
        assert_eq!(
            bench.receiver.last_subframe().unwrap().0,
            time,
            "time noted"
        );
        numbers
    };
    let zeros = [0; 75];
    for marks in [0xFFFE, 0x8000, 0x0002, 0x7FFE, without(&[3, 9])] {
        assert_eq!(numbers(marks, &zeros), (5, 5), "{marks:04X}");
    }
    // Nothing came: the sixteenth mark is none.
    for marks in [0, 1] {
        assert_eq!(numbers(marks, &zeros), (17, 17));
        assert_eq!(numbers(marks, &[7; 75]), (17, 17));
    }
    // One byte that is not zero, in a field that came or did not.
    for at in 0..75 {
        let mut fields = zeros;
        fields[at] = 1;
        let field = at / 5;
        assert_eq!(numbers(without(&[field]), &fields), (5, 5), "byte {at}");
        let others = without(&[(field + 1) % 15, (field + 2) % 15]);
        let mack = if came(others, 0) { 11 } else { 17 };
        assert_eq!(numbers(others, &fields), (17, mack), "byte {at}");
    }
}

// B12: in records of kind 6 the marks are bytes 81 and 82, field 0 first; what follows is not read.
// B13: before a start 11 twice.
#[test]
fn records_of_kind_6() {
    let directory = Path::new(env!("CARGO_MANIFEST_DIR")).join("tests/cases");
    let replayed = |input: &[u8]| {
        let (mut lines, mut reads) = (Vec::new(), Vec::new());
        let receiver = replay(input, &mut lines).unwrap();
        write_reads(&receiver, &mut reads).unwrap();
        (String::from_utf8(lines).unwrap(), reads, receiver)
    };
    // With all marks 1 every answer is kind 3's.
    for name in [
        "r_nominal_1",
        "a_macseq",
        "a_framing",
        "f_mix_01",
        "P1_mf_changes",
        "P6_nominal",
    ] {
        let mut input = fs::read(directory.join(name).with_extension("in")).unwrap();
        let before = replayed(&input);
        for (place, record) in input.chunks_mut(256).enumerate() {
            if record[0] == 3 {
                record[0] = 6;
                if let Some(marks) = record.get_mut(81..83) {
                    marks.copy_from_slice(&[0xFF, 0xFE | (place & 1) as u8]);
                }
            }
        }
        assert!(replayed(&input) == before, "{name}");
    }
    // Each mark lies where 02 says.
    let mut start = vec![0; 256];
    start[..5].copy_from_slice(&[1, 4, 3, 1, 7]);
    for field in 0..15 {
        let (byte, bit) = (81 + field / 8, 0x80 >> (field % 8));
        let mut record = vec![0xC3; 256];
        (record[0], record[1]) = (6, 18);
        record[2..6].copy_from_slice(&gst(947, 432_000).to_be_bytes());
        record[6..81].fill(0);
        (record[81], record[82]) = (0, 0);
        record[byte] = bit;
        let at = 6 + 5 * field;
        // Only this field came: zeros are 5, anything else is 17 and, with the first, 11.
        record[6..at].fill(9);
        record[at + 5..81].fill(9);
        let zero = replayed(&[&start[..], &record].concat()).0;
        assert_eq!(zero, "1 0 0 0\n2 5 5 0\n", "field {field}");
        record[at] = 0x40;
        let mack = if field == 0 { 11 } else { 17 };
        let other = replayed(&[&start[..], &record].concat()).0;
        assert_eq!(other, format!("1 0 0 0\n2 17 {mack} 0\n"), "field {field}");
        let before = replayed(&record).0;
        assert_eq!(before, "1 11 11 0\n");
    }
}
