//! What a collector takes, what it does not, and what it lends, in Rust and in C.

mod compiled;

use compiled::{build, run, C99};
use osnma::collector::{Collector, NotTaken, FIELD_LEN, PART_LEN};
use osnma::{Core, Gst, Refusal, Settings, NO_RECORDS};
use signal::air::page;
use std::fmt::Write;

// Kinds of records, as tests/c/collector.c reads them: PRN, GST_SF, and what follows.

/// The core is started and the collector begins.
const START: u8 = 1;
/// The place of a page, and its parts.
const PAGE: u8 = 2;
/// The place of a page, and its field.
const FIELD: u8 = 3;
const WORD: u8 = 4;
/// Lends; in place of the PRN whether it is told of sub-frames.
const LEND: u8 = 5;
/// A word that somebody else lends to the core.
const WORD_OF_ANOTHER: u8 = 6;
/// The core is stopped.
const STOP: u8 = 7;

/// 947/432000.
const TIME: u32 = 0x3B36_9780;
const LATER: u32 = TIME + 30;
const LAST: u32 = TIME + 60;

fn given(kind: u8, prn: u8, time: u32, rest: &[&[u8]]) -> Vec<u8> {
    let mut record = [&[kind, prn][..], &time.to_be_bytes(), &rest.concat()].concat();
    record.resize(256, 0);
    record
}

/// A word of this type with this last byte; a word 4 names this satellite.
fn word(kind: u8, svid: u8, end: u8) -> [u8; 16] {
    let mut word = [0; 16];
    (word[0], word[2], word[15]) = (kind << 2, svid << 2, end);
    word
}

fn of_page(prn: u8, time: u32, place: u8, word: &[u8; 16]) -> Vec<u8> {
    let (even, odd) = page(word, &[7; 5]);
    given(PAGE, prn, time, &[&[place], &even, &odd])
}

fn of_field(prn: u8, time: u32, place: u8, field: [u8; 5]) -> Vec<u8> {
    given(FIELD, prn, time, &[&[place], &field])
}

fn alone(prn: u8, time: u32, word: &[u8; 16]) -> Vec<u8> {
    given(WORD, prn, time, &[word])
}

/// Records with the lines that they must give.
#[derive(Default)]
struct Table(Vec<(Vec<u8>, String)>);

impl Table {
    fn row(&mut self, record: Vec<u8>, lines: &[&str]) {
        let lines = lines.iter().map(|line| format!("{line}\n"));
        self.0.push((record, lines.collect()));
    }

    /// Something given to the collector, with the number of its answer: 0, or the place in `NotTaken` from 1.
    fn give(&mut self, record: Vec<u8>, answer: u32) {
        self.row(record, &[&answer.to_string()]);
    }

    fn lend(&mut self, lines: &[&str]) {
        self.row(given(LEND, 1, 0, &[]), lines);
    }

    /// What is no page, at times that may be late or over too.
    fn refused(&mut self) {
        let any = word(1, 0, 1);
        for (prn, time, place) in [
            (0, TIME, 0),
            (37, TIME, 0),
            (255, LATER, 14),
            (18, TIME + 1, 0),
            (18, TIME + 29, 0),
            (18, 0x3B39_3A80, 0),
            (18, u32::MAX, 0),
            (18, LATER, 15),
            (18, TIME, 255),
        ] {
            self.give(of_page(prn, time, place, &any), 3);
            self.give(of_field(prn, time, place, [7; 5]), 3);
            if place < 15 {
                self.give(alone(prn, time, &any), 3);
            }
        }
        // Each flag of either part, and the parts in the other order.
        let (even, odd) = page(&any, &[7; 5]);
        let with = |mut part: [u8; 15], bit: u8| {
            part[0] ^= bit;
            part
        };
        for (first, second) in [
            (with(even, 0x80), odd),
            (with(even, 0x40), odd),
            (even, with(odd, 0x80)),
            (even, with(odd, 0x40)),
            (odd, even),
        ] {
            self.give(given(PAGE, 18, LATER, &[&[0], &first, &second]), 4);
        }
        // A word 4 of another satellite.
        self.give(of_page(17, LATER, 1, &word(4, 18, 1)), 5);
        self.give(alone(17, LATER, &word(4, 18, 1)), 5);
    }

    /// The half minute goes on, is over, and what was before it is late; what was lent is late too.
    fn times(&mut self) {
        let any = word(1, 0, 1);
        for (time, answer) in [(TIME, 0), (LATER, 1), (TIME - 30, 2), (TIME, 0)] {
            self.give(of_page(36, time, 14, &any), answer);
            self.give(of_field(1, time, 0, [7; 5]), answer);
            self.give(alone(9, time, &any), answer);
            self.give(alone(9, time, &word(63, 1, 1)), answer);
        }
        self.lend(&[
            "E01 947/432000: 17 11",
            "E18 947/432000: 17 17",
            "E36 947/432000: 17 17",
            "E09 word 1: 1",
            "E18 word 4: 1",
            "E36 word 1: 1",
            "lent: 0",
        ]);
        for (time, answer) in [(TIME, 2), (TIME - 30, 2), (LATER, 0), (LAST, 1)] {
            self.give(of_field(5, time, 3, [7; 5]), answer);
            self.give(alone(5, time, &any), answer);
            self.give(of_page(5, time, 4, &any), answer);
        }
        // Nobody is told; then nothing is collected, and what is late stays so.
        let quiet = given(LEND, 0, 0, &[]);
        self.row(quiet, &["E05 word 1: 1", "lent: 0"]);
        self.lend(&["lent: 0"]);
        self.give(of_field(5, LATER, 3, [7; 5]), 2);
        self.give(of_field(5, LAST, 3, [7; 5]), 0);
    }

    /// Of two fields or words the later counts. Nothing of an earlier half minute is lent again.
    fn twice(&mut self) {
        self.give(of_field(5, LAST, 3, [0; 5]), 0);
        self.give(of_field(6, LAST, 0, [0; 5]), 0);
        self.give(of_page(6, LAST, 0, &word(5, 0, 1)), 0);
        for end in [1, 2] {
            self.give(alone(6, LAST, &word(5, 0, end)), 0);
            self.give(alone(9, LAST, &word(2, 0, 3 - end)), 0);
        }
        self.lend(&[
            "E05 947/432060: 5 5",
            "E06 947/432060: 17 11",
            "E06 word 5: 2",
            "E09 word 2: 1",
            "lent: 0",
        ]);
    }

    /// A refused word is told, and all others are lent.
    fn refused_words(&mut self) {
        let any = word(3, 0, 9);
        let another = given(WORD_OF_ANOTHER, 9, LAST + 60, &[&any]);
        self.row(another, &[]);
        for prn in [8, 9, 10] {
            self.give(alone(prn, LAST + 30, &any), 0);
        }
        self.lend(&["E08 word 3: 9", "E10 word 3: 9", "lent: 3"]);
        self.row(given(STOP, 0, 0, &[]), &[]);
        self.give(of_page(8, LAST + 60, 0, &any), 0);
        self.lend(&["E08 947/432120: 4 4", "E09 word 3: 9", "lent: 4"]);
    }
}

fn table() -> Vec<(Vec<u8>, String)> {
    let (mut table, start) = (Table::default(), given(START, 0, 0, &[]));
    table.row(start.clone(), &[]);
    table.refused();
    table.give(of_page(18, TIME, 1, &word(4, 18, 1)), 0);
    table.refused();
    table.times();
    table.twice();
    table.refused_words();
    // What was collected goes with a start, and times before it come again.
    table.give(of_field(5, LAST + 90, 0, [7; 5]), 0);
    table.row(start, &[]);
    table.lend(&["lent: 0"]);
    table.give(of_field(5, TIME, 0, [7; 5]), 0);
    table.lend(&["E05 947/432000: 17 11", "lent: 0"]);
    table.0
}

fn taken(answer: Result<(), NotTaken>) -> String {
    let number = match answer {
        Ok(()) => 0,
        Err(NotTaken::Over) => 1,
        Err(NotTaken::Late) => 2,
        Err(NotTaken::OutOfRange) => 3,
        Err(NotTaken::NotNominal) => 4,
        Err(NotTaken::OtherSatellite) => 5,
        Err(other) => panic!("{other}"),
    };
    format!("{number}\n")
}

fn number(answer: Result<(), Refusal>) -> u32 {
    answer.map_or_else(Refusal::number, |()| 0)
}

/// The bytes of a record from a place on.
fn bytes<const N: usize>(record: &[u8], at: usize) -> [u8; N] {
    record[at..at + N].try_into().expect("as many")
}

fn start(core: &mut Core) {
    let settings = Settings {
        ns: 36,
        key_id: 0,
        key_type: 0,
        maclt: 0,
        marks: [[0; 14]; 2],
        tree_root: [0; 32],
        key: [0; 67],
    };
    core.start(&settings).expect("an accepted start");
}

fn lend(collector: &mut Collector, core: &mut Core, tell: bool) -> String {
    let (mut lines, time) = (String::new(), collector.time());
    let answer = collector.lend(core, &mut NO_RECORDS.clone(), |prn, time, answer| {
        let (hkroot, mack) = (number(answer.hkroot), number(answer.mack));
        if tell {
            writeln!(lines, "E{prn:02} {time}: {hkroot} {mack}").unwrap();
        }
    });
    assert_eq!(collector.time(), None);
    let (held, stamps) = (&core.regions().words, &core.regions().stamps);
    for (at, word) in held.chunks_exact(16).enumerate() {
        if time.is_some_and(|time| stamps[at] == time.bits() + 1) {
            let (prn, kind) = (at / 5 + 1, at % 5 + 1);
            writeln!(lines, "E{prn:02} word {kind}: {}", word[15]).unwrap();
        }
    }
    writeln!(lines, "lent: {}", number(answer)).unwrap();
    lines
}

#[test]
fn in_rust() {
    let (mut collector, mut core) = (Collector::new(), Core::new());
    for (place, (r, lines)) in table().iter().enumerate() {
        let (prn, time) = (r[1], Gst::from_bits(u32::from_be_bytes(bytes(r, 2))));
        let mut got = String::new();
        match r[0] {
            START => {
                start(&mut core);
                collector = Collector::new();
            }
            PAGE => {
                let (even, odd) = (bytes::<PART_LEN>(r, 7), bytes(r, 22));
                got = taken(collector.page(prn, time, r[6].into(), &even, &odd));
            }
            FIELD => {
                let field = bytes::<FIELD_LEN>(r, 7);
                got = taken(collector.field(prn, time, r[6].into(), &field));
            }
            WORD => got = taken(collector.word(prn, time, &bytes(r, 6))),
            LEND => got = lend(&mut collector, &mut core, r[1] == 1),
            WORD_OF_ANOTHER => core.word(prn, time, &bytes(r, 6)).expect("it is taken"),
            STOP => core.regions_mut().config[62] = 1,
            kind => panic!("kind {kind}"),
        }
        assert_eq!(&got, lines, "row {place}");
    }
}

#[test]
fn in_c() {
    let program = build("cc", C99, "rust/osnma/tests/c/collector.c", "collector_c99");
    let (records, lines): (Vec<_>, Vec<_>) = table().into_iter().unzip();
    let (got, lines) = (run(&program, &[], &records.concat()), lines.concat());
    let differ = |(_, (got, line)): &(usize, (&str, &str))| got != line;
    let first = got.lines().zip(lines.lines()).enumerate().find(differ);
    assert_eq!((first, got.len()), (None, lines.len()));
}
