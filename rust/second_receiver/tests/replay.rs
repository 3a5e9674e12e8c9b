//! The replay program: format, framing, and any bytes at all.

mod common;

use common::*;
use second_receiver::replay::{replay, write_candidates, write_reads};
use std::fs;
use std::io::{Read, Write};
use std::path::Path;
use std::process::{Command, Stdio};

fn lines(input: &[u8]) -> String {
    let mut output = Vec::new();
    replay(input, &mut output).unwrap();
    String::from_utf8(output).unwrap()
}

/// A record of a kind: its bytes, the rest filled.
fn record(kind: u8, parts: &[&[u8]]) -> Vec<u8> {
    let mut record = [&[kind], &parts.concat()[..]].concat();
    record.resize(256, 0xC3);
    record
}

fn start_record(start: &Start) -> Vec<u8> {
    let head = [start.ns, start.key_id, start.key_type, start.maclt];
    record(
        1,
        &[
            &head,
            &start.marks_0,
            &start.marks_30,
            &start.tree_root,
            &start.key,
        ],
    )
}

fn example() -> Vec<u8> {
    let mut fields = record(3, &[&[18], &gst(947, 432_000).to_be_bytes(), &[0; 75]]);
    fields[81..].fill(0);
    let word = record(2, &[&[37], &gst(947, 432_000).to_be_bytes(), &[0; 16]]);
    [start_record(&Start::default()), word, fields].concat()
}

// 01's own example.
#[test]
fn the_example() {
    assert_eq!(lines(&example()), "1 0 0 0\n2 2 0 0\n3 5 5 0\n");
    assert_eq!(lines(&[]), "");
}

#[test]
fn framing() {
    for kind in [0, 1, 2, 3, 4, 5, 6, 7, 255] {
        for len in [1, 2, 255] {
            assert_eq!(
                lines(&vec![kind; len]),
                "1 1 0 0\n",
                "a short record of kind {kind}"
            );
        }
        let expected = match kind {
            1 | 0 | 5 | 7 | 255 => "1 2 0 0\n",
            3 | 6 => "1 11 11 0\n",
            _ => "1 11 0 0\n",
        };
        assert_eq!(lines(&[kind; 256]), expected, "kind {kind} before a start");
    }
    // A refused start is none; a short record at the end is 1 after a start, too.
    let mut input = start_record(&Start {
        ns: 0,
        ..Start::default()
    });
    input.extend(record(3, &[&[1; 80]]));
    input.extend(start_record(&Start::default()));
    input.extend(record(4, &[&[1, 3], &[0; 177]]));
    input.extend(record(9, &[]));
    input.extend(&example()[256..][..100]);
    assert_eq!(
        lines(&input),
        "1 2 0 0\n2 11 11 0\n3 0 0 0\n4 14 0 0\n5 2 0 0\n6 1 0 0\n"
    );
}

// Every part of a record lies where 01 says: a whole run from start to an authentic set.
#[test]
fn a_run() {
    let chain = TestChain::usual();
    // The rest of the key's 67 bytes is not read.
    let start = Start {
        key: [(0..33).collect(), vec![0xFF; 34]].concat(),
        ..Start::default()
    };
    let mut input = start_record(&start);
    let subframe = |prn: u8, time: u32, hkroot: &[u8], section: &[u8]| {
        record(3, &[&[prn], &time.to_be_bytes(), &fields(hkroot, section)])
    };
    for (i, block) in chain.dsm(3, &[9; 64]).chunks(13).enumerate() {
        let hkroot = hkroot(HEADER, 0, i as u8, block);
        input.extend(subframe(36, chain.at(i as i64 - 40), &hkroot, &[0; 60]));
    }
    let mut signed = [chain.message(HEADER), vec![0; 45]].concat();
    signed.truncate(45);
    input.extend(record(4, &[&[1, 3], &signed, &[9; 64], &[0; 68]]));
    for word in words(2, 9, 0) {
        input.extend(record(2, &[&[2], &chain.at(0).to_be_bytes(), &word]));
    }
    for word in words(5, 700, 0) {
        input.extend(record(2, &[&[5], &chain.at(0).to_be_bytes(), &word]));
    }
    let (two, five) = (set(&words(2, 9, 0)), set(&words(5, 700, 0)));
    // Four tags of 12 bits are enough for PRN 2; two of three are right for PRN 5.
    let mut specs = vec![Spec::new(2, 0, &two); 4];
    specs.extend([Spec::new(5, 0, &five), Spec::new(5, 0, &five).flip(1)]);
    specs.push(Spec::new(5, 0, &five));
    let section = chain.section(
        Sent {
            prn: 2,
            subframe: 2,
            status: 2,
        },
        &specs,
        &[],
    );
    input.extend(subframe(
        2,
        chain.at(2),
        &hkroot(HEADER, 11, 1, &[0; 13]),
        &section,
    ));
    let mut expected = "1 0 0 0\n".to_string();
    (2..10).for_each(|place| expected += &format!("{place} 0 11 0\n"));
    (10..21).for_each(|place| expected += &format!("{place} 0 0 0\n"));
    expected += "21 0 0 8\n";
    assert!(chain.at(2) == 0x3E80_8CDC);
    for (outcome, position) in [(9, 1), (9, 2), (9, 3), (1, 4)] {
        expected += &format!("{outcome:02}02020001{position:02}00093E808CDC\n");
    }
    for (outcome, position) in [(9, 1), (2, 2), (9, 3)] {
        expected += &format!("{outcome:02}02050002{position:02}02BC3E808CDC\n");
    }
    expected += "04020000020400003E808CDC\n";
    assert_eq!(lines(&input), expected);

    let receiver = replay(&input[..], &mut Vec::new()).unwrap();
    let mut reads = Vec::new();
    write_reads(&receiver, &mut reads).unwrap();
    let reads = String::from_utf8(reads).unwrap();
    let two_line = format!("A 2 0 {} 9 3E808CDC", upper(&two));
    let reads: Vec<&str> = reads.lines().collect();
    assert_eq!(
        (reads[0], reads[1], reads[35], reads[36]),
        ("A 1 16", &two_line[..], "A 36 16", "W 14")
    );
    assert_eq!(reads.len(), 37);

    let mut candidates = Vec::new();
    write_candidates(&receiver, &mut candidates).unwrap();
    assert_eq!(
        String::from_utf8(candidates).unwrap(),
        format!("C 5 24 {} 700 3E808CDC\n", upper(&five))
    );
}

/// Gives one byte a read, and now and then an interruption.
struct Slow<'a>(&'a [u8], u8);

impl Read for Slow<'_> {
    fn read(&mut self, buffer: &mut [u8]) -> std::io::Result<usize> {
        self.1 = self.1.wrapping_add(1);
        if self.1.is_multiple_of(7) {
            return Err(std::io::ErrorKind::Interrupted.into());
        }
        let n = buffer.len().min(self.0.len()).min(1);
        buffer[..n].copy_from_slice(&self.0[..n]);
        self.0 = &self.0[n..];
        Ok(n)
    }
}

#[test]
fn input_in_small_pieces() {
    let input = [example(), vec![3; 40]].concat();
    let mut output = Vec::new();
    replay(Slow(&input, 0), &mut output).unwrap();
    assert_eq!(output, lines(&input).into_bytes());
}

/// xorshift64*, for fixed random input.
struct Random(u64);

impl Random {
    fn next(&mut self) -> u64 {
        self.0 ^= self.0 >> 12;
        self.0 ^= self.0 << 25;
        self.0 ^= self.0 >> 27;
        self.0.wrapping_mul(0x2545_F491_4F6C_DD1D)
    }

    fn below(&mut self, bound: usize) -> usize {
        (self.next() >> 16) as usize % bound
    }

    fn pick<'a, T>(&mut self, from: &'a [T]) -> &'a T {
        &from[self.below(from.len())]
    }
}

// 100,000 records of random bytes: a line each, and no panic.
#[test]
fn random_bytes() {
    let mut random = Random(1);
    let mut input = Vec::new();
    while input.len() < 256 * 100_000 {
        let at = input.len();
        (0..32).for_each(|_| input.extend(random.next().to_le_bytes()));
        // Half of them of a known kind; a quarter with a time, PRN, or a start that can be taken.
        match random.below(8) {
            0..4 => input[at] = *random.pick(&[1, 2, 3, 4, 6]),
            4 | 5 => {
                input[at] = *random.pick(&[2, 3, 4, 6]);
                input[at + 1] = random.below(38) as u8;
                let second = 30 * random.below(20_160) as u32;
                let time = gst(random.below(4096) as u32, second);
                input[at + 2..at + 6].copy_from_slice(&time.to_be_bytes());
            }
            6 if random.below(40) == 0 => {
                input.truncate(at);
                input.extend(start_record(&Start::default()));
            }
            _ => {}
        }
    }
    let output = lines(&input);
    assert_eq!(output.lines().count(), 100_000);
    let last = output.lines().last().unwrap();
    assert!(last.starts_with("100000 "), "{last}");
}

// The recorded cases with bytes changed and records dropped, doubled and swapped: no panic, and the
// reads hold.
#[test]
fn damaged_cases() {
    let directory = Path::new(env!("CARGO_MANIFEST_DIR")).join("tests/cases");
    let mut random = Random(2);
    for entry in fs::read_dir(directory).unwrap() {
        let path = entry.unwrap().path();
        if path.extension().is_none_or(|extension| extension != "in") {
            continue;
        }
        let whole = fs::read(&path).unwrap();
        let records: Vec<&[u8]> = whole.chunks(256).collect();
        for _ in 0..6 {
            let mut input = Vec::new();
            for (i, record) in records.iter().enumerate() {
                match random.below(40) {
                    0 => {}
                    1 => input.extend([*record, *record].concat()),
                    2 => input.extend(records[random.below(records.len())]),
                    3 if i > 0 => {
                        let mut damaged = record.to_vec();
                        let at = random.below(damaged.len().min(90));
                        damaged[at] ^= 1 << random.below(8);
                        input.extend(damaged);
                    }
                    _ => input.extend(*record),
                }
            }
            let mut output = Vec::new();
            let receiver = replay(&input[..], &mut output).unwrap();
            assert!(receiver.waiting_tags().len() <= 256);
            write_reads(&receiver, &mut output).unwrap();
        }
    }
}

// The program itself: standard input, standard output, `--reads FILE`.
#[test]
fn the_program() {
    let run = |arguments: &[&str], input: &[u8]| {
        let mut child = Command::new(env!("CARGO_BIN_EXE_second_receiver"))
            .args(arguments)
            .stdin(Stdio::piped())
            .stdout(Stdio::piped())
            .stderr(Stdio::piped())
            .spawn()
            .unwrap();
        // A refused argument ends the program before it reads.
        let _ = child.stdin.take().unwrap().write_all(input);
        let output = child.wait_with_output().unwrap();
        (
            output.status.code(),
            String::from_utf8(output.stdout).unwrap(),
        )
    };
    assert_eq!(
        run(&[], &example()),
        (Some(0), "1 0 0 0\n2 2 0 0\n3 5 5 0\n".into())
    );
    assert_eq!(run(&[], &[]), (Some(0), String::new()));
    assert_eq!(run(&["--other"], &[]), (Some(2), String::new()));
    assert_eq!(run(&["--reads"], &[]), (Some(2), String::new()));
    let file = std::env::temp_dir().join(format!("second_receiver_reads_{}", std::process::id()));
    let path = file.to_str().unwrap();
    assert_eq!(run(&["--reads", path], &[]), (Some(0), String::new()));
    assert_eq!(fs::read_to_string(&file).unwrap(), "no start\n");
    assert_eq!(run(&["--reads", path], &example()).0, Some(0));
    let reads = fs::read_to_string(&file).unwrap();
    assert_eq!(
        (reads.lines().count(), reads.lines().last()),
        (37, Some("W 14"))
    );
    assert_eq!(run(&["--four", path], &example()).0, Some(0));
    assert_eq!(fs::read_to_string(&file).unwrap(), "F -\n");
    assert_eq!(run(&["--progress", path], &example()).0, Some(0));
    let none = format!("D{}\n", " 0/?".repeat(16));
    assert_eq!(fs::read_to_string(&file).unwrap(), none);
    fs::remove_file(&file).unwrap();
}
