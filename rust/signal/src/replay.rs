//! Records of the replay program and runs of them (01, The replay program).

use crate::mack::Marks;
use crate::navdata::{Authenticated, Word};
use crate::subframe::{Field, Received};
use crate::time::Gst;

/// Bytes of a record.
pub const RECORD: usize = 256;

/// What a start gives.
#[derive(Clone, Debug)]
pub struct Start {
    /// Satellites with a key of their own in a block.
    pub ns: u8,
    /// ID of the public key.
    pub key_id: u8,
    /// Type of the public key.
    pub key_type: u8,
    /// The one MACLT number that is taken.
    pub maclt: u8,
    /// Marks for second 0 and second 30 of the minute.
    pub marks: [Marks; 2],
    /// Root of the tree of public keys.
    pub tree_root: [u8; 32],
    /// The public key, up to 67 bytes.
    pub key: Vec<u8>,
}

/// What a verdict names.
#[derive(Clone, Debug, PartialEq, Eq)]
pub struct Verdict {
    /// 1 good, 0 bad.
    pub good: u8,
    /// ID of the public key.
    pub key_id: u8,
    /// The signed message, followed by zeros.
    pub message: [u8; 45],
    /// The signature, followed by zeros.
    pub signature: [u8; 132],
}

impl Verdict {
    /// Short parts are followed by zeros.
    pub fn new(good: u8, key_id: u8, message: &[u8], signature: &[u8]) -> Self {
        let mut v = Verdict {
            good,
            key_id,
            message: [0; 45],
            signature: [0; 132],
        };
        v.message[..message.len()].copy_from_slice(message);
        v.signature[..signature.len()].copy_from_slice(signature);
        v
    }
}

pub(crate) fn record(parts: &[&[u8]]) -> [u8; RECORD] {
    let mut out = [0; RECORD];
    let bytes = parts.concat();
    out[..bytes.len()].copy_from_slice(&bytes);
    out
}

/// A record of kind 1.
pub fn start(s: &Start) -> [u8; RECORD] {
    let head = [1, s.ns, s.key_id, s.key_type, s.maclt];
    record(&[&head, &s.marks[0], &s.marks[1], &s.tree_root, &s.key])
}

/// A record of kind 2.
pub fn word(prn: u8, gst: Gst, word: &Word) -> [u8; RECORD] {
    record(&[&[2, prn], &gst.bytes(), word])
}

/// A record of kind 3.
pub fn subframe(prn: u8, gst: Gst, field: &Field) -> [u8; RECORD] {
    record(&[&[3, prn], &gst.bytes(), field])
}

/// A record of kind 6: a sub-frame with its marks (02, P3).
pub fn subframe_marked(prn: u8, gst: Gst, marks: Received, field: &Field) -> [u8; RECORD] {
    record(&[&[6, prn], &gst.bytes(), field, &marks.to_be_bytes()])
}

/// A record of kind 4.
pub fn verdict(v: &Verdict) -> [u8; RECORD] {
    record(&[&[4, v.good, v.key_id], &v.message, &v.signature])
}

/// What a read of a satellite's authentic set must give after the last record.
#[derive(Clone, Debug, PartialEq, Eq)]
pub enum Read {
    /// 16: no authentic set.
    None,
    /// 0: these bits.
    Set {
        /// The 549 bits.
        bits: Authenticated,
        /// IODnav of the set.
        iodnav: u16,
        /// When its tag came.
        gst: Gst,
    },
}

/// By DSM ID: blocks held, and blocks missing if the total is known.
pub type Progress = [(u8, Option<u8>); 16];

/// The valves that a decision frees: those of a group decide alike.
#[derive(Clone, Copy, Debug, PartialEq, Eq)]
pub struct Freed {
    /// The outer six on each side.
    pub outer: bool,
    /// The centre valves.
    pub centre: bool,
}

/// What a run intends of a receiver; places count records from 1.
#[derive(Clone, Debug, Default)]
pub struct Expects {
    /// Place, the two answers.
    pub answers: Vec<(usize, u8, u8)>,
    /// Place, outcomes of its tag records in order.
    pub outcomes: Vec<(usize, Vec<u8>)>,
    /// PRN, what a read of its authentic set gives at the end.
    pub reads: Vec<(u8, Read)>,
    /// Place, the least limit with which four satellites then have a recent authentic set (02, P5), if any is enough.
    pub least: Vec<(usize, Option<u64>)>,
    /// Place, and how far along each message then is (02, P9).
    pub progress: Vec<(usize, Progress)>,
    /// Place, and the valves that a decision then frees (02, P14); decisions of one place follow each other.
    pub decisions: Vec<(usize, Freed)>,
    /// Outcomes that some tag record must have.
    pub some: Vec<u8>,
    /// Outcomes that no tag record may have.
    pub never: Vec<u8>,
}

/// A replay input with what it is for.
#[derive(Clone, Debug)]
pub struct Run {
    /// The scenario's name.
    pub name: String,
    /// One line.
    pub about: String,
    /// The replay input.
    pub bytes: Vec<u8>,
    /// What a receiver must answer.
    pub expects: Expects,
}

impl Run {
    /// A run without records.
    pub fn new(name: &str, about: &str) -> Self {
        Run {
            name: name.into(),
            about: about.into(),
            bytes: Vec::new(),
            expects: Expects::default(),
        }
    }

    /// Adds a record and gives its place.
    pub fn push(&mut self, record: [u8; RECORD]) -> usize {
        self.bytes.extend(record);
        self.places()
    }

    /// Whole records so far.
    pub fn places(&self) -> usize {
        self.bytes.len() / RECORD
    }

    /// States the answers of the last record.
    pub fn gives(&mut self, first: u8, second: u8) {
        let place = self.places();
        self.expects.answers.push((place, first, second));
    }

    /// States the outcomes of the last record's tag records.
    pub fn outcomes(&mut self, outcomes: &[u8]) {
        let place = self.places();
        self.expects.outcomes.push((place, outcomes.to_vec()));
    }

    /// States the least limit with which four satellites have a recent authentic set after the last record.
    pub fn least(&mut self, least: Option<u64>) {
        let place = self.places();
        self.expects.least.push((place, least));
    }

    /// States how far along each message is after the last record.
    pub fn progress(&mut self, progress: Progress) {
        let place = self.places();
        self.expects.progress.push((place, progress));
    }

    /// States the valves that a decision after the last record frees.
    pub fn decision(&mut self, freed: Freed) {
        let place = self.places();
        self.expects.decisions.push((place, freed));
    }

    /// Compares what a replay program printed, and what its reads gave if known, with what the run intends. Reads are
    /// lines `A PRN 0 SET IODnav GST_SF` or `A PRN 16`, hexadecimal in capitals.
    pub fn check(&self, answers: &str, reads: Option<&str>) -> Result<(), String> {
        let given = Given::parse(answers)?;
        let mut wrong = Vec::new();
        if given.len() != self.bytes.len().div_ceil(RECORD) {
            wrong.push(format!(
                "{} answers to {} bytes",
                given.len(),
                self.bytes.len()
            ));
        }
        for &(place, first, second) in &self.expects.answers {
            match given.get(place - 1) {
                Some(g) if g.answers == (first, second) => {}
                g => wrong.push(format!(
                    "record {place}: {first} {second} wanted, {:?} given",
                    g.map(|g| g.answers)
                )),
            }
        }
        for (place, outcomes) in &self.expects.outcomes {
            let given = given.get(place - 1).map(|g| &g.outcomes);
            if given != Some(outcomes) {
                wrong.push(format!(
                    "record {place}: outcomes {outcomes:?} wanted, {given:?} given"
                ));
            }
        }
        let seen = |outcome: &u8| given.iter().any(|g| g.outcomes.contains(outcome));
        for outcome in self.expects.some.iter().filter(|o| !seen(o)) {
            wrong.push(format!("no outcome {outcome}"));
        }
        for outcome in self.expects.never.iter().filter(|o| seen(o)) {
            wrong.push(format!("outcome {outcome} given"));
        }
        for (prn, read) in reads.map_or(&[][..], |_| &self.expects.reads) {
            let line = match read {
                Read::None => format!("A {prn} 16"),
                Read::Set { bits, iodnav, gst } => {
                    let set: String = bits.iter().map(|b| format!("{b:02X}")).collect();
                    format!("A {prn} 0 {set} {iodnav} {:08X}", gst.0)
                }
            };
            if !reads.is_some_and(|text| text.lines().any(|l| l == line)) {
                wrong.push(format!("no read {line}"));
            }
        }
        if wrong.is_empty() {
            Ok(())
        } else {
            Err(wrong.join("\n"))
        }
    }
}

/// The answer to one record, as a replay program prints it.
#[derive(Clone, Debug, PartialEq, Eq)]
pub struct Given {
    /// The two numbers.
    pub answers: (u8, u8),
    /// First byte of each tag record.
    pub outcomes: Vec<u8>,
}

impl Given {
    /// Reads a replay program's output.
    pub fn parse(text: &str) -> Result<Vec<Given>, String> {
        let mut out: Vec<Given> = Vec::new();
        let mut lines = text.lines();
        while let Some(line) = lines.next() {
            let fields: Vec<usize> = line.split(' ').map_while(|f| f.parse().ok()).collect();
            let [place, first, second, count] = fields[..] else {
                return Err(format!("no answer line: {line}"));
            };
            if place != out.len() + 1 || first > 255 || second > 255 {
                return Err(format!("answer {} expected: {line}", out.len() + 1));
            }
            let mut outcomes = Vec::new();
            for _ in 0..count {
                let tag = lines
                    .next()
                    .filter(|l| l.len() == 24 && l.is_ascii())
                    .unwrap_or("-");
                let outcome = tag
                    .get(..2)
                    .and_then(|hex| u8::from_str_radix(hex, 16).ok());
                outcomes.push(outcome.ok_or(format!("no tag record after {line}"))?);
            }
            out.push(Given {
                answers: (first as u8, second as u8),
                outcomes,
            });
        }
        Ok(out)
    }
}

#[cfg(test)]
mod tests {
    use super::*;

    // 01's example, byte by byte, and what checking its answers finds.
    #[test]
    fn example() {
        let mut run = Run::new("example", "01's example");
        run.push(start(&Start {
            ns: 36,
            key_id: 1,
            key_type: 0,
            maclt: 11,
            marks: [[0; 14]; 2],
            tree_root: [7; 32],
            key: vec![9; 29],
        }));
        run.gives(0, 0);
        run.push(word(37, Gst::new(947, 432_000), &[4; 16]));
        run.gives(2, 0);
        run.push(subframe(18, Gst::new(947, 432_000), &[0; 75]));
        run.gives(5, 5);
        run.outcomes(&[]);
        assert_eq!(run.bytes.len(), 3 * RECORD);
        assert_eq!(run.bytes[..5], [1, 36, 1, 0, 11]);
        assert_eq!(run.bytes[33..66], [&[7; 32][..], &[9]].concat());
        assert_eq!(run.bytes[256..263], [2, 37, 0x3B, 0x36, 0x97, 0x80, 4]);
        assert_eq!(run.bytes[512..518], [3, 18, 0x3B, 0x36, 0x97, 0x80]);
        assert_eq!(run.check("1 0 0 0\n2 2 0 0\n3 5 5 0\n", None), Ok(()));
        assert!(run.check("1 0 0 0\n2 2 0 0\n3 5 0 0\n", None).is_err());
        assert!(run.check("1 0 0 0\n2 2 0 0\n", None).is_err());
        assert!(run
            .check(
                "1 0 0 0\n2 2 0 0\n3 5 5 1\n010101010101010101010101\n",
                None
            )
            .is_err());
        // Outcome 1 is not 9, and neither is 2.
        let with = |outcome: u8| {
            format!("1 0 0 0\n2 2 0 0\n3 5 5 1\n{outcome:02}0101010101010101010101\n")
        };
        for stated in [1, 2, 9] {
            let mut run = run.clone();
            run.expects.outcomes.clear();
            run.outcomes(&[stated]);
            for given in [1, 2, 9] {
                let right = run.check(&with(given), None).is_ok();
                assert_eq!(right, given == stated, "{stated} {given}");
            }
        }
        run.expects.reads.push((3, Read::None));
        assert_eq!(
            run.check("1 0 0 0\n2 2 0 0\n3 5 5 0\n", Some("A 3 16\n")),
            Ok(())
        );
        assert!(run
            .check("1 0 0 0\n2 2 0 0\n3 5 5 0\n", Some("A 2 16\n"))
            .is_err());
        run.expects.never.push(1);
        run.expects.some.push(2);
        assert!(run.check("1 0 0 0\n2 2 0 0\n3 5 5 0\n", None).is_err());
    }

    #[test]
    fn marked_record() {
        let (gst, field) = (Gst::new(947, 432_000), [9; 75]);
        let (plain, marked) = (
            subframe(18, gst, &field),
            subframe_marked(18, gst, 0xBFFE, &field),
        );
        assert_eq!((marked[0], &marked[1..81]), (6, &plain[1..81]));
        assert_eq!(marked[80..84], [9, 0xBF, 0xFE, 0]);
    }

    #[test]
    fn verdict_record() {
        let v = Verdict::new(1, 4, &[5; 29], &[6; 64]);
        let bytes = verdict(&v);
        assert_eq!(bytes[..4], [4, 1, 4, 5]);
        assert_eq!(bytes[31..33], [5, 0]);
        assert_eq!(bytes[47..49], [0, 6]);
        assert_eq!(bytes[111..113], [6, 0]);
    }
}
