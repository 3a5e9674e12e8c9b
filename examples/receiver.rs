//! A receiver's loop around the core: pages as they come off the air in, what the core says out.
//!
//! ```text
//! receiver < PAGES
//! ```
//!
//! PAGES are records of 256 bytes, as `signal air NAME` of the bench signal writes them (`rust/signal/src/air.rs`):
//! starts and verdicts as in a recording (docs/RECORDING.md), and pages or their words and fields. A verdict is the chip's answer; on the bench it
//! comes with the file. For each start and verdict a line is printed with its number; for each sub-frame one with its
//! satellite and time, its two numbers and the count of its tag records, then these; after each half minute whether
//! four satellites have authentic data that is at most 10 and 20 sub-frames old and, while no chain is in force, how far
//! along each message is, where that has changed; at the end whether the core is stopped and has a chain in force, and
//! each authentic set.

use osnma::collector::{Collector, NotTaken};
use osnma::{
    Core, Gst, Marks, Progress, Records, Refusal, Settings, SubframeAnswer, TagRecord, NO_RECORDS,
};
use std::io::{self, Read, Write};

#[allow(dead_code)] // the tests call `run`
fn main() -> io::Result<()> {
    run(&mut io::stdin().lock(), &mut io::stdout().lock())
}

/// Kinds of records.
const START: u8 = 1;
const WORD: u8 = 2;
const SUBFRAME: u8 = 3;
const VERDICT: u8 = 4;
const SUBFRAME_MARKED: u8 = 6;
const PAGE: u8 = 80;
const WORD_ALONE: u8 = 81;
const END: u8 = 82;
const FIELD: u8 = 83;

/// Takes whole records until the input ends.
pub fn run(input: &mut impl Read, output: &mut impl Write) -> io::Result<()> {
    let mut receiver = Receiver {
        core: Core::new(),
        collector: Collector::new(),
        records: NO_RECORDS,
        shown: Vec::new(),
        started: false,
        output,
    };
    let mut record = [0; 256];
    loop {
        match input.read_exact(&mut record) {
            Ok(()) => receiver.record(&record)?,
            Err(error) if error.kind() == io::ErrorKind::UnexpectedEof => break,
            Err(error) => return Err(error),
        }
    }
    if receiver.started {
        receiver.lend()?;
        receiver.end()?;
    }
    receiver.output.flush()
}

struct Receiver<'a, W: Write> {
    core: Core,
    collector: Collector,
    records: Records,
    /// How far along each message was when it was printed last.
    shown: Vec<Progress>,
    started: bool,
    output: &'a mut W,
}

fn number(answer: Result<(), Refusal>) -> u32 {
    answer.map_or_else(Refusal::number, |()| 0)
}

fn time(record: &[u8; 256]) -> Gst {
    Gst::from_bits(u32::from_be_bytes(bytes(record, 2)))
}

/// The bytes of a record from a place on.
fn bytes<const N: usize>(record: &[u8; 256], at: usize) -> [u8; N] {
    core::array::from_fn(|i| record[at + i])
}

fn print_tag(output: &mut impl Write, tag: TagRecord) -> io::Result<()> {
    let (outcome, prn, adkd) = (tag.outcome.number(), tag.prn, tag.adkd);
    write!(output, "{outcome:02X}{:02X}{prn:02X}{adkd:02X}", tag.sender)?;
    write!(output, "{:02X}{:02X}", tag.block, tag.position)?;
    writeln!(output, "{:04X}{:08X}", tag.iodnav, tag.time.bits())
}

fn print_subframe(
    output: &mut impl Write,
    prn: u8,
    time: Gst,
    answer: SubframeAnswer<'_>,
) -> io::Result<()> {
    let (hkroot, mack) = (number(answer.hkroot), number(answer.mack));
    let count = answer.tags.len();
    writeln!(output, "E{prn:02} {time}: {hkroot} {mack} {count}")?;
    for tag in answer.tags {
        print_tag(output, tag)?;
    }
    Ok(())
}

impl<W: Write> Receiver<'_, W> {
    fn record(&mut self, r: &[u8; 256]) -> io::Result<()> {
        match r[0] {
            START => return self.start(r),
            _ if !self.started => {}
            // What comes off the air goes to the collector.
            PAGE => {
                let (began, even, odd) = (time(r), bytes(r, 6), bytes(r, 21));
                if let Some((time, page)) = Gst::of_page(began.week(), began.second()) {
                    self.collect(|collector| collector.page(r[1], time, page, &even, &odd))?;
                }
            }
            FIELD => {
                let (page, field) = (u32::from(r[6]), bytes(r, 7));
                self.collect(|collector| collector.field(r[1], time(r), page, &field))?;
            }
            WORD_ALONE => {
                let word = bytes(r, 6);
                self.collect(|collector| collector.word(r[1], time(r), &word))?;
            }
            END => {
                self.lend()?;
                self.collector = Collector::new();
            }
            // The chip's answer, on a message that `core.read_message()` handed out.
            VERDICT => {
                let (message, signature) = (bytes(r, 3), bytes(r, 48));
                let answer = match r[1] {
                    0 | 1 => self.core.verdict(r[1] == 1, r[2], &message, &signature),
                    // In Rust a verdict is a bool.
                    _ => Err(Refusal::OutOfRange),
                };
                writeln!(self.output, "verdict: {}", number(answer))?;
            }
            // What stands in the file as a recording has it.
            WORD => {
                let _ = self.core.word(r[1], time(r), &bytes(r, 6));
            }
            SUBFRAME | SUBFRAME_MARKED => {
                let marks = match r[0] {
                    SUBFRAME => Marks::ALL,
                    _ => Marks::from_bits(u16::from_be_bytes(bytes(r, 81))),
                };
                let (prn, time, fields) = (r[1], time(r), bytes(r, 6));
                let (core, records) = (&mut self.core, &mut self.records);
                let answer = core.subframe_marked(prn, time, marks, &fields, records);
                print_subframe(self.output, prn, time, answer)?;
            }
            _ => {}
        }
        Ok(())
    }

    fn start(&mut self, r: &[u8; 256]) -> io::Result<()> {
        let answer = self.core.start(&Settings {
            ns: r[1],
            key_id: r[2],
            key_type: r[3],
            maclt: r[4],
            marks: [bytes(r, 5), bytes(r, 19)],
            tree_root: bytes(r, 33),
            key: bytes(r, 65),
        });
        if answer.is_ok() {
            self.started = true;
            self.collector = Collector::new();
            self.shown = self.core.progress().collect();
        }
        writeln!(self.output, "start: {}", number(answer))
    }

    /// Gives something to the collector, and once more where the half minute before it had to be lent.
    fn collect(&mut self, give: impl Fn(&mut Collector) -> Result<(), NotTaken>) -> io::Result<()> {
        if give(&mut self.collector) == Err(NotTaken::Over) {
            self.lend()?;
            // What is refused now is not of this satellite, or is late: as if it were lost.
            let _ = give(&mut self.collector);
        }
        Ok(())
    }

    /// What a valve may be opened by; a stopped core's answer is not used. Who opens one also watches a clock that the
    /// signal cannot set, which a file does not have: `Core::four` says how.
    fn may_open(&self, limit: u32) -> bool {
        !self.core.is_stopped() && self.core.four(limit)
    }

    /// For who waits at a cold start.
    fn print_gathering(&mut self) -> io::Result<()> {
        if self.core.chain_in_force() {
            return Ok(());
        }
        for (now, shown) in self.core.progress().zip(&mut self.shown) {
            if now != *shown {
                let (id, held) = (now.dsm_id, now.held);
                match now.missing {
                    None => writeln!(self.output, "DSM {id}: {held} held, total unknown")?,
                    Some(n) => writeln!(self.output, "DSM {id}: {held} held, {n} missing")?,
                }
                *shown = now;
            }
        }
        Ok(())
    }

    /// The half minute is over.
    fn lend(&mut self) -> io::Result<()> {
        let (output, mut printed) = (&mut *self.output, Ok(()));
        let told = |prn, time, answer: SubframeAnswer<'_>| {
            if printed.is_ok() {
                printed = print_subframe(output, prn, time, answer);
            }
        };
        // A refused word is a stopped core, which its sub-frames tell.
        let _ = self.collector.lend(&mut self.core, &mut self.records, told);
        printed?;
        let [few, more] = [10, 20].map(|limit| u8::from(self.may_open(limit)));
        writeln!(self.output, "four within 10: {few}, within 20: {more}")?;
        self.print_gathering()
    }

    fn end(&mut self) -> io::Result<()> {
        let (stopped, chain) = (self.core.is_stopped(), self.core.chain_in_force());
        writeln!(self.output, "stopped: {}", u8::from(stopped))?;
        writeln!(self.output, "chain in force: {}", u8::from(chain))?;
        for prn in 1..=36 {
            if let Ok(set) = self.core.read_set(prn) {
                write!(self.output, "E{prn:02} IODnav {} {} ", set.iodnav, set.time)?;
                for byte in set.bytes {
                    write!(self.output, "{byte:02X}")?;
                }
                writeln!(self.output)?;
            }
        }
        Ok(())
    }
}
