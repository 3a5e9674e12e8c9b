//! The tag records of a recording, a line each, for the engineer.

use crate::history::{History, Judged, Run};
use crate::time;
use osnma::Outcome;
use std::io::{self, Write};

/// The first line.
pub const HEAD: &str = "start,record,outcome,meaning,sender,prn,adkd,block,position,iodnav,\
    arrival_week,arrival_second,arrival_gst,key_slot,root_verdict_record,agreeing_bits";

/// An outcome in words.
pub fn meaning(outcome: Outcome) -> &'static str {
    match outcome {
        Outcome::Authentic => "authentic",
        Outcome::Wrong => "wrong",
        Outcome::NoUsableSet => "no usable set",
        Outcome::NotAllowed => "not allowed",
        Outcome::Waits => "waits",
        Outcome::SequenceUnfit => "MACSEQ fails",
        Outcome::NoPlace => "no place",
        Outcome::BitsMissing => "bits missing",
        Outcome::Agrees => "agrees",
        _ => "not listed",
    }
}

/// Writes every tag record as its record comes, in the order of the answers. A key's slot is counted
/// from the root in force then, and after it comes the record of the verdict that put that root in
/// force. The last field is of tags that agree (outcome 9): the bits that agree on the same data, with
/// this tag's; none where a later tag's data stays the candidate.
pub struct Rows<W> {
    output: W,
    begun: bool,
    failed: io::Result<()>,
}

impl<W: Write> Rows<W> {
    /// Writes to `output`, nothing before the first tag record or the end.
    pub fn new(output: W) -> Rows<W> {
        Rows {
            output,
            begun: false,
            failed: Ok(()),
        }
    }

    /// The rows of the last record.
    pub fn note(&mut self, history: &History) {
        let Some(run) = history.runs.last() else {
            return;
        };
        for judged in &history.judged {
            if self.failed.is_ok() {
                self.failed = self.head().and_then(|()| self.row(run, judged));
            }
        }
    }

    /// The end: gives the output back.
    ///
    /// # Errors
    /// The first of the output's.
    pub fn finish(mut self) -> io::Result<W> {
        std::mem::replace(&mut self.failed, Ok(()))?;
        self.head()?;
        Ok(self.output)
    }

    fn head(&mut self) -> io::Result<()> {
        if std::mem::replace(&mut self.begun, true) {
            return Ok(());
        }
        writeln!(self.output, "{HEAD}")
    }

    fn row(&mut self, run: &Run, judged: &Judged) -> io::Result<()> {
        let tag = &judged.record;
        let root = judged.root.as_ref();
        let slot = root.and_then(|root| root.slot(run.settings.ns, tag));
        let or_none = |n: Option<u64>| n.map_or(String::new(), |n| n.to_string());
        writeln!(
            self.output,
            "{},{},{},{},{},{},{},{},{},{},{},{},{},{},{},{}",
            run.place,
            judged.place,
            tag.outcome.number(),
            meaning(tag.outcome),
            tag.sender,
            tag.prn,
            tag.adkd,
            tag.block,
            tag.position,
            tag.iodnav,
            tag.time.week(),
            tag.time.second(),
            time::full(tag.time),
            or_none(slot),
            or_none(root.map(|root| root.vouch.place)),
            or_none(judged.bits.map(u64::from)),
        )
    }
}
