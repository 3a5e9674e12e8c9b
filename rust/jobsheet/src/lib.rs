//! A page for the job sheet: which data of which satellite was authentic when, and what each mark
//! rests on.
//!
//! The proved core (`osnma`) decides everything: its answers and reads are followed ([`history`])
//! and shown ([`sheet`], then [`html`], [`text`] or [`csv`]). What it does not export, the
//! parameters of the chain and the slots of keys, is read from the messages of verdicts that it
//! answered 0 ([`vouched`]); how many bits agree on data that is not marked yet ([`candidate`]), and
//! how many satellites were marked lately beside the core's answer whether four were ([`boom`]), is
//! counted.

#![forbid(unsafe_code)]
#![warn(missing_docs)]

pub mod boom;
pub mod candidate;
pub mod csv;
pub mod data;
pub mod finding;
pub mod gathering;
pub mod history;
pub mod html;
mod output;
pub mod phone;
pub mod receiver;
pub mod recording;
pub mod refused;
pub mod sheet;
mod strip_svg;
pub mod text;
pub mod time;
pub mod timeline;
pub mod vouched;
pub mod warnings;
mod words;

pub use output::Output;

use history::History;
use receiver::Receiver;
use recording::{is_kind, Reader, Record, Trouble};
use std::io::Read;

/// What the core answered to a whole recording, or to the whole records of one that is cut short.
/// `each` is shown what is known after every record.
///
/// # Errors
/// [`Trouble`]: the input cannot be read, is empty, is no recording, has no whole record, or has no
/// accepted start.
pub fn replay(input: impl Read, mut each: impl FnMut(&History)) -> Result<History, Trouble> {
    let mut receiver = Receiver::new();
    let mut history = History::default();
    let mut known = false;
    let mut reader = Reader::new(input);
    for record in &mut reader {
        let record = record?;
        known |= !matches!(record, Record::Other(_));
        let answer = receiver.answer(&record);
        history.note(&record, &answer, receiver.core());
        each(&history);
    }
    history.cut = reader.cut();
    history.sha256 = reader.sha256();
    match (history.records, history.cut) {
        (0, None) => Err(Trouble::Empty),
        (0, Some(cut)) if is_kind(cut.kind) => Err(Trouble::NoWholeRecord(cut)),
        _ if !known => Err(Trouble::NotARecording),
        _ if history.runs.is_empty() => Err(Trouble::NoStart),
        _ => Ok(history),
    }
}
