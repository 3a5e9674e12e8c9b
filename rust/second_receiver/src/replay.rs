//! The replay program: 256-byte records in, lines out (01, "The replay program"). Kind 6 is a
//! sub-frame with its marks (02, P3).

use crate::navdata::SET_LEN;
use crate::numbers::{Number, ACCEPTED, OUT_OF_RANGE, WRONG_LENGTH};
use crate::public_keys::{key_len, MAX_KEY_LEN};
use crate::received::Received;
use crate::receiver::{Receiver, SubframeAnswer, RECORDS_LEN};
use crate::tags::RECORD_LEN;
use crate::times::SATELLITES;
use crate::verdict::{MESSAGE_LEN, SIGNATURE_LEN};
use std::io::{self, Read, Write};

pub const INPUT_LEN: usize = 256;

/// Upper-case hexadecimal.
fn hex(bytes: &[u8]) -> String {
    bytes.iter().map(|byte| format!("{byte:02X}")).collect()
}

/// Reads up to a whole record; fewer bytes only at the end of the input.
fn read_record(input: &mut impl Read, record: &mut [u8; INPUT_LEN]) -> io::Result<usize> {
    let mut len = 0;
    while len < INPUT_LEN {
        match input.read(&mut record[len..]) {
            Ok(0) => break,
            Ok(n) => len += n,
            Err(error) if error.kind() == io::ErrorKind::Interrupted => {}
            Err(error) => return Err(error),
        }
    }
    Ok(len)
}

fn gst(bytes: &[u8]) -> u32 {
    bytes
        .iter()
        .fold(0, |gst, &byte| gst << 8 | u32::from(byte))
}

/// Answers one whole record; a second number other than 0 is a sub-frame's alone.
pub fn answer(
    receiver: &mut Receiver,
    record: &[u8; INPUT_LEN],
    area: &mut [u8],
) -> SubframeAnswer {
    let one = |hkroot: Number| SubframeAnswer {
        hkroot,
        mack: ACCEPTED,
        records: 0,
    };
    let r = record;
    match r[0] {
        1 => one(receiver.start(
            r[1],
            r[2],
            r[3],
            r[4],
            &r[5..19],
            &r[19..33],
            &r[33..65],
            &r[65..132],
        )),
        2 => one(receiver.word(r[1], gst(&r[2..6]), &r[6..22])),
        3 => receiver.subframe(r[1], gst(&r[2..6]), &r[6..81], area),
        4 => one(receiver.verdict(r[1], r[2], &r[3..48], &r[48..180])),
        6 => {
            let received = Received(u16::from_be_bytes([r[81], r[82]]));
            receiver.subframe_received(r[1], gst(&r[2..6]), received, &r[6..81], area)
        }
        _ => one(OUT_OF_RANGE),
    }
}

/// Replays `input` and writes a line a record, then a line for each of its tag records. Gives the
/// receiver as the last record left it.
pub fn replay(mut input: impl Read, mut output: impl Write) -> io::Result<Receiver> {
    let mut receiver = Receiver::new();
    let mut record = [0; INPUT_LEN];
    let mut area = [0; RECORDS_LEN];
    for place in 1u64.. {
        let len = read_record(&mut input, &mut record)?;
        if len == 0 {
            break;
        }
        let answer = if len < INPUT_LEN {
            SubframeAnswer {
                hkroot: WRONG_LENGTH,
                mack: ACCEPTED,
                records: 0,
            }
        } else {
            answer(&mut receiver, &record, &mut area)
        };
        writeln!(
            output,
            "{place} {} {} {}",
            answer.hkroot, answer.mack, answer.records
        )?;
        for tag_record in area.chunks_exact(RECORD_LEN).take(answer.records) {
            writeln!(output, "{}", hex(tag_record))?;
        }
    }
    output.flush()?;
    Ok(receiver)
}

/// Writes what no read gives: `C PRN TOTAL SET IODnav GST_SF` for each candidate, by PRN, with the
/// GST_SF of its latest tag.
pub fn write_candidates(receiver: &Receiver, mut output: impl Write) -> io::Result<()> {
    for prn in 1..=SATELLITES as u8 {
        if let Some(candidate) = receiver.candidate(prn) {
            writeln!(
                output,
                "C {prn} {} {} {} {:08X}",
                candidate.total(),
                hex(&candidate.set.0),
                candidate.set.iodnav(),
                candidate.latest().0
            )?;
        }
    }
    output.flush()
}

/// Writes `F LIMIT`, the least limit with which four satellites have a recent authentic set, or `F -` where no limit is
/// enough.
pub fn write_four(receiver: &Receiver, mut output: impl Write) -> io::Result<()> {
    match receiver.least_limit() {
        Some(limit) => writeln!(output, "F {limit}")?,
        None => writeln!(output, "F -")?,
    }
    output.flush()
}

/// Writes `D`, then for each DSM ID in order `HELD/MISSING`, the blocks held and those still missing, `?` where the total is
/// unknown.
pub fn write_progress(receiver: &Receiver, mut output: impl Write) -> io::Result<()> {
    write!(output, "D")?;
    for message in receiver.progress() {
        match message.missing {
            Some(missing) => write!(output, " {}/{missing}", message.held)?,
            None => write!(output, " {}/?", message.held)?,
        }
    }
    writeln!(output)?;
    output.flush()
}

/// Writes what every read gives: `A PRN 0 SET IODnav GST_SF` or `A PRN 16` for PRN 1 to 36, then
/// `W 0 KEYID MESSAGE SIGNATURE TYPE KEY` or `W 14`; `no start` alone before an accepted start.
pub fn write_reads(receiver: &Receiver, mut output: impl Write) -> io::Result<()> {
    if !receiver.is_started() {
        writeln!(output, "no start")?;
        return output.flush();
    }
    for prn in 1..=SATELLITES as u8 {
        let mut set = [0; SET_LEN];
        let answer = receiver.read_set(prn, &mut set);
        match answer.number {
            ACCEPTED => writeln!(
                output,
                "A {prn} 0 {} {} {:08X}",
                hex(&set),
                answer.iodnav,
                answer.time
            )?,
            number => writeln!(output, "A {prn} {number}")?,
        }
    }
    let (mut message, mut signature, mut key) =
        ([0; MESSAGE_LEN], [0; SIGNATURE_LEN], [0; MAX_KEY_LEN]);
    let answer = receiver.read_waiting(&mut message, &mut signature, &mut key);
    match (answer.number, key_len(answer.key_type)) {
        (ACCEPTED, Some(len)) => writeln!(
            output,
            "W 0 {} {} {} {} {}",
            answer.key_id,
            hex(&message),
            hex(&signature),
            answer.key_type,
            hex(&key[..len])
        )?,
        (number, _) => writeln!(output, "W {number}")?,
    }
    output.flush()
}
