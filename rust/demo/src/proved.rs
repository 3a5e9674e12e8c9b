//! The proved core (libosnma.a) on a recorded run: the lines that 01's replay program prints, and the
//! core after them.

use osnma::{Core, Gst, Marks, Refusal, Settings, NO_RECORDS, RECORD_LEN};
use std::fmt::Write;

/// Bytes of a record of the run.
const RECORD: usize = 256;

/// The N bytes of a record from a place on.
fn bytes<const N: usize>(record: &[u8], at: usize) -> Result<[u8; N], String> {
    record
        .get(at..at + N)
        .and_then(|part| part.try_into().ok())
        .ok_or_else(|| "a record is short".into())
}

fn gst(record: &[u8]) -> Result<Gst, String> {
    Ok(Gst::from_bits(u32::from_be_bytes(bytes(record, 2)?)))
}

fn number(answer: Result<(), Refusal>) -> u32 {
    answer.err().map_or(0, Refusal::number)
}

fn settings(record: &[u8]) -> Result<Settings, String> {
    Ok(Settings {
        ns: record[1],
        key_id: record[2],
        key_type: record[3],
        maclt: record[4],
        marks: [bytes(record, 5)?, bytes(record, 19)?],
        tree_root: bytes(record, 33)?,
        key: bytes(record, 65)?,
    })
}

/// The core after the whole records of a run that begins with an accepted start, and its lines.
pub fn replayed(run: &[u8]) -> Result<(Core, String), String> {
    followed(run, |_, _, _| Ok(()))
}

/// The same; `each` is shown every record, the core after it, and its two numbers.
pub fn followed(
    run: &[u8],
    mut each: impl FnMut(&[u8], &Core, (u32, u32)) -> Result<(), String>,
) -> Result<(Core, String), String> {
    let mut core = Core::new();
    let mut area = NO_RECORDS;
    let mut lines = String::new();
    for (place, r) in run.chunks_exact(RECORD).enumerate() {
        let (first, second, count) = match r[0] {
            1 => (number(core.start(&settings(r)?)), 0, 0),
            2 => (number(core.word(r[1], gst(r)?, &bytes(r, 6)?)), 0, 0),
            3 | 6 => {
                let fields = bytes(r, 6)?;
                let marks = match r[0] {
                    6 => Marks::from_bits(u16::from_be_bytes(bytes(r, 81)?)),
                    _ => Marks::ALL,
                };
                let answer = core.subframe_marked(r[1], gst(r)?, marks, &fields, &mut area);
                (
                    number(answer.hkroot),
                    number(answer.mack),
                    answer.tags.len(),
                )
            }
            4 => {
                let verdict = core.verdict(r[1] == 1, r[2], &bytes(r, 3)?, &bytes(r, 48)?);
                (number(verdict), 0, 0)
            }
            kind => return Err(format!("record {} is of kind {kind}", place + 1)),
        };
        let text = "a line cannot be written";
        writeln!(lines, "{} {first} {second} {count}", place + 1).map_err(|_| text)?;
        for record in area.chunks_exact(RECORD_LEN).take(count) {
            for byte in record {
                write!(lines, "{byte:02X}").map_err(|_| text)?;
            }
            lines.push('\n');
        }
        each(r, &core, (first, second))?;
    }
    Ok((core, lines))
}
