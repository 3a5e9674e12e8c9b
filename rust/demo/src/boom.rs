//! What the boom's valves did in a recorded half hour: the proved gate (libvalve_gate.a) beside the proved core, and the second
//! receiver's gate beside the second receiver. Each is shown every answer and decides at the end of each half minute.

use crate::half_hour::{gst, require};
use crate::proved;
use osnma::Core;
use second_receiver::receiver::RECORDS_LEN;
use second_receiver::replay::answer;
use second_receiver::times::Gst;
use second_receiver::{valves, Receiver};
use signal::replay::{Run, RECORD};

/// Kinds of record (01, The replay program).
const START: u8 = 1;
const SUBFRAMES: [u8; 2] = [3, 6];

/// Seconds of a half minute.
const HALF_MINUTE: u64 = 30;

/// Both gates with what their cores answer.
struct Gates {
    proved: valve_gate::Gate,
    second: valves::Gate,
    receiver: Receiver,
    area: [u8; RECORDS_LEN],
}

impl Gates {
    fn begin() -> Gates {
        Gates {
            proved: valve_gate::Gate::new(),
            second: valves::Gate::begin(),
            receiver: Receiver::new(),
            area: [0; RECORDS_LEN],
        }
    }

    /// Shows each gate what its core answered to a record; the proved core's numbers are given.
    fn show(&mut self, record: &[u8], (first, second): (u32, u32)) -> Result<(), String> {
        let bytes = record.try_into().map_err(|_| "a record is short")?;
        let other = answer(&mut self.receiver, bytes, &mut self.area);
        let (other_first, other_second) = (other.hkroot.into(), other.mack.into());
        match record[0] {
            START => {
                self.proved.started_number(first);
                self.second.started(other_first);
            }
            kind if SUBFRAMES.contains(&kind) => {
                self.proved.subframe_numbers(first, second);
                self.second.subframe(other_first, other_second);
            }
            _ => {
                self.proved.answered_number(first);
                self.second.answered(other_first);
            }
        }
        Ok(())
    }

    /// The end of a half minute, after so many in which nothing came: whether centre and outer valves are free. Both gates must
    /// say the same of all 48.
    fn decide(&mut self, core: &Core, silence: u32) -> Result<[bool; 2], String> {
        let free = self.proved.decide_silent(core, silence);
        let met = |age: u32| {
            age.checked_sub(silence)
                .is_some_and(|left| self.receiver.four(left))
        };
        let (met20, met10) = (met(valves::CENTRE_AGE), met(valves::OUTER_AGE));
        require(free.bits() == self.second.decide(met20, met10), || {
            "the proved gate and the second receiver's free different valves".into()
        })?;
        Ok([free.centre(), free.outer()])
    }
}

/// What the valves were, a line for each change, and for how many half minutes they were free.
pub fn told(run: &Run, clock: impl Fn(Gst) -> String) -> Result<Vec<String>, String> {
    followed(run, Gates::begin(), clock)
}

fn followed(
    run: &Run,
    mut gates: Gates,
    clock: impl Fn(Gst) -> String,
) -> Result<Vec<String>, String> {
    let mut next = run.bytes.chunks_exact(RECORD).skip(1);
    let (mut now, mut before) = (None, None);
    let (mut lines, mut free, mut all) = (Vec::new(), [0; 2], 0);
    proved::followed(&run.bytes, |record, core, numbers| {
        gates.show(record, numbers)?;
        let is_subframe = |r: &&[u8]| SUBFRAMES.contains(&r[0]);
        if is_subframe(&record) {
            now = Some(gst(&record[2..6]));
        }
        let next = next.next();
        let later = next.filter(is_subframe).map(|r| gst(&r[2..6]));
        let Some(at) = now.filter(|now| next.is_none() || later.is_some_and(|later| later > *now))
        else {
            return Ok(());
        };
        // Where nothing comes for a while the boom decides on, and marks get older.
        let until = later.map_or(at.seconds() + HALF_MINUTE, |later| later.seconds());
        for seconds in (at.seconds()..until).step_by(HALF_MINUTE as usize) {
            let silence = (seconds - at.seconds()) / HALF_MINUTE;
            let valves = gates.decide(core, silence as u32)?;
            if before.replace(valves) != Some(valves) {
                let [centre, outer] = valves.map(|free| if free { "free" } else { "closed" });
                let at = clock(Gst::from_seconds(seconds));
                lines.push(format!(
                    "{at}   centre valves {centre:<7} outer valves {outer}"
                ));
            }
            (0..2).for_each(|n| free[n] += u32::from(valves[n]));
            all += 1;
        }
        Ok(())
    })?;
    lines.push(format!(
        "Free in {} (centre) and {} (outer) of {all} half minutes.",
        free[0], free[1]
    ));
    Ok(lines)
}

#[cfg(test)]
mod tests {
    use super::*;
    use signal::scenario::{find, SEED};

    fn told_of(run: &Run) -> Vec<String> {
        told(run, |at| (at.seconds() % 86_400 / HALF_MINUTE).to_string()).unwrap()
    }

    #[test]
    fn fitter() {
        let run = find("fitter").unwrap().run(SEED);
        let right = [
            "0   centre valves closed  outer valves closed",
            "2   centre valves free    outer valves free",
            "Free in 58 (centre) and 58 (outer) of 60 half minutes.",
        ];
        assert_eq!(told_of(&run), right);
    }

    // No section is judged from the ninth minute to the 19th: the outer valves close five minutes after the last mark, the
    // centre ones ten, and these stay closed for two further decisions.
    #[test]
    fn no_sections() {
        let mut run = find("fitter").unwrap().run(SEED);
        for r in run.bytes.chunks_exact_mut(RECORD) {
            let number = gst(&r[2..6]).seconds() % 86_400 / HALF_MINUTE;
            if r[0] == SUBFRAMES[0] && (16..37).contains(&number) {
                r[6..81].fill(0);
            }
        }
        let right = [
            "0   centre valves closed  outer valves closed",
            "2   centre valves free    outer valves free",
            "26   centre valves free    outer valves closed",
            "36   centre valves closed  outer valves closed",
            "37   centre valves closed  outer valves free",
            "39   centre valves free    outer valves free",
            "Free in 55 (centre) and 47 (outer) of 60 half minutes.",
        ];
        assert_eq!(told_of(&run), right);
    }

    // Nothing comes in those half minutes: the boom decides on.
    #[test]
    fn silence() {
        let mut run = find("fitter").unwrap().run(SEED);
        let kept = run.bytes.chunks_exact(RECORD).filter(|r| {
            let number = gst(&r[2..6]).seconds() % 86_400 / HALF_MINUTE;
            ![2, 3].contains(&r[0]) || !(16..37).contains(&number)
        });
        run.bytes = kept.flatten().copied().collect();
        let right = [
            "0   centre valves closed  outer valves closed",
            "2   centre valves free    outer valves free",
            "26   centre valves free    outer valves closed",
            "36   centre valves closed  outer valves closed",
            "37   centre valves closed  outer valves free",
            "39   centre valves free    outer valves free",
            "Free in 55 (centre) and 47 (outer) of 60 half minutes.",
        ];
        assert_eq!(told_of(&run), right);
    }

    // One of the two gates has valves that were free before: the first decision closes them, and they stay closed.
    #[test]
    fn other_gates() {
        let run = find("fitter").unwrap().run(SEED);
        let mut gates = Gates::begin();
        gates.second = valves::Gate::of_bytes(&[3; valves::BYTES]);
        let told = followed(&run, gates, |_| String::new());
        let right = "the proved gate and the second receiver's free different valves";
        assert_eq!(told, Err(right.into()));
    }

    // A stop closes all; a start does not free them.
    #[test]
    fn stopped() {
        let lines = told_of(&find("four_starts").unwrap().run(SEED));
        assert!(lines.len() > 4, "{lines:?}");
        told_of(&find("four_stopped").unwrap().run(SEED));
    }
}
