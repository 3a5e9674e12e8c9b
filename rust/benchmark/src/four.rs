//! Whether four satellites have a recent authentic set, asked of cores on which the answer takes more or less.

use osnma::regions::Regions;
use std::hint::black_box;

/// Sub-frames within which a tag is recent.
const LIMIT: u32 = 20;

/// Where the sets are, and how old: all have the limit's age or are one sub-frame older.
pub const QUESTIONS: [&str; 4] = ["E01 to E04", "E33 to E36", "three of 36 sets", "no set"];

/// A core for one of the questions, and its answer.
pub fn core(question: &str, limit: u32) -> Option<(Box<Regions>, u8)> {
    let mut core = Box::new(Regions::zeroed());
    let now = 1000 << 20 | 36_000;
    // A stamp is a GST_SF plus 1.
    let recent = now - 30 * limit + 1;
    core.clocks[0] = now + 1;
    match question {
        "E01 to E04" => core.arrivals[..4].fill(recent),
        "E33 to E36" => core.arrivals[32..36].fill(recent),
        "three of 36 sets" => {
            core.arrivals[..36].fill(recent - 30);
            core.arrivals[..3].fill(recent);
        }
        "no set" => {}
        _ => return None,
    }
    Some((core, question.starts_with('E').into()))
}

/// Asks a question so many times.
pub fn ask(question: &str, turns: u64) -> Option<Result<(), String>> {
    let (core, right) = core(question, LIMIT)?;
    for _ in 0..turns {
        let mut yes = 77;
        let number = core.view().four(black_box(LIMIT), &mut yes);
        if (number, yes) != (0, right) {
            return Some(Err(format!("{question}: {number} and {yes}, not {right}")));
        }
    }
    Some(Ok(()))
}
