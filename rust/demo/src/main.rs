//! What `./demo` shows: the proved library at published values, then half an hour of a signal with
//! a repeater in it, replayed by the proved program, the proved core and the second receiver, with the
//! boom's valves beside it, and its job sheet. Fails if anything differs.

#![forbid(unsafe_code)]

mod boom;
mod half_hour;
mod job_sheet;
mod proved;
mod published;

use signal::scenario::{find, SEED};
use std::process::ExitCode;

fn published_values() -> bool {
    println!("1. The proved libraries (libtest_hash.a, libtest_mac.a), at published values");
    println!();
    let mut all = true;
    for check in published::checks() {
        let verdict = if check.ok() { "ok" } else { "FAILED" };
        println!(
            "   {:<46} {:>2} of {:>2}   {verdict}",
            check.what, check.right, check.of
        );
        all &= check.ok();
    }
    println!();
    all
}

fn recorded_half_hour() -> bool {
    println!(
        "2. Half an hour beside a repeater, through the proved replay program (target/bin/replay)"
    );
    println!("   (every line is also the second receiver's, plain Rust, and the proved core's, libosnma.a;");
    println!("   the sets below are read from both, and are equal; the valves are also those that the second receiver's");
    println!("   own gate frees)");
    println!();
    let story = find("fitter")
        .ok_or("no scenario `fitter`".to_string())
        .and_then(|scenario| half_hour::told(&scenario.run(SEED)));
    match story {
        Ok(lines) => {
            for line in lines {
                println!("{}", format!("   {line}").trim_end());
            }
            println!();
            true
        }
        Err(text) => {
            println!("   FAILED: {text}");
            println!();
            false
        }
    }
}

fn sheet_for_the_fitter() -> bool {
    println!("3. The job sheet of that half hour, from the proved core's answers");
    println!();
    let sheet = find("fitter")
        .ok_or("no scenario `fitter`".to_string())
        .and_then(|scenario| job_sheet::written(&scenario.run(SEED).bytes));
    let (lines, well) = match sheet {
        Ok(lines) => (lines, true),
        Err(text) => (vec![format!("FAILED: {text}")], false),
    };
    for line in lines {
        println!("{}", format!("   {line}").trim_end());
    }
    println!();
    well
}

fn main() -> ExitCode {
    let results = [
        published_values(),
        recorded_half_hour(),
        sheet_for_the_fitter(),
    ];
    if results == [true; 3] {
        println!("All as it must be.");
        ExitCode::SUCCESS
    } else {
        println!("FAILED: see above.");
        ExitCode::FAILURE
    }
}
