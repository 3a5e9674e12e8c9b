//! Measurements of the proved code, beside others. `rust/benchmark/run` uses it and prints a report; what
//! each command does is said in its module.

#[cfg(has_bearssl)]
mod bearssl;
#[cfg(has_bearssl)]
mod bearssl_mac;
mod call_stacks;
mod calls;
mod chain;
mod four;
mod gate;
mod hash;
mod mac;
#[cfg(has_openssl)]
mod openssl;
#[cfg(has_openssl)]
mod openssl_mac;
mod progress;
mod replay;
mod set;
mod sky;
mod sponge;
mod stack;
mod tag;
mod time;

use std::process::ExitCode;

fn command(words: &[&str]) -> Option<Result<(), String>> {
    match words {
        ["hash", rest @ ..] => hash::command(rest),
        ["mac", rest @ ..] => mac::command(rest),
        ["chain", rest @ ..] => chain::command(rest),
        ["tag", rest @ ..] => tag::command(rest),
        ["set", rest @ ..] => set::command(rest),
        ["calls", rest @ ..] => calls::command(rest),
        ["gate", rest @ ..] => gate::command(rest),
        ["replay", rest @ ..] => replay::command(rest),
        _ => None,
    }
}

fn main() -> ExitCode {
    let arguments: Vec<String> = std::env::args().skip(1).collect();
    let words: Vec<&str> = arguments.iter().map(String::as_str).collect();
    match command(&words) {
        Some(Ok(())) => ExitCode::SUCCESS,
        Some(Err(text)) => {
            eprintln!("benchmark: {text}");
            ExitCode::FAILURE
        }
        None => {
            for usage in [
                hash::USAGE,
                mac::USAGE,
                chain::USAGE,
                tag::USAGE,
                set::USAGE,
                calls::USAGE,
                gate::USAGE,
                replay::USAGE,
            ] {
                eprintln!("benchmark {usage}");
            }
            ExitCode::from(2)
        }
    }
}
