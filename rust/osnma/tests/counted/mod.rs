//! How often a function of this program is called by some work. The work is done in a child process, which a breakpoint stops
//! wherever the function begins (ptrace(2)).

use crate::elf::{number, symbols};
use std::ffi::{c_int, c_long};
use std::fs;
use std::io::Error;
use std::panic::{catch_unwind, AssertUnwindSafe};

extern "C" {
    fn fork() -> c_int;
    fn _exit(status: c_int) -> !;
    fn raise(signal: c_int) -> c_int;
    fn waitpid(child: c_int, status: *mut c_int, options: c_int) -> c_int;
    fn ptrace(request: c_int, ...) -> c_long;
}

// Of <sys/ptrace.h> and <signal.h>.
const TRACE_ME: c_int = 0;
const PEEK_USER: c_int = 3;
const POKE_TEXT: c_int = 4;
const POKE_USER: c_int = 6;
const CONTINUE: c_int = 7;
const SINGLE_STEP: c_int = 9;
const SET_OPTIONS: c_int = 0x4200;
/// The child ends with its parent.
const EXIT_KILL: usize = 0x0010_0000;
const SIGTRAP: c_int = 5;
const SIGSTOP: c_int = 19;
/// Where `struct user` has the address of the next instruction.
const RIP: usize = 128;
/// The one byte of a breakpoint.
const INT3: u64 = 0xCC;

/// What the child's end says.
const DONE: c_int = 0;
const FAILED: c_int = 1;
const NOT_TRACED: c_int = 2;

/// Where a function of this program is loaded, by its name in the table of symbols.
fn address_of(name: &str) -> usize {
    let path = fs::read_link("/proc/self/exe").expect("this program");
    let program = fs::read(&path).expect("this program");
    let symbols = symbols(&program);
    let mut found = symbols.iter().filter(|symbol| symbol.name == name);
    let (Some(symbol), None) = (found.next(), found.next()) else {
        panic!("not one {name} in {}", path.display());
    };
    // A program of type 3 may be loaded anywhere.
    if number(&program, 0x10, 2) != 3 {
        return symbol.value;
    }
    let maps = fs::read_to_string("/proc/self/maps").expect("what is loaded");
    let here = path.display().to_string();
    let mut lines = maps.lines().filter(|line| line.ends_with(&here));
    let (base, _) = lines
        .next()
        .and_then(|line| line.split_once('-'))
        .expect("a line");
    usize::from_str_radix(base, 16).expect("an address") + symbol.value
}

/// What a child that waits is told, or an error.
fn told(child: c_int, request: c_int, address: usize, data: usize) -> c_long {
    // SAFETY: these requests read and write the child's memory and registers alone.
    let answer = unsafe { ptrace(request, child, address, data) };
    assert_ne!(answer, -1, "ptrace {request}: {}", Error::last_os_error());
    answer
}

/// How a child goes on: it stopped by a signal, or ended.
#[derive(Debug, PartialEq, Eq)]
enum Went {
    Stopped(c_int),
    Ended(c_int),
    Killed(c_int),
}

fn waited(child: c_int) -> Went {
    let mut status = 0;
    // SAFETY: `status` is a number to write.
    let answer = unsafe { waitpid(child, &mut status, 0) };
    assert_eq!(answer, child, "waitpid: {}", Error::last_os_error());
    match (status & 0x7F, status >> 8 & 0xFF) {
        (0, code) => Went::Ended(code),
        (0x7F, signal) => Went::Stopped(signal),
        (signal, _) => Went::Killed(signal),
    }
}

/// The child's side.
fn child(work: impl FnOnce() -> bool) -> ! {
    // SAFETY: the child has this thread alone. What it does is the work, on memory that is its own.
    unsafe {
        if ptrace(TRACE_ME, 0, 0usize, 0usize) == -1 {
            _exit(NOT_TRACED);
        }
        raise(SIGSTOP);
        let done = catch_unwind(AssertUnwindSafe(work)).unwrap_or(false);
        _exit(if done { DONE } else { FAILED })
    }
}

/// How often the work calls this function; it says whether all was as it must be. None where this machine lets no process
/// trace its child.
pub fn calls_of(function: &str, work: impl FnOnce() -> bool) -> Option<u64> {
    let address = address_of(function);
    // SAFETY: the function stands there, and is longer than eight bytes.
    let code = unsafe { (address as *const u64).read_unaligned() };
    let broken = code & !0xFF | INT3;
    // SAFETY: the child does no more than `child` says.
    let pid = match unsafe { fork() } {
        0 => child(work),
        pid => pid,
    };
    assert_ne!(pid, -1, "fork: {}", Error::last_os_error());
    match waited(pid) {
        Went::Ended(NOT_TRACED) => return None,
        went => assert_eq!(went, Went::Stopped(SIGSTOP)),
    }
    told(pid, SET_OPTIONS, 0, EXIT_KILL);
    told(pid, POKE_TEXT, address, broken as usize);
    told(pid, CONTINUE, 0, 0);
    let mut calls = 0;
    loop {
        match waited(pid) {
            Went::Stopped(SIGTRAP) => {}
            went => {
                assert_eq!(went, Went::Ended(DONE), "the work in the child");
                return Some(calls);
            }
        }
        assert_eq!(told(pid, PEEK_USER, RIP, 0) as usize, address + 1);
        calls += 1;
        // Over the function's first instruction as it is.
        told(pid, POKE_TEXT, address, code as usize);
        told(pid, POKE_USER, RIP, address);
        told(pid, SINGLE_STEP, 0, 0);
        assert_eq!(waited(pid), Went::Stopped(SIGTRAP));
        told(pid, POKE_TEXT, address, broken as usize);
        told(pid, CONTINUE, 0, 0);
    }
}
