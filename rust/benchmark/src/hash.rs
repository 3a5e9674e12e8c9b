//! SHA-256, HMAC and SHA3. Each row is a chain of the same work from the same input, so that the results
//! of all contenders can be compared and nothing can be left out.
//!
//! - `hash rows`: the rows
//! - `hash names [ROW]`: the contenders found when this was built, or those of them that have this row
//! - `hash time SLICES TURNS`: times as ratios
//! - `hash count ROW CONTENDER TURNS`: the work alone, to be counted by callgrind
//! - `hash stack`: the deepest stack of each export
//!
//! Results of all contenders are compared before anything is measured.

use crate::sponge::{add, digest, end, State};
use crate::stack;
use crate::time::{by_turns, timed, Work};
use leaves::{hash, raw};
use std::hint::black_box;

pub const USAGE: &str =
    "hash rows | names [ROW] | time SLICES TURNS | count ROW CONTENDER TURNS | stack";

/// One kind of work.
#[derive(Clone, Copy, Debug, PartialEq, Eq)]
pub enum Row {
    /// One block into a hash value.
    Block,
    /// HMAC of 76 bytes under a key of 16 bytes that is new each time.
    TagNewKey,
    /// HMAC of 76 bytes under one key, kept.
    TagKeptKey,
    /// One block of 136 bytes into the state of SHA3-256: 17 lanes added, and the permutation.
    Sha3Block,
}

impl Row {
    pub const ALL: [Row; 4] = [Row::Block, Row::TagNewKey, Row::TagKeptKey, Row::Sha3Block];

    pub fn name(self) -> &'static str {
        match self {
            Row::Block => "block",
            Row::TagNewKey => "tag-new-key",
            Row::TagKeptKey => "tag-kept-key",
            Row::Sha3Block => "sha3-block",
        }
    }

    fn of(name: &str) -> Option<Row> {
        Row::ALL.into_iter().find(|row| row.name() == name)
    }
}

/// Somebody's SHA-256, HMAC and SHA3: `run` does a row's work so many times and gives the last result; none
/// where it does not have the row.
#[derive(Clone, Copy)]
pub struct Contender {
    pub name: &'static str,
    pub run: fn(Row, u64) -> Option<[u8; 32]>,
}

/// FIPS 180-4, 5.3.3.
pub const INITIAL: [u32; 8] = portable_hash::INITIAL;

/// The block of every compression.
pub static BLOCK: [u8; 64] = counting(1);

/// The block of every permutation.
pub static SHA3_BLOCK: [u8; 136] = counting(1);

/// The key that is kept, and the first of the new ones: 16 bytes, as of a chain of KS 128.
pub static KEY: [u8; 16] = counting(101);

/// The first message: 76 bytes, as of a tag other than tag0 (000, 5.5).
const MESSAGE: [u8; 76] = counting(151);

const fn counting<const N: usize>(first: u8) -> [u8; N] {
    let mut bytes = [0; N];
    let mut i = 0;
    while i < N {
        bytes[i] = first.wrapping_add(i as u8);
        i += 1;
    }
    bytes
}

/// A hash value as a digest.
pub fn words_to_bytes(words: &[u32; 8]) -> [u8; 32] {
    let mut out = [0; 32];
    for (bytes, word) in out.chunks_exact_mut(4).zip(words) {
        bytes.copy_from_slice(&word.to_be_bytes());
    }
    out
}

/// Each code gives the next key.
pub fn tags_new(n: u64, mut mac: impl FnMut(&[u8], &[u8]) -> [u8; 32]) -> [u8; 32] {
    let (mut key, mut last) = (KEY, [0; 32]);
    for _ in 0..n {
        last = mac(&key, &MESSAGE);
        key.copy_from_slice(&last[..16]);
    }
    last
}

/// Each code begins the next message.
pub fn tags_kept(n: u64, mut mac: impl FnMut(&[u8]) -> [u8; 32]) -> [u8; 32] {
    let (mut message, mut last) = (MESSAGE, [0; 32]);
    for _ in 0..n {
        last = mac(&message);
        message[..32].copy_from_slice(&last);
    }
    last
}

/// SHA3-256 of `n` blocks and the padding, which is one more.
fn sha3_blocks(n: u64, permute: impl Fn(&mut State)) -> [u8; 32] {
    let mut state = [0; 25];
    for _ in 0..n {
        add(&mut state, &SHA3_BLOCK);
        permute(&mut state);
    }
    add(&mut state, &[6, 0, 0, 0, 0, 0, 0, 0]);
    end(&mut state, SHA3_BLOCK.len());
    permute(&mut state);
    digest(&state)
}

/// The proved library.
pub const PROVED: Contender = Contender {
    name: "proved",
    run: |row, n| {
        Some(match row {
            Row::Block => {
                let mut h = INITIAL;
                for _ in 0..n {
                    hash::compress(&mut h, &BLOCK);
                }
                words_to_bytes(&h)
            }
            Row::TagNewKey => tags_new(n, |key, m| hash::hmac(key, m).unwrap_or_default()),
            Row::TagKeptKey => hash::HmacKey::new(&KEY).map_or([0; 32], |kept| {
                tags_kept(n, |m| kept.mac(m).unwrap_or_default())
            }),
            Row::Sha3Block => sha3_blocks(n, hash::keccak),
        })
    },
};

/// The best portable Rust.
pub const PORTABLE: Contender = Contender {
    name: "portable",
    run: |row, n| {
        Some(match row {
            Row::Block => {
                let mut h = INITIAL;
                for _ in 0..n {
                    portable_hash::compress(&mut h, &BLOCK);
                }
                words_to_bytes(&h)
            }
            Row::TagNewKey => tags_new(n, portable_hash::hmac_sha256),
            Row::TagKeptKey => {
                let kept = portable_hash::HmacKey::new(&KEY);
                tags_kept(n, |m| kept.mac(m))
            }
            Row::Sha3Block => sha3_blocks(n, portable_hash::keccak_f),
        })
    },
};

/// All that were found when this was built; the proved library first.
pub const CONTENDERS: &[Contender] = &[
    PROVED,
    PORTABLE,
    #[cfg(has_openssl)]
    crate::openssl::OPENSSL,
    #[cfg(has_bearssl)]
    crate::bearssl::BEARSSL,
];

/// Those that have the row.
fn contenders(row: Row) -> impl Iterator<Item = &'static Contender> {
    CONTENDERS.iter().filter(move |c| (c.run)(row, 0).is_some())
}

/// Compares the results of all contenders in every row.
pub fn compare() -> Result<(), String> {
    for row in Row::ALL {
        for n in [1, 2, 50] {
            let right = (PORTABLE.run)(row, n);
            for contender in contenders(row) {
                if (contender.run)(row, n) != right {
                    return Err(format!("{} differs in {}", contender.name, row.name()));
                }
            }
        }
    }
    Ok(())
}

/// Prints a Markdown table: for each row and contender the best slice, the median of the slices'
/// ratios and the ratio of the best slices.
fn times(slices: usize, turns: u64) {
    println!("| Work | Contender | ns, best slice | proved / contender, median | proved / contender, best slices |");
    println!("|---|---|---|---|---|");
    for row in Row::ALL {
        let work = |contender: &Contender| -> Work<'_> {
            let run = contender.run;
            Box::new(move || {
                timed(|| {
                    black_box(run(row, black_box(turns)));
                })
            })
        };
        let mut all: Vec<Work<'_>> = contenders(row).map(work).collect();
        for (contender, told) in contenders(row).zip(by_turns(slices, &mut all)) {
            println!(
                "| {} | {} | {:.0} | {:.2} | {:.2} |",
                row.name(),
                contender.name,
                told.best * 1e9 / turns as f64,
                told.median,
                told.best_ratio
            );
        }
    }
}

/// Prints a Markdown table of the exports' stack over messages of 0 to 200 bytes and keys of 0 to 130.
fn stacks() {
    let bytes = [7u8; 256];
    let mut state = [7u32; 16];
    let mut lanes: State = [7; 25];
    let mut out = [0u8; 32];
    let (p, o) = (bytes.as_ptr() as usize, out.as_mut_ptr() as usize);
    let (s, l) = (state.as_mut_ptr() as usize, lanes.as_mut_ptr() as usize);
    type Arguments<'a> = &'a dyn Fn(usize, usize) -> [usize; 6];
    let exports: [(&str, *const (), Arguments<'_>); 9] = [
        (
            "osnma_compress",
            raw::osnma_compress as *const (),
            &|_, _| [s, p, 0, 0, 0, 0],
        ),
        ("osnma_sha256", raw::osnma_sha256 as *const (), &|_, m| {
            [p, m, o, 32, 0, 0]
        }),
        (
            "osnma_sha256_of_two",
            raw::osnma_sha256_of_two as *const (),
            &|k, m| [p, k, p, m, o, 32],
        ),
        ("osnma_hmac", raw::osnma_hmac as *const (), &|k, m| {
            [p, k, p, m, o, 32]
        }),
        (
            "osnma_hmac_key",
            raw::osnma_hmac_key as *const (),
            &|k, _| [p, k, s, 16, 0, 0],
        ),
        (
            "osnma_hmac_with",
            raw::osnma_hmac_with as *const (),
            &|_, m| [s, 16, p, m, o, 32],
        ),
        ("osnma_keccak", raw::osnma_keccak as *const (), &|_, _| {
            [l, 0, 0, 0, 0, 0]
        }),
        (
            "osnma_sha3_224",
            raw::osnma_sha3_224 as *const (),
            &|_, m| [p, m, o, 28, 0, 0],
        ),
        (
            "osnma_sha3_256",
            raw::osnma_sha3_256 as *const (),
            &|_, m| [p, m, o, 32, 0, 0],
        ),
    ];
    println!("| Export | Stack, bytes |");
    println!("|---|---|");
    for (name, function, arguments) in exports {
        let mut deepest = 0;
        for key in [0, 16, 64, 65, 130] {
            for message in 0..=200 {
                // SAFETY: pointers are of live arrays that have the lengths given, and the export
                // takes these arguments.
                let depth = unsafe { stack::of_function(function, arguments(key, message)) };
                deepest = deepest.max(depth);
            }
        }
        println!("| `{name}` | {deepest} |");
    }
}

pub fn command(words: &[&str]) -> Option<Result<(), String>> {
    match words {
        ["rows"] => {
            for row in Row::ALL {
                println!("{}", row.name());
            }
            Some(Ok(()))
        }
        ["names"] => {
            for contender in CONTENDERS {
                println!("{}", contender.name);
            }
            Some(Ok(()))
        }
        ["names", row] => {
            for contender in contenders(Row::of(row)?) {
                println!("{}", contender.name);
            }
            Some(Ok(()))
        }
        ["time", slices, turns] => {
            let (slices, turns) = (slices.parse().ok()?, turns.parse().ok()?);
            Some(compare().map(|()| times(slices, u64::max(turns, 1))))
        }
        ["count", row, contender, turns] => {
            let row = Row::of(row)?;
            let contender = contenders(row).find(|c| c.name == *contender)?;
            let turns = turns.parse().ok()?;
            Some(compare().map(|()| println!("{:02x?}", (contender.run)(row, turns))))
        }
        ["stack"] => Some(compare().map(|()| stacks())),
        _ => None,
    }
}

#[cfg(test)]
mod tests {
    use super::*;

    #[test]
    fn results_agree() {
        assert_eq!(compare(), Ok(()));
    }
}
