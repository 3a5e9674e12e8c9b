//! AES and CMAC. Each row is a chain of the same work from the same input, so that the results of all
//! contenders can be compared and nothing can be left out.
//!
//! - `mac names`: the contenders found when this was built
//! - `mac rows`: the rows
//! - `mac time SLICES TURNS`: times as ratios
//! - `mac count ROW CONTENDER TURNS`: the work alone, to be counted by callgrind
//! - `mac stack`: the deepest stack of each export
//!
//! Results of all contenders are compared before anything is measured.

use crate::stack;
use crate::time::{by_turns, timed, Work};
use leaves::{mac, raw};
use std::hint::black_box;

pub const USAGE: &str = "mac names | rows | time SLICES TURNS | count ROW CONTENDER TURNS | stack";

/// One kind of work.
#[derive(Clone, Copy, Debug, PartialEq, Eq)]
pub enum Kind {
    /// One block under a kept key.
    Block,
    /// CMAC of 76 bytes under a key that is new each time.
    TagNewKey,
    /// CMAC of 76 bytes under one key, kept.
    TagKeptKey,
}

/// Work with keys of so many bits.
#[derive(Clone, Copy, Debug, PartialEq, Eq)]
pub struct Row {
    pub kind: Kind,
    pub bits: usize,
}

impl Row {
    pub fn all() -> impl Iterator<Item = Row> {
        let kinds = [Kind::Block, Kind::TagNewKey, Kind::TagKeptKey];
        let rows = |kind| [128, 192, 256].map(|bits| Row { kind, bits });
        kinds.into_iter().flat_map(rows)
    }

    pub fn name(self) -> String {
        let kind = match self.kind {
            Kind::Block => "aes-block",
            Kind::TagNewKey => "cmac-new-key",
            Kind::TagKeptKey => "cmac-kept-key",
        };
        format!("{kind}-{}", self.bits)
    }

    /// The key that is kept, and the first of the new ones.
    pub fn key(self) -> &'static [u8] {
        &KEY[..self.bits / 8]
    }

    /// Each block is the next one's plain text.
    pub fn blocks(self, n: u64, mut encrypt: impl FnMut(&Block) -> Block) -> Block {
        (0..n).fold(BLOCK, |block, _| encrypt(&block))
    }

    /// Each code begins the next key.
    pub fn tags_new(self, n: u64, mut mac: impl FnMut(&[u8], &[u8]) -> Block) -> Block {
        let (mut key, mut last) = (KEY, [0; 16]);
        for _ in 0..n {
            last = mac(&key[..self.bits / 8], &MESSAGE);
            key[..16].copy_from_slice(&last);
        }
        last
    }

    /// Each code begins the next message.
    pub fn tags_kept(self, n: u64, mut mac: impl FnMut(&[u8]) -> Block) -> Block {
        let (mut message, mut last) = (MESSAGE, [0; 16]);
        for _ in 0..n {
            last = mac(&message);
            message[..16].copy_from_slice(&last);
        }
        last
    }
}

pub type Block = [u8; 16];

/// Somebody's AES and CMAC: `run` does a row's work so many times and gives the last result.
#[derive(Clone, Copy)]
pub struct Contender {
    pub name: &'static str,
    pub run: fn(Row, u64) -> Block,
}

static KEY: [u8; 32] = counting(101);
/// The first block.
const BLOCK: Block = counting(1);
/// The first message: 76 bytes, as of a tag other than tag0 (000, 5.5).
const MESSAGE: [u8; 76] = counting(151);

const fn counting<const N: usize>(first: u8) -> [u8; N] {
    let mut bytes = [0; N];
    let mut i = 0;
    while i < N {
        bytes[i] = first.wrapping_add(i as u8);
        i += 1;
    }
    bytes
}

/// The proved library.
pub const PROVED: Contender = Contender {
    name: "proved",
    run: |row, n| match row.kind {
        Kind::Block => mac::AesKey::new(row.key())
            .map_or([0; 16], |key| row.blocks(n, |block| key.encrypt(block))),
        Kind::TagNewKey => row.tags_new(n, |key, m| mac::cmac(key, m).unwrap_or_default()),
        Kind::TagKeptKey => {
            mac::CmacKey::new(row.key()).map_or([0; 16], |kept| row.tags_kept(n, |m| kept.mac(m)))
        }
    },
};

/// The best portable Rust.
pub const PORTABLE: Contender = Contender {
    name: "portable",
    run: |row, n| match row.kind {
        Kind::Block => portable_aes::AesKey::new(row.key())
            .map_or([0; 16], |key| row.blocks(n, |block| key.encrypt(block))),
        Kind::TagNewKey => row.tags_new(n, |key, m| portable_aes::cmac(key, m).unwrap_or_default()),
        Kind::TagKeptKey => portable_aes::CmacKey::new(row.key())
            .map_or([0; 16], |kept| row.tags_kept(n, |m| kept.mac(m))),
    },
};

/// All that were found when this was built; the proved library first.
pub const CONTENDERS: &[Contender] = &[
    PROVED,
    PORTABLE,
    #[cfg(has_openssl)]
    crate::openssl_mac::OPENSSL,
    #[cfg(has_bearssl)]
    crate::bearssl_mac::CT64,
    #[cfg(has_bearssl)]
    crate::bearssl_mac::BIG,
];

/// Compares the results of all contenders in every row.
pub fn compare() -> Result<(), String> {
    for row in Row::all() {
        for n in [1, 2, 50] {
            let right = (PORTABLE.run)(row, n);
            for contender in CONTENDERS {
                if (contender.run)(row, n) != right {
                    return Err(format!("{} differs in {}", contender.name, row.name()));
                }
            }
        }
    }
    Ok(())
}

/// Prints a Markdown table: for each row and contender the best slice, the median of the slices'
/// ratios and the ratio of the best slices.
fn times(slices: usize, turns: u64) {
    println!("| Work | Contender | ns, best slice | proved / contender, median | proved / contender, best slices |");
    println!("|---|---|---|---|---|");
    for row in Row::all() {
        let work = |contender: &Contender| -> Work<'_> {
            let run = contender.run;
            Box::new(move || {
                timed(|| {
                    black_box(run(row, black_box(turns)));
                })
            })
        };
        let mut all: Vec<Work<'_>> = CONTENDERS.iter().map(work).collect();
        for (contender, told) in CONTENDERS.iter().zip(by_turns(slices, &mut all)) {
            println!(
                "| {} | {} | {:.0} | {:.2} | {:.2} |",
                row.name(),
                contender.name,
                told.best * 1e9 / turns as f64,
                told.median,
                told.best_ratio
            );
        }
    }
}

/// Prints a Markdown table of the exports' stack over messages of 0 to 200 bytes and keys of 16, 24 and 32.
fn stacks() {
    let bytes = [7u8; 273];
    let mut out = [0u8; 273];
    let (p, o) = (bytes.as_ptr() as usize, out.as_mut_ptr() as usize);
    type Arguments<'a> = &'a dyn Fn(usize, usize) -> [usize; 6];
    let exports: [(&str, *const (), Arguments<'_>); 5] = [
        (
            "osnma_aes_expand",
            raw::osnma_aes_expand as *const (),
            &|k, _| [p, k, o, 240, 0, 0],
        ),
        (
            "osnma_aes_encrypt",
            raw::osnma_aes_encrypt as *const (),
            &|k, _| [k, p, 240, p, o, 16],
        ),
        ("osnma_cmac", raw::osnma_cmac as *const (), &|k, m| {
            [p, k, p, m, o, 16]
        }),
        (
            "osnma_cmac_key",
            raw::osnma_cmac_key as *const (),
            &|k, _| [p, k, o, 0, 0, 0],
        ),
        (
            "osnma_cmac_with",
            raw::osnma_cmac_with as *const (),
            &|_, m| [p, p, m, o, 16, 0],
        ),
    ];
    println!("| Export | Stack, bytes |");
    println!("|---|---|");
    for (name, function, arguments) in exports {
        let mut deepest = 0;
        for key in [16, 24, 32] {
            for message in 0..=200 {
                // SAFETY: pointers are of live arrays that have the lengths given, and the export
                // takes these arguments.
                let depth = unsafe { stack::of_function(function, arguments(key, message)) };
                deepest = deepest.max(depth);
            }
        }
        println!("| `{name}` | {deepest} |");
    }
}

pub fn command(words: &[&str]) -> Option<Result<(), String>> {
    match words {
        ["names"] => {
            for contender in CONTENDERS {
                println!("{}", contender.name);
            }
            Some(Ok(()))
        }
        ["rows"] => {
            Row::all().for_each(|row| println!("{}", row.name()));
            Some(Ok(()))
        }
        ["time", slices, turns] => {
            let (slices, turns) = (slices.parse().ok()?, turns.parse().ok()?);
            Some(compare().map(|()| times(slices, u64::max(turns, 1))))
        }
        ["count", row, contender, turns] => {
            let row = Row::all().find(|r| r.name() == *row)?;
            let contender = CONTENDERS.iter().find(|c| c.name == *contender)?;
            let turns = turns.parse().ok()?;
            Some(compare().map(|()| println!("{:02x?}", (contender.run)(row, turns))))
        }
        ["stack"] => Some(compare().map(|()| stacks())),
        _ => None,
    }
}

#[cfg(test)]
mod tests {
    use super::*;

    #[test]
    fn results_agree() {
        assert_eq!(compare(), Ok(()));
    }
}
