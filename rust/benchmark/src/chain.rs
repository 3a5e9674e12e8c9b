//! The walk down a key chain by each hash, proved and by others.
//!
//! - `chain names`: who walks
//! - `chain rows`: HF and KS of each row
//! - `chain walk WHO HF KS STEPS`: the walk alone, to be counted by callgrind
//! - `chain compare STEPS`: whether all come to the same keys
//! - `chain time SLICES STEPS`: times as ratios
//! - `chain stack`: the deepest stack of the proved walk
//!
//! `portable` and `openssl` walk as the proved code does: the block of a step stays filled, and only
//! the key and the time in it change. Of SHA3 OpenSSL gives no block alone: there `openssl` hashes the
//! message with a method and a context that are kept. `second` is the second receiver's walk, which
//! hashes a message.

use crate::stack;
use crate::time::{by_turns, timed, Work};
use leaves::chain::Chain;
use leaves::times::Slots;
use portable_hash::{one_block, RATE_224, RATE_256};
use second_receiver::chain;
use std::hint::black_box;

pub const USAGE: &str =
    "chain names | rows | walk WHO HF KS STEPS | compare STEPS | time SLICES STEPS | stack";

const FIRST: u64 = 7;

/// A hash by its HF, and the bits of a key.
#[derive(Clone, Copy, Debug, PartialEq, Eq)]
struct Row {
    hf: u8,
    bits: usize,
}

const ROWS: [Row; 7] = [
    Row { hf: 0, bits: 96 },
    Row { hf: 0, bits: 128 },
    Row { hf: 0, bits: 256 },
    Row { hf: 1, bits: 128 },
    Row { hf: 1, bits: 224 },
    Row { hf: 2, bits: 128 },
    Row { hf: 2, bits: 256 },
];

impl Row {
    fn hash(self) -> &'static str {
        ["SHA-256", "SHA3-224", "SHA3-256"][usize::from(self.hf)]
    }

    /// Bytes of a key.
    fn width(self) -> usize {
        self.bits / 8
    }

    /// The chain's contents from CIDKR on: NMACK 2, MS 40, week 947, hour 120.
    fn contents(self) -> [u8; 44] {
        // 000, table 12: the code of KS.
        let ks = match self.bits {
            96 => 0,
            128 => 4,
            224 => 7,
            _ => 8,
        };
        let mut contents = [0x5A; 44];
        contents[..6].copy_from_slice(&[0x20 | self.hf << 2, ks << 4 | 9, 27, 0x03, 0xB3, 120]);
        contents
    }

    fn second(self) -> chain::Chain {
        chain::Chain::new(&self.contents(), 36)
    }

    fn proved(self) -> Chain {
        let second = self.second();
        Chain {
            slots: Slots {
                ns: 36,
                nmack: 2,
                root: second.slots.start,
            },
            alpha: second.parameters.alpha,
            hf: self.hf,
            width: self.width(),
            ms: 40,
        }
    }

    /// The message of a step, whose key and time are yet to come, and its first byte of padding.
    fn block(self, padding: u8) -> [u8; 64] {
        let width = self.width();
        let mut block = [0; 64];
        block[..width].copy_from_slice(&start()[..width]);
        block[width + 4..width + 10].copy_from_slice(&self.second().parameters.alpha);
        block[width + 10] = padding;
        block
    }

    /// The walk with somebody's hash of what stands in a block.
    fn walk(
        self,
        mut block: [u8; 64],
        steps: u64,
        mut hash: impl FnMut(&[u8; 64]) -> [u8; 32],
    ) -> [u8; 32] {
        let (slots, width) = (self.second().slots, self.width());
        for slot in (FIRST..FIRST + steps).rev() {
            block[width..width + 4].copy_from_slice(&slots.time(slot).0.to_be_bytes());
            let digest = hash(&block);
            block[..width].copy_from_slice(&digest[..width]);
        }
        let mut key = start();
        key[..width].copy_from_slice(&block[..width]);
        key
    }

    /// The walk with somebody's compression of one block of SHA-256.
    fn walk_sha256(
        self,
        steps: u64,
        mut compress: impl FnMut(&mut [u32; 8], &[u8; 64]),
    ) -> [u8; 32] {
        let mut block = self.block(0x80);
        block[60..].copy_from_slice(&(8 * (self.width() as u32 + 10)).to_be_bytes());
        self.walk(block, steps, |block| {
            let mut state = portable_hash::INITIAL;
            compress(&mut state, block);
            crate::hash::words_to_bytes(&state)
        })
    }
}

fn start() -> [u8; 32] {
    std::array::from_fn(|i| 101 + i as u8)
}

fn proved(row: Row, steps: u64) -> [u8; 32] {
    let mut key = start();
    let walked = row.proved().walk(steps, FIRST, &mut key);
    walked.expect("in range");
    key
}

fn by_portable(row: Row, steps: u64) -> [u8; 32] {
    match row.hf {
        0 => row.walk_sha256(steps, portable_hash::compress),
        1 => row.walk(row.block(6), steps, one_block::<RATE_224>),
        _ => row.walk(row.block(6), steps, one_block::<RATE_256>),
    }
}

fn by_second(row: Row, steps: u64) -> [u8; 32] {
    let width = row.width();
    let first = chain::TeslaKey::new(&start()[..width]);
    let last = row.second().hash_down(&first, FIRST + steps, FIRST);
    let mut key = start();
    key[..width].copy_from_slice(last.as_slice());
    key
}

#[cfg(has_openssl)]
fn by_openssl(row: Row, steps: u64) -> [u8; 32] {
    use crate::openssl::{Context, Sha3};
    let name = match row.hf {
        0 => {
            let mut context = Context::new();
            return row.walk_sha256(steps, |state, block| {
                context.h = *state;
                context.transform(block);
                *state = context.h;
            });
        }
        1 => c"SHA3-224",
        _ => c"SHA3-256",
    };
    let mut sha3 = Sha3::new(name);
    let message = row.width() + 10;
    row.walk(row.block(0), steps, |block| {
        sha3.digest([&block[..message]])
    })
}

type Walk = fn(Row, u64) -> [u8; 32];

const WALKS: &[(&str, Walk)] = &[
    ("proved", proved),
    ("portable", by_portable),
    ("second", by_second),
    #[cfg(has_openssl)]
    ("openssl", by_openssl),
];

/// Prints a Markdown table: for each walk the best slice, and the proved walk's ratio to it.
fn times(slices: usize, steps: u64) {
    println!("| Hash, KS | Walk | ns a step, best slice | proved / this, median | proved / this, best slices |");
    println!("|---|---|---|---|---|");
    for row in ROWS {
        let work = |&(_, walk): &(&str, Walk)| -> Work<'_> {
            Box::new(move || {
                timed(|| {
                    black_box(walk(row, black_box(steps)));
                })
            })
        };
        let mut all: Vec<Work<'_>> = WALKS.iter().map(work).collect();
        for ((name, _), told) in WALKS.iter().zip(by_turns(slices, &mut all)) {
            println!(
                "| {}, {} | {name} | {:.0} | {:.3} | {:.3} |",
                row.hash(),
                row.bits,
                told.best * 1e9 / steps as f64,
                told.median,
                told.best_ratio
            );
        }
    }
}

/// Whether all come to the same keys.
fn compare(steps: u64) -> Result<(), String> {
    for row in ROWS {
        let right = proved(row, steps);
        for (name, walk) in WALKS {
            if walk(row, steps) != right {
                return Err(format!(
                    "{name} comes to another key of {} bits by {}",
                    row.bits,
                    row.hash()
                ));
            }
        }
    }
    Ok(())
}

/// Prints a Markdown table of the proved walk's stack, with the frames of the Rust functions that call it.
fn stacks() {
    println!("| Walk of three steps | Stack, bytes |");
    println!("|---|---|");
    for row in ROWS {
        let chain = row.proved();
        let bytes = stack::of_call(&mut start(), |key| {
            chain.walk(3, FIRST, key).expect("in range");
        });
        println!("| {}, {} | {bytes} |", row.hash(), row.bits);
    }
}

pub fn command(words: &[&str]) -> Option<Result<(), String>> {
    match words {
        ["names"] => {
            for (name, _) in WALKS {
                println!("{name}");
            }
            Some(Ok(()))
        }
        ["rows"] => {
            for row in ROWS {
                println!("{} {}", row.hf, row.bits);
            }
            Some(Ok(()))
        }
        ["walk", who, hf, bits, steps] => {
            let (_, walk) = WALKS.iter().find(|(name, _)| name == who)?;
            let (hf, bits) = (hf.parse().ok()?, bits.parse().ok()?);
            let row = ROWS.into_iter().find(|row| *row == Row { hf, bits })?;
            println!("{:02X?}", walk(row, steps.parse().ok()?));
            Some(Ok(()))
        }
        ["compare", steps] => Some(compare(steps.parse().ok()?)),
        ["time", slices, steps] => {
            times(slices.parse().ok()?, u64::max(steps.parse().ok()?, 1));
            Some(Ok(()))
        }
        ["stack"] => {
            stacks();
            Some(Ok(()))
        }
        _ => None,
    }
}
