//! A navigation set gathered from five held words: the proved leaf, the second receiver, and a copy of 69 bytes as
//! the least that any way of giving a set takes.
//!
//! - `set names`: the contenders
//! - `set count WHO N`: N sets, to be counted by callgrind
//! - `set time SLICES TURNS`: the contenders' slices of TURNS turns, each of which is the sets of all 36 satellites
//! - `set slices COUNT TURNS`: the nanoseconds of a turn of the proved leaf in each of COUNT slices
//!
//! The sets of all 36 satellites are compared before anything is measured.

use crate::time::{rows, timed, Work, HEADING};
use leaves::navdata::Nav;
use second_receiver::navdata::NavSet;
use std::hint::black_box;

pub const USAGE: &str = "set names | count WHO N | time SLICES TURNS | slices COUNT TURNS";

const NAMES: [&str; 3] = ["proved", "second", "copy"];
const SATELLITES: usize = 36;

/// Words of 36 satellites and their sets.
struct Sky {
    nav: Nav,
    words: Vec<[[u8; 16]; 5]>,
    sets: Vec<[u8; 69]>,
}

impl Sky {
    fn new() -> Sky {
        let mut state: u64 = 2026;
        let mut words = vec![[[0; 16]; 5]; SATELLITES];
        let mut nav = Nav {
            words: [0; 2880],
            stamps: [1; 180],
        };
        for (i, byte) in words
            .as_flattened_mut()
            .as_flattened_mut()
            .iter_mut()
            .enumerate()
        {
            state = state
                .wrapping_mul(6_364_136_223_846_793_005)
                .wrapping_add(1);
            *byte = (state >> 56) as u8;
            nav.words[i] = *byte;
        }
        let sets = words.iter().map(|words| NavSet::pack(words).0).collect();
        Sky { nav, words, sets }
    }

    /// The set of satellite `at` + 1.
    fn gather(&self, who: &str, at: usize, set: &mut [u8; 69]) -> Option<()> {
        match who {
            "proved" => self.nav.set_bytes(at + 1, set, 0)?,
            "second" => *set = NavSet::pack(&self.words[at]).0,
            "copy" => *set = self.sets[at],
            _ => return None,
        }
        Some(())
    }

    /// Gathers sets one after the other; gives the sum of a byte of each.
    fn gather_all(&self, who: &str, count: usize) -> Option<u64> {
        let (mut set, mut sum) = ([0; 69], 0);
        for turn in 0..count {
            self.gather(who, turn % SATELLITES, black_box(&mut set))?;
            sum += u64::from(set[turn % 69]);
        }
        Some(sum)
    }

    fn compare(&self) -> Result<(), String> {
        for (at, set) in self.sets.iter().enumerate() {
            let mut gathered = [0; 69];
            if self.gather("proved", at, &mut gathered).is_none() || gathered != *set {
                return Err(format!("another set of satellite {}", at + 1));
            }
        }
        Ok(())
    }

    fn slice<'a>(&'a self, who: &'a str, turns: u32) -> Work<'a> {
        let sets = SATELLITES * turns as usize;
        Box::new(move || {
            timed(|| {
                black_box(self.gather_all(who, sets));
            }) / turns.max(1)
        })
    }
}

pub fn command(words: &[&str]) -> Option<Result<(), String>> {
    let sky = Sky::new();
    if let Err(text) = sky.compare() {
        return Some(Err(text));
    }
    match words {
        ["names"] => println!("{}", NAMES.join("\n")),
        ["count", who, count] => println!("{}", sky.gather_all(who, count.parse().ok()?)?),
        ["time", slices, turns] => {
            let turns = turns.parse().ok()?;
            println!("{HEADING}");
            let works = NAMES.map(|who| sky.slice(who, turns)).into();
            rows("sets of 36 satellites", &NAMES, slices.parse().ok()?, works);
        }
        ["slices", count, turns] => {
            let mut work = sky.slice(NAMES[0], turns.parse().ok()?);
            for _ in 0..count.parse().ok()? {
                println!("{}", work().as_nanos());
            }
        }
        _ => return None,
    }
    Some(Ok(()))
}
