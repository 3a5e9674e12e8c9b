//! Calls with one lent length wrong: the answer is 1 and every byte stays (01, row 1).

use super::twin::Call;
use osnma::regions::{Lent, Regions};
use osnma::Marks;

/// The marks of a sub-frame all of whose fields came.
pub const ALL_RECEIVED: u16 = Marks::ALL.bits();

/// Regions whose lengths can be changed.
macro_rules! loose {
    ($($name:ident: $element:ty,)*) => {
        #[derive(Clone, Debug, PartialEq, Eq)]
        pub struct Loose {
            $(pub $name: Vec<$element>,)*
        }

        /// Names of the regions, in order.
        pub const REGIONS: &[&str] = &[$(stringify!($name)),*];

        impl Loose {
            pub fn of(regions: &Regions) -> Loose {
                Loose { $($name: regions.$name.to_vec(),)* }
            }

            pub fn lend(&mut self) -> Lent<'_> {
                Lent { $($name: &mut self.$name,)* }
            }

            /// Gives a region another length; elements that are added are 0x5A.
            fn resize(&mut self, region: &str, wrong: Wrong) {
                $(if region == stringify!($name) {
                    let len = wrong.of(self.$name.len());
                    self.$name.resize(len, 0x5A);
                })*
            }
        }
    };
}

loose! {
    config: u8,
    clocks: u32,
    words: u8,
    stamps: u32,
    blocks: u8,
    headers: u8,
    present: u16,
    since: u32,
    pubkeys: u8,
    offer: u8,
    chain: u8,
    numbers: u64,
    heldkey: u8,
    waiting: u8,
    sets: u8,
    arrivals: u32,
}

/// A length that is not right.
#[derive(Clone, Copy, Debug, PartialEq, Eq)]
pub enum Wrong {
    Zero,
    Less,
    More,
    Twice,
}

pub const WRONG: [Wrong; 4] = [Wrong::Zero, Wrong::Less, Wrong::More, Wrong::Twice];

impl Wrong {
    fn of(self, right: usize) -> usize {
        match self {
            Wrong::Zero => 0,
            Wrong::Less => right - 1,
            Wrong::More => right + 1,
            Wrong::Twice => 2 * right,
        }
    }
}

/// Names of the regions that a call is lent.
pub fn regions_of(call: &Call) -> &'static [&'static str] {
    match call {
        Call::Start(_) | Call::Subframe { .. } => REGIONS,
        Call::Word { .. } => &["config", "clocks", "words", "stamps"],
        Call::Verdict { .. } => &[
            "config", "pubkeys", "offer", "chain", "numbers", "heldkey", "waiting", "arrivals",
        ],
        Call::ReadSet(_) => &["sets", "arrivals"],
        Call::ReadMessage => &["pubkeys", "offer"],
        Call::Four(_) => &["clocks", "arrivals"],
        Call::Progress => &["blocks", "present"],
    }
}

/// Names of the byte strings that a call is lent beside the regions.
pub fn parts(call: &Call) -> &'static [&'static str] {
    match call {
        Call::Start(_) => &["the marks", "the tree root", "the first key"],
        Call::Word { .. } => &["the word"],
        Call::Subframe { .. } => &["the fields", "the record area"],
        Call::Verdict { .. } => &["the message", "the signature"],
        Call::ReadSet(_) => &["the set"],
        Call::ReadMessage => &["the message", "the signature", "the public key"],
        Call::Four(_) => &[],
        Call::Progress => &["the pairs"],
    }
}

/// `bytes` with another length if it is this part.
fn part(bytes: &[u8], name: &str, part: &str, wrong: Wrong) -> Vec<u8> {
    let mut bytes = bytes.to_vec();
    if name == part {
        bytes.resize(wrong.of(bytes.len()), 0x5A);
    }
    bytes
}

/// The call with the length of `what`, a region or a part, wrong.
pub fn refused(regions: &Regions, call: &Call, what: &str, wrong: Wrong) -> Result<(), String> {
    let mut lent = Loose::of(regions);
    lent.resize(what, wrong);
    let before = lent.clone();
    let answer = answer(&mut lent, call, what, wrong);
    if answer != Ok(1) {
        return Err(format!("{what} {wrong:?}: {answer:?}, not 1"));
    }
    if lent != before {
        return Err(format!("{what} {wrong:?}: a region has changed"));
    }
    Ok(())
}

/// The number, or what was written though it must stay.
fn answer(lent: &mut Loose, call: &Call, what: &str, wrong: Wrong) -> Result<u32, &'static str> {
    let mut lent = lent.lend();
    let cut = |bytes: &[u8], name| part(bytes, name, what, wrong);
    match call {
        Call::Start(s) => Ok(lent.start(
            s.ns,
            s.key_id,
            s.key_type,
            s.maclt,
            &cut(s.marks.as_flattened(), "the marks"),
            &cut(&s.tree_root, "the tree root"),
            &cut(&s.key, "the first key"),
        )),
        Call::Word { prn, time, word } => Ok(lent.word(*prn, *time, &cut(word, "the word"))),
        Call::Subframe {
            prn,
            time,
            marks,
            fields,
        } => {
            let mut area = cut(&[0x5A; 3240], "the record area");
            let fields = cut(fields, "the fields");
            let (mut hkroot, mut mack) = (0x5A5A_5A5A, 0x5A5A_5A5A);
            let marks = marks.unwrap_or(ALL_RECEIVED);
            let count = lent.subframe(
                &mut area,
                *prn,
                *time,
                marks,
                &fields,
                &mut hkroot,
                &mut mack,
            );
            match (count, hkroot == mack) {
                (0, true) => stayed(&[&area], hkroot),
                _ => Err("a count that is not 0, or halves that differ"),
            }
        }
        Call::Verdict {
            good,
            key_id,
            message,
            signature,
        } => Ok(lent.verdict(
            *good,
            *key_id,
            &cut(message, "the message"),
            &cut(signature, "the signature"),
        )),
        Call::ReadSet(prn) => {
            let mut set = cut(&[0x5A; 69], "the set");
            let (mut iodnav, mut time) = (0x5A5A, 0x5A5A_5A5A);
            let number = lent.view().read_set(*prn, &mut set, &mut iodnav, &mut time);
            match (iodnav, time) {
                (0, 0) => stayed(&[&set], number),
                _ => Err("IODnav and time are not 0"),
            }
        }
        Call::ReadMessage => {
            let mut message = cut(&[0x5A; 45], "the message");
            let mut signature = cut(&[0x5A; 132], "the signature");
            let mut key = cut(&[0x5A; 67], "the public key");
            let (mut id, mut kind) = (0x5A, 0x5A);
            let view = lent.view();
            let number =
                view.read_message(&mut message, &mut signature, &mut key, &mut id, &mut kind);
            match (id, kind) {
                (0, 0) => stayed(&[&message, &signature, &key], number),
                _ => Err("key ID and type are not 0"),
            }
        }
        Call::Four(limit) => {
            let mut yes = 0x5A;
            let number = lent.view().four(*limit, &mut yes);
            match yes {
                0 => Ok(number),
                _ => Err("the answer is not no"),
            }
        }
        Call::Progress => {
            let mut pairs = cut(&[0x5A; 32], "the pairs");
            let number = lent.view().progress(&mut pairs);
            stayed(&[&pairs], number)
        }
    }
}

fn stayed(parts: &[&[u8]], number: u32) -> Result<u32, &'static str> {
    if parts.concat().iter().all(|&byte| byte == 0x5A) {
        Ok(number)
    } else {
        Err("bytes to be read into have changed")
    }
}
