//! One tag judged under a key that is new each time: the proved leaf and the second receiver.
//!
//! - `tag proved N` or `tag second N`: N tags, of which every other one matches, to be counted by
//!   callgrind; prints how many did

use leaves::tag_codes::tag_matches;
use leaves::tags::Tag;
use portable_hash::HmacKey;
use second_receiver::mac::MacKey;
use second_receiver::navdata::NavSet;
use second_receiver::tags;
use second_receiver::times::Gst;

pub const USAGE: &str = "tag proved N | second N";

const SET: [u8; 69] = [0x58; 69];
const KEY: [u8; 16] = [0x42; 16];
const TAG: Tag = Tag {
    sender: 2,
    prn: 1,
    adkd: 11,
    block: 1,
    position: 2,
    time: 0x3B36_979E,
    status: 2,
    bits: 0,
};

fn theirs(bits: u64) -> tags::Tag {
    tags::Tag {
        sender: TAG.sender,
        prn: TAG.prn,
        adkd: TAG.adkd,
        block: TAG.block,
        position: TAG.position,
        time: Gst(TAG.time),
        status: TAG.status,
        bits,
    }
}

/// The tag's right 40 bits.
fn right() -> u64 {
    let mac = HmacKey::new(&KEY).mac(&theirs(0).message(&NavSet(SET)));
    mac[..5].iter().fold(0, |n, b| n << 8 | u64::from(*b))
}

fn judged(who: &str, bits: u64) -> Option<bool> {
    match who {
        "proved" => tag_matches(0, 40, &KEY, false, &Tag { bits, ..TAG }, &SET),
        "second" => Some(theirs(bits).matches(&NavSet(SET), &MacKey::new(0, &KEY)?, 40)),
        _ => None,
    }
}

pub fn command(words: &[&str]) -> Option<Result<(), String>> {
    let [who, count] = words else { return None };
    let count: u64 = count.parse().ok()?;
    let bits = right();
    let mut matched = 0;
    for i in 0..count {
        matched += u64::from(judged(who, bits ^ (i & 1))?);
    }
    println!("{matched}");
    Some(if matched == count.div_ceil(2) {
        Ok(())
    } else {
        Err("another count of tags matches".into())
    })
}
