//! Four satellites, or not yet: how recent the tags of authentic sets are (02, P5).

use crate::times::{Gst, SUBFRAME_SECONDS};

/// Satellites that are needed.
pub const NEEDED: usize = 4;

/// The age of a tag in whole sub-frames at the last one noted; 0 where the tag is later (B30).
fn age(tag: Gst, last: Gst) -> u64 {
    last.seconds().saturating_sub(tag.seconds()) / SUBFRAME_SECONDS
}

/// The least limit with which there are four: the age of the fourth youngest of these tags, one a satellite. None where
/// there are fewer, or before a sub-frame is noted.
pub fn least_limit(last: Option<Gst>, tags: impl IntoIterator<Item = Gst>) -> Option<u64> {
    let last = last?;
    let mut ages: Vec<u64> = tags.into_iter().map(|tag| age(tag, last)).collect();
    ages.sort_unstable();
    ages.get(NEEDED - 1).copied()
}

/// Whether there are four with this limit; an age equal to it counts.
pub fn met(least: Option<u64>, limit: u32) -> bool {
    least.is_some_and(|least| least <= u64::from(limit))
}
