//! What the boom goes by: whether four satellites were marked lately. The core answers that; how many
//! there were is counted here.

use crate::time::{self, SUBFRAME};
use osnma::Gst;

/// Satellites that the boom needs.
pub const NEEDED: u8 = 4;

/// Ages of a mark, in half minutes, that the boom asks for: five minutes for its outer valves, ten
/// for its centre (02, P14).
pub const LIMITS: [u32; 2] = [10, 20];

/// A limit in minutes.
pub const fn minutes(limit: u32) -> u64 {
    limit as u64 * SUBFRAME / 60
}

/// The satellites that were marked within a limit.
#[derive(Clone, Copy, Debug, PartialEq, Eq)]
pub struct Lately {
    /// Whether there are four: the core's answer (02, P5).
    pub four: bool,
    /// How many there are: the sheet's own count.
    pub count: u8,
}

/// By each of [`LIMITS`].
pub type ByLimit = [Lately; LIMITS.len()];

/// How many of the sets whose tags came at `tags` are at most `limit` sub-frames old against the sub-frame
/// at `noted`; an age equal to the limit counts.
fn marked_within(limit: u32, noted: Gst, tags: impl Iterator<Item = Gst>) -> u8 {
    let age = |tag: Gst| time::seconds(noted).saturating_sub(time::seconds(tag));
    let is_recent = |tag: &Gst| age(*tag) <= u64::from(limit) * SUBFRAME;
    tags.filter(is_recent).count() as u8
}

/// After the sub-frame at `noted`, by the core's answers and the tags of each satellite's set.
pub fn lately(
    noted: Gst,
    four: impl Fn(u32) -> bool,
    tags: impl Iterator<Item = Gst> + Clone,
) -> ByLimit {
    LIMITS.map(|limit| Lately {
        four: four(limit),
        count: marked_within(limit, noted, tags.clone()),
    })
}

fn least(a: Option<ByLimit>, b: Option<ByLimit>) -> Option<ByLimit> {
    let both = |a: Lately, b: Lately| Lately {
        four: a.four && b.four,
        count: a.count.min(b.count),
    };
    match (a, b) {
        (Some(a), Some(b)) => Some(std::array::from_fn(|n| both(a[n], b[n]))),
        (a, b) => a.or(b),
    }
}

/// The least of some half minutes, each taken at its end: yes where all are, and the lowest count.
#[derive(Clone, Copy, Debug, Default, PartialEq, Eq)]
pub struct Least {
    ended: Option<ByLimit>,
    latest: Option<(Gst, ByLimit)>,
}

impl Least {
    /// Takes in what is so after a sub-frame; the last of a half minute stands for it.
    pub fn note(&mut self, at: Gst, now: ByLimit) {
        if let Some((_, before)) = self.latest.filter(|latest| latest.0 != at) {
            self.ended = least(self.ended, Some(before));
        }
        self.latest = Some((at, now));
    }

    /// Takes in later half minutes.
    pub fn join(&mut self, later: &Least) {
        *self = Least {
            ended: least(self.by_limit(), later.ended),
            latest: later.latest,
        };
    }

    /// The least of all; none where no sub-frame was noted.
    pub fn by_limit(&self) -> Option<ByLimit> {
        least(self.ended, self.latest.map(|latest| latest.1))
    }
}

/// Half minutes with fewer than four satellites, after the first with four, by the core's answers.
#[derive(Clone, Copy, Debug, PartialEq, Eq)]
pub struct Kept {
    /// The first half minute with four.
    pub since: Gst,
    /// The fewest from then on.
    pub fewest: u8,
    /// Half minutes with fewer than four, the first and the last of them.
    pub short: Option<(u64, Gst, Gst)>,
}

/// What the boom found over a run, by one limit.
#[derive(Clone, Copy, Debug, Default)]
pub struct Watch {
    ended: Option<Kept>,
    latest: Option<(Gst, Lately)>,
}

impl Watch {
    /// Takes in what is so after a sub-frame; the last of a half minute stands for it.
    pub fn note(&mut self, at: Gst, now: Lately) {
        if self.latest.is_some_and(|latest| latest.0 != at) {
            self.ended = self.kept();
        }
        self.latest = Some((at, now));
    }

    /// From the first half minute with four on; none where there is none.
    pub fn kept(&self) -> Option<Kept> {
        let Some((at, Lately { four, count })) = self.latest else {
            return self.ended;
        };
        let Some(mut kept) = self.ended else {
            return four.then_some(Kept {
                since: at,
                fewest: count,
                short: None,
            });
        };
        kept.fewest = kept.fewest.min(count);
        if !four {
            let (n, first, _) = kept.short.unwrap_or((0, at, at));
            kept.short = Some((n + 1, first, at));
        }
        Some(kept)
    }
}

#[cfg(test)]
mod tests {
    use super::*;

    fn gst(second: u32) -> Gst {
        Gst::new(947, second).unwrap()
    }

    fn of(four: bool, count: u8) -> Lately {
        Lately { four, count }
    }

    // The age equal to the limit counts; across a week's end too. The yes or no is what the core says.
    #[test]
    fn ages() {
        let tags = [0, 30, 300].map(gst);
        let within = |noted| {
            let lately = lately(noted, |limit| limit == 20, tags.into_iter());
            assert_eq!(lately.map(|one| one.four), [false, true]);
            lately.map(|one| one.count)
        };
        assert_eq!(within(gst(300)), [3, 3]);
        assert_eq!(within(gst(330)), [2, 3]);
        assert_eq!(within(gst(600)), [1, 3]);
        assert_eq!(within(gst(630)), [0, 2]);
        let week = |second| Gst::new(948, second).unwrap();
        assert_eq!(marked_within(10, week(0), [gst(604_500)].into_iter()), 1);
        assert_eq!(marked_within(10, week(30), [gst(604_500)].into_iter()), 0);
    }

    // What is so last in a half minute stands for it; of several half minutes the least.
    #[test]
    fn least_of_several() {
        let mut a = Least::default();
        assert_eq!(a.by_limit(), None);
        a.note(gst(0), [of(false, 0), of(false, 0)]);
        a.note(gst(0), [of(true, 5), of(true, 6)]);
        assert_eq!(a.by_limit(), Some([of(true, 5), of(true, 6)]));
        a.note(gst(30), [of(true, 4), of(true, 7)]);
        assert_eq!(a.by_limit(), Some([of(true, 4), of(true, 6)]));
        let mut b = Least::default();
        b.note(gst(60), [of(false, 1), of(true, 9)]);
        b.note(gst(60), [of(true, 6), of(false, 2)]);
        a.join(&b);
        assert_eq!(a.by_limit(), Some([of(true, 4), of(false, 2)]));
        a.note(gst(60), [of(false, 6), of(true, 5)]);
        assert_eq!(a.by_limit(), Some([of(false, 4), of(true, 5)]));
    }

    // By the core's yes or no, whatever the count is.
    #[test]
    fn short_of_four() {
        let mut watch = Watch::default();
        for (second, four, count) in [
            (0, false, 9),
            (30, false, 5),
            (30, true, 3),
            (60, true, 9),
            (90, true, 1),
            (90, false, 3),
            (120, false, 7),
            (150, true, 2),
        ] {
            watch.note(gst(second), of(four, count));
        }
        let kept = watch.kept().unwrap();
        assert_eq!((kept.since, kept.fewest), (gst(30), 2));
        assert_eq!(kept.short, Some((2, gst(90), gst(120))));
        let mut never = Watch::default();
        never.note(gst(0), of(false, 4));
        never.note(gst(30), of(false, 4));
        assert_eq!(never.kept(), None);
    }
}
