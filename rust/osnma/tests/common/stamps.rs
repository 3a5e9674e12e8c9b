//! Whether four satellites have a recent authentic set, on clocks and arrivals of any contents (02, P5).

use osnma::regions::Regions;
use second_receiver::four::{least_limit, met};
use second_receiver::times::Gst;
use signal::rng::Rng;
use std::collections::BTreeMap;

/// The seconds of the last sub-frame that GST_SF can name.
const LAST: u64 = 4095 * 604_800 + 604_770;

/// The time of a stamp, if it is one.
fn time(stamp: u32) -> Option<Gst> {
    stamp.checked_sub(1).map(Gst)
}

fn stamp(seconds: u64) -> u32 {
    Gst::from_seconds(seconds.min(LAST)).0 + 1
}

/// The least limit with which the second receiver says yes of these contents.
pub fn least_limit_of(regions: &Regions) -> Option<u64> {
    let tags = regions.arrivals[..36].iter();
    least_limit(time(regions.clocks[0]), tags.filter_map(|&tag| time(tag)))
}

/// An age limit, mostly around the least that is enough.
pub fn limit(rng: &mut Rng, least: Option<u64>) -> u32 {
    match (rng.below(8), least) {
        (0, _) => *rng.pick(&[0, 10, 20, u32::MAX]),
        (1, _) | (_, None) => (rng.number() as u32) >> rng.below(32),
        (2, Some(least)) => (least + rng.below(9)).saturating_sub(4) as u32,
        (_, Some(least)) => (least + rng.below(3)).saturating_sub(1) as u32,
    }
}

/// Any 32 bits, the ends of weeks, or sub-frames of some week.
fn any_stamp(rng: &mut Rng) -> u32 {
    let week = rng.range(0, 4095);
    let seconds = match rng.below(4) {
        0 => return rng.number() as u32,
        1 => 604_800 * week + 30 * rng.below(4),
        2 => (604_800 * week + 604_800).saturating_sub(30 * rng.range(1, 4)),
        _ => 604_800 * week + 30 * rng.below(20_160),
    };
    stamp(seconds)
}

/// A tag of about this age, or later than the clock.
fn near(rng: &mut Rng, clock: Gst, age: u64) -> u32 {
    let (now, age) = (clock.seconds(), 30 * age);
    let seconds = match rng.below(8) {
        0 => now + 30 * rng.below(40),
        1 | 2 => (now + rng.below(92)).saturating_sub(age + 30),
        3 => now.saturating_sub(rng.below(age + 30)),
        _ => (now + 30 * rng.below(3)).saturating_sub(age + 30),
    };
    stamp(seconds)
}

/// Clocks and arrivals, and a limit: some satellites have tags around that age, the others have none, older ones or any. What the
/// question does not read is any or young.
pub fn draw(rng: &mut Rng, regions: &mut Regions) -> u32 {
    let limit = match rng.below(6) {
        0 => *rng.pick(&[0, 1, 10, 20, 4_294_967, u32::MAX]),
        1 => (rng.number() as u32) >> rng.below(32),
        _ => rng.below(50) as u32,
    };
    let clock = match rng.below(24) {
        0 => 0,
        1 => *rng.pick(&[1, 2, 31, u32::MAX]),
        _ => any_stamp(rng),
    };
    let now = time(clock).unwrap_or(Gst::new(900, 0));
    let rest = rng.below(3);
    regions.arrivals.fill_with(|| match rest {
        0 => 0,
        1 => stamp(now.seconds().saturating_sub(30 * u64::from(limit) + 30)),
        _ => any_stamp(rng),
    });
    // In any places, the first or the last.
    let (count, places) = (rng.range(1, 7) as usize, rng.below(3));
    for at in 0..count {
        let place = match places {
            0 => at,
            1 => 35 - at,
            _ => rng.below(36) as usize,
        };
        regions.arrivals[place] = near(rng, now, limit.into());
    }
    let young = rng.once_in(2);
    for unread in regions.arrivals[36..].iter_mut().chain(&mut regions.clocks) {
        *unread = if young { clock } else { rng.number() as u32 };
    }
    regions.clocks[0] = clock;
    limit
}

/// What was asked: by how many tags are recent, up to six, and whether one is older by less than a sub-frame, how
/// often. Before a sub-frame is noted: `None`.
pub type Seen = BTreeMap<Option<(usize, bool)>, u64>;

/// How many are within the limit, by their seconds.
fn seen(regions: &Regions, limit: u32) -> Option<(usize, bool)> {
    let now = time(regions.clocks[0])?.seconds();
    let limit = 30 * u64::from(limit);
    let tags = regions.arrivals[..36].iter();
    let ages = tags.filter_map(|&tag| Some(now.saturating_sub(time(tag)?.seconds())));
    let ages: Vec<u64> = ages.collect();
    let recent = ages.iter().filter(|&&age| age < limit + 30).count();
    let just = ages
        .iter()
        .any(|&age| (limit + 30..limit + 60).contains(&age));
    Some((recent.min(6), just))
}

/// Asks this many questions: what the core says is what the second receiver's rule says, and no byte changes.
pub fn compare(count: u64, seed: u64) -> Result<Seen, String> {
    let (mut rng, mut all) = (Rng::new(seed), Seen::new());
    let mut regions = Regions::zeroed();
    for at in 1..=count {
        let limit = draw(&mut rng, &mut regions);
        let before = (regions.clocks, regions.arrivals);
        let mut yes = rng.number() as u8;
        let got = regions.view().four(limit, &mut yes);
        let seen = seen(&regions, limit);
        let right = met(least_limit_of(&regions), limit);
        let told = (got, yes) == (0, u8::from(right));
        let counted = right == seen.is_some_and(|(recent, _)| recent >= 4);
        if !told || !counted || before != (regions.clocks, regions.arrivals) {
            let tags = &regions.arrivals[..36];
            return Err(format!(
                "question {at}: {got} and {yes}, not {right}, by {seen:?}: limit {limit}, clock {}, tags {tags:?}",
                regions.clocks[0]
            ));
        }
        *all.entry(seen).or_default() += 1;
    }
    Ok(all)
}
