//! GST_SF, seconds over weeks, and the slots of a chain's keys (01, "Times and slots").

pub const WEEK_SECONDS: u64 = 604_800;
pub const SUBFRAME_SECONDS: u64 = 30;
/// The last sub-frame of a week.
pub const LAST_SECOND: u32 = 604_770;

/// Satellites are PRN 1 to 36.
pub const SATELLITES: usize = 36;

pub fn is_prn(prn: u8) -> bool {
    (1..=SATELLITES as u8).contains(&prn)
}

/// GST_SF: week in 12 bits, second of week in 20. Its order is the order of time (A83).
#[derive(Clone, Copy, Debug, PartialEq, Eq, PartialOrd, Ord)]
pub struct Gst(pub u32);

impl Gst {
    pub fn new(week: u32, second: u32) -> Gst {
        Gst(week << 20 | second)
    }

    pub fn week(self) -> u32 {
        self.0 >> 20
    }

    pub fn second_of_week(self) -> u32 {
        self.0 & 0xF_FFFF
    }

    /// A multiple of 30 up to 604770, in any week (A2, A3).
    pub fn is_valid(self) -> bool {
        self.second_of_week() <= LAST_SECOND && self.second_of_week().is_multiple_of(30)
    }

    /// Seconds since week 0; weeks do not roll over.
    pub fn seconds(self) -> u64 {
        u64::from(self.week()) * WEEK_SECONDS + u64::from(self.second_of_week())
    }

    pub fn from_seconds(seconds: u64) -> Gst {
        Gst::new(
            (seconds / WEEK_SECONDS) as u32,
            (seconds % WEEK_SECONDS) as u32,
        )
    }
}

/// The week and hour of a root: when its chain's sub-frame 0 starts.
#[derive(Clone, Copy, Debug, PartialEq, Eq, PartialOrd, Ord)]
pub struct RootTime {
    pub week: u16,
    pub hour: u8,
}

impl RootTime {
    pub fn seconds(self) -> u64 {
        u64::from(self.week) * WEEK_SECONDS + u64::from(self.hour) * 3_600
    }
}

/// How the keys of a chain are counted from its root. Slots pass 32 bits (A82).
#[derive(Clone, Copy, Debug, PartialEq, Eq)]
pub struct Slots {
    /// NS, keys a block.
    pub ns: u8,
    /// NMACK, blocks a sub-frame.
    pub nmack: u8,
    /// Seconds of sub-frame 0.
    pub start: u64,
}

impl Slots {
    fn a_subframe(&self) -> u64 {
        u64::from(self.ns) * u64::from(self.nmack)
    }

    /// The lowest slot of block `block` (from 1) of the sub-frame at `seconds`: the key of that
    /// block's tags.
    pub fn of_tags(&self, seconds: u64, block: u8) -> u64 {
        let subframe = (seconds - self.start) / SUBFRAME_SECONDS;
        subframe * self.a_subframe() + u64::from(block - 1) * u64::from(self.ns) + 1
    }

    /// The slot of the key that `prn` sends in block `block` of the sub-frame at `seconds`.
    pub fn of_key(&self, seconds: u64, block: u8, prn: u8) -> u64 {
        self.of_tags(seconds, block) + u64::from((prn - 1) % self.ns)
    }

    /// The time hashed with the key of a slot; the root's is 30 s before sub-frame 0 (000, 5.4).
    pub fn time(&self, slot: u64) -> Gst {
        Gst::from_seconds(match slot {
            0 => self.start - SUBFRAME_SECONDS,
            _ => self.start + (slot - 1) / self.a_subframe() * SUBFRAME_SECONDS,
        })
    }
}

#[cfg(test)]
mod tests {
    use super::*;

    #[test]
    fn limits_of_the_second() {
        assert!(Gst::new(947, 604_770).is_valid());
        assert!(!Gst::new(947, 604_800).is_valid());
        assert!(!Gst::new(947, 604_771).is_valid());
        assert!(!Gst::new(947, 15).is_valid());
        assert!(Gst::new(4095, 0).is_valid());
        assert_eq!(Gst::new(947, 431_970).0, 0x3B36_9762);
    }

    #[test]
    fn seconds_over_weeks() {
        let end = Gst::new(5, 604_770);
        assert_eq!(Gst::from_seconds(end.seconds() + 30), Gst::new(6, 0));
        assert_eq!(Gst::from_seconds(end.seconds()), end);
    }

    #[test]
    fn known_slots() {
        let root = RootTime {
            week: 947,
            hour: 120,
        };
        let slots = Slots {
            ns: 36,
            nmack: 2,
            start: root.seconds(),
        };
        let at = |second| Gst::new(947, second).seconds();
        assert_eq!(slots.of_key(at(432_000), 1, 2), 2);
        assert_eq!(slots.of_key(at(432_000), 2, 36), 72);
        assert_eq!(slots.of_key(at(432_030), 1, 18), 90);
        assert_eq!(slots.of_tags(at(432_030), 1), 73);
        assert_eq!(slots.time(0), Gst::new(947, 431_970));
        assert_eq!(slots.time(1), Gst::new(947, 432_000));
        assert_eq!(slots.time(72), Gst::new(947, 432_000));
        assert_eq!(slots.time(73), Gst::new(947, 432_030));
    }

    #[test]
    fn keys_repeat_where_ns_is_below_the_prn() {
        let slots = Slots {
            ns: 4,
            nmack: 3,
            start: 0,
        };
        assert_eq!(slots.of_key(30, 2, 5), 12 + 4 + 1);
        assert_eq!(slots.of_key(30, 2, 36), 12 + 4 + 4);
        assert_eq!(
            Slots {
                ns: 36,
                nmack: 3,
                start: 0
            }
            .of_tags(4096 * WEEK_SECONDS, 1),
            8_918_138_881
        );
    }

    #[test]
    fn root_of_the_week_before() {
        let root = RootTime { week: 12, hour: 0 };
        assert_eq!(
            Slots {
                ns: 1,
                nmack: 1,
                start: root.seconds()
            }
            .time(0),
            Gst::new(11, 604_770)
        );
    }
}
