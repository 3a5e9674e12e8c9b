//! Galileo System Time of a sub-frame.

use core::fmt;

/// GST_SF in 32 bits: week (12), second of week (20). Its order is the order of time; weeks do not
/// roll over.
#[derive(Clone, Copy, Debug, PartialEq, Eq, PartialOrd, Ord, Hash)]
pub struct Gst(u32);

impl Gst {
    /// The sub-frame that starts at this second of this week: weeks 0 to 4095, seconds that are a
    /// multiple of 30 up to 604770.
    pub const fn new(week: u16, second: u32) -> Option<Gst> {
        if week <= 4095 && second <= 604_770 && second.is_multiple_of(30) {
            Some(Gst((week as u32) << 20 | second))
        } else {
            None
        }
    }

    /// The sub-frame of the E1-B page whose even part begins at this second of this week, and the
    /// page's place in it, from 0 to 14. The first page of a sub-frame begins a second after it, so
    /// these seconds are odd; the last odd part ends in the next half minute.
    pub const fn of_page(week: u16, second: u32) -> Option<(Gst, u32)> {
        if second >= 604_800 || second.is_multiple_of(2) {
            return None;
        }
        let place = second.saturating_sub(1) % 30;
        match Gst::new(week, second.saturating_sub(place).saturating_sub(1)) {
            Some(time) => Some((time, place / 2)),
            None => None,
        }
    }

    /// The 32 bits as they came from a receiver. Any can be held; calls refuse those of no
    /// sub-frame.
    pub const fn from_bits(bits: u32) -> Gst {
        Gst(bits)
    }

    /// The 32 bits.
    pub const fn bits(self) -> u32 {
        self.0
    }

    /// The first 12 bits.
    pub const fn week(self) -> u16 {
        (self.0 >> 20) as u16
    }

    /// The other 20 bits.
    pub const fn second(self) -> u32 {
        self.0 & 0xF_FFFF
    }
}

/// Week and second of week: `947/432000`.
impl fmt::Display for Gst {
    fn fmt(&self, f: &mut fmt::Formatter<'_>) -> fmt::Result {
        write!(f, "{}/{}", self.week(), self.second())
    }
}

#[cfg(test)]
mod tests {
    use super::Gst;

    #[test]
    fn limits() {
        let bits = |week, second| Gst::new(week, second).map(Gst::bits);
        assert_eq!(bits(947, 431_970), Some(0x3B36_9762));
        assert_eq!(bits(4095, 604_770), Some(0xFFF9_3A62));
        for (week, second) in [(4096, 0), (947, 604_800), (947, 15), (947, 1 << 20)] {
            assert_eq!(bits(week, second), None, "{week}/{second}");
        }
        let time = Gst::from_bits(0x3B36_9762);
        assert_eq!((time.week(), time.second()), (947, 431_970));
        assert!(Gst::new(947, 604_770) < Gst::new(948, 0));
    }

    // 000, table 26: the parts of 947/432001 to 432030 are those of the sub-frame at 432000.
    #[test]
    fn pages() {
        for page in 0..15 {
            let place = Gst::new(947, 432_000).map(|time| (time, page));
            assert_eq!(Gst::of_page(947, 432_001 + 2 * page), place);
            assert_eq!(Gst::of_page(947, 432_002 + 2 * page), None);
        }
        let place = |week, second, page| Gst::new(week, second).map(|time| (time, page));
        assert_eq!(Gst::of_page(947, 1), place(947, 0, 0));
        assert_eq!(Gst::of_page(4095, 604_799), place(4095, 604_770, 14));
        for (week, second) in [(947, 0), (947, 604_801), (4096, 1), (947, u32::MAX)] {
            assert_eq!(Gst::of_page(week, second), None, "{week}/{second}");
        }
    }
}
