//! Galileo System Time, and the clock that a sheet's times are told by.

use osnma::Gst;
use std::fmt;
use std::str::FromStr;

const WEEK: u64 = 604_800;
const DAY: u64 = 86_400;
/// Seconds of a sub-frame.
pub const SUBFRAME: u64 = 30;
/// Days from 1970-01-01 to week 0, 1999-08-22.
const EPOCH: u64 = 10_825;
/// Seconds that GST is ahead of UTC since 2017.
const AHEAD: i64 = 18;

/// Seconds since week 0.
pub fn seconds(time: Gst) -> u64 {
    u64::from(time.week()) * WEEK + u64::from(time.second())
}

/// The time so many seconds after week 0; its week in 12 bits.
pub fn at(seconds: u64) -> Gst {
    let (week, second) = ((seconds / WEEK) & 0xFFF, seconds % WEEK);
    Gst::from_bits((week as u32) << 20 | second as u32)
}

/// A day of the Gregorian calendar.
#[derive(Clone, Copy, Debug, PartialEq, Eq, PartialOrd, Ord)]
pub struct Date {
    /// Year.
    pub year: u64,
    /// Month, from 1.
    pub month: u64,
    /// Day of the month, from 1.
    pub day: u64,
}

impl Date {
    /// The day so many days after 1970-01-01.
    fn of(days: u64) -> Date {
        // Years are counted from March, in eras of 400 years, so that the leap day is the last.
        let days = days + 719_468;
        let (era, day) = (days / 146_097, days % 146_097);
        let year = (day - day / 1_460 + day / 36_524 - day / 146_096) / 365;
        let day = day - (365 * year + year / 4 - year / 100);
        let month = (5 * day + 2) / 153;
        Date {
            year: era * 400 + year + u64::from(month >= 10),
            month: if month < 10 { month + 3 } else { month - 9 },
            day: day - (153 * month + 2) / 5 + 1,
        }
    }
}

impl fmt::Display for Date {
    fn fmt(&self, f: &mut fmt::Formatter<'_>) -> fmt::Result {
        write!(f, "{:04}-{:02}-{:02}", self.year, self.month, self.day)
    }
}

/// A time zone: whole minutes ahead of UTC.
#[derive(Clone, Copy, Debug, PartialEq, Eq)]
pub struct Zone {
    minutes: i64,
}

impl FromStr for Zone {
    type Err = ();

    /// `UTC`, or a sign with hours, or with hours and minutes: `+2`, `+02:00`, `-0330`.
    fn from_str(text: &str) -> Result<Zone, ()> {
        let (sign, rest) = match text.split_at_checked(1) {
            _ if text == "UTC" => return Ok(Zone { minutes: 0 }),
            Some(("+", rest)) => (1, rest),
            Some(("-", rest)) => (-1, rest),
            _ => return Err(()),
        };
        let (hours, minutes) = match (rest.split_once(':'), rest.len()) {
            (Some(parts), _) => parts,
            (None, 4) => rest.split_at_checked(2).ok_or(())?,
            _ => (rest, "00"),
        };
        let number = |digits: &str, most: i64| {
            let plain =
                (1..=2).contains(&digits.len()) && digits.bytes().all(|b| b.is_ascii_digit());
            let number: Option<i64> = digits.parse().ok();
            number.filter(|n| plain && *n <= most).ok_or(())
        };
        let ahead = number(hours, 14)? * 60 + number(minutes, 59)?;
        Ok(Zone {
            minutes: sign * ahead,
        })
    }
}

impl fmt::Display for Zone {
    fn fmt(&self, f: &mut fmt::Formatter<'_>) -> fmt::Result {
        let sign = if self.minutes < 0 { '-' } else { '+' };
        let ahead = self.minutes.abs();
        match ahead {
            0 => write!(f, "UTC"),
            _ => write!(f, "UTC{sign}{:02}:{:02}", ahead / 60, ahead % 60),
        }
    }
}

/// How the times of one run are told.
#[derive(Clone, Copy, Debug, Default)]
pub struct Clock {
    /// The zone whose local time is told; GST where there is none.
    pub zone: Option<Zone>,
    /// Whether the date is told.
    pub dated: bool,
}

impl Clock {
    /// For times from one to the other: the date is told where there are several.
    pub fn over(zone: Option<Zone>, first: Gst, last: Gst) -> Clock {
        let clock = Clock { zone, dated: false };
        Clock {
            dated: clock.date(first) != clock.date(last),
            ..clock
        }
    }

    /// The same with the date told.
    pub fn dated(self) -> Clock {
        Clock {
            dated: true,
            ..self
        }
    }

    /// Seconds since 1970-01-01, by this clock.
    pub fn wall(self, time: Gst) -> u64 {
        let gst = seconds(time) + EPOCH * DAY;
        let ahead = self.zone.map_or(0, |zone| zone.minutes * 60 - AHEAD);
        gst.saturating_add_signed(ahead)
    }

    /// The day.
    pub fn date(self, time: Gst) -> Date {
        Date::of(self.wall(time) / DAY)
    }

    /// The time of day: `12:30:00`.
    pub fn time_of_day(self, time: Gst) -> String {
        let s = self.wall(time) % DAY;
        format!("{:02}:{:02}:{:02}", s / 3600, s / 60 % 60, s % 60)
    }

    /// Date and time of day: `2017-10-20 00:00:00`.
    pub fn full(self, time: Gst) -> String {
        format!("{} {}", self.date(time), self.time_of_day(time))
    }

    /// The time, with its date where that is told.
    pub fn say(self, time: Gst) -> String {
        if self.dated {
            self.full(time)
        } else {
            self.time_of_day(time)
        }
    }

    /// A span: one time, or from one to the other.
    pub fn span(self, first: Gst, last: Gst) -> String {
        if first == last {
            format!("at {}", self.say(first))
        } else {
            format!("from {}", self.range(first, last))
        }
    }

    /// `12:30:00 to 12:31:00`; a date that both have is told once.
    pub fn range(self, first: Gst, last: Gst) -> String {
        let last = match self.date(first) == self.date(last) {
            true => self.time_of_day(last),
            false => self.full(last),
        };
        format!("{} to {last}", self.say(first))
    }

    /// What its times are.
    pub fn told(self) -> String {
        match self.zone {
            None => format!("Galileo System Time (GST), which is UTC\u{a0}+\u{a0}{AHEAD}\u{a0}s"),
            Some(zone) => {
                format!("local time ({zone}); Galileo System Time (GST) is UTC\u{a0}+\u{a0}{AHEAD}\u{a0}s")
            }
        }
    }
}

/// Date and time of day in GST: `2017-10-20 00:00:00`.
pub fn full(time: Gst) -> String {
    Clock::default().full(time)
}

#[cfg(test)]
mod tests {
    use super::*;

    fn gst(week: u16, second: u32) -> Gst {
        Gst::new(week, second).unwrap()
    }

    // Week 0, a leap day, the turn of a century, 01's example, and the last week.
    #[test]
    fn dates() {
        for (time, said) in [
            (gst(0, 0), "1999-08-22 00:00:00"),
            (gst(27, 172_800), "2000-02-29 00:00:00"),
            (gst(27, 259_170), "2000-02-29 23:59:30"),
            (gst(27, 259_200), "2000-03-01 00:00:00"),
            (gst(947, 432_000), "2017-10-20 00:00:00"),
            (gst(4095, 604_770), "2078-02-19 23:59:30"),
        ] {
            assert_eq!(full(time), said);
            assert_eq!(at(seconds(time)), time);
        }
    }

    #[test]
    fn spans() {
        let (a, b, c) = (gst(5, 0), gst(5, 60), gst(6, 0));
        let over = |a, b| Clock::over(None, a, b);
        assert_eq!(over(a, b).span(a, b), "from 00:00:00 to 00:01:00");
        assert_eq!(over(a, b).span(a, a), "at 00:00:00");
        assert_eq!(over(a, c).say(c), "1999-10-03 00:00:00");
        assert_eq!(
            over(a, c).span(a, c),
            "from 1999-09-26 00:00:00 to 1999-10-03 00:00:00"
        );
        assert_eq!(over(a, c).range(a, b), "1999-09-26 00:00:00 to 00:01:00");
    }

    // GST is 18 s ahead of UTC; a zone can bring another day.
    #[test]
    fn zones() {
        let time = gst(947, 432_000);
        for (text, shown, said) in [
            ("UTC", "UTC", "2017-10-19 23:59:42"),
            ("+0", "UTC", "2017-10-19 23:59:42"),
            ("+2", "UTC+02:00", "2017-10-20 01:59:42"),
            ("+05:45", "UTC+05:45", "2017-10-20 05:44:42"),
            ("-0330", "UTC-03:30", "2017-10-19 20:29:42"),
            ("+14:00", "UTC+14:00", "2017-10-20 13:59:42"),
        ] {
            let zone: Zone = text.parse().unwrap();
            assert_eq!(zone.to_string(), shown);
            let clock = Clock::over(Some(zone), time, time);
            assert_eq!(clock.full(time), said);
            assert!(
                clock.told().contains(shown) && clock.told().contains("UTC\u{a0}+\u{a0}18\u{a0}s")
            );
        }
        for text in [
            "", "2", "+", "+15", "+2:60", "+2:", "+-2", "+02:00x", "CET", "+é", "+1234567",
        ] {
            assert_eq!(text.parse::<Zone>(), Err(()), "{text}");
        }
        let first = gst(0, 0);
        let west = Clock::over("-14".parse().ok(), first, first);
        assert_eq!(west.full(first), "1999-08-21 09:59:42");
    }
}
