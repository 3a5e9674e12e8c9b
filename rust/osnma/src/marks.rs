//! Which of a sub-frame's fields came.

use core::fmt;

/// Which of the fifteen five-byte fields of a sub-frame were received. Lost ones are told by
/// [`without`](Marks::without), which can be written one after another:
///
/// ```
/// use osnma::Marks;
///
/// let marks = Marks::ALL.without(3).without(4);
/// assert!(marks.received(2) && !marks.received(3));
/// assert_eq!(marks.count(), 13);
/// ```
#[derive(Clone, Copy, PartialEq, Eq, Hash)]
pub struct Marks {
    /// Field 0 in the top bit, field 14 in bit 1; the lowest bit is 0.
    bits: u16,
}

/// Fields of a sub-frame.
const FIELDS: u32 = 15;
/// The bits of all fields.
const ALL: u16 = 0xFFFE;

impl Marks {
    /// Every field was received.
    pub const ALL: Marks = Marks { bits: ALL };
    /// No field was.
    pub const NONE: Marks = Marks { bits: 0 };

    /// From sixteen bits: field 0 in the top bit, 1 for received. The lowest bit is not read.
    pub const fn from_bits(bits: u16) -> Marks {
        Marks { bits: bits & ALL }
    }

    /// As [`from_bits`](Marks::from_bits) takes them; the lowest bit is 0.
    pub const fn bits(self) -> u16 {
        self.bits
    }

    /// The bit of a field, counted from 0; none for a field that there is not.
    const fn bit(field: u32) -> u16 {
        match 0x8000_u16.checked_shr(field) {
            Some(bit) => bit & ALL,
            None => 0,
        }
    }

    /// The same with a field received, counted from 0. There is no field above 14: then nothing
    /// changes.
    pub const fn with(self, field: u32) -> Marks {
        Marks {
            bits: self.bits | Marks::bit(field),
        }
    }

    /// The same with a field lost.
    pub const fn without(self, field: u32) -> Marks {
        Marks {
            bits: self.bits & !Marks::bit(field),
        }
    }

    /// Whether a field was received.
    pub const fn received(self, field: u32) -> bool {
        self.bits & Marks::bit(field) != 0
    }

    /// How many of the fifteen were received.
    pub const fn count(self) -> u32 {
        self.bits.count_ones()
    }

    /// Whether all were.
    pub const fn is_whole(self) -> bool {
        self.count() == FIELDS
    }
}

impl Default for Marks {
    fn default() -> Marks {
        Marks::ALL
    }
}

/// The fields in order: 1 for received.
impl fmt::Debug for Marks {
    fn fmt(&self, f: &mut fmt::Formatter<'_>) -> fmt::Result {
        write!(f, "Marks({:015b})", self.bits >> 1)
    }
}

#[cfg(test)]
mod tests {
    extern crate std;

    use super::*;
    use std::format;

    #[test]
    fn fields() {
        for field in 0..15 {
            let one = Marks::NONE.with(field);
            assert_eq!(one.bits(), 0x8000 >> field);
            assert_eq!(Marks::from_bits(one.bits()), one);
            let lost = Marks::ALL.without(field);
            assert_eq!(lost.bits(), 0xFFFE & !(0x8000 >> field));
            assert!(!lost.is_whole() && lost.count() == 14);
            for other in 0..15 {
                assert_eq!(one.received(other), field == other);
                assert_eq!(lost.received(other), field != other);
            }
            assert_eq!(lost.with(field), Marks::ALL);
            assert_eq!(one.without(field), Marks::NONE);
        }
        assert!(Marks::ALL.is_whole() && Marks::default() == Marks::ALL);
        assert_eq!(Marks::NONE.count(), 0);
    }

    // There is no sixteenth field, nor a later one.
    #[test]
    fn no_other_field() {
        assert_eq!(Marks::from_bits(u16::MAX), Marks::ALL);
        assert_eq!(Marks::from_bits(1), Marks::NONE);
        for field in [15, 16, 31, 32, u32::MAX] {
            assert_eq!(Marks::ALL.without(field), Marks::ALL);
            assert_eq!(Marks::NONE.with(field), Marks::NONE);
            assert!(!Marks::ALL.received(field));
        }
    }

    #[test]
    fn shown() {
        let marks = Marks::ALL.without(1);
        assert_eq!(format!("{marks:?}"), "Marks(101111111111111)");
    }
}
