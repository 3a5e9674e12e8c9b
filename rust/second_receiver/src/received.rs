//! Which of a sub-frame's fifteen authentication fields came (02, P3).

/// The authentication fields of a sub-frame.
pub const FIELDS: usize = 15;
/// Bytes of a field: one of HKROOT, four of MACK.
pub const FIELD_LEN: usize = 5;

/// A mark a field, 1 for received: the first field's is the top bit, and the lowest bit of the
/// sixteen is not read (B12).
#[derive(Clone, Copy, Debug)]
pub struct Received(pub u16);

impl Received {
    pub const ALL: Received = Received(u16::MAX);

    /// Whether a field came, counted from 0.
    pub fn has(self, field: usize) -> bool {
        self.0 >> (15 - field) & 1 == 1
    }

    pub fn has_all(self) -> bool {
        (0..FIELDS).all(|field| self.has(field))
    }

    pub fn has_any(self) -> bool {
        (0..FIELDS).any(|field| self.has(field))
    }

    /// The bytes of all fields, zero in those that did not come: what they hold is never looked at
    /// (B11).
    pub fn only<const LEN: usize>(self, fields: &[u8; LEN]) -> [u8; LEN] {
        let mut came = [0; LEN];
        for field in (0..FIELDS).filter(|&field| self.has(field)) {
            let bytes = FIELD_LEN * field..FIELD_LEN * (field + 1);
            came[bytes.clone()].copy_from_slice(&fields[bytes]);
        }
        came
    }
}

#[cfg(test)]
mod tests {
    use super::*;

    #[test]
    fn the_first_mark_is_the_top_bit() {
        let first = Received(0x8000);
        assert!(first.has(0) && first.has_any() && !first.has_all());
        assert!((1..FIELDS).all(|field| !first.has(field)));
        let last = Received(0x0002);
        assert!(last.has(14) && !last.has(13));
    }

    #[test]
    fn the_sixteenth_bit_is_not_read() {
        assert!(Received(0xFFFE).has_all());
        assert!(!Received(0x0001).has_any());
    }

    #[test]
    fn bytes_of_fields_that_did_not_come() {
        let bytes: [u8; 75] = std::array::from_fn(|i| i as u8 + 1);
        let came = Received(0xBFFE).only(&bytes);
        assert_eq!(came[..5], bytes[..5]);
        assert_eq!(came[5..10], [0; 5]);
        assert_eq!(came[10..], bytes[10..]);
        assert_eq!(Received::ALL.only(&bytes), bytes);
        assert_eq!(Received(1).only(&bytes), [0; 75]);
    }
}
