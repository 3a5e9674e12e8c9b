//! Bit strings in bytes: bit 0 is the most significant (01; 000, 2.1).

/// `width` bits (at most 64) of `bytes` from bit `at`, as a number.
pub fn take(bytes: &[u8], at: usize, width: usize) -> u64 {
    (at..at + width).fold(0, |value, bit| {
        value << 1 | u64::from(bytes[bit / 8] >> (7 - bit % 8) & 1)
    })
}

/// A bit string that grows at its end; the last byte is filled with zero bits.
#[derive(Default)]
pub struct BitString {
    bytes: Vec<u8>,
    len: usize,
}

impl BitString {
    /// Appends the low `width` bits of `value`, the most significant first.
    pub fn push(&mut self, value: u64, width: usize) {
        for bit in (0..width).rev() {
            if self.len.is_multiple_of(8) {
                self.bytes.push(0);
            }
            self.bytes[self.len / 8] |= ((value >> bit & 1) as u8) << (7 - self.len % 8);
            self.len += 1;
        }
    }

    /// Appends `width` bits of `bytes` from bit `at`.
    pub fn push_bits(&mut self, bytes: &[u8], at: usize, width: usize) {
        for bit in at..at + width {
            self.push(take(bytes, bit, 1), 1);
        }
    }

    pub fn into_bytes(self) -> Vec<u8> {
        self.bytes
    }
}

#[cfg(test)]
mod tests {
    use super::*;

    #[test]
    fn taken_and_pushed() {
        let bytes = [0x12, 0x34, 0x56];
        assert_eq!(take(&bytes, 0, 4), 1);
        assert_eq!(take(&bytes, 4, 12), 0x234);
        assert_eq!(take(&bytes, 7, 2), 0);
        assert_eq!(take(&bytes, 3, 5), 0b10010);
        assert_eq!(take(&[0xFF; 9], 1, 64), u64::MAX);
        let mut string = BitString::default();
        string.push(0b10, 2);
        string.push_bits(&bytes, 4, 12);
        assert_eq!(string.into_bytes(), [0b1000_1000, 0b1101_0000]);
    }
}
