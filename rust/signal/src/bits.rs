//! Bit fields of a byte string; bit 0 is the most significant bit of byte 0 (01).

/// The `width` bits (up to 64) from bit `at` on, as a number.
pub fn get(bytes: &[u8], at: usize, width: usize) -> u64 {
    (at..at + width).fold(0, |n, i| {
        n << 1 | u64::from(bytes[i / 8] >> (7 - i % 8) & 1)
    })
}

/// Writes the low `width` bits (up to 64) of `value` from bit `at` on.
pub fn put(bytes: &mut [u8], at: usize, width: usize, value: u64) {
    for i in 0..width {
        let (byte, mask) = ((at + i) / 8, 0x80 >> ((at + i) % 8));
        if value >> (width - 1 - i) & 1 == 1 {
            bytes[byte] |= mask;
        } else {
            bytes[byte] &= !mask;
        }
    }
}

/// Copies `width` bits of any number.
pub fn copy(to: &mut [u8], to_at: usize, from: &[u8], from_at: usize, width: usize) {
    for i in 0..width {
        put(to, to_at + i, 1, get(from, from_at + i, 1));
    }
}

/// Turns one bit over.
pub fn flip(bytes: &mut [u8], at: usize) {
    bytes[at / 8] ^= 0x80 >> (at % 8);
}

#[cfg(test)]
mod tests {
    use super::*;

    #[test]
    fn put_then_get() {
        for at in 0..20 {
            for width in 1..=40 {
                let mut b = [0xA5u8; 9];
                let value = 0x9_C3F0_55AA & ((1 << width) - 1);
                put(&mut b, at, width, value);
                assert_eq!(get(&b, at, width), value);
                let mut c = [0xA5u8; 9];
                copy(&mut c, at, &b, at, width);
                assert_eq!(c, b);
                flip(&mut b, at);
                assert_ne!(get(&b, at, width), value);
            }
        }
    }
}
