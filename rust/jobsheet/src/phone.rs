//! A check value to be read over the phone: the CRC-32 of the bytes, its eight hexadecimal digits
//! written in sixteen signs that neither look nor sound alike, in two groups of four.

/// The sign for each hexadecimal digit, 0 to F. Without 0, 1, B, D, G, I, L, O, Q, S, U, V, Z, which
/// are taken for one another.
pub const SIGNS: [char; 16] = [
    '2', '3', '4', '5', '6', '7', '8', '9', 'F', 'K', 'M', 'R', 'T', 'W', 'X', 'Y',
];

/// How the value is made, for the page.
pub const HOW: &str = "Check values are for reading over the phone: the CRC-32 (as in zip and \
    Ethernet) of the 69 bytes, each of its eight hexadecimal digits 0123456789ABCDEF written as \
    23456789FKMRTWXY. They find slips of hand and ear; they prove nothing.";

/// CRC-32 of IEEE 802.3.
pub fn crc32(bytes: &[u8]) -> u32 {
    !bytes.iter().fold(u32::MAX, |crc, &byte| {
        (0..8).fold(crc ^ u32::from(byte), |crc, _| {
            let low = crc & 1;
            (crc >> 1) ^ (0xEDB8_8320 * low)
        })
    })
}

/// The check value of these bytes, as `XXXX XXXX`.
pub fn check_value(bytes: &[u8]) -> String {
    let crc = crc32(bytes);
    let sign = |digit: u32| SIGNS[(crc >> (28 - 4 * digit) & 15) as usize];
    let group = |from| (from..from + 4).map(sign).collect::<String>();
    format!("{} {}", group(0), group(4))
}

#[cfg(test)]
mod tests {
    use super::*;

    // The check of the catalogue of CRCs: "123456789" gives CBF43926.
    #[test]
    fn published_value() {
        assert_eq!(crc32(b"123456789"), 0xCBF4_3926);
        assert_eq!(check_value(b"123456789"), "TRY6 5K48");
        assert_eq!(crc32(b""), 0);
        assert_eq!(check_value(b""), "2222 2222");
    }

    #[test]
    fn signs_differ() {
        for (n, sign) in SIGNS.iter().enumerate() {
            assert!(!SIGNS[n + 1..].contains(sign));
            assert!(!"01BDGILOQSUVZ".contains(*sign));
        }
        assert!(HOW.contains(&SIGNS.iter().collect::<String>()));
    }
}
