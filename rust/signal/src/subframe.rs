//! The authentication field of a sub-frame: 15 times one byte of HKROOT and four of MACK (01, HKROOT), one of
//! each a page, and the marks that say which pages came (02, P3).

use crate::rng::Rng;

/// An HKROOT section.
pub type Hkroot = [u8; 15];
/// A MACK section.
pub type Mack = [u8; 60];
/// The field of a sub-frame.
pub type Field = [u8; 75];

/// The field that carries both sections.
pub fn join(hkroot: &Hkroot, mack: &Mack) -> Field {
    let mut out = [0; 75];
    for (i, five) in out.chunks_exact_mut(5).enumerate() {
        five[0] = hkroot[i];
        five[1..].copy_from_slice(&mack[4 * i..4 * i + 4]);
    }
    out
}

/// Marks of a sub-frame's 15 pages, 1 for received: the first in the top bit. The lowest bit is not read.
pub type Received = u16;
/// All came.
pub const ALL_CAME: Received = 0xFFFE;

/// Marks of a sub-frame that lost these of its pages.
pub fn without(lost: &[usize]) -> Received {
    lost.iter()
        .fold(ALL_CAME, |marks, page| marks & !(0x8000 >> page))
}

/// Whether a page came, counted from 0.
pub fn came(marks: Received, page: usize) -> bool {
    marks & (0x8000 >> page) != 0
}

/// Whether all 15 came.
pub fn all_came(marks: Received) -> bool {
    marks & ALL_CAME == ALL_CAME
}

/// Marks as they come under trees: mostly all, else one or two pages lost. The lowest bit is any.
pub fn under_trees(rng: &mut Rng) -> Received {
    let lost: Vec<usize> = match rng.below(3) {
        0 => (0..rng.range(1, 2))
            .map(|_| rng.below(15) as usize)
            .collect(),
        _ => Vec::new(),
    };
    without(&lost) | rng.below(2) as Received
}

/// Any bytes where a page did not come.
pub fn spoil(rng: &mut Rng, marks: Received, field: &mut Field) {
    for (page, bytes) in field.chunks_exact_mut(5).enumerate() {
        if !came(marks, page) {
            rng.fill(bytes);
        }
    }
}

/// The bit of the field at which bit `at` of the HKROOT section stands.
pub fn hkroot_bit(at: usize) -> usize {
    at / 8 * 40 + at % 8
}

/// The bit of the field at which bit `at` of the MACK section stands.
pub fn mack_bit(at: usize) -> usize {
    at / 32 * 40 + 8 + at % 32
}

#[cfg(test)]
mod tests {
    use super::*;
    use crate::bits;

    #[test]
    fn places() {
        for at in 0..480 {
            let (mut hkroot, mut mack) = ([0; 15], [0; 60]);
            bits::flip(&mut mack, at);
            assert_eq!(bits::get(&join(&hkroot, &mack), mack_bit(at), 1), 1);
            if at < 120 {
                bits::flip(&mut hkroot, at);
                assert_eq!(bits::get(&join(&hkroot, &[0; 60]), hkroot_bit(at), 1), 1);
            }
        }
        assert_eq!(join(&[1; 15], &[2; 60])[70..], [1, 2, 2, 2, 2]);
    }

    #[test]
    fn marks() {
        assert_eq!(without(&[0]), 0x7FFE);
        assert_eq!(without(&[14, 7]), 0xFEFC);
        assert!((0..15).all(|page| came(ALL_CAME, page)));
        assert!(!came(without(&[3]), 3) && came(without(&[3]), 4));
        assert!(all_came(0xFFFE) && all_came(0xFFFF) && !all_came(0xFFFC));
        let (mut rng, mut field) = (Rng::new(1), [7; 75]);
        spoil(&mut rng, without(&[2]), &mut field);
        assert_eq!((&field[..10], &field[15..]), (&[7; 10][..], &[7; 60][..]));
        assert_ne!(field[10..15], [7; 5]);
        let drawn: Vec<Received> = (0..200).map(|_| under_trees(&mut rng)).collect();
        let whole = drawn.iter().filter(|&&marks| all_came(marks)).count();
        assert!((100..170).contains(&whole), "{whole}");
        assert!(drawn.iter().all(|marks| (marks >> 1).count_ones() >= 13));
    }
}
