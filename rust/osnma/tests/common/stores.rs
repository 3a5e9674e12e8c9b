//! How far along each message is, on blocks and marks of any contents (02, P9).

use osnma::regions::{Regions, UNKNOWN_TOTAL};
use second_receiver::progress::Progress;
use signal::rng::Rng;

/// What the second receiver says of these contents.
pub fn progress_of(regions: &Regions) -> [Progress; 16] {
    std::array::from_fn(|id| {
        let blocks = regions.blocks[208 * id..208 * (id + 1)].chunks_exact(13);
        let mut blocks = blocks.map(|block| block.try_into().expect("13 bytes"));
        let marks = regions.present[id];
        let block = |k| blocks.next().filter(|_| marks >> k & 1 == 1);
        Progress::of(std::array::from_fn(block))
    })
}

/// The answer as it is lent: a pair for each DSM ID.
pub fn pairs(progress: [Progress; 16]) -> [[u8; 2]; 16] {
    progress.map(|of_id| [of_id.held, of_id.missing.unwrap_or(UNKNOWN_TOTAL)])
}

/// What can be told of a DSM ID; of what calls leave only the first three.
pub const TOLD: [&str; 6] = [
    "nothing held",
    "total unknown",
    "blocks missing",
    "none missing",
    "more held than the total",
    "reserved NB",
];

/// How often each of these was told.
pub type Told = [u64; TOLD.len()];

/// Which of them a DSM ID is, by its marks and its block 0's first byte.
fn told(marks: u16, first: u8) -> usize {
    let held = (0..16).filter(|k| marks >> k & 1 == 1).count();
    match (held, marks & 1, usize::from(first >> 4)) {
        (0, ..) => 0,
        (_, 0, _) => 1,
        (_, _, 0 | 11..) => 5,
        (_, _, nb) if held < nb + 6 => 2,
        (_, _, nb) if held == nb + 6 => 3,
        _ => 4,
    }
}

/// Adds what is told of all DSM IDs.
pub fn tell(regions: &Regions, sums: &mut Told) {
    for (id, &marks) in regions.present.iter().enumerate() {
        sums[told(marks, regions.blocks[208 * id])] += 1;
    }
}

/// Any bytes as blocks. The marks of an ID are any, few, almost all or none, with and without block 0; that block's NB is
/// any, or near the number of marks.
pub fn draw(rng: &mut Rng, regions: &mut Regions) {
    rng.fill(&mut regions.blocks);
    for (id, marks) in regions.present.iter_mut().enumerate() {
        let any = rng.number();
        *marks = match rng.below(8) {
            0 => 0,
            1 => 1 << rng.below(16),
            2 => !(1 << rng.below(16)),
            3 => u16::MAX >> rng.below(16),
            4 => (any & any >> 16 & any >> 32) as u16,
            5 => (any | any >> 16) as u16,
            _ => any as u16,
        };
        if rng.once_in(2) {
            *marks |= 1;
        }
        if rng.once_in(2) {
            let nb = (u64::from(marks.count_ones()) + rng.below(3)).saturating_sub(7);
            let first = &mut regions.blocks[208 * id];
            *first = *first & 15 | (nb as u8) << 4;
        }
    }
}

/// Asks of this many contents: what the core says is what the second receiver's rule says, and no byte changes. Gives what
/// was told.
pub fn compare(count: u64, seed: u64) -> Result<Told, String> {
    let (mut rng, mut sums) = (Rng::new(seed), Told::default());
    let mut regions = Regions::zeroed();
    for at in 1..=count {
        draw(&mut rng, &mut regions);
        let before = (regions.blocks, regions.present);
        let mut got = [[0; 2]; 16];
        rng.fill(got.as_flattened_mut());
        let number = regions.view().progress(got.as_flattened_mut());
        let right = pairs(progress_of(&regions));
        if (number, got) != (0, right) || before != (regions.blocks, regions.present) {
            let firsts: [u8; 16] = std::array::from_fn(|id| regions.blocks[208 * id]);
            return Err(format!(
                "state {at}: {number} and {got:?}, not {right:?}: marks {:?}, first bytes {firsts:?}",
                regions.present
            ));
        }
        tell(&regions, &mut sums);
    }
    Ok(sums)
}
