//! The layout of a MACK section, what of it is missing, and the check of its keys (000, 4; 01, MACK;
//! 02, P3).

use crate::bits::take;
use crate::chain::{Chain, TeslaKey};
use crate::gather::{header_cid, nma_status};
use crate::kroot::{ChainParameters, INFO_BITS, SECTION_BITS};
use crate::numbers::{Number, KEY_FAILS, NO_CHAIN, TOO_FAR};
use crate::received::Received;
use crate::times::Gst;
use std::collections::BTreeSet;
use std::ops::Range;

pub const SECTION_LEN: usize = SECTION_BITS / 8;
/// Slots that a key may lie past the key held when the section came.
const MAX_GAP: u64 = 1_000_000;
const PRN_BITS: usize = 8;
const ADKD_BITS: usize = 4;
/// Bits of the section in one field of the sub-frame.
const BITS_A_FIELD: usize = 32;

/// Block and position in it, each from 1.
pub type Place = (u8, u8);
/// The first field of the section.
pub const FIRST: Place = (1, 1);

/// The widths of a chain's sections, in bits.
#[derive(Clone, Copy, Debug, PartialEq, Eq)]
pub struct Layout {
    pub blocks: u8,
    pub block_bits: usize,
    /// Fields in a block.
    pub fields: usize,
    pub tag_bits: usize,
    pub key_bits: usize,
}

impl Layout {
    /// None for parameters that no chain in force has.
    pub fn of(parameters: &ChainParameters) -> Option<Layout> {
        let (tag_bits, key_bits) = (parameters.tag_bits()?, parameters.key_bits()?);
        let block_bits = SECTION_BITS.checked_div(usize::from(parameters.nmack))?;
        let fields = block_bits.checked_sub(key_bits)? / (tag_bits + INFO_BITS);
        Some(Layout {
            blocks: parameters.nmack,
            block_bits,
            fields,
            tag_bits,
            key_bits,
        })
    }

    /// Bits `from` to `to` of a field.
    fn part(&self, (block, position): Place, from: usize, to: usize) -> Range<usize> {
        let fields_before = usize::from(position - 1) * (self.tag_bits + INFO_BITS);
        let at = usize::from(block - 1) * self.block_bits + fields_before;
        at + from..at + to
    }

    fn tag(&self, place: Place) -> Range<usize> {
        self.part(place, 0, self.tag_bits)
    }

    fn prn(&self, place: Place) -> Range<usize> {
        self.part(place, self.tag_bits, self.tag_bits + PRN_BITS)
    }

    fn adkd(&self, place: Place) -> Range<usize> {
        let at = self.tag_bits + PRN_BITS;
        self.part(place, at, at + ADKD_BITS)
    }

    fn info(&self, place: Place) -> Range<usize> {
        self.part(place, self.tag_bits, self.tag_bits + INFO_BITS)
    }

    /// MACSEQ stands where another field has its PRN and ADKD.
    fn macseq(&self) -> Range<usize> {
        self.prn(FIRST).start..self.adkd(FIRST).end
    }

    fn key(&self, block: u8) -> Range<usize> {
        let fields = self.fields * (self.tag_bits + INFO_BITS);
        let at = usize::from(block - 1) * self.block_bits + fields;
        at..at + self.key_bits
    }

    /// What a block has after its key.
    fn spare(&self, block: u8) -> Range<usize> {
        self.key(block).end..usize::from(block) * self.block_bits
    }

    /// The places of all fields, in order.
    fn places(&self) -> impl Iterator<Item = Place> {
        let fields = self.fields as u8;
        (1..=self.blocks).flat_map(move |block| (1..=fields).map(move |position| (block, position)))
    }
}

/// A field of a block: a tag and its MAC-Info.
#[derive(Clone, Copy, Debug, PartialEq, Eq)]
pub struct Field {
    /// Block, from 1.
    pub block: u8,
    /// Position in the block, from 1.
    pub position: u8,
    pub tag: u64,
    /// PRN 8, ADKD 4, IOD 4; in the first field of the section MACSEQ 12, IOD 4.
    pub info: u16,
}

impl Field {
    pub fn place(&self) -> Place {
        (self.block, self.position)
    }
}

/// The items of a section of which a bit did not come (B3); by default none.
#[derive(Clone, Debug, Default, PartialEq, Eq)]
pub struct Missing {
    /// Blocks whose key is missing.
    pub keys: BTreeSet<u8>,
    /// Fields whose tag is.
    pub tags: BTreeSet<Place>,
    pub prns: BTreeSet<Place>,
    pub adkds: BTreeSet<Place>,
    /// Fields of whose MAC-Info a bit is missing: of PRN, ADKD or IOD (B4).
    pub infos: BTreeSet<Place>,
    pub macseq: bool,
}

impl Missing {
    pub fn of(received: Received, layout: &Layout) -> Missing {
        let missing = |mut bits: Range<usize>| bits.any(|bit| !received.has(bit / BITS_A_FIELD));
        let fields = |part: fn(&Layout, Place) -> Range<usize>| {
            let lost = |place: &Place| missing(part(layout, *place));
            layout.places().filter(lost).collect()
        };
        Missing {
            keys: (1..=layout.blocks)
                .filter(|&block| missing(layout.key(block)))
                .collect(),
            tags: fields(Layout::tag),
            prns: fields(Layout::prn),
            adkds: fields(Layout::adkd),
            infos: fields(Layout::info),
            macseq: missing(layout.macseq()),
        }
    }
}

/// A MACK section taken apart.
#[derive(Clone, Debug, PartialEq, Eq)]
pub struct Section {
    /// The fields of all blocks, in order.
    pub fields: Vec<Field>,
    /// The key of each block, and whether its spare bits are zero.
    pub keys: Vec<(TeslaKey, bool)>,
}

impl Section {
    /// Bits that did not come are zero in `bytes`, so that a missing spare bit is not judged.
    pub fn read(bytes: &[u8; SECTION_LEN], layout: &Layout) -> Section {
        let number = |bits: Range<usize>| take(bytes, bits.start, bits.len());
        let key = |block| -> Vec<u8> {
            let bits = layout.key(block).step_by(8);
            bits.map(|at| take(bytes, at, 8) as u8).collect()
        };
        let spare_is_zero = |block| layout.spare(block).all(|bit| take(bytes, bit, 1) == 0);
        Section {
            fields: layout
                .places()
                .map(|place| Field {
                    block: place.0,
                    position: place.1,
                    tag: number(layout.tag(place)),
                    info: number(layout.info(place)) as u16,
                })
                .collect(),
            keys: (1..=layout.blocks)
                .map(|block| (TeslaKey::new(&key(block)), spare_is_zero(block)))
                .collect(),
        }
    }
}

/// Row 11 of a section: no chain, status 0 or 3, other CID, before sub-frame 0.
pub fn applicable(chain: Option<&mut Chain>, header: u8, time: Gst) -> Result<&mut Chain, Number> {
    chain
        .filter(|chain| {
            matches!(nma_status(header), 1 | 2)
                && header_cid(header) == chain.parameters.cid
                && time.seconds() >= chain.slots.start
        })
        .ok_or(NO_CHAIN)
}

/// Checks the keys of a whole section.
pub fn prove_keys(chain: &mut Chain, section: &Section, prn: u8, time: Gst) -> Result<(), Number> {
    prove_received_keys(chain, section, &Missing::default(), prn, time)
}

/// Checks the keys that came block by block, each for 13 then 12 (A55), and holds the highest
/// proved key. The first failing block refuses the whole section.
pub fn prove_received_keys(
    chain: &mut Chain,
    section: &Section,
    missing: &Missing,
    prn: u8,
    time: Gst,
) -> Result<(), Number> {
    let (mut highest, mut highest_slot) = (chain.held, chain.held_slot);
    for (block, &(key, spare_is_zero)) in (1u8..).zip(&section.keys) {
        // A missing key is left unchecked, by 13 too; the block's spare bits are not (B7).
        if missing.keys.contains(&block) {
            if !spare_is_zero {
                return Err(KEY_FAILS);
            }
            continue;
        }
        let slot = chain.slots.of_key(time.seconds(), block, prn);
        if slot > chain.held_slot + MAX_GAP {
            return Err(TOO_FAR);
        }
        // A key above the highest proved one must hash down to it, a key at or below must equal it
        // hashed down.
        let proved = if slot > highest_slot {
            chain.hash_down(&key, slot, highest_slot) == highest
        } else {
            chain.hash_down(&highest, highest_slot, slot) == key
        };
        if !proved || !spare_is_zero {
            return Err(KEY_FAILS);
        }
        if slot > highest_slot {
            (highest, highest_slot) = (key, slot);
        }
    }
    (chain.held, chain.held_slot) = (highest, highest_slot);
    Ok(())
}
