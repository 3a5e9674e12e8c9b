//! The sixteen regions of a core, and the calls over those that each is lent. For
//! [`Core`](crate::Core), and for tests, which look at every byte and lend wrong lengths.

use crate::raw;

/// Writes the regions once: name, type and number of elements, in the order of
/// crates/rules/specs/State.antt.
macro_rules! regions {
    ($($(#[$doc:meta])* $name:ident: [$element:ty; $count:literal],)*) => {
        /// All memory of a core, laid out as `struct osnma_core` of `include/osnma.h`. A "stamp"
        /// is a GST_SF plus 1, or 0 for never.
        #[derive(Clone, Debug, PartialEq, Eq)]
        #[repr(C)]
        pub struct Regions {
            $($(#[$doc])* pub $name: [$element; $count],)*
        }

        /// Regions of any lengths, lent to a call that may write.
        #[derive(Debug)]
        pub struct Lent<'a> {
            $(#[allow(missing_docs)] pub $name: &'a mut [$element],)*
        }

        /// Regions of any lengths, lent to a read.
        #[derive(Clone, Copy, Debug)]
        pub struct View<'a> {
            $(#[allow(missing_docs)] pub $name: &'a [$element],)*
        }

        impl Regions {
            /// Zeros everywhere.
            pub const fn zeroed() -> Regions {
                Regions { $($name: [0; $count],)* }
            }

            /// All regions, to write.
            pub fn lend(&mut self) -> Lent<'_> {
                Lent { $($name: &mut self.$name,)* }
            }

            /// All regions, to read.
            pub fn view(&self) -> View<'_> {
                View { $($name: &self.$name,)* }
            }
        }

        impl Lent<'_> {
            /// The same regions, to read.
            pub fn view(&self) -> View<'_> {
                View { $($name: self.$name,)* }
            }
        }
    };
}

regions! {
    /// NS, MACLT, 14 + 14 marks, tree root, and 1 where the core is stopped.
    config: [u8; 63],
    /// Stamps: the last sub-frame, the last sub-frame of each PRN, the last word of each PRN.
    clocks: [u32; 73],
    /// By PRN: words 1 to 5.
    words: [u8; 2880],
    /// By PRN: the stamp of the sub-frame that each word came in.
    stamps: [u32; 180],
    /// By DSM ID: 16 blocks of 13 bytes.
    blocks: [u8; 3328],
    /// By DSM ID: the NMA header that its blocks came with.
    headers: [u8; 16],
    /// By DSM ID: the blocks present, block 0 in the lowest bit.
    present: [u16; 16],
    /// By DSM ID: GST_SF of the block that came first; no stamp.
    since: [u32; 16],
    /// By key ID: the type plus 1 (0 where none is held), the public key in 67 bytes.
    pubkeys: [u8; 1088],
    /// 1 where a message waits, its key ID, message and signature.
    offer: [u8; 179],
    /// 1 in force, 2 dropped, 0 where there was none; the contents put in force last.
    chain: [u8; 45],
    /// The held TESLA key's slot, and the count of waiting tags.
    numbers: [u64; 2],
    /// The held TESLA key, zeros after a short one.
    heldkey: [u8; 32],
    /// 256 places for waiting tags, 84 bytes each, in order of arrival.
    waiting: [u8; 21504],
    /// By PRN: the authentic set. Then by PRN: the candidate.
    sets: [u8; 4968],
    /// By PRN: the stamp of the sub-frame that brought that set's tag. Then by PRN: that of the
    /// candidate's latest tag, 0 where there is no candidate. Then by PRN: the tag bits that agree on
    /// it.
    arrivals: [u32; 108],
}

// As the header says of `struct osnma_core`.
const _: () = assert!(size_of::<Regions>() <= 35_664);

/// In the place of a number of missing blocks: block 0 is not held, so the total is unknown.
pub const UNKNOWN_TOTAL: u8 = 255;

/// Lends the named regions to an export, by pointer and count, and then its other arguments.
macro_rules! lend {
    ($export:ident, $from:ident.$pointer:ident, [$($region:ident)*], $($other:expr),*) => {
        raw::$export($($from.$region.$pointer(), $from.$region.len(),)* $($other),*)
    };
}

/// Lends all regions.
macro_rules! lend_all {
    ($export:ident, $from:ident, $($other:expr),*) => {
        lend!(
            $export,
            $from.as_mut_ptr,
            [config clocks words stamps blocks headers present since
             pubkeys offer chain numbers heldkey waiting sets arrivals],
            $($other),*
        )
    };
}

/// The calls that write give document 01's number, but for a sub-frame, which has two.
impl Lent<'_> {
    /// `marks` are those of second 0, then those of second 30.
    #[allow(clippy::too_many_arguments)]
    pub fn start(
        &mut self,
        ns: u8,
        key_id: u8,
        key_type: u8,
        maclt: u8,
        marks: &[u8],
        tree_root: &[u8],
        key: &[u8],
    ) -> u32 {
        // SAFETY: each pointer is of a live slice and has its length beside it; what is written is
        // borrowed for that alone.
        unsafe {
            lend_all!(
                osnma_regions_start,
                self,
                ns,
                key_id,
                key_type,
                maclt,
                marks.as_ptr(),
                marks.len(),
                tree_root.as_ptr(),
                tree_root.len(),
                key.as_ptr(),
                key.len()
            )
        }
    }

    /// An I/NAV word.
    pub fn word(&mut self, prn: u8, time: u32, word: &[u8]) -> u32 {
        // SAFETY: as above.
        unsafe {
            lend!(
                osnma_regions_word,
                self.as_mut_ptr,
                [config clocks words stamps],
                prn,
                time,
                word.as_ptr(),
                word.len()
            )
        }
    }

    /// The authentication fields of a sub-frame, with a mark a field, 1 for received: field 0 in the
    /// top bit, and the lowest bit is not read. Gives the count of tag records in `area`, and the
    /// numbers of both halves.
    #[allow(clippy::too_many_arguments)]
    pub fn subframe(
        &mut self,
        area: &mut [u8],
        prn: u8,
        time: u32,
        marks: u16,
        fields: &[u8],
        hkroot: &mut u32,
        mack: &mut u32,
    ) -> u32 {
        // SAFETY: as above.
        unsafe {
            lend_all!(
                osnma_regions_subframe,
                self,
                area.as_mut_ptr(),
                area.len(),
                prn,
                time,
                marks,
                fields.as_ptr(),
                fields.len(),
                hkroot,
                mack
            )
        }
    }

    /// 1 good, 0 bad.
    pub fn verdict(&mut self, good: u8, key_id: u8, message: &[u8], signature: &[u8]) -> u32 {
        // SAFETY: as above.
        unsafe {
            lend!(
                osnma_regions_verdict,
                self.as_mut_ptr,
                [config pubkeys offer chain numbers heldkey waiting arrivals],
                good,
                key_id,
                message.as_ptr(),
                message.len(),
                signature.as_ptr(),
                signature.len()
            )
        }
    }
}

/// The reads give document 01's number. Where they refuse, byte strings stay and numbers are 0.
impl View<'_> {
    /// A satellite's authentic set, its IODnav and the GST_SF of its tag.
    pub fn read_set(&self, prn: u8, set: &mut [u8], iodnav: &mut u16, time: &mut u32) -> u32 {
        // SAFETY: as above.
        unsafe {
            lend!(
                osnma_regions_read_set,
                self.as_ptr,
                [sets arrivals],
                prn,
                set.as_mut_ptr(),
                set.len(),
                iodnav,
                time
            )
        }
    }

    /// Writes to `yes` whether at least four authentic sets are at most `limit` sub-frames old: 1 for yes, 0 for no.
    /// Answers 0, or 1 where a length is wrong.
    pub fn four(&self, limit: u32, yes: &mut u8) -> u32 {
        // SAFETY: as above.
        unsafe {
            lend!(
                osnma_regions_four,
                self.as_ptr,
                [clocks arrivals],
                limit,
                yes
            )
        }
    }

    /// What waits for a verdict, and its public key.
    pub fn read_message(
        &self,
        message: &mut [u8],
        signature: &mut [u8],
        key: &mut [u8],
        key_id: &mut u8,
        key_type: &mut u8,
    ) -> u32 {
        // SAFETY: as above.
        unsafe {
            lend!(
                osnma_regions_read_message,
                self.as_ptr,
                [pubkeys offer],
                message.as_mut_ptr(),
                message.len(),
                signature.as_mut_ptr(),
                signature.len(),
                key.as_mut_ptr(),
                key.len(),
                key_id,
                key_type
            )
        }
    }

    /// Writes a pair for each of the sixteen DSM IDs: the blocks held, and those missing of the total that block 0
    /// names, at least 0, or [`UNKNOWN_TOTAL`] without block 0.
    pub fn progress(&self, pairs: &mut [u8]) -> u32 {
        // SAFETY: as above.
        unsafe {
            lend!(
                osnma_regions_progress,
                self.as_ptr,
                [blocks present],
                pairs.as_mut_ptr(),
                pairs.len()
            )
        }
    }
}
