//! The authentication core of a Galileo OSNMA receiver (signal-in-space testing specification
//! v1.1), for Rust.
//!
//! The core itself is written in Rattle and proved: every call equals its definition in
//! `crates/rules/specs/Calls.antt`, for every contents of the memory that it is lent. This crate
//! owns that memory ([`Core`]) and lends it to each call. It allocates nothing, needs no standard
//! library, and cannot panic.
//!
//! **The order of a half minute**: the authentication fields of ALL satellites are lent before the
//! words of ANY. A word that is lent before a section of its own half minute takes its satellite's set
//! out of use for that section: its tags get [`Outcome::NoUsableSet`], every call answers `Ok`, and
//! nothing is authenticated. On the air words come between the fields; [`collector::Collector`] takes
//! pages as they come and lends them in this order.
//!
//! **The specification** is the one for signal-in-space testing, v1.1, of 2018, not the later
//! operational interface control document, whose messages differ.
//!
//! **The archive**: the build links `libosnma.a`, x86-64 ELF, which `tools/build osnma` writes to
//! `target/staticlib` of the repository; the environment variable `OSNMA_STATICLIB` names another
//! folder. `cargo check` and `cargo doc` need none. An archive of another layout than this crate's
//! does not link ([`LAYOUT`]).
//!
//! What the receiver around the core must do itself, a clock of its own above all, stands in
//! `docs/INTEGRATION.md`.
//!
//! ```
//! use osnma::{Core, Gst, Refusal, Settings};
//!
//! let settings = Settings {
//!     ns: 36,
//!     key_id: 3,
//!     key_type: 1,
//!     maclt: 27,
//!     // The first field of a section is always ADKD 0; the others are flexible here.
//!     marks: [[0, 255, 255, 255, 255, 255, 255, 255, 255, 255, 255, 255, 255, 255]; 2],
//!     tree_root: [0x5E; 32],
//!     // 33 bytes of a key of type 1; what follows them is not read.
//!     key: [0x02; 67],
//! };
//! let mut core = Core::new();
//! core.start(&settings)?;
//!
//! // A word of type 1 from PRN 18, in the sub-frame at second 432000 of week 947.
//! let time = Gst::new(947, 432_000).ok_or(Refusal::OutOfRange)?;
//! let mut word = [0; 16];
//! word[0] = 1 << 2;
//! core.word(18, time, &word)?;
//! assert_eq!(core.word(37, time, &word), Err(Refusal::OutOfRange));
//!
//! // No tag has shown the satellite's data to be authentic, so no four satellites have such data of the
//! // last five minutes, and no message waits for the chip.
//! assert_eq!(core.read_set(18), Err(Refusal::NoSet));
//! assert!(!core.four(10));
//! assert_eq!(core.read_message(), Err(Refusal::NotWaiting));
//! // Nor has a block of any come.
//! assert!(core.progress().all(|message| message.held == 0));
//! # Ok::<(), Refusal>(())
//! ```
//!
//! A half minute: the authentication fields of all satellites, 75 bytes each, with an area for the
//! records of the tags that they judge, then all words:
//!
//! ```
//! use osnma::{Core, Gst, Outcome, Records, Refusal, WaitingMessage};
//!
//! fn half_minute(
//!     core: &mut Core,
//!     records: &mut Records,
//!     time: Gst,
//!     fields: &[(u8, [u8; 75])],
//!     words: &[(u8, [u8; 16])],
//!     chip: impl Fn(&WaitingMessage) -> bool,
//! ) {
//!     for (prn, fields) in fields {
//!         let answer = core.subframe(*prn, time, fields, records);
//!         for tag in answer.tags.filter(|tag| tag.outcome == Outcome::Authentic) {
//!             // The set of satellite `tag.prn`, as it was at `tag.time`, is authentic.
//!             let _set = core.read_set(tag.prn);
//!         }
//!     }
//!     for (prn, word) in words {
//!         let _ = core.word(*prn, time, word);
//!     }
//!     // A root message may wait for the chip now.
//!     if let Ok(waiting) = core.read_message() {
//!         let _ = core.verdict_on(&waiting, chip(&waiting));
//!     }
//! }
//! # let (mut core, mut records, time) = (Core::new(), osnma::NO_RECORDS, Gst::from_bits(0));
//! # half_minute(&mut core, &mut records, time, &[(1, [0; 75])], &[(1, [0; 16])], |_| false);
//! ```
//!
//! A sub-frame of which fields did not come is lent with its [`Marks`], by
//! [`Core::subframe_marked`].

#![no_std]
#![warn(missing_docs)]
#![deny(
    clippy::arithmetic_side_effects,
    clippy::expect_used,
    clippy::indexing_slicing,
    clippy::panic,
    clippy::unreachable,
    clippy::unwrap_used
)]

pub mod collector;
mod gst;
mod marks;
mod progress;
mod raw;
mod refusal;
#[cfg(feature = "regions")]
pub mod regions;
// What tests alone use of it is then dead.
#[cfg(not(feature = "regions"))]
#[allow(dead_code)]
mod regions;
mod tag_record;
mod told;
mod waiting_message;

pub use gst::Gst;
pub use marks::Marks;
pub use progress::Progress;
pub use refusal::Refusal;
pub use tag_record::{Outcome, TagRecord, TagRecords};
pub use waiting_message::WaitingMessage;

use refusal::answered;
use regions::Regions;
use told::Told;

/// The version of this crate, of `include/osnma.h` and of the archive's calls (`CHANGELOG.md`).
pub const VERSION: &str = env!("CARGO_PKG_VERSION");
/// The number of the layout that this crate lends: it rises whenever a region, in size or in meaning, or
/// the parameters of an export change; a new export alone does not raise it. The archive exports a
/// function whose name ends in it, which [`Core::start`] calls, so that an archive of another layout does
/// not link.
pub const LAYOUT: u32 = 2;

/// Bytes of the authentication fields of a sub-frame: 15 of five bytes.
pub const FIELDS_LEN: usize = 75;
/// Bytes of the area for tag records: 256 tags that waited and 14 of the section's own.
pub const RECORDS_LEN: usize = 3_240;
/// Bytes of a tag record.
pub const RECORD_LEN: usize = 12;
/// Bytes of an I/NAV word.
pub const WORD_LEN: usize = 16;
/// Bytes of a navigation set: 549 bits of words 1 to 5, then three zero bits.
pub const SET_LEN: usize = 69;
/// Bytes of a signed message, zeros after a short one.
pub const MESSAGE_LEN: usize = 45;
/// Bytes of a signature, zeros after a short one.
pub const SIGNATURE_LEN: usize = 132;
/// Bytes of a public key, zeros after a short one.
pub const KEY_LEN: usize = 67;
/// Bytes of the root of the tree of public keys.
pub const TREE_ROOT_LEN: usize = 32;
/// DSM IDs: 0 to 11 of DSM-KROOTs, 12 to 15 of DSM-PKRs.
pub const DSM_IDS: usize = 16;
/// The tag bits that must agree on a set before it is authentic.
pub const AUTHENTIC_BITS: u32 = 40;
/// The mark of a flexible field; the others are 0 to 15, the ADKD of a fixed one.
pub const FLEXIBLE: u8 = 255;

/// What a start is given.
#[derive(Clone, Debug, PartialEq, Eq)]
pub struct Settings {
    /// Satellites with keys of their own in a block: 1 to 36.
    pub ns: u8,
    /// ID of the public key: 0 to 15.
    pub key_id: u8,
    /// Type of the public key: 0 to 3, for 29, 33, 49 or 67 bytes.
    pub key_type: u8,
    /// The one MACLT number that is taken; any byte.
    pub maclt: u8,
    /// Marks of the fields at second 0 and at second 30 of the minute: 0 to 15 or [`FLEXIBLE`]
    /// each, the first 0.
    pub marks: [[u8; 14]; 2],
    /// The installed root of the tree of public keys.
    pub tree_root: [u8; TREE_ROOT_LEN],
    /// The public key; what follows a short one is not read.
    pub key: [u8; KEY_LEN],
}

/// A satellite's navigation data that tags showed to be authentic.
#[derive(Clone, Debug, PartialEq, Eq)]
pub struct AuthenticSet {
    /// The 549 bits of words 1 to 5, then three zero bits.
    pub bytes: [u8; SET_LEN],
    /// Their IODnav.
    pub iodnav: u16,
    /// When the latest of the tags came that agree with them.
    pub time: Gst,
}

/// What the question [`four`](Core::four) is lent of a core, to read ([`Core::lent_to_four`]). The numbers are the core's own.
#[derive(Clone, Copy, Debug)]
pub struct LentToFour<'a> {
    #[allow(missing_docs)]
    pub clocks: &'a [u32],
    #[allow(missing_docs)]
    pub arrivals: &'a [u32],
}

/// The area that a sub-frame's tag records are written to. Bytes past the records stay as they are.
pub type Records = [u8; RECORDS_LEN];

/// An area for tag records, to begin with.
pub const NO_RECORDS: Records = [0; RECORDS_LEN];

/// What a sub-frame answers.
#[derive(Clone, Debug)]
pub struct SubframeAnswer<'a> {
    /// The HKROOT half: its block, and the message that the block completes.
    pub hkroot: Result<(), Refusal>,
    /// The MACK half: the section's keys and tags.
    pub mack: Result<(), Refusal>,
    /// The tags that were judged: those that had waited and were due, then the section's own. None
    /// where the MACK half is refused.
    pub tags: TagRecords<'a>,
}

/// The core: all memory that the calls take up, 35,664 bytes.
///
/// Only a [`start`](Core::start) makes it a receiver. Before the first accepted one no satellite,
/// message or chain is known: words are taken by the same rules and forgotten at the start, and
/// reads find nothing.
#[derive(Clone)]
pub struct Core {
    regions: Regions,
    told: Told,
}

impl Core {
    /// Zeroed memory, to be started. It is a constant, so that a core can stand in a `static`.
    pub const fn new() -> Core {
        Core {
            regions: Regions::zeroed(),
            told: Told::NOTHING,
        }
    }

    /// Begins a new list with what it is given and nothing from before: no word, block, message,
    /// chain, tag, set, candidate or time. Also ends a stop.
    ///
    /// # Errors
    /// [`Refusal::OutOfRange`] where NS, key ID, key type or a mark is not in its range, or the
    /// first mark of a list is not 0; the core is then as before. So it is after
    /// [`Refusal::WrongLength`]: the archive has the name of this [`LAYOUT`] and not its number.
    pub fn start(&mut self, settings: &Settings) -> Result<(), Refusal> {
        if layout() != LAYOUT {
            return Err(Refusal::WrongLength);
        }
        self.told.start(answered(self.regions.lend().start(
            settings.ns,
            settings.key_id,
            settings.key_type,
            settings.maclt,
            settings.marks.as_flattened(),
            &settings.tree_root,
            &settings.key,
        )))
    }

    /// Whether an emergency message stopped the core: since the last accepted start a section, a word
    /// or a verdict was answered [`Refusal::Stopped`]. The core goes on to answer so to all but a new start
    /// and the reads, [`four`](Core::four) and [`progress`](Core::progress) among them, and what these give
    /// is no longer to be used.
    pub const fn is_stopped(&self) -> bool {
        self.told.stopped
    }

    /// Whether a chain is in force: since the last accepted start the last verdict that was answered
    /// `Ok` was on a message of status 1 or 2 (01). Without one, sections are answered
    /// [`Refusal::NotInForce`] and nothing is authenticated.
    pub const fn chain_in_force(&self) -> bool {
        self.told.chain_in_force
    }

    /// The authentication fields of a satellite's sub-frame at `time`; those of all satellites are lent
    /// before the words of any.
    ///
    /// The first byte of each five is the HKROOT half: the block is gathered, and a message that it
    /// completes is judged. A DSM-KROOT then waits for a verdict, a DSM-PKR brings a public key or
    /// stops the core. The others are the MACK half: the section's keys are proved, the tags that
    /// waited for them and the section's own are judged, and `records` has a record for each.
    ///
    /// A half that is refused changes no public key, chain, held key, authentic set or candidate.
    ///
    /// The section walks one step of the chain's hash for each slot from its key down to the held one, at
    /// most 1,000,000, also where it is then refused with [`Refusal::KeyUnfit`] (`docs/INTEGRATION.md`,
    /// "Threads, room and time").
    ///
    /// # Refusals
    /// In this order, each in both halves, and the core is as before:
    /// - [`Refusal::OutOfRange`]: PRN not 1 to 36, or a time that is no start of a sub-frame;
    /// - [`Refusal::Stopped`];
    /// - [`Refusal::OutOfOrder`]: earlier than the last sub-frame, or not later than this satellite's
    ///   last;
    /// - [`Refusal::AllZero`]: 75 zero bytes; the time is noted.
    ///
    /// Then the time is noted, and the HKROOT half alone answers
    /// - [`Refusal::BlockUnfit`]: the block is dropped, or the complete message;
    /// - [`Refusal::KeyNotHeld`], [`Refusal::ParametersUnfit`]: a complete DSM-KROOT is dropped; what
    ///   waits goes on waiting;
    /// - [`Refusal::TreeUnfit`], [`Refusal::NotNewer`]: a complete DSM-PKR is dropped;
    ///
    /// and after it the MACK half alone
    /// - [`Refusal::Stopped`]: this sub-frame brought an emergency message, and the core stops;
    /// - [`Refusal::NotInForce`]: no chain in force, status 0 or 3, another CID, or a time before the
    ///   chain's sub-frame 0;
    /// - [`Refusal::TooFar`], [`Refusal::KeyUnfit`]: block by block; the whole section is refused.
    pub fn subframe<'a>(
        &mut self,
        prn: u8,
        time: Gst,
        fields: &[u8; FIELDS_LEN],
        records: &'a mut Records,
    ) -> SubframeAnswer<'a> {
        self.subframe_marked(prn, time, Marks::ALL, fields, records)
    }

    /// The authentication fields of a sub-frame of which some may not have been received. With
    /// [`Marks::ALL`] it is [`subframe`](Core::subframe) in all. What the bytes of a lost field hold
    /// changes nothing.
    ///
    /// Tags that cannot be judged for want of a bit have [`Outcome::BitsMissing`]: all of a block
    /// whose key is missing; a tag that is missing itself, or, of a fixed field but the first, its
    /// MAC-Info; and all flexible ones where MACSEQ or MAC-Info of a flexible field is. A missing key
    /// is not looked at, and neither is a missing spare bit.
    ///
    /// # Refusals
    /// Those of [`subframe`](Core::subframe), in its order, but for:
    /// - [`Refusal::AllZero`]: all fields that were received, if any, are zero;
    /// - [`Refusal::FieldsMissing`], after it, with the time noted: in the HKROOT half, before its
    ///   others, where any field is lost (nothing is stored, dropped or taken out); in the MACK half,
    ///   before its others, where the first is.
    pub fn subframe_marked<'a>(
        &mut self,
        prn: u8,
        time: Gst,
        marks: Marks,
        fields: &[u8; FIELDS_LEN],
        records: &'a mut Records,
    ) -> SubframeAnswer<'a> {
        let (mut hkroot, mut mack) = (0, 0);
        let mut lent = self.regions.lend();
        let (time, marks) = (time.bits(), marks.bits());
        let count = lent.subframe(records, prn, time, marks, fields, &mut hkroot, &mut mack);
        SubframeAnswer {
            hkroot: answered(hkroot),
            mack: self.told.call(answered(mack)),
            tags: TagRecords::of(records, count),
        }
    }

    /// An I/NAV word of a satellite, in the sub-frame at `time`. The fields of ALL satellites of a half
    /// minute are lent before the words of ANY: a satellite of which a word of this half minute was lent
    /// has no usable set for the sections of it that come after.
    ///
    /// A word of types 1 to 5 replaces the satellite's word of its type. Words of other types change
    /// nothing.
    ///
    /// # Errors
    /// In this order, and the core is as before:
    /// - [`Refusal::OutOfRange`]: PRN not 1 to 36, a time that is no start of a sub-frame, or a
    ///   word 4 whose SVID is not the PRN;
    /// - [`Refusal::Stopped`];
    /// - [`Refusal::OutOfOrder`]: earlier than this satellite's last word of types 1 to 5.
    pub fn word(&mut self, prn: u8, time: Gst, word: &[u8; WORD_LEN]) -> Result<(), Refusal> {
        self.told
            .call(answered(self.regions.lend().word(prn, time.bits(), word)))
    }

    /// The signature chip's verdict on the message that waits. All that it names must be what
    /// waits, the zeros after short parts too; what [`read_message`](Core::read_message) gave is
    /// handed back as it is.
    ///
    /// A good verdict on a message of status 1 or 2 drops public keys of lower ID and puts the root
    /// in force, unless these contents are in force already; one on a message of status 3 drops the
    /// chain in force. Either ends the wait. A root of another chain and a drop clear the candidates;
    /// authentic sets stay.
    ///
    /// # Errors
    /// In this order:
    /// - [`Refusal::OutOfRange`]: `key_id` above 15; the core is as before;
    /// - [`Refusal::Stopped`]: the core is as before;
    /// - [`Refusal::NotWaiting`]: nothing waits, or another key ID, message or signature; the core
    ///   is as before;
    /// - [`Refusal::VerdictBad`]: the wait ends, and nothing else changes, as with those that
    ///   follow;
    /// - [`Refusal::NotInForce`]: status 0; status 3 with no chain in force or another CID; status
    ///   1 or 2 with CIDKR other than CID;
    /// - [`Refusal::NotNewer`]: the root is earlier than the last put in force, or of the same time
    ///   with other contents, or not later where that one was dropped.
    pub fn verdict(
        &mut self,
        good: bool,
        key_id: u8,
        message: &[u8; MESSAGE_LEN],
        signature: &[u8; SIGNATURE_LEN],
    ) -> Result<(), Refusal> {
        let good = u8::from(good);
        let [header, ..] = *message;
        let answer = answered(
            self.regions
                .lend()
                .verdict(good, key_id, message, signature),
        );
        self.told.verdict(header, answer)
    }

    /// The verdict on a message as [`read_message`](Core::read_message) gave it.
    ///
    /// # Errors
    /// Those of [`verdict`](Core::verdict) from [`Refusal::Stopped`] on.
    pub fn verdict_on(&mut self, waiting: &WaitingMessage, good: bool) -> Result<(), Refusal> {
        self.verdict(good, waiting.key_id, &waiting.message, &waiting.signature)
    }

    /// A satellite's authentic set; a candidate is not given. Answers in a stopped core too.
    ///
    /// # Errors
    /// - [`Refusal::OutOfRange`]: PRN not 1 to 36;
    /// - [`Refusal::NoSet`]: tags have shown no set of this satellite to be authentic since the
    ///   start.
    pub fn read_set(&self, prn: u8) -> Result<AuthenticSet, Refusal> {
        let (mut bytes, mut iodnav, mut time) = ([0; SET_LEN], 0, 0);
        let view = self.regions.view();
        answered(view.read_set(prn, &mut bytes, &mut iodnav, &mut time))?;
        let time = Gst::from_bits(time);
        Ok(AuthenticSet {
            bytes,
            iodnav,
            time,
        })
    }

    /// Whether at least four satellites have an authentic set that is at most `limit` sub-frames of 30
    /// seconds old. It changes nothing, and every `limit` has an answer.
    ///
    /// The age of a set is the time from its tag, as [`read_set`](Core::read_set) gives it, to the last
    /// sub-frame that was noted, whichever satellite sent it; over the end of a week too. An age equal to
    /// `limit` counts. A tag that came later than that, which no start leads to, has age 0.
    /// - A sub-frame is noted unless it is refused in both halves with [`Refusal::OutOfRange`],
    ///   [`Refusal::Stopped`] or [`Refusal::OutOfOrder`]: one is noted that is answered
    ///   [`Refusal::AllZero`], [`Refusal::FieldsMissing`] or [`Refusal::NotInForce`], or whose section is
    ///   refused, and so is the one that stops the core. A word is not.
    /// - Candidates never count.
    /// - Before the first sub-frame is noted the answer is no, and so it is after an accepted start.
    /// - A stopped core answers too, and its answer is no longer to be used: ask
    ///   [`is_stopped`](Core::is_stopped) first.
    ///
    /// Ask once a half minute, when the fields of ALL its satellites are lent: the first of them moves the
    /// clock on, the tags of the others come after it.
    ///
    /// **No time passes but by sub-frames that are noted.** Under a roof, with the antenna's cable off or the
    /// receiver hung up, no sub-frame comes; where an old buffer is lent again, each is refused with
    /// [`Refusal::OutOfOrder`]. The ages then stay as they are, and a yes stays a yes for hours. Who opens a
    /// valve by this answer also watches a clock that the signal cannot set: he asks with the limit less the
    /// half minutes since a sub-frame was last noted (lent, and not refused in both halves as above), and
    /// takes the answer as no where those are more than the limit:
    ///
    /// ```
    /// use core::time::Duration;
    /// use osnma::Core;
    ///
    /// /// Whether a valve may open. `silence` is how long ago a sub-frame was last noted, by that clock.
    /// fn may_open(core: &Core, limit: u32, silence: Duration) -> bool {
    ///     let half_minutes = u32::try_from(silence.as_secs() / 30).unwrap_or(u32::MAX);
    ///     let left = limit.checked_sub(half_minutes);
    ///     !core.is_stopped() && left.is_some_and(|left| core.four(left))
    /// }
    /// # let mut core = Core::new();
    /// # assert!(!may_open(&core, 10, Duration::ZERO));
    /// # core.regions_mut().clocks[0] = 121;
    /// # // Four sets whose age is 0, then 4, and the longest silence that is a yes.
    /// # for (stamp, longest) in [(121, 329), (1, 209)] {
    /// #     core.regions_mut().arrivals[..4].fill(stamp);
    /// #     let silences = [0, longest, longest + 1].map(Duration::from_secs);
    /// #     assert_eq!(silences.map(|s| may_open(&core, 10, s)), [true, true, false]);
    /// # }
    /// ```
    pub fn four(&self, limit: u32) -> bool {
        let mut yes = 0;
        // The lengths are right, so it answers 0.
        let _ = self.regions.view().four(limit, &mut yes);
        yes == 1
    }

    /// What [`four`](Core::four) is lent, for a proved library that asks this question itself: `valve_gate`.
    pub const fn lent_to_four(&self) -> LentToFour<'_> {
        LentToFour {
            clocks: &self.regions.clocks,
            arrivals: &self.regions.arrivals,
        }
    }

    /// The message that waits for a verdict, with the public key to verify it under. It goes on
    /// waiting. Answers in a stopped core too.
    ///
    /// # Errors
    /// [`Refusal::NotWaiting`].
    pub fn read_message(&self) -> Result<WaitingMessage, Refusal> {
        let mut waiting = WaitingMessage {
            message: [0; MESSAGE_LEN],
            signature: [0; SIGNATURE_LEN],
            key: [0; KEY_LEN],
            key_id: 0,
            key_type: 0,
        };
        answered(self.regions.view().read_message(
            &mut waiting.message,
            &mut waiting.signature,
            &mut waiting.key,
            &mut waiting.key_id,
            &mut waiting.key_type,
        ))?;
        Ok(waiting)
    }

    /// How far along each message is: for each of the sixteen DSM IDs, in their order, the number of blocks
    /// held and, once block 0 is, the number still missing. It changes nothing. A stopped core answers too.
    ///
    /// What counts is what the core holds at this moment:
    /// - A complete message is taken out, whatever is then answered to it: its DSM ID has no block again.
    /// - Blocks over 3,600 seconds old count until the next one of their DSM ID is held, which drops them.
    /// - A block that is refused is not held.
    ///
    /// ```
    /// use osnma::{Core, Progress};
    ///
    /// /// The messages of which blocks are held.
    /// fn gathering(core: &Core) -> impl Iterator<Item = Progress> {
    ///     core.progress().filter(|message| message.held > 0)
    /// }
    /// # let mut core = Core::new();
    /// # assert_eq!(gathering(&core).next(), None);
    /// # // Blocks 1 and 4 of DSM ID 12, and blocks 0, 1 and 2 of DSM ID 3, which has 8 (NB 2).
    /// # core.regions_mut().present[12] = 0b10010;
    /// # core.regions_mut().present[3] = 0b111;
    /// # core.regions_mut().blocks[3 * 208] = 0x2F;
    ///
    /// for Progress { dsm_id, held, missing } in gathering(&core) {
    ///     match missing {
    ///         Some(missing) => println!("DSM {dsm_id}: {held} held, {missing} missing"),
    ///         None => println!("DSM {dsm_id}: {held} held, total unknown"),
    ///     }
    /// }
    /// # let found: Vec<_> = gathering(&core).map(|m| (m.dsm_id, m.held, m.missing)).collect();
    /// # assert_eq!(found, [(3, 3, Some(5)), (12, 2, None)]);
    /// # assert!(core.progress().rev().map(|m| m.dsm_id).eq((0..16).rev()));
    /// # assert_eq!(core.progress().len(), osnma::DSM_IDS);
    /// ```
    pub fn progress(&self) -> impl DoubleEndedIterator<Item = Progress> + ExactSizeIterator {
        let mut pairs = [[0; 2]; DSM_IDS];
        // The lengths are right, so it answers 0.
        let _ = self.regions.view().progress(pairs.as_flattened_mut());
        (0..DSM_IDS as u8).zip(pairs).map(Progress::of)
    }

    /// The memory as it is.
    #[cfg(feature = "regions")]
    pub fn regions(&self) -> &Regions {
        &self.regions
    }

    /// The memory as it is, to write. Every call is total, so no contents can make one unsafe; but
    /// an answer means what its documentation says only where the calls alone wrote it.
    #[cfg(feature = "regions")]
    pub fn regions_mut(&mut self) -> &mut Regions {
        &mut self.regions
    }
}

/// The layout that the archive was made for.
fn layout() -> u32 {
    // SAFETY: it takes nothing and returns a number.
    unsafe { raw::osnma_layout_2() }
}

impl Default for Core {
    fn default() -> Core {
        Core::new()
    }
}

impl core::fmt::Debug for Core {
    fn fmt(&self, f: &mut core::fmt::Formatter<'_>) -> core::fmt::Result {
        f.debug_struct("Core").finish_non_exhaustive()
    }
}
