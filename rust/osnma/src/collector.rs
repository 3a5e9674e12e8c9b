//! A half minute as it comes off the air, lent to a core in the core's order.

use crate::{Core, Gst, Marks, Records, Refusal, SubframeAnswer, FIELDS_LEN, WORD_LEN};
use core::fmt;

/// Bytes of a part of an E1-B page: 120 bits.
pub const PART_LEN: usize = 15;
/// Bytes of the authentication field of a page: 40 bits.
pub const FIELD_LEN: usize = 5;

/// Pages of a sub-frame.
const PAGES: u32 = 15;
/// Bits of a part of a page.
const PART_BITS: u32 = 120;
/// Satellites, PRN 1 to 36.
const SATELLITES: usize = 36;

/// What a satellite sent in the half minute.
#[derive(Clone, Copy)]
struct Satellite {
    marks: Marks,
    fields: [u8; FIELDS_LEN],
    /// By type, from 1: the last word that came.
    words: [Option<[u8; WORD_LEN]>; 5],
}

impl Satellite {
    const SILENT: Satellite = Satellite {
        marks: Marks::NONE,
        fields: [0; FIELDS_LEN],
        words: [None; 5],
    };

    fn take_field(&mut self, page: u32, field: &[u8; FIELD_LEN]) {
        let mut places = self.fields.chunks_exact_mut(FIELD_LEN);
        if let Some(place) = usize::try_from(page).ok().and_then(|at| places.nth(at)) {
            place.copy_from_slice(field);
            self.marks = self.marks.with(page);
        }
    }

    fn take_word(&mut self, word: &[u8; WORD_LEN]) {
        let place = usize::from(kind(word)).wrapping_sub(1);
        if let Some(held) = self.words.get_mut(place) {
            *held = Some(*word);
        }
    }
}

/// The type of a word.
fn kind(word: &[u8; WORD_LEN]) -> u8 {
    let [first, ..] = word;
    first >> 2
}

/// Whether a word can be this satellite's: a word 4 names it.
fn is_of(word: &[u8; WORD_LEN], prn: u8) -> bool {
    let [_, _, svid, ..] = word;
    kind(word) != 4 || svid >> 2 == prn
}

/// The bits of a part as a number.
fn bits(part: &[u8; PART_LEN]) -> u128 {
    part.iter()
        .fold(0, |bits, &byte| bits << 8 | u128::from(byte))
}

/// Bits `from` to `to` of a part, `to` not among them.
fn cut(part: u128, from: u32, to: u32) -> u128 {
    let below = PART_BITS.saturating_sub(to);
    let outside = u128::BITS.saturating_sub(to.saturating_sub(from));
    part.wrapping_shr(below) & u128::MAX.wrapping_shr(outside)
}

/// Why a collector took nothing of what it was given.
#[derive(Clone, Copy, Debug, PartialEq, Eq, Hash)]
#[non_exhaustive]
pub enum NotTaken {
    /// It belongs to a later half minute than the one that is collected, which is over.
    /// [Lend](Collector::lend) that one, then give it again.
    Over,
    /// It belongs to a half minute before the one that is collected, or to one that was lent: it counts
    /// as lost.
    Late,
    /// PRN not 1 to 36, a time that is no start of a sub-frame, or a page above 14.
    OutOfRange,
    /// The parts are not the even and the odd part of a nominal page: given in another order, or an
    /// alert page.
    NotNominal,
    /// The word is a word 4 that names another satellite: the receiver's channel follows another one
    /// than it says.
    OtherSatellite,
}

impl fmt::Display for NotTaken {
    fn fmt(&self, f: &mut fmt::Formatter<'_>) -> fmt::Result {
        f.write_str(match self {
            NotTaken::Over => "the half minute that is collected is over",
            NotTaken::Late => "its half minute was lent or left",
            NotTaken::OutOfRange => "an argument is out of its range",
            NotTaken::NotNominal => "not the even and odd part of a nominal page",
            NotTaken::OtherSatellite => "the word names another satellite",
        })
    }
}

impl core::error::Error for NotTaken {}

/// Takes pages, or words and fields, as they come off the air, and lends them to a [`Core`] half minute
/// by half minute: the fields of all satellites with the marks of what came, then the words of all.
///
/// A core judges the tags of a half minute by the words of EARLIER half minutes. A word that is lent
/// before a section of its own half minute takes its satellite's set out of use for that section, and
/// nothing tells of it but [`Outcome::NoUsableSet`](crate::Outcome::NoUsableSet). On the air words come
/// between the fields; the collector puts them behind.
///
/// Only what passed its CRC is given to it, and only what the receiver's own clock allows: one page with
/// a time far ahead makes all that follow late. What it is not given counts as lost.
///
/// ```
/// use osnma::collector::{Collector, NotTaken};
/// use osnma::{Core, Gst, Outcome, Records};
///
/// /// A page whose CRC is right, the second of its week at which its even part began.
/// fn page(
///     (collector, core, records): (&mut Collector, &mut Core, &mut Records),
///     (prn, week, second): (u8, u16, u32),
///     (even, odd): (&[u8; 15], &[u8; 15]),
/// ) -> Result<(), NotTaken> {
///     let (time, page) = Gst::of_page(week, second).ok_or(NotTaken::OutOfRange)?;
///     let taken = collector.page(prn, time, page, even, odd);
///     if taken != Err(NotTaken::Over) {
///         return taken;
///     }
///     // The half minute is over. A refused word is a stopped core, which the sub-frames tell too.
///     let _ = collector.lend(core, records, |_prn, _time, answer| {
///         for tag in answer.tags.filter(|tag| tag.outcome == Outcome::Authentic) {
///             let _ = (tag.prn, tag.time);
///         }
///     });
///     collector.page(prn, time, page, even, odd)
/// }
/// # let mut collector = Collector::new();
/// # let (mut core, mut records) = (Core::new(), osnma::NO_RECORDS);
/// # let (even, mut odd) = ([0; 15], [0; 15]);
/// # odd[0] = 0x80;
/// # for second in [1, 3, 29, 31] {
/// #     page((&mut collector, &mut core, &mut records), (1, 947, second), (&even, &odd))?;
/// # }
/// # assert_eq!(collector.time(), Gst::new(947, 30));
/// # Ok::<(), NotTaken>(())
/// ```
///
/// With a new start of the core a new collector begins.
#[derive(Clone)]
pub struct Collector {
    /// The half minute that is collected, once something of it came.
    time: Option<Gst>,
    /// The last that was lent.
    lent: Option<Gst>,
    satellites: [Satellite; SATELLITES],
}

// As docs/BENCHMARK.md says.
const _: () = assert!(size_of::<Collector>() <= 5_848);

impl Collector {
    /// Nothing collected, nothing lent. It is a constant, so that a collector can stand in a `static`.
    pub const fn new() -> Collector {
        Collector {
            time: None,
            lent: None,
            satellites: [Satellite::SILENT; SATELLITES],
        }
    }

    /// The half minute that is collected, once something of it came.
    pub const fn time(&self) -> Option<Gst> {
        self.time
    }

    /// A nominal page of a satellite: its even and its odd part, 120 bits each, the flag of even and
    /// odd in bit 0. `time` is the start of the sub-frame that it belongs to, `page` its place there
    /// from 0 to 14 ([`Gst::of_page`]). The word and the authentication field are taken; of a page that
    /// comes twice the later one counts. Nothing else of the page is read, its CRC neither.
    ///
    /// # Errors
    /// The first of: [`NotTaken::OutOfRange`], [`NotTaken::NotNominal`], [`NotTaken::OtherSatellite`],
    /// then [`NotTaken::Over`] or [`NotTaken::Late`]. Nothing is taken then.
    pub fn page(
        &mut self,
        prn: u8,
        time: Gst,
        page: u32,
        even: &[u8; PART_LEN],
        odd: &[u8; PART_LEN],
    ) -> Result<(), NotTaken> {
        in_range(prn, time, page)?;
        let (even, odd) = (bits(even), bits(odd));
        if cut(even, 0, 2) != 0b00 || cut(odd, 0, 2) != 0b10 {
            return Err(NotTaken::NotNominal);
        }
        let word = (cut(even, 2, 114) << 16 | cut(odd, 2, 18)).to_be_bytes();
        let [.., a, b, c, d, e] = cut(odd, 18, 58).to_be_bytes();
        if !is_of(&word, prn) {
            return Err(NotTaken::OtherSatellite);
        }
        let satellite = self.satellite(prn, time)?;
        satellite.take_field(page, &[a, b, c, d, e]);
        satellite.take_word(&word);
        Ok(())
    }

    /// The authentication field of a page alone, 40 bits.
    ///
    /// # Errors
    /// The first of: [`NotTaken::OutOfRange`], then [`NotTaken::Over`] or [`NotTaken::Late`].
    pub fn field(
        &mut self,
        prn: u8,
        time: Gst,
        page: u32,
        field: &[u8; FIELD_LEN],
    ) -> Result<(), NotTaken> {
        in_range(prn, time, page)?;
        self.satellite(prn, time)?.take_field(page, field);
        Ok(())
    }

    /// A word alone. Of two words of one type in a half minute the later one counts; words of other
    /// types than 1 to 5 are not kept.
    ///
    /// # Errors
    /// The first of: [`NotTaken::OutOfRange`], [`NotTaken::OtherSatellite`], then [`NotTaken::Over`] or
    /// [`NotTaken::Late`].
    pub fn word(&mut self, prn: u8, time: Gst, word: &[u8; WORD_LEN]) -> Result<(), NotTaken> {
        in_range(prn, time, 0)?;
        if !is_of(word, prn) {
            return Err(NotTaken::OtherSatellite);
        }
        self.satellite(prn, time)?.take_word(word);
        Ok(())
    }

    /// The half minute is over: lends the fields of all satellites of which any came, then the words of
    /// all, by rising PRN, the words of a satellite by rising type. `told` sees what each sub-frame
    /// answered. Then nothing is collected. Where nothing was, nothing is lent.
    ///
    /// Called where something was [over](NotTaken::Over), or earlier, when the receiver's own clock
    /// says that no page of the half minute can come any more.
    ///
    /// # Errors
    /// The first refusal of a word; all are lent all the same. [`Refusal::Stopped`], or
    /// [`Refusal::OutOfOrder`] where the core was lent a later word by somebody else.
    pub fn lend(
        &mut self,
        core: &mut Core,
        records: &mut Records,
        mut told: impl FnMut(u8, Gst, SubframeAnswer<'_>),
    ) -> Result<(), Refusal> {
        let Some(time) = self.time else {
            return Ok(());
        };
        for (prn, sent) in (1..).zip(&self.satellites) {
            if sent.marks != Marks::NONE {
                let answer = core.subframe_marked(prn, time, sent.marks, &sent.fields, records);
                told(prn, time, answer);
            }
        }
        let mut answer = Ok(());
        for (prn, sent) in (1..).zip(&self.satellites) {
            for word in sent.words.iter().flatten() {
                let of_word = core.word(prn, time, word);
                answer = answer.and(of_word);
            }
        }
        self.satellites.fill(Satellite::SILENT);
        self.time = None;
        self.lent = Some(time);
        answer
    }

    /// What a satellite sent in the half minute at `time`, if that is the one to be collected.
    fn satellite(&mut self, prn: u8, time: Gst) -> Result<&mut Satellite, NotTaken> {
        match self.time {
            Some(now) if time > now => return Err(NotTaken::Over),
            Some(now) if time < now => return Err(NotTaken::Late),
            None if self.lent.is_some_and(|lent| time <= lent) => return Err(NotTaken::Late),
            _ => self.time = Some(time),
        }
        let place = usize::from(prn).wrapping_sub(1);
        self.satellites.get_mut(place).ok_or(NotTaken::OutOfRange)
    }
}

fn in_range(prn: u8, time: Gst, page: u32) -> Result<(), NotTaken> {
    let is_start = Gst::new(time.week(), time.second()).is_some();
    if matches!(prn, 1..=36) && is_start && page < PAGES {
        Ok(())
    } else {
        Err(NotTaken::OutOfRange)
    }
}

impl Default for Collector {
    fn default() -> Collector {
        Collector::new()
    }
}

impl fmt::Debug for Collector {
    fn fmt(&self, f: &mut fmt::Formatter<'_>) -> fmt::Result {
        f.debug_struct("Collector")
            .field("time", &self.time)
            .finish_non_exhaustive()
    }
}
