//! MACSEQ, the outcomes of tags, waiting tags and tag records (000, 5.5 and 5.6; 01, MACK; 02, P3
//! and P4).

use crate::bits::BitString;
use crate::chain::Chain;
use crate::mac::MacKey;
use crate::mack::{Field, Missing, Section, FIRST};
use crate::navdata::{NavSet, Words};
use crate::sets::{AgreeingTag, Sets};
use crate::times::{is_prn, Gst, Slots, SUBFRAME_SECONDS};
use std::collections::BTreeMap;

/// Places for waiting tags, over all satellites.
pub const PLACES: usize = 256;
/// Marks in each of the two lists.
pub const MARKS: usize = 14;
/// The mark of a flexible field.
pub const FLEXIBLE: u8 = 255;
pub const RECORD_LEN: usize = 12;
const MACSEQ_BITS: usize = 12;

/// What became of a tag; the number stands in its record.
#[derive(Clone, Copy, Debug, PartialEq, Eq)]
pub enum Outcome {
    Authentic = 1,
    Wrong = 2,
    NoUsableSet = 3,
    NotTaken = 4,
    Waits = 5,
    MacseqFails = 6,
    NoPlace = 7,
    BitsMissing = 8,
    /// It agrees, but its set has too few bits yet.
    Agrees = 9,
}

/// The two lists of marks given at start.
#[derive(Clone, Debug, PartialEq, Eq)]
pub struct Marks {
    /// For second 0 of the minute.
    pub second_0: [u8; MARKS],
    /// For second 30.
    pub second_30: [u8; MARKS],
}

impl Marks {
    /// 0 to 15 or 255; the first is 0 (A4, A5).
    pub fn are_valid(list: &[u8]) -> bool {
        list.first() == Some(&0) && list.iter().all(|&mark| mark <= 15 || mark == FLEXIBLE)
    }

    /// The list for a section.
    pub fn at(&self, time: Gst) -> &[u8; MARKS] {
        if time.second_of_week().is_multiple_of(60) {
            &self.second_0
        } else {
            &self.second_30
        }
    }
}

/// Sub-frames between a tag and its key; none for an ADKD that is not taken.
fn delay(adkd: u8) -> Option<u64> {
    match adkd {
        0 => Some(0),
        11 => Some(1),
        12 => Some(10),
        _ => None,
    }
}

/// A tag as it came, with all that its message is made of but the set.
#[derive(Clone, Debug, PartialEq, Eq)]
pub struct Tag {
    pub sender: u8,
    /// The PRN authenticated.
    pub prn: u8,
    pub adkd: u8,
    pub block: u8,
    pub position: u8,
    /// GST_SF of arrival.
    pub time: Gst,
    /// The NMA status of the sub-frame it came in (A60).
    pub status: u8,
    pub bits: u64,
}

impl Tag {
    /// The first field of the section is tag0: ADKD 0 of the sender's own data.
    fn is_tag0(&self) -> bool {
        self.block == 1 && self.position == 1
    }

    /// Seconds of the sub-frame whose key this tag uses.
    fn key_seconds(&self) -> u64 {
        self.time.seconds() + delay(self.adkd).unwrap_or(0) * SUBFRAME_SECONDS
    }

    /// The slot of this tag's key: the lowest of its block, in the sub-frame of its key (A59).
    pub fn key_slot(&self, slots: &Slots) -> u64 {
        slots.of_tags(self.key_seconds(), self.block)
    }

    /// The message of 000, 5.5: 75 bytes for tag0, 76 for others.
    pub fn message(&self, set: &NavSet) -> Vec<u8> {
        let mut message = BitString::default();
        if !self.is_tag0() {
            message.push(self.prn.into(), 8);
        }
        message.push(self.sender.into(), 8);
        message.push(self.time.0.into(), 32);
        message.push(self.position.into(), 8);
        message.push(self.status.into(), 2);
        message.push_bits(&set.0, 0, NavSet::BITS);
        message.into_bytes()
    }

    /// Whether the tag is the first MS bits of the MAC.
    pub fn matches(&self, set: &NavSet, key: &MacKey, tag_bits: usize) -> bool {
        self.bits == key.code(&self.message(set), tag_bits)
    }

    /// Outcome 2 if the tag does not match its set; else it counts for this set.
    fn judge(&self, set: &NavSet, key: &MacKey, tag_bits: usize, sets: &mut Sets) -> Outcome {
        if !self.matches(set, key, tag_bits) {
            return Outcome::Wrong;
        }
        let tag = AgreeingTag {
            time: self.time,
            bits: tag_bits,
        };
        if sets.agree(self.prn, set, tag) {
            Outcome::Authentic
        } else {
            Outcome::Agrees
        }
    }
}

/// A tag that waits for its key, with a copy of its set.
#[derive(Clone, Debug, PartialEq, Eq)]
pub struct WaitingTag {
    pub tag: Tag,
    pub set: NavSet,
}

impl WaitingTag {
    pub fn key_seconds(&self) -> u64 {
        self.tag.key_seconds()
    }

    /// Due once the held slot reaches its key's slot, counted from the root in force (A71).
    pub fn is_due(&self, chain: &Chain) -> bool {
        chain.held_slot >= self.tag.key_slot(&chain.slots)
    }
}

/// The twelve bytes that tell what became of a tag.
pub type Record = [u8; RECORD_LEN];

/// IODnav is 0 for outcomes 3, 4, 6 and 8, where there is no set (A69).
fn record(outcome: Outcome, tag: &Tag, set: Option<&NavSet>) -> Record {
    let iodnav = set.map_or(0, NavSet::iodnav).to_be_bytes();
    let time = tag.time.0.to_be_bytes();
    [
        outcome as u8,
        tag.sender,
        tag.prn,
        tag.adkd,
        tag.block,
        tag.position,
        iodnav[0],
        iodnav[1],
        time[0],
        time[1],
        time[2],
        time[3],
    ]
}

/// A section whose keys are proved.
pub struct ProvedSection<'a> {
    pub sender: u8,
    pub time: Gst,
    /// The NMA status of this sub-frame's header.
    pub status: u8,
    pub section: &'a Section,
    pub tag_bits: usize,
}

impl ProvedSection<'_> {
    /// The tag of a field.
    pub fn tag(&self, field: &Field) -> Tag {
        let mut tag = Tag {
            sender: self.sender,
            prn: (field.info >> 8) as u8,
            adkd: (field.info >> 4 & 15) as u8,
            block: field.block,
            position: field.position,
            time: self.time,
            status: self.status,
            bits: field.tag,
        };
        if tag.is_tag0() {
            (tag.prn, tag.adkd) = (self.sender, 0);
        }
        tag
    }

    /// The message of MACSEQ: sender, GST_SF and the MAC-Info of all flexible fields (000, 5.6),
    /// those of outcome 4 too (A62).
    pub fn macseq_message(&self, marks: &[u8; MARKS]) -> Vec<u8> {
        let mut message = vec![self.sender];
        message.extend_from_slice(&self.time.0.to_be_bytes());
        for (field, mark) in self.section.fields.iter().zip(marks) {
            if *mark == FLEXIBLE {
                message.extend_from_slice(&field.info.to_be_bytes());
            }
        }
        message
    }

    /// MACSEQ is the first 12 bits of its message's MAC under the key of block 1's tags.
    pub fn macseq_holds(&self, marks: &[u8; MARKS], key: &MacKey) -> bool {
        let macseq = u64::from(self.section.fields[0].info >> 4);
        macseq == key.code(&self.macseq_message(marks), MACSEQ_BITS)
    }

    /// A tag of which bits are missing, as its record shows it: 0 for a PRN or ADKD with a lost bit.
    /// Those of tag0 are not sent (B14).
    fn shown(&self, field: &Field, missing: &Missing) -> Tag {
        let (mut tag, place) = (self.tag(field), field.place());
        if place != FIRST && missing.prns.contains(&place) {
            tag.prn = 0;
        }
        if place != FIRST && missing.adkds.contains(&place) {
            tag.adkd = 0;
        }
        tag
    }

    /// Judges the tags of a whole section.
    pub fn judge(
        &self,
        chain: &Chain,
        marks: &Marks,
        words: &Words,
        waiting: &mut Vec<WaitingTag>,
        sets: &mut Sets,
    ) -> Vec<Record> {
        let missing = Missing::default();
        self.judge_received(&missing, chain, marks, words, waiting, sets)
    }

    /// Judges the waiting tags that are due, in the order in which they came, then the section's
    /// own in theirs.
    pub fn judge_received(
        &self,
        missing: &Missing,
        chain: &Chain,
        marks: &Marks,
        words: &Words,
        waiting: &mut Vec<WaitingTag>,
        sets: &mut Sets,
    ) -> Vec<Record> {
        let (due, later): (Vec<_>, Vec<_>) = std::mem::take(waiting)
            .into_iter()
            .partition(|tag| tag.is_due(chain));
        *waiting = later;
        sets.begin_section();

        let now = self.time.seconds();
        let marks = marks.at(self.time);
        let fields = || self.section.fields.iter().zip(marks);
        let flexible = || fields().filter(|(_, mark)| **mark == FLEXIBLE);
        let macseq_missing =
            missing.macseq || flexible().any(|(field, _)| missing.infos.contains(&field.place()));
        let is_missing = |field: &Field, mark| bits_missing(field, mark, missing, macseq_missing);
        // A field that is judged has its block's key, so that no slot wanted is above the held one;
        // block 1's, for MACSEQ, is not above any (B6b).
        let judged: Vec<_> = fields()
            .filter(|(f, mark)| !is_missing(f, **mark))
            .collect();
        let macseq_wanted = judged.iter().any(|(_, mark)| **mark == FLEXIBLE);
        let macseq_slot = chain.slots.of_tags(now, 1);
        let block_slots = judged
            .iter()
            .map(|(f, _)| chain.slots.of_tags(now, f.block))
            .chain(macseq_wanted.then_some(macseq_slot));
        let due_slots = due.iter().map(|waiting| waiting.tag.key_slot(&chain.slots));
        let keys = tag_keys(chain, block_slots.chain(due_slots).collect());
        let key_of = |tag: &Tag| &keys[&tag.key_slot(&chain.slots)];

        let mut records = Vec::new();
        for WaitingTag { tag, set } in &due {
            let outcome = tag.judge(set, key_of(tag), self.tag_bits, sets);
            records.push(record(outcome, tag, Some(set)));
        }
        let macseq_holds = macseq_wanted && self.macseq_holds(marks, &keys[&macseq_slot]);
        for (field, mark) in fields() {
            // 8 stands before the others (B15).
            if is_missing(field, *mark) {
                let tag = self.shown(field, missing);
                records.push(record(Outcome::BitsMissing, &tag, None));
                continue;
            }
            let tag = self.tag(field);
            let (outcome, set) = match early_outcome(&tag, *mark, macseq_holds) {
                Some(outcome) => (outcome, None),
                None => match words.of(tag.prn).usable(self.time) {
                    None => (Outcome::NoUsableSet, None),
                    Some(set) if delay(tag.adkd) == Some(0) => {
                        let outcome = tag.judge(&set, key_of(&tag), self.tag_bits, sets);
                        (outcome, Some(set))
                    }
                    Some(set) if waiting.len() < PLACES => {
                        waiting.push(WaitingTag {
                            tag: tag.clone(),
                            set: set.clone(),
                        });
                        (Outcome::Waits, Some(set))
                    }
                    Some(set) => (Outcome::NoPlace, Some(set)),
                },
            };
            records.push(record(outcome, &tag, set.as_ref()));
        }
        records
    }
}

/// Outcome 8: the key of its block, the tag itself, or MAC-Info that it needs is missing. That is
/// its own for a fixed field but the first; for a flexible one all that enters MACSEQ, or MACSEQ.
fn bits_missing(field: &Field, mark: u8, missing: &Missing, macseq_missing: bool) -> bool {
    let place = field.place();
    let info_missing = match mark {
        FLEXIBLE => macseq_missing,
        _ => place != FIRST && missing.infos.contains(&place),
    };
    missing.keys.contains(&field.block) || missing.tags.contains(&place) || info_missing
}

/// Outcomes 4 and 6, which need no set: ADKD not 0, 11, 12, or not the fixed one, or PRN not 1 to
/// 36; then flexible and MACSEQ fails.
pub fn early_outcome(tag: &Tag, mark: u8, macseq_holds: bool) -> Option<Outcome> {
    let flexible = mark == FLEXIBLE;
    let not_the_fixed_one = !flexible && tag.adkd != mark;
    if delay(tag.adkd).is_none() || not_the_fixed_one || !is_prn(tag.prn) {
        Some(Outcome::NotTaken)
    } else if flexible && !macseq_holds {
        Some(Outcome::MacseqFails)
    } else {
        None
    }
}

/// The keys of the slots wanted, none above the held slot, from one walk down from the held key.
fn tag_keys(chain: &Chain, mut wanted: Vec<u64>) -> BTreeMap<u64, MacKey> {
    wanted.sort_unstable_by(|a, b| b.cmp(a));
    wanted.dedup();
    let (mut key, mut at) = (chain.held, chain.held_slot);
    let mut keys = BTreeMap::new();
    for slot in wanted {
        key = chain.hash_down(&key, at, slot);
        at = slot;
        let mac_key = MacKey::new(chain.parameters.mf, key.as_slice());
        keys.insert(slot, mac_key.expect("row 8 took this MF and KS"));
    }
    keys
}
