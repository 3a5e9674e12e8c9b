//! What the core answered, kept run by run: an accepted start begins a run and forgets everything
//! from before.
//!
//! Outcomes, marked sets and refusals are the core's own answers and reads. Which words a satellite
//! has, which tags wait and which agree on a candidate is followed from words answered 0, tag records
//! and good verdicts.
//!
//! However long a recording is, what is kept of it is bounded: a timeline of so many columns, sums,
//! and so many of what has a line of its own. Where lines are left out their number is kept.

use crate::boom::{self, Watch};
use crate::candidate::{Candidate, Candidates};
use crate::data::Data;
use crate::gathering::{Came, Gathering, Then, Wanting};
use crate::receiver::Answer;
use crate::recording::{Cut, Record};
use crate::refused::{Part, Refusals};
use crate::timeline::{Said, Timeline, COLUMNS};
use crate::vouched::{Change, Keys, Root, Vouch, Vouched};
use osnma::{
    AuthenticSet, Core, Gst, Outcome, Progress, Refusal, Settings, TagRecord, WaitingMessage,
    FIELDS_LEN, SET_LEN, WORD_LEN,
};
use portable_hash::DIGEST_LEN;
use std::collections::{BTreeMap, BTreeSet, VecDeque};
use std::sync::Arc;

/// Runs that are kept at most: the last ones.
pub const RUNS: usize = 64;
/// Lines that the kept runs come to at most, before another begins: a cell is one, a set ten. Eight
/// runs of eight hours and 36 satellites are within it.
pub const LINES: usize = 8 * COLUMNS * 36;
/// Sets of a satellite that are kept: the last ones.
pub const SETS: usize = 128;
/// Events of a run that are kept: the first ones.
pub const EVENTS: usize = 128;
/// Changes of data under waiting tags that are kept: the first ones of a run.
pub const CHANGES: usize = 256;

/// What is asked of the core after a record.
pub trait Reads {
    /// A satellite's authentic set.
    fn set(&self, prn: u8) -> Option<AuthenticSet>;
    /// The message that waits for the signature chip.
    fn message(&self) -> Option<WaitingMessage>;
    /// Whether four satellites have a set that is at most `limit` sub-frames old.
    fn four(&self, limit: u32) -> bool;
    /// How far along the message of each DSM ID is.
    fn progress(&self) -> Vec<Progress>;
}

impl Reads for Core {
    fn set(&self, prn: u8) -> Option<AuthenticSet> {
        self.read_set(prn).ok()
    }

    fn message(&self) -> Option<WaitingMessage> {
        self.read_message().ok()
    }

    fn four(&self, limit: u32) -> bool {
        Core::four(self, limit)
    }

    fn progress(&self) -> Vec<Progress> {
        Core::progress(self).collect()
    }
}

/// A tag record with its place in the recording.
#[derive(Clone, Debug, PartialEq, Eq)]
pub struct Judged {
    /// Place of the sub-frame that gave it, from 1.
    pub place: u64,
    /// The time of that sub-frame.
    pub at: Gst,
    /// The record.
    pub record: TagRecord,
    /// The root in force.
    pub root: Option<Arc<Root>>,
    /// Of a tag that agrees with a candidate: the bits that agree on it, with this tag's.
    pub bits: Option<u32>,
}

/// A set that was marked, as reads gave it, with the tags that first marked it and the latest one.
#[derive(Clone, Debug, PartialEq, Eq)]
pub struct Marked {
    /// PRN of the satellite.
    pub prn: u8,
    /// The 549 bits.
    pub bytes: [u8; SET_LEN],
    /// Their IODnav.
    pub iodnav: u16,
    /// When a read first gave it.
    pub since: Gst,
    /// The tags that agree with it, until they had enough bits, and their bits.
    pub by: Option<Candidate>,
    /// The tag whose time the last read gave.
    pub last: Judged,
    /// When a read first gave another set.
    pub until: Option<Gst>,
}

/// The sets of a satellite that reads gave, one after another.
#[derive(Clone, Debug, Default)]
pub struct Sets {
    /// The last ones.
    pub kept: VecDeque<Marked>,
    /// How many were before them.
    pub left_out: u64,
}

/// A satellite's mark at some time: which set a read gave, and the time of its tag.
#[derive(Clone, Copy, Debug, PartialEq, Eq)]
pub struct Mark {
    /// The number of the set, counted for its satellite.
    pub set: u64,
    /// Its IODnav.
    pub iodnav: u16,
    /// When its tag came.
    pub tag: Gst,
}

/// Tags that came to the same.
#[derive(Clone, Debug, Default, PartialEq, Eq)]
pub struct Tally {
    /// How many.
    pub count: u64,
    /// When the first and the last of them came.
    pub span: Option<(Gst, Gst)>,
    /// The satellites that they name.
    pub prns: BTreeSet<u8>,
    /// Those that sent them.
    pub senders: BTreeSet<u8>,
    /// IODnav of the data that they were compared with.
    pub issues: BTreeSet<u16>,
}

impl Tally {
    fn add(&mut self, tag: &TagRecord) {
        self.count += 1;
        let (first, last) = self.span.unwrap_or((tag.time, tag.time));
        self.span = Some((first.min(tag.time), last.max(tag.time)));
        self.prns.insert(tag.prn);
        self.senders.insert(tag.sender);
        self.issues.insert(tag.iodnav);
    }

    fn join(&mut self, other: &Tally) {
        self.count += other.count;
        self.issues.extend(&other.issues);
        let spans = || self.span.iter().chain(&other.span);
        let first = spans().map(|span| span.0).min();
        let last = spans().map(|span| span.1).max();
        self.span = first.zip(last);
        self.prns.extend(&other.prns);
        self.senders.extend(&other.senders);
    }
}

/// The wrong tags of a satellite.
#[derive(Clone, Debug, Default, PartialEq, Eq)]
pub struct WrongTags {
    /// All of them.
    pub tags: Tally,
    /// What was marked when the first of them came.
    pub before: Option<Mark>,
    /// What was marked when the last of them came.
    pub meanwhile: Option<Mark>,
}

impl WrongTags {
    fn add(&mut self, tag: &TagRecord, mark: Option<Mark>) {
        if self.tags.span.is_none_or(|(first, _)| tag.time < first) {
            self.before = mark;
        }
        if self.tags.span.is_none_or(|(_, last)| tag.time > last) {
            self.meanwhile = mark;
        }
        self.tags.add(tag);
    }
}

/// What became of tags that waited.
#[derive(Clone, Debug, Default, PartialEq, Eq)]
pub struct Became {
    /// Those that matched.
    pub authentic: Tally,
    /// Those that matched, short of a mark.
    pub agree: Tally,
    /// Those that did not match.
    pub wrong: Tally,
    /// Those that wait still.
    pub waits: u64,
    /// Those given up with their chain, or by a later root.
    pub given_up: u64,
}

impl Became {
    /// Takes in others.
    pub fn join(&mut self, other: &Became) {
        self.authentic.join(&other.authentic);
        self.agree.join(&other.agree);
        self.wrong.join(&other.wrong);
        self.waits += other.waits;
        self.given_up += other.given_up;
    }
}

/// Words of a satellite that came with other authenticated bits than those held, while tags for it
/// waited.
#[derive(Clone, Debug, PartialEq, Eq)]
pub struct WordsChanged {
    /// PRN of the satellite.
    pub prn: u8,
    /// The sub-frame of the words.
    pub at: Gst,
    /// IODnav of words 1 to 4 before; none where they differ or lack.
    pub from: Option<u16>,
    /// IODnav after the last word of this sub-frame.
    pub to: Option<u16>,
    /// What became of the tags that waited then.
    pub waited: Became,
}

/// Something that happened once.
#[derive(Clone, Debug, PartialEq, Eq)]
pub struct Event {
    /// The record's place, from 1.
    pub place: u64,
    /// The last half minute noted.
    pub at: Option<Gst>,
    /// What it was.
    pub what: What,
}

/// What an event was.
#[derive(Clone, Debug, PartialEq, Eq)]
pub enum What {
    /// A root was put in force.
    Root {
        /// The root.
        root: Arc<Root>,
        /// What was in force before it.
        before: Keys,
        /// Whether it is of the chain that was in force.
        same_chain: bool,
    },
    /// Status 3 dropped the chain.
    Withdrawn,
    /// A verdict under another public key than those before was the first that counted.
    PublicKey(u8),
    /// The signature chip said no.
    ChipSaidNo,
    /// An emergency message stopped the core.
    Stopped,
}

/// A tag that waits.
#[derive(Clone, Debug)]
struct Waiting {
    record: TagRecord,
    /// The stretch of its satellite's data in which it came, and that data.
    stretch: u64,
    set: Option<[u8; SET_LEN]>,
    /// What was marked of its satellite then.
    mark: Option<Mark>,
    /// Whether its satellite's words were old then.
    old: bool,
    /// Changes of data since, by their places in [`Run::changed`].
    changes: Vec<usize>,
}

/// What came of one accepted start.
#[derive(Clone, Debug)]
pub struct Run {
    /// The start's place in the recording, from 1.
    pub place: u64,
    /// What it gave.
    pub settings: Settings,
    /// The chain in force.
    pub vouched: Vouched,
    /// Half minutes of words answered 0 and sub-frames noted.
    pub timeline: Timeline,
    /// Satellites that they came from, each with the last half minute.
    pub heard: BTreeMap<u8, Gst>,
    /// Sub-frames, and words of types 1 to 5 answered 0.
    pub counts: (u64, u64),
    /// Tags by the number of their last outcome.
    tallies: BTreeMap<u8, Tally>,
    /// Tags that were given up with their chain, or by a later root.
    pub given_up: u64,
    /// Wrong tags by the satellite that they name.
    pub wrong: BTreeMap<u8, WrongTags>,
    /// Those of satellites that were not heard any more, and whose data was right before: they tell
    /// that the system has newer data.
    pub out_of_date: BTreeMap<u8, WrongTags>,
    /// The sets of each satellite.
    pub marked: BTreeMap<u8, Sets>,
    /// The candidates of each satellite whose tags agree with data.
    pub candidates: BTreeMap<u8, Candidates>,
    /// The data of each satellite whose words came.
    pub data: BTreeMap<u8, Data>,
    /// Data that changed while tags waited, in order.
    pub changed: Vec<WordsChanged>,
    /// How many changes came after them.
    pub changes_left_out: u64,
    /// What happened, in order.
    pub events: Vec<Event>,
    /// How many events came after them.
    pub events_left_out: u64,
    /// The last time that the chain was dropped.
    pub withdrawn: Option<Event>,
    /// The first root put in force after that.
    pub renewed: Option<Event>,
    /// The last time that the signature chip said no.
    pub said_no: Option<Event>,
    /// What was refused.
    pub refused: Refusals,
    /// Place and time of the sub-frame that stopped the core.
    pub stopped: Option<(u64, Gst)>,
    /// What the boom found, by each of its limits.
    pub watch: [Watch; boom::LIMITS.len()],
    /// How messages were gathered.
    pub gathering: Gathering,
    /// The last record's place.
    pub last_place: u64,
    /// The message that waits for the signature chip, and since when.
    message: Option<(Box<WaitingMessage>, Gst)>,
    waiting: Vec<Waiting>,
    last_subframe: Option<Gst>,
}

impl Run {
    fn new(place: u64, settings: Settings) -> Run {
        Run {
            place,
            settings,
            vouched: Vouched::default(),
            timeline: Timeline::default(),
            heard: BTreeMap::new(),
            counts: (0, 0),
            tallies: BTreeMap::new(),
            given_up: 0,
            wrong: BTreeMap::new(),
            out_of_date: BTreeMap::new(),
            marked: BTreeMap::new(),
            candidates: BTreeMap::new(),
            data: BTreeMap::new(),
            changed: Vec::new(),
            changes_left_out: 0,
            events: Vec::new(),
            events_left_out: 0,
            withdrawn: None,
            renewed: None,
            said_no: None,
            refused: Refusals::default(),
            stopped: None,
            watch: [Watch::default(); boom::LIMITS.len()],
            gathering: Gathering::default(),
            last_place: place,
            message: None,
            waiting: Vec::new(),
            last_subframe: None,
        }
    }

    /// Lines that it comes to, by the measure of [`LINES`].
    fn lines(&self) -> usize {
        let sets: usize = self.marked.values().map(|sets| sets.kept.len()).sum();
        self.timeline.len() * 36 + sets * 10
    }

    /// How many tags wait.
    pub fn waiting(&self) -> usize {
        self.waiting.len()
    }

    /// The tags that came to this; those that wait are not told apart from those given up.
    pub fn tally(&self, outcome: Outcome) -> Tally {
        let tally = self.tallies.get(&outcome.number());
        tally.cloned().unwrap_or_default()
    }

    /// How many tags came.
    pub fn tags(&self) -> u64 {
        self.tallies.values().map(|tally| tally.count).sum()
    }

    /// Since when a message has waited for the signature chip.
    pub fn message_since(&self) -> Option<Gst> {
        self.message.as_ref().map(|message| message.1)
    }

    /// The set that a read of this satellite gives.
    pub fn marked_last(&self, prn: u8) -> Option<&Marked> {
        self.marked.get(&prn)?.kept.back()
    }

    /// The satellite's mark now.
    pub fn mark(&self, prn: u8) -> Option<Mark> {
        let sets = self.marked.get(&prn)?;
        let last = sets.kept.back()?;
        Some(Mark {
            set: sets.left_out + sets.kept.len() as u64,
            iodnav: last.iodnav,
            tag: last.last.record.time,
        })
    }

    fn event(&mut self, what: What) {
        let event = Event {
            place: self.last_place,
            at: self.last_subframe,
            what,
        };
        match &event.what {
            What::Withdrawn => {
                self.withdrawn = Some(event.clone());
                self.renewed = None;
            }
            What::Root {
                before: Keys::Withdrawn,
                ..
            } => self.renewed = Some(event.clone()),
            What::ChipSaidNo => self.said_no = Some(event.clone()),
            _ => {}
        }
        if self.events.len() < EVENTS {
            self.events.push(event);
        } else {
            self.events_left_out += 1;
        }
    }

    fn refuse(&mut self, part: Part, refusal: Refusal, prn: Option<u8>, at: Option<Gst>) {
        let at = at.or(self.last_subframe);
        let keys = self.vouched.keys;
        self.refused
            .add(part, refusal, keys, prn, at, self.last_place);
    }

    fn hear(&mut self, prn: u8, at: Gst) {
        self.timeline.at(at).cell(prn).hear(at);
        let last = self.heard.entry(prn).or_insert(at);
        *last = at.max(*last);
    }

    fn word(&mut self, prn: u8, at: Gst, word: &[u8; WORD_LEN]) {
        self.hear(prn, at);
        if !(1..=5).contains(&(word[0] >> 2)) {
            return;
        }
        self.counts.1 += 1;
        let change = self.data.entry(prn).or_default().word(at, word);
        let now = self
            .changed
            .iter_mut()
            .rev()
            .take_while(|change| change.at == at)
            .find(|change| change.prn == prn);
        let iodnav = |data: &Data| data.stretches().last().and_then(|now| now.iodnav);
        match (now, change) {
            (Some(now), _) => now.to = self.data.get(&prn).and_then(iodnav),
            (None, Some(change)) => self.change(prn, at, change),
            (None, None) => {}
        }
    }

    /// A change of data: told where tags for this satellite wait.
    fn change(&mut self, prn: u8, at: Gst, change: crate::data::Change) {
        let of = |tag: &&mut Waiting| tag.record.prn == prn;
        let mut waiting = self.waiting.iter_mut().filter(of).peekable();
        if waiting.peek().is_none() {
            return;
        }
        if let Some(column) = self.timeline.known(at) {
            column.cell(prn).changed = true;
        }
        if self.changed.len() == CHANGES {
            self.changes_left_out += 1;
            return;
        }
        let mut waited = Became::default();
        for tag in waiting {
            tag.changes.push(self.changed.len());
            waited.waits += 1;
        }
        self.changed.push(WordsChanged {
            prn,
            at,
            from: change.from,
            to: change.to,
            waited,
        });
    }

    fn subframe(
        &mut self,
        (prn, at): (u8, Gst),
        fields: &[u8; FIELDS_LEN],
        answer: &Answer,
        reads: &dyn Reads,
    ) -> Vec<Judged> {
        use Refusal::{OutOfOrder, OutOfRange, Stopped, WrongLength};
        if let (Err(both), Err(_)) = (answer.first, answer.second) {
            if [WrongLength, OutOfRange, Stopped, OutOfOrder].contains(&both) {
                // Its time is not noted, and may be none.
                self.refuse(Part::Subframe, both, Some(prn), None);
                return Vec::new();
            }
        }
        self.hear(prn, at);
        self.last_subframe = Some(at);
        self.counts.0 += 1;
        if answer.first == Ok(()) && answer.second == Err(Stopped) {
            self.stopped = Some((self.last_place, at));
            self.event(What::Stopped);
        } else {
            self.halves(prn, at, answer);
        }
        let judged = Vec::from_iter(answer.tags.iter().map(|tag| self.tag(*tag, at)));
        self.marks(&judged, at, reads);
        self.gather(at, fields, answer, reads);
        self.ask_for_four(at, reads);
        judged
    }

    /// The refused halves of a sub-frame that was noted.
    fn halves(&mut self, prn: u8, at: Gst, answer: &Answer) {
        if answer.second.is_err() {
            self.timeline.at(at).cell(prn).section_refused = true;
        }
        if answer.first == Err(Refusal::AllZero) {
            return self.refuse(Part::Subframe, Refusal::AllZero, Some(prn), Some(at));
        }
        let halves = [
            (Part::Message, answer.first),
            (Part::Section, answer.second),
        ];
        for (part, half) in halves {
            if let Err(refusal) = half {
                self.refuse(part, refusal, Some(prn), Some(at));
            }
        }
    }

    /// Whether four satellites are marked lately, now, and how many are.
    fn ask_for_four(&mut self, at: Gst, reads: &dyn Reads) {
        let tags = self.marked.values().filter_map(|sets| sets.kept.back());
        let tags = tags.map(|set| set.last.record.time);
        let lately = boom::lately(at, |limit| reads.four(limit), tags);
        self.timeline.at(at).marked_lately.note(at, lately);
        for (watch, lately) in self.watch.iter_mut().zip(lately) {
            watch.note(at, lately);
        }
    }

    /// How far along each message is, now, and whether another waits for the chip.
    fn gather(&mut self, at: Gst, fields: &[u8; FIELDS_LEN], answer: &Answer, reads: &dyn Reads) {
        let waited = self.message.is_some();
        let new_message = self.await_message(reads);
        let came = Came {
            at,
            // The second byte of HKROOT begins with it (01, HKROOT).
            dsm_id: fields[5] >> 4,
            answer: answer.first,
            stopped: answer.second == Err(Refusal::Stopped),
            new_message,
            wanting: self.without_keys().filter(|_| new_message || !waited),
        };
        self.gathering.note(came, &reads.progress());
    }

    fn without_keys(&self) -> Wanting {
        Some(self.vouched.keys).filter(|keys| *keys != Keys::InForce)
    }

    /// Whether keys are wanting: no message with them waits for the chip either.
    pub fn wanting(&self) -> Wanting {
        self.without_keys().filter(|_| self.message.is_none())
    }

    /// Notes since when the message that waits has waited; gives whether it did not before.
    fn await_message(&mut self, reads: &dyn Reads) -> bool {
        let now = reads.message().zip(self.last_subframe);
        let before = self.message.take();
        if let (Some((before, since)), Some((now, _))) = (&before, &now) {
            if **before == *now {
                self.message = Some((before.clone(), *since));
                return false;
            }
        }
        self.message = now.map(|(message, at)| (Box::new(message), at));
        self.message.is_some()
    }

    /// A tag record of the sub-frame at this time: of a tag that waited, or of a new one.
    fn tag(&mut self, record: TagRecord, at: Gst) -> Judged {
        let mut judged = Judged {
            place: self.last_place,
            at,
            record,
            root: self.vouched.root().cloned(),
            bits: None,
        };
        let record = &record;
        // A tag is known by its sender, arrival, block and position.
        let name = |tag: &TagRecord| (tag.sender, tag.time, tag.block, tag.position);
        let waited = |tag: &Waiting| name(&tag.record) == name(record);
        let waited = self.waiting.iter().position(waited);
        let tag = match waited {
            Some(place) => {
                if let Some(waits) = self.tallies.get_mut(&Outcome::Waits.number()) {
                    waits.count = waits.count.saturating_sub(1);
                }
                self.waiting.remove(place)
            }
            None => {
                let data = self.data.get(&record.prn);
                Waiting {
                    record: *record,
                    stretch: data.map_or(0, Data::now),
                    set: data.and_then(Data::set),
                    mark: self.mark(record.prn),
                    old: data.is_some_and(|data| data.is_old(record.time)),
                    changes: Vec::new(),
                }
            }
        };
        let tally = self.tallies.entry(record.outcome.number());
        tally.or_default().add(record);
        match record.outcome {
            Outcome::Authentic | Outcome::Agrees => {
                judged.bits = self.agree(&tag, &judged);
                self.judge(&tag, record);
            }
            Outcome::Wrong => self.judge(&tag, record),
            _ => {}
        }
        let said = Said::of(record.outcome);
        self.tell(record, |cell| {
            match waited {
                Some(_) => cell.says_instead(said),
                None => cell.says(said),
            }
            cell.bits = judged.bits.or(cell.bits);
        });
        if record.outcome == Outcome::Waits {
            self.waiting.push(tag);
        }
        judged
    }

    /// Bits of a tag of the chain in force.
    fn tag_bits(&self) -> u32 {
        let root = self.vouched.root();
        root.map_or(0, |root| u32::from(root.chain.tag_bits))
    }

    /// A tag agrees with its satellite's data. Gives the bits that agree on it, where they are too few.
    fn agree(&mut self, tag: &Waiting, judged: &Judged) -> Option<u32> {
        let (record, tag_bits) = (&judged.record, self.tag_bits());
        let candidates = self.candidates.entry(record.prn).or_default();
        if record.outcome == Outcome::Agrees {
            return candidates.agrees(tag.set?, judged.clone(), tag_bits);
        }
        candidates.marks(tag.set?, judged.clone(), tag_bits);
        None
    }

    /// A change to the cell of a tag that came; tags without a satellite have none.
    fn tell(&mut self, tag: &TagRecord, change: impl FnOnce(&mut crate::timeline::Cell)) {
        let column = self.timeline.known(tag.time);
        if let Some(column) = column.filter(|_| (1..=36).contains(&tag.prn)) {
            change(column.cell(tag.prn));
        }
    }

    /// A tag is authentic, agrees or is wrong now.
    fn judge(&mut self, tag: &Waiting, record: &TagRecord) {
        let (outcome, tag_bits) = (record.outcome, self.tag_bits());
        let data = self.data.get_mut(&record.prn);
        let stretch = data.and_then(|data| data.judge(tag.stretch, record.time, outcome, tag_bits));
        if outcome == Outcome::Wrong {
            // Data that is old and was right before is out of date.
            let was_right = stretch.is_some_and(|stretch| stretch.bits > 0);
            let wrong = match tag.old && was_right {
                true => &mut self.out_of_date,
                false => &mut self.wrong,
            };
            let wrong = wrong.entry(record.prn).or_default();
            wrong.add(record, tag.mark);
        }
        for &change in &tag.changes {
            let waited = &mut self.changed[change].waited;
            waited.waits = waited.waits.saturating_sub(1);
            let tally = match outcome {
                Outcome::Authentic => &mut waited.authentic,
                Outcome::Agrees => &mut waited.agree,
                _ => &mut waited.wrong,
            };
            tally.add(record);
        }
    }

    /// Reads the sets of the satellites whose tags marked data. The tag that is told of a read is the
    /// last that was judged of those that came at the time read: one of this sub-frame, or one that was
    /// summed before (02, P4).
    fn marks(&mut self, tags: &[Judged], at: Gst, reads: &dyn Reads) {
        let is_mark = |tag: &&Judged| tag.record.outcome == Outcome::Authentic;
        let prns: BTreeSet<u8> = tags.iter().filter(is_mark).map(|t| t.record.prn).collect();
        for prn in prns {
            let Some(set) = reads.set(prn) else {
                continue;
            };
            let candidates = self.candidates.get(&prn);
            let by = candidates.and_then(|all| all.marked.clone());
            let by = by.filter(|by| by.bytes == set.bytes);
            let summed = by.iter().flat_map(|by| &by.tags);
            let own = tags.iter().filter(is_mark).filter(|t| t.record.prn == prn);
            let mut tag = summed.chain(own).filter(|t| t.record.time == set.time);
            // An older tag leaves the set of a later one.
            if let Some(tag) = tag.next_back().cloned() {
                self.mark_set(set, by, tag, at);
            }
        }
    }

    fn mark_set(&mut self, set: AuthenticSet, by: Option<Candidate>, judged: Judged, at: Gst) {
        let prn = judged.record.prn;
        let sets = self.marked.entry(prn).or_default();
        match sets.kept.back_mut() {
            Some(last) if last.bytes == set.bytes => return last.last = judged,
            Some(last) => last.until = Some(at),
            None => {}
        }
        if sets.kept.len() == SETS {
            sets.kept.pop_front();
            sets.left_out += 1;
        }
        sets.kept.push_back(Marked {
            prn,
            bytes: set.bytes,
            iodnav: set.iodnav,
            since: at,
            by,
            last: judged,
            until: None,
        });
        self.timeline.at(at).cell(prn).marked = Some(set.iodnav);
    }

    fn verdict(
        &mut self,
        key_id: u8,
        message: &[u8; osnma::MESSAGE_LEN],
        first: Result<(), Refusal>,
    ) {
        match first {
            Ok(()) => self.vouch(key_id, message),
            Err(refusal) => {
                if refusal == Refusal::VerdictBad {
                    self.event(What::ChipSaidNo);
                }
                self.refuse(Part::Verdict, refusal, None, None);
            }
        }
    }

    /// The message that waited does no more after a verdict with this answer.
    fn answered(&mut self, first: Result<(), Refusal>) {
        if let Some(at) = self.last_subframe {
            self.gathering.answered(match first {
                Ok(()) => Then::SaidYes(at),
                Err(Refusal::VerdictBad) => Then::SaidNo(at),
                Err(_) => Then::NotCounted(at),
            });
        }
    }

    /// A good verdict answered 0.
    fn vouch(&mut self, key_id: u8, message: &[u8; osnma::MESSAGE_LEN]) {
        let vouch = Vouch {
            place: self.last_place,
            key_id,
            at: self.last_subframe,
        };
        let before = self.vouched.keys;
        let key_before = self
            .vouched
            .last
            .map_or(self.settings.key_id, |last| last.key_id);
        let change = self.vouched.good_verdict(message, vouch);
        if key_before != self.vouched.last.map_or(key_before, |last| last.key_id) {
            self.event(What::PublicKey(key_id));
        }
        match (change, self.vouched.root().cloned()) {
            (Change::Root { same_chain }, Some(root)) => self.event(What::Root {
                root,
                before,
                same_chain,
            }),
            (Change::Dropped, _) => self.event(What::Withdrawn),
            _ => {}
        }
        if change != Change::Again {
            let vouched = &self.vouched;
            let (stay, go) = std::mem::take(&mut self.waiting)
                .into_iter()
                .partition(|tag| vouched.stays(change, &tag.record));
            self.waiting = stay;
            self.give_up(go);
        }
        if matches!(change, Change::Dropped | Change::Root { same_chain: false }) {
            self.candidates.values_mut().for_each(Candidates::clear);
        }
    }

    fn give_up(&mut self, tags: Vec<Waiting>) {
        self.given_up += tags.len() as u64;
        for change in tags.iter().flat_map(|tag| &tag.changes) {
            let waited = &mut self.changed[*change].waited;
            waited.waits = waited.waits.saturating_sub(1);
            waited.given_up += 1;
        }
    }
}

/// Runs that are not kept.
#[derive(Clone, Copy, Debug, Default, PartialEq, Eq)]
pub struct LeftOut {
    /// How many.
    pub runs: u64,
    /// Wrong tags in them.
    pub wrong_tags: u64,
    /// How many of them an emergency message stopped.
    pub stopped: u64,
}

impl LeftOut {
    fn add(&mut self, run: &Run) {
        self.runs += 1;
        self.wrong_tags += run.tally(Outcome::Wrong).count;
        self.stopped += u64::from(run.stopped.is_some());
    }
}

/// What the core answered to a recording.
#[derive(Clone, Debug, Default)]
pub struct History {
    /// Whole records.
    pub records: u64,
    /// Records before the first accepted start.
    pub before_start: u64,
    /// The last runs, one for each accepted start.
    pub runs: Vec<Run>,
    /// The runs before them.
    pub left_out: LeftOut,
    /// The tag records of the last record.
    pub judged: Vec<Judged>,
    /// The record that the recording ends in, where it is not whole.
    pub cut: Option<Cut>,
    /// SHA-256 of the recording.
    pub sha256: [u8; DIGEST_LEN],
}

impl History {
    /// Takes in the next record with its answer; `reads` are of the core as the record left it.
    pub fn note(&mut self, record: &Record, answer: &Answer, reads: &dyn Reads) {
        self.records += 1;
        self.judged.clear();
        let place = self.records;
        if let (Record::Start(settings), Ok(())) = (record, answer.first) {
            return self.begin(Run::new(place, (**settings).clone()));
        }
        let Some(run) = self.runs.last_mut() else {
            self.before_start += 1;
            return;
        };
        run.last_place = place;
        match (record, answer.first) {
            (
                Record::Subframe {
                    prn, time, fields, ..
                },
                _,
            ) => {
                self.judged = run.subframe((*prn, *time), fields, answer, reads);
            }
            (Record::Word { prn, time, word }, Ok(())) => run.word(*prn, *time, word),
            (
                Record::Verdict {
                    key_id, message, ..
                },
                first,
            ) => {
                run.verdict(*key_id, message, first);
                let waited = run.message.is_some();
                run.await_message(reads);
                if waited && run.message.is_none() {
                    run.answered(first);
                }
            }
            (Record::Word { prn, .. }, Err(refusal)) => {
                run.refuse(Part::Word, refusal, Some(*prn), None);
            }
            (Record::Start(_), Err(refusal)) => run.refuse(Part::Start, refusal, None, None),
            (Record::Other(_), Err(refusal)) => run.refuse(Part::Kind, refusal, None, None),
            (Record::Start(_) | Record::Other(_), Ok(())) => {}
        }
    }

    fn begin(&mut self, run: Run) {
        let lines = |runs: &[Run]| runs.iter().map(Run::lines).sum::<usize>();
        while self.runs.len() == RUNS || lines(&self.runs) > LINES {
            self.left_out.add(&self.runs.remove(0));
        }
        self.runs.push(run);
    }
}
