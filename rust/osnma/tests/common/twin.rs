//! The same call into the core and into the second receiver.

use super::expected::{difference, write_candidates_that_stood, write_known, Block};
use super::stamps::{least_limit_of, limit};
use super::stores::{self, Told};
use osnma::regions::Regions;
use osnma::{Core, Gst, Marks, Records, Settings, TagRecord};
use second_receiver::four::met;
use second_receiver::received::Received;
use second_receiver::Receiver;
use signal::rng::Rng;

/// A call with all lengths right.
#[derive(Clone, Debug, PartialEq, Eq)]
pub enum Call {
    Start(Settings),
    Word {
        prn: u8,
        time: u32,
        word: [u8; 16],
    },
    Subframe {
        prn: u8,
        time: u32,
        /// For the call with marks; any sixteen bits.
        marks: Option<u16>,
        fields: [u8; 75],
    },
    Verdict {
        good: u8,
        key_id: u8,
        message: [u8; 45],
        signature: [u8; 132],
    },
    ReadSet(u8),
    ReadMessage,
    /// Whether four satellites have an authentic set within this limit.
    Four(u32),
    /// How far along each message is.
    Progress,
}

#[derive(Clone, Copy, Debug, PartialEq, Eq, PartialOrd, Ord)]
pub enum Kind {
    Start,
    Word,
    Subframe,
    Verdict,
    ReadSet,
    ReadMessage,
    Four,
    Progress,
}

impl Call {
    pub fn kind(&self) -> Kind {
        match self {
            Call::Start(_) => Kind::Start,
            Call::Word { .. } => Kind::Word,
            Call::Subframe { .. } => Kind::Subframe,
            Call::Verdict { .. } => Kind::Verdict,
            Call::ReadSet(_) => Kind::ReadSet,
            Call::ReadMessage => Kind::ReadMessage,
            Call::Four(_) => Kind::Four,
            Call::Progress => Kind::Progress,
        }
    }

    /// The satellite that the call concerns.
    fn prn(&self) -> Option<u8> {
        match self {
            Call::Word { prn, .. } | Call::Subframe { prn, .. } | Call::ReadSet(prn) => Some(*prn),
            _ => None,
        }
    }
}

/// What both answered: the number, for a sub-frame the HKROOT half's; the MACK half's, else 0; and of
/// each tag judged the PRN authenticated and the outcome. Then how often it was asked after the call whether four
/// satellites have a recent set, by no and yes, and what was told then of how far along the messages are.
#[derive(Clone, Debug, Default, PartialEq, Eq)]
pub struct Answer {
    pub number: u32,
    pub mack: u32,
    pub tags: Vec<(u8, u8)>,
    pub asked: [u64; 2],
    pub told: Told,
}

impl From<u32> for Answer {
    fn from(number: u32) -> Answer {
        Answer {
            number,
            ..Answer::default()
        }
    }
}

/// Questions after each call whether four satellites have a recent set.
const QUESTIONS: usize = 3;

/// A core, a second receiver, what the core's regions must hold, and both records areas.
#[derive(Clone)]
pub struct Twin {
    pub core: Core,
    pub receiver: Receiver,
    pub want: Regions,
    area: Records,
    want_area: Records,
    /// Limits are drawn from numbers of their own, so that calls are drawn as they would be without.
    pub asks: Rng,
}

/// What a call that gives no read answers.
fn number(answer: Result<(), osnma::Refusal>) -> u32 {
    answer.err().map_or(0, osnma::Refusal::number)
}

/// Any bytes in every region.
pub fn garbage(rng: &mut Rng) -> Regions {
    let mut r = Regions::zeroed();
    rng.fill(&mut r.config);
    rng.fill(&mut r.words);
    rng.fill(&mut r.blocks);
    rng.fill(&mut r.headers);
    rng.fill(&mut r.pubkeys);
    rng.fill(&mut r.offer);
    rng.fill(&mut r.chain);
    rng.fill(&mut r.heldkey);
    rng.fill(&mut r.waiting);
    rng.fill(&mut r.sets);
    r.clocks.fill_with(|| rng.number() as u32);
    r.stamps.fill_with(|| rng.number() as u32);
    r.present.fill_with(|| rng.number() as u16);
    r.since.fill_with(|| rng.number() as u32);
    r.numbers.fill_with(|| rng.number());
    r.arrivals.fill_with(|| rng.number() as u32);
    r
}

impl Twin {
    /// Not started; any bytes in the core and in the record areas.
    pub fn new(rng: &mut Rng) -> Twin {
        let (want, area) = (garbage(rng), rng.array());
        let mut core = Core::new();
        *core.regions_mut() = want.clone();
        Twin {
            core,
            receiver: Receiver::new(),
            want,
            area,
            want_area: area,
            asks: Rng::new(0x464F_5552),
        }
    }

    /// The core's record area.
    pub fn area(&self) -> &[u8] {
        &self.area
    }

    /// A call into both. Compares the answers, the tag records, every byte of every region and of the
    /// record area, and what the reads give then; `prn` is the satellite that is read where the call
    /// names none.
    ///
    /// Before a start the second receiver answers no call but a start; the core's answers are then
    /// those of its contents, and only starts are called.
    pub fn call(&mut self, call: &Call, prn: u8) -> Result<Answer, String> {
        let mut answer = self.answers(call)?;
        if answer.number == 0 && call.kind() == Kind::Start {
            self.want = Regions::zeroed();
        }
        self.compare()?;
        if self.receiver.is_started() {
            self.read_set(call.prn().unwrap_or(prn))?;
            self.read_message()?;
        }
        answer.asked = self.ask()?;
        self.progress()?;
        if self.receiver.is_started() {
            stores::tell(self.core.regions(), &mut answer.told);
            same("told of what no call leaves", &answer.told[3..], &[0; 3])?;
        }
        self.compare()?;
        Ok(answer)
    }

    /// What both answer.
    fn answers(&mut self, call: &Call) -> Result<Answer, String> {
        let (core, receiver) = (&mut self.core, &mut self.receiver);
        let (got, right) = match call {
            Call::Start(s) => (
                number(core.start(s)),
                receiver.start(
                    s.ns,
                    s.key_id,
                    s.key_type,
                    s.maclt,
                    &s.marks[0],
                    &s.marks[1],
                    &s.tree_root,
                    &s.key,
                ),
            ),
            Call::Word { prn, time, word } => (
                number(core.word(*prn, Gst::from_bits(*time), word)),
                receiver.word(*prn, *time, word),
            ),
            Call::Subframe {
                prn,
                time,
                marks,
                fields,
            } => return self.subframe(*prn, *time, *marks, fields),
            Call::Verdict {
                good,
                key_id,
                message,
                signature,
            } => (
                match good {
                    0 | 1 => number(core.verdict(*good == 1, *key_id, message, signature)),
                    // `Core` takes no other verdict.
                    _ => core
                        .regions_mut()
                        .lend()
                        .verdict(*good, *key_id, message, signature),
                },
                receiver.verdict(*good, *key_id, message, signature),
            ),
            Call::ReadSet(prn) => return self.read_set(*prn).map(Answer::from),
            Call::ReadMessage => return self.read_message().map(Answer::from),
            Call::Four(limit) => return self.four(*limit).map(|_| Answer::from(0)),
            Call::Progress => return self.progress().map(|()| Answer::from(0)),
        };
        same("answer", &got, &u32::from(right))?;
        Ok(got.into())
    }

    /// A sub-frame: both halves, the records as they are and as `Core` hands them out.
    fn subframe(
        &mut self,
        prn: u8,
        time: u32,
        marks: Option<u16>,
        fields: &[u8; 75],
    ) -> Result<Answer, String> {
        let block = Block::of(fields, time, &self.receiver);
        let (gst, area) = (Gst::from_bits(time), &mut self.area);
        let got = match marks {
            None => self.core.subframe(prn, gst, fields, area),
            Some(bits) => {
                let marks = Marks::from_bits(bits);
                self.core.subframe_marked(prn, gst, marks, fields, area)
            }
        };
        let (hkroot, mack) = (number(got.hkroot), number(got.mack));
        let tags: Vec<TagRecord> = got.tags.collect();
        let area = &mut self.want_area;
        let right = match marks {
            None => self.receiver.subframe(prn, time, fields, area),
            Some(bits) => {
                let received = Received(bits);
                self.receiver
                    .subframe_received(prn, time, received, fields, area)
            }
        };
        let halves = (u32::from(right.hkroot), u32::from(right.mack));
        same("halves", &(hkroot, mack), &halves)?;
        same("count of records", &tags.len(), &right.records)?;
        let records = self.want_area.chunks_exact(12).take(right.records);
        for (tag, record) in tags.iter().zip(records.clone()) {
            same("record", &&bytes(tag)[..], &record)?;
        }
        if !matches!(hkroot, 1..=5 | 17) {
            block.write(&mut self.want);
        }
        if mack == 0 {
            write_candidates_that_stood(&self.receiver, &mut self.want);
        }
        Ok(Answer {
            number: hkroot,
            mack,
            tags: records.map(|record| (record[2], record[0])).collect(),
            ..Answer::default()
        })
    }

    /// Every byte of every region and of the record area.
    pub fn compare(&mut self) -> Result<(), String> {
        if self.receiver.is_started() {
            write_known(&self.receiver, &mut self.want);
        }
        if let Some(difference) = difference(self.core.regions(), &self.want) {
            return Err(difference);
        }
        let mut pairs = self.area.iter().zip(&self.want_area);
        match pairs.position(|(a, b)| a != b) {
            None => Ok(()),
            Some(at) => {
                let (a, b) = (self.area[at], self.want_area[at]);
                Err(format!("area[{at}] is {a}, not {b}"))
            }
        }
    }

    /// The read by `Core`, and the one below it, which leaves what it is lent where it refuses.
    fn read_set(&self, prn: u8) -> Result<u32, String> {
        let (mut set, mut iodnav, mut time) = ([0x5A; 69], 0x5A5A, 0x5A5A_5A5A);
        let mut right_set = [0x5A; 69];
        let view = self.core.regions().view();
        let got = view.read_set(prn, &mut set, &mut iodnav, &mut time);
        let right = self.receiver.read_set(prn, &mut right_set);
        same("read_set", &got, &u32::from(right.number))?;
        same("the set read", &set, &right_set)?;
        same("its IODnav", &iodnav, &right.iodnav)?;
        same("its time", &time, &right.time)?;
        match self.core.read_set(prn) {
            Ok(read) => same(
                "Core::read_set",
                &(0, read.bytes, read.iodnav, read.time.bits()),
                &(got, set, iodnav, time),
            )?,
            Err(refusal) => same("Core::read_set", &refusal.number(), &got)?,
        }
        Ok(got)
    }

    /// As [`Twin::read_set`].
    fn read_message(&self) -> Result<u32, String> {
        let (mut message, mut signature, mut key) = ([0x5A; 45], [0x5A; 132], [0x5A; 67]);
        let (mut id, mut kind) = (0x5A, 0x5A);
        let mut right_parts = (message, signature, key);
        let view = self.core.regions().view();
        let got = view.read_message(&mut message, &mut signature, &mut key, &mut id, &mut kind);
        let (m, s, k) = (&mut right_parts.0, &mut right_parts.1, &mut right_parts.2);
        let right = self.receiver.read_waiting(m, s, k);
        same("read_message", &got, &u32::from(right.number))?;
        same("what is read", &(message, signature, key), &right_parts)?;
        same(
            "its key ID and type",
            &(id, kind),
            &(right.key_id, right.key_type),
        )?;
        match self.core.read_message() {
            Ok(read) => {
                let parts = (read.message, read.signature, read.key);
                same("Core::read_message", &parts, &right_parts)?;
                same(
                    "Core::read_message",
                    &(0, read.key_id, read.key_type),
                    &(got, id, kind),
                )?;
            }
            Err(refusal) => same("Core::read_message", &refusal.number(), &got)?,
        }
        Ok(got)
    }

    /// The question by `Core`, and the one below it, which writes its answer over any byte. Before a
    /// start it is about what the regions hold.
    fn four(&mut self, limit: u32) -> Result<bool, String> {
        let mut yes = self.asks.number() as u8;
        let got = self.core.regions().view().four(limit, &mut yes);
        let right = match self.receiver.is_started() {
            true => self.receiver.four(limit),
            false => met(least_limit_of(&self.want), limit),
        };
        let what = format!("four with limit {limit}");
        same(&what, &(got, yes), &(0, right.into()))?;
        same(&format!("Core::{what}"), &self.core.four(limit), &right)?;
        Ok(right)
    }

    /// How far along each message is, by `Core` and below it, where the answer is written over any bytes. Before a start it
    /// is about what the regions hold.
    fn progress(&self) -> Result<(), String> {
        let mut got = [[0x5A; 2]; 16];
        let number = self.core.regions().view().progress(got.as_flattened_mut());
        let right = match self.receiver.is_started() {
            true => self.receiver.progress(),
            false => stores::progress_of(&self.want),
        };
        same("progress", &(number, got), &(0, stores::pairs(right)))?;
        let core = self.core.progress();
        let core: Vec<_> = core.map(|m| (m.dsm_id, m.held, m.missing)).collect();
        let right = (0..).zip(right).map(|(id, m)| (id, m.held, m.missing));
        same("Core::progress", &core, &right.collect())
    }

    /// The question with drawn limits: how often the answer was no and yes.
    fn ask(&mut self) -> Result<[u64; 2], String> {
        let least = least_limit_of(&self.want);
        let mut told = [0; 2];
        for _ in 0..QUESTIONS {
            let limit = limit(&mut self.asks, least);
            told[usize::from(self.four(limit)?)] += 1;
        }
        Ok(told)
    }

    /// Any bytes wherever the second receiver knows of none: in the core's regions, and in the record
    /// area.
    pub fn refill(&mut self, rng: &mut Rng) {
        self.want = garbage(rng);
        if self.receiver.is_started() {
            write_known(&self.receiver, &mut self.want);
        }
        self.core.regions_mut().clone_from(&self.want);
        self.area = rng.array();
        self.want_area = self.area;
    }
}

/// The 12 bytes of a record (01, "A tag record has 12 bytes").
fn bytes(tag: &TagRecord) -> [u8; 12] {
    let mut bytes = [0; 12];
    let head = [
        tag.outcome.number(),
        tag.sender,
        tag.prn,
        tag.adkd,
        tag.block,
        tag.position,
    ];
    bytes[..6].copy_from_slice(&head);
    bytes[6..8].copy_from_slice(&tag.iodnav.to_be_bytes());
    bytes[8..].copy_from_slice(&tag.time.bits().to_be_bytes());
    bytes
}

fn same<T: PartialEq + std::fmt::Debug + ?Sized>(
    what: &str,
    got: &T,
    right: &T,
) -> Result<(), String> {
    if got == right {
        Ok(())
    } else {
        Err(format!("{what}: {got:?}, not {right:?}"))
    }
}
