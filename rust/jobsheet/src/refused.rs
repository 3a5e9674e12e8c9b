//! What was refused, in sums: of each part of the input, by the core's number.

use crate::vouched::Keys;
use osnma::{Gst, Refusal};
use std::collections::{BTreeMap, BTreeSet};

/// Which part of a record was refused.
#[derive(Clone, Copy, Debug, PartialEq, Eq, PartialOrd, Ord)]
pub enum Part {
    /// A sub-frame, both halves.
    Subframe,
    /// A sub-frame's MACK half.
    Section,
    /// A sub-frame's HKROOT half.
    Message,
    /// A verdict.
    Verdict,
    /// A word.
    Word,
    /// A start.
    Start,
    /// A record of a kind that the replay program has not.
    Kind,
}

impl Part {
    /// The engineer's word for it.
    pub fn name(self) -> &'static str {
        match self {
            Part::Subframe => "sub-frame",
            Part::Section => "section",
            Part::Message => "message block",
            Part::Verdict => "verdict",
            Part::Word => "word",
            Part::Start => "start",
            Part::Kind => "record",
        }
    }
}

/// Refusals of one part for one reason.
#[derive(Clone, Debug, PartialEq, Eq)]
pub struct Refused {
    /// What was refused.
    pub part: Part,
    /// Why.
    pub refusal: Refusal,
    /// Whether a chain was in force; told apart for sections that ask for one alone.
    pub keys: Keys,
    /// How many.
    pub count: u64,
    /// The satellites, where the records name one.
    pub prns: BTreeSet<u8>,
    /// The first and the last time: the record's own, that of the last sub-frame where it has none.
    pub span: Option<(Gst, Gst)>,
    /// The first record's place, from 1.
    pub place: u64,
}

/// All refusals of a run.
#[derive(Clone, Debug, Default)]
pub struct Refusals(BTreeMap<(Part, u32, Keys), Refused>);

impl Refusals {
    /// One more.
    pub fn add(
        &mut self,
        part: Part,
        refusal: Refusal,
        keys: Keys,
        prn: Option<u8>,
        at: Option<Gst>,
        place: u64,
    ) {
        let keys = match (part, refusal) {
            (Part::Section, Refusal::NotInForce) => keys,
            _ => Keys::default(),
        };
        let group = (part, refusal.number(), keys);
        let sum = self.0.entry(group).or_insert_with(|| Refused {
            part,
            refusal,
            keys,
            count: 0,
            prns: BTreeSet::new(),
            span: None,
            place,
        });
        sum.count += 1;
        sum.prns.extend(prn);
        if let Some(at) = at {
            let (first, last) = sum.span.unwrap_or((at, at));
            sum.span = Some((first.min(at), last.max(at)));
        }
    }

    /// By part, number and chain.
    pub fn all(&self) -> impl Iterator<Item = &Refused> {
        self.0.values()
    }

    /// Those of one part for one reason.
    pub fn of(&self, part: Part, refusal: Refusal) -> impl Iterator<Item = &Refused> {
        self.all()
            .filter(move |sum| sum.part == part && sum.refusal == refusal)
    }
}
