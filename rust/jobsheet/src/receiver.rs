//! The proved core, called as the replay program calls it.

use crate::recording::Record;
use osnma::{Core, Records, Refusal, TagRecord, NO_RECORDS};

/// What a record was answered.
#[derive(Clone, Debug, PartialEq, Eq)]
pub struct Answer {
    /// The first number; a sub-frame's HKROOT half.
    pub first: Result<(), Refusal>,
    /// The second number: a sub-frame's MACK half.
    pub second: Result<(), Refusal>,
    /// The tags that were judged.
    pub tags: Vec<TagRecord>,
}

impl Answer {
    fn one(first: Result<(), Refusal>) -> Answer {
        Answer {
            first,
            second: Ok(()),
            tags: Vec::new(),
        }
    }

    fn both(refusal: Refusal) -> Answer {
        Answer {
            second: Err(refusal),
            ..Answer::one(Err(refusal))
        }
    }
}

/// The core with its area for tag records.
pub struct Receiver {
    core: Box<Core>,
    area: Box<Records>,
    started: bool,
}

impl Receiver {
    /// A core that waits for its start.
    pub fn new() -> Receiver {
        Receiver {
            core: Box::new(Core::new()),
            area: Box::new(NO_RECORDS),
            started: false,
        }
    }

    /// The core as the last record left it, for its reads.
    pub fn core(&self) -> &Core {
        &self.core
    }

    /// Lends a record to the core. Before an accepted start the replay program itself answers 11,
    /// and to another kind 2 (01, The replay program).
    pub fn answer(&mut self, record: &Record) -> Answer {
        match record {
            Record::Start(settings) => {
                let answer = self.core.start(settings);
                self.started |= answer.is_ok();
                Answer::one(answer)
            }
            Record::Other(_) => Answer::one(Err(Refusal::OutOfRange)),
            Record::Subframe { .. } if !self.started => Answer::both(Refusal::NotInForce),
            _ if !self.started => Answer::one(Err(Refusal::NotInForce)),
            Record::Word { prn, time, word } => Answer::one(self.core.word(*prn, *time, word)),
            Record::Subframe {
                prn,
                time,
                marks,
                fields,
            } => {
                let answer = self
                    .core
                    .subframe_marked(*prn, *time, *marks, fields, &mut self.area);
                Answer {
                    first: answer.hkroot,
                    second: answer.mack,
                    tags: answer.tags.collect(),
                }
            }
            // The binding takes yes or no; row 2 of the table refuses every other byte.
            Record::Verdict { good: 2.., .. } => Answer::one(Err(Refusal::OutOfRange)),
            Record::Verdict {
                good,
                key_id,
                message,
                signature,
            } => Answer::one(self.core.verdict(*good == 1, *key_id, message, signature)),
        }
    }
}

impl Default for Receiver {
    fn default() -> Receiver {
        Receiver::new()
    }
}
