//! How the blocks of the system's messages came together, by what the core says of each DSM ID after each
//! sub-frame (02, P9): every gathering while no keys are in force, and later those that take long.

use crate::time::{self, Clock};
use crate::vouched::Keys;
use crate::words::count;
use osnma::{Gst, Progress, Refusal};
use std::collections::BTreeMap;

/// Gatherings of a run that are kept once they have ended: the first ones.
pub const KEPT: usize = 32;
/// Seconds after which a gathering is called long.
pub const LONG: u64 = 600;
/// The first DSM ID of public keys; those below it are of roots.
const PUBLIC_KEYS: u8 = 12;

/// The blocks of a message.
#[derive(Clone, Copy, Debug, PartialEq, Eq)]
pub struct Blocks {
    /// How many are held.
    pub held: u8,
    /// How many are missing; none where the total is unknown.
    pub missing: Option<u8>,
}

impl Blocks {
    /// How many there are.
    pub fn total(self) -> Option<u8> {
        self.missing.map(|missing| self.held + missing)
    }

    /// Side by side: `###.....`; `######?` where the total is unknown.
    pub fn bar(self) -> String {
        let held = "#".repeat(self.held.into());
        match self.missing {
            Some(missing) => held + &".".repeat(missing.into()),
            None => held + "?",
        }
    }

    /// `3 of 8 blocks held, 5 missing`; `1 block held, total unknown`.
    pub fn told(self) -> String {
        match (self.total(), self.missing) {
            (Some(total), Some(missing)) => {
                format!("{} of {total} blocks held, {missing} missing", self.held)
            }
            _ => format!("{} held, total unknown", count(self.held.into(), "block")),
        }
    }
}

/// Where no keys are in force and none wait for the chip: whether there were some before. None where keys
/// are in force or wait.
pub type Wanting = Option<Keys>;

/// Half minutes, one after another, at whose ends the same blocks were held.
#[derive(Clone, Copy, Debug, PartialEq, Eq)]
pub struct Step {
    /// The first.
    pub first: Gst,
    /// The last.
    pub last: Gst,
    /// The blocks.
    pub blocks: Blocks,
}

/// What became of a whole message.
#[derive(Clone, Copy, Debug, PartialEq, Eq)]
pub enum Then {
    /// It waits for the signature chip.
    Waits,
    /// The chip said yes, and that counted.
    SaidYes(Gst),
    /// The chip said no.
    SaidNo(Gst),
    /// The chip said yes, and that was refused.
    NotCounted(Gst),
    /// Another message took its place before the chip answered.
    Replaced(Gst),
    /// A public key was taken, or was held already.
    KeyTaken,
    /// It stopped the core.
    Stopped,
    /// It was refused.
    Refused(Refusal),
}

/// How a gathering ended.
#[derive(Clone, Copy, Debug, PartialEq, Eq)]
pub enum End {
    /// It goes on.
    Open,
    /// Its blocks were dropped when another came.
    Dropped(Gst),
    /// The message was whole.
    Whole {
        /// When.
        at: Gst,
        /// Its blocks.
        total: u8,
        /// What became of it.
        then: Then,
    },
}

/// The blocks that came under one DSM ID until they were a message or were dropped.
#[derive(Clone, Debug, PartialEq, Eq)]
pub struct Gathered {
    /// The DSM ID.
    pub dsm_id: u8,
    /// When the first block came.
    pub since: Gst,
    /// When the last block came, a repeated one too.
    pub last: Gst,
    /// What the half minutes ended with.
    pub steps: Vec<Step>,
    /// How it ended.
    pub end: End,
    /// Whether keys were wanting then.
    pub wanting: Wanting,
    blocks: Blocks,
}

impl Gathered {
    /// Whether it is of a root, not of a public key.
    pub fn is_root(&self) -> bool {
        self.dsm_id < PUBLIC_KEYS
    }

    /// The blocks held now, or before the end.
    pub fn blocks(&self) -> Blocks {
        self.blocks
    }

    fn is_long(&self) -> bool {
        time::seconds(self.last) - time::seconds(self.since) > LONG
    }

    fn end_half_minute(&mut self, at: Gst) {
        match self.steps.last_mut() {
            Some(step) if step.blocks == self.blocks => step.last = at,
            _ => self.steps.push(Step {
                first: at,
                last: at,
                blocks: self.blocks,
            }),
        }
    }
}

/// A sub-frame that was noted, as far as messages go.
#[derive(Clone, Copy, Debug)]
pub struct Came {
    /// Its time.
    pub at: Gst,
    /// The DSM ID of its block.
    pub dsm_id: u8,
    /// The answer of its HKROOT half.
    pub answer: Result<(), Refusal>,
    /// Whether it stopped the core.
    pub stopped: bool,
    /// Whether a message waits for the chip that did not before.
    pub new_message: bool,
    /// Whether keys are wanting.
    pub wanting: Wanting,
}

impl Came {
    fn then(&self, is_root: bool) -> Then {
        match (self.answer, is_root) {
            (Err(refusal), _) => Then::Refused(refusal),
            (Ok(()), true) => Then::Waits,
            (Ok(()), false) if self.stopped => Then::Stopped,
            (Ok(()), false) => Then::KeyTaken,
        }
    }
}

/// The gatherings of a run.
#[derive(Clone, Debug, Default)]
pub struct Gathering {
    ended: Vec<Gathered>,
    /// How many that would be kept ended after them.
    pub left_out: u64,
    /// Roots that came whole since keys are wanting: how many, when the last did, and what became of it.
    pub whole: Option<(u64, Gst, Then)>,
    open: BTreeMap<u8, Gathered>,
    at: Option<Gst>,
}

impl Gathering {
    /// Takes in what the core says of each DSM ID after a sub-frame. Blocks are held until they are whole
    /// or dropped for the one that came: nothing held is a message that was whole, and fewer or as many
    /// others are a new gathering.
    pub fn note(&mut self, came: Came, progress: &[Progress]) {
        if let Some(before) = self.at.filter(|before| *before != came.at) {
            self.end_half_minute(before);
        }
        self.at = Some(came.at);
        for of in progress {
            let now = Blocks {
                held: of.held,
                missing: of.missing,
            };
            let before = self.open.get_mut(&of.dsm_id);
            match before {
                Some(gathered) if now.held > gathered.blocks.held => gathered.blocks = now,
                Some(gathered) if now == gathered.blocks => {}
                None if now.held == 0 => {}
                _ => self.turn(of.dsm_id, now, came),
            }
        }
        if let (Some(gathered), Ok(())) = (self.open.get_mut(&came.dsm_id), came.answer) {
            gathered.last = came.at;
        }
    }

    /// What was gathered under this ID ends, and another gathering begins where a block is held.
    fn turn(&mut self, dsm_id: u8, now: Blocks, came: Came) {
        let before = self.open.remove(&dsm_id);
        if now.held > 0 {
            let gathered = Gathered {
                dsm_id,
                since: came.at,
                last: came.at,
                steps: Vec::new(),
                end: End::Open,
                wanting: came.wanting,
                blocks: now,
            };
            self.open.insert(dsm_id, gathered);
        }
        let Some(mut gathered) = before else {
            return;
        };
        gathered.last = came.at;
        gathered.wanting = came.wanting;
        gathered.end = match now.held {
            0 => self.whole(&gathered, came),
            _ => End::Dropped(came.at),
        };
        match gathered.wanting.is_some() || gathered.is_long() {
            true if self.ended.len() < KEPT => self.ended.push(gathered),
            true => self.left_out += 1,
            false => {}
        }
    }

    fn whole(&mut self, gathered: &Gathered, came: Came) -> End {
        let then = came.then(gathered.is_root());
        if came.new_message {
            self.answered(Then::Replaced(came.at));
        }
        if gathered.is_root() && came.wanting.is_some() {
            let before = self.whole.map_or(0, |whole| whole.0);
            self.whole = Some((before + 1, came.at, then));
        }
        End::Whole {
            at: came.at,
            total: gathered.blocks.held + 1,
            then,
        }
    }

    /// The message that waited does no more.
    pub fn answered(&mut self, now: Then) {
        let kept = self.ended.iter_mut().map(|gathered| &mut gathered.end);
        let kept = kept.filter_map(|end| match end {
            End::Whole { then, .. } => Some(then),
            _ => None,
        });
        let last = self.whole.iter_mut().map(|whole| &mut whole.2);
        let waits = kept.chain(last).filter(|then| **then == Then::Waits);
        waits.for_each(|then| *then = now);
        if let Then::SaidYes(_) = now {
            self.whole = None;
        }
    }

    fn end_half_minute(&mut self, at: Gst) {
        for gathered in self.open.values_mut() {
            gathered.end_half_minute(at);
        }
    }

    /// Those that go on, in the order of their IDs.
    pub fn open(&self) -> Vec<Gathered> {
        let mut open: Vec<Gathered> = self.open.values().cloned().collect();
        for (gathered, at) in open.iter_mut().zip(self.at.iter().cycle()) {
            gathered.end_half_minute(*at);
        }
        open
    }

    /// Those that are shown, by the time of their first block; with whether keys are wanting now.
    fn shown(&self, wanting: Wanting) -> Vec<Gathered> {
        let open = self.open().into_iter();
        let open = open.filter(|gathered| wanting.is_some() || gathered.is_long());
        let open = open.map(|gathered| Gathered {
            wanting,
            ..gathered
        });
        let mut all: Vec<Gathered> = self.ended.iter().cloned().chain(open).collect();
        all.sort_by_key(|gathered| gathered.since);
        all
    }
}

/// A line of the sheet: a step of a gathering, or its end.
#[derive(Clone, Debug, PartialEq, Eq)]
pub struct Row {
    /// When: half minutes, each at its end.
    pub when: String,
    /// Which message.
    pub message: String,
    /// Its blocks.
    pub blocks: Blocks,
    /// What became of it.
    pub then: String,
    /// Whether keys were wanting.
    pub wanting: Wanting,
}

impl Row {
    /// When, which message, its blocks side by side, how many, and what became of it.
    pub fn fields(&self) -> [String; 5] {
        let held = self.blocks.held;
        [
            self.when.clone(),
            self.message.clone(),
            self.blocks.bar(),
            match self.blocks.total() {
                Some(total) => format!("{held} of {total}"),
                None => format!("{held}, total unknown"),
            },
            self.then.clone(),
        ]
    }

    /// The same in words.
    pub fn told(&self) -> String {
        let [when, message, _, held, then] = self.fields();
        let parted = if then.is_empty() { "" } else { ", " };
        format!("Blocks of {message} held, {when}: {held}{parted}{then}.")
    }
}

/// The rows of a gathering: of one that kept the receiver waiting each step and its end, of another its end.
fn rows_of(gathered: &Gathered, clock: Clock) -> Vec<Row> {
    let kind = match gathered.is_root() {
        true => "keys",
        false => "public key",
    };
    let row = |first: Gst, last: Gst, blocks: Blocks, then: String| Row {
        when: match first == last {
            true => clock.say(first),
            false => clock.range(first, last),
        },
        message: format!("{kind} {}", gathered.dsm_id),
        blocks,
        then,
        wanting: gathered.wanting,
    };
    let missing = |blocks: Blocks| match blocks.missing {
        Some(missing) => format!("{missing} missing"),
        None => String::new(),
    };
    let wanting = gathered.wanting.is_some();
    let steps = gathered.steps.iter().filter(|_| wanting);
    let steps = steps.map(|step| row(step.first, step.last, step.blocks, missing(step.blocks)));
    let mut rows: Vec<Row> = steps.collect();
    match (gathered.end, wanting) {
        (End::Whole { at, total, then }, _) => {
            let whole = Blocks {
                held: total,
                missing: Some(0),
            };
            let first = if wanting { at } else { gathered.since };
            rows.push(row(first, at, whole, then_told(then, clock)));
        }
        (_, true) => {}
        (_, false) => {
            let blocks = gathered.blocks;
            rows.push(row(gathered.since, gathered.last, blocks, missing(blocks)));
        }
    }
    if let (End::Dropped(at), Some(last)) = (gathered.end, rows.last_mut()) {
        let dropped = format!("dropped at {}", clock.say(at));
        last.then = match last.then.as_str() {
            "" => dropped,
            missing => format!("{missing}; {dropped}"),
        };
    }
    rows
}

fn then_told(then: Then, clock: Clock) -> String {
    let chip = |said: &str, at: Gst| format!("whole; the chip said {said} at {}", clock.say(at));
    match then {
        Then::Waits => "whole; waits for the chip".into(),
        Then::SaidYes(at) => chip("yes", at),
        Then::SaidNo(at) => chip("NO", at),
        Then::NotCounted(at) => chip("yes", at) + ", not taken",
        Then::Replaced(at) => format!("whole; replaced at {}", clock.say(at)),
        Then::KeyTaken => "whole; a public key".into(),
        Then::Stopped => "whole; STOPPED the receiver".into(),
        Then::Refused(refusal) => format!("whole; refused: {}", refused_told(refusal)),
    }
}

/// Why a whole message is refused, in the fitter's words.
pub fn refused_told(refusal: Refusal) -> &'static str {
    match refusal {
        Refusal::KeyNotHeld => "signed under a public key not held",
        Refusal::ParametersUnfit => "parameters not taken here",
        Refusal::TreeUnfit => "not the system's",
        Refusal::NotNewer => "not newer than what is held",
        _ => "its size cannot be",
    }
}

/// What the sheet shows of them, in order; with whether keys are wanting now.
pub fn rows(gathering: &Gathering, wanting: Wanting, clock: Clock) -> Vec<Row> {
    let all = gathering.shown(wanting);
    all.iter()
        .flat_map(|gathered| rows_of(gathered, clock))
        .collect()
}
