//! Long sequences of calls from many states, and a tally of what was answered.

use super::draw;
use super::loose::{parts, refused, regions_of, WRONG};
use super::stamps;
use super::stores::{self, Told};
use super::twin::{Answer, Call, Kind, Twin};
use second_receiver::sets::{AuthenticSet, Candidate};
use second_receiver::Receiver;
use signal::chain::AES_KEYS;
use signal::dsm::Tree;
use signal::replay::RECORD;
use signal::rng::Rng;
use signal::scenario::{self, Functions, Pages};
use signal::subframe::all_came;
use std::collections::{BTreeMap, BTreeSet};
use std::fmt;
use std::rc::Rc;

/// The numbers that each call can answer, those of a sub-frame's HKROOT half.
const ANSWERS: [(Kind, &[u32]); 8] = [
    (Kind::Start, &[0, 1, 2]),
    (Kind::Word, &[0, 1, 2, 3, 4]),
    (Kind::Subframe, &[0, 1, 2, 3, 4, 5, 6, 7, 8, 9, 10, 17]),
    (Kind::Verdict, &[0, 1, 2, 4, 9, 11, 14, 15]),
    (Kind::ReadSet, &[0, 1, 2, 16]),
    (Kind::ReadMessage, &[0, 1, 14]),
    (Kind::Four, &[0, 1]),
    (Kind::Progress, &[0, 1]),
];

/// The numbers that a sub-frame's MACK half can answer.
const MACK: &[u32] = &[0, 1, 2, 3, 4, 5, 11, 12, 13, 17];

/// What good verdicts and sub-frames did, and what calls met.
const EVENTS: [&str; 33] = [
    "first root",
    "root with CMAC-AES",
    "later root with another MAC function",
    "root with SHA3-224",
    "root with SHA3-256",
    "later root with another hash function",
    "later root, no tag waited",
    "later root, all tags stay",
    "later root, some tags stay",
    "later root, no tag stays",
    "root after a drop",
    "equal contents",
    "chain dropped",
    "public keys dropped",
    "public key added",
    "message waits",
    "stopped by an emergency message",
    "waiting tags judged",
    "call of a full core",
    "sub-frame with marks, all fields came",
    "sub-frame with lost fields",
    "message completed by a sub-frame with marks",
    "section with lost fields judged",
    "candidate begun",
    "candidate goes on",
    "candidate replaced",
    "candidate becomes the authentic set",
    "candidate goes, a newer authentic set stays",
    "outcome 9 that changes no candidate",
    "candidate untouched by outcome 1",
    "later root, candidates stay",
    "later root, candidates go",
    "chain dropped, candidates go",
];

/// How often each answer came.
#[derive(Clone, Debug, Default, PartialEq, Eq)]
pub struct Tally {
    answers: BTreeMap<(Kind, u32), u64>,
    mack: BTreeMap<u32, u64>,
    outcomes: BTreeMap<u8, u64>,
    events: BTreeMap<&'static str, u64>,
    /// Whether four satellites have a recent set: no, yes.
    asked: [u64; 2],
    /// How far along the messages are, DSM ID by DSM ID.
    told: Told,
    pub calls: u64,
    /// Most tag records of a sub-frame.
    pub records: usize,
}

impl Tally {
    fn add(&mut self, kind: Kind, answer: &Answer) {
        *self.answers.entry((kind, answer.number)).or_default() += 1;
        if kind == Kind::Subframe {
            *self.mack.entry(answer.mack).or_default() += 1;
        }
        for &(_, outcome) in &answer.tags {
            *self.outcomes.entry(outcome).or_default() += 1;
        }
        self.records = self.records.max(answer.tags.len());
        let [no, yes] = answer.asked;
        self.asked = [self.asked[0] + no, self.asked[1] + yes];
        self.question(Kind::Four, 0, no + yes);
        let told = answer.told.iter().sum::<u64>();
        self.question(Kind::Progress, 0, told / 16);
        let sums = self.told.iter_mut().zip(answer.told);
        sums.for_each(|(sum, count)| *sum += count);
        self.calls += 1;
    }

    /// Questions between the calls; they are no calls of the sequence.
    fn question(&mut self, kind: Kind, number: u32, count: u64) {
        if count > 0 {
            *self.answers.entry((kind, number)).or_default() += count;
        }
    }

    fn event(&mut self, event: &'static str) {
        *self.events.entry(event).or_default() += 1;
    }

    /// What never came of the numbers and outcomes.
    pub fn missing_answers(&self) -> Vec<String> {
        let mut missing = Vec::new();
        for (kind, numbers) in ANSWERS {
            let never = |number: &&u32| !self.answers.contains_key(&(kind, **number));
            missing.extend(
                numbers
                    .iter()
                    .filter(never)
                    .map(|n| format!("{kind:?} {n}")),
            );
        }
        let never = |number: &&u32| !self.mack.contains_key(*number);
        missing.extend(MACK.iter().filter(never).map(|n| format!("MACK {n}")));
        let never = |outcome: &u8| !self.outcomes.contains_key(outcome);
        missing.extend((1..=9).filter(never).map(|n| format!("outcome {n}")));
        let told = ["four: no", "four: yes"].into_iter().zip(self.asked);
        // Of what calls leave.
        let told = told.chain(stores::TOLD.into_iter().zip(self.told).take(3));
        let never = told.filter(|(_, count)| *count == 0);
        missing.extend(never.map(|(what, _)| what.to_string()));
        missing
    }

    /// What never came.
    pub fn missing(&self) -> Vec<String> {
        let mut missing = self.missing_answers();
        let never = |event: &&&str| !self.events.contains_key(**event);
        missing.extend(EVENTS.iter().filter(never).map(|event| event.to_string()));
        missing
    }
}

fn counts<K: fmt::Display>(all: impl Iterator<Item = (K, u64)>) -> String {
    all.map(|(key, count)| format!("  {key}: {count}"))
        .collect()
}

impl fmt::Display for Tally {
    fn fmt(&self, f: &mut fmt::Formatter<'_>) -> fmt::Result {
        writeln!(f, "{} calls", self.calls)?;
        for (kind, _) in ANSWERS {
            let all = self.answers.range((kind, 0)..=(kind, u32::MAX));
            let all = counts(all.map(|((_, number), count)| (number, *count)));
            writeln!(f, "{:>13}:{all}", format!("{kind:?}"))?;
        }
        let mack = counts(self.mack.iter().map(|(number, count)| (number, *count)));
        writeln!(f, "{:>13}:{mack}", "its MACK half")?;
        let outcomes = counts(self.outcomes.iter().map(|(number, count)| (number, *count)));
        writeln!(f, "{:>13}:{outcomes}", "outcomes")?;
        let [no, yes] = self.asked;
        writeln!(f, "{:>13}:  no: {no}  yes: {yes}", "four")?;
        let told = counts(stores::TOLD.into_iter().zip(self.told));
        writeln!(f, "{:>13}:{told}", "progress")?;
        writeln!(f, "{:>13}  most records of a sub-frame", self.records)?;
        for (event, count) in &self.events {
            writeln!(f, "{count:>13}  {event}")?;
        }
        Ok(())
    }
}

/// A record of the replay program as a call; `None` for other kinds.
pub fn call_of(record: &[u8]) -> Option<Call> {
    let mut marks = [[0; 14]; 2];
    marks[0].copy_from_slice(&record[5..19]);
    marks[1].copy_from_slice(&record[19..33]);
    match record[0] {
        1 => Some(Call::Start(osnma::Settings {
            ns: record[1],
            key_id: record[2],
            key_type: record[3],
            maclt: record[4],
            marks,
            tree_root: record[33..65].try_into().ok()?,
            key: record[65..132].try_into().ok()?,
        })),
        2 => Some(Call::Word {
            prn: record[1],
            time: gst(record),
            word: record[6..22].try_into().ok()?,
        }),
        3 | 6 => Some(Call::Subframe {
            prn: record[1],
            time: gst(record),
            marks: (record[0] == 6).then(|| u16::from_be_bytes([record[81], record[82]])),
            fields: record[6..81].try_into().ok()?,
        }),
        4 => Some(Call::Verdict {
            good: record[1],
            key_id: record[2],
            message: record[3..48].try_into().ok()?,
            signature: record[48..180].try_into().ok()?,
        }),
        _ => None,
    }
}

fn gst(record: &[u8]) -> u32 {
    record[2..6]
        .iter()
        .fold(0, |time, &byte| time << 8 | u32::from(byte))
}

/// The authentication fields without CMAC-AES: where they bring block 0 of a root that names it with a key size that it
/// takes, that root names the reserved MF 3. A core from before CMAC-AES refuses both.
pub fn without_cmac(fields: &mut [u8]) {
    let (id, block, mf) = (fields[5] >> 4, fields[5] & 15, fields[15] & 3);
    if id < 12 && block == 0 && mf == 1 && AES_KEYS.contains(&(fields[20] >> 4)) {
        fields[15] |= 3;
    }
}

/// The same without SHA3: such a root names the reserved HF 3. A core from before SHA3 refuses both.
pub fn without_sha3(fields: &mut [u8]) {
    let (id, block, hf) = (fields[5] >> 4, fields[5] & 15, fields[15] >> 2 & 3);
    if id < 12 && block == 0 && matches!(hf, 1 | 2) {
        fields[15] |= 3 << 2;
    }
}

/// The authentication fields with these functions alone. Where one is lost no block is taken, and all stay.
pub fn restrict(marks: Option<u16>, fields: &mut [u8], functions: Functions) {
    if !marks.is_none_or(all_came) {
        return;
    }
    if !functions.cmac {
        without_cmac(fields);
    }
    if !functions.sha3 {
        without_sha3(fields);
    }
}

/// The same for all sub-frames of a replay input.
pub fn restrict_input(input: &mut [u8], functions: Functions) {
    for record in input.chunks_exact_mut(RECORD) {
        let marks = u16::from_be_bytes([record[81], record[82]]);
        match record[0] {
            3 => restrict(None, &mut record[6..81], functions),
            6 => restrict(Some(marks), &mut record[6..81], functions),
            _ => {}
        }
    }
}

/// A replay input whose sub-frames with marks are records of no kind.
pub fn input_without_marks(input: &mut [u8]) {
    for record in input.chunks_exact_mut(RECORD) {
        if record[0] == 6 {
            record[0] = 0;
        }
    }
}

/// Lends a replay input to both. `each` sees every state, with the number of records before it.
pub fn replay(
    input: &[u8],
    rng: &mut Rng,
    tally: &mut Tally,
    mut each: impl FnMut(&Twin, usize, &mut Rng) -> Result<(), String>,
) -> Result<(), String> {
    let mut twin = Twin::new(rng);
    for (place, record) in input.chunks_exact(RECORD).enumerate() {
        let at = |error| format!("record {}: {error}", place + 1);
        let Some(call) = call_of(record) else {
            continue;
        };
        if twin.receiver.is_started() || call.kind() == Kind::Start {
            let prn = rng.range(1, 36) as u8;
            tally.add(call.kind(), &twin.call(&call, prn).map_err(at)?);
            if call.kind() == Kind::Subframe && rng.once_in(16) {
                twin.refill(rng);
            }
        }
        each(&twin, place + 1, rng).map_err(at)?;
    }
    Ok(())
}

/// What tells states apart that are worth beginning at.
fn shape(receiver: &Receiver) -> [usize; 8] {
    let sets = (1..=36).filter(|&prn| receiver.authentic_set(prn).is_some());
    let candidates = (1..=36).filter(|&prn| receiver.candidate(prn).is_some());
    let tags = receiver.waiting_tags().len();
    [
        usize::from(receiver.is_stopped()),
        usize::from(receiver.waiting_message().is_some()),
        usize::from(receiver.chain().is_some()) + 2 * usize::from(receiver.last_root().is_some()),
        tags.div_ceil(64) + tags / 256,
        receiver.public_keys().len(),
        sets.count().div_ceil(12),
        candidates.count().min(3),
        (0..16)
            .filter(|&id| receiver.dsm(id).is_some_and(|store| store.present() != 0))
            .count()
            .min(3),
    ]
}

/// Scenarios whose states are begun at, beside random mixes.
const SCENARIOS: [&str; 24] = [
    "two_sets",
    "slow_tags_between",
    "same_time_candidates",
    "thin_tags",
    "trees",
    "trees_1",
    "trees_3",
    "lost_keys",
    "cmac_192",
    "mf_changes",
    "sha3_224",
    "hf_changes",
    "nominal",
    "floating_root",
    "chain_renewal",
    "chain_revoked",
    "new_public_key",
    "stopped",
    "newer_set_stays",
    "week_change",
    "last_week",
    "places_full",
    "waiting_tags",
    "verdicts",
];

/// A state in the middle of a run, and the records that come then.
#[derive(Clone)]
pub struct State {
    pub twin: Twin,
    run: Rc<Vec<u8>>,
    next: usize,
}

impl State {
    /// Not started, and no run.
    fn new(rng: &mut Rng) -> State {
        State {
            twin: Twin::new(rng),
            run: Rc::default(),
            next: 0,
        }
    }

    /// The run's next call.
    fn next_of_run(&mut self) -> Option<Call> {
        let records = self.run.chunks_exact(RECORD).skip(self.next);
        for record in records {
            self.next += 1;
            if let Some(call) = call_of(record) {
                return Some(call);
            }
        }
        None
    }
}

/// States in the middle of scenarios, one or a few of each shape.
pub fn states(
    seed: u64,
    mixes: u64,
    functions: Functions,
    pages: Pages,
) -> Result<Vec<State>, String> {
    let mut rng = Rng::new(seed);
    let named = SCENARIOS.iter().filter_map(|name| scenario::find(name));
    let runs = named
        .map(|scenario| scenario.run(scenario::SEED))
        .chain((0..mixes).map(|mix| scenario::random_with(seed ^ mix << 32, functions, pages)));
    let mut states = Vec::new();
    for mut run in runs {
        let mut seen = BTreeSet::new();
        restrict_input(&mut run.bytes, functions);
        if pages == Pages::Whole {
            input_without_marks(&mut run.bytes);
        }
        let bytes = Rc::new(run.bytes);
        let keep = |twin: &Twin, next: usize, rng: &mut Rng| {
            let again = rng.once_in(200);
            if twin.receiver.is_started() && (seen.insert(shape(&twin.receiver)) || again) {
                states.push(State {
                    twin: twin.clone(),
                    run: Rc::clone(&bytes),
                    next,
                });
            }
            Ok(())
        };
        replay(&bytes, &mut rng, &mut Tally::default(), keep)
            .map_err(|error| format!("{}: {error}", run.name))?;
    }
    Ok(states)
}

/// Draws calls and makes them.
pub struct Driver {
    rng: Rng,
    /// For what is asked between the calls.
    asks: Rng,
    /// For questions with a wrong length but those for four satellites.
    other_asks: Rng,
    tree: Tree,
    functions: Functions,
    pages: Pages,
    states: Vec<State>,
    state: State,
    /// Calls until the next state is begun at.
    left: u64,
    /// Calls to be made before others are drawn: a message's blocks.
    queue: Vec<Call>,
    pub tally: Tally,
}

impl Driver {
    /// Without CMAC-AES or SHA3 no root names it, so that a core from before it answers the same; with whole pages no
    /// sub-frame has marks, for a core from before them.
    pub fn new(
        seed: u64,
        mixes: u64,
        functions: Functions,
        pages: Pages,
    ) -> Result<Driver, String> {
        let mut rng = Rng::new(seed);
        Ok(Driver {
            tree: draw::tree(&mut rng),
            functions,
            pages,
            states: states(seed, mixes, functions, pages)?,
            state: State::new(&mut rng),
            left: 0,
            queue: Vec::new(),
            asks: Rng::new(!seed),
            other_asks: Rng::new(seed.reverse_bits() ^ 9),
            rng,
            tally: Tally::default(),
        })
    }

    /// States that sequences begin at.
    pub fn states(&self) -> usize {
        self.states.len()
    }

    /// Makes this many calls, or stops at the first difference.
    pub fn run(&mut self, count: u64) -> Result<(), String> {
        self.run_and_show(count, |_, _| {})
    }

    /// The same; `each` sees what each call answered and left.
    pub fn run_and_show(
        &mut self,
        count: u64,
        mut each: impl FnMut(&Answer, &Twin),
    ) -> Result<(), String> {
        for at in 1..=count {
            let answer = self.step().map_err(|error| format!("call {at}: {error}"))?;
            each(&answer, &self.state.twin);
        }
        Ok(())
    }

    fn begin(&mut self) {
        let rng = &mut self.rng;
        self.left = rng.range(5, 80);
        self.state = match rng.below(8) {
            0 => State::new(rng),
            _ => rng.pick(&self.states).clone(),
        };
        self.state.twin.asks = Rng::new(self.asks.number());
    }

    fn step(&mut self) -> Result<Answer, String> {
        if self.asks.once_in(64) {
            self.wrong_question()?;
        }
        if let Some(call) = self.queue.pop() {
            return self.call(&call);
        }
        if self.left == 0 {
            self.begin();
        }
        self.left -= 1;
        if self.rng.once_in(100) {
            self.state.twin.refill(&mut self.rng);
        }
        let mut call = self.draw();
        if self.pages == Pages::Lost && self.queue.is_empty() {
            call = draw::with_marks(&mut self.rng, call);
        }
        if self.rng.once_in(12) {
            return self.wrong_length(&call);
        }
        self.call(&call)
    }

    fn draw(&mut self) -> Call {
        let (rng, twin) = (&mut self.rng, &self.state.twin);
        let receiver = &twin.receiver;
        if !receiver.is_started() {
            return Call::Start(match rng.below(3) {
                0 => draw::bad_settings(rng, &self.tree),
                _ => draw::settings(rng, &self.tree),
            });
        }
        let waits = receiver.waiting_message().is_some();
        match rng.below(128) {
            0 => Call::Start(draw::settings(rng, &self.tree)),
            1..=4 => Call::Start(draw::bad_settings(rng, &self.tree)),
            5..=8 => draw::verdict(rng, receiver),
            9..=28 if waits => draw::verdict(rng, receiver),
            9..=18 => self.message(),
            29..=30 => self.message(),
            31..=36 => Call::ReadSet(draw::prn(rng)),
            37..=39 => Call::ReadMessage,
            40..=51 => draw::subframe(rng, receiver),
            52..=75 => draw::word(rng, receiver),
            _ => match self.state.next_of_run() {
                Some(call) => draw::damaged(&mut self.rng, call),
                None => draw::subframe(&mut self.rng, &self.state.twin.receiver),
            },
        }
    }

    /// The first block of a message; the others wait in the queue.
    fn message(&mut self) -> Call {
        let (rng, receiver) = (&mut self.rng, &self.state.twin.receiver);
        self.queue = match rng.below(8) {
            0 | 1 => draw::key_message(rng, receiver, &self.tree, false),
            2 => draw::key_message(rng, receiver, &self.tree, true),
            _ => draw::root_message(rng, receiver, self.functions),
        };
        if self.pages == Pages::Lost {
            draw::message_with_marks(rng, &mut self.queue);
        }
        match self.queue.pop() {
            Some(call) => call,
            None => draw::word(rng, receiver),
        }
    }

    fn call(&mut self, call: &Call) -> Result<Answer, String> {
        let mut call = call.clone();
        if let Call::Subframe { marks, fields, .. } = &mut call {
            restrict(*marks, fields, self.functions);
        }
        let twin = &mut self.state.twin;
        let before = Before::of(&twin.receiver);
        let prn = self.rng.range(1, 36) as u8;
        let answer = twin.call(&call, prn);
        let answer = answer.map_err(|error| format!("{error}, after {call:?}"))?;
        self.tally.add(call.kind(), &answer);
        if before.tags == 256 {
            self.tally.event("call of a full core");
        }
        match &call {
            Call::Verdict { .. } if answer.number == 0 => {
                before.tell_verdict(&twin.receiver, &mut self.tally)
            }
            Call::Subframe { time, marks, .. } => {
                before.tell_subframe(&twin.receiver, *time, &mut self.tally);
                before.tell_sets(&twin.receiver, &answer, &mut self.tally);
                before.tell_marks(&twin.receiver, *marks, &answer, &mut self.tally);
            }
            _ => {}
        }
        Ok(answer)
    }

    fn wrong_length(&mut self, call: &Call) -> Result<Answer, String> {
        let (rng, parts) = (&mut self.rng, parts(call));
        let what = match rng.once_in(3) {
            true => *rng.pick(parts),
            false => *rng.pick(regions_of(call)),
        };
        let wrong = *rng.pick(&WRONG);
        refused(self.state.twin.core.regions(), call, what, wrong)
            .map_err(|error| format!("{error}, after {call:?}"))?;
        let mut answer = Answer::from(1);
        if call.kind() == Kind::Subframe {
            answer.mack = 1;
        }
        self.tally.add(call.kind(), &answer);
        Ok(answer)
    }
}

impl Driver {
    /// Asks each question with one lent length wrong.
    fn wrong_question(&mut self) -> Result<(), String> {
        let (asks, regions) = (&mut self.asks, self.state.twin.core.regions());
        let four = Call::Four(stamps::limit(asks, stamps::least_limit_of(regions)));
        for (call, asks) in [(four, asks), (Call::Progress, &mut self.other_asks)] {
            let lent = [regions_of(&call), parts(&call)].concat();
            let (what, wrong) = (asks.pick(&lent), *asks.pick(&WRONG));
            refused(regions, &call, what, wrong)
                .map_err(|error| format!("{error}, at {call:?}"))?;
            self.tally.question(call.kind(), 1, 1);
        }
        Ok(())
    }
}

/// What a good verdict or a sub-frame can change.
struct Before {
    contents: Option<Vec<u8>>,
    rooted: bool,
    message: bool,
    tags: usize,
    keys: usize,
    stopped: bool,
    /// By PRN - 1.
    sets: Vec<Option<AuthenticSet>>,
    candidates: Vec<Option<Candidate>>,
}

impl Before {
    fn of(receiver: &Receiver) -> Before {
        Before {
            contents: receiver.chain().map(|chain| chain.contents.clone()),
            rooted: receiver.last_root().is_some(),
            message: receiver.waiting_message().is_some(),
            tags: receiver.waiting_tags().len(),
            keys: receiver.public_keys().len(),
            stopped: receiver.is_stopped(),
            sets: (1..=36)
                .map(|prn| receiver.authentic_set(prn).cloned())
                .collect(),
            candidates: (1..=36)
                .map(|prn| receiver.candidate(prn).cloned())
                .collect(),
        }
    }

    fn has_candidates(&self) -> bool {
        self.candidates.iter().any(Option::is_some)
    }

    /// Tallies what the tags of a section did to the sets of each satellite.
    fn tell_sets(&self, receiver: &Receiver, answer: &Answer, tally: &mut Tally) {
        let now = Before::of(receiver);
        for prn in 1..=36 {
            let told = |outcome| answer.tags.contains(&(prn, outcome));
            let at = usize::from(prn) - 1;
            let same_set = self.sets[at] == now.sets[at];
            tally.event(match (&self.candidates[at], &now.candidates[at]) {
                (None, Some(_)) => "candidate begun",
                (Some(old), Some(new)) if old == new && told(1) => {
                    "candidate untouched by outcome 1"
                }
                (Some(old), Some(new)) if old == new && told(9) => {
                    "outcome 9 that changes no candidate"
                }
                (Some(old), Some(new)) if old == new => continue,
                (Some(old), Some(new)) if old.set == new.set => "candidate goes on",
                (Some(_), Some(_)) => "candidate replaced",
                (Some(_), None) if same_set => "candidate goes, a newer authentic set stays",
                (Some(_), None) => "candidate becomes the authentic set",
                (None, None) => continue,
            });
        }
    }

    /// Tallies what a good verdict did.
    fn tell_verdict(&self, receiver: &Receiver, tally: &mut Tally) {
        let now = Before::of(receiver);
        tally.event(match (&self.contents, &now.contents) {
            (_, None) => "chain dropped",
            (None, _) if self.rooted => "root after a drop",
            (None, _) => "first root",
            (old, new) if old == new => "equal contents",
            _ if self.tags == 0 => "later root, no tag waited",
            _ if now.tags == 0 => "later root, no tag stays",
            _ if now.tags == self.tags => "later root, all tags stay",
            _ => "later root, some tags stay",
        });
        if self.has_candidates() && self.contents != now.contents {
            tally.event(match (&now.contents, now.has_candidates()) {
                (None, _) => "chain dropped, candidates go",
                (_, true) => "later root, candidates stay",
                (_, false) => "later root, candidates go",
            });
        }
        // HF and MF stand in the last four bits of the contents' first byte.
        let functions =
            |contents: &Option<Vec<u8>>| contents.as_ref().map(|c| (c[0] >> 2 & 3, c[0] & 3));
        if let Some((hf, mf)) = functions(&now.contents).filter(|_| self.contents != now.contents) {
            for (event, came) in [
                ("root with CMAC-AES", mf == 1),
                ("root with SHA3-224", hf == 1),
                ("root with SHA3-256", hf == 2),
            ] {
                if came {
                    tally.event(event);
                }
            }
            if let Some((old_hf, old_mf)) = functions(&self.contents) {
                if old_mf != mf {
                    tally.event("later root with another MAC function");
                }
                if old_hf != hf {
                    tally.event("later root with another hash function");
                }
            }
        }
        if now.keys < self.keys {
            tally.event("public keys dropped");
        }
    }

    /// Tallies what came of a sub-frame with marks.
    fn tell_marks(
        &self,
        receiver: &Receiver,
        marks: Option<u16>,
        answer: &Answer,
        tally: &mut Tally,
    ) {
        let Some(marks) = marks else { return };
        let now = Before::of(receiver);
        let completed = now.message && !self.message || now.keys > self.keys;
        let lost = !all_came(marks);
        for (event, came) in [
            ("sub-frame with marks, all fields came", !lost),
            ("sub-frame with lost fields", lost),
            ("message completed by a sub-frame with marks", completed),
            (
                "section with lost fields judged",
                lost && !answer.tags.is_empty(),
            ),
        ] {
            if came {
                tally.event(event);
            }
        }
    }

    /// Tallies what a sub-frame did.
    fn tell_subframe(&self, receiver: &Receiver, time: u32, tally: &mut Tally) {
        let now = Before::of(receiver);
        let earlier = |waiting: &&_| -> bool {
            let waiting: &second_receiver::tags::WaitingTag = waiting;
            waiting.tag.time.0 < time
        };
        for (event, came) in [
            ("public key added", now.keys > self.keys),
            ("message waits", now.message && !self.message),
            (
                "stopped by an emergency message",
                now.stopped && !self.stopped,
            ),
            (
                "waiting tags judged",
                receiver.waiting_tags().iter().filter(earlier).count() < self.tags,
            ),
        ] {
            if came {
                tally.event(event);
            }
        }
    }
}
