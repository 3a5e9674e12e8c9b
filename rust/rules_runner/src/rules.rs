//! The calls of 01 and the replay program as the definitions state them (crates/rules/specs/Calls.antt and Replay.antt),
//! on a state that is a value.

use crate::machine::Machine;
use crate::program::{Hashes, Program};
use crate::syntax::Result;
use crate::value::{List, Record, Value};
use std::path::Path;
use std::rc::Rc;

/// Bytes lent for tag records, and of one of them.
pub const AREA_LEN: usize = 3240;
pub const RECORD_LEN: usize = 12;
/// The marks of a sub-frame whose fields all came.
pub const ALL_CAME: u16 = u16::MAX;

/// The sixteen regions of a state, in the order of crates/rules/specs/State.antt.
pub type Regions = [Vec<u64>; 16];

/// The definitions of crates/rules/specs/State.antt that name the regions' lengths.
const LENGTHS: [&str; 16] = [
    "config_length",
    "clocks_length",
    "words_length",
    "stamps_length",
    "blocks_length",
    "dsm_ids",
    "dsm_ids",
    "dsm_ids",
    "pubkeys_length",
    "offer_length",
    "chain_length",
    "numbers_length",
    "heldkey_length",
    "waiting_length",
    "sets_length",
    "arrivals_length",
];

pub struct Rules {
    program: Program,
}

/// What a sub-frame answers; its tag records stand in the lent area.
pub struct SubframeAnswer {
    pub hkroot: u64,
    pub mack: u64,
    pub records: usize,
}

pub struct SetAnswer {
    pub number: u64,
    pub set: Vec<u8>,
    pub iodnav: u64,
    pub time: u64,
}

/// A set with which tags agree, short of 40 bits (02, P4). No call of 01 reads it.
pub struct Candidate {
    pub set: Vec<u8>,
    pub iodnav: u64,
    /// GST_SF of its latest tag.
    pub time: u64,
    pub total: u64,
}

pub struct OfferAnswer {
    pub number: u64,
    pub message: Vec<u8>,
    pub signature: Vec<u8>,
    pub key: Vec<u8>,
    pub id: u64,
    pub key_type: u64,
}

/// Whether four satellites have a recent authentic set (02, P5).
pub struct FourAnswer {
    pub number: u64,
    pub yes: u64,
}

/// How far along each message is (02, P9): the lent bytes with a pair for each DSM ID.
pub struct ProgressAnswer {
    pub number: u64,
    pub pairs: Vec<u8>,
}

/// A run of the definitions: the state that the last call left.
pub struct Run<'r> {
    rules: &'r Rules,
    state: Value,
    area: Value,
}

pub(crate) fn list(bytes: &[u8]) -> Value {
    let numbers = bytes.iter().map(|&byte| byte.into()).collect();
    Value::List(List::of_numbers(numbers))
}

fn zeros(len: usize) -> Value {
    Value::List(List::of_numbers(vec![0; len]))
}

fn numbers(value: &Value) -> Vec<u64> {
    let Value::List(list) = value else {
        panic!("{value:?} is no list");
    };
    list.numbers().expect("a list of numbers").to_vec()
}

fn number(value: u8) -> Value {
    Value::Number(value.into())
}

pub(crate) fn bytes(value: &Value) -> Vec<u8> {
    let byte = |number| u8::try_from(number).expect("a byte");
    numbers(value).into_iter().map(byte).collect()
}

fn text(bytes: Vec<u8>) -> String {
    String::from_utf8(bytes).expect("lines of ASCII")
}

impl Rules {
    /// Reads the definitions under the folder of crates.
    pub fn load(crates: &Path, hashes: Hashes) -> Result<Rules> {
        Program::load(crates, "rules", "Replay", hashes).map(Rules::of)
    }

    /// Definitions that were read.
    pub(crate) fn of(program: Program) -> Rules {
        Rules { program }
    }

    pub fn program(&self) -> &Program {
        &self.program
    }

    pub(crate) fn call(&self, name: &str, arguments: Vec<Value>) -> Value {
        let mut machine = Machine::new(&self.program);
        let value = machine.call(self.program.function(name), arguments);
        machine.whole(value)
    }

    fn record(&self, fields: Vec<(&str, Value)>) -> Value {
        let labels = fields
            .iter()
            .map(|(name, _)| self.program.label(name))
            .collect();
        let fields = fields.into_iter().map(|(_, value)| value).collect();
        Value::Record(Rc::new(Record { labels, fields }))
    }

    pub(crate) fn field(&self, value: &Value, name: &str) -> Value {
        let Value::Record(record) = value else {
            panic!("{value:?} is no record");
        };
        let field = record.field(self.program.label(name));
        field.unwrap_or_else(|| panic!("no field '{name}'")).clone()
    }

    pub(crate) fn number(&self, value: &Value, name: &str) -> u64 {
        match self.field(value, name) {
            Value::Number(number) => number,
            value => panic!("{value:?} is no number"),
        }
    }

    pub(crate) fn bytes(&self, value: &Value, name: &str) -> Vec<u8> {
        bytes(&self.field(value, name))
    }

    /// The state that regions stand for.
    pub(crate) fn state(&self, regions: &Regions) -> Value {
        let list = |at: usize| Value::List(List::of_numbers(regions[at].clone()));
        let nav = self.record(vec![("words", list(2)), ("stamps", list(3))]);
        let store = self.record(vec![
            ("blocks", list(4)),
            ("headers", list(5)),
            ("present", list(6)),
            ("since", list(7)),
        ]);
        let tesla = self.record(vec![
            ("numbers", list(11)),
            ("key", list(12)),
            ("waiting", list(13)),
        ]);
        let auth = self.record(vec![("sets", list(14)), ("arrivals", list(15))]);
        self.record(vec![
            ("config", list(0)),
            ("clocks", list(1)),
            ("nav", nav),
            ("store", store),
            ("pubkeys", list(8)),
            ("offer", list(9)),
            ("chain", list(10)),
            ("tesla", tesla),
            ("auth", auth),
        ])
    }

    fn size(&self, name: &str, arguments: Vec<Value>) -> usize {
        match self.call(name, arguments) {
            Value::Number(size) => size as usize,
            value => panic!("{value:?} is no number"),
        }
    }

    /// Elements of each region.
    pub fn lengths(&self) -> [usize; 16] {
        LENGTHS.map(|name| self.size(&format!("rules.State.{name}"), Vec::new()))
    }

    /// The bytes of a public key of a type (01, "a key of 29, 33, 49 or 67 bytes").
    pub fn key_len(&self, key_type: u64) -> usize {
        self.size("rules.PublicKeys.key_length", vec![Value::Number(key_type)])
    }

    /// SHA-256, SHA3 and HMAC-SHA-256 as they are defined.
    pub fn sha256(&self, message: &[u8]) -> Vec<u8> {
        bytes(&self.call("sha256.Sha256.sha256", vec![list(message)]))
    }

    pub fn sha3_224(&self, message: &[u8]) -> Vec<u8> {
        bytes(&self.call("sha3.Sha3.sha3_224", vec![list(message)]))
    }

    pub fn sha3_256(&self, message: &[u8]) -> Vec<u8> {
        bytes(&self.call("sha3.Sha3.sha3_256", vec![list(message)]))
    }

    pub fn hmac(&self, key: &[u8], message: &[u8]) -> Vec<u8> {
        bytes(&self.call("hmac.Hmac.hmac", vec![list(key), list(message)]))
    }

    /// What the replay program prints for an input.
    pub fn replayed_whole(&self, input: &[u8]) -> String {
        text(bytes(&self.call("rules.Replay.replay", vec![list(input)])))
    }

    /// A run from zeros, before any start.
    pub fn run(&self) -> Run<'_> {
        let run = self.run_on(&self.lengths().map(|length| vec![0; length]));
        let shaped = self.call("rules.State.shaped", vec![run.state.clone()]);
        assert!(matches!(shaped, Value::Bool(true)), "a region's length");
        run
    }

    /// A run from regions of any lengths and contents.
    pub fn run_on(&self, regions: &Regions) -> Run<'_> {
        Run {
            rules: self,
            state: self.state(regions),
            area: zeros(AREA_LEN),
        }
    }
}

/// A replay of the definitions: what the program keeps between records.
pub struct Replay<'r> {
    rules: &'r Rules,
    kept: Value,
}

impl<'r> Replay<'r> {
    /// Before the first record.
    pub fn new(rules: &'r Rules) -> Self {
        let kept = rules.call("rules.Replay.unread", Vec::new());
        Replay { rules, kept }
    }

    /// The lines of the next record.
    pub fn record(&mut self, record: &[u8]) -> String {
        let arguments = vec![self.kept.clone(), list(record)];
        let replayed = self.rules.call("rules.Replay.replayed", arguments);
        self.kept = self.rules.field(&replayed, "next");
        text(self.rules.bytes(&replayed, "lines"))
    }

    fn session(&self) -> Value {
        self.rules.field(&self.kept, "session")
    }

    /// Whether a start was accepted.
    pub fn started(&self) -> bool {
        self.rules.number(&self.session(), "started") != 0
    }

    /// The core as the last record left it.
    pub fn run(&self) -> Run<'r> {
        let session = self.session();
        Run {
            rules: self.rules,
            state: self.rules.field(&session, "core"),
            area: self.rules.field(&session, "area"),
        }
    }
}

impl Run<'_> {
    fn told(&mut self, call: &str, input: Vec<(&str, Value)>) -> u64 {
        let input = self.rules.record(input);
        let told = self.rules.call(call, vec![self.state.clone(), input]);
        self.state = self.rules.field(&told, "state");
        self.rules.number(&told, "code")
    }

    /// The regions as the last call left them.
    pub fn regions(&self) -> Regions {
        let region = |path: &[&str]| {
            let field = |value: Value, name: &&str| self.rules.field(&value, name);
            numbers(&path.iter().fold(self.state.clone(), field))
        };
        [
            region(&["config"]),
            region(&["clocks"]),
            region(&["nav", "words"]),
            region(&["nav", "stamps"]),
            region(&["store", "blocks"]),
            region(&["store", "headers"]),
            region(&["store", "present"]),
            region(&["store", "since"]),
            region(&["pubkeys"]),
            region(&["offer"]),
            region(&["chain"]),
            region(&["tesla", "numbers"]),
            region(&["tesla", "key"]),
            region(&["tesla", "waiting"]),
            region(&["auth", "sets"]),
            region(&["auth", "arrivals"]),
        ]
    }

    #[allow(clippy::too_many_arguments)]
    pub fn start(
        &mut self,
        ns: u8,
        id: u8,
        key_type: u8,
        maclt: u8,
        marks: &[u8],
        root: &[u8],
        key: &[u8],
    ) -> u64 {
        self.told(
            "rules.Calls.start_call",
            vec![
                ("ns", number(ns)),
                ("id", number(id)),
                ("type", number(key_type)),
                ("maclt", number(maclt)),
                ("marks", list(marks)),
                ("root", list(root)),
                ("key", list(key)),
            ],
        )
    }

    pub fn word(&mut self, prn: u8, time: u32, word: &[u8]) -> u64 {
        self.told(
            "rules.Calls.word_call",
            vec![
                ("prn", number(prn)),
                ("time", Value::Number(time.into())),
                ("bytes", list(word)),
            ],
        )
    }

    pub fn verdict(&mut self, good: u8, id: u8, message: &[u8], signature: &[u8]) -> u64 {
        self.told(
            "rules.Calls.verdict_call",
            vec![
                ("good", number(good)),
                ("id", number(id)),
                ("message", list(message)),
                ("signature", list(signature)),
            ],
        )
    }

    /// Of the marks the first field's is the top bit, and the lowest bit is not read (02, P3).
    pub fn subframe(&mut self, prn: u8, time: u32, marks: u16, fields: &[u8]) -> SubframeAnswer {
        let input = self.rules.record(vec![
            ("prn", number(prn)),
            ("time", Value::Number(time.into())),
            ("marks", Value::Number(marks.into())),
            ("bytes", list(fields)),
        ]);
        let arguments = vec![self.state.clone(), self.area.clone(), input];
        let told = self.rules.call("rules.Calls.subframe_call", arguments);
        self.state = self.rules.field(&told, "state");
        self.area = self.rules.field(&told, "area");
        SubframeAnswer {
            hkroot: self.rules.number(&told, "hkroot"),
            mack: self.rules.number(&told, "mack"),
            records: self.rules.number(&told, "count") as usize,
        }
    }

    /// The area of tag records that is lent to sub-frames, with any length and contents.
    pub fn lend_area(&mut self, area: &[u8]) {
        self.area = list(area);
    }

    /// The lent area of tag records as the last sub-frame left it.
    pub fn area(&self) -> Vec<u8> {
        bytes(&self.area)
    }

    pub fn read_set(&self, prn: u8) -> SetAnswer {
        let arguments = vec![self.state.clone(), number(prn), zeros(69)];
        let read = self.rules.call("rules.Calls.set_read", arguments);
        SetAnswer {
            number: self.rules.number(&read, "code"),
            set: self.rules.bytes(&read, "out"),
            iodnav: self.rules.number(&read, "issue"),
            time: self.rules.number(&read, "time"),
        }
    }

    /// A satellite's candidate as the state has it; a stamp is one more than its GST_SF, 0 where there is none.
    pub fn candidate(&self, prn: u8) -> Option<Candidate> {
        let auth = self.rules.field(&self.state, "auth");
        let arguments = ["sets", "arrivals"].map(|name| self.rules.field(&auth, name));
        let arguments = [&arguments[..], &[number(prn)]].concat();
        let pair = self.rules.call("rules.Candidates.pair_at", arguments);
        let set = self.rules.field(&pair, "candidate");
        let time = self.rules.number(&pair, "latest").checked_sub(1)?;
        let issue = self
            .rules
            .call("rules.Navdata.set_issue", vec![set.clone()]);
        let Value::Number(iodnav) = issue else {
            panic!("{issue:?} is no number");
        };
        Some(Candidate {
            set: bytes(&set),
            iodnav,
            time,
            total: self.rules.number(&pair, "total"),
        })
    }

    pub fn read_offer(&self) -> OfferAnswer {
        let arguments = vec![self.state.clone(), zeros(45), zeros(132), zeros(67)];
        let read = self.rules.call("rules.Calls.offer_read", arguments);
        OfferAnswer {
            number: self.rules.number(&read, "code"),
            message: self.rules.bytes(&read, "message"),
            signature: self.rules.bytes(&read, "signature"),
            key: self.rules.bytes(&read, "key"),
            id: self.rules.number(&read, "id"),
            key_type: self.rules.number(&read, "type"),
        }
    }

    pub fn four(&self, limit: u32) -> FourAnswer {
        let arguments = vec![self.state.clone(), Value::Number(limit.into())];
        let read = self.rules.call("rules.Calls.four_read", arguments);
        FourAnswer {
            number: self.rules.number(&read, "code"),
            yes: self.rules.number(&read, "yes"),
        }
    }

    pub fn progress(&self, lent: &[u8]) -> ProgressAnswer {
        let arguments = vec![self.state.clone(), list(lent)];
        let read = self.rules.call("rules.Calls.progress_read", arguments);
        ProgressAnswer {
            number: self.rules.number(&read, "code"),
            pairs: self.rules.bytes(&read, "out"),
        }
    }
}
