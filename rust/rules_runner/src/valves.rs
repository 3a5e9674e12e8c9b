//! The valve gate as the definitions state it (02, P14; crates/valve_rules/specs, Valve, Gate and Claim, and
//! crates/valve_gate/specs, Asked): its calls over lent bytes of any length, and the gate after a history.

use crate::program::{Hashes, Program};
use crate::rules::{bytes, list, Rules};
use crate::syntax::Result;
use crate::value::{List, Value};
use std::path::Path;

/// What comes to a gate.
#[derive(Clone, Copy, Debug, PartialEq, Eq)]
pub enum Event {
    Started(u32),
    Answered(u32),
    Subframe(u32, u32),
    Decide(bool, bool),
}

/// The places of two regions among the sixteen.
const CLOCKS: usize = 1;
const ARRIVALS: usize = 15;

/// What a decision gives; of any other call the free valves are none.
#[derive(Clone, Debug, PartialEq, Eq)]
pub struct Given {
    pub number: u64,
    pub gate: Vec<u8>,
    pub free: u64,
}

/// The definitions of the gate.
pub struct GateRules {
    rules: Rules,
}

fn number(number: u32) -> Value {
    Value::Number(number.into())
}

fn is_yes(value: &Value) -> bool {
    match value {
        Value::Bool(value) => *value,
        value => panic!("{value:?} is no Bool"),
    }
}

impl GateRules {
    /// Reads the definitions under the folder of crates.
    pub fn load(crates: &Path) -> Result<GateRules> {
        let modules = [("valve_rules", "Claim"), ("valve_gate", "Asked")];
        let program = Program::load_all(crates, &modules, Hashes::Portable)?;
        let rules = Rules::of(program);
        Ok(GateRules { rules })
    }

    fn event(&self, event: Event) -> Value {
        let (name, arguments) = match event {
            Event::Started(n) => ("started", vec![number(n)]),
            Event::Answered(n) => ("answered", vec![number(n)]),
            Event::Subframe(hkroot, mack) => ("subframe", vec![number(hkroot), number(mack)]),
            Event::Decide(met20, met10) => ("decide", [met20, met10].map(Value::Bool).to_vec()),
        };
        let name = format!("valve_rules.Claim.Event.{name}");
        Value::Constructor(self.rules.program().constructor(&name), arguments)
    }

    /// Newest first, as the definitions have them.
    fn events(&self, events: &[Event]) -> Value {
        let newest_first = events.iter().rev().map(|&event| self.event(event));
        Value::List(List::of_values(newest_first))
    }

    /// The bytes of a gate to begin with.
    pub fn begun(&self) -> Vec<u8> {
        bytes(&self.rules.call("valve_rules.Gate.begun", Vec::new()))
    }

    /// A gate after one event more.
    pub fn after(&self, gate: &[u8], event: Event) -> Vec<u8> {
        let arguments = vec![list(gate), self.event(event)];
        bytes(&self.rules.call("valve_rules.Claim.after", arguments))
    }

    /// The gate after events, from its beginning.
    pub fn gate(&self, events: &[Event]) -> Vec<u8> {
        let arguments = vec![self.events(events)];
        bytes(&self.rules.call("valve_rules.Claim.gate", arguments))
    }

    /// Whether the core is stopped, by the history.
    pub fn stopped(&self, events: &[Event]) -> bool {
        let arguments = vec![self.events(events)];
        is_yes(&self.rules.call("valve_rules.Claim.stopped", arguments))
    }

    /// Whether the limit of the valve at this place, from 0, was met, by the history; the newest decision first.
    pub fn mets_of(&self, place: u64, events: &[Event]) -> Vec<bool> {
        let arguments = vec![Value::Number(place), self.events(events)];
        match self.rules.call("valve_rules.Claim.mets_of", arguments) {
            Value::List(mets) => mets.values().iter().map(is_yes).collect(),
            value => panic!("{value:?} is no list"),
        }
    }

    /// Whether the valve at this place is free.
    pub fn is_free(&self, gate: &[u8], place: u64) -> bool {
        let arguments = vec![list(gate), Value::Number(place)];
        let valve = self.rules.call("valve_rules.Gate.valve_at", arguments);
        is_yes(&self.rules.call("valve_rules.Valve.is_free", vec![valve]))
    }

    /// The free valves as binary digits, valve 1 in the lowest.
    pub fn free_valves(&self, gate: &[u8]) -> u64 {
        match self
            .rules
            .call("valve_rules.Gate.free_valves", vec![list(gate)])
        {
            Value::Number(free) => free,
            value => panic!("{value:?} is no number"),
        }
    }

    /// The call that begins a gate.
    pub fn begin(&self, gate: &[u8]) -> Given {
        self.if_lent(gate, list(&self.begun()))
    }

    /// The call that an answer of the core is shown by.
    pub fn shown(&self, gate: &[u8], event: Event) -> Given {
        let (name, numbers) = match event {
            Event::Started(n) => ("start_shown", vec![n]),
            Event::Answered(n) => ("answer_shown", vec![n]),
            Event::Subframe(hkroot, mack) => ("subframe_shown", vec![hkroot, mack]),
            Event::Decide(..) => panic!("a decision is no answer of the core"),
        };
        let mut arguments = vec![list(gate)];
        arguments.extend(numbers.into_iter().map(number));
        let name = format!("valve_rules.Gate.{name}");
        self.if_lent(gate, self.rules.call(&name, arguments))
    }

    fn if_lent(&self, gate: &[u8], made: Value) -> Given {
        let arguments = vec![list(gate), made];
        let shown = self.rules.call("valve_rules.Gate.if_lent", arguments);
        Given {
            number: self.rules.number(&shown, "code"),
            gate: self.rules.bytes(&shown, "gate"),
            free: 0,
        }
    }

    /// The call that decides, by answers that are any bytes.
    pub fn decide(&self, gate: &[u8], met20: u8, met10: u8) -> Given {
        let answers = [met20, met10].map(|answer| number(answer.into()));
        let arguments = [vec![list(gate)], answers.to_vec()].concat();
        self.decided(self.rules.call("valve_rules.Gate.decide_call", arguments))
    }

    /// The call that asks the core, lent these two regions of any lengths.
    pub fn core_decide(&self, gate: &[u8], clocks: &[u32], arrivals: &[u32]) -> Given {
        let lent = |region: &[u32]| region.iter().map(|&number| number.into()).collect();
        let mut regions = self.rules.lengths().map(|length| vec![0; length]);
        (regions[CLOCKS], regions[ARRIVALS]) = (lent(clocks), lent(arrivals));
        let state = self.rules.state(&regions);
        let four = |limit| {
            let arguments = vec![state.clone(), number(limit)];
            self.rules.call("rules.Calls.four_read", arguments)
        };
        let arguments = vec![list(gate), four(20), four(10)];
        self.decided(self.rules.call("valve_gate.Asked.decide_asked", arguments))
    }

    fn decided(&self, decided: Value) -> Given {
        Given {
            number: self.rules.number(&decided, "code"),
            gate: self.rules.bytes(&decided, "gate"),
            free: self.rules.number(&decided, "free"),
        }
    }
}
