//! The same event in the gate and in the second receiver's model.

use second_receiver::valves;
use valve_gate::Gate;

/// What comes to a gate: the core's answers, and decisions by its answers for an age of 20 and for one of 10.
#[derive(Clone, Copy, Debug, PartialEq, Eq)]
pub enum Event {
    Started(u32),
    Answered(u32),
    Subframe(u32, u32),
    Decide(bool, bool),
}

use Event::*;

/// The gate, and the model.
#[derive(Clone)]
pub struct Twin {
    pub gate: Gate,
    pub model: valves::Gate,
}

impl Twin {
    pub fn new() -> Twin {
        Twin {
            gate: Gate::new(),
            model: valves::Gate::begin(),
        }
    }

    /// An event in both. Compares the free valves, the state's 49 bytes and whether a stop is known; gives the free valves
    /// where it is a decision.
    pub fn happens(&mut self, event: Event) -> Result<Option<u64>, String> {
        let (gate, model) = (&mut self.gate, &mut self.model);
        let free = match event {
            Started(number) => {
                gate.started_number(number);
                model.started(number);
                None
            }
            Answered(number) => {
                gate.answered_number(number);
                model.answered(number);
                None
            }
            Subframe(hkroot, mack) => {
                gate.subframe_numbers(hkroot, mack);
                model.subframe(hkroot, mack);
                None
            }
            Decide(met20, met10) => {
                let free = gate.decide_told(met20, met10).bits();
                same("free valves", &free, &model.decide(met20, met10))?;
                Some(free)
            }
        };
        self.compare()?;
        Ok(free)
    }

    /// The state.
    pub fn compare(&self) -> Result<(), String> {
        same("state", self.gate.as_bytes(), &self.model.bytes())?;
        let stopped = self.model.is_stopped();
        same("stop", &self.gate.is_stopped(), &stopped)
    }
}

pub fn same<T: PartialEq + std::fmt::Debug>(what: &str, got: &T, right: &T) -> Result<(), String> {
    match got == right {
        true => Ok(()),
        false => Err(format!("{what}: {got:?}, not {right:?}")),
    }
}
