//! What 02 says of any run of decisions, seen by the decisions alone: nothing of a state is read here, and no valve is told
//! when it may be free again.

use super::twin::Event;

/// Valves 1 to 6 with 43 to 48, and 7 to 42.
pub const OUTER: u64 = 0b111111 << 42 | 0b111111;
pub const CENTRE: u64 = ((1 << 36) - 1) << 6;
pub const GROUPS: [u64; 2] = [OUTER, CENTRE];

/// What the events so far say.
#[derive(Clone, Default)]
pub struct Watch {
    stopped: bool,
    /// Decisions running in which the limit was met, of the outer valves and of the centre ones.
    running: [u64; 2],
}

impl Watch {
    /// Sees an event, and the free valves where it is a decision.
    pub fn sees(&mut self, event: Event, free: Option<u64>) -> Result<(), String> {
        match event {
            Event::Started(0) => self.stopped = false,
            Event::Answered(4) | Event::Subframe(4, _) | Event::Subframe(_, 4) => {
                self.stopped = true
            }
            Event::Decide(met20, met10) => {
                let free = free.ok_or("a decision without its valves")?;
                return self.decision(met20, met10, free);
            }
            _ => {}
        }
        Ok(())
    }

    fn decision(&mut self, met20: bool, met10: bool, free: u64) -> Result<(), String> {
        let told = |what: &str| Err(format!("{what}: {free:012x}"));
        if free >> 48 != 0 {
            return told("a valve past the 48th");
        }
        if self.stopped && free != 0 {
            return told("free with a stopped core");
        }
        for (at, (group, met)) in GROUPS.into_iter().zip([met10, met20]).enumerate() {
            let met = met && !self.stopped;
            self.running[at] = if met { self.running[at] + 1 } else { 0 };
            let group = (free & group, group);
            if group.0 != 0 && group.0 != group.1 {
                return told("valves of a group part");
            }
            if !met && group.0 != 0 {
                return told("free while the limit is unmet");
            }
            if self.running[at] >= 3 && group.0 == 0 {
                return told("closed, and the limit met three decisions running");
            }
        }
        Ok(())
    }
}
