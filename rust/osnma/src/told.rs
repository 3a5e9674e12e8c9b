//! What the answers of a core tell of it, kept from one call to the next.

use crate::Refusal;

/// NMA status "Test" and "Operational" (000, table 2).
const PUTS_IN_FORCE: [u8; 2] = [1, 2];

/// Whether a core is stopped and has a chain in force, by 01's own words for either: it answers 4, and
/// "the last verdict answered 0".
#[derive(Clone, Copy, Debug, PartialEq, Eq)]
pub(crate) struct Told {
    pub stopped: bool,
    pub chain_in_force: bool,
}

impl Told {
    /// Before a start, and right after one.
    pub const NOTHING: Told = Told {
        stopped: false,
        chain_in_force: false,
    };

    /// A start's answer: an accepted one forgets all.
    pub fn start(&mut self, answer: Result<(), Refusal>) -> Result<(), Refusal> {
        if answer.is_ok() {
            *self = Told::NOTHING;
        }
        answer
    }

    /// The answer of a word, of a section or of a verdict.
    pub fn call(&mut self, answer: Result<(), Refusal>) -> Result<(), Refusal> {
        self.stopped |= answer == Err(Refusal::Stopped);
        answer
    }

    /// A verdict's answer, by the NMA header of its message.
    pub fn verdict(&mut self, header: u8, answer: Result<(), Refusal>) -> Result<(), Refusal> {
        if answer.is_ok() {
            self.chain_in_force = PUTS_IN_FORCE.contains(&(header >> 6));
        }
        self.call(answer)
    }
}

#[cfg(test)]
mod tests {
    use super::*;

    const OPERATIONAL: u8 = 0x82;
    const DONT_USE: u8 = 0xC2;

    // A stop stays through every other answer but an accepted start's.
    #[test]
    fn stopped() {
        let (mut told, stop) = (Told::NOTHING, Err(Refusal::Stopped));
        assert_eq!(told.call(Ok(())), Ok(()));
        assert!(!told.stopped);
        assert_eq!(told.call(stop), stop);
        for answer in [Err(Refusal::OutOfRange), stop, Ok(())] {
            assert_eq!(told.call(answer), answer);
            assert!(told.stopped);
        }
        assert_eq!(told.verdict(OPERATIONAL, stop), stop);
        assert!(told.stopped && !told.chain_in_force);
        let refused = told.start(Err(Refusal::OutOfRange));
        assert_eq!((refused, told.stopped), (Err(Refusal::OutOfRange), true));
        assert_eq!((told.start(Ok(())), told), (Ok(()), Told::NOTHING));
    }

    #[test]
    fn chain_in_force() {
        let mut told = Told::NOTHING;
        for (header, answer, in_force) in [
            (OPERATIONAL, Err(Refusal::VerdictBad), false),
            (OPERATIONAL, Ok(()), true),
            (DONT_USE, Err(Refusal::NotInForce), true),
            (DONT_USE, Ok(()), false),
            (0x42, Ok(()), true),
        ] {
            assert_eq!(told.verdict(header, answer), answer);
            assert_eq!(told.chain_in_force, in_force, "{header:02X} {answer:?}");
        }
        assert_eq!((told.start(Ok(())), told), (Ok(()), Told::NOTHING));
    }
}
