//! AES and CMAC as they are defined agree with `portable_aes`, which takes their place in the other tests.

mod common;

use common::crates;
use portable_aes::{cmac, AesKey};
use rules_runner::machine::{with_large_stack, Machine};
use rules_runner::program::{Hashes, Program};
use rules_runner::value::{List, Value};

/// Bytes of messages: none, around one block and two, and those of tags.
const LENGTHS: &[usize] = if cfg!(debug_assertions) {
    &[0, 15, 16, 17, 76]
} else {
    &[0, 1, 15, 16, 17, 31, 32, 33, 75, 76]
};

struct Definitions(Program);

impl Definitions {
    /// A definition of crate and file at lists of bytes.
    fn bytes(&self, name: &str, arguments: &[&[u8]]) -> Vec<u8> {
        let list = |bytes: &&[u8]| {
            let numbers = bytes.iter().map(|&byte| byte.into()).collect();
            Value::List(List::of_numbers(numbers))
        };
        let mut machine = Machine::new(&self.0);
        let value = machine.call(
            self.0.function(name),
            arguments.iter().map(list).collect::<Vec<_>>(),
        );
        let Value::List(list) = machine.whole(value) else {
            panic!("{name} gives no list");
        };
        let numbers = list.numbers().expect("a list of numbers");
        let byte = |&number| u8::try_from(number).expect("a byte");
        numbers.iter().map(byte).collect()
    }

    fn cmac(&self, key: &[u8], message: &[u8]) -> Vec<u8> {
        self.bytes("cmac.Cmac.cmac", &[key, message])
    }
}

/// Gives `work` the definitions of CMAC, on a large stack.
fn with_definitions<T: Send>(hashes: Hashes, work: impl FnOnce(&Definitions) -> T + Send) -> T {
    with_large_stack(|| match Program::load(&crates(), "cmac", "Cmac", hashes) {
        Ok(program) => work(&Definitions(program)),
        Err(error) => panic!("{error}"),
    })
}

fn message(len: usize) -> Vec<u8> {
    (0..len).map(|at| (at * 151 + len) as u8).collect()
}

// Blocks under the keys of FIPS 197, C.1 to C.3, and others.
#[test]
fn blocks() {
    with_definitions(Hashes::Defined, |definitions| {
        for len in [16, 24, 32] {
            let counted: Vec<u8> = (0..len as u8).collect();
            let block: Vec<u8> = (0..16).map(|at| at * 0x11).collect();
            for (key, block) in [(counted, block), (message(len), message(16))] {
                let want = AesKey::new(&key).map(|key| key.encrypt(block[..].try_into().unwrap()));
                assert_eq!(
                    Some(definitions.bytes("aes.Aes.aes", &[&key, &block])),
                    want.map(|block| block.to_vec()),
                    "{len} bytes"
                );
            }
        }
    });
}

// The code, and the same by a kept key.
#[test]
fn codes() {
    with_definitions(Hashes::Defined, |definitions| {
        for key_len in [16, 24, 32] {
            for &len in LENGTHS {
                let (key, message) = (message(key_len), message(len));
                let want = cmac(&key, &message).unwrap();
                let case = format!("{key_len} and {len} bytes");
                assert_eq!(definitions.cmac(&key, &message), want, "{case}");
                let kept = definitions.bytes("cmac.Cmac.kept_of", &[&key]);
                assert_eq!(kept.len(), 273);
                let with = definitions.bytes("cmac.Cmac.cmac_with", &[&kept, &message]);
                assert_eq!(with, want, "{case}");
            }
        }
    });
}

// What takes its place is the same for keys of any length, which no root names but contents that no start leaves may.
#[test]
fn replaced() {
    let keys = [0, 1, 12, 13, 14, 15, 16, 17, 20, 23, 24, 28, 31, 32, 33, 40];
    let all = |definitions: &Definitions| -> Vec<Vec<u8>> {
        let codes = keys.iter();
        codes
            .map(|&len| definitions.cmac(&message(len), &message(17)))
            .collect()
    };
    let defined = with_definitions(Hashes::Defined, all);
    assert_eq!(with_definitions(Hashes::Portable, all), defined);
}
