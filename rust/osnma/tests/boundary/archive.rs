//! The symbols of an archive: its members are ELF objects.

use crate::elf;
use std::collections::BTreeSet;
use std::fs;
use std::path::Path;

#[derive(Debug, Default, PartialEq, Eq)]
pub struct Symbols {
    /// Those that another object can link.
    pub defined: BTreeSet<String>,
    /// Those that it takes from elsewhere.
    pub needed: BTreeSet<String>,
}

impl Symbols {
    pub fn of(archive: &Path) -> Symbols {
        let bytes =
            fs::read(archive).unwrap_or_else(|error| panic!("{}: {error}", archive.display()));
        assert_eq!(&bytes[..8], b"!<arch>\n", "no archive");
        let (mut symbols, mut at, mut objects) = (Symbols::default(), 8, 0);
        while at < bytes.len() {
            let field = |from: usize, to: usize| {
                let field = std::str::from_utf8(&bytes[at + from..at + to]).expect("a member");
                field.trim_end().to_string()
            };
            let size: usize = field(48, 58).parse().expect("a size");
            // The archive's own tables are "/" and "//".
            if !matches!(field(0, 16).as_str(), "/" | "//") {
                symbols.add(&bytes[at + 60..at + 60 + size]);
                objects += 1;
            }
            at += 60 + size + size % 2;
        }
        assert!(objects > 0, "no object");
        symbols
    }

    /// Adds the symbols of an object that are not its own alone.
    fn add(&mut self, object: &[u8]) {
        for symbol in elf::symbols(object) {
            if symbol.local {
                continue;
            } else if symbol.defined {
                self.defined.insert(symbol.name);
            } else {
                self.needed.insert(symbol.name);
            }
        }
    }
}
