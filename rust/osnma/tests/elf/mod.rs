//! The symbols of ELF objects and programs for x86-64 (System V ABI, chapter 4).

#![allow(dead_code)]

/// A function or a variable of an object or of a program.
pub struct Symbol {
    pub name: String,
    /// Another object cannot link it.
    pub local: bool,
    /// It stands in this object; else it is taken from elsewhere.
    pub defined: bool,
    /// Its place: in a program the address at which it is loaded, counted from the program's first byte where that may be
    /// loaded anywhere.
    pub value: usize,
}

/// A number of `len` bytes, the low byte first.
pub fn number(bytes: &[u8], at: usize, len: usize) -> usize {
    let bytes = bytes[at..at + len].iter().rev();
    bytes.fold(0, |number, &byte| number << 8 | usize::from(byte))
}

/// The text at a place, up to its zero byte.
fn text(bytes: &[u8], at: usize) -> String {
    let end = bytes[at..].iter().position(|&byte| byte == 0);
    String::from_utf8(bytes[at..at + end.expect("an end")].to_vec()).expect("a name")
}

/// The one table of symbols of an object or a program.
pub fn symbols(object: &[u8]) -> Vec<Symbol> {
    assert_eq!(
        &object[..6],
        b"\x7FELF\x02\x01",
        "no ELF object of 64 bits, low byte first"
    );
    assert_eq!(number(object, 0x12, 2), 62, "no code for x86-64");
    let (sections, size, count) = (
        number(object, 0x28, 8),
        number(object, 0x3A, 2),
        number(object, 0x3C, 2),
    );
    let section = |at: usize| &object[sections + at * size..][..size];
    let part = |header: &[u8]| &object[number(header, 0x18, 8)..][..number(header, 0x20, 8)];
    let mut tables = (0..count).map(section).filter(|h| number(h, 4, 4) == 2);
    let (Some(header), None) = (tables.next(), tables.next()) else {
        panic!("not one table of symbols");
    };
    let names = part(section(number(header, 0x28, 4)));
    let symbols = part(header).chunks_exact(24);
    symbols
        .map(|symbol| Symbol {
            name: text(names, number(symbol, 0, 4)),
            local: symbol[4] >> 4 == 0,
            defined: number(symbol, 6, 2) != 0,
            value: number(symbol, 8, 8),
        })
        .collect()
}
