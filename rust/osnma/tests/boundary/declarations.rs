//! Exported functions as three languages write them: the Rattle source (`#[unsafe(no_mangle)] pub extern "C" fn`), Rust
//! (`extern "C"` blocks) and C (prototypes of the header). Anything else than the forms in use is a panic.

use std::collections::BTreeMap;

/// How a parameter is passed: by value, or by a pointer to what is read alone or written.
#[derive(Clone, Copy, Debug, PartialEq, Eq)]
pub enum Passed {
    Value,
    Const,
    Mut,
}

/// Name, passing and type as Rust calls it (`u8`, `[u8; 6]`). A slice is two: the pointer, and `NAME_count`.
pub type Parameter = (String, Passed, String);

#[derive(Clone, Debug, PartialEq, Eq)]
pub struct Declaration {
    pub parameters: Vec<Parameter>,
    /// What it returns; nothing is empty.
    pub returns: String,
}

/// By name.
pub type Declarations = BTreeMap<String, Declaration>;

/// Words, texts in quotes and single signs; comments are left out.
fn tokens(text: &str) -> Vec<String> {
    let chars: Vec<char> = text.chars().collect();
    let mut found = Vec::new();
    let mut at = 0;
    let starts = |at: usize, mark: &str| mark.chars().eq(chars[at..].iter().copied().take(2));
    let end = |from: usize, mut ends: Box<dyn FnMut(usize) -> bool + '_>| {
        (from..chars.len())
            .find(|&at| ends(at))
            .unwrap_or(chars.len())
    };
    let is_word = |c: char| c.is_alphanumeric() || c == '_';
    while at < chars.len() {
        let next = if starts(at, "//") {
            end(at, Box::new(|at| chars[at] == '\n'))
        } else if starts(at, "/*") {
            end(at + 2, Box::new(|at| starts(at, "*/"))) + 2
        } else if chars[at].is_whitespace() {
            at + 1
        } else {
            let next = match chars[at] {
                '"' => end(at + 1, Box::new(|at| chars[at] == '"')) + 1,
                c if is_word(c) => end(at, Box::new(|at| !is_word(chars[at]))),
                _ => at + 1,
            };
            found.push(chars[at..next].iter().collect());
            next
        };
        at = next;
    }
    found
}

struct Reader {
    tokens: Vec<String>,
    at: usize,
}

impl Reader {
    fn new(text: &str) -> Reader {
        Reader {
            tokens: tokens(text),
            at: 0,
        }
    }

    fn is(&self, words: &[&str]) -> bool {
        let rest = &self.tokens[self.at.min(self.tokens.len())..];
        rest.len() >= words.len() && rest.iter().zip(words).all(|(token, word)| token == word)
    }

    fn take(&mut self, words: &[&str]) -> bool {
        let is = self.is(words);
        if is {
            self.at += words.len();
        }
        is
    }

    fn expect(&mut self, words: &[&str]) {
        let rest = &self.tokens[self.at..self.tokens.len().min(self.at + 8)];
        assert!(self.is(words), "{words:?} is expected, not {rest:?}");
        self.at += words.len();
    }

    fn word(&mut self) -> String {
        let word = self.tokens.get(self.at).cloned().unwrap_or_default();
        let named = word.starts_with(|c: char| c.is_alphanumeric() || c == '_');
        assert!(named, "a name is expected, not {word:?}");
        self.at += 1;
        word
    }

    /// The next place where these words stand.
    fn find(&mut self, words: &[&str]) -> bool {
        while self.at < self.tokens.len() {
            if self.take(words) {
                return true;
            }
            self.at += 1;
        }
        false
    }

    /// An array after its bracket: `u8; 6]`, or a slice, `u8]`, which is its element with an empty length.
    fn elements(&mut self) -> (String, Option<String>) {
        let element = self.word();
        let length = self.take(&[";"]).then(|| self.word());
        self.expect(&["]"]);
        (element, length)
    }

    fn returned(&mut self) -> String {
        if self.take(&["-", ">"]) {
            self.word()
        } else {
            String::new()
        }
    }

    /// The parameters up to the closing bracket, each read by `one`.
    fn parameters(&mut self, one: fn(&mut Reader, &mut Vec<Parameter>)) -> Vec<Parameter> {
        let mut parameters = Vec::new();
        while !self.take(&[")"]) {
            one(self, &mut parameters);
            if !self.is(&[")"]) {
                self.expect(&[","]);
            }
        }
        parameters
    }
}

fn rattle_parameter(reader: &mut Reader, to: &mut Vec<Parameter>) {
    let name = reader.word();
    reader.expect(&[":"]);
    if !reader.take(&["&"]) {
        to.push((name, Passed::Value, reader.word()));
        return;
    }
    let passed = if reader.take(&["mut"]) {
        Passed::Mut
    } else {
        Passed::Const
    };
    if !reader.take(&["["]) {
        to.push((name, passed, reader.word()));
        return;
    }
    match reader.elements() {
        (element, Some(length)) => to.push((name, passed, format!("[{element}; {length}]"))),
        (element, None) => {
            let count = format!("{name}_count");
            to.push((name, passed, element));
            to.push((count, Passed::Value, "usize".into()));
        }
    }
}

fn rust_parameter(reader: &mut Reader, to: &mut Vec<Parameter>) {
    let name = reader.word();
    reader.expect(&[":"]);
    if !reader.take(&["*"]) {
        to.push((name, Passed::Value, reader.word()));
        return;
    }
    let passed = match reader.word().as_str() {
        "mut" => Passed::Mut,
        "const" => Passed::Const,
        word => panic!("'{word}' is not read here"),
    };
    let of = if reader.take(&["["]) {
        let (element, length) = reader.elements();
        format!("[{element}; {}]", length.expect("a length"))
    } else {
        reader.word()
    };
    to.push((name, passed, of));
}

/// The name that Rust has for a type of C.
fn type_of_c(word: &str) -> String {
    match word {
        "uint8_t" => "u8",
        "uint16_t" => "u16",
        "uint32_t" => "u32",
        "uint64_t" => "u64",
        "size_t" => "usize",
        "void" => "",
        _ => panic!("'{word}' is not read here"),
    }
    .into()
}

fn c_parameter(reader: &mut Reader, to: &mut Vec<Parameter>) {
    let constant = reader.take(&["const"]);
    let of = type_of_c(&reader.word());
    let passed = match (reader.take(&["*"]), constant) {
        (true, true) => Passed::Const,
        (true, false) => Passed::Mut,
        (false, false) => Passed::Value,
        (false, true) => panic!("a constant value is not read here"),
    };
    to.push((reader.word(), passed, of));
}

fn add(to: &mut Declarations, name: String, declaration: Declaration) {
    let before = to.insert(name.clone(), declaration);
    assert!(before.is_none(), "{name} is declared twice");
}

/// The exported functions of a Rattle source.
pub fn of_rattle(text: &str) -> Declarations {
    let mut reader = Reader::new(text);
    let mut found = Declarations::new();
    while reader.find(&["#", "[", "unsafe", "(", "no_mangle", ")", "]"]) {
        reader.expect(&["pub", "extern", "\"C\"", "fn"]);
        let name = reader.word();
        reader.expect(&["("]);
        let parameters = reader.parameters(rattle_parameter);
        let returns = reader.returned();
        add(
            &mut found,
            name,
            Declaration {
                parameters,
                returns,
            },
        );
    }
    found
}

/// The functions that a Rust source declares to be elsewhere.
pub fn of_rust(text: &str) -> Declarations {
    let mut reader = Reader::new(text);
    let mut found = Declarations::new();
    while reader.find(&["extern", "\"C\"", "{"]) {
        while !reader.take(&["}"]) {
            reader.take(&["pub"]);
            reader.expect(&["fn"]);
            let name = reader.word();
            reader.expect(&["("]);
            let parameters = reader.parameters(rust_parameter);
            let returns = reader.returned();
            reader.expect(&[";"]);
            add(
                &mut found,
                name,
                Declaration {
                    parameters,
                    returns,
                },
            );
        }
    }
    found
}

/// The text without the preprocessor's lines and what stands for C++ alone.
fn without_directives(text: &str) -> String {
    let (mut kept, mut goes_on, mut for_cpp) = (String::new(), false, false);
    for line in text.lines() {
        let directive = goes_on || line.starts_with('#');
        goes_on = directive && line.ends_with('\\');
        if directive {
            for_cpp = line.contains("__cplusplus") || for_cpp && !line.starts_with("#endif");
        } else if !for_cpp {
            kept.push_str(line);
            kept.push('\n');
        }
    }
    kept
}

/// The text with the name of the export that the header of this prefix makes of its layout's number.
fn with_layout(text: &str, prefix: &str) -> String {
    let number = text
        .lines()
        .find_map(|line| line.strip_prefix(&format!("#define {prefix}_LAYOUT ")));
    let number = number.expect("a layout");
    let export = format!("{}_layout_{number}", prefix.to_lowercase());
    text.replace(&format!("{prefix}_LAYOUT_EXPORT"), &export)
}

/// The functions that a C header declares and does not define itself; its macros begin with the prefix.
pub fn of_header(text: &str, prefix: &str) -> Declarations {
    let mut reader = Reader::new(&without_directives(&with_layout(text, prefix)));
    let mut found = Declarations::new();
    while reader.at < reader.tokens.len() {
        if matches!(
            reader.tokens[reader.at].as_str(),
            "static" | "struct" | "enum" | "typedef"
        ) {
            skip_item(&mut reader);
            continue;
        }
        let returns = type_of_c(&reader.word());
        let name = reader.word();
        reader.expect(&["("]);
        reader.take(&["void"]);
        let parameters = reader.parameters(c_parameter);
        reader.expect(&[";"]);
        add(
            &mut found,
            name,
            Declaration {
                parameters,
                returns,
            },
        );
    }
    found
}

/// Passes over a type or a function of the header's own: up to `;` outside brackets, or the end of a body.
fn skip_item(reader: &mut Reader) {
    let (mut depth, mut called) = (0, false);
    while let Some(token) = reader.tokens.get(reader.at) {
        reader.at += 1;
        match token.as_str() {
            "(" => called = true,
            "{" => depth += 1,
            "}" => {
                depth -= 1;
                if depth == 0 && called {
                    return;
                }
            }
            ";" if depth == 0 => return,
            _ => {}
        }
    }
    panic!("an item does not end");
}
