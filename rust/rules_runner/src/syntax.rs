//! The text of a definition file, read into items: imports, signatures and clauses.
//!
//! Only the part of antt that the definitions use is read; anything else is an error with its file and line.

use std::fmt;

/// What is wrong with a definition file, and where.
#[derive(Debug)]
pub struct Error {
    pub file: String,
    pub line: usize,
    pub text: String,
}

impl fmt::Display for Error {
    fn fmt(&self, f: &mut fmt::Formatter) -> fmt::Result {
        write!(f, "{}:{}: {}", self.file, self.line, self.text)
    }
}

impl std::error::Error for Error {}

pub type Result<T> = std::result::Result<T, Error>;

/// A term, with the line that it begins on.
#[derive(Debug)]
pub struct Term {
    pub line: usize,
    pub kind: Kind,
}

#[derive(Debug)]
pub enum Kind {
    /// A name, with its module's path where it is written out or its fields (`r.field`).
    Name(Vec<String>),
    Number(u64),
    Apply(Box<Term>, Vec<Term>),
    /// An infix operator, by its full name (`◌+◌`).
    Infix(String, Box<Term>, Box<Term>),
    /// A field of what stands in brackets (`(g x).field`).
    Project(Box<Term>, String),
    Let(String, Box<Term>, Box<Term>),
    Lambda(Vec<String>, Box<Term>),
    Record(Vec<(String, Term)>),
}

#[derive(Debug)]
pub struct Clause {
    pub line: usize,
    pub name: String,
    pub patterns: Vec<Term>,
    pub body: Term,
}

#[derive(Debug)]
pub enum Item {
    Use {
        line: usize,
        /// The names are given on to those who use this module.
        public: bool,
        path: Vec<String>,
        names: Vec<String>,
    },
    /// A record's name; its fields are known by their labels alone.
    Record(String),
    /// A type and its constructors.
    Data {
        name: String,
        constructors: Vec<String>,
    },
    Signature {
        line: usize,
        name: String,
        /// It gives a type, and so cannot be run.
        gives_type: bool,
    },
    Clause(Clause),
}

#[derive(Debug, Clone, PartialEq)]
enum Mark {
    Word(String),
    Sign(char),
}

#[derive(Debug, Clone)]
struct Token {
    mark: Mark,
    line: usize,
    /// It begins its line.
    first: bool,
    /// A space, a line's begin or a bracket's begin stands before it.
    spaced: bool,
}

/// Infix operators: how tightly they bind, and whether to the right.
const OPERATORS: [(&str, u32, bool); 10] = [
    ("||", 30, false),
    ("&&", 35, false),
    ("+", 65, false),
    ("-", 65, false),
    ("++", 65, false),
    ("∷", 67, true),
    ("*", 70, false),
    ("/", 70, false),
    ("%", 70, false),
    ("^", 75, true),
];

fn operator(word: &str) -> Option<(u32, bool)> {
    OPERATORS
        .iter()
        .find(|(name, _, _)| *name == word)
        .map(|(_, tight, right)| (*tight, *right))
}

/// Words that neither name nor bind anything here.
const RESERVED: [&str; 34] = [
    "data",
    "record",
    "deriving",
    "module",
    "where",
    "use",
    "mod",
    "pub",
    "package",
    "using",
    "open",
    "as",
    "unfoldable",
    "abbrev",
    "axiom",
    "unfold",
    "unfolding",
    "ruleset",
    "mutual",
    "infix",
    "infixl",
    "infixr",
    "elim",
    "let",
    "in",
    "do",
    "λ",
    "∀",
    "Type",
    "=",
    ":",
    "→",
    "≡",
    "×",
];

fn tokens(file: &str, text: &str) -> Result<Vec<Token>> {
    let mut found = Vec::new();
    for (at, line) in text.lines().enumerate() {
        let number = at + 1;
        let chars: Vec<char> = line.chars().collect();
        let mut i = 0;
        let mut spaced = true;
        while i < chars.len() {
            let c = chars[i];
            if c == ' ' {
                spaced = true;
                i += 1;
                continue;
            }
            if c == '-' && chars.get(i + 1) == Some(&'-') {
                break;
            }
            if "{\"«»@\t".contains(c) && (c != '{' || chars.get(i + 1) == Some(&'-')) {
                return Err(Error {
                    file: file.into(),
                    line: number,
                    text: format!("'{c}' is not read here"),
                });
            }
            let first = i == 0;
            let mark = if "(){}.;,".contains(c) {
                i += 1;
                Mark::Sign(c)
            } else {
                let from = i;
                while i < chars.len() && !" (){}.;,@\"«»".contains(chars[i]) {
                    i += 1;
                }
                Mark::Word(chars[from..i].iter().collect())
            };
            found.push(Token {
                spaced,
                first,
                mark,
                line: number,
            });
            spaced = false;
        }
    }
    Ok(found)
}

struct Parser<'t> {
    file: &'t str,
    tokens: &'t [Token],
    at: usize,
}

/// The number that a numeral writes, in decimal or hexadecimal.
fn numeral(word: &str) -> Option<u64> {
    if !word.starts_with(|c: char| c.is_ascii_digit()) {
        return None;
    }
    let digits = word.replace('_', "");
    match digits.strip_prefix("0x") {
        Some(hex) => u64::from_str_radix(hex, 16).ok(),
        None => digits.parse().ok(),
    }
}

impl<'t> Parser<'t> {
    fn line(&self) -> usize {
        let at = self.at.min(self.tokens.len().saturating_sub(1));
        self.tokens.get(at).map_or(0, |token| token.line)
    }

    fn fail<T>(&self, text: impl Into<String>) -> Result<T> {
        Err(Error {
            file: self.file.into(),
            line: self.line(),
            text: text.into(),
        })
    }

    fn peek(&self) -> Option<&'t Token> {
        self.tokens.get(self.at)
    }

    fn word(&self) -> Option<&'t str> {
        match self.peek() {
            Some(Token {
                mark: Mark::Word(word),
                ..
            }) => Some(word),
            _ => None,
        }
    }

    fn sign(&self, sign: char) -> bool {
        self.peek()
            .is_some_and(|token| token.mark == Mark::Sign(sign))
    }

    fn expect_sign(&mut self, sign: char) -> Result<()> {
        if self.sign(sign) {
            self.at += 1;
            return Ok(());
        }
        self.fail(format!("'{sign}' is expected"))
    }

    fn expect_word(&mut self, word: &str) -> Result<()> {
        if self.word() == Some(word) {
            self.at += 1;
            return Ok(());
        }
        self.fail(format!("'{word}' is expected"))
    }

    fn name(&mut self) -> Result<String> {
        match self.word() {
            Some(word) if !RESERVED.contains(&word) => {
                self.at += 1;
                Ok(word.into())
            }
            _ => self.fail("a name is expected"),
        }
    }

    /// Passes over a type, up to one of these words outside brackets or the end. Says whether it gives a `Type`.
    fn skip_type(&mut self, ends: &[&str]) -> Result<bool> {
        let mut depth = 0;
        let mut gives_type = false;
        let mut result_begins = true;
        while let Some(token) = self.peek() {
            match &token.mark {
                Mark::Word(word) if depth == 0 && ends.contains(&word.as_str()) => break,
                Mark::Word(word) if depth == 0 && word == "→" => {
                    result_begins = true;
                    self.at += 1;
                    continue;
                }
                Mark::Word(word) if depth == 0 && result_begins => gives_type = word == "Type",
                Mark::Sign('(' | '{') => {
                    gives_type &= !result_begins;
                    depth += 1;
                }
                Mark::Sign(')' | '}') => {
                    if depth == 0 {
                        break;
                    }
                    depth -= 1;
                }
                _ => {}
            }
            result_begins = false;
            self.at += 1;
        }
        if depth > 0 {
            return self.fail("a bracket is not closed");
        }
        Ok(gives_type)
    }

    /// The name of a type and its parameters, up to `where`.
    fn type_head(&mut self) -> Result<String> {
        let name = self.name()?;
        self.skip_type(&[":"])?;
        self.expect_word(":")?;
        self.skip_type(&["where"])?;
        self.expect_word("where")?;
        Ok(name)
    }

    /// A type and its constructors.
    fn data(&mut self) -> Result<Item> {
        let name = self.type_head()?;
        let mut constructors = Vec::new();
        while self.peek().is_some() {
            constructors.push(self.name()?);
            self.expect_word(":")?;
            self.skip_type_of_constructor()?;
        }
        Ok(Item::Data { name, constructors })
    }

    /// Passes over the type of a constructor, up to the name of the next, which stands before a colon.
    fn skip_type_of_constructor(&mut self) -> Result<()> {
        let all = self.tokens;
        let next = (self.at..all.len()).find(|&at| {
            let colon = all.get(at + 1).map(|token| &token.mark);
            matches!(colon, Some(Mark::Word(word)) if word == ":")
        });
        self.tokens = &all[..next.unwrap_or(all.len())];
        self.skip_type(&[])?;
        self.end()?;
        self.tokens = all;
        Ok(())
    }

    fn term(&mut self) -> Result<Term> {
        let line = self.line();
        match self.word() {
            Some("let") => {
                self.at += 1;
                let name = self.name()?;
                if self.word() == Some(":") {
                    self.at += 1;
                    self.skip_type(&["="])?;
                }
                self.expect_word("=")?;
                let value = self.term()?;
                self.expect_word("in")?;
                let body = self.term()?;
                let kind = Kind::Let(name, Box::new(value), Box::new(body));
                Ok(Term { line, kind })
            }
            Some("λ") => {
                self.at += 1;
                let mut names = Vec::new();
                while !self.sign('.') {
                    if self.sign('(') {
                        self.at += 1;
                        names.push(self.name()?);
                        self.expect_word(":")?;
                        self.skip_type(&[])?;
                        self.expect_sign(')')?;
                    } else {
                        names.push(self.name()?);
                    }
                }
                self.expect_sign('.')?;
                let body = self.term()?;
                let kind = Kind::Lambda(names, Box::new(body));
                Ok(Term { line, kind })
            }
            _ => self.infix(0),
        }
    }

    fn infix(&mut self, least: u32) -> Result<Term> {
        let mut left = self.application()?;
        while let Some(word) = self.word() {
            let Some((tight, to_right)) = operator(word) else {
                break;
            };
            if tight < least {
                break;
            }
            let line = self.line();
            self.at += 1;
            let right = self.infix(if to_right { tight } else { tight + 1 })?;
            let kind = Kind::Infix(format!("◌{word}◌"), Box::new(left), Box::new(right));
            left = Term { line, kind };
        }
        Ok(left)
    }

    /// A term that begins with a `let` or a `λ` may stand last.
    fn opens_block(&self) -> bool {
        matches!(self.word(), Some("let" | "λ"))
    }

    fn opens_atom(&self) -> bool {
        match self.word() {
            Some("record") => true,
            Some(word) => !RESERVED.contains(&word) && operator(word).is_none(),
            None => self.sign('('),
        }
    }

    fn application(&mut self) -> Result<Term> {
        if self.opens_block() {
            return self.term();
        }
        let head = self.atom()?;
        let mut arguments = Vec::new();
        loop {
            if self.opens_atom() {
                arguments.push(self.atom()?);
            } else if self.opens_block() {
                arguments.push(self.term()?);
            } else {
                return Ok(applied(head, arguments));
            }
        }
    }

    fn atom(&mut self) -> Result<Term> {
        let line = self.line();
        if self.sign('(') {
            self.at += 1;
            let mut term = self.term()?;
            self.expect_sign(')')?;
            while let Some(label) = self.field()? {
                let kind = Kind::Project(Box::new(term), label);
                term = Term { line, kind };
            }
            return Ok(term);
        }
        match self.word() {
            Some("record") => {
                self.at += 1;
                self.expect_sign('{')?;
                let mut fields = Vec::new();
                while !self.sign('}') {
                    let label = self.name()?;
                    self.expect_word("=")?;
                    fields.push((label, self.term()?));
                    if !self.sign('}') {
                        self.expect_sign(';')?;
                    }
                }
                self.expect_sign('}')?;
                let kind = Kind::Record(fields);
                Ok(Term { line, kind })
            }
            Some(word) if word.starts_with(|c: char| c.is_ascii_digit()) => {
                let Some(number) = numeral(word) else {
                    return self.fail(format!("'{word}' is no number of 64 bits"));
                };
                self.at += 1;
                let kind = Kind::Number(number);
                Ok(Term { line, kind })
            }
            Some(_) if self.opens_atom() => {
                let mut path = vec![self.name()?];
                while let Some(part) = self.field()? {
                    path.push(part);
                }
                let kind = Kind::Name(path);
                Ok(Term { line, kind })
            }
            Some(word) => self.fail(format!("'{word}' is not read here")),
            None => self.fail("a term is expected"),
        }
    }

    /// What stands behind a point, with a space neither before it nor after.
    fn field(&mut self) -> Result<Option<String>> {
        let tight = |at| {
            self.tokens
                .get(at)
                .is_some_and(|token: &Token| !token.spaced)
        };
        if !self.sign('.') || !tight(self.at) || !tight(self.at + 1) {
            return Ok(None);
        }
        self.at += 1;
        self.name().map(Some)
    }

    fn path(&mut self) -> Result<Vec<String>> {
        let mut path = vec![self.name()?];
        while self.sign('.') {
            self.at += 1;
            if self.sign('{') {
                break;
            }
            path.push(self.name()?);
        }
        Ok(path)
    }

    fn item(&mut self) -> Result<Option<Item>> {
        let line = self.line();
        let mut marked = false;
        loop {
            match self.word() {
                Some("use") => {
                    self.at += 1;
                    let path = self.path()?;
                    self.expect_sign('{')?;
                    let mut names = vec![self.name()?];
                    while self.sign(',') {
                        self.at += 1;
                        names.push(self.name()?);
                    }
                    self.expect_sign('}')?;
                    self.end()?;
                    return Ok(Some(Item::Use {
                        line,
                        public: marked,
                        path,
                        names,
                    }));
                }
                // what a proof may see through plays no part in a run
                Some("unfolding") if !marked => {
                    self.at = self.tokens.len();
                    return Ok(None);
                }
                Some("unfoldable" | "abbrev" | "pub") => {
                    self.at += 1;
                    marked = true;
                }
                Some("data") if marked => {
                    self.at += 1;
                    return self.data().map(Some);
                }
                Some("record") if marked => {
                    self.at += 1;
                    let name = self.type_head()?;
                    while self.peek().is_some() {
                        self.expect_word("pub")?;
                        self.name()?;
                        self.expect_word(":")?;
                        self.skip_type(&["pub"])?;
                    }
                    return Ok(Some(Item::Record(name)));
                }
                Some(_) => break,
                None => return self.fail("a declaration is expected"),
            }
        }
        let name = self.name()?;
        while self.sign('{') {
            self.at += 1;
            self.skip_type(&[])?;
            self.expect_sign('}')?;
        }
        if self.word() == Some(":") {
            self.at += 1;
            let gives_type = self.skip_type(&[])?;
            self.end()?;
            return Ok(Some(Item::Signature {
                line,
                name,
                gives_type,
            }));
        }
        if marked {
            return self.fail("a signature is expected");
        }
        let mut patterns = Vec::new();
        while self.word() != Some("=") {
            patterns.push(self.atom()?);
        }
        self.expect_word("=")?;
        let body = self.term()?;
        self.end()?;
        Ok(Some(Item::Clause(Clause {
            line,
            name,
            patterns,
            body,
        })))
    }

    fn end(&self) -> Result<()> {
        match self.peek() {
            None => Ok(()),
            Some(token) => self.fail(format!("{:?} is not read here", token.mark)),
        }
    }
}

fn applied(head: Term, arguments: Vec<Term>) -> Term {
    if arguments.is_empty() {
        return head;
    }
    let line = head.line;
    let kind = Kind::Apply(Box::new(head), arguments);
    Term { line, kind }
}

/// The items of a file. The clauses of a function that gives a type are passed over.
pub fn items(file: &str, text: &str) -> Result<Vec<Item>> {
    let all = tokens(file, text)?;
    let mut begins: Vec<usize> = (0..all.len()).filter(|&at| all[at].first).collect();
    if all.first().is_some_and(|token| !token.first) {
        return Err(Error {
            file: file.into(),
            line: all[0].line,
            text: "a declaration begins its line".into(),
        });
    }
    begins.push(all.len());
    let mut found = Vec::new();
    let mut types: Vec<String> = Vec::new();
    for range in begins.windows(2) {
        let part = &all[range[0]..range[1]];
        if matches!(&part[0].mark, Mark::Word(word) if types.contains(word)) {
            continue;
        }
        let mut parser = Parser {
            file,
            tokens: part,
            at: 0,
        };
        let item = parser.item()?;
        if let Some(Item::Signature {
            name,
            gives_type: true,
            ..
        }) = &item
        {
            types.push(name.clone());
        }
        found.extend(item);
    }
    Ok(found)
}
