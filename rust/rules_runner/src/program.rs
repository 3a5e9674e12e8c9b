//! Definition files, resolved: every name is a slot, a function or a primitive.
//!
//! A file is found by the module path of a `use` line, so that a program is what its first module leads to.

use crate::strict;
use crate::syntax::{self, Clause, Error, Item, Kind, Result, Term};
use crate::value::Value;
use std::cell::RefCell;
use std::collections::HashMap;
use std::fs;
use std::path::{Path, PathBuf};
use std::rc::Rc;

/// What the libraries give: all arguments are computed first.
#[derive(Clone, Copy, Debug, PartialEq, Eq)]
pub enum Primitive {
    Suc,
    Add,
    Subtract,
    Multiply,
    Divide,
    Remainder,
    Power,
    Not,
    Leb,
    Ltb,
    Eqb,
    BitAnd,
    BitOr,
    BitXor,
    Ones,
    Append,
    Map,
    Length,
    GetOr,
    SliceIndex,
    Take,
    Drop,
    Set,
    Replicate,
}

/// A definition that is computed by a function of Rust.
#[derive(Clone, Copy, Debug, PartialEq, Eq)]
pub enum Native {
    Sha256,
    Sha3_224,
    Sha3_256,
    Hmac,
    Cmac,
}

#[derive(Debug)]
pub enum Pattern {
    Any,
    Bind(usize),
    Number(u64),
    Suc(Box<Pattern>),
    Nil,
    Cons(Box<Pattern>, Box<Pattern>),
    Bool(bool),
    Constructor(u32, Vec<Pattern>),
}

#[derive(Clone, Debug)]
pub enum Expr {
    Number(u64),
    Bool(bool),
    /// A constructor and all its arguments.
    Constructor(u32, Vec<Expr>),
    Slot(usize),
    Let(usize, Box<Expr>, Box<Expr>),
    Cond(Box<Expr>, Box<Expr>, Box<Expr>),
    And(Box<Expr>, Box<Expr>),
    Or(Box<Expr>, Box<Expr>),
    Call(usize, Vec<Expr>),
    /// A variable that is a function, and all its arguments.
    Apply(Box<Expr>, Vec<Expr>),
    Primitive(Primitive, Vec<Expr>),
    /// Elements, then a list.
    List(Vec<Expr>, Option<Box<Expr>>),
    Record(Rc<[u32]>, Vec<Expr>),
    Project(Box<Expr>, u32),
    /// Binds these slots of its own frame, and sees those of the frame around it.
    Lambda(Vec<usize>, Box<Expr>),
    /// A lambda whose captured slots are known: the place of its body among the delayed terms.
    Closure(usize),
    /// A term that is computed when it is asked for.
    Delay(usize),
    /// Fields of a slot's record, taken at once where it is there; else the delayed term.
    DelayFields(usize, Vec<u32>, usize),
}

/// The body of a delayed term or of a lambda: it has a frame of its own, which begins with the captured slots.
#[derive(Debug)]
pub struct Delay {
    pub captures: Vec<usize>,
    pub parameters: usize,
    pub frame: usize,
    pub body: Expr,
}

#[derive(Debug)]
pub struct Function {
    /// Crate, file and name.
    pub name: String,
    pub file: String,
    pub arity: usize,
    pub frame: usize,
    pub clauses: Vec<(Vec<Pattern>, Expr)>,
    pub strict: Vec<bool>,
    pub native: Option<Native>,
}

#[derive(Debug)]
pub struct Program {
    pub functions: Vec<Function>,
    pub delays: Vec<Delay>,
    /// Values of definitions without parameters, once they are computed.
    pub constants: RefCell<HashMap<usize, Value>>,
    by_name: HashMap<String, usize>,
    constructors: HashMap<String, u32>,
    labels: HashMap<String, u32>,
}

#[derive(Clone, Debug)]
enum Meaning {
    Function(usize),
    Primitive(Primitive, usize),
    Number(u64),
    Bool(bool),
    Nil,
    Cons,
    Cond,
    And,
    Or,
    Constructor(u32),
    Type,
}

/// The names of the libraries that definitions may use.
fn library(module: &str, name: &str) -> Option<Meaning> {
    use Primitive::*;
    let primitive = |p, arity| Some(Meaning::Primitive(p, arity));
    match (module, name) {
        ("Rattle.std.specs.Prelude", _) => {}
        ("Rattle.std.specs.Int.Bits", "bit_and" | "bit_or" | "bit_xor") => {}
        ("Rattle.std.specs.Int.Count", "ones") => return primitive(Ones, 1),
        ("lib.Dec", "leb" | "ltb" | "eqb") => {}
        _ => return None,
    }
    match name {
        "ℕ" | "Bool" | "List" | "◌<◌" | "◌≡◌" => Some(Meaning::Type),
        "zero" => Some(Meaning::Number(0)),
        "suc" => primitive(Suc, 1),
        "◌+◌" => primitive(Add, 2),
        "◌-◌" => primitive(Subtract, 2),
        "◌*◌" => primitive(Multiply, 2),
        "◌/◌" => primitive(Divide, 2),
        "◌%◌" => primitive(Remainder, 2),
        "◌^◌" => primitive(Power, 2),
        "true" => Some(Meaning::Bool(true)),
        "false" => Some(Meaning::Bool(false)),
        "cond" => Some(Meaning::Cond),
        "not" => primitive(Not, 1),
        "◌&&◌" => Some(Meaning::And),
        "◌||◌" => Some(Meaning::Or),
        "[]" => Some(Meaning::Nil),
        "◌∷◌" => Some(Meaning::Cons),
        "◌++◌" => primitive(Append, 2),
        "map" => primitive(Map, 2),
        "leb" => primitive(Leb, 2),
        "ltb" => primitive(Ltb, 2),
        "eqb" => primitive(Eqb, 2),
        "bit_and" => primitive(BitAnd, 2),
        "bit_or" => primitive(BitOr, 2),
        "bit_xor" => primitive(BitXor, 2),
        "count_ones" => primitive(Ones, 1),
        "length" => primitive(Length, 1),
        "get_or" | "slice_index_or" => primitive(GetOr, 3),
        "slice_index" => primitive(SliceIndex, 2),
        "take" => primitive(Take, 2),
        "drop" => primitive(Drop, 2),
        "set" => primitive(Set, 3),
        "replicate" => primitive(Replicate, 2),
        _ => None,
    }
}

/// Where a module path of this repository leads: a definition file, or types declared in a crate's code.
enum Source {
    File { krate: String, file: String },
    Type,
    Variants { owner: String },
    Library(String),
}

fn source(path: &[String]) -> Option<Source> {
    match path.iter().map(String::as_str).collect::<Vec<_>>()[..] {
        ["Rattle", "std", ..] | ["lib", ..] => Some(Source::Library(path.join("."))),
        ["Rattle", _, "specs", "declared", _] => Some(Source::Type),
        ["Rattle", krate, "specs", "declared", owner, "TheVariants"] => Some(Source::Variants {
            owner: format!("{krate}.{owner}"),
        }),
        ["Rattle", krate, "specs", file] => Some(Source::File {
            krate: krate.into(),
            file: file.into(),
        }),
        _ => None,
    }
}

struct Module {
    path: String,
    items: Vec<Item>,
    scope: HashMap<String, Meaning>,
}

struct Loader {
    root: PathBuf,
    modules: HashMap<String, Module>,
    /// What each loaded module defines.
    defined: HashMap<String, HashMap<String, Meaning>>,
    functions: Vec<Function>,
    by_name: HashMap<String, usize>,
    constructors: HashMap<String, u32>,
    labels: HashMap<String, u32>,
}

fn fail<T>(file: &str, line: usize, text: impl Into<String>) -> Result<T> {
    Err(Error {
        file: file.into(),
        line,
        text: text.into(),
    })
}

impl Loader {
    fn constructor(&mut self, owner: &str, name: &str) -> u32 {
        let next = self.constructors.len() as u32;
        *self
            .constructors
            .entry(format!("{owner}.{name}"))
            .or_insert(next)
    }

    /// Reads a module and all that it uses, and notes what it defines.
    fn load(&mut self, krate: &str, file: &str) -> Result<()> {
        let module = format!("{krate}.{file}");
        if self.defined.contains_key(&module) {
            return Ok(());
        }
        let path = format!("{krate}/specs/{file}.antt");
        let text = match fs::read_to_string(self.root.join(&path)) {
            Ok(text) => text,
            Err(error) => return fail(&path, 0, format!("the file cannot be read: {error}")),
        };
        let items = syntax::items(&path, &text)?;
        // a module that leads back to itself finds nothing there
        self.defined.insert(module.clone(), HashMap::new());
        let mut scope = HashMap::new();
        let mut given = HashMap::new();
        for item in &items {
            let Item::Use {
                line,
                public,
                path: used,
                names,
            } = item
            else {
                continue;
            };
            for name in names {
                let meaning = self.meaning(&path, *line, used, name)?;
                scope.insert(name.clone(), meaning.clone());
                if *public {
                    given.insert(name.clone(), meaning);
                }
            }
        }
        let mut own = HashMap::new();
        let mut arities: HashMap<&str, usize> = HashMap::new();
        for item in &items {
            if let Item::Clause(clause) = item {
                let arity = *arities.entry(&clause.name).or_insert(clause.patterns.len());
                if arity != clause.patterns.len() {
                    return fail(&path, clause.line, "clauses of different length");
                }
            }
        }
        for item in &items {
            match item {
                Item::Record(name) => {
                    own.insert(name.clone(), Meaning::Type);
                }
                Item::Data { name, constructors } => {
                    own.insert(name.clone(), Meaning::Type);
                    let owner = format!("{module}.{name}");
                    for name in constructors {
                        let at = self.constructor(&owner, name);
                        own.insert(name.clone(), Meaning::Constructor(at));
                    }
                }
                Item::Signature {
                    name,
                    gives_type: true,
                    ..
                } => {
                    own.insert(name.clone(), Meaning::Type);
                }
                Item::Signature { name, line, .. } => {
                    let Some(&arity) = arities.get(name.as_str()) else {
                        return fail(&path, *line, format!("'{name}' has no clause"));
                    };
                    let at = self.functions.len();
                    let full = format!("{module}.{name}");
                    if self.by_name.insert(full.clone(), at).is_some() {
                        return fail(&path, *line, format!("'{name}' is defined twice"));
                    }
                    own.insert(name.clone(), Meaning::Function(at));
                    self.functions.push(Function {
                        name: full,
                        file: path.clone(),
                        arity,
                        frame: 0,
                        clauses: Vec::new(),
                        strict: vec![true; arity],
                        native: None,
                    });
                }
                _ => {}
            }
        }
        for (name, meaning) in own {
            if scope.insert(name.clone(), meaning.clone()).is_some() {
                return fail(&path, 0, format!("'{name}' is both used and defined"));
            }
            given.insert(name, meaning);
        }
        self.defined.insert(module.clone(), given);
        self.modules.insert(module, Module { path, items, scope });
        Ok(())
    }

    /// What a module's name means.
    fn meaning(&mut self, file: &str, line: usize, path: &[String], name: &str) -> Result<Meaning> {
        let unknown = || {
            fail(
                file,
                line,
                format!("'{}.{name}' is not known", path.join(".")),
            )
        };
        match source(path) {
            Some(Source::Type) => Ok(Meaning::Type),
            Some(Source::Variants { owner }) => {
                Ok(Meaning::Constructor(self.constructor(&owner, name)))
            }
            Some(Source::Library(module)) => library(&module, name).map_or_else(unknown, Ok),
            Some(Source::File { krate, file }) => {
                self.load(&krate, &file)?;
                let found = self.defined[&format!("{krate}.{file}")].get(name).cloned();
                found.map_or_else(unknown, Ok)
            }
            None => unknown(),
        }
    }

    fn label(&mut self, name: &str) -> u32 {
        let next = self.labels.len() as u32;
        *self.labels.entry(name.into()).or_insert(next)
    }
}

/// The variables in sight in a clause, and the slots of its frame.
struct Frame<'l> {
    loader: &'l mut Loader,
    file: &'l str,
    scope: &'l HashMap<String, Meaning>,
    variables: Vec<(String, usize)>,
    size: usize,
}

impl Frame<'_> {
    fn slot(&mut self, name: &str) -> usize {
        let slot = self.size;
        self.size += 1;
        self.variables.push((name.into(), slot));
        slot
    }

    fn variable(&self, name: &str) -> Option<usize> {
        let found = self.variables.iter().rev().find(|(own, _)| own == name);
        found.map(|(_, slot)| *slot)
    }

    fn known(&self, line: usize, name: &str) -> Result<Meaning> {
        match self.scope.get(name) {
            Some(meaning) => Ok(meaning.clone()),
            None => fail(self.file, line, format!("'{name}' is not known")),
        }
    }

    /// `top` is the parameter's own slot, where a pattern is all of a parameter.
    fn pattern(&mut self, term: &Term, top: Option<usize>) -> Result<Pattern> {
        let line = term.line;
        match &term.kind {
            Kind::Number(number) => Ok(Pattern::Number(*number)),
            Kind::Name(path) if path.len() == 1 => match self.scope.get(&path[0]) {
                Some(Meaning::Number(number)) => Ok(Pattern::Number(*number)),
                Some(Meaning::Bool(value)) => Ok(Pattern::Bool(*value)),
                Some(Meaning::Nil) => Ok(Pattern::Nil),
                Some(Meaning::Constructor(at)) => Ok(Pattern::Constructor(*at, Vec::new())),
                _ => match top {
                    Some(slot) => {
                        self.variables.push((path[0].clone(), slot));
                        Ok(Pattern::Any)
                    }
                    None => Ok(Pattern::Bind(self.slot(&path[0]))),
                },
            },
            Kind::Infix(name, left, right)
                if matches!(self.scope.get(name), Some(Meaning::Cons)) =>
            {
                let head = self.pattern(left, None)?;
                let tail = self.pattern(right, None)?;
                Ok(Pattern::Cons(Box::new(head), Box::new(tail)))
            }
            Kind::Apply(head, arguments) => {
                let meaning = match &head.kind {
                    Kind::Name(path) if path.len() == 1 => self.scope.get(&path[0]),
                    _ => None,
                };
                match (meaning, &arguments[..]) {
                    (Some(Meaning::Primitive(Primitive::Suc, _)), [argument]) => {
                        Ok(Pattern::Suc(Box::new(self.pattern(argument, None)?)))
                    }
                    (Some(Meaning::Constructor(at)), arguments) => {
                        let parts = arguments.iter().map(|part| self.pattern(part, None));
                        Ok(Pattern::Constructor(*at, parts.collect::<Result<_>>()?))
                    }
                    _ => fail(self.file, line, "this pattern is not read"),
                }
            }
            _ => fail(self.file, line, "this pattern is not read"),
        }
    }

    fn terms(&mut self, terms: &[Term]) -> Result<Vec<Expr>> {
        terms.iter().map(|term| self.expr(term)).collect()
    }

    fn expr(&mut self, term: &Term) -> Result<Expr> {
        let line = term.line;
        match &term.kind {
            Kind::Number(number) => Ok(Expr::Number(*number)),
            Kind::Name(path) => self.name(line, path, Vec::new()),
            Kind::Apply(head, arguments) => {
                let arguments = self.terms(arguments)?;
                match &head.kind {
                    Kind::Name(path) => self.name(line, path, arguments),
                    _ => fail(self.file, line, "only a definition is applied"),
                }
            }
            Kind::Infix(name, left, right) => {
                let arguments = vec![self.expr(left)?, self.expr(right)?];
                let meaning = self.known(line, name)?;
                self.applied(line, name, meaning, arguments)
            }
            Kind::Project(record, label) => {
                let record = self.expr(record)?;
                Ok(Expr::Project(Box::new(record), self.loader.label(label)))
            }
            Kind::Let(name, value, body) => {
                let value = self.expr(value)?;
                let slot = self.slot(name);
                let body = self.expr(body)?;
                self.variables.pop();
                Ok(Expr::Let(slot, Box::new(value), Box::new(body)))
            }
            Kind::Lambda(names, body) => {
                let slots = names.iter().map(|name| self.slot(name)).collect();
                let body = self.expr(body)?;
                self.variables.truncate(self.variables.len() - names.len());
                Ok(Expr::Lambda(slots, Box::new(body)))
            }
            Kind::Record(fields) => {
                let mut labels = Vec::new();
                let mut values = Vec::new();
                for (label, value) in fields {
                    let label_at = self.loader.label(label);
                    if labels.contains(&label_at) {
                        return fail(self.file, value.line, format!("'{label}' is given twice"));
                    }
                    labels.push(label_at);
                    values.push(self.expr(value)?);
                }
                Ok(Expr::Record(labels.into(), values))
            }
        }
    }

    /// A name and what it is applied to.
    fn name(&mut self, line: usize, path: &[String], arguments: Vec<Expr>) -> Result<Expr> {
        let first = &path[0];
        if let Some(slot) = self.variable(first) {
            let value = self.projected(Expr::Slot(slot), &path[1..]);
            return Ok(match arguments.is_empty() {
                true => value,
                false => Expr::Apply(Box::new(value), arguments),
            });
        }
        if path.len() == 1 || self.scope.contains_key(first) {
            let meaning = self.known(line, first)?;
            if path.len() > 1 && !arguments.is_empty() {
                return fail(self.file, line, format!("a field of '{first}' is applied"));
            }
            let value = self.applied(line, first, meaning, arguments)?;
            return Ok(self.projected(value, &path[1..]));
        }
        let (name, module) = path.split_last().expect("a path has a name");
        let meaning = self.loader.meaning(self.file, line, module, name)?;
        self.applied(line, name, meaning, arguments)
    }

    fn projected(&mut self, value: Expr, labels: &[String]) -> Expr {
        labels.iter().fold(value, |value, label| {
            Expr::Project(Box::new(value), self.loader.label(label))
        })
    }

    /// A definition with fewer arguments than it takes: a function of the others.
    fn partly_applied(&mut self, at: usize, arity: usize, given: Vec<Expr>) -> Expr {
        let mut bound = Vec::new();
        let mut arguments = Vec::new();
        for argument in given {
            arguments.push(match argument {
                Expr::Slot(slot) => Expr::Slot(slot),
                // Computed once, however often the function is applied.
                argument => {
                    bound.push((self.size, argument));
                    self.size += 1;
                    Expr::Slot(self.size - 1)
                }
            });
        }
        let parameters: Vec<usize> = (self.size..self.size + arity - arguments.len()).collect();
        self.size += parameters.len();
        arguments.extend(parameters.iter().map(|&slot| Expr::Slot(slot)));
        let function = Expr::Lambda(parameters, Box::new(Expr::Call(at, arguments)));
        bound
            .into_iter()
            .rev()
            .fold(function, |body, (slot, value)| {
                Expr::Let(slot, Box::new(value), Box::new(body))
            })
    }

    fn applied(
        &mut self,
        line: usize,
        name: &str,
        meaning: Meaning,
        mut arguments: Vec<Expr>,
    ) -> Result<Expr> {
        let arity = match &meaning {
            Meaning::Function(at) => self.loader.functions[*at].arity,
            Meaning::Primitive(_, arity) => *arity,
            // It stands with all its arguments; how many these are, its declaration says.
            Meaning::Constructor(_) => arguments.len(),
            Meaning::Number(_) | Meaning::Bool(_) | Meaning::Nil => 0,
            Meaning::Cons | Meaning::And | Meaning::Or => 2,
            Meaning::Cond => 3,
            Meaning::Type => return fail(self.file, line, format!("'{name}' is a type")),
        };
        if let Meaning::Function(at) = meaning {
            if arguments.len() < arity {
                return Ok(self.partly_applied(at, arity, arguments));
            }
        }
        if arguments.len() != arity {
            let text = format!("'{name}' takes {arity} arguments, not {}", arguments.len());
            return fail(self.file, line, text);
        }
        let mut next = || Box::new(arguments.remove(0));
        Ok(match meaning {
            Meaning::Function(at) => Expr::Call(at, arguments),
            Meaning::Primitive(primitive, _) => Expr::Primitive(primitive, arguments),
            Meaning::Number(number) => Expr::Number(number),
            Meaning::Bool(value) => Expr::Bool(value),
            Meaning::Nil => Expr::List(Vec::new(), None),
            Meaning::Constructor(at) => Expr::Constructor(at, arguments),
            Meaning::And => Expr::And(next(), next()),
            Meaning::Or => Expr::Or(next(), next()),
            Meaning::Cond => Expr::Cond(next(), next(), next()),
            Meaning::Cons => {
                let head = *next();
                match *next() {
                    Expr::List(mut elements, rest) => {
                        elements.insert(0, head);
                        Expr::List(elements, rest)
                    }
                    rest => Expr::List(vec![head], Some(Box::new(rest))),
                }
            }
            Meaning::Type => unreachable!(),
        })
    }
}

/// How the definitions of the hash functions and of the MAC functions are run.
#[derive(Clone, Copy, PartialEq, Eq)]
pub enum Hashes {
    /// As they are defined.
    Defined,
    /// By `portable_hash` and `portable_aes`, for speed.
    Portable,
}

impl Program {
    /// Reads a module's file under the folder of crates, and all that it uses.
    pub fn load(crates: &Path, krate: &str, file: &str, hashes: Hashes) -> Result<Program> {
        Program::load_all(crates, &[(krate, file)], hashes)
    }

    /// The same with several modules, each by its crate and file.
    pub fn load_all(crates: &Path, modules: &[(&str, &str)], hashes: Hashes) -> Result<Program> {
        let mut loader = Loader {
            root: crates.into(),
            modules: HashMap::new(),
            defined: HashMap::new(),
            functions: Vec::new(),
            by_name: HashMap::new(),
            constructors: HashMap::new(),
            labels: HashMap::new(),
        };
        for (krate, file) in modules {
            loader.load(krate, file)?;
        }
        // a path that is written out may lead to a module that no `use` line names
        while !loader.modules.is_empty() {
            for (name, module) in std::mem::take(&mut loader.modules) {
                for item in &module.items {
                    if let Item::Clause(clause) = item {
                        resolve(&mut loader, &name, &module, clause)?;
                    }
                }
            }
        }
        for function in &mut loader.functions {
            function.native = match (hashes, function.name.as_str()) {
                (Hashes::Portable, "sha256.Sha256.sha256") => Some(Native::Sha256),
                (Hashes::Portable, "sha3.Sha3.sha3_224") => Some(Native::Sha3_224),
                (Hashes::Portable, "sha3.Sha3.sha3_256") => Some(Native::Sha3_256),
                (Hashes::Portable, "hmac.Hmac.hmac") => Some(Native::Hmac),
                (Hashes::Portable, "cmac.Cmac.cmac") => Some(Native::Cmac),
                _ => None,
            };
        }
        let delays = strict::delay(&mut loader.functions);
        Ok(Program {
            functions: loader.functions,
            delays,
            constants: RefCell::new(HashMap::new()),
            by_name: loader.by_name,
            constructors: loader.constructors,
            labels: loader.labels,
        })
    }

    /// The place of a definition: crate, file and name, parted by points.
    pub fn function(&self, name: &str) -> usize {
        match self.by_name.get(name) {
            Some(&at) => at,
            None => panic!("no definition '{name}'"),
        }
    }

    /// The number of a constructor: crate, file, type and name, parted by points.
    pub fn constructor(&self, name: &str) -> u32 {
        match self.constructors.get(name) {
            Some(&at) => at,
            None => panic!("no constructor '{name}'"),
        }
    }

    pub fn label(&self, name: &str) -> u32 {
        match self.labels.get(name) {
            Some(&at) => at,
            None => panic!("no field '{name}'"),
        }
    }

    pub fn label_name(&self, label: u32) -> &str {
        let found = self.labels.iter().find(|(_, &at)| at == label);
        found.map_or("?", |(name, _)| name)
    }
}

fn resolve(loader: &mut Loader, name: &str, module: &Module, clause: &Clause) -> Result<()> {
    let Some(&at) = loader.by_name.get(&format!("{name}.{}", clause.name)) else {
        let text = format!("'{}' has no signature", clause.name);
        return fail(&module.path, clause.line, text);
    };
    let mut frame = Frame {
        loader,
        file: &module.path,
        scope: &module.scope,
        variables: Vec::new(),
        size: clause.patterns.len(),
    };
    let mut patterns = Vec::new();
    for (slot, pattern) in clause.patterns.iter().enumerate() {
        patterns.push(frame.pattern(pattern, Some(slot))?);
    }
    let body = frame.expr(&clause.body)?;
    let size = frame.size;
    let function = &mut loader.functions[at];
    function.frame = function.frame.max(size);
    function.clauses.push((patterns, body));
    Ok(())
}
