//! Runs definitions: a value is computed when it is asked for, and once.

use crate::program::{Expr, Native, Pattern, Primitive, Program};
use crate::value::{Closure, Delayed, List, Record, Value};
use portable_aes::cmac;
use portable_hash::{hmac_sha256, sha256, sha3_224, sha3_256};
use std::cell::RefCell;
use std::rc::Rc;

pub struct Machine<'p> {
    program: &'p Program,
    /// The frames of the calls under way, one after the other.
    slots: Vec<Value>,
}

/// Runs `work` on a thread whose stack is large enough for the recursion of the definitions.
pub fn with_large_stack<T: Send>(work: impl FnOnce() -> T + Send) -> T {
    const STACK: usize = 1 << 30;
    std::thread::scope(|scope| {
        let thread = std::thread::Builder::new()
            .stack_size(STACK)
            .spawn_scoped(scope, work);
        match thread.expect("a thread is started").join() {
            Ok(result) => result,
            Err(panic) => std::panic::resume_unwind(panic),
        }
    })
}

fn size(number: u64) -> usize {
    usize::try_from(number).unwrap_or(usize::MAX)
}

/// A number past 128 bits: no definition needs one on the runs of this program.
fn fits(number: Option<u128>, what: &str) -> u128 {
    number.unwrap_or_else(|| panic!("a {what} does not fit in 128 bits"))
}

fn bytes(list: &List) -> Option<Vec<u8>> {
    list.numbers()?
        .iter()
        .map(|&number| u8::try_from(number).ok())
        .collect()
}

/// The bytes of an AES key that count (crates/aes/specs/Aes.antt, key_bytes): the first 16, 24 or 32, and zeros after a
/// key that is shorter than all.
fn aes_key(mut key: Vec<u8>) -> Vec<u8> {
    let len = match key.len() {
        0..24 => 16,
        24..32 => 24,
        _ => 32,
    };
    key.resize(len, 0);
    key
}

fn of_bytes(bytes: &[u8]) -> Value {
    Value::List(List::of_numbers(
        bytes.iter().map(|&byte| byte.into()).collect(),
    ))
}

impl<'p> Machine<'p> {
    pub fn new(program: &'p Program) -> Self {
        let slots = Vec::new();
        Machine { program, slots }
    }

    /// The value of a definition at these arguments.
    pub fn call(&mut self, function: usize, arguments: Vec<Value>) -> Value {
        assert_eq!(self.program.functions[function].arity, arguments.len());
        let base = self.slots.len();
        self.slots.extend(arguments);
        self.enter(function, base)
    }

    /// A value in which nothing is left to compute.
    pub fn whole(&mut self, value: Value) -> Value {
        match self.force(value) {
            Value::Record(record) => {
                let fields = record.fields.iter().map(|field| self.whole(field.clone()));
                let fields = fields.collect();
                let labels = record.labels.clone();
                Value::Record(Rc::new(Record { labels, fields }))
            }
            Value::Constructor(at, arguments) => {
                let arguments = arguments.into_iter().map(|argument| self.whole(argument));
                Value::Constructor(at, arguments.collect())
            }
            Value::List(list) if list.numbers().is_none() => {
                let values = list.values().into_iter().map(|value| self.whole(value));
                Value::List(List::of_values(values))
            }
            value => value,
        }
    }

    fn force(&mut self, value: Value) -> Value {
        let Value::Delayed(cell) = value else {
            return value;
        };
        let state = std::mem::replace(&mut *cell.borrow_mut(), Delayed::Runs);
        let value = match state {
            Delayed::Done(value) => value,
            Delayed::Runs => panic!("a value is asked for while it is computed"),
            Delayed::Waits { code, captured } => {
                let delay = &self.program.delays[code];
                let base = self.slots.len();
                self.slots.extend(captured);
                self.slots.resize(base + delay.frame, Value::Number(0));
                self.body(&delay.body, base)
            }
        };
        *cell.borrow_mut() = Delayed::Done(value.clone());
        value
    }

    /// The value in a slot, computed if it was not yet.
    fn slot(&mut self, at: usize) -> Value {
        if matches!(self.slots[at], Value::Delayed(_)) {
            let value = self.slots[at].clone();
            let value = self.force(value);
            self.slots[at] = value.clone();
            return value;
        }
        self.slots[at].clone()
    }

    fn captured(&self, code: usize, base: usize) -> Vec<Value> {
        let captures = self.program.delays[code].captures.iter();
        captures
            .map(|slot| self.slots[base + slot].clone())
            .collect()
    }

    fn put_off(&self, code: usize, base: usize) -> Value {
        let captured = self.captured(code, base);
        Value::Delayed(Rc::new(RefCell::new(Delayed::Waits { code, captured })))
    }

    /// The value of a term that may be left for later: an argument, a field, a `let`.
    fn argument(&mut self, expr: &'p Expr, base: usize) -> Value {
        match expr {
            Expr::Slot(slot) => self.slots[base + slot].clone(),
            Expr::Delay(code) => self.put_off(*code, base),
            Expr::DelayFields(slot, labels, code) => {
                let mut value = self.slots[base + slot].clone();
                for label in labels {
                    value = match there(value) {
                        Some(Value::Record(record)) => self.field(&record, *label),
                        _ => return self.put_off(*code, base),
                    };
                }
                value
            }
            _ => self.eval(expr, base),
        }
    }

    fn field(&self, record: &Record, label: u32) -> Value {
        match record.field(label) {
            Some(value) => value.clone(),
            None => panic!("a record has no field '{}'", self.program.label_name(label)),
        }
    }

    /// Calls a function whose arguments are the slots from `base` on, the last ones.
    fn enter(&mut self, function: usize, base: usize) -> Value {
        match self.select(function, base) {
            Ok(body) => self.body(body, base),
            Err(value) => value,
        }
    }

    /// The body of the clause that the arguments match, with its frame made ready; or the value, where there is no
    /// clause to run.
    fn select(&mut self, at: usize, base: usize) -> Result<&'p Expr, Value> {
        let function = &self.program.functions[at];
        if let Some(native) = function.native {
            if let Some(value) = self.native(native, base) {
                self.slots.truncate(base);
                return Err(value);
            }
        }
        if function.arity == 0 {
            let known = self.program.constants.borrow().get(&at).cloned();
            let value = known.unwrap_or_else(|| {
                self.slots.resize(base + function.frame, Value::Number(0));
                self.body(&function.clauses[0].1, base)
            });
            self.program
                .constants
                .borrow_mut()
                .insert(at, value.clone());
            return Err(value);
        }
        self.slots.resize(base + function.frame, Value::Number(0));
        'clauses: for (patterns, body) in &function.clauses {
            for (slot, pattern) in patterns.iter().enumerate() {
                if !matches!(pattern, Pattern::Any) {
                    let value = self.slot(base + slot);
                    if !self.matches(pattern, value, base) {
                        continue 'clauses;
                    }
                }
            }
            return Ok(body);
        }
        panic!("no clause of {} in {} fits", function.name, function.file);
    }

    fn matches(&mut self, pattern: &Pattern, value: Value, base: usize) -> bool {
        match (pattern, value) {
            (Pattern::Any, _) => true,
            (Pattern::Bind(slot), value) => {
                self.slots[base + slot] = value;
                true
            }
            (Pattern::Number(own), Value::Number(number)) => *own == number,
            (Pattern::Suc(inner), Value::Number(number)) => {
                number > 0 && self.matches(inner, Value::Number(number - 1), base)
            }
            (Pattern::Bool(own), Value::Bool(value)) => *own == value,
            (Pattern::Constructor(own, parts), Value::Constructor(at, arguments))
                if *own != at || parts.len() == arguments.len() =>
            {
                let mut pairs = parts.iter().zip(arguments);
                *own == at && pairs.all(|(part, argument)| self.matches(part, argument, base))
            }
            (Pattern::Nil, Value::List(list)) => list.is_empty(),
            (Pattern::Cons(head, tail), Value::List(list)) => match list.get(0) {
                Some(first) => {
                    self.matches(head, first, base)
                        && self.matches(tail, Value::List(list.drop(1)), base)
                }
                None => false,
            },
            (pattern, value) => panic!("{value:?} is matched against {pattern:?}"),
        }
    }

    fn native(&mut self, native: Native, base: usize) -> Option<Value> {
        let mut argument = |at| match self.slot(base + at) {
            Value::List(list) => bytes(&list),
            _ => None,
        };
        match native {
            Native::Sha256 => Some(of_bytes(&sha256(&argument(0)?))),
            Native::Sha3_224 => Some(of_bytes(&sha3_224(&argument(0)?))),
            Native::Sha3_256 => Some(of_bytes(&sha3_256(&argument(0)?))),
            Native::Hmac => {
                let key = argument(0)?;
                Some(of_bytes(&hmac_sha256(&key, &argument(1)?)))
            }
            Native::Cmac => {
                let key = aes_key(argument(0)?);
                cmac(&key, &argument(1)?).map(|code| of_bytes(&code))
            }
        }
    }

    /// Computes a body whose frame begins at `base`, and takes the frame away. The last call of a body takes its
    /// frame's place.
    fn body(&mut self, mut expr: &'p Expr, base: usize) -> Value {
        loop {
            match expr {
                Expr::Let(slot, value, rest) => {
                    self.slots[base + slot] = self.argument(value, base);
                    expr = rest;
                }
                Expr::Cond(test, yes, no) => {
                    expr = if self.truth(test, base) { yes } else { no };
                }
                Expr::And(left, right) if self.truth(left, base) => expr = right,
                Expr::Or(left, right) if !self.truth(left, base) => expr = right,
                Expr::And(..) | Expr::Or(..) => {
                    self.slots.truncate(base);
                    return Value::Bool(matches!(expr, Expr::Or(..)));
                }
                Expr::Call(function, arguments) => {
                    let top = self.slots.len();
                    for argument in arguments {
                        let value = self.argument(argument, base);
                        self.slots.push(value);
                    }
                    self.slots.drain(base..top);
                    match self.select(*function, base) {
                        Ok(body) => expr = body,
                        Err(value) => return value,
                    }
                }
                _ => {
                    let value = self.eval(expr, base);
                    self.slots.truncate(base);
                    return value;
                }
            }
        }
    }

    fn truth(&mut self, expr: &'p Expr, base: usize) -> bool {
        match self.eval(expr, base) {
            Value::Bool(value) => value,
            value => panic!("{value:?} is no Bool"),
        }
    }

    fn number(&mut self, expr: &'p Expr, base: usize) -> u64 {
        match self.eval(expr, base) {
            Value::Number(number) => number,
            value => panic!("{value:?} is no number"),
        }
    }

    /// A number that may be past 64 bits.
    fn wide(&mut self, expr: &'p Expr, base: usize) -> u128 {
        match self.eval(expr, base) {
            Value::Number(number) => number.into(),
            Value::Wide(number) => number,
            value => panic!("{value:?} is no number"),
        }
    }

    fn list(&mut self, expr: &'p Expr, base: usize) -> List {
        match self.eval(expr, base) {
            Value::List(list) => list,
            value => panic!("{value:?} is no list"),
        }
    }

    fn eval(&mut self, expr: &'p Expr, base: usize) -> Value {
        match expr {
            Expr::Number(number) => Value::Number(*number),
            Expr::Bool(value) => Value::Bool(*value),
            Expr::Constructor(at, arguments) => {
                let arguments = arguments.iter().map(|argument| self.eval(argument, base));
                Value::Constructor(*at, arguments.collect())
            }
            Expr::Slot(slot) => self.slot(base + slot),
            Expr::Let(slot, value, body) => {
                self.slots[base + slot] = self.argument(value, base);
                self.eval(body, base)
            }
            Expr::Cond(test, yes, no) => {
                let taken = if self.truth(test, base) { yes } else { no };
                self.eval(taken, base)
            }
            Expr::And(left, right) => {
                Value::Bool(self.truth(left, base) && self.truth(right, base))
            }
            Expr::Or(left, right) => Value::Bool(self.truth(left, base) || self.truth(right, base)),
            Expr::Call(function, arguments) => {
                let top = self.slots.len();
                for argument in arguments {
                    let value = self.argument(argument, base);
                    self.slots.push(value);
                }
                self.enter(*function, top)
            }
            Expr::Apply(function, arguments) => {
                let function = self.function(function, base);
                let values = arguments.iter().map(|argument| self.eval(argument, base));
                let values = values.collect();
                self.apply(&function, values)
            }
            Expr::Primitive(primitive, arguments) => self.primitive(*primitive, arguments, base),
            Expr::List(elements, rest) => {
                let elements = elements.iter().map(|element| self.eval(element, base));
                let list = List::of_values(elements);
                Value::List(match rest {
                    Some(rest) => list.append(&self.list(rest, base)),
                    None => list,
                })
            }
            Expr::Record(labels, fields) => {
                let fields = fields
                    .iter()
                    .map(|field| self.argument(field, base))
                    .collect();
                let labels = labels.clone();
                Value::Record(Rc::new(Record { labels, fields }))
            }
            Expr::Project(record, label) => match self.eval(record, base) {
                Value::Record(record) => {
                    let value = self.field(&record, *label);
                    self.force(value)
                }
                value => panic!("{value:?} is no record"),
            },
            Expr::Closure(code) => Value::Function(Rc::new(Closure {
                code: *code,
                captured: self.captured(*code, base),
            })),
            Expr::Delay(_) | Expr::DelayFields(..) => {
                let value = self.argument(expr, base);
                self.force(value)
            }
            Expr::Lambda(..) => unreachable!("every lambda is a closure once the program is read"),
        }
    }

    fn primitive(&mut self, primitive: Primitive, arguments: &'p [Expr], base: usize) -> Value {
        use Primitive::*;
        let at = |at: usize| &arguments[at];
        match primitive {
            Suc => {
                let number = self.wide(at(0), base).checked_add(1);
                Value::of_number(fits(number, "successor"))
            }
            Add | Subtract | Multiply | Divide | Remainder | Power | BitAnd | BitOr | BitXor => {
                let (a, b) = (self.wide(at(0), base), self.wide(at(1), base));
                Value::of_number(match primitive {
                    Add => fits(a.checked_add(b), "sum"),
                    Subtract => a.saturating_sub(b),
                    Multiply => fits(a.checked_mul(b), "product"),
                    Divide => a.checked_div(b).unwrap_or(0),
                    Remainder => a.checked_rem(b).unwrap_or(a),
                    Power => {
                        let exponent = u32::try_from(b).ok();
                        fits(exponent.and_then(|b| a.checked_pow(b)), "power")
                    }
                    BitAnd => a & b,
                    BitOr => a | b,
                    _ => a ^ b,
                })
            }
            Leb | Ltb | Eqb => {
                let (a, b) = (self.wide(at(0), base), self.wide(at(1), base));
                Value::Bool(match primitive {
                    Leb => a <= b,
                    Ltb => a < b,
                    _ => a == b,
                })
            }
            Not => Value::Bool(!self.truth(at(0), base)),
            Ones => Value::Number(self.number(at(0), base).count_ones().into()),
            Length => Value::Number(self.list(at(0), base).len() as u64),
            GetOr | SliceIndex => {
                let list = self.list(at(0), base);
                let place = size(self.number(at(1), base));
                match list.get(place) {
                    Some(value) => value,
                    None if primitive == SliceIndex => Value::Number(0),
                    None => self.eval(at(2), base),
                }
            }
            Take => {
                let count = size(self.number(at(0), base));
                Value::List(self.list(at(1), base).take(count))
            }
            Drop => {
                let count = size(self.number(at(0), base));
                Value::List(self.list(at(1), base).drop(count))
            }
            Set => {
                let list = self.list(at(0), base);
                let place = size(self.number(at(1), base));
                let value = self.eval(at(2), base);
                Value::List(list.set(place, value))
            }
            Replicate => {
                let count = size(self.number(at(0), base));
                let value = self.eval(at(1), base);
                Value::List(List::replicate(count, value))
            }
            Append => {
                let left = self.list(at(0), base);
                let right = self.list(at(1), base);
                Value::List(left.append(&right))
            }
            Map => {
                let function = self.function(at(0), base);
                let list = self.list(at(1), base);
                let values = list.values().into_iter();
                let values = values.map(|value| self.apply(&function, vec![value]));
                Value::List(List::of_values(values))
            }
        }
    }

    fn function(&mut self, expr: &'p Expr, base: usize) -> Rc<Closure> {
        match self.eval(expr, base) {
            Value::Function(function) => function,
            value => panic!("{value:?} is no function"),
        }
    }

    fn apply(&mut self, function: &Closure, arguments: Vec<Value>) -> Value {
        let delay = &self.program.delays[function.code];
        assert_eq!(delay.parameters, arguments.len());
        let base = self.slots.len();
        self.slots.extend(function.captured.iter().cloned());
        self.slots.extend(arguments);
        self.slots.resize(base + delay.frame, Value::Number(0));
        self.body(&delay.body, base)
    }
}

/// A value that needs no more work; none where it is still to be computed.
fn there(value: Value) -> Option<Value> {
    match value {
        Value::Delayed(cell) => match &*cell.borrow() {
            Delayed::Done(value) => Some(value.clone()),
            _ => None,
        },
        value => Some(value),
    }
}
