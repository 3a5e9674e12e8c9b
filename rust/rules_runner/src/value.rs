//! Values: numbers, Booleans, constructors, lists, records, functions, and values still to be computed.

use std::cell::RefCell;
use std::rc::Rc;

#[derive(Clone, Debug)]
pub enum Value {
    Number(u64),
    /// A number past 64 bits.
    Wide(u128),
    Bool(bool),
    /// A constructor, by its number in the program, and its arguments.
    Constructor(u32, Vec<Value>),
    List(List),
    Record(Rc<Record>),
    Function(Rc<Closure>),
    Delayed(Rc<RefCell<Delayed>>),
}

impl Value {
    pub fn of_number(number: u128) -> Value {
        u64::try_from(number).map_or(Value::Wide(number), Value::Number)
    }
}

#[derive(Debug)]
pub struct Record {
    pub labels: Rc<[u32]>,
    pub fields: Vec<Value>,
}

impl Record {
    pub fn field(&self, label: u32) -> Option<&Value> {
        let at = self.labels.iter().position(|&own| own == label)?;
        Some(&self.fields[at])
    }
}

#[derive(Debug)]
pub struct Closure {
    /// The place of its body among the program's delayed terms.
    pub code: usize,
    pub captured: Vec<Value>,
}

/// A value that is computed when it is first asked for.
#[derive(Debug)]
pub enum Delayed {
    Waits { code: usize, captured: Vec<Value> },
    Runs,
    Done(Value),
}

/// A part of a shared vector. Elements are computed; a list of numbers is stored as such.
#[derive(Clone, Debug)]
pub struct List {
    elements: Elements,
    from: usize,
    len: usize,
}

#[derive(Clone, Debug)]
enum Elements {
    Numbers(Rc<Vec<u64>>),
    Values(Rc<Vec<Value>>),
}

impl List {
    pub fn of_numbers(numbers: Vec<u64>) -> List {
        let len = numbers.len();
        List {
            elements: Elements::Numbers(Rc::new(numbers)),
            from: 0,
            len,
        }
    }

    pub fn of_values(values: impl IntoIterator<Item = Value>) -> List {
        let mut values = values.into_iter();
        let mut numbers = Vec::with_capacity(values.size_hint().0);
        for value in &mut values {
            match value {
                Value::Number(number) => numbers.push(number),
                other => {
                    let before = numbers.into_iter().map(Value::Number);
                    let all = before.chain([other]).chain(values);
                    let all: Vec<Value> = all.collect();
                    let len = all.len();
                    return List {
                        elements: Elements::Values(Rc::new(all)),
                        from: 0,
                        len,
                    };
                }
            }
        }
        List::of_numbers(numbers)
    }

    pub fn replicate(count: usize, value: Value) -> List {
        match value {
            Value::Number(number) => List::of_numbers(vec![number; count]),
            value => List::of_values(vec![value; count]),
        }
    }

    pub fn len(&self) -> usize {
        self.len
    }

    pub fn is_empty(&self) -> bool {
        self.len == 0
    }

    pub fn get(&self, at: usize) -> Option<Value> {
        if at >= self.len {
            return None;
        }
        Some(match &self.elements {
            Elements::Numbers(numbers) => Value::Number(numbers[self.from + at]),
            Elements::Values(values) => values[self.from + at].clone(),
        })
    }

    /// The numbers of a list of numbers; an empty list counts as one.
    pub fn numbers(&self) -> Option<&[u64]> {
        match &self.elements {
            Elements::Numbers(numbers) => Some(&numbers[self.from..self.from + self.len]),
            Elements::Values(_) if self.len == 0 => Some(&[]),
            Elements::Values(_) => None,
        }
    }

    pub fn values(&self) -> Vec<Value> {
        match &self.elements {
            Elements::Numbers(_) => self
                .numbers()
                .into_iter()
                .flatten()
                .map(|&n| Value::Number(n))
                .collect(),
            Elements::Values(values) => values[self.from..self.from + self.len].to_vec(),
        }
    }

    pub fn take(mut self, count: usize) -> List {
        self.len = self.len.min(count);
        self
    }

    pub fn drop(mut self, count: usize) -> List {
        let dropped = self.len.min(count);
        self.from += dropped;
        self.len -= dropped;
        self
    }

    /// This list and then another. A vector that nothing else shares grows in place.
    pub fn append(mut self, other: &List) -> List {
        if self.len == 0 {
            return other.clone();
        }
        if other.len == 0 {
            return self;
        }
        let end = self.from + self.len;
        if let (Elements::Numbers(own), Some(more)) = (&mut self.elements, other.numbers()) {
            if let Some(grown) = Rc::get_mut(own) {
                grown.truncate(end);
                grown.extend_from_slice(more);
                self.len += more.len();
                return self;
            }
            let mut joined = Vec::with_capacity(self.len + more.len());
            joined.extend_from_slice(&own[self.from..end]);
            joined.extend_from_slice(more);
            return List::of_numbers(joined);
        }
        let mut joined = self.values();
        joined.extend(other.values());
        List::of_values(joined)
    }

    /// This list with another element at a place; past its end it stays as it is.
    pub fn set(self, at: usize, value: Value) -> List {
        if at >= self.len {
            return self;
        }
        if let (Some(numbers), Value::Number(number)) = (self.numbers(), &value) {
            let mut numbers = numbers.to_vec();
            numbers[at] = *number;
            return List::of_numbers(numbers);
        }
        let mut values = self.values();
        values[at] = value;
        List::of_values(values)
    }
}
