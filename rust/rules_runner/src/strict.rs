//! What is computed at once and what is delayed.
//!
//! An argument that a function is sure to ask for is computed before the call; any other is delayed, so that a branch
//! that is not taken costs nothing. Every definition is total: the choice changes the cost and no value.

use crate::program::{Delay, Expr, Function, Pattern};
use std::collections::{BTreeSet, HashMap};

/// The slots that are sure to be asked for when a term is computed.
fn asked(expr: &Expr, functions: &[Function]) -> BTreeSet<usize> {
    let all = |terms: &[Expr]| -> BTreeSet<usize> {
        terms
            .iter()
            .flat_map(|term| asked(term, functions))
            .collect()
    };
    match expr {
        Expr::Slot(slot) => BTreeSet::from([*slot]),
        Expr::Let(slot, value, body) => {
            let mut slots = asked(body, functions);
            if slots.remove(slot) {
                slots.extend(asked(value, functions));
            }
            slots
        }
        Expr::Cond(test, yes, no) => {
            let (yes, no) = (asked(yes, functions), asked(no, functions));
            let mut slots = asked(test, functions);
            slots.extend(yes.intersection(&no));
            slots
        }
        Expr::And(left, _) | Expr::Or(left, _) => asked(left, functions),
        Expr::Call(at, arguments) => {
            let strict = &functions[*at].strict;
            let sure = arguments.iter().zip(strict).filter(|(_, strict)| **strict);
            sure.flat_map(|(argument, _)| asked(argument, functions))
                .collect()
        }
        Expr::Primitive(_, arguments) | Expr::Constructor(_, arguments) => all(arguments),
        Expr::List(elements, rest) => {
            let mut slots = all(elements);
            if let Some(rest) = rest {
                slots.extend(asked(rest, functions));
            }
            slots
        }
        Expr::Project(part, _) | Expr::Apply(part, _) => asked(part, functions),
        _ => BTreeSet::new(),
    }
}

fn strict_parameters(function: &Function, functions: &[Function]) -> Vec<bool> {
    let mut strict = vec![true; function.arity];
    // A function of Rust asks for all its arguments.
    if function.native.is_some() {
        return strict;
    }
    for (patterns, body) in &function.clauses {
        let slots = asked(body, functions);
        for (slot, pattern) in patterns.iter().enumerate() {
            strict[slot] &= !matches!(pattern, Pattern::Any) || slots.contains(&slot);
        }
    }
    strict
}

/// The slots that a term reads and does not bind itself.
fn free(expr: &Expr, bound: &mut Vec<usize>, found: &mut BTreeSet<usize>) {
    match expr {
        Expr::Slot(slot) => {
            if !bound.contains(slot) {
                found.insert(*slot);
            }
        }
        Expr::Let(slot, value, body) => {
            free(value, bound, found);
            bound.push(*slot);
            free(body, bound, found);
            bound.pop();
        }
        Expr::Lambda(slots, body) => {
            bound.extend(slots);
            free(body, bound, found);
            bound.truncate(bound.len() - slots.len());
        }
        _ => each(expr, &mut |part| free(part, bound, found)),
    }
}

/// The parts of a term.
fn each(expr: &Expr, visit: &mut dyn FnMut(&Expr)) {
    match expr {
        Expr::Let(_, a, b) | Expr::And(a, b) | Expr::Or(a, b) => {
            visit(a);
            visit(b);
        }
        Expr::Cond(a, b, c) => {
            visit(a);
            visit(b);
            visit(c);
        }
        Expr::Call(_, parts)
        | Expr::Primitive(_, parts)
        | Expr::Constructor(_, parts)
        | Expr::Record(_, parts) => {
            parts.iter().for_each(visit);
        }
        Expr::List(parts, rest) => {
            parts.iter().for_each(&mut *visit);
            rest.iter().for_each(|rest| visit(rest));
        }
        Expr::Apply(function, parts) => {
            visit(function);
            parts.iter().for_each(visit);
        }
        Expr::Project(part, _) | Expr::Lambda(_, part) => visit(part),
        _ => {}
    }
}

/// A term with its slots numbered anew for a frame of its own.
fn moved(expr: &Expr, slots: &mut HashMap<usize, usize>) -> Expr {
    let mut own = |slot: usize| {
        let next = slots.len();
        *slots.entry(slot).or_insert(next)
    };
    match expr {
        Expr::Slot(slot) => Expr::Slot(own(*slot)),
        Expr::Let(slot, value, body) => {
            let slot = own(*slot);
            let value = moved(value, slots);
            Expr::Let(slot, Box::new(value), Box::new(moved(body, slots)))
        }
        Expr::Lambda(bound, body) => {
            let bound = bound.iter().map(|slot| own(*slot)).collect();
            Expr::Lambda(bound, Box::new(moved(body, slots)))
        }
        _ => {
            let mut copy = expr.clone();
            each_mut(&mut copy, &mut |part| *part = moved(part, slots));
            copy
        }
    }
}

fn each_mut(expr: &mut Expr, visit: &mut dyn FnMut(&mut Expr)) {
    match expr {
        Expr::Let(_, a, b) | Expr::And(a, b) | Expr::Or(a, b) => {
            visit(a);
            visit(b);
        }
        Expr::Cond(a, b, c) => {
            visit(a);
            visit(b);
            visit(c);
        }
        Expr::Call(_, parts)
        | Expr::Primitive(_, parts)
        | Expr::Constructor(_, parts)
        | Expr::Record(_, parts) => {
            parts.iter_mut().for_each(visit);
        }
        Expr::List(parts, rest) => {
            parts.iter_mut().for_each(&mut *visit);
            rest.iter_mut().for_each(|rest| visit(rest));
        }
        Expr::Apply(function, parts) => {
            visit(function);
            parts.iter_mut().for_each(visit);
        }
        Expr::Project(part, _) | Expr::Lambda(_, part) => visit(part),
        _ => {}
    }
}

struct Delayer<'f> {
    functions: &'f [Function],
    delays: Vec<Delay>,
}

impl Delayer<'_> {
    /// The place of a new delayed term, which binds `parameters` after the slots that it captures.
    fn put_aside(&mut self, expr: &Expr, parameters: &[usize]) -> usize {
        let mut captures = BTreeSet::new();
        free(expr, &mut parameters.to_vec(), &mut captures);
        let captures: Vec<usize> = captures.into_iter().collect();
        let mut slots: HashMap<usize, usize> = HashMap::new();
        for slot in captures.iter().chain(parameters) {
            slots.insert(*slot, slots.len());
        }
        let body = moved(expr, &mut slots);
        let body = self.settled(body);
        self.delays.push(Delay {
            captures,
            parameters: parameters.len(),
            frame: slots.len(),
            body,
        });
        self.delays.len() - 1
    }

    /// A term in a place where its value may never be asked for.
    fn delayed(&mut self, expr: Expr) -> Expr {
        let mut fields = Vec::new();
        let mut inner = &expr;
        while let Expr::Project(record, label) = inner {
            fields.insert(0, *label);
            inner = record;
        }
        match (inner, &expr) {
            (Expr::Slot(slot), Expr::Project(..)) => {
                let slot = *slot;
                let code = self.put_aside(&expr, &[]);
                Expr::DelayFields(slot, fields, code)
            }
            (_, Expr::Slot(_) | Expr::Number(_) | Expr::Bool(_)) => expr,
            (_, Expr::Record(..) | Expr::Lambda(..)) => self.settled(expr),
            (_, Expr::List(parts, None) | Expr::Constructor(_, parts)) if parts.is_empty() => expr,
            _ => Expr::Delay(self.put_aside(&expr, &[])),
        }
    }

    /// A term in which each part is either computed at once or delayed.
    fn settled(&mut self, expr: Expr) -> Expr {
        match expr {
            Expr::Let(slot, value, body) => {
                let sure = asked(&body, self.functions).contains(&slot);
                let value = if sure {
                    self.settled(*value)
                } else {
                    self.delayed(*value)
                };
                Expr::Let(slot, Box::new(value), Box::new(self.settled(*body)))
            }
            Expr::Call(at, arguments) => {
                let functions = self.functions;
                let strict = functions[at].strict.iter();
                let arguments = arguments.into_iter().zip(strict);
                let arguments = arguments
                    .map(|(argument, &sure)| match sure {
                        true => self.settled(argument),
                        false => self.delayed(argument),
                    })
                    .collect();
                Expr::Call(at, arguments)
            }
            Expr::Record(labels, fields) => {
                let fields = fields
                    .into_iter()
                    .map(|field| self.delayed(field))
                    .collect();
                Expr::Record(labels, fields)
            }
            Expr::Lambda(slots, body) => Expr::Closure(self.put_aside(&body, &slots)),
            mut other => {
                each_mut(&mut other, &mut |part| {
                    let whole = std::mem::replace(part, Expr::Number(0));
                    *part = self.settled(whole);
                });
                other
            }
        }
    }
}

/// Finds what each function is sure to ask for, and rewrites all bodies accordingly.
pub fn delay(functions: &mut [Function]) -> Vec<Delay> {
    loop {
        let found: Vec<Vec<bool>> = functions
            .iter()
            .map(|function| strict_parameters(function, functions))
            .collect();
        let mut changed = false;
        for (function, strict) in functions.iter_mut().zip(found) {
            changed |= function.strict != strict;
            function.strict = strict;
        }
        if !changed {
            break;
        }
    }
    let bodies: Vec<Vec<Expr>> = functions
        .iter()
        .map(|function| {
            function
                .clauses
                .iter()
                .map(|(_, body)| body.clone())
                .collect()
        })
        .collect();
    let mut delayer = Delayer {
        functions,
        delays: Vec::new(),
    };
    let settled: Vec<Vec<Expr>> = bodies
        .into_iter()
        .map(|clauses| {
            clauses
                .into_iter()
                .map(|body| delayer.settled(body))
                .collect()
        })
        .collect();
    let delays = delayer.delays;
    for (function, bodies) in functions.iter_mut().zip(settled) {
        for (clause, body) in function.clauses.iter_mut().zip(bodies) {
            clause.1 = body;
        }
    }
    delays
}
