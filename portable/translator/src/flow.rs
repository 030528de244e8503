//! What is done to a function's code before it is written, so that C has the source's own variables and no
//! copies: nothing here changes what the code computes.
//!
//! - A local that begins as a copy of a parameter that nothing else reads is that parameter.
//! - A temporary that is read once, with nothing between that could change what it is made of, is put where
//!   it is read. An operation that rounds is not.
//! - A struct or an array that is a copy of a part of another, both of them only read from then on, is that
//!   part.
//! - A value that a branch makes for the code behind it to return is returned there.
//! - A block that is left only where it ends is no block; where a test leaves it, what is behind that is for
//!   the other answer.
//! - A multiple of an element's size, counted from an array or a list, is an element of it.
//! - An array of constants that is only read is a table of the file.
use crate::code::{Body, Expr, Function, Program, Stmt};
use crate::operations::Op2;
use crate::types::{Shape, Ty, Types};

/// What a function's code is read with: its own locals, and what the program knows.
pub struct Scope<'a> {
    pub types: &'a Types<'a>,
    pub program: &'a Program,
    pub locals: &'a [Ty],
    pub slots: Vec<bool>,
    params: usize,
    /// The locals that the source names are the first of these.
    named: usize,
}

/// A function's code in its last form, with the tables that it reads: the local that each was, or that it is
/// lent to, what is in it and its type. One that nothing reads has none of these.
pub struct Ready<'a> {
    pub scope: Scope<'a>,
    pub code: Vec<Stmt>,
    pub tables: Vec<Option<(usize, Expr, Ty)>>,
}

/// How large a value may grow by what is put into it: beyond that it is hard to read.
const MOST_OPERATIONS: usize = 10;

pub fn ready<'a>(types: &'a Types, program: &'a Program, f: &'a Function, bindings: usize, first_table: usize) -> Ready<'a> {
    let Body::Code(code) = &f.body else { unreachable!("a foreign function has no code") };
    let mut scope =
        Scope { types, program, locals: &f.locals, slots: f.slots.clone(), params: f.params, named: f.params + 1 + f.copies() + bindings };
    let mut code = code.clone();
    scope.drop_empty(&mut code);
    scope.merge_parameters(&mut code);
    let mut tables = vec![];
    scope.take_lent(&mut code, first_table, &mut tables);
    scope.share_addresses(&mut code);
    let mut before = vec![];
    while before != code {
        before = code.clone();
        let alone: Vec<bool> = (0..f.locals.len()).map(|x| stays_in_lists(&code, x)).collect();
        scope.forward(&mut code, &alone);
        each_value(&mut code, &mut |e| scope.index(e));
        scope.share_copies(&mut code);
        plain_blocks(&mut code);
        scope.return_at_once(&mut code);
        scope.drop_unread(&mut code);
    }
    scope.take_tables(&mut code, first_table, &mut tables);
    for (k, table) in tables.iter_mut().enumerate() {
        let mut is_read = false;
        each_value(&mut code, &mut |e| is_read |= matches!(e, Expr::Table(n, _) if *n == first_table + k));
        if !is_read {
            *table = None;
        }
    }
    Ready { scope, code, tables }
}

// ---- walks over code

pub fn inner(s: &Stmt) -> Vec<&Vec<Stmt>> {
    match s {
        Stmt::If(_, a, b) => vec![a, b],
        Stmt::Switch(_, arms) => arms.iter().map(|(_, code)| code).collect(),
        Stmt::Block(a) | Stmt::Loop(a) => vec![a],
        _ => vec![],
    }
}

fn inner_mut(s: &mut Stmt) -> Vec<&mut Vec<Stmt>> {
    match s {
        Stmt::If(_, a, b) => vec![a, b],
        Stmt::Switch(_, arms) => arms.iter_mut().map(|(_, code)| code).collect(),
        Stmt::Block(a) | Stmt::Loop(a) => vec![a],
        _ => vec![],
    }
}

/// What a statement itself reads and writes to, without what is within it: values first, the place that it
/// writes to last.
pub fn own(s: &Stmt) -> (Vec<&Expr>, Option<&Expr>) {
    match s {
        Stmt::Assign(p, x) | Stmt::Repeat(p, x, _) => (vec![x], Some(p)),
        Stmt::Call(p, _, xs) => (xs.iter().collect(), Some(p)),
        Stmt::If(x, _, _) | Stmt::Switch(x, _) => (vec![x], None),
        _ => (vec![], None),
    }
}

fn own_mut(s: &mut Stmt) -> Vec<&mut Expr> {
    match s {
        Stmt::Assign(p, x) | Stmt::Repeat(p, x, _) => vec![x, p],
        Stmt::Call(p, _, xs) => xs.iter_mut().chain([p]).collect(),
        Stmt::If(x, _, _) | Stmt::Switch(x, _) => vec![x],
        _ => vec![],
    }
}

fn each_value(code: &mut [Stmt], change: &mut dyn FnMut(&mut Expr)) {
    fn within(e: &mut Expr, change: &mut dyn FnMut(&mut Expr)) {
        e.parts_mut().into_iter().for_each(|part| within(part, change));
        change(e);
    }
    for s in code {
        own_mut(s).into_iter().for_each(|e| within(e, change));
        inner_mut(s).into_iter().for_each(|c| each_value(c, change));
    }
}

fn mentions(e: &Expr, x: usize) -> usize {
    usize::from(*e == Expr::Local(x)) + e.parts().into_iter().map(|part| mentions(part, x)).sum::<usize>()
}

/// How often a place that is written to reads a local: all of its mentions, but for the local that it is a
/// part of.
fn read_in_target(p: &Expr, x: usize) -> usize {
    mentions(p, x) - usize::from(p.base() == Some(x))
}

/// How often a statement reads a local by itself.
fn own_reads(s: &Stmt, x: usize) -> usize {
    let (values, target) = own(s);
    values.into_iter().map(|e| mentions(e, x)).sum::<usize>() + target.map_or(0, |p| read_in_target(p, x))
}

/// How often a statement reads a local, by itself and within.
fn reads(s: &Stmt, x: usize) -> usize {
    own_reads(s, x) + inner(s).into_iter().flatten().map(|s| reads(s, x)).sum::<usize>()
}

fn writes_whole(s: &Stmt, x: usize) -> bool {
    own(s).1 == Some(&Expr::Local(x))
}

/// Whether a statement writes to a local or a part of it, by itself or within.
fn writes(s: &Stmt, x: usize) -> bool {
    own(s).1.is_some_and(|p| p.base() == Some(x)) || inner(s).into_iter().flatten().any(|s| writes(s, x))
}

/// Whether each read of a local is of what the same list of statements has written to it before: then no list
/// finds it written, and none leaves it to be read.
fn stays_in_lists(code: &[Stmt], x: usize) -> bool {
    let mut written = false;
    for s in code {
        let part = own(s).1.is_some_and(|p| p.base() == Some(x) && *p != Expr::Local(x));
        if (own_reads(s, x) > 0 || part) && !written || !inner(s).into_iter().all(|c| stays_in_lists(c, x)) {
            return false;
        }
        written = if writes_whole(s, x) { true } else { written && !inner(s).into_iter().flatten().any(|s| writes(s, x)) };
    }
    true
}

impl Scope<'_> {
    pub fn ty(&self, e: &Expr) -> Ty {
        match e {
            Expr::Local(i) => self.locals[*i].clone(),
            Expr::Field(a, k) => match self.ty(a) {
                t @ Ty::Slice(..) if *k == 0 => t.pointer(),
                Ty::Slice(..) => Ty::Int(64),
                Ty::Named(symbol) => match self.types.shape(&symbol) {
                    Shape::Fields(fields) => fields[*k].clone(),
                    Shape::Variants(_) => crate::term::fail("a field of an enum", &symbol),
                },
                t => crate::term::fail("a field", &t.tag()),
            },
            Expr::Tag(_) => Ty::Int(8),
            Expr::Variant(a, v, k) => match self.types.variants(&self.ty(a)) {
                Some(variants) => variants[*v][*k].clone(),
                None => crate::term::fail("a variant", &self.ty(a).tag()),
            },
            Expr::Deref(_, t) | Expr::Element(_, _, t) | Expr::Listed(_, _, t) | Expr::Aggregate(_, t) => t.clone(),
            Expr::Lent(_, t) | Expr::Table(_, t) => t.clone(),
            Expr::Int(w, _) => Ty::Int(*w),
            Expr::Float(_) => Ty::Float,
            Expr::Bool(_) => Ty::Bool,
            Expr::Unit => Ty::Unit,
            Expr::Op1(o, a) => o.ty(&self.ty(a)),
            Expr::Op2(o, a, _) => o.ty(&self.ty(a)),
            Expr::AddrOf(p) => Ty::Ref(!is_lent_constant(p), Box::new(self.ty(p))),
        }
    }

    /// A struct, an array or a slice behind a pointer that does not say what it points to, or in a list: its
    /// owner, a caller in C, may have it as another type, so that it goes by memcpy.
    pub fn lent(&self, e: &Expr) -> bool {
        let whole = |t: &Ty| matches!(t, Ty::Named(_) | Ty::Array(..) | Ty::Slice(..));
        match e {
            Expr::Listed(_, _, t) => whole(t),
            Expr::Deref(p, t) => whole(t) && self.ty(p) == Ty::Ptr,
            _ => false,
        }
    }

    fn merge_parameters(&mut self, code: &mut Vec<Stmt>) {
        while let Some(Stmt::Assign(Expr::Local(x), Expr::Local(y))) = code.first() {
            let (x, y) = (*x, *y);
            let all_reads: usize = code.iter().map(|s| reads(s, y)).sum();
            if x <= self.params
                || y == 0
                || y > self.params
                || all_reads != 1
                || code.iter().any(|s| writes(s, y))
                || self.locals[x] != self.locals[y]
            {
                return;
            }
            code.remove(0);
            each_value(code, &mut |e| {
                if *e == Expr::Local(x) {
                    *e = Expr::Local(y)
                }
            });
            self.slots[y] |= self.slots[x];
        }
    }

    // ---- what is read once

    fn forward(&self, code: &mut Vec<Stmt>, alone: &[bool]) {
        let mut i = 0;
        while i < code.len() {
            inner_mut(&mut code[i]).into_iter().for_each(|c| self.forward(c, alone));
            match self.use_of(code, i, alone) {
                Some(j) => {
                    let Stmt::Assign(Expr::Local(x), value) = code.remove(i) else { unreachable!("use_of") };
                    let written = own(&code[j - 1]).1.is_some_and(|p| p.base() == Some(x));
                    let mut places = own_mut(&mut code[j - 1]);
                    if written {
                        places.pop();
                    }
                    places.into_iter().for_each(|e| put(e, x, &value));
                    i = i.saturating_sub(1);
                }
                None => i += 1,
            }
        }
    }

    /// Where what statement i gives to a temporary can be put: the one statement that reads it.
    fn use_of(&self, code: &[Stmt], i: usize, alone: &[bool]) -> Option<usize> {
        let Stmt::Assign(Expr::Local(x), value) = &code[i] else { return None };
        let x = *x;
        if x <= self.params || self.slots[x] || !alone[x] || self.lent(value) || self.types.empty(&self.locals[x]) {
            return None;
        }
        let aggregate = matches!(value, Expr::Aggregate(..));
        let named = x < self.named && !(value.is_place() && matches!(self.locals[x], Ty::Named(_) | Ty::Array(..) | Ty::Slice(..)));
        if named || rounds(value) || operations(value) > MOST_OPERATIONS || mentions(value, x) > 0 {
            return None;
        }
        // a reference, or a pointer to something else, is no value of the local's own type in C
        if self.ty(value) != self.locals[x] && !matches!(self.locals[x], Ty::Ptr | Ty::Ref(..)) {
            return None;
        }
        for (j, s) in code.iter().enumerate().skip(i + 1) {
            if own_reads(s, x) > 0 {
                let after = &code[j + 1..];
                let last = writes_whole(s, x) || after.iter().take_while(|s| !writes_whole(s, x)).all(|s| own_reads(s, x) == 0);
                let next = after.iter().find(|s| writes_whole(s, x)).is_none_or(|s| writes_whole(&code[j], x) || own_reads(s, x) == 0);
                return (own_reads(s, x) == 1 && last && next && self.takes(s, x, value, aggregate)).then_some(j);
            }
            if writes(s, x) || !self.harmless(s, value) {
                return None;
            }
        }
        None
    }

    /// Whether a statement reads x before it does anything, and as what the value can stand for.
    fn takes(&self, s: &Stmt, x: usize, value: &Expr, aggregate: bool) -> bool {
        let whole = |e: &&Expr| **e == Expr::Local(x) || matches!(e, Expr::Aggregate(parts, _) if parts.contains(&Expr::Local(x)));
        let (values, target) = own(s);
        let in_values = values.iter().map(|e| mentions(e, x)).sum::<usize>() == 1;
        match s {
            Stmt::Assign(..) | Stmt::Call(..) if aggregate => in_values && values.iter().any(whole),
            _ if aggregate => false,
            Stmt::Assign(p, _) | Stmt::Repeat(p, _, _) => in_values || target.is_some() && read_in_target(p, x) == 1,
            Stmt::Call(..) | Stmt::If(..) => in_values,
            Stmt::Switch(..) => in_values && value.is_place(),
            _ => false,
        }
    }

    /// Whether a statement leaves everything as it is that a value is made of. A value local has no address,
    /// so that only a statement that names it changes it.
    fn harmless(&self, s: &Stmt, value: &Expr) -> bool {
        let memory = value.any(&mut |e| matches!(e, Expr::Deref(..) | Expr::Listed(..)) || matches!(e, Expr::Local(z) if self.slots[*z]));
        match s {
            Stmt::Assign(p, _) | Stmt::Repeat(p, _, _) => match p.base() {
                Some(z) => mentions(value, z) == 0 && !(self.slots[z] && memory),
                None => !memory,
            },
            Stmt::Call(p, _, _) => !memory && p.base().is_none_or(|z| mentions(value, z) == 0),
            _ => false,
        }
    }

    /// What is given to a place that holds nothing is not read.
    fn drop_empty(&self, code: &mut Vec<Stmt>) {
        code.retain(|s| !matches!(s, Stmt::Assign(p, _) | Stmt::Repeat(p, _, _) if self.types.empty(&self.ty(p))));
        code.iter_mut().flat_map(inner_mut).for_each(|c| self.drop_empty(c));
    }

    fn drop_unread(&self, code: &mut Vec<Stmt>) {
        let unread: Vec<bool> = (0..self.locals.len()).map(|x| x > self.params && code.iter().all(|s| reads(s, x) == 0)).collect();
        fn drop_in(code: &mut Vec<Stmt>, unread: &[bool]) {
            code.retain(|s| !matches!(s, Stmt::Assign(p, _) | Stmt::Repeat(p, _, _) if p.base().is_some_and(|x| unread[x])));
            code.iter_mut().flat_map(inner_mut).for_each(|c| drop_in(c, unread));
        }
        drop_in(code, &unread);
    }

    // ---- copies and returns

    /// Both the copy and what it is a copy of are written once, not in a loop, and nothing else has their
    /// address but to read: so they stay alike.
    fn share_copies(&self, code: &mut Vec<Stmt>) {
        for x in self.params + 1..self.locals.len() {
            if !matches!(self.locals[x], Ty::Named(_) | Ty::Array(..)) {
                continue;
            }
            let Some(Stmt::Assign(_, part)) = only_write(code, x) else { continue };
            let (part, Some(from)) = (part.clone(), part_of_a_local(part)) else { continue };
            let settled =
                if from <= self.params { from != 0 && !code.iter().any(|s| writes(s, from)) } else { only_write(code, from).is_some() };
            if from == x || !settled || !self.only_read(code, x) || !self.only_read(code, from) {
                continue;
            }
            remove_write(code, x);
            each_value(code, &mut |e| {
                if *e == Expr::Local(x) {
                    *e = part.clone()
                }
            });
        }
    }

    /// A list that ends in branches, each of which ends in giving a value to a local, and then returns that
    /// local.
    fn return_at_once(&self, code: &mut Vec<Stmt>) {
        let given = match &code[..] {
            [.., Stmt::If(..) | Stmt::Switch(..), Stmt::Assign(Expr::Local(0), Expr::Local(v)), Stmt::Return] if *v > self.params => {
                Some(*v)
            }
            _ => None,
        };
        if let Some(v) = given {
            let branches = &code[code.len() - 3];
            if inner(branches).into_iter().all(|c| ends_in_giving(c, v)) && code.iter().map(|s| reads(s, v)).sum::<usize>() == 1 {
                code.truncate(code.len() - 2);
                inner_mut(code.last_mut().expect("the branches")).into_iter().for_each(|c| give_result(c, v));
            }
        }
        code.iter_mut().flat_map(inner_mut).for_each(|c| self.return_at_once(c));
    }

    // ---- elements

    fn index(&self, e: &mut Expr) {
        let Expr::Deref(p, t) = e else { return };
        if let Expr::AddrOf(place) = &**p {
            if self.ty(place) == *t {
                *e = (**place).clone();
            }
            return;
        }
        let Expr::Op2(Op2::Offset, from, by) = &**p else { return };
        let bytes = self.types.layout(t).0;
        let at = match &**by {
            Expr::Op2(Op2::Mul, i, each) if **each == Expr::Int(64, bytes) => i.clone(),
            Expr::Int(64, n) if bytes > 0 && n % bytes == 0 => Box::new(Expr::Int(64, n / bytes)),
            by if bytes == 1 => Box::new(by.clone()),
            _ => return,
        };
        let is_array = |a: &Ty| matches!(a, Ty::Array(of, _) if **of == *t);
        *e = match (&**from, self.ty(from)) {
            (Expr::AddrOf(array), _) if is_array(&self.ty(array)) => Expr::Element(array.clone(), at, t.clone()),
            (_, Ty::Ref(_, to)) if *to == *t => Expr::Listed(from.clone(), at, t.clone()),
            (_, Ty::Ref(_, to)) if is_array(&to) => Expr::Element(Box::new(Expr::Deref(from.clone(), *to)), at, t.clone()),
            _ => return,
        };
    }

    // ---- tables

    /// Constants that the code lends from memory of their own; two that are alike are one.
    fn take_lent(&self, code: &mut [Stmt], first: usize, tables: &mut Vec<Option<(usize, Expr, Ty)>>) {
        for s in code {
            if let Stmt::Assign(p, Expr::AddrOf(to)) = s {
                let lent = if let Expr::Field(whole, 0) = &mut **to { &mut **whole } else { &mut **to };
                if let (Some(x), Expr::Lent(_, t)) = (p.base(), &*lent) {
                    let (value, t) = (lent.clone(), t.clone());
                    let known = tables.iter().flatten().position(|(_, old, u)| *old == value && *u == t);
                    *lent = Expr::Table(first + known.unwrap_or(tables.len()), t.clone());
                    if known.is_none() {
                        tables.push(Some((x, value, t)));
                    }
                }
            }
            inner_mut(s).into_iter().for_each(|c| self.take_lent(c, first, tables));
        }
    }

    /// A local that is given the address of a constant, and nothing else, is that address.
    fn share_addresses(&self, code: &mut Vec<Stmt>) {
        for x in self.params + 1..self.locals.len() {
            let Some(Stmt::Assign(_, value)) = only_write_anywhere(code, x) else { continue };
            let is_address = matches!(value, Expr::AddrOf(p) if is_lent_constant(p));
            let fits = self.ty(value) == self.locals[x] || matches!(&self.locals[x], Ty::Ref(..));
            if self.slots[x] || !is_address || !fits {
                continue;
            }
            let value = value.clone();
            remove_write(code, x);
            each_value(code, &mut |e| {
                if *e == Expr::Local(x) {
                    *e = value.clone()
                }
            });
        }
    }

    fn take_tables(&self, code: &mut Vec<Stmt>, first: usize, tables: &mut Vec<Option<(usize, Expr, Ty)>>) {
        for x in self.params + 1..self.locals.len() {
            let constant = |s: &Stmt| matches!(s, Stmt::Assign(Expr::Local(y), Expr::Aggregate(parts, Ty::Array(..))) if *y == x && parts.len() > 4 && parts.iter().all(Expr::is_constant));
            let Some(at) = code.iter().position(constant) else { continue };
            if code.iter().filter(|s| writes(s, x)).count() != 1 || !self.only_read(code, x) {
                continue;
            }
            let Stmt::Assign(_, value) = code.remove(at) else { unreachable!("constant") };
            let table = Expr::Table(first + tables.len(), self.locals[x].clone());
            each_value(code, &mut |e| {
                if *e == Expr::Local(x) {
                    *e = table.clone()
                }
            });
            tables.push(Some((x, value, self.locals[x].clone())));
        }
    }

    /// Whether nothing that has an array's address can write through it: an address is taken only as a
    /// reference that reads.
    fn only_read(&self, code: &[Stmt], x: usize) -> bool {
        fn reads_only(e: &Expr, to: &Ty, x: usize) -> bool {
            match (e, to) {
                (Expr::AddrOf(p), _) if p.base() == Some(x) => matches!(to, Ty::Ref(false, _)),
                (Expr::Aggregate(parts, t @ Ty::Slice(..)), _) => {
                    reads_only(&parts[0], &t.pointer(), x) && parts[1..].iter().all(|p| reads_only(p, &Ty::Unit, x))
                }
                _ => e.parts().into_iter().all(|part| reads_only(part, &Ty::Unit, x)),
            }
        }
        code.iter().all(|s| {
            let here = match s {
                Stmt::Assign(p, value) => reads_only(value, &self.ty(p), x) && reads_only(p, &Ty::Unit, x),
                Stmt::Call(p, f, xs) => {
                    let wanted = &self.program.functions[f].locals[1..];
                    xs.iter().zip(wanted).all(|(e, t)| reads_only(e, t, x)) && reads_only(p, &Ty::Unit, x)
                }
                _ => own(s).0.into_iter().chain(own(s).1).all(|e| reads_only(e, &Ty::Unit, x)),
            };
            here && inner(s).into_iter().all(|c| self.only_read(c, x))
        })
    }
}

/// Whether a place is a constant in memory of its own, or its first field.
fn is_lent_constant(p: &Expr) -> bool {
    match p {
        Expr::Lent(..) | Expr::Table(..) => true,
        Expr::Field(a, 0) => matches!(**a, Expr::Lent(..) | Expr::Table(..)),
        _ => false,
    }
}

/// The one statement that writes to a local, wherever it is.
fn only_write_anywhere(code: &[Stmt], x: usize) -> Option<&Stmt> {
    fn all<'c>(code: &'c [Stmt], x: usize, found: &mut Vec<&'c Stmt>) {
        for s in code {
            if own(s).1.is_some_and(|p| p.base() == Some(x)) {
                found.push(s);
            }
            inner(s).into_iter().for_each(|c| all(c, x, found));
        }
    }
    let mut found = vec![];
    all(code, x, &mut found);
    match found[..] {
        [s] if writes_whole(s, x) => Some(s),
        _ => None,
    }
}

/// The one statement that writes to a local, where it writes to all of it and is in no loop.
fn only_write(code: &[Stmt], x: usize) -> Option<&Stmt> {
    fn all<'c>(code: &'c [Stmt], x: usize, in_loop: bool, found: &mut Vec<(&'c Stmt, bool)>) {
        for s in code {
            if own(s).1.is_some_and(|p| p.base() == Some(x)) {
                found.push((s, in_loop));
            }
            inner(s).into_iter().for_each(|c| all(c, x, in_loop || matches!(s, Stmt::Loop(_)), found));
        }
    }
    let mut found = vec![];
    all(code, x, false, &mut found);
    match found[..] {
        [(s, false)] if writes_whole(s, x) => Some(s),
        _ => None,
    }
}

fn remove_write(code: &mut Vec<Stmt>, x: usize) {
    code.retain(|s| !writes_whole(s, x));
    code.iter_mut().flat_map(inner_mut).for_each(|c| remove_write(c, x));
}

/// The local of which a place is a field, or a field of a field.
fn part_of_a_local(e: &Expr) -> Option<usize> {
    match e {
        Expr::Local(i) => Some(*i),
        Expr::Field(a, _) | Expr::Variant(a, _, _) => part_of_a_local(a),
        _ => None,
    }
}

/// Whether code ends in giving a value to a local, in each of its branches, or comes to no end.
fn ends_in_giving(code: &[Stmt], v: usize) -> bool {
    match code.last() {
        Some(s @ (Stmt::Assign(..) | Stmt::Call(..))) => writes_whole(s, v),
        Some(s @ (Stmt::If(..) | Stmt::Switch(..))) => inner(s).into_iter().all(|c| ends_in_giving(c, v)),
        Some(Stmt::Return | Stmt::Exit(_) | Stmt::Unreachable) => true,
        _ => false,
    }
}

fn give_result(code: &mut Vec<Stmt>, v: usize) {
    match code.last_mut() {
        Some(Stmt::Assign(p, _) | Stmt::Call(p, _, _)) if *p == Expr::Local(v) => {
            *p = Expr::Local(0);
            code.push(Stmt::Return);
        }
        Some(s @ (Stmt::If(..) | Stmt::Switch(..))) => inner_mut(s).into_iter().for_each(|c| give_result(c, v)),
        _ => {}
    }
}

// ---- blocks

fn plain_blocks(code: &mut Vec<Stmt>) {
    code.iter_mut().flat_map(inner_mut).for_each(plain_blocks);
    code.retain(|s| *s != Stmt::Block(vec![]));
    let mut i = 0;
    while i < code.len() {
        if let Stmt::Block(inside) = &mut code[i] {
            fall_through(inside, 0);
            inside.iter_mut().for_each(both_tests);
            one_or_other(inside);
            if !leaves(inside, 0) {
                let mut inside = std::mem::take(inside);
                one_block_less(&mut inside, 0);
                code.splice(i..=i, inside);
                continue;
            }
        }
        i += 1;
    }
}

/// Where code ends, going out of so many blocks and loops to the end of the next is going on.
fn fall_through(code: &mut Vec<Stmt>, depth: usize) {
    while code.last() == Some(&Stmt::Exit(depth)) {
        code.pop();
    }
    match code.last_mut() {
        Some(s @ (Stmt::If(..) | Stmt::Switch(..))) => inner_mut(s).into_iter().for_each(|c| fall_through(c, depth)),
        Some(Stmt::Block(inside)) => fall_through(inside, depth + 1),
        _ => {}
    }
}

/// A test whose code ends in leaving the block: what is behind it is for the other answer.
fn one_or_other(inside: &mut Vec<Stmt>) {
    let at = inside.iter().position(|s| matches!(s, Stmt::If(_, yes, no) if yes.last() == Some(&Stmt::Exit(0)) && no.is_empty()));
    let ends_in_loop = matches!(inside.last(), Some(Stmt::Loop(_)));
    if let (Some(at), false) = (at, ends_in_loop) {
        let mut rest = inside.split_off(at + 1);
        one_or_other(&mut rest);
        if let Some(Stmt::If(_, yes, no)) = inside.last_mut() {
            yes.pop();
            *no = rest;
        }
    }
}

/// Whether something in a block's code goes to its end.
fn leaves(code: &[Stmt], depth: usize) -> bool {
    code.iter().any(|s| match s {
        Stmt::Exit(k) => *k == depth,
        Stmt::Block(c) | Stmt::Loop(c) => leaves(c, depth + 1),
        s => inner(s).into_iter().any(|c| leaves(c, depth)),
    })
}

fn one_block_less(code: &mut [Stmt], depth: usize) {
    for s in code {
        match s {
            Stmt::Exit(k) if *k > depth => *k -= 1,
            Stmt::Block(c) | Stmt::Loop(c) => one_block_less(c, depth + 1),
            s => inner_mut(s).into_iter().for_each(|c| one_block_less(c, depth)),
        }
    }
}

/// Of a test that guards another one, which guards what leaves the block: the second is made only where the
/// first holds, as C's && does too.
fn both_tests(s: &mut Stmt) {
    let Stmt::If(first, yes, no) = s else { return };
    if let ([Stmt::If(second, both, other)], true) = (&mut yes[..], no.is_empty()) {
        let is_left = both.last() == Some(&Stmt::Exit(0)) && other.is_empty();
        if is_left && operations(first) + operations(second) < MOST_OPERATIONS {
            let (a, b) = (Box::new(first.clone()), Box::new(second.clone()));
            *s = Stmt::If(Expr::Op2(Op2::And, a, b), std::mem::take(both), vec![]);
        }
    }
}

fn put(e: &mut Expr, x: usize, value: &Expr) {
    if *e == Expr::Local(x) {
        *e = value.clone();
    } else {
        e.parts_mut().into_iter().for_each(|part| put(part, x, value));
    }
}

fn rounds(e: &Expr) -> bool {
    e.any(&mut |e| matches!(e, Expr::Op2(o, _, _) if o.rounds()))
}

fn operations(e: &Expr) -> usize {
    usize::from(matches!(e, Expr::Op1(..) | Expr::Op2(..))) + e.parts().into_iter().map(operations).sum::<usize>()
}
