//! A program of MIR as code: functions, statements and values, read from the term form by form (the logic's
//! Mir/Syntax.antt). A form that is not here ends the translator.
use crate::operations::{Op1, Op2};
use crate::term::{fail, Term};
use crate::types::{shape, ty, Shape, Ty};
use std::collections::BTreeMap;

/// A place, a constant, or an operation on such. In MIR an operand is a place or a constant; flow.rs puts
/// operations in the place of locals that are read once.
#[derive(Clone, PartialEq, Debug)]
pub enum Expr {
    Local(usize),
    /// A struct's field, or a slice's pointer (0) and length (1).
    Field(Box<Expr>, usize),
    /// An enum's tag, and a field of one of its variants by its place behind the tag.
    Tag(Box<Expr>),
    Variant(Box<Expr>, usize, usize),
    /// What a pointer or a reference points to, as a value of that type.
    Deref(Box<Expr>, Ty),
    /// An element of the array at a place, and of the list behind a pointer.
    Element(Box<Expr>, Box<Expr>, Ty),
    Listed(Box<Expr>, Box<Expr>, Ty),
    Int(u64, u64),
    Float(u64),
    Bool(bool),
    Unit,
    Op1(Op1, Box<Expr>),
    Op2(Op2, Box<Expr>, Box<Expr>),
    AddrOf(Box<Expr>),
    /// A struct of these fields, an array of these elements, or an enum of this tag and these fields.
    Aggregate(Vec<Expr>, Ty),
    /// A constant that lies in memory of its own, as the code has it; and by its number among the tables of
    /// the file.
    Lent(Constant, Ty),
    Table(usize, Ty),
}

/// What a constant in memory of its own is made of.
#[derive(Clone, PartialEq, Debug)]
pub enum Constant {
    Int(u64, u64),
    Float(u64),
    Bool(bool),
    Unit,
    /// A struct's fields, an array's elements, or an enum's tag and then its fields.
    Parts(Vec<Constant>),
    /// An array whose elements are alike.
    Repeat(Box<Constant>, u64),
    /// A pointer that many bytes into the constant.
    Here(u64),
}

#[derive(Clone, PartialEq, Debug)]
pub enum Stmt {
    Assign(Expr, Expr),
    Repeat(Expr, Expr, u64),
    Call(Expr, String, Vec<Expr>),
    If(Expr, Vec<Stmt>, Vec<Stmt>),
    /// The first arm with the number among its keys runs, else the last of them, which has none. Where MIR
    /// has no default, the proof leaves no other number for the last arm.
    Switch(Expr, Vec<(Vec<u64>, Vec<Stmt>)>),
    Block(Vec<Stmt>),
    Loop(Vec<Stmt>),
    Exit(usize),
    Return,
    Unreachable,
}

pub enum Body {
    Code(Vec<Stmt>),
    /// A function of C: its symbol, and the sign of its result, if that is an integer, and of each integer
    /// behind it.
    Foreign(String, Vec<bool>),
}

pub struct Function {
    pub params: usize,
    pub locals: Vec<Ty>,
    /// Whether a local lies in memory: only then its address may be taken.
    pub slots: Vec<bool>,
    pub body: Body,
}

impl Function {
    /// How many parameters have a copy in memory, which is what the code then uses: these copies are the
    /// first locals behind the parameters, and the first that is written.
    pub fn copies(&self) -> usize {
        let Body::Code(code) = &self.body else { return 0 };
        let is_copy = |(k, s): &(usize, &Stmt)| {
            let at = self.params + 1 + k;
            matches!(s, Stmt::Assign(Expr::Local(x), Expr::Local(y)) if *x == at && (1..=self.params).contains(y) && self.slots[at])
        };
        code.iter().enumerate().take_while(is_copy).count()
    }

    /// The parameter that a local is the copy of.
    pub fn copy_of(&self, x: usize) -> Option<usize> {
        let (Body::Code(code), true) = (&self.body, x > self.params && x <= self.params + self.copies()) else { return None };
        match &code[x - self.params - 1] {
            Stmt::Assign(_, Expr::Local(y)) => Some(*y),
            _ => None,
        }
    }
}

pub struct Program {
    pub functions: BTreeMap<String, Function>,
    pub shapes: BTreeMap<String, Shape>,
    pub main: String,
}

pub fn program(t: &Term) -> Program {
    let Term::Node(top) = t else { return t.unknown("a program") };
    let top = if let [Term::Node(inner)] = &top[..] { inner } else { top };
    let [Term::Word(word), functions, main] = &top[..] else { return t.unknown("a program") };
    if word != "program" {
        t.unknown::<()>("a program");
    }
    // a library has no main, and then nothing asks for one
    let main = main.form().1.first().map(|name| name.word().to_string()).unwrap_or_default();
    let mut p = Program { functions: BTreeMap::new(), shapes: BTreeMap::new(), main };
    for f in functions.list() {
        let ("fn-def", [name, item, tables @ ..]) = f.form() else { return f.unknown("a function") };
        p.functions.insert(name.word().to_string(), function(item));
        for (name, described) in tables.iter().flat_map(|t| t.list()).map(|d| d.pair()) {
            let found = shape(described);
            if p.shapes.insert(name.to_string(), found.clone()).is_some_and(|old| old != found) {
                fail::<()>("a type with two shapes", name)
            }
        }
    }
    p
}

fn function(item: &Term) -> Function {
    let ("fnItem", [_, _, params, locals, body]) = item.form() else { return item.unknown("a function") };
    let local = |l: &Term| match l.form() {
        ("local", [t, home]) => (ty(t), home.word() == "memorySlot"),
        _ => l.unknown("a local"),
    };
    let (locals, slots): (Vec<Ty>, Vec<bool>) = locals.list().into_iter().map(local).unzip();
    let body = match body.form() {
        ("foreign", [symbol, signs]) => {
            Body::Foreign(symbol.word().to_string(), signs.list().iter().map(|s| s.word() == "signed").collect())
        }
        _ => Body::Code(code(body, &locals)),
    };
    Function { params: params.place_number(), locals, slots, body }
}

fn code(t: &Term, locals: &[Ty]) -> Vec<Stmt> {
    let mut all = vec![];
    statements(t, locals, &mut all);
    all
}

fn statements(t: &Term, locals: &[Ty], into: &mut Vec<Stmt>) {
    let inner = |t: &Term| code(t, locals);
    into.push(match t.form() {
        ("seq", [a, b]) => {
            statements(a, locals, into);
            return statements(b, locals, into);
        }
        ("skip", []) => return,
        ("lendStatic", [p, of, value]) => Stmt::Assign(place(p), lent(place(p), Expr::Lent(constant(value), ty(of)), locals)),
        ("assign", [p, value]) => match value.form() {
            ("repeat", [x, n]) => Stmt::Repeat(place(p), operand(x), n.number()),
            // the place's type says what an aggregate is of; only whole locals are given one
            ("aggregate", [xs]) => match place(p) {
                Expr::Local(i) => {
                    Stmt::Assign(Expr::Local(i), Expr::Aggregate(xs.list().into_iter().map(operand).collect(), locals[i].clone()))
                }
                _ => p.unknown("an aggregate for a part"),
            },
            _ => Stmt::Assign(place(p), rvalue(value)),
        },
        ("call", [callee, xs, p]) => match callee.form() {
            ("direct", [f]) => Stmt::Call(place(p), f.form().1[0].word().to_string(), xs.list().into_iter().map(operand).collect()),
            _ => callee.unknown("a call"),
        },
        ("if", [c, a, b]) => Stmt::If(operand(c), inner(a), inner(b)),
        ("switch", [x, arms]) => Stmt::Switch(operand(x), switch_arms(arms, &inner)),
        ("block", [b]) => Stmt::Block(inner(b)),
        ("loop", [b]) => Stmt::Loop(inner(b)),
        ("exit", [k]) => Stmt::Exit(k.place_number()),
        ("return", []) => Stmt::Return,
        // the proof has that no call comes here
        ("unreachable", []) => Stmt::Unreachable,
        _ => t.unknown("a statement"),
    })
}

/// The reference to a constant, or to the first field of it, where the local is one to that.
fn lent(to: Expr, value: Expr, locals: &[Ty]) -> Expr {
    let first = match (&to, &value) {
        (Expr::Local(x), Expr::Lent(_, t @ Ty::Named(_))) => !matches!(&locals[*x], Ty::Ref(_, of) if **of == *t),
        _ => false,
    };
    Expr::AddrOf(Box::new(if first { Expr::Field(Box::new(value), 0) } else { value }))
}

fn constant(t: &Term) -> Constant {
    match t.form() {
        ("int", [w, n]) => Constant::Int(w.number(), n.number()),
        ("float", [f, bits]) if f.number() == 64 => Constant::Float(bits.number()),
        ("true", []) => Constant::Bool(true),
        ("false", []) => Constant::Bool(false),
        ("unit", []) => Constant::Unit,
        ("parts", [all]) => Constant::Parts(all.list().into_iter().map(constant).collect()),
        ("repeat", [one, n]) => Constant::Repeat(Box::new(constant(one)), n.number()),
        ("here", [n]) => Constant::Here(n.number()),
        _ => t.unknown("a constant"),
    }
}

fn switch_arms(arms: &Term, inner: &dyn Fn(&Term) -> Vec<Stmt>) -> Vec<(Vec<u64>, Vec<Stmt>)> {
    let (mut all, mut at) = (vec![], arms);
    loop {
        match at.form() {
            ("arm", [_, body, rest]) if rest.form().0 == "noDefault" => {
                all.push((vec![], inner(body)));
                return all;
            }
            ("arm", [keys, body, rest]) => {
                all.push((keys.list().into_iter().map(Term::number).collect(), inner(body)));
                at = rest;
            }
            ("default", [body]) => {
                all.push((vec![], inner(body)));
                return all;
            }
            _ => return at.unknown("an arm"),
        }
    }
}

fn place(p: &Term) -> Expr {
    let ("place", [i, steps]) = p.form() else { return p.unknown("a place") };
    let (mut at, mut variant) = (Expr::Local(i.place_number()), None);
    for step in steps.list() {
        let inner = Box::new(at);
        at = match (step.form(), variant.take()) {
            (("deref", [to]), None) => Expr::Deref(inner, ty(to)),
            (("field", [k]), None) => Expr::Field(inner, k.place_number()),
            (("field", [k]), Some(_)) if k.number() == 0 => Expr::Tag(inner),
            (("field", [k]), Some(v)) => Expr::Variant(inner, v, k.place_number() - 1),
            (("variant", [v]), None) => {
                variant = Some(v.place_number());
                *inner
            }
            _ => return p.unknown("a step"),
        };
    }
    if variant.is_some() {
        p.unknown::<()>("a variant without a field");
    }
    at
}

fn operand(x: &Term) -> Expr {
    match x.form() {
        ("copy", [p]) => place(p),
        ("int", [w, n]) if [8, 16, 32, 64].contains(&w.number()) => Expr::Int(w.number(), n.number()),
        ("float", [f, bits]) if f.number() == 64 => Expr::Float(bits.number()),
        ("true", []) => Expr::Bool(true),
        ("false", []) => Expr::Bool(false),
        ("unit", []) => Expr::Unit,
        _ => x.unknown("an operand"),
    }
}

fn rvalue(value: &Term) -> Expr {
    match value.form() {
        ("rvOpd", [x]) => operand(x),
        ("op2", [o, x, y]) => Expr::Op2(Op2::read(o), Box::new(operand(x)), Box::new(operand(y))),
        ("op1", [o, x]) => Expr::Op1(Op1::read(o), Box::new(operand(x))),
        ("addrOf", [p]) => Expr::AddrOf(Box::new(place(p))),
        _ => value.unknown("a value"),
    }
}

impl Expr {
    /// The parts of a value.
    pub fn parts(&self) -> Vec<&Expr> {
        match self {
            Expr::Field(a, _) | Expr::Tag(a) | Expr::Variant(a, _, _) | Expr::Deref(a, _) | Expr::Op1(_, a) | Expr::AddrOf(a) => vec![a],
            Expr::Element(a, b, _) | Expr::Listed(a, b, _) | Expr::Op2(_, a, b) => vec![a, b],
            Expr::Aggregate(all, _) => all.iter().collect(),
            _ => vec![],
        }
    }

    pub fn parts_mut(&mut self) -> Vec<&mut Expr> {
        match self {
            Expr::Field(a, _) | Expr::Tag(a) | Expr::Variant(a, _, _) | Expr::Deref(a, _) | Expr::Op1(_, a) | Expr::AddrOf(a) => vec![a],
            Expr::Element(a, b, _) | Expr::Listed(a, b, _) | Expr::Op2(_, a, b) => vec![a, b],
            Expr::Aggregate(all, _) => all.iter_mut().collect(),
            _ => vec![],
        }
    }

    /// Whether some part of the value, or all of it, is so.
    pub fn any(&self, is: &mut dyn FnMut(&Expr) -> bool) -> bool {
        is(self) || self.parts().into_iter().any(|part| part.any(is))
    }

    /// The local that a place is a part of, if it is not behind a pointer.
    pub fn base(&self) -> Option<usize> {
        match self {
            Expr::Local(i) => Some(*i),
            Expr::Field(a, _) | Expr::Tag(a) | Expr::Variant(a, _, _) | Expr::Element(a, _, _) => a.base(),
            _ => None,
        }
    }

    pub fn is_place(&self) -> bool {
        matches!(
            self,
            Expr::Local(_)
                | Expr::Field(..)
                | Expr::Tag(_)
                | Expr::Variant(..)
                | Expr::Deref(..)
                | Expr::Element(..)
                | Expr::Listed(..)
                | Expr::Table(..)
                | Expr::Lent(..)
        )
    }

    pub fn is_constant(&self) -> bool {
        matches!(self, Expr::Int(..) | Expr::Float(_) | Expr::Bool(_))
    }
}
