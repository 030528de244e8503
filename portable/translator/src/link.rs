//! One program out of libraries: the toolchain keeps the MIR of each library that it has proved, function by
//! function, in the library's toolchain/mir.json. Here the functions that some of them reach are taken
//! together, each at the types and at the dictionaries that it is called with, as the logic's Mir/Inst.antt has
//! it, so that no parameter is left: of a call through a dictionary the function that the impl has there, of
//! the size of a type its number. The result is a term (term.rs), which is what code.rs reads.
use crate::json::Json;
use crate::term::{fail, Term};
use std::collections::{BTreeMap, BTreeSet};
use Term::{Node, Word};

/// What libraries have: functions, declared types, and the methods of impls, by their names.
#[derive(Default)]
pub struct Libraries {
    functions: BTreeMap<String, Json>,
    declared: BTreeMap<String, Json>,
    impls: BTreeMap<String, Vec<String>>,
}

impl Libraries {
    /// Reads one library. What two have of one name is alike.
    pub fn read(&mut self, library: Json) {
        let Json::List(functions) = library else { return library.unknown("a library") };
        for f in functions {
            let Json::List(mut pair) = f else { return f.unknown("a function") };
            let (Some(body), Some(name)) = (pair.pop(), pair.pop()) else { return fail("a function", "no pair") };
            for declared in body.field("types").list() {
                put(&mut self.declared, declared.field("name").word(), declared.field("shape").clone());
            }
            for one in body.field("generics").field("impls").list() {
                let methods = one.field("methods").list().iter().map(|m| m.word().to_string()).collect();
                put(&mut self.impls, one.field("name").word(), methods);
            }
            put(&mut self.functions, name.word(), body);
        }
    }
}

fn put<T: PartialEq>(all: &mut BTreeMap<String, T>, name: &str, value: T) {
    match all.get(name) {
        Some(old) if *old != value => fail("two of one name", name),
        Some(_) => {}
        None => drop(all.insert(name.to_string(), value)),
    }
}

/// What stands for the parameters of a function or of a declared type: types and dictionaries.
#[derive(Clone, Default)]
struct Given {
    types: Vec<Term>,
    dicts: Vec<Term>,
}

struct Linker<'l> {
    libraries: &'l Libraries,
    /// What a function or a type at its arguments is called, and what is called so.
    names: BTreeMap<String, String>,
    taken: BTreeSet<String>,
    /// The types that are met, and the functions, and those that are still to be read.
    shapes: BTreeMap<String, Term>,
    functions: Vec<Term>,
    wanted: Vec<(String, String, Given)>,
    /// A function that gets another name.
    renamed: Option<(&'l str, &'l str)>,
}

/// The program of the functions from these on; the main one of a program, which may be called otherwise.
pub fn linked(libraries: &Libraries, from: &[&str], main: &str, renamed: Option<(&str, &str)>) -> Term {
    let (names, taken, shapes) = (BTreeMap::new(), BTreeSet::new(), BTreeMap::new());
    let mut linker = Linker { libraries, names, taken, shapes, functions: vec![], wanted: vec![], renamed };
    for name in from {
        linker.function(name, Given::default());
    }
    while let Some((name, base, given)) = linker.wanted.pop() {
        let read = linker.read(&name, &base, &given);
        linker.functions.push(read);
    }
    let tables = linker.shapes.iter().map(|(name, shape)| node("pair", [word(name), shape.clone()])).collect();
    let mut all = linker.functions;
    all.sort_by_cached_key(|f| f.form().1[0].to_string());
    if let Some(Node(parts)) = all.first_mut() {
        parts.push(list(tables));
    }
    Node(vec![word("program"), list(all), node("fnRef", [word(main)])])
}

fn word(text: &str) -> Term {
    Word(text.to_string())
}

fn node<const N: usize>(form: &str, parts: [Term; N]) -> Term {
    Node(std::iter::once(word(form)).chain(parts).collect())
}

fn of_list(cons: &str, nil: &str, parts: Vec<Term>) -> Term {
    parts.into_iter().rev().fold(word(nil), |rest, part| node(cons, [part, rest]))
}

fn list(parts: Vec<Term>) -> Term {
    of_list("lcons", "lnil", parts)
}

fn number(n: u64) -> Term {
    Word(n.to_string())
}

/// A constructor as terms have it: with a small letter.
fn small(form: &str) -> String {
    let mut chars = form.chars();
    chars.next().map(|c| c.to_ascii_lowercase()).into_iter().chain(chars).collect()
}

/// The parts of a list in JSON, as many as there have to be.
fn parts<const N: usize>(json: &Json) -> [&Json; N] {
    json.list().iter().collect::<Vec<_>>().try_into().unwrap_or_else(|_| json.unknown("so many parts"))
}

/// A word for a type, within a name.
fn tag(t: &Term) -> String {
    match t.form() {
        ("tyInt", [w]) => format!("u{w}"),
        ("tyFloat", [w]) => format!("f{w}"),
        ("tyRef", [_, m, to]) => format!("{}_{}", if m.word() == "mut" { "mut" } else { "ref" }, tag(to)),
        ("tyArray", [of, n]) => format!("array_{}_{}", tag(of), n.form().1[0]),
        ("tyNamed", [head]) => {
            let (base, rest) = head.pair().0.split_once('<').unwrap_or((head.pair().0, ""));
            let last = base.rsplit("::").next().unwrap_or(base);
            format!("{last}{}{rest}", if rest.is_empty() { "" } else { "<" })
        }
        ("tyStruct", [_, fields]) => match fields.form() {
            (_, [first, _]) => match first.form() {
                (_, [_, m, to]) => format!("{}list_{}", if m.word() == "mut" { "mut_" } else { "" }, tag(to)),
                _ => "struct".into(),
            },
            _ => "struct".into(),
        },
        ("tyConst", [n]) => n.to_string(),
        (form, _) => small(form.strip_prefix("ty").unwrap_or(form)),
    }
}

/// Size and alignment of a type (types.rs has them too, of what is read from the term).
fn layout(t: &Term, shapes: &BTreeMap<String, Term>) -> (u64, u64) {
    let up = |align: u64, end: u64| end.div_ceil(align) * align;
    let end = |from: u64, fields: &Term| {
        fields.list_of("tcons", "tnil").into_iter().fold((from, 1), |(end, most), f| {
            let (size, align) = layout(f, shapes);
            (up(align, end) + size, most.max(align))
        })
    };
    let whole = |(end, align): (u64, u64)| (up(align, end), align);
    match t.form() {
        ("tyInt" | "tyFloat", [w]) => (w.number() / 8, w.number() / 8),
        ("tyBool", _) => (1, 1),
        ("tyPtr" | "tyRef", _) => (8, 8),
        ("tyUnit", _) => (0, 1),
        ("tyArray", [of, n]) => {
            let (size, align) = layout(of, shapes);
            (n.form().1[0].number() * size, align)
        }
        ("tyStruct", [_, fields]) => whole(end(0, fields)),
        ("tyNamed", [head]) => match shapes[head.pair().0].form() {
            ("fields", [fields]) => whole(end(0, fields)),
            ("variants", [variants]) => whole(
                variants
                    .list_of("ttcons", "ttnil")
                    .into_iter()
                    .map(|v| end(1, v))
                    .fold((1, 1), |(most, wide), (e, align)| (most.max(e), wide.max(align))),
            ),
            _ => t.unknown("a shape"),
        },
        _ => t.unknown("a type of some size"),
    }
}

impl Linker<'_> {
    /// What a name at arguments is called: the name alone where there are none, and never as another.
    fn name(&mut self, base: &str, given: &Given) -> (String, bool) {
        let key = format!("{base} {} {}", list(given.types.clone()), list(given.dicts.clone()));
        if let Some(known) = self.names.get(&key) {
            return (known.clone(), false);
        }
        let shown = match self.renamed {
            Some((old, new)) if old == base => new,
            _ if base.starts_with('(') => "tuple",
            _ => base,
        };
        let tags: Vec<String> = given.types.iter().map(tag).collect();
        let first = if tags.is_empty() { shown.to_string() } else { format!("{shown}<{}>", tags.join(",")) };
        let (mut name, mut n) = (first.clone(), 1);
        while !self.taken.insert(name.clone()) {
            n += 1;
            name = format!("{first}#{n}");
        }
        self.names.insert(key, name.clone());
        (name, true)
    }

    fn function(&mut self, base: &str, given: Given) -> String {
        let (name, is_new) = self.name(base, &given);
        if is_new {
            self.wanted.push((name.clone(), base.to_string(), given));
        }
        name
    }

    fn read(&mut self, name: &str, base: &str, given: &Given) -> Term {
        let Some(f) = self.libraries.functions.get(base) else { return fail("a function that is in no library", base) };
        let mut locals = vec![];
        for local in f.field("locals").list() {
            let home = small(local.field("home").word());
            locals.push(node("local", [self.ty(local.field("ty"), given), word(&home)]));
        }
        let (items, mut at) = (f.field("body").list(), 0);
        let body = match items {
            [Json::Object(only)] if only[0].0 == "Foreign" => foreign(&only[0].1, &locals),
            _ => self.body(items, &mut at, given),
        };
        if at != items.len() && body.form().0 != "foreign" {
            fail::<()>("statements behind a function's body", base)
        }
        let item = node("fnItem", [number(0), word("lnil"), word(f.field("params").word()), list(locals), body]);
        node("fn-def", [word(name), item])
    }

    // ---- types

    fn ty(&mut self, t: &Json, given: &Given) -> Term {
        match t.form() {
            ("Int", w) => node("tyInt", [word(w.word())]),
            ("Float", w) => node("tyFloat", [word(w.word())]),
            ("Bool" | "Ptr" | "Unit", Json::Null) => word(&format!("ty{}", t.word())),
            ("Ref", of) => {
                let [_, mutability, to] = parts(of);
                let to = self.ty(to, given);
                node("tyRef", [word("erased"), word(&small(mutability.word())), to])
            }
            ("Array", of) => {
                let [of, n] = parts(of);
                let of = self.ty(of, given);
                node("tyArray", [of, node("lenLit", [length(n, given)])])
            }
            ("Param", i) => given.types.get(i.number()).unwrap_or_else(|| t.unknown("a type parameter")).clone(),
            ("Const", n) => node("tyConst", [word(n.word())]),
            ("Struct", of) => {
                let [name, fields] = parts(of);
                let fields = self.tys(fields, given);
                match name.word() {
                    "&[]" => node("tyStruct", [word("&[]"), of_list("tcons", "tnil", fields)]),
                    _ => {
                        let given = Given { types: fields.clone(), dicts: vec![] };
                        let shape = node("fields", [of_list("tcons", "tnil", fields)]);
                        let (name, is_new) = self.name(if name.word().is_empty() { "constant" } else { name.word() }, &given);
                        if is_new {
                            self.shapes.insert(name.clone(), shape);
                        }
                        node("tyNamed", [node("pair", [word(&name), word("lnil")])])
                    }
                }
            }
            ("Named", of) => {
                let [head, args] = parts(of);
                let types = self.tys(args, given);
                let name = self.declared(head.field("name").word(), types);
                node("tyNamed", [node("pair", [word(&name), word("lnil")])])
            }
            _ => t.unknown("a type"),
        }
    }

    fn tys(&mut self, all: &Json, given: &Given) -> Vec<Term> {
        all.list().iter().map(|t| self.ty(t, given)).collect()
    }

    fn declared(&mut self, base: &str, types: Vec<Term>) -> String {
        let given = Given { types, dicts: vec![] };
        let (name, is_new) = self.name(base, &given);
        if is_new {
            let Some(shape) = self.libraries.declared.get(base) else { return fail("a type that is in no library", base) };
            let shape = match shape.form() {
                ("Fields", fields) => node("fields", [of_list("tcons", "tnil", self.tys(fields, &given))]),
                ("Variants", variants) => {
                    let all = variants.list().iter().map(|v| of_list("tcons", "tnil", self.tys(v, &given))).collect();
                    node("variants", [of_list("ttcons", "ttnil", all)])
                }
                _ => shape.unknown("a shape"),
            };
            self.shapes.insert(name.clone(), shape);
        }
        name
    }

    // ---- what a call names

    fn dict(&mut self, d: &Json, given: &Given) -> Term {
        match d.form() {
            ("Given", i) => given.dicts.get(i.number()).unwrap_or_else(|| d.unknown("a dictionary parameter")).clone(),
            ("Impl", of) => {
                let [name, types, dicts] = parts(of);
                let types = self.tys(types, given);
                let dicts = dicts.list().iter().map(|d| self.dict(d, given)).collect();
                node("impl", [word(name.word()), list(types), list(dicts)])
            }
            _ => d.unknown("a dictionary"),
        }
    }

    fn callee(&mut self, c: &Json, given: &Given) -> String {
        let arguments = |linker: &mut Self, of: &Json| Given {
            types: linker.tys(of.field("types"), given),
            dicts: of.field("dicts").list().iter().map(|d| linker.dict(d, given)).collect(),
        };
        match c.form() {
            ("Fn", of) => {
                let [name, own] = parts(of);
                let own = arguments(self, own);
                self.function(name.word(), own)
            }
            ("Method", of) => {
                let [dict, k, own] = parts(of);
                let (dict, own) = (self.dict(dict, given), arguments(self, own));
                let ("impl", [name, types, dicts]) = dict.form() else { return dict.unknown("a dictionary") };
                let of_impl = |all: &Term, own: Vec<Term>| all.list().into_iter().cloned().chain(own).collect();
                let given = Given { types: of_impl(types, own.types), dicts: of_impl(dicts, own.dicts) };
                let methods = self.libraries.impls.get(name.word()).unwrap_or_else(|| fail("an impl that is in no library", name.word()));
                self.function(&methods[k.number()], given)
            }
            _ => c.unknown("a call"),
        }
    }

    // ---- code

    /// The statement at this place of the list, which has each statement before those within it.
    fn body(&mut self, items: &[Json], at: &mut usize, given: &Given) -> Term {
        let Some(item) = items.get(*at) else { return fail("a statement", "the body ends") };
        *at += 1;
        match item.form() {
            ("Seq", _) => {
                let first = self.body(items, at, given);
                let rest = self.body(items, at, given);
                node("seq", [first, rest])
            }
            (form @ ("Skip" | "Return" | "Unreachable"), _) => word(&small(form)),
            (form @ ("Block" | "Loop"), _) => {
                let inner = self.body(items, at, given);
                node(&small(form), [inner])
            }
            ("If", c) => {
                let c = self.operand(c, given);
                let yes = self.body(items, at, given);
                let no = self.body(items, at, given);
                node("if", [c, yes, no])
            }
            ("Switch", of) => {
                let [x, arms, has_default] = parts(of);
                let x = self.operand(x, given);
                let mut read = vec![];
                for keys in arms.list() {
                    let keys = list(keys.list().iter().map(|k| word(k.word())).collect());
                    read.push((keys, self.body(items, at, given)));
                }
                let last = match has_default {
                    Json::Bool(true) => node("default", [self.body(items, at, given)]),
                    _ => word("noDefault"),
                };
                node("switch", [x, read.into_iter().rev().fold(last, |rest, (keys, body)| node("arm", [keys, body, rest]))])
            }
            ("Exit", k) => node("exit", [word(k.word())]),
            ("Assign", of) => {
                let [p, value] = parts(of);
                let (p, value) = (self.place(p, given), self.value(value, given));
                node("assign", [p, value])
            }
            ("Call", of) => {
                let [callee, xs, p] = parts(of);
                let callee = self.callee(callee, given);
                let (xs, p) = (self.operands(xs, given), self.place(p, given));
                node("call", [node("direct", [node("fnRef", [word(&callee)])]), xs, p])
            }
            ("LendStatic", of) => {
                let [p, t, constant] = parts(of);
                let (p, t) = (self.place(p, given), self.ty(t, given));
                node("lendStatic", [p, t, lent(constant)])
            }
            _ => item.unknown("a statement"),
        }
    }

    fn place(&mut self, p: &Json, given: &Given) -> Term {
        let mut steps = vec![];
        for step in p.field("steps").list() {
            steps.push(match step.form() {
                ("Deref", to) => node("deref", [self.ty(to, given)]),
                ("Field", k) => node("field", [word(k.word())]),
                ("Variant", v) => node("variant", [word(v.word())]),
                _ => step.unknown("a step"),
            });
        }
        node("place", [word(p.field("local").word()), list(steps)])
    }

    fn operand(&mut self, x: &Json, given: &Given) -> Term {
        match x.form() {
            ("Copy", p) => node("copy", [self.place(p, given)]),
            ("Int", of) => node("int", [word(of.field("width").word()), word(of.field("value").word())]),
            ("Float", of) => node("float", [word(of.field("width").word()), word(of.field("bits").word())]),
            ("True" | "False" | "Unit", _) => word(&small(x.word())),
            (form @ ("SizeOf" | "AlignOf"), t) => {
                let t = self.ty(t, given);
                let (size, align) = layout(&t, &self.shapes);
                node("int", [number(64), number(if form == "SizeOf" { size } else { align })])
            }
            ("NumOf", of) => {
                let [w, t] = parts(of);
                match self.ty(t, given).form() {
                    ("tyConst", [n]) => node("int", [word(w.word()), word(n.word())]),
                    _ => x.unknown("a number"),
                }
            }
            _ => x.unknown("an operand"),
        }
    }

    fn operands(&mut self, xs: &Json, given: &Given) -> Term {
        list(xs.list().iter().map(|x| self.operand(x, given)).collect())
    }

    fn value(&mut self, value: &Json, given: &Given) -> Term {
        match value.form() {
            ("Opd", x) => node("rvOpd", [self.operand(x, given)]),
            ("Op2", of) => {
                let [o, x, y] = parts(of);
                let (x, y) = (self.operand(x, given), self.operand(y, given));
                node("op2", [operation(o), x, y])
            }
            ("Op1", of) => {
                let [o, x] = parts(of);
                node("op1", [operation(o), self.operand(x, given)])
            }
            ("AddrOf", p) => node("addrOf", [self.place(p, given)]),
            ("Aggregate", xs) => node("aggregate", [self.operands(xs, given)]),
            ("Repeat", of) => {
                let [x, n] = parts(of);
                node("repeat", [self.operand(x, given), length(n, given)])
            }
            _ => value.unknown("a value"),
        }
    }
}

/// How long an array is: a number, or that of a parameter.
fn length(n: &Json, given: &Given) -> Term {
    match n {
        Json::Number(n) => word(n),
        _ => match n.form() {
            ("Lit", n) => word(n.word()),
            ("Param", i) => match given.types.get(i.number()).map(Term::form) {
                Some(("tyConst", [n])) => n.clone(),
                _ => n.unknown("a length"),
            },
            _ => n.unknown("a length"),
        },
    }
}

/// An operation, with its signs and widths.
fn operation(o: &Json) -> Term {
    let plain = |part: &Json| match part {
        Json::Number(n) => word(n),
        _ => word(&small(part.word())),
    };
    match o.form() {
        (form, Json::Null) => word(&small(form)),
        (form, Json::List(all)) => Node(std::iter::once(word(&small(form))).chain(all.iter().map(plain)).collect()),
        (form, one) => node(&small(form), [plain(one)]),
    }
}

/// A constant in memory of its own.
fn lent(constant: &Json) -> Term {
    match constant.form() {
        ("Int", of) => node("int", [word(of.field("width").word()), word(of.field("value").word())]),
        ("Float", of) => node("float", [word(of.field("width").word()), word(of.field("bits").word())]),
        ("Bool", Json::Bool(b)) => word(if *b { "true" } else { "false" }),
        ("Unit", _) => word("unit"),
        ("Ints", of) => {
            let width = of.field("width").word();
            let all = of.field("values").list().iter().map(|n| node("int", [word(width), word(n.word())])).collect();
            node("parts", [list(all)])
        }
        ("Parts", all) => node("parts", [list(all.list().iter().map(lent).collect())]),
        ("Repeat", of) => {
            let [one, n] = parts(of);
            node("repeat", [lent(one), word(n.word())])
        }
        ("Here", n) => node("here", [word(n.word())]),
        _ => constant.unknown("a constant"),
    }
}

/// A function of C: its symbol, and the signs of its result and of what it is given, where those are integers
/// or lists, whose length is one.
fn foreign(of: &Json, locals: &[Term]) -> Term {
    let is_signed = |local: &Term| matches!(local.form().1[0].form().0, "tyInt" | "tyStruct");
    let signs = of.field("signs").list().iter().zip(locals).filter(|(_, l)| is_signed(l)).map(|(s, _)| word(&small(s.word()))).collect();
    node("foreign", [word(of.field("symbol").word()), list(signs)])
}
