//! Types of MIR: how they are read, how large they are there (the logic's Prog/Memory.antt), what they are
//! called in C and how they are defined there. An integer is its bits, so it is unsigned; what reads it as
//! signed says so (operations.rs).
use crate::names::{base, safe, Names};
use crate::term::{fail, Term};
use std::collections::{BTreeMap, BTreeSet};
use std::fmt::Write;

#[derive(Clone, PartialEq, Eq, PartialOrd, Ord, Debug)]
pub enum Ty {
    Int(u64),
    Bool,
    Float,
    Ptr,
    /// Whether it may be written through, and what it points to.
    Ref(bool, Box<Ty>),
    Array(Box<Ty>, u64),
    Unit,
    Slice(bool, Box<Ty>),
    Named(String),
}

#[derive(Clone, PartialEq)]
pub enum Shape {
    Fields(Vec<Ty>),
    Variants(Vec<Vec<Ty>>),
}

pub fn ty(t: &Term) -> Ty {
    match t.form() {
        ("tyInt", [w]) if [8, 16, 32, 64].contains(&w.number()) => Ty::Int(w.number()),
        ("tyBool", []) => Ty::Bool,
        ("tyFloat", [f]) if f.number() == 64 => Ty::Float,
        ("tyPtr", []) => Ty::Ptr,
        ("tyRef", [_, mutability, to]) => Ty::Ref(mutability.word() == "mut", Box::new(ty(to))),
        ("tyArray", [of, n]) => match n.form() {
            ("lenLit", [n]) => Ty::Array(Box::new(ty(of)), n.number()),
            _ => n.unknown("an array's length"),
        },
        ("tyUnit", []) => Ty::Unit,
        ("tyStruct", [name, fields]) if name.word() == "&[]" => match &tys(fields)[..] {
            [Ty::Ref(mutable, of), Ty::Int(64)] => Ty::Slice(*mutable, of.clone()),
            _ => t.unknown("a slice"),
        },
        ("tyNamed", [head]) => Ty::Named(head.pair().0.to_string()),
        _ => t.unknown("a type"),
    }
}

pub fn tys(t: &Term) -> Vec<Ty> {
    t.list_of("tcons", "tnil").into_iter().map(ty).collect()
}

pub fn shape(t: &Term) -> Shape {
    match t.form() {
        ("fields", [fields]) => Shape::Fields(tys(fields)),
        ("variants", [variants]) => Shape::Variants(variants.list_of("ttcons", "ttnil").into_iter().map(tys).collect()),
        _ => t.unknown("a shape"),
    }
}

/// A symbol as a name in C; of one at types, with the types behind it.
pub fn c_name(symbol: &str) -> String {
    let plain: String = symbol.replace("::", "_").chars().map(|c| if c.is_ascii_alphanumeric() { c } else { '_' }).collect();
    if symbol.contains(['<', '+', '#']) {
        plain.split('_').filter(|word| !word.is_empty()).collect::<Vec<_>>().join("_")
    } else {
        plain
    }
}

impl Ty {
    /// A word for the type, within a name and as the name of a struct.
    pub fn tag(&self) -> String {
        match self {
            Ty::Int(w) => format!("u{w}"),
            Ty::Bool => "bool".into(),
            Ty::Float => "f64".into(),
            Ty::Ptr => "pointer".into(),
            Ty::Ref(false, to) => format!("ref_{}", to.tag()),
            Ty::Ref(true, to) => format!("mut_{}", to.tag()),
            Ty::Array(of, n) => format!("array_{}_{n}", of.tag()),
            Ty::Unit => "unit".into(),
            Ty::Slice(false, of) => format!("list_{}", of.tag()),
            Ty::Slice(true, of) => format!("mut_list_{}", of.tag()),
            Ty::Named(symbol) => c_name(symbol),
        }
    }

    pub fn c(&self) -> String {
        match self {
            Ty::Int(w) => format!("uint{w}_t"),
            Ty::Bool => "bool".into(),
            Ty::Float => "double".into(),
            Ty::Ptr => "unsigned char *".into(),
            Ty::Ref(mutable, to) => match (mutable, to.c()) {
                (true, of) => format!("{of} *"),
                (false, of) if of.ends_with('*') => format!("{of}const *"),
                (false, of) => format!("const {of} *"),
            },
            Ty::Unit => "void".into(),
            Ty::Array(..) | Ty::Slice(..) | Ty::Named(_) => self.tag(),
        }
    }

    pub fn declared(&self, name: &str) -> String {
        let c = self.c();
        if c.ends_with('*') {
            format!("{c}{name}")
        } else {
            format!("{c} {name}")
        }
    }

    /// What a slice's first field is.
    pub fn pointer(&self) -> Ty {
        match self {
            Ty::Slice(mutable, of) => Ty::Ref(*mutable, of.clone()),
            _ => fail("not a slice", &self.tag()),
        }
    }
}

/// The structs and enums of the program, and the text that defines those that are used.
pub struct Types<'a> {
    pub shapes: BTreeMap<String, Shape>,
    pub names: &'a Names,
    known: BTreeSet<Ty>,
    ahead: String,
    defined: String,
    /// What is reached by a count of bytes: its size has to be MIR's.
    pub strided: BTreeSet<Ty>,
}

impl<'a> Types<'a> {
    pub fn new(shapes: BTreeMap<String, Shape>, names: &'a Names) -> Types<'a> {
        let (known, strided) = (BTreeSet::new(), BTreeSet::new());
        Types { shapes, names, known, ahead: String::new(), defined: String::new(), strided }
    }

    pub fn shape(&self, symbol: &str) -> &Shape {
        self.shapes.get(symbol).unwrap_or_else(|| fail("a type that no table has", symbol))
    }

    pub fn variants(&self, t: &Ty) -> Option<&Vec<Vec<Ty>>> {
        match t {
            Ty::Named(symbol) => match self.shape(symbol) {
                Shape::Variants(variants) => Some(variants),
                Shape::Fields(_) => None,
            },
            _ => None,
        }
    }

    /// A type of no bytes, or a reference to one, which nothing can read or write through: nothing of it is
    /// written.
    pub fn empty(&self, t: &Ty) -> bool {
        match t {
            Ty::Unit => true,
            Ty::Ref(_, to) => self.empty(to),
            Ty::Array(of, _) => self.empty(of),
            Ty::Named(symbol) => match self.shape(symbol) {
                Shape::Fields(fields) => fields.iter().all(|f| self.empty(f)),
                Shape::Variants(_) => false,
            },
            _ => false,
        }
    }

    /// Size and alignment in MIR.
    pub fn layout(&self, t: &Ty) -> (u64, u64) {
        let up = |align: u64, end: u64| end.div_ceil(align) * align;
        let end = |from: u64, fields: &[Ty]| {
            fields.iter().fold((from, 1), |(end, most), f| {
                let (size, align) = self.layout(f);
                (up(align, end) + size, most.max(align))
            })
        };
        match t {
            Ty::Int(w) => (w / 8, w / 8),
            Ty::Bool => (1, 1),
            Ty::Float | Ty::Ptr | Ty::Ref(..) => (8, 8),
            Ty::Array(of, n) => (n * self.layout(of).0, self.layout(of).1),
            Ty::Unit => (0, 1),
            Ty::Slice(..) => (16, 8),
            Ty::Named(symbol) => {
                let (end, align) = match self.shape(symbol) {
                    Shape::Fields(fields) => end(0, fields),
                    Shape::Variants(variants) => {
                        variants.iter().map(|v| end(1, v)).fold((1, 1), |(end, most), (e, align)| (end.max(e), most.max(align)))
                    }
                };
                (up(align, end), align)
            }
        }
    }

    /// Where in a value of one type one of another lies that many bytes behind its beginning: the path to it in C.
    pub fn path(&self, t: &Ty, bytes: u64, wanted: &Ty) -> Option<String> {
        if bytes == 0 && t == wanted {
            return Some(String::new());
        }
        match t {
            Ty::Array(of, n) => {
                let each = self.layout(of).0.max(1);
                let k = (bytes / each).min(n.saturating_sub(1));
                Some(format!(".e[{k}]{}", self.path(of, bytes - k * each, wanted)?))
            }
            Ty::Named(symbol) => match self.shape(symbol) {
                Shape::Fields(fields) => {
                    let (mut end, mut found) = (0u64, None);
                    for (k, f) in fields.iter().enumerate() {
                        let (size, align) = self.layout(f);
                        let at = end.div_ceil(align) * align;
                        end = at + size;
                        let path = if found.is_none() && at <= bytes && bytes < end { self.path(f, bytes - at, wanted) } else { None };
                        found = found.or(path.map(|path| format!(".{}{path}", self.field(symbol, k))));
                    }
                    found
                }
                Shape::Variants(_) => None,
            },
            _ => None,
        }
    }

    /// The name of a struct's field, by its place.
    pub fn field(&self, symbol: &str, k: usize) -> String {
        self.names.fields.get(base(symbol)).and_then(|names| names.get(k)).map_or(format!("f{k}"), |name| safe(name))
    }

    /// The name of a variant, and of one of its fields by its place behind the tag.
    pub fn variant(&self, symbol: &str, v: usize) -> String {
        self.names.variants.get(base(symbol)).and_then(|all| all.get(v)).map_or(format!("v{v}"), |(name, _)| safe(name))
    }

    pub fn variant_field(&self, symbol: &str, v: usize, k: usize) -> String {
        let named = self.names.variants.get(base(symbol)).and_then(|all| all.get(v)).and_then(|(_, fields)| fields.get(k));
        named.map_or(format!("f{k}"), |name| safe(name))
    }

    /// The constant that stands for a variant's tag.
    pub fn variant_tag(&self, symbol: &str, v: usize) -> String {
        format!("{}_{}", c_name(symbol), self.variant(symbol, v))
    }

    /// Writes the type's definition behind those that it needs.
    pub fn define(&mut self, t: &Ty) {
        if self.empty(t) || !self.known.insert(t.clone()) {
            return;
        }
        let name = t.tag();
        match t {
            Ty::Int(_) | Ty::Bool | Ty::Float | Ty::Ptr | Ty::Unit => {}
            Ty::Ref(_, to) => self.define(to),
            Ty::Array(of, n) => {
                self.define(of);
                // an array of no element has one that nothing reads, since C has none
                let element = of.declared(&format!("e[{}]", n.max(&1)));
                self.open(&name, &format!("    {element};\n"), None);
            }
            Ty::Slice(_, of) => {
                self.define(of);
                let pointer = t.pointer().declared("at");
                self.open(&name, &format!("    {pointer};\n    uint64_t length;\n"), None);
            }
            Ty::Named(symbol) => match self.shape(symbol).clone() {
                Shape::Fields(fields) => {
                    fields.iter().for_each(|f| self.define(f));
                    let members = self.members(&fields, |types, k| types.field(symbol, k), "    ");
                    self.open(&name, &members, Some(symbol));
                }
                Shape::Variants(variants) => {
                    variants.iter().flatten().for_each(|f| self.define(f));
                    let members = self.enum_members(symbol, &variants);
                    let tags: Vec<String> = (0..variants.len()).map(|v| self.variant_tag(symbol, v)).collect();
                    writeln!(self.ahead, "enum {{ {} }};", tags.join(", ")).unwrap();
                    self.open(&name, &members, Some(symbol));
                }
            },
        }
    }

    fn open(&mut self, name: &str, members: &str, symbol: Option<&str>) {
        writeln!(self.ahead, "typedef struct {name} {name};").unwrap();
        if let Some(comment) = symbol.map(|symbol| self.names.comment(symbol)) {
            self.defined += &comment;
        }
        writeln!(self.defined, "struct {name} {{\n{members}}};\n").unwrap();
    }

    fn members(&self, fields: &[Ty], name: impl Fn(&Types, usize) -> String, indent: &str) -> String {
        let mut text = String::new();
        for (k, f) in fields.iter().enumerate().filter(|(_, f)| !self.empty(f)) {
            writeln!(text, "{indent}{};", f.declared(&name(self, k))).unwrap();
        }
        text
    }

    /// Of an enum: its tag, and for each variant that has fields a struct of them. They lie side by side and not
    /// in a union, whose copies GCC makes in memory, byte for byte, where those of a struct stay in registers.
    fn enum_members(&self, symbol: &str, variants: &[Vec<Ty>]) -> String {
        let mut text = "    uint8_t tag;\n".to_string();
        for (v, fields) in variants.iter().enumerate().filter(|(_, fields)| !fields.iter().all(|f| self.empty(f))) {
            let members = self.members(fields, |types, k| types.variant_field(symbol, v, k), "        ");
            writeln!(text, "    struct {{\n{members}    }} {};", self.variant(symbol, v)).unwrap();
        }
        text
    }

    /// All definitions, and the sizes that are counted on.
    pub fn text(&self) -> String {
        let mut text = format!("{}\n{}", self.ahead, self.defined);
        for t in &self.strided {
            writeln!(text, "_Static_assert(sizeof({}) == {}, \"the bytes that are counted by\");", t.c(), self.layout(t).0).unwrap();
        }
        text
    }
}
