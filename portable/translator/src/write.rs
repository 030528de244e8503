//! A function's code as statements of C. Each statement has one effect; an operation that rounds is a
//! statement of its own.
use crate::code::{Expr, Function, Stmt};
use crate::flow::{own, Ready, Scope};
use crate::names::{base, safe, Names};
use crate::operations::{Helpers, Op2};
use crate::term::fail;
use crate::types::{c_name, Ty};
use std::collections::BTreeSet;

/// The names of a function's locals: the source's, where they are found and no two are alike, else r, a1 ..
/// for parameters and v2 .. for others.
pub fn local_names(names: &Names, symbol: &str, f: &Function, globals: &BTreeSet<String>) -> Vec<String> {
    let (params, bound) = names.functions.get(base(symbol)).cloned().unwrap_or_default();
    let mut all = vec!["result".to_string()];
    for i in 1..f.locals.len() {
        let number = if i <= f.params { format!("a{i}") } else { format!("v{i}") };
        let source = match (i <= f.params, f.copy_of(i)) {
            (true, _) => params.get(i - 1).filter(|_| params.len() == f.params),
            (_, Some(parameter)) => params.get(parameter - 1),
            (_, None) => bound.get(i - f.params - f.copies() - 1),
        };
        let name = source.filter(|name| !name.is_empty()).map_or(number.clone(), |name| safe(name));
        let taken = |name: &String| all.contains(name) || globals.contains(name);
        // a name that is bound twice has its number behind it the second time
        all.push(if taken(&name) { format!("{name}_{i}") } else { name });
    }
    all
}

pub struct Writer<'r, 'a> {
    pub ready: &'r Ready<'a>,
    pub names: Vec<String>,
    pub tables: &'r [String],
    pub helpers: &'r mut Helpers,
    pub strided: &'r mut BTreeSet<Ty>,
    text: String,
    depth: usize,
    enclosing: Vec<Enclosing>,
    labels: usize,
    used: BTreeSet<usize>,
}

/// A block or a loop that is being written.
struct Enclosing {
    is_loop: bool,
    number: usize,
    ends_in_loop: bool,
    left: bool,
    jumped_to: bool,
}

/// The text as an operand: in brackets, unless it is a name, a number, a call, a part of one, or a cast of
/// such.
fn atom(text: String) -> String {
    if is_atom(&text) {
        text
    } else {
        format!("({text})")
    }
}

fn is_atom(text: &str) -> bool {
    let number_cast =
        text.strip_prefix("(uint").or(text.strip_prefix("(double")).and_then(|rest| rest.split_once(')')).map(|(_, rest)| rest);
    match number_cast {
        Some(rest) => is_atom(rest) || rest.starts_with('(') && whole_call(&format!("f{rest}")),
        None => text.chars().all(|c| c.is_ascii_alphanumeric() || "_.[]>-".contains(c)) && !text.starts_with('-') || whole_call(text),
    }
}

/// Whether a text is one name with its arguments behind it.
fn whole_call(text: &str) -> bool {
    let Some(open) = text.find('(') else { return false };
    let mut depth = 0;
    let name = text[..open].chars().all(|c| c.is_ascii_alphanumeric() || c == '_');
    let closes = text.char_indices().find(|(_, c)| {
        depth += i32::from(*c == '(') - i32::from(*c == ')');
        *c == ')' && depth == 0
    });
    name && open > 0 && closes.is_some_and(|(i, _)| i + 1 == text.len())
}

pub fn float(bits: u64) -> String {
    let x = f64::from_bits(bits);
    if !x.is_finite() {
        return fail("a constant that is not finite", &x.to_string());
    }
    if x == x.trunc() && x.abs() < 1e15 {
        return format!("{x:.1}");
    }
    let (sign, exponent, fraction) = (bits >> 63, (bits >> 52 & 2047) as i64, bits & ((1 << 52) - 1));
    let (lead, power) = if exponent == 0 { (0, -1022) } else { (1, exponent - 1023) };
    format!("{}0x{lead}.{fraction:013x}p{power:+}", if sign == 1 { "-" } else { "" })
}

impl<'r, 'a> Writer<'r, 'a> {
    pub fn new(
        ready: &'r Ready<'a>,
        names: Vec<String>,
        tables: &'r [String],
        helpers: &'r mut Helpers,
        strided: &'r mut BTreeSet<Ty>,
    ) -> Self {
        let (text, enclosing, used) = (String::new(), vec![], BTreeSet::new());
        Writer { ready, names, tables, helpers, strided, text, depth: 1, enclosing, labels: 0, used }
    }

    /// The statements, and the locals that they name.
    pub fn written(mut self) -> (String, BTreeSet<usize>) {
        let ready = self.ready;
        self.statements(&ready.code);
        (self.text, self.used)
    }

    fn scope(&self) -> &'r Scope<'a> {
        &self.ready.scope
    }

    fn ty(&self, e: &Expr) -> Ty {
        self.scope().ty(e)
    }

    fn empty(&self, t: &Ty) -> bool {
        self.scope().types.empty(t)
    }

    fn line(&mut self, text: &str) {
        self.text += &"    ".repeat(self.depth);
        self.text += text;
        self.text += "\n";
    }

    // ---- values

    /// A part of a place, by its name.
    fn part(&mut self, of: &Expr, name: &str) -> String {
        if self.scope().lent(of) && matches!(self.ty(of), Ty::Named(_)) {
            fail::<()>("a field of a struct that a caller may have as another type", name)
        }
        match of {
            Expr::Deref(p, _) => {
                let pointer = self.pointer(p, &self.ty(of));
                format!("{}->{name}", atom(pointer))
            }
            _ => format!("{}.{name}", atom(self.value(of))),
        }
    }

    /// A pointer to a value of that type.
    fn pointer(&mut self, p: &Expr, to: &Ty) -> String {
        let text = self.value(p);
        match self.ty(p) {
            Ty::Ref(_, of) if *of == *to => text,
            Ty::Ref(mutable, of) if matches!(&*of, Ty::Array(e, _) if **e == *to) => {
                format!("({})({}void *){}", Ty::Ref(mutable, Box::new(to.clone())).c(), if mutable { "" } else { "const " }, atom(text))
            }
            Ty::Ptr => {
                self.strided.insert(to.clone());
                format!("({} *)(void *){}", to.c(), atom(text))
            }
            other => fail("a pointer to another type", &format!("{} {}", other.tag(), to.tag())),
        }
    }

    pub fn value(&mut self, e: &Expr) -> String {
        match e {
            Expr::Local(i) => {
                self.used.insert(*i);
                self.names[*i].clone()
            }
            Expr::Field(a, k) => {
                let name = match (self.ty(a), k) {
                    (Ty::Slice(..), 0) => "at".to_string(),
                    (Ty::Slice(..), _) => "length".to_string(),
                    (Ty::Named(symbol), k) => self.scope().types.field(&symbol, *k),
                    (t, _) => fail("a field", &t.tag()),
                };
                self.part(a, &name)
            }
            Expr::Tag(a) => self.part(a, "tag"),
            Expr::Variant(a, v, k) => match self.ty(a) {
                Ty::Named(symbol) => {
                    let types = self.scope().types;
                    self.part(a, &format!("{}.{}", types.variant(&symbol, *v), types.variant_field(&symbol, *v, *k)))
                }
                t => fail("a variant", &t.tag()),
            },
            Expr::Deref(p, t) => {
                let pointer = self.pointer(p, t);
                format!("*{}", atom(pointer))
            }
            Expr::Element(a, i, _) => {
                let (array, i) = (self.part(a, "e"), self.value(i));
                format!("{array}[{i}]")
            }
            Expr::Listed(p, i, _) => {
                let (list, i) = (self.value(p), self.value(i));
                format!("{}[{i}]", atom(list))
            }
            Expr::Int(8 | 16, n) => n.to_string(),
            Expr::Int(32, n) => format!("{n}u"),
            Expr::Int(_, n) => format!("{n}ull"),
            Expr::Float(bits) => float(*bits),
            Expr::Bool(b) => b.to_string(),
            Expr::Unit => String::new(),
            Expr::Op1(o, a) => {
                let (t, a) = (self.ty(a), atom(self.value(a)));
                o.text(&a, &t, self.helpers).unwrap_or_else(|| fail("an operation", &format!("{o:?} {}", t.tag())))
            }
            Expr::Op2(o, a, b) => self.op2(*o, a, b),
            Expr::AddrOf(p) => match &**p {
                Expr::Deref(q, t) => match &**q {
                    Expr::AddrOf(array) if matches!(self.ty(array), Ty::Array(of, _) if *of == *t) => self.part(array, "e"),
                    _ => self.pointer(q, t),
                },
                _ => format!("&{}", self.value(p)),
            },
            Expr::Aggregate(xs, t) => self.aggregate(xs, t),
            Expr::Table(k, _) => self.tables[*k].clone(),
            Expr::Lent(_, t) => fail("a constant that is no table", &t.tag()),
        }
    }

    fn op2(&mut self, o: Op2, a: &Expr, b: &Expr) -> String {
        let (mut t, u) = (self.ty(a), self.ty(b));
        let (mut x, y) = (atom(self.value(a)), atom(self.value(b)));
        if o == Op2::Offset && matches!(t, Ty::Ref(..)) {
            (x, t) = (format!("(unsigned char *){x}"), Ty::Ptr);
        }
        if o != Op2::Offset && t != u {
            fail::<()>("operands of two types", &format!("{o:?} {} {}", t.tag(), u.tag()))
        }
        if let (Expr::Tag(of), Expr::Int(8, v), Op2::Eq | Op2::Ne) = (a, b, o) {
            if let Ty::Named(symbol) = self.ty(of) {
                let tag = self.scope().types.variant_tag(&symbol, *v as usize);
                return format!("{x} {} {tag}", if o == Op2::Eq { "==" } else { "!=" });
            }
        }
        o.text(&x, &y, &t, self.helpers).unwrap_or_else(|| fail("an operation", &format!("{o:?} {}", t.tag())))
    }

    /// A value where one of another type is wanted: a reference and a raw pointer stand for one another.
    fn fitted(&mut self, e: &Expr, to: &Ty) -> String {
        let (from, text) = (self.ty(e), self.value(e));
        match (&from, to) {
            _ if from == *to => text,
            (Ty::Ref(_, a), Ty::Ref(false, b)) if a == b => text,
            (Ty::Ref(_, a), Ty::Ref(_, b)) if matches!(&**a, Ty::Array(of, _) if of == b) => match text.strip_prefix('&') {
                Some(array) => format!("{}.e", atom(array.to_string())),
                None => format!("{}->e", atom(text)),
            },
            // nothing lies behind a reference to what is empty, and C has no such reference
            (Ty::Ref(_, a), Ty::Ptr) if self.empty(a) => "0".into(),
            (Ty::Ref(..), Ty::Ptr) => format!("(unsigned char *){}", atom(text)),
            (Ty::Ptr | Ty::Ref(..), Ty::Ref(..)) => format!("({})(void *){}", to.c(), atom(text)),
            (Ty::Slice(true, a), Ty::Slice(false, b)) if a == b => format!("({}){{{text}.at, {text}.length}}", to.c()),
            _ => fail("a value of another type", &format!("{} for {}", from.tag(), to.tag())),
        }
    }

    fn aggregate(&mut self, xs: &[Expr], t: &Ty) -> String {
        let types = self.scope().types;
        let variant = types.variants(t).map(|variants| match xs.first() {
            Some(Expr::Int(8, v)) if (*v as usize) < variants.len() => *v as usize,
            _ => fail("a tag", &t.tag()),
        });
        let wanted: Vec<Ty> = match (t, variant) {
            (Ty::Slice(..), _) => vec![t.pointer(), Ty::Int(64)],
            (Ty::Array(of, n), _) => vec![(**of).clone(); *n as usize],
            (Ty::Named(symbol), Some(v)) => {
                std::iter::once(Ty::Int(8)).chain(types.variants(&Ty::Named(symbol.clone())).unwrap()[v].iter().cloned()).collect()
            }
            (Ty::Named(symbol), None) => match types.shape(symbol) {
                crate::types::Shape::Fields(fields) => fields.clone(),
                crate::types::Shape::Variants(_) => unreachable!("it has variants"),
            },
            _ => fail("an aggregate", &t.tag()),
        };
        if wanted.len() != xs.len() {
            fail::<()>("an aggregate's length", &t.tag())
        }
        let mut parts: Vec<String> = xs
            .iter()
            .zip(&wanted)
            .filter(|(_, w)| !self.empty(w))
            .map(|(x, w)| (x.clone(), w.clone()))
            .collect::<Vec<_>>()
            .iter()
            .map(|(x, w)| self.fitted(x, w))
            .collect();
        if parts.is_empty() {
            parts.push("0".into());
        }
        if let (Some(v), Ty::Named(symbol)) = (variant, t) {
            parts[0] = types.variant_tag(symbol, v);
        }
        let (c, list) = (t.c(), parts.join(", "));
        match (t, variant) {
            (Ty::Array(..), _) => format!("({c}){{{{{list}}}}}"),
            (_, Some(_)) if parts.len() == 1 => format!("({c}){{.tag = {list}}}"),
            (Ty::Named(symbol), Some(v)) => {
                format!("({c}){{.tag = {}, .{} = {{{}}}}}", parts[0], types.variant(symbol, v), parts[1..].join(", "))
            }
            _ => format!("({c}){{{list}}}"),
        }
    }

    fn call(&mut self, name: &str, xs: &[Expr]) -> (String, Ty) {
        let Some(f) = self.scope().program.functions.get(name) else { return fail("a function that is not there", name) };
        if xs.len() != f.params {
            fail::<()>("a call's arguments", name)
        }
        let args: Vec<String> = xs
            .iter()
            .zip(&f.locals[1..])
            .filter(|(_, t)| !self.empty(t))
            .map(|(x, t)| (x.clone(), t.clone()))
            .collect::<Vec<_>>()
            .iter()
            .map(|(x, t)| self.fitted(x, t))
            .collect();
        (format!("{}({})", c_name(name), args.join(", ")), f.locals[0].clone())
    }

    // ---- statements

    /// Writes statements up to one that the code does not come past, and tells whether it comes past them
    /// all.
    fn statements(&mut self, code: &[Stmt]) -> bool {
        let result = self.scope().locals[0].clone();
        for (i, s) in code.iter().enumerate() {
            let returned = matches!(code.get(i + 1), Some(Stmt::Return)) && own(s).1 == Some(&Expr::Local(0)) && !self.empty(&result);
            let value = match s {
                Stmt::Assign(_, value) if returned && !self.scope().lent(value) => Some(self.fitted(value, &result)),
                Stmt::Call(_, f, xs) if returned => Some(self.call(f, xs).0),
                _ => None,
            };
            if let Some(text) = value {
                self.line(&format!("return {text};"));
                return false;
            }
            if !self.statement(s) {
                return false;
            }
        }
        true
    }

    fn inner(&mut self, code: &[Stmt]) -> bool {
        self.depth += 1;
        let past = self.statements(code);
        self.depth -= 1;
        past
    }

    fn is_read(&self, x: usize) -> bool {
        fn read(code: &[Stmt], x: usize) -> bool {
            code.iter().any(|s| {
                let (values, target) = own(s);
                let named = |e: &Expr| e.any(&mut |e| *e == Expr::Local(x));
                values.into_iter().any(named)
                    || target.is_some_and(|p| p.base() != Some(x) && named(p))
                    || crate::flow::inner(s).into_iter().any(|c| read(c, x))
            })
        }
        read(&self.ready.code, x)
    }

    /// Writes a statement, and tells whether the code comes past it.
    fn statement(&mut self, s: &Stmt) -> bool {
        match s {
            Stmt::Unreachable => {
                self.line("for (;;) {");
                self.line("}");
                false
            }
            Stmt::Return => {
                let text = if self.empty(&self.scope().locals[0].clone()) {
                    "return;".into()
                } else {
                    format!("return {};", self.value(&Expr::Local(0)))
                };
                self.line(&text);
                false
            }
            Stmt::Exit(k) => {
                self.exit(*k);
                false
            }
            Stmt::Assign(p, value) => {
                self.assign(p, value);
                true
            }
            Stmt::Repeat(p, x, n) => {
                let Ty::Array(of, _) = self.ty(p) else { return fail("an array", &self.ty(p).tag()) };
                if !self.empty(&of) {
                    let (given, to) = (self.fitted(x, &of), self.part(p, "e[n_]"));
                    let loop_head = format!("for (size_t n_ = 0; n_ < {n}; n_++)");
                    if x.is_constant() {
                        self.line(&loop_head);
                        self.line(&format!("    {to} = {given};"));
                    } else {
                        // the operand is read once
                        self.line("{");
                        self.line(&format!("    {} = {given};", of.declared("given_")));
                        self.line(&format!("    {loop_head}"));
                        self.line(&format!("        {to} = given_;"));
                        self.line("}");
                    }
                }
                true
            }
            Stmt::Call(p, f, xs) => {
                let (text, t) = self.call(f, xs);
                if self.empty(&t) {
                    self.line(&format!("{text};"));
                } else if matches!(p, Expr::Local(x) if *x != 0 && !self.is_read(*x)) {
                    self.line(&format!("(void){text};"));
                } else if p.base().is_some() {
                    let to = self.value(p);
                    self.line(&format!("{to} = {text};"));
                } else {
                    // the place is looked for behind the call
                    let to = self.value(p);
                    self.line("{");
                    self.line(&format!("    {} = {text};", t.declared("given_")));
                    self.line(&format!("    {to} = given_;"));
                    self.line("}");
                }
                true
            }
            Stmt::If(c, yes, no) => {
                let text = self.value(c);
                if yes.is_empty() {
                    self.line(&format!("if (!{}) {{", atom(text)));
                    self.inner(no);
                    self.line("}");
                    return true;
                }
                self.line(&format!("if ({text}) {{"));
                let mut past = self.inner(yes) || no.is_empty();
                if !no.is_empty() {
                    self.line("} else {");
                    past |= self.inner(no);
                }
                self.line("}");
                past
            }
            Stmt::Switch(x, arms) => self.switch(x, arms),
            Stmt::Block(code) => {
                self.enter(false, matches!(code.last(), Some(Stmt::Loop(_))));
                let past = self.statements(code);
                let block = self.enclosing.pop().expect("the block that was entered");
                if block.jumped_to {
                    self.line(&format!("end{}: ;", block.number));
                }
                past || block.left
            }
            Stmt::Loop(code) => {
                let code = match (&code[..], self.enclosing.last()) {
                    // a test that leaves the block that ends in this loop
                    ([Stmt::If(c, yes, no), rest @ ..], Some(block))
                        if block.ends_in_loop && yes.is_empty() && no[..] == [Stmt::Exit(1)] =>
                    {
                        let text = self.value(c);
                        self.line(&format!("while ({text}) {{"));
                        self.enclosing.last_mut().expect("the block").left = true;
                        rest
                    }
                    (all, _) => {
                        self.line("for (;;) {");
                        all
                    }
                };
                self.enter(true, false);
                self.inner(code);
                let turn = self.enclosing.pop().expect("the loop that was entered");
                if turn.jumped_to {
                    self.line(&format!("next{}: ;", turn.number));
                }
                self.line("}");
                false
            }
        }
    }

    fn switch(&mut self, x: &Expr, arms: &[(Vec<u64>, Vec<Stmt>)]) -> bool {
        if let [(keys, first), (_, last)] = arms {
            if let ([k], true) = (&keys[..], first.is_empty()) {
                let Ty::Int(w) = self.ty(x) else { return fail("a switch", &self.ty(x).tag()) };
                let text = self.op2(Op2::Ne, x, &Expr::Int(w, *k));
                self.line(&format!("if ({text}) {{"));
                self.inner(last);
                self.line("}");
                return true;
            }
        }
        let (mut word, mut past) = ("", false);
        for (keys, code) in arms {
            let tests: Vec<String> = keys.iter().map(|k| self.key(x, *k)).collect();
            match (tests.is_empty(), word) {
                // one arm alone is run
                (true, "") => return self.statements(code),
                (true, _) => self.line("} else {"),
                (false, _) => self.line(&format!("{word}if ({}) {{", tests.join(" || "))),
            }
            past |= self.inner(code);
            word = "} else ";
        }
        self.line("}");
        past
    }

    fn key(&mut self, x: &Expr, k: u64) -> String {
        let Ty::Int(w) = self.ty(x) else { return fail("a switch", &self.ty(x).tag()) };
        self.op2(Op2::Eq, x, &Expr::Int(w, k))
    }

    fn assign(&mut self, p: &Expr, value: &Expr) {
        let t = self.ty(p);
        if self.empty(&t) {
            return;
        }
        let (to_lent, from_lent) = (self.scope().lent(p), self.scope().lent(value));
        if !to_lent && !from_lent {
            let (to, text) = (self.value(p), self.fitted(value, &t));
            return self.line(&format!("{to} = {text};"));
        }
        if to_lent && from_lent {
            fail::<()>("a struct from one lent list to another", &t.tag())
        }
        let (to, text) = (self.address(p), self.fitted(value, &t));
        if from_lent || value.is_place() {
            let from = self.address(value);
            return self.line(&format!("memcpy({to}, {from}, sizeof({}));", t.c()));
        }
        self.line("{");
        self.line(&format!("    {} = {text};", t.declared("given_")));
        self.line(&format!("    memcpy({to}, &given_, sizeof given_);"));
        self.line("}");
    }

    fn address(&mut self, p: &Expr) -> String {
        match p {
            Expr::Deref(q, _) => self.value(q),
            _ => format!("&{}", self.value(p)),
        }
    }

    fn enter(&mut self, is_loop: bool, ends_in_loop: bool) {
        self.labels += 1;
        self.enclosing.push(Enclosing { is_loop, number: self.labels, ends_in_loop, left: false, jumped_to: false });
    }

    /// Out of k blocks and loops and to the end of the next: of a loop, that is its next turn.
    fn exit(&mut self, k: usize) {
        let at = self.enclosing.len() - 1 - k;
        let innermost = self.enclosing.iter().rposition(|s| s.is_loop);
        let to = &mut self.enclosing[at];
        to.left = true;
        let text = if to.is_loop && innermost == Some(at) {
            "continue;".to_string()
        } else if to.ends_in_loop && innermost == Some(at + 1) {
            "break;".to_string()
        } else {
            to.jumped_to = true;
            format!("goto {}{};", if to.is_loop { "next" } else { "end" }, to.number)
        };
        self.line(&text);
    }
}
