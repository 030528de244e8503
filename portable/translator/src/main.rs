//! Writes the MIR of libraries, which is what was proved, as one file of portable C11, in two steps:
//!
//!     translator link --library MIR.json .. --main SYMBOL [--called NAME]          a program: its main
//!     translator link --library MIR.json .. --header HEADER --crate NAME           a library: a function for each prototype of the header
//!
//! takes together what is reached, and prints it as one term, whose sum stands in the C;
//!
//!     translator FILE.mir --sum TEXT [--sources DIR]..                             writes a program
//!     translator FILE.mir --sum TEXT [--sources DIR].. --header HEADER --crate NAME   writes a library
//!
//! The first step is json.rs and link.rs. The reading of the second is in term.rs, types.rs, operations.rs and
//! code.rs, one form of MIR in one place; flow.rs makes it short; write.rs and boundary.rs write it. names.rs has the sources' names. A form that it does
//! not know ends it with a message and status 1, and nothing is written.
mod boundary;
mod code;
mod flow;
mod json;
mod link;
mod names;
mod operations;
mod term;
mod types;
mod write;

use boundary::{exported, foreign, main_of, prototypes, Prototype};
use code::{Body, Constant, Expr, Function, Program, Stmt};
use names::Names;
use operations::Helpers;
use std::collections::BTreeSet;
use std::fmt::Write as _;
use term::fail;
use types::{c_name, Shape, Ty, Types};
use write::{float, local_names, Writer};

/// The functions that some code calls.
fn called<'c>(code: &'c [Stmt], found: &mut Vec<&'c str>) {
    for s in code {
        if let Stmt::Call(_, name, _) = s {
            found.push(name);
        }
        flow::inner(s).into_iter().for_each(|c| called(c, found));
    }
}

fn reached<'p>(p: &'p Program, from: Vec<&'p str>) -> BTreeSet<&'p str> {
    let (mut wanted, mut all) = (from, BTreeSet::new());
    while let Some(name) = wanted.pop() {
        let Some(f) = p.functions.get(name) else { return fail("a function that is not there", name) };
        if let (true, Body::Code(code)) = (all.insert(name), &f.body) {
            called(code, &mut wanted);
        }
    }
    all
}

/// The file as it grows: what functions need of it, and their texts.
struct Output<'a> {
    types: Types<'a>,
    helpers: Helpers,
    heads: String,
    bodies: String,
    tables: String,
    table_names: Vec<String>,
    steps: bool,
}

impl Output<'_> {
    fn signature(&mut self, symbol: &str, f: &Function, names: &[String]) -> String {
        f.locals.iter().take(f.params + 1).for_each(|t| self.types.define(t));
        let params: Vec<String> =
            (1..=f.params).filter(|&i| !self.types.empty(&f.locals[i])).map(|i| f.locals[i].declared(&names[i])).collect();
        let result = if self.types.empty(&f.locals[0]) { Ty::Unit } else { f.locals[0].clone() };
        let params = if params.is_empty() { "void".into() } else { params.join(", ") };
        format!("{}({params})", result.declared(&c_name(symbol)))
    }

    fn function(&mut self, p: &Program, names: &Names, globals: &BTreeSet<String>, symbol: &str) {
        let f = &p.functions[symbol];
        let locals = local_names(names, symbol, f, globals);
        let signature = self.signature(symbol, f, &locals);
        let (kind, text) = match &f.body {
            Body::Foreign(name, signs) => {
                ("static", foreign(f, &format!("static {signature}"), &locals, name, signs, &mut self.helpers))
            }
            _ => self.body(p, names, symbol, f, &locals, &signature),
        };
        writeln!(self.heads, "{kind} {signature};").unwrap();
        self.bodies += &(names.comment(symbol) + &text);
    }

    /// A function's text, and what stands in front of its result there.
    fn body(
        &mut self,
        p: &Program,
        names: &Names,
        symbol: &str,
        f: &Function,
        locals: &[String],
        signature: &str,
    ) -> (&'static str, String) {
        let bindings = names.functions.get(names::base(symbol)).map_or(0, |(_, bound)| bound.len());
        let mut strided = BTreeSet::new();
        let (text, used, defined) = {
            let ready = flow::ready(&self.types, p, f, bindings, self.table_names.len());
            for read in &ready.tables {
                let mut name = String::new();
                if let Some((x, value, t)) = read {
                    name = format!("{}_{}", c_name(symbol), locals[*x]);
                    while self.table_names.contains(&name) {
                        name += "_";
                    }
                    self.tables += &table(&self.types, &name, value, t);
                }
                self.table_names.push(name);
            }
            let defined: Vec<Ty> = ready.tables.iter().flatten().map(|(_, _, t)| t.clone()).collect();
            let (text, used) = Writer::new(&ready, locals.to_vec(), &self.table_names, &mut self.helpers, &mut strided).written();
            (text, used, defined)
        };
        defined.iter().for_each(|t| self.types.define(t));
        self.types.strided.extend(strided);
        let declared = self.declarations(f, locals, &used);
        let again = text.contains("while (") || text.contains("for (;;)") || text.contains(&format!("{}(", c_name(symbol)));
        let kind = if self.steps && !again && text.lines().count() <= FEW { "STEP" } else { "static" };
        (kind, format!("{kind} {signature}\n{{\n{declared}{text}}}\n\n"))
    }

    /// The locals that the text names, those of one type in one line; and the parameters that it does not.
    fn declarations(&mut self, f: &Function, names: &[String], used: &BTreeSet<usize>) -> String {
        let mut text = String::new();
        for i in (1..=f.params).filter(|i| !used.contains(i) && !self.types.empty(&f.locals[*i])) {
            writeln!(text, "    (void){};", names[i]).unwrap();
        }
        let mut left: Vec<usize> =
            used.iter().copied().filter(|i| *i == 0 || *i > f.params).filter(|i| !self.types.empty(&f.locals[*i])).collect();
        while let Some(first) = left.first() {
            let t = &f.locals[*first];
            self.types.define(t);
            let (alike, others): (Vec<usize>, Vec<usize>) = left.iter().partition(|i| f.locals[**i] == *t);
            let star = if t.c().ends_with('*') { "*" } else { "" };
            let mut line = format!("    {}", t.declared(&names[alike[0]]));
            for name in alike[1..].iter().map(|i| &names[*i]) {
                if line.len() + name.len() > 106 {
                    writeln!(text, "{line};").unwrap();
                    line = format!("    {}", t.declared(name));
                } else {
                    write!(line, ", {star}{name}").unwrap();
                }
            }
            writeln!(text, "{line};").unwrap();
            left = others;
        }
        text
    }
}

/// A constant of the file.
fn table(types: &Types, name: &str, value: &Expr, t: &Ty) -> String {
    let head = format!("static const {} = ", t.declared(name));
    match value {
        Expr::Aggregate(parts, _) => {
            let number = |part: &Expr| match part {
                Expr::Int(_, n) => n.to_string(),
                _ => fail("a table of other than whole numbers", name),
            };
            head + &in_lines(parts.iter().map(number).collect()) + ";\n\n"
        }
        Expr::Lent(constant, _) => match (constant, t) {
            (Constant::Parts(parts), Ty::Array(of, _))
                if parts.is_empty() && matches!(**of, Ty::Named(_) | Ty::Array(..) | Ty::Slice(..)) =>
            {
                head + "{{{0}}};\n\n"
            }
            (Constant::Parts(parts), Ty::Array(of, _)) => {
                head + &in_lines(parts.iter().map(|part| initial(types, part, of, name, t)).collect()) + ";\n\n"
            }
            _ => head + &initial(types, constant, t, name, t) + ";\n\n",
        },
        _ => fail("a table", name),
    }
}

/// An array's elements, some in a line. One without any has one that nothing reads.
fn in_lines(parts: Vec<String>) -> String {
    if parts.is_empty() {
        return "{{0}}".into();
    }
    let (mut text, mut width) = ("{{".to_string(), 200);
    for part in parts {
        if width + part.len() + 2 > 108 {
            text += "\n   ";
            width = 3;
        }
        text += &format!(" {part},");
        width += part.len() + 2;
    }
    text + "\n}}"
}

/// What a constant of that type begins with, within the table of a name and a type.
fn initial(types: &Types, constant: &Constant, t: &Ty, name: &str, whole: &Ty) -> String {
    let joined = |parts: &[Constant], wanted: &[Ty]| -> String {
        if parts.len() != wanted.len() {
            fail::<()>("a constant's parts", name)
        }
        let all: Vec<String> =
            parts.iter().zip(wanted).filter(|(_, w)| !types.empty(w)).map(|(p, w)| initial(types, p, w, name, whole)).collect();
        if all.is_empty() {
            "0".into()
        } else {
            all.join(", ")
        }
    };
    match (constant, t) {
        (Constant::Int(_, n), _) if *n > i64::MAX as u64 => format!("{n}ull"),
        (Constant::Int(_, n), _) => n.to_string(),
        (Constant::Float(bits), _) => float(*bits),
        (Constant::Bool(b), _) => b.to_string(),
        (Constant::Parts(parts), Ty::Array(of, n)) => {
            format!("{{{{{}}}}}", joined(parts, &vec![(**of).clone(); *n as usize]))
        }
        (Constant::Repeat(one, n), Ty::Array(of, _)) => {
            format!("{{{{{}}}}}", joined(&vec![(**one).clone(); *n as usize], &vec![(**of).clone(); *n as usize]))
        }
        (Constant::Parts(parts), Ty::Slice(..)) => format!("{{{}}}", joined(parts, &[t.pointer(), Ty::Int(64)])),
        (Constant::Parts(parts), Ty::Named(symbol)) => match types.shape(symbol) {
            Shape::Fields(fields) => format!("{{{}}}", joined(parts, fields)),
            Shape::Variants(variants) => match parts.split_first() {
                Some((Constant::Int(_, v), fields)) => {
                    let (v, tag) = (*v as usize, types.variant_tag(symbol, *v as usize));
                    match variants[v].iter().all(|f| types.empty(f)) {
                        true => format!("{{.tag = {tag}}}"),
                        false => format!("{{.tag = {tag}, .{} = {{{}}}}}", types.variant(symbol, v), joined(fields, &variants[v])),
                    }
                }
                _ => fail("a constant's tag", name),
            },
        },
        (Constant::Here(n), Ty::Ref(_, to)) => match types.path(whole, *n, to) {
            Some(path) => format!("&{name}{path}"),
            None => fail("a pointer into a constant", name),
        },
        _ => fail("a constant", name),
    }
}

fn translate() {
    let words: Vec<String> = std::env::args().skip(1).collect();
    let all = |name: &str| words.windows(2).filter(|w| w[0] == name).map(|w| w[1].clone()).collect::<Vec<_>>();
    let option = |name: &str| all(name).pop();
    let read = |path: &str| std::fs::read_to_string(path).unwrap_or_else(|e| fail(path, &e.to_string()));
    let Some(file) = words.first() else {
        return fail("use", "translator FILE.mir --sum TEXT [--sources DIR].. [--header HEADER --crate NAME]");
    };
    if file == "link" {
        let mut libraries = link::Libraries::default();
        all("--library").iter().for_each(|path| libraries.read(json::parse(&read(path))));
        let (main, krate) = (option("--main").unwrap_or_default(), option("--crate").unwrap_or_default());
        let from: Vec<String> = match option("--header") {
            Some(header) => prototypes(&read(&header)).iter().map(|x| format!("{krate}::{}", x.name)).collect(),
            None => vec![main.clone()],
        };
        let from: Vec<&str> = from.iter().map(String::as_str).collect();
        let called = option("--called");
        let renamed = called.as_deref().map(|name| (main.as_str(), name));
        println!("{}", link::linked(&libraries, &from, called.as_deref().unwrap_or(&main), renamed));
        return;
    }
    let term = term::parse(&read(file));
    let p = code::program(&term);
    let mut names = Names::default();
    all("--sources").iter().for_each(|folder| names.read(folder.as_ref()));
    let header = option("--header");
    let krate = option("--crate").unwrap_or_default();
    let exports: Vec<(String, Prototype)> =
        header.iter().flat_map(|h| prototypes(&read(h))).map(|x| (format!("{krate}::{}", x.name), x)).collect();
    let from = if header.is_some() { exports.iter().map(|e| e.0.as_str()).collect() } else { vec![p.main.as_str()] };
    let reached = reached(&p, from);
    let mut globals = BTreeSet::new();
    for symbol in reached.iter().copied().chain(p.shapes.keys().map(String::as_str)) {
        if !globals.insert(c_name(symbol)) {
            fail::<()>("two symbols with one name in C", symbol)
        }
    }

    let types = Types::new(p.shapes.clone(), &names);
    let empty = String::new;
    let (helpers, steps) = (Helpers::default(), header.is_some());
    let mut out = Output { types, helpers, heads: empty(), bodies: empty(), tables: empty(), table_names: vec![], steps };
    reached.iter().for_each(|symbol| out.function(&p, &names, &globals, symbol));
    for (symbol, prototype) in &exports {
        out.bodies += &exported(&out.types, symbol, &p.functions[symbol], prototype);
    }
    if header.is_none() {
        out.bodies += &main_of(&out.types, &p.main, &p.functions[&p.main].locals[0], reached.contains("os::c::rattle_arg"));
    }

    let what = if header.is_some() { krate } else { p.main.split("::").next().unwrap_or("").to_string() };
    let includes = match &header {
        Some(path) => format!("#include \"{}\"\n", path.rsplit('/').next().unwrap_or(path)),
        None => "#include <errno.h>\n#include <fcntl.h>\n#include <stdio.h>\n#include <sys/stat.h>\n#include <unistd.h>\n".to_string(),
    };
    let head = HEAD.replace("WHAT", &what).replace("SUM", &option("--sum").unwrap_or_default());
    let posix = if header.is_none() { POSIX } else { "" };
    let manner = if steps { STEP } else { FIRST };
    print!(
        "{head}{posix}{STANDARD}{includes}{TESTS}{manner}\n{}\n{}{}{}\n{}\n",
        out.types.text(),
        out.helpers.text(),
        out.tables,
        out.heads,
        out.bodies.trim_end()
    );
}

/// A library's function of so many lines, with no loop, is a step of those that call it. A program's are not,
/// most of which are those that print: its C would take twice as long to compile.
const FEW: usize = 8;

const HEAD: &str = include_str!("head.txt");

const POSIX: &str = "#if !defined _POSIX_C_SOURCE\n#define _POSIX_C_SOURCE 200809L\n#endif\n";

const STANDARD: &str =
    "#include <float.h>\n#include <limits.h>\n#include <stdbool.h>\n#include <stddef.h>\n#include <stdint.h>\n#include <string.h>\n";

const TESTS: &str = include_str!("tests.txt");

const STEP: &str = include_str!("step.txt");

const FIRST: &str = include_str!("first.txt");

/// A deep term asks for a deep stack.
fn main() {
    let run = std::thread::Builder::new().stack_size(1 << 28).spawn(translate);
    if run.map(|r| r.join()).is_ok_and(|r| r.is_ok()) {
        return;
    }
    std::process::exit(1)
}
