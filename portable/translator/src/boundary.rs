//! Where the code meets C: the functions of a header, functions that C defines, and a program's main.
use crate::code::Function;
use crate::operations::Helpers;
use crate::term::fail;
use crate::types::{c_name, Shape, Ty, Types};
use std::fmt::Write;

/// A function as a header declares it: result, name, and parameters as written; and where the result is a
/// struct of the header's, its fields.
pub struct Prototype {
    pub result: String,
    pub name: String,
    params: String,
    fields: Vec<String>,
}

/// The fields of a struct, by their names.
fn fields_of(code: &str, name: &str) -> Vec<String> {
    let body = |defined: &str| {
        let (fields, rest) = defined.split_once('}')?;
        let named = rest.split(';').next()?.trim() == name;
        named.then(|| fields.split(';').filter_map(|field| field.split_whitespace().last().map(String::from)).collect())
    };
    code.split("typedef struct {").find_map(body).unwrap_or_default()
}

pub fn prototypes(header: &str) -> Vec<Prototype> {
    let (mut bare, mut rest) = (String::new(), header);
    while let Some((code, comment)) = rest.split_once("/*") {
        bare += code;
        rest = comment.split_once("*/").map_or("", |(_, rest)| rest);
    }
    bare += rest;
    let lines = bare.lines().filter(|l| !l.trim_start().starts_with('#')).collect::<Vec<_>>().join(" ");
    let one = |declared: &str| {
        let (head, params) = declared.trim().split_once('(')?;
        let (result, name) = head.rsplit(['}', '{']).next()?.trim().rsplit_once(' ')?;
        let params = params.trim().trim_end_matches(')').split_whitespace().collect::<Vec<_>>().join(" ");
        let (result, fields) = (result.trim().to_string(), fields_of(&lines, result.trim()));
        Some(Prototype { result, name: name.to_string(), params, fields })
    };
    lines.split(';').filter_map(one).collect()
}

/// That the header's struct has the answer's fields, each of its width and in its place.
fn laid_alike(types: &Types, answer: &str, widths: usize, p: &Prototype) -> String {
    if p.fields.len() != widths {
        fail::<()>("an answer with as many fields as the header's", &p.name)
    }
    let (given, name) = (c_name(answer), &p.name);
    let one = |(k, field): (usize, &String)| {
        let own = types.field(answer, k);
        format!(
            "    _Static_assert(offsetof({}, {field}) == offsetof({given}, {own}) && sizeof answer.{field} == sizeof given.{own}, \"{name}'s {field}\");\n",
            p.result
        )
    };
    p.fields.iter().enumerate().map(one).collect()
}

/// A function under its name in the header: a list comes as a pointer and a length, and the answer goes as
/// the header's struct, whose size is asserted, and where its fields have two widths, each field's place.
pub fn exported(types: &Types, symbol: &str, f: &Function, p: &Prototype) -> String {
    let named: Vec<&str> = match p.params.as_str() {
        "void" => vec![],
        params => params.split(", ").map(|p| p.rsplit([' ', '*']).next().unwrap_or(p)).collect(),
    };
    let name = &p.name;
    let (mut next, mut args, mut sizes) = (named.iter(), vec![], String::new());
    let mut one = || *next.next().unwrap_or_else(|| fail("too few parameters in the header", name));
    for t in &f.locals[1..=f.params] {
        match t {
            Ty::Slice(_, of) => {
                let (at, length) = (one(), one());
                writeln!(sizes, "    _Static_assert(sizeof *{at} == sizeof({}), \"{name}'s {at}\");", of.c()).unwrap();
                let through = if matches!(**of, Ty::Named(_)) { "(void *)" } else { "" };
                args.push(format!("({}){{({}){through}{at}, {length}}}", t.c(), t.pointer().c()))
            }
            Ty::Int(w) => args.push(format!("(uint{w}_t){}", one())),
            Ty::Float | Ty::Bool => args.push(one().to_string()),
            _ => fail("a parameter of the boundary", name),
        }
    }
    if next.next().is_some() {
        fail::<()>("too many parameters in the header", name)
    }
    let call = format!("{}({})", c_name(symbol), args.join(", "));
    let head = format!("{} {name}({})\n{{\n{sizes}", p.result, p.params);
    match &f.locals[0] {
        Ty::Int(32) if p.result == "uint32_t" => format!("{head}    return {call};\n}}\n\n"),
        Ty::Named(answer) => {
            let fields = match types.shape(answer) {
                Shape::Fields(all) if all.iter().all(|f| matches!(f, Ty::Int(32 | 64))) => all,
                _ => fail("an answer that is not all of 32 or 64 bits", name),
            };
            let one_width = fields.iter().all(|f| *f == Ty::Int(32));
            let places = if one_width { String::new() } else { laid_alike(types, answer, fields.len(), p) };
            format!(
                "{head}    {} given = {call};\n    {} answer;\n    _Static_assert(sizeof answer == sizeof given, \"{name}'s answer\");\n{places}    memcpy(&answer, &given, sizeof answer);\n    return answer;\n}}\n\n",
                c_name(answer),
                p.result
            )
        }
        _ => fail("an answer that is no number and no struct", name),
    }
}

/// A function of C. Its integers have the signs that MIR names, the result's first; a list goes as its
/// pointer and its length.
pub fn foreign(f: &Function, signature: &str, names: &[String], symbol: &str, signs: &[bool], helpers: &mut Helpers) -> String {
    let mut signs = signs.iter().copied();
    let mut sign = || signs.next().unwrap_or_else(|| fail("a sign for each integer of a foreign function", symbol));
    let (kind, gives) = match f.locals[0] {
        Ty::Int(w) if sign() => (format!("int{w}_t "), format!("return (uint{w}_t)(int{w}_t)")),
        Ty::Int(w) => (format!("uint{w}_t "), format!("return (uint{w}_t)")),
        Ty::Unit => ("void ".into(), String::new()),
        _ => fail("a foreign result", symbol),
    };
    let (mut kinds, mut args) = (vec![], vec![]);
    for (t, name) in f.locals.iter().zip(names).skip(1) {
        let (kind, arg) = match t {
            Ty::Int(w) if sign() => (format!("int{w}_t"), helpers.signed(name, *w)),
            Ty::Int(w) => (format!("uint{w}_t"), name.clone()),
            Ty::Slice(mutable, of) if **of == Ty::Int(8) => {
                sign();
                (
                    format!("{}void *, size_t", if *mutable { "" } else { "const " }),
                    format!("({}void *){name}.at, (size_t){name}.length", if *mutable { "" } else { "const " }),
                )
            }
            Ty::Ref(mutable, to) if matches!(&**to, Ty::Array(of, _) if **of == Ty::Int(8)) => {
                let bytes = if *mutable { "char" } else { "const char" };
                (format!("{}void *", if *mutable { "" } else { "const " }), format!("({bytes} *){name}->e"))
            }
            _ => fail("a foreign parameter", symbol),
        };
        kinds.push(kind);
        args.push(arg);
    }
    if kinds.is_empty() {
        kinds.push("void".into());
    }
    // a file is opened by Linux's flags, which os.c knows; its mode, where it has none, is 0. And locks are not
    // POSIX's
    let symbol = match symbol {
        "open" => "rattle_open",
        "flock" => "rattle_flock",
        _ => symbol,
    };
    if symbol == "rattle_open" && args.len() == 2 {
        kinds.push("uint32_t".into());
        args.push("0u".into());
    }
    // what the kit's own library of C defines is declared here and defined in os.c; the rest is POSIX's
    let declared = if symbol.starts_with("rattle_") { format!("{kind}{symbol}({});\n\n", kinds.join(", ")) } else { String::new() };
    let symbol = if symbol == "__xpg_strerror_r" { "strerror_r" } else { symbol };
    format!("{declared}{signature}\n{{\n    {gives}{symbol}({});\n}}\n\n", args.join(", "))
}

/// C's main. The program ends with 0, or with the number that its own main answers.
pub fn main_of(types: &Types, symbol: &str, answer: &Ty, arguments: bool) -> String {
    let (declared, first) = match arguments {
        true => ("void rattle_main(int argc, char **argv);\n\n", "rattle_main(argc, argv);"),
        false => ("", "(void)argc;\n    (void)argv;"),
    };
    let call = match answer {
        _ if types.empty(answer) => format!("{}();\n    return 0;", c_name(symbol)),
        Ty::Named(code) if code == "std::process::ExitCode" => format!("return {}().{};", c_name(symbol), types.field(code, 0)),
        _ => fail("a main that answers something", symbol),
    };
    format!("{declared}int main(int argc, char **argv)\n{{\n    {first}\n    {call}\n}}\n")
}
