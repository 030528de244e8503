//! The operations of MIR that our crates use, each in one place: how it is read, what type it gives and how C
//! computes it (the logic's Mir/Val.antt says what each gives). Integers are bits. What is signed in MIR is
//! an operation, and C computes it on the signed number of these bits, `s64(x)`. The others (signed division,
//! operations on single bits, shifts to the right, floats to integers) are not here: MIR with one of them
//! ends the translator, which names it.
use crate::term::Term;
use crate::types::Ty;
use std::collections::BTreeSet;

#[derive(Clone, Copy, PartialEq, Debug)]
pub enum Op2 {
    Add,
    Sub,
    Mul,
    Div,
    Rem,
    Shl,
    And,
    Or,
    Eq,
    Ne,
    Lt(bool),
    Le(bool),
    Offset,
    FloatAdd,
    FloatSub,
    FloatMul,
    FloatDiv,
    FloatNe,
    FloatEq,
    FloatLt,
}

#[derive(Clone, Copy, PartialEq, Debug)]
pub enum Op1 {
    Not,
    /// Whether the number is read as signed, and the width that it gets.
    Cast(bool, u64),
    FloatNeg,
    IntToFloat(bool),
    FloatToBits,
    TrailingZeros,
}

fn signed(sign: &Term) -> bool {
    match sign.word() {
        "signed" => true,
        "unsigned" => false,
        _ => sign.unknown("a sign"),
    }
}

impl Op2 {
    pub fn read(o: &Term) -> Op2 {
        match o.form() {
            ("add", [_]) => Op2::Add,
            ("sub", [_]) => Op2::Sub,
            ("mul", [_]) => Op2::Mul,
            ("div", [s]) if !signed(s) => Op2::Div,
            ("rem", [s]) if !signed(s) => Op2::Rem,
            ("shl", []) => Op2::Shl,
            ("and", []) => Op2::And,
            ("or", []) => Op2::Or,
            ("eq", []) => Op2::Eq,
            ("ne", []) => Op2::Ne,
            ("lt", [s]) => Op2::Lt(signed(s)),
            ("le", [s]) => Op2::Le(signed(s)),
            // an integer is its bits, and C keeps as many as there are
            ("wrapAdd", []) => Op2::Add,
            ("wrapSub", []) => Op2::Sub,
            ("wrapMul", []) => Op2::Mul,
            ("offset", []) => Op2::Offset,
            ("floatAdd", []) => Op2::FloatAdd,
            ("floatSub", []) => Op2::FloatSub,
            ("floatMul", []) => Op2::FloatMul,
            ("floatDiv", []) => Op2::FloatDiv,
            ("floatNe", []) => Op2::FloatNe,
            ("floatEq", []) => Op2::FloatEq,
            ("floatLt", []) => Op2::FloatLt,
            _ => o.unknown("an operation"),
        }
    }

    /// Whether the result is rounded. Such an operation stays a statement of its own: within one expression a
    /// compiler may fuse two of them into one.
    pub fn rounds(self) -> bool {
        matches!(self, Op2::FloatAdd | Op2::FloatSub | Op2::FloatMul | Op2::FloatDiv)
    }

    pub fn ty(self, operands: &Ty) -> Ty {
        use Op2::*;
        match (self, operands) {
            (Eq | Ne | Lt(_) | Le(_) | FloatEq | FloatNe | FloatLt, _) => Ty::Bool,
            (Offset, _) => Ty::Ptr,
            _ => operands.clone(),
        }
    }

    /// The text, of operands of one type as atoms. Below 32 bits C would compute in int: there one operand is
    /// made 32 bits wide, and the result cut.
    pub fn text(self, a: &str, b: &str, t: &Ty, helpers: &mut Helpers) -> Option<String> {
        use Op2::*;
        let narrow = matches!(t, Ty::Int(8 | 16));
        let first = if narrow { format!("(uint32_t){a}") } else { a.to_string() };
        let cut = |text: String| if narrow { format!("({})({text})", t.c()) } else { text };
        let mut both = |op: &str, sign: bool, w: u64| match sign {
            true => format!("{} {op} {}", helpers.signed(a, w), helpers.signed(b, w)),
            false => format!("{a} {op} {b}"),
        };
        Some(match (self, t) {
            (Add, Ty::Int(_)) => cut(format!("{first} + {b}")),
            (Sub, Ty::Int(_)) => cut(format!("{first} - {b}")),
            (Mul, Ty::Int(_)) => cut(format!("{first} * {b}")),
            (Div, Ty::Int(_)) => cut(format!("{a} / {b}")),
            (Rem, Ty::Int(_)) => cut(format!("{a} % {b}")),
            // the proof has the count below the width
            (Shl, Ty::Int(_)) => cut(format!("{first} << {b}")),
            (And, Ty::Int(_)) => cut(format!("{a} & {b}")),
            (Or, Ty::Int(_)) => cut(format!("{a} | {b}")),
            (And, Ty::Bool) => format!("{a} && {b}"),
            (Or, Ty::Bool) => format!("{a} || {b}"),
            (Eq, Ty::Int(_)) | (FloatEq, Ty::Float) => format!("{a} == {b}"),
            (Ne, Ty::Int(_)) | (FloatNe, Ty::Float) => format!("{a} != {b}"),
            (Lt(sign), Ty::Int(w)) => both("<", sign, *w),
            (Le(sign), Ty::Int(w)) => both("<=", sign, *w),
            (FloatLt, Ty::Float) => format!("{a} < {b}"),
            (FloatAdd, Ty::Float) => format!("{a} + {b}"),
            (FloatSub, Ty::Float) => format!("{a} - {b}"),
            (FloatMul, Ty::Float) => format!("{a} * {b}"),
            (FloatDiv, Ty::Float) => format!("{a} / {b}"),
            (Offset, Ty::Ptr) => format!("{a} + (size_t){b}"),
            _ => return None,
        })
    }
}

impl Op1 {
    pub fn read(o: &Term) -> Op1 {
        match o.form() {
            ("not", []) => Op1::Not,
            ("cast", [from, _, w]) => Op1::Cast(signed(from), w.number()),
            ("floatNeg", []) => Op1::FloatNeg,
            ("intToFloat", [s, f]) if f.number() == 64 => Op1::IntToFloat(signed(s)),
            ("floatToBits", []) => Op1::FloatToBits,
            ("trailingZeros", []) => Op1::TrailingZeros,
            _ => o.unknown("an operation"),
        }
    }

    pub fn ty(self, operand: &Ty) -> Ty {
        match self {
            Op1::Not | Op1::FloatNeg => operand.clone(),
            Op1::Cast(_, w) => Ty::Int(w),
            Op1::IntToFloat(_) => Ty::Float,
            Op1::FloatToBits => Ty::Int(64),
            Op1::TrailingZeros => Ty::Int(32),
        }
    }

    pub fn text(self, a: &str, t: &Ty, helpers: &mut Helpers) -> Option<String> {
        Some(match (self, t) {
            (Op1::Not, Ty::Bool) => format!("!{a}"),
            (Op1::Not, Ty::Int(_)) => format!("({})~{a}", t.c()),
            // a narrower number has the same low bits; a wider one of a signed number repeats its sign
            (Op1::Cast(true, w), Ty::Int(v)) if w > *v => format!("(uint{w}_t){}", helpers.signed(a, *v)),
            (Op1::Cast(_, w), Ty::Int(_)) => format!("(uint{w}_t){a}"),
            (Op1::FloatNeg, Ty::Float) => format!("-{a}"),
            (Op1::IntToFloat(true), Ty::Int(w)) => format!("(double){}", helpers.signed(a, *w)),
            (Op1::IntToFloat(false), Ty::Int(_)) => format!("(double){a}"),
            (Op1::FloatToBits, Ty::Float) => format!("{}({a})", helpers.used("bits", 64)),
            (Op1::TrailingZeros, Ty::Int(w)) => format!("{}({a})", helpers.used("zeros", *w)),
            _ => return None,
        })
    }
}

/// Functions on bits, of the width for %. The signed number of some bits goes by memcpy, since a conversion
/// is the implementation's to define.
const HELPERS: &[(&str, &str)] = &[
    ("s", "static inline int%_t s%(uint%_t x)\n{\n    int%_t y;\n    memcpy(&y, &x, sizeof y);\n    return y;\n}\n"),
    ("zeros", "static inline uint32_t zeros%(uint%_t x)\n{\n    uint32_t n = 0;\n    while (n < % && !(x >> n & 1))\n        n++;\n    return n;\n}\n"),
    ("bits", "static inline uint%_t bits%(double x)\n{\n    uint%_t y;\n    memcpy(&y, &x, sizeof y);\n    return y;\n}\n"),
];

/// Which of them the file uses.
#[derive(Default)]
pub struct Helpers(BTreeSet<(&'static str, u64)>);

impl Helpers {
    fn used(&mut self, name: &'static str, width: u64) -> String {
        self.0.insert((name, width));
        format!("{name}{width}")
    }

    /// The bits x read as signed.
    pub fn signed(&mut self, x: &str, width: u64) -> String {
        let name = self.used("s", width);
        let bare = x.strip_prefix('(').and_then(|y| y.strip_suffix(')')).filter(|y| !y.contains(['(', ')'])).unwrap_or(x);
        format!("{name}({bare})")
    }

    pub fn text(&self) -> String {
        let widths = HELPERS.iter().flat_map(|(name, text)| [8, 16, 32, 64].map(|w| (*name, w, *text)));
        widths.filter(|(name, w, _)| self.0.contains(&(*name, *w))).map(|(_, w, text)| text.replace('%', &w.to_string()) + "\n").collect()
    }
}
