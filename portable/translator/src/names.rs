//! Names and comments from the `.rt` sources, since MIR has numbers alone: of parameters, of the variables
//! that a body binds, of fields and of variants. They follow the sources' one layout (`rt fmt`). A name is
//! for the reader only: where none is found, the number stands, and nothing else depends on it.
use std::collections::BTreeMap;
use std::path::Path;

#[derive(Default)]
pub struct Names {
    /// Of a function: its parameters, and what its body binds, in the order written.
    pub functions: BTreeMap<String, (Vec<String>, Vec<String>)>,
    pub fields: BTreeMap<String, Vec<String>>,
    /// Of an enum: its variants, each with the names of its fields, if they have any.
    pub variants: BTreeMap<String, Vec<(String, Vec<String>)>>,
    comments: BTreeMap<String, String>,
}

/// A name that C leaves free.
pub fn safe(name: &str) -> String {
    const TAKEN: &[&str] = &[
        "auto", "bool", "break", "case", "char", "const", "continue", "default", "do", "double", "else", "enum", "errno", "extern",
        "false", "float", "for", "goto", "if", "inline", "int", "long", "main", "register", "restrict", "return", "short", "signed",
        "sizeof", "static", "struct", "switch", "tag", "true", "typedef", "union", "unsigned", "void", "volatile", "while",
    ];
    if TAKEN.contains(&name) {
        format!("{name}_")
    } else {
        name.to_string()
    }
}

/// A symbol without the types that it is at.
pub fn base(symbol: &str) -> &str {
    symbol.split(['<', '#']).next().unwrap_or(symbol)
}

/// A comment of C around some words, in lines of 110 columns.
pub fn comment(words: &str) -> String {
    let mut text = String::from("/*");
    let mut width = 2;
    for word in words.replace("*/", "* /").split_whitespace() {
        if width + 1 + word.chars().count() > 107 {
            text += "\n  ";
            width = 2;
        }
        text += " ";
        text += word;
        width += 1 + word.chars().count();
    }
    text + " */\n"
}

impl Names {
    /// Reads the sources of all crates in a folder: DIR/CRATE/src/*.rt, and the folders there.
    pub fn read(&mut self, folder: &Path) {
        for krate in entries(folder) {
            self.read_modules(&file_stem(&krate), &krate.join("src"));
        }
    }

    fn read_modules(&mut self, owner: &str, folder: &Path) {
        for file in entries(folder) {
            let module = match file_stem(&file).as_str() {
                "lib" | "main" | "mod" => owner.to_string(),
                module => format!("{owner}::{module}"),
            };
            if file.is_dir() {
                self.read_modules(&module, &file);
            } else if file.extension().is_some_and(|e| e == "rt") {
                self.read_text(&module, &std::fs::read_to_string(&file).unwrap_or_default());
            }
        }
    }

    /// The symbol, with what the source says above it.
    pub fn comment(&self, symbol: &str) -> String {
        match self.comments.get(base(symbol)) {
            Some(said) => comment(&format!("{symbol}. {said}")),
            None => comment(symbol),
        }
    }

    fn read_text(&mut self, module: &str, text: &str) {
        let lines: Vec<&str> = text.lines().collect();
        let mut owner = module.to_string();
        for (i, line) in lines.iter().enumerate() {
            let bare = line.trim_start();
            let indent = &line[..line.len() - bare.len()];
            let (kind, rest) = without_marks(bare).split_once(' ').unwrap_or_default();
            let name: String = rest.chars().take_while(|c| c.is_alphanumeric() || *c == '_').collect();
            let symbol = format!("{owner}::{name}");
            let item = || lines[i..].iter().take_while(|l| **l != format!("{indent}}}")).copied().collect::<Vec<_>>();
            match kind {
                "impl" if indent.is_empty() => owner = format!("{module}::{name}"),
                "struct" => drop(self.fields.insert(symbol.clone(), item()[1..].iter().filter_map(|l| field(l)).collect())),
                "enum" => drop(self.variants.insert(symbol.clone(), item()[1..].iter().filter_map(|l| variant(l)).collect())),
                "fn" => drop(self.functions.insert(symbol.clone(), (parameters(&item().join(" ")), bound(&item(), indent)))),
                _ => {}
            }
            if *line == "}" {
                owner = module.to_string();
            }
            if ["struct", "enum", "fn"].contains(&kind) {
                self.comments.extend(said_above(&lines[..i]).map(|said| (symbol, said)));
            }
        }
    }
}

fn entries(folder: &Path) -> Vec<std::path::PathBuf> {
    let mut all: Vec<_> = std::fs::read_dir(folder).into_iter().flatten().flatten().map(|e| e.path()).collect();
    all.sort();
    all
}

fn file_stem(path: &Path) -> String {
    path.file_stem().unwrap_or_default().to_string_lossy().into_owned()
}

fn without_marks(line: &str) -> &str {
    let line = line.strip_prefix("pub(crate) ").or(line.strip_prefix("pub ")).unwrap_or(line);
    line.strip_prefix("extern \"C\" ").unwrap_or(line)
}

/// The comment right above an item.
fn said_above(lines: &[&str]) -> Option<String> {
    let above: Vec<&str> = lines.iter().rev().skip_while(|l| l.trim_start().starts_with("#[")).map(|l| l.trim_start()).collect();
    let mut said: Vec<&str> = above.iter().map_while(|l| l.strip_prefix("// ")).take_while(|l| !l.starts_with("----")).collect();
    said.reverse();
    (!said.is_empty()).then(|| said.join(" "))
}

fn identifier(text: &str) -> Option<String> {
    let name = text.trim().trim_start_matches("mut ");
    let plain = !name.is_empty() && name.chars().all(|c| c.is_ascii_lowercase() || c.is_ascii_digit() || c == '_');
    (plain && name != "_" && !name.starts_with(|c: char| c.is_ascii_digit())).then(|| name.to_string())
}

/// A struct's field. A ghost one is no field of MIR's.
fn field(line: &str) -> Option<String> {
    identifier(without_marks(line.trim()).split_once(':')?.0)
}

fn variant(line: &str) -> Option<(String, Vec<String>)> {
    let line = line.trim();
    let name: String = line.chars().take_while(|c| c.is_alphanumeric()).collect();
    let inner = line.split_once('{').map(|(_, inner)| inner.trim_end_matches([',', '}', ' ']));
    let fields = inner.map(|inner| inner.split(',').filter_map(field).collect()).unwrap_or_default();
    (name.starts_with(|c: char| c.is_ascii_uppercase())).then_some((name, fields))
}

/// What stands between the first bracket and the one that closes it, at its commas.
fn parameters(text: &str) -> Vec<String> {
    let Some((_, rest)) = text.split_once('(') else { return vec![] };
    let (mut depth, mut parts) = (0, vec![String::new()]);
    for c in rest.chars() {
        match c {
            ')' if depth == 0 => break,
            ',' if depth == 0 => {
                parts.push(String::new());
                continue;
            }
            '(' | '[' => depth += 1,
            ')' | ']' => depth -= 1,
            _ => {}
        }
        parts.last_mut().unwrap().push(c);
    }
    parts.iter().filter_map(|p| identifier(p.split_once(':').map_or(p.as_str(), |(name, _)| name))).collect()
}

/// What a body binds: by `let`, by `for`, and by the patterns of `match` and `if let`. A `for` over a list also
/// has a place in it, which has no name.
fn bound(item: &[&str], indent: &str) -> Vec<String> {
    let opens = |l: &&str| **l == format!("{indent}{{") || l.starts_with(&format!("{indent})")) && l.ends_with('{');
    let from = item.iter().position(|l| opens(l) || without_marks(l.trim()).starts_with("fn ") && l.ends_with('{')).unwrap_or(item.len());
    let mut all = vec![];
    for line in item.iter().skip(from + 1).map(|l| l.trim()).filter(|l| !l.starts_with("//") && !l.starts_with('"')) {
        if let Some((pattern, over)) = line.strip_prefix("for ").and_then(|l| l.split_once(" in ")) {
            if !over.contains("..") {
                all.push(String::new());
            }
            all.extend(in_pattern(pattern));
        } else if let Some((pattern, _)) = line.strip_prefix("if let ").and_then(|l| l.split_once(" = ")) {
            all.extend(in_pattern(pattern));
        } else if let Some(rest) = line.strip_prefix("let ") {
            all.extend(identifier(rest.split(['=', ':']).next().unwrap_or("")));
        } else if let Some((pattern, _)) = line.split_once("=>") {
            all.extend(in_pattern(pattern));
        }
    }
    all
}

fn in_pattern(pattern: &str) -> Vec<String> {
    let Some((_, inner)) = pattern.split_once(['(', '{']) else { return identifier(pattern).into_iter().collect() };
    inner.trim().trim_end_matches([')', '}']).split(',').filter_map(|p| identifier(p.rsplit(':').next().unwrap_or(""))).collect()
}
