//! JSON, as the toolchain writes a library's MIR: read into a tree. A number is its text, since some have 128
//! bits.
use crate::term::fail;

#[derive(Clone, PartialEq, Debug)]
pub enum Json {
    Word(String),
    Number(String),
    List(Vec<Json>),
    Object(Vec<(String, Json)>),
    Bool(bool),
    Null,
}
use Json::{List, Null, Number, Object, Word};

struct Reader<'t> {
    text: &'t [u8],
    at: usize,
}

pub fn parse(text: &str) -> Json {
    let mut reader = Reader { text: text.as_bytes(), at: 0 };
    let value = reader.value();
    reader.blanks();
    if reader.at != reader.text.len() {
        fail::<()>("text behind the JSON", &reader.rest())
    }
    value
}

impl Reader<'_> {
    fn rest(&self) -> String {
        String::from_utf8_lossy(&self.text[self.at..self.text.len().min(self.at + 80)]).into_owned()
    }

    fn blanks(&mut self) {
        while self.text.get(self.at).is_some_and(u8::is_ascii_whitespace) {
            self.at += 1;
        }
    }

    /// Whether the next sign is this one, and then past it.
    fn sign(&mut self, c: u8) -> bool {
        self.blanks();
        let is = self.text.get(self.at) == Some(&c);
        self.at += usize::from(is);
        is
    }

    fn value(&mut self) -> Json {
        self.blanks();
        match self.text.get(self.at) {
            Some(b'{') => {
                let field = |reader: &mut Self| {
                    let name = reader.string();
                    if !reader.sign(b':') {
                        fail::<()>("no colon in JSON", &reader.rest())
                    }
                    (name, reader.value())
                };
                Object(self.parts(b'}', field))
            }
            Some(b'[') => List(self.parts(b']', Self::value)),
            Some(b'"') => Word(self.string()),
            Some(c) if c.is_ascii_digit() || *c == b'-' => Number(self.plain()),
            _ => match self.plain().as_str() {
                "true" => Json::Bool(true),
                "false" => Json::Bool(false),
                "null" => Null,
                _ => fail("JSON", &self.rest()),
            },
        }
    }

    fn plain(&mut self) -> String {
        let from = self.at;
        while self.text.get(self.at).is_some_and(|c| c.is_ascii_alphanumeric() || *c == b'-') {
            self.at += 1;
        }
        String::from_utf8_lossy(&self.text[from..self.at]).into_owned()
    }

    fn parts<T>(&mut self, end: u8, one: impl Fn(&mut Self) -> T) -> Vec<T> {
        self.at += 1;
        let mut all = vec![];
        if self.sign(end) {
            return all;
        }
        loop {
            all.push(one(self));
            match (self.sign(b','), self.sign(end)) {
                (true, false) => {}
                (false, true) => return all,
                _ => return fail("a list in JSON", &self.rest()),
            }
        }
    }

    fn string(&mut self) -> String {
        if !self.sign(b'"') {
            return fail("no string in JSON", &self.rest());
        }
        let from = self.at;
        while self.text.get(self.at).is_some_and(|c| *c != b'"') {
            if self.text[self.at] == b'\\' {
                fail::<()>("an escape in a string", &self.rest())
            }
            self.at += 1;
        }
        self.at += 1;
        String::from_utf8_lossy(&self.text[from..self.at - 1]).into_owned()
    }
}

impl Json {
    pub fn unknown<T>(&self, what: &str) -> T {
        fail(what, &format!("{self:?}"))
    }

    pub fn field(&self, name: &str) -> &Json {
        match self {
            Object(fields) => fields.iter().find(|f| f.0 == name).map_or(&Null, |f| &f.1),
            _ => self.unknown("no object"),
        }
    }

    pub fn list(&self) -> &[Json] {
        match self {
            List(all) => all,
            _ => self.unknown("no list"),
        }
    }

    pub fn word(&self) -> &str {
        match self {
            Word(word) | Number(word) => word,
            _ => self.unknown("no word"),
        }
    }

    pub fn number(&self) -> usize {
        self.word().parse().unwrap_or_else(|_| self.unknown("no number"))
    }

    /// A constructor and what it is given: a word alone, or an object of one field.
    pub fn form(&self) -> (&str, &Json) {
        match self {
            Word(word) => (word, &Null),
            Object(fields) if fields.len() == 1 => (&fields[0].0, &fields[0].1),
            _ => self.unknown("no constructor"),
        }
    }
}
