//! A term of MIR, as link.rs makes it or as a file has it, read into a tree: words, and brackets around a
//! constructor and what it is given.

#[derive(Clone, PartialEq)]
pub enum Term {
    Word(String),
    Node(Vec<Term>),
}
use Term::{Node, Word};

/// Ends the translator with what it does not know. Nothing is guessed: the file is then not written at all.
pub fn fail<T>(what: &str, at: &str) -> T {
    let text: String = at.chars().take(300).collect();
    eprintln!("translator: {what}: {text}");
    std::process::exit(1)
}

pub fn parse(text: &str) -> Term {
    let mut open: Vec<Vec<Term>> = vec![vec![]];
    let mut chars = text.chars().peekable();
    let put = |open: &mut Vec<Vec<Term>>, term: Term| match open.last_mut() {
        Some(inner) => inner.push(term),
        None => fail("a bracket too many", ""),
    };
    while let Some(c) = chars.next() {
        match c {
            '(' => open.push(vec![]),
            ')' => match open.pop() {
                Some(done) => put(&mut open, Node(done)),
                None => fail("a bracket too many", ""),
            },
            '"' => {
                let word: String = chars.by_ref().take_while(|&c| c != '"').collect();
                if word.contains('\\') {
                    fail::<()>("an escape in a string", &word)
                }
                put(&mut open, Word(word));
            }
            c if c.is_whitespace() => {}
            c => {
                let mut word = c.to_string();
                while let Some(d) = chars.next_if(|&d| d != '(' && d != ')' && !d.is_whitespace()) {
                    word.push(d);
                }
                put(&mut open, Word(word));
            }
        }
    }
    match (open.len(), open.pop()) {
        (1, Some(top)) => Node(top),
        _ => fail("a bracket is not closed", ""),
    }
}

impl std::fmt::Display for Term {
    fn fmt(&self, f: &mut std::fmt::Formatter) -> std::fmt::Result {
        match self {
            Word(word) if word.contains([' ', '(', ')']) => write!(f, "\"{word}\""),
            Word(word) => write!(f, "{word}"),
            Node(terms) => {
                write!(f, "(")?;
                for (i, term) in terms.iter().enumerate() {
                    write!(f, "{}{term}", if i == 0 { "" } else { " " })?;
                }
                write!(f, ")")
            }
        }
    }
}

impl Term {
    pub fn unknown<T>(&self, what: &str) -> T {
        fail(what, &self.to_string())
    }

    /// The constructor and what it is given; a word is given nothing.
    pub fn form(&self) -> (&str, &[Term]) {
        match self {
            Word(word) => (word, &[]),
            Node(terms) => match &terms[..] {
                [Word(word), rest @ ..] => (word, rest),
                _ => self.unknown("no constructor"),
            },
        }
    }

    pub fn word(&self) -> &str {
        match self {
            Word(word) => word,
            Node(_) => self.unknown("not a word"),
        }
    }

    pub fn number(&self) -> u64 {
        self.word().parse().unwrap_or_else(|_| self.unknown("not a number below 2 ^ 64"))
    }

    pub fn place_number(&self) -> usize {
        usize::try_from(self.number()).unwrap_or_else(|_| self.unknown("not a place"))
    }

    /// The elements of a list of the given two constructors.
    pub fn list_of(&self, cons: &str, nil: &str) -> Vec<&Term> {
        let (mut all, mut at) = (vec![], self);
        loop {
            match at.form() {
                (c, [head, tail]) if c == cons => {
                    all.push(head);
                    at = tail;
                }
                (c, []) if c == nil => return all,
                _ => return at.unknown("not a list"),
            }
        }
    }

    pub fn list(&self) -> Vec<&Term> {
        self.list_of("lcons", "lnil")
    }

    pub fn pair(&self) -> (&str, &Term) {
        match self.form() {
            ("pair", [a, b]) => (a.word(), b),
            _ => self.unknown("not a pair"),
        }
    }
}
