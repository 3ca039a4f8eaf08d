//! Random texts: of the second checker's generator, larger ones, and both with tokens or bytes changed.

use second::fuzz::{damage, gen};
use second::random::Random;
use second::record::Texts;

/// A random program and query.
pub fn texts(random: &mut Random) -> (Vec<u8>, Vec<u8>) {
    let mut texts = Texts::default();
    match random.below(8) {
        0 => texts = damage::boundary(random),
        1..=3 => {
            let (rules, query) = gen::texts(random);
            texts.rules = rules.into_bytes();
            texts.query = query.into_bytes();
        }
        _ => {
            let wrong = random.once_in(4);
            (texts.rules, texts.query) = large(random, wrong);
        }
    }
    match random.below(8) {
        0 => damage::damage(random, &mut texts),
        1 => damage::misuse(random, &mut texts),
        2 => texts.rules = changed(random, &texts.rules),
        3 => texts.query = changed(random, &texts.query),
        _ => {}
    }
    (texts.rules, texts.query)
}

/// A text with one to three tokens deleted, doubled, swapped or replaced.
fn changed(random: &mut Random, text: &[u8]) -> Vec<u8> {
    let mut tokens = split(text);
    for _ in 0..random.between(1, 3) {
        if tokens.is_empty() {
            break;
        }
        let at = random.below(tokens.len());
        let other = random.below(tokens.len());
        match random.below(6) {
            0 => drop(tokens.remove(at)),
            1 => tokens.insert(at, tokens[at].clone()),
            2 => tokens.swap(at, other),
            3 => tokens[at] = tokens[other].clone(),
            4 => {
                let next = (at + 1) % tokens.len();
                tokens.swap(at, next);
            }
            _ => {
                let any = [
                    "(", ")", ",", ";", ":", ":=", "=", ".", "?", "->", "|", "X", "a", "p", "7",
                    "true", "fail",
                ];
                tokens[at] = random.pick(&any).as_bytes().to_vec();
            }
        }
    }
    tokens.join(if random.once_in(3) { &b" "[..] } else { b"" })
}

/// The tokens of a text, each with the blanks behind it.
fn split(text: &[u8]) -> Vec<Vec<u8>> {
    let wordy = |b: &u8| b.is_ascii_alphanumeric() || *b == b'_';
    let mut tokens: Vec<Vec<u8>> = Vec::new();
    let mut at = 0;
    while at < text.len() {
        let start = at;
        at += match &text[at..] {
            [b':', b'=', ..] | [b'-', b'>', ..] => 2,
            [b, ..] if wordy(b) => text[at..].iter().take_while(|b| wordy(b)).count(),
            _ => 1,
        };
        while at < text.len() && text[at].is_ascii_whitespace() {
            at += 1;
        }
        tokens.push(text[start..at].to_vec());
    }
    tokens
}

/// A program of up to 40 definitions with long names, many arguments and deep brackets. Where `wrong`, once in a while a
/// name is none of those in scope, an operator another, or a call of another arity.
fn large(random: &mut Random, wrong: bool) -> (Vec<u8>, Vec<u8>) {
    let mut writer = Writer {
        wrong,
        heads: Vec::new(),
        out: String::new(),
        random,
    };
    let count = writer.random.weighted(&[1, 4, 4, 2, 1, 1]) * writer.random.between(1, 8);
    for _ in 0..count {
        let name = writer.word();
        let arity = writer.random.between(0, 8);
        if !writer.heads.contains(&(name.clone(), arity)) || writer.slip() {
            writer.heads.push((name, arity));
        }
    }
    for (name, arity) in writer.heads.clone() {
        let scope = writer.fresh(arity);
        writer.out += &name;
        if arity > 0 {
            writer.out += &format!("({})", scope.join(","));
        }
        writer.out += " := ";
        let depth = writer.depth();
        let mut budget = writer.random.between(1, 40);
        writer.statement(&scope, depth, &mut budget);
        writer.out += ".\n";
    }
    let rules = std::mem::take(&mut writer.out);
    let count = writer.random.between(0, 14);
    let scope = writer.fresh(count);
    let depth = writer.depth();
    let mut budget = writer.random.between(1, 60);
    writer.statement(&scope, depth, &mut budget);
    writer.out += ".";
    (rules.into_bytes(), writer.out.into_bytes())
}

struct Writer<'a> {
    random: &'a mut Random,
    wrong: bool,
    heads: Vec<(String, usize)>,
    out: String,
}

impl Writer<'_> {
    fn slip(&mut self) -> bool {
        self.wrong && self.random.once_in(40)
    }

    fn depth(&mut self) -> usize {
        if self.random.once_in(8) {
            self.random.between(28, 33)
        } else {
            self.random.between(0, 8)
        }
    }

    /// Up to 32 bytes, many of them with a common beginning.
    fn tail(&mut self) -> String {
        let length = self.random.weighted(&[20, 20, 10, 5, 5, 1]);
        let length = if length == 5 {
            self.random.between(5, 31)
        } else {
            length
        };
        let byte = |_| *self.random.pick(b"aabbAB01_z") as char;
        (0..length).map(byte).collect()
    }

    fn word(&mut self) -> String {
        let first = *self.random.pick(&["a", "b", "f", "t", "p"]);
        let word = first.to_string() + &self.tail();
        if word == "true" || word == "fail" {
            return "p".into();
        }
        word
    }

    fn label(&mut self) -> String {
        match self.random.below(8) {
            0 => "true".into(),
            1 => "fail".into(),
            2 => self.random.below(3_000).to_string(),
            _ => self.word(),
        }
    }

    /// Different variables, which may cover others.
    fn fresh(&mut self, count: usize) -> Vec<String> {
        let mut names: Vec<String> = Vec::new();
        while names.len() < count {
            let first = *self.random.pick(&["X", "Y", "Z", "T"]);
            let name = first.to_string() + &self.tail();
            if !names.contains(&name) || self.slip() {
                names.push(name);
            }
        }
        names
    }

    fn variable(&mut self, scope: &[String]) -> String {
        if scope.is_empty() || self.slip() {
            return "W".into();
        }
        self.random.pick(scope).clone()
    }

    fn list(&mut self, count: usize, scope: &[String]) {
        if count > 0 {
            let list: Vec<_> = (0..count).map(|_| self.variable(scope)).collect();
            self.out += &format!("({})", list.join(","));
        }
    }

    fn statement(&mut self, scope: &[String], depth: usize, budget: &mut usize) {
        loop {
            self.simple(scope, depth, budget);
            if *budget == 0 || self.random.once_in(2) {
                return;
            }
            self.out += *self.random.pick(&[",", ", ", ",\n  "]);
        }
    }

    fn simple(&mut self, scope: &[String], depth: usize, budget: &mut usize) {
        *budget = budget.saturating_sub(1);
        let some = usize::from(!scope.is_empty());
        // a deep text goes on to its depth
        let deep = if depth > 8 {
            200
        } else {
            3 * usize::from(depth > 0 && *budget > 0)
        };
        match self
            .random
            .weighted(&[1, 1, 3 * some, 5 * some, 3, deep, deep, 2 * deep])
        {
            0 => self.out += "true",
            1 => self.out += "fail",
            2 => {
                let (x, y) = (self.variable(scope), self.variable(scope));
                self.out += &format!("{x} = {y}");
            }
            3 => {
                let (x, label) = (self.variable(scope), self.label());
                self.out += &format!("{x}={label}");
                let count = self.random.weighted(&[8, 4, 4, 2, 1, 1, 1, 1, 1]);
                let count = if self.slip() { 9 } else { count };
                self.list(count, scope);
            }
            4 => {
                let fits = |head: &&(String, usize)| head.1 == 0 || !scope.is_empty();
                let heads: Vec<_> = self.heads.iter().filter(fits).cloned().collect();
                if heads.is_empty() {
                    self.out += "true";
                    return;
                }
                let (name, mut arity) = self.random.pick(&heads).clone();
                if self.slip() {
                    arity += 1;
                }
                self.out += &name;
                self.list(arity, scope);
            }
            5 => {
                self.out += "(";
                self.statement(scope, depth - 1, budget);
                self.out += ")";
            }
            6 => {
                self.out += "( ";
                let count = self.random.between(1, 4);
                let inner = self.hide(count, scope);
                self.statement(&inner, depth - 1, budget);
                self.out += ")";
            }
            _ => {
                let operator = *self.random.pick(&["?", "->", "|"]);
                let clauses = self.random.between(1, 3);
                for clause in 0..clauses {
                    self.out += if clause == 0 { "(" } else { " ; " };
                    let mut inner = scope.to_vec();
                    if self.random.once_in(2) {
                        let count = self.random.between(1, 3);
                        inner = self.hide(count, scope);
                    }
                    // one deep piece is enough
                    let (guard, body) = if self.random.once_in(2) {
                        (depth - 1, (depth - 1).min(2))
                    } else {
                        ((depth - 1).min(2), depth - 1)
                    };
                    let here = if clause == 0 { (guard, body) } else { (0, 1) };
                    self.statement(&inner, here.0.min(depth - 1), budget);
                    let operator = if self.slip() { "|" } else { operator };
                    self.out += operator;
                    self.statement(&inner, here.1.min(depth - 1), budget);
                }
                self.out += ")";
            }
        }
    }

    fn hide(&mut self, count: usize, scope: &[String]) -> Vec<String> {
        let hidden = self.fresh(count);
        self.out += &format!("{} : ", hidden.join(","));
        [scope, &hidden].concat()
    }
}
