//! Texts once more, by plain recursion and one walk for each refusal.

use std::rc::Rc;

/// A variable of a statement: by name, or by number in a configuration.
#[derive(Clone, Debug, PartialEq, Eq)]
pub enum Var {
    Name(Rc<str>),
    Number(u32),
}

/// A statement.
#[derive(Clone, Debug, PartialEq, Eq)]
pub enum Stmt {
    True,
    Fail,
    Same(Var, Var),
    Built(Var, Rc<str>, Vec<Var>),
    Call(Rc<str>, Vec<Var>),
    Comp(Box<Stmt>, Box<Stmt>),
    Hide(Vec<Rc<str>>, Box<Stmt>),
    Choice(Vec<Clause>),
}

/// A clause of a choice.
#[derive(Clone, Debug, PartialEq, Eq)]
pub struct Clause {
    pub hidden: Vec<Rc<str>>,
    pub guard: Stmt,
    pub operator: &'static str,
    pub body: Stmt,
}

/// A definition.
#[derive(Clone, Debug, PartialEq, Eq)]
pub struct Def {
    pub name: Rc<str>,
    pub parameters: Vec<Rc<str>>,
    pub body: Stmt,
}

/// Texts with more brackets open, or more tokens, than this are left to the fast
/// reader: this one uses the machine's stack.
const TOO_DEEP: usize = 500;
const TOO_LONG: usize = 4_000;

/// What stopped the reading.
#[derive(Clone, Copy, Debug, PartialEq, Eq)]
pub enum Stop {
    Refused(u32),
    TooDeep,
}

type Read<T> = Result<T, Stop>;
const GRAMMAR: Stop = Stop::Refused(2);

struct Reader {
    tokens: Vec<String>,
    at: usize,
    deepest: usize,
}

fn is_variable(token: &str) -> bool {
    token.as_bytes()[0].is_ascii_uppercase()
}

fn is_word(token: &str) -> bool {
    token.as_bytes()[0].is_ascii_lowercase()
}

fn is_digits(token: &str) -> bool {
    token.as_bytes()[0].is_ascii_digit()
}

fn tokens(text: &[u8]) -> Read<Vec<String>> {
    let mut found = Vec::new();
    let mut rest = text;
    while let Some(&byte) = rest.first() {
        let length = if byte.is_ascii_alphabetic() {
            let inside = |b: &u8| b.is_ascii_alphanumeric() || *b == b'_';
            rest.iter().position(|b| !inside(b)).unwrap_or(rest.len())
        } else if byte.is_ascii_digit() {
            let other = |b: &u8| !b.is_ascii_digit();
            rest.iter().position(other).unwrap_or(rest.len())
        } else if rest.starts_with(b":=") || rest.starts_with(b"->") {
            2
        } else {
            1
        };
        let token = std::str::from_utf8(&rest[..length]).map_err(|_| GRAMMAR)?;
        rest = &rest[length..];
        match token {
            " " | "\t" | "\n" => continue,
            "(" | ")" | "," | ";" | ":" | ":=" | "=" | "." | "?" | "->" | "|" => {}
            _ if byte.is_ascii_alphanumeric() && length <= 32 => {}
            _ => return Err(GRAMMAR),
        }
        found.push(token.to_string());
    }
    if found.len() > TOO_LONG {
        return Err(Stop::TooDeep);
    }
    Ok(found)
}

impl Reader {
    fn peek(&self, ahead: usize) -> &str {
        self.tokens.get(self.at + ahead).map_or("#", |t| t.as_str())
    }

    fn take(&mut self, token: &str) -> Read<()> {
        if self.peek(0) != token {
            return Err(GRAMMAR);
        }
        self.at += 1;
        Ok(())
    }

    fn variable(&mut self) -> Read<Rc<str>> {
        let token = self.peek(0);
        if !is_variable(token) {
            return Err(GRAMMAR);
        }
        let name = token.into();
        self.at += 1;
        Ok(name)
    }

    fn list(&mut self) -> Read<Vec<Rc<str>>> {
        let mut list = vec![self.variable()?];
        while self.peek(0) == "," {
            self.at += 1;
            list.push(self.variable()?);
        }
        Ok(list)
    }

    fn arguments(&mut self) -> Read<Vec<Rc<str>>> {
        if self.peek(0) != "(" {
            return Ok(vec![]);
        }
        self.at += 1;
        let list = self.list()?;
        self.take(")")?;
        Ok(list)
    }

    fn statement(&mut self, depth: usize) -> Read<Stmt> {
        let first = self.simple(depth)?;
        if self.peek(0) != "," {
            return Ok(first);
        }
        self.at += 1;
        let rest = self.statement(depth)?;
        Ok(Stmt::Comp(Box::new(first), Box::new(rest)))
    }

    fn simple(&mut self, depth: usize) -> Read<Stmt> {
        let token = self.peek(0).to_string();
        if token == "(" {
            self.at += 1;
            return self.bracket(depth + 1);
        }
        if is_variable(&token) {
            let left = Var::Name(self.variable()?);
            self.take("=")?;
            if is_variable(self.peek(0)) {
                return Ok(Stmt::Same(left, Var::Name(self.variable()?)));
            }
            let name = self.peek(0).to_string();
            if !is_word(&name) && !is_digits(&name) {
                return Err(GRAMMAR);
            }
            self.at += 1;
            return Ok(Stmt::Built(left, name.into(), names(self.arguments()?)));
        }
        if !is_word(&token) {
            return Err(GRAMMAR);
        }
        self.at += 1;
        match token.as_str() {
            "true" => Ok(Stmt::True),
            "fail" => Ok(Stmt::Fail),
            _ => Ok(Stmt::Call(token.into(), names(self.arguments()?))),
        }
    }

    fn bracket(&mut self, depth: usize) -> Read<Stmt> {
        self.deepest = self.deepest.max(depth);
        if depth > TOO_DEEP {
            return Err(Stop::TooDeep);
        }
        let mut clauses = Vec::new();
        loop {
            let mut hidden = vec![];
            if is_variable(self.peek(0)) && self.peek(1) != "=" {
                hidden = self.list()?;
                self.take(":")?;
            }
            let guard = self.statement(depth)?;
            let operator = match self.peek(0) {
                "?" => "?",
                "->" => "->",
                "|" => "|",
                ")" if clauses.is_empty() => {
                    self.at += 1;
                    return Ok(match hidden.len() {
                        0 => guard,
                        _ => Stmt::Hide(hidden, Box::new(guard)),
                    });
                }
                _ => return Err(GRAMMAR),
            };
            self.at += 1;
            let body = self.statement(depth)?;
            clauses.push(Clause {
                hidden,
                guard,
                operator,
                body,
            });
            if self.peek(0) != ";" {
                break;
            }
            self.at += 1;
        }
        self.take(")")?;
        Ok(Stmt::Choice(clauses))
    }
}

fn names(list: Vec<Rc<str>>) -> Vec<Var> {
    list.into_iter().map(Var::Name).collect()
}

/// Calls `visit` on a statement and all statements in it.
fn each<'a>(statement: &'a Stmt, visit: &mut dyn FnMut(&'a Stmt)) {
    visit(statement);
    match statement {
        Stmt::Comp(a, b) => {
            each(a, visit);
            each(b, visit);
        }
        Stmt::Hide(_, inner) => each(inner, visit),
        Stmt::Choice(clauses) => {
            for clause in clauses {
                each(&clause.guard, visit);
                each(&clause.body, visit);
            }
        }
        _ => {}
    }
}

/// The variables free in a statement, by first occurrence.
pub fn free(statement: &Stmt, bound: &[Rc<str>], found: &mut Vec<Rc<str>>) {
    let mut meet = |var: &Var| {
        if let Var::Name(name) = var {
            if !bound.contains(name) && !found.contains(name) {
                found.push(name.clone());
            }
        }
    };
    let more = |hidden: &[Rc<str>]| [bound, hidden].concat();
    match statement {
        Stmt::True | Stmt::Fail => {}
        Stmt::Same(x, y) => {
            meet(x);
            meet(y);
        }
        Stmt::Built(x, _, list) => {
            meet(x);
            list.iter().for_each(meet);
        }
        Stmt::Call(_, list) => list.iter().for_each(meet),
        Stmt::Comp(a, b) => {
            free(a, bound, found);
            free(b, bound, found);
        }
        Stmt::Hide(hidden, inner) => free(inner, &more(hidden), found),
        Stmt::Choice(clauses) => {
            for clause in clauses {
                free(&clause.guard, &more(&clause.hidden), found);
                free(&clause.body, &more(&clause.hidden), found);
            }
        }
    }
}

fn doubled(list: &[Rc<str>]) -> bool {
    (1..list.len()).any(|i| list[..i].contains(&list[i]))
}

/// Whether some statement in `whole` is as asked.
fn some(whole: &Stmt, asked: impl Fn(&Stmt) -> bool) -> bool {
    let mut found = false;
    each(whole, &mut |statement| found |= asked(statement));
    found
}

fn over_counts(whole: &Stmt) -> bool {
    some(whole, |s| match s {
        Stmt::Built(_, _, list) | Stmt::Call(_, list) => list.len() > 8,
        _ => false,
    })
}

fn doubles(whole: &Stmt) -> bool {
    some(whole, |s| match s {
        Stmt::Hide(hidden, _) => doubled(hidden),
        Stmt::Choice(clauses) => clauses.iter().any(|c| doubled(&c.hidden)),
        _ => false,
    })
}

fn undefined(whole: &Stmt, defs: &[Def]) -> bool {
    some(whole, |s| match s {
        Stmt::Call(name, list) => !defs
            .iter()
            .any(|d| d.name == *name && d.parameters.len() == list.len()),
        _ => false,
    })
}

fn mixed(whole: &Stmt) -> bool {
    some(whole, |s| match s {
        Stmt::Choice(clauses) => clauses.iter().any(|c| c.operator != clauses[0].operator),
        _ => false,
    })
}

fn refuse_if(refused: bool, number: u32) -> Read<()> {
    if refused {
        Err(Stop::Refused(number))
    } else {
        Ok(())
    }
}

/// Reads a program.
pub fn program(text: &[u8]) -> Read<Vec<Def>> {
    refuse_if(text.len() > 16_384, 1)?;
    let mut reader = Reader {
        tokens: tokens(text)?,
        at: 0,
        deepest: 0,
    };
    let mut defs: Vec<Def> = Vec::new();
    while reader.at < reader.tokens.len() {
        let name = reader.peek(0).to_string();
        refuse_if(!is_word(&name) || name == "true" || name == "fail", 2)?;
        reader.at += 1;
        let parameters = reader.arguments()?;
        reader.take(":=")?;
        let body = reader.statement(0)?;
        reader.take(".")?;
        defs.push(Def {
            name: name.into(),
            parameters,
            body,
        });
    }
    let any = |asked: &dyn Fn(&Def) -> bool| defs.iter().any(asked);
    let many = any(&|d| d.parameters.len() > 8 || over_counts(&d.body));
    refuse_if(defs.len() > 128 || reader.deepest > 32 || many, 3)?;
    let same = |a: &Def, b: &Def| a.name == b.name && a.parameters.len() == b.parameters.len();
    let twice = (1..defs.len()).any(|i| defs[..i].iter().any(|d| same(d, &defs[i])));
    refuse_if(
        twice || any(&|d| doubled(&d.parameters) || doubles(&d.body)),
        4,
    )?;
    refuse_if(any(&|d| undefined(&d.body, &defs)), 5)?;
    let open = any(&|d| {
        let mut found = Vec::new();
        free(&d.body, &d.parameters, &mut found);
        !found.is_empty()
    });
    refuse_if(open, 6)?;
    refuse_if(any(&|d| mixed(&d.body)), 7)?;
    Ok(defs)
}

/// Reads a query and its variables.
pub fn query(text: &[u8], defs: &[Def]) -> Read<(Stmt, Vec<Rc<str>>)> {
    refuse_if(text.len() > 4_096, 1)?;
    let mut reader = Reader {
        tokens: tokens(text)?,
        at: 0,
        deepest: 0,
    };
    let statement = reader.statement(0)?;
    reader.take(".")?;
    refuse_if(reader.at < reader.tokens.len(), 2)?;
    let mut variables = Vec::new();
    free(&statement, &[], &mut variables);
    let many = variables.len() > 16 || over_counts(&statement);
    refuse_if(reader.deepest > 32 || many, 3)?;
    refuse_if(doubles(&statement), 4)?;
    refuse_if(undefined(&statement, defs), 5)?;
    refuse_if(mixed(&statement), 7)?;
    Ok((statement, variables))
}
