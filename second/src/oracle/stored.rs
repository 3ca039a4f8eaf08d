//! Stores read once more, by plain recursion, into plain trees.

use super::logic::Con;
use super::model::{constraint, Goal};
use super::text::{Clause, Def, Stmt, Var};
use std::rc::Rc;

/// Not well formed, or too large to be judged slowly.
pub enum No {
    Formed,
    Small,
}

pub type Read<T> = Result<T, No>;

pub fn demand(good: bool) -> Read<()> {
    if good {
        Ok(())
    } else {
        Err(No::Formed)
    }
}

pub fn small(good: bool) -> Read<()> {
    if good {
        Ok(())
    } else {
        Err(No::Small)
    }
}

/// What a store holds.
pub struct State {
    pub defs: Vec<Def>,
    /// The names of the query's variables.
    pub query: Vec<Rc<str>>,
    pub top: Goal,
    pub next: u32,
}

/// Class and value of a word; of a number, its low byte and the others.
type Word = (u8, usize);

/// As many zeros as the longest region has bytes.
static ZEROS: [u8; 3 * 53_257] = [0; 3 * 53_257];

/// The first `count` triples of a region of `room`, zeros behind them.
fn region<'a>(bytes: &mut &'a [u8], room: usize, count: usize) -> Read<Vec<&'a [u8]>> {
    let (region, rest) = bytes.split_at(3 * room);
    *bytes = rest;
    demand(count <= room)?;
    let unused = &region[3 * count..];
    demand(*unused == ZEROS[..unused.len()])?;
    Ok(region[..3 * count].chunks(3).collect())
}

fn number(triple: &[u8]) -> usize {
    usize::from(triple[0]) + 256 * usize::from(triple[1]) + 65_536 * usize::from(triple[2])
}

fn words(triples: &[&[u8]]) -> Vec<Word> {
    let word = |t: &&[u8]| (t[0], usize::from(t[1]) + 256 * usize::from(t[2]));
    triples.iter().map(word).collect()
}

/// Reads a store.
pub fn state(bytes: &[u8]) -> Read<State> {
    let mut rest = &bytes[..245_853];
    let header = region(&mut rest, 6, 6)?;
    let header: Vec<usize> = header.into_iter().map(number).collect();
    let [form, nodes, rules, variables, goals, next] = header[..] else {
        return Err(No::Formed);
    };
    demand(nodes <= 20_489 && rules <= 40_960 && nodes + rules <= 53_257)?;
    small(nodes < 200 && rules < 3_000 && goals < 3_000)?;
    demand(form == 2 && nodes > 0)?;
    // The program's words stand right behind the names.
    let mut cells = region(&mut rest, 53_257, nodes + rules)?;
    let rules = words(&cells.split_off(nodes));
    let cells: Vec<usize> = cells.into_iter().map(number).collect();
    let variables = region(&mut rest, 16, variables)?;
    let variables: Vec<usize> = variables.into_iter().map(number).collect();
    let goals = words(&region(&mut rest, 28_672, goals)?);
    demand(next <= 65_535)?;
    let names = names(&cells)?;
    let mut reader = Reader {
        names: &names,
        words: &rules,
        depth: 0,
    };
    let mut defs = Vec::new();
    while !reader.words.is_empty() {
        defs.push(reader.definition()?);
    }
    reader.words = &goals;
    let top = reader.goal()?;
    demand(reader.words.is_empty() && matches!(top, Goal::Or(_)))?;
    let query: Vec<Rc<str>> = variables
        .iter()
        .map(|&node| names.get(node).cloned().ok_or(No::Formed))
        .collect::<Read<_>>()?;
    Ok(State {
        defs,
        query,
        top,
        next: next as u32,
    })
}

/// The names of a table, each byte a letter; all are different.
fn names(cells: &[usize]) -> Read<Vec<Rc<str>>> {
    demand(cells[0] == 0)?;
    let mut names: Vec<Rc<str>> = vec!["".into()];
    for &cell in &cells[1..] {
        let parent = names.get(cell / 256).ok_or(No::Formed)?;
        let name = format!("{parent}{}", (cell % 256) as u8 as char).into();
        demand(!names.contains(&name))?;
        names.push(name);
    }
    Ok(names)
}

struct Reader<'a> {
    names: &'a [Rc<str>],
    words: &'a [Word],
    depth: usize,
}

/// The name of the variable of a level.
fn level(level: usize) -> Rc<str> {
    format!("V{level}").into()
}

impl Reader<'_> {
    fn take(&mut self) -> Read<Word> {
        let (&first, rest) = self.words.split_first().ok_or(No::Formed)?;
        self.words = rest;
        Ok(first)
    }

    fn peek(&self) -> Word {
        self.words.first().copied().unwrap_or((0, 0))
    }

    fn expect(&mut self, word: Word) -> Read<()> {
        demand(self.take()? == word)
    }

    fn end(&mut self) -> Read<()> {
        self.expect((0, 0))
    }

    fn count(&mut self) -> Read<usize> {
        let (class, value) = self.take()?;
        demand(class == 3)?;
        Ok(value)
    }

    fn name(&mut self) -> Read<Rc<str>> {
        let node = self.count()?;
        self.names.get(node).cloned().ok_or(No::Formed)
    }

    fn var(&mut self, bound: usize) -> Read<Var> {
        match self.take()? {
            (1, number) => Ok(Var::Number(number as u32)),
            (2, l) if l < bound => Ok(Var::Name(level(l))),
            _ => Err(No::Formed),
        }
    }

    fn vars(&mut self, bound: usize) -> Read<Vec<Var>> {
        let mut list = Vec::new();
        while self.peek().0 == 1 || self.peek().0 == 2 {
            list.push(self.var(bound)?);
        }
        Ok(list)
    }

    fn deeper(&mut self) -> Read<()> {
        self.depth += 1;
        small(self.depth < 200)
    }

    fn definition(&mut self) -> Read<Def> {
        let name = self.name()?;
        let count = self.count()?;
        small(count < 1_000)?;
        Ok(Def {
            name,
            parameters: (0..count).map(level).collect(),
            body: self.statement(count)?,
        })
    }

    fn hidden(&mut self, bound: usize) -> Read<Vec<Rc<str>>> {
        let count = self.count()?;
        small(count < 1_000)?;
        Ok((bound..bound + count).map(level).collect())
    }

    fn statement(&mut self, bound: usize) -> Read<Stmt> {
        self.deeper()?;
        let statement = match self.take()? {
            (5, 2) => Stmt::True,
            (5, 3) => Stmt::Fail,
            (5, 4) => Stmt::Same(self.var(bound)?, self.var(bound)?),
            (5, 5) => Stmt::Built(self.var(bound)?, self.name()?, self.vars(bound)?),
            (5, 6) => Stmt::Call(self.name()?, self.vars(bound)?),
            (5, 7) => Stmt::Comp(
                Box::new(self.statement(bound)?),
                Box::new(self.statement(bound)?),
            ),
            (5, 8) => {
                let hidden = self.hidden(bound)?;
                let bound = bound + hidden.len();
                Stmt::Hide(hidden, Box::new(self.statement(bound)?))
            }
            (5, 10) => self.choice("?", bound)?,
            (5, 11) => self.choice("->", bound)?,
            (5, 12) => self.choice("|", bound)?,
            _ => return Err(No::Formed),
        };
        self.depth -= 1;
        self.end()?;
        Ok(statement)
    }

    fn choice(&mut self, operator: &'static str, bound: usize) -> Read<Stmt> {
        let mut clauses = Vec::new();
        while self.peek() != (0, 0) {
            self.expect((5, 9))?;
            let hidden = self.hidden(bound)?;
            let bound = bound + hidden.len();
            clauses.push(Clause {
                guard: self.statement(bound)?,
                body: self.statement(bound)?,
                operator,
                hidden,
            });
            self.end()?;
        }
        Ok(Stmt::Choice(clauses))
    }

    /// An or-box or an and-box.
    fn goal(&mut self) -> Read<Goal> {
        self.deeper()?;
        let goal = match self.take()? {
            (4, 0) => Goal::Or(self.list(Reader::goal)?),
            (4, 1) => {
                self.expect((5, 0))?;
                let mut locals = Vec::new();
                while self.peek() != (0, 0) {
                    let (class, value) = self.take()?;
                    demand(class == 1)?;
                    locals.push(value as u32);
                }
                self.end()?;
                self.expect((5, 1))?;
                let store = self.list(Reader::constraint)?;
                self.end()?;
                Goal::And(locals, store, self.list(Reader::member)?)
            }
            _ => return Err(No::Formed),
        };
        self.depth -= 1;
        self.end()?;
        Ok(goal)
    }

    /// All up to an end.
    fn list<T>(&mut self, one: fn(&mut Self) -> Read<T>) -> Read<Vec<T>> {
        let mut list = Vec::new();
        while self.peek() != (0, 0) {
            list.push(one(self)?);
        }
        Ok(list)
    }

    /// What rule 1 can have stored.
    fn constraint(&mut self) -> Read<Con> {
        let atom = self.statement(0)?;
        constraint(&atom).ok_or(No::Formed)
    }

    fn member(&mut self) -> Read<Goal> {
        let operator = match self.take()? {
            (4, 3) => {
                let member = Goal::Member(self.statement(0)?);
                self.end()?;
                return Ok(member);
            }
            (4, 4) => "?",
            (4, 5) => "->",
            (4, 6) => "|",
            _ => return Err(No::Formed),
        };
        let list = self.list(|reader| {
            reader.expect((4, 2))?;
            let guard = Box::new(reader.goal()?);
            let body = reader.statement(0)?;
            reader.end()?;
            Ok(Goal::Guarded(guard, body))
        })?;
        self.end()?;
        Ok(Goal::Choice(operator, list))
    }
}
