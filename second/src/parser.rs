//! Tokens to concrete syntax: refusal 2, and what refusal 3 needs to know.
//!
//! Refusal 2 is decided over the whole text with counts and depth aside, and a
//! text may open thousands of brackets, so open brackets are kept on a stack of
//! our own and the result is held in flat tables.

use crate::lexer::Token;
use crate::limits::{ARGUMENTS, DEFINITIONS, DEPTH};
use crate::names::Name;
use crate::refusal::Refusal;
use crate::syntax::{Operator, Run};

/// A simple statement as written.
#[derive(Clone, Copy, Debug)]
pub enum Simple {
    True,
    Fail,
    Same(Name, Name),
    Built(Name, Name, Run),
    Atom(Name, Run),
    /// `(S)`
    Plain(Run),
    /// `(X,Y : S)`
    Hiding(Run, Run),
    /// clauses parted by `;`
    Choice(Run),
}

/// A clause as written; guard and body are runs of simple statements.
#[derive(Clone, Copy, Debug)]
pub struct Clause {
    pub hidden: Run,
    pub guard: Run,
    pub operator: Operator,
    pub body: Run,
}

/// A definition as written.
#[derive(Clone, Copy, Debug)]
pub struct Definition {
    pub name: Name,
    pub parameters: Run,
    pub body: Run,
}

/// A text as written. A statement is a run in `simples`, a list of variables a
/// run in `variables`.
#[derive(Debug, Default)]
pub struct Concrete {
    pub simples: Vec<Simple>,
    pub clauses: Vec<Clause>,
    pub variables: Vec<Name>,
    pub definitions: Vec<Definition>,
    /// A count or the depth is over its limit: refusal 3.
    pub counts_over: bool,
}

/// A bracket that is open.
struct Open {
    /// Where its statement in the making begins in `Parser::simples`.
    simples: usize,
    /// Where its finished clauses begin in `Parser::clauses`.
    clauses: usize,
    hidden: Run,
    /// The guard and operator of the clause in the making, once read.
    guard: Option<(Run, Operator)>,
}

struct Parser<'a> {
    tokens: &'a [Token],
    at: usize,
    /// Simple statements and clauses of what is still open, innermost last.
    simples: Vec<Simple>,
    clauses: Vec<Clause>,
    done: Concrete,
}

type Parsed<T> = Result<T, Refusal>;

impl Parser<'_> {
    fn peek(&self, ahead: usize) -> Option<Token> {
        self.tokens.get(self.at + ahead).copied()
    }

    fn next(&mut self) -> Parsed<Token> {
        let token = self.peek(0).ok_or(Refusal::Grammar)?;
        self.at += 1;
        Ok(token)
    }

    fn expect(&mut self, token: Token) -> Parsed<()> {
        if self.next()? == token {
            Ok(())
        } else {
            Err(Refusal::Grammar)
        }
    }

    fn variable(&mut self) -> Parsed<Name> {
        match self.next()? {
            Token::Variable(name) => Ok(name),
            _ => Err(Refusal::Grammar),
        }
    }

    /// Variables parted by commas, up to and with the closing token.
    fn variables(&mut self, close: Token) -> Parsed<Run> {
        let start = self.done.variables.len();
        loop {
            let name = self.variable()?;
            self.done.variables.push(name);
            let token = self.next()?;
            if token == close {
                return Ok(run(start, self.done.variables.len()));
            }
            if token != Token::Comma {
                return Err(Refusal::Grammar);
            }
        }
    }

    /// The arguments or parameters after a name, if there are any.
    fn arguments(&mut self) -> Parsed<Run> {
        if self.peek(0) != Some(Token::Open) {
            return Ok(run(0, 0));
        }
        self.at += 1;
        let list = self.variables(Token::Close)?;
        self.done.counts_over |= list.length as usize > ARGUMENTS;
        Ok(list)
    }

    /// A hidden list and its colon, if there is one: no statement begins with a
    /// variable and a comma or colon.
    fn hidden(&mut self) -> Parsed<Run> {
        match (self.peek(0), self.peek(1)) {
            (Some(Token::Variable(_)), Some(Token::Comma | Token::Colon)) => {
                self.variables(Token::Colon)
            }
            _ => Ok(run(0, 0)),
        }
    }

    /// Moves the statement in the making to its table.
    fn close_statement(&mut self, from: usize) -> Run {
        let start = self.done.simples.len();
        self.done.simples.extend(self.simples.drain(from..));
        run(start, self.done.simples.len())
    }

    /// A statement, up to and with the full stop after it.
    fn statement(&mut self) -> Parsed<Run> {
        let mut open: Vec<Open> = Vec::new();
        loop {
            if let Some(simple) = self.simple_or_open(&mut open)? {
                self.simples.push(simple);
                // What may follow a simple statement: brackets may close here.
                loop {
                    let token = self.next()?;
                    let Some(bracket) = open.last_mut() else {
                        match token {
                            Token::Comma => break,
                            Token::Stop => return Ok(self.close_statement(0)),
                            _ => return Err(Refusal::Grammar),
                        }
                    };
                    match token {
                        Token::Comma => break,
                        Token::Operator(operator) if bracket.guard.is_none() => {
                            let guard = self.close_statement(bracket.simples);
                            bracket.guard = Some((guard, operator));
                            break;
                        }
                        Token::Semicolon => {
                            self.close_clause(bracket)?;
                            bracket.hidden = self.hidden()?;
                            break;
                        }
                        Token::Close => {
                            let simple = self.close_bracket(bracket)?;
                            open.pop();
                            self.simples.push(simple);
                        }
                        _ => return Err(Refusal::Grammar),
                    }
                }
            }
        }
    }

    /// Reads one atom, or opens one bracket and hands back nothing.
    fn simple_or_open(&mut self, open: &mut Vec<Open>) -> Parsed<Option<Simple>> {
        let simple = match self.next()? {
            Token::True(_) => Simple::True,
            Token::Fail(_) => Simple::Fail,
            Token::Word(name) => Simple::Atom(name, self.arguments()?),
            Token::Variable(left) => {
                self.expect(Token::Equals)?;
                match self.next()? {
                    Token::Variable(right) => Simple::Same(left, right),
                    Token::Word(name)
                    | Token::Digits(name)
                    | Token::True(name)
                    | Token::Fail(name) => Simple::Built(left, name, self.arguments()?),
                    _ => return Err(Refusal::Grammar),
                }
            }
            Token::Open => {
                let hidden = self.hidden()?;
                open.push(Open {
                    simples: self.simples.len(),
                    clauses: self.clauses.len(),
                    hidden,
                    guard: None,
                });
                self.done.counts_over |= open.len() > DEPTH;
                return Ok(None);
            }
            _ => return Err(Refusal::Grammar),
        };
        Ok(Some(simple))
    }

    /// Ends the clause in the making; it must have had its operator.
    fn close_clause(&mut self, bracket: &mut Open) -> Parsed<()> {
        let (guard, operator) = bracket.guard.take().ok_or(Refusal::Grammar)?;
        let body = self.close_statement(bracket.simples);
        self.clauses.push(Clause {
            hidden: bracket.hidden,
            guard,
            operator,
            body,
        });
        Ok(())
    }

    /// Ends a bracket: a choice, or with no operator in it a hiding or plain.
    fn close_bracket(&mut self, bracket: &mut Open) -> Parsed<Simple> {
        if bracket.guard.is_some() || self.clauses.len() > bracket.clauses {
            self.close_clause(bracket)?;
            let start = self.done.clauses.len();
            self.done
                .clauses
                .extend(self.clauses.drain(bracket.clauses..));
            return Ok(Simple::Choice(run(start, self.done.clauses.len())));
        }
        let statement = self.close_statement(bracket.simples);
        Ok(if bracket.hidden.length == 0 {
            Simple::Plain(statement)
        } else {
            Simple::Hiding(bracket.hidden, statement)
        })
    }

    /// `p(X,Y) := S.`
    fn definition(&mut self) -> Parsed<()> {
        let Token::Word(name) = self.next()? else {
            return Err(Refusal::Grammar);
        };
        let parameters = self.arguments()?;
        self.expect(Token::Defines)?;
        let body = self.statement()?;
        self.done.definitions.push(Definition {
            name,
            parameters,
            body,
        });
        self.done.counts_over |= self.done.definitions.len() > DEFINITIONS;
        Ok(())
    }
}

fn run(start: usize, end: usize) -> Run {
    Run {
        start: start as u32,
        length: (end - start) as u32,
    }
}

fn parser(tokens: &[Token]) -> Parser<'_> {
    Parser {
        tokens,
        at: 0,
        simples: Vec::new(),
        clauses: Vec::new(),
        done: Concrete::default(),
    }
}

/// The concrete syntax of a program's tokens, or refusal 2.
pub fn program(tokens: &[Token]) -> Parsed<Concrete> {
    let mut parser = parser(tokens);
    while parser.peek(0).is_some() {
        parser.definition()?;
    }
    Ok(parser.done)
}

/// The concrete syntax of a query's tokens and its statement, or refusal 2.
pub fn query(tokens: &[Token]) -> Parsed<(Concrete, Run)> {
    let mut parser = parser(tokens);
    let statement = parser.statement()?;
    if parser.peek(0).is_some() {
        return Err(Refusal::Grammar);
    }
    Ok((parser.done, statement))
}
