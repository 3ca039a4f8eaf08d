//! Bytes to tokens, "the longest first".

use crate::limits::NAME_BYTES;
use crate::names::{Name, Names};
use crate::refusal::Refusal;
use crate::syntax::Operator;

/// A token of a program or query text.
#[derive(Clone, Copy, Debug, PartialEq, Eq)]
pub enum Token {
    /// A small letter and then letters, digits and underscores.
    Word(Name),
    /// Digits alone.
    Digits(Name),
    /// A capital and then letters, digits and underscores.
    Variable(Name),
    /// The words `true` and `fail`, which name no predicate.
    True(Name),
    Fail(Name),
    Open,
    Close,
    Comma,
    Semicolon,
    Colon,
    Defines,
    Equals,
    Stop,
    Operator(Operator),
}

fn goes_on(byte: u8) -> bool {
    byte.is_ascii_alphanumeric() || byte == b'_'
}

fn run(text: &[u8], from: usize, goes_on: impl Fn(u8) -> bool) -> usize {
    text[from..].iter().take_while(|&&b| goes_on(b)).count()
}

/// The tokens of a text. Bytes that begin no token, and names of more than 32
/// bytes, are refused by 2.
pub fn tokens(text: &[u8], names: &mut Names) -> Result<Vec<Token>, Refusal> {
    let mut found = Vec::with_capacity(text.len() / 2);
    let mut at = 0;
    while let Some(&first) = text.get(at) {
        let second = text.get(at + 1).copied();
        let (token, length) = match first {
            // "Space, tab and newline part tokens."
            b' ' | b'\t' | b'\n' => {
                at += 1;
                continue;
            }
            b'a'..=b'z' | b'A'..=b'Z' | b'0'..=b'9' => {
                let length = if first.is_ascii_digit() {
                    run(text, at, |b| b.is_ascii_digit())
                } else {
                    run(text, at, goes_on)
                };
                if length > NAME_BYTES {
                    return Err(Refusal::Grammar);
                }
                let spelling = &text[at..at + length];
                let name = names.number(spelling);
                let token = match first {
                    b'0'..=b'9' => Token::Digits(name),
                    b'A'..=b'Z' => Token::Variable(name),
                    _ if spelling == b"true" => Token::True(name),
                    _ if spelling == b"fail" => Token::Fail(name),
                    _ => Token::Word(name),
                };
                (token, length)
            }
            b'(' => (Token::Open, 1),
            b')' => (Token::Close, 1),
            b',' => (Token::Comma, 1),
            b';' => (Token::Semicolon, 1),
            b':' if second == Some(b'=') => (Token::Defines, 2),
            b':' => (Token::Colon, 1),
            b'=' => (Token::Equals, 1),
            b'.' => (Token::Stop, 1),
            b'?' => (Token::Operator(Operator::Wait), 1),
            b'|' => (Token::Operator(Operator::Commit), 1),
            b'-' if second == Some(b'>') => (Token::Operator(Operator::Condition), 2),
            _ => return Err(Refusal::Grammar),
        };
        found.push(token);
        at += length;
    }
    Ok(found)
}
