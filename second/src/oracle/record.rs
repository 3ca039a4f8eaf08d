//! The printed record once more, from the slow model.

use super::rewrite::Model;
use super::text::{program, query, Stop};
use crate::limits::Limits;
use crate::record::Texts;
use std::rc::Rc;

/// The start of three texts and their steps; the refusal's number otherwise.
pub fn start(texts: &Texts, limits: Limits) -> Result<(Model, Vec<[u32; 3]>), Stop> {
    let defs = program(&texts.rules)?;
    let (statement, variables) = query(&texts.query, &defs)?;
    let steps = steps(&texts.steps).map_err(Stop::Refused)?;
    let model = Model::start(Rc::new(defs), &statement, variables, limits);
    Ok((model.map_err(Stop::Refused)?, steps))
}

/// "one step a line, each line ended by a newline"
pub fn steps(text: &[u8]) -> Result<Vec<[u32; 3]>, u32> {
    if text.len() > 16_384 {
        return Err(1);
    }
    let mut lines: Vec<&[u8]> = text.split(|&b| b == b'\n').collect();
    if lines.pop() != Some(b"") {
        return Err(18);
    }
    let number = |digits: &[u8]| {
        let digits = std::str::from_utf8(digits).ok()?;
        let value = digits.trim_start_matches('0');
        let plain = !digits.is_empty() && digits.bytes().all(|b| b.is_ascii_digit());
        match value {
            _ if !plain => None,
            "" => Some(0),
            _ => value.parse::<u32>().ok(),
        }
    };
    let line = |line: &[u8]| {
        let pieces: Vec<&[u8]> = line.split(|&b| b == b' ').collect();
        match pieces[..] {
            [rule, place, argument] => Some([number(rule)?, number(place)?, number(argument)?]),
            _ => None,
        }
    };
    lines.into_iter().map(|l| line(l).ok_or(18)).collect()
}

/// The record of three texts; nothing when a text is too deep for recursion.
pub fn record(texts: &Texts) -> Option<String> {
    let (mut model, steps) = match start(texts, Limits::PUBLISHED) {
        Ok(start) => start,
        Err(Stop::Refused(number)) => return Some(format!("accepted 0\nrefusal {number}\n")),
        Err(Stop::TooDeep) => return None,
    };
    let mut accepted = 0;
    let mut refusal = 0;
    for [rule, place, argument] in steps {
        match model.step(rule, place, argument) {
            Ok(after) => model = after,
            Err(number) => {
                refusal = number;
                break;
            }
        }
        accepted += 1;
    }
    let mut record = format!("accepted {accepted}\nrefusal {refusal}\n");
    for answer in model.answers(4_096) {
        record.push_str(&format!("answer {answer}\n"));
    }
    record.push_str(&format!("state {}\n", model.state()));
    Some(record)
}
