//! Steps texts: refusals 1 and 18.

use crate::config::Place;
use crate::limits::STEPS_BYTES;
use crate::refusal::Refusal;

/// A proposed step.
#[derive(Clone, Copy, Debug, PartialEq, Eq)]
pub struct Step {
    pub rule: u32,
    pub place: Place,
    pub argument: Place,
}

/// "one step a line, each line ended by a newline: rule, place, argument, as
/// three decimal numbers below 2^32 with one space between; leading zeros are
/// allowed".
pub fn read_steps(text: &[u8]) -> Result<Vec<Step>, Refusal> {
    if text.len() > STEPS_BYTES {
        return Err(Refusal::TextTooLong);
    }
    let mut steps = Vec::with_capacity(text.len() / 6);
    let mut rest = text;
    while !rest.is_empty() {
        let (rule, after) = number(rest, b' ')?;
        let (place, after) = number(after, b' ')?;
        let (argument, after) = number(after, b'\n')?;
        steps.push(Step {
            rule,
            place: Place(place),
            argument: Place(argument),
        });
        rest = after;
    }
    Ok(steps)
}

/// One number and the byte that ends it; hands back what follows.
fn number(text: &[u8], end: u8) -> Result<(u32, &[u8]), Refusal> {
    let digits = text.iter().take_while(|b| b.is_ascii_digit()).count();
    if digits == 0 || text.get(digits) != Some(&end) {
        return Err(Refusal::StepsLine);
    }
    let mut value: u32 = 0;
    for &digit in &text[..digits] {
        value = value
            .checked_mul(10)
            .and_then(|v| v.checked_add(u32::from(digit - b'0')))
            .ok_or(Refusal::StepsLine)?;
    }
    Ok((value, &text[digits + 1..]))
}
