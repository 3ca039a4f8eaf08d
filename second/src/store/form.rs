//! The form of a store in bytes: a header of six numbers; the names and right
//! behind them the program; the variables; the configuration. Names and program
//! together, variables and configuration have fixed lengths, zeros behind what
//! is used. Numbers and words have three bytes, numbers the low byte first.

use super::fault::{Fault, Faults};
use crate::limits::{LAST_VARIABLE, PARTS, PROGRAM_BYTES, QUERY_BYTES, QUERY_VARIABLES};
use crate::words::Word;

/// The number of this form.
const FORM: u32 = 2;
const HEADER: usize = 6;
/// The root, four nodes each for `true` and `fail`, one for each byte of texts.
pub const NODES: usize = 9 + PROGRAM_BYTES + QUERY_BYTES;
pub const PROGRAM_WORDS: usize = 5 * PROGRAM_BYTES / 2;
/// Nodes and words of a program together: nine nodes, one for each byte of the
/// query, and three of both for a byte of the program, as in `p,`, which makes a
/// node and five words.
pub const TOGETHER: usize = 9 + QUERY_BYTES + 3 * PROGRAM_BYTES;
pub const CONFIG_WORDS: usize = 14 * PARTS;

/// The most nodes, words of a program, variables and words of a configuration.
pub const MOST: [usize; 4] = [NODES, PROGRAM_WORDS, QUERY_VARIABLES, CONFIG_WORDS];
/// Where names, variables and configuration begin in bytes.
const NAMES_START: usize = 3 * HEADER;
const VARIABLES_START: usize = NAMES_START + 3 * TOGETHER;
const CONFIG_START: usize = VARIABLES_START + 3 * QUERY_VARIABLES;
/// The documented length of a store.
pub const LENGTH: usize = CONFIG_START + 3 * CONFIG_WORDS;

/// The numbers and words of a store.
#[derive(Clone, Debug, Default, PartialEq, Eq)]
pub struct Raw {
    /// The table of names: the root's 0, then for each node its parent * 256 +
    /// its byte.
    pub cells: Vec<u32>,
    pub program: Vec<Word>,
    /// The nodes of the names of the query's variables.
    pub variables: Vec<u32>,
    pub config: Vec<Word>,
    pub next: u32,
}

fn triple(number: u32) -> [u8; 3] {
    let [low, middle, high, _] = number.to_le_bytes();
    [low, middle, high]
}

fn number(bytes: &[u8]) -> u32 {
    u32::from_le_bytes([bytes[0], bytes[1], bytes[2], 0])
}

/// The number of a header at an index.
pub fn header(bytes: &[u8], index: usize) -> u32 {
    number(&bytes[3 * index..])
}

/// Changes a number of a header.
pub fn set_header(bytes: &mut [u8], index: usize, value: u32) {
    bytes[3 * index..3 * index + 3].copy_from_slice(&triple(value));
}

/// Where names, program, variables and configuration begin and end, by the
/// header's count of nodes.
pub fn region(bytes: &[u8], index: usize) -> std::ops::Range<usize> {
    let nodes = (header(bytes, 1) as usize).min(TOGETHER);
    let program = NAMES_START + 3 * nodes;
    let starts = [NAMES_START, program, VARIABLES_START, CONFIG_START, LENGTH];
    starts[index]..starts[index + 1]
}

impl Raw {
    /// The bytes of a store.
    pub fn bytes(&self) -> Vec<u8> {
        let mut bytes = vec![0; LENGTH];
        self.write(&mut bytes);
        bytes
    }

    /// Writes the bytes of a store. What has no room is left out, but counted.
    pub fn write(&self, bytes: &mut [u8]) {
        bytes[..LENGTH].fill(0);
        let counts = self.counts();
        let numbers = [FORM, counts[0], counts[1], counts[2], counts[3], self.next];
        for (index, number) in numbers.into_iter().enumerate() {
            set_header(bytes, index, number);
        }
        let fill = |bytes: &mut [u8], index: usize, all: &mut dyn Iterator<Item = [u8; 3]>| {
            let region = region(bytes, index);
            let room = bytes[region].chunks_exact_mut(3);
            for (to, from) in room.zip(all) {
                to.copy_from_slice(&from);
            }
        };
        fill(bytes, 0, &mut self.cells.iter().map(|&n| triple(n)));
        fill(bytes, 1, &mut self.program.iter().map(|w| w.bytes()));
        fill(bytes, 2, &mut self.variables.iter().map(|&n| triple(n)));
        fill(bytes, 3, &mut self.config.iter().map(|w| w.bytes()));
    }

    fn counts(&self) -> [u32; 4] {
        let Raw {
            cells,
            program,
            variables,
            config,
            ..
        } = self;
        [cells.len(), program.len(), variables.len(), config.len()].map(|n| n as u32)
    }

    /// Reads bytes of at least the documented length.
    pub fn read(bytes: &[u8], faults: &mut Faults) -> Raw {
        let mut raw = Raw::default();
        faults.note_if(header(bytes, 0) != FORM, Fault::FormNumber);
        let over = [
            Fault::NodesCount,
            Fault::ProgramCount,
            Fault::VariablesCount,
            Fault::ConfigCount,
        ];
        // Behind the names the program begins, so that nothing is unused there.
        let unused = [
            None,
            Some(Fault::UnusedProgram),
            Some(Fault::UnusedVariables),
            Some(Fault::UnusedConfig),
        ];
        for index in 0..4 {
            let count = header(bytes, index + 1) as usize;
            // The root is always there.
            if count > MOST[index] || (index == 0 && count == 0) {
                faults.note(over[index]);
                continue;
            }
            let region = &bytes[region(bytes, index)];
            if region.len() < 3 * count {
                faults.note(Fault::TogetherCount);
                continue;
            }
            let (used, rest) = region.split_at(3 * count);
            if let (false, Some(fault)) = (zero(rest), unused[index]) {
                faults.note(fault);
            }
            let numbers = used.chunks_exact(3).map(number);
            let words = used.chunks_exact(3).map(Word::of_bytes);
            match index {
                0 => raw.cells = numbers.collect(),
                1 => raw.program = words.collect(),
                2 => raw.variables = numbers.collect(),
                _ => raw.config = words.collect(),
            }
        }
        raw.next = header(bytes, 5);
        raw.check(faults);
        raw
    }

    /// What the form asks of the numbers and words.
    fn check(&self, faults: &mut Faults) {
        let bad = |words: &[Word]| words.iter().any(|word| !word.is_one());
        faults.note_if(bad(&self.program), Fault::BadProgramWord);
        faults.note_if(bad(&self.config), Fault::BadConfigWord);
        let root = self.cells.first().copied().unwrap_or(0);
        faults.note_if(root != 0, Fault::Root);
        let nodes = self.cells.iter().enumerate().skip(1);
        let parent_above = |(node, &cell): (usize, &u32)| (cell / 256) as usize >= node;
        faults.note_if(nodes.clone().any(parent_above), Fault::Parent);
        // The same byte after the same beginning is the same name.
        let mut sorted: Vec<u32> = nodes.map(|(_, &cell)| cell).collect();
        sorted.sort_unstable();
        let twice = sorted.windows(2).any(|pair| pair[0] == pair[1]);
        faults.note_if(twice, Fault::NameTwice);
        let count = self.cells.len() as u32;
        let unknown = count > 0 && self.variables.iter().any(|&node| node >= count);
        faults.note_if(unknown, Fault::VariableNode);
        // "numbers stay at or below 65,534"
        faults.note_if(self.next > LAST_VARIABLE + 1, Fault::NextOver);
    }
}

/// Whether all bytes are 0, many at a time.
fn zero(bytes: &[u8]) -> bool {
    let mut chunks = bytes.chunks(1_024);
    chunks.all(|chunk| chunk.iter().fold(0, |all, byte| all | byte) == 0)
}

#[cfg(test)]
mod tests {
    use super::*;

    #[test]
    fn lengths() {
        let starts = [NAMES_START, VARIABLES_START, CONFIG_START, LENGTH];
        assert_eq!(starts, [18, 159_789, 159_837, 245_853]);
        let mut bytes = vec![0; LENGTH];
        set_header(&mut bytes, 1, 100);
        assert_eq!(region(&bytes, 0), 18..318);
        assert_eq!(region(&bytes, 1), 318..159_789);
    }
}
