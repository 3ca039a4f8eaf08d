//! The verified reader (crates/read_bench) with tables of its own.

use second::layout::Laid;

extern "C" {
    /// crates/read_bench: a slice is passed as its address and its length.
    fn texts_read(
        program: *const u8,
        program_len: usize,
        query: *const u8,
        query_len: usize,
        cells: *mut u8,
        cells_len: usize,
        heads: *mut u8,
        heads_len: usize,
        rules: *mut u8,
        rules_len: usize,
        order: *mut u8,
        order_len: usize,
        goal: *mut u8,
        goal_len: usize,
        codes: *mut u8,
        codes_len: usize,
        firsts: *mut u8,
        firsts_len: usize,
        nexts: *mut u8,
        nexts_len: usize,
        stack: *mut u8,
        stack_len: usize,
        binds: *mut u8,
        binds_len: usize,
        saves: *mut u8,
        saves_len: usize,
        counts: *mut u8,
        counts_len: usize,
    ) -> u32;
}

/// What `texts_read` hands back beside 0 and a refusal's number.
pub const NO_COUNTS: u32 = 20;
pub const SHORT: u32 = 21;

/// How many tables there are, the counts aside.
pub const TABLES: usize = 11;

/// The tables that the reader is lent, in the order of its parameters.
#[derive(Clone)]
pub struct Tables {
    pub tables: [Vec<u8>; TABLES],
    pub counts: [u8; 20],
}

const CELLS: usize = 0;
const HEADS: usize = 1;
const RULES: usize = 2;
const ORDER: usize = 3;
const GOAL: usize = 4;

impl Tables {
    /// Tables that are just long enough for texts of such lengths.
    pub fn ample(program: usize, query: usize) -> Tables {
        let nodes = 9 + program + query;
        let longer = program.max(query);
        let lengths = [
            3 * nodes,
            3 * 128,
            3 * (4 * program + 8),
            2 * 16,
            3 * (4 * query + 8),
            3 * longer,
            2 * nodes,
            2 * nodes,
            longer,
            2 * nodes,
            2 * longer,
        ];
        Tables {
            tables: lengths.map(|n| vec![0; n]),
            counts: [0; 20],
        }
    }

    /// Tables for every text within the limits.
    pub fn largest() -> Tables {
        Tables::ample(16_384, 4_096)
    }

    /// The tables that are outputs; the others are working room.
    pub fn outputs(&self) -> impl Iterator<Item = &Vec<u8>> {
        self.tables[CELLS..=GOAL].iter()
    }

    /// Fills all tables with one byte.
    pub fn fill(&mut self, byte: u8) {
        for table in &mut self.tables {
            table.fill(byte);
        }
        self.counts.fill(byte);
    }

    /// Reads a program and a query; the number that is handed back.
    pub fn read(&mut self, program: &[u8], query: &[u8]) -> u32 {
        let [cells, heads, rules, order, goal, codes, firsts, nexts, stack, binds, saves] =
            &mut self.tables;
        // Each pointer comes with the length of the slice it points to, and no two slices overlap.
        unsafe {
            texts_read(
                program.as_ptr(),
                program.len(),
                query.as_ptr(),
                query.len(),
                cells.as_mut_ptr(),
                cells.len(),
                heads.as_mut_ptr(),
                heads.len(),
                rules.as_mut_ptr(),
                rules.len(),
                order.as_mut_ptr(),
                order.len(),
                goal.as_mut_ptr(),
                goal.len(),
                codes.as_mut_ptr(),
                codes.len(),
                firsts.as_mut_ptr(),
                firsts.len(),
                nexts.as_mut_ptr(),
                nexts.len(),
                stack.as_mut_ptr(),
                stack.len(),
                binds.as_mut_ptr(),
                binds.len(),
                saves.as_mut_ptr(),
                saves.len(),
                self.counts.as_mut_ptr(),
                self.counts.len(),
            )
        }
    }

    /// What was read, from the tables.
    pub fn laid(&self) -> Laid {
        let mut counts = [0; 5];
        for (count, bytes) in counts.iter_mut().zip(self.counts.chunks(4)) {
            *count = u32::from_le_bytes(bytes.try_into().expect("four bytes"));
        }
        let [definitions, rules, variables, goal, names] = counts.map(|count| count as usize);
        let triples = |table: usize, from: usize, to: usize| {
            self.tables[table][3 * from..3 * to]
                .chunks(3)
                .map(|b| u32::from(b[0]) + 256 * u32::from(b[1]) + 65_536 * u32::from(b[2]))
        };
        Laid {
            counts,
            nodes: triples(CELLS, 1, names)
                .map(|cell| (cell / 256, cell as u8))
                .collect(),
            heads: triples(HEADS, 0, definitions)
                .map(|head| (head / 256, head as usize % 256))
                .collect(),
            order: self.tables[ORDER][..2 * variables]
                .chunks(2)
                .map(|b| u32::from(b[0]) + 256 * u32::from(b[1]))
                .collect(),
            rules: self.tables[RULES][..3 * rules].to_vec(),
            goal: self.tables[GOAL][..3 * goal].to_vec(),
        }
    }
}
