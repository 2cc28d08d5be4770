//! The seven lent tables at full size, their counts, the lists lent for answers, the slow
//! engine's five tables with their counts, the order of wires, and how much of each is lent.

use std::rc::Rc;

pub const COMPONENTS: usize = 0;
pub const INPUTS: usize = 1;
pub const OUTPUTS: usize = 2;
pub const WIRES: usize = 3;
pub const CURRENT: usize = 4;
pub const FOLLOWING: usize = 5;
pub const STANDING: usize = 6;
/// The lists lent for an answer, which are no tables of the net: of sources and
/// targets; of a look, its numbers and its widths; of a round, which outputs moved;
/// of a mending, the mended file and the positions that were dropped.
pub const ANSWER: usize = 7;
pub const NUMBERS: usize = 8;
pub const WIDTHS: usize = 9;
pub const MOVED: usize = 10;
pub const MENDED: usize = 11;
pub const DROPPED: usize = 12;
/// The slow engine's own tables.
pub const SLOW_INPUTS: usize = 13;
pub const SLOW_OUTPUTS: usize = 14;
pub const SLOW_CURRENT: usize = 15;
pub const SLOW_FOLLOWING: usize = 16;
pub const SLOW_STANDING: usize = 17;
/// An order of all wires, which a round may be handed.
pub const ORDER: usize = 18;
/// How many tables there are in all.
pub const ALL: usize = 19;

/// The tables of ports and lists: inputs, outputs, current, following, standing.
pub type Five = [usize; 5];
/// Those of the flat engine, and those of the slow one.
pub const FLAT: Five = [INPUTS, OUTPUTS, CURRENT, FOLLOWING, STANDING];
pub const SLOW: Five = [SLOW_INPUTS, SLOW_OUTPUTS, SLOW_CURRENT, SLOW_FOLLOWING, SLOW_STANDING];

/// Words of an entry of the seven; in every other table an entry is a word.
pub const ENTRY_WORDS: [usize; 7] = [8, 1, 1, 4, 1, 1, 1];
/// "Full size: 256 components, 1,024 inputs, 1,024 outputs, 1,024 wires, three lists of 256."
pub const FULL_ENTRIES: [u64; 7] = [256, 1_024, 1_024, 1_024, 256, 256, 256];
/// Full size in words: of the seven, of the six lists lent for an answer, of the slow engine's five,
/// of the order.
pub const FULL_WORDS: [usize; ALL] = [
    2_048, 1_024, 1_024, 4_096, 256, 256, 256, 256, 256, 256, 256, 30_000, 1_025, 1_024, 1_024, 256, 256,
    256, 1_024,
];
/// What each word holds at the program's start.
const FIRST_WORD: u64 = 7;

#[derive(Clone, Debug, PartialEq)]
pub struct Tables {
    /// Copies of the tables have the words in common until one is written.
    pub words: [Rc<Vec<u64>>; ALL],
    pub counts: [u64; 7],
    /// The slow engine's counts, in the order of its tables.
    pub slow_counts: [u64; 5],
    pub lent: [usize; ALL],
}

impl Tables {
    pub fn new() -> Tables {
        Tables {
            words: std::array::from_fn(|table| Rc::new(vec![FIRST_WORD; FULL_WORDS[table]])),
            counts: [0; 7],
            slow_counts: [0; 5],
            lent: FULL_WORDS,
        }
    }

    /// The greatest word that the table's type holds.
    fn word_max(table: usize) -> u64 {
        match table {
            COMPONENTS | INPUTS | OUTPUTS | NUMBERS | WIDTHS | MOVED | SLOW_INPUTS | SLOW_OUTPUTS => u64::MAX,
            MENDED => u8::MAX as u64,
            _ => u16::MAX as u64,
        }
    }

    /// A table's words, to be written.
    pub fn words_mut(&mut self, table: usize) -> &mut Vec<u64> {
        Rc::make_mut(&mut self.words[table])
    }

    /// Writes a word. A place past the table or a word that does not fit is left out.
    pub fn write_word(&mut self, table: usize, place: usize, word: u64) {
        if table < ALL && place < FULL_WORDS[table] && word <= Tables::word_max(table) {
            self.words_mut(table)[place] = word;
        }
    }

    /// Sets a count. A table that has none is left out.
    pub fn set_count(&mut self, which: usize, number: u64) {
        match which {
            COMPONENTS..=STANDING => self.counts[which] = number,
            SLOW_INPUTS..=SLOW_STANDING => self.slow_counts[which - SLOW_INPUTS] = number,
            _ => {}
        }
    }

    /// The count of one of the seven tables, or of the slow engine's five.
    pub fn count(&self, table: usize) -> u64 {
        match table {
            SLOW_INPUTS..=SLOW_STANDING => self.slow_counts[table - SLOW_INPUTS],
            _ => self.counts[table],
        }
    }

    /// From now on only that many words are lent, at most full size.
    pub fn lend(&mut self, table: usize, words: usize) {
        if table < ALL {
            self.lent[table] = words.min(FULL_WORDS[table]);
        }
    }

    /// Whether each count of the seven is within its table.
    pub fn counts_within(&self) -> bool {
        (0..7).all(|table| self.counts[table] <= FULL_ENTRIES[table])
    }

    /// Whether each of the slow engine's is.
    pub fn slow_counts_within(&self) -> bool {
        SLOW.into_iter().all(|table| self.count(table) <= FULL_WORDS[table] as u64)
    }

    /// The words below a table's count, which is within the table.
    pub fn used(&self, table: usize) -> &[u64] {
        &self.words[table][..self.count(table) as usize * entry_words(table)]
    }

    /// The order of wires: the first words of its table, as many as there are wires. Their count is
    /// within the table.
    pub fn order(&self) -> &[u64] {
        &self.words[ORDER][..self.counts[WIRES] as usize]
    }

    /// Lays words over the front of a table; those past them keep what they held.
    pub fn lay(&mut self, table: usize, contents: &[u64]) {
        self.words_mut(table)[..contents.len()].copy_from_slice(contents);
    }

    /// Puts new contents in; entries past the count keep what they held.
    pub fn put(&mut self, table: usize, contents: &[u64]) {
        self.lay(table, contents);
        self.set_count(table, (contents.len() / entry_words(table)) as u64);
    }
}

fn entry_words(table: usize) -> usize {
    ENTRY_WORDS.get(table).copied().unwrap_or(1)
}
