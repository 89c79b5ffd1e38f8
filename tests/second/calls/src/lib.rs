//! The calls of the library, as a C program has them, and what can stand behind them: the proved library, or a plain
//! implementation in safe Rust.

#[cfg(feature = "library")]
pub mod library;
pub mod plain;
pub mod tables;

#[derive(Clone, Copy, Debug, PartialEq, Eq)]
pub enum Gate {
    Min,
    Max,
}

/// A table as it is lent: a shape's bytes, and a lower and an upper grade for each cell.
#[derive(Clone, Copy)]
pub struct Table<'a> {
    pub shape: &'a [u8],
    pub lower: &'a [u8],
    pub upper: &'a [u8],
}

/// The sets of a join.
#[derive(Clone, Copy)]
pub struct Sets {
    pub s: u8,
    pub t: u8,
}

/// Limits to be written.
pub struct Limits<'a> {
    pub lower: &'a mut [u8],
    pub upper: &'a mut [u8],
}

/// What the records of cells in a table file say: a lower and an upper grade, or, as the spreadsheet has it, a set of
/// grades.
#[derive(Clone, Copy, Debug, PartialEq, Eq)]
pub enum Edition {
    Limits,
    Sets,
}

impl Edition {
    pub const BOTH: [Edition; 2] = [Edition::Limits, Edition::Sets];

    pub fn other(self) -> Edition {
        match self {
            Edition::Limits => Edition::Sets,
            Edition::Sets => Edition::Limits,
        }
    }
}

/// What is added to a refusal's number in the answer of a single evaluation, and of every other call.
pub const REFUSED_EVALUATION: u32 = 256;
pub const REFUSED: u32 = 65_536;

/// What stands for a grade where the number in a list is that of no cell.
pub const NO_CELL: u8 = 255;

/// The settings, each a bit of their byte: min wins a full tie, a split takes the condition with most values, no weak
/// joins are tried.
pub const MIN_WINS_TIES: u8 = 1;
pub const SPLITS_ON_MOST: u8 = 2;
pub const NO_WEAK_JOINS: u8 = 4;

pub trait Calls {
    /// Writes the shape's ten bytes and the limits; answers 0.
    fn read(&self, file: &[u8], shape: &mut [u8], limits: Limits) -> u32;
    /// Writes the file of the other edition that a file of this one becomes; answers 0.
    fn convert(&self, from: Edition, file: &[u8], out: &mut [u8]) -> u32;
    /// Writes the first block's limits; answers 0.
    fn join_first(&self, gate: Gate, table: Table, sets: Sets, limits: Limits) -> u32;
    /// Writes the second block's limits, for the first block given; answers 0.
    fn join_second(&self, gate: Gate, table: Table, sets: Sets, first: &[u8], limits: Limits) -> u32;
    /// Writes the records; answers how many.
    fn compile(&self, table: Table, work: &mut [u8], network: &mut [u8]) -> u32;
    /// Writes the depth of the last record that compiling writes, in two bytes; answers how many it writes.
    fn forecast(&self, table: Table, work: &mut [u8], depth: &mut [u8]) -> u32;
    /// The same two under settings, of which each is a bit.
    fn compile_with(&self, table: Table, settings: u8, work: &mut [u8], network: &mut [u8]) -> u32;
    fn forecast_with(&self, table: Table, settings: u8, work: &mut [u8], depth: &mut [u8]) -> u32;
    /// Answers 0 for within, else 1 + 16 × cell + grade of the first cell outside.
    fn check(&self, network: &[u8], table: Table, work: &mut [u8]) -> u32;
    /// Answers the grade.
    fn evaluate(&self, network: &[u8], shape: &[u8], work: &mut [u8], cell: u32) -> u32;
    /// Writes the grade at each cell of a list, in its order; answers 0.
    fn evaluate_each(&self, network: &[u8], shape: &[u8], cells: &[u16], grades: &mut [u8], work: &mut [u8]) -> u32;
}
