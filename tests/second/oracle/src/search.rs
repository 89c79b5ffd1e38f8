//! The blocks of a join, found by trying every pair of functions. For small tables only.

use crate::{Gate, Limits, Shape, Table, Values, has, with};

/// Pairs of functions that a search may try.
const MOST_PAIRS: u64 = 4096;

/// A cell of the table: where the first and the second block read it, and its limits.
struct Cell {
    first: usize,
    second: usize,
    limits: Limits,
}

/// A join to be searched: the table's cells, and for each block the cells on which it may differ.
pub struct Search<'a> {
    gate: Gate,
    grades: u8,
    cells: Vec<Cell>,
    table: &'a Table,
    first: Vec<Values>,
    second: Vec<Values>,
}

/// The cell as a block sees it that may not depend on the set.
pub(crate) fn seen_without(cell: Values, set: u8) -> Values {
    (0..8).filter(|&condition| has(set, condition)).fold(cell, |cell, condition| with(cell, condition, 0))
}

/// Every function on so many cells, as its grades.
fn functions(cells: usize, grades: u8) -> impl Iterator<Item = Vec<u8>> {
    let count = (grades as u64).pow(cells as u32);
    (0..count).map(move |mut number| {
        let digit = |_| {
            let grade = number % grades as u64;
            number /= grades as u64;
            grade as u8
        };
        (0..cells).map(digit).collect()
    })
}

/// The least and the greatest grade at each cell among the functions, if there is one.
fn extent(functions: impl Iterator<Item = Vec<u8>>) -> Option<Vec<Limits>> {
    functions
        .map(|function| function.into_iter().map(|grade| Limits { lower: grade, upper: grade }).collect::<Vec<_>>())
        .reduce(|so_far, one| {
            let both = so_far.iter().zip(&one);
            both.map(|(a, b)| Limits { lower: a.lower.min(b.lower), upper: a.upper.max(b.upper) }).collect()
        })
}

impl<'a> Search<'a> {
    /// The search, if it is small enough to be made.
    pub fn new(shape: &Shape, table: &'a Table, gate: Gate, s: u8, t: u8) -> Option<Search<'a>> {
        let distinct = |set| {
            let mut cells: Vec<Values> = table.limits.keys().map(|&cell| seen_without(cell, set)).collect();
            cells.sort();
            cells.dedup();
            cells
        };
        // Both blocks together may differ on 12 cells at most (two grades, 4,096 pairs); 6 × 6 make the most cells.
        if table.limits.len() > 36 {
            return None;
        }
        let (first, second) = (distinct(t), distinct(s));
        let pairs = (shape.grades as u64).checked_pow((first.len() + second.len()) as u32)?;
        let cells = table.limits.iter().map(|(&cell, &limits)| Cell {
            first: first.binary_search(&seen_without(cell, t)).expect("listed"),
            second: second.binary_search(&seen_without(cell, s)).expect("listed"),
            limits,
        });
        let cells = cells.collect();
        (pairs <= MOST_PAIRS).then_some(Search { gate, grades: shape.grades, cells, table, first, second })
    }

    fn joins(&self, first: &[u8], second: &[u8]) -> bool {
        let fits = |cell: &Cell| cell.limits.allow(self.gate.of(first[cell.first], second[cell.second]));
        self.cells.iter().all(fits)
    }

    /// The least and the greatest grade that any first block has at each cell of the table.
    pub fn first_blocks(&self) -> Option<Vec<(Values, Limits)>> {
        let firsts = functions(self.first.len(), self.grades);
        let good =
            firsts.filter(|first| functions(self.second.len(), self.grades).any(|second| self.joins(first, &second)));
        let extent = extent(good)?;
        Some(self.table.limits.keys().zip(&self.cells).map(|(&key, cell)| (key, extent[cell.first])).collect())
    }

    /// The same for a second block, with this first block.
    pub fn second_blocks(&self, grade_of_first: impl Fn(Values) -> u8) -> Option<Vec<(Values, Limits)>> {
        let first: Vec<u8> = self.first.iter().map(|&cell| grade_of_first(cell)).collect();
        let seconds = functions(self.second.len(), self.grades);
        let extent = extent(seconds.filter(|second| self.joins(&first, second)))?;
        Some(self.table.limits.keys().zip(&self.cells).map(|(&key, cell)| (key, extent[cell.second])).collect())
    }
}
