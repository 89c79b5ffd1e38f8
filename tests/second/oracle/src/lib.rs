//! A second implementation of document 01, by definition and by search, clear before quick.
//!
//! It shares no code with what it is compared with. Cells are vectors of values, a table is a map from these to limits,
//! "over a set" lists the cells, and max and min are each written out. The rows of refusals and the order of a stage's
//! steps are as document 01 has them; which limits a join leaves and whether it exists are not by its formulas, but
//! found by trying grades (`join`), and by trying all functions where these are few (`search`). Nothing here writes to a
//! caller's buffer: a call gives what must be answered and written, or a refusal's number.

pub mod file;
pub mod join;
pub mod listing;
pub mod network;
pub mod search;
pub mod stages;

use std::collections::BTreeMap;

/// The numbers of document 01, section "Places where a call stops", and that of request 6.
pub mod refusal {
    pub const FILE_LENGTH: u32 = 1;
    pub const RECORD_BYTES: u32 = 2;
    pub const RECORD_ORDER: u32 = 3;
    pub const SHAPE: u32 = 4;
    pub const LIMITS: u32 = 5;
    pub const CELL_VALUES: u32 = 6;
    pub const SETS: u32 = 7;
    pub const NO_JOIN: u32 = 8;
    pub const FIRST_BLOCK: u32 = 9;
    pub const SHORT_BUFFER: u32 = 10;
    pub const NETWORK: u32 = 11;
    pub const CELL_NUMBER: u32 = 12;
    pub const GRADE_SET: u32 = 13;
    pub const LAST: u32 = GRADE_SET;
}

/// A result, or the number of the refusal.
pub type Answer<T> = Result<T, u32>;

/// The value of each condition in one cell; 0 for a condition that is not there.
pub type Values = [u8; 8];

#[derive(Clone, Copy, Debug, PartialEq, Eq, Hash)]
pub enum Gate {
    Min,
    Max,
}

impl Gate {
    pub(crate) fn of(self, left: u8, right: u8) -> u8 {
        match self {
            Gate::Min => left.min(right),
            Gate::Max => left.max(right),
        }
    }
}

#[derive(Clone, Copy, Debug, PartialEq, Eq, Hash)]
pub struct Limits {
    pub lower: u8,
    pub upper: u8,
}

impl Limits {
    pub(crate) fn allow(self, grade: u8) -> bool {
        self.lower <= grade && grade <= self.upper
    }
}

#[derive(Clone, Debug)]
pub struct Shape {
    pub cardinalities: Vec<u8>,
    pub grades: u8,
}

/// Refuses unless the row's condition is clear.
pub(crate) fn stop_if(fault: bool, number: u32) -> Answer<()> {
    if fault { Err(number) } else { Ok(()) }
}

/// Whether the byte, as a set, has the condition.
pub(crate) fn has(set: u8, condition: usize) -> bool {
    set >> condition & 1 == 1
}

/// The cell with another value of one condition.
pub(crate) fn with(mut cell: Values, condition: usize, value: u8) -> Values {
    cell[condition] = value;
    cell
}

impl Shape {
    /// The shape that ten bytes give: the number of conditions, eight cardinalities, the number of grades.
    pub fn from_bytes(bytes: &[u8]) -> Answer<Shape> {
        stop_if(bytes.len() != 10 || bytes[0] > 8, refusal::SHAPE)?;
        let (given, beyond) = bytes[1..9].split_at(bytes[0] as usize);
        stop_if(beyond.iter().any(|&place| place != 0), refusal::SHAPE)?;
        Shape { cardinalities: given.to_vec(), grades: bytes[9] }.judged()
    }

    pub(crate) fn judged(self) -> Answer<Shape> {
        let sound = self.cardinalities.len() <= 8
            && self.cardinalities.iter().all(|card| (2..=8).contains(card))
            && (2..=16).contains(&self.grades)
            && self.count() <= 1024;
        stop_if(!sound, refusal::SHAPE)?;
        Ok(self)
    }

    pub fn to_bytes(&self) -> [u8; 10] {
        let mut bytes = [0; 10];
        bytes[0] = self.cardinalities.len() as u8;
        bytes[1..1 + self.cardinalities.len()].copy_from_slice(&self.cardinalities);
        bytes[9] = self.grades;
        bytes
    }

    /// The number of cells.
    pub fn count(&self) -> usize {
        self.cardinalities.iter().map(|&card| card as usize).product()
    }

    /// v0 + card0 × v1 + card0 × card1 × v2 + ..
    pub fn number(&self, cell: Values) -> usize {
        let mut weight = 1;
        let mut number = 0;
        for (&card, value) in self.cardinalities.iter().zip(cell) {
            number += weight * value as usize;
            weight *= card as usize;
        }
        number
    }

    /// Every cell, by rising number: `over` changes condition 0 fastest.
    pub fn cells(&self) -> Vec<Values> {
        self.over([0; 8], self.every_condition())
    }

    pub fn every_condition(&self) -> u8 {
        (0..self.cardinalities.len()).map(|condition| 1 << condition).sum()
    }

    /// All cells equal to this one outside the set.
    pub fn over(&self, cell: Values, set: u8) -> Vec<Values> {
        let mut cells = vec![cell];
        for condition in (0..self.cardinalities.len()).filter(|&condition| has(set, condition)) {
            let values = 0..self.cardinalities[condition];
            cells = values.flat_map(|value| cells.iter().map(move |&cell| with(cell, condition, value))).collect();
        }
        cells
    }

    /// The limits of lent buffers as a table: the first byte of each buffer for each cell.
    pub fn table(&self, lower: &[u8], upper: &[u8]) -> Answer<Table> {
        let mut limits = BTreeMap::new();
        for (number, cell) in self.cells().into_iter().enumerate() {
            let (lower, upper) = (lower[number], upper[number]);
            stop_if(lower > upper || upper >= self.grades, refusal::LIMITS)?;
            limits.insert(cell, Limits { lower, upper });
        }
        Ok(Table { conditions: (0..self.cardinalities.len()).collect(), limits })
    }
}

/// Limits for every combination of values of some conditions; the other conditions have value 0 in each cell.
#[derive(Clone, Debug, PartialEq, Eq, Hash)]
pub struct Table {
    pub conditions: Vec<usize>,
    pub limits: BTreeMap<Values, Limits>,
}

impl Table {
    /// The limits of all cells equal to this one outside the set.
    pub(crate) fn over(&self, shape: &Shape, cell: Values, set: u8) -> Vec<Limits> {
        shape.over(cell, set).iter().map(|cell| self.limits[cell]).collect()
    }

    /// For each cell the least and the greatest grade that is good in all cells equal to it outside the set, or none if
    /// somewhere no grade is; `good_at` gives the test of grades at a cell. Every grade between these two is good as well,
    /// or limits could not say which are.
    pub(crate) fn open<G: Fn(u8) -> bool>(
        &self,
        shape: &Shape,
        set: u8,
        mut good_at: impl FnMut(Values, Limits) -> G,
    ) -> Option<BTreeMap<Values, Limits>> {
        let mut open = BTreeMap::new();
        for &cell in self.limits.keys() {
            if open.contains_key(&cell) {
                continue;
            }
            let line = shape.over(cell, set);
            let good: Vec<G> = line.iter().map(|&cell| good_at(cell, self.limits[&cell])).collect();
            let grades: Vec<u8> = (0..shape.grades).filter(|&grade| good.iter().all(|good| good(grade))).collect();
            let limits = Limits { lower: *grades.first()?, upper: *grades.last()? };
            assert!(grades.into_iter().eq(limits.lower..=limits.upper), "a grade between good ones is not: {self:?}");
            open.extend(line.into_iter().map(|cell| (cell, limits)));
        }
        Some(open)
    }
}
