//! What becomes of a network's records: compiling writes them; a forecast counts them, and so does a stage that has two
//! ways to go on, before it takes the one with fewer.

use crate::Gate;

pub const RECORD: usize = 16;

/// The byte of a record that has its ceiling: a grade that the record exceeds at no cell.
pub const CEILING: usize = 2;

/// The ceiling of a gate of two records of a network, from the bytes that they have there.
pub fn gate_ceiling(gate: Gate, network: &[u8], left: usize, right: usize) -> u8 {
    let [left, right] = [left, right].map(|input| network[RECORD * input + CEILING]);
    match gate {
        Gate::Min => left.min(right),
        Gate::Max => left.max(right),
    }
}

/// The ceiling of a literal: the largest of its grades.
pub fn largest(grades: &[u8]) -> u8 {
    grades.iter().fold(0, |so_far, &grade| so_far.max(grade))
}

/// Takes the records in their order. Each gets a number that stands for it where it is the input of a gate.
pub trait Records {
    fn constant(&mut self, grade: u8) -> usize;
    fn literal(&mut self, condition: usize, grades: &[u8]) -> usize;
    fn gate(&mut self, gate: Gate, left: usize, right: usize) -> usize;
    /// Adds records that were counted apart, where no more than a count is asked for. False: they have to be made here.
    fn take(&mut self, counted: Counted) -> bool;
}

/// Writes them to a network; the number is a record's place there.
pub struct Written<'a> {
    network: &'a mut [u8],
    pub count: usize,
}

impl<'a> Written<'a> {
    pub fn new(network: &'a mut [u8]) -> Written<'a> {
        Written { network, count: 0 }
    }

    /// Writes a record of this kind and with this ceiling, the rest of its bytes by `fill`.
    fn push(&mut self, kind: u8, ceiling: u8, fill: impl FnOnce(&mut [u8])) -> usize {
        let record = &mut self.network[RECORD * self.count..][..RECORD];
        record.fill(0);
        record[0] = kind;
        record[CEILING] = ceiling;
        fill(record);
        self.count += 1;
        self.count - 1
    }
}

impl Records for Written<'_> {
    fn constant(&mut self, grade: u8) -> usize {
        self.push(0, grade, |record| record[1] = grade)
    }

    fn literal(&mut self, condition: usize, grades: &[u8]) -> usize {
        self.push(1, largest(grades), |record| {
            record[1] = condition as u8;
            record[8..8 + grades.len()].copy_from_slice(grades);
        })
    }

    fn gate(&mut self, gate: Gate, left: usize, right: usize) -> usize {
        let ceiling = gate_ceiling(gate, self.network, left, right);
        self.push(if gate == Gate::Min { 2 } else { 3 }, ceiling, |record| {
            record[4..6].copy_from_slice(&(left as u16).to_le_bytes());
            record[6..8].copy_from_slice(&(right as u16).to_le_bytes());
        })
    }

    fn take(&mut self, _: Counted) -> bool {
        false
    }
}

/// Counts them; the number is a record's depth.
#[derive(Default)]
pub struct Counted {
    pub count: usize,
}

impl Counted {
    fn push(&mut self, depth: usize) -> usize {
        self.count += 1;
        depth
    }
}

impl Records for Counted {
    fn constant(&mut self, _: u8) -> usize {
        self.push(0)
    }

    fn literal(&mut self, _: usize, _: &[u8]) -> usize {
        self.push(0)
    }

    fn gate(&mut self, _: Gate, left: usize, right: usize) -> usize {
        self.push(1 + left.max(right))
    }

    fn take(&mut self, counted: Counted) -> bool {
        self.count += counted.count;
        true
    }
}
