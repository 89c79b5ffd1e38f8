//! Reading a table file, and turning one into the other edition: judged whole, then written.

use super::shape::{MOST_CELLS, PLACES};
use super::{Answer, refuse_if};
use crate::{Edition, Limits};

const RECORD: usize = 16;
const MOST_BYTES: usize = (PLACES + 1 + MOST_CELLS) * RECORD;

/// How the records of cells hold their grades in an edition: by two bytes. It is a type, so that the one `judge` is
/// compiled for each edition and tests a record for no more than its own.
trait Cells {
    const KIND: u8;
    /// Where the two bytes begin.
    const AT: usize;

    /// The limits that two bytes give, where there are so many grades.
    fn limits(bytes: [u8; 2], grades: u8) -> Answer<(u8, u8)>;
    /// The two bytes for such limits.
    fn bytes(lower: u8, upper: u8) -> [u8; 2];

    fn limits_of(record: &[u8], grades: u8) -> Answer<(u8, u8)> {
        Self::limits([record[Self::AT], record[Self::AT + 1]], grades)
    }
}

/// A lower and an upper grade.
struct InLimits;

impl Cells for InLimits {
    const KIND: u8 = 3;
    const AT: usize = 1;

    fn limits([lower, upper]: [u8; 2], grades: u8) -> Answer<(u8, u8)> {
        refuse_if(lower > upper || upper >= grades, 5)?;
        Ok((lower, upper))
    }

    fn bytes(lower: u8, upper: u8) -> [u8; 2] {
        [lower, upper]
    }
}

/// A set of grades, bit g for grade g.
struct InSets;

impl Cells for InSets {
    const KIND: u8 = 4;
    const AT: usize = 2;

    fn limits(bytes: [u8; 2], grades: u8) -> Answer<(u8, u8)> {
        let set = u16::from_le_bytes(bytes) as u32;
        refuse_if(set == 0 || set >> grades != 0, 13)?;
        let (lower, upper) = (set.trailing_zeros(), set.ilog2());
        // With no gap, the lowest bit carries through all the others.
        refuse_if(set + (1 << lower) != 2 << upper, 13)?;
        Ok((lower as u8, upper as u8))
    }

    fn bytes(lower: u8, upper: u8) -> [u8; 2] {
        (((2u32 << upper) - (1 << lower)) as u16).to_le_bytes()
    }
}

/// What a sound file says before its cells.
struct Head {
    /// The shape's bytes.
    shape: [u8; 10],
    conditions: usize,
    cells: usize,
}

impl Head {
    fn cards(&self) -> &[u8] {
        &self.shape[1..=self.conditions]
    }

    fn grades(&self) -> u8 {
        self.shape[9]
    }
}

/// The number of the cell that a record names, or none for a value that is too large.
fn cell_number(record: &[u8], cards: &[u8]) -> Option<usize> {
    let mut number = 0;
    let mut stride = 1;
    for (&value, &card) in record[8..].iter().zip(cards) {
        if value >= card {
            return None;
        }
        number += stride * value as usize;
        stride *= card as usize;
    }
    Some(number)
}

/// Judges a file of the edition that has these cells.
fn judge<C: Cells>(file: &[u8]) -> Answer<Head> {
    refuse_if(file.is_empty() || file.len() % RECORD != 0 || file.len() > MOST_BYTES, 1)?;
    let mut head = Head { shape: [0; 10], conditions: 0, cells: 1 };
    let mut next = 0;
    let zero = |bytes: &[u8]| refuse_if(bytes.iter().any(|&byte| byte != 0), 2);
    for record in file.chunks_exact(RECORD) {
        let (conditions, grades) = (head.conditions, head.grades());
        match record[0] {
            1 => {
                zero(&record[3..])?;
                refuse_if(grades != 0 || record[1] as usize != conditions, 3)?;
                refuse_if(conditions == PLACES || !(2..=8).contains(&record[2]), 4)?;
                head.cells *= record[2] as usize;
                refuse_if(head.cells > MOST_CELLS, 4)?;
                head.conditions += 1;
                head.shape[0] = head.conditions as u8;
                head.shape[head.conditions] = record[2];
            }
            2 => {
                zero(&record[2..])?;
                refuse_if(grades != 0, 3)?;
                refuse_if(!(2..=16).contains(&record[1]), 4)?;
                head.shape[9] = record[1];
            }
            kind if kind == C::KIND => {
                zero(&record[1..C::AT])?;
                zero(&record[C::AT + 2..8])?;
                zero(&record[8 + conditions..])?;
                refuse_if(grades == 0, 3)?;
                let number = cell_number(record, head.cards()).ok_or(6u32)?;
                refuse_if(number < next, 6)?;
                next = number + 1;
                C::limits_of(record, grades)?;
            }
            _ => return Err(2),
        }
    }
    refuse_if(head.grades() == 0, 3)?;
    Ok(head)
}

pub fn read(file: &[u8], shape: &mut [u8], limits: Limits) -> Answer<u32> {
    let head = judge::<InLimits>(file)?;
    let cells = head.cells;
    refuse_if(shape.len() < head.shape.len() || limits.lower.len() < cells || limits.upper.len() < cells, 10)?;
    shape[..head.shape.len()].copy_from_slice(&head.shape);
    limits.lower[..cells].fill(1);
    limits.upper[..cells].fill(head.grades() - 1);
    for record in file.chunks_exact(RECORD).skip(head.conditions + 1) {
        let number = cell_number(record, head.cards()).ok_or(6u32)?;
        limits.lower[number] = record[1];
        limits.upper[number] = record[2];
    }
    Ok(0)
}

pub fn convert(from: Edition, file: &[u8], out: &mut [u8]) -> Answer<u32> {
    match from {
        Edition::Limits => rewrite::<InLimits, InSets>(file, out),
        Edition::Sets => rewrite::<InSets, InLimits>(file, out),
    }
}

fn rewrite<Old: Cells, New: Cells>(file: &[u8], out: &mut [u8]) -> Answer<u32> {
    let head = judge::<Old>(file)?;
    let out = out.get_mut(..file.len()).ok_or(10u32)?;
    out.copy_from_slice(file);
    for record in out.chunks_exact_mut(RECORD).skip(head.conditions + 1) {
        let (lower, upper) = Old::limits_of(record, head.grades())?;
        record[0] = New::KIND;
        record[1..4].fill(0);
        record[New::AT..New::AT + 2].copy_from_slice(&New::bytes(lower, upper));
    }
    Ok(0)
}
