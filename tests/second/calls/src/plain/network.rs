//! Evaluating and checking: a scan of all records, then a run over them for each cell.

use super::records::{CEILING, RECORD, gate_ceiling, largest};
use super::shape::{MOST_CELLS, Shape};
use super::{Answer, refuse_if};
use crate::{Gate, NO_CELL, Table};

const MOST_RECORDS: usize = 4096;

fn input(record: &[u8], at: usize) -> usize {
    record[at] as usize | (record[at + 1] as usize) << 8
}

/// Whether the record of this number is as it must be, given the ceilings that the records before it have in the network.
fn sound(record: &[u8], number: usize, network: &[u8], shape: &Shape) -> bool {
    let zero = |from: usize, to: usize| record[from..to].iter().all(|&byte| byte == 0);
    let ceiling = record[CEILING];
    match record[0] {
        0 => record[1] < shape.grades && ceiling == record[1] && zero(3, RECORD),
        1 => {
            let condition = record[1] as usize;
            if condition >= shape.conditions {
                return false;
            }
            let past = 8 + shape.places.card(condition);
            // All grades are below m if the largest is.
            ceiling < shape.grades && ceiling == largest(&record[8..past]) && zero(past, RECORD) && zero(3, 8)
        }
        2 | 3 => {
            let gate = if record[0] == 2 { Gate::Min } else { Gate::Max };
            let (left, right) = (input(record, 4), input(record, 6));
            let spare = record[1] == 0 && record[3] == 0 && zero(8, RECORD);
            spare && left < number && right < number && ceiling == gate_ceiling(gate, network, left, right)
        }
        _ => false,
    }
}

fn judge(network: &[u8], shape: &Shape) -> Answer<()> {
    refuse_if(network.is_empty() || network.len() % RECORD != 0 || network.len() > MOST_RECORDS * RECORD, 11)?;
    let mut records = network.chunks_exact(RECORD).enumerate();
    let fault = records.any(|(number, record)| !sound(record, number, network, shape));
    refuse_if(fault, 11)
}

/// The network's grade at a cell, with the grade of every record left in the work buffer.
fn grade(network: &[u8], shape: &Shape, work: &mut [u8], cell: usize) -> u8 {
    let mut values = [0; 8];
    let mut rest = cell;
    for (condition, value) in values.iter_mut().enumerate().take(shape.conditions) {
        *value = rest % shape.places.card(condition);
        rest /= shape.places.card(condition);
    }
    let mut last = 0;
    for (number, record) in network.chunks_exact(RECORD).enumerate() {
        last = match record[0] {
            0 => record[1],
            1 => record[8 + values[record[1] as usize]],
            2 => work[input(record, 4)].min(work[input(record, 6)]),
            _ => work[input(record, 4)].max(work[input(record, 6)]),
        };
        work[number] = last;
    }
    last
}

pub fn evaluate(network: &[u8], shape: &[u8], work: &mut [u8], cell: u32) -> Answer<u32> {
    let shape = Shape::from_bytes(shape)?;
    refuse_if(work.len() < network.len() / RECORD, 10)?;
    judge(network, &shape)?;
    refuse_if(cell as usize >= shape.cells, 12)?;
    Ok(grade(network, &shape, work, cell as usize) as u32)
}

pub fn evaluate_each(network: &[u8], shape: &[u8], cells: &[u16], grades: &mut [u8], work: &mut [u8]) -> Answer<u32> {
    let shape = Shape::from_bytes(shape)?;
    refuse_if(work.len() < network.len() / RECORD || grades.len() < cells.len(), 10)?;
    judge(network, &shape)?;
    // The grade of each cell that has been run, so that none is run again; for the others what no grade can be.
    let mut known = [NO_CELL; MOST_CELLS];
    let known = &mut known[..shape.cells];
    for (to, &cell) in grades.iter_mut().zip(cells) {
        let cell = cell as usize;
        *to = known.get_mut(cell).map_or(NO_CELL, |known| {
            if *known == NO_CELL {
                *known = grade(network, &shape, work, cell);
            }
            *known
        });
    }
    Ok(0)
}

pub fn check(network: &[u8], table: Table, work: &mut [u8]) -> Answer<u32> {
    let shape = Shape::from_bytes(table.shape)?;
    let shortest = table.lower.len().min(table.upper.len());
    refuse_if(shortest < shape.cells || work.len() < network.len() / RECORD, 10)?;
    shape.judge_limits(table.lower, table.upper)?;
    judge(network, &shape)?;
    for cell in 0..shape.cells {
        let grade = grade(network, &shape, work, cell);
        if grade < table.lower[cell] || grade > table.upper[cell] {
            return Ok(1 + 16 * cell as u32 + grade as u32);
        }
    }
    Ok(0)
}
