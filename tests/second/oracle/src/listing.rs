//! What the program `grades` prints: document 01, the end of section "Small tables to prove".

use crate::network::Record;
use crate::stages::{Lent, Settings};
use crate::{Answer, Gate, Shape, file};

/// The lines for a table file that is not refused.
pub fn listing(bytes: &[u8]) -> Answer<String> {
    let read = file::read(bytes, usize::MAX, usize::MAX, usize::MAX)?;
    let shape = Shape::from_bytes(&read.shape)?;
    let mut lent = Lent::new(&read.shape, &read.lower, &read.upper, usize::MAX);
    let records = lent.compile(Settings::USUAL, usize::MAX)?;
    let lines = records.iter().enumerate().map(|(number, record)| format!("{number} {}\n", shown(record, &shape)));
    Ok(lines.collect::<String>() + &format!("records {}\n", records.len()))
}

fn shown(record: &Record, shape: &Shape) -> String {
    match *record {
        Record::Constant(grade) => format!("C {grade}"),
        Record::Literal(condition, held) => {
            let held = &held[..shape.cardinalities[condition as usize] as usize];
            let grades: String = held.iter().map(|grade| format!(" {grade}")).collect();
            format!("L {condition}{grades}")
        }
        Record::Gate(Gate::Min, left, right) => format!("MIN {left} {right}"),
        Record::Gate(Gate::Max, left, right) => format!("MAX {left} {right}"),
    }
}
