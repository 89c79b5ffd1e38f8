//! Networks: document 01, section "Networks", with the ceilings that request 7 has in byte 2 of each record. A network is
//! read record by record, gate by gate, at each cell.
//!
//! Ceilings are never taken from the bytes. A record's is the grade that it would have if every literal could have the
//! largest of its grades at once, and so comes from the records alone, by what gives them their grades.

use crate::{Answer, Gate, Shape, Values, refusal, stop_if};

#[derive(Clone, Copy, Debug, PartialEq, Eq)]
pub enum Record {
    Constant(u8),
    Literal(u8, [u8; 8]),
    Gate(Gate, u16, u16),
}

impl Record {
    fn to_bytes(self, ceiling: u8) -> [u8; 16] {
        let mut bytes = [0; 16];
        bytes[2] = ceiling;
        match self {
            Record::Constant(grade) => bytes[1] = grade,
            Record::Literal(condition, grades) => {
                bytes[..2].copy_from_slice(&[1, condition]);
                bytes[8..].copy_from_slice(&grades);
            }
            Record::Gate(gate, left, right) => {
                bytes[0] = if gate == Gate::Min { 2 } else { 3 };
                bytes[4..6].copy_from_slice(&left.to_le_bytes());
                bytes[6..8].copy_from_slice(&right.to_le_bytes());
            }
        }
        bytes
    }

    /// The record that sixteen bytes hold, by the bytes that its kind names; none if they are faulty in these, as record of
    /// this number.
    fn from_bytes(bytes: &[u8], number: usize, shape: &Shape) -> Option<Record> {
        let pair = |at: usize| u16::from_le_bytes([bytes[at], bytes[at + 1]]);
        let record = match bytes[0] {
            0 => Record::Constant(bytes[1]),
            1 => Record::Literal(bytes[1], bytes[8..].try_into().expect("eight bytes")),
            2 => Record::Gate(Gate::Min, pair(4), pair(6)),
            3 => Record::Gate(Gate::Max, pair(4), pair(6)),
            _ => return None,
        };
        let sound = match record {
            Record::Constant(grade) => grade < shape.grades,
            Record::Literal(condition, grades) => {
                let card = *shape.cardinalities.get(condition as usize)? as usize;
                let (named, past) = grades.split_at(card);
                named.iter().all(|&grade| grade < shape.grades) && past.iter().all(|&grade| grade == 0)
            }
            Record::Gate(_, left, right) => [left, right].iter().all(|&input| (input as usize) < number),
        };
        sound.then_some(record)
    }
}

/// The records of a network, or the refusal of a network that is not one.
pub fn records(network: &[u8], shape: &Shape) -> Answer<Vec<Record>> {
    let count = network.len() / 16;
    stop_if(!(1..=4096).contains(&count) || network.len() % 16 != 0, refusal::NETWORK)?;
    let records = network.chunks(16).enumerate().map(|(number, bytes)| Record::from_bytes(bytes, number, shape));
    let records: Option<Vec<Record>> = records.collect();
    // Every byte 2 is a ceiling, and every byte that the record's own kind does not name is zero, exactly when writing the
    // records again gives the same bytes.
    records.filter(|records| bytes(records) == network).ok_or(refusal::NETWORK)
}

/// The bytes of a network's records. A literal's grades past its values are zeros, which no largest grade comes from.
pub fn bytes(records: &[Record]) -> Vec<u8> {
    let ceilings = grades(records, 0, |_, held| held.into_iter().max().expect("eight grades"));
    records.iter().zip(ceilings).flat_map(|(record, ceiling)| record.to_bytes(ceiling)).collect()
}

/// The grade of each of some records, where a literal has what is chosen from its grades. They are numbered from `first`,
/// and name none before it.
fn grades(records: &[Record], first: usize, chosen: impl Fn(u8, [u8; 8]) -> u8) -> Vec<u8> {
    let mut grades: Vec<u8> = Vec::with_capacity(records.len());
    for record in records {
        let input = |number: u16| grades[number as usize - first];
        let grade = match *record {
            Record::Constant(grade) => grade,
            Record::Literal(condition, held) => chosen(condition, held),
            Record::Gate(gate, left, right) => gate.of(input(left), input(right)),
        };
        grades.push(grade);
    }
    grades
}

/// The grade of each of some records at a cell.
fn grades_at(records: &[Record], first: usize, cell: Values) -> Vec<u8> {
    grades(records, first, |condition, held| held[cell[condition as usize] as usize])
}

/// The grade of the last of some records at a cell.
pub fn grade(records: &[Record], first: usize, cell: Values) -> u8 {
    *grades_at(records, first, cell).last().expect("a network has a record")
}

/// The greatest grade that each record of a network has at any cell.
pub fn greatest(network: &[u8], shape: &[u8]) -> Answer<Vec<u8>> {
    let shape = Shape::from_bytes(shape)?;
    let records = records(network, &shape)?;
    let mut greatest = vec![0; records.len()];
    for cell in shape.cells() {
        for (so_far, grade) in greatest.iter_mut().zip(grades_at(&records, 0, cell)) {
            *so_far = grade.max(*so_far);
        }
    }
    Ok(greatest)
}

/// How deep gates stand under a record: 0 for none, and under a gate one more than under the deeper of its inputs. The
/// walk meets a record once for each way to it, which in a compiled network is one.
pub fn depth(records: &[Record], number: u16) -> u16 {
    match records[number as usize] {
        Record::Gate(_, left, right) => 1 + depth(records, left).max(depth(records, right)),
        Record::Constant(_) | Record::Literal(..) => 0,
    }
}

/// Evaluation with a work buffer of this length.
pub fn evaluate(network: &[u8], shape: &[u8], work: usize, cell: u32) -> Answer<u8> {
    let shape = Shape::from_bytes(shape)?;
    stop_if(work < network.len() / 16, refusal::SHORT_BUFFER)?;
    let records = records(network, &shape)?;
    let cell = shape.cells().get(cell as usize).copied().ok_or(refusal::CELL_NUMBER)?;
    Ok(grade(&records, 0, cell))
}

/// Evaluation at each cell of a list, with buffers of these lengths: the grades of all cells of the shape, and of them
/// those of the list; 255 where there is no such cell.
pub fn evaluate_each(network: &[u8], shape: &[u8], cells: &[u16], grades: usize, work: usize) -> Answer<Vec<u8>> {
    let shape = Shape::from_bytes(shape)?;
    stop_if(work < network.len() / 16 || grades < cells.len(), refusal::SHORT_BUFFER)?;
    let records = records(network, &shape)?;
    let all: Vec<u8> = shape.cells().into_iter().map(|cell| grade(&records, 0, cell)).collect();
    Ok(cells.iter().map(|&number| *all.get(number as usize).unwrap_or(&255)).collect())
}

/// The first cell outside the limits and the grade there; none when the network is within.
pub fn check(network: &[u8], shape: &[u8], lower: &[u8], upper: &[u8], work: usize) -> Answer<Option<(usize, u8)>> {
    let shape = Shape::from_bytes(shape)?;
    let short = lower.len() < shape.count() || upper.len() < shape.count() || work < network.len() / 16;
    stop_if(short, refusal::SHORT_BUFFER)?;
    let table = shape.table(lower, upper)?;
    let records = records(network, &shape)?;
    let at = |(number, &cell): (usize, &Values)| {
        let (grade, limits) = (grade(&records, 0, cell), table.limits[&cell]);
        (!limits.allow(grade)).then_some((number, grade))
    };
    Ok(shape.cells().iter().enumerate().find_map(at))
}
