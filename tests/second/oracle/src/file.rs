//! Table files: document 01, sections "Tables and cells" and "Places where a call stops"; and request 6, which has a
//! second edition of them.
//!
//! A file of either edition is read into its shape and, for each listed cell, the grades that it allows. A file of the
//! other edition is written from that alone: no byte of the first one is carried over.

use crate::{Answer, Limits, Shape, Values, refusal, stop_if};
use std::collections::BTreeSet;

/// What the records of cells say: a lower and an upper grade, or a set of grades.
#[derive(Clone, Copy, Debug, PartialEq, Eq)]
pub enum Edition {
    Limits,
    Sets,
}

impl Edition {
    fn other(self) -> Edition {
        match self {
            Edition::Limits => Edition::Sets,
            Edition::Sets => Edition::Limits,
        }
    }
}

/// What a sound file holds: ten bytes of shape, and a lower and an upper grade for each cell.
#[derive(Debug)]
pub struct Read {
    pub shape: [u8; 10],
    pub lower: Vec<u8>,
    pub upper: Vec<u8>,
}

/// What the records so far have said.
struct Reader {
    edition: Edition,
    shape: Shape,
    graded: bool,
    /// The listed cells, in the order of the file, each with the grades that it allows: one, or more with no gap.
    listed: Vec<(Values, BTreeSet<u8>)>,
}

/// Reads a file into buffers of these lengths.
pub fn read(file: &[u8], shape_room: usize, lower_room: usize, upper_room: usize) -> Answer<Read> {
    let reader = Reader::all(Edition::Limits, file)?;
    let count = reader.shape.count();
    stop_if(shape_room < 10 || lower_room < count || upper_room < count, refusal::SHORT_BUFFER)?;
    // Cells are listed in the order of their numbers. One that is not is of a kind that nobody foresaw: a plain line, or more.
    let unlisted = Limits { lower: 1, upper: reader.shape.grades - 1 };
    let mut listed = reader.listed.iter().peekable();
    let limits = |number: usize| {
        let here = listed.next_if(|(cell, _)| reader.shape.number(*cell) == number);
        here.map_or(unlisted, |(_, allowed)| ends(allowed))
    };
    let (lower, upper) = (0..count).map(limits).map(|at| (at.lower, at.upper)).unzip();
    Ok(Read { shape: reader.shape.to_bytes(), lower, upper })
}

/// The file of the other edition that a file of this one becomes, in a buffer of this length.
pub fn convert(from: Edition, file: &[u8], room: usize) -> Answer<Vec<u8>> {
    let converted = Reader::all(from, file)?.written(from.other());
    assert!(converted.len() == file.len(), "{} bytes became {}", file.len(), converted.len());
    stop_if(room < converted.len(), refusal::SHORT_BUFFER)?;
    Ok(converted)
}

fn zero(bytes: &[u8]) -> Answer<()> {
    stop_if(bytes.iter().any(|&byte| byte != 0), refusal::RECORD_BYTES)
}

/// The least and the greatest of the grades that a cell allows.
fn ends(allowed: &BTreeSet<u8>) -> Limits {
    let end = |grade: Option<&u8>| *grade.expect("a listed cell allows a grade");
    Limits { lower: end(allowed.first()), upper: end(allowed.last()) }
}

impl Reader {
    /// Reads a file of an edition to its end.
    fn all(edition: Edition, file: &[u8]) -> Answer<Reader> {
        stop_if(file.is_empty() || file.len() % 16 != 0 || file.len() > 16_528, refusal::FILE_LENGTH)?;
        // Two grades stand in until the grades record: no cell is judged before it.
        let shape = Shape { cardinalities: vec![], grades: 2 };
        let mut reader = Reader { edition, shape, graded: false, listed: vec![] };
        for record in file.chunks(16) {
            match (record[0], edition) {
                (1, _) => reader.condition(record)?,
                (2, _) => reader.grades(record)?,
                (3, Edition::Limits) | (4, Edition::Sets) => reader.cell(record)?,
                _ => return Err(refusal::RECORD_BYTES),
            }
        }
        stop_if(!reader.graded, refusal::RECORD_ORDER)?;
        Ok(reader)
    }

    fn condition(&mut self, record: &[u8]) -> Answer<()> {
        zero(&record[3..])?;
        let next = self.shape.cardinalities.len();
        stop_if(self.graded || record[1] as usize != next, refusal::RECORD_ORDER)?;
        self.shape.cardinalities.push(record[2]);
        self.shape.clone().judged().map(|_| ())
    }

    fn grades(&mut self, record: &[u8]) -> Answer<()> {
        zero(&record[2..])?;
        stop_if(self.graded, refusal::RECORD_ORDER)?;
        self.graded = true;
        self.shape.grades = record[1];
        self.shape.clone().judged().map(|_| ())
    }

    fn cell(&mut self, record: &[u8]) -> Answer<()> {
        let conditions = self.shape.cardinalities.len();
        match self.edition {
            Edition::Limits => zero(&record[3..8])?,
            Edition::Sets => zero(&record[1..2]).and(zero(&record[4..8]))?,
        }
        zero(&record[8 + conditions..])?;
        stop_if(!self.graded, refusal::RECORD_ORDER)?;
        let cell: Values = record[8..].try_into().expect("eight bytes");
        let in_range = cell.iter().zip(&self.shape.cardinalities).all(|(value, card)| value < card);
        stop_if(!in_range, refusal::CELL_VALUES)?;
        if let Some((before, _)) = self.listed.last() {
            stop_if(self.shape.number(cell) <= self.shape.number(*before), refusal::CELL_VALUES)?;
        }
        let allowed = match self.edition {
            Edition::Limits => self.between(record[1], record[2])?,
            Edition::Sets => self.whole_set(record[2], record[3])?,
        };
        self.listed.push((cell, allowed));
        Ok(())
    }

    /// The grades from a lower to an upper one.
    fn between(&self, lower: u8, upper: u8) -> Answer<BTreeSet<u8>> {
        stop_if(lower > upper || upper >= self.shape.grades, refusal::LIMITS)?;
        Ok((lower..=upper).collect())
    }

    /// The grades of a set, 0 to 7 in its low byte and 8 to 15 in its high one.
    fn whole_set(&self, low: u8, high: u8) -> Answer<BTreeSet<u8>> {
        let has = |grade: &u8| if *grade < 8 { low >> grade & 1 == 1 } else { high >> (grade - 8) & 1 == 1 };
        let allowed: BTreeSet<u8> = (0..16).filter(has).collect();
        let whole = allowed.first().zip(allowed.last()).is_some_and(|(&least, &most)| {
            most < self.shape.grades && (least..=most).all(|grade| allowed.contains(&grade))
        });
        stop_if(!whole, refusal::GRADE_SET)?;
        Ok(allowed)
    }

    /// The whole file, in an edition.
    fn written(&self, edition: Edition) -> Vec<u8> {
        let mut file = vec![];
        let mut record = |bytes: &[u8]| {
            file.extend(bytes);
            file.resize(file.len().next_multiple_of(16), 0);
        };
        for (number, &card) in self.shape.cardinalities.iter().enumerate() {
            record(&[1, number as u8, card]);
        }
        record(&[2, self.shape.grades]);
        for (values, allowed) in &self.listed {
            let byte = |first: u8| -> u8 { allowed.range(first..first + 8).map(|grade| 1 << (grade - first)).sum() };
            let head = match edition {
                Edition::Limits => [3, ends(allowed).lower, ends(allowed).upper, 0, 0, 0, 0, 0],
                Edition::Sets => [4, 0, byte(0), byte(8), 0, 0, 0, 0],
            };
            record(&[head, *values].concat());
        }
        file
    }
}
