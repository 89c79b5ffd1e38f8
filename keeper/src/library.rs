//! The proved library's calls with types: a table or a network here is one that the library has accepted.

use grades::{REFUSED, REFUSED_EVALUATION};

pub const RECORD: usize = 16;
pub const MAX_FILE_RECORDS: usize = 1033;
pub const MAX_NETWORK_RECORDS: usize = 4096;
pub const MAX_CONDITIONS: usize = 8;
pub const MAX_GRADES: u8 = 16;
pub const MAX_CELLS: usize = 1024;
/// What evaluating at one cell takes of the stack at most, as include/grades.h has it.
pub const RUN_STACK_BYTES: usize = 5120;

/// A refusal, by its number in docs/FORMAT.md.
#[derive(Clone, Copy, Debug, PartialEq, Eq)]
pub struct Refusal(pub u32);

fn answered(answer: u32, refused: u32) -> Result<usize, Refusal> {
    if answer < refused { Ok(answer as usize) } else { Err(Refusal(answer - refused)) }
}

/// What a file's records of cells say: a least and a most grade, or, as the spreadsheet exports it, a set of grades.
#[derive(Clone, Copy, Debug, PartialEq, Eq)]
pub enum Edition {
    Limits,
    Sets,
}

impl Edition {
    /// The file of the other edition that a file of this one becomes.
    pub fn convert(self, file: &[u8]) -> Result<Vec<u8>, Refusal> {
        let mut out = vec![0; file.len()];
        let answer = match self {
            Edition::Limits => grades::to_sets(file, &mut out),
            Edition::Sets => grades::from_sets(file, &mut out),
        };
        answered(answer, REFUSED).map(|_| out)
    }

    /// The table of a file of this edition.
    pub fn read(self, file: &[u8]) -> Result<Table, Refusal> {
        match self {
            Edition::Limits => Table::read(file),
            Edition::Sets => Table::read(&self.convert(file)?),
        }
    }
}

/// A shape as the library wrote it.
#[derive(Clone, Debug, PartialEq, Eq)]
pub struct Shape([u8; 10]);

impl Shape {
    pub fn conditions(&self) -> usize {
        self.0[0].into()
    }

    /// How many values a condition has.
    pub fn values(&self, condition: usize) -> usize {
        self.0[1 + condition].into()
    }

    pub fn grades(&self) -> usize {
        self.0[9].into()
    }

    pub fn cells(&self) -> usize {
        (0..self.conditions()).map(|i| self.values(i)).product()
    }

    /// A cell's value of each condition.
    pub fn values_of(&self, mut cell: usize) -> Vec<usize> {
        let value = |i| {
            let value = cell % self.values(i);
            cell /= self.values(i);
            value
        };
        (0..self.conditions()).map(value).collect()
    }

    /// The cell of a value of each condition.
    pub fn cell(&self, values: &[usize]) -> usize {
        (0..self.conditions()).rev().fold(0, |cell, i| cell * self.values(i) + values[i])
    }
}

#[derive(Clone, Debug, PartialEq, Eq)]
pub struct Table {
    shape: Shape,
    lower: Vec<u8>,
    upper: Vec<u8>,
}

/// What a check finds: the network is within the limits, or the first cell where it is not, and its grade there.
#[derive(Clone, Copy, Debug, PartialEq, Eq)]
pub enum Verdict {
    Within,
    Outside { cell: usize, grade: usize },
}

/// A network that is not there yet: how many records it will have, and how many gates are on its longest way.
#[derive(Clone, Copy, Debug, PartialEq, Eq)]
pub struct Forecast {
    pub records: usize,
    pub depth: usize,
}

impl Table {
    pub fn read(file: &[u8]) -> Result<Table, Refusal> {
        let mut shape = [0; 10];
        let (mut lower, mut upper) = (vec![0; MAX_CELLS], vec![0; MAX_CELLS]);
        answered(grades::read(file, &mut shape, &mut lower, &mut upper), REFUSED)?;
        let shape = Shape(shape);
        lower.truncate(shape.cells());
        upper.truncate(shape.cells());
        Ok(Table { shape, lower, upper })
    }

    pub fn shape(&self) -> &Shape {
        &self.shape
    }

    /// The least and the most grade in a cell.
    pub fn limits(&self, cell: usize) -> (usize, usize) {
        (self.lower[cell].into(), self.upper[cell].into())
    }

    /// The bytes of work that compiling and a forecast ask for.
    fn work(&self) -> Vec<u8> {
        vec![0; 32 * self.shape.cells()]
    }

    pub fn compile(&self) -> Result<Network, Refusal> {
        let cells = self.shape.cells();
        let mut bytes = vec![0; RECORD * if cells == 1 { 1 } else { 3 * cells - 5 }];
        let answer = grades::compile(&self.shape.0, &self.lower, &self.upper, &mut self.work(), &mut bytes);
        let records = answered(answer, REFUSED)?;
        bytes.truncate(RECORD * records);
        Ok(Network { bytes, shape: self.shape.clone() })
    }

    pub fn forecast(&self) -> Result<Forecast, Refusal> {
        let mut depth = [0; 2];
        let answer = grades::forecast(&self.shape.0, &self.lower, &self.upper, &mut self.work(), &mut depth);
        let records = answered(answer, REFUSED)?;
        Ok(Forecast { records, depth: u16::from_le_bytes(depth).into() })
    }

    pub fn check(&self, network: &[u8]) -> Result<Verdict, Refusal> {
        let mut work = vec![0; network.len() / RECORD];
        let answer = answered(grades::check(network, &self.shape.0, &self.lower, &self.upper, &mut work), REFUSED)?;
        Ok(match answer.checked_sub(1) {
            None => Verdict::Within,
            Some(found) => Verdict::Outside { cell: found / 16, grade: found % 16 },
        })
    }

    /// The table that asks for what this one does in a cell, and for nothing elsewhere.
    pub fn only_at(&self, cell: usize) -> Table {
        let mut only = self.clone();
        only.lower.fill(0);
        only.upper.fill(self.shape.0[9] - 1);
        (only.lower[cell], only.upper[cell]) = (self.lower[cell], self.upper[cell]);
        only
    }
}

#[derive(Clone, Copy, Debug, PartialEq, Eq)]
pub enum Gate {
    Min,
    Max,
}

#[derive(Clone, Debug, PartialEq, Eq)]
pub enum Record {
    Constant { grade: usize },
    Lookup { condition: usize, grades: Vec<usize> },
    Gate { gate: Gate, left: usize, right: usize, ceiling: usize },
}

/// A network of the shape.
#[derive(Clone, Debug, PartialEq, Eq)]
pub struct Network {
    bytes: Vec<u8>,
    shape: Shape,
}

impl Network {
    pub fn read(bytes: &[u8], shape: &Shape) -> Result<Network, Refusal> {
        let network = Network { bytes: bytes.to_vec(), shape: shape.clone() };
        network.evaluate(0)?;
        Ok(network)
    }

    pub fn bytes(&self) -> &[u8] {
        &self.bytes
    }

    pub fn evaluate(&self, cell: usize) -> Result<usize, Refusal> {
        let mut work = vec![0; self.bytes.len() / RECORD];
        let cell = u32::try_from(cell).unwrap_or(u32::MAX);
        answered(grades::evaluate(&self.bytes, &self.shape.0, &mut work, cell), REFUSED_EVALUATION)
    }

    pub fn records(&self) -> Vec<Record> {
        let number = |low: u8, high: u8| usize::from(u16::from_le_bytes([low, high]));
        let record = |r: &[u8]| match r[0] {
            0 => Record::Constant { grade: r[1].into() },
            1 => {
                let condition = usize::from(r[1]);
                let grades = r[8..8 + self.shape.values(condition)].iter().map(|&grade| grade.into()).collect();
                Record::Lookup { condition, grades }
            }
            kind => Record::Gate {
                gate: if kind == 2 { Gate::Min } else { Gate::Max },
                left: number(r[4], r[5]),
                right: number(r[6], r[7]),
                ceiling: r[2].into(),
            },
        };
        self.bytes.chunks_exact(RECORD).map(record).collect()
    }
}
