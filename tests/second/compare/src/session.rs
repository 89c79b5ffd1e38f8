//! Makes calls, each beside the oracle: the answer, every byte of every buffer, and the guards around them.

use crate::lent::{Lent, Returned};
use crate::networks::CEILING;
use crate::random::Random;
use calls::tables::OwnedTable;
use calls::{Calls, Edition, Gate, Limits, NO_CELL, REFUSED, REFUSED_EVALUATION, Sets, Table};
use oracle::stages::{self, Settings, WeakJoins};
use oracle::{Answer, file, join, network, refusal};

/// The error is a report of the first difference.
pub type Outcome<T> = Result<T, String>;

#[derive(Clone, Copy, Debug)]
pub struct Join {
    pub gate: Gate,
    pub s: u8,
    pub t: u8,
}

/// Lower and upper grades of a block.
pub type Block = [Vec<u8>; 2];

/// How many refusals there are: they are numbered from 1.
pub const REFUSALS: usize = refusal::LAST as usize;

pub struct Session<'a> {
    calls: &'a dyn Calls,
    pub random: Random,
    pub cases: u64,
    seen: [bool; REFUSALS + 1],
    /// The weak joins of the table that was compiled last, and the figures of its network under each choice of settings.
    pub weak_joins: WeakJoins,
    pub grown: [Option<Figures>; CHOICES],
    /// In how many of the tables compiled one is kept, and in how many one is built and gives way to the split.
    pub with_weak_joins: [u64; 2],
    /// How many of the tables compiled have another network under each setting alone.
    pub with_other_networks: [u64; SETTINGS],
    /// The network that was last held to its ceilings, and the shape.
    held: [Vec<u8>; 2],
}

/// The bytes that compiling asks for as work and as network, and those that a forecast asks for as depth.
pub fn compile_rooms(cells: usize) -> [usize; 3] {
    [32 * cells, 16 * if cells == 1 { 1 } else { 3 * cells - 5 }, 2]
}

/// How many settings there are, each a bit of their byte from the lowest on, and how many choices of them.
const SETTINGS: usize = 3;
pub const CHOICES: usize = 1 << SETTINGS;

/// A call that is lent a table, settings or none, and a work buffer, and writes to one more: its name, that buffer's, and
/// how it is made.
type Writes = (&'static str, &'static str, fn(&dyn Calls, Table, Option<u8>, &mut [u8], &mut [u8]) -> u32);

const FORECAST: Writes = ("forecast", "depth", |calls, table, settings, work, depth| match settings {
    None => calls.forecast(table, work, depth),
    Some(settings) => calls.forecast_with(table, settings, work, depth),
});
const COMPILE: Writes = ("compile", "network", |calls, table, settings, work, network| match settings {
    None => calls.compile(table, work, network),
    Some(settings) => calls.compile_with(table, settings, work, network),
});

/// What a forecast tells of a network: the number of its records, and the depth of the last.
pub type Figures = (u32, u16);

/// The figures of a network from its bytes, with the depth of one record after the other.
fn figures(network: &[u8]) -> Figures {
    let mut depths: Vec<u16> = vec![];
    for record in network.chunks(16) {
        let input = |at: usize| depths[u16::from_le_bytes([record[at], record[at + 1]]) as usize];
        depths.push(if record[0] < 2 { 0 } else { 1 + input(4).max(input(6)) });
    }
    (depths.len() as u32, depths.last().copied().unwrap_or(0))
}

fn lend(table: &OwnedTable, random: &mut Random) -> [Lent; 3] {
    [("shape", &table.shape), ("lower", &table.lower), ("upper", &table.upper)]
        .map(|(name, bytes)| Lent::holding(name, bytes, random))
}

/// The cells of a shape that was accepted.
fn cells_of(shape: &[u8]) -> usize {
    oracle::Shape::from_bytes(shape).map_or(0, |shape| shape.count())
}

/// The table that the first three of some lent buffers make.
fn table(lent: &[Lent; 3]) -> Table<'_> {
    let [shape, lower, upper] = lent;
    Table { shape: shape.held(), lower: lower.held(), upper: upper.held() }
}

impl<'a> Session<'a> {
    pub fn new(calls: &'a dyn Calls, seed: u64) -> Session<'a> {
        Session {
            calls,
            random: Random::new(seed),
            cases: 0,
            seen: [false; REFUSALS + 1],
            weak_joins: WeakJoins::default(),
            grown: [None; CHOICES],
            with_weak_joins: [0; 2],
            with_other_networks: [0; SETTINGS],
            held: [vec![], vec![]],
        }
    }

    /// The refusals that no call has answered.
    pub fn unseen(&self) -> Vec<usize> {
        (1..=REFUSALS).filter(|&number| !self.seen[number]).collect()
    }

    fn settle<T>(
        &mut self,
        call: &str,
        answer: u32,
        wanted: Answer<(u32, T)>,
        base: u32,
        lent: &[&dyn Returned],
    ) -> Outcome<Option<T>> {
        self.cases += 1;
        let (wanted, value) = match wanted {
            Ok((answer, value)) => (answer, Some(value)),
            Err(number) => {
                self.seen[number as usize] = true;
                (base + number, None)
            }
        };
        let wrong_answer = (answer != wanted).then(|| format!("answer {answer}, expected {wanted}"));
        match wrong_answer.or_else(|| lent.iter().find_map(|buffer| buffer.difference())) {
            None => Ok(value),
            Some(difference) => {
                let buffers: Vec<String> = lent.iter().map(|buffer| buffer.describe()).collect();
                Err(format!("case {}: {call}: {difference}\n{}", self.cases, buffers.join("\n")))
            }
        }
    }

    /// Reads a file into buffers of these lengths.
    pub fn read(&mut self, bytes: &[u8], rooms: [usize; 3]) -> Outcome<Option<OwnedTable>> {
        let random = &mut self.random;
        let file = Lent::holding("file", bytes, random);
        let mut shape = Lent::noise("shape", rooms[0], random);
        let mut lower = Lent::noise("lower", rooms[1], random);
        let mut upper = Lent::noise("upper", rooms[2], random);
        let wanted = file::read(bytes, rooms[0], rooms[1], rooms[2]).map(|read| {
            shape.expect(&read.shape);
            lower.expect(&read.lower);
            upper.expect(&read.upper);
            (0, OwnedTable { shape: read.shape.to_vec(), lower: read.lower, upper: read.upper })
        });
        let limits = Limits { lower: lower.held_mut(), upper: upper.held_mut() };
        let answer = self.calls.read(file.held(), shape.held_mut(), limits);
        self.settle("read", answer, wanted, REFUSED, &[&file, &shape, &lower, &upper])
    }

    /// Reads a file that holds this table.
    pub fn read_back(&mut self, bytes: &[u8], rooms: [usize; 3], held: &OwnedTable) -> Outcome<()> {
        match self.read(bytes, rooms)? {
            Some(read) if read == *held => Ok(()),
            read => Err(format!("case {}: read {read:?} from a file of {held:?}", self.cases)),
        }
    }

    /// Converts a file into a buffer of this length; the file that it becomes, which on the way back gave the first.
    pub fn convert(&mut self, from: Edition, bytes: &[u8], room: usize) -> Outcome<Option<Vec<u8>>> {
        let file = Lent::holding("file", bytes, &mut self.random);
        let mut out = Lent::noise("out", room, &mut self.random);
        let (call, edition) = match from {
            Edition::Limits => ("to sets", file::Edition::Limits),
            Edition::Sets => ("from sets", file::Edition::Sets),
        };
        let wanted = file::convert(edition, bytes, room).map(|converted| {
            out.expect(&converted);
            (0, converted)
        });
        let answer = self.calls.convert(from, file.held(), out.held_mut());
        let converted = self.settle(call, answer, wanted, REFUSED, &[&file, &out])?;
        if let Some(converted) = &converted {
            let mut back = vec![0; bytes.len()];
            let answer = self.calls.convert(from.other(), converted, &mut back);
            if answer != 0 || back != bytes {
                let at = back.iter().zip(bytes).position(|(back, first)| back != first);
                return Err(format!("case {}: {call}, and back: answer {answer}, byte {at:?} differs", self.cases));
            }
        }
        Ok(converted)
    }

    /// Converts a file in both directions, each into a buffer of no bytes, of one too few, of as many as it has, and of
    /// more.
    pub fn convert_both_ways(&mut self, bytes: &[u8]) -> Outcome<()> {
        let more = bytes.len() + 1 + self.random.below(40);
        for from in Edition::BOTH {
            for room in [0, bytes.len().saturating_sub(1), bytes.len(), more] {
                self.convert(from, bytes, room)?;
            }
        }
        Ok(())
    }

    /// Reads a file into buffers that have room for any, and converts it.
    pub fn try_file(&mut self, bytes: &[u8]) -> Outcome<()> {
        self.read(bytes, [10, 1024, 1024])?;
        self.convert_both_ways(bytes)
    }

    /// Makes a join, for the second block where a first is given, into buffers of these lengths.
    pub fn join(
        &mut self,
        given: &OwnedTable,
        join: Join,
        first: Option<&[u8]>,
        rooms: [usize; 2],
    ) -> Outcome<Option<Block>> {
        let random = &mut self.random;
        let lent = lend(given, random);
        let block = Lent::holding("first block", first.unwrap_or(&[]), random);
        let mut lower = Lent::noise("lower of the block", rooms[0], random);
        let mut upper = Lent::noise("upper of the block", rooms[1], random);
        let gate = match join.gate {
            Gate::Min => oracle::Gate::Min,
            Gate::Max => oracle::Gate::Max,
        };
        let OwnedTable { shape, lower: given_lower, upper: given_upper } = given;
        let asked = join::Lent { shape, lower: given_lower, upper: given_upper, gate, s: join.s, t: join.t, rooms };
        let wanted = first.map_or_else(|| asked.first(), |first| asked.second(first)).map(|limits| {
            let written: Block =
                [limits.iter().map(|at| at.lower).collect(), limits.iter().map(|at| at.upper).collect()];
            lower.expect(&written[0]);
            upper.expect(&written[1]);
            (0, written)
        });
        let limits = Limits { lower: lower.held_mut(), upper: upper.held_mut() };
        let sets = Sets { s: join.s, t: join.t };
        let answer = match first {
            None => self.calls.join_first(join.gate, table(&lent), sets, limits),
            Some(_) => self.calls.join_second(join.gate, table(&lent), sets, block.held(), limits),
        };
        let call = format!("{} block of {join:?}", if first.is_some() { "second" } else { "first" });
        let [shape, table_lower, table_upper] = &lent;
        self.settle(&call, answer, wanted, REFUSED, &[shape, table_lower, table_upper, &block, &lower, &upper])
    }

    /// Forecasts and compiles, with a work, a network and a depth buffer of these lengths: without settings, and under
    /// each choice of them. The network's bytes without; where it is another under one choice, that one is checked here.
    pub fn compile(&mut self, given: &OwnedTable, rooms: [usize; 3]) -> Outcome<Option<Vec<u8>>> {
        let mut lent = stages::Lent::new(&given.shape, &given.lower, &given.upper, rooms[0]);
        let usual = self.grow(&mut lent, given, None, rooms)?;
        self.weak_joins = lent.weak_joins(Settings::USUAL);
        let WeakJoins { kept, rejected } = self.weak_joins;
        self.with_weak_joins[0] += (kept > 0) as u64;
        self.with_weak_joins[1] += (rejected > 0) as u64;
        // To check them all would take too long.
        let checked = self.random.below(CHOICES);
        for choice in 0..CHOICES {
            // The other bits mean nothing.
            let others = if self.random.once_in(2) { self.random.byte() << SETTINGS } else { 0 };
            let network = self.grow(&mut lent, given, Some(choice as u8 | others), rooms)?;
            self.grown[choice] = network.as_deref().map(figures);
            let Some(network) = network.filter(|network| Some(network) != usual.as_ref()) else { continue };
            if choice.is_power_of_two() {
                self.with_other_networks[choice.trailing_zeros() as usize] += 1;
            }
            if choice == checked {
                self.check(&network, given, network.len() / 16)?;
            }
        }
        Ok(usual)
    }

    /// Forecasts and compiles under settings, where there are some; the network's bytes.
    fn grow(
        &mut self,
        lent: &mut stages::Lent,
        given: &OwnedTable,
        settings: Option<u8>,
        [work, network, depth]: [usize; 3],
    ) -> Outcome<Option<Vec<u8>>> {
        let grown = settings.map_or(Settings::USUAL, Settings::from_byte);
        let wanted = lent.forecast(grown, depth).map(|(records, depth)| (records as u32, depth.to_le_bytes().to_vec()));
        let foretold = self.write(FORECAST, given, settings, [work, depth], wanted)?;
        let wanted = lent.compile(grown, network).map(|records| (records.len() as u32, network::bytes(records)));
        let written = self.write(COMPILE, given, settings, [work, network], wanted)?;
        let foretold = foretold.map(|(records, depth)| (records, u16::from_le_bytes([depth[0], depth[1]])));
        match (foretold, written) {
            (Some(foretold), Some((_, network))) if foretold != figures(&network) => {
                Err(format!("case {}: forecast {foretold:?} of a network that has {:?}", self.cases, figures(&network)))
            }
            (_, written) => Ok(written.map(|(_, network)| network)),
        }
    }

    /// Makes a call with a work buffer and one to write of these lengths; its answer, and the bytes that it wrote.
    fn write(
        &mut self,
        (name, writes, call): Writes,
        given: &OwnedTable,
        settings: Option<u8>,
        rooms: [usize; 2],
        wanted: Answer<(u32, Vec<u8>)>,
    ) -> Outcome<Option<(u32, Vec<u8>)>> {
        let lent = lend(given, &mut self.random);
        let mut work = Lent::noise("work", rooms[0], &mut self.random);
        let mut to = Lent::noise(writes, rooms[1], &mut self.random);
        let wanted = wanted.map(|(answer, bytes)| {
            to.expect(&bytes);
            work.leave_free(32 * cells_of(&given.shape));
            (answer, (answer, bytes))
        });
        let answer = call(self.calls, table(&lent), settings, work.held_mut(), to.held_mut());
        let name = settings.map_or(name.into(), |settings| format!("{name} with settings {settings:#010b}"));
        let [shape, lower, upper] = &lent;
        self.settle(&name, answer, wanted, REFUSED, &[shape, lower, upper, &work, &to])
    }

    /// Checks a network with a work buffer of this length.
    pub fn check(&mut self, network: &[u8], given: &OwnedTable, work: usize) -> Outcome<()> {
        let lent = lend(given, &mut self.random);
        let wanted = network::check(network, &given.shape, &given.lower, &given.upper, work);
        let mut work = Lent::noise("work", work, &mut self.random);
        let wanted = wanted.map(|outside| {
            work.leave_free(network.len() / 16);
            (outside.map_or(0, |(cell, grade)| 1 + 16 * cell as u32 + grade as u32), ())
        });
        let network = Lent::holding("network", network, &mut self.random);
        let answer = self.calls.check(network.held(), table(&lent), work.held_mut());
        let [shape, lower, upper] = &lent;
        let accepted = self.settle("check", answer, wanted, REFUSED, &[&network, shape, lower, upper, &work])?;
        accepted.map_or(Ok(()), |()| self.hold_to_ceilings(network.held(), shape.held()))
    }

    /// Evaluates a network at a cell with a work buffer of this length.
    pub fn evaluate(&mut self, network: &[u8], shape: &[u8], work: usize, cell: u32) -> Outcome<()> {
        let wanted = network::evaluate(network, shape, work, cell);
        let mut work = Lent::noise("work", work, &mut self.random);
        let wanted = wanted.map(|grade| {
            work.leave_free(network.len() / 16);
            (grade as u32, ())
        });
        let network = Lent::holding("network", network, &mut self.random);
        let shape = Lent::holding("shape", shape, &mut self.random);
        let answer = self.calls.evaluate(network.held(), shape.held(), work.held_mut(), cell);
        let call = format!("evaluate at cell {cell}");
        let accepted = self.settle(&call, answer, wanted, REFUSED_EVALUATION, &[&network, &shape, &work])?;
        accepted.map_or(Ok(()), |()| self.hold_to_ceilings(network.held(), shape.held()))
    }

    /// Evaluates a network at each cell of a list, with a grades and a work buffer of these lengths; the grades.
    pub fn evaluate_each(
        &mut self,
        network: &[u8],
        shape: &[u8],
        cells: &[u16],
        rooms: [usize; 2],
    ) -> Outcome<Option<Vec<u8>>> {
        let random = &mut self.random;
        let mut grades = Lent::noise("grades", rooms[0], random);
        let mut work = Lent::noise("work", rooms[1], random);
        let wanted = network::evaluate_each(network, shape, cells, rooms[0], rooms[1]).map(|each| {
            grades.expect(&each);
            // A list of no cells leaves the work buffer as it is.
            work.leave_free(if cells.is_empty() { 0 } else { network.len() / 16 });
            (0, each)
        });
        let network = Lent::holding("network", network, random);
        let shape = Lent::holding("shape", shape, random);
        let cells = Lent::holding("cells", cells, random);
        let answer =
            self.calls.evaluate_each(network.held(), shape.held(), cells.held(), grades.held_mut(), work.held_mut());
        let each =
            self.settle("evaluate each", answer, wanted, REFUSED, &[&network, &shape, &cells, &grades, &work])?;
        if let Some(each) = &each {
            self.hold_to_single_calls(network.held(), shape.held(), cells.held(), each)?;
            self.hold_to_ceilings(network.held(), shape.held())?;
        }
        Ok(each)
    }

    /// Holds the grades of a list of cells to what a single call answers for each.
    fn hold_to_single_calls(&self, network: &[u8], shape: &[u8], cells: &[u16], each: &[u8]) -> Outcome<()> {
        let mut work = vec![0; network.len() / 16];
        for (&cell, &grade) in cells.iter().zip(each) {
            let single = self.calls.evaluate(network, shape, &mut work, cell as u32);
            let wanted = if grade == NO_CELL { REFUSED_EVALUATION + refusal::CELL_NUMBER } else { grade as u32 };
            if single != wanted {
                return Err(format!("case {}: cell {cell}: {grade} in a list, {single} from one call", self.cases));
            }
        }
        Ok(())
    }

    /// Holds each record of a network that was accepted to its ceiling: at no cell is its grade more. Calls with one network
    /// come one after the other, and the first of them is enough.
    fn hold_to_ceilings(&mut self, network: &[u8], shape: &[u8]) -> Outcome<()> {
        if self.held == [network, shape] {
            return Ok(());
        }
        self.held = [network.to_vec(), shape.to_vec()];
        let greatest = network::greatest(network, shape).expect("the oracle accepts what was accepted");
        let above = network.chunks(16).zip(greatest).position(|(record, greatest)| greatest > record[CEILING]);
        above.map_or(Ok(()), |number| Err(format!("case {}: record {number} exceeds its ceiling", self.cases)))
    }
}
