//! Where the records of a network stand in its drawing, and which of them wires lead to: lookups in a column, a row for
//! each; gates in a column for each depth, in the middle of what they take.
//!
//! A compiled network is a tree whose lookups stand in the order of the rows, so that no wires cross and no gate stands
//! on another. In other networks a wire that could be misread is left out.

use std::collections::BTreeMap;

use crate::library::Record;

pub const ROW: f64 = 30.0;
/// How far apart gates of one depth are at least. In a tree two are two rows apart or more.
const APART: f64 = 44.0;
/// A gate takes its inputs this far above and below its middle.
const PORT: f64 = 5.0;
/// What belongs to a gate above and below its middle: its box and its number, and the numbers at its inputs.
const ABOVE: f64 = 24.0;
pub const BELOW: f64 = 14.0;
/// How far apart upright parts from different records are at least, for the eye.
const CLEAR: f64 = 4.0;

/// The two records that a gate takes.
fn taken_by(record: &Record) -> Option<[usize; 2]> {
    match record {
        Record::Gate { left, right, .. } => Some([*left, *right]),
        _ => None,
    }
}

/// How many gates' inputs each record is.
pub fn times_taken(records: &[Record]) -> Vec<usize> {
    let mut times = vec![0; records.len()];
    for number in records.iter().filter_map(taken_by).flatten() {
        times[number] += 1;
    }
    times
}

/// Where a record stands: its depth is its column, and its middle is this far below the first row's.
pub struct Place {
    pub depth: usize,
    pub y: f64,
}

/// What a gate takes at one of its ports: by a wire or else by a stub with the record's number.
pub struct Input {
    pub from: usize,
    pub to: usize,
    pub port: f64,
    pub wired: bool,
}

pub struct Layout {
    pub places: Vec<Place>,
    /// The records of each depth, from the top.
    pub columns: Vec<Vec<usize>>,
    /// Two of each gate, the upper one first.
    pub inputs: Vec<Input>,
    /// Whether the last record has a wire to the grade, and not a stub.
    pub answer_wired: bool,
}

impl Layout {
    pub fn of(records: &[Record]) -> Layout {
        let mut places: Vec<Place> = Vec::with_capacity(records.len());
        let mut columns: Vec<Vec<usize>> = vec![Vec::new()];
        for (number, record) in records.iter().enumerate() {
            let depth = match taken_by(record) {
                Some([left, right]) => 1 + places[left].depth.max(places[right].depth),
                None => 0,
            };
            places.push(Place { depth, y: ROW * columns[0].len() as f64 });
            columns.resize(columns.len().max(depth + 1), Vec::new());
            columns[depth].push(number);
        }
        let mut layout = Layout { places, columns, inputs: Vec::new(), answer_wired: true };
        for depth in 1..layout.columns.len() {
            layout.place(records, depth);
            layout.connect(records, depth);
        }
        layout.answer_wired = layout.reaches(records.len() - 1, layout.columns.len());
        layout
    }

    /// Whether a level wire from a record meets nothing before a column. Then no other record's level wire is near it
    /// either: of two that are near each other, one passes the other's record.
    fn reaches(&self, from: usize, depth: usize) -> bool {
        let start = &self.places[from];
        let passed = self.columns[start.depth + 1..depth].iter().flatten();
        let clear = |middle: f64| start.y < middle - ABOVE || middle + BELOW < start.y;
        passed.into_iter().all(|&gate| clear(self.places[gate].y))
    }

    /// Places a column's gates, each in the middle of the records that wires can reach it from.
    fn place(&mut self, records: &[Record], depth: usize) {
        let mut column = std::mem::take(&mut self.columns[depth]);
        for &gate in &column {
            let mut taken: Vec<usize> = taken_by(&records[gate]).into_iter().flatten().collect();
            if taken.iter().any(|&from| self.reaches(from, depth)) {
                taken.retain(|&from| self.reaches(from, depth));
            }
            self.places[gate].y = taken.iter().map(|&from| self.places[from].y).sum::<f64>() / taken.len() as f64;
        }
        column.sort_by(|&one, &other| self.places[one].y.total_cmp(&self.places[other].y));
        // In a network that is no tree, gates may fall on each other.
        for at in 1..column.len() {
            let least = self.places[column[at - 1]].y + APART;
            let gate = &mut self.places[column[at]];
            gate.y = gate.y.max(least);
        }
        self.columns[depth] = column;
    }

    /// Finds which inputs of a column's gates are wires.
    fn connect(&mut self, records: &[Record], depth: usize) {
        let first = self.inputs.len();
        for at in 0..self.columns[depth].len() {
            let to = self.columns[depth][at];
            let Some([left, right]) = taken_by(&records[to]) else { continue };
            let middle = self.places[to].y;
            let (upper, lower) =
                if self.places[left].y <= self.places[right].y { (left, right) } else { (right, left) };
            let input = |from, port| Input { from, to, port, wired: false };
            let mut pair = [input(upper, middle - PORT), input(lower, middle + PORT)];
            // The later record first: the way from it is the shorter one.
            let order = if upper > lower { [0, 1] } else { [1, 0] };
            for this in order {
                let others = self.inputs[first..].iter().chain(&pair);
                pair[this].wired = self.reaches(pair[this].from, depth) && self.is_clear(&pair[this], others);
            }
            // A wire beside a stub comes in on its own side, so that it does not run through the stub's number.
            let [above, below] = &mut pair;
            let from_below = above.wired && !below.wired && self.places[above.from].y > middle;
            let from_above = below.wired && !above.wired && self.places[below.from].y < middle;
            if from_below || from_above {
                std::mem::swap(&mut above.from, &mut below.from);
                std::mem::swap(&mut above.wired, &mut below.wired);
            }
            self.inputs.extend(pair);
        }
    }

    /// The upper and the lower end of a wire's upright part.
    fn upright(&self, input: &Input) -> (f64, f64) {
        let y = self.places[input.from].y;
        (y.min(input.port), y.max(input.port))
    }

    /// Whether a wire's upright part is clear of the column's other gates, and of wires from other records.
    fn is_clear<'a>(&self, input: &Input, mut others: impl Iterator<Item = &'a Input>) -> bool {
        let (top, bottom) = self.upright(input);
        let beside = |gate: usize| {
            let middle = self.places[gate].y;
            gate == input.to || bottom < middle - BELOW || middle + BELOW < top
        };
        let apart = |other: &Input| {
            let (others_top, others_bottom) = self.upright(other);
            !other.wired || other.from == input.from || bottom + CLEAR < others_top || others_bottom + CLEAR < top
        };
        let gates = &self.columns[self.places[input.to].depth];
        gates.iter().all(|&gate| beside(gate)) && others.all(apart)
    }

    /// Where wires from one record part: at which column's turn, and how far down.
    pub fn forks(&self) -> Vec<(usize, f64)> {
        let mut ports: BTreeMap<(usize, usize), Vec<f64>> = BTreeMap::new();
        for input in self.inputs.iter().filter(|input| input.wired) {
            ports.entry((input.from, self.places[input.to].depth)).or_default().push(input.port);
        }
        let mut forks = Vec::new();
        for (&(from, depth), here) in &ports {
            let y = self.places[from].y;
            let beyond = ports.range((from, depth + 1)..(from + 1, 0)).next().is_some();
            let on = beyond || here.contains(&y);
            let ways = [on, here.iter().any(|&port| port < y), here.iter().any(|&port| port > y)];
            if ways.iter().filter(|&&way| way).count() > 1 {
                forks.push((depth, y));
            }
            let passed = |port: f64| here.iter().any(|&other| (y < port && port < other) || (other < port && port < y));
            forks.extend(here.iter().filter(|&&port| passed(port)).map(|&port| (depth, port)));
        }
        forks
    }
}
