//! The calls that are measured.

use crate::report::grouped;
use calls::plain::Plain;
use calls::tables::{OwnedTable, with_most_stages};
use calls::{Calls, Edition, Gate, Limits, MIN_WINS_TIES, NO_WEAK_JOINS, SPLITS_ON_MOST, Sets, Table};

/// Makes the call once and gives its answer.
pub type Call = Box<dyn FnMut(&dyn Calls) -> u32>;

pub struct Case {
    pub name: String,
    /// In the plot: which line it belongs to, and the number of cells.
    pub growth: Option<(&'static str, usize)>,
    /// Prepares the call; what is prepared is not measured.
    pub prepare: Box<dyn Fn() -> Call>,
}

/// A table with one grade for each cell.
fn function(cards: &[u8], grades: u8, mut rule: impl FnMut(&[u8]) -> usize) -> OwnedTable {
    OwnedTable::by_rule(cards, grades, |values| {
        let grade = (rule(values) % grades as usize) as u8;
        (grade, grade)
    })
}

fn sum(values: &[u8]) -> usize {
    values.iter().map(|&value| value as usize).sum()
}

fn parity(cards: &[u8]) -> OwnedTable {
    function(cards, 2, sum)
}

/// Noise that is the same in every run.
fn noise() -> impl FnMut() -> usize {
    noise_from(1)
}

fn noise_from(mut state: u32) -> impl FnMut() -> usize {
    move || {
        state = state.wrapping_mul(1_664_525).wrapping_add(1_013_904_223);
        (state >> 16) as usize
    }
}

fn random(cards: &[u8], grades: u8) -> OwnedTable {
    let mut next = noise();
    function(cards, grades, |_| next())
}

/// Any limits that there are, so that sets have any number of grades.
fn apart(cards: &[u8], grades: u8) -> OwnedTable {
    let mut next = noise();
    OwnedTable::by_rule(cards, grades, |_| {
        let [one, other] = [next(), next()].map(|grade| (grade % grades as usize) as u8);
        (one.min(other), one.max(other))
    })
}

/// One cell of ten has a grade; the others may leave any from the least on.
fn sparse(cards: &[u8], grades: u8, least: u8) -> OwnedTable {
    let mut next = noise();
    OwnedTable::by_rule(cards, grades, |_| {
        let (listed, grade) = (next() % 10 == 0, (next() % grades as usize) as u8);
        if listed { (grade, grade) } else { (least, grades - 1) }
    })
}

/// The table of a file that lists one cell of ten.
fn unlisted(cards: &[u8], grades: u8) -> OwnedTable {
    sparse(cards, grades, 1)
}

/// Shapes of 486 to 1,024 cells.
const SHAPES: [&[u8]; 10] = [
    &[8, 2, 2, 2, 2, 2, 2, 2],
    &[2, 2, 2, 2, 2, 2, 2, 8],
    &[4, 4, 2, 2, 2, 2, 2, 2],
    &[2, 2, 2, 2, 2, 2, 4, 4],
    &[3, 3, 3, 3, 3, 2, 2],
    &[2, 3, 3, 3, 3, 3],
    &[4, 4, 4, 4, 4],
    &[5, 5, 5, 8],
    &[8, 8, 8, 2],
    &[2, 8, 8, 8],
];

/// Noise that a number decides.
fn noise_of(number: u32) -> impl FnMut() -> usize {
    noise_from(number.wrapping_mul(2_654_435_761))
}

/// A table drawn by its number, its shape as well.
pub fn drawn(number: u32) -> OwnedTable {
    let mut next = noise_of(number);
    let cards = SHAPES[next() % SHAPES.len()];
    drawn_of(cards, next)
}

/// The table of a room, drawn by its number: 1 to 5 conditions of 2 to 4 values, or, of a large room, 1,024 cells.
pub fn room(number: u32, large: bool) -> OwnedTable {
    let mut next = noise_of(number);
    let cards: Vec<u8> = if large {
        let shapes: Vec<_> = SHAPES.into_iter().filter(|cards| cells(cards) == 1024).collect();
        shapes[next() % shapes.len()].to_vec()
    } else {
        (0..1 + next() % 5).map(|_| 2 + (next() % 3) as u8).collect()
    };
    drawn_of(&cards, next)
}

fn cells(cards: &[u8]) -> usize {
    cards.iter().map(|&card| card as usize).product()
}

/// A table with these cardinalities, of which noise decides the number of grades, how many cells of ten may leave any
/// grade, how far apart the other limits lie, and whether the grades are noise or the gate of two functions of half the
/// conditions.
fn drawn_of(cards: &[u8], mut next: impl FnMut() -> usize) -> OwnedTable {
    let grades = 2 + next() % 15;
    let (free, apart, kind) = (next() % 10, next() % grades, next() % 3);
    let half = cards.len() / 2;
    let cells = cells(cards);
    let blocks: Vec<usize> = (0..2 * cells).map(|_| next() % grades).collect();
    OwnedTable::by_rule(cards, grades as u8, |values| {
        let place = |of: &[u8]| of.iter().fold(0, |cell, &value| 8 * cell + value as usize) % cells;
        let (first, second) = (blocks[place(&values[..half])], blocks[cells + place(&values[half..])]);
        let grade = [next() % grades, first.max(second), first.min(second)][kind];
        if next() % 10 < free {
            (0, grades as u8 - 1)
        } else {
            (grade.saturating_sub(next() % (apart + 1)) as u8, (grade + next() % (apart + 1)).min(grades - 1) as u8)
        }
    })
}

fn network(table: &OwnedTable) -> Vec<u8> {
    let cells = table.cells();
    let (mut work, mut network) = (vec![0; 32 * cells], vec![0; network_bytes(table)]);
    let records = Plain.compile(table.lent(), &mut work, &mut network);
    network.truncate(16 * records as usize);
    network
}

/// Reads a table's file, which lists every cell or those that must be listed.
fn read(name: &str, table: OwnedTable, every: bool) -> Case {
    let prepare = move || -> Call {
        let (file, cells) = (table.file(|| every), table.cells());
        let (mut shape, mut lower, mut upper) = (vec![0; 10], vec![0; cells], vec![0; cells]);
        Box::new(move |calls| calls.read(&file, &mut shape, Limits { lower: &mut lower, upper: &mut upper }))
    };
    Case { name: format!("read {name}"), growth: None, prepare: Box::new(prepare) }
}

/// Converts the file of an edition that lists every cell of a table.
fn convert(name: &str, table: OwnedTable, from: Edition) -> Case {
    let prepare = move || -> Call {
        let file = table.file_of(from, || true);
        let mut out = vec![0; file.len()];
        Box::new(move |calls| calls.convert(from, &file, &mut out))
    };
    let direction = if from == Edition::Limits { "to" } else { "from" };
    Case { name: format!("{direction} sets, {name}"), growth: None, prepare: Box::new(prepare) }
}

/// A join; with its own first block, where one is asked for.
fn join(name: &str, table: OwnedTable, gate: Gate, sets: Sets, second: bool) -> Case {
    let prepare = move || -> Call {
        let table = table.clone();
        let (mut lower, mut upper) = (vec![0; table.cells()], vec![0; table.cells()]);
        Plain.join_first(gate, table.lent(), sets, Limits { lower: &mut lower, upper: &mut upper });
        let first = lower.clone();
        Box::new(move |calls| {
            let limits = Limits { lower: &mut lower, upper: &mut upper };
            if second {
                calls.join_second(gate, table.lent(), sets, &first, limits)
            } else {
                calls.join_first(gate, table.lent(), sets, limits)
            }
        })
    };
    Case { name: format!("join {name}"), growth: None, prepare: Box::new(prepare) }
}

/// Sets of conditions of the largest shape, each pair with its name and the gate that it joins by.
const SETS: [(&str, Gate, Sets); 6] = [
    ("sets of 1 and 1", Gate::Max, Sets { s: 0b0000_0001, t: 0b1000_0000 }),
    ("sets of 3 and 3, adjoining", Gate::Max, Sets { s: 0b0000_0111, t: 0b1110_0000 }),
    ("sets of 3 and 3, alternating", Gate::Max, Sets { s: 0b0010_1010, t: 0b0101_0100 }),
    ("sets of 7 and 1", Gate::Max, Sets { s: 0b0111_1111, t: 0b1000_0000 }),
    ("sets of 1 and 7", Gate::Max, Sets { s: 0b0000_0001, t: 0b1111_1110 }),
    ("sets of 3 and 3, adjoining, min", Gate::Min, Sets { s: 0b0000_0111, t: 0b1110_0000 }),
];

/// Both blocks of a join of the largest shape by these sets.
fn join_by((name, gate, sets): (&str, Gate, Sets)) -> [Case; 2] {
    let mut next = noise();
    let table = OwnedTable::joined(&LARGEST, 16, gate, sets, |_| next());
    [("first", false), ("second", true)]
        .map(|(block, second)| join(&format!("{block} block, 8 2⁷, {name}"), table.clone(), gate, sets, second))
}

/// Prepares a call that has a work buffer and writes to one of so many bytes.
fn with_work(
    table: OwnedTable,
    bytes: usize,
    call: impl Fn(&dyn Calls, Table, &mut [u8], &mut [u8]) -> u32 + Copy + 'static,
) -> Box<dyn Fn() -> Call> {
    Box::new(move || {
        let table = table.clone();
        let (mut work, mut written) = (vec![0; 32 * table.cells()], vec![0; bytes]);
        Box::new(move |calls| call(calls, table.lent(), &mut work, &mut written))
    })
}

/// The bytes of network that compiling a table asks for.
fn network_bytes(table: &OwnedTable) -> usize {
    16 * (3 * table.cells() - 5)
}

pub fn compile(name: &str, line: Option<&'static str>, table: OwnedTable) -> Case {
    let (cells, bytes) = (table.cells(), network_bytes(&table));
    let prepare = with_work(table, bytes, |calls, table, work, to| calls.compile(table, work, to));
    Case { name: format!("compile {name}"), growth: line.map(|line| (line, cells)), prepare }
}

/// Compiles a table under each setting alone.
fn compile_with(name: &str, table: &OwnedTable) -> [Case; 3] {
    SETTINGS.map(|(setting, byte)| {
        let prepare = with_work(table.clone(), network_bytes(table), move |calls, table, work, to| {
            calls.compile_with(table, byte, work, to)
        });
        Case { name: format!("compile {name}, {setting}"), growth: None, prepare }
    })
}

fn forecast(name: &str, table: OwnedTable) -> Case {
    let prepare = with_work(table, 2, |calls, table, work, to| calls.forecast(table, work, to));
    Case { name: format!("forecast {name}"), growth: None, prepare }
}

/// Two constants, and then literals and gates, each gate naming the two records before it; each record with its ceiling in
/// byte 2.
fn long_network(shape: &[u8], records: usize) -> Vec<u8> {
    let mut network = vec![0; 16 * records];
    let [mut one_before, mut two_before] = [0; 2];
    for (number, record) in network.chunks_mut(16).enumerate().skip(2) {
        record[0] = 1 + (number % 3) as u8;
        if record[0] == 1 {
            let condition = number / 3 % shape[0] as usize;
            let grade = (number % shape[9] as usize) as u8;
            record[1] = condition as u8;
            record[2] = grade;
            record[8..][..shape[1 + condition] as usize].fill(grade);
        } else {
            record[2] = if record[0] == 2 { one_before.min(two_before) } else { one_before.max(two_before) };
            record[4..6].copy_from_slice(&(number as u16 - 1).to_le_bytes());
            record[6..8].copy_from_slice(&(number as u16 - 2).to_le_bytes());
        }
        (one_before, two_before) = (record[2], one_before);
    }
    network
}

fn evaluate(records: usize) -> Case {
    let prepare = move || -> Call {
        let shape = parity(&[8, 8, 8, 2]).shape;
        let network = long_network(&shape, records);
        let mut work = vec![0; records];
        Box::new(move |calls| calls.evaluate(&network, &shape, &mut work, 777))
    };
    Case { name: format!("evaluate {} records", grouped(records as f64)), growth: None, prepare: Box::new(prepare) }
}

/// How many visits a day has; the names of their rows say it too.
const VISITS: usize = 1_000;

/// A day of visits to a network, each to a cell that noise decides, and the buffers that they take.
#[derive(Clone)]
struct Visits {
    shape: Vec<u8>,
    network: Vec<u8>,
    cells: Vec<u16>,
    grades: Vec<u8>,
    work: Vec<u8>,
}

impl Visits {
    fn new(table: &OwnedTable, network: Vec<u8>) -> Visits {
        let mut next = noise();
        let cells = (0..VISITS).map(|_| (next() % table.cells()) as u16).collect();
        let work = vec![0; network.len() / 16];
        Visits { shape: table.shape.clone(), network, cells, grades: vec![0; VISITS], work }
    }

    fn in_one_call(&mut self, calls: &dyn Calls) {
        calls.evaluate_each(&self.network, &self.shape, &self.cells, &mut self.grades, &mut self.work);
    }

    fn in_single_calls(&mut self, calls: &dyn Calls) {
        for (grade, &cell) in self.grades.iter_mut().zip(&self.cells) {
            *grade = calls.evaluate(&self.network, &self.shape, &mut self.work, cell as u32) as u8;
        }
    }

    /// The visits made in this way. The answer is the sum of their grades, so that wrong ones show.
    fn case(&self, name: String, made: fn(&mut Visits, &dyn Calls)) -> Case {
        let visits = self.clone();
        let prepare = move || -> Call {
            let mut visits = visits.clone();
            Box::new(move |calls| {
                made(&mut visits, calls);
                visits.grades.iter().map(|&grade| grade as u32).sum()
            })
        };
        Case { name, growth: None, prepare: Box::new(prepare) }
    }
}

/// A day of visits in one call, and the same in single calls.
fn visits(name: &str, table: &OwnedTable, network: Vec<u8>) -> [Case; 2] {
    let to = format!("{} records, {name}", grouped((network.len() / 16) as f64));
    let visits = Visits::new(table, network);
    [
        visits.case(format!("1,000 visits in one call, {to}"), Visits::in_one_call),
        visits.case(format!("1,000 visits in single calls, {to}"), Visits::in_single_calls),
    ]
}

fn check(name: &str, table: OwnedTable) -> Case {
    let prepare = move || -> Call {
        let table = table.clone();
        let network = network(&table);
        let mut work = vec![0; network.len() / 16];
        Box::new(move |calls| calls.check(&network, table.lent(), &mut work))
    };
    Case { name: format!("check {name}"), growth: None, prepare: Box::new(prepare) }
}

const LARGEST: [u8; 8] = [8, 2, 2, 2, 2, 2, 2, 2];

fn monks_2() -> OwnedTable {
    function(&[3, 3, 2, 3, 4, 2], 2, |values| (values.iter().filter(|&&value| value == 0).count() == 2) as usize)
}

/// Of the first two conditions, and of the last two, the greater; of these the lesser.
fn joinable() -> OwnedTable {
    function(&[8, 8, 8, 2], 16, |v| (v[0].max(v[1])).min(2 * v[2].max(v[3])) as usize)
}

/// The tables that are compiled: each with a name, and with the line of the plot that it belongs to.
fn compiled() -> Vec<(String, Option<&'static str>, OwnedTable)> {
    let mut tables = [
        ("8 2⁷ random, m 16", random(&LARGEST, 16)),
        ("8 8 8 2 sum mod 16", function(&[8, 8, 8, 2], 16, sum)),
        ("8 8 8 2 that joins", joinable()),
        ("monks 2", monks_2()),
        ("8 2⁷, 90 % don't-cares, m 4", sparse(&LARGEST, 4, 0)),
        ("8 8 8 2, 90 % don't-cares, m 4", sparse(&[8, 8, 8, 2], 4, 0)),
        ("8 2⁷, 90 % not listed, m 4", unlisted(&LARGEST, 4)),
        ("8 8 8 2, 90 % not listed, m 4", unlisted(&[8, 8, 8, 2], 4)),
        ("8 2⁷, drawn table 307,581, m 16", drawn(307_581)),
        ("4 4 2⁶, drawn table 12,552, m 2", drawn(12_552)),
    ]
    .into_iter()
    .chain(with_most_stages())
    .map(|(name, table)| (name.to_string(), None, table))
    .collect::<Vec<_>>();
    let growing = [("2⁴", 4), ("2⁵", 5), ("2⁶", 6), ("2⁷", 7), ("2⁸", 8)].map(|(name, count)| (name, vec![2; count]));
    let largest = [("4 2⁷", 4), ("8 2⁷", 8)].map(|(name, first)| (name, [&[first], &LARGEST[1..]].concat()));
    for (name, cards) in growing.into_iter().chain(largest) {
        tables.push((format!("{name} parity"), Some("parity, m 2"), parity(&cards)));
        tables.push((format!("{name} random, m 4"), Some("random, m 4"), random(&cards, 4)));
    }
    tables
}

/// Those of them that are forecast as well.
const FORECAST: [&str; 8] = [
    "8 8 8 2 that joins",
    "monks 2",
    "8 2⁷, 90 % don't-cares, m 4",
    "8 2⁷, drawn table 307,581, m 16",
    "2⁴ parity",
    "2⁶ random, m 4",
    "8 2⁷ parity",
    "8 2⁷ random, m 4",
];

/// Those that are compiled under settings as well.
const UNDER_SETTINGS: [&str; 3] = ["8 2⁷ random, m 4", "8 8 8 2 sum mod 16", "monks 2"];

/// The settings, by what the names of their rows end with.
const SETTINGS: [(&str, u8); 3] =
    [("min wins ties", MIN_WINS_TIES), ("splits take most values", SPLITS_ON_MOST), ("no weak joins", NO_WEAK_JOINS)];

pub fn all() -> Vec<Case> {
    let halves = Sets { s: 0b0011, t: 0b1100 };
    let mut cases = vec![
        read("8 cells", parity(&[2; 3]), true),
        read("1,024 cells", random(&LARGEST, 16), true),
        read("1,024 cells, 90 % not listed", unlisted(&LARGEST, 4), false),
        convert("1,024 cells", apart(&LARGEST, 16), Edition::Limits),
        convert("1,024 cells", apart(&LARGEST, 16), Edition::Sets),
        join("first block, 1,024 cells", joinable(), Gate::Min, halves, false),
        join("second block, 1,024 cells", joinable(), Gate::Min, halves, true),
        join("that does not exist, 1,024 cells", parity(&LARGEST), Gate::Max, halves, false),
    ];
    cases.extend(SETS.into_iter().flat_map(join_by));
    let compiled = compiled();
    cases.extend(compiled.iter().map(|(name, line, table)| compile(name, *line, table.clone())));
    let of_name = |name: &str| {
        let found = compiled.iter().find(|(other, ..)| other == name);
        found.map(|(_, _, table)| table).expect("a table that is measured otherwise is compiled too")
    };
    cases.extend(FORECAST.map(|name| forecast(name, of_name(name).clone())));
    if !cfg!(feature = "before_settings") {
        cases.extend(UNDER_SETTINGS.into_iter().flat_map(|name| compile_with(name, of_name(name))));
    }
    cases.extend([1024, 2048, 4096].map(evaluate));
    let wide = parity(&[8, 8, 8, 2]);
    for records in [64, 512] {
        cases.extend(visits("8 8 8 2", &wide, long_network(&wide.shape, records)));
    }
    let largest = parity(&LARGEST);
    cases.extend(visits("8 2⁷ parity", &largest, network(&largest)));
    cases.extend([check("monks 2", monks_2()), check("8 2⁷ parity", largest)]);
    cases
}
