//! Tables that source documents 000 and 001 print, and public tables whose networks they count. Each is compiled beside
//! the oracle and held to what the documents say of it; VECTORS.md says what could be taken from them. Under settings,
//! of which the documents know nothing, each is held to the figures that stand here.

use crate::editions::both_files;
use crate::session::{CHOICES, Figures, Join, Outcome, Session, compile_rooms};
use calls::tables::OwnedTable;
use calls::{Edition, Gate};
use oracle::stages::WeakJoins;

type Limits = (u8, u8);

/// What a document says, as far as document 01 says the same.
enum Fact {
    /// Reading the table's file, every cell listed, gives these limits.
    Read(OwnedTable),
    /// The first block of a join has these limits.
    First(Join, OwnedTable),
    /// The second block has these limits, given the first block's grades.
    Second(Join, Vec<u8>, OwnedTable),
    /// The network ends with this gate.
    Ends(Gate),
    /// The network has so many gates and literals.
    Counts(usize, usize),
    /// A file of sets that has the table as it is printed, with a gap in a set, becomes no file of ours.
    Gap(Vec<u8>),
}

struct Vector {
    name: &'static str,
    /// Gates and literals in the documents' tables, or what else they give.
    printed: &'static str,
    table: OwnedTable,
    facts: Vec<Fact>,
}

fn join(gate: Gate, s: u8, t: u8) -> Join {
    Join { gate, s, t }
}

/// A chart of 000: a row for each value of condition 1, a column for each of condition 0.
fn chart(rows: [[Limits; 2]; 3]) -> OwnedTable {
    OwnedTable::by_rule(&[2, 3], 3, |values| rows[values[1] as usize][values[0] as usize])
}

fn one(grade: u8) -> Limits {
    (grade, grade)
}

fn yes_or_no(holds: bool) -> Limits {
    one(holds as u8)
}

fn figures_of_000() -> Vec<Vector> {
    let figure_3 = chart([[(0, 2), one(2)], [one(1), (0, 2)], [(1, 2), (0, 1)]]);
    // The figure prints for each cell all grades up to the lower one, and all from the upper one: its ends are the limits.
    let figure_6 = chart([[(0, 1), one(2)], [one(1), (0, 2)], [(1, 2), (0, 1)]]);
    let (lower_ends, upper_ends) = ([[0, 2], [1, 0], [1, 0]], [[1, 2], [1, 2], [2, 1]]);
    let ends = chart([0, 1, 2].map(|row| [0, 1].map(|column| (lower_ends[row][column], upper_ends[row][column]))));
    let figure_8 = chart([[(1, 2), (0, 1)], [(0, 2), one(0)], [one(2), (1, 2)]]);
    let first = chart([[(0, 2), one(0)]; 3]);
    let second = chart([[(0, 1); 2], [one(0); 2], [(1, 2); 2]]);
    let by_max = join(Gate::Max, 1, 2);
    vec![
        Vector { name: "000 figure 3", printed: "the table only", table: figure_3, facts: vec![] },
        Vector { name: "000 figure 6", printed: "bounds", table: figure_6, facts: vec![Fact::Read(ends)] },
        Vector {
            name: "000 figure 8",
            printed: "both blocks",
            facts: vec![Fact::Second(by_max, first.upper.clone(), second), Fact::First(by_max, first)],
            table: figure_8,
        },
    ]
}

/// Figure 3.2 of 001: rows and columns stand in the order 00, 01, 11, 10.
fn figure_3_2() -> Vector {
    const ANY: Limits = (0, 1);
    let rows = [[one(1); 4], [ANY, one(1), ANY, one(1)], [one(0), ANY, one(0), one(1)], [one(1); 4]];
    let place = |pair: &[u8]| [[0, 1], [3, 2]][pair[0] as usize][pair[1] as usize];
    let cards = [2; 4];
    let of_first_two = |line: [Limits; 4]| OwnedTable::by_rule(&cards, 2, |values| line[place(&values[..2])]);
    let of_last_two = |line: [Limits; 4]| OwnedTable::by_rule(&cards, 2, |values| line[place(&values[2..])]);
    let free = of_first_two([one(1), ANY, one(0), one(1)]);
    let bound = of_last_two([one(0), ANY, one(0), one(1)]);
    let (free_first, bound_first) = (join(Gate::Max, 0b0011, 0b1100), join(Gate::Max, 0b1100, 0b0011));
    Vector {
        name: "001 figure 3.2",
        printed: "both blocks",
        table: OwnedTable::by_rule(&cards, 2, |values| rows[place(&values[..2])][place(&values[2..])]),
        facts: vec![
            // The least bound function goes with the greatest free one, and the least free one asks for the greatest.
            Fact::Second(free_first, free.upper.clone(), bound.clone()),
            Fact::Second(free_first, free.lower.clone(), of_last_two([one(0), one(1), one(0), one(1)])),
            Fact::First(free_first, free),
            Fact::First(bound_first, bound),
        ],
    }
}

/// A chart of 001: a row for each value of condition 0, a column for each of condition 1.
fn square(grades: u8, rows: [[Limits; 3]; 3]) -> OwnedTable {
    OwnedTable::by_rule(&[3, 3], grades, |values| rows[values[0] as usize][values[1] as usize])
}

fn figures_of_001() -> Vec<Vector> {
    let any = (0, 2);
    let figure_4_8 = square(3, [[one(2), one(2), one(1)], [one(1), one(0), any], [one(2), any, one(0)]]);
    let (lower, upper) = ([[2, 2, 1], [1, 0, 0], [2, 0, 0]], [[2, 2, 1], [1, 0, 2], [2, 2, 0]]);
    let bounds = square(3, [0, 1, 2].map(|row| [0, 1, 2].map(|column| (lower[row][column], upper[row][column]))));
    // The relation's set of 1 and 3 is filled to 1..3. A file of sets can hold it as it is.
    let figure_7_6 = square(4, [[one(1), one(1), (1, 3)], [(0, 3), one(1), one(2)], [one(0); 3]]);
    let mut with_gap = figure_7_6.file_of(Edition::Sets, || true);
    let cell = with_gap.chunks_mut(16).find(|record| record[0] == 4 && record[8..10] == [0, 2]);
    cell.expect("every cell is listed")[2] = 1 << 1 | 1 << 3;
    let lenses = [[[2, 0], [2, 1]], [[2, 1], [2, 1]], [[2, 2], [2, 1]]];
    let table_1_2 = OwnedTable::by_rule(&[3, 2, 2], 3, |values| {
        one(lenses[values[0] as usize][values[1] as usize][values[2] as usize])
    });
    // A reduced rate alone decides for grade 2, by a block of this one condition.
    let reduced = OwnedTable::by_rule(&[3, 2, 2], 3, |values| one(2 - 2 * values[2]));
    vec![
        figure_3_2(),
        Vector { name: "001 figure 4.8", printed: "bounds", table: figure_4_8, facts: vec![Fact::Read(bounds)] },
        Vector {
            name: "001 figure 7.6",
            printed: "1, 2 (001)",
            table: figure_7_6,
            facts: vec![Fact::Counts(1, 2), Fact::Ends(Gate::Min), Fact::Gap(with_gap)],
        },
        Vector {
            name: "001 table 1.2",
            printed: "max last, one block",
            table: table_1_2,
            facts: vec![Fact::Ends(Gate::Max), Fact::First(join(Gate::Max, 0b100, 0b011), reduced)],
        },
    ]
}

fn public_tables() -> Vec<Vector> {
    let monks = [3, 3, 2, 3, 4, 2];
    // The problems number attributes and values from 1.
    let of_monks = |rule: fn(&[u8]) -> bool| OwnedTable::by_rule(&monks, 2, |values| yes_or_no(rule(values)));
    // Colour, size, act and age: 1 is yellow, small, stretch and adult.
    let balloons = |rule: fn(&[u8]) -> bool| OwnedTable::by_rule(&[2; 4], 2, |values| yes_or_no(rule(values)));
    // Left weight and distance, right weight and distance, each 1 to 5; grade 0 tips left, 1 balances, 2 tips right.
    let balance = OwnedTable::by_rule(&[5; 4], 3, |values| {
        let moment = |at: usize| (values[at] + 1) * (values[at + 1] + 1);
        one((1 + moment(2).cmp(&moment(0)) as i8) as u8)
    });
    let same = |gates, literals| vec![Fact::Counts(gates, literals)];
    let tables = [
        ("monks 1", "6, 7 (001)", same(6, 7), of_monks(|v| v[0] == v[1] || v[4] == 0)),
        ("monks 2", "6, 7 (001)", vec![], of_monks(|v| v.iter().filter(|&&value| value == 0).count() == 2)),
        ("monks 3", "3, 4 (001)", same(3, 4), of_monks(|v| v[4] == 2 && v[3] == 0 || v[4] != 3 && v[1] != 2)),
        ("balloons, adult or stretch", "1, 2 (000)", same(1, 2), balloons(|v| v[3] == 1 || v[2] == 1)),
        ("balloons, adult and stretch", "1, 2 (000)", same(1, 2), balloons(|v| v[3] == 1 && v[2] == 1)),
        ("balloons, yellow and small", "1, 2 (000)", same(1, 2), balloons(|v| v[0] == 1 && v[1] == 1)),
        (
            "balloons, either of these",
            "not given",
            vec![],
            balloons(|v| v[0] == 1 && v[1] == 1 || v[3] == 1 && v[2] == 1),
        ),
        ("balance", "121, 115 (000); 150, 48 (001)", vec![], balance),
    ];
    tables.into_iter().map(|(name, printed, facts, table)| Vector { name, printed, table, facts }).collect()
}

/// Records and depths under each choice of settings, by the number of its byte. The other tables have the same under all.
const GROWN: [(&str, [Figures; CHOICES]); 4] = [
    ("001 table 1.2", [(7, 3), (7, 3), (7, 3), (7, 3), (13, 4), (13, 4), (13, 4), (13, 4)]),
    ("monks 2", [(155, 11), (155, 11), (327, 13), (327, 13), (543, 15), (543, 15), (815, 15), (815, 15)]),
    ("monks 3", [(7, 2), (9, 3), (7, 2), (9, 3), (7, 2), (15, 4), (7, 2), (19, 5)]),
    ("balance", [(527, 15); CHOICES]),
];

/// Holds the networks of the table that was compiled last to their figures under each choice of settings.
fn grown(session: &Session, name: &str) -> Outcome<()> {
    let found = session.grown.map(|figures| figures.unwrap_or_default());
    let (_, wanted) = GROWN.into_iter().find(|(other, _)| *other == name).unwrap_or((name, [found[0]; CHOICES]));
    if found == wanted { Ok(()) } else { Err(format!("{name}: under settings {found:?}, expected {wanted:?}")) }
}

/// Prints what the networks that settings change have been held to.
fn print_grown() {
    println!("\n| records, depth under settings | 0 | 1 | 2 | 3 | 4 | 5 | 6 | 7 |");
    println!("|---|---|---|---|---|---|---|---|---|");
    for (name, figures) in GROWN {
        let shown: String = figures.iter().map(|(records, depth)| format!(" {records}, {depth} |")).collect();
        println!("| {name} |{shown}");
    }
    println!();
}

fn count(network: &[u8], kinds: &[u8]) -> usize {
    network.chunks(16).filter(|record| kinds.contains(&record[0])).count()
}

fn holds(session: &mut Session, table: &OwnedTable, network: &[u8], fact: &Fact) -> Outcome<bool> {
    let rooms = [table.cells(); 2];
    let block = |join: &Join, first: Option<&[u8]>, wanted: &OwnedTable, session: &mut Session| {
        let found = session.join(table, *join, first, rooms)?;
        Ok(found == Some([wanted.lower.clone(), wanted.upper.clone()]))
    };
    match fact {
        Fact::Read(wanted) => {
            let bytes = table.file(|| true);
            let read = session.read(&bytes, [10, rooms[0], rooms[1]])?;
            Ok(read.is_some_and(|read| read.lower == wanted.lower && read.upper == wanted.upper))
        }
        Fact::First(join, wanted) => block(join, None, wanted, session),
        Fact::Second(join, first, wanted) => block(join, Some(first), wanted, session),
        Fact::Ends(gate) => Ok(network[network.len() - 16] == if *gate == Gate::Min { 2 } else { 3 }),
        Fact::Gap(file) => Ok(session.convert(Edition::Sets, file, file.len())?.is_none()),
        Fact::Counts(gates, literals) => Ok(count(network, &[2, 3]) == *gates && count(network, &[1]) == *literals),
    }
}

/// Forecasts, compiles and checks a table, and evaluates its network at every cell, in one list; the network.
fn compile(session: &mut Session, table: &OwnedTable) -> Outcome<Vec<u8>> {
    let cells = table.cells();
    let network = session.compile(table, compile_rooms(cells))?.unwrap_or_default();
    session.check(&network, table, network.len() / 16)?;
    let every: Vec<u16> = (0..cells as u16).collect();
    let grades = session.evaluate_each(&network, &table.shape, &every, [cells, network.len() / 16])?;
    let within = |cell: usize, grade: u8| (table.lower[cell]..=table.upper[cell]).contains(&grade);
    match grades {
        Some(grades) if grades.iter().enumerate().all(|(cell, &grade)| within(cell, grade)) => Ok(network),
        grades => Err(format!("grades {grades:?} of {table:?}")),
    }
}

/// Reads a table's files: with every cell, which gives the table back, and without its don't-cares. Of these: how many
/// there are, and the records of the network if they are not listed. The first is converted as well, and back.
fn unlisted(session: &mut Session, table: &OwnedTable) -> Outcome<String> {
    let rooms = [10, table.cells(), table.cells()];
    session.read_back(&table.file(|| true), rooms, table)?;
    both_files(session, table)?;
    let (sparse, held) = table.without_dont_cares();
    session.read_back(&sparse, rooms, &held)?;
    match table.lower.iter().zip(&held.lower).filter(|(printed, held)| printed != held).count() {
        0 => Ok("0".into()),
        dont_cares => Ok(format!("{dont_cares}; {}", compile(session, &held)?.len() / 16)),
    }
}

/// Compiles every vector, as it is printed and, where it has don't-cares, as a file without them has it; prints a table of
/// them and one of their networks under settings, and fails where a document's fact does not hold.
pub fn run(session: &mut Session) -> Outcome<()> {
    println!(
        "| table | cells | records | gates | literals | weak joins: kept, rejected | printed: gates, literals \
         | don't-cares; records if not listed |"
    );
    println!("|---|---|---|---|---|---|---|---|");
    for Vector { name, printed, table, facts } in
        [figures_of_000(), figures_of_001(), public_tables()].into_iter().flatten()
    {
        let cells = table.cells();
        let network = compile(session, &table)?;
        let WeakJoins { kept, rejected } = session.weak_joins;
        grown(session, name)?;
        let unlisted = unlisted(session, &table).map_err(|fault| format!("{name}: {fault}"))?;
        let (records, gates, literals) = (network.len() / 16, count(&network, &[2, 3]), count(&network, &[1]));
        let weak = format!("{kept}, {rejected}");
        println!("| {name} | {cells} | {records} | {gates} | {literals} | {weak} | {printed} | {unlisted} |");
        for (number, fact) in facts.iter().enumerate() {
            if !holds(session, &table, &network, fact)? {
                return Err(format!("{name}: fact {number} does not hold"));
            }
        }
    }
    print_grown();
    Ok(())
}
