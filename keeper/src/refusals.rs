//! Refusals in words. Where the fault is, the library says: it is asked about fronts of the file, and about fronts whose
//! last record is changed, so that there is no second reader here. Records and their bytes are counted from 0.

use std::fmt;
use std::ops::RangeInclusive;

use crate::library::{
    Edition, MAX_FILE_RECORDS, MAX_GRADES, MAX_NETWORK_RECORDS, Network, RECORD, Refusal, Shape, Table,
};
use crate::names::{count, many};

type Bytes = [u8; RECORD];

/// Bytes of a record, and what is wrong with them.
type Found = (RangeInclusive<usize>, String);

/// Why a file is refused, and where in it.
#[derive(Clone, Debug, PartialEq, Eq)]
pub struct Fault {
    pub number: u32,
    /// The record, and bytes of it; none where it is the whole file.
    pub at: Option<(usize, RangeInclusive<usize>)>,
    pub what: String,
}

impl fmt::Display for Fault {
    fn fmt(&self, f: &mut fmt::Formatter) -> fmt::Result {
        write!(f, "refused: ")?;
        if let Some((record, bytes)) = &self.at {
            let (first, last, before) = (bytes.start(), bytes.end(), RECORD * record);
            if first == last {
                write!(f, "record {record}, byte {first} ({} of the file): ", before + first)?;
            } else {
                write!(f, "record {record}, bytes {first} to {last} ")?;
                write!(f, "({} to {} of the file): ", before + first, before + last)?;
            }
        }
        write!(f, "{} (refusal {})", self.what, self.number)
    }
}

/// What is said of a file that is refused.
pub fn in_words(fault: Option<Fault>) -> String {
    fault.map_or_else(|| "refused".to_string(), |fault| fault.to_string())
}

/// The first record that makes a front refused: `good` says of a number of records whether that front is accepted.
fn first_fault(records: usize, good: impl Fn(usize) -> bool) -> Option<usize> {
    if good(records) {
        return None;
    }
    let (mut accepted, mut refused) = (0, records);
    while refused - accepted > 1 {
        let middle = accepted + (refused - accepted) / 2;
        if good(middle) { accepted = middle } else { refused = middle }
    }
    Some(accepted)
}

/// The first byte without which, and without those behind it, a record is not at fault.
fn first_byte(record: &Bytes, at_fault: impl Fn(&Bytes) -> bool) -> usize {
    let zero_from = |byte: usize| {
        let mut changed = *record;
        changed[byte..].fill(0);
        changed
    };
    (1..RECORD).find(|&byte| at_fault(&zero_from(byte))).unwrap_or(RECORD) - 1
}

fn record_at(file: &[u8], record: usize) -> Bytes {
    file[RECORD * record..][..RECORD].try_into().expect("a whole record")
}

fn with(record: &Bytes, byte: usize, value: u8) -> Bytes {
    let mut changed = *record;
    changed[byte] = value;
    changed
}

fn length_in_words(bytes: usize, most: usize) -> String {
    match (bytes / RECORD, bytes % RECORD) {
        (0, 0) => "the file is empty".to_string(),
        (records, 0) => format!("{}, but at most {} are allowed", many(records, "record"), count(most)),
        (records, rest) => {
            format!("{}: {} of 16 bytes and {rest} more", many(bytes, "byte"), many(records, "record"))
        }
    }
}

/// Lent to a front that ends before the grades.
const LENT_GRADES: Bytes = [2, MAX_GRADES, 0, 0, 0, 0, 0, 0, 0, 0, 0, 0, 0, 0, 0, 0];

/// The table of a file's front: of the front alone, or else with grades lent to it.
fn front(edition: Edition, records: &[u8]) -> Result<Table, Refusal> {
    edition.read(records).or_else(|refusal| edition.read(&[records, &LENT_GRADES].concat()).map_err(|_| refusal))
}

/// Why the library refuses a table file of an edition. None if it does not.
pub fn of_table(edition: Edition, file: &[u8]) -> Option<Fault> {
    let Refusal(number) = edition.read(file).err()?;
    let whole = |what: String| Some(Fault { number, at: None, what });
    if number == 1 {
        return whole(length_in_words(file.len(), MAX_FILE_RECORDS));
    }
    let good = |records: usize| front(edition, &file[..RECORD * records]).is_ok();
    let Some(record) = first_fault(file.len() / RECORD, good) else {
        return whole("there is no record of grades".to_string());
    };
    let before = &file[..RECORD * record];
    let (bytes, what) = match front(edition, before) {
        Ok(table) => Behind { edition, before, shape: table.shape(), number }.fault(&record_at(file, record)),
        Err(_) => (0..=RECORD - 1, "the record is at fault".to_string()),
    };
    Some(Fault { number, at: Some((record, bytes)), what })
}

/// Where a record of a table file is refused: behind which records, of which shape, with which number.
struct Behind<'a> {
    edition: Edition,
    before: &'a [u8],
    shape: &'a Shape,
    number: u32,
}

impl Behind<'_> {
    fn refused_behind(&self, before: &[u8], record: &Bytes) -> bool {
        front(self.edition, &[before, record].concat()).is_err_and(|refusal| refusal == Refusal(self.number))
    }

    /// Whether a record in the place of the one at fault is refused for the same reason.
    fn refused(&self, record: &Bytes) -> bool {
        self.refused_behind(self.before, record)
    }

    fn fault(&self, record: &Bytes) -> Found {
        match (self.number, record[0]) {
            (2, _) => self.kind_or_zero(record),
            (3, _) => self.order(record),
            (4, 2) => at(1, format!("{}, but 2 to 16 are allowed", many(record[1].into(), "grade"))),
            (4, _) => self.condition(record),
            (6, _) => self.values(record),
            (5, _) if self.refused(&with(record, 1, 0)) => {
                at(2, format!("grade {}, but there are 0 to {}", record[2], self.shape.grades() - 1))
            }
            (5, _) => at(1, format!("the least grade, {}, is above the most, {}", record[1], record[2])),
            (13, _) => (2..=3, self.set(record)),
            _ => (0..=RECORD - 1, "the record is at fault".to_string()),
        }
    }

    fn kind_or_zero(&self, record: &Bytes) -> Found {
        let cell = match self.edition {
            Edition::Limits => 3,
            Edition::Sets => 4,
        };
        match (first_byte(record, |changed| self.refused(changed)), record[0]) {
            (0, 4) => at(0, "a cell of the spreadsheet's edition, 4; see keeper import".to_string()),
            (0, 3) => at(0, "a cell of a table file, 3, where the spreadsheet's edition has 4".to_string()),
            (0, kind) => {
                at(0, format!("{kind} is no kind of record; there are 1 (condition), 2 (grades) and {cell} (cell)"))
            }
            (byte, kind) if kind == cell && byte >= 8 => {
                let are = if self.shape.conditions() == 1 { "is" } else { "are" };
                let conditions = many(self.shape.conditions(), "condition");
                at(byte, format!("a value of condition {}, but there {are} {conditions}", byte - 8))
            }
            (byte, kind) => at(byte, format!("{} where a {} record has 0", record[byte], kind_in_words(kind))),
        }
    }

    fn order(&self, record: &Bytes) -> Found {
        let due = self.shape.conditions();
        match record[0] {
            1 if u8::try_from(due).is_ok_and(|due| !self.refused(&with(record, 1, due))) => {
                at(1, format!("condition {} where condition {due} is due", record[1]))
            }
            1 => at(0, "a condition behind the grades".to_string()),
            2 => at(0, "grades a second time".to_string()),
            _ => at(0, "a cell before the grades".to_string()),
        }
    }

    /// A condition that the shape has no room for, or with too few or too many values.
    fn condition(&self, record: &Bytes) -> Found {
        let (before, cells) = (self.shape.conditions(), self.shape.cells());
        if (2..=8).any(|values| !self.refused(&with(record, 2, values))) {
            return match record[2] {
                values @ 2..=8 => {
                    let cells = count(cells * usize::from(values));
                    at(2, format!("with {values} values there are {cells} cells, but at most 1,024 are allowed"))
                }
                values => at(2, format!("{}, but 2 to 8 are allowed", many(values.into(), "value"))),
            };
        }
        if before == 8 {
            return at(1, "a ninth condition, but at most 8 are allowed".to_string());
        }
        at(0, format!("a condition more, but the {before} before it have {} cells, of at most 1,024", count(cells)))
    }

    /// A value that its condition does not have, or a cell out of its turn.
    fn values(&self, record: &Bytes) -> Found {
        // Right behind the grades, only a value can be at fault.
        let header = &self.before[..RECORD * (self.shape.conditions() + 1)];
        if self.refused_behind(header, record) {
            let byte = first_byte(record, |changed| self.refused_behind(header, changed));
            let last = self.shape.values(byte - 8) - 1;
            return at(byte, format!("value {} of condition {}, which has 0 to {last}", record[byte], byte - 8));
        }
        let last = self.before.len() / RECORD - 1;
        let what = if self.before[RECORD * last + 8..] == record[8..] {
            format!("the cell of record {last} a second time")
        } else {
            format!("a cell that comes before that of record {last}: cells are in the order of their numbers")
        };
        (8..=7 + self.shape.conditions().max(1), what)
    }

    /// A set of grades that no two limits say.
    fn set(&self, record: &Bytes) -> String {
        let set = u16::from_le_bytes([record[2], record[3]]);
        let grades: Vec<u32> = (0..16).filter(|grade| set >> grade & 1 == 1).collect();
        let (Some(&least), Some(&most)) = (grades.first(), grades.last()) else {
            return "no grade in the set of a cell".to_string();
        };
        let filled: u16 = (least..=most).map(|grade| 1 << grade).sum();
        let [low, high] = filled.to_le_bytes();
        if self.refused(&with(&with(record, 2, low), 3, high)) {
            return format!("grade {most} in the set of a cell, but there are 0 to {}", self.shape.grades() - 1);
        }
        let missing = (least..=most).find(|grade| !grades.contains(grade)).unwrap_or(least);
        format!("grades {least} and {most} in the set of a cell, but not {missing}, which is between them")
    }
}

fn at(byte: usize, what: String) -> Found {
    (byte..=byte, what)
}

fn kind_in_words(kind: u8) -> &'static str {
    match kind {
        1 => "condition",
        2 => "grades",
        _ => "cell",
    }
}

/// Why the library refuses a network of the shape. None if it does not.
pub fn of_network(network: &[u8], shape: &Shape) -> Option<Fault> {
    let Refusal(number) = Network::read(network, shape).err()?;
    let records = network.len() / RECORD;
    if records == 0 || records > MAX_NETWORK_RECORDS || network.len() % RECORD != 0 {
        return Some(Fault { number, at: None, what: length_in_words(network.len(), MAX_NETWORK_RECORDS) });
    }
    let record = first_fault(records, |front| Network::read(&network[..RECORD * front], shape).is_ok())?;
    let (before, bytes) = (&network[..RECORD * record], record_at(network, record));
    // The ceiling with which a record is accepted: what it should be follows from the record's other bytes.
    let ceiling = |changed: &Bytes| {
        (0..MAX_GRADES).find(|&ceiling| Network::read(&[before, &with(changed, 2, ceiling)].concat(), shape).is_ok())
    };
    let (byte, what) = match ceiling(&bytes) {
        Some(due) => (2, wrong_ceiling(network, bytes[2], due)),
        None => {
            let byte = first_byte(&bytes, |changed| ceiling(changed).is_none());
            (byte, network_record(shape, record, &bytes, byte))
        }
    };
    Some(Fault { number, at: Some((record, byte..=byte)), what })
}

fn wrong_ceiling(network: &[u8], ceiling: u8, due: u8) -> String {
    let what = format!("its ceiling is {ceiling} and should be {due}");
    if network.chunks_exact(RECORD).all(|record| record[2] == 0) {
        return what + "; no record has one, as in networks from before ceilings: compile the table again";
    }
    what
}

/// What is wrong with the byte at fault of a network's record, its ceiling aside.
fn network_record(shape: &Shape, number: usize, record: &Bytes, byte: usize) -> String {
    let value = record[byte];
    let grades = shape.grades() - 1;
    match (record[0], byte) {
        (1, 0) => "a lookup, but the table has no conditions".to_string(),
        (2 | 3, 0) => "a gate, but no record comes before it".to_string(),
        (kind, 0) => format!("{kind} is no kind of record; there are 0 (constant), 1 (lookup), 2 (min) and 3 (max)"),
        (0, 1) => format!("grade {value}, but there are 0 to {grades}"),
        (1, 1) => format!("condition {value}, but there are 0 to {}", shape.conditions() - 1),
        (2 | 3, 4..=7) => {
            let low = byte - byte % 2;
            let named = usize::from(u16::from_le_bytes([record[low], record[low + 1]]));
            format!("a gate on record {}, which does not come before record {number}", count(named))
        }
        (1, 8..) if byte - 8 < shape.values(record[1].into()) => {
            format!("grade {value} at value {}, but there are 0 to {grades}", byte - 8)
        }
        (kind, _) => {
            let kind = ["constant", "lookup", "min", "max"][usize::from(kind)];
            format!("{value} where this {kind} record has 0")
        }
    }
}
