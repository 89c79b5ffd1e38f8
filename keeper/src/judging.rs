//! How a room stands. Every judgement on its table and its network is the library's.

use std::path::Path;

use crate::collection::{NETWORK, Room, SPREADSHEET, TABLE, TEXT, There};
use crate::files;
use crate::library::{Edition, Network, Table, Verdict};
use crate::names::Names;
use crate::refusals;
use crate::report::{End, Line, Outcome};
use crate::text;

pub struct Judged {
    pub outcome: Outcome,
    /// Where the table and what is in its network's place could be read.
    pub networks: Option<Networks>,
}

/// A room's networks.
pub struct Networks {
    /// What compiling gives today.
    pub compiled: Network,
    /// The bytes of the network that is there.
    pub there: Option<Vec<u8>>,
}

fn found(end: End, path: &Path, what: impl Into<String>) -> Judged {
    Judged { outcome: Outcome::new(end, Some(Line::found(path, what))), networks: None }
}

fn unread(path: &Path, what: String) -> Judged {
    Judged { outcome: Outcome::new(End::Unread, Some(Line::failed(path, what))), networks: None }
}

pub fn judge(room: &Room) -> Judged {
    let path = room.file(TABLE);
    if !room.there.table {
        return without_table(room);
    }
    let file = match files::read_found(&path) {
        Ok(file) => file,
        Err(what) => return unread(&path, what),
    };
    let table = match Table::read(&file) {
        Ok(table) => table,
        Err(_) => {
            return found(End::Refused, &path, refusals::in_words(refusals::of_table(Edition::Limits, &file)));
        }
    };
    let (names, sources) = sources(room, &file, &table);
    let mut judged = judge_network(room, &table, &names);
    judged.outcome.sources = sources;
    judged
}

/// A room without a table, which its text or its spreadsheet may give.
fn without_table(room: &Room) -> Judged {
    let none = |what: &str| found(End::NoTable, &room.file(TABLE), format!("no table{what}"));
    type Judge = fn(&[u8]) -> Option<String>;
    let (ending, gives, fault): (_, _, Judge) = match room.there {
        There { text: true, .. } => (TEXT, "; keeper make gives it from the text", |text| {
            text::parse(text).err().map(|faults| faults[0].to_string())
        }),
        There { spreadsheet: true, .. } => (SPREADSHEET, "; keeper import gives it from the spreadsheet", |file| {
            refusals::of_table(Edition::Sets, file).map(|fault| fault.to_string())
        }),
        _ => return none(", but a network"),
    };
    let source = room.file(ending);
    match files::read_found(&source).map(|bytes| fault(&bytes)) {
        Ok(None) => none(gives),
        Ok(Some(fault)) => found(End::NoTable, &source, format!("no table beside it; {fault}")),
        Err(why) => unread(&source, why),
    }
}

fn judge_network(room: &Room, table: &Table, names: &Names) -> Judged {
    let path = room.file(NETWORK);
    let compiled = match table.compile() {
        Ok(compiled) => compiled,
        Err(refusal) => return found(End::Refused, &room.file(TABLE), uncompiled(refusal.0)),
    };
    if !room.there.network {
        let networks = Some(Networks { compiled, there: None });
        return Judged { networks, ..found(End::NoNetwork, &path, "no network") };
    }
    let bytes = match files::read_found(&path) {
        Ok(bytes) => bytes,
        Err(what) => return unread(&path, what),
    };
    let judged = match table.check(&bytes) {
        Err(_) => found(End::Refused, &path, refusals::in_words(refusals::of_network(&bytes, table.shape()))),
        Ok(Verdict::Outside { cell, grade }) => found(End::Outside, &path, outside(table, names, cell, grade)),
        Ok(Verdict::Within) if bytes != compiled.bytes() => {
            found(End::Other, &path, "within, but not what compiling gives today")
        }
        Ok(Verdict::Within) => Judged { outcome: Outcome::new(End::Within, None), networks: None },
    };
    Judged { networks: Some(Networks { compiled, there: Some(bytes) }), ..judged }
}

/// What is said of a table that was read and is not compiled; the library promises that there is none.
pub fn uncompiled(number: u32) -> String {
    format!("cannot be compiled (refusal {number})")
}

/// A cell where a network is outside the limits, in words.
pub fn outside(table: &Table, names: &Names, cell: usize, grade: usize) -> String {
    let (combination, limits) = (names.combination(table.shape(), cell), names.limits(table, cell));
    format!("outside at {combination} (cell {cell}): grade {}, allowed is {limits}", names.grades[grade])
}

/// The names of a room's table, and what is to be said of what it was made from: that should give the table's file.
fn sources(room: &Room, file: &[u8], table: &Table) -> (Names, Vec<Line>) {
    let mut names = Names::numbered(table.shape());
    let mut lines = Vec::new();
    let mut say = |ending: &str, judged: Result<Option<String>, String>| match judged {
        Ok(what) => lines.extend(what.map(|what| Line::found(&room.file(ending), what))),
        Err(why) => lines.push(Line::failed(&room.file(ending), why)),
    };
    if room.there.text {
        say(TEXT, files::read_found(&room.file(TEXT)).map(|bytes| judge_text(&bytes, file, table, &mut names)));
    }
    if room.there.spreadsheet {
        let judged =
            files::read_found(&room.file(SPREADSHEET)).map(|bytes| judge_spreadsheet(&bytes, file, table, &names));
        say(SPREADSHEET, judged);
    }
    (names, lines)
}

/// What is to be said of a text, whose names are taken where they fit.
fn judge_text(text: &[u8], file: &[u8], table: &Table, names: &mut Names) -> Option<String> {
    let text = match text::parse(text) {
        Ok(text) => text,
        Err(faults) => return Some(faults[0].to_string()),
    };
    let what = (text.file != file).then(|| difference(("makes", "text"), &text.file, &text.names, table));
    if text.names.misfit(table.shape()).is_none() {
        *names = text.names;
    }
    what
}

/// What is to be said of a spreadsheet; `names` are the table's.
fn judge_spreadsheet(spreadsheet: &[u8], file: &[u8], table: &Table, names: &Names) -> Option<String> {
    let Ok(made) = Edition::Sets.convert(spreadsheet) else {
        return Some(refusals::in_words(refusals::of_table(Edition::Sets, spreadsheet)));
    };
    let numbered = Table::read(&made).ok().map(|made| Names::numbered(made.shape()));
    let names = numbered.as_ref().filter(|own| own.misfit(table.shape()).is_some()).unwrap_or(names);
    (made != file).then(|| difference(("is", "spreadsheet"), &made, names, table))
}

/// How the table file that a source gives, with its names, differs from the table beside it.
fn difference((verb, source): (&str, &str), made: &[u8], names: &Names, table: &Table) -> String {
    let how = names.misfit(table.shape()).or_else(|| {
        let made = Table::read(made).ok()?;
        Some(compared((&format!("the {source} has"), &made), ("the table", table), names))
    });
    format!("{verb} another table than the one beside it: {}", how.unwrap_or_default())
}

/// What is said of a table that another replaces, whose names are given.
pub fn replaced(old: &Table, new: &Table, names: &Names) -> String {
    if old.shape() != new.shape() {
        return "a table with other conditions or grades".to_string();
    }
    format!("another table: {}", compared(("it had", old), ("now it has", new), names))
}

/// How two tables of one shape differ, whose files do; each with what is said before its limits.
fn compared((first, one): (&str, &Table), (second, other): (&str, &Table), names: &Names) -> String {
    let shape = one.shape();
    match (0..shape.cells()).find(|&cell| one.limits(cell) != other.limits(cell)) {
        Some(cell) => {
            let (of_one, of_other) = (names.limits(one, cell), names.limits(other, cell));
            format!("at {} {first} {of_one}, {second} {of_other}", names.combination(shape, cell))
        }
        None => "the limits are the same, but other cells are listed".to_string(),
    }
}
