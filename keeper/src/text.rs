//! Tables as text, for people to write and read.
//!
//! ```text
//! condition rota on off
//! condition hour day evening night
//! grades none signed witness
//! on  day      none
//! on  evening  none signed     # none or signed
//! off *        signed witness
//! ```
//!
//! A line for each condition: its name, its values. Then the grades, from the least. Then cells, in any order: a value
//! of each condition, `*` for every one, and the only grade, or the least and the most. No cell stands in two lines;
//! those that stand in none are not listed in the table file. `#` starts a comment.

use std::collections::{BTreeMap, HashMap};

use crate::library::{Edition, MAX_CONDITIONS, RECORD, Shape, Table};
use crate::names::{Condition, Names, count, does_not_show, many};
use crate::refusals;

/// What is wrong with a line, from 1; 0 is the whole text.
#[derive(Clone, Debug, PartialEq, Eq)]
pub struct Fault {
    pub line: usize,
    pub what: String,
}

impl std::fmt::Display for Fault {
    fn fmt(&self, f: &mut std::fmt::Formatter) -> std::fmt::Result {
        if self.line > 0 {
            write!(f, "line {}: ", self.line)?;
        }
        write!(f, "{}", self.what)
    }
}

fn fault<T>(line: usize, what: impl Into<String>) -> Result<T, Fault> {
    Err(Fault { line, what: what.into() })
}

/// A text's names and the table file that it stands for.
#[derive(Debug)]
pub struct Text {
    pub names: Names,
    pub file: Vec<u8>,
    /// The first cell that is in no line, and how many such there are.
    pub unlisted: Option<(usize, usize)>,
}

/// Faults of cells are gathered up to this many.
const MOST_FAULTS: usize = 10;
/// The most that a byte of a record says.
const MOST: usize = u8::MAX as usize;

/// Reads a text. The library judges the table file; what it refuses is said of the line that it comes from.
pub fn parse(bytes: &[u8]) -> Result<Text, Vec<Fault>> {
    let one = |fault: Fault| vec![fault];
    let text = decoded(bytes).map_err(one)?;
    let lines: Vec<Line> = lines_of_words(text).collect();
    let (header, cells) = Header::read(&lines).map_err(one)?;
    let (mut file, mut line_of) = header.records();
    // First without cells: their number has to be known to be small before `*` stands for many.
    let shape = judged(&file, &line_of, &header.names).map_err(one)?.shape().clone();
    let listed = listed(&header, &shape, cells)?;
    let unlisted = (0..shape.cells()).find(|cell| !listed.contains_key(cell));
    let unlisted = unlisted.map(|first| (first, shape.cells() - listed.len()));
    for (cell, (line, limits)) in listed {
        file.extend(cell_record(&shape, cell, limits));
        line_of.push(line);
    }
    judged(&file, &line_of, &header.names).map_err(one)?;
    Ok(Text { names: header.names, file, unlisted })
}

/// The text of a file's bytes, without a byte order mark.
fn decoded(bytes: &[u8]) -> Result<&str, Fault> {
    let line_at = |byte: usize| 1 + bytes[..byte].iter().filter(|&&b| b == b'\n').count();
    let text = match std::str::from_utf8(bytes) {
        Ok(text) => text.strip_prefix('\u{feff}').unwrap_or(text),
        Err(error) => return fault(line_at(error.valid_up_to()), "not UTF-8"),
    };
    // Names go to terminals and drawings; what looks like one word has to be one, and what looks like a line, too.
    let unseen = |at: usize, c: char| match c {
        '\n' | '\t' => false,
        '\r' => !text[at..].starts_with("\r\n"),
        c => does_not_show(c),
    };
    match text.char_indices().find(|(at, c)| unseen(*at, *c)) {
        Some((at, c)) => fault(
            line_at(bytes.len() - text.len() + at),
            format!("a character that does not show, {}: words stand apart by spaces or tabs", c.escape_unicode()),
        ),
        None => Ok(text),
    }
}

/// Whether bytes are the text of a table, or its start, and not some other text: whether the first word is that of a
/// condition or of the grades.
pub fn is_table_text(bytes: &[u8]) -> bool {
    let text = String::from_utf8_lossy(bytes);
    let first = lines_of_words(text.strip_prefix('\u{feff}').unwrap_or(&text)).next();
    first.is_some_and(|(_, words)| KEYWORDS.contains(&words[0]))
}

/// The names that a text gives to a table of the shape; or why it does not.
pub fn names_for(bytes: &[u8], shape: &Shape) -> Result<Names, String> {
    let names = parse(bytes).map_err(|faults| faults[0].to_string())?.names;
    names.misfit(shape).map_or(Ok(names), Err)
}

const KEYWORDS: [&str; 2] = ["condition", "grades"];

type Line<'a> = (usize, Vec<&'a str>);

/// The lines that say something, with their numbers.
fn lines_of_words(text: &str) -> impl Iterator<Item = Line<'_>> {
    let said = text.lines().map(|line| line.split('#').next().unwrap_or(""));
    let lines = said.enumerate().map(|(at, said)| (at + 1, said.split_whitespace().collect::<Vec<_>>()));
    lines.filter(|(_, words)| !words.is_empty())
}

/// The table of a file that a text stands for, as the library reads it.
fn judged(file: &[u8], line_of: &[usize], names: &Names) -> Result<Table, Fault> {
    Table::read(file).or_else(|_| match refusals::of_table(Edition::Limits, file) {
        Some(refusals::Fault { number: 5, at: Some((record, _)), .. }) => {
            let grade = |byte: usize| &names.grades[usize::from(file[RECORD * record + byte])];
            fault(line_of[record], format!("the least grade, {}, is above the most, {}", grade(1), grade(2)))
        }
        Some(refusals::Fault { at: Some((record, _)), what, .. }) => {
            // The record has no greater number.
            let number = names.conditions.get(record).map_or(&names.grades, |condition| &condition.values).len();
            let what = if number > MOST { what.replacen(&MOST.to_string(), &count(number), 1) } else { what };
            fault(line_of[record], what)
        }
        Some(found) => fault(0, found.what),
        None => fault(0, "refused"),
    })
}

/// The least and the most grade.
type Limits = (usize, usize);

/// The cells that lines list, each with its line and its limits.
fn listed(header: &Header, shape: &Shape, lines: &[Line]) -> Result<BTreeMap<usize, (usize, Limits)>, Vec<Fault>> {
    let mut listed = BTreeMap::new();
    let mut faults = Vec::new();
    for (line, words) in lines {
        let found = header.cells(shape, *line, words).and_then(|(cells, limits)| {
            for cell in cells {
                let (first, _) = *listed.entry(cell).or_insert((*line, limits));
                if first != *line {
                    return fault(*line, format!("{}: already in line {first}", header.names.combination(shape, cell)));
                }
            }
            Ok(())
        });
        faults.extend(found.err());
        if faults.len() == MOST_FAULTS {
            break;
        }
    }
    if faults.is_empty() { Ok(listed) } else { Err(faults) }
}

fn cell_record(shape: &Shape, cell: usize, (lower, upper): Limits) -> [u8; RECORD] {
    let mut record = [0; RECORD];
    (record[0], record[1], record[2]) = (3, lower as u8, upper as u8);
    for (i, value) in shape.values_of(cell).into_iter().enumerate() {
        record[8 + i] = value as u8;
    }
    record
}

struct Header {
    names: Names,
    /// The lines of the conditions and of the grades.
    lines: Vec<usize>,
    values: Vec<HashMap<String, usize>>,
    grades: HashMap<String, usize>,
}

impl Header {
    /// The conditions and the grades, and the lines behind them.
    fn read<'a, 'b>(text: &'b [Line<'a>]) -> Result<(Header, &'b [Line<'a>]), Fault> {
        let mut header = Header {
            names: Names { conditions: Vec::new(), grades: Vec::new() },
            lines: Vec::new(),
            values: Vec::new(),
            grades: HashMap::new(),
        };
        for (at, (line, words)) in text.iter().enumerate() {
            header.lines.push(*line);
            match words[0] {
                "condition" => {
                    header.condition(*line, &words[1..])?;
                    // The library refuses the ninth: what follows need not be read.
                    if at == MAX_CONDITIONS {
                        return Ok((header, &[]));
                    }
                }
                "grades" => {
                    header.grades = numbered(*line, "grade", &words[1..])?;
                    header.names.grades = owned(&words[1..]);
                    let rest = &text[at + 1..];
                    return match rest.iter().find(|(_, words)| KEYWORDS.contains(&words[0])) {
                        Some((line, words)) if words[0] == "grades" => fault(*line, "grades a second time"),
                        Some((line, _)) => fault(*line, "a condition behind the grades"),
                        None => Ok((header, rest)),
                    };
                }
                word => return fault(*line, format!("{word:?} where condition or grades is due")),
            }
        }
        fault(0, "there is no line of grades")
    }

    fn condition(&mut self, line: usize, words: &[&str]) -> Result<(), Fault> {
        let Some((&name, values)) = words.split_first() else {
            return fault(line, "a condition without a name");
        };
        if self.names.conditions.iter().any(|condition| condition.name == name) {
            return fault(line, format!("condition {name} a second time"));
        }
        self.values.push(numbered(line, "value", values)?);
        self.names.conditions.push(Condition { name: name.to_string(), values: owned(values) });
        Ok(())
    }

    /// The records of the conditions and the grades, and the line of each. A number that a byte cannot hold is given as
    /// the most, which is refused as well.
    fn records(&self) -> (Vec<u8>, Vec<usize>) {
        let byte = |n: usize| u8::try_from(n).unwrap_or(u8::MAX);
        let mut file = Vec::new();
        for (i, condition) in self.names.conditions.iter().enumerate() {
            file.extend([1, byte(i), byte(condition.values.len())]);
            file.resize(RECORD * (i + 1), 0);
        }
        file.extend([2, byte(self.names.grades.len())]);
        file.resize(RECORD * self.lines.len(), 0);
        (file, self.lines.clone())
    }

    /// The cells of a line, and their limits.
    fn cells(&self, shape: &Shape, line: usize, words: &[&str]) -> Result<(Vec<usize>, Limits), Fault> {
        let n = shape.conditions();
        if words.len() != n + 1 && words.len() != n + 2 {
            let mut wanted: Vec<&str> = self.names.conditions.iter().map(|c| c.name.as_str()).collect();
            wanted.push("the only grade or the least and the most");
            let (given, wanted) = (words.len(), wanted.join(", "));
            return fault(line, format!("{given} words, but {} or {} are wanted: {wanted}", n + 1, n + 2));
        }
        let mut cells = vec![0];
        let mut step = 1;
        for (i, word) in words[..n].iter().enumerate() {
            let chosen = match self.values[i].get(*word) {
                Some(&value) => value..value + 1,
                None if *word == "*" => 0..shape.values(i),
                None => return fault(line, self.names.conditions[i].has_no(word)),
            };
            cells = chosen.flat_map(|value| cells.iter().map(move |cell| cell + step * value)).collect();
            step *= shape.values(i);
        }
        let grade = |word: &str| match self.grades.get(word) {
            Some(&grade) => Ok(grade),
            None => fault(line, format!("there is no grade {word}; there are {}", self.names.grades.join(", "))),
        };
        Ok((cells, (grade(words[n])?, grade(words[words.len() - 1])?)))
    }
}

fn owned(words: &[&str]) -> Vec<String> {
    words.iter().map(|word| word.to_string()).collect()
}

fn numbered(line: usize, what: &str, words: &[&str]) -> Result<HashMap<String, usize>, Fault> {
    let mut numbers = HashMap::new();
    for (number, &word) in words.iter().enumerate() {
        if word == "*" || KEYWORDS.contains(&word) {
            return fault(line, format!("{word} cannot be the name of a {what}"));
        }
        if numbers.insert(word.to_string(), number).is_some() {
            return fault(line, format!("{what} {word} twice"));
        }
    }
    Ok(numbers)
}

/// The text of a table file that the library read as `table`. Cells that differ in a condition alone, have all of its
/// values and the same limits stand in one line.
pub fn print(file: &[u8], table: &Table, names: &Names) -> String {
    let shape = table.shape();
    let mut text = String::new();
    for condition in &names.conditions {
        text += &format!("condition {} {}\n", condition.name, condition.values.join(" "));
    }
    text += &format!("grades {}\n", names.grades.join(" "));
    let cells: Vec<&[u8]> = file.chunks_exact(RECORD).filter(|record| record[0] == 3).collect();
    text += &columns(&rows(shape, names, &cells), shape.conditions());
    let unlisted = shape.cells() - cells.len();
    if unlisted > 0 {
        let are = if unlisted == 1 { "is" } else { "are" };
        text += &format!("# {unlisted} of {} {are} not listed: a visit there leaves ", many(shape.cells(), "cell"));
        text += &names.grades[1];
        text += if shape.grades() > 2 { " or more\n" } else { "\n" };
    }
    text
}

/// The words of each line of cells.
fn rows<'a>(shape: &Shape, names: &'a Names, cells: &[&[u8]]) -> Vec<Vec<&'a str>> {
    let n = shape.conditions();
    let mut lines = Lines::new();
    for record in cells {
        // The last condition first: the order of lines is that of their first cells.
        let values = (0..n).rev().map(|i| Some(record[8 + i].into())).collect();
        lines.insert(values, (record[1].into(), record[2].into()));
    }
    for place in 0..n {
        lines = merged(lines, place, shape.values(n - 1 - place));
    }
    let mut ordered: Vec<_> = lines.iter().collect();
    ordered.sort_by_key(|(values, _)| values.iter().map(|value| value.unwrap_or(0)).collect::<Vec<_>>());
    let row = |(values, &(lower, upper)): (&Vec<Option<usize>>, &Limits)| {
        let value = |(i, value): (usize, &Option<usize>)| value.map_or("*", |v| names.conditions[i].values[v].as_str());
        let mut row: Vec<&str> = values.iter().rev().enumerate().map(value).collect();
        row.push(&names.grades[lower]);
        row.extend((lower != upper).then_some(names.grades[upper].as_str()));
        row
    };
    ordered.into_iter().map(row).collect()
}

/// Rows in columns, with a wider gap behind the conditions.
fn columns(rows: &[Vec<&str>], conditions: usize) -> String {
    let width = |i: usize| rows.iter().filter_map(|row| row.get(i)).map(|word| word.chars().count()).max().unwrap_or(0);
    let widths: Vec<usize> = (0..conditions + 2).map(width).collect();
    let padded =
        |(i, word): (usize, &&str)| format!("{word:width$}", width = widths[i] + usize::from(i + 1 == conditions));
    let line =
        |row: &Vec<&str>| row.iter().enumerate().map(padded).collect::<Vec<_>>().join(" ").trim_end().to_string();
    rows.iter().map(|row| line(row) + "\n").collect()
}

/// A value of each condition, None for every one, and the limits.
type Lines = BTreeMap<Vec<Option<usize>>, Limits>;

/// Lines that are the same but for the value at a place, where every value is there, as one.
fn merged(lines: Lines, place: usize, values: usize) -> Lines {
    let mut groups: BTreeMap<_, Vec<Option<usize>>> = BTreeMap::new();
    for (mut line, limits) in lines {
        let value = line[place].take();
        groups.entry((line, limits)).or_default().push(value);
    }
    let mut out = Lines::new();
    for ((line, limits), found) in groups {
        let all = found.len() == values;
        for value in if all { vec![None] } else { found } {
            let mut line = line.clone();
            line[place] = value;
            out.insert(line, limits);
        }
    }
    out
}
