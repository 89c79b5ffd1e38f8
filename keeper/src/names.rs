//! Names for the conditions, values and grades of a table.

use crate::library::{Shape, Table};

#[derive(Clone, Debug, PartialEq, Eq)]
pub struct Condition {
    pub name: String,
    pub values: Vec<String>,
}

impl Condition {
    /// What is said of a value that it does not have.
    pub fn has_no(&self, value: &str) -> String {
        format!("condition {} has no value {value}; it has {}", self.name, self.values.join(", "))
    }
}

#[derive(Clone, Debug, PartialEq, Eq)]
pub struct Names {
    pub conditions: Vec<Condition>,
    pub grades: Vec<String>,
}

impl Names {
    /// For a table without a text: conditions `c0`, `c1`, ..; values and grades by number.
    pub fn numbered(shape: &Shape) -> Names {
        let numbers = |n| (0..n).map(|k: usize| k.to_string()).collect();
        let condition = |i| Condition { name: format!("c{i}"), values: numbers(shape.values(i)) };
        Names { conditions: (0..shape.conditions()).map(condition).collect(), grades: numbers(shape.grades()) }
    }

    /// What keeps these names from being those of a table of the shape.
    pub fn misfit(&self, shape: &Shape) -> Option<String> {
        let (conditions, grades) = (self.conditions.len(), self.grades.len());
        if conditions != shape.conditions() {
            return Some(format!("it has {}, the table {}", many(conditions, "condition"), shape.conditions()));
        }
        for (i, condition) in self.conditions.iter().enumerate() {
            if condition.values.len() != shape.values(i) {
                let (name, values) = (&condition.name, condition.values.len());
                return Some(format!("condition {name} has {values} values, in the table {}", shape.values(i)));
            }
        }
        (grades != shape.grades()).then(|| format!("it has {grades} grades, the table {}", shape.grades()))
    }

    /// A cell in words: `rota on, hour night`.
    pub fn combination(&self, shape: &Shape, cell: usize) -> String {
        if self.conditions.is_empty() {
            return "every visit".to_string();
        }
        let named = |(condition, value): (&Condition, usize)| format!("{} {}", condition.name, condition.values[value]);
        self.conditions.iter().zip(shape.values_of(cell)).map(named).collect::<Vec<_>>().join(", ")
    }

    /// A cell's limits in words: `signed`, `none to signed`, `any grade`.
    pub fn limits(&self, table: &Table, cell: usize) -> String {
        match table.limits(cell) {
            (lower, upper) if lower == upper => self.grades[lower].clone(),
            (lower, upper) if lower == 0 && upper + 1 == self.grades.len() => "any grade".to_string(),
            (lower, upper) => format!("{} to {}", self.grades[lower], self.grades[upper]),
        }
    }
}

/// Whether a character does not show, or moves others about: with such a one a line could say what is not so.
pub fn does_not_show(c: char) -> bool {
    let blank = c.is_control() || (c.is_whitespace() && c != ' ');
    let directs = matches!(c, '\u{61c}' | '\u{200e}' | '\u{200f}' | '\u{202a}'..='\u{202e}' | '\u{2066}'..='\u{2069}');
    let joins = matches!(c, '\u{ad}' | '\u{34f}' | '\u{200b}'..='\u{200d}' | '\u{2060}'..='\u{206f}' | '\u{feff}');
    let fills = matches!(c, '\u{115f}' | '\u{1160}' | '\u{17b4}' | '\u{17b5}' | '\u{3164}' | '\u{ffa0}');
    let chooses = matches!(c, '\u{180b}'..='\u{180f}' | '\u{fe00}'..='\u{fe0f}' | '\u{e0000}'..='\u{e0fff}');
    blank || directs || joins || fills || chooses || matches!(c, '\u{fff0}'..='\u{fffb}' | '\u{fffe}' | '\u{ffff}')
}

/// A number with a comma between thousands.
pub fn count(n: usize) -> String {
    let digits = n.to_string();
    let head = digits.len() % 3;
    let mut out = digits[..head].to_string();
    for chunk in digits.as_bytes()[head..].chunks(3) {
        if !out.is_empty() {
            out.push(',');
        }
        out.extend(chunk.iter().map(|&b| char::from(b)));
    }
    out
}

/// `1 record`, `2 records`.
pub fn many(n: usize, what: &str) -> String {
    format!("{} {what}{}", count(n), if n == 1 { "" } else { "s" })
}
