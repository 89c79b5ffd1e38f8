//! A network's records in words.

use crate::library::{Gate, Network, Record};
use crate::names::{Names, many};

/// A record in words, without its number.
pub fn label(record: &Record, names: &Names) -> String {
    match record {
        Record::Constant { grade } => format!("always {}", names.grades[*grade]),
        Record::Lookup { condition, grades } => {
            let condition = &names.conditions[*condition];
            let at = |value: usize| format!("{}→{}", condition.values[value], names.grades[grades[value]]);
            let words = match exception(grades) {
                Some((value, rest)) => format!("{}, else {}", at(value), names.grades[rest]),
                None => (0..grades.len()).map(at).collect::<Vec<_>>().join(", "),
            };
            format!("{}: {words}", condition.name)
        }
        Record::Gate { gate, left, right, ceiling } => {
            let which = match gate {
                Gate::Min => "lesser",
                Gate::Max => "greater",
            };
            format!("the {which} of {left} and {right}, at most {}", names.grades[*ceiling])
        }
    }
}

/// Of three grades or more, the only one that differs from all others, and theirs.
fn exception(grades: &[usize]) -> Option<(usize, usize)> {
    if grades.len() < 3 {
        return None;
    }
    let rest = if grades[0] == grades[1] || grades[0] == grades[2] { grades[0] } else { grades[1] };
    let mut others = (0..grades.len()).filter(|&value| grades[value] != rest);
    let only = others.next()?;
    others.next().is_none().then_some((only, rest))
}

/// A line for each record, and their number.
pub fn list(network: &Network, names: &Names) -> String {
    let records = network.records();
    let width = (records.len() - 1).to_string().len();
    let mut out = String::new();
    for (number, record) in records.iter().enumerate() {
        out += &format!("{number:width$}  {}\n", label(record, names));
    }
    out + &many(records.len(), "record") + "\n"
}
