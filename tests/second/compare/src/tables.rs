//! Shapes, tables and damaged files to compare on.

use crate::random::Random;
use calls::tables::OwnedTable;
use calls::{Gate, Sets};

/// Every list of cardinalities that does not fall, up to 1,024 cells.
pub fn cardinality_lists() -> Vec<Vec<u8>> {
    let mut lists = vec![vec![]];
    let mut at = 0;
    while at < lists.len() {
        let list: Vec<u8> = lists[at].clone();
        let cells: usize = list.iter().map(|&card| card as usize).product();
        for card in list.last().copied().unwrap_or(2)..=8 {
            if list.len() < 8 && cells * card as usize <= 1024 {
                lists.push([list.as_slice(), &[card]].concat());
            }
        }
        at += 1;
    }
    lists
}

/// Every table of a shape.
pub fn all_tables(cards: &[u8], grades: u8) -> impl Iterator<Item = OwnedTable> {
    let pairs: Vec<(u8, u8)> = (0..grades).flat_map(|lower| (lower..grades).map(move |upper| (lower, upper))).collect();
    let cells: u32 = cards.iter().map(|&card| card as u32).product();
    (0..pairs.len().pow(cells)).map(move |mut number| {
        OwnedTable::by_rule(cards, grades, |_| {
            let pair = pairs[number % pairs.len()];
            number /= pairs.len();
            pair
        })
    })
}

/// Limits around a grade, wider now and then.
fn around(grade: u8, grades: u8, random: &mut Random, width: usize) -> (u8, u8) {
    let down = random.below(width) as u8;
    let up = random.below(width) as u8;
    (grade.saturating_sub(down), (grade + up).min(grades - 1))
}

/// A function by min and max of literals, each condition used about once: much of it joins.
fn composed(cards: &[u8], grades: u8, random: &mut Random) -> impl Fn(&[u8]) -> u8 + use<> {
    let literal = |&card: &u8| (random.byte(), (0..card).map(|_| random.byte() % grades).collect::<Vec<u8>>());
    let steps: Vec<(u8, Vec<u8>)> = cards.iter().map(literal).collect();
    move |values| {
        let grade = |(step, &value): (&(u8, Vec<u8>), &u8)| (step.0, step.1[value as usize]);
        let joined = steps.iter().zip(values).map(grade).reduce(|(_, so_far), (by, grade)| match by % 8 {
            0..=2 => (by, so_far.min(grade)),
            3..=5 => (by, so_far.max(grade)),
            6 => (by, so_far),
            _ => (by, (so_far + grade) % grades),
        });
        joined.map_or(0, |(_, grade)| grade)
    }
}

/// A table of one of several kinds, from nothing but noise to nothing but joins.
pub fn some_table(cards: &[u8], grades: u8, random: &mut Random) -> OwnedTable {
    let width = 1 + random.below(4);
    let sparse = 2 + random.below(8);
    // A cell of which nothing is said: any grade, or any but 0, as where a file does not list it.
    let free = (random.below(2) as u8, grades - 1);
    match random.below(6) {
        0 => OwnedTable::by_rule(cards, grades, |_| around(random.byte() % grades, grades, random, width)),
        1 => OwnedTable::by_rule(cards, grades, |_| {
            if random.once_in(sparse) { around(random.byte() % grades, grades, random, 1) } else { free }
        }),
        2 => OwnedTable::by_rule(cards, grades, |values| {
            let sum: usize = values.iter().map(|&value| value as usize).sum();
            around((sum % grades as usize) as u8, grades, random, width)
        }),
        kind => {
            let (one, two) = (composed(cards, grades, random), composed(cards, grades, random));
            OwnedTable::by_rule(cards, grades, |values| {
                let grade = match kind {
                    3 => one(values),
                    4 => one(values).min(two(values)),
                    _ => one(values).max(two(values)),
                };
                let any = random.once_in(3 * sparse);
                if any { free } else { around(grade, grades, random, width) }
            })
        }
    }
}

/// A table of which few stages have a grouping: the sum of the values, or noise, in some of the grades; some cells with
/// wider limits, and some for which any grade will do.
pub fn ungrouped_table(cards: &[u8], grades: u8, random: &mut Random) -> OwnedTable {
    let noise = random.once_in(2);
    let (least, used) = (random.byte() % (grades - 1), 2 + random.byte() % (grades - 1));
    let (moved, free) = (2 + random.below(9), 2 + random.below(20));
    OwnedTable::by_rule(cards, grades, |values| {
        let sum = if noise { random.byte() } else { values.iter().sum() };
        let grade = (least + sum % used).min(grades - 1);
        let width = if random.once_in(moved) { 3 } else { 1 };
        if random.once_in(free) { (0, grades - 1) } else { around(grade, grades, random, width) }
    })
}

/// A table of which most stages have a grouping by either gate, and many a tie: few cells have a grade, and for the others
/// any will do.
pub fn sparse_table(cards: &[u8], grades: u8, random: &mut Random) -> OwnedTable {
    let sparse = 2 + random.below(3);
    OwnedTable::by_rule(cards, grades, |_| {
        if random.once_in(sparse) { around(random.byte() % grades, grades, random, 1) } else { (0, grades - 1) }
    })
}

/// A table that joins by these sets. On a line over one of them some four cells decide the limits, however long the line
/// is: else a cell that is left out would seldom show.
pub fn joined_table(cards: &[u8], gate: Gate, sets: Sets, random: &mut Random) -> OwnedTable {
    let grades = 2 + random.below(15) as u8;
    let width = 1 + random.below(2);
    let idle = if gate == Gate::Max { grades - 1 } else { 0 };
    let line = |set: u8| {
        let within = cards.iter().enumerate().filter(|(condition, _)| set >> condition & 1 == 1);
        within.map(|(_, &card)| card as usize).product::<usize>()
    };
    let mut table = OwnedTable::joined(cards, grades, gate, sets, |set| {
        let decides = random.once_in((line(set) / 4).max(1));
        (if decides { random.byte() } else { idle }) as usize
    });
    for (lower, upper) in table.lower.iter_mut().zip(&mut table.upper) {
        (*lower, *upper) = around(*lower, grades, random, width);
    }
    table
}

/// A file with a few bytes changed, or with two records exchanged.
pub fn damage(sound: &[u8], random: &mut Random) -> Vec<u8> {
    let mut file = sound.to_vec();
    if random.once_in(4) {
        let mut records: Vec<&[u8]> = sound.chunks(16).collect();
        let (one, two) = (random.below(records.len()), random.below(records.len()));
        records.swap(one, two);
        return records.concat();
    }
    for _ in 0..=random.below(3) {
        let at = random.below(file.len());
        file[at] = random.byte() % 20;
    }
    file
}
