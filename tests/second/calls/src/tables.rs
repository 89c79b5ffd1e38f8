//! Tables that own their bytes, made by rule, and their files.

use crate::{Edition, Gate, Sets, Table};
use std::collections::BTreeMap;

/// What can be lent as a table: any bytes.
#[derive(Clone, Debug, PartialEq, Eq)]
pub struct OwnedTable {
    pub shape: Vec<u8>,
    pub lower: Vec<u8>,
    pub upper: Vec<u8>,
}

/// The values of a cell's conditions.
fn values(cards: &[u8], mut cell: usize) -> Vec<u8> {
    let value = |&card: &u8| {
        let value = cell % card as usize;
        cell /= card as usize;
        value as u8
    };
    cards.iter().map(value).collect()
}

/// What a cell's record begins with in an edition: all but its values.
fn cell_head(edition: Edition, lower: u8, upper: u8) -> [u8; 8] {
    match edition {
        Edition::Limits => [3, lower, upper, 0, 0, 0, 0, 0],
        Edition::Sets => {
            let [low, high] = (lower..=upper).fold(0u16, |set, grade| set | 1 << grade).to_le_bytes();
            [4, 0, low, high, 0, 0, 0, 0]
        }
    }
}

/// A function of seven conditions of two values, a digit for each cell.
const SEVEN_TWOS: &str = "\
    2bb9fc8dea6bdefcc638abb60fecca6dc65febb07ea2f24e1ba7fa9be5af8eeb\
    5a4c3ee51795c4198a91c95e724d3ed80fa7dacdd58a9aa6d46cbff43e97ec2d";

/// Tables of 1,024 cells that take long to compile, named by how many stages are built. Most of these that have two
/// conditions or more have no grouping, and half of those build a weak join beside the split. A search found them that
/// changed grades, and kept what had more stages.
pub fn with_most_stages() -> [(&'static str, OwnedTable); 3] {
    // Each value of the first condition has the function with some of the seven conditions turned round.
    let turned = OwnedTable::by_rule(&[8, 2, 2, 2, 2, 2, 2, 2], 16, |values| {
        let cell = values[1..].iter().rev().fold(0, |cell, &value| 2 * cell + value as usize);
        let digit = SEVEN_TWOS.as_bytes()[cell ^ (37 * values[0] as usize % 128)] as char;
        let grade = digit.to_digit(16).unwrap_or(0) as u8;
        (grade, grade)
    });
    let inner = OwnedTable::by_sum(&[2, 2, 2, 4, 4, 2, 2, 2], 16, &[11, 13, 3, 4, 10, 14, 6, 7, 9, 13, 1, 3, 4]);
    let last = OwnedTable::by_sum(&[2, 2, 2, 2, 2, 2, 4, 4], 16, &[1, 3, 4, 1, 0, 5, 8, 10, 7, 4, 1, 14, 14]);
    [
        ("8 2⁷ of 182,925 stages, m 16", turned),
        ("2³ 4 4 2³ of 159,433 stages, m 16", inner),
        ("2⁶ 4 4 of 153,343 stages, m 16", last),
    ]
}

impl OwnedTable {
    /// A table with one grade for each cell, by the sum of its values.
    pub fn by_sum(cards: &[u8], grades: u8, of_sum: &[u8]) -> OwnedTable {
        OwnedTable::by_rule(cards, grades, |values| {
            let grade = of_sum[values.iter().map(|&value| value as usize).sum::<usize>()];
            (grade, grade)
        })
    }

    /// A table by a rule from values to limits.
    pub fn by_rule(cards: &[u8], grades: u8, mut rule: impl FnMut(&[u8]) -> (u8, u8)) -> OwnedTable {
        let mut shape = vec![cards.len() as u8];
        shape.extend(cards);
        shape.resize(9, 0);
        shape.push(grades);
        let cells: usize = cards.iter().map(|&card| card as usize).product();
        let (lower, upper) = (0..cells).map(|cell| rule(&values(cards, cell))).unzip();
        OwnedTable { shape, lower, upper }
    }

    /// The gate of two functions, the first blind to T and the second to S: it joins by these sets. `next` gives their
    /// grades one by one, and is told the set that the function is not blind to.
    pub fn joined(cards: &[u8], grades: u8, gate: Gate, sets: Sets, mut next: impl FnMut(u8) -> usize) -> OwnedTable {
        let Sets { s, t } = sets;
        let mut blocks = [(t, s), (s, t)].map(|(blind, other)| (blind, other, BTreeMap::new()));
        OwnedTable::by_rule(cards, grades, |values| {
            let [first, second] = blocks.each_mut().map(|(blind, other, block)| {
                let seen = values.iter().enumerate().filter(|(condition, _)| *blind >> condition & 1 == 0);
                let seen: Vec<u8> = seen.map(|(_, &value)| value).collect();
                *block.entry(seen).or_insert_with(|| (next(*other) % grades as usize) as u8)
            });
            let grade = match gate {
                Gate::Min => first.min(second),
                Gate::Max => first.max(second),
            };
            (grade, grade)
        })
    }

    pub fn lent(&self) -> Table<'_> {
        Table { shape: &self.shape, lower: &self.lower, upper: &self.upper }
    }

    /// The length of the lower limits: the number of cells, where nothing is amiss.
    pub fn cells(&self) -> usize {
        self.lower.len()
    }

    /// The table's file; `lists` decides for each cell that has the limits of an unlisted one whether it is listed.
    pub fn file(&self, lists: impl FnMut() -> bool) -> Vec<u8> {
        self.file_of(Edition::Limits, lists)
    }

    /// The same in an edition.
    pub fn file_of(&self, edition: Edition, mut lists: impl FnMut() -> bool) -> Vec<u8> {
        let unlisted = (1, self.shape[9] - 1);
        self.listing(edition, |limits| limits != unlisted || lists())
    }

    /// The file without the table's don't-cares, and the table that this file holds: at each of them 1 in place of 0.
    pub fn without_dont_cares(&self) -> (Vec<u8>, OwnedTable) {
        let dont_care = (0, self.shape[9] - 1);
        let mut held = self.clone();
        for (lower, &upper) in held.lower.iter_mut().zip(&self.upper) {
            if (*lower, upper) == dont_care {
                *lower = 1;
            }
        }
        (self.listing(Edition::Limits, |limits| limits != dont_care), held)
    }

    /// A file of an edition with those of the table's cells that are chosen by their limits.
    fn listing(&self, edition: Edition, mut chosen: impl FnMut((u8, u8)) -> bool) -> Vec<u8> {
        let cards = &self.shape[1..=self.shape[0] as usize];
        let grades = self.shape[9];
        let mut file = vec![];
        let mut record = |bytes: &[u8]| {
            file.extend(bytes);
            file.resize(file.len().next_multiple_of(16), 0);
        };
        for (number, &card) in cards.iter().enumerate() {
            record(&[1, number as u8, card]);
        }
        record(&[2, grades]);
        for (cell, (&lower, &upper)) in self.lower.iter().zip(&self.upper).enumerate() {
            if chosen((lower, upper)) {
                record(&[&cell_head(edition, lower, upper), values(cards, cell).as_slice()].concat());
            }
        }
        file
    }
}
