//! Joins: document 01, section "Joins", by what they mean, for tables of every size.
//!
//! A function that is blind to a set has one grade on each line, that is on all cells equal outside the set. Two
//! functions, the first blind to T and the second to S, are a max join when the greater of their grades is within the
//! limits in every cell. A grade is open to a block at a cell when the block has it there in some join. A block's limits
//! are the least and the greatest grade open to it.
//!
//! For the smallest tables every pair of functions is tried (`search`), and what is found here is held to that. For all:
//! no function of a max join is above an upper limit anywhere. Of the functions blind to a set that are above none there
//! is a greatest, with the greatest grade on each line that is above none of the line's upper limits. It reaches every
//! lower limit that one of them reaches. So a max join exists exactly when the two greatest functions are one; and a
//! grade is open to the first block on a line exactly when the function that has it there, and is else the greatest, is
//! one with the greatest second function. Off the line that is the pair of the greatest again, so only the line is
//! looked at. The second block is found in the same way, beside the first block given. For min the functions are the
//! least that are below no lower limit.
//!
//! A weak join has no condition in T: its first block is blind to nothing, and the table itself could be one. It is of
//! use where the greatest second function alone is within the limits and the table asks for something, that is, does
//! not let the first block be idle: have the grade that changes nothing, 0 for max and the last for min. There the first
//! block is relieved of what the table asks.

use crate::search::{Search, seen_without};
use crate::{Answer, Gate, Limits, Shape, Table, Values, refusal, stop_if};
use std::collections::BTreeMap;

/// A block's limits, for each cell of its table.
pub type Block = BTreeMap<Values, Limits>;

/// The greatest function of those that are blind to the set and above no upper limit, for max; for min, the least of
/// those that are below no lower limit. A line is looked at when one of its cells is first asked for, and only then.
fn furthest(shape: &Shape, table: &Table, gate: Gate, blind: u8) -> impl FnMut(Values) -> u8 {
    let on_line = move |cell: &Values| {
        let line = table.over(shape, *cell, blind);
        let grade = match gate {
            Gate::Max => (0..shape.grades).rev().find(|&grade| line.iter().all(|limits| grade <= limits.upper)),
            Gate::Min => (0..shape.grades).find(|&grade| line.iter().all(|limits| grade >= limits.lower)),
        };
        grade.expect("grade 0 is above no limit, the last grade below none")
    };
    let mut found = BTreeMap::new();
    move |cell| *found.entry(seen_without(cell, blind)).or_insert_with_key(on_line)
}

/// Whether the join exists.
pub fn exists(shape: &Shape, table: &Table, gate: Gate, s: u8, t: u8) -> bool {
    let [mut first, mut second] = [t, s].map(|blind| furthest(shape, table, gate, blind));
    let exists = table.limits.iter().all(|(&cell, limits)| limits.allow(gate.of(first(cell), second(cell))));
    if let Some(search) = Search::new(shape, table, gate, s, t) {
        assert_eq!(search.first_blocks().is_some(), exists, "furthest and all functions differ: {table:?} {s} {t}");
    }
    exists
}

/// The limits of a block that is blind to the set, in a join that exists, beside the other block's grades.
fn block(shape: &Shape, table: &Table, gate: Gate, blind: u8, mut other: impl FnMut(Values) -> u8) -> Block {
    let open = table.open(shape, blind, |cell, limits| {
        let other = other(cell);
        move |grade| limits.allow(gate.of(grade, other))
    });
    open.expect("a join that exists has both blocks")
}

/// The first block's limits.
pub fn first_block(shape: &Shape, table: &Table, gate: Gate, s: u8, t: u8) -> Block {
    let found = block(shape, table, gate, t, furthest(shape, table, gate, s));
    if let Some(search) = Search::new(shape, table, gate, s, t) {
        let searched = search.first_blocks().into_iter().flatten();
        assert!(searched.eq(found.clone()), "first blocks by lines and by search differ: {table:?} {s} {t}");
    }
    found
}

/// The second block's limits, given the first block.
pub fn second_block(shape: &Shape, table: &Table, gate: Gate, s: u8, t: u8, first: impl Fn(Values) -> u8) -> Block {
    let found = block(shape, table, gate, s, &first);
    if let Some(search) = Search::new(shape, table, gate, s, t) {
        let searched = search.second_blocks(first).into_iter().flatten();
        assert!(searched.eq(found.clone()), "second blocks by lines and by search differ: {table:?} {s} {t}");
    }
    found
}

/// Whether a weak join asks less of its first block than the table does: in some cell the table does not let the first
/// block be idle, and a second block that is blind to the set does there alone what is asked. Held to the first block's
/// limits, which are then not the table's.
pub fn relieves(shape: &Shape, table: &Table, gate: Gate, s: u8) -> bool {
    let idle = match gate {
        Gate::Max => 0,
        Gate::Min => shape.grades - 1,
    };
    let mut second = furthest(shape, table, gate, s);
    let relieved = |(&cell, limits): (&Values, &Limits)| !limits.allow(idle) && limits.allow(second(cell));
    let relieves = table.limits.iter().any(relieved);
    assert_eq!(relieves, first_block(shape, table, gate, s, 0) != table.limits, "a weak join of use: {table:?} {s}");
    relieves
}

/// What a join call is lent. `rooms` are the lengths of the two buffers that it writes.
#[derive(Clone, Copy, Debug)]
pub struct Lent<'a> {
    pub shape: &'a [u8],
    pub lower: &'a [u8],
    pub upper: &'a [u8],
    pub gate: Gate,
    pub s: u8,
    pub t: u8,
    pub rooms: [usize; 2],
}

impl Lent<'_> {
    /// The rows that both calls have, with the first block's limits. `first` is the length of a first block given.
    fn judged(&self, first: Option<usize>) -> Answer<(Shape, Table, Block)> {
        let shape = Shape::from_bytes(self.shape)?;
        let lengths = [self.lower.len(), self.upper.len(), self.rooms[0], self.rooms[1], first.unwrap_or(usize::MAX)];
        stop_if(lengths.iter().any(|&length| length < shape.count()), refusal::SHORT_BUFFER)?;
        let table = shape.table(self.lower, self.upper)?;
        let there = |set| set != 0 && set & !shape.every_condition() == 0;
        stop_if(!there(self.s) || !there(self.t) || self.s & self.t != 0, refusal::SETS)?;
        stop_if(!exists(&shape, &table, self.gate, self.s, self.t), refusal::NO_JOIN)?;
        let first = first_block(&shape, &table, self.gate, self.s, self.t);
        Ok((shape, table, first))
    }

    /// The first block's limits by rising cell number.
    pub fn first(&self) -> Answer<Vec<Limits>> {
        let (shape, _, first) = self.judged(None)?;
        Ok(shape.cells().iter().map(|cell| first[cell]).collect())
    }

    /// The second block's limits by rising cell number, given the first block's grades.
    pub fn second(&self, given: &[u8]) -> Answer<Vec<Limits>> {
        let (shape, table, first) = self.judged(Some(given.len()))?;
        let grade = |cell: Values| given[shape.number(cell)];
        let is_blind = first.keys().all(|&cell| grade(cell) == grade(seen_without(cell, self.t)));
        let sound = is_blind && first.iter().all(|(&cell, limits)| limits.allow(grade(cell)));
        // The same without the limits: it is a function, blind to T, and some second block joins with it.
        let mut second = furthest(&shape, &table, self.gate, self.s);
        let joins = is_blind
            && table.limits.iter().all(|(&cell, limits)| {
                grade(cell) < shape.grades && limits.allow(self.gate.of(grade(cell), second(cell)))
            });
        assert_eq!(sound, joins, "limits and joins differ on a first block: {table:?} {given:?}");
        stop_if(!sound, refusal::FIRST_BLOCK)?;
        let second = second_block(&shape, &table, self.gate, self.s, self.t, grade);
        Ok(shape.cells().iter().map(|cell| second[cell]).collect())
    }
}
