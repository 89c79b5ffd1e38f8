//! Compiling and a forecast: document 01, "Stages", with the weak joins that request 5 has before a split, under the
//! settings of request 8. A stage of c cells has eight parts of c bytes of the work buffer and lends the rest to the
//! stages that it starts. They have half of its cells at most, but for the first block of a weak join, which has all and
//! takes no weak join itself: so a stage needs 32 × c bytes, and such a block 24 × c. The stages of both calls are the
//! same; they differ in what becomes of a record.

use super::grouping::{Sides, first_weak};
use super::join::{Pair, exchange, reach};
use super::records::{Counted, RECORD, Records, Written};
use super::shape::{PLACES, Places, Shape, members};
use super::{Answer, refuse_if};
use crate::{Gate, MIN_WINS_TIES, NO_WEAK_JOINS, SPLITS_ON_MOST, Table};
use std::cmp::Reverse;

/// The work bytes for each cell.
const WORK: usize = 32;

pub fn compile(table: Table, settings: u8, work: &mut [u8], network: &mut [u8]) -> Answer<u32> {
    let room = network.len() / RECORD;
    let has_room = |cells| room >= if cells == 1 { 1 } else { 3 * cells - 5 };
    let (written, _) = stages(table, settings, work, has_room, Written::new(network))?;
    Ok(written.count as u32)
}

pub fn forecast(table: Table, settings: u8, work: &mut [u8], depth: &mut [u8]) -> Answer<u32> {
    let (counted, of_last) = stages(table, settings, work, |_| depth.len() >= 2, Counted::default())?;
    depth[..2].copy_from_slice(&(of_last as u16).to_le_bytes());
    Ok(counted.count as u32)
}

/// All stages of a table, if `has_room` for its cells; its records, and the number that stands for the last.
fn stages<R: Records>(
    table: Table,
    settings: u8,
    work: &mut [u8],
    has_room: impl FnOnce(usize) -> bool,
    records: R,
) -> Answer<(R, usize)> {
    let shape = Shape::from_bytes(table.shape)?;
    let cells = shape.cells;
    let shortest = table.lower.len().min(table.upper.len());
    refuse_if(shortest < cells || work.len() < WORK * cells || !has_room(cells), 10)?;
    shape.judge_limits(table.lower, table.upper)?;
    work[..cells].copy_from_slice(&table.lower[..cells]);
    work[cells..2 * cells].copy_from_slice(&table.upper[..cells]);
    let mut compiling = Compiling { grades: shape.grades, settings, records };
    let last = compiling.stage(shape.places, true, &mut work[..WORK * cells]);
    Ok((compiling.records, last))
}

struct Compiling<R> {
    grades: u8,
    settings: u8,
    records: R,
}

/// A join of a stage, by min in exchanged grades: the lower limits, and the sets with what the upper limits leave.
struct Join<'a> {
    gate: Gate,
    lower: &'a [u8],
    sides: Sides<'a>,
}

/// Drops what can be dropped from the limits at the front of the work buffer; the places left. Each kind of stage has it
/// inside, since a call would cost the small stages more than what it does there.
#[inline(always)]
fn drop_conditions(mut places: Places, work: &mut [u8]) -> Places {
    for condition in members(places.present) {
        let cells = places.cells;
        let (lower, upper) = work[..2 * cells].split_at_mut(cells);
        let extremes = |lower: &[u8], upper: &[u8], first: usize| {
            let cells = places.along(condition, first);
            cells.fold((0, u8::MAX), |(most, least), cell| (lower[cell].max(most), upper[cell].min(least)))
        };
        let drops = places.lines(condition).all(|first| {
            let (most, least) = extremes(lower, upper, first);
            most <= least
        });
        if drops {
            // A line's new place never comes after its cells, so it is written over lines already read.
            for (place, first) in places.lines(condition).enumerate() {
                (lower[place], upper[place]) = extremes(lower, upper, first);
            }
            places = places.without(1 << condition);
            work.copy_within(cells..cells + places.cells, places.cells);
        }
    }
    places
}

impl<R: Records> Compiling<R> {
    fn has_set(&self, setting: u8) -> bool {
        self.settings & setting != 0
    }

    /// Whether max is taken where both gates have a grouping, with these ranks.
    fn takes_max(&self, of_max: (u32, u32), of_min: (u32, u32)) -> bool {
        if self.has_set(MIN_WINS_TIES) { of_max < of_min } else { of_max <= of_min }
    }

    /// The condition that a split takes.
    fn split_condition(&self, places: &Places) -> usize {
        let mut left = members(places.present);
        let found = if self.has_set(SPLITS_ON_MOST) {
            // Of equals this takes the first.
            left.min_by_key(|&condition| Reverse(places.card(condition)))
        } else {
            left.next()
        };
        found.unwrap_or(0)
    }

    /// Compiles the limits at the front of the work buffer, and leaves there the grades of the function that the
    /// records compute; the number that stands for the last record. `may`: whether the stage may take a weak join, as
    /// it may where it has dropped a condition.
    fn stage(&mut self, before: Places, may: bool, work: &mut [u8]) -> usize {
        let places = drop_conditions(before, work);
        let cells = places.cells;
        let may = may || before.cells != cells;
        let last = match places.present.count_ones() {
            0 => self.records.constant(work[0]),
            1 => self.records.literal(places.present.trailing_zeros() as usize, &work[..cells]),
            _ => self.join_or_split(&places, may, work),
        };
        if before.cells != cells {
            self.put_back(&before, &places, work);
        }
        last
    }

    /// Carries the function from the conditions left to all of those that the stage began with.
    fn put_back(&self, before: &Places, places: &Places, work: &mut [u8]) {
        let all = before.cells;
        let (front, spare) = work.split_at_mut(all);
        before.carry(places, &mut spare[..all], |_, cell| front[cell]);
        front.copy_from_slice(&spare[..all]);
    }

    fn join_or_split(&mut self, places: &Places, may: bool, work: &mut [u8]) -> usize {
        let cells = places.cells;
        let (own, rest) = work.split_at_mut(8 * cells);
        let mut parts = own.chunks_exact_mut(cells);
        let mut part = || parts.next().expect("eight parts");
        let (lower, upper, turned_lower, turned_upper) = (part(), part(), part(), part());
        let mut by_max = Sides { s: 0, t: 0, over_t: part(), over_s: part() };
        let mut by_min = Sides { s: 0, t: 0, over_t: part(), over_s: part() };
        exchange(turned_lower, upper, self.grades);
        exchange(turned_upper, lower, self.grades);
        let max_exists = by_max.find(lower, upper, places);
        let min_exists = by_min.find(turned_lower, turned_upper, places);
        if max_exists && (!min_exists || self.takes_max(by_max.rank(), by_min.rank())) {
            let join = Join { gate: Gate::Max, lower, sides: by_max };
            let last = self.join(places, &join, [turned_lower, turned_upper], rest);
            lower.copy_from_slice(turned_upper);
            return last;
        }
        if min_exists {
            let join = Join { gate: Gate::Min, lower: turned_lower, sides: by_min };
            return self.join(places, &join, [upper, lower], rest);
        }
        let limits = Pair { lower, upper };
        let may = may && !self.has_set(NO_WEAK_JOINS);
        let weak = if may { first_weak(&limits, places, self.grades - 1) } else { None };
        let last = match weak {
            None => self.split(places, &limits, turned_upper, rest),
            Some((condition, gate)) => {
                let mut sides = by_max;
                let of_max = gate == Gate::Max;
                sides.weaken(if of_max { upper } else { turned_upper }, places, condition);
                let join = Join { gate, lower: if of_max { lower } else { turned_lower }, sides };
                self.fewer(places, &join, &limits, [by_min.over_t, by_min.over_s, turned_upper], rest)
            }
        };
        lower.copy_from_slice(turned_upper);
        last
    }

    /// The weak join if it has fewer records than the split, else the split. Both are counted before one is written. Of
    /// the three spare parts the last has the function afterwards.
    fn fewer(&mut self, places: &Places, weak: &Join, limits: &Pair, spare: [&mut [u8]; 3], rest: &mut [u8]) -> usize {
        let [reached, by_weak, function] = spare;
        let mut counting = Compiling { grades: self.grades, settings: self.settings, records: Counted::default() };
        let last_of_weak = counting.join(places, weak, [reached, by_weak], rest);
        let of_weak = std::mem::take(&mut counting.records);
        let last_of_split = counting.split(places, limits, function, rest);
        let of_split = counting.records;
        if of_split.count <= of_weak.count {
            let taken = self.records.take(of_split);
            return if taken { last_of_split } else { self.split(places, limits, function, rest) };
        }
        let taken = self.records.take(of_weak);
        let last = if taken { last_of_weak } else { self.join(places, weak, [reached, by_weak], rest) };
        function.copy_from_slice(by_weak);
        last
    }

    /// Of the two spare parts the second has the function afterwards.
    fn join(&mut self, places: &Places, join: &Join, spare: [&mut [u8]; 2], rest: &mut [u8]) -> usize {
        let &Join { gate, lower, ref sides } = join;
        let [reached, first] = spare;
        reach(reached, lower, sides.over_s, places, sides.t);
        let left = self.block(gate, places, sides.t, reached, sides.over_t, rest);
        let seen_by_first = places.without(sides.t);
        places.carry(&seen_by_first, first, |_, cell| rest[cell]);
        if gate == Gate::Min {
            first.iter_mut().for_each(|grade| *grade = self.grades - 1 - *grade);
        }
        reach(reached, lower, first, places, sides.s);
        let right = self.block(gate, places, sides.s, reached, sides.over_s, rest);
        let seen_by_second = places.without(sides.s);
        let most = self.grades - 1;
        places.carry(&seen_by_second, reached, |cell, seen| match gate {
            Gate::Max => first[cell].max(rest[seen]),
            Gate::Min => (most - first[cell]).min(rest[seen]),
        });
        first.copy_from_slice(reached);
        self.records.gate(gate, left, right)
    }

    /// A stage for a block that does not depend on the set, in the rest of the work buffer. Where the set is empty it is
    /// the first block of a weak join, which takes no weak join.
    fn block(&mut self, gate: Gate, places: &Places, blind: u8, lower: &[u8], upper: &[u8], rest: &mut [u8]) -> usize {
        let seen = places.without(blind);
        let most = self.grades - 1;
        let (to_lower, to_upper) = rest[..2 * seen.cells].split_at_mut(seen.cells);
        if gate == Gate::Max {
            seen.carry(places, to_lower, |_, cell| lower[cell]);
            seen.carry(places, to_upper, |_, cell| upper[cell]);
        } else {
            seen.carry(places, to_lower, |_, cell| most - upper[cell]);
            seen.carry(places, to_upper, |_, cell| most - lower[cell]);
        }
        self.stage(seen, blind != 0, rest)
    }

    /// The lowest condition has nothing but ones below it, and so the stride 1. Given as a constant, it makes the usual
    /// split a loop over single cells, which would else be one over parts of one cell.
    fn split(&mut self, places: &Places, limits: &Pair, function: &mut [u8], rest: &mut [u8]) -> usize {
        let condition = self.split_condition(places);
        match places.stride(condition) {
            1 => self.split_on(condition, 1, places, limits, function, rest),
            stride => self.split_on(condition, stride, places, limits, function, rest),
        }
    }

    /// Of each stride × card cells, value k of the condition has the k-th part of `stride` cells.
    #[inline(always)]
    fn split_on(
        &mut self,
        condition: usize,
        stride: usize,
        places: &Places,
        limits: &Pair,
        function: &mut [u8],
        rest: &mut [u8],
    ) -> usize {
        let card = places.card(condition);
        let below = places.without(1 << condition);
        let cells = below.cells;
        let mut total = None;
        for value in 0..card {
            let mut grades = [0; PLACES];
            grades[value] = self.grades - 1;
            let literal = self.records.literal(condition, &grades);
            let (to_lower, to_upper) = rest.split_at_mut(cells);
            let here = stride * value..stride * (value + 1);
            for (to, from) in [(to_lower, limits.lower), (to_upper, limits.upper)] {
                let lines = to.chunks_exact_mut(stride).zip(from.chunks_exact(stride * card));
                lines.for_each(|(to, line)| to.copy_from_slice(&line[here.clone()]));
            }
            let stage = self.stage(below, true, rest);
            let lines = function.chunks_exact_mut(stride * card).zip(rest.chunks_exact(stride));
            lines.for_each(|(line, from)| line[here.clone()].copy_from_slice(from));
            let least = self.records.gate(Gate::Min, literal, stage);
            total = Some(match total {
                None => least,
                Some(before) => self.records.gate(Gate::Max, before, least),
            });
        }
        total.unwrap_or(0)
    }
}
