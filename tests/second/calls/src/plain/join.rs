//! One join for given sets. A min join is a max join of exchanged limits.

use super::shape::{MOST_CELLS, Places, Shape, spread};
use super::{Answer, refuse_if};
use crate::{Gate, Limits, Sets, Table};

/// A part of a buffer for each of two limits.
pub struct Pair<'a> {
    pub lower: &'a [u8],
    pub upper: &'a [u8],
}

/// Writes the grades that a block must reach: the greatest, over the set, of the lower grades that the other block's
/// most cannot reach.
pub fn reach(to: &mut [u8], lower: &[u8], most_of_other: &[u8], places: &Places, set: u8) {
    for ((byte, &lower), &most) in to.iter_mut().zip(lower).zip(most_of_other) {
        *byte = if lower > most { lower } else { 0 };
    }
    spread(to, places, set, u8::max);
}

/// Changes every grade q to m − 1 − q.
pub fn exchange(to: &mut [u8], from: &[u8], grades: u8) {
    to.iter_mut().zip(from).for_each(|(to, from)| *to = grades - 1 - from);
}

pub fn join(gate: Gate, table: Table, sets: Sets, first: Option<&[u8]>, limits: Limits) -> Answer<u32> {
    let shape = Shape::from_bytes(table.shape)?;
    let cells = shape.cells;
    let lengths = [table.lower.len(), table.upper.len(), limits.lower.len(), limits.upper.len()];
    refuse_if(lengths.iter().any(|&length| length < cells) || first.is_some_and(|first| first.len() < cells), 10)?;
    shape.judge_limits(table.lower, table.upper)?;
    let there = |set: u8| set != 0 && (set as u32) < 1 << shape.conditions;
    refuse_if(!there(sets.s) || !there(sets.t) || sets.s & sets.t != 0, 7)?;
    let (lower, upper) = (&table.lower[..cells], &table.upper[..cells]);
    let first = first.map(|first| &first[..cells]);
    let (out_lower, out_upper) = (&mut limits.lower[..cells], &mut limits.upper[..cells]);
    if gate == Gate::Max {
        return by_max(&shape, Pair { lower, upper }, sets, first, out_lower, out_upper);
    }
    let mut turned = [[0u8; MOST_CELLS]; 3];
    let [turned_lower, turned_upper, turned_first] = turned.each_mut().map(|part| &mut part[..cells]);
    // A grade of the first block that is too large has no exchange, and is refused once the join is known to exist.
    let sound_first = first.is_none_or(|first| first.iter().all(|&grade| grade < shape.grades));
    exchange(turned_lower, upper, shape.grades);
    exchange(turned_upper, lower, shape.grades);
    if let Some(first) = first.filter(|_| sound_first) {
        exchange(turned_first, first, shape.grades);
    } else {
        turned_first.fill(shape.grades);
    }
    let pair = Pair { lower: turned_lower, upper: turned_upper };
    by_max(&shape, pair, sets, first.map(|_| &*turned_first), out_upper, out_lower)?;
    for grade in out_lower.iter_mut().chain(out_upper) {
        *grade = shape.grades - 1 - *grade;
    }
    Ok(0)
}

fn by_max(
    shape: &Shape,
    limits: Pair,
    sets: Sets,
    first: Option<&[u8]>,
    to_lower: &mut [u8],
    to_upper: &mut [u8],
) -> Answer<u32> {
    let (places, cells) = (&shape.places, shape.cells);
    let mut parts = [[0u8; MOST_CELLS]; 3];
    let [most_first, most_second, least_first] = parts.each_mut().map(|part| &mut part[..cells]);
    most_first.copy_from_slice(limits.upper);
    spread(most_first, places, sets.t, u8::min);
    most_second.copy_from_slice(limits.upper);
    spread(most_second, places, sets.s, u8::min);
    let unreached = (0..cells).any(|cell| limits.lower[cell] > most_first[cell].max(most_second[cell]));
    refuse_if(unreached, 8)?;
    reach(least_first, limits.lower, most_second, places, sets.t);
    let Some(first) = first else {
        to_lower.copy_from_slice(least_first);
        to_upper.copy_from_slice(most_first);
        return Ok(0);
    };
    let outside = (0..cells).any(|cell| first[cell] < least_first[cell] || first[cell] > most_first[cell]);
    let blind = &mut *most_first;
    blind.copy_from_slice(first);
    spread(blind, places, sets.t, u8::min);
    refuse_if(outside || blind != first, 9)?;
    reach(to_lower, limits.lower, first, places, sets.s);
    to_upper.copy_from_slice(most_second);
    Ok(0)
}
