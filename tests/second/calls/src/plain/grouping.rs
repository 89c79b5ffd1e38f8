//! The sets that a stage joins: document 01, "Stages", step 3, for max, and weak joins, where there are none. Each test
//! stops at the first cell that decides it.

use super::join::Pair;
use super::shape::{Places, members, spread, steps};
use crate::Gate;

/// Sets S and T, and the parts that hold the least upper over T and over S.
pub struct Sides<'a> {
    pub s: u8,
    pub t: u8,
    pub over_t: &'a mut [u8],
    pub over_s: &'a mut [u8],
}

/// Whether {i} and {j} join, i < j. Nothing is written.
fn pair_joins(lower: &[u8], upper: &[u8], places: &Places, i: usize, j: usize) -> bool {
    let (stride_i, stride_j) = (places.stride(i), places.stride(j));
    for high in steps(0, lower.len(), stride_j * places.card(j)) {
        for middle in steps(high, high + stride_j, stride_i * places.card(i)) {
            for corner in middle..middle + stride_i {
                if !plane_joins(lower, upper, places, i, j, corner) {
                    return false;
                }
            }
        }
    }
    true
}

/// The same for the cells in which only the values of i and j differ from those of the corner.
fn plane_joins(lower: &[u8], upper: &[u8], places: &Places, i: usize, j: usize, corner: usize) -> bool {
    for line_i in places.along(j, corner) {
        for (cell, line_j) in places.along(i, line_i).zip(places.along(i, corner)) {
            let least = lower[cell];
            let below = |cell: usize| upper[cell] < least;
            if least > 0 && places.along(i, line_i).any(below) && places.along(j, line_j).any(below) {
                return false;
            }
        }
    }
    true
}

/// Whether a condition may be added to the set whose least upper is `changing`, the other's being `kept`.
fn may_add(lower: &[u8], changing: &[u8], kept: &[u8], places: &Places, condition: usize) -> bool {
    places.lines(condition).all(|first| {
        let least = places.along(condition, first).map(|cell| changing[cell]).min().unwrap_or(0);
        places.along(condition, first).all(|cell| lower[cell] <= kept[cell].max(least))
    })
}

/// The gate by which the weak join at a condition counts, max before min: over the condition, the least upper reaches a
/// lower grade that is not 0, or the greatest lower leaves an upper grade that is not the greatest grade, `most`.
fn weak_at(limits: &Pair, places: &Places, most: u8, condition: usize) -> Option<Gate> {
    let mut by_min = false;
    for first in places.lines(condition) {
        let cells = places.along(condition, first);
        let (least, greatest) = cells.fold((u8::MAX, 0), |(least, greatest), cell| {
            (limits.upper[cell].min(least), limits.lower[cell].max(greatest))
        });
        for cell in places.along(condition, first) {
            if (1..=least).contains(&limits.lower[cell]) {
                return Some(Gate::Max);
            }
            by_min |= (greatest..most).contains(&limits.upper[cell]);
        }
    }
    by_min.then_some(Gate::Min)
}

/// The first weak join that counts.
pub fn first_weak(limits: &Pair, places: &Places, most: u8) -> Option<(usize, Gate)> {
    members(places.present).find_map(|condition| Some((condition, weak_at(limits, places, most, condition)?)))
}

impl Sides<'_> {
    /// Finds the grouping by max; false if there is none.
    pub fn find(&mut self, lower: &[u8], upper: &[u8], places: &Places) -> bool {
        let found = 'search: {
            for i in members(places.present) {
                // The conditions after i.
                for j in members(places.present & 0xfe << i) {
                    if pair_joins(lower, upper, places, i, j) {
                        break 'search Some((i, j));
                    }
                }
            }
            None
        };
        let Some((i, j)) = found else { return false };
        (self.s, self.t) = (1 << i, 1 << j);
        self.over_t.copy_from_slice(upper);
        spread(self.over_t, places, self.t, u8::min);
        self.over_s.copy_from_slice(upper);
        spread(self.over_s, places, self.s, u8::min);
        for condition in members(places.present & !(self.s | self.t)) {
            let s_first = self.s.count_ones() <= self.t.count_ones();
            let _ = self.add(lower, places, condition, s_first) || self.add(lower, places, condition, !s_first);
        }
        true
    }

    /// Makes these the sides of the weak join at a condition: S has it alone, T has none.
    pub fn weaken(&mut self, upper: &[u8], places: &Places, condition: usize) {
        (self.s, self.t) = (1 << condition, 0);
        self.over_t.copy_from_slice(upper);
        self.over_s.copy_from_slice(upper);
        spread(self.over_s, places, self.s, u8::min);
    }

    fn add(&mut self, lower: &[u8], places: &Places, condition: usize, to_s: bool) -> bool {
        let (set, changing, kept) = if to_s {
            (&mut self.s, &mut *self.over_s, &*self.over_t)
        } else {
            (&mut self.t, &mut *self.over_t, &*self.over_s)
        };
        let added = may_add(lower, changing, kept, places, condition);
        if added {
            *set |= 1 << condition;
            spread(changing, places, 1 << condition, u8::min);
        }
        added
    }

    /// Less is better: more conditions in the sets, then the smaller difference.
    pub fn rank(&self) -> (u32, u32) {
        let (s, t) = (self.s.count_ones(), self.t.count_ones());
        (16 - s - t, s.abs_diff(t))
    }
}
