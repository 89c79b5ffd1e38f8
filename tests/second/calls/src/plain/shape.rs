//! Shapes, and tables of one byte per cell.

use super::{Answer, refuse_if};

pub const PLACES: usize = 8;
pub const MOST_CELLS: usize = 1024;

/// A cardinality for each of eight places, 1 where there is no condition. A place of cardinality 1 adds nothing to a
/// cell's number, so a stage's table is packed and its conditions keep their numbers.
#[derive(Clone, Copy)]
pub struct Places {
    cards: [u16; PLACES],
    /// How far apart in a table the cells are whose values differ by one.
    strides: [u16; PLACES],
    /// The conditions that are there.
    pub present: u8,
    pub cells: usize,
}

#[derive(Clone, Copy)]
pub struct Shape {
    pub conditions: usize,
    pub places: Places,
    pub grades: u8,
    pub cells: usize,
}

impl Shape {
    pub fn from_bytes(bytes: &[u8]) -> Answer<Shape> {
        refuse_if(bytes.len() != 10, 4)?;
        let conditions = bytes[0] as usize;
        let sound = |place: usize| {
            let card = bytes[1 + place];
            if place < conditions { (2..=8).contains(&card) } else { card == 0 }
        };
        refuse_if(conditions > PLACES || !(0..PLACES).all(sound) || !(2..=16).contains(&bytes[9]), 4)?;
        let places = Places::new(std::array::from_fn(|place| bytes[1 + place].max(1) as u16));
        refuse_if(places.cells > MOST_CELLS, 4)?;
        Ok(Shape { conditions, places, grades: bytes[9], cells: places.cells })
    }

    /// Refuses limits out of order or not below the number of grades.
    pub fn judge_limits(&self, lower: &[u8], upper: &[u8]) -> Answer<()> {
        let fault = lower[..self.cells]
            .iter()
            .zip(&upper[..self.cells])
            .any(|(lower, upper)| lower > upper || *upper >= self.grades);
        refuse_if(fault, 5)
    }
}

impl Places {
    fn new(cards: [u16; PLACES]) -> Places {
        let mut places = Places { cards, strides: [1; PLACES], present: 0, cells: 1 };
        for (place, &card) in cards.iter().enumerate() {
            places.strides[place] = places.cells as u16;
            places.present |= ((card > 1) as u8) << place;
            places.cells *= card as usize;
        }
        places
    }

    pub fn card(&self, condition: usize) -> usize {
        self.cards[condition] as usize
    }

    pub fn stride(&self, condition: usize) -> usize {
        self.strides[condition] as usize
    }

    /// The places without the conditions of the set.
    pub fn without(&self, set: u8) -> Places {
        Places::new(std::array::from_fn(|place| if set >> place & 1 == 1 { 1 } else { self.cards[place] }))
    }

    /// The first cells of the lines along a condition.
    pub fn lines(&self, condition: usize) -> impl Iterator<Item = usize> + use<> {
        let stride = self.stride(condition);
        steps(0, self.cells, stride * self.card(condition)).flat_map(move |high| high..high + stride)
    }

    /// The cells of a line along a condition, from its first.
    pub fn along(&self, condition: usize, first: usize) -> Steps {
        let stride = self.stride(condition);
        steps(first, first + stride * self.card(condition), stride)
    }

    /// The cells in the other places of each cell of these, in order: `to[x] = of(cell)`. Values are kept where both
    /// have the place, and are 0 elsewhere.
    pub fn carry(&self, other: &Places, to: &mut [u8], mut of: impl FnMut(usize, usize) -> u8) {
        let steps: [usize; PLACES] =
            std::array::from_fn(|place| if other.cards[place] == 1 { 0 } else { other.stride(place) });
        let mut values = [0; PLACES];
        let mut at = 0;
        for (cell, byte) in to.iter_mut().enumerate() {
            *byte = of(cell, at);
            for place in 0..PLACES {
                values[place] += 1;
                at += steps[place];
                if values[place] < self.card(place) {
                    break;
                }
                at -= steps[place] * self.card(place);
                values[place] = 0;
            }
        }
    }
}

/// Numbers a step apart, below an end. (The standard library's way divides when it begins.)
pub struct Steps {
    at: usize,
    end: usize,
    step: usize,
}

pub fn steps(at: usize, end: usize, step: usize) -> Steps {
    Steps { at, end, step }
}

impl Iterator for Steps {
    type Item = usize;

    fn next(&mut self) -> Option<usize> {
        let at = self.at;
        self.at += self.step;
        (at < self.end).then_some(at)
    }
}

/// The conditions of a set, by rising number.
pub fn members(mut set: u8) -> impl Iterator<Item = usize> {
    std::iter::from_fn(move || {
        let first = set.trailing_zeros() as usize;
        set &= set.wrapping_sub(1);
        (first < PLACES).then_some(first)
    })
}

/// Replaces each byte by the one that `of` chooses of all bytes of the cells equal outside the set.
pub fn spread(table: &mut [u8], places: &Places, set: u8, of: fn(u8, u8) -> u8) {
    for place in members(set) {
        for first in places.lines(place) {
            let chosen = places.along(place, first).map(|cell| table[cell]).reduce(of).unwrap_or(0);
            places.along(place, first).for_each(|cell| table[cell] = chosen);
        }
    }
}
