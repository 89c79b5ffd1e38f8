//! Buffers as they are lent: noise before, between and after, and what they must hold when the call has returned.

use crate::random::Random;
use std::fmt::{Display, Write};

/// Places of noise on each side of a buffer.
const GUARD: usize = 32;
/// Places of a buffer that a report shows.
const SHOWN: usize = 64;

/// A buffer of bytes, or of larger numbers.
pub struct Lent<T = u8> {
    name: &'static str,
    whole: Vec<T>,
    expected: Vec<T>,
    /// How many places at the front may hold anything afterwards.
    free: usize,
}

impl<T: Copy + From<u8>> Lent<T> {
    /// A buffer of so many places of noise.
    pub fn noise(name: &'static str, length: usize, random: &mut Random) -> Lent<T> {
        let mut whole = vec![T::from(0); length + 2 * GUARD];
        random.fill(&mut whole);
        Lent { name, expected: whole.clone(), whole, free: 0 }
    }

    /// A buffer that holds these.
    pub fn holding(name: &'static str, these: &[T], random: &mut Random) -> Lent<T> {
        let mut lent = Lent::noise(name, these.len(), random);
        lent.held_mut().copy_from_slice(these);
        lent.expected.clone_from(&lent.whole);
        lent
    }

    pub fn held(&self) -> &[T] {
        &self.whole[GUARD..self.whole.len() - GUARD]
    }

    pub fn held_mut(&mut self) -> &mut [T] {
        let end = self.whole.len() - GUARD;
        &mut self.whole[GUARD..end]
    }

    /// The call must put these at the front.
    pub fn expect(&mut self, these: &[T]) {
        self.expected[GUARD..GUARD + these.len()].copy_from_slice(these);
    }

    /// The call may put anything in so many places at the front.
    pub fn leave_free(&mut self, places: usize) {
        self.free = places;
    }
}

/// A buffer of whatever numbers, when the call has returned.
pub trait Returned {
    /// What is not as it must be, if anything is.
    fn difference(&self) -> Option<String>;
    /// The buffer in a report, as it must be after the call.
    fn describe(&self) -> String;
}

impl<T: PartialEq + Display> Returned for Lent<T> {
    fn difference(&self) -> Option<String> {
        let judged = |at: &usize| *at < GUARD || *at >= GUARD + self.free;
        let at = (0..self.whole.len()).filter(judged).find(|&at| self.whole[at] != self.expected[at])?;
        let length = self.whole.len() - 2 * GUARD;
        let place = match at as i64 - GUARD as i64 {
            before if before < 0 => format!("{} before its first", -before),
            past if past >= length as i64 => format!("{} past its last", past - length as i64 + 1),
            inside => format!("{inside} of {length}"),
        };
        Some(format!("buffer {}, place {place}: {}, expected {}", self.name, self.whole[at], self.expected[at]))
    }

    fn describe(&self) -> String {
        let held = &self.expected[GUARD..self.expected.len() - GUARD];
        let mut line = format!("  {}, length {}:", self.name, held.len());
        for number in held.iter().take(SHOWN) {
            let _ = write!(line, " {number}");
        }
        if held.len() > SHOWN {
            line.push_str(" ..");
        }
        line
    }
}
