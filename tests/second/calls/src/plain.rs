//! The same calls in plain safe Rust, for comparison of cost: a stage's table is packed, and each test of sets stops at
//! the first cell that refuses.

mod compile;
mod file;
mod grouping;
mod join;
mod network;
mod records;
mod shape;

use crate::{Calls, Edition, Gate, Limits, REFUSED, REFUSED_EVALUATION, Sets, Table};

/// A result, or the number of the refusal.
type Answer<T> = Result<T, u32>;

fn refuse_if(fault: bool, number: u32) -> Answer<()> {
    if fault { Err(number) } else { Ok(()) }
}

fn answer(base: u32, result: Answer<u32>) -> u32 {
    result.unwrap_or_else(|number| base + number)
}

pub struct Plain;

impl Calls for Plain {
    fn read(&self, bytes: &[u8], shape: &mut [u8], limits: Limits) -> u32 {
        answer(REFUSED, file::read(bytes, shape, limits))
    }

    fn convert(&self, from: Edition, bytes: &[u8], out: &mut [u8]) -> u32 {
        answer(REFUSED, file::convert(from, bytes, out))
    }

    fn join_first(&self, gate: Gate, table: Table, sets: Sets, limits: Limits) -> u32 {
        answer(REFUSED, join::join(gate, table, sets, None, limits))
    }

    fn join_second(&self, gate: Gate, table: Table, sets: Sets, first: &[u8], limits: Limits) -> u32 {
        answer(REFUSED, join::join(gate, table, sets, Some(first), limits))
    }

    fn compile(&self, table: Table, work: &mut [u8], network: &mut [u8]) -> u32 {
        self.compile_with(table, 0, work, network)
    }

    fn forecast(&self, table: Table, work: &mut [u8], depth: &mut [u8]) -> u32 {
        self.forecast_with(table, 0, work, depth)
    }

    fn compile_with(&self, table: Table, settings: u8, work: &mut [u8], network: &mut [u8]) -> u32 {
        answer(REFUSED, compile::compile(table, settings, work, network))
    }

    fn forecast_with(&self, table: Table, settings: u8, work: &mut [u8], depth: &mut [u8]) -> u32 {
        answer(REFUSED, compile::forecast(table, settings, work, depth))
    }

    fn check(&self, bytes: &[u8], table: Table, work: &mut [u8]) -> u32 {
        answer(REFUSED, network::check(bytes, table, work))
    }

    fn evaluate(&self, bytes: &[u8], shape: &[u8], work: &mut [u8], cell: u32) -> u32 {
        answer(REFUSED_EVALUATION, network::evaluate(bytes, shape, work, cell))
    }

    fn evaluate_each(&self, bytes: &[u8], shape: &[u8], cells: &[u16], grades: &mut [u8], work: &mut [u8]) -> u32 {
        answer(REFUSED, network::evaluate_each(bytes, shape, cells, grades, work))
    }
}
