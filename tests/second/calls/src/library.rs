//! The proved library through its C interface.

use crate::{Calls, Edition, Gate, Limits, Sets, Table};
#[cfg(not(feature = "before_settings"))]
use grades::{compile_with, forecast_with};
#[cfg(feature = "before_settings")]
use {no_such_call as compile_with, no_such_call as forecast_with};

#[cfg(feature = "before_settings")]
fn no_such_call(_: &[u8], _: &[u8], _: &[u8], _: u8, _: &mut [u8], _: &mut [u8]) -> u32 {
    panic!("this archive is from before there were settings")
}

pub struct Library;

impl Calls for Library {
    fn read(&self, file: &[u8], shape: &mut [u8], limits: Limits) -> u32 {
        grades::read(file, shape, limits.lower, limits.upper)
    }

    fn convert(&self, from: Edition, file: &[u8], out: &mut [u8]) -> u32 {
        match from {
            Edition::Limits => grades::to_sets(file, out),
            Edition::Sets => grades::from_sets(file, out),
        }
    }

    fn join_first(&self, gate: Gate, table: Table, sets: Sets, limits: Limits) -> u32 {
        let (Table { shape, lower, upper }, Sets { s, t }) = (table, sets);
        match gate {
            Gate::Min => grades::join_min_first(shape, lower, upper, s, t, limits.lower, limits.upper),
            Gate::Max => grades::join_max_first(shape, lower, upper, s, t, limits.lower, limits.upper),
        }
    }

    fn join_second(&self, gate: Gate, table: Table, sets: Sets, first: &[u8], limits: Limits) -> u32 {
        let (Table { shape, lower, upper }, Sets { s, t }) = (table, sets);
        match gate {
            Gate::Min => grades::join_min_second(shape, lower, upper, s, t, first, limits.lower, limits.upper),
            Gate::Max => grades::join_max_second(shape, lower, upper, s, t, first, limits.lower, limits.upper),
        }
    }

    fn compile(&self, table: Table, work: &mut [u8], network: &mut [u8]) -> u32 {
        grades::compile(table.shape, table.lower, table.upper, work, network)
    }

    fn forecast(&self, table: Table, work: &mut [u8], depth: &mut [u8]) -> u32 {
        grades::forecast(table.shape, table.lower, table.upper, work, depth)
    }

    fn compile_with(&self, table: Table, settings: u8, work: &mut [u8], network: &mut [u8]) -> u32 {
        compile_with(table.shape, table.lower, table.upper, settings, work, network)
    }

    fn forecast_with(&self, table: Table, settings: u8, work: &mut [u8], depth: &mut [u8]) -> u32 {
        forecast_with(table.shape, table.lower, table.upper, settings, work, depth)
    }

    fn check(&self, network: &[u8], table: Table, work: &mut [u8]) -> u32 {
        grades::check(network, table.shape, table.lower, table.upper, work)
    }

    fn evaluate(&self, network: &[u8], shape: &[u8], work: &mut [u8], cell: u32) -> u32 {
        grades::evaluate(network, shape, work, cell)
    }

    fn evaluate_each(&self, network: &[u8], shape: &[u8], cells: &[u16], grades: &mut [u8], work: &mut [u8]) -> u32 {
        grades::evaluate_each(network, shape, cells, grades, work)
    }
}
