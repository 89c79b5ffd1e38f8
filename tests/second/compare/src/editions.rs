//! What a run compares of conversions beside the files that it reads: every set, both files of a table, faulty cells.

use crate::session::{Outcome, Session};
use calls::Edition;
use calls::tables::OwnedTable;

/// A file of one cell, whose record begins with these bytes.
fn one_cell(grades: u8, head: [u8; 4]) -> [u8; 32] {
    let mut file = [0; 32];
    file[..2].copy_from_slice(&[2, grades]);
    file[16..20].copy_from_slice(&head);
    file
}

/// For every number of grades, every set that two bytes can hold, and all limits up to some that are no grades.
pub fn every_cell(session: &mut Session) -> Outcome<()> {
    for grades in 2..=16 {
        for set in 0..=u16::MAX {
            let [low, high] = set.to_le_bytes();
            session.convert(Edition::Sets, &one_cell(grades, [4, 0, low, high]), 32)?;
        }
        for lower in 0..20 {
            for upper in (0..20).chain([255]) {
                session.convert(Edition::Limits, &one_cell(grades, [3, lower, upper, 0]), 32)?;
            }
        }
    }
    Ok(())
}

/// Converts the files of a table that list every cell: each must become the other.
pub fn both_files(session: &mut Session, table: &OwnedTable) -> Outcome<()> {
    for edition in Edition::BOTH {
        let [file, other] = [edition, edition.other()].map(|edition| table.file_of(edition, || true));
        if session.convert(edition, &file, file.len())? != Some(other) {
            return Err(format!("case {}: the file of {edition:?} becomes another: {table:?}", session.cases));
        }
    }
    Ok(())
}

/// What can be wrong with a cell's record, where there are so many grades: bytes, and where they are put.
fn faults(grades: u8) -> Vec<(usize, Vec<u8>)> {
    // A kind that there is not, or that the other edition has, with the bytes of this one or with its own.
    let kinds = [&[0][..], &[3], &[4], &[5], &[3, 0, 1, 0], &[4, 0, 3, 0]].map(|head| (0, head.to_vec()));
    // Bytes that must be zero in one edition or in both.
    let spare = [1, 3, 4, 5, 6, 7, 15].map(|at| (at, vec![1]));
    // No grade; one missing between two, and seven; the first grade that is not there, alone and with all below it; and
    // grades that only large shapes have.
    let first = 1u32 << grades;
    let sets =
        [0, 0b101, 0x8080, first, 2 * first - 1, 0xffff, 0x8000].map(|set| (2, (set as u16).to_le_bytes().to_vec()));
    // A lower grade above any upper one, a value that no condition has, and the cell that can only be the first.
    let others = [(1, vec![255]), (8, vec![8]), (8, vec![0; 8])];
    kinds.into_iter().chain(spare).chain(sets).chain(others).collect()
}

/// A file of an edition with every pair of faults, in one record or in two.
pub fn faulty_cells(session: &mut Session, table: &OwnedTable, edition: Edition) -> Outcome<()> {
    let sound = table.file_of(edition, || true);
    let faults = faults(table.shape[9]);
    for one in &faults {
        for two in &faults {
            let mut file = sound.clone();
            let mut cell = session.random.below(table.cells());
            for (at, bytes) in [one, two] {
                let record = 16 * (table.shape[0] as usize + 1 + cell);
                file[record + at..][..bytes.len()].copy_from_slice(bytes);
                if session.random.once_in(2) {
                    cell = session.random.below(table.cells());
                }
            }
            session.try_file(&file)?;
        }
    }
    Ok(())
}

/// A file of sets with the two bytes of every set exchanged.
pub fn exchanged_bytes(session: &mut Session, table: &OwnedTable) -> Outcome<()> {
    let mut file = table.file_of(Edition::Sets, || true);
    for record in file.chunks_mut(16).filter(|record| record[0] == 4) {
        record.swap(2, 3);
    }
    session.try_file(&file)
}
