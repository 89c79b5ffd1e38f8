//! What a run compares.

use crate::editions;
use crate::networks::{some_network, with_ceilings, with_one_ceiling, with_other_ceilings, with_other_contents};
use crate::random::Random;
use crate::session::{Block, Join, Outcome, Session, compile_rooms};
use crate::tables::{all_tables, cardinality_lists, damage, joined_table, some_table, sparse_table, ungrouped_table};
use calls::tables::{OwnedTable, with_most_stages};
use calls::{Edition, Gate, Sets};

const GATES: [Gate; 2] = [Gate::Max, Gate::Min];
/// Values that a byte is changed to, beside its neighbours and noise.
const WRONG: [u8; 9] = [0, 1, 2, 3, 4, 8, 9, 16, 255];
/// How many numbers a list has: none, one, some, or several hundred.
const LISTED: [usize; 4] = [0, 1, 9, 400];

/// What no seed decides: everything that the tiny shapes have, the tables with most stages, and every set of grades.
pub fn same(session: &mut Session) -> Outcome<()> {
    for (cards, grades) in [(&[2, 2][..], 2), (&[2, 2], 3), (&[2, 3], 2), (&[2, 2, 2], 2)] {
        for table in all_tables(cards, grades) {
            whole_table(session, &table)?;
        }
    }
    for (_, table) in with_most_stages() {
        whole_table(session, &table)?;
    }
    editions::every_cell(session)
}

/// A round of cases that the session's seed decides.
pub fn round(session: &mut Session) -> Outcome<()> {
    every_shape(session)?;
    damaged_files(session)?;
    damaged_networks(session)?;
    lent_lengths(session)?;
    lent_shapes_and_limits(session)?;
    lent_sets(session)?;
    foreign_networks(session)?;
    every_pair_of_sets(session)?;
    weak_joins(session)?;
    ties(session)
}

/// Every list of cardinalities, rising and falling, each with a table.
fn every_shape(session: &mut Session) -> Outcome<()> {
    for rising in cardinality_lists() {
        let falling: Vec<u8> = rising.iter().rev().copied().collect();
        let both = [rising.clone(), falling];
        for cards in &both[..if both[0] == both[1] { 1 } else { 2 }] {
            let grades = 2 + session.random.below(15) as u8;
            let table = some_table(cards, grades, &mut session.random);
            whole_table(session, &table)?;
            for edition in Edition::BOTH {
                let sound = table.file_of(edition, || session.random.once_in(2));
                for _ in 0..8 {
                    let damaged = damage(&sound, &mut session.random);
                    session.try_file(&damaged)?;
                }
            }
        }
    }
    Ok(())
}

/// Its file, with and without its don't-cares and in both editions, its network, foretold and compiled, and its joins, in
/// buffers that are now and then longer than asked.
fn whole_table(session: &mut Session, table: &OwnedTable) -> Outcome<()> {
    let cells = table.cells();
    let read_rooms = [10, cells, cells].map(|asked| longer(asked, &mut session.random));
    let rooms = compile_rooms(cells).map(|asked| longer(asked, &mut session.random));
    let bytes = table.file(|| session.random.once_in(2));
    session.read_back(&bytes, read_rooms, table)?;
    let (sparse, held) = table.without_dont_cares();
    session.read_back(&sparse, read_rooms, &held)?;
    session.convert_both_ways(&bytes)?;
    session.convert_both_ways(&sparse)?;
    editions::both_files(session, table)?;
    let network = session.compile(table, rooms)?.unwrap_or_default();
    let work = network.len() / 16 + session.random.below(3);
    session.check(&network, table, work)?;
    for number in 0..cells.min(8) {
        let cell = if cells <= 8 { number } else { session.random.below(cells) };
        session.evaluate(&network, &table.shape, work, cell as u32)?;
    }
    evaluate_lists(session, &network, &table.shape, work, cells)?;
    // As it was compiled before records had ceilings; and, since there are too many tiny tables, of others alone, with more
    // that are not its own.
    session.check(&with_one_ceiling(&network, 0), table, work)?;
    if cells > 8 {
        let others = with_other_ceilings(&network, &table.shape, &mut session.random);
        run_each(session, &others, table, work)?;
    }
    for (s, t) in some_sets(table.shape[0] as usize, &mut session.random) {
        for gate in GATES {
            both_blocks(session, table, Join { gate, s, t })?;
        }
    }
    Ok(())
}

fn longer(asked: usize, random: &mut Random) -> usize {
    asked + random.pick(&[0, 0, 0, 1, 17, 1000])
}

/// Evaluates a network at lists of numbers, for a shape of so many cells, each into a buffer of grades that is now and
/// then longer than asked.
fn evaluate_lists(session: &mut Session, network: &[u8], shape: &[u8], work: usize, cells: usize) -> Outcome<()> {
    for length in LISTED {
        let list = some_list(cells, length, &mut session.random);
        let grades = longer(length, &mut session.random);
        session.evaluate_each(network, shape, &list, [grades, work])?;
    }
    Ok(())
}

/// A list of this length: numbers of cells, of cells that are in it already, and numbers that no cell has.
fn some_list(cells: usize, length: usize, random: &mut Random) -> Vec<u16> {
    let mut list: Vec<u16> = vec![];
    while list.len() < length {
        let number = match random.below(8) {
            0 => random.pick(&[cells, cells + 1, 256, 1023, 1024, 65_535]) as u16,
            1 => random.below(65_536) as u16,
            2 | 3 if !list.is_empty() => random.pick(&list),
            _ => random.below(cells) as u16,
        };
        list.push(number);
    }
    list
}

/// All pairs of sets of so many conditions that are disjoint and not empty.
fn all_sets(conditions: usize) -> Vec<(u8, u8)> {
    let mut pairs = vec![(0u8, 0u8)];
    for condition in 0..conditions {
        let bit = 1 << condition;
        pairs = pairs.into_iter().flat_map(|(s, t)| [(s, t), (s | bit, t), (s, t | bit)]).collect();
    }
    pairs.retain(|&(s, t)| s != 0 && t != 0);
    pairs
}

/// All pairs of sets of up to three conditions, a few of more.
fn some_sets(conditions: usize, random: &mut Random) -> Vec<(u8, u8)> {
    let mut pairs = all_sets(conditions);
    if conditions > 3 {
        // Small sets join more often.
        pairs.sort_by_key(|&(s, t)| (s | t).count_ones());
        let small = pairs.len() / 8 + 1;
        pairs = [small, small, pairs.len()].map(|most| pairs[random.below(most)]).to_vec();
    }
    pairs
}

/// The first block, and the second for first blocks that are sound, and for some that are not.
fn both_blocks(session: &mut Session, table: &OwnedTable, join: Join) -> Outcome<()> {
    let rooms = [table.cells(); 2];
    let Some(block) = session.join(table, join, None, rooms)? else {
        session.join(table, join, Some(&table.lower), rooms)?;
        return Ok(());
    };
    let [clamped, changed] = clamped_and_changed(&block, table.shape[9], &mut session.random);
    let [lower, upper] = block;
    for first in [lower, upper, clamped, changed, table.lower.clone()] {
        session.join(table, join, Some(&first), rooms)?;
    }
    Ok(())
}

/// A first block that is one grade as far as its limits let it be, and the same with a cell changed.
fn clamped_and_changed([lower, upper]: &Block, grades: u8, random: &mut Random) -> [Vec<u8>; 2] {
    let between = random.byte() % grades;
    let clamped: Vec<u8> = lower.iter().zip(upper).map(|(lower, upper)| between.clamp(*lower, *upper)).collect();
    let mut changed = clamped.clone();
    let cell = random.below(changed.len());
    changed[cell] = random.pick(&[0, grades - 1, grades, 255, lower[cell], upper[cell]]);
    [clamped, changed]
}

/// Values to try at a byte, none that it has.
fn wrong_values(byte: u8, random: &mut Random) -> Vec<u8> {
    let mut values = WRONG.to_vec();
    values.extend([byte.wrapping_add(1), byte.wrapping_sub(1), random.byte()]);
    values.sort();
    values.dedup();
    values.retain(|&value| value != byte);
    values
}

fn small_tables(random: &mut Random) -> Vec<OwnedTable> {
    let parity = OwnedTable::by_rule(&[2, 2, 2], 2, |values| [(0, 0), (1, 1)][values.iter().sum::<u8>() as usize % 2]);
    let mut tables = vec![parity];
    for (cards, grades) in [(&[][..], 4), (&[3], 5), (&[2, 3], 3), (&[8, 2], 16), (&[3, 2, 2], 4), (&[2, 2, 2, 2], 3)] {
        tables.push(some_table(cards, grades, random));
    }
    tables
}

fn damaged_files(session: &mut Session) -> Outcome<()> {
    for table in small_tables(&mut session.random) {
        for edition in Edition::BOTH {
            let sound = table.file_of(edition, || session.random.once_in(2));
            damaged_file(session, &sound)?;
            editions::faulty_cells(session, &table, edition)?;
        }
        editions::exchanged_bytes(session, &table)?;
    }
    large_files(session)
}

/// A file with each of its bytes changed, cut off everywhere, and with a record left out, repeated or moved.
fn damaged_file(session: &mut Session, sound: &[u8]) -> Outcome<()> {
    for at in 0..sound.len() {
        for value in wrong_values(sound[at], &mut session.random) {
            let mut file = sound.to_vec();
            file[at] = value;
            session.try_file(&file)?;
        }
    }
    for length in 0..sound.len() {
        session.try_file(&sound[..length])?;
    }
    let records: Vec<&[u8]> = sound.chunks(16).collect();
    for one in 0..records.len() {
        session.try_file(&[&records[..one], &records[one + 1..]].concat().concat())?;
        for two in 0..=records.len() {
            let mut moved = records.clone();
            moved.insert(two, records[one]);
            session.try_file(&moved.concat())?;
            moved.remove(if two <= one { one + 1 } else { one });
            session.try_file(&moved.concat())?;
        }
    }
    Ok(())
}

/// Files at the limits of length and shape, and random damage to files of any size.
fn large_files(session: &mut Session) -> Outcome<()> {
    let condition = |number: usize, card: u8| [&[1, number as u8, card][..], &[0; 13]].concat();
    let grades = [&[2, 2][..], &[0; 14]].concat();
    for cards in
        [&[8, 8, 8, 2][..], &[8, 8, 8, 3], &[2; 8], &[2; 9], &[8, 2, 2, 2, 2, 2, 2, 2], &[7, 7, 7, 3], &[4; 5], &[4; 6]]
    {
        let head: Vec<u8> = cards.iter().enumerate().flat_map(|(number, &card)| condition(number, card)).collect();
        session.try_file(&[head, grades.clone()].concat())?;
    }
    for cards in [&[2, 2, 2, 2, 2, 2, 2, 8][..], &[8, 8, 8, 2], &[5, 5, 5, 5]] {
        let table = OwnedTable::by_rule(cards, 3, |_| (1, 2));
        for edition in Edition::BOTH {
            let sound = table.file_of(edition, || session.random.once_in(2));
            session.try_file(&sound)?;
            for more in [1, 16, 32] {
                session.try_file(&[sound.clone(), vec![0; more]].concat())?;
                session.try_file(&[sound.clone(), sound[sound.len() - more.min(16)..].to_vec()].concat())?;
            }
            for _ in 0..200 {
                let damaged = damage(&sound, &mut session.random);
                session.try_file(&damaged)?;
            }
        }
    }
    session.try_file(&[0; 16_528 + 16])
}

/// A network evaluated at a cell and at lists, and checked, with a work buffer of this length.
fn run_network(session: &mut Session, network: &[u8], table: &OwnedTable, work: usize) -> Outcome<()> {
    let cell = session.random.below(table.cells()) as u32;
    session.evaluate(network, &table.shape, work, cell)?;
    evaluate_lists(session, network, &table.shape, work, table.cells())?;
    session.check(network, table, work)
}

/// The same of many networks: one cell, and one list, which may have a number that no cell has.
fn run_each(session: &mut Session, networks: &[Vec<u8>], table: &OwnedTable, work: usize) -> Outcome<()> {
    for network in networks {
        let [cell, listed] = [0, 1].map(|more| session.random.below(table.cells() + more));
        session.evaluate(network, &table.shape, work, cell as u32)?;
        session.evaluate_each(network, &table.shape, &[listed as u16], [1, work])?;
        session.check(network, table, work)?;
    }
    Ok(())
}

/// Every byte of a network changed, with the ceilings as they were and filled in anew; other ceilings; every front part.
fn damaged_networks(session: &mut Session) -> Outcome<()> {
    for table in small_tables(&mut session.random) {
        let cells = table.cells();
        let sound = session.compile(&table, compile_rooms(cells))?.unwrap_or_default();
        let count = sound.len() / 16;
        for at in 0..sound.len() {
            for value in wrong_values(sound[at], &mut session.random).into_iter().chain([(at / 16) as u8]) {
                let mut network = sound.clone();
                network[at] = value;
                run_network(session, &network, &table, count)?;
                // Else a change that asks for another ceiling would never be seen in a network that is accepted.
                let filled = with_ceilings(&network, &table.shape);
                if filled != network && filled != sound {
                    run_network(session, &filled, &table, count)?;
                }
            }
        }
        let others = with_other_ceilings(&sound, &table.shape, &mut session.random);
        run_each(session, &others, &table, count)?;
        for length in 0..sound.len() {
            session.evaluate(&sound[..length], &table.shape, count, 0)?;
            evaluate_lists(session, &sound[..length], &table.shape, count, cells)?;
            session.check(&sound[..length], &table, count)?;
        }
        for cell in [cells - 1, cells, cells + 1, 1024, 65_536, u32::MAX as usize] {
            session.evaluate(&sound, &table.shape, count, cell as u32)?;
        }
        // Every number there is: one more than such a number can count.
        let every: Vec<u16> = (0..=u16::MAX).collect();
        session.evaluate_each(&sound, &table.shape, &every, [every.len(), count])?;
    }
    Ok(())
}

/// Lengths to try where so many bytes are asked for.
fn around(asked: usize) -> [usize; 4] {
    [0, asked.saturating_sub(1), asked, asked + 1]
}

/// The same for each of three buffers, the others being as asked; which it is, and all three lengths.
fn around_each(asked: [usize; 3]) -> impl Iterator<Item = (usize, [usize; 3])> {
    let rooms = move |at: usize, room: usize| [0, 1, 2].map(|other| if other == at { room } else { asked[other] });
    (0..3).flat_map(move |at| around(asked[at]).map(|room| (at, rooms(at, room))))
}

/// Each buffer of each call with no byte, one byte too few, as many as asked, and one more.
fn lent_lengths(session: &mut Session) -> Outcome<()> {
    for cards in [&[][..], &[2], &[2, 2], &[3, 2], &[2, 2, 2], &[8, 8], &[5, 5, 5], &[8, 8, 8, 2], &[2; 8]] {
        // A table that joins, so that every call gets as far as its last row.
        let table = OwnedTable::by_rule(cards, 4, |values| if values.contains(&1) { (2, 3) } else { (1, 1) });
        let cells = table.cells();
        let bytes = table.file(|| session.random.once_in(2));
        let join = Join { gate: Gate::Max, s: 1, t: 2 };
        let first = session.join(&table, join, None, [cells; 2])?.map_or(vec![0; cells], |[lower, _]| lower);
        let network = session.compile(&table, compile_rooms(cells))?.unwrap_or_default();
        let count = network.len() / 16;
        let resized = |bytes: &[u8], length: usize| {
            let mut bytes = bytes.to_vec();
            bytes.resize(length, 1);
            bytes
        };
        session.convert_both_ways(&bytes)?;
        for (buffer, rooms) in around_each([10, cells, cells]) {
            session.read(&bytes, rooms)?;
            let mut short = table.clone();
            let lent = [&mut short.shape, &mut short.lower, &mut short.upper];
            *lent[buffer] = resized([&table.shape, &table.lower, &table.upper][buffer], rooms[buffer]);
            for gate in GATES {
                let join = Join { gate, ..join };
                session.join(&short, join, None, [cells; 2])?;
                session.join(&short, join, Some(&first), [cells; 2])?;
            }
            session.compile(&short, compile_rooms(cells))?;
            session.check(&network, &short, count)?;
            session.evaluate(&network, &short.shape, count, 0)?;
            evaluate_lists(session, &network, &short.shape, count, cells)?;
        }
        for room in around(cells) {
            for gate in GATES {
                let join = Join { gate, ..join };
                for rooms in [[room, cells], [cells, room]] {
                    session.join(&table, join, None, rooms)?;
                    session.join(&table, join, Some(&first), rooms)?;
                }
                session.join(&table, join, Some(&resized(&first, room)), [cells; 2])?;
            }
        }
        for (_, rooms) in around_each(compile_rooms(cells)) {
            session.compile(&table, rooms)?;
        }
        for work in around(count) {
            session.check(&network, &table, work)?;
            session.evaluate(&network, &table.shape, work, 0)?;
        }
        lent_lists(session, &network, &table)?;
    }
    Ok(())
}

/// Lists with every length of the two buffers that are written to, with a faulty shape or network, and with several of
/// these faults at once.
fn lent_lists(session: &mut Session, network: &[u8], table: &OwnedTable) -> Outcome<()> {
    // As long as the sound ones, so that the lengths asked for are the same.
    let (no_shape, no_network) = ([255; 10], vec![255; network.len()]);
    for length in LISTED {
        let list = some_list(table.cells(), length, &mut session.random);
        for shape in [&table.shape[..], &no_shape] {
            for network in [network, &no_network] {
                for grades in around(length) {
                    for work in around(network.len() / 16) {
                        session.evaluate_each(network, shape, &list, [grades, work])?;
                    }
                }
            }
        }
    }
    Ok(())
}

/// Every call with every byte of a shape changed to every value, and with limits that are wrong at one cell.
fn lent_shapes_and_limits(session: &mut Session) -> Outcome<()> {
    let sound = some_table(&[2, 3], 3, &mut session.random);
    let mut long = OwnedTable { shape: sound.shape.clone(), lower: vec![0; 64], upper: vec![1; 64] };
    long.lower[..6].copy_from_slice(&sound.lower);
    long.upper[..6].copy_from_slice(&sound.upper);
    let network = session.compile(&sound, compile_rooms(6))?.unwrap_or_default();
    for place in 0..10 {
        for value in 0..=255 {
            long.shape[place] = value;
            every_call(session, &long, &network)?;
        }
        long.shape[place] = sound.shape[place];
    }
    for cell in 0..8 {
        for (lower, upper) in [(1, 0), (2, 1), (0, 3), (3, 3), (0, 255), (255, 255), (255, 0), (2, 2)] {
            let mut wrong = long.clone();
            (wrong.lower[cell], wrong.upper[cell]) = (lower, upper);
            every_call(session, &wrong, &network)?;
        }
    }
    Ok(())
}

fn every_call(session: &mut Session, table: &OwnedTable, network: &[u8]) -> Outcome<()> {
    let rooms = [table.cells(); 2];
    let join = Join { gate: session.random.pick(&GATES), s: 1, t: 2 };
    session.join(table, join, None, rooms)?;
    session.join(table, join, Some(&table.lower), rooms)?;
    let [work, room, _] = compile_rooms(table.cells());
    // A depth buffer that is too short comes before limits that are wrong, and after a shape that is.
    let depth = session.random.below(4);
    session.compile(table, [work, room, depth])?;
    session.check(network, table, network.len() / 16)?;
    let cell = session.random.below(8) as u32;
    session.evaluate(network, &table.shape, network.len() / 16, cell)?;
    evaluate_lists(session, network, &table.shape, network.len() / 16, 8)
}

/// Sets that overlap, are empty, or name conditions that are not there.
fn lent_sets(session: &mut Session) -> Outcome<()> {
    for cards in [&[][..], &[4], &[2, 2], &[2, 3, 2], &[2, 2, 2, 2], &[2; 8]] {
        let table = some_table(cards, 4, &mut session.random);
        for s in 0..=255 {
            for t in [0, 1, 2, 3, 6, 16, 128, session.random.byte(), !s] {
                let join = Join { gate: session.random.pick(&GATES), s, t };
                session.join(&table, join, None, [table.cells(); 2])?;
                session.join(&table, join, Some(&table.lower), [table.cells(); 2])?;
            }
        }
    }
    Ok(())
}

/// Networks that no compile made: any well-formed records, up to the most and one more; with other contents, where the
/// ceilings may happen to be right or are filled in anew, and with other ceilings.
fn foreign_networks(session: &mut Session) -> Outcome<()> {
    for turn in 0..300 {
        let cards: &[u8] = session.random.pick(&[&[][..], &[5], &[2, 2], &[3, 2, 4], &[8, 8], &[2; 8], &[8, 8, 8, 2]]);
        let grades = 2 + session.random.below(15) as u8;
        let table = some_table(cards, grades, &mut session.random);
        let records = match turn {
            0 => 4096,
            1 => 4097,
            _ => 1 + session.random.below(60),
        };
        let network = some_network(&table.shape, records, &mut session.random);
        session.check(&network, &table, records)?;
        session.check(&network, &OwnedTable::by_rule(cards, grades, |_| (0, grades - 1)), records)?;
        for _ in 0..10 {
            let cell = session.random.below(table.cells() + 1);
            session.evaluate(&network, &table.shape, records, cell as u32)?;
        }
        evaluate_lists(session, &network, &table.shape, records, table.cells())?;
        if records > 4096 {
            continue;
        }
        for _ in 0..8 {
            let other = with_other_contents(&network, &table.shape, &mut session.random);
            let filled = with_ceilings(&other, &table.shape);
            run_each(session, &[other, filled], &table, records)?;
        }
        let others = with_other_ceilings(&network, &table.shape, &mut session.random);
        run_each(session, &others, &table, records)?;
    }
    Ok(())
}

/// Every pair of sets of eight conditions, and of fewer that have every number of values.
fn every_pair_of_sets(session: &mut Session) -> Outcome<()> {
    let fewer = [&[2, 2, 3, 2, 2, 2, 2][..], &[3, 2, 2, 4, 2, 2], &[2, 7, 3, 2, 6], &[3, 8, 2, 4], &[5, 7, 6], &[8, 3]];
    for cards in [&[2; 8][..]].into_iter().chain(fewer) {
        for (s, t) in all_sets(cards.len()) {
            for gate in GATES {
                blocks_that_join(session, cards, Join { gate, s, t })?;
            }
        }
    }
    Ok(())
}

/// Both blocks of a table that joins, into buffers that are now and then longer than asked; the second for a first block
/// that is sound, and now and then for one that is changed.
fn blocks_that_join(session: &mut Session, cards: &[u8], join: Join) -> Outcome<()> {
    let Join { gate, s, t } = join;
    let table = joined_table(cards, gate, Sets { s, t }, &mut session.random);
    let rooms = [table.cells(); 2].map(|asked| longer(asked, &mut session.random));
    let Some(block) = session.join(&table, join, None, rooms)? else {
        return Err(format!("case {}: {join:?} does not exist: {table:?}", session.cases));
    };
    let firsts = clamped_and_changed(&block, table.shape[9], &mut session.random);
    let tried = if session.random.once_in(4) { 2 } else { 1 };
    for first in &firsts[..tried] {
        session.join(&table, join, Some(first), rooms)?;
    }
    Ok(())
}

/// Tables in which many stages have no grouping: with every number of grades, of few cells and of several.
fn weak_joins(session: &mut Session) -> Outcome<()> {
    let few = [&[2, 2][..], &[2, 3], &[3, 2], &[2, 2, 2], &[3, 3], &[2, 3, 2], &[4, 4], &[2, 2, 2, 2]];
    let several = [&[3, 2, 3, 2][..], &[8, 2, 2], &[2, 2, 8], &[2, 2, 2, 2, 2], &[4, 2, 2, 3]];
    for grades in 2..=16 {
        for (shapes, times) in [(&few[..], 40), (&several, 4)] {
            for cards in shapes {
                for _ in 0..times {
                    let table = ungrouped_table(cards, grades, &mut session.random);
                    network_alone(session, &table)?;
                }
            }
        }
    }
    Ok(())
}

/// Tables in which many stages have a grouping by either gate. It takes four conditions for two that have as many in their
/// sets, but not as evenly.
fn ties(session: &mut Session) -> Outcome<()> {
    for (cards, times) in [(&[2, 2, 2, 2][..], 400), (&[2, 3, 2, 3], 200), (&[2; 5], 400), (&[2, 3, 2, 2, 3], 100)] {
        for _ in 0..times {
            let grades = session.random.pick(&[2, 3, 4, 8, 16]);
            let table = sparse_table(cards, grades, &mut session.random);
            network_alone(session, &table)?;
        }
    }
    Ok(())
}

/// A table's network, foretold, compiled and checked.
fn network_alone(session: &mut Session, table: &OwnedTable) -> Outcome<()> {
    let network = session.compile(table, compile_rooms(table.cells()))?.unwrap_or_default();
    session.check(&network, table, network.len() / 16)
}
