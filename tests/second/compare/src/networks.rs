//! Networks to compare on: records that no compile made, other contents, and ceilings that are not theirs.

use crate::random::Random;
use oracle::network;

/// The byte of a record that has its ceiling.
pub const CEILING: usize = 2;

/// The number of a record that a gate names, as it stands at this byte of the gate's record.
fn named(record: &[u8], at: usize) -> usize {
    u16::from_le_bytes([record[at], record[at + 1]]) as usize
}

/// Gives a gate a record to name, at this byte of its own.
fn name(record: &mut [u8], at: usize, number: usize) {
    record[at..at + 2].copy_from_slice(&(number as u16).to_le_bytes());
}

/// Fills in the ceilings of all records from one on, each by the bytes of the record itself and of those before it. Where
/// they are so faulty that there is none, byte 2 stays as it is.
pub fn fill_ceilings(network: &mut [u8], shape: &[u8], from: usize) {
    for number in from..network.len() / 16 {
        let (before, rest) = network.split_at_mut(16 * number);
        let record = &mut rest[..16];
        let input = |at: usize| before.get(16 * named(record, at) + CEILING).copied();
        let ceiling = match record[0] {
            0 => Some(record[1]),
            1 => {
                let card = shape[1..9].get(record[1] as usize).copied().unwrap_or(0);
                record[8..].iter().take(card as usize).max().copied()
            }
            2 => input(4).zip(input(6)).map(|(left, right)| left.min(right)),
            3 => input(4).zip(input(6)).map(|(left, right)| left.max(right)),
            _ => None,
        };
        record[CEILING] = ceiling.unwrap_or(record[CEILING]);
    }
}

/// The network with its ceilings filled in, whatever they were.
pub fn with_ceilings(network: &[u8], shape: &[u8]) -> Vec<u8> {
    let mut filled = network.to_vec();
    fill_ceilings(&mut filled, shape, 0);
    filled
}

/// The network with this as the ceiling of every record: 0 is what all had before there were any.
pub fn with_one_ceiling(network: &[u8], ceiling: u8) -> Vec<u8> {
    let mut other = network.to_vec();
    other.chunks_mut(16).for_each(|record| record[CEILING] = ceiling);
    other
}

/// So many well-formed records.
pub fn some_network(shape: &[u8], records: usize, random: &mut Random) -> Vec<u8> {
    let (cards, grades) = (&shape[1..=shape[0] as usize], shape[9]);
    let mut network = vec![];
    for number in 0..records {
        let mut record = [0; 16];
        match random.below(if number == 0 { 2 } else { 6 }) {
            0 => record[1] = random.byte() % grades,
            1 if !cards.is_empty() => {
                let condition = random.below(cards.len());
                record[..2].copy_from_slice(&[1, condition as u8]);
                let held = record[8..].iter_mut().take(cards[condition] as usize);
                held.for_each(|grade| *grade = random.byte() % grades);
            }
            1 => record[1] = grades - 1,
            _ => {
                record[0] = random.pick(&[2, 3]);
                for at in [4, 6] {
                    name(&mut record, at, random.below(number));
                }
            }
        }
        network.extend(record);
    }
    with_ceilings(&network, shape)
}

/// A sound network with one record of other contents, and all ceilings as they were: a grade, an input of a gate, or which
/// gate it is.
pub fn with_other_contents(network: &[u8], shape: &[u8], random: &mut Random) -> Vec<u8> {
    let mut other = network.to_vec();
    let number = random.below(network.len() / 16);
    let record = &mut other[16 * number..][..16];
    let grade = random.byte() % shape[9];
    match record[0] {
        0 => record[1] = grade,
        1 => record[8 + random.below(shape[1 + record[1] as usize] as usize)] = grade,
        gate if random.once_in(2) => record[0] = 5 - gate,
        _ => name(record, random.pick(&[4, 6]), random.below(number)),
    }
    other
}

/// What is not the ceiling of a record of a sound network: its neighbours, ends, and what a slip would take for it. Of a
/// literal that is any of its grades, of a gate the ceiling that the other gate has.
fn wrong_ceilings(network: &[u8], number: usize, shape: &[u8]) -> Vec<u8> {
    let record = &network[16 * number..][..16];
    let (ceiling, grades) = (record[CEILING], shape[9]);
    let mut wrong = vec![0, ceiling + 1, ceiling.wrapping_sub(1), grades - 1, grades, 255];
    match record[0] {
        0 => {}
        1 => wrong.extend(&record[8..]),
        _ => wrong.extend([4, 6].map(|at| network[16 * named(record, at) + CEILING])),
    }
    wrong.sort();
    wrong.dedup();
    wrong.retain(|&other| other != ceiling);
    wrong
}

/// Records that are like one of a sound network, but for its ceiling or a byte that could be taken for it.
fn like(network: &[u8], number: usize, shape: &[u8]) -> Vec<[u8; 16]> {
    let record: [u8; 16] = network[16 * number..][..16].try_into().expect("sixteen bytes");
    let with = |bytes: &[(usize, u8)]| {
        let mut other = record;
        bytes.iter().for_each(|&(at, byte)| other[at] = byte);
        other
    };
    let ceiling = record[CEILING];
    let wrong = wrong_ceilings(network, number, shape).into_iter().map(|wrong| with(&[(CEILING, wrong)]));
    // The ceiling a byte further on, or there too.
    let moved = [with(&[(CEILING, 0), (3, ceiling)]), with(&[(3, ceiling)]), with(&[(3, 1)])];
    let mut others: Vec<[u8; 16]> = wrong.chain(moved).collect();
    if record[0] == 1 {
        // A grade past the literal's values, with and without a ceiling that counts it.
        let grade = shape[9] - 1;
        for past in 8 + shape[1 + record[1] as usize] as usize..16 {
            others.extend([with(&[(past, grade)]), with(&[(past, grade), (CEILING, grade)])]);
        }
    }
    others
}

/// A sound network with ceilings that are not its own: all of them, or those of a few records. Of the latter each is tried
/// alone, and with what the gates after it would then have.
pub fn with_other_ceilings(network: &[u8], shape: &[u8], random: &mut Random) -> Vec<Vec<u8>> {
    let mut others = [0, shape[9] - 1, 255].map(|ceiling| with_one_ceiling(network, ceiling)).to_vec();
    // The greatest grade that a record has at any cell is no more than its ceiling, and may be less.
    let mut reached = network.to_vec();
    let greatest = network::greatest(network, shape).expect("a sound network");
    reached.chunks_mut(16).zip(greatest).for_each(|(record, greatest)| record[CEILING] = greatest);
    others.push(reached);
    let records = network.len() / 16;
    for number in [0; 4].map(|_| random.below(records)).into_iter().chain([records - 1]) {
        for record in like(network, number, shape) {
            let mut other = network.to_vec();
            other[16 * number..][..16].copy_from_slice(&record);
            others.push(other.clone());
            fill_ceilings(&mut other, shape, number + 1);
            others.push(other);
        }
    }
    others.dedup();
    others.retain(|other| other != network);
    others
}
