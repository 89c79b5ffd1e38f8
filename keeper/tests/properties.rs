//! What holds of every file, on files that a seed decides.

mod common;

use common::{EXAMPLES, Random, example};
use keeper::library::{Edition, Network, Refusal, Table};
use keeper::{drawing, listing, names::Names, refusals, text};

/// A copy with some bytes changed, cut out or doubled.
fn damaged(random: &mut Random, bytes: &[u8]) -> Vec<u8> {
    let mut bytes = bytes.to_vec();
    for _ in 0..1 + random.below(3) {
        let (at, to) = (random.below(bytes.len() + 1), random.below(bytes.len() + 1));
        let (at, to) = (at.min(to), at.max(to));
        match random.below(6) {
            0 => drop(bytes.drain(at..to.min(at + 16))),
            1 => bytes.extend_from_within(at..to.min(at + 16)),
            _ if at < bytes.len() => bytes[at] = random.below(20) as u8 * [1, 13][random.below(2)],
            _ => {}
        }
    }
    bytes
}

/// Everything before the record at fault is accepted, with grades where there are none; the number is the library's.
fn table_fault(edition: Edition, file: &[u8], refusal: Refusal) {
    let fault = refusals::of_table(edition, file).unwrap();
    assert_eq!(fault.number, refusal.0);
    if let Some((record, bytes)) = fault.at {
        assert!(*bytes.end() < 16);
        let before = &file[..16 * record];
        let lent = [before, &[2, 16], &[0; 14]].concat();
        assert!(edition.read(before).is_ok() || edition.read(&lent).is_ok());
    }
}

#[test]
fn damaged_tables_are_judged() {
    let mut random = Random(5);
    let mut seen = [0; 14];
    for round in 0..20_000 {
        let file = if round % 3 == 0 { example("alarm.table") } else { random.table() };
        let (edition, file) = match round % 2 {
            0 => (Edition::Limits, file),
            _ => (Edition::Sets, Edition::Limits.convert(&file).unwrap()),
        };
        let file = damaged(&mut random, &file);
        match edition.read(&file) {
            Ok(_) => assert_eq!(refusals::of_table(edition, &file), None),
            Err(refusal) => {
                seen[refusal.0 as usize] += 1;
                table_fault(edition, &file, refusal);
            }
        }
    }
    assert!([1, 2, 3, 4, 5, 6, 13].iter().all(|&number| seen[number] > 10), "{seen:?}");
}

#[test]
fn damaged_networks_are_judged() {
    let mut random = Random(11);
    let mut refused = 0;
    for _ in 0..5_000 {
        let table = Table::read(&random.table()).unwrap();
        let network = damaged(&mut random, table.compile().unwrap().bytes());
        let fault = refusals::of_network(&network, table.shape());
        match Network::read(&network, table.shape()) {
            Ok(network) => {
                assert_eq!(fault, None);
                listing::list(&network, &Names::numbered(table.shape()));
                drawing::draw(&network, &Names::numbered(table.shape()), "room");
            }
            Err(refusal) => {
                refused += 1;
                let fault = fault.unwrap();
                assert_eq!(fault.number, refusal.0);
                let accepted = |record| Network::read(&network[..16 * record], table.shape()).is_ok();
                assert!(fault.at.is_none_or(|(record, _)| record == 0 || accepted(record)));
            }
        }
    }
    assert!(refused > 1_000, "{refused}");
}

#[test]
fn damaged_texts_are_taken_or_refused_by_line() {
    let mut random = Random(6);
    for round in 0..20_000 {
        let good = example(&format!("{}.txt", EXAMPLES[round % 3]));
        let bytes = damaged(&mut random, &good);
        let lines = bytes.iter().filter(|&&b| b == b'\n').count() + 1;
        match text::parse(&bytes) {
            Ok(text) => assert!(Table::read(&text.file).is_ok_and(|table| text.names.misfit(table.shape()).is_none())),
            Err(faults) => assert!(!faults.is_empty() && faults.iter().all(|fault| fault.line <= lines)),
        }
    }
}
