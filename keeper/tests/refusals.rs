//! What is said of files that are refused: texts by line, tables, spreadsheets and networks by record and byte.

mod common;

use common::{Folder, example};
use keeper::library::{Edition, Table};
use keeper::refusals;

#[test]
fn texts_are_refused_by_line() {
    let folder = Folder::new("texts");
    let head = "condition rota on off\ncondition hour day night\ngrades none signed\n";
    let of_head = |cells: &str| format!("{head}{cells}");
    let nine: String = (0..9).map(|i| format!("condition c{i} a b\n")).collect();
    let three: String = ["a", "b", "c"].map(|name| format!("condition {name} 1 2 3 4 5 6 7 8\n")).concat();
    let cases: [(String, &str); 26] = [
        (String::new(), "there is no line of grades"),
        ("condition rota on off\n".into(), "there is no line of grades"),
        ("on none\ngrades none signed\n".into(), "line 1: \"on\" where condition or grades is due"),
        ("condition\ngrades a b\n".into(), "line 1: a condition without a name"),
        ("condition rota on\ngrades a b\n".into(), "line 1: 1 value, but 2 to 8 are allowed"),
        ("condition c 1 2 3 4 5 6 7 8 9\ngrades a b\n".into(), "line 1: 9 values, but 2 to 8 are allowed"),
        ("condition c on on\ngrades a b\n".into(), "line 1: value on twice"),
        ("condition c on *\ngrades a b\n".into(), "line 1: * cannot be the name of a value"),
        ("condition c a b\ncondition c a b\ngrades a b\n".into(), "line 2: condition c a second time"),
        (format!("{nine}grades a b\n"), "line 9: a ninth condition, but at most 8 are allowed"),
        ("grades none\n".into(), "line 1: 1 grade, but 2 to 16 are allowed"),
        (of_head("grades a b\n"), "line 4: grades a second time"),
        (of_head("condition door a b\n"), "line 4: a condition behind the grades"),
        (
            of_head("on none\n"),
            "line 4: 2 words, but 3 or 4 are wanted: rota, hour, the only grade or the least and the most",
        ),
        (of_head("on dusk none\n"), "line 4: condition hour has no value dusk; it has day, night"),
        (of_head("on day signd\n"), "line 4: there is no grade signd; there are none, signed"),
        (of_head("on day signed none\n"), "line 4: the least grade, signed, is above the most, none"),
        (of_head("on day none\n* day none\n"), "line 5: rota on, hour day: already in line 4"),
        (of_head("on day none # x\n\non day none"), "line 6: rota on, hour day: already in line 4"),
        (
            format!("{three}condition d x y z\ngrades 0 1\n"),
            "line 4: with 3 values there are 1,536 cells, but at most 1,024 are allowed",
        ),
        (
            "condition c a b\ngrades none some\na none more\nc some\n".into(),
            "line 3: there is no grade more; there are none, some\n\
             case.txt: line 4: condition c has no value c; it has a, b",
        ),
        (
            of_head("on day no\x1b[2Jne\n"),
            "line 4: a character that does not show, \\u{1b}: words stand apart by spaces or tabs",
        ),
        (
            "condition two\u{a0}words a b\ngrades a b\n".into(),
            "line 1: a character that does not show, \\u{a0}: words stand apart by spaces or tabs",
        ),
        (
            format!("grades{}\n", (0..300).map(|i| format!(" g{i}")).collect::<String>()),
            "line 1: 300 grades, but 2 to 16 are allowed",
        ),
        (
            of_head("on day none # the comment ends\ron night none\n"),
            "line 4: a character that does not show, \\u{d}: words stand apart by spaces or tabs",
        ),
        (
            (0..2_000).map(|i| format!("condition c{i} a b\n")).collect::<String>() + "grades a b\n",
            "line 9: a ninth condition, but at most 8 are allowed",
        ),
    ];
    for (text, what) in cases {
        folder.write("case.txt", text.as_bytes());
        folder.keeper(&["make", "case.txt", "-o", "case.table"]).is(1, "", &format!("case.txt: {what}\n"));
        assert_eq!(folder.names(), ["case.txt"]);
    }
    folder.write("case.txt", b"grades none sign\xe9\n");
    folder.keeper(&["make", "case.txt"]).is(1, "", "case.txt: line 1: not UTF-8\n");
}

#[test]
fn texts_of_other_editors_are_taken() {
    let folder = Folder::new("editors");
    folder.write("case.txt", "\u{feff}grades none some\r\nsome\r\n".as_bytes());
    folder.keeper(&["make", "case.txt", "-o", "case.table"]).is(0, "", "");
    folder.keeper(&["show", "case.table"]).is(0, "grades none some\nsome\n", "");
}

fn record(bytes: &[u8]) -> Vec<u8> {
    let mut record = bytes.to_vec();
    record.resize(16, 0);
    record
}

fn changed(file: &[u8], byte: usize, value: u8) -> Vec<u8> {
    let mut file = file.to_vec();
    file[byte] = value;
    file
}

/// Conditions with so many values, and grades.
fn conditions(values: &[u8]) -> Vec<u8> {
    values.iter().enumerate().flat_map(|(i, n)| record(&[1, i as u8, *n])).chain(record(&[2, 4])).collect()
}

/// What is refused in both editions alike, here with their cells.
fn in_both(file: &[u8]) -> Vec<(Vec<u8>, &'static str)> {
    let set = |byte: usize, value: u8| changed(file, byte, value);
    vec![
        (vec![], "the file is empty (refusal 1)"),
        (file[..129].to_vec(), "129 bytes: 8 records of 16 bytes and 1 more (refusal 1)"),
        (vec![3; 16 * 1034], "1,034 records, but at most 1,033 are allowed (refusal 1)"),
        (set(3, 7), "record 0, byte 3 (3 of the file): 7 where a condition record has 0 (refusal 2)"),
        (set(34, 7), "record 2, byte 2 (34 of the file): 7 where a grades record has 0 (refusal 2)"),
        (set(55, 7), "record 3, byte 7 (55 of the file): 7 where a cell record has 0 (refusal 2)"),
        (
            set(58, 1),
            "record 3, byte 10 (58 of the file): a value of condition 2, but there are 2 conditions (refusal 2)",
        ),
        (set(17, 2), "record 1, byte 1 (17 of the file): condition 2 where condition 1 is due (refusal 3)"),
        (file[..32].to_vec(), "there is no record of grades (refusal 3)"),
        (
            [&file[..32], &file[48..]].concat(),
            "record 2, byte 0 (32 of the file): a cell before the grades (refusal 3)",
        ),
        ([&file[..48], &file[32..]].concat(), "record 3, byte 0 (48 of the file): grades a second time (refusal 3)"),
        (
            [&file[..48], &file[..16]].concat(),
            "record 3, byte 0 (48 of the file): a condition behind the grades (refusal 3)",
        ),
        (set(18, 9), "record 1, byte 2 (18 of the file): 9 values, but 2 to 8 are allowed (refusal 4)"),
        (set(33, 1), "record 2, byte 1 (33 of the file): 1 grade, but 2 to 16 are allowed (refusal 4)"),
        (
            conditions(&[2; 9]),
            "record 8, byte 1 (129 of the file): a ninth condition, but at most 8 are allowed (refusal 4)",
        ),
        (
            conditions(&[8, 8, 8, 3]),
            "record 3, byte 2 (50 of the file): with 3 values there are 1,536 cells, but at most 1,024 are allowed \
             (refusal 4)",
        ),
        (
            conditions(&[8, 8, 8, 2, 2]),
            "record 4, byte 0 (64 of the file): a condition more, but the 4 before it have 1,024 cells, of at most \
             1,024 (refusal 4)",
        ),
        (set(57, 3), "record 3, byte 9 (57 of the file): value 3 of condition 1, which has 0 to 2 (refusal 6)"),
        (
            [&file[..64], &file[48..64]].concat(),
            "record 4, bytes 8 to 9 (72 to 73 of the file): the cell of record 3 a second time (refusal 6)",
        ),
        (
            [&file[..48], &file[64..80], &file[48..64]].concat(),
            "record 4, bytes 8 to 9 (72 to 73 of the file): a cell that comes before that of record 3: cells are in \
             the order of their numbers (refusal 6)",
        ),
    ]
}

#[test]
fn tables_are_refused_by_record_and_byte() {
    let folder = Folder::new("tables");
    let rota = example("rota.table");
    let set = |byte: usize, value: u8| changed(&rota, byte, value);
    let mut cases = in_both(&rota);
    cases.extend([
        (
            set(48, 5),
            "record 3, byte 0 (48 of the file): 5 is no kind of record; there are 1 (condition), 2 (grades) and 3 \
             (cell) (refusal 2)",
        ),
        (
            set(48, 4),
            "record 3, byte 0 (48 of the file): a cell of the spreadsheet's edition, 4; see keeper import (refusal 2)",
        ),
        (set(49, 2), "record 3, byte 1 (49 of the file): the least grade, 2, is above the most, 0 (refusal 5)"),
        (set(50, 3), "record 3, byte 2 (50 of the file): grade 3, but there are 0 to 2 (refusal 5)"),
    ]);
    for (file, what) in cases {
        folder.write("rota.table", &file);
        let refused = format!("rota.table: refused: {what}\n");
        for command in ["show", "compile", "list", "draw", "forecast"] {
            folder.keeper(&[command, "rota.table"]).is(1, "", &refused);
        }
    }
}

#[test]
fn spreadsheets_are_refused_by_record_and_byte() {
    let folder = Folder::new("spreadsheets");
    let rota = example("rota.spreadsheet");
    let set = |byte: usize, value: u8| changed(&rota, byte, value);
    let mut cases = in_both(&rota);
    cases.extend([
        (
            set(48, 5),
            "record 3, byte 0 (48 of the file): 5 is no kind of record; there are 1 (condition), 2 (grades) and 4 \
             (cell) (refusal 2)",
        ),
        (
            set(48, 3),
            "record 3, byte 0 (48 of the file): a cell of a table file, 3, where the spreadsheet's edition has 4 \
             (refusal 2)",
        ),
        (set(49, 1), "record 3, byte 1 (49 of the file): 1 where a cell record has 0 (refusal 2)"),
        (set(50, 0), "record 3, bytes 2 to 3 (50 to 51 of the file): no grade in the set of a cell (refusal 13)"),
        (
            set(50, 8),
            "record 3, bytes 2 to 3 (50 to 51 of the file): grade 3 in the set of a cell, but there are 0 to 2 \
             (refusal 13)",
        ),
        (
            set(50, 5),
            "record 3, bytes 2 to 3 (50 to 51 of the file): grades 0 and 2 in the set of a cell, but not 1, which is \
             between them (refusal 13)",
        ),
    ]);
    for (file, what) in cases {
        folder.write("rota.spreadsheet", &file);
        let report = format!("rota.spreadsheet: refused: {what}\n1 file: 1 refused\n");
        folder.keeper(&["import", "rota.spreadsheet"]).is(1, &report, "");
        assert_eq!(folder.names(), ["rota.spreadsheet"]);
    }
}

#[test]
fn a_changed_byte_shows_at_its_record_or_later() {
    let alarm = example("alarm.table");
    let sets = Edition::Limits.convert(&alarm).unwrap();
    for (edition, file) in [(Edition::Limits, alarm), (Edition::Sets, sets)] {
        for at in 0..file.len() {
            for value in [0, 1, 2, 3, 4, 7, 8, 9, 16, 17, 255] {
                if let Some(fault) = refusals::of_table(edition, &changed(&file, at, value)) {
                    let (record, bytes) = fault.at.clone().unwrap();
                    assert!(record >= at / 16 && *bytes.end() < 16, "{fault}");
                }
            }
        }
    }
}

/// Faults of alarm.network, each in a byte of its own.
fn of_networks(network: &[u8]) -> Vec<(Vec<u8>, &'static str)> {
    let set = |byte: usize, value: u8| changed(network, byte, value);
    let zeroed: Vec<u8> = network.iter().enumerate().map(|(i, &b)| if i % 16 == 2 { 0 } else { b }).collect();
    vec![
        (vec![], "the file is empty"),
        (network[..15].to_vec(), "15 bytes: 0 records of 16 bytes and 15 more"),
        (vec![0; 16 * 4097], "4,097 records, but at most 4,096 are allowed"),
        (
            set(32, 4),
            "record 2, byte 0 (32 of the file): 4 is no kind of record; there are 0 (constant), 1 (lookup), 2 (min) \
             and 3 (max)",
        ),
        (set(0, 2), "record 0, byte 0 (0 of the file): a gate, but no record comes before it"),
        (set(1, 3), "record 0, byte 1 (1 of the file): condition 3, but there are 0 to 2"),
        (set(2, 1), "record 0, byte 2 (2 of the file): its ceiling is 1 and should be 3"),
        (set(34, 255), "record 2, byte 2 (34 of the file): its ceiling is 255 and should be 1"),
        (set(130, 2), "record 8, byte 2 (130 of the file): its ceiling is 2 and should be 3"),
        (
            zeroed,
            "record 0, byte 2 (2 of the file): its ceiling is 0 and should be 3; no record has one, as in networks \
             from before ceilings: compile the table again",
        ),
        (set(3, 1), "record 0, byte 3 (3 of the file): 1 where this lookup record has 0"),
        (set(9, 4), "record 0, byte 9 (9 of the file): grade 4 at value 1, but there are 0 to 3"),
        (set(11, 1), "record 0, byte 11 (11 of the file): 1 where this lookup record has 0"),
        (set(33, 1), "record 2, byte 1 (33 of the file): 1 where this min record has 0"),
        (set(36, 2), "record 2, byte 4 (36 of the file): a gate on record 2, which does not come before record 2"),
        (set(39, 1), "record 2, byte 7 (39 of the file): a gate on record 257, which does not come before record 2"),
        (set(129, 4), "record 8, byte 1 (129 of the file): grade 4, but there are 0 to 3"),
        (changed(&set(129, 4), 130, 4), "record 8, byte 1 (129 of the file): grade 4, but there are 0 to 3"),
        (set(175, 9), "record 10, byte 15 (175 of the file): 9 where this max record has 0"),
    ]
}

#[test]
fn networks_are_refused_by_record_and_byte() {
    let folder = Folder::with_examples("networks");
    let table = Table::read(&example("alarm.table")).unwrap();
    let network = table.compile().unwrap().bytes().to_vec();
    for (bytes, what) in of_networks(&network) {
        folder.write("alarm.network", &bytes);
        let refused = format!("alarm.network: refused: {what} (refusal 11)\n");
        folder.keeper(&["list", "alarm.network"]).is(1, "", &refused);
        folder.keeper(&["evaluate", "alarm.table", "alarm.network", "quiet", "keeper", "no"]).is(1, "", &refused);
    }
    // Other records have ceilings, if small ones.
    let rota = Table::read(&example("rota.table")).unwrap();
    let network_of_rota = changed(rota.compile().unwrap().bytes(), 2, 0);
    assert_eq!(
        refusals::of_network(&network_of_rota, rota.shape()).unwrap().to_string(),
        "refused: record 0, byte 2 (2 of the file): its ceiling is 0 and should be 1 (refusal 11)"
    );
    let none = Table::read(&example("rota.table")[32..48]).unwrap();
    let fault = refusals::of_network(&network, none.shape()).unwrap();
    assert_eq!(
        fault.to_string(),
        "refused: record 0, byte 0 (0 of the file): a lookup, but the table has no conditions (refusal 11)"
    );
}

/// Of one changed byte the record is found, and the byte: the one that was changed, or one that it puts at fault: by
/// another kind or condition any, else the ceiling, which no longer is that of the record's grades.
#[test]
fn a_changed_byte_of_a_network_is_found() {
    let table = Table::read(&example("alarm.table")).unwrap();
    let network = table.compile().unwrap().bytes().to_vec();
    for at in 0..network.len() {
        for value in 0..=255 {
            let bytes = changed(&network, at, value);
            let Some(fault) = refusals::of_network(&bytes, table.shape()) else {
                assert!(table.check(&bytes).is_ok());
                continue;
            };
            let (record, found) = fault.at.clone().unwrap();
            assert!(record >= at / 16, "{fault}");
            let itself = record == at / 16 && *found.start() == at % 16;
            assert!(itself || at % 16 <= 1 || *found.start() == 2, "byte {at} is {value}: {fault}");
        }
    }
}
