//! Every command, on the examples and on damaged files.

mod common;

use common::{EXAMPLES, Folder, Random, example};
use keeper::library::{
    MAX_CELLS, MAX_CONDITIONS, MAX_FILE_RECORDS, MAX_GRADES, MAX_NETWORK_RECORDS, RECORD, RUN_STACK_BYTES, Record,
    Table, Verdict,
};
use keeper::{names::Names, text};

#[test]
fn texts_make_the_tables() {
    let folder = Folder::with_examples("make");
    for room in EXAMPLES {
        let made = folder.keeper(&["make", &format!("{room}.txt")]);
        let unlisted = "second_key.txt: 4 cells are in no line, the first class director, second missing, door outer; a visit there leaves report\n";
        assert_eq!((made.status, made.err.as_str()), (Some(0), if room == "second_key" { unlisted } else { "" }));
        assert!(made.bytes == example(&format!("{room}.table")), "{room}");
    }
}

#[test]
fn tables_show_as_texts_that_make_them() {
    let folder = Folder::with_examples("show");
    for room in EXAMPLES {
        let (table, text) = (format!("{room}.table"), format!("{room}.txt"));
        let given = folder.keeper(&["show", &table, &text]);
        let beside = folder.keeper(&["show", &table]);
        std::fs::remove_file(folder.path(&text)).unwrap();
        let numbered = folder.keeper(&["show", &table]);
        assert_eq!((&given.out, numbered.out.contains("c0")), (&beside.out, true));
        for shown in [given, numbered] {
            assert_eq!((shown.status, shown.err.as_str()), (Some(0), ""));
            folder.write("again.txt", &shown.bytes);
            assert_eq!(folder.keeper(&["make", "again.txt"]).bytes, example(&table));
        }
    }
    let mut random = Random(1);
    for _ in 0..2_000 {
        let file = random.table();
        let table = Table::read(&file).unwrap();
        let shown = text::print(&file, &table, &Names::numbered(table.shape()));
        assert_eq!(text::parse(shown.as_bytes()).unwrap().file, file, "{shown}");
    }
}

#[test]
fn equal_cells_show_as_one_line() {
    let folder = Folder::with_examples("show_one_line");
    folder.keeper(&["show", "alarm.table"]).is(
        0,
        "condition alarm quiet armed ringing\n\
         condition class visitor keeper\n\
         condition drill no yes\n\
         grades nothing line signed call\n\
         quiet   visitor *  line\n\
         armed   visitor *  signed\n\
         ringing *       *  call\n\
         quiet   keeper  *  nothing\n\
         armed   keeper  *  line\n",
        "",
    );
}

#[test]
fn networks_are_listed() {
    let folder = Folder::with_examples("list");
    let words = "\x200  alarm: quiet→call, else nothing
 1  class: visitor→line, keeper→nothing
 2  the lesser of 0 and 1, at most line
 3  alarm: armed→call, else nothing
 4  class: visitor→signed, keeper→line
 5  the lesser of 3 and 4, at most signed
 6  the greater of 2 and 5, at most signed
 7  alarm: ringing→call, else nothing
 8  always call
 9  the lesser of 7 and 8, at most call
10  the greater of 6 and 9, at most call
11 records
";
    folder.keeper(&["list", "alarm.table"]).is(0, words, "");
    folder.keeper(&["compile", "alarm.table", "-o", "alarm.network"]).is(0, "", "");
    folder.keeper(&["list", "alarm.network"]).is(0, words, "");
    folder.keeper(&["list", "alarm.network", "rota.txt"]).is(
        1,
        "",
        "rota.txt: not the text of alarm.table: it has 2 conditions, the table 3\n",
    );
    std::fs::rename(folder.path("alarm.txt"), folder.path("other.txt")).unwrap();
    let plain = folder.keeper(&["list", "alarm.network"]);
    assert!(plain.out.starts_with(" 0  c0: 0→3, else 0\n"), "{plain:?}");
    folder.keeper(&["list", "alarm.network", "other.txt"]).is(0, words, "");
    std::fs::rename(folder.path("alarm.table"), folder.path("other.table")).unwrap();
    let missing = "alarm.network: its table, alarm.table, is not there; see --table\n";
    folder.keeper(&["list", "alarm.network"]).is(2, "", missing);
    folder.keeper(&["list", "alarm.network", "--table", "other.table"]).is(0, words, "");
}

#[test]
fn visits_are_evaluated() {
    let folder = Folder::with_examples("evaluate");
    folder.keeper(&["compile", "rota.table", "-o", "rota.network"]).is(0, "", "");
    let visit = |rota: &str, hour: &str| folder.keeper(&["evaluate", "rota.table", "rota.network", rota, hour]);
    visit("on", "day").is(0, "none (allowed: none)\n", "");
    visit("on", "evening").is(0, "none (allowed: none to signed)\n", "");
    visit("off", "night").is(0, "signed (allowed: signed to witness)\n", "");
    visit("off", "dusk").is(2, "", "rota.table: condition hour has no value dusk; it has day, evening, night\n");
    folder.keeper(&["evaluate", "rota.table", "rota.network", "on"]).is(
        2,
        "",
        "rota.table: 2 values wanted, 1 given: rota (on, off); hour (day, evening, night)\n",
    );
    // The hour's lookup gives none at night.
    folder.change("rota.network", &[(16 + 2, 0), (16 + 10, 0)]);
    visit("on", "day").is(0, "none (allowed: none)\n", "");
    visit("on", "night").is(
        1,
        "none (allowed: signed)\n",
        "rota.network: outside at rota on, hour night (cell 4): grade none, allowed is signed\n",
    );
}

#[test]
fn visits_are_evaluated_at_their_own_cell() {
    let folder = Folder::with_examples("evaluate_cells");
    folder.keeper(&["update", "-q", "."]).is(0, "", "");
    let visit = |room: &str, values: &[&str]| {
        let (table, network) = (format!("{room}.table"), format!("{room}.network"));
        folder.keeper(&[&["evaluate", &table, &network], values].concat())
    };
    visit("alarm", &["armed", "keeper", "yes"]).is(0, "line (allowed: line)\n", "");
    visit("alarm", &["quiet", "keeper", "no"]).is(0, "nothing (allowed: nothing)\n", "");
    visit("alarm", &["quiet", "visitor", "yes"]).is(0, "line (allowed: line)\n", "");
    visit("second_key", &["director", "missing", "inner"]).is(0, "report (allowed: report)\n", "");
    let mut random = Random(8);
    for _ in 0..100 {
        let table = Table::read(&random.table()).unwrap();
        let shape = table.shape();
        assert!((0..shape.cells()).all(|cell| shape.cell(&shape.values_of(cell)) == cell));
    }
}

#[test]
fn lookups_with_one_other_grade_are_listed_short() {
    let folder = Folder::new("list_short");
    for (grades, words) in [
        ("none some all", "class: guard→none, keeper→some, director→all"),
        ("none none all", "class: director→all, else none"),
        ("none all none", "class: keeper→all, else none"),
        ("all none none", "class: guard→all, else none"),
    ] {
        let mut text = "condition class guard keeper director\ngrades none some all\n".to_string();
        for (class, grade) in ["guard", "keeper", "director"].iter().zip(grades.split(' ')) {
            text += &format!("{class} {grade}\n");
        }
        folder.write("room.txt", text.as_bytes());
        folder.keeper(&["-q", "make", "room.txt", "-o", "room.table"]).is(0, "", "");
        folder.keeper(&["list", "room.table"]).is(0, &format!("0  {words}\n1 record\n"), "");
    }
}

#[test]
fn what_is_compiled_is_within() {
    let mut random = Random(3);
    for _ in 0..300 {
        let table = Table::read(&random.table()).unwrap();
        assert_eq!(table.check(table.compile().unwrap().bytes()), Ok(Verdict::Within));
    }
}

#[test]
fn networks_are_forecast() {
    let folder = Folder::with_examples("forecast");
    folder.keeper(&["forecast", "alarm.table"]).is(
        0,
        "11 records\n3 gates deep\n\
         5,307 bytes of panel memory: 176 for the network, 11 to run it, up to 5,120 of stack\n",
        "",
    );
    let mut random = Random(9);
    for _ in 0..300 {
        let table = Table::read(&random.table()).unwrap();
        let (forecast, records) = (table.forecast().unwrap(), table.compile().unwrap().records());
        let mut depths: Vec<usize> = Vec::new();
        for record in &records {
            depths.push(match record {
                Record::Gate { left, right, .. } => 1 + depths[*left].max(depths[*right]),
                _ => 0,
            });
        }
        assert_eq!((forecast.records, Some(&forecast.depth)), (records.len(), depths.last()));
    }
}

#[test]
fn sizes_are_those_of_the_header() {
    let header = include_str!("../../include/grades.h");
    for (name, size) in [
        ("GRADES_RECORD_BYTES", RECORD),
        ("GRADES_MAX_CONDITIONS", MAX_CONDITIONS),
        ("GRADES_MAX_GRADES", MAX_GRADES.into()),
        ("GRADES_MAX_CELLS", MAX_CELLS),
        ("GRADES_MAX_FILE_RECORDS", MAX_FILE_RECORDS),
        ("GRADES_MAX_RECORDS", MAX_NETWORK_RECORDS),
        ("GRADES_RUN_STACK_BYTES", RUN_STACK_BYTES),
    ] {
        assert!(header.contains(&format!("#define {name} {size}\n")), "{name}");
    }
}

#[test]
fn names_come_from_the_same_room() {
    let folder = Folder::new("same_room");
    for name in ["room.1", "room.2"] {
        folder.write(name, &example("rota.table"));
    }
    folder.write("room.txt", &example("alarm.txt"));
    folder.write("room.1.txt", &example("rota.txt"));
    assert!(folder.keeper(&["list", "room.1"]).out.starts_with("0  rota: on→none"));
    let other = folder.keeper(&["list", "room.2"]);
    assert_eq!((other.out.starts_with("0  c0: 0→0"), other.err.as_str()), (true, ""));
}

#[test]
fn a_text_at_fault_is_no_names() {
    let folder = Folder::with_examples("unfit");
    folder.keeper(&["-q", "update", "."]).is(0, "", "");
    folder.write("rota.txt", &example("alarm.txt"));
    let why = "rota.txt: its names are not used: it has 3 conditions, the table 2\n";
    let listed = folder.keeper(&["list", "rota.network"]);
    assert_eq!((listed.status, listed.err.as_str(), listed.out.starts_with("0  c0: 0→0")), (Some(0), why, true));
    assert_eq!(folder.keeper(&["-q", "list", "rota.network"]).err, "");
    // Values are given by names, so that these have to be there.
    folder.keeper(&["-q", "evaluate", "rota.table", "rota.network", "on", "day"]).is(1, "", why);
}

#[test]
fn wrong_use_is_said() {
    let folder = Folder::with_examples("use");
    let help = folder.keeper(&["--help"]);
    assert_eq!((help.status, help.err.as_str()), (Some(0), ""));
    assert!(help.out.contains("This program is not proved."));
    assert_eq!(folder.keeper(&["check", "--help"]).out, help.out);
    folder.keeper(&[]).is(2, "", &help.out);
    folder.keeper(&["forge"]).is(2, "", "keeper: no command forge; see keeper --help\n");
    folder.keeper(&["list", "--all"]).is(2, "", "keeper: no option --all; see keeper --help\n");
    folder.keeper(&["make", "-o"]).is(2, "", "keeper: --output wants a file\n");
    folder.keeper(&["make", "-o", ""]).is(2, "", "keeper: --output wants a file\n");
    folder.keeper(&["make", "--output=a", "-o", "b"]).is(2, "", "keeper: --output is given twice\n");
    folder.keeper(&["show", "rota.table", "rota.txt", "--text=x"]).is(2, "", "keeper: --text is given twice\n");
    folder.keeper(&["make", "rota.table"]).is(1, "", "rota.table: a table, and not a text; see keeper show\n");
    folder.keeper(&["compile", "x.network"]).is(2, "", "x.network: cannot be read: no such file or directory\n");
    folder.keeper(&["-q", "update", "rota.table"]).is(0, "", "");
    folder.keeper(&["compile", "rota.network"]).is(1, "", "rota.network: a network, and not a table\n");
    folder.keeper(&["evaluate", "rota.table", "rota.table", "on", "day"]).is(
        1,
        "",
        "rota.table: a table, and not a network; see keeper compile\n",
    );
    folder.keeper(&["compile", "rota.txt"]).is(1, "", "rota.txt: a text, and not a table; see keeper make\n");
    folder.keeper(&["check", "-o", "x", "."]).is(2, "", "keeper: check has no option --output; see keeper --help\n");
    folder.keeper(&["make"]).is(2, "", "keeper: wrong use of make; it is keeper make ROOM.txt\n");
    let usage = "keeper list ROOM.table|ROOM.network [ROOM.txt]";
    folder.keeper(&["list"]).is(2, "", &format!("keeper: wrong use of list; it is {usage}\n"));
    folder.keeper(&["list", "none.table"]).is(2, "", "none.table: cannot be read: no such file or directory\n");
    folder.keeper(&["list", "."]).is(2, "", ".: cannot be read: is a directory\n");
    folder.keeper(&["list", "two\nlines\x1b"]).is(
        2,
        "",
        "two\\nlines\\u{1b}: cannot be read: no such file or directory\n",
    );
    folder.write("-odd.txt", &example("rota.txt"));
    assert_eq!(folder.keeper(&["make", "--", "-odd.txt"]).bytes, example("rota.table"));
}
