//! Import and export: between a table file and what the spreadsheet has.

mod common;

use common::{EXAMPLES, Folder, Random, example};
use keeper::library::Edition;

#[test]
fn a_folder_of_exports_becomes_a_collection() {
    let folder = Folder::new("import");
    for room in EXAMPLES {
        let export = format!("{room}.spreadsheet");
        folder.write(&export, &example(&export));
    }
    folder.keeper(&["check", "."]).is(
        1,
        "./alarm.table: no table; keeper import gives it from the spreadsheet\n\
         ./rota.table: no table; keeper import gives it from the spreadsheet\n\
         ./second_key.table: no table; keeper import gives it from the spreadsheet\n\
         3 rooms: 3 without a table\n",
        "",
    );
    folder.keeper(&["import", "."]).is(
        0,
        "./alarm.table: 16 records written; before: no table\n\
         ./rota.table: 9 records written; before: no table\n\
         ./second_key.table: 12 records written; before: no table\n\
         3 files: 3 written\n",
        "",
    );
    for room in EXAMPLES {
        let table = format!("{room}.table");
        assert_eq!(folder.read(&table), example(&table));
    }
    folder.keeper(&["import", "."]).is(0, "3 files: 3 up to date\n", "");
    folder.keeper(&["export", "."]).is(0, "3 files: 3 up to date\n", "");
    folder.keeper(&["update", "-q", "."]).is(0, "", "");
    folder.keeper(&["check", "."]).is(0, "3 rooms: 3 within\n", "");
}

#[test]
fn a_table_that_is_there_is_replaced_by_another() {
    let folder = Folder::with_examples("import_again");
    folder.write("rota.spreadsheet", &example("rota.spreadsheet"));
    // On the rota at night nothing but a witness will do.
    folder.change("rota.spreadsheet", &[(16 * 7 + 2, 4)]);
    let differs = "at rota on, hour night the spreadsheet has witness, the table signed";
    let found = format!("rota.spreadsheet: is another table than the one beside it: {differs}\n");
    folder.keeper(&["-q", "check", "rota.table"]).is(1, &format!("{found}rota.network: no network\n"), "");
    folder.keeper(&["import", "rota.spreadsheet"]).is(
        0,
        "rota.table: 9 records written; before: another table: at rota on, hour night it had signed, now it has \
         witness\n1 file: 1 written\n",
        "",
    );
    folder.write("alarm.spreadsheet", &example("rota.spreadsheet"));
    folder.keeper(&["import", "alarm.spreadsheet"]).is(
        0,
        "alarm.table: 9 records written; before: a table with other conditions or grades\n1 file: 1 written\n",
        "",
    );
    // What the library refuses may be anything.
    folder.write("second_key.spreadsheet", &example("rota.spreadsheet"));
    folder.write("second_key.table", b"what nobody wants to lose");
    let kept = "second_key.table: there is a file that the library refuses: not replaced\n";
    folder.keeper(&["import", "second_key.spreadsheet"]).is(2, "1 file: 1 not written\n", kept);
    assert_eq!(folder.read("second_key.table"), b"what nobody wants to lose");
}

#[test]
fn where_files_go() {
    let folder = Folder::with_examples("where");
    folder.keeper(&["export", "-q", "rota.table", "-o", "elsewhere"]).is(0, "", "");
    assert_eq!(folder.read("elsewhere"), example("rota.spreadsheet"));
    // An ending that is none of ours stays, so that room.1 and room.2 are two rooms.
    folder.write("room.1", &example("rota.spreadsheet"));
    folder.write("room.2", &example("rota.spreadsheet"));
    folder.keeper(&["import", "-q", "room.1", "room.2"]).is(0, "", "");
    assert_eq!(folder.read("room.1.table"), example("rota.table"));
    assert_eq!(folder.read("room.2.table"), example("rota.table"));
    let both = "x: room.1 and room.2 would both be written here\n";
    folder.keeper(&["import", "room.1", "room.2", "-o", "x"]).is(2, "", both);
    let table = "rota.table: refused: record 3, byte 0 (48 of the file): a cell of a table file, 3, where the \
                 spreadsheet's edition has 4 (refusal 2)\n";
    folder.keeper(&["-q", "import", "rota.table"]).is(1, table, "");
    folder.keeper(&["import", "none"]).is(
        2,
        "1 file: 1 unreadable\n",
        "none: cannot be read: no such file or directory\n",
    );
    std::fs::create_dir(folder.path("empty")).unwrap();
    folder.write("room", &example("rota.spreadsheet"));
    folder.write("room.spreadsheet", &example("rota.spreadsheet"));
    let both = "empty/../room.table: room and empty/../room.spreadsheet would both be written here\n";
    folder.keeper(&["import", "room", "empty/../room.spreadsheet"]).is(2, "", both);
    folder.keeper(&["-q", "import", "rota.txt"]).is(1, "rota.txt: a text, and not a table; see keeper make\n", "");
    assert_eq!(folder.shell("mkdir pipes && mkfifo pipes/x.spreadsheet").status, Some(0));
    let pipe = "pipes/x.spreadsheet: cannot be read: it is not a regular file\n";
    folder.shell("timeout 20 $K -q import pipes").is(2, "", pipe);
    folder.keeper(&["import", "empty"]).is(2, "", "empty: no files there that end in .spreadsheet\n");
    folder.keeper(&["export", "empty", "rota.table"]).is(
        2,
        "rota.spreadsheet: 9 records written; before: no spreadsheet\n1 file: 1 written\n",
        "empty: no files there that end in .table\n",
    );
}

#[test]
fn every_table_comes_back() {
    let mut random = Random(10);
    for _ in 0..2_000 {
        let file = random.table();
        let sets = Edition::Limits.convert(&file).unwrap();
        assert_eq!(Edition::Sets.convert(&sets).unwrap(), file);
        assert_eq!(Edition::Sets.read(&sets), Edition::Limits.read(&file));
    }
}
