//! The collection's check and update, on a folder with one of each fault.

mod common;

use std::os::unix::ffi::OsStringExt;

use common::{Folder, example};

/// Rooms: one that is well, and one with each fault.
fn one_of_each(name: &str) -> Folder {
    let folder = Folder::new(name);
    let room = |to: &str, from: &str, endings: &[&str]| {
        for ending in endings {
            folder.write(&format!("{to}.{ending}"), &example(&format!("{from}.{ending}")));
        }
        if endings.contains(&"table") {
            folder.keeper(&["compile", &format!("{to}.table"), "-o", &format!("{to}.network")]).is(0, "", "");
        }
    };
    room("well", "alarm", &["txt", "table"]);
    room("outside", "rota", &["txt", "table"]);
    folder.change("outside.network", &[(16 + 2, 0), (16 + 10, 0)]);
    room("outside_by_number", "rota", &["table"]);
    folder.change("outside_by_number.network", &[(16 + 2, 0), (16 + 10, 0)]);
    room("refused_table", "rota", &["txt", "table"]);
    folder.change("refused_table.table", &[(57, 3)]);
    room("refused_network", "rota", &["txt", "table"]);
    folder.change("refused_network.network", &[(36, 2)]);
    room("missing", "second_key", &["txt", "table"]);
    std::fs::remove_file(folder.path("missing.network")).unwrap();
    room("other", "rota", &["table"]);
    // The two lookups exchanged.
    let network = folder.read("other.network");
    let mut other = [&network[16..32], &network[..16], &network[32..]].concat();
    other[36] = 1;
    other[38] = 0;
    folder.write("other.network", &other);
    room("alone", "rota", &["table"]);
    std::fs::remove_file(folder.path("alone.table")).unwrap();
    room("unmade", "rota", &["txt"]);
    room("text_changed", "rota", &["txt", "table"]);
    let text = String::from_utf8(example("rota.txt")).unwrap();
    folder.write("text_changed.txt", text.replace("on  night    signed", "on  night    none").as_bytes());
    room("text_faulty", "rota", &["txt", "table"]);
    folder.write("text_faulty.txt", text.replace("on  night    signed", "on  dusk     signed").as_bytes());
    room("text_of_another", "rota", &["txt", "table"]);
    folder.write("text_of_another.txt", &example("alarm.txt"));
    folder.write("notes.txt", b"The rooms of the east wing.\n");
    folder.write(".hidden.table", b"x");
    std::fs::create_dir(folder.path("wing")).unwrap();
    room("wing/deep.er", "rota", &["txt", "table"]);
    folder
}

const TEXTS: &str = "\
text_changed.txt: makes another table than the one beside it: at rota on, hour night the text has none, the table signed
text_faulty.txt: line 9: condition hour has no value dusk; it has day, evening, night
text_of_another.txt: makes another table than the one beside it: it has 3 conditions, the table 2
";

#[test]
fn a_folder_with_one_of_each_fault() {
    let folder = one_of_each("each");
    let checked = folder.shell("cd .. && $K check each");
    let findings = "\
alone.table: no table, but a network
missing.network: no network
other.network: within, but not what compiling gives today
outside.network: outside at rota on, hour night (cell 4): grade none, allowed is signed
outside_by_number.network: outside at c0 0, c1 2 (cell 4): grade 0, allowed is 1
refused_network.network: refused: record 2, byte 4 (36 of the file): a gate on record 2, which does not come before record 2 (refusal 11)
refused_table.table: refused: record 3, byte 9 (57 of the file): value 3 of condition 1, which has 0 to 2 (refusal 6)
";
    let unmade = "unmade.table: no table; keeper make gives it from the text\n";
    let lines = |text: String| -> String { text.lines().map(|line| format!("each/{line}\n")).collect() };
    let findings = lines([findings, TEXTS, unmade].concat());
    let summary = "13 rooms: 5 within, 1 within but not what compiling gives today, 2 outside, 2 refused, \
                   1 without a network, 2 without a table; 3 texts or spreadsheets to look at\n";
    checked.is(1, &format!("{findings}{summary}"), "");
    folder.shell("cd .. && $K check --quiet each").is(1, &findings, "");
    // Nothing was changed by checking; now all that can be mended is.
    let updated = folder.shell("cd .. && $K update each");
    let mended = "\
alone.table: no table, but a network
missing.network: 5 records written; before: no network
other.network: 3 records written; before: within, but not what compiling gives today
outside.network: 3 records written; before: outside at rota on, hour night (cell 4): grade none, allowed is signed
outside_by_number.network: 3 records written; before: outside at c0 0, c1 2 (cell 4): grade 0, allowed is 1
refused_network.network: 3 records written; before: refused: record 2, byte 4 (36 of the file): a gate on record 2, which does not come \
before record 2 (refusal 11)
refused_table.table: refused: record 3, byte 9 (57 of the file): value 3 of condition 1, which has 0 to 2 (refusal 6)
";
    let summary =
        "13 rooms: 5 up to date, 5 written, 1 refused, 2 without a table; 3 texts or spreadsheets to look at\n";
    updated.is(1, &format!("{}{summary}", lines([mended, TEXTS, unmade].concat())), "");
    let again = folder.keeper(&["check", "."]);
    assert!(
        again.out.ends_with("13 rooms: 10 within, 1 refused, 2 without a table; 3 texts or spreadsheets to look at\n"),
        "{again:?}"
    );
}

#[test]
fn a_collection_in_order() {
    let folder = Folder::with_examples("order");
    folder.keeper(&["-q", "check", "."]).is(
        1,
        "./alarm.network: no network\n./rota.network: no network\n./second_key.network: no network\n",
        "",
    );
    folder.keeper(&["update", "."]).is(
        0,
        "./alarm.network: 11 records written; before: no network\n\
         ./rota.network: 3 records written; before: no network\n\
         ./second_key.network: 5 records written; before: no network\n\
         3 rooms: 3 written\n",
        "",
    );
    folder.keeper(&["update", "."]).is(0, "3 rooms: 3 up to date\n", "");
    folder.keeper(&["check", "."]).is(0, "3 rooms: 3 within\n", "");
    folder.keeper(&["check", "-q", "."]).is(0, "", "");
    folder.keeper(&["check", "rota.table"]).is(0, "1 room: 1 within\n", "");
    folder.keeper(&["check", ".", "nowhere"]).is(
        2,
        "3 rooms: 3 within\n",
        "nowhere: cannot be read: no such file or directory\n",
    );
    std::fs::create_dir(folder.path("empty")).unwrap();
    folder.keeper(&["check", "empty"]).is(2, "", "empty: no rooms there\n");
    // A text that was changed and not made since is not.
    let text = String::from_utf8(example("rota.txt")).unwrap();
    folder.write("rota.txt", text.replace("off day      signed", "off day      none").as_bytes());
    let changed = "./rota.txt: makes another table than the one beside it: at rota off, hour day the text has none, \
                   the table signed\n";
    for command in ["check", "update"] {
        folder.keeper(&["-q", command, "."]).is(1, changed, "");
    }
    folder.write("rota.txt", text.as_bytes());
    // A network that is within, with other records, is well.
    folder.write("rota.network", &[folder.read("rota.network"), folder.read("rota.network")[32..].to_vec()].concat());
    folder.change("rota.network", &[(48 + 4, 2)]);
    let within = "./rota.network: within, but not what compiling gives today\n\
                  3 rooms: 2 within, 1 within but not what compiling gives today\n";
    folder.keeper(&["check", "."]).is(0, within, "");
}

#[test]
fn what_is_given_twice_is_one() {
    let folder = Folder::with_examples("twice");
    std::fs::create_dir(folder.path("wing")).unwrap();
    folder.write("wing/deep.table", &example("rota.table"));
    let whole = folder.0.to_str().unwrap();
    folder.keeper(&["-q", "update", ".", "wing", "rota.table", "wing/..", whole]).is(0, "", "");
    folder.keeper(&["check", ".", "wing", "rota.table", "wing/..", whole]).is(0, "4 rooms: 4 within\n", "");
    folder.keeper(&["export", "-q", ".", "rota.table", "./rota.table", whole]).is(0, "", "");
    folder.keeper(&["check", "."]).is(0, "4 rooms: 4 within\n", "");
}

#[test]
fn what_has_no_room_is_said_beside_what_has() {
    let folder = Folder::with_examples("mistyped");
    folder.keeper(&["-q", "update", "."]).is(0, "", "");
    std::fs::create_dir(folder.path("empty")).unwrap();
    folder.write("empty/notes.txt", b"nothing of a table");
    folder.write("notes.sh", b"");
    for other in ["empty", "notes.sh", "empty/notes.txt"] {
        let run = folder.keeper(&["check", ".", other]);
        run.is(2, "3 rooms: 3 within\n", &format!("{other}: no rooms there\n"));
    }
}

#[test]
fn names_of_files_may_be_anything() {
    let folder = Folder::new("anything");
    let long = "x".repeat(240);
    for name in ["two\nlines", "a b.c", "\u{202e}turned", "-q", &long] {
        folder.write(&format!("{name}.table"), &example("rota.table"));
    }
    let odd = std::ffi::OsString::from_vec(b"\xff.table".to_vec());
    std::fs::write(folder.0.join(odd), example("rota.table")).unwrap();
    let written: String = ["-q", "a b.c", "two\\nlines", &long, "\\u{202e}turned", "\u{fffd}"]
        .map(|name| format!("./{name}.network: 3 records written; before: no network\n"))
        .concat();
    folder.keeper(&["update", "."]).is(0, &format!("{written}6 rooms: 6 written\n"), "");
    folder.keeper(&["check", "."]).is(0, "6 rooms: 6 within\n", "");
}

#[test]
fn rooms_without_a_table() {
    let folder = Folder::new("without");
    let text = String::from_utf8(example("rota.txt")).unwrap();
    folder.write("faulty.txt", text.replace("on  night", "on  nigth").as_bytes());
    folder.write("refused.spreadsheet", &example("rota.table"));
    folder.write("sound.spreadsheet", &example("rota.spreadsheet"));
    folder.keeper(&["check", "."]).is(
        1,
        "./faulty.txt: no table beside it; line 9: condition hour has no value nigth; it has day, evening, night\n\
         ./refused.spreadsheet: no table beside it; refused: record 3, byte 0 (48 of the file): a cell of a table file, \
         3, where the spreadsheet's edition has 4 (refusal 2)\n\
         ./sound.table: no table; keeper import gives it from the spreadsheet\n\
         3 rooms: 3 without a table\n",
        "",
    );
}

#[test]
fn what_is_no_file_is_said() {
    let folder = Folder::with_examples("no_file");
    folder.keeper(&["-q", "update", "."]).is(0, "", "");
    std::fs::create_dir(folder.path("folder.table")).unwrap();
    std::fs::remove_file(folder.path("rota.network")).unwrap();
    std::fs::create_dir(folder.path("rota.network")).unwrap();
    std::os::unix::fs::symlink("nowhere", folder.path("link.spreadsheet")).unwrap();
    let unread = "./folder.table: cannot be read: it is not a regular file\n\
                  ./link.spreadsheet: cannot be read: no such file or directory\n\
                  ./rota.network: cannot be read: it is not a regular file\n";
    folder.keeper(&["check", "."]).is(2, "5 rooms: 2 within, 3 unreadable\n", unread);
    folder.keeper(&["update", "."]).is(2, "5 rooms: 2 up to date, 3 unreadable\n", unread);
}

/// A link is a file of its own: its room is not that of the file that it leads to.
#[test]
fn links_are_rooms_of_their_own() {
    let folder = Folder::new("links");
    for name in ["one", "other"] {
        std::fs::create_dir(folder.path(name)).unwrap();
    }
    folder.write("other/rota.table", &example("rota.table"));
    folder.write("other/rota.network", &[0; 16]);
    folder.write("other/rota.spreadsheet", &example("rota.spreadsheet"));
    let link = |to: &str, at: &str| std::os::unix::fs::symlink(to, folder.path(at)).unwrap();
    link("../other/rota.table", "one/link.table");
    folder.keeper(&["-q", "compile", "other/rota.table", "-o", "one/link.network"]).is(0, "", "");
    let outside = "other/rota.network: outside at c0 1, c1 0 (cell 1): grade 0, allowed is 1\n";
    folder.keeper(&["check", "one/link.table", "other"]).is(1, &format!("{outside}2 rooms: 1 within, 1 outside\n"), "");
    folder.keeper(&["check", "one", "one/link.table"]).is(0, "1 room: 1 within\n", "");
    link("rota.spreadsheet", "other/link.spreadsheet");
    folder.keeper(&["import", "other"]).is(
        0,
        "other/link.table: 9 records written; before: no table\n2 files: 1 up to date, 1 written\n",
        "",
    );
    // A link to nowhere is there, however it is found.
    link("nowhere", "other/link.network");
    let unread = "other/link.network: cannot be read: no such file or directory\n";
    folder.keeper(&["check", "other/link.table"]).is(2, "1 room: 1 unreadable\n", unread);
}

#[test]
fn a_text_may_start_with_many_comments() {
    let folder = Folder::new("comments");
    let text = "# a comment of some length, and then another one like it\n".repeat(1_000);
    folder.write("rota.txt", &[text.as_bytes(), &example("rota.txt")].concat());
    let made = "./rota.table: no table; keeper make gives it from the text\n1 room: 1 without a table\n";
    folder.keeper(&["check", "."]).is(1, made, "");
}
