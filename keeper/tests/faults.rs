//! Nothing is lost: calls that fail, runs that are killed, files that change meanwhile, full devices.
//!
//! `faults.c` strikes single calls of the program.

mod common;

use std::collections::{BTreeMap, BTreeSet};
use std::env;
use std::fs::{self, Permissions};
use std::os::unix::fs::{MetadataExt, PermissionsExt, chown, symlink};
use std::os::unix::process::CommandExt;
use std::path::{Path, PathBuf};
use std::process::{self, Command};
use std::sync::OnceLock;

use common::{Folder, Run, example, program};
use keeper::library::Edition;

/// The library that strikes, built once.
fn shim() -> &'static Path {
    static SHIM: OnceLock<PathBuf> = OnceLock::new();
    SHIM.get_or_init(|| {
        let source = Path::new(env!("CARGO_MANIFEST_DIR")).join("tests/faults.c");
        let shim = Path::new(env!("CARGO_TARGET_TMPDIR")).join("faults.so");
        let mut compiler = Command::new("cc");
        compiler.args(["-shared", "-fPIC", "-O1", "-Wall", "-Wextra", "-Werror", "-o"]).arg(&shim).arg(source);
        let built = compiler.arg("-ldl").status().expect("faults are injected by a C library: cc is needed");
        assert!(built.success(), "faults.c is not compiled");
        shim
    })
}

/// A call that was struck, and the name of the file that it was about.
struct Struck {
    call: String,
    name: String,
}

impl Struck {
    /// Whether the folder was to be brought to the disk.
    fn is_of_folder(&self) -> bool {
        self.name == "." && WRITING.contains(&self.call.as_str())
    }
}

/// The program with faults, at most two; and what was struck.
fn with_faults(folder: &Folder, arguments: &[&str], faults: &[&str], command: &str) -> (Run, Vec<Struck>) {
    let log = folder.0.with_extension("log");
    let _ = fs::remove_file(&log);
    let mut program = Command::new(program());
    program.args(arguments).current_dir(&folder.0);
    program.env("LD_PRELOAD", shim()).env("FAULT_LOG", &log).env("FAULT_COMMAND", command);
    program.envs(["FAULT", "SECOND_FAULT"].iter().zip(faults));
    let run = Run::of(&mut program);
    let lines = fs::read_to_string(&log).unwrap_or_default();
    let _ = fs::remove_file(&log);
    let struck = |line: &str| line.split_once(' ').map(|(call, name)| Struck { call: call.into(), name: name.into() });
    (run, lines.lines().filter_map(struck).collect())
}

/// The mode and the bytes of each file, by its name.
type Files = BTreeMap<String, (u32, Vec<u8>)>;

/// The file that a draft is for; none if the name is not a draft's.
fn of_draft(name: &str) -> Option<&str> {
    Some(name.strip_prefix('.')?.split_once(".keeper-")?.0)
}

fn drafts(folder: &Folder) -> Vec<String> {
    folder.names().into_iter().filter(|name| of_draft(name).is_some()).collect()
}

/// All files but drafts.
fn files(folder: &Folder) -> Files {
    let file = |name: String| {
        let mode = fs::metadata(folder.path(&name)).unwrap().mode() & 0o777;
        let bytes = folder.read(&name);
        (name, (mode, bytes))
    };
    folder.names().into_iter().filter(|name| of_draft(name).is_none()).map(file).collect()
}

/// A network of one constant: what there is before. It is outside the limits of all tables here.
const CONSTANT: [u8; 16] = [0; 16];

/// A table of the same shape, with another limit in its first cell.
fn other(mut table: Vec<u8>) -> Vec<u8> {
    let cell = table.chunks_exact(16).position(|record| record[0] == 3).unwrap();
    table[16 * cell + 2] ^= 1;
    table
}

fn spreadsheet(table: &[u8]) -> Vec<u8> {
    Edition::Limits.convert(table).unwrap()
}

/// A command that writes, and the files before and behind it.
struct Case {
    command: &'static str,
    /// The name of its folder: tests are run at one time.
    name: String,
    before: Files,
    behind: Files,
    /// What is said on standard error without a fault.
    err: String,
}

impl Case {
    fn new(test: &str, command: &'static str) -> Case {
        let name = format!("faults {test} {}", command.replace('.', "_"));
        let mut case = Case { command, name, before: files_before(command), behind: Files::new(), err: String::new() };
        let folder = case.folder();
        let run = folder.keeper(&case.arguments());
        assert_eq!(run.status, Some(0), "{command}: {run:?}");
        (case.behind, case.err) = (files(&folder), run.err);
        assert_ne!(case.behind, case.before, "{command}");
        case
    }

    fn arguments(&self) -> Vec<&str> {
        self.command.split(' ').collect()
    }

    /// A folder with the files before.
    fn folder(&self) -> Folder {
        let folder = Folder::new(&self.name);
        for (name, (mode, bytes)) in &self.before {
            folder.write(name, bytes);
            fs::set_permissions(folder.path(name), Permissions::from_mode(*mode)).unwrap();
        }
        folder
    }

    /// The file that `-o` names, none if the command is about the folder.
    fn output(&self) -> Option<&str> {
        self.command.split_once(" -o ").map(|(_, output)| output)
    }

    /// A file as the command's lines name it.
    fn said(&self, name: &str) -> String {
        if self.output().is_some() || name == "." { name.to_string() } else { format!("./{name}") }
    }

    /// The files that are written.
    fn targets(&self) -> Vec<&str> {
        let written = |name: &&String| self.before.get(*name) != self.behind.get(*name);
        self.behind.keys().filter(written).map(String::as_str).collect()
    }

    /// What is said of a call that failed.
    fn line_of(&self, struck: &Struck, reason: &str) -> String {
        let said = |name: &str, what: &str| format!("{}: {what}: {reason}\n", self.said(name));
        match (of_draft(&struck.name), struck.name.as_str()) {
            (Some(target), _) => said(target, "cannot be written"),
            (None, _) if struck.is_of_folder() => {
                said(self.output().unwrap_or("."), "written, but perhaps not yet on the disk")
            }
            (None, name) => said(name, "cannot be read"),
        }
    }

    /// Every file is as before or as behind an undisturbed run.
    fn nothing_is_lost(&self, folder: &Folder, what: &str) {
        let now = files(folder);
        let all = [&self.before, &self.behind, &now];
        for name in all.iter().flat_map(|files| files.keys()) {
            let [before, behind, now] = all.map(|files| files.get(name));
            let size = now.map(|(mode, bytes)| format!("mode {mode:o}, {} bytes", bytes.len()));
            assert!(now == before || now == behind, "{what}: {name}: {size:?}");
        }
    }
}

/// Two rooms: of alarm what the command writes is not there, of rota something else is.
fn files_before(command: &str) -> Files {
    let mut files = BTreeMap::new();
    for name in ["alarm.txt", "alarm.table", "rota.txt", "rota.table", "rota.spreadsheet"] {
        files.insert(name, example(name));
    }
    files.insert("rota.network", CONSTANT.to_vec());
    files.insert("rota.svg", b"<svg >\n<!-- drawn by keeper -->\n</svg>\n".to_vec());
    let (alarm, other_rota) = (example("alarm.table"), other(example("rota.table")));
    if command == "import ." {
        files.insert("alarm.spreadsheet", spreadsheet(&alarm));
    }
    if command == "export ." {
        files.insert("rota.spreadsheet", spreadsheet(&other_rota));
    }
    if command == "import ." || command.starts_with("make ") {
        files.remove("alarm.table");
        files.insert("rota.table", other_rota);
    }
    if command == "draw -q alarm.table -o alarm.svg" {
        files.remove("alarm.txt");
    }
    // Not the mode that new files get.
    files.into_iter().map(|(name, bytes)| (name.to_string(), (0o600, bytes))).collect()
}

const COMMANDS: [&str; 9] = [
    "update .",
    "import .",
    "export .",
    "make -q alarm.txt -o alarm.table",
    "make -q rota.txt -o rota.table",
    "compile -q alarm.table -o alarm.network",
    "compile -q rota.table -o rota.network",
    "draw -q alarm.table -o alarm.svg",
    "draw -q rota.table rota.txt -o rota.svg",
];

/// Calls that change something. `unlink` is called where one of them has failed.
const WRITING: [&str; 6] = ["open64", "write", "fsync", "fchown", "fchmod", "rename"];
const READING: [&str; 4] = ["read", "realpath", "opendir", "readdir64"];

const BROKEN: (&str, &str) = ("fail 5", "input/output error");
const FULL: (&str, &str) = ("fail 28", "no space left on device");

/// The files of each room, then the folder: the calls on each of them come in one order, though threads make them.
const PATTERNS: [&str; 3] = ["*alarm.*", "*rota.*", "."];

/// A run in which a call was struck.
struct Faulty<'a> {
    case: &'a Case,
    folder: Folder,
    run: Run,
    struck: Struck,
    what: String,
}

/// Strikes a call the first time, the second, .. as long as it is reached. Answers what was struck.
fn strike<'a>(case: &'a Case, call: &str, deed: &str, judge: impl Fn(&Faulty<'a>)) -> Vec<Struck> {
    let mut all = Vec::new();
    for pattern in PATTERNS {
        for nth in 1.. {
            let fault = format!("{call} {nth} {deed} {pattern}");
            let folder = case.folder();
            let (run, struck) = with_faults(&folder, &case.arguments(), &[&fault], "");
            let Some(struck) = struck.into_iter().next() else { break };
            let what = format!("{}: {fault}: {}: {:?}: {}", case.command, struck.name, run.status, run.err);
            case.nothing_is_lost(&folder, &what);
            let faulty = Faulty { case, folder, run, struck, what };
            judge(&faulty);
            all.push(faulty.struck);
        }
    }
    all
}

impl Faulty<'_> {
    /// A call that fails is said, and leaves the file that it was for, and no draft.
    fn failed(&self, reason: &str) {
        let Faulty { case, folder, run, struck, what } = self;
        let now = files(folder);
        assert_eq!(drafts(folder), [""; 0], "{what}");
        if run.status == Some(0) && self.needless() {
            return assert_eq!(now, case.behind, "{what}");
        }
        assert_eq!(run.status, Some(2), "{what}");
        // A folder is named as it was given, or by its whole path.
        let err = run.err.replace(fs::canonicalize(&folder.0).unwrap().to_str().unwrap(), ".");
        // Where not all that is there is known, more may be said.
        let err = if struck.call == "readdir64" { err.split_inclusive('\n').next().unwrap() } else { &err };
        let line = case.line_of(struck, reason);
        // A target is opened to be judged, and once more to see whether it may be written.
        let opened = struck.call == "open64" && case.targets().contains(&struck.name.as_str());
        assert!(err == line || opened && err == line.replace("be read", "be written"), "{what}: {line}");
        if struck.is_of_folder() {
            // Names come to the disk when all files have theirs.
            return assert_eq!(now, case.behind, "{what}");
        }
        let target = of_draft(&struck.name);
        assert!(target.is_none_or(|target| now.get(target) == case.before.get(target)), "{what}");
        // The other room is none the worse.
        let room = |name: &str| name.split('.').next().unwrap().to_string();
        let others = |name: &&str| struck.name != "." && room(name) != room(target.unwrap_or(&struck.name));
        for name in case.targets().into_iter().filter(others) {
            assert_eq!(now.get(name), case.behind.get(name), "{what}: {name}");
        }
    }

    /// Whether the command can do its work without the call.
    fn needless(&self) -> bool {
        let Faulty { case, struck, .. } = self;
        match struck.call.as_str() {
            // Whether a file is given twice.
            "realpath" => true,
            // The owner; the group is tried alone then.
            "fchown" => true,
            // A text's names, for what is said of a table that is replaced.
            "open64" | "read" => struck.name.ends_with(".txt") && ["import .", "export ."].contains(&case.command),
            _ => false,
        }
    }

    /// A run that is killed is made good by the next.
    fn killed(&self) {
        let Faulty { case, folder, run, struck, what } = self;
        assert_eq!(run.status, None, "{what}");
        let drafts = drafts(folder);
        if ["fsync", "rename"].contains(&struck.call.as_str()) && drafts.contains(&struck.name) {
            // What is brought to the disk, and then gets the name, is whole.
            assert_eq!(folder.read(&struck.name), case.behind[of_draft(&struck.name).unwrap()].1, "{what}");
        }
        let said = if case.command == "update ." { noted(&drafts) } else { case.err.clone() };
        let again = folder.keeper(&case.arguments());
        assert_eq!((again.status, sorted(&again.err)), (Some(0), sorted(&said)), "{what}");
        assert_eq!(files(folder), case.behind, "{what}");
    }
}

fn noted(drafts: &[String]) -> String {
    let note = "draft of a run that is under way, or that was interrupted: then it can be removed";
    drafts.iter().map(|draft| format!("./{draft}: {note}\n")).collect()
}

fn sorted(lines: &str) -> Vec<&str> {
    let mut lines: Vec<&str> = lines.lines().collect();
    lines.sort();
    lines
}

/// Strikes all calls of a command.
fn strike_all(command: &'static str) {
    let case = Case::new("all", command);
    let mut struck = strike(&case, "write", "short 28", |faulty| faulty.failed(FULL.1));
    for call in READING.iter().chain(&WRITING) {
        struck.extend(strike(&case, call, BROKEN.0, |faulty| faulty.failed(BROKEN.1)));
    }
    for call in WRITING {
        struck.extend(strike(&case, call, FULL.0, |faulty| faulty.failed(FULL.1)));
        struck.extend(strike(&case, call, "kill 0", Faulty::killed));
        struck.extend(strike(&case, call, "after 0", Faulty::killed));
    }
    all_were_reached(&case, &struck);
    println!("{command}: {} faults", struck.len());
}

/// Every draft and the folder are flushed. A call that is missing here may be one that Rust's library no longer makes,
/// but another instead: then faults.c has to wrap that.
fn all_were_reached(case: &Case, struck: &[Struck]) {
    let mut expected = BTreeSet::from([("open64", "."), ("fsync", ".")]);
    for target in case.targets() {
        expected.extend(["open64", "write", "fsync", "rename"].map(|call| (call, target)));
        if case.before.contains_key(target) {
            expected.extend(["fchown", "fchmod"].map(|call| (call, target)));
        }
    }
    if case.output().is_none() {
        expected.extend([("opendir", "."), ("readdir64", "."), ("realpath", ".")]);
    }
    let mut found = BTreeSet::new();
    for Struck { call, name } in struck {
        let file = of_draft(name).unwrap_or(name);
        if file != name || name == "." {
            found.insert((call.as_str(), file));
        }
    }
    assert_eq!(expected, found, "{}", case.command);
    assert!(struck.iter().any(|struck| struck.call == "read"));
}

#[test]
fn faults_of_update() {
    strike_all("update .");
}

#[test]
fn faults_of_import() {
    strike_all("import .");
}

#[test]
fn faults_of_export() {
    strike_all("export .");
}

#[test]
fn faults_of_make() {
    COMMANDS.into_iter().filter(|command| command.starts_with("make ")).for_each(strike_all);
}

#[test]
fn faults_of_compile() {
    COMMANDS.into_iter().filter(|command| command.starts_with("compile ")).for_each(strike_all);
}

#[test]
fn faults_of_draw() {
    COMMANDS.into_iter().filter(|command| command.starts_with("draw ")).for_each(strike_all);
}

/// A fault while the draft of a write that failed is removed: nothing but the draft stays.
#[test]
fn faults_of_what_a_fault_leaves() {
    for case in COMMANDS.map(|command| Case::new("left", command)) {
        for target in case.targets() {
            for deed in ["fail 5", "kill 0", "after 0"] {
                strike_twice(&case, target, deed);
            }
        }
    }
}

fn strike_twice(case: &Case, target: &str, deed: &str) {
    let folder = case.folder();
    let faults = [("fsync", FULL.0), ("unlink", deed)];
    let faults = faults.map(|(call, deed)| format!("{call} 1 {deed} .{target}.keeper-*"));
    let (run, struck) = with_faults(&folder, &case.arguments(), &[&faults[0], &faults[1]], "");
    let what = format!("{}: {target}: {deed}: {:?}: {}", case.command, run.status, run.err);
    case.nothing_is_lost(&folder, &what);
    let [written, removed] = struck.try_into().unwrap_or_else(|_| panic!("{what}"));
    if deed != "fail 5" {
        return Faulty { case, folder, run, struck: removed, what }.killed();
    }
    assert_eq!((run.status, run.err), (Some(2), case.line_of(&written, FULL.1)), "{what}");
    assert_eq!(drafts(&folder), [removed.name], "{what}");
}

/// Numbers of processes come again.
#[test]
fn a_draft_of_the_same_name() {
    let case = Case::new("name", "compile -q rota.table -o rota.network");
    let folder = case.folder();
    let draft = ".rota.network.keeper-$$-0";
    folder.shell(&format!("printf half > {draft}; exec $K {}", case.command)).is(0, "", "");
    assert_eq!(files(&folder), case.behind);
    let drafts = drafts(&folder);
    assert_eq!((drafts.len(), folder.read(&drafts[0])), (1, b"half".to_vec()));
}

/// Whatever a file holds by the time that it would be replaced stays, unless it is what was judged.
#[test]
fn files_that_change_meanwhile() {
    for case in COMMANDS.map(|command| Case::new("meanwhile", command)) {
        for target in case.targets() {
            // When the draft is there, and when it is whole.
            for call in ["open64", "fsync"] {
                change_meanwhile(&case, target, call);
            }
        }
    }
}

fn change_meanwhile(case: &Case, target: &str, call: &str) {
    let run = |intrusion: &str| {
        let folder = case.folder();
        let fault = format!("{call} 1 run 0 .{target}.keeper-*");
        let (run, struck) = with_faults(&folder, &case.arguments(), &[&fault], &format!("{intrusion} {target}"));
        let what = format!("{}: {intrusion} {target}, behind {call}", case.command);
        assert_eq!((struck.len(), drafts(&folder)), (1, Vec::new()), "{what}");
        (folder, run, what)
    };
    let changed = format!("{}: cannot be written: it was changed meanwhile\n", case.said(target));
    let (folder, refused, what) = run("printf intruder >");
    assert_eq!((refused.status, &refused.err), (Some(2), &changed), "{what}");
    assert_eq!(folder.read(target), b"intruder", "{what}");
    // The other room's file is written all the same.
    for (name, (_, bytes)) in case.behind.iter().filter(|(name, _)| *name != target) {
        assert_eq!(&folder.read(name), bytes, "{what}: {name}");
    }
    drop(folder);
    if case.before.contains_key(target) {
        let (folder, refused, what) = run("rm");
        assert_eq!((refused.status, &refused.err), (Some(2), &changed), "{what}");
        assert!(!folder.path(target).exists(), "{what}");
    } else {
        let (folder, refused, what) = run("mkdir");
        let directory = format!("{}: cannot be read: it is not a regular file\n", case.said(target));
        assert_eq!((refused.status, refused.err), (Some(2), directory), "{what}");
        assert!(folder.path(target).is_dir(), "{what}");
    }
}

/// A file whose group cannot be kept stays: another group could read or write the new one.
#[test]
fn a_group_that_cannot_be_kept() {
    let case = Case::new("group", "update .");
    let folder = case.folder();
    let fault = "fchown 1 fail 1 .rota.network.keeper-*";
    let (run, struck) = with_faults(&folder, &case.arguments(), &[fault, fault], "");
    assert_eq!((struck.len(), run.status), (2, Some(2)), "{run:?}");
    assert_eq!(run.err, "./rota.network: cannot be written: operation not permitted\n");
    assert_eq!((files(&folder).get("rota.network"), drafts(&folder)), (case.before.get("rota.network"), Vec::new()));
}

/// Of two runs at once the second finds its work done.
#[test]
fn another_run_that_does_the_same() {
    for case in COMMANDS.map(|command| Case::new("same", command)) {
        for target in case.targets() {
            let folder = case.folder();
            let fault = format!("fsync 1 run 0 .{target}.keeper-*");
            let same = format!("cp -p .{target}.keeper-* {target}");
            let (run, struck) = with_faults(&folder, &case.arguments(), &[&fault], &same);
            assert_eq!((struck.len(), run.status), (1, Some(0)), "{}: {run:?}", case.command);
            assert_eq!((files(&folder), drafts(&folder)), (case.behind.clone(), Vec::new()), "{}", case.command);
        }
    }
}

#[test]
fn a_mode_that_cannot_be_asked_for() {
    for case in COMMANDS.map(|command| Case::new("mode", command)) {
        strike(&case, "statx", BROKEN.0, |Faulty { folder, run, what, .. }| {
            assert_eq!(drafts(folder), [""; 0], "{what}");
            assert!(run.status == Some(2) || run.status == Some(0) && files(folder) == case.behind, "{what}");
        });
    }
}

#[test]
fn a_drawing_whose_text_cannot_be_read() {
    strike_all("draw -q rota.table -o rota.svg");
}

/// Behind a link any file may stand: a room's network may be another room's text.
#[test]
fn links_are_not_written_through() {
    let folder = Folder::with_examples("faults link");
    symlink("alarm.txt", folder.path("rota.network")).unwrap();
    folder.write("rota.txt", &example("alarm.txt"));
    let text = "rota.txt: makes another table than the one beside it: it has 3 conditions, the table 2\n\
                1 room: 1 not written; 1 text or spreadsheet to look at\n";
    let kept = "rota.network: cannot be written: it is a link\n";
    folder.keeper(&["update", "rota.table"]).is(2, text, kept);
    symlink("rota.table", folder.path("link.table")).unwrap();
    let kept = "link.table: cannot be written: it is a link\n";
    folder.keeper(&["make", "alarm.txt", "-o", "link.table"]).is(2, "", kept);
    symlink("nowhere", folder.path("to_nowhere.table")).unwrap();
    let kept = "to_nowhere.table: cannot be read: no such file or directory\n";
    folder.keeper(&["make", "alarm.txt", "-o", "to_nowhere.table"]).is(2, "", kept);
    for link in ["rota.network", "link.table", "to_nowhere.table"] {
        assert!(fs::symlink_metadata(folder.path(link)).unwrap().is_symlink(), "{link}");
    }
    for name in ["alarm.txt", "rota.table"] {
        assert_eq!(folder.read(name), example(name));
    }
    assert_eq!(drafts(&folder), [""; 0]);
}

#[test]
fn a_text_alone_that_cannot_be_read() {
    let folder = Folder::with_examples("faults alone");
    folder.keeper(&["update", "-q", "."]).is(0, "", "");
    fs::remove_file(folder.path("rota.table")).unwrap();
    fs::remove_file(folder.path("rota.network")).unwrap();
    for call in ["open64", "read"] {
        let (run, struck) = with_faults(&folder, &["check", "."], &[&format!("{call} 1 fail 5 rota.txt")], "");
        assert_eq!((struck.len(), run.status), (1, Some(2)), "{run:?}");
        assert_eq!(run.err, "./rota.txt: cannot be read: input/output error\n");
    }
}

/// Nodes of the test's own folder, never those of the machine: a program that is wrong, run by root, replaces them.
#[test]
fn what_is_no_file_stays() {
    let folder = Folder::with_examples("faults nodes");
    // Only root can make a device.
    assert_eq!(folder.shell("mkfifo pipe rota.network; mknod null c 1 3 2> /dev/null; true").status, Some(0));
    let kinds =
        || -> Vec<_> { folder.names().iter().map(|name| fs::metadata(folder.path(name)).unwrap().mode()).collect() };
    let before = (folder.names(), kinds());
    let nodes = ["pipe", "null"].into_iter().filter(|name| folder.path(name).exists());
    for command in
        nodes.map(|name| format!("compile -q alarm.table -o {name}")).chain(["update rota.table".to_string()])
    {
        let run = folder.shell(&format!("timeout 20 $K {command}"));
        assert_eq!((run.status, run.err.lines().count()), (Some(2), 1), "{command}: {run:?}");
        assert_eq!((folder.names(), kinds()), before, "{command}");
    }
}

const PARITY: usize = 8;

/// A room whose network has some thousand bytes, with another network beside it.
fn large(name: &str) -> Folder {
    let folder = Folder::new(name);
    let mut text: String = (0..PARITY).map(|i| format!("condition c{i} 0 1\n")).collect();
    text += "grades 0 1\n";
    for cell in 0..1u32 << PARITY {
        let values: Vec<String> = (0..PARITY).map(|i| ((cell >> i) & 1).to_string()).collect();
        text += &format!("{} {}\n", values.join(" "), cell.count_ones() % 2);
    }
    folder.write("room.txt", text.as_bytes());
    folder.keeper(&["make", "room.txt", "-o", "room.table"]).is(0, "", "");
    folder.write("room.network", &CONSTANT);
    folder
}

/// Every command, on a folder with the files before an update.
const ALL: [&str; 13] = [
    "make rota.txt",
    "show rota.table",
    "compile rota.table",
    "list rota.table",
    "list rota.network",
    "draw rota.table",
    "evaluate rota.table rota.network on day",
    "forecast rota.table",
    "import .",
    "export .",
    "check .",
    "update .",
    "--help",
];

#[test]
fn standard_output_that_is_full() {
    let case = Case::new("full", "update .");
    for command in ALL {
        let folder = case.folder();
        let run = folder.shell(&format!("$K {command} > /dev/full"));
        run.is(2, "", "standard output: cannot be written: no space left on device\n");
        assert_eq!(drafts(&folder), [""; 0], "{command}");
        folder.shell(&format!("$K {command} > /dev/full 2> /dev/full")).is(2, "", "");
        if command == "update ." {
            assert_eq!(files(&folder), case.behind, "nothing can be said, and the work is done");
        }
    }
}

#[test]
fn standard_error_that_is_full() {
    let case = Case::new("complaints", "update .");
    for command in ALL.into_iter().chain(["list none.table", "check none", "update none", "import none", "make"]) {
        let run = |redirection: &str| case.folder().shell(&format!("$K {command} {redirection}"));
        let (said, unsaid) = (run(""), run("2> /dev/full"));
        assert_eq!((unsaid.status, unsaid.bytes, unsaid.err.as_str()), (said.status, said.bytes, ""), "{command}");
    }
    let folder = case.folder();
    folder.write(".rota.network.keeper-1-0", b"half");
    let run = folder.shell("$K update . 2> /dev/full");
    assert_eq!((run.status, files(&folder)), (Some(0), case.behind));
}

#[test]
fn a_reader_that_leaves() {
    let folder = large("faults reader");
    let run = folder.shell("$K list room.table | head -n 1; exit ${PIPESTATUS[1]}");
    assert_eq!((run.status, run.out.lines().count(), run.err.as_str()), (Some(0), 1, ""));
    // One that has left: the pipe's only reader is closed.
    let case = Case::new("reader", "update .");
    for command in ALL {
        let folder = case.folder();
        let line = format!("mkfifo ../reader; exec 3<> ../reader 4> ../reader 3>&-; rm ../reader; $K {command} >&4");
        folder.shell(&line).is(2, "", "");
        assert_eq!(drafts(&folder), [""; 0], "{command}");
        if command == "update ." {
            assert_eq!(files(&folder), case.behind, "nobody reads, and the work is done");
        }
    }
}

#[test]
fn a_file_that_may_not_grow() {
    let folder = large("faults limit");
    let names = folder.names();
    // 1,024 bytes: the write fails with part of the network written.
    let failed = folder.shell("trap '' XFSZ; ulimit -f 1; $K update .");
    failed.is(2, "1 room: 1 not written\n", "./room.network: cannot be written: file too large\n");
    assert_eq!((folder.names(), folder.read("room.network")), (names, CONSTANT.to_vec()));
    // Without the trap the signal kills the program there.
    let killed = folder.shell("ulimit -f 1; ulimit -c 0; exec $K update .");
    assert_eq!((killed.status, folder.read("room.network")), (None, CONSTANT.to_vec()), "{killed:?}");
    let drafts = drafts(&folder);
    assert_eq!((drafts.len(), folder.read(&drafts[0]).len()), (1, 1024));
    let again = folder.keeper(&["update", "."]);
    assert_eq!((again.status, again.err), (Some(0), noted(&drafts)));
    let checked = folder.keeper(&["check", "."]);
    assert_eq!((checked.status, checked.out.as_str()), (Some(0), "1 room: 1 within\n"));
}

/// A folder that every user can reach, and the program in it: the project may stand where only its owner can.
fn anywhere(name: &str) -> Folder {
    let path = env::temp_dir().join(format!("keeper-{name}-{}", process::id()));
    fs::create_dir(&path).unwrap();
    let folder = Folder(path);
    fs::copy(program(), folder.path("keeper")).unwrap();
    for file in ["rota.txt", "rota.table", "alarm.txt", "alarm.table"] {
        folder.write(file, &example(file));
    }
    folder.keeper(&["update", "-q", "."]).is(0, "", "");
    fs::set_permissions(&folder.0, Permissions::from_mode(0o755)).unwrap();
    folder
}

fn set_mode(folder: &Folder, name: &str, mode: u32) {
    fs::set_permissions(folder.path(name), Permissions::from_mode(mode)).unwrap();
}

/// The program as a user who may not read and write everything.
fn as_another(folder: &Folder, arguments: &[&str]) -> Run {
    let mut command = Command::new(folder.path("keeper"));
    command.args(arguments).current_dir(&folder.0);
    if fs::metadata("/proc/self").is_ok_and(|own| own.uid() == 0) {
        command.uid(65_534).gid(65_534);
    }
    Run::of(&mut command)
}

#[test]
fn a_folder_that_cannot_be_written() {
    let folder = anywhere("folder");
    folder.write("rota.network", &CONSTANT);
    let before = files(&folder);
    set_mode(&folder, ".", 0o555);
    let update = as_another(&folder, &["update", "."]);
    let export = as_another(&folder, &["export", "alarm.table"]);
    let draw = as_another(&folder, &["draw", "rota.table", "-o", "rota.svg"]);
    set_mode(&folder, ".", 0o755);
    let denied = |name: &str| format!("{name}: cannot be written: permission denied\n");
    update.is(2, "2 rooms: 1 up to date, 1 not written\n", &denied("./rota.network"));
    export.is(2, "1 file: 1 not written\n", &denied("alarm.spreadsheet"));
    draw.is(2, "", &denied("rota.svg"));
    assert!(files(&folder) == before);
}

/// Whoever may write to a folder may replace its files, and may still not write to them.
#[test]
fn a_file_of_another_user() {
    let folder = anywhere("owner");
    folder.write("rota.network", &CONSTANT);
    let before = files(&folder);
    set_mode(&folder, ".", 0o777);
    let run = as_another(&folder, &["update", "."]);
    if fs::metadata("/proc/self").is_ok_and(|own| own.uid() == 0) {
        let denied = "./rota.network: cannot be written: permission denied\n";
        run.is(2, "2 rooms: 1 up to date, 1 not written\n", denied);
        assert!(files(&folder) == before);
        // The group stays where only that can be had.
        chown(folder.path("rota.network"), None, Some(65_534)).unwrap();
        set_mode(&folder, "rota.network", 0o664);
        assert_eq!(as_another(&folder, &["-q", "update", "."]).status, Some(0));
        let now = fs::metadata(folder.path("rota.network")).unwrap();
        assert_eq!((now.gid(), now.mode() & 0o777), (65_534, 0o664));
    }
}

#[test]
fn files_that_cannot_be_read() {
    let folder = anywhere("files");
    let unread = |name: &str| format!("./{name}: cannot be read: permission denied\n");
    for command in ["check", "update"] {
        let well = if command == "check" { "within" } else { "up to date" };
        set_mode(&folder, "rota.table", 0);
        set_mode(&folder, "alarm.network", 0);
        let both = unread("alarm.network") + &unread("rota.table");
        as_another(&folder, &[command, "."]).is(2, "2 rooms: 2 unreadable\n", &both);
        set_mode(&folder, "rota.table", 0o644);
        let one = format!("2 rooms: 1 {well}, 1 unreadable\n");
        as_another(&folder, &[command, "."]).is(2, &one, &unread("alarm.network"));
        set_mode(&folder, "alarm.network", 0o644);
        set_mode(&folder, "rota.txt", 0);
        let run = as_another(&folder, &[command, "."]);
        assert_eq!((run.status, run.err), (Some(2), unread("rota.txt")));
        set_mode(&folder, "rota.txt", 0o644);
    }
    // A folder within: its rooms are not known.
    fs::create_dir(folder.path("wing")).unwrap();
    set_mode(&folder, "wing", 0);
    as_another(&folder, &["check", "."]).is(2, "2 rooms: 2 within\n", &unread("wing"));
    let run = as_another(&folder, &["export", "rota.table", "wing"]);
    assert_eq!((run.status, run.err.starts_with("wing: cannot be read: permission denied\n")), (Some(2), true));
    set_mode(&folder, "wing", 0o755);
}

/// Where no thread is to be had, one does the work.
#[test]
fn a_user_without_threads() {
    let folder = anywhere("threads");
    let mut command = Command::new("bash");
    command.args(["-c", "ulimit -u 1; exec ./keeper check ."]).current_dir(&folder.0);
    if fs::metadata("/proc/self").is_ok_and(|own| own.uid() == 0) {
        command.uid(65_534).gid(65_534);
    }
    Run::of(&mut command).is(0, "2 rooms: 2 within\n", "");
}

#[test]
fn files_that_are_far_too_long() {
    let folder = Folder::with_examples("faults long");
    // Zeros to 16 mebibytes and more, and a comment as long.
    let long = "cannot be read: it has more than 16 mebibytes";
    for (command, name, filling) in [("make", "rota.txt", b' '), ("list", "rota.table", 0)] {
        let mut bytes = folder.read(name);
        bytes.resize((1 << 24) + 1, filling);
        folder.write(name, &bytes);
        folder.keeper(&[command, name]).is(2, "", &format!("{name}: {long}\n"));
    }
    // What never ends.
    for command in ["make", "list", "compile"] {
        folder.keeper(&[command, "/dev/zero"]).is(2, "", &format!("/dev/zero: {long}\n"));
    }
}

#[test]
fn files_that_are_there() {
    let folder = Folder::with_examples("faults there");
    // What is not a network is not replaced by one, nor a text by another.
    let kept = "alarm.txt: there is a file that is not a network of this table: not replaced\n";
    folder.keeper(&["compile", "alarm.table", "-o", "alarm.txt"]).is(2, "", kept);
    let kept = "alarm.txt: there is a file that is not this text: not replaced\n";
    folder.keeper(&["show", "alarm.table", "-o", "alarm.txt"]).is(2, "", kept);
    let kept = "alarm.txt: there is a file that the library refuses: not replaced\n";
    let not_written = "1 file: 1 not written\n";
    folder.keeper(&["export", "alarm.table", "-o", "alarm.txt"]).is(2, not_written, kept);
    assert_eq!(folder.read("alarm.txt"), example("alarm.txt"));
    // A table is replaced by a table; its mode stays.
    set_mode(&folder, "rota.table", 0o640);
    let replaced = "rota.table: replaced; before: a table with other conditions or grades\n";
    folder.keeper(&["make", "alarm.txt", "-o", "rota.table"]).is(0, "", replaced);
    assert_eq!(files(&folder)["rota.table"], (0o640, example("alarm.table")));
    // An owner stays, where it is not ours and that can be had.
    if chown(folder.path("rota.table"), Some(65_534), Some(65_534)).is_ok() {
        folder.keeper(&["-q", "make", "rota.txt", "-o", "rota.table"]).is(0, "", "");
        folder.keeper(&["-q", "make", "alarm.txt", "-o", "rota.table"]).is(0, "", "");
        assert_eq!(fs::metadata(folder.path("rota.table")).unwrap().uid(), 65_534);
    }
    // What is empty has nothing to lose.
    folder.write("empty", b"");
    folder.keeper(&["make", "alarm.txt", "-o", "empty"]).is(0, "", "");
    assert_eq!(folder.read("empty"), example("alarm.table"));
    // A read-only file stays.
    set_mode(&folder, "rota.table", 0o440);
    let kept = "rota.table: cannot be written: it is read-only\n";
    folder.keeper(&["make", "second_key.txt", "-o", "rota.table"]).is(2, "", kept);
    assert_eq!(files(&folder)["rota.table"], (0o440, example("alarm.table")));
    assert_eq!(drafts(&folder), [""; 0]);
}
