//! Runs the programs, each time as a process of its own, and compares what they print, byte for byte: the listings of
//! `grades` with the oracle's and with those that the documents print, the files of `to_spreadsheet` and
//! `from_spreadsheet` with those that the oracle writes. The records that docs/FORMAT.md shows are held to the example's
//! files and to the oracle's network.
//!
//! The environment variable GRADES_PROGRAMS names the folder of the programs, else it is target/bin. This and the
//! documents are found from the repository's root.

use crate::random::Random;
use crate::session::Outcome;
use crate::tables::{cardinality_lists, damage, some_table};
use calls::Edition;
use calls::tables::OwnedTable;
use oracle::listing::listing;
use oracle::stages::{Lent, Settings};
use oracle::{Answer, file, network};
use std::collections::BTreeSet;
use std::fs::{self, File};
use std::io::{self, Read, Seek, SeekFrom, Write};
use std::mem;
use std::path::PathBuf;
use std::process::{Command, Output, Stdio};
use std::thread;
use std::time::Duration;

/// The table E of document 01, and the listing that it prints whole.
const E: [(u8, u8); 4] = [(0, 0), (1, 1), (1, 1), (0, 0)];
const LISTING_OF_E: &str = "0 L 0 1 0\n1 L 1 0 1\n2 MIN 0 1\n3 L 0 0 1\n4 L 1 1 0\n5 MIN 3 4\n6 MAX 2 5\nrecords 7\n";

/// Bytes that a report shows of what was printed.
const SHOWN: usize = 64;

/// What is expected of a program.
struct Expected {
    name: &'static str,
    /// The edition of the files that it takes.
    takes: Edition,
    /// What it prints for a file on standard output, or the refusal.
    answers: fn(&[u8]) -> Answer<Vec<u8>>,
    /// A refusal goes to standard error, and not to standard output.
    refuses_apart: bool,
    /// What it calls its output where that cannot be written.
    output: &'static str,
    /// The refusals that its files can get.
    refusals: &'static [u32],
}

const EXPECTED: [Expected; 3] = [
    Expected {
        name: "grades",
        takes: Edition::Limits,
        answers: |bytes| listing(bytes).map(String::into_bytes),
        refuses_apart: false,
        output: "listing",
        refusals: &[1, 2, 3, 4, 5, 6],
    },
    Expected {
        name: "to_spreadsheet",
        takes: Edition::Limits,
        answers: |bytes| file::convert(file::Edition::Limits, bytes, usize::MAX),
        refuses_apart: true,
        output: "file",
        refusals: &[1, 2, 3, 4, 5, 6],
    },
    Expected {
        name: "from_spreadsheet",
        takes: Edition::Sets,
        answers: |bytes| file::convert(file::Edition::Sets, bytes, usize::MAX),
        refuses_apart: true,
        output: "file",
        refusals: &[1, 2, 3, 4, 6, 13],
    },
];

/// What a program prints on standard output, and on standard error.
struct Printed {
    output: Vec<u8>,
    error: String,
}

impl Expected {
    fn printed(&self, answer: Answer<Vec<u8>>) -> Printed {
        match answer {
            Ok(output) => Printed { output, error: String::new() },
            Err(number) if self.refuses_apart => Printed { output: vec![], error: format!("refused {number}\n") },
            Err(number) => Printed { output: format!("refused {number}\n").into_bytes(), error: String::new() },
        }
    }

    /// The line on standard error where input or output fails.
    fn complaint(&self, what: &str) -> String {
        format!("{}: {what} to its end\n", self.name)
    }
}

/// A program, and the files that it has been run on.
pub struct Program {
    expected: Expected,
    path: PathBuf,
    random: Random,
    pub files: u64,
    seen: BTreeSet<u32>,
}

/// All programs, each to be run on the files that this seed decides.
pub fn each(seed: u64) -> [Program; 3] {
    let named = std::env::var_os("GRADES_PROGRAMS").filter(|folder| !folder.is_empty());
    let folder = PathBuf::from(named.unwrap_or("target/bin".into()));
    EXPECTED.map(|expected| {
        let path = folder.join(expected.name);
        Program { expected, path, random: Random::new(seed), files: 0, seen: BTreeSet::new() }
    })
}

/// Says what was being done when an error came up.
fn during<T>(what: &str, result: io::Result<T>) -> Outcome<T> {
    result.map_err(|error| format!("{what}: {error}"))
}

/// The name of a table file, if the line has one.
fn table_named(line: &str) -> Option<&str> {
    let words = line.split(|letter: char| !letter.is_alphanumeric() && letter != '_' && letter != '.');
    words.rev().find(|word| word.ends_with(".table"))
}

/// The indented blocks of a document, each with the table file that the document named last.
fn blocks(text: &str) -> Vec<(&str, String)> {
    let mut found = vec![];
    let mut named = "";
    let mut block = String::new();
    for line in text.lines().chain([""]) {
        if let Some(code) = line.strip_prefix("    ") {
            block += &format!("{code}\n");
        } else if !block.is_empty() {
            found.push((named, mem::take(&mut block)));
        }
        named = table_named(line).unwrap_or(named);
    }
    found
}

/// The listings that a document prints: the blocks that end with the number of records.
fn listings(text: &str) -> Vec<(&str, String)> {
    let ends = |block: &str| block.lines().last().is_some_and(|last| last.starts_with("records "));
    blocks(text).into_iter().filter(|(_, block)| ends(block)).collect()
}

/// Records as docs/FORMAT.md shows them, without the words behind each.
fn hexadecimal(bytes: &[u8]) -> String {
    let line = |record: &[u8]| record.iter().map(|byte| format!("{byte:02x}")).collect::<Vec<_>>().join(" ") + "\n";
    bytes.chunks(16).map(line).collect()
}

/// The bytes of the network that the oracle compiles for a table file.
fn network_of(bytes: &[u8]) -> Answer<Vec<u8>> {
    let read = file::read(bytes, usize::MAX, usize::MAX, usize::MAX)?;
    let mut lent = Lent::new(&read.shape, &read.lower, &read.upper, usize::MAX);
    lent.compile(Settings::USUAL, usize::MAX).map(network::bytes)
}

/// The blocks of docs/FORMAT.md, all of them records: the example's table, its cell 3 in the other edition, its network.
fn shown_records() -> Outcome<()> {
    let [document, table, sets] = ["docs/FORMAT.md", "examples/rota.table", "examples/rota.spreadsheet"];
    let text = during(document, fs::read_to_string(document))?;
    let bytes = during(table, fs::read(table))?;
    let other = during(sets, fs::read(sets))?;
    // Two conditions and the grades come before the cells. Any record would not do: cell 5 has the same set.
    let cell = other.chunks(16).nth(3 + 3).unwrap_or_default();
    let network = network_of(&bytes).map_err(|number| format!("{table}: refused {number}"))?;
    let wanted = [(table, &bytes[..]), ("cell 3 of examples/rota.spreadsheet", cell), ("the network", &network)];
    let blocks = blocks(&text);
    if blocks.len() != wanted.len() {
        return Err(format!("{document}: {} blocks, expected {} of records", blocks.len(), wanted.len()));
    }
    for ((_, block), (what, bytes)) in blocks.iter().zip(wanted) {
        let record = |line: &str| line.split("    ").take(1).chain(["\n"]).collect::<String>();
        let shown: String = block.lines().map(record).collect();
        if let Some(difference) = difference(shown.as_bytes(), hexadecimal(bytes).as_bytes()) {
            return Err(format!("{document}: {what} is shown as {difference}"));
        }
    }
    Ok(())
}

/// What differs between what was printed and what should have been: where it begins to, and how it goes on from there.
fn difference(printed: &[u8], wanted: &[u8]) -> Option<String> {
    let same = printed.iter().zip(wanted).take_while(|(one, other)| one == other).count();
    let rest = |bytes: &[u8]| bytes[same..bytes.len().min(same + SHOWN)].escape_ascii().to_string();
    let equal = printed.len() == same && wanted.len() == same;
    (!equal).then(|| format!("\"{}\" from byte {same} on, expected \"{}\"", rest(printed), rest(wanted)))
}

/// What is not as expected of a run.
fn fault(output: &Output, wanted: &Printed) -> Option<String> {
    let ended = (!output.status.success()).then(|| format!("ended with {}", output.status));
    let printed = || difference(&output.stdout, &wanted.output).map(|difference| format!("printed {difference}"));
    let error = || difference(&output.stderr, wanted.error.as_bytes());
    ended.or_else(printed).or_else(|| error().map(|difference| format!("on standard error {difference}")))
}

/// The longest file. Record numbers in its network take up to four digits and two bytes.
fn longest_file(edition: Edition) -> Vec<u8> {
    let parity = |values: &[u8]| values.iter().sum::<u8>() % 2;
    let table = OwnedTable::by_rule(&[8, 2, 2, 2, 2, 2, 2, 2], 2, |values| (parity(values), parity(values)));
    table.file_of(edition, || true)
}

fn piped(mut command: Command) -> Command {
    command.stdout(Stdio::piped()).stderr(Stdio::piped());
    command
}

/// Runs the command to its end.
fn run(mut command: Command) -> Outcome<Output> {
    during("the program cannot be run", command.output())
}

/// Runs the command with the bytes on a pipe, written in so many pieces.
fn feed(mut command: Command, bytes: &[u8], pieces: usize) -> Outcome<Output> {
    let mut child = during("the program cannot be run", command.stdin(Stdio::piped()).spawn())?;
    let mut input = child.stdin.take().expect("standard input is a pipe");
    let length = bytes.len().div_ceil(pieces).max(1);
    let output = thread::scope(|scope| {
        scope.spawn(move || {
            for piece in bytes.chunks(length) {
                // A program that has read enough need not wait for the rest.
                if input.write_all(piece).is_err() {
                    break;
                }
                if length < bytes.len() {
                    thread::sleep(Duration::from_millis(1));
                }
            }
        });
        child.wait_with_output()
    });
    during("the program's output cannot be read", output)
}

/// A file that gives a few bytes and then fails to be read: the end of a part of this process's memory.
fn fails_midway() -> Outcome<File> {
    const BYTES: usize = 160;
    let maps = during("/proc/self/maps", fs::read_to_string("/proc/self/maps"))?;
    let before = |end: u64| {
        let mut memory = File::open("/proc/self/mem")?;
        memory.seek(SeekFrom::Start(end - BYTES as u64)).map(|_| memory)
    };
    let fails = |&end: &u64| {
        let mut bytes = [0; BYTES];
        before(end).is_ok_and(|mut memory| memory.read_exact(&mut bytes).is_ok() && memory.read(&mut bytes).is_err())
    };
    let mut ends = maps.lines().filter_map(|line| u64::from_str_radix(line.split(['-', ' ']).nth(1)?, 16).ok());
    let end = ends.find(fails).ok_or("no part of this process's memory ends with bytes that can be read")?;
    during("/proc/self/mem", before(end))
}

impl Program {
    /// Everything that is to be tried.
    pub fn run(&mut self) -> Outcome<()> {
        self.all().map_err(|report| format!("{}: {report}", self.expected.name))
    }

    fn all(&mut self) -> Outcome<()> {
        match self.expected.name {
            "grades" => self.documents()?,
            _ => self.example()?,
        }
        self.failing_input_and_output()?;
        self.lengths()?;
        self.damaged_bytes()?;
        self.every_shape()?;
        match self.expected.refusals.iter().filter(|&number| !self.seen.contains(number)).collect::<Vec<_>>()[..] {
            [] => Ok(()),
            ref unseen => Err(format!("no file was refused with {unseen:?}")),
        }
    }

    fn command(&self) -> Command {
        piped(Command::new(&self.path))
    }

    /// Runs the program with a file as standard input.
    fn on(&self, input: File) -> Outcome<Output> {
        let mut command = self.command();
        command.stdin(input);
        run(command)
    }

    /// The program with one of its descriptors closed, which a shell can do.
    fn with_closed(&self, redirection: &str) -> Command {
        let mut shell = Command::new("sh");
        shell.args(["-c", &format!("exec \"$0\" {redirection}")]).arg(&self.path);
        piped(shell)
    }

    /// Settles a run on a file that gets this answer.
    fn settle(&mut self, file: &str, bytes: &[u8], output: Output, answer: Answer<Vec<u8>>) -> Outcome<()> {
        self.files += 1;
        self.seen.extend(answer.as_ref().err());
        match fault(&output, &self.expected.printed(answer)) {
            None => Ok(()),
            Some(fault) => {
                let head: Vec<String> = bytes.chunks(16).take(12).map(|record| format!("  {record:?}")).collect();
                let length = bytes.len();
                Err(format!("file {}, {file}: {fault}\n  {length} bytes:\n{}", self.files, head.join("\n")))
            }
        }
    }

    /// Runs the program on a file, beside the oracle.
    fn compare(&mut self, file: &str, bytes: &[u8]) -> Outcome<()> {
        let pieces = if self.random.once_in(16) { 1 + self.random.below(5) } else { 1 };
        let output = feed(self.command(), bytes, pieces)?;
        self.settle(file, bytes, output, (self.expected.answers)(bytes))
    }

    /// The records of docs/FORMAT.md; document 01's own listing, and those of README.md and of examples/README.md, which
    /// has one for each example.
    fn documents(&mut self) -> Outcome<()> {
        shown_records()?;
        let table = OwnedTable::by_rule(&[2, 2], 2, |values| E[values[0] as usize + 2 * values[1] as usize]);
        let bytes = table.file(|| true);
        let output = feed(self.command(), &bytes, 1)?;
        self.settle("table E", &bytes, output, Ok(LISTING_OF_E.into()))?;
        let mut examples = vec![];
        for entry in during("examples", fs::read_dir("examples"))? {
            let name = during("examples", entry)?.file_name().to_string_lossy().into_owned();
            examples.extend(name.ends_with(".table").then_some(name));
        }
        for (document, needed) in [("README.md", &[][..]), ("examples/README.md", &examples)] {
            let text = during(document, fs::read_to_string(document))?;
            let listings = listings(&text);
            let listed = |name: &String| listings.iter().any(|(named, _)| named == name);
            if let Some(name) = needed.iter().find(|&name| !listed(name)) {
                return Err(format!("{document}: no listing of {name}"));
            }
            if listings.is_empty() {
                return Err(format!("{document}: no listing"));
            }
            for (name, wanted) in listings {
                let path = format!("examples/{name}");
                let bytes = during(&path, fs::read(&path))?;
                let input = during(&path, File::open(&path))?;
                let output = self.on(input)?;
                self.settle(&format!("{path} of {document}"), &bytes, output, Ok(wanted.into()))?;
                self.compare(&path, &bytes)?;
            }
        }
        // The other files are to have a listing of numbers of every length among them.
        assert!(listing(&longest_file(Edition::Limits)).is_ok_and(|lines| lines.ends_with("records 3055\n")));
        Ok(())
    }

    /// The example that there is in both editions.
    fn example(&mut self) -> Outcome<()> {
        let (from, to) = match self.expected.takes {
            Edition::Limits => ("examples/rota.table", "examples/rota.spreadsheet"),
            Edition::Sets => ("examples/rota.spreadsheet", "examples/rota.table"),
        };
        let bytes = during(from, fs::read(from))?;
        let wanted = during(to, fs::read(to))?;
        let output = self.on(during(from, File::open(from))?)?;
        self.settle(from, &bytes, output, Ok(wanted))
    }

    /// For every list of cardinalities, rising or falling, a table and its file with some damage.
    fn every_shape(&mut self) -> Outcome<()> {
        for mut cards in cardinality_lists() {
            if self.random.once_in(2) {
                cards.reverse();
            }
            let grades = 2 + self.random.below(15) as u8;
            let table = some_table(&cards, grades, &mut self.random);
            let sound = table.file_of(self.expected.takes, || self.random.once_in(2));
            self.compare(&format!("cardinalities {cards:?}"), &sound)?;
            let damaged = damage(&sound, &mut self.random);
            self.compare(&format!("cardinalities {cards:?}, damaged"), &damaged)?;
        }
        Ok(())
    }

    /// A small file with each of its bytes changed, and with each of its records left out or repeated; the same table in
    /// the other edition.
    fn damaged_bytes(&mut self) -> Outcome<()> {
        let table = some_table(&[2, 3], 3, &mut self.random);
        let sound = table.file_of(self.expected.takes, || true);
        for at in 0..sound.len() {
            for value in [sound[at].wrapping_add(1), sound[at].wrapping_sub(1), self.random.byte()] {
                let mut file = sound.clone();
                file[at] = value;
                self.compare(&format!("byte {at} changed"), &file)?;
            }
        }
        for (number, _) in sound.chunks(16).enumerate() {
            let (before, rest) = sound.split_at(16 * number);
            self.compare(&format!("without record {number}"), &[before, &rest[16..]].concat())?;
            self.compare(&format!("record {number} twice"), &[before, &rest[..16], rest].concat())?;
            self.compare(&format!("up to record {number}"), before)?;
        }
        self.compare("the other edition", &table.file_of(self.expected.takes.other(), || true))
    }

    /// The longest file, and files that are longer or end within a record.
    fn lengths(&mut self) -> Outcome<()> {
        let longest = longest_file(self.expected.takes);
        assert!(longest.len() == 16_528);
        self.compare("the longest file", &longest)?;
        for more in [1, 15, 16, 17, 100_000] {
            // What comes after the longest file looks like a record that has been there.
            let rest = longest[longest.len() - 16..].iter().cycle().take(more);
            let file: Vec<u8> = longest.iter().chain(rest).copied().collect();
            self.compare(&format!("the longest file and {more} bytes"), &file)?;
        }
        for length in [0, 1, 15, 16, 17, 143, 145, 16_511, 16_512, 16_513, 16_527] {
            self.compare(&format!("{length} bytes of the longest file"), &longest[..length])?;
        }
        Ok(())
    }

    /// Where reading fails nothing is printed, and where it or writing fails standard error has a line.
    fn failing_input_and_output(&mut self) -> Outcome<()> {
        let unread = Printed { output: vec![], error: self.expected.complaint("standard input was not read") };
        for (case, output) in [
            ("a folder as standard input", self.on(during("examples", File::open("examples"))?)?),
            ("standard input that fails midway", self.on(fails_midway()?)?),
            ("standard input closed", run(self.with_closed("<&-"))?),
        ] {
            if let Some(fault) = fault(&output, &unread) {
                return Err(format!("{case}: {fault}"));
            }
        }
        let sound = some_table(&[2, 3, 2], 4, &mut self.random).file_of(self.expected.takes, || true);
        let longest = longest_file(self.expected.takes);
        for (file, bytes) in [("a table", &sound[..]), ("the longest file", &longest), ("a refused file", &[0])] {
            let mut wanted = self.expected.printed((self.expected.answers)(bytes));
            if !wanted.output.is_empty() {
                wanted.error = self.expected.complaint(&format!("the {} was not written", self.expected.output));
                wanted.output.clear();
            }
            let mut full = self.command();
            full.stdout(during("/dev/full", File::options().write(true).open("/dev/full"))?);
            for (case, command) in [("full", full), ("closed", self.with_closed(">&-"))] {
                if let Some(fault) = fault(&feed(command, bytes, 1)?, &wanted) {
                    return Err(format!("{file}, standard output {case}: {fault}"));
                }
            }
        }
        Ok(())
    }
}
