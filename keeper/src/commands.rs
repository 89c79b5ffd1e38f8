//! The choice of the command, and the commands on single files.

use std::ffi::OsString;
use std::path::{Path, PathBuf};

use crate::collection::{NETWORK, TABLE, TEXT, beside};
use crate::drawing;
use crate::editions::convert;
use crate::files;
use crate::folders::{check, update};
use crate::judging::{outside, replaced, uncompiled};
use crate::library::{Edition, Network, RECORD, RUN_STACK_BYTES, Refusal, Shape, Table, Verdict};
use crate::listing;
use crate::names::{Condition, Names, count, many};
use crate::options::{DONE, FAILED, FOUND, Options, Stop, about, complain, options, print, said, shown, stop};
use crate::refusals;
use crate::text;

pub const HELP: &str = "\
keeper: tables of rooms, their networks, and collections of them

  keeper make ROOM.txt                       the table file that a text stands for
  keeper show ROOM.table [ROOM.txt]          a table as text; keeper make of it gives the same file
  keeper compile ROOM.table                  the table's network
  keeper list ROOM.table|ROOM.network [ROOM.txt]
                                             the network's records in words
  keeper draw ROOM.table|ROOM.network [ROOM.txt]
                                             the network as a drawing (SVG)
  keeper evaluate ROOM.table ROOM.network VALUE..
                                             the grade of one visit: a value of each condition, in their order
  keeper forecast ROOM.table                 how large the network will be: records, depth, bytes of panel memory
  keeper import FILE|FOLDER..                the table of each export of the spreadsheet: ROOM.spreadsheet to ROOM.table
  keeper export FILE|FOLDER..                each table as the spreadsheet has it: ROOM.table to ROOM.spreadsheet
  keeper check FOLDER|FILE..                 is every network within its table's limits? A file stands for its room
  keeper update FOLDER|FILE..                compiles every network that is missing or not what compiling gives today

  -o FILE, --output FILE    write to FILE, whole or not at all: make, show, compile, list and draw instead of to
                            standard output, import and export instead of beside the file
  --text FILE               names from this text; else from the text beside the table, ROOM.txt, if there is one
  --table FILE              list, draw: the table of a network; else the one beside it, ROOM.table
  -q, --quiet               no summary, no progress, no notes, no lines about files that were written
  --                        what comes behind it is no option

Status: 0 all well; 1 something is refused, outside or missing; 2 wrong use, or a file that cannot be read or written.
Records, their bytes and cells are counted from 0, lines of a text from 1.

This program is not proved. Every judgement on a table or a network is an answer of the proved library.
";

/// Runs the program with its arguments, its own name aside.
pub fn run(arguments: impl Iterator<Item = OsString>) -> u8 {
    match command(arguments) {
        Ok(status) => status,
        Err(Stop { lines, status }) => {
            for line in lines {
                complain(&line);
            }
            status
        }
    }
}

/// The options that a command has, beside `--quiet`.
fn options_of(command: &str) -> &'static [&'static str] {
    match command {
        "make" | "compile" | "import" | "export" => &["--output"],
        "show" => &["--output", "--text"],
        "list" | "draw" => &["--output", "--text", "--table"],
        "evaluate" => &["--text"],
        _ => &[],
    }
}

fn command(arguments: impl Iterator<Item = OsString>) -> Result<u8, Stop> {
    let (options, words) = options(arguments)?;
    let Some((command, words)) = words.split_first() else {
        return stop(FAILED, HELP.trim_end());
    };
    let name = command.to_str().unwrap_or("");
    let paths: Vec<PathBuf> = words.iter().map(PathBuf::from).collect();
    if usage(name).is_some() {
        options.only(name, options_of(name))?;
    }
    match (name, paths.as_slice()) {
        ("help", _) => print(HELP.as_bytes()),
        ("make", [text]) => make(&options, text),
        ("show", [table]) => show(&options, table),
        ("show", [table, text]) => show(&options.with_text(text)?, table),
        ("compile", [table]) => compile(&options, table),
        ("list", [file]) => list(&options, file),
        ("list", [file, text]) => list(&options.with_text(text)?, file),
        ("draw", [file]) => draw(&options, file),
        ("draw", [file, text]) => draw(&options.with_text(text)?, file),
        ("evaluate", [table, network, ..]) => evaluate(&options, table, network, &words[2..]),
        ("forecast", [table]) => forecast(table),
        ("import", files @ [_, ..]) => convert(&options, Edition::Sets, files),
        ("export", files @ [_, ..]) => convert(&options, Edition::Limits, files),
        ("check", folders @ [_, ..]) => check(&options, folders),
        ("update", folders @ [_, ..]) => update(&options, folders),
        (known, _) => match usage(known) {
            Some(usage) => stop(FAILED, format!("keeper: wrong use of {known}; it is {usage}")),
            None => stop(FAILED, format!("keeper: no command {}; see keeper --help", shown(command))),
        },
    }
}

/// How a command is used, from the help.
fn usage(command: &str) -> Option<&'static str> {
    let line = HELP.lines().find(|line| line.starts_with(&format!("  keeper {command} ")))?;
    line.trim_start().split("  ").next()
}

fn read(path: &Path) -> Result<Vec<u8>, Stop> {
    files::read(path).or_else(|what| about(FAILED, path, what))
}

fn parse(path: &Path) -> Result<text::Text, Stop> {
    let bytes = read(path)?;
    if Table::read(&bytes).is_ok() {
        return about(FOUND, path, "a table, and not a text; see keeper show");
    }
    text::parse(&bytes).map_err(|faults| Stop {
        lines: faults.iter().map(|fault| said(path, &fault.to_string())).collect(),
        status: FOUND,
    })
}

fn read_table(path: &Path) -> Result<(Vec<u8>, Table), Stop> {
    let file = read(path)?;
    match Table::read(&file) {
        Ok(table) => Ok((file, table)),
        Err(_) if text::is_table_text(&file) => about(FOUND, path, "a text, and not a table; see keeper make"),
        Err(_) if has_ending(path, NETWORK) => about(FOUND, path, "a network, and not a table"),
        Err(_) => about(FOUND, path, refusals::in_words(refusals::of_table(Edition::Limits, &file))),
    }
}

fn compiled(path: &Path, table: &Table) -> Result<Network, Stop> {
    table.compile().or_else(|refusal| about(FOUND, path, uncompiled(refusal.0)))
}

fn read_network(path: &Path, table: &Table) -> Result<Network, Stop> {
    let bytes = read(path)?;
    Network::read(&bytes, table.shape()).or_else(|_| match Table::read(&bytes) {
        Ok(_) => about(FOUND, path, "a table, and not a network; see keeper compile"),
        Err(_) => about(FOUND, path, refusals::in_words(refusals::of_network(&bytes, table.shape()))),
    })
}

fn has_ending(path: &Path, ending: &str) -> bool {
    path.extension().is_some_and(|own| own == ending)
}

/// The names of a table: those of the text given, which has to fit; or else of the text beside it. If that does not fit,
/// `unfit` says what to do.
fn names(
    options: &Options,
    table: &Path,
    shape: &Shape,
    unfit: impl Fn(&Path, &str) -> Result<(), Stop>,
) -> Result<Names, Stop> {
    if let Some(path) = &options.text {
        let names = parse(path)?.names;
        return match names.misfit(shape) {
            Some(misfit) => about(FOUND, path, format!("not the text of {}: {misfit}", shown(table))),
            None => Ok(names),
        };
    }
    let text = beside(table, TEXT);
    let bytes = files::read_if_there(&text).or_else(|why| about(FAILED, &text, why))?;
    match bytes.map(|bytes| text::names_for(&bytes, shape)) {
        Some(Ok(names)) => return Ok(names),
        Some(Err(why)) => unfit(&text, &format!("its names are not used: {why}"))?,
        None => {}
    }
    Ok(Names::numbered(shape))
}

/// The names for what is to be read: numbers will do.
fn names_or_numbers(options: &Options, table: &Path, shape: &Shape) -> Result<Names, Stop> {
    names(options, table, shape, |text, why| {
        options.note(text, why);
        Ok(())
    })
}

fn make(options: &Options, path: &Path) -> Result<u8, Stop> {
    let text::Text { names, file, unlisted } = parse(path)?;
    let table = Table::read(&file).or_else(|refusal| about(FOUND, path, format!("refused (refusal {})", refusal.0)))?;
    let before = |old: &[u8]| Table::read(old).ok().map(|old| replaced(&old, &table, &names));
    let status = options.write_bytes(&file, "a table", before)?;
    if let Some((first, cells)) = unlisted {
        let (cell, limits) = (names.combination(table.shape(), first), names.limits(&table, first));
        let are = if cells == 1 { "is in no line:" } else { "are in no line, the first" };
        options.note(path, &format!("{} {are} {cell}; a visit there leaves {limits}", many(cells, "cell")));
    }
    Ok(status)
}

fn show(options: &Options, path: &Path) -> Result<u8, Stop> {
    let (file, table) = read_table(path)?;
    let names = names_or_numbers(options, path, table.shape())?;
    options.write(text::print(&file, &table, &names).as_bytes(), "this text", |_| None)
}

fn compile(options: &Options, path: &Path) -> Result<u8, Stop> {
    let (_, table) = read_table(path)?;
    let network = compiled(path, &table)?;
    let before = |old: &[u8]| Network::read(old, table.shape()).ok().map(|_| "another network".to_string());
    options.write_bytes(network.bytes(), "a network of this table", before)
}

/// The network of a file, which is a network or else a table, and its names.
fn network_of(options: &Options, path: &Path) -> Result<(Network, Names), Stop> {
    if !has_ending(path, NETWORK) && options.table.is_none() {
        let (_, table) = read_table(path)?;
        return Ok((compiled(path, &table)?, names_or_numbers(options, path, table.shape())?));
    }
    let table_path = options.table.clone().unwrap_or_else(|| beside(path, TABLE));
    if options.table.is_none() && !table_path.exists() {
        return about(FAILED, path, format!("its table, {}, is not there; see --table", shown(&table_path)));
    }
    let (_, table) = read_table(&table_path)?;
    Ok((read_network(path, &table)?, names_or_numbers(options, &table_path, table.shape())?))
}

fn list(options: &Options, path: &Path) -> Result<u8, Stop> {
    let (network, names) = network_of(options, path)?;
    options.write(listing::list(&network, &names).as_bytes(), "this list", |_| None)
}

fn draw(options: &Options, path: &Path) -> Result<u8, Stop> {
    let (network, names) = network_of(options, path)?;
    let title = path.file_stem().map(|stem| stem.to_string_lossy().into_owned()).unwrap_or_default();
    if let Some(why) = drawing::hard_to_read(&network.records()) {
        options.note(path, &why);
    }
    let before = |old: &[u8]| drawing::is_drawing(old).then(|| "another drawing".to_string());
    options.write(drawing::draw(&network, &names, &title).as_bytes(), "a drawing of keeper's", before)
}

fn forecast(path: &Path) -> Result<u8, Stop> {
    let (_, table) = read_table(path)?;
    let forecast = table.forecast().or_else(|refusal| about(FOUND, path, uncompiled(refusal.0)))?;
    let (network, work) = (RECORD * forecast.records, forecast.records);
    let lines = format!(
        "{}\n{} deep\n{} bytes of panel memory: {} for the network, {} to run it, up to {} of stack\n",
        many(forecast.records, "record"),
        many(forecast.depth, "gate"),
        count(network + work + RUN_STACK_BYTES),
        count(network),
        count(work),
        count(RUN_STACK_BYTES)
    );
    print(lines.as_bytes())
}

/// The cell of values that are given by name.
fn cell(shape: &Shape, names: &Names, words: &[OsString]) -> Result<usize, String> {
    if words.len() != shape.conditions() {
        let condition = |c: &Condition| format!("{} ({})", c.name, c.values.join(", "));
        let wanted: Vec<String> = names.conditions.iter().map(condition).collect();
        let wanted = if wanted.is_empty() { "it has no conditions".to_string() } else { wanted.join("; ") };
        return Err(format!("{} wanted, {} given: {wanted}", many(shape.conditions(), "value"), words.len()));
    }
    let value = |(condition, word): (&Condition, &OsString)| {
        let value = condition.values.iter().position(|value| value.as_str() == word);
        value.ok_or_else(|| condition.has_no(&shown(word)))
    };
    let values: Vec<usize> = names.conditions.iter().zip(words).map(value).collect::<Result<_, _>>()?;
    Ok(shape.cell(&values))
}

fn evaluate(options: &Options, table_path: &Path, network_path: &Path, words: &[OsString]) -> Result<u8, Stop> {
    let (_, table) = read_table(table_path)?;
    let network = read_network(network_path, &table)?;
    // Values are given by name, so a text at fault cannot be passed over.
    let names = names(options, table_path, table.shape(), |text, why| about(FOUND, text, why))?;
    let cell = cell(table.shape(), &names, words).or_else(|what| about(FAILED, table_path, what))?;
    let refused = |Refusal(number)| Stop {
        lines: vec![said(network_path, &format!("refused (refusal {number})"))],
        status: FOUND,
    };
    let grade = network.evaluate(cell).map_err(refused)?;
    print(format!("{} (allowed: {})\n", names.grades[grade], names.limits(&table, cell)).as_bytes())?;
    match table.only_at(cell).check(network.bytes()).map_err(refused)? {
        Verdict::Within => Ok(DONE),
        Verdict::Outside { cell, grade } => about(FOUND, network_path, outside(&table, &names, cell, grade)),
    }
}
