//! How many rooms a second the program keeper updates and checks, beside the library's own time on the same bytes.

use crate::cases::room;
use crate::report::grouped;
use calls::{Calls, Limits, Table};
use std::fs;
use std::io::{Error, Result};
use std::path::{Path, PathBuf};
use std::process::Command;
use std::time::{Duration, Instant};

const ROOMS: u32 = 1_000;
/// One room of so many has a table of 1,024 cells.
const LARGE: u32 = 100;
const TURNS: usize = 7;
const LIBRARY: &str = "library: read, compile and check";

/// A room's files.
struct Room {
    paths: [PathBuf; 2],
    table: Vec<u8>,
    network: Vec<u8>,
    cells: usize,
}

/// What is measured: its name, and one run of it.
type Run<'a> = (&'static str, Box<dyn FnMut() -> Result<()> + 'a>);

/// Writes the rooms' tables to a folder that is not there yet, so that nothing else can be in it.
fn make(folder: &Path) -> Result<Vec<Room>> {
    fs::create_dir(folder)?;
    let make = |number| {
        let paths = ["table", "network"].map(|ending| folder.join(format!("room{number:03}.{ending}")));
        let table = room(number, number % LARGE == 0);
        let (cells, table) = (table.cells(), table.file(|| false));
        fs::write(&paths[0], &table)?;
        Ok(Room { paths, table, network: vec![], cells })
    };
    (0..ROOMS).map(make).collect()
}

/// Runs a command of keeper on a folder where all will be well.
fn keep(keeper: &Path, command: &str, folder: &Path) -> Result<()> {
    let status = Command::new(keeper).args(["--quiet", command]).arg(folder).status()?;
    if status.success() { Ok(()) } else { Err(Error::other(format!("keeper {command}: {status}"))) }
}

/// Buffers for the largest table.
struct Buffers {
    shape: [u8; 10],
    lower: Vec<u8>,
    upper: Vec<u8>,
    work: Vec<u8>,
    network: Vec<u8>,
}

impl Buffers {
    fn new() -> Buffers {
        let [lower, upper, work, network] = [1024, 1024, 32 * 1024, 16 * 4096].map(|bytes| vec![0; bytes]);
        Buffers { shape: [0; 10], lower, upper, work, network }
    }

    /// Makes the calls that keeper makes for a room with a network; whether the network is within the table's limits, and
    /// what compiling gives.
    fn judge(&mut self, calls: &dyn Calls, room: &Room) -> bool {
        let limits = Limits { lower: &mut self.lower, upper: &mut self.upper };
        let read = calls.read(&room.table, &mut self.shape, limits);
        let table = Table { shape: &self.shape, lower: &self.lower[..room.cells], upper: &self.upper[..room.cells] };
        let records = calls.compile(table, &mut self.work, &mut self.network);
        let check = calls.check(&room.network, table, &mut self.work);
        read == 0 && check == 0 && self.network.get(..16 * records as usize) == Some(&room.network)
    }
}

fn timed(run: &mut dyn FnMut() -> Result<()>) -> Result<Duration> {
    let start = Instant::now();
    run()?;
    Ok(start.elapsed())
}

/// The least time of each, measured in turns.
fn least(mut runs: Vec<Run>) -> Result<Vec<(&'static str, Duration)>> {
    let mut least: Vec<_> = runs.iter().map(|(name, _)| (*name, Duration::MAX)).collect();
    for _ in 0..TURNS {
        for ((_, run), (_, least)) in runs.iter_mut().zip(&mut least) {
            *least = timed(run)?.min(*least);
        }
    }
    Ok(least)
}

/// The runs that are measured in turns, once every room has its network.
fn runs<'a>(calls: &'a dyn Calls, keeper: &'a Path, folder: &'a Path, rooms: &'a [Room]) -> Vec<Run<'a>> {
    let mut buffers = Buffers::new();
    let judge = move || {
        let sound = rooms.iter().all(|room| buffers.judge(calls, room));
        if sound { Ok(()) } else { Err(Error::other("a room is not in order")) }
    };
    let read = || rooms.iter().flat_map(|room| &room.paths).try_for_each(|path| fs::read(path).map(drop));
    vec![
        ("`keeper update`, all up to date", Box::new(|| keep(keeper, "update", folder))),
        ("`keeper check`", Box::new(|| keep(keeper, "check", folder))),
        (LIBRARY, Box::new(judge)),
        ("files read alone", Box::new(read)),
    ]
}

/// The rows in Markdown, each beside the library's.
fn table(rows: &[(&str, Duration)]) -> String {
    let library = rows.iter().find(|(name, _)| *name == LIBRARY).map_or(Duration::MAX, |(_, time)| *time);
    let row = |(name, time): &(&str, Duration)| {
        let (seconds, ratio) = (time.as_secs_f64(), time.div_duration_f64(library));
        let rate = grouped(ROOMS as f64 / seconds);
        format!("| {name} | {:.1} | {rate} | {ratio:.2} |\n", 1e3 * seconds)
    };
    let heading = "| what | ms | rooms a second | ratio to the library |\n|---|---:|---:|---:|\n";
    heading.to_string() + &rows.iter().map(row).collect::<String>()
}

fn section(rooms: &[Room], rows: &[(&str, Duration)]) -> String {
    let sum = |figure: fn(&Room) -> usize| grouped(rooms.iter().map(figure).sum::<usize>() as f64);
    let [cells, records] = [sum(|room| room.cells), sum(|room| room.network.len() / 16)];
    let [tables, networks] = [sum(|room| room.table.len()), sum(|room| room.network.len())];
    let [count, large] =
        [rooms.len(), rooms.iter().filter(|room| room.cells == 1024).count()].map(|n| grouped(n as f64));
    let table = table(rows);
    let cores = std::thread::available_parallelism().map_or(1, usize::from);
    format!(
        "
## Rooms

How long `keeper` takes for a folder of {count} rooms, on threads for {cores} cores, and how long the library's calls take on the
same bytes, on one thread.

- Noise draws the tables: 1 to 5 conditions of 2 to 4 values, and {large} tables of 1,024 cells among them; {cells} cells in all,
  {tables} bytes of files. The networks have {records} records, {networks} bytes.
- A time is the least of {TURNS} runs. That of the first row is of one: it compiles each table and writes its network, and
  waits until that is on the disk. The other two rows of keeper read both files, compile and check, and write nothing.
- A ratio is the row's time divided by the library's.

{table}"
    )
}

/// Measures in a folder that is made for it, and gives the section of the document.
pub fn measure(calls: &dyn Calls, keeper: &Path, folder: &Path) -> Result<String> {
    let mut rooms = make(folder)?;
    let missing = timed(&mut || keep(keeper, "update", folder))?;
    for room in &mut rooms {
        room.network = fs::read(&room.paths[1])?;
    }
    let mut rows = vec![("`keeper update`, no network there", missing)];
    rows.extend(least(runs(calls, keeper, folder, &rooms))?);
    Ok(section(&rooms, &rows))
}
