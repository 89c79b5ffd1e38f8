//! Measures the calls of the proved library beside the same calls in plain safe Rust.
//!
//!     bench FOLDER                    writes BENCHMARKS.md and compile-cost.svg there, and prints the table
//!     bench FOLDER KEEPER ROOMS       the same, with the section on rooms
//!     bench rooms KEEPER ROOMS        prints what the program KEEPER takes for a folder of rooms, ROOMS, which it makes
//!     bench once NAME CASE TIMES      makes one call so many times; for counting its instructions
//!     bench against PROGRAM           prints each call's instructions with the library in another build, and in this one
//!     bench search SECONDS            draws tables for so long, and prints those that take longest to compile
//!
//! Instructions are counted by callgrind, in two runs of which one makes a call more: the difference is the call's own,
//! and is the same in every run.

mod cases;
mod plot;
mod report;
mod rooms;

use calls::{Calls, plain::Plain};
use cases::{Case, all, compile, drawn};
use report::{Report, Row, grouped};
use std::path::{Path, PathBuf};
use std::process::{Command, ExitCode};
use std::time::{Duration, Instant};

type Named = (&'static str, Box<dyn Calls>);

#[cfg(feature = "library")]
fn implementations() -> Vec<Named> {
    vec![("library", Box::new(calls::library::Library)), ("plain", Box::new(Plain))]
}

#[cfg(not(feature = "library"))]
fn implementations() -> Vec<Named> {
    vec![("plain", Box::new(Plain))]
}

/// Makes the call of a case so many times with the implementation named.
fn once(name: &str, case: &str, times: &str) -> Option<()> {
    let implementations = implementations();
    let (_, calls) = implementations.iter().find(|(other, _)| *other == name)?;
    let case = all().into_iter().nth(case.parse().ok()?)?;
    let mut call = (case.prepare)();
    for _ in 0..times.parse::<u32>().ok()? {
        std::hint::black_box(call(&**calls));
    }
    Some(())
}

fn this_program() -> PathBuf {
    std::env::current_exe().expect("a program that runs has a file")
}

/// Instructions of a whole run of a build of this program that makes the call so many times.
fn counted(program: &Path, name: &str, case: usize, times: u32) -> Option<u64> {
    let output = Command::new("valgrind")
        .args(["--tool=callgrind", "--callgrind-out-file=/dev/null"])
        .arg(program)
        .args(["once", name, &case.to_string(), &times.to_string()])
        .output()
        .ok()
        .filter(|output| output.status.success())?;
    let report = String::from_utf8(output.stderr).ok()?;
    let line = report.lines().find(|line| line.contains("Collected :"))?;
    line.rsplit(' ').next()?.parse().ok()
}

/// Instructions of one call: what a run that makes two calls has more than one that makes one.
fn instructions(program: &Path, name: &str, case: usize) -> f64 {
    let counted = |times| counted(program, name, case, times).expect("callgrind counts the instructions of a run");
    (counted(2) - counted(1)) as f64
}

/// The least time of one call with each implementation, measured in turns. A turn makes the calls in batches that are
/// long for the clock, and too short to be interrupted often.
fn times(case: &Case, implementations: &[Named]) -> Vec<Duration> {
    const TURNS: usize = 7;
    const TURN: Duration = Duration::from_millis(20);
    const BATCH: Duration = Duration::from_micros(50);
    let mut calls: Vec<_> = implementations.iter().map(|_| (case.prepare)()).collect();
    let mut batches = vec![1; implementations.len()];
    let mut best = vec![Duration::MAX; implementations.len()];
    for _ in 0..TURNS {
        for (number, (_, implementation)) in implementations.iter().enumerate() {
            let turn = Instant::now();
            while turn.elapsed() < TURN {
                let batch = batches[number];
                let start = Instant::now();
                for _ in 0..batch {
                    std::hint::black_box(calls[number](&**implementation));
                }
                let taken = start.elapsed();
                if taken < BATCH {
                    batches[number] *= 2;
                } else {
                    best[number] = best[number].min(taken / batch);
                }
            }
        }
    }
    best
}

/// Measures every case, and prints each as it is done.
fn measure() -> Report {
    let (implementations, program) = (implementations(), this_program());
    let mut report = Report::new(implementations.iter().map(|(name, _)| *name).collect());
    print!("{}", report.heading());
    for (number, case) in all().into_iter().enumerate() {
        let answers: Vec<u32> = implementations.iter().map(|(_, calls)| (case.prepare)()(&**calls)).collect();
        assert!(answers.iter().all(|answer| *answer == answers[0]), "{}: answers {answers:?}", case.name);
        let counts = report.names.iter().map(|name| instructions(&program, name, number)).collect();
        let times = times(&case, &implementations).iter().map(|time| time.as_nanos() as f64 / 1e3).collect();
        let row = Row { name: case.name, growth: case.growth, counts, times };
        print!("{}", report.shown(&row));
        report.rows.push(row);
    }
    print!("\n{}{}{}", report.worst(), report.forecasts(), report.visits());
    report
}

/// Prints each case's instructions with the library in another build of this program, before, and in this one, after.
fn against(other: &Path) {
    println!("| call | before, instructions | after, instructions | ratio |\n|---|---:|---:|---:|");
    for (number, case) in all().iter().enumerate() {
        let [before, after] = [other, &this_program()].map(|program| instructions(program, "library", number));
        println!("| {} | {} | {} | {:.2} |", case.name, grouped(before), grouped(after), after / before);
    }
}

/// The least time of so many compiles of a drawn table.
fn compile_time(calls: &dyn Calls, number: u32, times: u32) -> Duration {
    let mut call = (compile("drawn", None, drawn(number)).prepare)();
    let once = |_| {
        let start = Instant::now();
        std::hint::black_box(call(calls));
        start.elapsed()
    };
    (0..times).map(once).min().unwrap_or_default()
}

/// Draws tables one after the other, and prints those that take longest to compile. Since a time may be that of
/// something else as well, the longest are measured again, and longer.
fn search(seconds: &str) -> Option<()> {
    const KEPT: usize = 200;
    const SHOWN: usize = 10;
    let (begin, limit) = (Instant::now(), Duration::from_secs(seconds.parse().ok()?));
    let implementations = implementations();
    let (name, calls) = &implementations[0];
    let mut slowest: Vec<(Duration, u32)> = vec![];
    let longest_first = |slowest: &mut Vec<(Duration, u32)>, kept| {
        slowest.sort_by(|one, other| other.cmp(one));
        slowest.truncate(kept);
    };
    let mut number = 0;
    while begin.elapsed() < limit {
        slowest.push((compile_time(&**calls, number, 2), number));
        if slowest.len() > 10 * KEPT {
            longest_first(&mut slowest, KEPT);
        }
        number += 1;
    }
    longest_first(&mut slowest, KEPT);
    for (time, number) in &mut slowest {
        *time = compile_time(&**calls, *number, 30);
    }
    longest_first(&mut slowest, SHOWN);
    println!("{name}: of {number} drawn tables");
    for (time, number) in slowest {
        println!("{:8.1} µs  table {number}, shape {:?}", time.as_nanos() as f64 / 1e3, drawn(number).shape);
    }
    Some(())
}

/// Measures the program keeper on a folder of rooms that it makes, prints the document's section on it, and gives it.
fn rooms(keeper: &str, folder: &str) -> Result<String, String> {
    let implementations = implementations();
    let library = implementations.iter().find(|(name, _)| *name == "library");
    let (_, calls) = library.ok_or("keeper is measured beside the library, which this build has not")?;
    let section = rooms::measure(&**calls, Path::new(keeper), Path::new(folder));
    let section = section.map_err(|error| format!("{keeper}, {folder}: {error}"))?;
    println!("{}", section.trim_start());
    Ok(section)
}

/// Measures every case, and writes the document, with this section at its end, and the plot.
fn write(folder: &str, section: &str) -> Result<(), String> {
    let report = measure();
    let write = |name, text| std::fs::write(Path::new(folder).join(name), text);
    write("BENCHMARKS.md", report.document() + section)
        .and_then(|()| write("compile-cost.svg", plot::draw(&report.lines())))
        .map_err(|error| format!("{folder}: {error}"))
}

const USAGE: &str = "\
bench FOLDER [KEEPER ROOMS]
bench rooms KEEPER ROOMS
bench once NAME CASE TIMES
bench against PROGRAM
bench search SECONDS";

fn main() -> ExitCode {
    let words: Vec<String> = std::env::args().skip(1).collect();
    let words: Vec<&str> = words.iter().map(String::as_str).collect();
    let done = match words[..] {
        ["once", name, case, times] => once(name, case, times).ok_or("no such call".into()),
        ["against", other] => {
            against(Path::new(other));
            Ok(())
        }
        ["search", seconds] => search(seconds).ok_or("bench search SECONDS".into()),
        ["rooms", keeper, folder] => rooms(keeper, folder).map(drop),
        [folder, keeper, of_rooms] => rooms(keeper, of_rooms).and_then(|section| write(folder, &section)),
        [folder] => write(folder, ""),
        _ => Err(USAGE.into()),
    };
    match done {
        Ok(()) => ExitCode::SUCCESS,
        Err(fault) => {
            eprintln!("{fault}");
            ExitCode::FAILURE
        }
    }
}
