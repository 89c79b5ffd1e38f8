//! Runs the calls of the library beside the oracle.
//!
//!     compare [vectors | program] [--against plain|library] [--seed N] [--seconds S | --hours H]
//!
//! One run is every table of the tiny shapes, tables with many stages, every set of grades, and what the seed decides. With
//! a time, it goes on with new seeds. With `vectors`, it is the published tables instead; with `program`, what the
//! programs print.

mod editions;
mod lent;
mod networks;
mod program;
mod random;
mod rounds;
mod session;
mod tables;
mod vectors;

use calls::{Calls, plain::Plain};
use program::Program;
use session::{Outcome, REFUSALS, Session};
use std::process::ExitCode;
use std::time::{Duration, Instant};

const USAGE: &str = "compare [vectors | program] [--against plain|library] [--seed N] [--seconds S | --hours H]";
const DEFAULT_SEED: u64 = 1;

/// What a run looks at.
#[derive(Clone, Copy)]
enum Part {
    Calls,
    Vectors,
    Program,
}

struct Options {
    part: Part,
    against: Box<dyn Calls>,
    seed: u64,
    time: Duration,
}

#[cfg(feature = "library")]
fn default_calls() -> Box<dyn Calls> {
    Box::new(calls::library::Library)
}

#[cfg(not(feature = "library"))]
fn default_calls() -> Box<dyn Calls> {
    Box::new(Plain)
}

fn options() -> Option<Options> {
    let mut options = Options { part: Part::Calls, against: default_calls(), seed: DEFAULT_SEED, time: Duration::ZERO };
    let mut words = std::env::args().skip(1);
    while let Some(word) = words.next() {
        let part = [("vectors", Part::Vectors), ("program", Part::Program)].into_iter().find(|(name, _)| *name == word);
        if let Some((_, part)) = part {
            options.part = part;
            continue;
        }
        let value = words.next()?;
        let seconds = |each: f64| Duration::try_from_secs_f64(value.parse::<f64>().ok()? * each).ok();
        match (word.as_str(), value.as_str()) {
            ("--against", "plain") => options.against = Box::new(Plain),
            ("--against", "library") if cfg!(feature = "library") => options.against = default_calls(),
            ("--seed", _) => options.seed = value.parse().ok()?,
            ("--seconds", _) => options.time = seconds(1.0)?,
            ("--hours", _) => options.time = seconds(3600.0)?,
            _ => return None,
        }
    }
    Some(options)
}

/// Prints how a session ended, and its report if there is a difference.
fn conclude(outcome: &Outcome<()>, line: &str) {
    if let Err(report) = outcome {
        println!("{report}");
    }
    println!("{line}, {} differences", outcome.is_err() as u8);
}

/// A session on the published tables; whether all was equal.
fn published(calls: &dyn Calls) -> bool {
    let mut session = Session::new(calls, DEFAULT_SEED);
    let outcome = vectors::run(&mut session);
    conclude(&outcome, &format!("vectors: {} cases", session.cases));
    outcome.is_ok()
}

/// Runs of the programs on the files that a seed decides; whether they printed what they should.
fn programs(seed: u64) -> bool {
    let mut programs = program::each(seed);
    let outcome = programs.iter_mut().try_for_each(Program::run);
    let files: u64 = programs.iter().map(|program| program.files).sum();
    conclude(&outcome, &format!("program: {files} files, seed {seed}"));
    outcome.is_ok()
}

/// A session on the tables that a seed decides; whether all was equal, and each refusal was seen, and weak joins that are
/// kept and that are not, and for each setting a network that it changes.
fn compare(calls: &dyn Calls, seed: u64, with_same: bool) -> bool {
    let mut session = Session::new(calls, seed);
    let same = if with_same { rounds::same(&mut session) } else { Ok(()) };
    let outcome = same.and_then(|()| rounds::round(&mut session));
    let unseen = session.unseen();
    let refusals = match &outcome {
        Err(_) => "seen until the difference only".into(),
        Ok(()) if unseen.is_empty() => format!("seen 1..{REFUSALS}"),
        Ok(()) => format!("not seen {unseen:?}"),
    };
    let [kept, rejected] = session.with_weak_joins;
    let weak = format!("tables with weak joins: {kept} keep one, {rejected} reject one");
    let [ties, splits, no_weak] = session.with_other_networks;
    let settings = format!(
        "with another network: {ties} if min wins ties, {splits} if splits take most values, {no_weak} with no weak joins"
    );
    conclude(
        &outcome,
        &format!("compare: {} cases, seed {seed}, {weak}, {settings}, refusals {refusals}", session.cases),
    );
    let exercised = [kept, rejected, ties, splits, no_weak].iter().all(|&tables| tables > 0);
    outcome.is_ok() && unseen.is_empty() && exercised
}

fn main() -> ExitCode {
    let Some(Options { part, against, seed: first, time }) = options() else {
        eprintln!("{USAGE}");
        return ExitCode::from(2);
    };
    let start = Instant::now();
    let mut seed = first;
    loop {
        let equal = match part {
            // What no seed decides is compared once.
            Part::Calls => compare(&*against, seed, seed == first),
            Part::Program => programs(seed),
            Part::Vectors => return exit_code(published(&*against)),
        };
        if !equal || start.elapsed() >= time {
            return exit_code(equal);
        }
        seed = seed.wrapping_add(1);
    }
}

fn exit_code(equal: bool) -> ExitCode {
    if equal { ExitCode::SUCCESS } else { ExitCode::FAILURE }
}
