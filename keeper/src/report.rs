//! Work on many files: done on several threads, said in order, and counted by how it ended.

use std::collections::{BTreeMap, BTreeSet};
use std::io::{IsTerminal, Write, stderr};
use std::path::{Path, PathBuf};
use std::sync::atomic::{AtomicUsize, Ordering};
use std::sync::mpsc;
use std::thread;
use std::time::Instant;

use crate::files;
use crate::names::{count, many};
use crate::options::{DONE, FAILED, FOUND, Options, Stop, complain, print, said};
use crate::progress::Progress;

/// How the work on a room or a file ended, in the order of the summary.
#[derive(Clone, Copy, Debug, PartialEq, Eq, PartialOrd, Ord)]
pub enum End {
    Within,
    /// Within the limits, with other records than compiling gives today.
    Other,
    UpToDate,
    Written,
    Outside,
    Refused,
    NoNetwork,
    NoTable,
    NotWritten,
    Unread,
}

impl End {
    fn in_words(self) -> &'static str {
        match self {
            End::Within => "within",
            End::Other => "within but not what compiling gives today",
            End::UpToDate => "up to date",
            End::Written => "written",
            End::Outside => "outside",
            End::Refused => "refused",
            End::NoNetwork => "without a network",
            End::NoTable => "without a table",
            End::NotWritten => "not written",
            End::Unread => "unreadable",
        }
    }

    fn status(self) -> u8 {
        match self {
            End::Within | End::Other | End::UpToDate | End::Written => DONE,
            End::Outside | End::Refused | End::NoNetwork | End::NoTable => FOUND,
            End::NotWritten | End::Unread => FAILED,
        }
    }
}

/// Something to be said of a file: what was found, on standard output; what could not be read or written, on standard
/// error.
#[derive(Clone, Debug, PartialEq, Eq)]
pub struct Line {
    pub path: PathBuf,
    pub what: String,
    pub failed: bool,
}

impl Line {
    pub fn found(path: &Path, what: impl Into<String>) -> Line {
        Line { path: path.to_path_buf(), what: what.into(), failed: false }
    }

    pub fn failed(path: &Path, what: impl Into<String>) -> Line {
        Line { path: path.to_path_buf(), what: what.into(), failed: true }
    }
}

/// What the work on a room or a file comes to.
pub struct Outcome {
    pub end: End,
    pub line: Option<Line>,
    /// What is to be said of the text and of the spreadsheet beside a table.
    pub sources: Vec<Line>,
    /// The folder of a file that was written.
    pub folder: Option<PathBuf>,
}

impl Outcome {
    pub fn new(end: End, line: Option<Line>) -> Outcome {
        Outcome { end, line, sources: Vec::new(), folder: None }
    }

    /// A file that could not be written.
    pub fn not_written(path: &Path, why: impl Into<String>) -> Outcome {
        Outcome::new(End::NotWritten, Some(Line::failed(path, why)))
    }
}

#[derive(Default)]
struct Tally {
    ends: BTreeMap<End, usize>,
    sources: usize,
    status: u8,
    folders: BTreeSet<PathBuf>,
    /// Why nothing more is printed. The work goes on: which rooms are written must not depend on who reads.
    unprinted: Option<Stop>,
}

impl Tally {
    fn print(&mut self, text: &str) {
        if self.unprinted.is_none() {
            self.unprinted = print(text.as_bytes()).err();
        }
    }

    fn say(&mut self, line: &Line) {
        let words = said(&line.path, &line.what);
        if line.failed {
            self.status = FAILED;
            complain(&words);
        } else {
            self.print(&(words + "\n"));
        }
    }

    fn add(&mut self, outcome: Outcome) {
        *self.ends.entry(outcome.end).or_default() += 1;
        self.status = self.status.max(outcome.end.status());
        self.folders.extend(outcome.folder);
        for source in &outcome.sources {
            self.sources += 1;
            self.status = self.status.max(FOUND);
            self.say(source);
        }
        outcome.line.iter().for_each(|line| self.say(line));
    }

    /// How many there are, and how many of each kind.
    fn summary(&self, what: &str) -> String {
        let ends = self.ends.iter().map(|(end, n)| format!("{} {}", count(*n), end.in_words()));
        let mut line = format!("{}: {}", many(self.ends.values().sum(), what), ends.collect::<Vec<_>>().join(", "));
        if self.sources > 0 {
            let what = if self.sources == 1 { "text or spreadsheet" } else { "texts or spreadsheets" };
            line += &format!("; {} {what} to look at", count(self.sources));
        }
        line + "\n"
    }
}

/// Does the work of each item, called a `what`, and says what it comes to. Answers the status.
pub fn every<T: Sync>(
    options: &Options,
    (doing, what): (&'static str, &str),
    items: &[T],
    work: impl Fn(&T) -> Outcome + Sync,
) -> Result<u8, Stop> {
    let mut tally = Tally::default();
    let on_terminal = !options.quiet && stderr().is_terminal();
    let mut progress = Progress::new(doing, items.len(), Instant::now());
    in_order(items, work, |done, outcome| {
        if outcome.line.is_some() || !outcome.sources.is_empty() {
            show(progress.cleared());
        }
        tally.add(outcome);
        if on_terminal {
            show(progress.at(done + 1, Instant::now()));
        }
    });
    show(progress.cleared());
    for folder in std::mem::take(&mut tally.folders) {
        if let Err(why) = files::keep(&folder) {
            tally.say(&Line::failed(&folder, why));
        }
    }
    if !options.quiet {
        tally.print(&tally.summary(what));
    }
    tally.unprinted.map_or(Ok(tally.status), Err)
}

/// Writes progress. Where that fails there is nothing to be done.
fn show(text: Option<impl AsRef<str>>) {
    if let Some(text) = text {
        let _ = write!(stderr(), "{}", text.as_ref());
    }
}

/// Does the work of each item on threads, and hands over what it comes to in the items' order.
fn in_order<T: Sync, R: Send>(items: &[T], work: impl Fn(&T) -> R + Sync, mut each: impl FnMut(usize, R)) {
    // More than there are cores, since a thread that has written waits for the disk.
    let threads = 4 * thread::available_parallelism().map_or(1, usize::from);
    let next = AtomicUsize::new(0);
    let (sender, receiver) = mpsc::channel();
    let take = |sender: mpsc::Sender<(usize, R)>| {
        loop {
            let at = next.fetch_add(1, Ordering::Relaxed);
            match items.get(at).map(|item| sender.send((at, work(item)))) {
                Some(Ok(())) => {}
                _ => return,
            }
        }
    };
    thread::scope(|scope| {
        let started = (0..threads.min(items.len())).take_while(|_| {
            let (take, sender) = (&take, sender.clone());
            thread::Builder::new().spawn_scoped(scope, move || take(sender)).is_ok()
        });
        // Where no thread is to be had, it is done here.
        if started.count() == 0 {
            take(sender.clone());
        }
        drop(sender);
        let mut waiting = BTreeMap::new();
        let mut due = 0;
        for (at, result) in receiver {
            waiting.insert(at, result);
            while let Some(result) = waiting.remove(&due) {
                each(due, result);
                due += 1;
            }
        }
    });
}
