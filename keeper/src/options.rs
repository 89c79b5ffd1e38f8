//! What every command has: its options, its status, where its output goes, and how it stops.

use std::ffi::{OsStr, OsString};
use std::io::{self, ErrorKind, IsTerminal, Write};
use std::path::{Path, PathBuf};

use crate::files;
use crate::names::does_not_show;

/// All is well.
pub const DONE: u8 = 0;
/// Something is refused, outside or missing.
pub const FOUND: u8 = 1;
/// Wrong use, or a file that cannot be read or written.
pub const FAILED: u8 = 2;

#[derive(Clone, Default)]
pub struct Options {
    pub quiet: bool,
    pub output: Option<PathBuf>,
    pub text: Option<PathBuf>,
    pub table: Option<PathBuf>,
}

/// Why a command ends before its work is done: the lines to be said and its status.
#[derive(Debug)]
pub struct Stop {
    pub lines: Vec<String>,
    pub status: u8,
}

pub fn stop<T>(status: u8, line: impl Into<String>) -> Result<T, Stop> {
    Err(Stop { lines: vec![line.into()], status })
}

pub fn about<T>(status: u8, path: &Path, what: impl AsRef<str>) -> Result<T, Stop> {
    stop(status, said(path, what.as_ref()))
}

/// A line about a file.
pub fn said(path: &Path, what: &str) -> String {
    format!("{}: {what}", shown(path))
}

/// A file's name in a line. It may have any characters: none of them ends the line or steers a terminal.
pub fn shown(path: impl AsRef<OsStr>) -> String {
    let mut name = String::new();
    for c in path.as_ref().to_string_lossy().chars() {
        if does_not_show(c) { name.extend(c.escape_default()) } else { name.push(c) }
    }
    name
}

/// A line on standard error. There is nowhere to say that it failed.
pub fn complain(line: &str) {
    let _ = writeln!(io::stderr(), "{line}");
}

pub fn options(mut arguments: impl Iterator<Item = OsString>) -> Result<(Options, Vec<OsString>), Stop> {
    let mut options = Options::default();
    let mut words = Vec::new();
    while let Some(argument) = arguments.next() {
        let text = argument.to_str().unwrap_or("").to_string();
        // --output=FILE is --output FILE.
        let (name, joined) = match text.split_once('=') {
            Some((name, value)) if name.starts_with("--") => (name, Some(OsString::from(value))),
            _ => (text.as_str(), None),
        };
        match name {
            "-q" | "--quiet" if joined.is_none() => options.quiet = true,
            "-h" | "--help" if joined.is_none() => words.insert(0, "help".into()),
            "--" => words.extend(arguments.by_ref()),
            "-o" | "--output" => file("--output", &mut options.output, joined.or_else(|| arguments.next()))?,
            "--text" => file("--text", &mut options.text, joined.or_else(|| arguments.next()))?,
            "--table" => file("--table", &mut options.table, joined.or_else(|| arguments.next()))?,
            name if name.starts_with('-') && name.len() > 1 => {
                return stop(FAILED, format!("keeper: no option {}; see keeper --help", shown(&argument)));
            }
            _ => words.push(argument),
        }
    }
    Ok((options, words))
}

/// Takes the file that an option names.
fn file(name: &str, place: &mut Option<PathBuf>, given: Option<OsString>) -> Result<(), Stop> {
    let given = given.filter(|given| !given.is_empty());
    let Some(given) = given else { return stop(FAILED, format!("keeper: {name} wants a file")) };
    if place.replace(PathBuf::from(given)).is_some() {
        return stop(FAILED, format!("keeper: {name} is given twice"));
    }
    Ok(())
}

impl Options {
    /// With a text that is given as an argument.
    pub fn with_text(&self, text: &Path) -> Result<Options, Stop> {
        let mut options = self.clone();
        file("--text", &mut options.text, Some(text.into()))?;
        Ok(options)
    }

    /// Stops where an option was given that a command has no use for.
    pub fn only(&self, command: &str, useful: &[&str]) -> Result<(), Stop> {
        let given = [("--output", &self.output), ("--text", &self.text), ("--table", &self.table)];
        match given.iter().find(|(name, path)| path.is_some() && !useful.contains(name)) {
            Some((name, _)) => stop(FAILED, format!("keeper: {command} has no option {name}; see keeper --help")),
            None => Ok(()),
        }
    }

    pub fn note(&self, path: &Path, what: &str) {
        if !self.quiet {
            complain(&said(path, what));
        }
    }

    /// Writes what a command makes. A file that is there is replaced if `before` knows what it is, and says what.
    pub fn write(&self, bytes: &[u8], what: &str, before: impl Fn(&[u8]) -> Option<String>) -> Result<u8, Stop> {
        let Some(path) = &self.output else { return print(bytes) };
        let old = files::read_if_there(path).or_else(|why| about(FAILED, path, why))?;
        if old.as_deref() == Some(bytes) {
            return Ok(DONE);
        }
        let replaced = old.as_deref().filter(|old| !old.is_empty()).map(before);
        if replaced == Some(None) {
            return about(FAILED, path, format!("there is a file that is not {what}: not replaced"));
        }
        let folder = files::replace(path, old.as_deref(), bytes).or_else(|why| about(FAILED, path, why))?;
        files::keep(&folder).or_else(|why| about(FAILED, path, why))?;
        if let Some(before) = replaced.flatten() {
            self.note(path, &format!("replaced; before: {before}"));
        }
        Ok(DONE)
    }

    pub fn write_bytes(&self, bytes: &[u8], what: &str, before: impl Fn(&[u8]) -> Option<String>) -> Result<u8, Stop> {
        if self.output.is_none() && io::stdout().is_terminal() {
            return stop(FAILED, format!("keeper: the bytes of {what} are not for a terminal; use -o FILE"));
        }
        self.write(bytes, what, before)
    }
}

pub fn print(bytes: &[u8]) -> Result<u8, Stop> {
    let mut out = io::stdout().lock();
    match out.write_all(bytes).and_then(|()| out.flush()) {
        Ok(()) => Ok(DONE),
        Err(error) if error.kind() == ErrorKind::BrokenPipe => Err(Stop { lines: Vec::new(), status: FAILED }),
        Err(error) => stop(FAILED, format!("standard output: cannot be written: {}", files::reason(&error))),
    }
}
