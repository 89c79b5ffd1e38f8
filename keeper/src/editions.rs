//! The commands between the two editions of a table file: import and export.

use std::collections::BTreeMap;
use std::path::{Path, PathBuf};

use crate::collection::{Collection, Room, SPREADSHEET, TABLE, TEXT, beside, stem_with, whole};
use crate::files;
use crate::judging::replaced;
use crate::library::{Edition, RECORD};
use crate::names::{Names, many};
use crate::options::{FAILED, Options, Stop, about, complain, said, shown};
use crate::refusals;
use crate::report::{End, Line, Outcome, every};
use crate::text;

fn ending(edition: Edition) -> &'static str {
    match edition {
        Edition::Limits => TABLE,
        Edition::Sets => SPREADSHEET,
    }
}

fn other(edition: Edition) -> Edition {
    match edition {
        Edition::Limits => Edition::Sets,
        Edition::Sets => Edition::Limits,
    }
}

/// Writes beside each file of an edition, or where `-o` says, what it is in the other. A folder stands for its files.
pub fn convert(options: &Options, from: Edition, paths: &[PathBuf]) -> Result<u8, Stop> {
    let (files, faults) = files_of(from, paths);
    let mut targets = BTreeMap::new();
    for file in files {
        let target = options.output.clone().unwrap_or_else(|| target(from, &file));
        let key = whole(&target).unwrap_or_else(|_| target.clone());
        if let Some((_, first)) = targets.insert(key, (target.clone(), file.clone())) {
            let what = format!("{} and {} would both be written here", shown(&first), shown(&file));
            return about(FAILED, &target, what);
        }
    }
    if targets.is_empty() {
        return Err(Stop { lines: faults, status: FAILED });
    }
    faults.iter().for_each(|line| complain(line));
    let doing = if from == Edition::Sets { "importing" } else { "exporting" };
    let work: Vec<(PathBuf, PathBuf)> = targets.into_values().collect();
    let status = every(options, (doing, "file"), &work, |(target, file)| converted(options, from, file, target))?;
    Ok(if faults.is_empty() { status } else { FAILED })
}

/// The files that are given, and those of the edition in folders that are given, each once; and what is to be said of
/// what cannot be read.
fn files_of(edition: Edition, paths: &[PathBuf]) -> (Vec<PathBuf>, Vec<String>) {
    let mut files = BTreeMap::new();
    let mut faults = Vec::new();
    let mut add = |file: PathBuf| {
        let key = whole(&file).unwrap_or_else(|_| file.clone());
        files.entry(key).or_insert(file);
    };
    for path in paths {
        if !path.is_dir() {
            add(path.clone());
            continue;
        }
        let collection = Collection::walk(std::slice::from_ref(path));
        let there = |room: &&Room| if edition == Edition::Sets { room.there.spreadsheet } else { room.there.table };
        let mut none = true;
        for room in collection.rooms().iter().filter(there) {
            none = false;
            add(room.file(ending(edition)));
        }
        if collection.unread.is_empty() && none {
            faults.push(said(path, &format!("no files there that end in .{}", ending(edition))));
        }
        faults.extend(collection.unread);
    }
    (files.into_values().collect(), faults)
}

/// Where a file goes: its own ending, if it has it, gives way to the other; any other stays, since it may tell rooms
/// apart.
fn target(from: Edition, file: &Path) -> PathBuf {
    let own = file.extension().is_some_and(|own| own == ending(from));
    if own { file.with_extension(ending(other(from))) } else { stem_with(file, ending(other(from))) }
}

fn converted(options: &Options, from: Edition, path: &Path, target: &Path) -> Outcome {
    let file = match files::read_found(path) {
        Ok(file) => file,
        Err(why) => return Outcome::new(End::Unread, Some(Line::failed(path, why))),
    };
    let Ok(bytes) = from.convert(&file) else {
        let what = match text::is_table_text(&file) {
            true => "a text, and not a table; see keeper make".to_string(),
            false => refusals::in_words(refusals::of_table(from, &file)),
        };
        return Outcome::new(End::Refused, Some(Line::found(path, what)));
    };
    let old = match files::read_if_there(target) {
        Ok(old) => old,
        Err(why) => return Outcome::not_written(target, why),
    };
    if old.as_ref() == Some(&bytes) {
        return Outcome::new(End::UpToDate, None);
    }
    let Some(before) = before(from, target, old.as_deref(), &bytes) else {
        return Outcome::not_written(target, "there is a file that the library refuses: not replaced");
    };
    match files::replace(target, old.as_deref(), &bytes) {
        Ok(folder) => {
            let what = format!("{} written; before: {before}", many(bytes.len() / RECORD, "record"));
            let line = (!options.quiet).then(|| Line::found(target, what));
            Outcome { folder: Some(folder), ..Outcome::new(End::Written, line) }
        }
        Err(why) => Outcome::not_written(target, why),
    }
}

/// What is said of the file that is replaced. None if it may not be: it is none of its edition.
fn before(from: Edition, target: &Path, old: Option<&[u8]>, new: &[u8]) -> Option<String> {
    let Some(old) = old.filter(|old| !old.is_empty()) else { return Some(format!("no {}", ending(other(from)))) };
    let (old, new) = (other(from).read(old).ok()?, other(from).read(new).ok()?);
    let text = files::read_if_there(&beside(target, TEXT)).ok().flatten();
    let names = text.and_then(|text| text::names_for(&text, new.shape()).ok());
    Some(replaced(&old, &new, &names.unwrap_or_else(|| Names::numbered(new.shape()))))
}
