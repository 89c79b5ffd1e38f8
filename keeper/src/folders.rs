//! The commands on collections: check and update.

use std::path::PathBuf;

use crate::collection::{Collection, NETWORK, Room};
use crate::files;
use crate::judging::{Judged, Networks, judge};
use crate::names::many;
use crate::options::{FAILED, Options, Stop, complain, said};
use crate::report::{End, Outcome, every};

/// Does the work of every room of the folders. What cannot be read does not keep the rest from being done.
fn every_room(
    options: &Options,
    folders: &[PathBuf],
    doing: &'static str,
    work: impl Fn(&Room) -> Outcome + Sync,
) -> Result<u8, Stop> {
    let collection = Collection::walk(folders);
    let empty = collection.empty.iter().map(|folder| said(folder, "no rooms there"));
    let unread = collection.unread.iter().chain(&collection.unread_texts);
    let faults: Vec<String> = unread.cloned().chain(empty).collect();
    for path in &collection.left_over {
        options.note(path, "draft of a run that is under way, or that was interrupted: then it can be removed");
    }
    let rooms = collection.rooms();
    if rooms.is_empty() {
        return Err(Stop { lines: faults, status: FAILED });
    }
    faults.iter().for_each(|line| complain(line));
    let status = every(options, (doing, "room"), &rooms, work)?;
    Ok(if faults.is_empty() { status } else { FAILED })
}

pub fn check(options: &Options, folders: &[PathBuf]) -> Result<u8, Stop> {
    every_room(options, folders, "checking", |room| judge(room).outcome)
}

pub fn update(options: &Options, folders: &[PathBuf]) -> Result<u8, Stop> {
    every_room(options, folders, "updating", |room| updated(options, room, judge(room)))
}

/// Puts what compiling gives today in the place of a network that is missing or holds anything else.
fn updated(options: &Options, room: &Room, judged: Judged) -> Outcome {
    let Judged { mut outcome, networks } = judged;
    let Some(Networks { compiled, there }) = networks else { return outcome };
    if outcome.end == End::Within {
        outcome.end = End::UpToDate;
        return outcome;
    }
    let path = room.file(NETWORK);
    match files::replace(&path, there.as_deref(), compiled.bytes()) {
        Ok(folder) => {
            let written = many(compiled.records().len(), "record");
            outcome.line = outcome.line.filter(|_| !options.quiet);
            if let Some(line) = &mut outcome.line {
                line.what = format!("{written} written; before: {}", line.what);
            }
            Outcome { end: End::Written, folder: Some(folder), ..outcome }
        }
        Err(why) => Outcome { sources: outcome.sources, ..Outcome::not_written(&path, why) },
    }
}
