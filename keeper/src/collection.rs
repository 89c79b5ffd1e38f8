//! A collection: folders of rooms. A room is a table, ROOM.table, and beside it its network, ROOM.network, and what the
//! table was made from: its text, ROOM.txt, or its spreadsheet, ROOM.spreadsheet.

use std::collections::{BTreeMap, BTreeSet};
use std::ffi::OsStr;
use std::fs;
use std::io;
use std::path::{Path, PathBuf};

use crate::files;
use crate::options::said;
use crate::text;

pub const TABLE: &str = "table";
pub const NETWORK: &str = "network";
pub const TEXT: &str = "txt";
pub const SPREADSHEET: &str = "spreadsheet";

/// Which files of a room are there.
#[derive(Clone, Copy, Default, Debug, PartialEq, Eq)]
pub struct There {
    pub table: bool,
    pub network: bool,
    pub text: bool,
    pub spreadsheet: bool,
}

impl There {
    /// The mark of a file with an ending, none if no room has such.
    fn mark(&mut self, ending: Option<&OsStr>) -> Option<&mut bool> {
        match ending?.to_str()? {
            TABLE => Some(&mut self.table),
            NETWORK => Some(&mut self.network),
            TEXT => Some(&mut self.text),
            SPREADSHEET => Some(&mut self.spreadsheet),
            _ => None,
        }
    }
}

/// A room, by the path of its files without their endings.
#[derive(Clone, Debug, PartialEq, Eq)]
pub struct Room {
    pub stem: PathBuf,
    pub there: There,
}

impl Room {
    pub fn file(&self, ending: &str) -> PathBuf {
        stem_with(&self.stem, ending)
    }

    /// Whether it is a text alone.
    fn is_text(&self) -> bool {
        self.there == There { text: true, ..There::default() }
    }
}

#[derive(Default)]
pub struct Collection {
    /// By their whole paths: a room that is reached on two ways is one.
    rooms: BTreeMap<PathBuf, Room>,
    /// Drafts that an interrupted run left.
    pub left_over: BTreeSet<PathBuf>,
    /// Of what is given, that which has no room. A name may be mistyped, and must not look well.
    pub empty: Vec<PathBuf>,
    /// What is to be said of folders that could not be read.
    pub unread: Vec<String>,
    /// The same of texts that may be those of tables.
    pub unread_texts: Vec<String>,
}

impl Collection {
    /// The rooms of folders, and of those within them; of a file, the room that it belongs to. Links to folders are not
    /// followed.
    pub fn walk(given: &[PathBuf]) -> Collection {
        let mut collection = Collection::default();
        let found: Vec<Option<BTreeSet<PathBuf>>> = given.iter().map(|path| collection.given(path)).collect();
        let others = collection.without_other_texts();
        for (path, found) in given.iter().zip(found) {
            if found.is_some_and(|found| found.is_subset(&others)) {
                collection.empty.push(path.clone());
            }
        }
        collection
    }

    /// Takes away what is a text alone and not that of a table, and what is not known to be one. Answers the former.
    fn without_other_texts(&mut self) -> BTreeSet<PathBuf> {
        let mut others = BTreeSet::new();
        let unread = &mut self.unread_texts;
        self.rooms.retain(|key, room| {
            if !room.is_text() {
                return true;
            }
            let text = room.file(TEXT);
            match files::start(&text) {
                Ok(bytes) if text::is_table_text(&bytes) => return true,
                Ok(_) => drop(others.insert(key.clone())),
                Err(error) => unread.push(said(&text, &files::unreadable(&error))),
            }
            false
        });
        others
    }

    pub fn rooms(&self) -> Vec<Room> {
        self.rooms.values().cloned().collect()
    }

    /// The whole paths of the rooms of a folder or a file, none where it cannot be read.
    fn given(&mut self, path: &Path) -> Option<BTreeSet<PathBuf>> {
        let mut found = BTreeSet::new();
        let whole = match path.symlink_metadata().and_then(|_| whole(path)) {
            Ok(whole) => whole,
            Err(error) => {
                self.unread.push(said(path, &files::unreadable(&error)));
                return None;
            }
        };
        if path.is_dir() {
            return self.folder(path, &whole, &mut found).then_some(found);
        }
        if There::default().mark(path.extension()).is_some() {
            for ending in [TABLE, NETWORK, TEXT, SPREADSHEET] {
                if path.with_extension(ending).symlink_metadata().is_ok() {
                    self.file(&path.with_extension(ending), &whole.with_extension(ending), &mut found);
                }
            }
        }
        Some(found)
    }

    /// Whether the folder could be read.
    fn folder(&mut self, folder: &Path, whole: &Path, found: &mut BTreeSet<PathBuf>) -> bool {
        let entries = fs::read_dir(folder).and_then(Iterator::collect::<Result<Vec<_>, _>>);
        let entries = match entries {
            Ok(entries) => entries,
            Err(error) => {
                self.unread.push(said(folder, &files::unreadable(&error)));
                return false;
            }
        };
        for entry in entries {
            let (path, name) = (entry.path(), entry.file_name());
            if files::is_left_over(&name.to_string_lossy()) {
                self.left_over.insert(path);
            } else if name.as_encoded_bytes().starts_with(b".") {
                continue;
            } else if There::default().mark(path.extension()).is_some() {
                self.file(&path, &whole.join(name), found);
            } else if entry.file_type().is_ok_and(|kind| kind.is_dir()) {
                self.folder(&path, &whole.join(name), found);
            }
        }
        true
    }

    fn file(&mut self, path: &Path, whole: &Path, found: &mut BTreeSet<PathBuf>) {
        let (stem, key) = (path.with_extension(""), whole.with_extension(""));
        let room = self.rooms.entry(key.clone()).or_insert(Room { stem, there: There::default() });
        room.there.mark(path.extension()).into_iter().for_each(|mark| *mark = true);
        found.insert(key);
    }
}

/// The whole path of a file, which may not be there, or of a folder. A link to a file is a file of its own: its room is
/// another than that of the file that it leads to.
pub fn whole(path: &Path) -> io::Result<PathBuf> {
    match (path.parent(), path.file_name()) {
        (Some(folder), Some(name)) if !path.is_dir() => {
            let folder = if folder.as_os_str().is_empty() { Path::new(".") } else { folder };
            Ok(fs::canonicalize(folder)?.join(name))
        }
        _ => fs::canonicalize(path),
    }
}

/// A file of a room: the stem may have dots in it, so its ending is added, not exchanged.
pub fn stem_with(stem: &Path, ending: &str) -> PathBuf {
    let mut path = stem.as_os_str().to_owned();
    path.push(".");
    path.push(ending);
    PathBuf::from(path)
}

/// The file of the same room with another ending. An ending that no room has stays, since it may tell rooms apart.
pub fn beside(path: &Path, ending: &str) -> PathBuf {
    let known = There::default().mark(path.extension()).is_some();
    if known { path.with_extension(ending) } else { stem_with(path, ending) }
}
