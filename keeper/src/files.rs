//! Files: read whole, and replaced whole or not at all.

use std::ffi::{OsStr, OsString};
use std::fs::{self, File, OpenOptions};
use std::io::{self, Read, Write};
use std::os::unix::ffi::OsStrExt;
use std::os::unix::fs::{MetadataExt, fchown};
use std::path::{Path, PathBuf};
use std::process;
use std::sync::atomic::{AtomicUsize, Ordering};

/// Far longer than every table and network, and than a text or a drawing needs to be. A longer file is not read to its
/// end.
const MOST: usize = 1 << 24;

/// A file that a command is given; also what a pipe gives.
pub fn read(path: &Path) -> Result<Vec<u8>, String> {
    match read_most(path, MOST + 1) {
        Ok(bytes) if bytes.len() > MOST => Err("cannot be read: it has more than 16 mebibytes".to_string()),
        Ok(bytes) => Ok(bytes),
        Err(error) => Err(unreadable(&error)),
    }
}

fn read_most(path: &Path, most: usize) -> io::Result<Vec<u8>> {
    let mut bytes = Vec::with_capacity(1 << 16);
    File::open(path)?.take(most as u64).read_to_end(&mut bytes)?;
    Ok(bytes)
}

pub fn unreadable(error: &io::Error) -> String {
    format!("cannot be read: {}", reason(error))
}

/// A file that may not be there, found and not given: of a pipe nobody knows when it will end.
pub fn read_if_there(path: &Path) -> Result<Option<Vec<u8>>, String> {
    match fs::symlink_metadata(path) {
        Err(error) if error.kind() == io::ErrorKind::NotFound => Ok(None),
        _ => read_found(path).map(Some),
    }
}

/// A file that was found.
pub fn read_found(path: &Path) -> Result<Vec<u8>, String> {
    regular(path).map_err(|error| unreadable(&error))?;
    read(path)
}

/// The start of a file that was found, which may be longer than what is read of others.
pub fn start(path: &Path) -> io::Result<Vec<u8>> {
    regular(path)?;
    read_most(path, MOST)
}

fn regular(path: &Path) -> io::Result<()> {
    if fs::metadata(path)?.is_file() { Ok(()) } else { Err(io::Error::other(NO_FILE)) }
}

const NO_FILE: &str = "it is not a regular file";

/// An error in words, without its number.
pub fn reason(error: &io::Error) -> String {
    let text = error.to_string();
    let words = text.split(" (os error").next().unwrap_or(&text);
    let mut letters = words.chars();
    letters.next().map_or_else(String::new, |first| first.to_lowercase().chain(letters).collect())
}

/// Puts bytes in a file's place, all of them or none. `judged` is what the file held when it was judged, none if there was
/// no file: one that holds anything else by now stays. Answers its folder, for `keep`.
pub fn replace(path: &Path, judged: Option<&[u8]>, bytes: &[u8]) -> Result<PathBuf, String> {
    let in_words = |error: io::Error| format!("cannot be written: {}", reason(&error));
    let mut draft = Draft::new(path).map_err(in_words)?;
    draft.write(bytes).map_err(in_words)?;
    match read_if_there(path)?.as_deref() {
        now if now == judged => draft.finish().map_err(in_words),
        // Another run has done the same.
        Some(now) if now == bytes => Ok(draft.folder()),
        _ => Err("cannot be written: it was changed meanwhile".to_string()),
    }
}

/// Waits until what was renamed in a folder is on the disk.
pub fn keep(folder: &Path) -> Result<(), String> {
    let kept = File::open(folder).and_then(|folder| folder.sync_all());
    kept.map_err(|error| format!("written, but perhaps not yet on the disk: {}", reason(&error)))
}

const MARK: &str = ".keeper-";

/// Whether a name is that of a draft that was never finished.
pub fn is_left_over(name: &str) -> bool {
    let number = |rest: &str| !rest.is_empty() && rest.bytes().all(|b| b.is_ascii_digit() || b == b'-');
    name.starts_with('.') && name.rsplit_once(MARK).is_some_and(|(_, rest)| number(rest))
}

/// A file's new contents, in a file beside it until they are whole and on the disk.
struct Draft {
    at: PathBuf,
    target: PathBuf,
    file: File,
    done: bool,
}

impl Draft {
    fn new(path: &Path) -> io::Result<Draft> {
        let old = match fs::symlink_metadata(path) {
            Ok(old) => Some(replaceable(path, old)?),
            Err(error) if error.kind() == io::ErrorKind::NotFound => None,
            Err(error) => return Err(error),
        };
        let (at, file) = Draft::beside(path)?;
        let draft = Draft { at, target: path.to_path_buf(), file, done: false };
        if let Some(old) = old {
            // Not every user may give a file to another; the group can be kept by whoever is in it.
            let file = &draft.file;
            fchown(file, Some(old.uid()), Some(old.gid())).or_else(|_| fchown(file, None, Some(old.gid())))?;
            file.set_permissions(old.permissions())?;
        }
        Ok(draft)
    }

    /// A new file, named by the process and a number. One of that name may be left of a process that was interrupted.
    fn beside(target: &Path) -> io::Result<(PathBuf, File)> {
        static NUMBER: AtomicUsize = AtomicUsize::new(0);
        let name = target.file_name().ok_or(io::ErrorKind::InvalidInput)?.as_bytes();
        // A name has at most 255 bytes.
        let name = OsStr::from_bytes(&name[..name.len().min(200)]);
        loop {
            let mut draft = OsString::from(".");
            draft.push(name);
            draft.push(format!("{MARK}{}-{}", process::id(), NUMBER.fetch_add(1, Ordering::Relaxed)));
            let at = target.with_file_name(draft);
            match OpenOptions::new().write(true).create_new(true).open(&at) {
                Err(error) if error.kind() == io::ErrorKind::AlreadyExists => {}
                opened => return opened.map(|file| (at, file)),
            }
        }
    }

    fn write(&mut self, bytes: &[u8]) -> io::Result<()> {
        self.file.write_all(bytes)?;
        self.file.sync_all()
    }

    /// Puts the draft in the file's place. Answers the folder, which is not yet known to be on the disk.
    fn finish(mut self) -> io::Result<PathBuf> {
        fs::rename(&self.at, &self.target)?;
        self.done = true;
        Ok(self.folder())
    }

    fn folder(&self) -> PathBuf {
        let folder = self.target.parent().filter(|folder| !folder.as_os_str().is_empty());
        folder.unwrap_or(Path::new(".")).to_path_buf()
    }
}

/// What is there, if it is a file that may be replaced. Behind a link any file may stand, and be something else there.
fn replaceable(path: &Path, old: fs::Metadata) -> io::Result<fs::Metadata> {
    let why = match () {
        () if old.is_symlink() => "it is a link",
        () if !old.is_file() => NO_FILE,
        () if old.permissions().readonly() => "it is read-only",
        // Whoever may write to the folder could replace it, and may still not write to it.
        () => return OpenOptions::new().write(true).open(path).map(|_| old),
    };
    Err(io::Error::new(io::ErrorKind::PermissionDenied, why))
}

impl Drop for Draft {
    fn drop(&mut self) {
        if !self.done {
            let _ = fs::remove_file(&self.at);
        }
    }
}
