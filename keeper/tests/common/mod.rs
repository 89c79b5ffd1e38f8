//! Folders to try things in, and the program run in them.
#![allow(dead_code)]

use std::fs;
use std::path::{Path, PathBuf};
use std::process::{Command, Output};

pub const EXAMPLES: [&str; 3] = ["alarm", "rota", "second_key"];

pub fn program() -> &'static str {
    env!("CARGO_BIN_EXE_keeper")
}

pub fn example(name: &str) -> Vec<u8> {
    let path = Path::new(env!("CARGO_MANIFEST_DIR")).join("../examples").join(name);
    fs::read(&path).unwrap_or_else(|error| panic!("{}: {error}", path.display()))
}

/// A folder of its own for each test, removed with it.
pub struct Folder(pub PathBuf);

impl Folder {
    pub fn new(name: &str) -> Folder {
        let path = Path::new(env!("CARGO_TARGET_TMPDIR")).join(name);
        let _ = fs::remove_dir_all(&path);
        fs::create_dir_all(&path).unwrap();
        Folder(path)
    }

    pub fn with_examples(name: &str) -> Folder {
        let folder = Folder::new(name);
        for room in EXAMPLES {
            folder.write(&format!("{room}.txt"), &example(&format!("{room}.txt")));
            folder.write(&format!("{room}.table"), &example(&format!("{room}.table")));
        }
        folder
    }

    pub fn path(&self, name: &str) -> PathBuf {
        self.0.join(name)
    }

    pub fn write(&self, name: &str, bytes: &[u8]) {
        fs::write(self.path(name), bytes).unwrap();
    }

    pub fn read(&self, name: &str) -> Vec<u8> {
        fs::read(self.path(name)).unwrap()
    }

    /// Changes bytes of a file.
    pub fn change(&self, name: &str, changes: &[(usize, u8)]) {
        let mut bytes = self.read(name);
        for (byte, value) in changes {
            bytes[*byte] = *value;
        }
        self.write(name, &bytes);
    }

    pub fn names(&self) -> Vec<String> {
        let name = |entry: Result<fs::DirEntry, _>| entry.unwrap().file_name().into_string().unwrap();
        let mut names: Vec<String> = fs::read_dir(&self.0).unwrap().map(name).collect();
        names.sort();
        names
    }

    pub fn keeper(&self, arguments: &[&str]) -> Run {
        Run::of(Command::new(program()).args(arguments).current_dir(&self.0))
    }

    /// A line of shell; `$K` is the program.
    pub fn shell(&self, line: &str) -> Run {
        Run::of(Command::new("bash").args(["-c", line]).env("K", program()).current_dir(&self.0))
    }
}

impl Drop for Folder {
    fn drop(&mut self) {
        let _ = fs::remove_dir_all(&self.0);
    }
}

#[derive(Debug)]
pub struct Run {
    pub status: Option<i32>,
    pub bytes: Vec<u8>,
    pub out: String,
    pub err: String,
}

impl Run {
    pub fn of(command: &mut Command) -> Run {
        let Output { status, stdout, stderr } = command.output().unwrap();
        let out = String::from_utf8_lossy(&stdout).into_owned();
        Run { status: status.code(), bytes: stdout, out, err: String::from_utf8(stderr).unwrap() }
    }

    #[track_caller]
    pub fn is(&self, status: i32, out: &str, err: &str) {
        assert_eq!((self.status, self.out.as_str(), self.err.as_str()), (Some(status), out, err));
    }
}

/// Numbers that a seed decides.
pub struct Random(pub u64);

impl Random {
    pub fn below(&mut self, n: usize) -> usize {
        self.0 ^= self.0 << 13;
        self.0 ^= self.0 >> 7;
        self.0 ^= self.0 << 17;
        (self.0 % n as u64) as usize
    }

    /// A table file.
    pub fn table(&mut self) -> Vec<u8> {
        let mut file = Vec::new();
        let mut values = Vec::new();
        for i in 0..self.below(5) {
            values.push(2 + self.below(3));
            file.extend([1, i as u8, values[i] as u8]);
            file.resize(16 * (i + 1), 0);
        }
        let grades = 2 + self.below(15);
        file.extend([2, grades as u8]);
        let listed = 1 + self.below(4);
        let kinds = 1 + self.below(4);
        for cell in 0..values.iter().product() {
            if self.below(4) < listed {
                file.resize(file.len().next_multiple_of(16), 0);
                let lower = self.below(grades) / kinds;
                let upper = lower + self.below(grades - lower) / kinds;
                let start = file.len();
                file.extend([3, lower as u8, upper as u8, 0, 0, 0, 0, 0]);
                let mut rest: usize = cell;
                for n in &values {
                    file.push((rest % n) as u8);
                    rest /= n;
                }
                file.resize(start + 16, 0);
            }
        }
        file.resize(file.len().next_multiple_of(16), 0);
        file
    }
}
