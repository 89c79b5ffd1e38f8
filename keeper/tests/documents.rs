//! The sessions that documents show: their commands print what stands below them.

mod common;

use std::fs;
use std::path::Path;
use std::process::Command;

use common::{Folder, Run, program};

/// A folder with the examples.
fn beside_examples(name: &str) -> Folder {
    let folder = Folder::new(name);
    fs::create_dir(folder.path("examples")).unwrap();
    for entry in fs::read_dir(Path::new(env!("CARGO_MANIFEST_DIR")).join("../examples")).unwrap() {
        let path = entry.unwrap().path();
        fs::copy(&path, folder.path("examples").join(path.file_name().unwrap())).unwrap();
    }
    folder
}

/// Each command of a document's sessions, and the lines below it.
fn steps(document: &str) -> Vec<(String, String)> {
    let mut steps: Vec<(String, String)> = Vec::new();
    let mut within = false;
    for line in document.lines() {
        let Some(line) = line.strip_prefix("    ") else {
            within = false;
            continue;
        };
        match line.strip_prefix("$ ") {
            Some(command) => steps.push((command.to_string(), String::new())),
            None if within => steps.last_mut().unwrap().1 += &format!("{line}\n"),
            None => continue,
        }
        within = true;
    }
    steps
}

/// Runs a document's sessions in one folder. Answers how many commands these have.
fn run(document: &str, folder: &Folder) -> usize {
    let programs = Path::new(program()).parent().unwrap();
    let path = format!("{}:{}", programs.display(), std::env::var("PATH").unwrap());
    let steps = steps(document);
    for (command, printed) in &steps {
        // A text that is shown before anything makes it is one that the reader types.
        if let Some(name) = command.strip_prefix("cat ").filter(|name| !folder.path(name).exists()) {
            folder.write(name, printed.as_bytes());
        }
        let both = format!("{{ {command}; }} 2>&1");
        let run = Run::of(Command::new("bash").args(["-c", &both]).env("PATH", &path).current_dir(&folder.0));
        let status = i32::from(printed.contains(": outside at "));
        assert_eq!((run.status, run.out.as_str()), (Some(status), printed.as_str()), "{command}");
    }
    steps.len()
}

#[test]
fn readme_for_keepers() {
    let folder = beside_examples("readme");
    assert_eq!(run(include_str!("../../README.md"), &folder), 17);
    let drawn = fs::read_to_string(folder.path("rooms/alarm.svg")).unwrap();
    assert_eq!(drawn, fs::read_to_string(folder.path("examples/alarm.svg")).unwrap());
}

#[test]
fn readme_of_the_program() {
    let folder = beside_examples("readme_of_the_program");
    assert_eq!(run(include_str!("../README.md"), &folder), 4);
}
