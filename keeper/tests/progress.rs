//! The line that says how far the work is.

mod common;

use std::process::Command;
use std::time::{Duration, Instant};

use common::{Folder, Run, program};
use keeper::progress::Progress;

#[test]
fn from_the_second_second_on() {
    let start = Instant::now();
    let mut progress = Progress::new("checking", 2_000, start);
    let mut at = |done: usize, milliseconds: u64| progress.at(done, start + Duration::from_millis(milliseconds));
    assert_eq!(at(1, 0), None);
    assert_eq!(at(900, 999), None);
    assert_eq!(at(901, 1_000).as_deref(), Some("\rchecking: 901 of 2,000 "));
    assert_eq!(at(950, 1_099), None);
    assert_eq!(at(1_500, 1_100).as_deref(), Some("\rchecking: 1,500 of 2,000 "));
    assert_eq!(progress.cleared(), Some("\r\x1b[K"));
    assert_eq!(progress.cleared(), None);
}

/// The program on a terminal, which `script` gives; none where it gives none. It ends lines as terminals do.
fn on_terminal(folder: &Folder, command: &str) -> Option<Run> {
    let script = |line: &str| {
        let mut script = Command::new("script");
        script.args(["-qec", line, "/dev/null"]).current_dir(&folder.0);
        script
    };
    let there = script("test -t 1").status().is_ok_and(|status| status.success());
    there.then(|| Run::of(&mut script(&format!("{} {command}", program()))))
}

#[test]
fn on_a_terminal() {
    let folder = Folder::with_examples("terminal");
    folder.keeper(&["-q", "update", "."]).is(0, "", "");
    let Some(checked) = on_terminal(&folder, "check .") else {
        eprintln!("not tried: no terminal to be had");
        return;
    };
    assert_eq!(checked.status, Some(0));
    assert!(checked.out.ends_with("3 rooms: 3 within\r\n"), "{checked:?}");
    let refused = on_terminal(&folder, "compile rota.table").unwrap();
    refused.is(2, "keeper: the bytes of a network of this table are not for a terminal; use -o FILE\r\n", "");
}
