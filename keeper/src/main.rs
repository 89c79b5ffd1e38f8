use std::process::ExitCode;

fn main() -> ExitCode {
    ExitCode::from(keeper::commands::run(std::env::args_os().skip(1)))
}
