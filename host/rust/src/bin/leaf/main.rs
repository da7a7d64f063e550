//! leaf: measures scans of printed leaves.
mod batch;
mod command;
mod figures;
mod output;
mod picture;
mod report;
mod scan;

use std::fmt::{self, Display};
use std::process::ExitCode;

/// One line for the user: what it is about, and what is wrong.
#[derive(Debug)]
pub struct Failure(String);

impl Failure {
    pub fn new(about: impl Display, wrong: impl Display) -> Self {
        Self(format!("{about}: {wrong}"))
    }
}

impl Display for Failure {
    fn fmt(&self, f: &mut fmt::Formatter<'_>) -> fmt::Result {
        f.write_str(&self.0)
    }
}

fn main() -> ExitCode {
    match command::parse(std::env::args_os().skip(1)) {
        Ok(command) => match command.run() {
            Ok(()) => ExitCode::SUCCESS,
            Err(failure) => {
                eprintln!("leaf: {failure}");
                ExitCode::from(1)
            }
        },
        Err(failure) => {
            eprintln!("leaf: {failure}; `leaf --help` tells more");
            ExitCode::from(2)
        }
    }
}
