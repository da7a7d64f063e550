//! Runs the compiled show program, a process an input, on two threads.

use std::io::Write;
use std::path::PathBuf;
use std::process::{Command, Stdio};

use super::model::{self, Model};

const THREADS: usize = 2;

/// The program: the file that the variable NOVLIZEB_SHOW names, or else `target/bin/show` of the project.
pub struct Program(PathBuf);

/// What a process printed, and its status.
pub struct Ran {
    pub printed: Vec<u8>,
    pub status: Option<i32>,
}

impl Program {
    pub fn new() -> Self {
        let own = concat!(env!("CARGO_MANIFEST_DIR"), "/../target/bin/show");
        let path = std::env::var_os("NOVLIZEB_SHOW").map_or_else(|| PathBuf::from(own), PathBuf::from);
        let there = path.is_file();
        assert!(
            there,
            "{} is not there: run tools/program show first, or compare/run",
            path.display()
        );
        Program(path)
    }

    /// Every input's model and what the program made of it, in order.
    pub fn run_all(&self, inputs: &[Vec<u8>]) -> Vec<(Model, Ran)> {
        let part = inputs.len().div_ceil(THREADS).max(1);
        std::thread::scope(|scope| {
            let one = |input: &Vec<u8>| (model::show(input), self.run(input));
            let threads: Vec<_> = inputs
                .chunks(part)
                .map(|inputs| scope.spawn(move || inputs.iter().map(one).collect::<Vec<_>>()))
                .collect();
            threads
                .into_iter()
                .flat_map(|thread| thread.join().expect("a thread ends"))
                .collect()
        })
    }

    fn run(&self, input: &[u8]) -> Ran {
        let mut process = Command::new(&self.0)
            .stdin(Stdio::piped())
            .stdout(Stdio::piped())
            .spawn()
            .expect("a process starts");
        // a program that stops reading has its status and its bytes compared all the same
        let _ = process.stdin.take().expect("it is piped").write_all(input);
        let output = process.wait_with_output().expect("it ends");
        Ran {
            printed: output.stdout,
            status: output.status.code(),
        }
    }
}
