//! What is compared with the reference model: the session program, or a wrong variant of the model itself.

use crate::fault::Fault;
use crate::session::{self, Tally};
use std::io::{Read, Write};
use std::path::PathBuf;
use std::process::{Command, Stdio};
use std::sync::mpsc;
use std::thread;
use std::time::Duration;

/// A program that takes longer than this over one session is stopped.
const TIME_LIMIT: Duration = Duration::from_secs(20);

pub enum Subject {
    Program { path: PathBuf, arguments: Vec<String> },
    Wrong(Fault),
}

/// What a session gave: its output, and how the program ended if not well.
pub struct Outcome {
    pub output: Vec<u8>,
    pub trouble: Option<String>,
}

impl Subject {
    pub fn run(&self, input: &[u8]) -> Outcome {
        match self {
            Subject::Program { path, arguments } => run_program(path, arguments, input),
            Subject::Wrong(fault) => {
                Outcome { output: session::run(input, *fault, &mut Tally::default()), trouble: None }
            }
        }
    }

    /// Whether this session shows a difference from the reference model.
    pub fn differs(&self, input: &[u8]) -> bool {
        let outcome = self.run(input);
        outcome.trouble.is_some() || outcome.output != expected(input)
    }
}

/// The reference model's output.
pub fn expected(input: &[u8]) -> Vec<u8> {
    session::run(input, Fault::None, &mut Tally::default())
}

fn run_program(path: &PathBuf, arguments: &[String], input: &[u8]) -> Outcome {
    let mut command = Command::new(path);
    command.args(arguments).stdin(Stdio::piped()).stdout(Stdio::piped()).stderr(Stdio::null());
    let mut child = command.spawn().unwrap_or_else(|error| {
        eprintln!("cannot start {}: {error}", path.display());
        std::process::exit(2);
    });
    let mut to_program = child.stdin.take().expect("its input is a pipe");
    let mut from_program = child.stdout.take().expect("its output is a pipe");
    let input = input.to_vec();
    thread::spawn(move || {
        let _ = to_program.write_all(&input); // it may stop reading; its output tells
    });
    let (sender, receiver) = mpsc::channel();
    thread::spawn(move || {
        let mut output = Vec::new();
        let _ = from_program.read_to_end(&mut output);
        let _ = sender.send(output);
    });
    let Ok(output) = receiver.recv_timeout(TIME_LIMIT) else {
        let _ = child.kill();
        let _ = child.wait();
        return Outcome { output: Vec::new(), trouble: Some(format!("no end after {TIME_LIMIT:?}")) };
    };
    let trouble = match child.wait() {
        Ok(status) if status.success() => None,
        Ok(status) => Some(status.to_string()),
        Err(error) => Some(error.to_string()),
    };
    Outcome { output, trouble }
}
