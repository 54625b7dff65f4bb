// SPDX-License-Identifier: Apache-2.0
//! The plain Rust that a user would write in place of the library, by std alone: types and raw values of upstream's shape,
//! nine calls over them, keys, statistics and filters. It reads lines of calls as `scalar_cases` does, and writes each with its answer. Given the
//! word `--memory` it says on standard error when a call is made and when it has answered.

mod calls;
mod cast;
mod display;
mod equality;
mod error;
mod filters;
mod hashing;
mod keys;
mod ordering;
mod pvalues;
mod read;
mod size;
mod sql;
mod statistics;
mod types;
mod validate;
mod values;
mod write;
mod zero;

use std::io::{self, Read, Write};
use std::process::ExitCode;

use calls::Run;

/// Writes each line that asks something, with its answer.
fn answer_lines(run: Run, input: &str, out: &mut impl Write) -> io::Result<()> {
    let mut answer = String::new();
    for (index, line) in input.lines().enumerate() {
        if line.is_empty() || line.starts_with('#') {
            continue;
        }
        answer.clear();
        match calls::answer_line(run, line, &mut answer) {
            Ok(()) => writeln!(out, "{line} => {answer}")?,
            Err(read::BadLine) => writeln!(out, "line {}: bad line", index + 1)?,
        }
    }
    out.flush()
}

fn answer_input() -> io::Result<()> {
    let is_watched = std::env::args()
        .nth(1)
        .is_some_and(|word| word == "--memory");
    let mut input = String::new();
    io::stdin().lock().read_to_string(&mut input)?;
    answer_lines(
        Run { is_watched },
        &input,
        &mut io::BufWriter::new(io::stdout().lock()),
    )
}

fn main() -> ExitCode {
    match answer_input() {
        Ok(()) => ExitCode::SUCCESS,
        Err(error) => {
            eprintln!("{error}");
            ExitCode::FAILURE
        }
    }
}
