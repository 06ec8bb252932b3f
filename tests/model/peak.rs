//! Runs a command and adds a line to a file: the most memory that it held at a time, in kilobytes of 1,024 bytes.
//! usage: peak FILE COMMAND [WORDS..]

#[allow(dead_code)] // the times
mod usage;

use std::fs::OpenOptions;
use std::io::{self, Write};
use std::process::{Command, ExitCode};

fn run() -> io::Result<bool> {
    let mut arguments = std::env::args_os().skip(1);
    let (Some(file), Some(program)) = (arguments.next(), arguments.next()) else {
        return Err(io::Error::other("usage: peak FILE COMMAND [WORDS..]"));
    };
    let status = Command::new(program).args(arguments).status()?;
    let mut file = OpenOptions::new().create(true).append(true).open(file)?;
    writeln!(file, "{}", usage::of_children()?.max_rss)?;
    Ok(status.success())
}

fn main() -> ExitCode {
    match run() {
        Ok(true) => ExitCode::SUCCESS,
        Ok(false) => ExitCode::FAILURE,
        Err(error) => {
            eprintln!("peak: {error}");
            ExitCode::FAILURE
        }
    }
}
