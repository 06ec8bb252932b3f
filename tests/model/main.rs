//! A plain model of document 01, to test and time the product against. It shares no code with it. Its replay is
//! written for speed: it is the baseline of the benchmark.
//! Build: rustc --edition 2021 -O main.rs -o model
//! Other programs of this folder: differential.rs and beside.rs, which link the product's static library to
//! compare and to time it, and peak.rs, which measures memory.

mod bench;
mod controller;
mod filters;
mod make;
mod recording;
mod rows;
mod state;
#[cfg(test)]
mod tests;
mod text;

use make::Kind;
use std::fs::File;
use std::io::{self, BufWriter, Read};
use std::process::ExitCode;

const USAGE: &str = "\
usage: model replay [FILE]            replay a recording (standard input without FILE)
       model blank [FILE]             copy a recording without its data
       model state FILE LINE          write the state after line LINE of a recording (0: reset)
       model seen FILE                for each line, write which buffers it reaches that its row doesn't name
       model make KIND SEED LINES     write a random recording; KIND is mixed, wild, damaged, text or data
       model bench [N]                time N steps of each sequence (10,000,000 without N)
       model sequence NAME N          write a sequence of bench as a recording:
                                      control, frame, sync, slot, poll, lines or mixed
";

fn open(file: Option<&str>) -> io::Result<Box<dyn Read>> {
    Ok(match file {
        Some(path) => Box::new(File::open(path)?),
        None => Box::new(io::stdin().lock()),
    })
}

/// Runs what the arguments ask for; `None` if they ask for nothing known.
fn run(arguments: &[&str]) -> Option<io::Result<()>> {
    let output = io::stdout().lock();
    Some(match *arguments {
        ["replay", ref file @ ..] if file.len() < 2 => {
            open(file.first().copied()).and_then(|input| filters::replay(input, output))
        }
        ["blank", ref file @ ..] if file.len() < 2 => {
            open(file.first().copied()).and_then(|input| filters::blank(input, output))
        }
        ["state", file, line] => {
            let line = line.parse().ok()?;
            open(Some(file)).and_then(|input| state::state(input, line, BufWriter::new(output)))
        }
        ["seen", file] => {
            open(Some(file)).and_then(|input| state::seen(input, BufWriter::new(output)))
        }
        ["make", kind, seed, lines] => {
            let kind = match kind {
                "mixed" => Kind::Mixed,
                "wild" => Kind::Wild,
                "damaged" => Kind::Damaged,
                "text" => Kind::Text,
                "data" => Kind::Data,
                _ => return None,
            };
            let (seed, lines) = (seed.parse().ok()?, lines.parse().ok()?);
            make::make(kind, seed, lines, BufWriter::new(output))
        }
        ["bench"] => bench::bench(10_000_000, output),
        ["bench", count] => bench::bench(count.parse().ok()?, output),
        ["sequence", name, count] if bench::NAMES.contains(&name) => {
            bench::sequence(name, count.parse().ok()?, BufWriter::new(output))
        }
        _ => return None,
    })
}

fn main() -> ExitCode {
    let arguments: Vec<String> = std::env::args().skip(1).collect();
    let arguments: Vec<&str> = arguments.iter().map(String::as_str).collect();
    if let ["-h" | "--help"] = *arguments {
        print!("{USAGE}");
        return ExitCode::SUCCESS;
    }
    match run(&arguments) {
        Some(Ok(())) => ExitCode::SUCCESS,
        Some(Err(error)) => {
            eprintln!("model: {error}");
            ExitCode::FAILURE
        }
        None => {
            eprint!("{USAGE}");
            ExitCode::from(2)
        }
    }
}
