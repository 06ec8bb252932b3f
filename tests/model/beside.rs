//! The product beside the model: the static library's controller on the sequences of bench.rs, in one
//! process and in turn, and the two programs that replay recordings. Run by tests/bench.

#[allow(dead_code)] // what the program model does with the sequences
mod bench;
mod controller;
#[allow(dead_code)] // what a comparison looks at
mod library;
mod text;
#[allow(dead_code)] // the memory
mod usage;

use bench::{prepare, round, Timed, NAMES};
use controller::{Controller, Step};
use library::{numbers, Library, Numbers, SIZE};
use std::fs::File;
use std::hint::black_box;
use std::io;
use std::process::{Command, ExitCode, Stdio};

/// What is replayed: the kinds of make.rs, each a file of the folder.
const RECORDINGS: [&str; 4] = ["mixed", "wild", "text", "data"];

impl Timed for Library {
    type Call<'a> = (Numbers, &'a [u8]);

    fn call<'a>(step: &Step<'a>) -> Self::Call<'a> {
        numbers(step)
    }

    fn run(&mut self, &(numbers, frame): &Self::Call<'_>, room: &mut [u8]) {
        black_box(self.step(SIZE, numbers, frame, room));
    }

    fn read_lines(&self) {
        black_box(self.lines(SIZE));
    }
}

/// Runs the two in turn, so that a busy moment meets both, and picks a time of each.
fn in_turn(
    rounds: usize,
    mut ours: impl FnMut() -> io::Result<f64>,
    mut model: impl FnMut() -> io::Result<f64>,
    pick: fn(Vec<f64>) -> f64,
) -> io::Result<(f64, f64)> {
    let mut times = (Vec::new(), Vec::new());
    for _ in 0..rounds {
        times.0.push(ours()?);
        times.1.push(model()?);
    }
    Ok((pick(times.0), pick(times.1)))
}

fn best(times: Vec<f64>) -> f64 {
    times.into_iter().fold(f64::INFINITY, f64::min)
}

fn median(mut times: Vec<f64>) -> f64 {
    times.sort_by(f64::total_cmp);
    times[times.len() / 2]
}

fn steps(count: usize, rounds: usize) -> io::Result<()> {
    println!(
        "{:<16}{:>12}{:>12}{:>8}",
        "ns a step", "hevrukan", "model", "ratio"
    );
    for name in NAMES {
        let (mut library, mut controller) = (Library::holding(0), Controller::new());
        prepare(&mut library, name);
        prepare(&mut controller, name);
        let (ours, model) = in_turn(
            rounds,
            || Ok(round(&mut library, name, count)),
            || Ok(round(&mut controller, name, count)),
            best,
        )?;
        println!("{name:<16}{ours:>12.1}{model:>12.1}{:>8.2}", ours / model);
    }
    Ok(())
}

/// Processor time of a program in nanoseconds, from its start to its end.
fn time(program: &str, words: &[&str], output: Stdio) -> io::Result<f64> {
    let mut command = Command::new(program);
    command.args(words).stdout(output).stderr(Stdio::null());
    let before = usage::of_children()?.processor_time();
    if !command.status()?.success() {
        return Err(io::Error::other(format!("{program} failed")));
    }
    let taken = usage::of_children()?.processor_time() - before;
    Ok(taken.as_nanos() as f64)
}

fn replays(programs: [&str; 2], folder: &str, lines: f64, rounds: usize) -> io::Result<()> {
    println!(
        "{:<16}{:>12}{:>12}{:>22}",
        "ns a line", "hevrukan", "baseline", "speed, baseline = 1"
    );
    let [ours, model] = programs;
    for kind in RECORDINGS {
        let recording = format!("{folder}/{kind}");
        for to in ["nothing", "a file"] {
            let output = || {
                Ok::<_, io::Error>(match to {
                    "nothing" => Stdio::null(),
                    _ => File::create(format!("{folder}/report"))?.into(),
                })
            };
            let (ours, model) = in_turn(
                rounds,
                || Ok(time(ours, &[&recording], output()?)? / lines),
                || Ok(time(model, &["replay", &recording], output()?)? / lines),
                median,
            )?;
            let name = format!("{kind} to {to}");
            println!("{name:<16}{ours:>12.1}{model:>12.1}{:>22.2}", model / ours);
        }
    }
    Ok(())
}

fn run(arguments: &[&str]) -> Option<io::Result<()>> {
    let [ours, model, folder, lines, count, rounds] = *arguments else {
        return None;
    };
    let (lines, count) = (lines.parse().ok()?, count.parse().ok()?);
    let rounds = rounds.parse().ok().filter(|&rounds| rounds > 0)?;
    Some(steps(count, rounds).and_then(|()| {
        println!();
        replays([ours, model], folder, lines, rounds)
    }))
}

fn main() -> ExitCode {
    let arguments: Vec<String> = std::env::args().skip(1).collect();
    let arguments: Vec<&str> = arguments.iter().map(String::as_str).collect();
    match run(&arguments) {
        Some(Ok(())) => ExitCode::SUCCESS,
        Some(Err(error)) => {
            eprintln!("beside: {error}");
            ExitCode::FAILURE
        }
        None => {
            eprintln!("usage: beside REPLAY MODEL FOLDER LINES STEPS ROUNDS");
            ExitCode::from(2)
        }
    }
}
