//! Random sessions through the static library and the model, compared after every step. Run by
//! tests/differential.
//! Build: rustc --edition 2021 -O -L FOLDER -l static=hevrukan differential.rs -o differential

mod call;
mod cases;
mod controller;
mod counts;
mod held;
mod library;
#[allow(dead_code)] // the kinds of recordings that no session is made of
mod make;
mod pair;
mod text;

use call::{Call, FRAME, ROOM};
use controller::Step;
use counts::Counts;
use library::{OLDER, SIZE};
use make::{Kind, Random};
use pair::{Difference, Pair};
use std::process::ExitCode;

const USAGE: &str = "usage: differential [--steps N] [--seed N]\n";
const STEPS: u64 = 1_000_000;
/// The calls that a difference is shown with.
const SHOWN: usize = 16;

// Statuses beside 0: a difference, bad arguments, and a run without difference that left something out.
const DIFFERS: u8 = 1;
const BAD_USAGE: u8 = 2;
const NOT_REACHED: u8 = 3;

/// One session: a made recording from reset, and the calls that were made of it.
struct Session<'a> {
    random: Random,
    pair: Pair,
    calls: Vec<Call>,
    counts: &'a mut Counts,
}

impl Session<'_> {
    /// A step of a recording as a call, now and then damaged where a recording can't be.
    fn take(&mut self, step: &Step) -> Result<(), Difference> {
        let mut call = self.call(step);
        if self.random.one_in(30) {
            self.damage(&mut call, step);
        }
        self.run(call)
    }

    /// What the step doesn't use is left to chance: it must not be looked at.
    fn call(&mut self, step: &Step) -> Call {
        let room_size = match step {
            Step::Slot(_) => 14 + self.random.below(ROOM - 13),
            _ => self.random.below(ROOM + 1),
        };
        let mut bytes = [0; FRAME];
        for chunk in bytes.chunks_mut(8) {
            chunk.copy_from_slice(&self.random.next().to_le_bytes());
        }
        let mut call = Call::of(step, room_size, bytes);
        if !matches!(step, Step::Frame(..)) {
            call.frame_size = self.random.below(FRAME + 1);
        }
        let numbers = &mut call.numbers;
        if matches!(step, Step::Reset | Step::SyncDue | Step::Timeout) {
            numbers.first = self.random.next() as u32;
        }
        if !matches!(step, Step::Write(..)) {
            numbers.second = self.random.next() as u32;
        }
        call
    }

    fn damage(&mut self, call: &mut Call, step: &Step) {
        let numbers = &mut call.numbers;
        match (self.random.below(8), step) {
            (0, _) => {
                let others = [0, 1, SIZE - 1, SIZE + 1, 2 * SIZE, usize::MAX];
                call.size = self.random.of(&[&OLDER[..], &others].concat());
            }
            (1, _) => numbers.kind = self.random.of(&[9, 10, 255, 256, 0x102, u32::MAX]),
            (_, Step::Frame(..)) => call.frame_size = self.random.below(FRAME + 1),
            (_, Step::Slot(_)) => call.room_size = self.random.below(ROOM + 1),
            (2, Step::Write(..)) => numbers.second |= self.random.of(&[0x100, 0xFF00, 1 << 31]),
            _ => {
                numbers.first =
                    self.random
                        .of(&[2, 4, 0x100, 0x100 + numbers.first % 0x100, u32::MAX])
            }
        }
    }

    fn run(&mut self, call: Call) -> Result<(), Difference> {
        self.calls.push(call);
        let taken = self.pair.step(&call)?;
        self.counts.add(&call, taken.as_ref());
        Ok(())
    }

    /// Every register, and addresses that are none.
    fn read_all(&mut self) -> Result<(), Difference> {
        for address in (0x00..=0x60).chain([0x7F, 0x80, 0xFF, 0x100, 0x150, 0x1FF, u32::MAX]) {
            let mut call = self.call(&Step::Read(0));
            call.numbers.first = address;
            self.run(call)?;
        }
        Ok(())
    }
}

/// Where a run stands: the session's number and what was made for it.
struct Origin {
    number: u64,
    kind: Kind,
    seed: u64,
    lines: usize,
}

impl Origin {
    fn new(seed: u64, number: u64) -> Origin {
        let seed = seed.wrapping_mul(1_000_003).wrapping_add(number);
        let mut random = Random::new(!seed);
        // Short ones stay in initialization; long ones come back to a state by many ways.
        let lines = match random.below(8) {
            0 | 1 => 1 + random.below(60),
            2..=6 => 200 + random.below(2_000),
            _ => 2_000 + random.below(10_000),
        };
        let kind = random.of(&[Kind::Mixed, Kind::Mixed, Kind::Damaged, Kind::Wild]);
        Origin {
            number,
            kind,
            seed,
            lines,
        }
    }

    fn run(&self, counts: &mut Counts) -> Result<(), (Difference, Vec<Call>)> {
        let mut text = Vec::new();
        make::make(self.kind, self.seed, self.lines, &mut text).expect("a vector takes all");
        let random = Random::new(self.seed ^ 0x5EED);
        let pair = Pair::new(self.seed as u8).map_err(|difference| (difference, Vec::new()))?;
        let mut session = Session {
            random,
            pair,
            calls: Vec::new(),
            counts,
        };
        let result = run_lines(&mut session, &text);
        result.map_err(|difference| (difference, session.calls))
    }
}

fn run_lines(session: &mut Session, text: &[u8]) -> Result<(), Difference> {
    let mut bytes = [0; text::FRAME];
    for line in text.split(|&byte| byte == b'\n') {
        // A damaged line is no step.
        if let Some(step) = text::parse(line, &mut bytes) {
            session.take(&step)?;
        }
    }
    session.read_all()
}

fn show(seed: u64, origin: &Origin, difference: &Difference, calls: &[Call]) {
    let Origin {
        number,
        kind,
        seed: made,
        lines,
    } = origin;
    println!(
        "seed {seed}, session {number}, step {}: {} differs",
        calls.len(),
        difference.what
    );
    println!("  library: {}", difference.library);
    println!("  model:   {}", difference.model);
    let kind = format!("{kind:?}").to_lowercase();
    println!("the session is that of: model make {kind} {made} {lines}");
    println!("its last steps, the one that differs at the end:");
    for call in &calls[calls.len().saturating_sub(SHOWN)..] {
        println!("{}", call.text());
    }
}

/// Runs sessions until so many steps are done.
fn run(seed: u64, steps: u64) -> u8 {
    let mut counts = Counts::new();
    let mut sessions = 0;
    while counts.steps < steps {
        let origin = Origin::new(seed, sessions);
        if let Err((difference, calls)) = origin.run(&mut counts) {
            show(seed, &origin, &difference, &calls);
            return DIFFERS;
        }
        sessions += 1;
    }
    counts.print();
    let missing = counts.missing();
    if !missing.is_empty() {
        println!(
            "seed {seed}, {} steps: never reached: {}",
            counts.steps,
            missing.join("; ")
        );
        return NOT_REACHED;
    }
    println!(
        "seed {seed}, {sessions} sessions, {} steps, no difference",
        counts.steps
    );
    0
}

/// Steps and seed; `None` if the arguments say something else.
fn arguments() -> Option<(u64, u64)> {
    let (mut steps, mut seed) = (STEPS, 1);
    let mut arguments = std::env::args().skip(1);
    while let Some(name) = arguments.next() {
        let value = arguments.next()?.parse().ok()?;
        match name.as_str() {
            "--steps" => steps = value,
            "--seed" => seed = value,
            _ => return None,
        }
    }
    Some((steps, seed))
}

fn main() -> ExitCode {
    ExitCode::from(match arguments() {
        Some((steps, seed)) => run(seed, steps),
        None => {
            eprint!("{USAGE}");
            BAD_USAGE
        }
    })
}
