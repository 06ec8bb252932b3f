//! Time per step over fixed sequences, each of them a set-up and then a cycle that is repeated from
//! its start until so many steps are done. The state carries on from one round to the next.
//! beside.rs times the product on the same sequences.
//! `model sequence NAME N` writes a sequence as a recording: the set-up, then N steps of the cycle.
//!
//! Steps are given as in the replay text; a number with $ is hex, any other decimal. The set-up of all:
//!   Z; W $01 $04
//!   for b from 4 to 9:   W $50+b $50; W $30 $20+b; W $31 $0C; W $50+b $40  (receive, identifiers $24 to $29)
//!   for b from 10 to 15: W $50+b $D0; W $20 $20+b; W $21 $08; W $50+b $C0  (transmit, $2A to $2F)
//!   W $14 $FF; W $15 $00; W $08 $FA; W $09 $FD; W $10 $80; W $00 $40; S N  (the FIFO takes all but $FF)
//!
//! Step k, from 0 on, of each sequence:
//! - control: W $50+b v with b = 4 + (k / 4) % 12 and v = $60, $48, $50, $40 for k % 4 = 0, 1, 2, 3: read
//!   or send, abort, lock, release. The cycle is 48 steps; all answer ok.
//! - frame: a good frame of identifier $24 + e % 6, length 1 + e % 12 and data byte j = (16 * e + j) % 256,
//!   j from 0, where e = k % 64. The cycle is 64 steps; all answer stored.
//! - sync: S N if k is even, S A if odd. Before them the set-up is followed by W $50+b $60 for b from 10
//!   to 15, so that each sync arms six buffers.
//! - slot: a bus cycle: W $50+b $60 for b from 10 to 15, S N, T $01 to T $FF. The cycle is 262 steps; six
//!   slots send, the other 249 answer notsent.
//! - poll: R $0A if k is even, R $0B if odd. Before them the set-up is followed by W $50+b $60 for b from 13
//!   to 15 and the good frame $24 $02 $AA $BB, so that $0A reads $04 and $0B $0C.
//! - lines: one reading of the five lines. The set-up is that of sync followed by the good frame
//!   $24 $02 $AA $BB; the state stays. (`model sequence` has R $00 in their place.)
//! - mixed: the 48 steps of `MIXED` below in turn, with the lines read after each step.

use crate::controller::{Controller, Step, CONTENTS};
use crate::text::{parse, put_step, FRAME};
use std::hint::black_box;
use std::io::{self, Write};
use std::time::Instant;

pub const NAMES: [&str; 7] = ["control", "frame", "sync", "slot", "poll", "lines", "mixed"];
const ROUNDS: usize = 5;

/// A bus cycle of a small node: requests, sync, slots, stored and queued frames and their service, a
/// full FIFO, a refused and a bad frame. It leaves the FIFO empty, so every round runs alike.
const MIXED: &str = "W 5A E0; W 5C E0; S N; R 06; W 06 FF; F G 2402AABB; R 0A; W 54 50; R 32; R 33; \
    W 54 60; T 2A; R 0B; F G 01081122334455667788; F G 0200; F G 030C112233445566778899AABBCC; F G 0401FF; \
    F G 0501FF; R 07; W 07 40; W 50 50; R 40; R 42; W 50 40; W 51 50; R 40; W 51 40; W 52 50; R 42; R 4D; \
    W 52 40; W 53 50; R 42; W 53 40; T 2C; F G 250C112233445566778899AABBCC; W 55 60; F G 2605A1A2; \
    F G 2605A1A2A3A4A5; W 56 60; F B 2700; W 07 20; W 5F D0; W 22 77; W 5F C0; M; T 2D; R 00";

/// Steps as text, one a line, so that frames need no owner.
#[derive(Default)]
struct Script(Vec<u8>);

impl Script {
    fn add(&mut self, step: Step) {
        put_step(&mut self.0, &step);
    }

    fn write(&mut self, address: u8, value: u8) {
        self.add(Step::Write(address, value));
    }

    /// A request of each transmit buffer from this one on.
    fn request_from(&mut self, first: u8) {
        for b in first..16 {
            self.write(0x50 + b, 0x60);
        }
    }

    fn frames(&self) -> Vec<[u8; FRAME]> {
        vec![[0; FRAME]; self.0.split(|&byte| byte == b'\n').count()]
    }

    fn steps<'a>(&self, frames: &'a mut [[u8; FRAME]]) -> Vec<Step<'a>> {
        let lines = self
            .0
            .split(|&byte| byte == b'\n')
            .filter(|line| !line.is_empty());
        lines
            .zip(frames)
            .map(|(line, frame)| parse(line, frame).expect("a readable line"))
            .collect()
    }
}

fn set_up(name: &str) -> Script {
    let mut script = Script::default();
    script.add(Step::Reset);
    script.write(0x01, 0x04);
    for b in 4..10 {
        script.write(0x50 + b, 0x50);
        script.write(0x30, 0x20 + b);
        script.write(0x31, 0x0C);
        script.write(0x50 + b, 0x40);
    }
    for b in 10..16 {
        script.write(0x50 + b, 0xD0);
        script.write(0x20, 0x20 + b);
        script.write(0x21, 0x08);
        script.write(0x50 + b, 0xC0);
    }
    script
        .0
        .extend(b"W\t14\tFF\nW\t15\t00\nW\t08\tFA\nW\t09\tFD\nW\t10\t80\nW\t00\t40\nS\tN\n");
    match name {
        "sync" | "lines" => script.request_from(10),
        "poll" => script.request_from(13),
        _ => {}
    }
    if name == "poll" || name == "lines" {
        script.add(Step::Frame(true, &[0x24, 0x02, 0xAA, 0xBB]));
    }
    script
}

fn cycle(name: &str) -> Script {
    let mut script = Script::default();
    match name {
        "control" => {
            for k in 0..48 {
                script.write(0x54 + k / 4 % 12, [0x60, 0x48, 0x50, 0x40][k as usize % 4]);
            }
        }
        "frame" => {
            for e in 0..64u8 {
                let length = 1 + e % 12;
                let data = (0..length).map(|j| (e << 4).wrapping_add(j));
                let bytes: Vec<u8> = [0x24 + e % 6, length].into_iter().chain(data).collect();
                script.add(Step::Frame(true, &bytes));
            }
        }
        "sync" => script.0.extend(b"S\tN\nS\tA\n"),
        "slot" => {
            script.request_from(10);
            script.0.extend(b"S\tN\n");
            for i in 1..=255 {
                script.add(Step::Slot(i));
            }
        }
        "poll" => script.0.extend(b"R\t0A\nR\t0B\n"),
        "lines" => script.0.extend(b"R\t00\n"),
        "mixed" => {
            let lines = MIXED.replace("; ", "\n").replace(' ', "\t");
            script.0.extend(lines.as_bytes());
            script.0.push(b'\n');
        }
        _ => unreachable!(),
    }
    script
}

/// What is timed. Its calls are made of the steps beforehand, so that only the calling is timed.
pub trait Timed {
    type Call<'a>;
    fn call<'a>(step: &Step<'a>) -> Self::Call<'a>;
    fn run(&mut self, call: &Self::Call<'_>, room: &mut [u8]);
    fn read_lines(&self);
}

impl Timed for Controller {
    type Call<'a> = Step<'a>;

    fn call<'a>(step: &Step<'a>) -> Step<'a> {
        *step
    }

    fn run(&mut self, step: &Step, room: &mut [u8]) {
        black_box(self.step(step, room));
    }

    fn read_lines(&self) {
        black_box(self.lines());
    }
}

/// Takes a controller through the set-up of a sequence.
pub fn prepare<T: Timed>(timed: &mut T, name: &str) {
    let script = set_up(name);
    let mut frames = script.frames();
    for step in script.steps(&mut frames) {
        timed.run(&T::call(&step), &mut [0; CONTENTS]);
    }
}

/// Time of one step in nanoseconds, over one round of so many. The state carries on.
pub fn round<T: Timed>(timed: &mut T, name: &str, count: usize) -> f64 {
    let script = cycle(name);
    let mut frames = script.frames();
    let calls: Vec<_> = script.steps(&mut frames).iter().map(T::call).collect();
    let mut room = [0; CONTENTS];
    let start = Instant::now();
    match name {
        "lines" => (0..count).for_each(|_| black_box(&*timed).read_lines()),
        "mixed" => each(&calls, count, |call| {
            timed.run(call, &mut room);
            timed.read_lines();
        }),
        _ => each(&calls, count, |call| timed.run(call, &mut room)),
    }
    let time = start.elapsed().as_secs_f64();
    black_box(&room);
    time * 1e9 / count as f64
}

fn each<C>(calls: &[C], count: usize, mut run: impl FnMut(&C)) {
    let mut next = calls.iter().cycle();
    for _ in 0..count {
        run(black_box(next.next().expect("a cycle has steps")));
    }
}

/// The model's best of some rounds.
pub fn bench(count: usize, mut output: impl Write) -> io::Result<()> {
    for name in NAMES {
        let mut model = Controller::new();
        prepare(&mut model, name);
        let best = (0..ROUNDS)
            .map(|_| round(&mut model, name, count))
            .fold(f64::INFINITY, f64::min);
        writeln!(output, "{name}\t{best:.2} ns a step")?;
    }
    output.flush()
}

pub fn sequence(name: &str, count: usize, mut output: impl Write) -> io::Result<()> {
    output.write_all(&set_up(name).0)?;
    let script = cycle(name);
    for line in script
        .0
        .split_inclusive(|&byte| byte == b'\n')
        .cycle()
        .take(count)
    {
        output.write_all(line)?;
    }
    output.flush()
}
