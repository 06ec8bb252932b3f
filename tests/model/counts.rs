//! Counts of what the steps of a run reached: a run that never reached a case says nothing of it.

use crate::call::{Call, FRAME, ROOM};
use crate::cases::{can_be_written, looks_up, CASES, WAITING};
use crate::controller::{Answer, Step, BUFFERS};
use crate::library::{number, word, SIZE, UNUSED, WORDS};
use crate::pair::Taken;

const REGISTERS: usize = 0x60;
const REFUSALS: usize = 12;

/// How often each thing was reached.
pub struct Counts {
    pub steps: u64,
    words: [u64; WORDS.len()],
    refusals: [u64; REFUSALS],
    read: [u64; REGISTERS],
    written: [u64; REGISTERS],
    /// Frames and slots' rooms by size.
    frames: [u64; FRAME + 1],
    rooms: [u64; ROOM + 1],
    /// Frames that were looked up, by the dedicated receive buffers examined.
    looked: [u64; BUFFERS + 1],
    cases: [u64; CASES.len()],
    waiting: [u64; WAITING.len()],
    unknown: u64,
    wrong_size: u64,
}

impl Counts {
    pub fn new() -> Counts {
        Counts {
            steps: 0,
            words: [0; WORDS.len()],
            refusals: [0; REFUSALS],
            read: [0; REGISTERS],
            written: [0; REGISTERS],
            frames: [0; FRAME + 1],
            rooms: [0; ROOM + 1],
            looked: [0; BUFFERS + 1],
            cases: [0; CASES.len()],
            waiting: [0; WAITING.len()],
            unknown: 0,
            wrong_size: 0,
        }
    }

    pub fn add(&mut self, call: &Call, taken: Option<&Taken>) {
        self.steps += 1;
        match taken {
            Some(taken) => self.add_step(call, taken),
            None if call.size != SIZE => self.wrong_size += 1,
            None => self.unknown += 1,
        }
    }

    fn add_step(&mut self, call: &Call, taken: &Taken) {
        self.words[word(number(taken.answer.into()))] += 1;
        match (taken.step, taken.answer) {
            (_, Answer::Refused(number)) => self.refusals[number as usize - 1] += 1,
            (Step::Read(address), _) => self.read[address as usize] += 1,
            (Step::Write(address, _), _) => self.written[address as usize] += 1,
            _ => {}
        }
        match taken.step {
            Step::Frame(..) => self.frames[call.frame_size] += 1,
            Step::Slot(_) => self.rooms[call.room_size] += 1,
            _ => {}
        }
        if looks_up(taken) {
            self.looked[taken.looked as usize] += 1;
        }
        let counts = self.cases.iter_mut().chain(&mut self.waiting);
        for (count, (_, test)) in counts.zip(CASES.iter().chain(&WAITING)) {
            *count += u64::from(test(taken));
        }
    }

    /// Everything that was counted, by group and name; what no step can reach is left out.
    fn list(&self) -> Vec<(&'static str, String, u64)> {
        let mut all = Vec::new();
        let mut group = |name, counts: &[u64], label: &dyn Fn(usize) -> String| {
            all.extend(
                counts
                    .iter()
                    .enumerate()
                    .map(|(n, &count)| (name, label(n), count)),
            );
        };
        let used: Vec<usize> = (0..WORDS.len()).filter(|&n| WORDS[n] != UNUSED).collect();
        let words: Vec<u64> = used.iter().map(|&n| self.words[n]).collect();
        group("answers", &words, &|n| WORDS[used[n]].to_string());
        group("refusals", &self.refusals, &|n| (n + 1).to_string());
        group("registers read", &self.read, &|n| format!("${n:02X}"));
        let writable: Vec<usize> = (0..REGISTERS).filter(|&n| can_be_written(n)).collect();
        let written: Vec<u64> = writable.iter().map(|&n| self.written[n]).collect();
        group("registers written", &written, &|n| {
            format!("${:02X}", writable[n])
        });
        group("frames by size", &self.frames, &|n| n.to_string());
        group("rooms by size", &self.rooms, &|n| n.to_string());
        group("looked", &self.looked, &|n| n.to_string());
        group("no step", &[self.unknown, self.wrong_size], &|n| {
            ["unknown", "wrong size"][n].to_string()
        });
        group("cases", &self.cases, &|n| CASES[n].0.to_string());
        group("waiting", &self.waiting, &|n| WAITING[n].0.to_string());
        all
    }

    pub fn print(&self) {
        let list = self.list();
        for group in list.chunk_by(|a, b| a.0 == b.0) {
            let name = group[0].0;
            let least = group
                .iter()
                .map(|(_, _, count)| count)
                .min()
                .expect("a group has members");
            if name.starts_with("registers") || name.ends_with("size") {
                println!("{name}: {}, each at least {least} times", group.len());
                continue;
            }
            let separator = match name {
                "cases" | "waiting" => "\n  ",
                _ => " ",
            };
            print!("{name}:");
            for (_, label, count) in group {
                print!("{separator}{label} {count}");
            }
            println!();
        }
    }

    /// What was never reached.
    pub fn missing(&self) -> Vec<String> {
        let list = self.list().into_iter();
        list.filter(|&(_, _, count)| count == 0)
            .map(|(name, label, _)| format!("{name}: {label}"))
            .collect()
    }
}
