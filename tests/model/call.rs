//! One call of `hevrukan_step`: the numbers as a caller in C gives them, and the step that they stand for.

use crate::controller::{Fault, Pulse, Step};
use crate::library::{numbers, Numbers, SIZE, UNKNOWN, WRONG_SIZE};
use crate::text::put_step;

/// The longest frame that is tried, and the longest room.
pub const FRAME: usize = 40;
pub const ROOM: usize = 20;

/// All arguments but the record.
#[derive(Clone, Copy)]
pub struct Call {
    pub size: usize,
    pub numbers: Numbers,
    pub frame: [u8; FRAME],
    pub frame_size: usize,
    pub room_size: usize,
}

impl Call {
    /// A step with a room of so many bytes; `bytes` stand behind those of its frame.
    pub fn of(step: &Step, room_size: usize, bytes: [u8; FRAME]) -> Call {
        let (numbers, given) = numbers(step);
        let mut frame = bytes;
        frame[..given.len()].copy_from_slice(given);
        Call {
            size: SIZE,
            numbers,
            frame,
            frame_size: given.len(),
            room_size,
        }
    }

    pub fn frame(&self) -> &[u8] {
        &self.frame[..self.frame_size]
    }

    /// The step that the numbers stand for, or the answer if they stand for none.
    pub fn step(&self) -> Result<Step<'_>, u32> {
        if self.size != SIZE {
            return Err(WRONG_SIZE);
        }
        let Numbers {
            kind,
            first,
            second,
        } = self.numbers;
        let byte = |number| u8::try_from(number).map_err(|_| UNKNOWN);
        // Above 255 it is above $5F too.
        let address = u8::try_from(first).unwrap_or(0xFF);
        Ok(match (kind, first) {
            (0, _) => Step::Reset,
            (1, _) => Step::Read(address),
            (2, _) => Step::Write(address, byte(second)?),
            (3, 0) => Step::Sync(Pulse::Normal),
            (3, 1) => Step::Sync(Pulse::Alarm),
            (4, _) => Step::SyncDue,
            (5, _) => Step::Slot(byte(first)?),
            (6, 0) => Step::Frame(false, self.frame()),
            (6, 1) => Step::Frame(true, self.frame()),
            (7, 0) => Step::Fault(Fault::Early),
            (7, 1) => Step::Fault(Fault::Lost),
            (7, 2) => Step::Fault(Fault::Illegal),
            (7, 3) => Step::Fault(Fault::Mismatch),
            (8, _) => Step::Timeout,
            _ => return Err(UNKNOWN),
        })
    }

    /// As a line of a recording, with what such a line can't say behind it.
    pub fn text(&self) -> String {
        let Numbers {
            kind,
            first,
            second,
        } = self.numbers;
        match self.step() {
            Err(_) => format!("(size {}, kind {kind}, {first}, {second})", self.size),
            Ok(step) => {
                let mut line = Vec::new();
                put_step(&mut line, &step);
                let line = String::from_utf8_lossy(line.trim_ascii_end()).into_owned();
                match step {
                    Step::Slot(_) => format!("{line}   (a room of {} bytes)", self.room_size),
                    Step::Read(_) | Step::Write(..) if first > 0xFF => {
                        format!("{line}   (address {first})")
                    }
                    _ => line,
                }
            }
        }
    }
}
