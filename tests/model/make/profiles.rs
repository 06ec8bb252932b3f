//! The recordings that only the benchmark needs: lines that are mostly no steps, and steps with much data.

use super::Maker;
use crate::controller::bits::{IFLG, LOCK};
use crate::controller::Step;

const PROSE: [&[u8]; 16] = [
    b"The",
    b"module",
    b"was",
    b"run",
    b"over",
    b"night;",
    b"Frame",
    b"and",
    b"slot",
    b"came",
    b"late.",
    b"We",
    b"replaced",
    b"Terminator",
    b"R",
    b"2",
];

impl Maker {
    /// A log with prose between its steps: nine lines of ten are unread.
    pub(super) fn log(&mut self) {
        self.set_up();
        for _ in 0..1000 + self.random.below(2000) {
            if self.random.one_in(20) {
                self.traffic();
            } else {
                self.prose();
            }
        }
    }

    /// A line of 0 to 100 bytes.
    fn prose(&mut self) {
        if self.left == 0 {
            return;
        }
        self.left -= 1;
        let end = self.out.len() + self.random.below(101);
        while self.out.len() < end {
            let word = self.random.of(&PROSE);
            self.out.extend(word);
            self.out.push(b' ');
        }
        self.out.truncate(end);
        self.out.push(b'\n');
    }

    /// A set-up and some hundred exchanges of data.
    pub(super) fn exchange(&mut self) {
        self.set_up();
        for _ in 0..100 + self.random.below(500) {
            match self.random.below(100) {
                0..=3 => self.sync(),
                4..=11 => self.slot(),
                12..=14 => self.fill_transmit(),
                15..=17 => {
                    let buffer = self.some_buffer(self.fsiz, self.cfg_0);
                    self.read_all(buffer);
                }
                18 | 19 if self.fsiz > 0 => {
                    self.read_all(self.oldest);
                    self.oldest = (self.oldest + 1) % self.fsiz;
                }
                _ => self.long_frame(),
            }
        }
    }

    /// A frame of 8 to 12 data bytes, mostly for a receive buffer.
    fn long_frame(&mut self) {
        let identifier = match self.random.below(4) {
            0 => self.random.byte(),
            _ => self.some_identifier(self.fsiz, self.cfg_0),
        };
        let length = 8 + self.random.below(5);
        let mut bytes = [0; 14];
        bytes.fill_with(|| self.random.byte());
        bytes[0] = identifier;
        bytes[1] = length as u8;
        self.put(Step::Frame(true, &bytes[..2 + length]));
    }

    /// Writes the data registers of a transmit buffer and has it sent.
    fn fill_transmit(&mut self) {
        let buffer = self.some_buffer(self.cfg_0, 16);
        self.write_control(buffer, LOCK);
        for place in 2..14 {
            let value = self.random.byte();
            self.write(0x20 + place, value);
        }
        self.write_control(buffer, IFLG);
        self.requested.push(buffer);
    }

    /// Reads the data registers of a receive or FIFO buffer and releases it.
    fn read_all(&mut self, buffer: u8) {
        let window = self.window(buffer);
        self.write_control(buffer, LOCK);
        for place in 2..14 {
            self.read(window + place);
        }
        self.write_control(buffer, IFLG);
    }
}
