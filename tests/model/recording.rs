//! A recording as it is read: a block at a time, and in it line by line.

use crate::text::FRONT;
use std::io::{self, Read};

/// Most lines that are read.
pub const LIMIT: u32 = 999_999;
/// Bytes that are read at a time. The block has room for a front more, so that there is one at any place.
const BLOCK: usize = 1 << 18;

pub struct Recording<R> {
    input: R,
    block: Box<[u8; BLOCK + FRONT]>,
    start: usize,
    end: usize,
    /// A readable line that starts before this place lies in the block with its LF.
    whole: usize,
    /// The input is at its end.
    over: bool,
    /// The last line had no LF and was given one, so that all lines end alike.
    unended: bool,
}

impl<R: Read> Recording<R> {
    pub fn new(input: R) -> Recording<R> {
        Recording {
            input,
            block: Box::new([0; BLOCK + FRONT]),
            start: 0,
            end: 0,
            whole: 0,
            over: false,
            unended: false,
        }
    }

    /// Whether the line just passed is the recording's last one and lacks its LF.
    pub fn unended(&self) -> bool {
        self.unended && self.start == self.end
    }

    /// The next line, whole if it is readable, and what follows it. `None` after the last line.
    #[inline(always)]
    pub fn front(&mut self) -> io::Result<Option<&[u8; FRONT]>> {
        if self.start >= self.whole {
            self.fill()?;
            if self.start == self.end {
                return Ok(None);
            }
        }
        Ok(self.block[self.start..].first_chunk())
    }

    /// Goes on behind a line of so many bytes, its LF among them.
    #[inline(always)]
    pub fn pass(&mut self, size: usize) {
        self.start += size;
    }

    /// Goes on behind the next LF, however far it is.
    #[inline(never)]
    pub fn pass_unread(&mut self) -> io::Result<()> {
        loop {
            let mut place = self.start;
            // A chunk may reach past the end; an LF that is found there isn't the recording's.
            while place < self.end {
                let chunk = self.block[place..]
                    .first_chunk()
                    .expect("a chunk more than the end");
                if has_lf(chunk) {
                    place += first_lf(chunk);
                    break;
                }
                place += CHUNK;
            }
            if place < self.end {
                self.start = place + 1;
                return Ok(());
            }
            // One byte of the line stays: by it `fill` sees a line that the recording's end leaves unended.
            self.start = self.end - 1;
            self.fill()?;
        }
    }

    /// Moves the waiting bytes to the front and fills the block behind them.
    #[cold]
    fn fill(&mut self) -> io::Result<()> {
        self.block.copy_within(self.start..self.end, 0);
        self.end -= self.start;
        self.start = 0;
        while self.end < BLOCK && !self.over {
            match self.input.read(&mut self.block[self.end..BLOCK]) {
                Ok(count) => {
                    self.end += count;
                    self.over = count == 0;
                }
                Err(error) if error.kind() == io::ErrorKind::Interrupted => {}
                Err(error) => return Err(error),
            }
        }
        if self.over && self.end > 0 && self.block[self.end - 1] != b'\n' {
            self.block[self.end] = b'\n';
            self.end += 1;
            self.unended = true;
        }
        self.whole = if self.over { self.end } else { BLOCK - FRONT };
        Ok(())
    }
}

/// Bytes that are searched for an LF at a time.
const CHUNK: usize = 16;

/// Whether an LF is among these bytes. The loop never ends early, so that they are compared all at once.
fn has_lf(bytes: &[u8; CHUNK]) -> bool {
    bytes
        .iter()
        .fold(false, |found, &byte| found | (byte == b'\n'))
}

/// Where the first LF of these bytes is, which have one.
fn first_lf(bytes: &[u8; CHUNK]) -> usize {
    const ONES: u128 = u128::MAX / 0xFF;
    let zero_if_lf = u128::from_le_bytes(*bytes) ^ ONES * b'\n' as u128;
    // The lowest byte that the subtraction lifts from below $80 to above is the first 0.
    let borrowed = zero_if_lf.wrapping_sub(ONES) & !zero_if_lf & ONES << 7;
    borrowed.trailing_zeros() as usize / 8
}
