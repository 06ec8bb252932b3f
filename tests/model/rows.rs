//! The report of a replay: its heading, and the row of each line's answer.

use crate::controller::{Answer, Outcome, Pulse, BUFFERS, CONTENTS};
use crate::text::PAIRS;
use std::io::{self, Write};

const HEADING: &[u8] = b"line\tanswer\tdetail\tirq\tlooked\n";
/// Room for any row: a number, a word stored whole, the digits of a frame, the lines' and the count's take
/// 8 + 16 + 28 + 4 + 4 at most.
const ROW: usize = 64;
/// Bytes that are passed on at a time, with up to a row more.
const BLOCK: usize = 1 << 18;

/// An answer's word with its tabs: the first `size` bytes.
struct Word {
    text: [u8; 16],
    size: u8,
}

const fn word(text: &[u8]) -> Word {
    let mut word = Word {
        text: [0; 16],
        size: text.len() as u8,
    };
    let mut place = 0;
    while place < text.len() {
        word.text[place] = text[place];
        place += 1;
    }
    word
}

/// A line's word; `None` for an unread line.
fn word_of(answer: Option<Answer>) -> &'static Word {
    match answer {
        Some(Answer::Ok) => const { &word(b"\tok\t") },
        Some(Answer::Read(_)) => const { &word(b"\tread\t") },
        Some(Answer::Stored(_)) => const { &word(b"\tstored\t") },
        Some(Answer::Queued(_)) => const { &word(b"\tqueued\t") },
        Some(Answer::Waiting(_)) => const { &word(b"\twaiting\t") },
        Some(Answer::HeldOff(_)) => const { &word(b"\theldoff\t") },
        Some(Answer::Sent(_)) => const { &word(b"\tsent\t") },
        Some(Answer::Pulse(_)) => const { &word(b"\tpulse\t") },
        Some(Answer::Refused(_)) => const { &word(b"\trefused\t") },
        Some(Answer::Overrun) => const { &word(b"\toverrun\t") },
        Some(Answer::Unmatched) => const { &word(b"\tunmatched\t") },
        Some(Answer::BadFrame) => const { &word(b"\tbadframe\t") },
        Some(Answer::Ignored) => const { &word(b"\tignored\t") },
        Some(Answer::Woke) => const { &word(b"\twoke\t") },
        Some(Answer::NotSent) => const { &word(b"\tnotsent\t") },
        None => const { &word(b"\tunread\t") },
    }
}

/// How many buffers were examined, in decimal, as a row ends with it: the first `size` bytes.
struct Looked {
    text: [u8; 4],
    size: u8,
}

/// Every count that there is.
static LOOKED: [Looked; BUFFERS + 1] = {
    const fn looked(count: u8) -> Looked {
        let digit = b'0' + count % 10;
        if count < 10 {
            let text = [digit, b'\n', 0, 0];
            return Looked { text, size: 2 };
        }
        let text = [b'0' + count / 10, digit, b'\n', 0];
        Looked { text, size: 3 }
    }
    let mut all = [const { looked(0) }; BUFFERS + 1];
    let mut count = 1;
    while count <= BUFFERS {
        all[count] = looked(count as u8);
        count += 1;
    }
    all
};

/// A line number as decimal digits, the last one in the lowest byte, counted up in place: cheaper than a
/// division for each row.
struct Number {
    digits: u64,
    size: u8,
}

impl Number {
    const ZERO: Number = Number {
        digits: b'0' as u64,
        size: 1,
    };

    #[inline(always)]
    fn count(&mut self) {
        self.digits += 1;
        if self.digits as u8 > b'9' {
            self.carry();
        }
    }

    #[cold]
    fn carry(&mut self) {
        let mut place = 0;
        while (self.digits >> place) as u8 > b'9' {
            self.digits -= 10 << place;
            place += 8;
            if place == 8 * self.size {
                self.digits += u64::from(b'0') << place;
                self.size += 1;
            }
            self.digits += 1 << place;
        }
    }

    /// The number from its first digit on.
    fn text(&self) -> [u8; 8] {
        (self.digits << (64 - 8 * self.size)).to_be_bytes()
    }
}

/// The place of one row, and how much of it is written.
struct Row<'a> {
    bytes: &'a mut [u8; ROW],
    size: usize,
}

impl Row<'_> {
    /// Adds the first `size` of these bytes. All are stored, as that many bytes are one store.
    #[inline(always)]
    fn put<const N: usize>(&mut self, bytes: [u8; N], size: u8) {
        self.bytes[self.size..self.size + N].copy_from_slice(&bytes);
        self.size += size as usize;
    }

    /// Adds an answer's detail. A sent frame's bytes are taken from `room`.
    #[inline(always)]
    fn put_detail(&mut self, answer: Option<Answer>, room: &[u8; CONTENTS]) {
        match answer {
            Some(
                Answer::Read(detail)
                | Answer::Stored(detail)
                | Answer::Queued(detail)
                | Answer::Waiting(detail)
                | Answer::HeldOff(detail)
                | Answer::Refused(detail),
            ) => self.put(PAIRS[detail as usize], 2),
            Some(Answer::Sent(count)) => {
                for &byte in &room[..count as usize] {
                    self.put(PAIRS[byte as usize], 2);
                }
            }
            Some(Answer::Pulse(Pulse::Normal)) => self.put(*b"N", 1),
            Some(Answer::Pulse(Pulse::Alarm)) => self.put(*b"A", 1),
            _ => self.put(*b"-", 1),
        }
    }
}

pub struct Rows<W> {
    output: W,
    block: Box<[u8; BLOCK + ROW]>,
    end: usize,
    number: Number,
}

impl<W: Write> Rows<W> {
    pub fn new(output: W) -> Rows<W> {
        let mut block = Box::new([0; BLOCK + ROW]);
        block[..HEADING.len()].copy_from_slice(HEADING);
        Rows {
            output,
            block,
            end: HEADING.len(),
            number: Number::ZERO,
        }
    }

    /// Adds the row of the next line: its outcome, `None` if it is unread, and the five interrupt lines.
    #[inline(always)]
    pub fn put(
        &mut self,
        outcome: Option<Outcome>,
        room: &[u8; CONTENTS],
        irq: u8,
    ) -> io::Result<()> {
        self.number.count();
        let answer = outcome.map(|outcome| outcome.answer);
        let looked = &LOOKED[outcome.map_or(0, |outcome| outcome.looked) as usize];
        let word = word_of(answer);
        if self.end > BLOCK {
            self.pass_on()?;
        }
        let bytes = self.block[self.end..].first_chunk_mut();
        let mut row = Row {
            bytes: bytes.expect("a row more than the block"),
            size: 0,
        };
        row.put(self.number.text(), self.number.size);
        row.put(word.text, word.size);
        row.put_detail(answer, room);
        let [high, low] = PAIRS[irq as usize];
        row.put([b'\t', high, low, b'\t'], 4);
        row.put(looked.text, looked.size);
        self.end += row.size;
        Ok(())
    }

    #[cold]
    fn pass_on(&mut self) -> io::Result<()> {
        self.output.write_all(&self.block[..self.end])?;
        self.end = 0;
        Ok(())
    }

    pub fn finish(mut self) -> io::Result<()> {
        self.pass_on()?;
        self.output.flush()
    }
}
