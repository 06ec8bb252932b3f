//! The replay text of document 01: one line to a step and back.

use crate::controller::{Fault, Pulse, Step};

/// Most bytes of a readable line, without its LF.
const LINE: usize = 64;
/// The bytes that decide over a line: as many as the longest readable one has, with its LF.
pub const FRONT: usize = LINE + 1;
/// Frame bytes that a readable line has room for, after `F`, tab, verdict, tab.
pub const FRAME: usize = (LINE - 4) / 2;

const UPPER: &[u8; 16] = b"0123456789ABCDEF";

/// What a byte is worth as a hex digit; 0xFF if it is none.
static DIGITS: [u8; 256] = {
    let mut digits = [0xFF; 256];
    let mut value = 0;
    while value < 16 {
        digits[UPPER[value] as usize] = value as u8;
        value += 1;
    }
    digits
};

/// A byte as two digits.
pub static PAIRS: [[u8; 2]; 256] = {
    let mut pairs = [[0; 2]; 256];
    let mut byte = 0;
    while byte < 256 {
        pairs[byte] = [UPPER[byte >> 4], UPPER[byte & 0x0F]];
        byte += 1;
    }
    pairs
};

#[inline(always)]
fn byte(high: u8, low: u8) -> Option<u8> {
    let (high, low) = (DIGITS[high as usize], DIGITS[low as usize]);
    (high | low <= 0x0F).then_some(high << 4 | low)
}

/// The step that the line at the front of these bytes says, and how many bytes it takes with its LF;
/// `None` if the line is unread. A frame's bytes go to `room`. What stands behind the LF is never asked.
#[inline(always)]
pub fn parse_front<'a>(
    front: &[u8; FRONT],
    room: &'a mut [u8; FRAME],
) -> Option<(Step<'a>, usize)> {
    Some(match *front {
        [b'Z', b'\n', ..] => (Step::Reset, 2),
        [b'M', b'\n', ..] => (Step::SyncDue, 2),
        [b'Q', b'\n', ..] => (Step::Timeout, 2),
        [b'S', b'\t', b'N', b'\n', ..] => (Step::Sync(Pulse::Normal), 4),
        [b'S', b'\t', b'A', b'\n', ..] => (Step::Sync(Pulse::Alarm), 4),
        [b'P', b'\t', b'E', b'\n', ..] => (Step::Fault(Fault::Early), 4),
        [b'P', b'\t', b'L', b'\n', ..] => (Step::Fault(Fault::Lost), 4),
        [b'P', b'\t', b'I', b'\n', ..] => (Step::Fault(Fault::Illegal), 4),
        [b'P', b'\t', b'M', b'\n', ..] => (Step::Fault(Fault::Mismatch), 4),
        [b'R', b'\t', a, b, b'\n', ..] => (Step::Read(byte(a, b)?), 5),
        [b'T', b'\t', a, b, b'\n', ..] => (Step::Slot(byte(a, b)?), 5),
        [b'W', b'\t', a, b, b'\t', c, d, b'\n', ..] => (Step::Write(byte(a, b)?, byte(c, d)?), 8),
        [b'F', b'\t', verdict @ (b'G' | b'B'), b'\t', ref digits @ ..] => {
            let bytes = parse_bytes(digits, room)?;
            (Step::Frame(verdict == b'G', bytes), 4 + 2 * bytes.len() + 1)
        }
        _ => return None,
    })
}

/// The bytes that the digits say, if the LF follows the last pair.
#[inline(always)]
fn parse_bytes<'a>(digits: &[u8; FRONT - 4], room: &'a mut [u8; FRAME]) -> Option<&'a [u8]> {
    let mut count = 0;
    while count < FRAME {
        let Some(byte) = byte(digits[2 * count], digits[2 * count + 1]) else {
            break;
        };
        room[count] = byte;
        count += 1;
    }
    (digits[2 * count] == b'\n').then_some(&room[..count])
}

/// The step that a line without its LF says; `None` if the line is unread.
pub fn parse<'a>(line: &[u8], room: &'a mut [u8; FRAME]) -> Option<Step<'a>> {
    let mut front = [b'\n'; FRONT];
    front[..LINE].get_mut(..line.len())?.copy_from_slice(line);
    let (step, size) = parse_front(&front, room)?;
    (size == line.len() + 1).then_some(step)
}

/// Writes a step as a line with its LF: what `parse` reads back.
pub fn put_step(out: &mut Vec<u8>, step: &Step) {
    match *step {
        Step::Reset => out.push(b'Z'),
        Step::SyncDue => out.push(b'M'),
        Step::Timeout => out.push(b'Q'),
        Step::Sync(Pulse::Normal) => out.extend(b"S\tN"),
        Step::Sync(Pulse::Alarm) => out.extend(b"S\tA"),
        Step::Fault(Fault::Early) => out.extend(b"P\tE"),
        Step::Fault(Fault::Lost) => out.extend(b"P\tL"),
        Step::Fault(Fault::Illegal) => out.extend(b"P\tI"),
        Step::Fault(Fault::Mismatch) => out.extend(b"P\tM"),
        Step::Read(address) => {
            out.extend(b"R\t");
            put_bytes(out, &[address]);
        }
        Step::Slot(slot) => {
            out.extend(b"T\t");
            put_bytes(out, &[slot]);
        }
        Step::Write(address, value) => {
            out.extend(b"W\t");
            put_bytes(out, &[address]);
            out.push(b'\t');
            put_bytes(out, &[value]);
        }
        Step::Frame(good, bytes) => {
            out.extend(if good { b"F\tG\t" } else { b"F\tB\t" });
            put_bytes(out, bytes);
        }
    }
    out.push(b'\n');
}

fn put_bytes(out: &mut Vec<u8>, bytes: &[u8]) {
    for &byte in bytes {
        out.extend(PAIRS[byte as usize]);
    }
}
