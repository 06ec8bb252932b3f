//! The C interface of the static library (crate hevrukan), as a Rust caller sees it: the record field by
//! field, the four functions, and the numbers of calls and answers.

use crate::controller::{Answer, Fault, Outcome, Pulse, Step, BUFFERS, CONTENTS};
use std::fmt;

/// A list of named numbers: what a comparison names when two records differ.
pub trait Fields {
    fn list(&self, name: &str, out: &mut Vec<(String, u64)>);
}

impl Fields for u8 {
    fn list(&self, name: &str, out: &mut Vec<(String, u64)>) {
        out.push((name.to_string(), u64::from(*self)));
    }
}

impl Fields for u16 {
    fn list(&self, name: &str, out: &mut Vec<(String, u64)>) {
        out.push((name.to_string(), u64::from(*self)));
    }
}

impl<T: Fields, const N: usize> Fields for [T; N] {
    fn list(&self, name: &str, out: &mut Vec<(String, u64)>) {
        for (place, field) in self.iter().enumerate() {
            field.list(&format!("{name}[{place}]"), out);
        }
    }
}

macro_rules! record {
    ($name:ident { $($field:ident: $type:ty),* }) => {
        #[repr(C)]
        #[derive(Clone, Copy, PartialEq, Eq)]
        pub struct $name { $(pub $field: $type),* }

        impl Fields for $name {
            fn list(&self, name: &str, out: &mut Vec<(String, u64)>) {
                $(self.$field.list(&format!("{name}.{}", stringify!($field)), out);)*
            }
        }
    };
}

// As in crates/*/src/lib.rt, but a `bool` is a byte here: one that is neither 0 nor 1 must show.
record!(Mode {
    init: u8,
    master: u8,
    alarm: u8,
    slprq: u8,
    wpulse: u8,
    sswai: u8,
    synced: u8,
    last: u8
});
record!(Filter {
    pattern: u8,
    mask: u8
});
record!(Config {
    fsiz: u8,
    tcr1: u8,
    tcr2: u8,
    tcr3: u8,
    rier: u8,
    gier: u8,
    accept: Filter,
    reject: Filter,
    bfen: u8
});
record!(Events {
    risr: u8,
    gisr: u8,
    clearing: u8
});
record!(Fifo {
    oldest: u8,
    next: u8,
    count: u8,
    locked: u8
});
record!(Locks {
    holder: u8,
    contender: u8
});
record!(Places {
    first: u8,
    second: u8,
    swapped: u8
});
record!(Buffers {
    cfg: u16,
    iena: u16,
    iflg: u16,
    abtak: u16,
    armed: u16
});
record!(Control {
    mode: Mode,
    config: Config,
    events: Events,
    fifo: Fifo,
    receive: Locks,
    transmit: Locks,
    places: Places,
    buffers: Buffers
});
record!(Record {
    control: Control,
    rows: [[u8; CONTENTS]; BUFFERS],
    held: [[u8; CONTENTS]; 2]
});

/// The bytes of a record.
pub const SIZE: usize = size_of::<Record>();
/// Those of the headers before: the first, and the one with the buffers examined. Their programs are told so.
pub const OLDER: [usize; 2] = [266, 268];

extern "C" {
    fn hevrukan_size() -> usize;
    fn hevrukan_reset(record: *mut Record, size: usize) -> u32;
    fn hevrukan_step(
        record: *mut Record,
        size: usize,
        kind: u32,
        first: u32,
        second: u32,
        frame: *const u8,
        frame_size: usize,
        room: *mut u8,
        room_size: usize,
    ) -> u32;
    fn hevrukan_lines(record: *const Record, size: usize) -> u32;
    fn hevrukan_buffer(
        record: *const Record,
        size: usize,
        n: u32,
        bytes: *mut u8,
        room: usize,
    ) -> u32;
    fn hevrukan_waiting(
        record: *const Record,
        size: usize,
        k: u32,
        bytes: *mut u8,
        room: usize,
    ) -> u32;
}

/// A number that no answer has.
pub const UNUSED: &str = "unused";

#[rustfmt::skip]
/// The answers' words in the order of their numbers.
pub const WORDS: [&str; 16] = [
    "ok", "read", "stored", "queued", "heldoff", UNUSED, "sent", "pulse",
    "refused", "overrun", "unmatched", "badframe", "ignored", "woke", "notsent", "waiting",
];

/// Answers outside document 01.
pub const UNKNOWN: u32 = 64 * 256;
pub const WRONG_SIZE: u32 = 65 * 256;

/// The three numbers of a call.
#[derive(Clone, Copy)]
pub struct Numbers {
    pub kind: u32,
    pub first: u32,
    pub second: u32,
}

/// A step as a caller in C says it: its numbers and its frame.
pub fn numbers<'a>(step: &Step<'a>) -> (Numbers, &'a [u8]) {
    let (kind, first, second) = match *step {
        Step::Reset => (0, 0, 0),
        Step::Read(address) => (1, address, 0),
        Step::Write(address, value) => (2, address, value),
        Step::Sync(Pulse::Normal) => (3, 0, 0),
        Step::Sync(Pulse::Alarm) => (3, 1, 0),
        Step::SyncDue => (4, 0, 0),
        Step::Slot(slot) => (5, slot, 0),
        Step::Frame(good, _) => (6, u8::from(good), 0),
        Step::Fault(Fault::Early) => (7, 0, 0),
        Step::Fault(Fault::Lost) => (7, 1, 0),
        Step::Fault(Fault::Illegal) => (7, 2, 0),
        Step::Fault(Fault::Mismatch) => (7, 3, 0),
        Step::Timeout => (8, 0, 0),
    };
    let frame = match *step {
        Step::Frame(_, bytes) => bytes,
        _ => &[],
    };
    let (first, second) = (u32::from(first), u32::from(second));
    (
        Numbers {
            kind,
            first,
            second,
        },
        frame,
    )
}

/// An outcome as the library says it: 65,536 times the buffers examined, 256 times the word, and the detail.
pub fn number(outcome: Outcome) -> u32 {
    let (word, detail) = match outcome.answer {
        Answer::Ok => (0, 0),
        Answer::Read(value) => (1, value),
        Answer::Stored(buffer) => (2, buffer),
        Answer::Queued(buffer) => (3, buffer),
        Answer::HeldOff(buffer) => (4, buffer),
        Answer::Sent(count) => (6, count),
        Answer::Pulse(Pulse::Normal) => (7, 0),
        Answer::Pulse(Pulse::Alarm) => (7, 1),
        Answer::Refused(number) => (8, number),
        Answer::Overrun => (9, 0),
        Answer::Unmatched => (10, 0),
        Answer::BadFrame => (11, 0),
        Answer::Ignored => (12, 0),
        Answer::Woke => (13, 0),
        Answer::NotSent => (14, 0),
        Answer::Waiting(buffer) => (15, buffer),
    };
    65_536 * u32::from(outcome.looked) + 256 * word + u32::from(detail)
}

/// The number of an answer's word.
pub fn word(number: u32) -> usize {
    (number >> 8 & 0xFF) as usize
}

/// An answer's number that shows its word, its detail and the buffers examined.
#[derive(PartialEq)]
pub struct Said(pub u32);

impl fmt::Debug for Said {
    fn fmt(&self, out: &mut fmt::Formatter) -> fmt::Result {
        let word = WORDS.get(word(self.0)).unwrap_or(&"no word of document 01");
        let (number, detail, looked) = (self.0, self.0 & 0xFF, self.0 >> 16);
        write!(
            out,
            "{number} ({word}, detail {detail:02X}, looked {looked})"
        )
    }
}

/// The size of the library's own record: it must be `SIZE`.
pub fn size() -> usize {
    // SAFETY: the function takes nothing and touches nothing.
    unsafe { hevrukan_size() }
}

/// Bytes before and after a record that nobody may write.
const GUARD: usize = 16;
const GUARDED: u8 = 0xC3;

/// A record of the library. It lies in plain bytes, so that the one between its fields and those about it can be compared too.
#[repr(C, align(8))]
pub struct Library {
    bytes: [u8; GUARD + SIZE + GUARD],
}

impl Library {
    /// A record of such bytes, not reset yet.
    pub fn holding(byte: u8) -> Library {
        let mut bytes = [GUARDED; GUARD + SIZE + GUARD];
        bytes[GUARD..GUARD + SIZE].fill(byte);
        Library { bytes }
    }

    pub fn bytes(&self) -> &[u8; GUARD + SIZE + GUARD] {
        &self.bytes
    }

    pub fn guarded(&self) -> bool {
        let (before, after) = (&self.bytes[..GUARD], &self.bytes[GUARD + SIZE..]);
        before.iter().chain(after).all(|&byte| byte == GUARDED)
    }

    fn place(&mut self) -> *mut Record {
        self.bytes[GUARD..].as_mut_ptr().cast()
    }

    pub fn record(&self) -> Record {
        // SAFETY: the bytes are those of a record, and any bytes are one.
        unsafe { self.bytes[GUARD..].as_ptr().cast::<Record>().read() }
    }

    pub fn reset(&mut self, size: usize) -> u32 {
        // SAFETY: the record is ours for the call; a wrong size is refused.
        unsafe { hevrukan_reset(self.place(), size) }
    }

    pub fn lines(&self, size: usize) -> u32 {
        // SAFETY: as in `reset`.
        unsafe { hevrukan_lines(self.bytes[GUARD..].as_ptr().cast(), size) }
    }

    pub fn buffer(&self, size: usize, n: u32, room: &mut [u8]) -> u32 {
        // SAFETY: as in `reset`, the room too.
        unsafe {
            hevrukan_buffer(
                self.bytes[GUARD..].as_ptr().cast(),
                size,
                n,
                room.as_mut_ptr(),
                room.len(),
            )
        }
    }

    pub fn waiting(&self, size: usize, k: u32, room: &mut [u8]) -> u32 {
        // SAFETY: as in `buffer`.
        unsafe {
            hevrukan_waiting(
                self.bytes[GUARD..].as_ptr().cast(),
                size,
                k,
                room.as_mut_ptr(),
                room.len(),
            )
        }
    }

    #[inline]
    pub fn step(&mut self, size: usize, numbers: Numbers, frame: &[u8], room: &mut [u8]) -> u32 {
        let Numbers {
            kind,
            first,
            second,
        } = numbers;
        let (frame, frame_size) = (frame.as_ptr(), frame.len());
        let (room, room_size) = (room.as_mut_ptr(), room.len());
        let record = self.place();
        // SAFETY: record, frame and room are apart and live for the call.
        unsafe {
            hevrukan_step(
                record, size, kind, first, second, frame, frame_size, room, room_size,
            )
        }
    }
}
