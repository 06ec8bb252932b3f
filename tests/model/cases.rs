//! Situations in which an easy slip would show, each as a test on a step that was taken.

mod waiting;

use crate::controller::bits::*;
use crate::controller::{Answer, Controller, Fault, Locks, Pulse, Step};
use crate::pair::Taken;

pub use waiting::CASES as WAITING;

const NONE: u8 = 0x10;

pub type Test = fn(&Taken) -> bool;

pub const CASES: [(&str, Test); 61] = [
    (
        "held off though a later buffer carries the identifier",
        |t| matches!(t.answer, Answer::HeldOff(buffer) if carried_behind(t, buffer)),
    ),
    ("stored with a length byte above 12", |t| {
        matches!(t.answer, Answer::Stored(_)) && length_byte(t) > 12
    }),
    ("queued with a length byte above 12", |t| {
        queues(t) && length_byte(t) > 12
    }),
    (
        "stored where bytes stood behind it",
        |t| matches!(t.answer, Answer::Stored(buffer) if has_bytes_behind(t, buffer)),
    ),
    (
        "queued where bytes stood behind it",
        |t| matches!(t.answer, Answer::Queued(place) if has_bytes_behind(t, place)),
    ),
    ("queued with acceptance mask $FF", |t| {
        queues(t) && t.before.acceptance.mask == 0xFF
    }),
    ("queued with rejection mask $FF", |t| {
        queues(t) && t.before.rejection.mask == 0xFF
    }),
    ("rejected with acceptance mask $FF", |t| {
        filtered(t) && t.before.acceptance.mask == 0xFF
    }),
    ("not accepted with rejection mask $FF", |t| {
        filtered(t) && t.before.rejection.mask == 0xFF
    }),
    ("looked up where no buffer is to be examined", |t| {
        looks_up(t) && t.before.receive == 0
    }),
    ("found in the first buffer examined, above a FIFO", |t| {
        finds(t) && t.looked == 1 && t.before.fsiz > 0
    }),
    ("found behind others, above a FIFO", |t| {
        finds(t) && t.looked > 1 && t.before.fsiz > 0
    }),
    ("found behind others, with no FIFO", |t| {
        finds(t) && t.looked > 1 && t.before.fsiz == 0
    }),
    ("found in the last of sixteen", |t| {
        finds(t) && t.looked == 16
    }),
    ("none of sixteen carries the identifier", |t| {
        looks_up(t) && !finds(t) && t.looked == 16
    }),
    ("none of some carries the identifier, above a FIFO", |t| {
        looks_up(t) && !finds(t) && t.looked > 0 && t.before.fsiz > 0
    }),
    ("queued in place 0 again", |t| {
        t.answer == Answer::Queued(0) && t.before.fifo_oldest > 0
    }),
    ("a FIFO full", |t| {
        t.after.fsiz > 0 && t.after.fifo_count == t.after.fsiz
    }),
    ("a FIFO empty again past place 0", |t| {
        t.before.fifo_count == 1 && t.after.fifo_count == 0 && t.after.fifo_oldest > 0
    }),
    ("overrun while the oldest entry is locked", |t| {
        t.answer == Answer::Overrun && fifo_lock(&t.before)
    }),
    ("initialization entered with a FIFO lock", |t| {
        enters(t) && fifo_lock(&t.before)
    }),
    ("initialization entered with other locks", |t| {
        enters(t) && t.after.locked != 0
    }),
    ("initialization entered asleep", |t| {
        enters(t) && t.before.asleep
    }),
    ("initialization entered by a lock error", |t| {
        enters(t) && is_control_write(t)
    }),
    ("initialization left with a contender and LOCKIE", |t| {
        t.before.initialization
            && !t.after.initialization
            && t.after.enables_09 & LOCKIF != 0
            && contended(&t.after)
    }),
    ("a contender of receive", |t| {
        t.before.receive_locks.contender != t.after.receive_locks.contender
    }),
    ("a contender of transmit", |t| {
        t.before.transmit_locks.contender != t.after.transmit_locks.contender
    }),
    ("a contender that becomes holder", |t| {
        succeeds(&t.before.receive_locks, &t.after.receive_locks)
            || succeeds(&t.before.transmit_locks, &t.after.transmit_locks)
    }),
    ("an armed buffer disarmed by its lock", |t| {
        disarms(t) && t.after.locked != t.before.locked && !enters(t)
    }),
    ("an armed buffer disarmed by an abort", |t| {
        disarms(t) && t.after.abtak != t.before.abtak
    }),
    ("a request and an abort in one write", |t| {
        t.after.abtak & !t.before.abtak & t.before.iflg != 0
    }),
    (
        "a sync that leaves a full buffer unarmed for its lock",
        |t| syncs(t) && t.after.transmit & !t.after.iflg & t.after.locked != 0,
    ),
    (
        "a sync that leaves a full buffer unarmed for identifier 0",
        |t| syncs(t) && t.after.transmit & !t.after.iflg & !t.after.locked & !t.after.armed != 0,
    ),
    (
        "sent though a lower buffer is armed with the identifier",
        |t| sends(t) && armed_with_slot(t) > 1,
    ),
    ("sent with a length above 12", |t| {
        sends(t) && t.before.contents[sender(t)][1] > 12
    }),
    ("not sent for an identifier that was passed", |t| {
        t.answer == Answer::NotSent && armed_with_slot(t) > 0
    }),
    ("not sent for a request after the sync", not_armed_in_time),
    ("a normal pulse", |t| {
        t.answer == Answer::Pulse(Pulse::Normal)
    }),
    ("an alarm pulse", |t| {
        t.answer == Answer::Pulse(Pulse::Alarm)
    }),
    ("asleep and synchronized", |t| {
        t.after.asleep && t.after.synchronized
    }),
    ("woken by SLPRQ", |t| {
        t.before.asleep && !t.after.asleep && t.answer == Answer::Ok && !t.after.initialization
    }),
    ("woken by a sync", |t| {
        t.answer == Answer::Woke && matches!(t.step, Step::Sync(_))
    }),
    ("woken by a frame", |t| {
        t.answer == Answer::Woke && matches!(t.step, Step::Frame(..))
    }),
    ("woken by a fault", |t| {
        t.answer == Answer::Woke && matches!(t.step, Step::Fault(_))
    }),
    ("a SYNLIF clear remembered", |t| {
        !t.before.clear_remembered && t.after.clear_remembered
    }),
    ("a SYNLIF clear at once", |t| {
        t.before.events_07 & !t.after.events_07 & SYNLIF != 0
            && matches!(t.step, Step::Write(0x07, _))
    }),
    ("a remembered clear that acts", |t| {
        t.before.clear_remembered && syncs(t)
    }),
    ("a remembered clear cancelled", |t| {
        t.before.clear_remembered && !t.before.asleep && t.step == Step::Fault(Fault::Lost)
    }),
    ("a remembered clear kept over a waking", |t| {
        t.before.clear_remembered && t.answer == Answer::Woke
    }),
    ("refusal 1 asleep", |t| refused(t, 1) && t.before.asleep),
    ("refusal 2 before 3", |t| {
        refused(t, 2) && writes(t, |a| !can_be_written(a))
    }),
    ("refusal 2 before 4", |t| {
        refused(t, 2) && writes(t, |a| (0x30..0x3E).contains(&a))
    }),
    ("refusal 4 before 5", |t| {
        refused(t, 4) && writes(t, |a| a >= 0x30) && t.before.receive_locks.holder == NONE
    }),
    ("refusal 4 before 6", |t| {
        refused(t, 4) && matches!(t.step, Step::Write(0x01, 0x11..=0x1F))
    }),
    ("refusal 6 before 7", |t| {
        refused(t, 6) && t.before.locked & t.before.receive != 0
    }),
    ("refusal 7 by FSIZ", |t| {
        refused(t, 7) && matches!(t.step, Step::Write(0x01, _))
    }),
    ("refusal 7 by CFG", |t| refused(t, 7) && is_control_write(t)),
    ("refusal 11 in initialization", |t| {
        refused(t, 11) && t.before.initialization
    }),
    ("refusal 11 asleep", |t| refused(t, 11) && t.before.asleep),
    ("refusal 12 in initialization", |t| {
        refused(t, 12) && t.before.initialization
    }),
    ("refusal 12 asleep", |t| refused(t, 12) && t.before.asleep),
];

fn refused(t: &Taken, number: u8) -> bool {
    t.answer == Answer::Refused(number)
}

fn length_byte(t: &Taken) -> u8 {
    match t.step {
        Step::Frame(_, bytes) => bytes[1] & 0x0F,
        _ => 0,
    }
}

/// The buffer had a byte other than 0 behind the frame's data.
fn has_bytes_behind(t: &Taken, buffer: u8) -> bool {
    let Step::Frame(_, bytes) = t.step else {
        return false;
    };
    t.before.contents[usize::from(buffer)][bytes.len()..] != [0; 14][bytes.len()..]
}

/// A receive buffer behind this one carries the frame's identifier too.
fn carried_behind(t: &Taken, buffer: u8) -> bool {
    let Step::Frame(_, bytes) = t.step else {
        return false;
    };
    let carries = |n: usize| t.before.identifiers[n] == bytes[0] && t.before.receive >> n & 1 == 1;
    (usize::from(buffer) + 1..16).any(carries)
}

/// A frame that has a buffer, which may be locked.
fn finds(t: &Taken) -> bool {
    matches!(
        t.answer,
        Answer::Stored(_) | Answer::Waiting(_) | Answer::HeldOff(_)
    )
}

/// A frame whose buffer is looked for.
pub fn looks_up(t: &Taken) -> bool {
    finds(t) || queues(t) || matches!(t.answer, Answer::Overrun | Answer::Unmatched)
}

fn queues(t: &Taken) -> bool {
    matches!(t.answer, Answer::Queued(_))
}

/// A frame that comes to the FIFO's filters and isn't taken.
fn filtered(t: &Taken) -> bool {
    t.answer == Answer::Unmatched && t.before.fsiz > 0
}

fn fifo_lock(model: &Controller) -> bool {
    model.locked & !model.transmit & !model.receive != 0
}

fn contended(model: &Controller) -> bool {
    model.receive_locks.contender != NONE || model.transmit_locks.contender != NONE
}

fn enters(t: &Taken) -> bool {
    !t.before.initialization && t.after.initialization && t.step != Step::Reset
}

fn is_control_write(t: &Taken) -> bool {
    matches!(t.step, Step::Write(0x50..=0x5F, _))
}

fn writes(t: &Taken, to: fn(usize) -> bool) -> bool {
    matches!(t.step, Step::Write(address, _) if to(usize::from(address)))
}

fn succeeds(before: &Locks, after: &Locks) -> bool {
    before.contender != NONE && before.contender == after.holder
}

/// A control write after which fewer are armed.
fn disarms(t: &Taken) -> bool {
    is_control_write(t) && t.before.armed != t.after.armed
}

fn syncs(t: &Taken) -> bool {
    matches!(
        (t.step, t.answer),
        (Step::Sync(_), Answer::Ok) | (_, Answer::Pulse(_))
    )
}

fn sends(t: &Taken) -> bool {
    matches!(t.answer, Answer::Sent(_))
}

/// The buffer that was sent.
fn sender(t: &Taken) -> usize {
    (t.before.armed & !t.after.armed).trailing_zeros() as usize
}

fn with_slot(t: &Taken, buffers: u16) -> usize {
    let Step::Slot(slot) = t.step else { return 0 };
    (0..16)
        .filter(|&n| buffers >> n & 1 == 1 && t.before.identifiers[n] == slot)
        .count()
}

fn armed_with_slot(t: &Taken) -> usize {
    with_slot(t, t.before.armed)
}

fn not_armed_in_time(t: &Taken) -> bool {
    let Step::Slot(slot) = t.step else {
        return false;
    };
    let full = t.before.transmit & !t.before.iflg & !t.before.locked;
    t.answer == Answer::NotSent && slot > t.before.last_identifier && with_slot(t, full) > 0
}

/// Whether a write to the address can be accepted: the others are refused 3 in every state.
pub fn can_be_written(address: usize) -> bool {
    !matches!(address, 0x0A | 0x0B | 0x0E | 0x12 | 0x40..=0x4D)
}
