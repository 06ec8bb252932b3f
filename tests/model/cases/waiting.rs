//! The situations of the two waiting places (W5), and of SLPRQ alone, which stands while a frame waits.

use super::{carried_behind, enters, is_control_write, length_byte, looks_up, succeeds, Test};
use crate::controller::bits::*;
use crate::controller::{Answer, Controller, Place, Step};
use crate::pair::Taken;

const NONE: u8 = 0x10;

pub const CASES: [(&str, Test); 43] = [
    ("in the first place", |t| {
        waits(t) && first(&t.before).is_none()
    }),
    ("in the second place", |t| {
        waits(t) && first(&t.before).is_some()
    }),
    ("in the first place again, behind the second", |t| {
        waits(t) && first(&t.before).is_none() && second(&t.before).is_some()
    }),
    (
        "behind a frame for the same buffer",
        |t| matches!(t.answer, Answer::Waiting(n) if waiting_for(&t.before, n) == 1),
    ),
    (
        "behind a frame for another buffer",
        |t| matches!(t.answer, Answer::Waiting(n) if taken(&t.before) > waiting_for(&t.before, n)),
    ),
    (
        "for a contender",
        |t| matches!(t.answer, Answer::Waiting(n) if n == t.before.receive_locks.contender),
    ),
    (
        "though a later buffer carries the identifier",
        |t| matches!(t.answer, Answer::Waiting(n) if carried_behind(t, n)),
    ),
    ("with a length byte above 12", |t| {
        waits(t) && length_byte(t) > 12
    }),
    (
        "where bytes of an older frame stood behind it",
        has_bytes_behind,
    ),
    (
        "held off, no frame waiting for the buffer",
        |t| matches!(t.answer, Answer::HeldOff(n) if waiting_for(&t.before, n) == 0),
    ),
    ("a release that stores one frame", |t| stored(t) == 1),
    ("a release that stores two frames", |t| stored(t) == 2),
    ("the second place's frame stored before the first's", |t| {
        stored(t) == 2 && t.before.places[0].arrival > t.before.places[1].arrival
    }),
    ("a frame stored, another left waiting", |t| {
        stored(t) == 1 && taken(&t.after) == 1
    }),
    ("a release that stores none of those waiting", |t| {
        releases(t) && stored(t) == 0 && taken(&t.before) > 0
    }),
    ("a release with IFLG written 1", |t| {
        stored(t) > 0 && matches!(t.step, Step::Write(_, value) if value & IFLG != 0)
    }),
    ("stored where bytes stood behind it", |t| {
        stored(t) > 0
            && t.before.contents[written(t)][13] != 0
            && t.after.contents[written(t)][13] == 0
    }),
    (
        "a contender that becomes holder, its frame still waiting",
        |t| {
            succeeds(&t.before.receive_locks, &t.after.receive_locks)
                && waiting_for(&t.after, t.after.receive_locks.holder) > 0
        },
    ),
    ("LOCK 1 on a locked buffer", |t| {
        is_control_write(t)
            && matches!(t.step, Step::Write(_, value) if value & LOCK != 0)
            && waiting_for(&t.before, written(t) as u8) > 0
    }),
    ("initialization entered by INITRQ", |t| {
        enters(t) && !is_control_write(t) && taken(&t.before) > 0
    }),
    ("initialization entered by a lock error", |t| {
        enters(t) && is_control_write(t) && taken(&t.before) > 0
    }),
    ("reset", |t| t.step == Step::Reset && taken(&t.before) > 0),
    ("unsynchronized", |t| {
        t.before.synchronized && !t.after.synchronized && taken(&t.after) > 0
    }),
    ("SLPRQ alone", |t| {
        !t.before.sleep_requested && alone(&t.after)
    }),
    ("SLPRQ alone, both places taken", |t| {
        !t.before.sleep_requested && alone(&t.after) && taken(&t.after) == 2
    }),
    ("SLPRQ alone, the second place alone taken", |t| {
        alone(&t.after) && first(&t.after).is_none()
    }),
    ("SLPRQ alone, requested again with BFEN 0", |t| {
        stays(t) && t.before.bfen == 0 && matches!(t.step, Step::Write(0x00, _))
    }),
    ("SLPRQ alone, one of two frames stored", |t| {
        stays(t) && stored(t) == 1
    }),
    ("SLPRQ alone, another register read", |t| {
        stays(t) && matches!((t.step, t.answer), (Step::Read(1..), Answer::Read(_)))
    }),
    ("SLPRQ alone, sync due ignored", |t| {
        stays(t) && t.step == Step::SyncDue
    }),
    ("SLPRQ alone, a frame ignored", |t| {
        stays(t) && t.answer == Answer::Ignored && matches!(t.step, Step::Frame(..))
    }),
    ("SLPRQ alone, a frame refused", |t| {
        stays(t) && t.answer == Answer::Refused(11)
    }),
    ("SLPRQ alone, a frame sent", |t| {
        stays(t) && matches!(t.answer, Answer::Sent(_))
    }),
    ("SLPRQ alone, an alarm timeout", |t| {
        stays(t) && t.step == Step::Timeout
    }),
    ("SLPAK by a release", |t| {
        falls_asleep(t) && t.after.bfen != 0
    }),
    ("SLPAK by a release, BFEN 0", |t| {
        falls_asleep(t) && t.after.bfen == 0
    }),
    ("SLPAK by a release, a buffer armed", |t| {
        falls_asleep(t) && t.after.armed != 0
    }),
    ("cancelled by SLPRQ 0, a buffer armed", |t| {
        cancels(t) && matches!(t.step, Step::Write(0x00, _)) && t.after.armed != 0
    }),
    ("cancelled by a sync", |t| {
        cancels(t) && matches!(t.step, Step::Sync(_))
    }),
    ("cancelled by a master's pulse", |t| {
        cancels(t) && t.step == Step::SyncDue
    }),
    ("cancelled by a frame that is looked up", |t| {
        cancels(t) && looks_up(t)
    }),
    ("cancelled by a bad frame", |t| {
        cancels(t) && t.answer == Answer::BadFrame
    }),
    ("cancelled by a fault", |t| {
        cancels(t) && matches!(t.step, Step::Fault(_))
    }),
];

/// The frame in a place, if one waits there.
fn frame(place: &Place) -> Option<&Place> {
    (place.buffer != NONE).then_some(place)
}

fn first(model: &Controller) -> Option<&Place> {
    frame(&model.places[0])
}

fn second(model: &Controller) -> Option<&Place> {
    frame(&model.places[1])
}

/// How many places are taken.
fn taken(model: &Controller) -> usize {
    model.places.iter().filter_map(frame).count()
}

/// How many of them by frames for this buffer.
fn waiting_for(model: &Controller, buffer: u8) -> usize {
    let frames = model.places.iter().filter_map(frame);
    frames.filter(|place| place.buffer == buffer).count()
}

fn waits(t: &Taken) -> bool {
    matches!(t.answer, Answer::Waiting(_))
}

/// The place had a byte other than 0 behind the frame's data.
fn has_bytes_behind(t: &Taken) -> bool {
    let (Answer::Waiting(_), Step::Frame(_, bytes)) = (t.answer, t.step) else {
        return false;
    };
    let place = usize::from(first(&t.before).is_some());
    t.before.places[place].contents[bytes.len()..] != [0; 14][bytes.len()..]
}

/// The buffer that a control write is to.
fn written(t: &Taken) -> usize {
    match t.step {
        Step::Write(address @ 0x50..=0x5F, _) => usize::from(address) - 0x50,
        _ => 0,
    }
}

/// A control write by which a receive buffer stops being locked.
fn releases(t: &Taken) -> bool {
    is_control_write(t) && t.before.locked & !t.after.locked & t.before.receive != 0
}

/// How many frames a release stores.
fn stored(t: &Taken) -> usize {
    match releases(t) {
        true => taken(&t.before) - taken(&t.after),
        false => 0,
    }
}

fn alone(model: &Controller) -> bool {
    model.sleep_requested && !model.asleep
}

fn stays(t: &Taken) -> bool {
    alone(&t.before) && alone(&t.after)
}

fn falls_asleep(t: &Taken) -> bool {
    alone(&t.before) && t.after.asleep
}

/// SLPRQ alone that is cancelled in normal operation.
fn cancels(t: &Taken) -> bool {
    alone(&t.before) && !t.after.sleep_requested && !t.after.initialization
}
