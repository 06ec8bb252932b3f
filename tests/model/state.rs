//! What a recording does to the controller and its report doesn't show: the state at a line, and what each line reaches.

use crate::controller::bits::{IFLG, LOCK};
use crate::controller::{Answer, Controller, Step, CONTENTS};
use crate::recording::{Recording, LIMIT};
use crate::text::{parse_front, FRAME};
use std::io::{self, Read, Write};

/// Hands each line's step to `see`, with the controller before and after it and its answer; unread lines have no step.
fn each_line(
    input: impl Read,
    most: u32,
    mut see: impl FnMut(u32, Option<(&Step, Answer)>, &Controller, &Controller) -> io::Result<()>,
) -> io::Result<Controller> {
    let mut recording = Recording::new(input);
    let mut controller = Controller::new();
    let mut bytes = [0; FRAME];
    for number in 1..=most.min(LIMIT) {
        let Some(front) = recording.front()? else {
            break;
        };
        let Some((step, size)) = parse_front(front, &mut bytes) else {
            recording.pass_unread()?;
            see(number, None, &controller, &controller)?;
            continue;
        };
        recording.pass(size);
        let before = controller;
        let outcome = controller.step(&step, &mut [0; CONTENTS]);
        see(number, Some((&step, outcome.answer)), &before, &controller)?;
    }
    Ok(controller)
}

fn hex(bytes: &[u8]) -> String {
    bytes.iter().map(|byte| format!("{byte:02X}")).collect()
}

/// The state after so many lines, as `./hevrukan state` writes it.
pub fn state(input: impl Read, line: u32, mut output: impl Write) -> io::Result<()> {
    let controller = each_line(input, line, |_, _, _, _| Ok(()))?;
    writeln!(output, "what\tplace\tanswer\tdetail")?;
    for address in 0..0x60 {
        match controller.read(address) {
            Answer::Read(value) => writeln!(output, "register\t{address:02X}\tread\t{value:02X}")?,
            Answer::Refused(number) => {
                writeln!(output, "register\t{address:02X}\trefused\t{number:02X}")?
            }
            answer => unreachable!("{answer:?}"),
        }
    }
    for (number, contents) in controller.contents.iter().enumerate() {
        writeln!(output, "buffer\t{number:02X}\tholds\t{}", hex(contents))?;
    }
    let mut places = controller.places;
    places.sort_by_key(|place| place.arrival);
    for place in places.iter().filter(|place| place.buffer < 16) {
        writeln!(
            output,
            "waiting\t{:02X}\tholds\t{}",
            place.buffer,
            hex(&place.contents)
        )?;
    }
    Ok(())
}

/// The buffer that a register call reaches through a window.
fn window(step: &Step, controller: &Controller) -> Option<u8> {
    let (Step::Read(address) | Step::Write(address, _)) = *step else {
        return None;
    };
    let holder = match address {
        0x20..=0x2D => controller.transmit_locks.holder,
        0x30..=0x3D => controller.receive_locks.holder,
        0x40..=0x4D => {
            let fifo = controller.locked & !controller.transmit & !controller.receive;
            fifo.trailing_zeros() as u8
        }
        _ => return None,
    };
    (holder < 16).then_some(holder)
}

/// How many frames wait for a buffer.
fn waiting(controller: &Controller, buffer: u8) -> usize {
    controller
        .places
        .iter()
        .filter(|place| place.buffer == buffer)
        .count()
}

/// Whether a control write says that the buffer's frame was read.
fn says_read(before: &Controller, buffer: u8, value: u8) -> bool {
    let bit = 1u16 << buffer;
    if before.transmit & bit != 0 {
        false
    } else if before.receive & bit != 0 {
        !before.initialization && before.iflg & bit != 0 && value & IFLG != 0
    } else {
        before.locked & bit != 0 && value & LOCK == 0
    }
}

/// For each line: the buffer that it reaches through a window, the buffer that sends, how many frames that waited its release
/// stores, and the buffer whose frame it says was read; a dash for none.
pub fn seen(input: impl Read, mut output: impl Write) -> io::Result<()> {
    each_line(input, LIMIT, |number, done, before, after| {
        let (mut shown, mut sender, mut stored, mut read) = (None, None, 0, None);
        match done {
            Some((step, Answer::Ok | Answer::Read(_))) => {
                shown = window(step, before);
                if let Step::Write(address @ 0x50..=0x5F, value) = *step {
                    let buffer = address - 0x50;
                    stored = waiting(before, buffer) - waiting(after, buffer);
                    read = says_read(before, buffer, value).then_some(buffer);
                }
            }
            Some((_, Answer::Sent(_))) => {
                sender = Some((before.armed & !after.armed).trailing_zeros() as u8)
            }
            _ => {}
        }
        let text = |buffer: Option<u8>| buffer.map_or("-".to_string(), |buffer| buffer.to_string());
        writeln!(
            output,
            "{number}\t{}\t{}\t{stored}\t{}",
            text(shown),
            text(sender),
            text(read)
        )
    })?;
    output.flush()
}
