//! What a record holds, asked of the library after a step and compared with the model: a buffer's bytes, and those of the frames
//! that wait, the oldest first. Neither function may change the record, or a byte of the room that it doesn't fill.

use crate::controller::{Controller, Place, BUFFERS, CONTENTS};
use crate::library::{Library, Said, SIZE, UNKNOWN};
use crate::pair::{same, Difference};

/// Refused (12): the room has less than fourteen bytes.
const NO_ROOM: u32 = 8 * 256 + 12;
const WAITING: u32 = 15 * 256;
/// Not so many frames wait.
const NO_FRAME: u32 = 66 * 256;
const BEYOND: usize = 6;

/// The answer of one of the two functions, and the room after it; `size` of its bytes are the function's.
fn shown(
    byte: u8,
    size: usize,
    function: impl Fn(&mut [u8]) -> u32,
) -> (Said, [u8; CONTENTS + BEYOND]) {
    let mut room = [byte; CONTENTS + BEYOND];
    let answer = function(&mut room[..size]);
    (Said(answer), room)
}

/// What they should be: the answer, or that there is no room, and the bytes, if there are any to show.
fn wanted(
    byte: u8,
    size: usize,
    answer: u32,
    bytes: Option<[u8; CONTENTS]>,
) -> (Said, [u8; CONTENTS + BEYOND]) {
    let mut room = [byte; CONTENTS + BEYOND];
    match bytes {
        None => (Said(answer), room),
        Some(_) if size < CONTENTS => (Said(NO_ROOM), room),
        Some(bytes) => {
            room[..CONTENTS].copy_from_slice(&bytes);
            (Said(answer), room)
        }
    }
}

/// The frames that wait, in order of arrival.
fn waiting(model: &Controller) -> Vec<Place> {
    let mut places: Vec<Place> = model
        .places
        .iter()
        .filter(|place| usize::from(place.buffer) < BUFFERS)
        .copied()
        .collect();
    places.sort_by_key(|place| place.arrival);
    places
}

/// One buffer, or a number that is none, and the waiting frames 0 to 2; which buffer and how large the room is goes by `turn`.
pub fn compare(library: &Library, model: &Controller, turn: u8) -> Result<(), Difference> {
    let number = usize::from(turn) % (BUFFERS + 1);
    let size = CONTENTS + BEYOND - usize::from(turn / 16) % (BEYOND + 3);
    let bytes = *library.bytes();
    let buffer = match model.contents.get(number) {
        None => wanted(turn, size, UNKNOWN, None),
        Some(&contents) => wanted(turn, size, 0, Some(contents)),
    };
    let found = shown(turn, size, |room| library.buffer(SIZE, number as u32, room));
    same("hevrukan_buffer", found, buffer)?;
    let places = waiting(model);
    for k in 0..3 {
        let frame = match places.get(k) {
            None => wanted(turn, size, if k < 2 { NO_FRAME } else { UNKNOWN }, None),
            Some(place) => wanted(
                turn,
                size,
                WAITING + u32::from(place.buffer),
                Some(place.contents),
            ),
        };
        let found = shown(turn, size, |room| library.waiting(SIZE, k as u32, room));
        same("hevrukan_waiting", found, frame)?;
    }
    same("the record's bytes", &library.bytes()[..], &bytes[..])
}
