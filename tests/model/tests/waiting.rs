//! The waiting places (W5) beside a plain list of frames, and what holds of them and of SLPRQ in every session.

use super::*;

const NONE: u8 = 0x10;

/// A frame that waits: its buffer, and what that is to hold.
type Waiting = (u8, [u8; CONTENTS]);

fn stored(frame: &[u8]) -> [u8; CONTENTS] {
    let mut contents = [0; CONTENTS];
    contents[..frame.len()].copy_from_slice(frame);
    contents[1] = (frame.len() - 2) as u8;
    contents
}

/// The frames in the places, oldest first.
fn in_places(controller: &Controller) -> Vec<Waiting> {
    let mut places = controller.places.to_vec();
    places.retain(|place| place.buffer != NONE);
    places.sort_by_key(|place| place.arrival);
    let frames = places.iter().map(|place| (place.buffer, place.contents));
    frames.collect()
}

/// The receive buffer that the step released, if it did.
fn released(before: &Controller, after: &Controller) -> Option<u8> {
    let buffers = before.locked & before.receive & !after.locked;
    (buffers != 0).then(|| buffers.trailing_zeros() as u8)
}

#[test]
fn the_places_are_a_list_in_order_of_arrival() {
    let (mut of, mut list) = (0, Vec::<Waiting>::new());
    let (mut held_off, mut stored_at_once) = (0, [0; 3]);
    on_random_steps(|session, step, before, after, Outcome { answer, .. }| {
        if session != of || *step == Step::Reset {
            (of, list) = (session, Vec::new());
        }
        match (*step, answer) {
            (Step::Frame(_, frame), Answer::Waiting(buffer)) => {
                assert!(list.len() < 2);
                list.push((buffer, stored(frame)));
            }
            (_, Answer::HeldOff(_)) => {
                assert_eq!(list.len(), 2);
                held_off += 1;
            }
            (Step::Write(..), Answer::Ok) if after.initialization => list.clear(),
            (Step::Write(..), Answer::Ok) => {
                if let Some(buffer) = released(before, after) {
                    let own = list.iter().filter(|frame| frame.0 == buffer);
                    stored_at_once[own.clone().count()] += 1;
                    // Stored one over the other, the newest is left.
                    if let Some((_, newest)) = own.last() {
                        assert_eq!(after.contents[usize::from(buffer)], *newest);
                        assert_eq!(after.iflg >> buffer & 1, 1);
                    }
                    list.retain(|frame| frame.0 != buffer);
                }
            }
            _ => {}
        }
        assert_eq!(in_places(after), list, "{step:?}: {answer:?}");
    });
    // Each has come up, or the test says nothing of it.
    assert!(held_off > 0 && !stored_at_once.contains(&0));
}

#[test]
fn what_holds_of_the_places_and_of_sleep() {
    let mut alone = 0;
    on_random_steps(|_, step, _, after, _| {
        let waiting = in_places(after);
        for (buffer, [identifier, length, ..]) in &waiting {
            // For a locked receive buffer, the lowest with the identifier.
            let carries = |n: &u8| {
                after.receive >> n & 1 == 1 && after.identifiers[usize::from(*n)] == *identifier
            };
            assert_eq!((0..16).find(carries), Some(*buffer), "{step:?}");
            assert_eq!(after.locked >> buffer & 1, 1, "{step:?}");
            assert!(*length <= 12);
        }
        assert_eq!(
            after.asleep,
            after.sleep_requested && waiting.is_empty(),
            "{step:?}"
        );
        assert!(!after.initialization || waiting.is_empty() && !after.sleep_requested);
        alone += u32::from(after.sleep_requested && !after.asleep);
    });
    assert!(alone > 0);
}
