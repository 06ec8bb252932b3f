//! What no recording can show: the room of a sent frame; and by plainer means the count of buffers examined and the
//! frames that wait. Run by tests/compare.

mod waiting;

use crate::controller::*;
use crate::make::{make, Kind};

/// Runs a recording written with `;` between the lines and blanks for tabs.
fn run(controller: &mut Controller, script: &str) {
    let mut bytes = [0; crate::text::FRAME];
    for line in script.split("; ") {
        let line = line.replace(' ', "\t");
        let step = crate::text::parse(line.as_bytes(), &mut bytes).expect("a readable line");
        let answer = controller.step(&step, &mut [0; CONTENTS]).answer;
        assert!(!matches!(answer, Answer::Refused(_)), "{line}: {answer:?}");
    }
}

/// Buffer 15 with identifier 5, length 13 and data, its request standing at the sync.
fn armed() -> Controller {
    let mut controller = Controller::new();
    run(
        &mut controller,
        "W 5F 90; W 20 05; W 21 0D; W 22 AA; W 2D BB; W 5F 80; W 10 80; W 00 00",
    );
    run(&mut controller, "W 5F A0; S N");
    controller
}

#[test]
fn a_short_room_is_refused_in_any_mode() {
    let mut asleep = armed();
    run(&mut asleep, "W 00 08");
    let mut unsynchronized = armed();
    run(&mut unsynchronized, "P L");
    for before in [Controller::new(), armed(), asleep, unsynchronized] {
        for length in 0..CONTENTS {
            for slot in [0, 5, 6] {
                let mut after = before;
                let mut room = vec![0x77; length];
                assert_eq!(
                    after.step(&Step::Slot(slot), &mut room),
                    Answer::Refused(12).into()
                );
                assert_eq!(after, before);
                assert_eq!(room, vec![0x77; length]);
            }
        }
    }
}

#[test]
fn a_sent_frame_fills_the_first_bytes_only() {
    let mut controller = armed();
    let mut room = [0x77; 20];
    assert_eq!(
        controller.step(&Step::Slot(4), &mut room),
        Answer::NotSent.into()
    );
    assert_eq!(room, [0x77; 20]);
    // The length goes out uncut, with twelve data bytes.
    assert_eq!(
        controller.step(&Step::Slot(5), &mut room),
        Answer::Sent(14).into()
    );
    assert_eq!(room[..3], [0x05, 0x0D, 0xAA]);
    assert_eq!(room[3..13], [0; 10]);
    assert_eq!(room[13], 0xBB);
    assert_eq!(room[14..], [0x77; 6]);

    let mut controller = armed();
    run(&mut controller, "W 5F 10; W 21 01; W 5F 20; S N");
    let mut room = [0x77; CONTENTS];
    assert_eq!(
        controller.step(&Step::Slot(5), &mut room),
        Answer::Sent(3).into()
    );
    assert_eq!(room[..3], [0x05, 0x01, 0xAA]);
    assert_eq!(room[3..], [0x77; 11]);
}

#[test]
fn slices_of_a_wrong_length_are_refused_in_any_mode() {
    let mut asleep = armed();
    run(&mut asleep, "W 00 08");
    for before in [Controller::new(), armed(), asleep] {
        for length in 0..=255 {
            for count in 0..=17 {
                let right = count == 2 + (length & 0x0F).min(12);
                let mut bytes = [0x21; 17];
                bytes[1] = length as u8;
                let mut after = before;
                let step = Step::Frame(true, &bytes[..count]);
                let refused = after.step(&step, &mut []) == Answer::Refused(11).into();
                assert_eq!(refused, !right);
                assert!(!refused || after == before);
            }
        }
    }
}

/// Synchronized, with buffers `fsiz` to `cfg_0` - 1 as dedicated receive buffers of identifiers $40 and up.
fn laid_out(fsiz: u8, cfg_0: u8) -> Controller {
    let mut controller = Controller::new();
    run(&mut controller, &format!("W 01 {fsiz:02X}"));
    for n in fsiz..cfg_0 {
        let identifier = 0x40 + n;
        run(
            &mut controller,
            &format!("W 5{n:X} 10; W 30 {identifier:02X}; W 5{n:X} 00"),
        );
    }
    for n in cfg_0..16 {
        run(&mut controller, &format!("W 5{n:X} 80"));
    }
    run(&mut controller, "W 00 00; S N");
    controller
}

fn frame(controller: &mut Controller, identifier: u8) -> Outcome {
    controller.step(&Step::Frame(true, &[identifier, 0]), &mut [])
}

/// The dedicated receive buffers that a walk up from buffer 0 meets until one carries the identifier.
fn walked(controller: &Controller, identifier: u8) -> u8 {
    let mut met = 0;
    for n in 0..BUFFERS {
        let dedicated = controller.transmit >> n & 1 == 0 && n >= usize::from(controller.fsiz);
        met += u8::from(dedicated);
        if dedicated && controller.contents[n][0] == identifier {
            break;
        }
    }
    met
}

fn is_looked_up(answer: Answer) -> bool {
    use Answer::*;
    matches!(
        answer,
        Stored(_) | Waiting(_) | HeldOff(_) | Queued(_) | Overrun | Unmatched
    )
}

#[test]
fn the_count_of_each_layout() {
    for cfg_0 in 0..=16 {
        for fsiz in 0..=cfg_0 {
            let mut controller = laid_out(fsiz, cfg_0);
            for n in fsiz..cfg_0 {
                let identifier = 0x40 + n;
                let looked = n - fsiz + 1;
                assert_eq!(looked, walked(&controller, identifier));
                let answer = Answer::Stored(n);
                assert_eq!(
                    frame(&mut controller, identifier),
                    Outcome { answer, looked }
                );
                run(&mut controller, &format!("W 5{n:X} 10"));
                for answer in [Answer::Waiting(n), Answer::Waiting(n), Answer::HeldOff(n)] {
                    assert_eq!(
                        frame(&mut controller, identifier),
                        Outcome { answer, looked }
                    );
                }
                run(&mut controller, &format!("W 5{n:X} 00"));
            }
            // No buffer carries $77: all are examined, whatever becomes of the frame.
            let looked = cfg_0 - fsiz;
            for place in 0..fsiz {
                let answer = Answer::Queued(place);
                assert_eq!(frame(&mut controller, 0x77), Outcome { answer, looked });
            }
            let answer = match fsiz {
                0 => Answer::Unmatched,
                _ => Answer::Overrun,
            };
            assert_eq!(frame(&mut controller, 0x77), Outcome { answer, looked });
        }
    }
}

#[test]
fn the_count_ends_at_the_lowest_that_carries_the_identifier() {
    let mut controller = laid_out(2, 16);
    run(&mut controller, "W 00 80; W 59 10; W 30 45; W 59 00");
    run(&mut controller, "W 00 00; S N; W 55 10");
    for answer in [Answer::Waiting(5), Answer::Waiting(5), Answer::HeldOff(5)] {
        assert_eq!(frame(&mut controller, 0x45), Outcome { answer, looked: 4 });
    }
    // The FIFO's buffer carries $77 then, and isn't examined.
    let mut controller = laid_out(1, 3);
    assert_eq!(frame(&mut controller, 0x77).answer, Answer::Queued(0));
    let answer = Answer::Overrun;
    assert_eq!(frame(&mut controller, 0x77), Outcome { answer, looked: 2 });
}

/// Runs random recordings, each from reset, and shows every step: its session, the state before and after it.
fn on_random_steps(mut look: impl FnMut(usize, &Step, &Controller, &Controller, Outcome)) {
    let kinds = [Kind::Mixed, Kind::Wild, Kind::Damaged, Kind::Data];
    for session in 0..160 {
        let mut text = Vec::new();
        let (kind, seed) = (kinds[session / 40], session % 40 + 1);
        make(kind, seed as u64, 3_000, &mut text).expect("a vector takes all");
        let mut controller = Controller::new();
        let mut bytes = [0; crate::text::FRAME];
        for line in text.split(|&byte| byte == b'\n') {
            let Some(step) = crate::text::parse(line, &mut bytes) else {
                continue;
            };
            let before = controller;
            let outcome = controller.step(&step, &mut [0; CONTENTS]);
            look(session, &step, &before, &controller, outcome);
        }
    }
}

#[test]
fn the_count_is_a_walk_over_the_buffers_and_0_for_all_else() {
    let mut looked_up = [0; BUFFERS + 1];
    on_random_steps(
        |_, step, before, _, Outcome { answer, looked }| match step {
            Step::Frame(_, frame) if is_looked_up(answer) => {
                assert_eq!(looked, walked(before, frame[0]));
                looked_up[usize::from(looked)] += 1;
            }
            _ => assert_eq!(looked, 0, "{step:?}: {answer:?}"),
        },
    );
    // Each count has come up, or the test says nothing of it.
    assert!(!looked_up.contains(&0), "{looked_up:?}");
}
