//! One controller twice: the library's record and the model. Every call goes to both, and all that can be
//! seen of the two is compared after it.

use crate::call::{Call, ROOM};
use crate::controller::bits::*;
use crate::controller::{self, Answer, Controller, Step, BUFFERS};
use crate::held;
use crate::library::*;

/// Bytes after a room, to see whether one of them is written.
const BEYOND: usize = 12;

/// Two values that should be the same, as text; numbers are hex.
pub struct Difference {
    pub what: String,
    pub library: String,
    pub model: String,
}

pub fn same<T: PartialEq + std::fmt::Debug>(
    what: &str,
    library: T,
    model: T,
) -> Result<(), Difference> {
    if library == model {
        return Ok(());
    }
    Err(Difference {
        what: what.to_string(),
        library: format!("{library:02X?}"),
        model: format!("{model:02X?}"),
    })
}

/// The record that says what the model's state says.
fn record_of(model: &Controller) -> Record {
    let control = |bit: u8| u8::from(model.control & bit != 0);
    let filter = |filter: controller::Filter| Filter {
        pattern: filter.pattern,
        mask: filter.mask,
    };
    let locks = |locks: controller::Locks| Locks {
        holder: locks.holder,
        contender: locks.contender,
    };
    let fifo = !model.transmit & !model.receive;
    let [first, second] = model.places;
    let [tcr1, tcr2, tcr3] = model.timing;
    Record {
        control: Control {
            mode: Mode {
                init: u8::from(model.initialization),
                master: control(MASTER),
                alarm: control(ALARM),
                slprq: u8::from(model.sleep_requested),
                wpulse: control(WPULSE),
                sswai: control(SSWAI),
                synced: u8::from(model.synchronized),
                last: model.last_identifier,
            },
            config: Config {
                fsiz: model.fsiz,
                tcr1,
                tcr2,
                tcr3,
                rier: model.enables_08,
                gier: model.enables_09,
                accept: filter(model.acceptance),
                reject: filter(model.rejection),
                bfen: u8::from(model.bfen != 0),
            },
            events: Events {
                risr: model.events_06,
                gisr: model.events_07,
                clearing: u8::from(model.clear_remembered),
            },
            fifo: Fifo {
                oldest: model.fifo_oldest,
                next: (model.fifo_oldest + model.fifo_count) % model.fsiz.max(1),
                count: model.fifo_count,
                locked: u8::from(model.locked & fifo != 0),
            },
            receive: locks(model.receive_locks),
            transmit: locks(model.transmit_locks),
            places: Places {
                first: first.buffer,
                second: second.buffer,
                swapped: u8::from(first.arrival > second.arrival),
            },
            buffers: Buffers {
                cfg: model.transmit,
                iena: model.iena,
                iflg: model.iflg,
                abtak: model.abtak,
                armed: model.armed,
            },
        },
        rows: model.contents,
        held: [first.contents, second.contents],
    }
}

/// The locked buffers, as a record says them.
fn locked(record: &Record) -> u16 {
    let Control {
        fifo,
        receive,
        transmit,
        ..
    } = record.control;
    let entry = if fifo.locked != 0 {
        fifo.oldest
    } else {
        BUFFERS as u8
    };
    let four = [
        receive.holder,
        receive.contender,
        transmit.holder,
        transmit.contender,
    ];
    four.iter()
        .chain(&[entry])
        .fold(0, |mask, &buffer| mask | (1u32 << buffer) as u16)
}

/// SLPAK, as a record says it.
fn asleep(record: &Record) -> bool {
    let Control { mode, places, .. } = record.control;
    mode.slprq != 0 && places.first == BUFFERS as u8 && places.second == BUFFERS as u8
}

/// The first field in which two records differ.
fn same_fields(library: &Record, model: &Record) -> Result<(), Difference> {
    if library == model {
        return Ok(());
    }
    let (mut ours, mut theirs) = (Vec::new(), Vec::new());
    library.list("record", &mut ours);
    model.list("record", &mut theirs);
    for ((name, ours), (_, theirs)) in ours.into_iter().zip(theirs) {
        same(&name, ours, theirs)?;
    }
    unreachable!("records that differ have a field that differs")
}

/// A step that was taken by both, for the counts.
pub struct Taken<'a> {
    pub before: Controller,
    pub after: Controller,
    pub step: Step<'a>,
    pub answer: Answer,
    /// The dedicated receive buffers examined for it.
    pub looked: u8,
}

pub struct Pair {
    library: Library,
    pub model: Controller,
    /// What a room holds before a call; it goes on, so that no value stays in one place.
    byte: u8,
}

impl Pair {
    /// Both as after reset, the record's bytes having been `byte`.
    pub fn new(byte: u8) -> Result<Pair, Difference> {
        // First of all: with another size the library would write past our record.
        same("hevrukan_size()", size(), SIZE)?;
        let mut pair = Pair {
            library: Library::holding(byte),
            model: Controller::new(),
            byte,
        };
        let answer = Said(pair.library.reset(SIZE));
        same("the answer of hevrukan_reset", answer, Said(0))?;
        pair.compare()?;
        Ok(pair)
    }

    /// One call on both. `None` if the numbers stand for no step.
    pub fn step<'a>(&mut self, call: &'a Call) -> Result<Option<Taken<'a>>, Difference> {
        self.byte = self.byte.wrapping_add(0x1D);
        let mut room = [self.byte; ROOM + BEYOND];
        let mut wanted = room;
        let bytes = *self.library.bytes();
        let given = &mut room[..call.room_size];
        let answer = self
            .library
            .step(call.size, call.numbers, call.frame(), given);
        let before = self.model;
        let taken = match call.step() {
            Err(number) => {
                same("the answer", Said(answer), Said(number))?;
                same("the record's bytes", &self.library.bytes()[..], &bytes[..])?;
                None
            }
            Ok(step) => {
                let outcome = self.model.step(&step, &mut wanted[..call.room_size]);
                same("the answer", Said(answer), Said(number(outcome)))?;
                Some(Taken {
                    before,
                    after: self.model,
                    step,
                    answer: outcome.answer,
                    looked: outcome.looked,
                })
            }
        };
        same("the room", room, wanted)?;
        if call.size != SIZE {
            self.refuse_size(call.size)?;
        }
        self.compare()?;
        Ok(taken)
    }

    /// The other functions that take a size.
    fn refuse_size(&mut self, size: usize) -> Result<(), Difference> {
        let bytes = *self.library.bytes();
        let mut room = [self.byte; ROOM];
        let [reset, lines] = [self.library.reset(size), self.library.lines(size)].map(Said);
        let [buffer, waiting] = [
            self.library.buffer(size, 0, &mut room),
            self.library.waiting(size, 0, &mut room),
        ]
        .map(Said);
        same("the answer of hevrukan_reset", reset, Said(WRONG_SIZE))?;
        same("the answer of hevrukan_lines", lines, Said(WRONG_SIZE))?;
        same("the answer of hevrukan_buffer", buffer, Said(WRONG_SIZE))?;
        same("the answer of hevrukan_waiting", waiting, Said(WRONG_SIZE))?;
        same("their room", room, [self.byte; ROOM])?;
        same("the record's bytes", &self.library.bytes()[..], &bytes[..])
    }

    fn compare(&self) -> Result<(), Difference> {
        let record = self.library.record();
        same_fields(&record, &record_of(&self.model))?;
        same(
            "the lines",
            self.library.lines(SIZE),
            u32::from(self.model.lines()),
        )?;
        same("the bytes about the record", self.library.guarded(), true)?;
        held::compare(&self.library, &self.model, self.byte)?;
        // What the model keeps beside the record's fields.
        same("SLPAK", asleep(&record), self.model.asleep)?;
        same("the locked buffers", locked(&record), self.model.locked)?;
        let Control {
            config, buffers, ..
        } = record.control;
        let receive = !buffers.cfg & (!0u32 << config.fsiz) as u16;
        same("the receive buffers", receive, self.model.receive)?;
        let identifiers = record.rows.map(|row| row[0]);
        same("the identifiers", identifiers, self.model.identifiers)
    }
}
