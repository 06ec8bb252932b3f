//! The controller of document 01, as its change requests amend it, changed in place.
//!
//! Sets of buffers are sixteen-bit masks, bit n for buffer n. Flags and interrupt lines that follow
//! from other state (RCVFIF, RXIF, TXIF, LOCKIF, the vectors, the five lines) are worked out when read.
//! Fields are public for the comparison with the product's record alone.

/// The bits of each register, by the manual's names.
pub mod bits {
    // $00, module control
    pub const INITRQ: u8 = 0x80;
    pub const MASTER: u8 = 0x40;
    pub const ALARM: u8 = 0x20;
    pub const SLPAK: u8 = 0x10;
    pub const SLPRQ: u8 = 0x08;
    pub const WPULSE: u8 = 0x04;
    pub const SSWAI: u8 = 0x02;
    pub const INITAK: u8 = 0x01;
    // $06; the enables of $08 stand in the same places
    pub const RCVFIF: u8 = 0x80;
    pub const RXIF: u8 = 0x40;
    pub const SYNAIF: u8 = 0x20;
    pub const SYNNIF: u8 = 0x10;
    pub const SLMMIF: u8 = 0x08;
    pub const XSYNIF: u8 = 0x02;
    // $07; the enables of $09 stand in the same places
    pub const TXIF: u8 = 0x80;
    pub const OVRNIF: u8 = 0x40;
    pub const ERRIF: u8 = 0x20;
    pub const SYNEIF: u8 = 0x10;
    pub const SYNLIF: u8 = 0x08;
    pub const ILLPIF: u8 = 0x04;
    pub const LOCKIF: u8 = 0x02;
    pub const WAKEIF: u8 = 0x01;
    // $10
    pub const BFEN: u8 = 0x80;
    // $50 to $5F, buffer control
    pub const CFG: u8 = 0x80;
    pub const IENA: u8 = 0x40;
    pub const IFLG: u8 = 0x20;
    pub const LOCK: u8 = 0x10;
    pub const ABTRQ: u8 = 0x08;
    pub const ABTAK: u8 = 0x04;
}
use bits::*;

const LOCKIE: u8 = LOCKIF;
/// The places of $08 that hold an enable.
const ENABLES_08: u8 = RCVFIF | RXIF | SYNAIF | SYNNIF | SLMMIF | XSYNIF;
/// No buffer: what a vector reads with nothing pending.
const NONE: u8 = 0x10;

pub const BUFFERS: usize = 16;
/// Identifier, length, data 0 to 11.
pub const CONTENTS: usize = 14;
/// Most data bytes of a frame.
const DATA: u8 = 12;

#[derive(Clone, Copy, PartialEq, Eq, Debug)]
pub enum Pulse {
    Normal,
    Alarm,
}

#[derive(Clone, Copy, PartialEq, Eq, Debug)]
pub enum Fault {
    Early,
    Lost,
    Illegal,
    Mismatch,
}

/// One call or bus event.
#[derive(Clone, Copy, PartialEq, Eq, Debug)]
pub enum Step<'a> {
    Reset,
    Read(u8),
    Write(u8, u8),
    Sync(Pulse),
    SyncDue,
    Slot(u8),
    /// The verdict (true for good) and the bytes: identifier, length byte, data.
    Frame(bool, &'a [u8]),
    Fault(Fault),
    Timeout,
}

/// What a step answers. Numbers are a buffer's, but for `Read`, `Sent` and `Refused`.
#[derive(Clone, Copy, PartialEq, Eq, Debug)]
pub enum Answer {
    Ok,
    Read(u8),
    Stored(u8),
    Queued(u8),
    /// The frame waits for the buffer, which is locked (W5).
    Waiting(u8),
    HeldOff(u8),
    /// How many bytes of the room the sent frame fills.
    Sent(u8),
    Pulse(Pulse),
    Refused(u8),
    Overrun,
    Unmatched,
    BadFrame,
    Ignored,
    Woke,
    NotSent,
}
use Answer::{Ignored, Refused};

/// A step's answer, and how many dedicated receive buffers were examined for it (W8): 0 but for a frame that is
/// looked up. Four bytes, so that it is returned as one number.
#[derive(Clone, Copy, PartialEq, Eq, Debug)]
#[repr(align(4))]
pub struct Outcome {
    pub answer: Answer,
    pub looked: u8,
}

impl From<Answer> for Outcome {
    #[inline(always)]
    fn from(answer: Answer) -> Outcome {
        Outcome { answer, looked: 0 }
    }
}

/// The locked buffers of one kind; a contender stands only behind a holder.
#[derive(Clone, Copy, PartialEq, Eq, Debug)]
pub struct Locks {
    pub holder: u8,
    pub contender: u8,
}

impl Locks {
    const FREE: Locks = Locks {
        holder: NONE,
        contender: NONE,
    };

    fn contended(self) -> bool {
        self.contender != NONE
    }

    /// Gives an unlocked buffer its place; the caller has ruled out refusal 10.
    fn take(&mut self, buffer: u8) {
        if self.holder == NONE {
            self.holder = buffer;
        } else {
            self.contender = buffer;
        }
    }

    fn release(&mut self, buffer: u8) {
        if self.holder == buffer {
            self.holder = self.contender;
            self.contender = NONE;
        } else if self.contender == buffer {
            self.contender = NONE;
        }
    }
}

/// A waiting place (W5).
#[derive(Clone, Copy, PartialEq, Eq, Debug)]
pub struct Place {
    /// The buffer that its frame waits for; `NONE` in a free place.
    pub buffer: u8,
    /// When its last frame came: the larger number came later. 0 before the first.
    pub arrival: u32,
    /// Its last frame as it is stored, of which nothing shows once the place is free.
    pub contents: [u8; CONTENTS],
}

impl Place {
    const FREE: Place = Place {
        buffer: NONE,
        arrival: 0,
        contents: [0; CONTENTS],
    };

    fn is_free(&self) -> bool {
        self.buffer == NONE
    }

    /// As if no frame had come.
    fn empty(&mut self) {
        self.buffer = NONE;
        self.arrival = 0;
    }
}

#[derive(Clone, Copy, PartialEq, Eq, Debug)]
pub struct Controller {
    pub contents: [[u8; CONTENTS]; BUFFERS],
    pub places: [Place; 2],
    /// The identifiers once more, side by side, so that all sixteen are compared at once.
    pub identifiers: [u8; BUFFERS],
    /// CFG 1.
    pub transmit: u16,
    /// Dedicated receive: CFG 0 and not below FSIZ. Follows from the two; kept for speed.
    pub receive: u16,
    pub iena: u16,
    /// Never set for a FIFO buffer: kinds change only in initialization, where every IFLG is 0.
    pub iflg: u16,
    pub abtak: u16,
    pub armed: u16,
    /// Every buffer whose LOCK reads 1: the four of `Locks` and the FIFO window's holder.
    pub locked: u16,
    pub receive_locks: Locks,
    pub transmit_locks: Locks,
    pub fsiz: u8,
    /// The oldest entry's place and the number of entries; the next place follows from both.
    pub fifo_oldest: u8,
    pub fifo_count: u8,
    pub initialization: bool,
    /// SLPRQ, which stands without SLPAK while a frame waits.
    pub sleep_requested: bool,
    /// SLPAK.
    pub asleep: bool,
    pub synchronized: bool,
    /// A SYNLIF clear that waits for the next sync.
    pub clear_remembered: bool,
    pub last_identifier: u8,
    /// The stored bits of $00: MASTER, ALARM, WPULSE, SSWAI.
    pub control: u8,
    /// The event flags of $06 and $07: those that a written 1 clears.
    pub events_06: u8,
    pub events_07: u8,
    pub enables_08: u8,
    pub enables_09: u8,
    pub timing: [u8; 3],
    pub acceptance: Filter,
    pub rejection: Filter,
    pub bfen: u8,
}

#[derive(Clone, Copy, PartialEq, Eq, Debug)]
pub struct Filter {
    pub pattern: u8,
    pub mask: u8,
}

impl Filter {
    fn matches(self, identifier: u8) -> bool {
        (identifier ^ self.pattern) & !self.mask == 0
    }
}

fn bit(buffer: u8) -> u16 {
    1 << buffer
}

/// The buffers below `n`, which may be 16.
fn below(n: u8) -> u16 {
    ((1u32 << n) - 1) as u16
}

fn put(mask: &mut u16, bits: u16, on: bool) {
    *mask = if on { *mask | bits } else { *mask & !bits };
}

/// A flag's bit if it stands.
fn when(on: bool, flag: u8) -> u8 {
    if on {
        flag
    } else {
        0
    }
}

fn data_length(length: u8) -> u8 {
    (length & 0x0F).min(DATA)
}

/// A frame as it is stored. Nothing of an older one is left: data bytes past the stored length are 0.
fn image(identifier: u8, data: &[u8]) -> [u8; CONTENTS] {
    let mut contents = [0; CONTENTS];
    contents[0] = identifier;
    contents[1] = data.len() as u8;
    contents[2..2 + data.len()].copy_from_slice(data);
    contents
}

impl Controller {
    pub fn new() -> Controller {
        Controller {
            contents: [[0; CONTENTS]; BUFFERS],
            places: [Place::FREE; 2],
            identifiers: [0; BUFFERS],
            transmit: 0,
            receive: !0,
            iena: 0,
            iflg: 0,
            abtak: 0,
            armed: 0,
            locked: 0,
            receive_locks: Locks::FREE,
            transmit_locks: Locks::FREE,
            fsiz: 0,
            fifo_oldest: 0,
            fifo_count: 0,
            initialization: true,
            sleep_requested: false,
            asleep: false,
            synchronized: false,
            clear_remembered: false,
            last_identifier: 0,
            control: 0,
            events_06: 0,
            events_07: 0,
            enables_08: 0,
            enables_09: 0,
            timing: [0; 3],
            acceptance: Filter {
                pattern: 0,
                mask: 0xFF,
            },
            rejection: Filter {
                pattern: 0,
                mask: 0xFF,
            },
            bfen: 0,
        }
    }

    /// One whole step. Only an answer of `Sent` touches the room.
    pub fn step(&mut self, step: &Step, room: &mut [u8]) -> Outcome {
        self.step_inline(step, room)
    }

    /// The same where the step has just been read: the two matches become one.
    #[inline(always)]
    pub fn step_inline(&mut self, step: &Step, room: &mut [u8]) -> Outcome {
        let outcome = match *step {
            Step::Reset => {
                *self = Controller::new();
                Answer::Ok.into()
            }
            Step::Read(address) => self.read(address).into(),
            Step::Write(address, value) => self.write(address, value).into(),
            Step::Sync(pulse) => self.sync(pulse).into(),
            Step::SyncDue => self.sync_due().into(),
            Step::Slot(slot) => self.slot(slot, room).into(),
            Step::Frame(good, bytes) => self.frame(good, bytes),
            Step::Fault(fault) => self.fault(fault).into(),
            Step::Timeout => self.timeout().into(),
        };
        if self.sleep_requested {
            self.cancel_sleep(step, outcome.answer);
        }
        outcome
    }

    /// Any sync, frame or fault that isn't refused or ignored cancels SLPRQ (W5); a master's pulse is a sync that it
    /// receives. A module that was asleep has woken by it: only SLPRQ alone is left to cancel here.
    #[cold]
    fn cancel_sleep(&mut self, step: &Step, answer: Answer) {
        let heard = matches!(
            step,
            Step::Sync(_) | Step::SyncDue | Step::Frame(..) | Step::Fault(_)
        );
        if heard && !matches!(answer, Refused(_) | Ignored) {
            self.sleep_requested = false;
        }
    }

    /// The five interrupt lines: 4 FIFO, 3 receive, 2 sync, 1 XSYNC, 0 general.
    pub fn lines(&self) -> u8 {
        let first = self.flags_06() & self.enables_08;
        let second = self.flags_07() & self.enables_09;
        // RCVFIF and RXIF stand three places above their lines, XSYNIF in the place of its own.
        (first & (RCVFIF | RXIF)) >> 3
            | when(first & (SYNAIF | SYNNIF) != 0, 0x04)
            | first & XSYNIF
            | when(second != 0 || first & SLMMIF != 0, 0x01)
    }

    fn flags_06(&self) -> u8 {
        self.events_06 | when(self.fifo_count > 0, RCVFIF) | when(self.receive_pending() != 0, RXIF)
    }

    fn flags_07(&self) -> u8 {
        let contended = self.receive_locks.contended() || self.transmit_locks.contended();
        self.events_07 | when(self.transmit_pending() != 0, TXIF) | when(contended, LOCKIF)
    }

    fn receive_pending(&self) -> u16 {
        self.iflg & self.iena & self.receive
    }

    fn transmit_pending(&self) -> u16 {
        self.iflg & self.iena & self.transmit
    }

    // Register calls

    pub fn read(&self, address: u8) -> Answer {
        if address > 0x5F {
            return Refused(1);
        }
        if self.asleep && address != 0x00 {
            return Refused(2);
        }
        Answer::Read(match address {
            0x00 => {
                self.control
                    | when(self.initialization, INITRQ | INITAK)
                    | when(self.sleep_requested, SLPRQ)
                    | when(self.asleep, SLPAK)
            }
            0x01 => self.fsiz,
            0x02..=0x04 => self.timing[address as usize - 0x02],
            0x06 => self.flags_06(),
            0x07 => self.flags_07(),
            0x08 => self.enables_08,
            0x09 => self.enables_09,
            // Sixteen zeros count as 16, which is "none".
            0x0A => self.receive_pending().trailing_zeros() as u8,
            0x0B => match self.transmit_pending() {
                0 => NONE,
                pending => pending.ilog2() as u8,
            },
            0x0C => self.acceptance.pattern,
            0x0D => self.acceptance.mask,
            0x10 => self.bfen,
            0x12 => {
                when(self.transmit_locks.holder != NONE, 0x02)
                    | when(self.receive_locks.holder != NONE, 0x01)
            }
            0x14 => self.rejection.pattern,
            0x15 => self.rejection.mask,
            0x20..=0x2D => self.read_window(self.transmit_locks.holder, address),
            0x30..=0x3D => self.read_window(self.receive_locks.holder, address),
            // At most the oldest entry is locked; sixteen zeros are "none" here too.
            0x40..=0x4D => {
                let holder = (self.locked & self.fifo()).trailing_zeros() as u8;
                self.read_window(holder, address)
            }
            0x50..=0x5F => self.read_control(address - 0x50),
            _ => 0,
        })
    }

    fn read_window(&self, holder: u8, address: u8) -> u8 {
        match self.contents.get(holder as usize) {
            Some(contents) => contents[(address & 0x0F) as usize],
            None => 0,
        }
    }

    fn read_control(&self, buffer: u8) -> u8 {
        let has = |mask: u16, flag| when(mask & bit(buffer) != 0, flag);
        has(self.transmit, CFG)
            | has(self.iena, IENA)
            | has(self.iflg, IFLG)
            | has(self.locked, LOCK)
            | has(self.abtak, ABTAK)
    }

    fn fifo(&self) -> u16 {
        !(self.transmit | self.receive)
    }

    pub fn write(&mut self, address: u8, value: u8) -> Answer {
        if address > 0x5F {
            return Refused(1);
        }
        if self.asleep && address != 0x00 {
            return Refused(2);
        }
        match address {
            0x0A | 0x0B | 0x0E | 0x12 | 0x40..=0x4D => return Refused(3),
            0x01..=0x04 | 0x0C | 0x0D | 0x14 | 0x15 | 0x30..=0x3D if !self.initialization => {
                return Refused(4)
            }
            0x00 => return self.write_module(value),
            0x01 => return self.write_fsiz(value & 0x1F),
            0x02..=0x04 => self.timing[address as usize - 0x02] = value,
            // The derived flags have no event bit, so a 1 written over them clears nothing.
            0x06 => self.events_06 &= !value,
            0x07 => self.clear_events_07(value),
            0x08 => self.enables_08 = value & ENABLES_08,
            0x09 => {
                let kept = if self.initialization { 0 } else { LOCKIE };
                self.enables_09 = value & !kept | self.enables_09 & kept;
            }
            0x0C => self.acceptance.pattern = value,
            0x0D => self.acceptance.mask = value,
            0x10 => self.bfen = value & BFEN,
            0x14 => self.rejection.pattern = value,
            0x15 => self.rejection.mask = value,
            0x20..=0x2D => return self.write_window(self.transmit_locks.holder, address, value),
            0x30..=0x3D => return self.write_window(self.receive_locks.holder, address, value),
            0x50..=0x5F => return self.write_control(address - 0x50, value),
            _ => {}
        }
        Answer::Ok
    }

    fn write_module(&mut self, value: u8) -> Answer {
        let before = self.initialization;
        let after = value & INITRQ != 0;
        if before && !after && !self.lawful() {
            return Refused(8);
        }
        let writable = if before {
            MASTER | ALARM | WPULSE | SSWAI
        } else {
            ALARM | SSWAI
        };
        self.control = self.control & !writable | value & writable;
        match (before, after) {
            (false, true) => self.enter_initialization(),
            (true, false) => {
                self.initialization = false;
                self.iflg |= self.transmit;
            }
            (false, false) if value & SLPRQ == 0 => match self.asleep {
                true => self.wake(),
                // No waking: synchronization and arming stay.
                false => self.sleep_requested = false,
            },
            (false, false) if self.bfen != 0 => {
                self.sleep_requested = true;
                self.asleep = self.none_waits();
            }
            (false, false) | (true, true) => {}
        }
        Answer::Ok
    }

    /// All CFG 0 buffers before all CFG 1 buffers, and FSIZ at most the number of CFG 0 buffers.
    fn lawful(&self) -> bool {
        let cfg_0 = self.transmit.trailing_zeros() as u8;
        self.transmit == !below(cfg_0) && self.fsiz <= cfg_0
    }

    /// Locks of receive and transmit buffers stay, as does all that is not named here.
    fn enter_initialization(&mut self) {
        self.initialization = true;
        self.enables_08 = 0;
        self.enables_09 &= LOCKIE;
        self.events_06 = 0;
        self.events_07 = 0;
        self.iflg = 0;
        self.abtak = 0;
        self.clear_remembered = false;
        self.wake();
        self.places.iter_mut().for_each(Place::empty);
        self.fifo_oldest = 0;
        self.fifo_count = 0;
        self.locked &= !self.fifo();
    }

    fn wake(&mut self) {
        self.sleep_requested = false;
        self.asleep = false;
        self.lose_synchronization();
    }

    fn none_waits(&self) -> bool {
        self.places.iter().all(Place::is_free)
    }

    fn lose_synchronization(&mut self) {
        self.synchronized = false;
        self.armed = 0;
    }

    fn write_fsiz(&mut self, fsiz: u8) -> Answer {
        if fsiz > BUFFERS as u8 {
            return Refused(6);
        }
        let receive = !self.transmit & !below(fsiz);
        if (receive ^ self.receive) & self.locked != 0 {
            return Refused(7);
        }
        self.fsiz = fsiz;
        self.receive = receive;
        Answer::Ok
    }

    fn clear_events_07(&mut self, value: u8) {
        let mut cleared = value;
        if value & self.events_07 & SYNLIF != 0 && !self.synchronized {
            self.clear_remembered = true;
            cleared &= !SYNLIF;
        }
        self.events_07 &= !cleared;
    }

    fn write_window(&mut self, holder: u8, address: u8, value: u8) -> Answer {
        let Some(contents) = self.contents.get_mut(holder as usize) else {
            return Refused(5);
        };
        let place = (address & 0x0F) as usize;
        contents[place] = if place == 1 { value & 0x0F } else { value };
        self.identifiers[holder as usize] = contents[0];
        Answer::Ok
    }

    /// Refusals first, then CFG, IENA, IFLG, ABTRQ and LOCK in turn.
    fn write_control(&mut self, buffer: u8, value: u8) -> Answer {
        let this = bit(buffer);
        let was_transmit = self.transmit & this != 0;
        let transmit = if self.initialization {
            value & CFG != 0
        } else {
            was_transmit
        };
        let fifo = !transmit && buffer < self.fsiz;
        let locked = self.locked & this != 0;
        if locked && transmit != was_transmit {
            return Refused(7);
        }
        let new_lock = value & LOCK != 0 && !locked;
        if new_lock {
            let locks = if transmit {
                self.transmit_locks
            } else {
                self.receive_locks
            };
            if fifo && (self.fifo_count == 0 || buffer != self.fifo_oldest) {
                return Refused(9);
            }
            if !fifo && locks.contended() {
                return Refused(10);
            }
        }

        if self.initialization {
            put(&mut self.transmit, this, transmit);
            put(&mut self.receive, this, !transmit && !fifo);
        }
        put(&mut self.iena, this, value & IENA != 0);
        if !self.initialization {
            if value & IFLG != 0 {
                // "Read" or "send this"; ABTAK is 0 in any but a transmit buffer.
                self.iflg &= !this;
                self.abtak &= !this;
            }
            if value & ABTRQ != 0 && transmit && self.iflg & this == 0 {
                self.iflg |= this;
                self.abtak |= this;
                self.armed &= !this;
            }
        }
        if new_lock {
            self.lock(buffer, transmit, fifo);
        } else if locked && value & LOCK == 0 {
            self.release(buffer, transmit, fifo);
        }
        Answer::Ok
    }

    fn lock(&mut self, buffer: u8, transmit: bool, fifo: bool) {
        self.locked |= bit(buffer);
        if fifo {
            return;
        }
        let locks = if transmit {
            &mut self.transmit_locks
        } else {
            &mut self.receive_locks
        };
        locks.take(buffer);
        let lock_error = locks.contended() && self.enables_09 & LOCKIE != 0;
        self.armed &= !bit(buffer);
        if lock_error && !self.initialization {
            self.enter_initialization();
        }
    }

    fn release(&mut self, buffer: u8, transmit: bool, fifo: bool) {
        self.locked &= !bit(buffer);
        if fifo {
            self.fifo_oldest = self.fifo_place(1);
            self.fifo_count -= 1;
        } else if transmit {
            self.transmit_locks.release(buffer);
        } else {
            self.receive_locks.release(buffer);
            self.store_waiting(buffer);
        }
    }

    /// Stores the frames that wait for a buffer which stops being locked, in order of arrival.
    fn store_waiting(&mut self, buffer: u8) {
        if self.places.iter().all(|place| place.buffer != buffer) {
            return;
        }
        let mut places = [0, 1];
        places.sort_by_key(|&place: &usize| self.places[place].arrival);
        for place in places {
            if self.places[place].buffer == buffer {
                self.contents[buffer as usize] = self.places[place].contents;
                self.iflg |= bit(buffer);
                self.places[place].buffer = NONE;
            }
        }
        // Whatever BFEN is by now.
        self.asleep = self.sleep_requested && self.none_waits();
    }

    /// The place `n` after the oldest entry's, 0 following FSIZ - 1; `n` is at most FSIZ.
    fn fifo_place(&self, n: u8) -> u8 {
        let place = self.fifo_oldest + n;
        if place >= self.fsiz {
            place - self.fsiz
        } else {
            place
        }
    }

    // Bus steps

    fn sync(&mut self, pulse: Pulse) -> Answer {
        if self.initialization {
            return Ignored;
        }
        if self.asleep {
            return self.wake_by_bus();
        }
        self.synchronize(pulse);
        Answer::Ok
    }

    fn sync_due(&mut self) -> Answer {
        if self.initialization || self.asleep || self.control & MASTER == 0 {
            return Ignored;
        }
        let pulse = if self.control & ALARM != 0 {
            Pulse::Alarm
        } else {
            Pulse::Normal
        };
        self.synchronize(pulse);
        Answer::Pulse(pulse)
    }

    fn synchronize(&mut self, pulse: Pulse) {
        self.events_06 |= XSYNIF
            | match pulse {
                Pulse::Normal => SYNNIF,
                Pulse::Alarm => SYNAIF,
            };
        if self.clear_remembered {
            self.events_07 &= !SYNLIF;
            self.clear_remembered = false;
        }
        self.synchronized = true;
        self.last_identifier = 0;
        // A request must stand at the sync: only these buffers may be sent until the next one.
        let full = self.transmit & !self.iflg & !self.locked;
        self.armed = full & !self.carrying(full, 0);
    }

    /// Which of these buffers carry the identifier.
    fn carrying(&self, buffers: u16, identifier: u8) -> u16 {
        let mut found = 0;
        for (buffer, &own) in self.identifiers.iter().enumerate() {
            found |= u16::from(own == identifier) << buffer;
        }
        found & buffers
    }

    fn wake_by_bus(&mut self) -> Answer {
        self.wake();
        self.events_07 |= WAKEIF;
        Answer::Woke
    }

    fn timeout(&mut self) -> Answer {
        if self.initialization || self.asleep {
            return Ignored;
        }
        self.control &= !ALARM;
        Answer::Ok
    }

    fn fault(&mut self, fault: Fault) -> Answer {
        if self.initialization {
            return Ignored;
        }
        if self.asleep {
            return self.wake_by_bus();
        }
        match fault {
            Fault::Early => self.events_07 |= SYNEIF,
            Fault::Illegal => self.events_07 |= ILLPIF,
            Fault::Mismatch => self.events_06 |= SLMMIF,
            Fault::Lost => {
                self.events_07 |= SYNLIF;
                self.clear_remembered = false;
                self.lose_synchronization();
            }
        }
        Answer::Ok
    }

    fn frame(&mut self, good: bool, bytes: &[u8]) -> Outcome {
        let &[identifier, length, ref data @ ..] = bytes else {
            return Refused(11).into();
        };
        if data.len() != data_length(length) as usize {
            return Refused(11).into();
        }
        if self.initialization {
            return Ignored.into();
        }
        if self.asleep {
            return self.wake_by_bus().into();
        }
        if !self.synchronized {
            return Ignored.into();
        }
        if !good || identifier == 0 {
            self.events_07 |= ERRIF;
            return Answer::BadFrame.into();
        }
        self.last_identifier = self.last_identifier.max(identifier);
        // The lowest is the frame's buffer even if it is locked: no other match takes the frame then.
        let buffer = self.carrying(self.receive, identifier).trailing_zeros() as u8;
        let (answer, looked) = if buffer == NONE {
            let all = self.receive.count_ones() as u8;
            (self.queue(identifier, data), all)
        } else {
            // The layout is lawful here: all from FSIZ to this one are dedicated receive buffers.
            let up_to_it = buffer + 1 - self.fsiz;
            (self.deliver(buffer, identifier, data), up_to_it)
        };
        Outcome { answer, looked }
    }

    fn deliver(&mut self, buffer: u8, identifier: u8, data: &[u8]) -> Answer {
        if self.locked & bit(buffer) != 0 {
            return self.wait(buffer, identifier, data);
        }
        self.contents[buffer as usize] = image(identifier, data);
        self.iflg |= bit(buffer);
        Answer::Stored(buffer)
    }

    /// A frame whose buffer is locked takes a free place; both are there for all buffers.
    fn wait(&mut self, buffer: u8, identifier: u8, data: &[u8]) -> Answer {
        let newest = self.places[0].arrival.max(self.places[1].arrival);
        let Some(place) = self.places.iter_mut().find(|place| place.is_free()) else {
            return Answer::HeldOff(buffer);
        };
        *place = Place {
            buffer,
            arrival: newest + 1,
            contents: image(identifier, data),
        };
        Answer::Waiting(buffer)
    }

    fn queue(&mut self, identifier: u8, data: &[u8]) -> Answer {
        let accepted = self.acceptance.matches(identifier);
        // Mask $FF in $15 means no rejection, though such a pair matches every identifier (W2).
        let rejected = self.rejection.mask != 0xFF && self.rejection.matches(identifier);
        if self.fsiz == 0 || !accepted || rejected {
            return Answer::Unmatched;
        }
        if self.fifo_count == self.fsiz {
            self.events_07 |= OVRNIF;
            return Answer::Overrun;
        }
        let place = self.fifo_place(self.fifo_count);
        self.identifiers[place as usize] = identifier;
        self.contents[place as usize] = image(identifier, data);
        self.fifo_count += 1;
        Answer::Queued(place)
    }

    fn slot(&mut self, slot: u8, room: &mut [u8]) -> Answer {
        if room.len() < CONTENTS {
            return Refused(12);
        }
        if self.initialization || self.asleep || !self.synchronized {
            return Ignored;
        }
        let carrying = self.carrying(self.armed, slot);
        if slot <= self.last_identifier || carrying == 0 {
            return Answer::NotSent;
        }
        let buffer = carrying.ilog2() as u8;
        self.iflg |= bit(buffer);
        self.armed &= !bit(buffer);
        self.last_identifier = slot;
        let contents = &self.contents[buffer as usize];
        let sent = 2 + data_length(contents[1]);
        room[..sent as usize].copy_from_slice(&contents[..sent as usize]);
        Answer::Sent(sent)
    }
}
