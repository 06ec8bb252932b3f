//! Random recordings, the same for the same kind, seed and number of lines. The maker never runs the
//! controller; it only remembers what it has set up, so that an error there can't shape the recordings.

mod profiles;

use crate::controller::bits::*;
use crate::controller::{Fault, Pulse, Step};
use crate::text::put_step;
use std::io::{self, Write};

/// Xorshift with shifts 13, 7, 17.
pub struct Random(u64);

impl Random {
    pub fn new(seed: u64) -> Random {
        let mut random = Random(seed.wrapping_mul(0x9E37_79B9_7F4A_7C15) | 1);
        for _ in 0..16 {
            random.next();
        }
        random
    }

    pub fn next(&mut self) -> u64 {
        self.0 ^= self.0 << 13;
        self.0 ^= self.0 >> 7;
        self.0 ^= self.0 << 17;
        self.0
    }

    pub fn below(&mut self, n: usize) -> usize {
        ((self.next() >> 32) % n as u64) as usize
    }

    pub fn byte(&mut self) -> u8 {
        self.below(256) as u8
    }

    pub fn one_in(&mut self, n: usize) -> bool {
        self.below(n) == 0
    }

    pub fn of<T: Copy>(&mut self, choices: &[T]) -> T {
        choices[self.below(choices.len())]
    }
}

#[derive(Clone, Copy, PartialEq, Debug)]
pub enum Kind {
    Mixed,
    Wild,
    Damaged,
    Text,
    Data,
}

/// How many identifiers are in use; so few that frames, buffers and slots meet.
const IDENTIFIERS: usize = 0x28;

struct Maker {
    random: Random,
    out: Vec<u8>,
    left: usize,
    damaged: bool,
    // What was last set up.
    fsiz: u8,
    /// The number of CFG 0 buffers.
    cfg_0: u8,
    /// CFG and IENA of each buffer.
    control: [u8; 16],
    identifier: [u8; 16],
    /// Transmit buffers with a request, and those of them whose request stood at the last sync.
    requested: Vec<u8>,
    armed: Vec<u8>,
    /// Buffers locked and not released yet.
    held: Vec<u8>,
    /// A guess at the FIFO: its oldest place and number of entries.
    oldest: u8,
    queued: u8,
    /// The last slot of this cycle.
    slot: u8,
}

/// Writes a recording of so many lines.
pub fn make(kind: Kind, seed: u64, lines: usize, mut output: impl Write) -> io::Result<()> {
    let mut maker = Maker {
        random: Random::new(seed),
        out: Vec::new(),
        left: lines,
        damaged: kind == Kind::Damaged,
        fsiz: 0,
        cfg_0: 16,
        control: [0; 16],
        identifier: [0; 16],
        requested: Vec::new(),
        armed: Vec::new(),
        held: Vec::new(),
        oldest: 0,
        queued: 0,
        slot: 0,
    };
    while maker.left > 0 {
        match kind {
            Kind::Wild => maker.wild(),
            Kind::Mixed | Kind::Damaged => maker.episode(),
            Kind::Text => maker.log(),
            Kind::Data => maker.exchange(),
        }
        output.write_all(&maker.out)?;
        maker.out.clear();
    }
    output.flush()
}

impl Maker {
    /// Every line goes through here; past the wanted number nothing is written.
    fn put(&mut self, step: Step) {
        if self.left == 0 {
            return;
        }
        self.left -= 1;
        let start = self.out.len();
        put_step(&mut self.out, &step);
        if self.damaged {
            self.damage(start);
        }
    }

    fn write(&mut self, address: u8, value: u8) {
        self.put(Step::Write(address, value));
    }

    fn read(&mut self, address: u8) {
        self.put(Step::Read(address));
    }

    fn write_control(&mut self, buffer: u8, bits: u8) {
        self.write(0x50 + buffer, self.control[buffer as usize] | bits);
    }

    // Mixed

    /// A set-up and some hundred steps of traffic.
    fn episode(&mut self) {
        self.set_up();
        for _ in 0..100 + self.random.below(500) {
            self.traffic();
        }
    }

    fn set_up(&mut self) {
        if self.random.one_in(3) {
            self.put(Step::Reset);
        } else {
            self.write(0x00, INITRQ);
            while let Some(buffer) = self.held.pop() {
                self.write_control(buffer, 0);
            }
        }
        self.held.clear();
        self.requested.clear();
        self.armed.clear();
        self.lay_out();
        for buffer in self.fsiz..16 {
            self.name(buffer);
        }
        self.set_filters();
        self.write(0x10, BFEN);
        let enables = self.random.of(&[0xFA, 0xFA, 0xC0, 0x32]);
        self.write(0x08, enables);
        // LOCKIE in one of four.
        let enables = self.random.of(&[0xFD, 0xFD, 0xE8, 0xFF]);
        self.write(0x09, enables);
        let control = self
            .random
            .of(&[0, 0, MASTER, MASTER, MASTER | ALARM, WPULSE | SSWAI]);
        self.write(0x00, control);
        self.oldest = 0;
        self.queued = 0;
        self.sync();
    }

    fn lay_out(&mut self) {
        self.cfg_0 = match self.random.below(16) {
            0 => 16,
            1 => 0,
            _ => 4 + self.random.below(10) as u8,
        };
        self.fsiz = match self.random.below(5) {
            0 => 0,
            _ => (1 + self.random.below(6) as u8).min(self.cfg_0),
        };
        if self.random.one_in(20) {
            // An unlawful layout is tried first.
            self.write(0x5F, CFG);
            self.write(0x01, 16);
            self.write(0x00, 0);
        }
        self.write(0x01, self.fsiz);
        for buffer in 0..16 {
            let iena = if self.random.one_in(4) { 0 } else { IENA };
            let cfg = if buffer < self.cfg_0 { 0 } else { CFG };
            self.control[buffer as usize] = cfg | iena;
            self.write_control(buffer, 0);
        }
    }

    /// Gives a receive or transmit buffer its identifier and length, and now and then some data.
    fn name(&mut self, buffer: u8) {
        let window = self.window(buffer);
        // Transmit identifiers lie higher, as a frame shuts out all slots up to its own.
        let least = if buffer < self.cfg_0 {
            1
        } else {
            IDENTIFIERS / 2
        };
        let identifier = match self.random.below(30) {
            0 => 0,
            _ => (least + self.random.below(IDENTIFIERS)) as u8,
        };
        let length = self.random.below(16) as u8;
        self.identifier[buffer as usize] = identifier;
        self.write_control(buffer, LOCK);
        self.write(window, identifier);
        self.write(window + 1, length);
        for place in 2..2 + self.random.below(4) as u8 {
            let value = self.random.byte();
            self.write(window + place, value);
        }
        self.write_control(buffer, 0);
    }

    fn window(&self, buffer: u8) -> u8 {
        if buffer >= self.cfg_0 {
            0x20
        } else if buffer >= self.fsiz {
            0x30
        } else {
            0x40
        }
    }

    fn set_filters(&mut self) {
        // In one of twelve they stay as they were; those of reset accept all and reject none.
        if self.random.one_in(12) {
            return;
        }
        let pattern = self.random.below(IDENTIFIERS) as u8;
        let mask = self.random.of(&[0xFF, 0xFF, 0x0F, 0x1F]);
        self.write(0x0C, pattern);
        self.write(0x0D, mask);
        let pattern = self.random.below(IDENTIFIERS) as u8;
        let mask = self.random.of(&[0x00, 0x00, 0x03, 0x18, 0xFF]);
        self.write(0x14, pattern);
        self.write(0x15, mask);
    }

    fn traffic(&mut self) {
        match self.random.below(203) {
            0..=19 => self.sync(),
            20..=69 => self.frame(),
            70..=99 => self.slot(),
            100..=123 => self.request(),
            124..=141 => self.serve(),
            142..=157 => self.serve_fifo(),
            158..=163 => self.update_transmit(),
            164..=169 => self.look_at_receive(),
            170..=173 => self.hold(),
            174..=179 => self.let_go(),
            180..=185 => self.clear_flags(),
            186..=190 => {
                let address = self.random.below(0x60) as u8;
                self.read(address);
            }
            191 | 192 => {
                let fault = self
                    .random
                    .of(&[Fault::Early, Fault::Illegal, Fault::Mismatch]);
                self.put(Step::Fault(fault));
            }
            193 => self.lose(),
            194 => {
                let alarm = self.random.of(&[ALARM, ALARM | SSWAI, 0]);
                self.write(0x00, alarm);
            }
            195 => self.put(Step::Timeout),
            196 => self.sleep(),
            197 => {
                let (address, value) = (self.random.byte() & 0x7F, self.random.byte());
                self.write(address, value);
            }
            198 => {
                let buffer = self.random.below(16) as u8;
                self.write_control(buffer, ABTRQ);
            }
            199 => self.interrupted(),
            _ => self.wait(),
        }
    }

    fn sync(&mut self) {
        self.slot = 0;
        self.armed.append(&mut self.requested);
        self.armed
            .sort_by_key(|&buffer| std::cmp::Reverse(self.identifier[buffer as usize]));
        match self.random.below(8) {
            0..=2 => self.put(Step::SyncDue),
            3 => self.put(Step::Sync(Pulse::Alarm)),
            _ => self.put(Step::Sync(Pulse::Normal)),
        }
    }

    fn frame(&mut self) {
        let identifier = match self.random.below(48) {
            0 => self.random.byte(),
            1 => 0,
            2..=16 => 1 + self.random.below(IDENTIFIERS) as u8,
            _ => self.some_identifier(self.fsiz, self.cfg_0),
        };
        if self.queued < self.fsiz && !self.identifier[self.fsiz as usize..].contains(&identifier) {
            self.queued += 1;
        }
        let good = !self.random.one_in(30);
        self.put_frame(good, identifier);
    }

    fn put_frame(&mut self, good: bool, identifier: u8) {
        let length = match self.random.below(8) {
            0 => self.random.byte(),
            _ => self.random.below(13) as u8,
        };
        let mut bytes = [0; 30];
        bytes.fill_with(|| self.random.byte());
        bytes[0] = identifier;
        bytes[1] = length;
        let count = match self.random.below(60) {
            0 => self.random.below(31),
            _ => 2 + usize::from(length & 0x0F).min(12),
        };
        self.put(Step::Frame(good, &bytes[..count]));
    }

    /// The identifier of one of the buffers `from` to `to`, or any if there are none.
    fn some_identifier(&mut self, from: u8, to: u8) -> u8 {
        if from >= to {
            return 1 + self.random.below(IDENTIFIERS) as u8;
        }
        self.identifier[from as usize + self.random.below((to - from) as usize)]
    }

    /// The next slot of an armed buffer, or any; past the cycle's last one a sync comes first.
    fn slot(&mut self) {
        let slot = match self.armed.pop() {
            Some(buffer) if !self.random.one_in(12) => self.identifier[buffer as usize],
            _ => (1 + self.random.below(2 * IDENTIFIERS)) as u8,
        };
        if slot <= self.slot && !self.random.one_in(3) {
            self.sync();
        }
        self.slot = slot;
        self.put(Step::Slot(slot));
    }

    /// "Send this" on a transmit buffer, now and then taken back.
    fn request(&mut self) {
        let buffer = self.some_buffer(self.cfg_0, 16);
        self.write_control(buffer, IFLG);
        self.requested.push(buffer);
        if self.random.one_in(12) {
            self.write_control(buffer, ABTRQ);
        }
    }

    /// A vector is read, and a buffer marked as read.
    fn serve(&mut self) {
        let vector = self.random.of(&[0x0A, 0x0A, 0x0B, 0x06, 0x07]);
        self.read(vector);
        if vector == 0x0A {
            let buffer = self.some_buffer(self.fsiz, self.cfg_0);
            self.write_control(buffer, IFLG);
        }
    }

    /// Locks the oldest entry, reads it, and releases it.
    fn serve_fifo(&mut self) {
        if self.fsiz == 0 || self.queued == 0 && !self.random.one_in(4) {
            return self.read(0x06);
        }
        if self.random.one_in(10) {
            self.oldest = self.random.below(self.fsiz as usize) as u8;
        }
        self.write_control(self.oldest, LOCK);
        if self.random.one_in(4) {
            self.read(0x50 + self.oldest);
            self.read(0x12);
        }
        for place in 0..1 + self.random.below(5) as u8 {
            self.read(0x40 + place);
        }
        self.write_control(self.oldest, 0);
        self.oldest = (self.oldest + 1) % self.fsiz;
        self.queued = self.queued.saturating_sub(1);
    }

    fn update_transmit(&mut self) {
        let buffer = self.some_buffer(self.cfg_0, 16);
        self.write_control(buffer, LOCK);
        for _ in 0..1 + self.random.below(4) {
            let (place, value) = (2 + self.random.below(12) as u8, self.random.byte());
            self.write(0x20 + place, value);
        }
        if self.random.one_in(3) {
            self.read(0x22);
        }
        let send = self.random.of(&[0, IFLG, IFLG]);
        self.write_control(buffer, send);
    }

    fn look_at_receive(&mut self) {
        let buffer = self.some_buffer(self.fsiz, self.cfg_0);
        self.write_control(buffer, LOCK);
        for place in 0..1 + self.random.below(6) as u8 {
            self.read(0x30 + place);
        }
        if self.random.one_in(3) {
            // Arrives while the buffer is locked.
            self.put_frame(true, self.identifier[buffer as usize]);
        }
        self.write_control(buffer, IFLG);
    }

    fn some_buffer(&mut self, from: u8, to: u8) -> u8 {
        if from >= to {
            return self.random.below(16) as u8;
        }
        from + self.random.below((to - from) as usize) as u8
    }

    /// A lock that stays for a while; two of a kind make a contender.
    fn hold(&mut self) {
        let buffer = self.some_buffer(self.fsiz, 16);
        self.write_control(buffer, LOCK);
        self.read(0x50 + buffer);
        self.held.push(buffer);
    }

    fn let_go(&mut self) {
        match self.held.pop() {
            Some(buffer) => self.write_control(buffer, 0),
            None => self.read(0x12),
        }
    }

    /// Frames wait for two locked receive buffers, one of which is mostly released first. Sleep is requested meanwhile:
    /// a release may grant it, and most of what the bus shows cancels it.
    fn wait(&mut self) {
        let one = self.some_buffer(self.fsiz, self.cfg_0);
        let other = self.some_buffer(self.fsiz, self.cfg_0);
        self.request();
        self.sync();
        self.write_control(one, LOCK);
        self.write_control(other, LOCK);
        if !self.random.one_in(4) {
            self.put_frame(true, self.identifier[one as usize]);
            self.put_frame(true, self.identifier[other as usize]);
            if self.random.one_in(3) {
                self.request_sleep();
            }
            self.write_control(one, 0);
        }
        for _ in 0..2 + self.random.below(16) {
            let buffer = self.random.of(&[one, other]);
            match self.random.below(24) {
                0..=6 => self.put_frame(true, self.identifier[buffer as usize]),
                7..=9 => self.write_control(buffer, LOCK),
                10..=12 => {
                    let read = self.random.of(&[0, IFLG]);
                    self.write_control(buffer, read);
                }
                13..=16 => self.request_sleep(),
                17 | 18 => self.slot(),
                19 => {
                    let step = self.random.of(&[Step::SyncDue, Step::Timeout]);
                    self.put(step);
                }
                20 => self.read(0x00),
                21 => self.write(0x10, BFEN),
                _ => self.stir(),
            }
        }
        for buffer in [one, other] {
            self.write_control(buffer, IFLG);
        }
        // Awake and out of initialization again, where it may be by now.
        let master = self.random.of(&[0, MASTER]);
        self.write(0x00, master);
        self.write(0x10, BFEN);
        self.sync();
    }

    /// Now and then BFEN goes to 0 behind it, which leaves the request.
    fn request_sleep(&mut self) {
        self.write(0x00, SLPRQ);
        if self.random.one_in(3) {
            self.write(0x10, 0);
            self.write(0x00, SLPRQ);
        }
    }

    /// Something after which a request for sleep doesn't stand, unless it is ignored.
    fn stir(&mut self) {
        match self.random.below(8) {
            0 => self.write(0x00, 0),
            1 | 2 => self.sync(),
            3 => self.put(Step::Fault(Fault::Illegal)),
            4 => self.put(Step::Fault(Fault::Lost)),
            5 => self.put(Step::Frame(false, &[1, 0])),
            6 => self.frame(),
            _ => self.write(0x00, INITRQ | SLPRQ),
        }
    }

    fn clear_flags(&mut self) {
        let address = self.random.of(&[0x06, 0x07]);
        let value = self.random.of(&[0xFF, 0xFF, 0x08, 0x30]);
        self.write(address, value);
    }

    /// Synchronization lost; the clear of SYNLIF waits for the next sync, unless something comes between.
    fn lose(&mut self) {
        self.put(Step::Fault(Fault::Lost));
        if !self.random.one_in(3) {
            self.write(0x07, SYNLIF);
        }
        match self.random.below(8) {
            0..=2 => self.sleep(),
            3 => self.put(Step::Fault(Fault::Lost)),
            4 => self.interrupted(),
            _ => {}
        }
        self.read(0x07);
        self.sync();
        self.read(0x07);
    }

    /// Asleep for a few steps, then woken from the bus, by SLPRQ 0 or by INITRQ.
    fn sleep(&mut self) {
        self.write(0x00, SLPRQ);
        for _ in 0..self.random.below(5) {
            match self.random.below(6) {
                0 => self.read(0x00),
                1 => self.read(0x06),
                2 => self.put(Step::SyncDue),
                3 => self.put(Step::Timeout),
                4 => self.put(Step::Slot(1)),
                _ => {
                    let (address, value) = (1 + self.random.byte() % 0x5F, self.random.byte());
                    self.write(address, value);
                }
            }
        }
        match self.random.below(6) {
            0 => self.write(0x00, 0),
            1 => self.frame(),
            2 => self.put(Step::Fault(Fault::Early)),
            3 => self.put(Step::Fault(Fault::Lost)),
            4 => self.interrupted(),
            _ => self.put(Step::Sync(Pulse::Normal)),
        }
        self.read(0x07);
        self.sync();
    }

    /// In and out of initialization under the same layout.
    fn interrupted(&mut self) {
        self.write(0x00, INITRQ);
        self.read(0x00);
        if self.random.one_in(2) {
            self.frame();
        }
        self.oldest = 0;
        self.queued = 0;
        self.write(0x08, 0xFA);
        self.write(0x00, MASTER);
        self.sync();
    }

    // Wild

    /// One step of any kind with any arguments. Now and then comes a lawful layout, as otherwise the
    /// module would stay in initialization for ever.
    fn wild(&mut self) {
        match self.random.below(800) {
            0 => return self.put(Step::Reset),
            1..=6 => return self.wild_layout(),
            _ => {}
        }
        match self.random.below(10) {
            0 => {
                let address = self.wild_address();
                self.read(address);
            }
            1 | 2 => {
                let (address, value) = (self.wild_address(), self.random.byte());
                self.write(address, value);
            }
            3 => {
                let pulse = self.random.of(&[Pulse::Normal, Pulse::Alarm]);
                self.put(Step::Sync(pulse));
            }
            4 => self.put(Step::SyncDue),
            5 => {
                let slot = self.wild_identifier();
                self.put(Step::Slot(slot));
            }
            6 | 7 => {
                let (good, identifier) = (!self.random.one_in(4), self.wild_identifier());
                self.put_frame(good, identifier);
            }
            8 => {
                let fault =
                    self.random
                        .of(&[Fault::Early, Fault::Lost, Fault::Illegal, Fault::Mismatch]);
                self.put(Step::Fault(fault));
            }
            _ => self.put(Step::Timeout),
        }
    }

    fn wild_address(&mut self) -> u8 {
        match self.random.below(16) {
            0 => self.random.byte(),
            _ => self.random.below(0x60) as u8,
        }
    }

    fn wild_identifier(&mut self) -> u8 {
        match self.random.below(8) {
            0 => self.random.byte(),
            _ => self.random.below(6) as u8,
        }
    }

    fn wild_layout(&mut self) {
        let cfg_0 = self.random.below(17) as u8;
        self.put(Step::Reset);
        for buffer in 0..16 {
            let (cfg, window) = if buffer < cfg_0 {
                (0, 0x30)
            } else {
                (CFG, 0x20)
            };
            let identifier = self.wild_identifier();
            self.write(0x50 + buffer, cfg | IENA | LOCK);
            self.write(window, identifier);
            self.write(0x50 + buffer, cfg | IENA);
        }
        let fsiz = self.random.below(cfg_0 as usize + 1) as u8;
        let mask = self.random.of(&[0x00, 0x03, 0xFF]);
        self.write(0x01, fsiz);
        self.write(0x15, mask);
        self.write(0x10, BFEN);
        self.write(0x00, MASTER);
    }

    // Damaged

    /// Harms one line in six, the one from `start` on, and leaves the last line unended.
    fn damage(&mut self, start: usize) {
        let mut line = self.out.split_off(start);
        line.pop();
        if self.random.one_in(6) {
            self.harm(&mut line);
        }
        let last = self.left == 0;
        if last && line.is_empty() {
            line.push(b'Q');
        }
        self.out.append(&mut line);
        if !last {
            self.out.push(b'\n');
        }
    }

    fn harm(&mut self, line: &mut Vec<u8>) {
        let place = self.random.below(line.len());
        match self.random.below(12) {
            0 => line.make_ascii_lowercase(),
            1 => match line.iter().position(|&byte| byte == b'\t') {
                Some(tab) => line.insert(tab, b'\t'),
                None => line.push(b'\t'),
            },
            2 => line.push(b'\r'),
            3 => {
                line.pop();
            }
            4 => line.push(b'0'),
            5 => {
                // Hex digits about the limit of 64 bytes, now and then far over it.
                let length = if self.random.one_in(50) {
                    70_000
                } else {
                    60 + self.random.below(12)
                };
                *line = b"F\tG\t2102".to_vec();
                line.resize(length, b'0');
            }
            6 => {
                let length = 1 + self.random.below(80);
                line.clear();
                line.resize_with(length, || self.not_lf());
            }
            7 => line.clear(),
            8 => line.insert(0, b' '),
            9 => line[place] = self.not_lf(),
            10 => line.truncate(place),
            _ => line
                .iter_mut()
                .filter(|byte| **byte == b'\t')
                .for_each(|byte| *byte = b' '),
        }
    }

    fn not_lf(&mut self) -> u8 {
        match self.random.byte() {
            b'\n' => 0,
            byte => byte,
        }
    }
}
