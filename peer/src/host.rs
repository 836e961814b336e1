//! A host for `peer generate`. It plays the session while it makes it up, so it can react: mostly as a
//! driver would, and at a rate of its own with calls that make no sense.

use crate::cable::{Parity, Phase};
use crate::chip::{command, interrupt, register, Chip, State, PARITY_ENABLE, RESELECT_ENABLE};
use crate::random::Random;
use crate::session::Setup;
use crate::station::{Station, Wish};
use crate::string::{kind, Answer, Call, ScsiString};

/// What makes one host differ from another. All but the last are so many of a thousand.
struct Manner {
    noise: u32,
    /// How readily it does what leaves the station at a Req for good.
    cruelty: u32,
    /// How readily it reads a received byte before the cable moves on.
    eagerness: u32,
    dma: u32,
    single_byte: u32,
    pad: u32,
    /// Steps without any change before it gives up a connection.
    patience: u32,
}

impl Manner {
    fn random(random: &mut Random) -> Manner {
        Manner {
            noise: random.pick(&[0, 0, 10, 30, 100, 250, 600]),
            cruelty: random.pick(&[0, 0, 10, 50, 300, 1000]),
            eagerness: random.pick(&[100, 500, 900, 1000]),
            dma: random.pick(&[0, 300, 500, 1000]),
            single_byte: random.pick(&[0, 100, 300]),
            pad: random.pick(&[0, 100, 300]),
            patience: random.between(3, 12),
        }
    }
}

#[derive(Clone, Copy)]
enum Episode {
    Connect,
    Listen,
    TimeOut,
    PauseSelection,
    LookAround,
    Disable,
    Noise,
}

pub struct Host<'a> {
    random: &'a mut Random,
    string: ScsiString,
    calls: Vec<Call>,
    limit: usize,
    manner: Manner,
    /// The command that goes out in this connection, and how much of it went.
    command: [u8; 6],
    command_sent: usize,
}

/// About `limit` calls to the string of `setup`.
pub fn calls(random: &mut Random, setup: &Setup, limit: usize) -> Vec<Call> {
    let manner = Manner::random(random);
    let string = setup.build();
    let calls = Vec::with_capacity(limit);
    let mut host = Host {
        random,
        string,
        calls,
        limit,
        manner,
        command: [0; 6],
        command_sent: 0,
    };
    host.play();
    host.calls
}

/// The whole of a session.
impl Host<'_> {
    fn play(&mut self) {
        while !self.full() {
            // Nothing moves a station again that was left at a Req, so the session may end.
            if self.stuck() {
                self.farewell();
                return;
            }
            self.episode();
        }
    }

    fn full(&self) -> bool {
        self.calls.len() >= self.limit
    }

    fn stuck(&self) -> bool {
        let off_cable = matches!(
            self.chip().state(),
            State::Idle | State::Arbitrating | State::Disabled
        );
        let for_good = match self.string.station.wish() {
            Wish::Req(_) => true,
            Wish::Back(id_byte, parity) => {
                parity == Parity::Bad || id_byte.decode(self.chip().id()).is_none()
            }
            Wish::Off | Wish::Hold(_) | Wish::Go => false,
        };
        off_cable && for_good
    }

    fn farewell(&mut self) {
        for _ in 0..self.random.between(5, 40) {
            match self.random.below(4) {
                0 => self.turn(),
                1 => self.select(),
                2 => self.set_control(),
                _ => self.noise(),
            }
        }
    }

    fn episode(&mut self) {
        let fitting = match self.string.station.wish() {
            Wish::Off => Episode::Connect,
            _ => Episode::Listen,
        };
        let episode = self.random.weigh(&[
            (70, fitting),
            (5, Episode::Connect),
            (5, Episode::Listen),
            (5, Episode::TimeOut),
            (4, Episode::PauseSelection),
            (4, Episode::LookAround),
            (1, Episode::Disable),
            (4, Episode::Noise),
        ]);
        match episode {
            Episode::Connect => self.connect(),
            Episode::Listen => self.listen(),
            Episode::TimeOut => self.time_out(),
            Episode::PauseSelection => self.pause_selection(),
            Episode::LookAround => self.look_around(),
            Episode::Disable => self.disable_for_a_while(),
            Episode::Noise => {
                for _ in 0..self.random.between(1, 12) {
                    self.noise();
                }
            }
        }
        self.attend();
    }

    fn connect(&mut self) {
        self.set_control();
        self.set_destination(950);
        if self.random.chance(500) {
            let clocks = self.random.pick(&[0, 3, 40, 200, 70000]);
            self.set_counter(clocks);
        }
        self.select();
    }

    fn listen(&mut self) {
        let control = self.random.pick(&[0, 1, 4, 5]) | RESELECT_ENABLE;
        self.write(register::CONTROL, control);
        for _ in 0..self.random.between(1, 4) {
            self.turn();
        }
    }

    fn time_out(&mut self) {
        self.set_destination(200);
        let clocks = self.random.between(0, 6);
        self.set_counter(clocks);
        self.select();
        for _ in 0..self.random.between(2, 10) {
            match self.random.below(3) {
                0 => self.turn(),
                _ => self.tick(),
            }
        }
    }

    fn pause_selection(&mut self) {
        self.set_destination(500);
        self.select();
        for _ in 0..self.random.below(3) {
            self.turn();
        }
        self.order(command::PAUSE);
        self.read(register::AUXILIARY);
    }

    fn look_around(&mut self) {
        for _ in 0..self.random.between(1, 8) {
            let address = self.some_register();
            self.read(address);
        }
        let counter = self.random.below(1 << 24);
        self.set_counter(counter);
    }

    fn disable_for_a_while(&mut self) {
        if self.may_cut_off() {
            self.order(command::CHIP_DISABLE);
        }
        for _ in 0..self.random.between(1, 6) {
            self.noise();
        }
    }
}

/// What a driver does, step by step.
impl Host<'_> {
    /// Stays with the chip until it is idle, or nothing moves any more.
    fn attend(&mut self) {
        let mut dull_steps = 0;
        while !self.full() && !self.at_rest() {
            let chip_before = self.chip().clone();
            self.step();
            dull_steps = if *self.chip() == chip_before {
                dull_steps + 1
            } else {
                0
            };
            if dull_steps > self.manner.patience {
                self.give_up();
                return;
            }
        }
    }

    fn at_rest(&self) -> bool {
        self.chip().state() == State::Idle && !self.chip().int()
    }

    fn step(&mut self) {
        if self.chip().int() {
            self.serve_interrupt();
            return;
        }
        match self.chip().state() {
            State::Idle => {}
            State::Arbitrating => self.turn(),
            State::Selecting => match self.random.below(4) {
                0 => self.tick(),
                _ => self.turn(),
            },
            State::Waiting if self.chip().ack() => self.answer_message(),
            State::Waiting => self.turn(),
            State::Asked => self.answer_phase(),
            State::Transferring => self.go_on_with_transfer(),
            State::Disabled => self.enable_again(),
        }
    }

    fn cut_off(&mut self) {
        if !self.may_cut_off() {
            return;
        }
        match self.random.below(8) {
            0 | 1 => self.make(kind::RESET, 0, 0),
            2 | 3 => self.order(command::CHIP_RESET),
            4 => self.order(command::CHIP_DISABLE),
            _ => self.order(command::DISCONNECT),
        }
    }

    fn give_up(&mut self) {
        self.cut_off();
        // A selection that nobody answers knows no Disconnect.
        if matches!(self.chip().state(), State::Arbitrating | State::Selecting) {
            self.order(command::PAUSE);
        }
    }

    fn serve_interrupt(&mut self) {
        if self.random.chance(60) {
            self.disturb_interrupt();
        }
        if self.random.chance(900) {
            self.read(register::AUXILIARY);
        }
        let raised = self.read(register::INTERRUPT).value;
        if raised == interrupt::RESELECTED || self.random.chance(20) {
            self.read(register::SOURCE);
        }
        if self.random.chance(20) {
            self.read(register::AUXILIARY);
        }
    }

    /// What a host should not do with INT on.
    fn disturb_interrupt(&mut self) {
        match self.random.below(6) {
            0 => self.turn(),
            1 => self.order(command::TRANSFER_INFO),
            2 => self.order(command::SELECT),
            3 => self.order(command::MESSAGE_ACCEPTED),
            4 => self.order(command::SET_ATN),
            _ => self.order(command::PAUSE),
        }
    }

    fn answer_message(&mut self) {
        match self.random.below(20) {
            0 => self.turn(),
            1 => self.order(command::TRANSFER_INFO),
            2 | 3 => {
                self.order(command::SET_ATN);
                self.order(command::MESSAGE_ACCEPTED);
            }
            4 if self.random.chance(200) => self.cut_off(),
            _ => self.order(command::MESSAGE_ACCEPTED),
        }
    }

    fn answer_phase(&mut self) {
        match self.random.below(40) {
            3..=6 => {
                // The station may go on by itself behind a Hold.
                for _ in 0..self.random.between(1, 3) {
                    self.turn();
                }
            }
            0 => self.order(command::SET_ATN),
            1 => self.order(command::SELECT_WITH_ATN),
            2 => self.cut_off(),
            _ => self.start_transfer(),
        }
    }

    fn start_transfer(&mut self) {
        let (dma, single, pad) = (self.manner.dma, self.manner.single_byte, self.manner.pad);
        let single = self.random.chance(single);
        if self.random.chance(if single { 300 } else { 950 }) {
            let count = self.transfer_count();
            self.set_counter(count);
        }
        let mut value = if self.random.chance(pad) {
            command::TRANSFER_PAD
        } else {
            command::TRANSFER_INFO
        };
        if self.random.chance(dma) {
            value |= command::DMA;
        }
        if single {
            value |= command::SINGLE_BYTE;
        }
        if self.random.chance(50) {
            value |= 0x20;
        }
        self.write(register::COMMAND, value);
    }

    /// A count that ends with the station's run of bytes, before it or behind it.
    fn transfer_count(&mut self) -> u32 {
        let run = self.run_of_phase();
        match self.random.below(20) {
            0 => 0,
            1 => self.random.pick(&[255, 256, 65535, 65536, 0xFF_FFFF]),
            2 => self.random.between(1, 20),
            3..=5 => run + self.random.between(1, 3),
            6..=8 => self.random.between(1, run.max(1)),
            _ => run,
        }
    }

    /// How many bytes the station would move in its present phase, were it told them all.
    fn run_of_phase(&self) -> u32 {
        let mut station = self.string.station.clone();
        let phase = self.chip().phase();
        let mut run = 0;
        while run < 2000 && matches!(station.wish(), Wish::Req(req) if req.phase == phase) {
            station.told(0);
            run += 1;
        }
        run
    }

    fn go_on_with_transfer(&mut self) {
        match self.random.below(200) {
            0 => self.order(command::SET_ATN),
            1 => self.order(command::MESSAGE_ACCEPTED),
            2 => {
                self.read(register::COMMAND);
            }
            3 => {
                self.read(register::AUXILIARY);
            }
            4 => {
                self.read(register::COUNTER_LOW);
            }
            5 => self.move_out_of_turn(),
            6 => self.cut_off(),
            7 => self.set_control(),
            _ => self.move_byte(),
        }
    }

    fn move_byte(&mut self) {
        let received = self.chip().received();
        let reads = match received {
            0 => false,
            1 => self.random.chance(self.manner.eagerness),
            _ => self.random.chance(self.manner.eagerness.max(700)),
        };
        if reads {
            self.take_byte(self.chip().dma_transfer());
        } else if self.chip().wants_byte() && self.random.chance(900) {
            self.give_byte(self.chip().dma_transfer());
        } else {
            self.turn();
        }
    }

    /// A byte by DMA that should go by a register, or the other way round, or one that is not due.
    fn move_out_of_turn(&mut self) {
        let dma = self.chip().dma_transfer() != self.random.chance(500);
        if self.chip().phase().is_input() {
            self.take_byte(dma);
        } else {
            self.give_byte(dma);
        }
    }

    fn take_byte(&mut self, dma: bool) {
        if dma {
            self.make(kind::DMA_READ, 0, 0);
        } else {
            self.read(register::DATA);
        }
    }

    fn give_byte(&mut self, dma: bool) {
        let byte = self.outgoing_byte();
        if dma {
            self.make(kind::DMA_WRITE, 0, byte);
        } else {
            self.write(register::DATA, byte);
        }
    }

    fn outgoing_byte(&mut self) -> u8 {
        match self.chip().phase() {
            Phase::Command => {
                let byte = self.command[self.command_sent % 6];
                self.command_sent += 1;
                byte
            }
            Phase::MessageOut => self.random.pick(&[0x80, 0xC0, 0x05, 0x06, 0x08]),
            _ => self.random.byte(),
        }
    }

    fn enable_again(&mut self) {
        match self.random.below(6) {
            0 => self.turn(),
            1 => self.tick(),
            2 => self.noise(),
            3 => self.make(kind::RESET, 0, 0),
            _ => {
                let upper_bits = self.random.byte() & !command::CODE_BITS;
                self.write(register::COMMAND, command::CHIP_RESET | upper_bits);
            }
        }
    }
}

/// Setting registers up.
impl Host<'_> {
    fn set_control(&mut self) {
        let reselect = if self.random.chance(750) {
            RESELECT_ENABLE
        } else {
            0
        };
        let parity = if self.random.chance(600) { PARITY_ENABLE } else { 0 };
        let rest = if self.random.chance(200) {
            self.random.byte() & !6
        } else {
            0
        };
        self.write(register::CONTROL, reselect | parity | rest);
    }

    /// The station's own address in so many of a thousand cases, and else any.
    fn set_destination(&mut self, right: u32) {
        let number = if self.random.chance(right) {
            self.string.station.address().number()
        } else {
            self.random.byte()
        };
        self.write(register::DESTINATION, number);
    }

    fn set_counter(&mut self, counter: u32) {
        let [_, high, middle, low] = counter.to_be_bytes();
        self.write(register::COUNTER_HIGH, high);
        self.write(register::COUNTER_MIDDLE, middle);
        self.write(register::COUNTER_LOW, low);
    }

    fn select(&mut self) {
        self.command = self.some_command();
        self.command_sent = 0;
        let code = self.random.pick(&[command::SELECT_WITH_ATN, command::SELECT]);
        let upper_bits = if self.random.chance(50) {
            self.random.byte() & !command::CODE_BITS
        } else {
            0
        };
        self.write(register::COMMAND, code | upper_bits);
    }

    fn some_command(&mut self) -> [u8; 6] {
        let blocks = drive_blocks(&self.string.station);
        match self.random.below(10) {
            0 | 1 => [0x00, self.random.byte(), 0, 0, 0, 0],
            2 => [self.random.byte(), 0, 0, self.random.byte(), 1, 0],
            3 | 4 => {
                let first = self.random_block();
                self.read_command(first, 1)
            }
            5 => {
                // The last 256 blocks, which a count byte of zero asks for, or one block beyond.
                let first = blocks.saturating_sub(256) + self.random.below(2);
                self.read_command(first, 0)
            }
            _ if blocks == 0 => self.read_command(0, 1),
            6 => self.read_command(blocks - 1, 2),
            7 => self.read_command(0, (blocks % 256) as u8),
            _ => {
                let first = self.random.below(blocks);
                let count = self.random.between(1, 3.min(blocks - first)) as u8;
                self.read_command(first, count)
            }
        }
    }

    fn random_block(&mut self) -> u32 {
        let bits = self.random.between(1, 21);
        self.random.below(1 << bits)
    }

    /// The three bits above the block's number are not the drive's business.
    fn read_command(&mut self, first: u32, count: u8) -> [u8; 6] {
        let [_, high, middle, low] = first.to_be_bytes();
        let unit = self.random.below(8) as u8;
        [
            0x08,
            high & 0x1F | unit << 5,
            middle,
            low,
            count,
            self.random.byte(),
        ]
    }
}

fn drive_blocks(station: &Station) -> u32 {
    match station {
        Station::Script(_) => 0,
        Station::Drive(drive) => drive.blocks() as u32,
        Station::Breaker(breaker) => drive_blocks(breaker.below()),
    }
}

/// Noise.
impl Host<'_> {
    /// One call that nobody asked for.
    fn noise(&mut self) {
        let call = self.some_call();
        if !self.cuts_off(call) || self.may_cut_off() {
            self.push(call);
        }
    }

    fn some_call(&mut self) -> Call {
        let kind = self.random.weigh(&[
            (20, kind::READ),
            (15, kind::WRITE),
            (25, 100),
            (6, kind::DMA_READ),
            (6, kind::DMA_WRITE),
            (6, kind::TICK),
            (15, kind::TURN),
            (1, kind::RESET),
            (2, 7),
        ]);
        match kind {
            kind::READ | kind::WRITE => Call {
                kind,
                address: self.some_register(),
                value: self.random.byte(),
            },
            // A command, of any code and with any bits.
            100 => Call {
                kind: kind::WRITE,
                address: register::COMMAND,
                value: self.random.byte(),
            },
            7 => Call {
                kind: self.random.between(7, 255) as u8,
                address: 1,
                value: self.random.byte(),
            },
            _ => Call {
                kind,
                address: self.random.byte(),
                value: self.random.byte(),
            },
        }
    }

    fn some_register(&mut self) -> u8 {
        if self.random.chance(50) {
            self.random.byte()
        } else {
            self.random.below(16) as u8
        }
    }

    /// Whether a call ends the connection.
    fn cuts_off(&self, call: Call) -> bool {
        let code = call.value & command::CODE_BITS;
        let cutting = [command::CHIP_RESET, command::DISCONNECT, command::CHIP_DISABLE].contains(&code);
        match call.kind {
            kind::RESET => true,
            kind::WRITE => call.address == register::COMMAND && cutting,
            _ => false,
        }
    }

    /// Cutting a station off at a Req leaves nothing more to do in the session, so it is done
    /// more rarely than elsewhere.
    fn may_cut_off(&mut self) -> bool {
        let at_req = matches!(self.string.station.wish(), Wish::Req(_));
        !at_req || self.chip().ack() || self.random.chance(self.manner.cruelty)
    }
}

/// Calls.
impl Host<'_> {
    fn chip(&self) -> &Chip {
        &self.string.chip
    }

    /// A call that the host means to make, behind as much noise as there is.
    fn deliberate(&mut self, call: Call) -> Answer {
        while !self.full() && self.random.chance(self.manner.noise) {
            self.noise();
        }
        self.push(call)
    }

    fn push(&mut self, call: Call) -> Answer {
        self.calls.push(call);
        self.string.call(call)
    }

    fn make(&mut self, kind: u8, address: u8, value: u8) {
        self.deliberate(Call { kind, address, value });
    }

    fn read(&mut self, address: u8) -> Answer {
        self.deliberate(Call {
            kind: kind::READ,
            address,
            value: 0,
        })
    }

    fn write(&mut self, address: u8, value: u8) {
        self.make(kind::WRITE, address, value);
    }

    fn order(&mut self, code: u8) {
        self.write(register::COMMAND, code);
    }

    fn turn(&mut self) {
        self.make(kind::TURN, 0, 0);
    }

    fn tick(&mut self) {
        self.make(kind::TICK, 0, 0);
    }
}
