//! The NCR 5385E off the cable and as an initiator.
//!
//! A call first asks whether it is refused, and then acts. A turn is split once more: `decide` says,
//! without changing anything, which rule fits, and `perform` does it. So whoever wants to know what
//! a turn will come to (the coverage table does) can ask.

use crate::cable::{Address, IdByte, Parity, Phase};
use crate::station::{Request, Wish};

/// Register addresses.
pub mod register {
    pub const DATA: u8 = 0;
    pub const COMMAND: u8 = 1;
    pub const CONTROL: u8 = 2;
    pub const DESTINATION: u8 = 3;
    pub const AUXILIARY: u8 = 4;
    pub const ID: u8 = 5;
    pub const INTERRUPT: u8 = 6;
    pub const SOURCE: u8 = 7;
    pub const DIAGNOSTIC: u8 = 9;
    pub const COUNTER_HIGH: u8 = 12;
    pub const COUNTER_MIDDLE: u8 = 13;
    pub const COUNTER_LOW: u8 = 14;
}

/// Command codes, and the bits that stand above them.
pub mod command {
    pub const CHIP_RESET: u8 = 0x00;
    pub const DISCONNECT: u8 = 0x01;
    pub const PAUSE: u8 = 0x02;
    pub const SET_ATN: u8 = 0x03;
    pub const MESSAGE_ACCEPTED: u8 = 0x04;
    pub const CHIP_DISABLE: u8 = 0x05;
    pub const SELECT_WITH_ATN: u8 = 0x08;
    pub const SELECT: u8 = 0x09;
    pub const TRANSFER_INFO: u8 = 0x14;
    pub const TRANSFER_PAD: u8 = 0x15;

    /// From this code on a command is stored and may be refused for the chip's state.
    pub const FIRST_STORED: u8 = 0x08;
    pub const CODE_BITS: u8 = 0x1F;
    pub const SINGLE_BYTE: u8 = 0x40;
    pub const DMA: u8 = 0x80;
}

/// What Interrupt shows.
pub mod interrupt {
    pub const FUNCTION_COMPLETE: u8 = 0x01;
    pub const BUS_SERVICE: u8 = 0x02;
    pub const DISCONNECTED: u8 = 0x04;
    pub const RESELECTED: u8 = 0x10;
    pub const INVALID_COMMAND: u8 = 0x40;
}

/// The lines in an answer.
pub mod line {
    pub const INT: u8 = 1;
    pub const DREQ: u8 = 2;
    pub const ATN: u8 = 4;
    pub const ACK: u8 = 8;
    pub const CONNECTED: u8 = 16;
}

/// Bits of Control.
pub const PARITY_ENABLE: u8 = 4;
pub const RESELECT_ENABLE: u8 = 2;
const CONTROL_BITS: u8 = 7;

const ID_VALID: u8 = 0x80;
const DIAGNOSTIC_STATUS: u8 = 0x80;
const SOURCE_OF_NEW: u8 = 0x07;

#[derive(Clone, Copy, PartialEq, Eq, Debug)]
pub enum State {
    Idle,
    Arbitrating,
    Selecting,
    Waiting,
    Asked,
    Transferring,
    Disabled,
}

impl State {
    pub const ALL: [State; 7] = [
        State::Idle,
        State::Arbitrating,
        State::Selecting,
        State::Waiting,
        State::Asked,
        State::Transferring,
        State::Disabled,
    ];

    fn connected(self) -> bool {
        matches!(self, State::Waiting | State::Asked | State::Transferring)
    }

    fn under_command(self) -> bool {
        matches!(self, State::Arbitrating | State::Selecting | State::Transferring)
    }
}

/// Why a call is refused.
#[derive(Clone, Copy, PartialEq, Eq, Debug)]
pub enum Refusal {
    NoRegister = 1,
    OnlyRead = 2,
    Disabled = 3,
    InterruptPending = 4,
    WrongState = 5,
    NoByte = 6,
    WrongWay = 7,
    NoSuchCall = 9,
}

/// What the station hears of a call.
#[derive(Clone, Copy, PartialEq, Eq, Debug)]
pub enum Heard {
    Nothing,
    Told(u8),
    Chosen { address: Address, atn: bool },
}

/// A byte on the cable, as the chip sees it.
#[derive(Clone, Copy, PartialEq, Eq, Debug)]
pub enum Carried {
    Nothing,
    In(u8),
    Out(u8),
}

/// What came of a call that was not refused.
#[derive(Clone, Copy, Debug)]
pub struct Outcome {
    pub value: u8,
    pub carried: Carried,
    /// The phase in which the call's data byte came into the chip.
    pub data_phase: Option<Phase>,
    pub lost: u8,
    pub heard: Heard,
}

impl Outcome {
    fn nothing() -> Outcome {
        Outcome {
            value: 0,
            carried: Carried::Nothing,
            data_phase: None,
            lost: 0,
            heard: Heard::Nothing,
        }
    }

    fn read(value: u8) -> Outcome {
        Outcome {
            value,
            ..Outcome::nothing()
        }
    }

    fn told() -> Outcome {
        Outcome {
            heard: Heard::Told(0),
            ..Outcome::nothing()
        }
    }
}

pub type Result = std::result::Result<Outcome, Refusal>;

/// Why a Back is passed over.
#[derive(Clone, Copy, PartialEq, Eq, Debug)]
pub enum BackFault {
    NotEnabled,
    BadParity,
    NotNamed,
}

/// What a turn does, by the rule that fits.
#[derive(Clone, Copy, PartialEq, Eq, Debug)]
pub enum Move {
    /// Rule 1: an interrupt is pending.
    InterruptPending,
    /// Rule 1: ACK is on outside a transfer.
    AckHeld,
    /// Rule 2: the host has yet to read what was received.
    AckUnread,
    /// Rule 2: the message is done.
    MessageDone,
    /// Rule 3: a Back that is accepted.
    Reselected(Address),
    /// Rule 3: a Back that falls short.
    BackPassedOver(BackFault),
    /// Rule 3: a Req.
    ReqPassedOver,
    /// Rule 3: a Hold or Go.
    ToldOffCable,
    /// Rule 3: Off while idle.
    Quiet,
    /// Rule 3: Off while arbitrating.
    Won,
    /// Rule 4: the station is asked.
    Choosing,
    /// Rules 5 and 7: a phase is latched, for a Req or, told, for a Hold.
    Latched { phase: Phase, told: bool },
    /// Rules 5 and 7: a Hold in the latched phase.
    HoldTold,
    /// Rules 5 and 7: the station lets go.
    Gone,
    /// Rules 5 and 7: Off, Back, or a Req for the phase that is asked already.
    NothingNew,
    /// Rule 6: a byte comes in under Info.
    Kept { byte: u8, parity: Parity },
    /// Rule 6: two received bytes are held already.
    NoPlace,
    /// Rule 6: a byte comes in under Pad.
    PaddedIn(u8),
    /// Rule 6: the written byte goes out.
    Sent(u8),
    /// Rule 6: the host has yet to write one.
    NoByteToSend,
    /// Rule 7: received bytes are held.
    Unread,
}

/// Received bytes, the oldest first. There is place for two.
#[derive(Clone, Copy, Default, PartialEq)]
struct Received {
    bytes: [u8; 2],
    count: usize,
}

impl Received {
    fn is_empty(&self) -> bool {
        self.count == 0
    }

    fn is_full(&self) -> bool {
        self.count == self.bytes.len()
    }

    fn push(&mut self, byte: u8) {
        self.bytes[self.count] = byte;
        self.count += 1;
    }

    fn take_oldest(&mut self) -> Option<u8> {
        if self.is_empty() {
            return None;
        }
        let oldest = self.bytes[0];
        self.bytes[0] = self.bytes[1];
        self.count -= 1;
        Some(oldest)
    }
}

/// A byte that the host wrote, and the phase of the transfer it was written for. It outlives that
/// transfer, and the latched phase may be another by the time it is lost.
#[derive(Clone, Copy, PartialEq)]
struct Written {
    byte: u8,
    phase: Phase,
}

#[derive(Clone, PartialEq)]
pub struct Chip {
    id: Address,
    state: State,
    /// As it was written; zero unless a command is under way.
    command: u8,
    control: u8,
    destination: Address,
    source: u8,
    phase: Phase,
    counter: u32,
    /// Whether a transfer under Single Byte has yet to move its byte.
    single_left: bool,
    interrupt: u8,
    parity_error: bool,
    paused: bool,
    atn: bool,
    ack: bool,
    received: Received,
    written: Option<Written>,
}

impl Chip {
    pub fn new(id: Address) -> Chip {
        Chip {
            id,
            state: State::Idle,
            command: 0,
            control: 0,
            destination: Address::new(0),
            source: SOURCE_OF_NEW,
            phase: Phase::DataOut,
            counter: 0,
            single_left: false,
            interrupt: 0,
            parity_error: false,
            paused: false,
            atn: false,
            ack: false,
            received: Received::default(),
            written: None,
        }
    }
}

/// What can be seen of the chip.
impl Chip {
    pub fn id(&self) -> Address {
        self.id
    }

    pub fn state(&self) -> State {
        self.state
    }

    pub fn phase(&self) -> Phase {
        self.phase
    }

    pub fn counter(&self) -> u32 {
        self.counter
    }

    pub fn control(&self) -> u8 {
        self.control
    }

    pub fn int(&self) -> bool {
        self.interrupt != 0
    }

    pub fn ack(&self) -> bool {
        self.ack
    }

    pub fn atn(&self) -> bool {
        self.atn
    }

    pub fn paused(&self) -> bool {
        self.paused
    }

    pub fn parity_error(&self) -> bool {
        self.parity_error
    }

    pub fn received(&self) -> usize {
        self.received.count
    }

    pub fn has_written(&self) -> bool {
        self.written.is_some()
    }

    /// Received Data In bytes that are held. All received bytes are of the latched phase: there are
    /// none outside a transfer, and a transfer has one phase.
    pub fn held_data_in(&self) -> usize {
        if self.phase == Phase::DataIn {
            self.received.count
        } else {
            0
        }
    }

    pub fn dma_transfer(&self) -> bool {
        self.state == State::Transferring && self.command & command::DMA != 0
    }

    pub fn padding(&self) -> bool {
        self.code() == command::TRANSFER_PAD
    }

    pub fn single_byte(&self) -> bool {
        self.command & command::SINGLE_BYTE != 0
    }

    /// What a transfer has yet to move.
    pub fn left(&self) -> u32 {
        if self.single_byte() {
            u32::from(self.single_left)
        } else {
            self.counter
        }
    }

    /// Whether the host may write a byte for the cable.
    pub fn wants_byte(&self) -> bool {
        self.state == State::Transferring
            && !self.phase.is_input()
            && self.left() > 0
            && self.written.is_none()
    }

    pub fn lines(&self) -> u8 {
        if self.state == State::Disabled {
            return 0;
        }
        let dreq = self.dma_transfer() && (!self.received.is_empty() || self.wants_byte());
        [
            (self.int(), line::INT),
            (dreq, line::DREQ),
            (self.atn, line::ATN),
            (self.ack, line::ACK),
            (self.state.connected(), line::CONNECTED),
        ]
        .iter()
        .map(|&(on, bit)| if on { bit } else { 0 })
        .sum()
    }

    fn code(&self) -> u8 {
        self.command & command::CODE_BITS
    }

    fn auxiliary_status(&self) -> u8 {
        let full = !self.received.is_empty() || self.written.is_some();
        u8::from(full) << 7
            | u8::from(self.parity_error) << 6
            | self.phase.number() << 3
            | u8::from(self.paused) << 2
            | u8::from(self.counter == 0) << 1
    }
}

/// Reads.
impl Chip {
    pub fn read(&mut self, address: u8) -> Result {
        if self.state == State::Disabled {
            return Err(Refusal::Disabled);
        }
        let value = match address {
            register::DATA if self.dma_transfer() => return Err(Refusal::WrongWay),
            register::DATA => return self.read_data(),
            register::COMMAND => self.command,
            register::CONTROL => self.control,
            register::DESTINATION => self.destination.number(),
            register::AUXILIARY => self.auxiliary_status(),
            register::ID => self.id.number(),
            register::INTERRUPT => self.take_interrupt(),
            register::SOURCE => self.source,
            register::DIAGNOSTIC => DIAGNOSTIC_STATUS,
            register::COUNTER_HIGH..=register::COUNTER_LOW => {
                self.counter.to_be_bytes()[counter_place(address)]
            }
            _ => return Err(Refusal::NoRegister),
        };
        Ok(Outcome::read(value))
    }

    pub fn dma_read(&mut self) -> Result {
        self.need_dma_transfer()?;
        self.read_data()
    }

    fn read_data(&mut self) -> Result {
        let value = self.received.take_oldest().ok_or(Refusal::NoByte)?;
        Ok(Outcome {
            value,
            data_phase: Some(self.phase),
            ..Outcome::nothing()
        })
    }

    fn take_interrupt(&mut self) -> u8 {
        self.parity_error = false;
        std::mem::take(&mut self.interrupt)
    }

    fn need_dma_transfer(&self) -> std::result::Result<(), Refusal> {
        if self.state == State::Disabled {
            Err(Refusal::Disabled)
        } else if !self.dma_transfer() {
            Err(Refusal::WrongWay)
        } else {
            Ok(())
        }
    }
}

/// The place of a counter register among the four bytes of the counter, the highest first.
fn counter_place(address: u8) -> usize {
    usize::from(address - register::COUNTER_HIGH) + 1
}

/// Writes of all but commands.
impl Chip {
    pub fn write(&mut self, address: u8, value: u8) -> Result {
        if self.state == State::Disabled && !is_chip_reset(address, value) {
            return Err(Refusal::Disabled);
        }
        match address {
            register::DATA if self.dma_transfer() => Err(Refusal::WrongWay),
            register::DATA => self.write_data(value),
            register::COMMAND => self.order(value),
            register::CONTROL => {
                self.control = value & CONTROL_BITS;
                Ok(Outcome::nothing())
            }
            register::DESTINATION => {
                self.need_no_command()?;
                self.destination = Address::new(value);
                Ok(Outcome::nothing())
            }
            register::COUNTER_HIGH..=register::COUNTER_LOW => {
                self.need_no_command()?;
                let mut bytes = self.counter.to_be_bytes();
                bytes[counter_place(address)] = value;
                self.counter = u32::from_be_bytes(bytes);
                Ok(Outcome::nothing())
            }
            register::AUXILIARY..=register::SOURCE | register::DIAGNOSTIC => Err(Refusal::OnlyRead),
            _ => Err(Refusal::NoRegister),
        }
    }

    pub fn dma_write(&mut self, value: u8) -> Result {
        self.need_dma_transfer()?;
        self.write_data(value)
    }

    fn write_data(&mut self, byte: u8) -> Result {
        if !self.wants_byte() {
            return Err(Refusal::NoByte);
        }
        self.written = Some(Written {
            byte,
            phase: self.phase,
        });
        Ok(Outcome {
            data_phase: Some(self.phase),
            ..Outcome::nothing()
        })
    }

    fn need_no_command(&self) -> std::result::Result<(), Refusal> {
        if self.state.under_command() {
            Err(Refusal::WrongState)
        } else {
            Ok(())
        }
    }
}

fn is_chip_reset(address: u8, value: u8) -> bool {
    address == register::COMMAND && value & command::CODE_BITS == command::CHIP_RESET
}

/// Commands.
impl Chip {
    fn order(&mut self, value: u8) -> Result {
        let code = value & command::CODE_BITS;
        if code < command::FIRST_STORED {
            Ok(self.act_at_once(code))
        } else {
            self.start(value)
        }
    }

    /// The codes that are not stored. One that is not in its state does nothing.
    fn act_at_once(&mut self, code: u8) -> Outcome {
        let connected = self.state.connected();
        match code {
            command::CHIP_RESET => self.reset(),
            command::DISCONNECT if connected => {
                let outcome = self.lose_held();
                self.release_ack(outcome, Chip::go_idle)
            }
            command::PAUSE if self.may_pause() => {
                self.go_idle();
                self.paused = true;
                Outcome::nothing()
            }
            command::SET_ATN if connected => {
                self.atn = true;
                Outcome::nothing()
            }
            command::MESSAGE_ACCEPTED if self.ack && !self.state.under_command() => {
                self.release_ack(Outcome::nothing(), |chip| chip.ack = false)
            }
            command::CHIP_DISABLE => {
                let outcome = self.lose_held();
                self.release_ack(outcome, Chip::disable)
            }
            _ => Outcome::nothing(),
        }
    }

    pub fn reset(&mut self) -> Outcome {
        let outcome = self.lose_held();
        self.release_ack(outcome, |chip| *chip = Chip::new(chip.id))
    }

    fn may_pause(&self) -> bool {
        let state_fits = matches!(self.state, State::Idle | State::Arbitrating | State::Selecting);
        state_fits && !self.int()
    }

    /// The codes that are stored: refused, under way, or answered with Invalid Command.
    fn start(&mut self, value: u8) -> Result {
        if self.int() {
            return Err(Refusal::InterruptPending);
        }
        let next = match (value & command::CODE_BITS, self.state) {
            (command::SELECT_WITH_ATN | command::SELECT, State::Idle) => Some(State::Arbitrating),
            (command::TRANSFER_INFO | command::TRANSFER_PAD, State::Asked) => Some(State::Transferring),
            (_, State::Idle | State::Asked) => None,
            _ => return Err(Refusal::WrongState),
        };
        // Only a written byte can be held here: received ones are never outside a transfer.
        let outcome = self.lose_held();
        self.paused = false;
        match next {
            Some(state) => {
                self.state = state;
                self.command = value;
                self.single_left = true;
            }
            None => self.raise(interrupt::INVALID_COMMAND),
        }
        Ok(outcome)
    }

    /// Forgets the bytes that the chip holds, received or written, and accounts for them.
    fn lose_held(&mut self) -> Outcome {
        let received = std::mem::take(&mut self.received).count;
        let written = self.written.take();
        let received_phase = (received > 0).then_some(self.phase);
        Outcome {
            lost: received as u8 + u8::from(written.is_some()),
            data_phase: received_phase.or(written.map(|w| w.phase)),
            ..Outcome::nothing()
        }
    }

    /// Does what turns ACK off; the station is told where ACK was on.
    fn release_ack(&mut self, outcome: Outcome, act: impl FnOnce(&mut Chip)) -> Outcome {
        let heard = if self.ack { Heard::Told(0) } else { outcome.heard };
        act(self);
        Outcome { heard, ..outcome }
    }

    /// A written byte stays, and so do the latched phase and a pending interrupt.
    fn go_idle(&mut self) {
        self.state = State::Idle;
        self.command = 0;
        self.atn = false;
        self.ack = false;
        self.source &= !ID_VALID;
    }

    fn disable(&mut self) {
        self.state = State::Disabled;
        self.command = 0;
        self.atn = false;
        self.ack = false;
    }

    fn raise(&mut self, number: u8) {
        self.interrupt = number;
        self.command = 0;
    }
}

/// The clock and the cable.
impl Chip {
    pub fn tick(&mut self) -> Result {
        if self.state == State::Disabled {
            return Err(Refusal::Disabled);
        }
        if self.state == State::Selecting && self.counter > 0 {
            self.counter -= 1;
            if self.counter == 0 {
                self.go_idle();
                self.raise(interrupt::DISCONNECTED);
            }
        }
        Ok(Outcome::nothing())
    }

    pub fn turn(&mut self, wish: Wish) -> Result {
        if self.state == State::Disabled {
            return Err(Refusal::Disabled);
        }
        let chosen_move = self.decide(wish);
        Ok(self.perform(chosen_move))
    }

    /// The station said yes to being chosen.
    pub fn selected(&mut self) {
        self.connect(interrupt::FUNCTION_COMPLETE);
    }

    /// Which rule fits. A disabled chip has no turn, and is taken for a quiet one here.
    pub fn decide(&self, wish: Wish) -> Move {
        if self.int() {
            return Move::InterruptPending;
        }
        if self.ack {
            return self.decide_under_ack();
        }
        match self.state {
            State::Idle | State::Arbitrating => self.decide_off_cable(wish),
            State::Selecting => Move::Choosing,
            State::Waiting => match wish {
                Wish::Req(req) => Move::Latched {
                    phase: req.phase,
                    told: false,
                },
                other => self.decide_connected(other),
            },
            State::Asked => match wish {
                Wish::Req(req) if req.phase != self.phase => Move::Latched {
                    phase: req.phase,
                    told: false,
                },
                other => self.decide_connected(other),
            },
            State::Transferring => self.decide_transferring(wish),
            State::Disabled => Move::Quiet,
        }
    }

    fn decide_under_ack(&self) -> Move {
        if self.state != State::Transferring {
            Move::AckHeld
        } else if !self.received.is_empty() {
            Move::AckUnread
        } else {
            Move::MessageDone
        }
    }

    fn decide_off_cable(&self, wish: Wish) -> Move {
        match wish {
            Wish::Back(id_byte, parity) => self.decide_back(id_byte, parity),
            Wish::Hold(_) | Wish::Go => Move::ToldOffCable,
            Wish::Req(_) => Move::ReqPassedOver,
            Wish::Off if self.state == State::Arbitrating => Move::Won,
            Wish::Off => Move::Quiet,
        }
    }

    fn decide_back(&self, id_byte: IdByte, parity: Parity) -> Move {
        if self.control & RESELECT_ENABLE == 0 {
            return Move::BackPassedOver(BackFault::NotEnabled);
        }
        if parity == Parity::Bad {
            return Move::BackPassedOver(BackFault::BadParity);
        }
        match id_byte.decode(self.id) {
            Some(station) => Move::Reselected(station),
            None => Move::BackPassedOver(BackFault::NotNamed),
        }
    }

    /// What holds alike for waiting, asked and transferring.
    fn decide_connected(&self, wish: Wish) -> Move {
        match wish {
            Wish::Hold(phase) if phase != self.phase => Move::Latched { phase, told: true },
            Wish::Hold(_) => Move::HoldTold,
            Wish::Go => Move::Gone,
            Wish::Off | Wish::Back(..) | Wish::Req(_) => Move::NothingNew,
        }
    }

    fn decide_transferring(&self, wish: Wish) -> Move {
        match wish {
            Wish::Req(req) if req.phase == self.phase && self.left() > 0 => self.decide_byte(req),
            _ if !self.received.is_empty() => Move::Unread,
            Wish::Req(req) => Move::Latched {
                phase: req.phase,
                told: false,
            },
            other => self.decide_connected(other),
        }
    }

    fn decide_byte(&self, req: Request) -> Move {
        if req.phase.is_input() {
            if self.padding() {
                Move::PaddedIn(req.byte)
            } else if self.received.is_full() {
                Move::NoPlace
            } else {
                Move::Kept {
                    byte: req.byte,
                    parity: req.parity,
                }
            }
        } else {
            match self.written {
                Some(written) => Move::Sent(written.byte),
                None => Move::NoByteToSend,
            }
        }
    }

    fn perform(&mut self, chosen_move: Move) -> Outcome {
        match chosen_move {
            Move::MessageDone => {
                self.connect(interrupt::FUNCTION_COMPLETE);
                Outcome::nothing()
            }
            Move::Reselected(station) => {
                self.source = ID_VALID | station.number();
                self.connect(interrupt::RESELECTED);
                Outcome::told()
            }
            Move::ToldOffCable | Move::HoldTold => Outcome::told(),
            Move::Won => {
                self.state = State::Selecting;
                self.atn = self.code() == command::SELECT_WITH_ATN;
                Outcome::nothing()
            }
            Move::Choosing => {
                let heard = Heard::Chosen {
                    address: self.destination,
                    atn: self.atn,
                };
                Outcome {
                    heard,
                    ..Outcome::nothing()
                }
            }
            Move::Latched { phase, told } => {
                self.latch(phase);
                if told {
                    Outcome::told()
                } else {
                    Outcome::nothing()
                }
            }
            Move::Gone => {
                self.go_idle();
                self.raise(interrupt::DISCONNECTED);
                Outcome::told()
            }
            Move::Kept { byte, parity } => self.keep(byte, parity),
            Move::PaddedIn(byte) => Outcome {
                lost: 1,
                ..self.acknowledge(Carried::In(byte))
            },
            Move::Sent(byte) => self.send(byte),
            Move::InterruptPending
            | Move::AckHeld
            | Move::AckUnread
            | Move::BackPassedOver(_)
            | Move::ReqPassedOver
            | Move::Quiet
            | Move::NothingNew
            | Move::NoPlace
            | Move::NoByteToSend
            | Move::Unread => Outcome::nothing(),
        }
    }

    fn connect(&mut self, raised: u8) {
        self.state = State::Waiting;
        self.raise(raised);
    }

    fn latch(&mut self, phase: Phase) {
        self.phase = phase;
        self.state = State::Asked;
        self.raise(interrupt::BUS_SERVICE);
    }

    fn keep(&mut self, byte: u8, parity: Parity) -> Outcome {
        self.received.push(byte);
        if parity == Parity::Bad && self.control & PARITY_ENABLE != 0 {
            self.parity_error = true;
            self.atn = true;
        }
        self.acknowledge(Carried::In(byte))
    }

    fn send(&mut self, byte: u8) -> Outcome {
        // Pad keeps its byte, to send it again.
        if !self.padding() {
            self.written = None;
        }
        self.acknowledge(Carried::Out(byte))
    }

    /// A byte has moved in the latched phase. After the last one of a Message In the station waits
    /// to hear: the host may yet refuse the message.
    fn acknowledge(&mut self, carried: Carried) -> Outcome {
        self.count_byte();
        let last = self.left() == 0;
        if last && self.phase == Phase::MessageOut {
            self.atn = false;
        }
        let keeps_ack = last && self.phase == Phase::MessageIn;
        self.ack = keeps_ack;
        let heard = match carried {
            _ if keeps_ack => Heard::Nothing,
            Carried::Out(byte) => Heard::Told(byte),
            Carried::In(_) | Carried::Nothing => Heard::Told(0),
        };
        Outcome {
            carried,
            data_phase: Some(self.phase),
            heard,
            ..Outcome::nothing()
        }
    }

    fn count_byte(&mut self) {
        if self.single_byte() {
            self.single_left = false;
        } else {
            self.counter -= 1;
        }
    }
}
