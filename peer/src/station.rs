//! What shares the cable with the chip.

use crate::breaker::Breaker;
use crate::cable::{Address, IdByte, Parity, Phase};
use crate::drive::Drive;
use crate::script::Script;

/// A station's REQ: the phase, and what an input shows on the data lines.
#[derive(Clone, Copy, PartialEq, Eq, Debug)]
pub struct Request {
    pub phase: Phase,
    pub byte: u8,
    pub parity: Parity,
}

/// What a station does on the cable now.
#[derive(Clone, Copy, PartialEq, Eq, Debug)]
pub enum Wish {
    Off,
    Back(IdByte, Parity),
    Hold(Phase),
    Req(Request),
    Go,
}

impl Wish {
    /// A Req that shows a byte with good parity.
    pub fn shows(phase: Phase, byte: u8) -> Wish {
        Wish::request(phase, byte, Parity::Good)
    }

    /// A Req that asks for a byte.
    pub fn asks(phase: Phase) -> Wish {
        Wish::request(phase, 0, Parity::Good)
    }

    /// A Req in any phase. An output has nothing to show, whatever is given for it.
    pub fn request(phase: Phase, byte: u8, parity: Parity) -> Wish {
        Wish::Req(if phase.is_input() {
            Request { phase, byte, parity }
        } else {
            Request {
                phase,
                byte: 0,
                parity: Parity::Good,
            }
        })
    }

    pub fn is_data_in(self) -> bool {
        matches!(
            self,
            Wish::Req(Request {
                phase: Phase::DataIn,
                ..
            })
        )
    }
}

/// Any station. Cloning one is cheap: tables and images are shared.
#[derive(Clone)]
pub enum Station {
    Script(Script),
    Drive(Drive),
    Breaker(Box<Breaker>),
}

impl Station {
    pub fn wish(&self) -> Wish {
        match self {
            Station::Script(script) => script.wish(),
            Station::Drive(drive) => drive.wish(),
            Station::Breaker(breaker) => breaker.wish(),
        }
    }

    pub fn address(&self) -> Address {
        match self {
            Station::Script(script) => script.address(),
            Station::Drive(drive) => drive.address(),
            Station::Breaker(breaker) => breaker.address(),
        }
    }

    /// How many Data In bytes wait.
    pub fn waiting(&self) -> usize {
        match self {
            Station::Script(script) => script.waiting(),
            Station::Drive(drive) => drive.waiting(),
            Station::Breaker(breaker) => breaker.waiting(),
        }
    }

    /// The initiator has dealt with the wish. `byte` is what it sent, zero where the wish was no output.
    pub fn told(&mut self, byte: u8) {
        match self {
            Station::Script(script) => script.told(),
            Station::Drive(drive) => drive.told(byte),
            Station::Breaker(breaker) => breaker.told(byte),
        }
    }

    /// An initiator selects `address`. Answers whether this station takes it for itself.
    pub fn chosen(&mut self, address: Address, atn: bool) -> bool {
        match self {
            Station::Script(script) => script.chosen(address),
            Station::Drive(drive) => drive.chosen(address, atn),
            Station::Breaker(breaker) => breaker.chosen(address, atn),
        }
    }
}
