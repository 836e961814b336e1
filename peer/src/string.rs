//! The chip and one station on its cable, and the calls that a host makes.

use crate::chip::{Carried, Chip, Heard, Outcome, Refusal, Result};
use crate::station::Station;

#[derive(Clone, Copy, PartialEq, Eq, Debug)]
pub struct Call {
    pub kind: u8,
    pub address: u8,
    pub value: u8,
}

/// The kinds of calls; there are none above them.
pub mod kind {
    pub const READ: u8 = 0;
    pub const WRITE: u8 = 1;
    pub const DMA_READ: u8 = 2;
    pub const DMA_WRITE: u8 = 3;
    pub const TICK: u8 = 4;
    pub const TURN: u8 = 5;
    pub const RESET: u8 = 6;
}

/// The seven numbers of an answer.
#[derive(Clone, Copy, PartialEq, Eq, Debug, Default)]
pub struct Answer {
    pub refusal: u8,
    pub value: u8,
    pub lines: u8,
    pub cable: u8,
    pub byte: u8,
    pub phase: u8,
    pub lost: u8,
}

impl Answer {
    pub fn numbers(&self) -> [u8; 7] {
        [
            self.refusal,
            self.value,
            self.lines,
            self.cable,
            self.byte,
            self.phase,
            self.lost,
        ]
    }

    fn of(result: Result, lines: u8) -> Answer {
        match result {
            Err(refusal) => Answer {
                refusal: refusal as u8,
                lines,
                ..Answer::default()
            },
            Ok(outcome) => {
                let (cable, byte) = match outcome.carried {
                    Carried::Nothing => (0, 0),
                    Carried::In(byte) => (1, byte),
                    Carried::Out(byte) => (2, byte),
                };
                let phase = outcome.data_phase.map_or(0, |phase| phase.number());
                Answer {
                    refusal: 0,
                    value: outcome.value,
                    lines,
                    cable,
                    byte,
                    phase,
                    lost: outcome.lost,
                }
            }
        }
    }
}

#[derive(Clone)]
pub struct ScsiString {
    pub chip: Chip,
    pub station: Station,
}

impl ScsiString {
    pub fn call(&mut self, call: Call) -> Answer {
        let chip = &mut self.chip;
        let result = match call.kind {
            kind::READ => chip.read(call.address),
            kind::WRITE => chip.write(call.address, call.value),
            kind::DMA_READ => chip.dma_read(),
            kind::DMA_WRITE => chip.dma_write(call.value),
            kind::TICK => chip.tick(),
            kind::TURN => chip.turn(self.station.wish()),
            kind::RESET => Ok(chip.reset()),
            _ => Err(Refusal::NoSuchCall),
        };
        if let Ok(outcome) = &result {
            self.pass_on(outcome);
        }
        // The lines are those after the call, so also after the station's yes.
        Answer::of(result, self.chip.lines())
    }

    fn pass_on(&mut self, outcome: &Outcome) {
        match outcome.heard {
            Heard::Nothing => {}
            Heard::Told(byte) => self.station.told(byte),
            Heard::Chosen { address, atn } => {
                if self.station.chosen(address, atn) {
                    self.chip.selected();
                }
            }
        }
    }
}
