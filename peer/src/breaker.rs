//! A fault in front of a station: after a number of bytes it lets go of the cable, and comes back.

use crate::cable::{Address, IdByte, Parity, Phase};
use crate::station::{Station, Wish};

const SAVE_DATA_POINTER: u8 = 0x02;
const DISCONNECT: u8 = 0x04;
const IDENTIFY: u8 = 0x80;

/// What a break wishes, one after the other.
#[derive(Clone, Copy, PartialEq, Eq, Debug)]
pub enum Step {
    Save,
    Disconnect,
    Go,
    Back,
    Identify,
}

impl Step {
    pub const ALL: [Step; 5] = [Step::Save, Step::Disconnect, Step::Go, Step::Back, Step::Identify];

    fn after(self) -> Option<Step> {
        Step::ALL.get(self as usize + 1).copied()
    }
}

#[derive(Clone)]
pub struct Breaker {
    below: Station,
    /// A break comes after so many bytes; zero stands for never.
    every: u16,
    host: Address,
    /// Data In bytes told below since the start or the last break.
    count: u16,
    /// Where the break stands; of use only while there is one.
    step: Step,
    breaks_over: u64,
}

impl Breaker {
    pub fn new(below: Station, every: u16, host: Address) -> Breaker {
        Breaker {
            below,
            every,
            host,
            count: 0,
            step: Step::Save,
            breaks_over: 0,
        }
    }

    pub fn below(&self) -> &Station {
        &self.below
    }

    /// The step of the break that is under way. Whether there is one follows from the count and the
    /// station below, which hears nothing during a break: so it lasts until its last step is told.
    pub fn breaking(&self) -> Option<Step> {
        let due = self.every > 0 && self.count == self.every;
        (due && self.below.wish().is_data_in()).then_some(self.step)
    }

    pub fn breaks_over(&self) -> u64 {
        self.breaks_over
    }

    pub fn wish(&self) -> Wish {
        match self.breaking() {
            None => self.below.wish(),
            Some(Step::Save) => Wish::shows(Phase::MessageIn, SAVE_DATA_POINTER),
            Some(Step::Disconnect) => Wish::shows(Phase::MessageIn, DISCONNECT),
            Some(Step::Go) => Wish::Go,
            Some(Step::Back) => Wish::Back(IdByte::of_pair(self.address(), self.host), Parity::Good),
            Some(Step::Identify) => Wish::shows(Phase::MessageIn, IDENTIFY),
        }
    }

    pub fn address(&self) -> Address {
        self.below.address()
    }

    pub fn waiting(&self) -> usize {
        self.below.waiting()
    }

    pub fn told(&mut self, byte: u8) {
        match self.breaking() {
            Some(step) => self.end_step(step),
            None => self.pass_on(byte),
        }
    }

    pub fn chosen(&mut self, address: Address, atn: bool) -> bool {
        self.breaking().is_none() && self.below.chosen(address, atn)
    }

    fn end_step(&mut self, step: Step) {
        match step.after() {
            Some(next) => self.step = next,
            None => {
                self.step = Step::Save;
                self.count = 0;
                self.breaks_over += 1;
            }
        }
    }

    fn pass_on(&mut self, byte: u8) {
        if self.every > 0 && self.below.wish().is_data_in() {
            self.count += 1;
        }
        self.below.told(byte);
    }
}
