//! A station that answers commands from a disc image.

use std::rc::Rc;

use crate::cable::{Address, Phase};
use crate::station::Wish;

pub const BLOCK: usize = 512;
pub const BLOCKS_THAT_COUNT: usize = 4096;

const TEST_UNIT_READY: u8 = 0x00;
const READ: u8 = 0x08;
const GOOD: u8 = 0x00;
const CHECK_CONDITION: u8 = 0x02;
const COMMAND_COMPLETE: u8 = 0x00;

/// The image of `blocks` blocks that the word `pattern` makes.
pub fn pattern(blocks: usize) -> Vec<u8> {
    let place = |b: usize, p: usize| (7 * b + 13 * p + 101 * (p / 256)) % 256;
    (0..blocks)
        .flat_map(|b| (0..BLOCK).map(move |p| place(b, p) as u8))
        .collect()
}

/// What a command of six bytes comes to.
#[derive(Clone, Copy, PartialEq, Eq, Debug)]
pub enum Verdict {
    Ready,
    Read { first: usize, count: usize },
    ReadBeyond { first: usize },
    Unknown,
}

impl Verdict {
    fn of(command: &[u8; 6], blocks: usize) -> Verdict {
        match command[0] {
            TEST_UNIT_READY => Verdict::Ready,
            READ => Verdict::of_read(command, blocks),
            _ => Verdict::Unknown,
        }
    }

    fn of_read(command: &[u8; 6], blocks: usize) -> Verdict {
        let [_, high, middle, low, count, _] = command.map(usize::from);
        let first = (high & 0x1F) << 16 | middle << 8 | low;
        let count = if count == 0 { 256 } else { count };
        if first + count <= blocks {
            Verdict::Read { first, count }
        } else {
            Verdict::ReadBeyond { first }
        }
    }
}

/// Which wish the drive has come to.
#[derive(Clone, Copy, PartialEq, Eq, Debug)]
enum Stage {
    Off,
    /// The byte that the host sends under ATN.
    Message,
    /// So many bytes of the command have come.
    Command(usize),
    /// The bytes of the image from `next` up to `end` are still to go.
    Data {
        next: usize,
        end: usize,
    },
    Status(u8),
    Complete,
    Go,
}

#[derive(Clone)]
pub struct Drive {
    address: Address,
    image: Rc<[u8]>,
    stage: Stage,
    command: [u8; 6],
}

impl Drive {
    pub fn new(address: Address, image: &[u8]) -> Drive {
        let blocks = (image.len() / BLOCK).min(BLOCKS_THAT_COUNT);
        let image = image[..blocks * BLOCK].into();
        Drive {
            address,
            image,
            stage: Stage::Off,
            command: [0; 6],
        }
    }

    /// Whether two drives over one image stand at the same place.
    pub fn stands_like(&self, other: &Drive) -> bool {
        self.stage == other.stage
    }

    pub fn address(&self) -> Address {
        self.address
    }

    pub fn blocks(&self) -> usize {
        self.image.len() / BLOCK
    }

    /// What telling the drive `byte` has answered, where that byte would be the sixth of a command.
    pub fn verdict_with(&self, byte: u8) -> Option<Verdict> {
        if self.stage != Stage::Command(5) {
            return None;
        }
        let mut command = self.command;
        command[5] = byte;
        Some(Verdict::of(&command, self.blocks()))
    }

    pub fn wish(&self) -> Wish {
        match self.stage {
            Stage::Off => Wish::Off,
            Stage::Message => Wish::asks(Phase::MessageOut),
            Stage::Command(_) => Wish::asks(Phase::Command),
            Stage::Data { next, .. } => Wish::shows(Phase::DataIn, self.image[next]),
            Stage::Status(status) => Wish::shows(Phase::Status, status),
            Stage::Complete => Wish::shows(Phase::MessageIn, COMMAND_COMPLETE),
            Stage::Go => Wish::Go,
        }
    }

    pub fn waiting(&self) -> usize {
        match self.stage {
            Stage::Data { next, end } => end - next,
            _ => 0,
        }
    }

    pub fn chosen(&mut self, address: Address, atn: bool) -> bool {
        if address != self.address || self.stage != Stage::Off {
            return false;
        }
        self.stage = if atn { Stage::Message } else { Stage::Command(0) };
        true
    }

    pub fn told(&mut self, byte: u8) {
        self.stage = match self.stage {
            Stage::Off => Stage::Off,
            Stage::Message => Stage::Command(0),
            Stage::Command(taken) => self.take_command_byte(taken, byte),
            Stage::Data { next, end } if next + 1 < end => Stage::Data { next: next + 1, end },
            Stage::Data { .. } => Stage::Status(GOOD),
            Stage::Status(_) => Stage::Complete,
            Stage::Complete => Stage::Go,
            Stage::Go => Stage::Off,
        };
    }

    fn take_command_byte(&mut self, taken: usize, byte: u8) -> Stage {
        let verdict = self.verdict_with(byte);
        self.command[taken] = byte;
        match verdict {
            None => Stage::Command(taken + 1),
            Some(Verdict::Ready) => Stage::Status(GOOD),
            Some(Verdict::Read { first, count }) => Stage::Data {
                next: first * BLOCK,
                end: (first + count) * BLOCK,
            },
            Some(Verdict::ReadBeyond { .. } | Verdict::Unknown) => Stage::Status(CHECK_CONDITION),
        }
    }
}
