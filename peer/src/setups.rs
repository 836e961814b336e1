//! Random chips and stations for `peer generate`.

use crate::cable::Phase;
use crate::random::Random;
use crate::script::Row;
use crate::session::{BreakerSetup, Image, Setup, StationSetup};

const OFF: u8 = 0;
const BACK: u8 = 1;
const HOLD: u8 = 2;
const REQ: u8 = 3;
const GO: u8 = 4;

/// Numbers around the sizes of a drive's blocks, and small ones.
const BREAKS: [u16; 16] = [0, 1, 2, 3, 4, 5, 7, 17, 32, 77, 255, 511, 512, 513, 1024, 65535];

/// A setup for a session of about `calls` calls.
pub fn setup(random: &mut Random, calls: u32) -> Setup {
    let chip = if random.chance(150) {
        None
    } else {
        Some(address(random))
    };
    let chip_number = chip.unwrap_or(7) % 8;
    let station_address = if random.chance(60) {
        chip_number
    } else {
        address(random)
    };
    let pair = Pair {
        chip: chip_number,
        station: station_address % 8,
    };
    let station = if random.chance(600) {
        StationSetup::Script {
            address: station_address,
            rows: rows(random, pair, calls),
        }
    } else {
        StationSetup::Drive {
            address: station_address,
            image: Image::Pattern(blocks(random)),
        }
    };
    let breaker = random.chance(350).then(|| breaker(random, pair));
    Setup {
        chip,
        station,
        breaker,
    }
}

/// The two addresses on the cable.
#[derive(Clone, Copy)]
struct Pair {
    chip: u8,
    station: u8,
}

fn address(random: &mut Random) -> u8 {
    if random.chance(80) {
        random.byte()
    } else {
        random.below(8) as u8
    }
}

fn blocks(random: &mut Random) -> u16 {
    match random.below(20) {
        0 => 0,
        1 => random.pick(&[255, 256, 257, 300]),
        2 => random.pick(&[4095, 4096]),
        3..=12 => random.between(1, 5) as u16,
        _ => random.between(1, 20) as u16,
    }
}

fn breaker(random: &mut Random, pair: Pair) -> BreakerSetup {
    let every = random.pick(&BREAKS);
    let host = match random.below(20) {
        0 => pair.station,
        1 => random.byte(),
        2 => pair.chip | 8,
        _ => pair.chip,
    };
    BreakerSetup { every, host }
}

#[derive(Clone, Copy)]
enum Style {
    /// What a drive does that works.
    Proper,
    /// The same with faults strewn in.
    Faulty,
    Nonsense,
    Empty,
}

fn rows(random: &mut Random, pair: Pair, calls: u32) -> Vec<Row> {
    let style = random.weigh(&[
        (50, Style::Proper),
        (25, Style::Faulty),
        (22, Style::Nonsense),
        (3, Style::Empty),
    ]);
    let wanted = random.between(1, 2 + calls / 3) as usize;
    let mut table = Table {
        rows: Vec::new(),
        pair,
        good_backs: random.pick(&[1000, 950, 700, 300]),
    };
    match style {
        Style::Proper | Style::Faulty => table.connections(random, wanted),
        Style::Nonsense => table.nonsense(random, wanted),
        Style::Empty => {}
    }
    table.link();
    match style {
        Style::Faulty => spoil(random, &mut table.rows, 40),
        Style::Nonsense => spoil(random, &mut table.rows, 60),
        Style::Proper | Style::Empty => {}
    }
    table.rows
}

struct Table {
    rows: Vec<Row>,
    pair: Pair,
    /// How many of a thousand Backs are as they should be.
    good_backs: u32,
}

impl Table {
    fn push(&mut self, kind: u8, phase: u8, byte: u8, parity: u8) {
        self.rows.push(Row {
            kind,
            phase,
            byte,
            parity,
            next: 0,
        });
    }

    fn req(&mut self, phase: Phase, byte: u8) {
        self.push(REQ, phase.number(), byte, 0);
    }

    /// Each row goes on to the one behind it, and the last ends the chain.
    fn link(&mut self) {
        let count = self.rows.len();
        for (index, row) in self.rows.iter_mut().enumerate() {
            row.next = if index + 1 < count { index as u32 + 2 } else { 0 };
        }
    }

    /// Whole connections, from a choosing to a Go, until there are `wanted` rows.
    fn connections(&mut self, random: &mut Random, wanted: usize) {
        if random.chance(150) {
            self.opening(random);
        }
        while self.rows.len() < wanted {
            self.connection(random);
        }
        if random.chance(300) {
            self.rows.truncate(wanted);
        }
    }

    /// What a table may begin with that is no Off.
    fn opening(&mut self, random: &mut Random) {
        match random.below(4) {
            0 => self.push(HOLD, random.below(8) as u8, 0, 0),
            1 => self.push(GO, 0, 0, 0),
            _ => {
                self.back(random);
                self.req(Phase::MessageIn, 0x80);
                self.ending(random);
            }
        }
    }

    fn connection(&mut self, random: &mut Random) {
        self.push(OFF, 0, 0, 0);
        for _ in 0..random.weigh(&[(5, 0), (5, 1), (2, 2), (1, 5)]) {
            self.req(Phase::MessageOut, random.byte());
        }
        for _ in 0..random.weigh(&[(8, 6), (2, 10), (1, 1), (1, 3)]) {
            self.req(Phase::Command, 0);
        }
        for _ in 0..random.weigh(&[(2, 0), (6, 1), (2, 2), (1, 3)]) {
            self.maybe_hold(random);
            self.data(random);
        }
        self.maybe_hold(random);
        self.ending(random);
    }

    /// Mostly the proper one; some stations just let go.
    fn ending(&mut self, random: &mut Random) {
        if random.chance(120) {
            self.push(GO, 0, 0, 0);
            return;
        }
        self.req(Phase::Status, random.pick(&[0x00, 0x02, 0x08]));
        self.req(Phase::MessageIn, 0x00);
        self.push(GO, 0, 0, 0);
    }

    fn maybe_hold(&mut self, random: &mut Random) {
        while random.chance(250) {
            self.push(HOLD, random.below(8) as u8, random.byte(), 0);
        }
    }

    /// A run of bytes in one phase, now and then with a disconnection in its midst.
    fn data(&mut self, random: &mut Random) {
        let phase = random.weigh(&[
            (10, Phase::DataIn),
            (4, Phase::DataOut),
            (1, Phase::UnspecifiedIn),
            (1, Phase::UnspecifiedOut),
            (2, Phase::MessageIn),
            (1, Phase::Status),
            (1, Phase::MessageOut),
        ]);
        let bad_parity = random.pick(&[0, 0, 100, 500]);
        for _ in 0..random.weigh(&[(4, 1), (4, 2), (4, 3), (5, 7), (5, 12), (2, 40)]) {
            if random.chance(40) {
                self.disconnection(random);
            }
            if random.chance(40) {
                self.push(HOLD, phase.number(), 0, 0);
            }
            let parity = u8::from(random.chance(bad_parity));
            self.push(REQ, phase.number(), random.byte(), parity);
        }
    }

    fn disconnection(&mut self, random: &mut Random) {
        self.req(Phase::MessageIn, 0x02);
        self.req(Phase::MessageIn, 0x04);
        self.push(GO, 0, 0, 0);
        self.maybe_hold(random);
        self.back(random);
        self.req(Phase::MessageIn, 0x80);
    }

    fn back(&mut self, random: &mut Random) {
        let own = 1 << self.pair.chip;
        let other = self.other_bit(random);
        let (byte, parity) = if random.chance(self.good_backs) {
            (own | other, 0)
        } else {
            match random.below(5) {
                0 => (other, 0),
                1 => (own, 0),
                2 => (own | other | random.byte(), 0),
                3 => (own | other, 1),
                _ => (random.byte(), random.below(2) as u8),
            }
        };
        self.push(BACK, 0, byte, parity);
    }

    /// The bit of some station that is not the chip, the script itself if it may be.
    fn other_bit(&mut self, random: &mut Random) -> u8 {
        if self.pair.station != self.pair.chip && random.chance(800) {
            1 << self.pair.station
        } else {
            1 << ((u32::from(self.pair.chip) + random.between(1, 7)) % 8)
        }
    }

    /// Rows of any kind; phases come in runs, so that transfers have something to move.
    fn nonsense(&mut self, random: &mut Random, wanted: usize) {
        let mut phase = random.below(8) as u8;
        while self.rows.len() < wanted {
            if random.chance(300) {
                phase = random.below(8) as u8;
            }
            match random.weigh(&[(2, OFF), (1, BACK), (3, HOLD), (14, REQ), (1, GO)]) {
                BACK => self.back(random),
                kind => {
                    let parity = u8::from(random.chance(150));
                    self.push(kind, phase, random.byte(), parity);
                }
            }
        }
    }
}

/// Puts faults into so many of a thousand rows.
fn spoil(random: &mut Random, rows: &mut [Row], per_mille: u32) {
    let count = rows.len() as u32;
    for (index, row) in rows.iter_mut().enumerate() {
        if !random.chance(per_mille) {
            continue;
        }
        let number = index as u32 + 1;
        match random.below(6) {
            0 => row.kind = random.pick(&[0, 2, 4, 5, 6, 255]),
            1 => row.phase = random.pick(&[0, 4, 7, 8, 9, 255]),
            2 => row.parity = random.pick(&[1, 2, 255]),
            3 => row.byte = random.byte(),
            4 => row.next = number + random.between(2, 4),
            _ => row.next = wrong_next(random, number, count),
        }
    }
}

/// A next that ends the chain, nearly always wrongly.
fn wrong_next(random: &mut Random, number: u32, count: u32) -> u32 {
    match random.below(5) {
        0 => 0,
        1 => number,
        2 => random.below(number),
        3 => count + random.between(1, 5),
        _ => random.pick(&[4097, 65536, u32::MAX]),
    }
}
