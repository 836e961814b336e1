//! `peer generate`: seeded random sessions.

use std::io::{self, Write};

use crate::host;
use crate::random::Random;
use crate::session::{Session, StationSetup};
use crate::setups;

pub const DEFAULT_CALLS: u32 = 400;

pub fn generate(seed: u64, sessions: u64, calls: u32, out: &mut impl Write) -> io::Result<()> {
    for number in 0..sessions {
        // Every session has a stream of its own, so it does not depend on those before it.
        let mut random = Random::new(seed, number);
        session(&mut random, calls).write(out)?;
    }
    Ok(())
}

fn session(random: &mut Random, calls: u32) -> Session {
    let setup = setups::setup(random, calls);
    let percent = match setup.station {
        StationSetup::Script { .. } => script_length(random),
        StationSetup::Drive { .. } => drive_length(random),
    };
    let limit = u64::from(calls) * u64::from(percent) / 100;
    let calls = host::calls(random, &setup, limit as usize);
    Session { setup, calls }
}

/// How long a session is, in percent of the usual length. Many end before, where their station is
/// stuck, so the usual length is exceeded here.
fn script_length(random: &mut Random) -> u32 {
    match random.below(10) {
        0 => random.between(200, 400),
        _ => random.between(60, 200),
    }
}

/// With a drive, many sessions are short and some are long: these have the time to read whole blocks.
fn drive_length(random: &mut Random) -> u32 {
    match random.below(10) {
        0 | 1 => random.between(400, 900),
        _ => random.between(30, 120),
    }
}
