//! An emulation of an NCR 5385E and the stations on its cable, written from the documents alone, to be
//! compared with another one: what both print for the same sessions must be the same.

mod breaker;
mod cable;
mod chip;
mod coverage;
mod drive;
mod generate;
mod host;
mod random;
mod replay;
mod script;
mod session;
mod setups;
mod station;
mod string;

use std::io::{self, BufWriter, Write};
use std::process::ExitCode;

use replay::Failure;

const USAGE: &str = "usage: peer replay < SESSIONS
       peer generate SEED SESSIONS [CALLS]
       peer coverage < SESSIONS";

fn main() -> ExitCode {
    let words: Vec<String> = std::env::args().skip(1).collect();
    let words: Vec<&str> = words.iter().map(String::as_str).collect();
    let mut out = BufWriter::with_capacity(1 << 16, io::stdout().lock());
    let result = match words.as_slice() {
        ["replay"] => replay::replay(io::stdin().lock(), &mut out),
        ["coverage"] => coverage::coverage(io::stdin().lock(), &mut out),
        ["generate", numbers @ ..] => match parse_numbers(numbers) {
            Some((seed, sessions, calls)) => {
                generate::generate(seed, sessions, calls, &mut out).map_err(Failure::Write)
            }
            None => return usage(),
        },
        _ => return usage(),
    };
    // Flushed on an error too: what earlier sessions answered is printed.
    let result = result.and(out.flush().map_err(Failure::Write));
    match result {
        Ok(()) => ExitCode::SUCCESS,
        Err(failure) => {
            eprintln!("peer: {failure}");
            ExitCode::FAILURE
        }
    }
}

fn usage() -> ExitCode {
    eprintln!("{USAGE}");
    ExitCode::from(2)
}

/// The seed, the number of sessions, and the calls of a session.
fn parse_numbers(words: &[&str]) -> Option<(u64, u64, u32)> {
    match words {
        [seed, sessions] => Some((
            seed.parse().ok()?,
            sessions.parse().ok()?,
            generate::DEFAULT_CALLS,
        )),
        [seed, sessions, calls] => Some((seed.parse().ok()?, sessions.parse().ok()?, calls.parse().ok()?)),
        _ => None,
    }
}
