//! `peer replay`: plays sessions and prints every answer.

use std::fmt;
use std::io::{self, BufRead, Write};

use crate::session::{ReadError, Reader, Session};

/// Why a subcommand could not go on.
pub enum Failure {
    Read(ReadError),
    Write(io::Error),
}

impl fmt::Display for Failure {
    fn fmt(&self, f: &mut fmt::Formatter) -> fmt::Result {
        match self {
            Failure::Read(error) => error.fmt(f),
            Failure::Write(error) => write!(f, "standard output: {error}"),
        }
    }
}

pub fn replay(input: impl BufRead, out: &mut impl Write) -> Result<(), Failure> {
    let mut reader = Reader::new(input);
    // A session is read to its end before it is played: so nothing is printed of one with an error.
    while let Some(session) = reader.next().map_err(Failure::Read)? {
        play(&session, out).map_err(Failure::Write)?;
    }
    Ok(())
}

fn play(session: &Session, out: &mut impl Write) -> io::Result<()> {
    let mut string = session.setup.build();
    let mut lost = 0u64;
    let mut line = Vec::with_capacity(32);
    for call in &session.calls {
        let answer = string.call(*call);
        lost += u64::from(answer.lost);
        line.clear();
        for number in answer.numbers() {
            push_decimal(&mut line, number);
            line.push(b' ');
        }
        // The last blank gives way to the end of the line.
        *line.last_mut().expect("an answer has numbers") = b'\n';
        out.write_all(&line)?;
    }
    let calls = session.calls.len();
    let held = string.chip.held_data_in();
    let waiting = string.station.waiting();
    writeln!(out, "calls {calls} lost {lost} held {held} waiting {waiting}")
}

fn push_decimal(line: &mut Vec<u8>, number: u8) {
    if number >= 100 {
        line.push(b'0' + number / 100);
    }
    if number >= 10 {
        line.push(b'0' + number / 10 % 10);
    }
    line.push(b'0' + number % 10);
}
