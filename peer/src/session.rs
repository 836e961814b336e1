//! The text of sessions: reading it, and writing it.

use std::ffi::OsStr;
use std::fmt;
use std::io::{self, BufRead, Write};
use std::os::unix::ffi::OsStrExt;
use std::path::PathBuf;

use crate::breaker::Breaker;
use crate::cable::Address;
use crate::chip::Chip;
use crate::drive::{self, Drive};
use crate::script::{Row, Script};
use crate::station::Station;
use crate::string::{Call, ScsiString};

const DEFAULT_CHIP: u8 = 7;

pub enum Image {
    File { path: PathBuf, bytes: Vec<u8> },
    Pattern(u16),
}

pub enum StationSetup {
    Script { address: u8, rows: Vec<Row> },
    Drive { address: u8, image: Image },
}

pub struct BreakerSetup {
    pub every: u16,
    pub host: u8,
}

/// What stands before the calls of a session.
pub struct Setup {
    pub chip: Option<u8>,
    pub station: StationSetup,
    pub breaker: Option<BreakerSetup>,
}

pub struct Session {
    pub setup: Setup,
    pub calls: Vec<Call>,
}

impl Setup {
    pub fn chip_address(&self) -> Address {
        Address::new(self.chip.unwrap_or(DEFAULT_CHIP))
    }

    pub fn build(&self) -> ScsiString {
        let bare = match &self.station {
            StationSetup::Script { address, rows } => {
                Station::Script(Script::new(Address::new(*address), rows))
            }
            StationSetup::Drive { address, image } => {
                let address = Address::new(*address);
                Station::Drive(match image {
                    Image::File { bytes, .. } => Drive::new(address, bytes),
                    Image::Pattern(blocks) => Drive::new(address, &drive::pattern((*blocks).into())),
                })
            }
        };
        let station = match &self.breaker {
            None => bare,
            Some(BreakerSetup { every, host }) => {
                Station::Breaker(Box::new(Breaker::new(bare, *every, Address::new(*host))))
            }
        };
        ScsiString {
            chip: Chip::new(self.chip_address()),
            station,
        }
    }

    fn write(&self, out: &mut impl Write) -> io::Result<()> {
        if let Some(chip) = self.chip {
            writeln!(out, "chip {chip}")?;
        }
        match &self.station {
            StationSetup::Script { address, rows } => {
                writeln!(out, "script {address}")?;
                for row in rows {
                    let Row {
                        kind,
                        phase,
                        byte,
                        parity,
                        next,
                    } = row;
                    writeln!(out, "row {kind} {phase} {byte} {parity} {next}")?;
                }
            }
            StationSetup::Drive { address, image } => match image {
                Image::File { path, .. } => writeln!(out, "drive {address} file {}", path.display())?,
                Image::Pattern(blocks) => writeln!(out, "drive {address} pattern {blocks}")?,
            },
        }
        if let Some(BreakerSetup { every, host }) = &self.breaker {
            writeln!(out, "breaker {every} {host}")?;
        }
        Ok(())
    }
}

impl Session {
    pub fn write(&self, out: &mut impl Write) -> io::Result<()> {
        writeln!(out, "session")?;
        self.setup.write(out)?;
        for Call { kind, address, value } in &self.calls {
            writeln!(out, "call {kind} {address} {value}")?;
        }
        Ok(())
    }
}

#[derive(Debug)]
pub enum ReadError {
    Input(io::Error),
    Expected { line: u64, what: String },
}

impl fmt::Display for ReadError {
    fn fmt(&self, f: &mut fmt::Formatter) -> fmt::Result {
        match self {
            ReadError::Input(error) => write!(f, "standard input: {error}"),
            ReadError::Expected { line, what } => write!(f, "line {line}: expected {what}"),
        }
    }
}

/// A session as far as it has been read.
#[derive(Default)]
struct Draft {
    chip: Option<u8>,
    station: Option<StationSetup>,
    breaker: Option<BreakerSetup>,
    calls: Vec<Call>,
}

impl Draft {
    /// What may come next, for a message.
    fn expected(&self) -> &'static str {
        match (&self.station, &self.breaker) {
            _ if !self.calls.is_empty() => "`call` or `session`",
            (None, _) if self.chip.is_some() => "`script` or `drive`",
            (None, _) => "`chip`, `script` or `drive`",
            (Some(_), Some(_)) => "`call` or `session`",
            (Some(StationSetup::Script { .. }), None) => "`row`, `breaker`, `call` or `session`",
            (Some(StationSetup::Drive { .. }), None) => "`breaker`, `call` or `session`",
        }
    }

    fn finish(self) -> Result<Session, String> {
        let expected = self.expected();
        let station = self
            .station
            .ok_or_else(|| format!("{expected}: the session has no station"))?;
        Ok(Session {
            setup: Setup {
                chip: self.chip,
                station,
                breaker: self.breaker,
            },
            calls: self.calls,
        })
    }

    /// Adds one line to the session, whose first word is `word`.
    fn add(&mut self, word: &[u8], rest: &mut Words) -> Result<(), String> {
        let before_station = self.station.is_none();
        let before_calls = self.calls.is_empty();
        let before_breaker = self.breaker.is_none() && before_calls && !before_station;
        match word {
            b"call" if !before_station => self.calls.push(read_call(rest)?),
            b"chip" if before_station && self.chip.is_none() => {
                self.chip = Some(rest.byte("the chip's address")?);
            }
            b"script" if before_station => {
                let address = rest.byte("the script's address")?;
                self.station = Some(StationSetup::Script {
                    address,
                    rows: Vec::new(),
                });
            }
            b"drive" if before_station => self.station = Some(read_drive(rest)?),
            b"breaker" if before_breaker => {
                let every = rest.number("the breaker's number of bytes", u16::MAX.into())? as u16;
                let host = rest.byte("the host's address")?;
                self.breaker = Some(BreakerSetup { every, host });
            }
            b"row" if before_breaker => match &mut self.station {
                Some(StationSetup::Script { rows, .. }) => rows.push(read_row(rest)?),
                _ => return Err(self.expected().into()),
            },
            _ => return Err(self.expected().into()),
        }
        rest.end()
    }
}

fn read_call(words: &mut Words) -> Result<Call, String> {
    Ok(Call {
        kind: words.byte("the call's kind")?,
        address: words.byte("the call's address")?,
        value: words.byte("the call's value")?,
    })
}

fn read_row(words: &mut Words) -> Result<Row, String> {
    Ok(Row {
        kind: words.byte("the row's kind")?,
        phase: words.byte("the row's phase")?,
        byte: words.byte("the row's byte")?,
        parity: words.byte("the row's parity")?,
        next: words.number("the row's next", u32::MAX)?,
    })
}

fn read_drive(words: &mut Words) -> Result<StationSetup, String> {
    let address = words.byte("the drive's address")?;
    let image = match words.next() {
        Some(b"file") => {
            let path = words.next().ok_or("the path of an image")?;
            read_image(path)?
        }
        Some(b"pattern") => {
            let most = drive::BLOCKS_THAT_COUNT as u32;
            Image::Pattern(words.number("the number of blocks", most)? as u16)
        }
        _ => return Err("`file` or `pattern`".into()),
    };
    Ok(StationSetup::Drive { address, image })
}

fn read_image(path: &[u8]) -> Result<Image, String> {
    let path = PathBuf::from(OsStr::from_bytes(path));
    match std::fs::read(&path) {
        Ok(bytes) => Ok(Image::File { path, bytes }),
        Err(error) => Err(format!(
            "an image that can be read at {}: {error}",
            path.display()
        )),
    }
}

/// The words of one line.
struct Words<'a> {
    rest: &'a [u8],
}

impl<'a> Words<'a> {
    /// A comment begins at `#` wherever it stands.
    fn new(line: &'a [u8]) -> Words<'a> {
        let length = line.iter().position(|&b| b == b'#').unwrap_or(line.len());
        Words {
            rest: &line[..length],
        }
    }

    fn next(&mut self) -> Option<&'a [u8]> {
        let start = self.rest.iter().position(|b| !is_blank(*b))?;
        let rest = &self.rest[start..];
        let length = rest.iter().position(|b| is_blank(*b)).unwrap_or(rest.len());
        self.rest = &rest[length..];
        Some(&rest[..length])
    }

    fn byte(&mut self, what: &str) -> Result<u8, String> {
        self.number(what, u8::MAX.into()).map(|number| number as u8)
    }

    fn number(&mut self, what: &str, most: u32) -> Result<u32, String> {
        self.next()
            .and_then(parse_number)
            .filter(|&number| number <= most)
            .ok_or_else(|| format!("{what}, 0 to {most}"))
    }

    fn end(&mut self) -> Result<(), String> {
        match self.next() {
            None => Ok(()),
            Some(_) => Err("the end of the line".into()),
        }
    }
}

fn is_blank(byte: u8) -> bool {
    byte.is_ascii_whitespace()
}

fn parse_number(word: &[u8]) -> Option<u32> {
    word.iter().try_fold(0u32, |number, &digit| {
        if !digit.is_ascii_digit() {
            return None;
        }
        number.checked_mul(10)?.checked_add(u32::from(digit - b'0'))
    })
}

/// Reads sessions one after the other.
pub struct Reader<R> {
    input: R,
    line: Vec<u8>,
    line_number: u64,
    /// The session whose end has not been met. None before the first and after the last.
    draft: Option<Draft>,
}

impl<R: BufRead> Reader<R> {
    pub fn new(input: R) -> Reader<R> {
        Reader {
            input,
            line: Vec::new(),
            line_number: 0,
            draft: None,
        }
    }

    /// The next session, or none at the end of the input.
    pub fn next(&mut self) -> Result<Option<Session>, ReadError> {
        while self.next_line()? {
            let finished = self.take_line().map_err(|what| self.expected(what))?;
            if finished.is_some() {
                return Ok(finished);
            }
        }
        match self.draft.take() {
            None => Ok(None),
            Some(draft) => draft.finish().map(Some).map_err(|what| self.expected(what)),
        }
    }

    /// Reads a line. At the end of the input, the line number is that of the line behind the last.
    fn next_line(&mut self) -> Result<bool, ReadError> {
        self.line.clear();
        self.line_number += 1;
        let length = self
            .input
            .read_until(b'\n', &mut self.line)
            .map_err(ReadError::Input)?;
        Ok(length > 0)
    }

    /// Deals with one line. Answers the session that it ends, if it ends one.
    fn take_line(&mut self) -> Result<Option<Session>, String> {
        let mut words = Words::new(&self.line);
        match words.next() {
            None => Ok(None),
            Some(b"session") => {
                words.end()?;
                self.draft
                    .replace(Draft::default())
                    .map(Draft::finish)
                    .transpose()
            }
            Some(word) => {
                self.draft
                    .get_or_insert_with(Draft::default)
                    .add(word, &mut words)?;
                Ok(None)
            }
        }
    }

    fn expected(&self, what: String) -> ReadError {
        ReadError::Expected {
            line: self.line_number,
            what,
        }
    }
}
