//! A station that plays a table of rows.

use std::rc::Rc;

use crate::cable::{Address, IdByte, Parity, Phase};
use crate::station::Wish;

/// Rows beyond this many are not looked at.
pub const ROWS_THAT_COUNT: usize = 4096;

/// One row as it was given; its numbers need not exist.
#[derive(Clone, Copy, Debug)]
pub struct Row {
    pub kind: u8,
    pub phase: u8,
    pub byte: u8,
    pub parity: u8,
    pub next: u32,
}

/// Why a row makes no record.
#[derive(Clone, Copy, PartialEq, Eq, Debug)]
pub enum RowFault {
    Kind,
    Phase,
    Parity,
}

impl Row {
    /// The wish of the row's record. All three numbers are looked at whatever the kind is.
    pub fn record(&self) -> Result<Wish, RowFault> {
        if self.kind > 4 {
            return Err(RowFault::Kind);
        }
        let phase = Phase::numbered(self.phase).ok_or(RowFault::Phase)?;
        let parity = match self.parity {
            0 => Parity::Good,
            1 => Parity::Bad,
            _ => return Err(RowFault::Parity),
        };
        Ok(match self.kind {
            0 => Wish::Off,
            1 => Wish::Back(IdByte(self.byte), parity),
            2 => Wish::Hold(phase),
            3 => Wish::request(phase, self.byte, parity),
            _ => Wish::Go,
        })
    }

    /// A row without a record is played as Off.
    fn wish(&self) -> Wish {
        self.record().unwrap_or(Wish::Off)
    }
}

/// How the chain goes on behind a row.
#[derive(Clone, Copy, PartialEq, Eq, Debug)]
pub enum Follow {
    /// At the row with this index.
    Row(usize),
    /// The next is zero.
    RightEnd,
    /// The next is the row's own number or a lower one.
    NotUpward,
    /// The next lies beyond the rows that count.
    Beyond,
}

/// Where the script stands. Rows are indexed from zero here, though their numbers begin at 1.
#[derive(Clone, Copy, PartialEq, Eq, Debug)]
pub enum Place {
    Row(usize),
    /// Behind the last record: Off.
    End,
    /// Chosen behind the last record: one Go.
    FarewellGo,
}

#[derive(Clone)]
pub struct Script {
    address: Address,
    rows: Rc<[Row]>,
    place: Place,
}

impl Script {
    pub fn new(address: Address, rows: &[Row]) -> Script {
        let counted = &rows[..rows.len().min(ROWS_THAT_COUNT)];
        let place = if counted.is_empty() {
            Place::End
        } else {
            Place::Row(0)
        };
        Script {
            address,
            rows: counted.into(),
            place,
        }
    }

    pub fn address(&self) -> Address {
        self.address
    }

    pub fn place(&self) -> Place {
        self.place
    }

    pub fn rows(&self) -> &[Row] {
        &self.rows
    }

    pub fn wish(&self) -> Wish {
        match self.place {
            Place::Row(index) => self.rows[index].wish(),
            Place::End => Wish::Off,
            Place::FarewellGo => Wish::Go,
        }
    }

    pub fn follow(&self, index: usize) -> Follow {
        let number = index as u64 + 1;
        let next = u64::from(self.rows[index].next);
        if next == 0 {
            Follow::RightEnd
        } else if next <= number {
            Follow::NotUpward
        } else if next > self.rows.len() as u64 {
            Follow::Beyond
        } else {
            Follow::Row(next as usize - 1)
        }
    }

    pub fn told(&mut self) {
        match self.place {
            Place::FarewellGo => self.place = Place::End,
            Place::Row(index) if self.wish() != Wish::Off => self.place = self.place_after(index),
            Place::Row(_) | Place::End => {}
        }
    }

    pub fn chosen(&mut self, address: Address) -> bool {
        if address != self.address || self.wish() != Wish::Off {
            return false;
        }
        self.place = match self.place {
            Place::Row(index) => self.place_after(index),
            Place::End | Place::FarewellGo => Place::FarewellGo,
        };
        true
    }

    /// The bytes of the Data In records from the present one on.
    pub fn waiting(&self) -> usize {
        let mut count = 0;
        let mut place = self.place;
        while let Place::Row(index) = place {
            if self.rows[index].wish().is_data_in() {
                count += 1;
            }
            place = self.place_after(index);
        }
        count
    }

    fn place_after(&self, index: usize) -> Place {
        match self.follow(index) {
            Follow::Row(next) => Place::Row(next),
            Follow::RightEnd | Follow::NotUpward | Follow::Beyond => Place::End,
        }
    }
}
