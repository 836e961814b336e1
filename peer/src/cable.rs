//! The words of the cable: phases, parity, addresses and ID bytes.

/// What travels on the data lines, and which way.
#[derive(Clone, Copy, PartialEq, Eq, Debug)]
pub enum Phase {
    DataOut,
    UnspecifiedOut,
    Command,
    MessageOut,
    DataIn,
    UnspecifiedIn,
    Status,
    MessageIn,
}

impl Phase {
    /// All phases, each at the place of its number.
    pub const ALL: [Phase; 8] = [
        Phase::DataOut,
        Phase::UnspecifiedOut,
        Phase::Command,
        Phase::MessageOut,
        Phase::DataIn,
        Phase::UnspecifiedIn,
        Phase::Status,
        Phase::MessageIn,
    ];

    pub fn number(self) -> u8 {
        self as u8
    }

    pub fn numbered(number: u8) -> Option<Phase> {
        Phase::ALL.get(number as usize).copied()
    }

    /// Bytes of an input travel to the initiator, which is where the chip stands.
    pub fn is_input(self) -> bool {
        self.number() >= 4
    }
}

#[derive(Clone, Copy, PartialEq, Eq, Debug)]
pub enum Parity {
    Good,
    Bad,
}

/// A station's address, 0 to 7.
#[derive(Clone, Copy, PartialEq, Eq, Debug)]
pub struct Address(u8);

impl Address {
    /// Larger numbers are taken mod 8.
    pub fn new(number: u8) -> Address {
        Address(number % 8)
    }

    pub fn number(self) -> u8 {
        self.0
    }

    fn bit(self) -> u8 {
        1 << self.0
    }
}

/// What the data lines carry in a selection or reselection: bit n is set for station n.
#[derive(Clone, Copy, PartialEq, Eq, Debug)]
pub struct IdByte(pub u8);

impl IdByte {
    pub fn of_pair(one: Address, other: Address) -> IdByte {
        IdByte(one.bit() | other.bit())
    }

    /// The other station, where exactly `own` and one other bit are set.
    pub fn decode(self, own: Address) -> Option<Address> {
        let others = self.0 & !own.bit();
        let own_bit_set = self.0 & own.bit() != 0;
        if own_bit_set && others.count_ones() == 1 {
            Some(Address(others.trailing_zeros() as u8))
        } else {
            None
        }
    }
}
