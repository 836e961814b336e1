//! Commands, the other calls, refusals and losses.

use std::io::{self, Write};

use super::{state_name, Event, Tally};
use crate::chip::{command, line, register, Chip, State};
use crate::string::kind;

/// The command code that a call writes, if it writes one.
fn code_written(event: &Event) -> Option<u8> {
    let to_command = event.call.kind == kind::WRITE && event.call.address == register::COMMAND;
    to_command.then_some(event.call.value & command::CODE_BITS)
}

fn refused(event: &Event) -> bool {
    event.answer.refusal != 0
}

/// Every command code in every state of the chip.
pub struct Commands {
    cells: [[Cell; State::ALL.len()]; 32],
}

#[derive(Clone, Copy, Default)]
struct Cell {
    accepted: u64,
    refused: u64,
}

impl Commands {
    pub fn new() -> Commands {
        Commands {
            cells: Default::default(),
        }
    }

    pub fn count(&mut self, event: &Event) {
        let Some(code) = code_written(event) else { return };
        let cell = &mut self.cells[usize::from(code)][event.before.chip.state() as usize];
        if refused(event) {
            cell.refused += 1;
        } else {
            cell.accepted += 1;
        }
    }

    pub fn print(&self, out: &mut impl Write) -> io::Result<()> {
        writeln!(out, "## Command codes in each state, accepted / refused\n")?;
        let states = State::ALL.map(state_name).join(" | ");
        writeln!(
            out,
            "| code | {states} |\n|---|{}",
            "---:|".repeat(State::ALL.len())
        )?;
        for (code, row) in self.cells.iter().enumerate() {
            let cells = row
                .map(|cell| format!("{} / {}", cell.accepted, cell.refused))
                .join(" | ");
            writeln!(out, "| {code:02X}h | {cells} |")?;
        }
        writeln!(out)
    }

    pub fn zeros(&self) -> impl Iterator<Item = String> + '_ {
        self.cells.iter().enumerate().flat_map(|(code, row)| {
            let zero = move |&(cell, _): &(&Cell, State)| cell.accepted + cell.refused == 0;
            row.iter()
                .zip(State::ALL)
                .filter(zero)
                .map(move |(_, state)| format!("Command codes: {code:02X}h, {}", state_name(state)))
        })
    }
}

pub fn commands_tally() -> Tally {
    Tally::new(
        "What commands do",
        [
            "Chip Reset, ACK off",
            "Chip Reset, ACK on: told",
            "Chip Reset of a disabled chip",
            "Disconnect, ACK off",
            "Disconnect, ACK on and waiting: told",
            "Disconnect, ACK on and transferring: told",
            "Disconnect, INT on",
            "Disconnect: nothing, since not connected",
            "Pause, idle",
            "Pause, arbitrating",
            "Pause, selecting",
            "Pause: nothing, since INT is on",
            "Pause: nothing, since connected",
            "Set ATN, waiting",
            "Set ATN, asked",
            "Set ATN, transferring",
            "Set ATN, INT on",
            "Set ATN: nothing, since not connected",
            "Message Accepted, INT off: told",
            "Message Accepted, INT on: told",
            "Message Accepted: nothing, since ACK is off",
            "Message Accepted: nothing, since in a transfer",
            "Chip Disable, ACK off",
            "Chip Disable, ACK on: told",
            "06h or 07h: nothing",
            "Select with ATN",
            "Select without ATN",
            "Transfer Info",
            "Transfer Pad",
            "Transfer with DMA",
            "Transfer without DMA",
            "Transfer with Single Byte",
            "Transfer without Single Byte, counter zero",
            "Transfer in each phase: 0",
            "Transfer in each phase: 1",
            "Transfer in each phase: 2",
            "Transfer in each phase: 3",
            "Transfer in each phase: 4",
            "Transfer in each phase: 5",
            "Transfer in each phase: 6",
            "Transfer in each phase: 7",
            "40h, Select while asked",
            "40h, a transfer while idle",
            "40h, another code while idle",
            "40h, another code while asked",
            "A stored code clears Paused",
        ],
    )
}

pub fn count_command(tally: &mut Tally, event: &Event) {
    let Some(code) = code_written(event) else { return };
    if refused(event) {
        return;
    }
    let chip = &event.before.chip;
    match code {
        command::CHIP_RESET => tally.hit(reset_name(chip)),
        command::DISCONNECT => {
            tally.hit(disconnect_name(chip));
            tally.hit_if(connected(chip) && chip.int(), "Disconnect, INT on");
        }
        command::PAUSE => tally.hit(pause_name(chip)),
        command::SET_ATN if connected(chip) => {
            tally.hit(&format!("Set ATN, {}", state_name(chip.state())));
            tally.hit_if(chip.int(), "Set ATN, INT on");
        }
        command::SET_ATN => tally.hit("Set ATN: nothing, since not connected"),
        command::MESSAGE_ACCEPTED => tally.hit(message_name(chip)),
        command::CHIP_DISABLE if chip.ack() => tally.hit("Chip Disable, ACK on: told"),
        command::CHIP_DISABLE => tally.hit("Chip Disable, ACK off"),
        0x06 | 0x07 => tally.hit("06h or 07h: nothing"),
        _ => count_stored(tally, event, code),
    }
}

fn connected(chip: &Chip) -> bool {
    chip.lines() & line::CONNECTED != 0
}

fn reset_name(chip: &Chip) -> &'static str {
    match chip.state() {
        State::Disabled => "Chip Reset of a disabled chip",
        _ if chip.ack() => "Chip Reset, ACK on: told",
        _ => "Chip Reset, ACK off",
    }
}

fn disconnect_name(chip: &Chip) -> &'static str {
    match chip.state() {
        _ if !connected(chip) => "Disconnect: nothing, since not connected",
        _ if !chip.ack() => "Disconnect, ACK off",
        State::Transferring => "Disconnect, ACK on and transferring: told",
        _ => "Disconnect, ACK on and waiting: told",
    }
}

fn pause_name(chip: &Chip) -> &'static str {
    match chip.state() {
        _ if connected(chip) => "Pause: nothing, since connected",
        _ if chip.int() => "Pause: nothing, since INT is on",
        State::Arbitrating => "Pause, arbitrating",
        State::Selecting => "Pause, selecting",
        _ => "Pause, idle",
    }
}

fn message_name(chip: &Chip) -> &'static str {
    match (chip.ack(), chip.state()) {
        (false, _) => "Message Accepted: nothing, since ACK is off",
        (true, State::Transferring) => "Message Accepted: nothing, since in a transfer",
        (true, _) if chip.int() => "Message Accepted, INT on: told",
        (true, _) => "Message Accepted, INT off: told",
    }
}

fn count_stored(tally: &mut Tally, event: &Event, code: u8) {
    let chip = &event.before.chip;
    tally.hit_if(chip.paused(), "A stored code clears Paused");
    let asked = chip.state() == State::Asked;
    match code {
        command::SELECT_WITH_ATN | command::SELECT if asked => tally.hit("40h, Select while asked"),
        command::SELECT_WITH_ATN => tally.hit("Select with ATN"),
        command::SELECT => tally.hit("Select without ATN"),
        command::TRANSFER_INFO | command::TRANSFER_PAD if !asked => tally.hit("40h, a transfer while idle"),
        command::TRANSFER_INFO | command::TRANSFER_PAD => count_transfer(tally, &event.after.chip),
        _ if asked => tally.hit("40h, another code while asked"),
        _ => tally.hit("40h, another code while idle"),
    }
}

/// `chip` is in the transfer that has just begun.
fn count_transfer(tally: &mut Tally, chip: &Chip) {
    tally.hit(if chip.padding() {
        "Transfer Pad"
    } else {
        "Transfer Info"
    });
    tally.hit(if chip.dma_transfer() {
        "Transfer with DMA"
    } else {
        "Transfer without DMA"
    });
    tally.hit_if(chip.single_byte(), "Transfer with Single Byte");
    tally.hit_if(chip.left() == 0, "Transfer without Single Byte, counter zero");
    tally.hit(&format!("Transfer in each phase: {}", chip.phase().number()));
}

pub fn others_tally() -> Tally {
    let fixed = [
        "tick: not selecting",
        "tick: selecting, counter zero",
        "tick: counted",
        "tick: timed out",
        "reset, ACK off",
        "reset, ACK on: told",
        "reset of a disabled chip",
        "read Interrupt: 0",
        "read Interrupt: 1",
        "read Interrupt: 2",
        "read Interrupt: 4",
        "read Interrupt: 16",
        "read Interrupt: 64",
        "read Interrupt clears Parity Error, INT on",
        "read Interrupt clears Parity Error, INT off",
        "read Source ID: valid",
        "read Source ID: not valid, not as new",
        "read Auxiliary Status: Full, received",
        "read Auxiliary Status: Full, written",
        "read Auxiliary Status: Parity Error",
        "read Auxiliary Status: Paused",
        "read Auxiliary Status: Counter Zero in a transfer under Single Byte",
        "read Command: under way",
        "DREQ for a received byte",
        "DREQ for a byte to send",
        "DREQ off in an output with nothing left",
        "a read of Data of the first of two bytes",
    ];
    let registers =
        [0, 1, 2, 3, 4, 5, 6, 7, 9, 12, 13, 14].map(|address| format!("read of register {address}"));
    let writes = [0, 1, 2, 3, 12, 13, 14].map(|address| format!("write of register {address}"));
    let names = fixed.map(String::from).into_iter().chain(registers).chain(writes);
    Tally::new(
        "Other calls",
        names.chain(["DMA read".into(), "DMA write".into()]),
    )
}

pub fn count_other(tally: &mut Tally, event: &Event) {
    if refused(event) {
        return;
    }
    count_dreq(tally, event);
    match event.call.kind {
        kind::READ => count_read(tally, event),
        kind::WRITE => tally.hit(&format!("write of register {}", event.call.address)),
        kind::DMA_READ => tally.hit("DMA read"),
        kind::DMA_WRITE => tally.hit("DMA write"),
        kind::TICK => tally.hit(tick_name(event)),
        kind::RESET => tally.hit(match event.before.chip.state() {
            State::Disabled => "reset of a disabled chip",
            _ if event.before.chip.ack() => "reset, ACK on: told",
            _ => "reset, ACK off",
        }),
        _ => {}
    }
}

fn count_dreq(tally: &mut Tally, event: &Event) {
    let chip = &event.after.chip;
    let dreq = event.answer.lines & line::DREQ != 0;
    tally.hit_if(dreq && chip.received() > 0, "DREQ for a received byte");
    tally.hit_if(dreq && chip.received() == 0, "DREQ for a byte to send");
    let output = chip.dma_transfer() && !chip.phase().is_input();
    let sent_all = output && chip.left() == 0 && !chip.has_written();
    tally.hit_if(sent_all && !dreq, "DREQ off in an output with nothing left");
}

fn tick_name(event: &Event) -> &'static str {
    let (before, after) = (&event.before.chip, &event.after.chip);
    match before.state() {
        State::Selecting if before.counter() == 0 => "tick: selecting, counter zero",
        State::Selecting if after.counter() == 0 => "tick: timed out",
        State::Selecting => "tick: counted",
        _ => "tick: not selecting",
    }
}

fn count_read(tally: &mut Tally, event: &Event) {
    let (chip, value) = (&event.before.chip, event.answer.value);
    tally.hit(&format!("read of register {}", event.call.address));
    match event.call.address {
        register::DATA => tally.hit_if(chip.received() == 2, "a read of Data of the first of two bytes"),
        register::COMMAND => tally.hit_if(value != 0, "read Command: under way"),
        register::INTERRUPT => {
            tally.hit(&format!("read Interrupt: {value}"));
            let parity_error = chip.parity_error();
            tally.hit_if(
                parity_error && chip.int(),
                "read Interrupt clears Parity Error, INT on",
            );
            tally.hit_if(
                parity_error && !chip.int(),
                "read Interrupt clears Parity Error, INT off",
            );
        }
        register::SOURCE => {
            tally.hit_if(value & 0x80 != 0, "read Source ID: valid");
            tally.hit_if(value < 7, "read Source ID: not valid, not as new");
        }
        register::AUXILIARY => count_auxiliary(tally, chip, value),
        _ => {}
    }
}

fn count_auxiliary(tally: &mut Tally, chip: &Chip, value: u8) {
    tally.hit_if(chip.received() > 0, "read Auxiliary Status: Full, received");
    tally.hit_if(chip.has_written(), "read Auxiliary Status: Full, written");
    tally.hit_if(value & 0x40 != 0, "read Auxiliary Status: Parity Error");
    tally.hit_if(value & 0x04 != 0, "read Auxiliary Status: Paused");
    let single = chip.state() == State::Transferring && chip.single_byte();
    tally.hit_if(
        single && value & 0x02 != 0,
        "read Auxiliary Status: Counter Zero in a transfer under Single Byte",
    );
}

pub fn refusals_tally() -> Tally {
    Tally::new(
        "Refusals",
        [
            "read 3",
            "read 1",
            "read 7",
            "read 6",
            "write 3",
            "write 1",
            "write 2",
            "write 7",
            "write 6, no output transfer",
            "write 6, nothing left",
            "write 6, a byte written already",
            "write 5, Destination ID",
            "write 5, counter",
            "write 4",
            "write 5, Command",
            "DMA read 3",
            "DMA read 7",
            "DMA read 6",
            "DMA write 3",
            "DMA write 7",
            "DMA write 6, no output transfer",
            "DMA write 6, nothing left",
            "DMA write 6, a byte written already",
            "tick 3",
            "turn 3",
            "no call 9",
            "no call 9, disabled",
        ],
    )
}

pub fn count_refusal(tally: &mut Tally, event: &Event) {
    if !refused(event) {
        return;
    }
    let call = match event.call.kind {
        kind::READ => "read",
        kind::WRITE => "write",
        kind::DMA_READ => "DMA read",
        kind::DMA_WRITE => "DMA write",
        kind::TICK => "tick",
        kind::TURN => "turn",
        _ => "no call",
    };
    let chip = &event.before.chip;
    let number = event.answer.refusal;
    let writes = matches!(event.call.kind, kind::WRITE | kind::DMA_WRITE);
    let detail = match (number, event.call.address) {
        (6, _) if writes => unwanted_name(chip),
        (5, register::COMMAND) => ", Command",
        (5, register::DESTINATION) => ", Destination ID",
        (5, _) => ", counter",
        (9, _) if chip.state() == State::Disabled => ", disabled",
        _ => "",
    };
    tally.hit(&format!("{call} {number}{detail}"));
}

/// Why no byte is wanted.
fn unwanted_name(chip: &Chip) -> &'static str {
    let output = chip.state() == State::Transferring && !chip.phase().is_input();
    match output {
        false => ", no output transfer",
        true if chip.left() == 0 => ", nothing left",
        true => ", a byte written already",
    }
}

/// Who lost bytes, and which.
pub struct Losses(Tally);

impl Losses {
    pub fn new() -> Losses {
        let mut names = Vec::new();
        for who in ["reset", "Chip Reset", "Disconnect", "Chip Disable"] {
            for what in ["one received", "two received", "a written one"] {
                names.push(format!("{who}: {what}"));
            }
        }
        for who in [
            "Select",
            "a transfer",
            "an invalid code while idle",
            "an invalid code while asked",
        ] {
            names.push(format!("{who}: a written one"));
        }
        names.push("a turn under Pad: one received".into());
        names.push("a written one, with another phase latched by then".into());
        Losses(Tally::new("Losses", names))
    }

    pub fn tally(&self) -> &Tally {
        &self.0
    }

    pub fn count(&mut self, event: &Event) {
        if event.answer.lost == 0 {
            return;
        }
        let chip = &event.before.chip;
        let what = match (event.answer.lost, chip.has_written()) {
            (_, true) => "a written one",
            (1, false) => "one received",
            _ => "two received",
        };
        self.0.hit(&format!("{}: {what}", loser_name(event)));
        let moved_on = chip.has_written() && event.answer.phase != chip.phase().number();
        self.0
            .hit_if(moved_on, "a written one, with another phase latched by then");
    }
}

fn loser_name(event: &Event) -> &'static str {
    let state_after = event.after.chip.state();
    match code_written(event) {
        Some(command::CHIP_RESET) => "Chip Reset",
        Some(command::DISCONNECT) => "Disconnect",
        Some(command::CHIP_DISABLE) => "Chip Disable",
        Some(_) if state_after == State::Arbitrating => "Select",
        Some(_) if state_after == State::Transferring => "a transfer",
        Some(_) if state_after == State::Idle => "an invalid code while idle",
        Some(_) => "an invalid code while asked",
        None if event.call.kind == kind::RESET => "reset",
        None => "a turn under Pad",
    }
}
