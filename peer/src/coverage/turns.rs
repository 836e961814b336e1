//! The seven rules of the turn, each broken up into what can come of it.

use super::{state_name, Event, Tally};
use crate::cable::{Address, IdByte, Parity, Phase};
use crate::chip::{BackFault, Chip, Move, State, PARITY_ENABLE};
use crate::station::Wish;
use crate::string::kind;

pub fn tally() -> Tally {
    Tally::new("The turn", names())
}

fn names() -> Vec<String> {
    let mut names = Vec::new();
    let mut add = |text: &[&str]| names.extend(text.iter().map(|name| name.to_string()));
    add(&[
        "1 an interrupt is pending",
        "1 ACK is on outside a transfer",
        "2 ACK is on and bytes are unread",
        "2 the message is done",
    ]);
    for state in ["idle", "arbitrating"] {
        for case in [
            "reselected",
            "Back passed over: not enabled",
            "Back passed over: bad parity",
            "Back passed over: own bit missing",
            "Back passed over: own bit alone",
            "Back passed over: two others or more",
            "Hold told",
            "Go told",
            "Req passed over",
        ] {
            add(&[&format!("3 {state}: {case}")]);
        }
    }
    add(&[
        "3 idle: Off",
        "3 arbitrating: Off, selecting with ATN",
        "3 arbitrating: Off, selecting without ATN",
        "4 yes with ATN",
        "4 yes without ATN",
        "4 no with ATN",
        "4 no without ATN",
        "5 waiting: Req latched, the same phase as before",
        "5 waiting: Req latched, another phase",
        "5 asked: Req in the latched phase",
        "5 asked: Req latched, another phase",
    ]);
    for state in ["waiting", "asked"] {
        for case in CONNECTED_CASES {
            add(&[&format!("5 {state}: {case}")]);
        }
    }
    add(&BYTE_CASES);
    for wish in [
        "Req in the latched phase, nothing left",
        "Req in another phase",
        "Hold in the latched phase",
        "Hold in another phase",
        "Go",
        "Off",
        "Back",
    ] {
        add(&[&format!("7 bytes are unread: {wish}")]);
    }
    add(&[
        "7 Req in the latched phase, nothing left: latched",
        "7 Req in another phase, nothing left: latched",
        "7 Req in another phase, something left: latched",
    ]);
    for case in CONNECTED_CASES {
        add(&[&format!("7 transferring: {case}")]);
    }
    names
}

const CONNECTED_CASES: [&str; 5] = [
    "Hold in the latched phase told",
    "Hold in another phase latched and told",
    "Go told, idle",
    "Off",
    "Back",
];

const BYTE_CASES: [&str; 23] = [
    "6 in, Info: kept as the first",
    "6 in, Info: kept as the second",
    "6 in, Info: no place",
    "6 in, Info: bad parity, enabled",
    "6 in, Info: bad parity, not enabled",
    "6 in, Info: the last by the counter",
    "6 in, Info: the last by Single Byte",
    "6 in, Info: the last of Message In",
    "6 in, Pad: thrown away",
    "6 in, Pad: bad parity under Parity Enable",
    "6 in, Pad: the last",
    "6 in, Pad: the last of Message In",
    "6 out, Info: sent",
    "6 out, Info: the last by the counter",
    "6 out, Info: the last by Single Byte",
    "6 out, Info: the last of Message Out, ATN on",
    "6 out, Info: the last of Message Out, ATN off",
    "6 out, Info: no byte",
    "6 out, Pad: sent",
    "6 out, Pad: the last",
    "6 out, Pad: the last of Message Out, ATN on",
    "6 out, Pad: the last of Message Out, ATN off",
    "6 out, Pad: no byte",
];

pub fn count(tally: &mut Tally, event: &Event) {
    if event.call.kind != kind::TURN || event.answer.refusal != 0 {
        return;
    }
    let chip = &event.before.chip;
    let wish = event.before.station.wish();
    let state = state_name(chip.state());
    match chip.decide(wish) {
        Move::InterruptPending => tally.hit("1 an interrupt is pending"),
        Move::AckHeld => tally.hit("1 ACK is on outside a transfer"),
        Move::AckUnread => tally.hit("2 ACK is on and bytes are unread"),
        Move::MessageDone => tally.hit("2 the message is done"),
        Move::Reselected(_) => tally.hit(&format!("3 {state}: reselected")),
        Move::BackPassedOver(fault) => {
            tally.hit(&format!(
                "3 {state}: Back passed over: {}",
                fault_name(fault, wish, chip.id())
            ));
        }
        Move::ReqPassedOver => tally.hit(&format!("3 {state}: Req passed over")),
        Move::ToldOffCable if wish == Wish::Go => tally.hit(&format!("3 {state}: Go told")),
        Move::ToldOffCable => tally.hit(&format!("3 {state}: Hold told")),
        Move::Quiet => tally.hit("3 idle: Off"),
        Move::Won => {
            let atn = with_atn(event.after.chip.atn());
            tally.hit(&format!("3 arbitrating: Off, selecting {atn}"));
        }
        Move::Choosing => {
            let yes = if event.after.chip.state() == State::Waiting {
                "yes"
            } else {
                "no"
            };
            tally.hit(&format!("4 {yes} {}", with_atn(chip.atn())));
        }
        Move::Latched { .. } | Move::HoldTold | Move::Gone | Move::NothingNew => {
            count_connected(tally, chip, wish);
        }
        Move::Kept { .. } | Move::NoPlace => count_info_in(tally, chip, wish),
        Move::PaddedIn(_) => count_pad_in(tally, chip, wish),
        Move::Sent(_) => count_sent(tally, chip),
        Move::NoByteToSend if chip.padding() => tally.hit("6 out, Pad: no byte"),
        Move::NoByteToSend => tally.hit("6 out, Info: no byte"),
        Move::Unread => tally.hit(&format!("7 bytes are unread: {}", unread_name(chip, wish))),
    }
}

fn with_atn(atn: bool) -> &'static str {
    if atn {
        "with ATN"
    } else {
        "without ATN"
    }
}

fn fault_name(fault: BackFault, wish: Wish, own: Address) -> &'static str {
    match (fault, wish) {
        (BackFault::NotEnabled, _) => "not enabled",
        (BackFault::BadParity, _) => "bad parity",
        (BackFault::NotNamed, Wish::Back(IdByte(bits), _)) if bits >> own.number() & 1 == 0 => {
            "own bit missing"
        }
        (BackFault::NotNamed, Wish::Back(IdByte(bits), _)) if bits.count_ones() == 1 => "own bit alone",
        (BackFault::NotNamed, _) => "two others or more",
    }
}

fn count_connected(tally: &mut Tally, chip: &Chip, wish: Wish) {
    if let Wish::Req(req) = wish {
        tally.hit(connected_req_name(chip, req.phase));
        return;
    }
    let case = match wish {
        Wish::Hold(phase) if phase == chip.phase() => CONNECTED_CASES[0],
        Wish::Hold(_) => CONNECTED_CASES[1],
        Wish::Go => CONNECTED_CASES[2],
        Wish::Off => CONNECTED_CASES[3],
        Wish::Back(..) | Wish::Req(_) => CONNECTED_CASES[4],
    };
    let rule = if chip.state() == State::Transferring { 7 } else { 5 };
    tally.hit(&format!("{rule} {}: {case}", state_name(chip.state())));
}

fn connected_req_name(chip: &Chip, phase: Phase) -> &'static str {
    let same = phase == chip.phase();
    match chip.state() {
        State::Waiting if same => "5 waiting: Req latched, the same phase as before",
        State::Waiting => "5 waiting: Req latched, another phase",
        State::Asked if same => "5 asked: Req in the latched phase",
        State::Asked => "5 asked: Req latched, another phase",
        _ if same => "7 Req in the latched phase, nothing left: latched",
        _ if chip.left() == 0 => "7 Req in another phase, nothing left: latched",
        _ => "7 Req in another phase, something left: latched",
    }
}

fn has_bad_parity(wish: Wish) -> bool {
    matches!(wish, Wish::Req(req) if req.parity == Parity::Bad)
}

fn count_info_in(tally: &mut Tally, chip: &Chip, wish: Wish) {
    match chip.received() {
        0 => tally.hit("6 in, Info: kept as the first"),
        1 => tally.hit("6 in, Info: kept as the second"),
        _ => {
            tally.hit("6 in, Info: no place");
            return;
        }
    }
    let parity_enabled = chip.control() & PARITY_ENABLE != 0;
    let bad = has_bad_parity(wish);
    tally.hit_if(bad && parity_enabled, "6 in, Info: bad parity, enabled");
    tally.hit_if(bad && !parity_enabled, "6 in, Info: bad parity, not enabled");
    let last = chip.left() == 1;
    tally.hit_if(last && !chip.single_byte(), "6 in, Info: the last by the counter");
    tally.hit_if(last && chip.single_byte(), "6 in, Info: the last by Single Byte");
    tally.hit_if(
        last && chip.phase() == Phase::MessageIn,
        "6 in, Info: the last of Message In",
    );
}

fn count_pad_in(tally: &mut Tally, chip: &Chip, wish: Wish) {
    tally.hit("6 in, Pad: thrown away");
    let parity_enabled = chip.control() & PARITY_ENABLE != 0;
    tally.hit_if(
        has_bad_parity(wish) && parity_enabled,
        "6 in, Pad: bad parity under Parity Enable",
    );
    let last = chip.left() == 1;
    tally.hit_if(last, "6 in, Pad: the last");
    tally.hit_if(
        last && chip.phase() == Phase::MessageIn,
        "6 in, Pad: the last of Message In",
    );
}

fn count_sent(tally: &mut Tally, chip: &Chip) {
    let last = chip.left() == 1;
    let last_message = last && chip.phase() == Phase::MessageOut;
    let command = if chip.padding() {
        tally.hit_if(last, "6 out, Pad: the last");
        "Pad"
    } else {
        tally.hit_if(
            last && !chip.single_byte(),
            "6 out, Info: the last by the counter",
        );
        tally.hit_if(last && chip.single_byte(), "6 out, Info: the last by Single Byte");
        "Info"
    };
    let atn = if chip.atn() { "on" } else { "off" };
    tally.hit(&format!("6 out, {command}: sent"));
    tally.hit_if(
        last_message,
        &format!("6 out, {command}: the last of Message Out, ATN {atn}"),
    );
}

fn unread_name(chip: &Chip, wish: Wish) -> &'static str {
    match wish {
        Wish::Req(req) if req.phase == chip.phase() => "Req in the latched phase, nothing left",
        Wish::Req(_) => "Req in another phase",
        Wish::Hold(phase) if phase == chip.phase() => "Hold in the latched phase",
        Wish::Hold(_) => "Hold in another phase",
        Wish::Go => "Go",
        Wish::Off => "Off",
        Wish::Back(..) => "Back",
    }
}
