//! What the stations meet.

use super::{Event, Tally};
use crate::breaker::{Breaker, Step};
use crate::cable::Phase;
use crate::drive::{Drive, Verdict};
use crate::script::{Follow, Place, RowFault, Script, ROWS_THAT_COUNT};
use crate::session::{Session, StationSetup};
use crate::station::{Station, Wish};

pub fn tally() -> Tally {
    Tally::new(
        "Stations",
        [
            "chip and station at one address",
            "chip address above 7",
            "station address above 7",
            "script: empty table",
            "script: more rows than count",
            "script: row refused with 10",
            "script: row refused with 11",
            "script: row refused with 12",
            "script: chain ends rightly",
            "script: chain ends at its own number",
            "script: chain ends at a lower number",
            "script: chain ends beyond the table",
            "script: chain leaves out rows",
            "script played: a yes at an Off moves on",
            "script played: a yes at a row without a record moves on",
            "script played: a yes at a last Off, no Go",
            "script played: a yes at the end, one Go",
            "script played: Go at the end told",
            "script played: Back told",
            "script played: Hold told",
            "script played: Req told",
            "script played: Go told",
            "script played: came to a right end",
            "script played: came to an end at its own or a lower number",
            "script played: came to an end beyond the table",
            "drive: chosen with ATN",
            "drive: chosen without ATN",
            "drive: TEST UNIT READY",
            "drive: READ of one block",
            "drive: READ of more blocks",
            "drive: READ of 256 blocks",
            "drive: READ beyond",
            "drive: READ beyond, first block within",
            "drive: other command",
            "drive: last byte of the data told",
            "drive: status told",
            "drive: message told",
            "drive: Go told",
            "breaker: N is zero",
            "breaker: over a script",
            "breaker: over a drive",
            "breaker: Save Data Pointer told",
            "breaker: Disconnect told",
            "breaker: Go told",
            "breaker: Back told",
            "breaker: Identify told, the break is over",
            "breaker: a second break in a session",
            "breaker: Back with one bit only",
        ],
    )
}

/// What stands in the setup, whether or not it comes to be played.
pub fn count_setup(tally: &mut Tally, session: &Session, station: &Station) {
    let setup = &session.setup;
    let (station_address, rows) = match &setup.station {
        StationSetup::Script { address, rows } => (*address, rows.len()),
        StationSetup::Drive { address, .. } => (*address, 0),
    };
    tally.hit_if(
        setup.chip_address() == station.address(),
        "chip and station at one address",
    );
    tally.hit_if(setup.chip.is_some_and(|chip| chip > 7), "chip address above 7");
    tally.hit_if(station_address > 7, "station address above 7");
    tally.hit_if(rows > ROWS_THAT_COUNT, "script: more rows than count");
    tally.hit_if(
        setup.breaker.as_ref().is_some_and(|b| b.every == 0),
        "breaker: N is zero",
    );
    match bare(station) {
        Station::Script(script) => {
            tally.hit_if(setup.breaker.is_some(), "breaker: over a script");
            count_chain(tally, script);
        }
        _ => tally.hit_if(setup.breaker.is_some(), "breaker: over a drive"),
    }
}

/// The station without the breakers in front of it.
fn bare(station: &Station) -> &Station {
    match station {
        Station::Breaker(breaker) => bare(breaker.below()),
        _ => station,
    }
}

fn count_chain(tally: &mut Tally, script: &Script) {
    let Place::Row(mut index) = script.place() else {
        tally.hit("script: empty table");
        return;
    };
    loop {
        match script.rows()[index].record() {
            Ok(_) => {}
            Err(RowFault::Kind) => tally.hit("script: row refused with 10"),
            Err(RowFault::Phase) => tally.hit("script: row refused with 11"),
            Err(RowFault::Parity) => tally.hit("script: row refused with 12"),
        }
        match script.follow(index) {
            Follow::Row(next) => {
                tally.hit_if(next > index + 1, "script: chain leaves out rows");
                index = next;
            }
            end => {
                let own = script.rows()[index].next as usize == index + 1;
                tally.hit(match end {
                    Follow::NotUpward if own => "script: chain ends at its own number",
                    Follow::NotUpward => "script: chain ends at a lower number",
                    Follow::Beyond => "script: chain ends beyond the table",
                    _ => "script: chain ends rightly",
                });
                return;
            }
        }
    }
}

pub fn count(tally: &mut Tally, event: &Event) {
    count_pair(tally, event, &event.before.station, &event.after.station);
}

fn count_pair(tally: &mut Tally, event: &Event, before: &Station, after: &Station) {
    match (before, after) {
        (Station::Script(before), Station::Script(after)) => count_script(tally, before, after),
        (Station::Drive(before), Station::Drive(after)) => count_drive(tally, event, before, after),
        (Station::Breaker(before), Station::Breaker(after)) => {
            count_breaker(tally, before, after);
            count_pair(tally, event, before.below(), after.below());
        }
        _ => unreachable!("a station stays what it is"),
    }
}

/// A script that moved was told, or said yes.
fn count_script(tally: &mut Tally, before: &Script, after: &Script) {
    if before.place() == after.place() {
        return;
    }
    let Place::Row(index) = before.place() else {
        tally.hit(match after.place() {
            Place::FarewellGo => "script played: a yes at the end, one Go",
            _ => "script played: Go at the end told",
        });
        return;
    };
    let no_record = before.rows()[index].record().is_err();
    tally.hit(match before.wish() {
        Wish::Off if after.place() == Place::End => "script played: a yes at a last Off, no Go",
        Wish::Off if no_record => "script played: a yes at a row without a record moves on",
        Wish::Off => "script played: a yes at an Off moves on",
        Wish::Back(..) => "script played: Back told",
        Wish::Hold(_) => "script played: Hold told",
        Wish::Req(_) => "script played: Req told",
        Wish::Go => "script played: Go told",
    });
    match before.follow(index) {
        Follow::Row(_) => {}
        Follow::RightEnd => tally.hit("script played: came to a right end"),
        Follow::NotUpward => tally.hit("script played: came to an end at its own or a lower number"),
        Follow::Beyond => tally.hit("script played: came to an end beyond the table"),
    }
}

fn count_drive(tally: &mut Tally, event: &Event, before: &Drive, after: &Drive) {
    if before.stands_like(after) {
        return;
    }
    match before.wish() {
        Wish::Off if event.before.chip.atn() => tally.hit("drive: chosen with ATN"),
        Wish::Off => tally.hit("drive: chosen without ATN"),
        Wish::Go => tally.hit("drive: Go told"),
        Wish::Req(req) => match req.phase {
            Phase::Status => tally.hit("drive: status told"),
            Phase::MessageIn => tally.hit("drive: message told"),
            Phase::DataIn => tally.hit_if(before.waiting() == 1, "drive: last byte of the data told"),
            Phase::Command => {
                if let Some(verdict) = before.verdict_with(event.answer.byte) {
                    count_verdict(tally, before, verdict);
                }
            }
            _ => {}
        },
        Wish::Back(..) | Wish::Hold(_) => unreachable!("a drive has no such wish"),
    }
}

fn count_verdict(tally: &mut Tally, drive: &Drive, verdict: Verdict) {
    tally.hit(match verdict {
        Verdict::Ready => "drive: TEST UNIT READY",
        Verdict::Read { count: 1, .. } => "drive: READ of one block",
        Verdict::Read { count: 256, .. } => "drive: READ of 256 blocks",
        Verdict::Read { .. } => "drive: READ of more blocks",
        Verdict::ReadBeyond { first } if first < drive.blocks() => "drive: READ beyond, first block within",
        Verdict::ReadBeyond { .. } => "drive: READ beyond",
        Verdict::Unknown => "drive: other command",
    });
}

fn count_breaker(tally: &mut Tally, before: &Breaker, after: &Breaker) {
    let step_before = before.breaking();
    let step_after = after.breaking();
    if step_before == step_after {
        return;
    }
    if let Some(step) = step_before {
        tally.hit(match step {
            Step::Save => "breaker: Save Data Pointer told",
            Step::Disconnect => "breaker: Disconnect told",
            Step::Go => "breaker: Go told",
            Step::Back => "breaker: Back told",
            Step::Identify => "breaker: Identify told, the break is over",
        });
    }
    let one_bit = matches!(after.wish(), Wish::Back(id_byte, _) if id_byte.0.count_ones() == 1);
    tally.hit_if(
        step_after == Some(Step::Back) && one_bit,
        "breaker: Back with one bit only",
    );
    tally.hit_if(
        step_after == Some(Step::Save) && after.breaks_over() > 0,
        "breaker: a second break in a session",
    );
}
