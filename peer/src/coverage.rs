//! `peer coverage`: plays sessions and counts which rules, commands, refusals and losses they meet.

mod calls;
mod stations;
mod turns;

use std::io::{self, BufRead, Write};

use crate::chip::State;
use crate::replay::Failure;
use crate::session::{Reader, Session};
use crate::string::{Answer, Call, ScsiString};

use calls::{Commands, Losses};

pub fn coverage(input: impl BufRead, out: &mut impl Write) -> Result<(), Failure> {
    let mut coverage = Coverage::new();
    let mut reader = Reader::new(input);
    while let Some(session) = reader.next().map_err(Failure::Read)? {
        coverage.play(&session);
    }
    coverage.print(out).map_err(Failure::Write)
}

/// One call with all that was before it and after it.
struct Event<'a> {
    before: &'a ScsiString,
    call: Call,
    answer: Answer,
    after: &'a ScsiString,
}

/// Counts under fixed names, so that what never happened is seen as well.
struct Tally {
    title: &'static str,
    cells: Vec<(String, u64)>,
}

impl Tally {
    fn new<S: Into<String>>(title: &'static str, names: impl IntoIterator<Item = S>) -> Tally {
        Tally {
            title,
            cells: names.into_iter().map(|name| (name.into(), 0)).collect(),
        }
    }

    fn hit(&mut self, name: &str) {
        let cell = self.cells.iter_mut().find(|cell| cell.0 == name);
        cell.unwrap_or_else(|| panic!("{}: there is no cell {name}", self.title))
            .1 += 1;
    }

    fn hit_if(&mut self, condition: bool, name: &str) {
        if condition {
            self.hit(name);
        }
    }

    fn print(&self, out: &mut impl Write) -> io::Result<()> {
        writeln!(out, "## {}\n\n| case | count |\n|---|---:|", self.title)?;
        for (name, count) in &self.cells {
            writeln!(out, "| {name} | {count} |")?;
        }
        writeln!(out)
    }

    fn zeros(&self) -> impl Iterator<Item = String> + '_ {
        let zero = self.cells.iter().filter(|cell| cell.1 == 0);
        zero.map(|(name, _)| format!("{}: {name}", self.title))
    }
}

fn state_name(state: State) -> &'static str {
    match state {
        State::Idle => "idle",
        State::Arbitrating => "arbitrating",
        State::Selecting => "selecting",
        State::Waiting => "waiting",
        State::Asked => "asked",
        State::Transferring => "transferring",
        State::Disabled => "disabled",
    }
}

struct Coverage {
    sessions: u64,
    calls: u64,
    turns: Tally,
    commands: Commands,
    at_once: Tally,
    other_calls: Tally,
    refusals: Tally,
    losses: Losses,
    stations: Tally,
}

impl Coverage {
    fn new() -> Coverage {
        Coverage {
            sessions: 0,
            calls: 0,
            turns: turns::tally(),
            commands: Commands::new(),
            at_once: calls::commands_tally(),
            other_calls: calls::others_tally(),
            refusals: calls::refusals_tally(),
            losses: Losses::new(),
            stations: stations::tally(),
        }
    }

    fn play(&mut self, session: &Session) {
        self.sessions += 1;
        let mut string = session.setup.build();
        stations::count_setup(&mut self.stations, session, &string.station);
        for &call in &session.calls {
            let before = string.clone();
            let answer = string.call(call);
            self.count(&Event {
                before: &before,
                call,
                answer,
                after: &string,
            });
        }
    }

    fn count(&mut self, event: &Event) {
        self.calls += 1;
        turns::count(&mut self.turns, event);
        self.commands.count(event);
        calls::count_command(&mut self.at_once, event);
        calls::count_other(&mut self.other_calls, event);
        calls::count_refusal(&mut self.refusals, event);
        self.losses.count(event);
        stations::count(&mut self.stations, event);
    }

    fn print(&self, out: &mut impl Write) -> io::Result<()> {
        writeln!(
            out,
            "# Coverage\n\n{} sessions, {} calls.\n",
            self.sessions, self.calls
        )?;
        self.turns.print(out)?;
        self.commands.print(out)?;
        for tally in [&self.at_once, &self.other_calls, &self.refusals] {
            tally.print(out)?;
        }
        self.losses.tally().print(out)?;
        self.stations.print(out)?;
        self.print_zeros(out)
    }

    fn print_zeros(&self, out: &mut impl Write) -> io::Result<()> {
        let tallies = [
            &self.turns,
            &self.at_once,
            &self.other_calls,
            &self.refusals,
            self.losses.tally(),
            &self.stations,
        ];
        let zeros: Vec<String> = tallies
            .into_iter()
            .flat_map(Tally::zeros)
            .chain(self.commands.zeros())
            .collect();
        writeln!(out, "## Cells that are zero\n")?;
        if zeros.is_empty() {
            return writeln!(out, "None.");
        }
        for zero in zeros {
            writeln!(out, "- {zero}")?;
        }
        Ok(())
    }
}
