//! An adapter for `tools/conform`, by this crate's events: fill `Monitor` with calls of your own monitor. Here it is the board.
//!
//!     tools/conform --adapter bindings/rust/target/debug/examples/adapter

use board_440fx::{Board, Card, Error, Event};
use std::error::Error as Fault;
use std::io::{self, BufRead, Write};
use std::{fs, mem};

/// A machine as the lines before `phase` say.
#[derive(Default)]
struct Setup {
    mib: u32,
    rom: Vec<u8>,
    disk: Vec<u8>,
    cards: Vec<Card>,
}

/// A machine as after power-on.
struct Monitor {
    board: Board,
}

impl Monitor {
    fn begin(setup: Setup) -> Result<Monitor, Error> {
        let builder = Board::builder().memory_mib(setup.mib).rom(&setup.rom).disk(&setup.disk);
        let board = setup.cards.into_iter().fold(builder, |builder, card| builder.card(card)).open()?;
        Ok(Monitor { board })
    }

    /// Does an event. `None` where the monitor cannot do it: it is answered with `?`.
    fn step(&mut self, event: &Event) -> Option<Result<String, Error>> {
        Some(self.board.step(event).map(|answer| answer.reply.to_string()))
    }

    /// Lets a second pass. The clock may be held.
    fn second(&mut self) {
        let _held = self.board.second();
    }

    /// The line that answers a statement: of the board's reply its first word, the value or `-`.
    fn answer(&mut self, statement: &str) -> Result<String, Box<dyn Fault>> {
        if statement == "second" {
            self.second();
            return Ok("-".to_owned());
        }
        if statement.starts_with("bus_master") {
            return Ok("?".to_owned());
        }
        match self.step(&statement.parse()?) {
            Some(reply) => Ok(reply?.split(' ').next().unwrap_or("-").to_owned()),
            None => Ok("?".to_owned()),
        }
    }
}

fn main() -> Result<(), Box<dyn Fault>> {
    let mut out = io::stdout().lock();
    let (mut setup, mut monitor) = (Setup::default(), None);
    for line in io::stdin().lock().lines() {
        let line = line?;
        match (&mut monitor, line.split_once(' ').unwrap_or((&line, ""))) {
            (Some(_), ("end", _)) => {
                monitor = None;
                writeln!(out, "end")?;
                out.flush()?;
            }
            (Some(monitor), _) => writeln!(out, "{}", Monitor::answer(monitor, &line)?)?,
            (None, ("board", _)) => setup = Setup::default(),
            (None, ("memory", mib)) => setup.mib = mib.parse()?,
            (None, ("rom", name)) => setup.rom = fs::read(name)?,
            (None, ("disk", name)) => setup.disk = fs::read(name)?,
            (None, ("card", card)) => setup.cards.push(card.parse()?),
            (None, ("phase", _)) => monitor = Some(Monitor::begin(mem::take(&mut setup))?),
            (None, _) => return Err(line.into()),
        }
    }
    Ok(())
}
