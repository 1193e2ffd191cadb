//! Replays a script, as `board replay FILE` does, and writes its log. The ROM and the disk lie in this folder.

use board_440fx::{Board, Card, Event, Line};
use std::error::Error;
use std::io::{self, BufWriter, Write};
use std::{env, fs};

type Outcome<T> = Result<T, Box<dyn Error>>;

const MOST_CPUS: usize = 8;

/// What the lines before the first `phase` say.
#[derive(Default)]
struct Setup {
    mib: u32,
    rom: Vec<u8>,
    disk: Vec<u8>,
    cards: Vec<Card>,
}

impl Setup {
    fn read<'a>(lines: &mut impl Iterator<Item = &'a str>) -> Outcome<Setup> {
        let mut setup = Setup::default();
        for line in lines.take_while(|line| *line != "phase") {
            match line.split_once(' ') {
                Some(("memory", mib)) => setup.mib = mib.parse()?,
                Some(("rom", name)) => setup.rom = fs::read(name)?,
                Some(("disk", name)) => setup.disk = fs::read(name)?,
                Some(("card", card)) => setup.cards.push(card.parse()?),
                Some(("cpus", _)) => (),
                _ => return Err(line.into()),
            }
        }
        Ok(setup)
    }

    fn open(self) -> Outcome<Board> {
        let builder = Board::builder().memory_mib(self.mib).rom(&self.rom).disk(&self.disk);
        Ok(self.cards.into_iter().fold(builder, |builder, card| builder.card(card)).open()?)
    }
}

fn replay(script: &str, log: &mut impl Write) -> Outcome<()> {
    let mut lines = script.lines().filter(|line| !line.is_empty() && !line.starts_with('#'));
    let version = lines.next().and_then(|line| line.strip_prefix("board ")).ok_or("no script")?;
    writeln!(log, "access log {version}")?;
    let mut board = Setup::read(&mut lines)?.open()?;
    let mut statements = [0; MOST_CPUS];
    for (number, line) in (1..).zip(lines.filter(|line| *line != "phase")) {
        let (processor, statement) = line.split_once(' ').ok_or(line)?;
        let processor: u8 = processor.parse()?;
        let count = statements.get_mut(usize::from(processor)).ok_or(line)?;
        *count += 1;
        let event: Event = statement.parse()?;
        let reply = board.step(&event)?.reply;
        writeln!(log, "{}", Line { number, processor, statement: *count, event, reply })?;
    }
    Ok(())
}

fn main() -> Outcome<()> {
    let file = env::args().nth(1).ok_or("usage: replay FILE")?;
    let mut log = BufWriter::new(io::stdout().lock());
    replay(&fs::read_to_string(file)?, &mut log)?;
    Ok(log.flush()?)
}
