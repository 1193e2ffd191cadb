//! Lines of a log.

use crate::{Event, Reply};
use std::fmt;

/// A line of a log, as `board replay` writes them behind `access log 2`.
///
/// ```
/// use board_440fx::{Board, Event, Line};
///
/// let mut board = Board::builder().rom(&[0; 65536]).open()?;
/// let event: Event = "r b 000CC000".parse()?;
/// let reply = board.step(&event)?.reply;
/// let line = Line { number: 4, processor: 0, statement: 4, event, reply };
/// assert_eq!(line.to_string(), "4 0.4 r b 000CC000 = FF abort 00.0.5B");
/// # Ok::<(), board_440fx::Error>(())
/// ```
#[derive(Clone, Copy, Debug, PartialEq, Eq, Hash)]
pub struct Line {
    /// Its number, from 1.
    pub number: u64,
    /// The processor, 0 to 7.
    pub processor: u8,
    /// Which of the processor's statements it is, from 1.
    pub statement: u32,
    /// What was asked.
    pub event: Event,
    /// What was replied.
    pub reply: Reply,
}

/// The line without its line feed.
impl fmt::Display for Line {
    fn fmt(&self, f: &mut fmt::Formatter<'_>) -> fmt::Result {
        write!(f, "{} {}.{} {} = {}", self.number, self.processor, self.statement, self.event, self.reply)
    }
}
