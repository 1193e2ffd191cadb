//! Replies: what answered, and what stands after the step.

use crate::raw;
use crate::{Area, Denial, Error, Event, Part, Target, Value};
use std::fmt;
use std::ops::Deref;

/// The parts of a wide access in rising order, two to four; it is a slice of them.
///
/// ```
/// use board_440fx::{Board, Event, Reply, Width};
///
/// let mut board = Board::builder().rom(&[0; 65536]).open()?;
/// match board.step(&Event::read(0x1003, Width::Qword))?.reply {
///     Reply::Parts { parts, .. } => assert_eq!(parts.len(), 4),
///     other => panic!("{other}"),
/// }
/// # Ok::<(), board_440fx::Error>(())
/// ```
#[derive(Clone, Copy, Debug, PartialEq, Eq, Hash)]
pub struct Parts {
    parts: [Part; raw::MOST_PARTS],
    count: usize,
}

impl Parts {
    fn of(reply: &raw::Reply) -> Option<Parts> {
        let count = usize::from(reply.parts);
        let mut parts = [Part { target: Target::Abort, denial: None }; raw::MOST_PARTS];
        for (part, record) in parts.iter_mut().zip(reply.part.get(..count)?) {
            *part = Part::of(record)?;
        }
        Some(Parts { parts, count })
    }
}

impl Deref for Parts {
    type Target = [Part];

    fn deref(&self) -> &[Part] {
        self.parts.get(..self.count).unwrap_or(&[])
    }
}

/// What a look tells.
///
/// ```
/// use board_440fx::{Board, Kind};
///
/// let mut board = Board::builder().rom(&[0; 65536]).open()?;
/// assert_eq!(board.look(Kind::Read, 0xF0000, false)?.to_string(), "0 000F0000 000FFFFF rom");
/// # Ok::<(), board_440fx::Error>(())
/// ```
#[derive(Clone, Copy, Debug, PartialEq, Eq, Hash)]
pub struct Look {
    /// The version of the map.
    pub version: u32,
    /// The first address of the longest interval in which this kind of access has this area.
    pub lo: u32,
    /// The last one.
    pub hi: u32,
    /// What such an access reaches.
    pub area: Area,
}

/// As in a log.
impl fmt::Display for Look {
    fn fmt(&self, f: &mut fmt::Formatter<'_>) -> fmt::Result {
        write!(f, "{} {:08X} {:08X} {}", self.version, self.lo, self.hi, self.area)
    }
}

/// What was replied: what stands behind the ` = ` of a log's line.
///
/// ```
/// use board_440fx::{Board, Event, Width};
///
/// let mut board = Board::builder().rom(&[0; 65536]).open()?;
/// let answer = board.step(&Event::read(0xCC000, Width::Byte))?;
/// assert_eq!(answer.reply.to_string(), "FF abort 00.0.5B");
/// # Ok::<(), board_440fx::Error>(())
/// ```
#[derive(Clone, Copy, Debug, PartialEq, Eq, Hash)]
#[non_exhaustive]
pub enum Reply {
    /// Of one bus cycle, or of what happens from outside.
    Bus {
        /// What was read; the vector of an acknowledge.
        value: Option<Value>,
        /// What answered.
        part: Part,
    },
    /// Of a wide access.
    Parts {
        /// What was read.
        value: Option<Value>,
        /// What answered each part.
        parts: Parts,
    },
    /// Of a look.
    Look(Look),
}

impl Reply {
    fn of(event: &Event, reply: &raw::Reply) -> Option<Reply> {
        let value = (reply.has_value != 0).then(|| Value { bits: reply.value, width: event.value_width() });
        let [first, ..] = &reply.part;
        match reply.form {
            raw::BUS_REPLY => Some(Reply::Bus { value, part: Part::of(first)? }),
            raw::PARTS_REPLY => Some(Reply::Parts { value, parts: Parts::of(reply)? }),
            raw::LOOK_REPLY => {
                let area = Area::of(first.target, first.unit, first.base)?;
                Some(Reply::Look(Look { version: reply.seen, lo: reply.lo, hi: reply.hi, area }))
            }
            _ => None,
        }
    }

    /// What was read, or the vector.
    pub fn value(&self) -> Option<u64> {
        match self {
            Reply::Bus { value, .. } | Reply::Parts { value, .. } => value.map(|value| value.bits),
            Reply::Look(_) => None,
        }
    }

    /// What answered: one part, those of a wide access, or none of a look.
    pub fn parts(&self) -> &[Part] {
        match self {
            Reply::Bus { part, .. } => std::slice::from_ref(part),
            Reply::Parts { parts, .. } => parts,
            Reply::Look(_) => &[],
        }
    }
}

fn write_value(value: Option<Value>, f: &mut fmt::Formatter<'_>) -> fmt::Result {
    match value {
        Some(value) => write!(f, "{value}"),
        None => f.write_str("-"),
    }
}

/// As in a log, from the value on.
impl fmt::Display for Reply {
    fn fmt(&self, f: &mut fmt::Formatter<'_>) -> fmt::Result {
        match self {
            Reply::Bus { value, part } => {
                write_value(*value, f)?;
                write!(f, " {part}")
            }
            Reply::Parts { value, parts } => {
                write_value(*value, f)?;
                parts.iter().try_for_each(|part| write!(f, " {part}"))
            }
            Reply::Look(look) => look.fmt(f),
        }
    }
}

/// A reset that a step made.
///
/// ```
/// use board_440fx::{Board, Reset};
///
/// let mut board = Board::builder().rom(&[0; 65536]).open()?;
/// board.out_u8(0xCF9, 2)?;
/// assert_eq!(board.out_u8(0xCF9, 6)?.reset, Some(Reset::Hard));
/// # Ok::<(), board_440fx::Error>(())
/// ```
#[derive(Clone, Copy, Debug, PartialEq, Eq, PartialOrd, Ord, Hash)]
pub enum Reset {
    /// Of the processor alone.
    Soft,
    /// Of the board too.
    Hard,
}

/// A reply, and what stands after its step.
///
/// ```
/// use board_440fx::{Board, Event, Target, Width};
///
/// let mut board = Board::builder().rom(&[0x5A; 65536]).open()?;
/// let answer = board.step(&Event::fetch(0xFFFF_FFF0, Width::Byte))?;
/// assert_eq!(answer.value(), Some(0x5A));
/// assert_eq!(answer.target(), Some(Target::Rom { offset: 0xFFF0 }));
/// assert_eq!(answer.denied_by(), None);
/// assert!(!answer.interrupt);
/// assert_eq!(answer.to_string(), "f b FFFFFFF0 = 5A rom:0FFF0 -");
/// let denied = board.step(&Event::read(0xCC000, Width::Byte))?;
/// assert_eq!(denied.to_string(), "r b 000CC000 = FF abort 00.0.5B, denied by 00.0.5B (PAM2)");
/// # Ok::<(), board_440fx::Error>(())
/// ```
#[derive(Clone, Copy, Debug, PartialEq, Eq, Hash)]
#[non_exhaustive]
pub struct Answer {
    /// What was asked.
    pub event: Event,
    /// The reply.
    pub reply: Reply,
    /// The version of the map: it counts the writes that may change it, so it is the same where this is.
    pub version: u32,
    /// Whether INT is asserted, so that a processor may acknowledge.
    pub interrupt: bool,
    /// The reset that the step made.
    pub reset: Option<Reset>,
    /// The byte that COM1 sent in the step.
    pub sent: Option<u8>,
    /// The level of interrupt request line 4: COM1's or that of [`Event::Irq`].
    pub irq4: bool,
    /// Whether COM1 can receive a byte.
    pub serial_room: bool,
    /// The levels of the sixteen interrupt lines, as [`Board::lines`](crate::Board::lines) has them.
    pub lines: u16,
    /// The lines that rose in the step: at 1 after it, and at 0 before; and line 0 also where OUT of counter 0 rose at
    /// one of its pulses, though it may have fallen again. [`Watch`](crate::Watch) tells what follows from them.
    pub rose: u16,
}

/// What stands now, without a step: see [`Board::now`](crate::Board::now).
#[derive(Clone, Copy, Debug, PartialEq, Eq, Hash)]
#[non_exhaustive]
pub struct Now {
    /// The version of the map.
    pub version: u32,
    /// Whether INT is asserted.
    pub interrupt: bool,
    /// The level of interrupt request line 4.
    pub irq4: bool,
    /// Whether COM1 can receive a byte.
    pub serial_room: bool,
    /// The levels of the sixteen interrupt lines.
    pub lines: u16,
}

impl Now {
    pub(crate) fn of(reply: &raw::Reply) -> Now {
        Now {
            version: reply.version,
            interrupt: reply.interrupt != 0,
            irq4: reply.irq4 != 0,
            serial_room: reply.serial_room != 0,
            lines: reply.lines,
        }
    }
}

impl Answer {
    pub(crate) fn of(event: &Event, reply: &raw::Reply) -> Result<Answer, Error> {
        let reset = match reply.reset {
            raw::NO_RESET => None,
            raw::SOFT_RESET => Some(Reset::Soft),
            raw::HARD_RESET => Some(Reset::Hard),
            _ => return Err(Error::NoReply),
        };
        Ok(Answer {
            event: *event,
            reply: Reply::of(event, reply).ok_or(Error::NoReply)?,
            version: reply.version,
            interrupt: reply.interrupt != 0,
            reset,
            sent: (reply.has_sent != 0).then_some(reply.sent),
            irq4: reply.irq4 != 0,
            serial_room: reply.serial_room != 0,
            lines: reply.lines,
            rose: reply.rose,
        })
    }

    /// The same reply with what stands now.
    pub(crate) fn as_of(&self, now: &Now) -> Answer {
        let Now { version, interrupt, irq4, serial_room, lines } = *now;
        Answer { version, interrupt, irq4, serial_room, lines, ..*self }
    }

    /// What was read, or the vector.
    pub fn value(&self) -> Option<u64> {
        self.reply.value()
    }

    /// What answered, the first part of a wide access; none of a look.
    pub fn target(&self) -> Option<Target> {
        self.reply.parts().first().map(|part| part.target)
    }

    /// What denied the access, or the first part of it that was denied.
    pub fn denied_by(&self) -> Option<Denial> {
        self.reply.parts().iter().find_map(|part| part.denial)
    }
}

/// As in a log, the event and the reply, and what denied it, by name.
impl fmt::Display for Answer {
    fn fmt(&self, f: &mut fmt::Formatter<'_>) -> fmt::Result {
        write!(f, "{} = {}", self.event, self.reply)?;
        match self.denied_by() {
            Some(denial) => write!(f, ", denied by {denial:#}"),
            None => Ok(()),
        }
    }
}
