//! Statements of scripts, read as events.

use crate::{Error, Event, Kind, Moment, Width};
use std::fmt;
use std::str::{FromStr, Split};

/// Why a text is no statement of a script. [`Event::parse`] gives it.
///
/// ```
/// use board_440fx::Event;
///
/// let none = Event::parse("r x 000A0000").expect_err("x is no width");
/// assert_eq!(none.to_string(), "\"r x 000A0000\": that is no event: the width is b, w, d or q, not \"x\"");
/// ```
#[derive(Clone, Debug, PartialEq, Eq, Hash)]
pub struct NoStatement {
    statement: String,
    why: String,
}

impl fmt::Display for NoStatement {
    fn fmt(&self, f: &mut fmt::Formatter<'_>) -> fmt::Result {
        write!(f, "{:?}: {}: {}", self.statement, Error::NoEvent, self.why)
    }
}

impl std::error::Error for NoStatement {}

/// The words behind the first one of a statement.
struct Fields<'a>(Split<'a, char>);

impl Fields<'_> {
    /// The next field, or why it is none: its name, how it is written in words, and what reads it.
    fn next<T>(&mut self, name: &str, written: &str, read: impl Fn(&str) -> Option<T>) -> Result<T, String> {
        let text = self.0.next().ok_or_else(|| format!("the {name} is missing"))?;
        read(text).ok_or_else(|| format!("the {name} is {written}, not {text:?}"))
    }

    fn width(&mut self) -> Result<Width, String> {
        self.next("width", "b, w, d or q", |text| text.parse().ok())
    }

    fn width_of_port(&mut self) -> Result<Width, String> {
        let read = |text: &str| text.parse().ok().filter(|&width| width != Width::Qword);
        self.next("width", "b, w or d", read)
    }

    fn hexadecimal(&mut self, name: &str, digits: usize) -> Result<u64, String> {
        let read = |text: &str| hexadecimal(text).filter(|_| text.len() == digits);
        self.next(name, &format!("{digits} hexadecimal digits"), read)
    }

    fn address(&mut self) -> Result<u32, String> {
        self.hexadecimal("address", 8).map(|addr| addr as u32)
    }

    fn port(&mut self) -> Result<u16, String> {
        self.hexadecimal("port", 4).map(|port| port as u16)
    }

    fn value(&mut self, width: Width) -> Result<u64, String> {
        let read = |text: &str| hexadecimal(text).map(|value| (value, text.len()));
        let (value, digits) = self.next("value", "hexadecimal digits, two for each byte", read)?;
        let wanted = 2 * usize::from(width.bytes());
        let why = || format!("a value of width {width} has {wanted} hexadecimal digits, not {digits}");
        (digits == wanted).then_some(value).ok_or_else(why)
    }

    fn number<N: TryFrom<u32>>(&mut self, name: &str, most: u32) -> Result<N, String> {
        let read = |text: &str| decimal(text).filter(|&number| number <= most).and_then(|it| N::try_from(it).ok());
        self.next(name, &format!("a decimal number up to {most}, without a leading zero"), read)
    }

    fn level(&mut self) -> Result<bool, String> {
        self.next("level", "0 or 1", |text| match text {
            "0" => Some(false),
            "1" => Some(true),
            _ => None,
        })
    }
}

/// A hexadecimal number of up to sixteen digits.
fn hexadecimal(text: &str) -> Option<u64> {
    let are_digits = text.chars().all(|digit| digit.is_ascii_hexdigit());
    are_digits.then(|| u64::from_str_radix(text, 16).ok()).flatten()
}

/// The greatest number of nine digits, which is what a decimal number of a script has at most.
const MOST: u32 = 999_999_999;

/// A decimal number of a script.
fn decimal(text: &str) -> Option<u32> {
    let is_one = text == "0" || text.chars().all(|digit| digit.is_ascii_digit()) && !text.starts_with('0');
    (is_one && text.len() <= 9).then(|| text.parse().ok()).flatten()
}

/// The event of a first word, but for its mode.
fn event_of(first: &str, fields: &mut Fields<'_>) -> Result<Event, String> {
    match first {
        "f" => fields.width().and_then(|width| Ok(Event::fetch(fields.address()?, width))),
        "r" => fields.width().and_then(|width| Ok(Event::read(fields.address()?, width))),
        "w" => {
            let (width, addr) = (fields.width()?, fields.address()?);
            Ok(Event::write(addr, width, fields.value(width)?))
        }
        "in" => fields.width_of_port().and_then(|width| Ok(Event::In { port: fields.port()?, width })),
        "out" => {
            let (width, port) = (fields.width_of_port()?, fields.port()?);
            Ok(Event::Out { port, width, value: fields.value(width)? as u32 })
        }
        "look" => {
            let kind = fields.next("kind", "f, r or w", |text| text.parse::<Kind>().ok())?;
            Ok(Event::Look { kind, addr: fields.address()?, smm: false })
        }
        "ack" => Ok(Event::Acknowledge),
        "pulse" => fields.number("count", MOST).map(Event::Pulse),
        "moment" => fields.next("moment", "YYYY-MM-DDTHH:MM:SS", |text| text.parse::<Moment>().ok()).map(Event::Time),
        "wire" => Ok(Event::Wire { device: fields.number("device", u8::MAX.into())?, level: fields.level()? }),
        "irq" => Ok(Event::Irq { line: fields.number("line", u8::MAX.into())?, level: fields.level()? }),
        "bad" => fields.number("sector", MOST).map(Event::BadSector),
        "receive" => fields.hexadecimal("byte", 2).map(|byte| Event::Receive(byte as u8)),
        other => Err(format!("a statement begins with {WORDS}, not {other:?}")),
    }
}

const WORDS: &str = "f, r, w, in, out, look, ack, pulse, moment, wire, irq, bad, receive";

fn has_mode(event: &Event) -> bool {
    matches!(event, Event::Fetch { .. } | Event::Read { .. } | Event::Write { .. } | Event::Look { .. })
}

fn parsed(statement: &str) -> Result<Event, String> {
    let mut words = statement.split(' ');
    let first = words.next().unwrap_or_default();
    let mut fields = Fields(words);
    let event = event_of(first, &mut fields)?;
    match (fields.0.next(), fields.0.next()) {
        (None, _) => Ok(event),
        (Some("smm"), None) if has_mode(&event) => Ok(event.in_smm()),
        (Some("smm"), Some(word)) if has_mode(&event) => Err(format!("the word {word:?} is too many")),
        (Some(word), _) => Err(format!("the word {word:?} is too many")),
    }
}

impl Event {
    /// Of a statement of a script, without its processor.
    ///
    /// # Errors
    ///
    /// Where it is none, with what is wrong with it.
    pub fn parse(statement: &str) -> Result<Event, NoStatement> {
        parsed(statement).map_err(|why| NoStatement { statement: statement.into(), why })
    }
}

/// As [`Event::parse`]; what is none is [`Error::NoEvent`].
impl FromStr for Event {
    type Err = Error;

    fn from_str(statement: &str) -> Result<Event, Error> {
        Event::parse(statement).map_err(|_| Error::NoEvent)
    }
}
