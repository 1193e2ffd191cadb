//! What an event is made of: widths, kinds of access, moments.

use crate::raw;
use crate::Error;
use std::fmt;
use std::str::FromStr;

/// How many bytes an access moves.
///
/// ```
/// use board_440fx::Width;
///
/// assert_eq!(Width::Dword.bytes(), 4);
/// assert_eq!(Width::of_bytes(8), Some(Width::Qword));
/// assert_eq!(Width::Word.to_string(), "w");
/// ```
#[derive(Clone, Copy, Debug, PartialEq, Eq, PartialOrd, Ord, Hash)]
pub enum Width {
    /// One byte, `b` in a log.
    Byte,
    /// Two bytes, `w`.
    Word,
    /// Four bytes, `d`.
    Dword,
    /// Eight bytes, `q`, of memory alone.
    Qword,
}

impl Width {
    /// How many bytes they are.
    pub fn bytes(self) -> u8 {
        match self {
            Width::Byte => 1,
            Width::Word => 2,
            Width::Dword => 4,
            Width::Qword => 8,
        }
    }

    /// The width of these many bytes, none where they are not 1, 2, 4 or 8.
    pub fn of_bytes(bytes: u8) -> Option<Width> {
        match bytes {
            1 => Some(Width::Byte),
            2 => Some(Width::Word),
            4 => Some(Width::Dword),
            8 => Some(Width::Qword),
            _ => None,
        }
    }

    /// The greatest value that has this width.
    pub fn mask(self) -> u64 {
        u64::MAX >> (64 - 8 * u32::from(self.bytes()))
    }
}

/// As in a log: `b`, `w`, `d` or `q`.
impl fmt::Display for Width {
    fn fmt(&self, f: &mut fmt::Formatter<'_>) -> fmt::Result {
        f.write_str(match self {
            Width::Byte => "b",
            Width::Word => "w",
            Width::Dword => "d",
            Width::Qword => "q",
        })
    }
}

/// Of a letter as in a log.
impl FromStr for Width {
    type Err = Error;

    fn from_str(letter: &str) -> Result<Width, Error> {
        match letter {
            "b" => Ok(Width::Byte),
            "w" => Ok(Width::Word),
            "d" => Ok(Width::Dword),
            "q" => Ok(Width::Qword),
            _ => Err(Error::NoEvent),
        }
    }
}

/// The cycles that the bus makes of an access of any count of bytes, to ports or to memory, in rising order: the address
/// of each, and the widest of 4, 2 and 1 bytes that is aligned there and does not pass the access's end. From 4 GiB on there
/// are none.
///
/// ```
/// use board_440fx::{cycles, Width};
///
/// let seven: Vec<_> = cycles(0xCC005, 7).collect();
/// assert_eq!(seven, [(0xCC005, Width::Byte), (0xCC006, Width::Word), (0xCC008, Width::Dword)]);
/// assert_eq!(cycles(0xFFFF_FFFF, 3).count(), 1);
/// ```
pub fn cycles(addr: u64, bytes: u64) -> impl Iterator<Item = (u32, Width)> {
    let mut done = 0;
    std::iter::from_fn(move || {
        let at = u32::try_from(addr.checked_add(done)?).ok()?;
        let width = match bytes.checked_sub(done)? {
            0 => return None,
            left if left >= 4 && at % 4 == 0 => Width::Dword,
            left if left >= 2 && at % 2 == 0 => Width::Word,
            _ => Width::Byte,
        };
        done += u64::from(width.bytes());
        Some((at, width))
    })
}

/// A value with its width.
///
/// ```
/// use board_440fx::{Value, Width};
///
/// assert_eq!(Value { bits: 0x5A, width: Width::Word }.to_string(), "005A");
/// ```
#[derive(Clone, Copy, Debug, PartialEq, Eq, Hash)]
pub struct Value {
    /// The value itself; the low byte is that of the lowest address.
    pub bits: u64,
    /// How many bytes of it were moved.
    pub width: Width,
}

/// As in a log: upper-case digits, as many as the width has.
impl fmt::Display for Value {
    fn fmt(&self, f: &mut fmt::Formatter<'_>) -> fmt::Result {
        let digits = 2 * usize::from(self.width.bytes());
        write!(f, "{:0digits$X}", self.bits)
    }
}

/// The kind of an access to memory.
///
/// ```
/// use board_440fx::Kind;
///
/// assert_eq!(Kind::Fetch.to_string(), "f");
/// ```
#[derive(Clone, Copy, Debug, PartialEq, Eq, Hash)]
pub enum Kind {
    /// A fetch of code.
    Fetch,
    /// A read of data.
    Read,
    /// A write.
    Write,
}

impl Kind {
    pub(crate) fn number(self) -> u8 {
        match self {
            Kind::Fetch => raw::FETCH,
            Kind::Read => raw::READ,
            Kind::Write => raw::WRITE,
        }
    }
}

/// As in a log: `f`, `r` or `w`.
impl fmt::Display for Kind {
    fn fmt(&self, f: &mut fmt::Formatter<'_>) -> fmt::Result {
        f.write_str(match self {
            Kind::Fetch => "f",
            Kind::Read => "r",
            Kind::Write => "w",
        })
    }
}

/// Of a letter as in a log.
impl FromStr for Kind {
    type Err = Error;

    fn from_str(letter: &str) -> Result<Kind, Error> {
        match letter {
            "f" => Ok(Kind::Fetch),
            "r" => Ok(Kind::Read),
            "w" => Ok(Kind::Write),
            _ => Err(Error::NoEvent),
        }
    }
}

/// A date and time for the clock to show, from 1980 to 2099.
///
/// ```
/// use board_440fx::Moment;
///
/// let leap: Moment = "2024-02-29T12:35:00".parse()?;
/// assert_eq!((leap.month, leap.day), (2, 29));
/// assert_eq!(leap.to_string(), "2024-02-29T12:35:00");
/// # Ok::<(), board_440fx::Error>(())
/// ```
#[derive(Clone, Copy, Debug, PartialEq, Eq, PartialOrd, Ord, Hash)]
pub struct Moment {
    /// The year, all its digits.
    pub year: u16,
    /// 1 to 12.
    pub month: u8,
    /// 1 to 31.
    pub day: u8,
    /// 0 to 23.
    pub hour: u8,
    /// 0 to 59.
    pub minute: u8,
    /// 0 to 59.
    pub second: u8,
}

impl Moment {
    /// As digits, 20261128143000; 0, which is no moment, where a field has three.
    pub(crate) fn digits(self) -> u64 {
        let fields = [self.month, self.day, self.hour, self.minute, self.second];
        if fields.iter().any(|&field| field > 99) {
            return 0;
        }
        fields.iter().fold(u64::from(self.year), |digits, &field| digits * 100 + u64::from(field))
    }

    /// Of such digits.
    pub(crate) fn of_digits(digits: u64) -> Moment {
        let two = |below: u64| (digits / below % 100) as u8;
        Moment {
            year: (digits / 10_000_000_000) as u16,
            month: two(100_000_000),
            day: two(1_000_000),
            hour: two(10_000),
            minute: two(100),
            second: two(1),
        }
    }
}

/// As in a script: `2024-02-29T12:35:00`.
impl fmt::Display for Moment {
    fn fmt(&self, f: &mut fmt::Formatter<'_>) -> fmt::Result {
        let Moment { year, month, day, hour, minute, second } = self;
        write!(f, "{year:04}-{month:02}-{day:02}T{hour:02}:{minute:02}:{second:02}")
    }
}

/// Of the form of a script. Whether the calendar has it the board says.
impl FromStr for Moment {
    type Err = Error;

    fn from_str(text: &str) -> Result<Moment, Error> {
        let shape: String = text.chars().map(|c| if c.is_ascii_digit() { '0' } else { c }).collect();
        if shape != "0000-00-00T00:00:00" {
            return Err(Error::NoEvent);
        }
        let mut fields = text.split(['-', 'T', ':']).map(|field| field.parse::<u16>().ok());
        let mut next = || fields.next().flatten().ok_or(Error::NoEvent);
        let year = next()?;
        let mut byte = || next().and_then(|field| u8::try_from(field).map_err(|_| Error::NoEvent));
        Ok(Moment { year, month: byte()?, day: byte()?, hour: byte()?, minute: byte()?, second: byte()? })
    }
}
