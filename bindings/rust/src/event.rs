//! Events: what is asked of a board.

use crate::raw;
use crate::{Kind, Moment, Value, Width};
use std::fmt;

/// What is asked of a board, or happens to it from outside.
///
/// It is written, and read by [`Event::parse`] and [`FromStr`](std::str::FromStr), as a statement of a script; that COM1 receives a byte has no statement there, and is
/// `receive 41`.
///
/// ```
/// use board_440fx::{Event, Width};
///
/// let event: Event = "out d 0CF8 80000058".parse()?;
/// assert_eq!(event, Event::Out { port: 0xCF8, width: Width::Dword, value: 0x8000_0058 });
/// assert_eq!(Event::read(0xA8000, Width::Byte).in_smm().to_string(), "r b 000A8000 smm");
/// # Ok::<(), board_440fx::Error>(())
/// ```
#[derive(Clone, Copy, Debug, PartialEq, Eq, Hash)]
pub enum Event {
    /// A fetch of code, aligned or not.
    Fetch {
        /// The first address.
        addr: u32,
        /// How many bytes.
        width: Width,
        /// In system management mode.
        smm: bool,
    },
    /// A read of memory, aligned or not.
    Read {
        /// The first address.
        addr: u32,
        /// How many bytes.
        width: Width,
        /// In system management mode.
        smm: bool,
    },
    /// A write of memory, aligned or not.
    Write {
        /// The first address.
        addr: u32,
        /// How many bytes.
        width: Width,
        /// In system management mode.
        smm: bool,
        /// What is written.
        value: u64,
    },
    /// A read of a port, which is a multiple of the width.
    In {
        /// The port.
        port: u16,
        /// One, two or four bytes.
        width: Width,
    },
    /// A write of a port, which is a multiple of the width.
    Out {
        /// The port.
        port: u16,
        /// One, two or four bytes.
        width: Width,
        /// What is written.
        value: u32,
    },
    /// A look: where would such an access land? Nothing happens.
    Look {
        /// The kind of access.
        kind: Kind,
        /// Where.
        addr: u32,
        /// In system management mode.
        smm: bool,
    },
    /// Interrupt acknowledge.
    Acknowledge,
    /// 1 to 1,000,000 pulses of the 8254's clock.
    Pulse(u32),
    /// The moment that the clock is to show.
    Time(Moment),
    /// INTA# of a card takes a level.
    Wire {
        /// The card's device number.
        device: u8,
        /// Whether it interrupts.
        level: bool,
    },
    /// An interrupt request line takes a level.
    Irq {
        /// 1, 3 to 7, 9 to 12 or 15.
        line: u8,
        /// The level.
        level: bool,
    },
    /// A sector of the disk goes bad.
    BadSector(u32),
    /// COM1 receives a byte from outside.
    Receive(u8),
}

impl Event {
    /// A fetch of code outside system management mode.
    pub fn fetch(addr: u32, width: Width) -> Event {
        Event::Fetch { addr, width, smm: false }
    }

    /// A read of memory outside system management mode.
    pub fn read(addr: u32, width: Width) -> Event {
        Event::Read { addr, width, smm: false }
    }

    /// A write of memory outside system management mode.
    pub fn write(addr: u32, width: Width, value: u64) -> Event {
        Event::Write { addr, width, smm: false, value }
    }

    /// The same access, or look, in system management mode. Other events have no mode.
    #[must_use]
    pub fn in_smm(mut self) -> Event {
        match &mut self {
            Event::Fetch { smm, .. } | Event::Read { smm, .. } | Event::Write { smm, .. } | Event::Look { smm, .. } => {
                *smm = true
            }
            _ => (),
        }
        self
    }

    /// How many bytes the value of its reply has.
    pub(crate) fn value_width(&self) -> Width {
        match *self {
            Event::Fetch { width, .. } | Event::Read { width, .. } | Event::In { width, .. } => width,
            _ => Width::Byte,
        }
    }

    pub(crate) fn record(&self) -> raw::Event {
        let memory = |kind: Kind, addr, width: Width, smm, value| raw::Event {
            what: raw::MEMORY,
            kind: kind.number(),
            addr,
            bytes: width.bytes(),
            smm: u8::from(smm),
            value,
            reserved: 0,
        };
        let port = |kind: Kind, port: u16, width: Width, value: u32| raw::Event {
            what: raw::PORT,
            kind: kind.number(),
            addr: u32::from(port),
            bytes: width.bytes(),
            value: u64::from(value),
            ..raw::Event::default()
        };
        let other = |what, addr, value| raw::Event { what, addr, value, ..raw::Event::default() };
        match *self {
            Event::Fetch { addr, width, smm } => memory(Kind::Fetch, addr, width, smm, 0),
            Event::Read { addr, width, smm } => memory(Kind::Read, addr, width, smm, 0),
            Event::Write { addr, width, smm, value } => memory(Kind::Write, addr, width, smm, value),
            Event::In { port: at, width } => port(Kind::Read, at, width, 0),
            Event::Out { port: at, width, value } => port(Kind::Write, at, width, value),
            Event::Look { kind, addr, smm } => {
                raw::Event { what: raw::LOOK, kind: kind.number(), addr, smm: u8::from(smm), ..raw::Event::default() }
            }
            Event::Acknowledge => other(raw::ACK, 0, 0),
            Event::Pulse(count) => other(raw::PULSE, 0, u64::from(count)),
            Event::Time(moment) => other(raw::TIME, 0, moment.digits()),
            Event::Wire { device, level } => other(raw::WIRE, u32::from(device), u64::from(level)),
            Event::Irq { line, level } => other(raw::IRQ, u32::from(line), u64::from(level)),
            Event::BadSector(sector) => other(raw::BAD_SECTOR, sector, 0),
            Event::Receive(byte) => other(raw::SERIAL, 0, u64::from(byte)),
        }
    }
}

fn mode(smm: bool) -> &'static str {
    if smm {
        " smm"
    } else {
        ""
    }
}

/// As the statement of a script.
impl fmt::Display for Event {
    fn fmt(&self, f: &mut fmt::Formatter<'_>) -> fmt::Result {
        match *self {
            Event::Fetch { addr, width, smm } => write!(f, "f {width} {addr:08X}{}", mode(smm)),
            Event::Read { addr, width, smm } => write!(f, "r {width} {addr:08X}{}", mode(smm)),
            Event::Write { addr, width, smm, value } => {
                write!(f, "w {width} {addr:08X} {}{}", Value { bits: value, width }, mode(smm))
            }
            Event::In { port, width } => write!(f, "in {width} {port:04X}"),
            Event::Out { port, width, value } => {
                write!(f, "out {width} {port:04X} {}", Value { bits: u64::from(value), width })
            }
            Event::Look { kind, addr, smm } => write!(f, "look {kind} {addr:08X}{}", mode(smm)),
            Event::Acknowledge => f.write_str("ack"),
            Event::Pulse(count) => write!(f, "pulse {count}"),
            Event::Time(moment) => write!(f, "moment {moment}"),
            Event::Wire { device, level } => write!(f, "wire {device} {}", u8::from(level)),
            Event::Irq { line, level } => write!(f, "irq {line} {}", u8::from(level)),
            Event::BadSector(sector) => write!(f, "bad {sector}"),
            Event::Receive(byte) => write!(f, "receive {byte:02X}"),
        }
    }
}
