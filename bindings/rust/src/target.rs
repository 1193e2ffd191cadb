//! What answers, and what denies: targets, devices, registers.

use crate::raw;
use std::fmt;

/// A register of configuration space.
///
/// ```
/// use board_440fx::Register;
///
/// let pam0 = Register { device: 0, function: 0, offset: 0x59 };
/// assert_eq!(pam0.name(), Some("PAM0"));
/// assert_eq!(pam0.to_string(), "00.0.59");
/// assert_eq!(format!("{pam0:#}"), "00.0.59 (PAM0)");
/// ```
#[derive(Clone, Copy, Debug, PartialEq, Eq, PartialOrd, Ord, Hash)]
pub struct Register {
    /// The device on the PCI bus.
    pub device: u8,
    /// Its function.
    pub function: u8,
    /// The offset of the byte.
    pub offset: u8,
}

impl Register {
    /// Its name in the datasheet, where it is a register that the map, the ports or the lines depend on.
    pub fn name(self) -> Option<&'static str> {
        REGISTERS.iter().find(|(place, ..)| place.covers(self)).map(|(_, name)| *name)
    }
}

/// Which functions have a register, and at which offsets.
struct Place {
    function: Option<(u8, u8)>,
    first: u8,
    last: u8,
}

impl Place {
    fn covers(&self, register: Register) -> bool {
        self.function.map_or(true, |function| function == (register.device, register.function))
            && (self.first..=self.last).contains(&register.offset)
    }
}

const fn at(device: u8, function: u8, first: u8, last: u8) -> Place {
    Place { function: Some((device, function)), first, last }
}

const fn of_any(first: u8, last: u8) -> Place {
    Place { function: None, first, last }
}

/// The registers of the 82441FX and the 82371SB, and those that each function has by PCI Local Bus 2.1, section 6.2.
const REGISTERS: &[(Place, &str)] = &[
    // made by tools/make-names: registers
    (at(0, 0, 0x59, 0x59), "PAM0"),
    (at(0, 0, 0x5A, 0x5A), "PAM1"),
    (at(0, 0, 0x5B, 0x5B), "PAM2"),
    (at(0, 0, 0x5C, 0x5C), "PAM3"),
    (at(0, 0, 0x5D, 0x5D), "PAM4"),
    (at(0, 0, 0x5E, 0x5E), "PAM5"),
    (at(0, 0, 0x5F, 0x5F), "PAM6"),
    (at(0, 0, 0x60, 0x60), "DRB0"),
    (at(0, 0, 0x61, 0x61), "DRB1"),
    (at(0, 0, 0x62, 0x62), "DRB2"),
    (at(0, 0, 0x63, 0x63), "DRB3"),
    (at(0, 0, 0x64, 0x64), "DRB4"),
    (at(0, 0, 0x65, 0x65), "DRB5"),
    (at(0, 0, 0x66, 0x66), "DRB6"),
    (at(0, 0, 0x67, 0x67), "DRB7"),
    (at(0, 0, 0x68, 0x68), "FDHC"),
    (at(0, 0, 0x72, 0x72), "SMRAM"),
    (at(1, 0, 0x4E, 0x4F), "XBCS"),
    (at(1, 0, 0x60, 0x60), "PIRQRCA"),
    (at(1, 0, 0x61, 0x61), "PIRQRCB"),
    (at(1, 0, 0x62, 0x62), "PIRQRCC"),
    (at(1, 0, 0x63, 0x63), "PIRQRCD"),
    (at(1, 1, 0x40, 0x41), "IDETIM"),
    (of_any(0x04, 0x05), "command"),
    (of_any(0x30, 0x33), "expansion ROM base"),
    // end of what is made
];

/// As in a log, `00.0.59`; with `{:#}` its name follows.
impl fmt::Display for Register {
    fn fmt(&self, f: &mut fmt::Formatter<'_>) -> fmt::Result {
        let Register { device, function, offset } = self;
        write!(f, "{device:02X}.{function}.{offset:02X}")?;
        match self.name() {
            Some(name) if f.alternate() => write!(f, " ({name})"),
            _ => Ok(()),
        }
    }
}

/// What kept an access out.
///
/// ```
/// use board_440fx::{Board, Denial, Event, Width};
///
/// let mut board = Board::builder().rom(&[0; 65536]).open()?;
/// let answer = board.step(&Event::read(0xCC000, Width::Byte))?;
/// match answer.denied_by() {
///     Some(Denial::Register(register)) => assert_eq!(register.name(), Some("PAM2")),
///     other => panic!("{other:?}"),
/// }
/// # Ok::<(), board_440fx::Error>(())
/// ```
#[derive(Clone, Copy, Debug, PartialEq, Eq, Hash)]
pub enum Denial {
    /// A register, which could let it in.
    Register(Register),
    /// The configuration address is not enabled.
    ConfigAddress,
    /// No register keeps it out: nobody is there.
    NoRegister,
}

/// As in a log; with `{:#}` a register's name follows.
impl fmt::Display for Denial {
    fn fmt(&self, f: &mut fmt::Formatter<'_>) -> fmt::Result {
        match self {
            Denial::Register(register) => register.fmt(f),
            Denial::ConfigAddress => f.write_str("confadd"),
            Denial::NoRegister => f.write_str("none"),
        }
    }
}

/// The devices, each as its number, its variant, its word in a log and what it is.
macro_rules! devices {
    ($($number:literal $name:ident $word:literal $about:literal)*) => {
        /// A device of the board, or what gave a vector.
        ///
        /// ```
        /// assert_eq!(board_440fx::Device::Pit.to_string(), "pit");
        /// ```
        #[derive(Clone, Copy, Debug, PartialEq, Eq, Hash)]
        #[non_exhaustive]
        pub enum Device {
            $(#[doc = $about] $name,)*
        }

        impl Device {
            fn of(number: u8) -> Option<Device> {
                match number {
                    $($number => Some(Device::$name),)*
                    _ => None,
                }
            }

            #[cfg(test)]
            pub(crate) fn number(self) -> u8 {
                match self {
                    $(Device::$name => $number,)*
                }
            }
        }

        /// As in a log.
        impl fmt::Display for Device {
            fn fmt(&self, f: &mut fmt::Formatter<'_>) -> fmt::Result {
                f.write_str(match self {
                    $(Device::$name => $word,)*
                })
            }
        }
    };
}

devices! {
    // made by tools/make-names: devices
    1 ConfigAddress "confadd" "The configuration address."
    2 ResetControl "reset" "The reset control register."
    3 Pic0 "pic0" "The 8259A that is the master."
    4 Pic1 "pic1" "The 8259A that is the slave."
    5 Pit "pit" "The 8254; also of `pulse`."
    6 System "sys" "Port 61h."
    7 Keyboard "kbd" "The socket of the keyboard controller, which is empty: a read gives FFh, a write is lost."
    8 Clock "clock" "The MC146818; also of `moment`."
    9 Elcr "elcr" "Edge and level control."
    10 Ata "ata" "The disk; also of `bad`."
    11 Wires "wires" "The lines from outside: of `wire` and `irq`."
    12 Vector0 "vec0" "Of `ack`: a vector that the master gave."
    13 Vector1 "vec1" "Of `ack`: a vector that the slave gave."
    14 Spurious0 "spur0" "Of `ack`: a spurious vector of the master."
    15 Spurious1 "spur1" "Of `ack`: a spurious vector of the slave."
    16 Uart "uart" "The 16550 of COM1, accesses of one byte at 3F8h to 3FFh before any card; a log has no line for it."
    // end of what is made
}

/// What answered an access.
///
/// ```
/// use board_440fx::Target;
///
/// assert_eq!(Target::Card { device: 2, base: 6, offset: 4 }.to_string(), "card:2.6:00000004");
/// ```
#[derive(Clone, Copy, Debug, PartialEq, Eq, Hash)]
#[non_exhaustive]
pub enum Target {
    /// Main memory.
    Dram {
        /// Its row.
        row: u8,
    },
    /// Main memory behind an open PAM window.
    Shadow {
        /// Its row.
        row: u8,
    },
    /// Main memory at A0000h to BFFFFh.
    Smram,
    /// The BIOS ROM.
    Rom {
        /// The address modulo the ROM's size.
        offset: u32,
    },
    /// A base of a card: 0 to 5, 6 for its expansion ROM, 7 for the window of a VGA card.
    Card {
        /// The card's device number.
        device: u8,
        /// Its base.
        base: u8,
        /// The offset behind the base.
        offset: u32,
    },
    /// A device of the board.
    Device(Device),
    /// A register of configuration space, and those after it that the access covers.
    Config(Register),
    /// Nobody: a read gives all ones, a write is lost.
    Abort,
}

impl Target {
    /// Whether it is main memory at its own address, whose bytes a monitor may keep itself.
    pub fn is_memory(self) -> bool {
        matches!(self, Target::Dram { .. } | Target::Shadow { .. })
    }

    fn of(part: &raw::Part) -> Option<Target> {
        let raw::Part { offset, target, unit, base, .. } = *part;
        Some(match target {
            raw::DRAM => Target::Dram { row: unit },
            raw::SHADOW => Target::Shadow { row: unit },
            raw::SMRAM => Target::Smram,
            raw::ROM => Target::Rom { offset },
            raw::CARD => Target::Card { device: unit, base, offset },
            raw::IS_DEVICE => Target::Device(Device::of(unit)?),
            raw::CONFIG => {
                Target::Config(Register { device: unit, function: base, offset: u8::try_from(offset).ok()? })
            }
            raw::ABORT => Target::Abort,
            _ => return None,
        })
    }
}

/// As in a log.
impl fmt::Display for Target {
    fn fmt(&self, f: &mut fmt::Formatter<'_>) -> fmt::Result {
        match self {
            Target::Dram { row } => write!(f, "dram:{row}"),
            Target::Shadow { row } => write!(f, "shadow:{row}"),
            Target::Smram => f.write_str("smram"),
            Target::Rom { offset } => write!(f, "rom:{offset:05X}"),
            Target::Card { device, base, offset } => write!(f, "card:{device}.{base}:{offset:08X}"),
            Target::Device(device) => device.fmt(f),
            Target::Config(register) => write!(f, "config:{register}"),
            Target::Abort => f.write_str("abort"),
        }
    }
}

/// What answered an access, or one part of a wide one, and what denied it.
///
/// ```
/// use board_440fx::{Part, Target};
///
/// assert_eq!(Part { target: Target::Smram, denial: None }.to_string(), "smram -");
/// ```
#[derive(Clone, Copy, Debug, PartialEq, Eq, Hash)]
pub struct Part {
    /// What answered.
    pub target: Target,
    /// What kept it out, if anything did.
    pub denial: Option<Denial>,
}

impl Part {
    pub(crate) fn of(part: &raw::Part) -> Option<Part> {
        let register = Register { device: part.denial_dev, function: part.denial_fun, offset: part.denial_off };
        let denial = match part.denial {
            raw::NOT_DENIED => None,
            raw::BY_REGISTER => Some(Denial::Register(register)),
            raw::BY_CONFADD => Some(Denial::ConfigAddress),
            raw::BY_NO_REGISTER => Some(Denial::NoRegister),
            _ => return None,
        };
        Some(Part { target: Target::of(part)?, denial })
    }
}

/// As in a log: target and denial.
impl fmt::Display for Part {
    fn fmt(&self, f: &mut fmt::Formatter<'_>) -> fmt::Result {
        match self.denial {
            Some(denial) => write!(f, "{} {denial}", self.target),
            None => write!(f, "{} -", self.target),
        }
    }
}
