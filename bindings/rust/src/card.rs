//! PCI cards.

use crate::raw;
use crate::Error;
use std::fmt;
use std::str::FromStr;

/// A base of a card.
///
/// ```
/// assert_eq!(board_440fx::Base::Io { bits: 6 }.to_string(), "i6");
/// ```
#[derive(Clone, Copy, Debug, PartialEq, Eq, Hash)]
pub enum Base {
    /// Memory.
    Memory {
        /// log2 of its bytes, 4 to 24.
        bits: u8,
    },
    /// Ports.
    Io {
        /// log2 of how many, 2 to 8.
        bits: u8,
    },
    /// Memory whose bytes the monitor keeps: reads of the board give ones.
    Outside {
        /// log2 of its bytes, 4 to 28.
        bits: u8,
    },
}

impl Base {
    fn record(self) -> raw::Base {
        match self {
            Base::Memory { bits } => raw::Base { kind: raw::MEMORY_BASE, bits },
            Base::Io { bits } => raw::Base { kind: raw::IO_BASE, bits },
            Base::Outside { bits } => raw::Base { kind: raw::OUTSIDE, bits },
        }
    }
}

/// As in a script: `m24`, `i6`; and `o28` of a base outside, which no script has.
impl fmt::Display for Base {
    fn fmt(&self, f: &mut fmt::Formatter<'_>) -> fmt::Result {
        match self {
            Base::Memory { bits } => write!(f, "m{bits}"),
            Base::Io { bits } => write!(f, "i{bits}"),
            Base::Outside { bits } => write!(f, "o{bits}"),
        }
    }
}

/// A PCI card. Whether a board can be fitted with it `open` says.
///
/// ```
/// use board_440fx::Card;
///
/// let vga = Card::new(2).vga().memory(24).rom(15);
/// assert_eq!(vga.to_string(), "2 vga m24 x15");
/// assert_eq!("2 vga m24 x15".parse(), Ok(vga));
/// ```
#[derive(Clone, Debug, PartialEq, Eq, Hash)]
pub struct Card {
    device: u8,
    vga: bool,
    bases: Vec<Base>,
    rom: u8,
    identity: Identity,
}

/// What a card says that it is, by the names of PCI Local Bus 2.1. A field of 0 says nothing: there the card has what
/// every card of this board has. The class code has three bytes, and the pin is 1 to 4 for INTA# to INTD#.
#[derive(Clone, Copy, Debug, Default, PartialEq, Eq, Hash)]
pub struct Identity {
    /// Offset 00h.
    pub vendor_id: u16,
    /// Offset 02h.
    pub device_id: u16,
    /// Offset 09h: interface, subclass and class.
    pub class_code: u32,
    /// Offset 08h.
    pub revision_id: u8,
    /// Offset 2Ch.
    pub subsystem_vendor_id: u16,
    /// Offset 2Eh.
    pub subsystem_id: u16,
    /// Offset 3Dh.
    pub interrupt_pin: u8,
}

impl Card {
    /// A plain card without bases at a device number, 2 to 9.
    pub fn new(device: u8) -> Card {
        Card { device, vga: false, bases: Vec::new(), rom: 0, identity: Identity::default() }
    }

    /// The device number.
    pub fn device(&self) -> u8 {
        self.device
    }

    /// Makes it a VGA adapter, which decodes A0000h to BFFFFh.
    #[must_use]
    pub fn vga(mut self) -> Card {
        self.vga = true;
        self
    }

    /// Adds a base of memory of 2 to the power of `bits` bytes, 4 to 24. A card has at most six bases.
    #[must_use]
    pub fn memory(self, bits: u8) -> Card {
        self.base(Base::Memory { bits })
    }

    /// Adds a base of 2 to the power of `bits` ports, 2 to 8.
    #[must_use]
    pub fn io(self, bits: u8) -> Card {
        self.base(Base::Io { bits })
    }

    /// Adds a base of 2 to the power of `bits` bytes of memory, 4 to 28, which the monitor keeps itself.
    #[must_use]
    pub fn outside(self, bits: u8) -> Card {
        self.base(Base::Outside { bits })
    }

    /// Adds a base.
    #[must_use]
    pub fn base(mut self, base: Base) -> Card {
        self.bases.push(base);
        self
    }

    /// Gives it an expansion ROM of 2 to the power of `bits` bytes, 11 to 24.
    #[must_use]
    pub fn rom(mut self, bits: u8) -> Card {
        self.rom = bits;
        self
    }

    /// Says what it is, of which a script's line says nothing.
    #[must_use]
    pub fn identity(mut self, identity: Identity) -> Card {
        self.identity = identity;
        self
    }

    /// The record; more bases than it has room for are counted, so that the board refuses them.
    pub(crate) fn record(&self) -> raw::Card {
        let mut base = [raw::Base::default(); raw::MOST_BASES];
        for (record, base) in base.iter_mut().zip(&self.bases) {
            *record = base.record();
        }
        let bases = u8::try_from(self.bases.len()).unwrap_or(u8::MAX);
        raw::Card {
            device: self.device,
            vga: u8::from(self.vga),
            rom: self.rom,
            bases,
            base,
            class_code: self.identity.class_code,
            vendor_id: self.identity.vendor_id,
            device_id: self.identity.device_id,
            subsystem_vendor_id: self.identity.subsystem_vendor_id,
            subsystem_id: self.identity.subsystem_id,
            revision_id: self.identity.revision_id,
            interrupt_pin: self.identity.interrupt_pin,
            reserved: 0,
        }
    }
}

/// As in a script, without the word `card`.
impl fmt::Display for Card {
    fn fmt(&self, f: &mut fmt::Formatter<'_>) -> fmt::Result {
        write!(f, "{} {}", self.device, if self.vga { "vga" } else { "plain" })?;
        self.bases.iter().try_for_each(|base| write!(f, " {base}"))?;
        match self.rom {
            0 => Ok(()),
            bits => write!(f, " x{bits}"),
        }
    }
}

/// Of the line of a script, without the word `card`, and with bases outside.
impl FromStr for Card {
    type Err = Error;

    fn from_str(text: &str) -> Result<Card, Error> {
        let number = |text: &str| text.parse::<u8>().map_err(|_| Error::BadCards);
        let mut words = text.split(' ');
        let device = number(words.next().unwrap_or(""))?;
        let card = match words.next() {
            Some("vga") => Card::new(device).vga(),
            Some("plain") => Card::new(device),
            _ => return Err(Error::BadCards),
        };
        words.try_fold(card, |card, word| match word.split_at(usize::from(word.is_char_boundary(1))) {
            ("m", bits) => Ok(card.memory(number(bits)?)),
            ("i", bits) => Ok(card.io(number(bits)?)),
            ("o", bits) => Ok(card.outside(number(bits)?)),
            ("x", bits) => Ok(card.rom(number(bits)?)),
            _ => Err(Error::BadCards),
        })
    }
}
