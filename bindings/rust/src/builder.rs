//! What a board is opened with.

use crate::{Board, Card, Error};

const DEFAULT_MIB: u32 = 8;

/// What a board is opened with: memory, cards, a ROM and maybe a disk.
///
/// ```
/// use board_440fx::{Board, Card};
///
/// let board = Board::builder()
///     .memory_mib(16)
///     .card(Card::new(2).vga().memory(24))
///     .rom(&[0; 65536])
///     .disk(&[0; 4 * 512])
///     .open()?;
/// assert_eq!(board.disk_read(3)?, [0; 512]);
/// # Ok::<(), board_440fx::Error>(())
/// ```
#[derive(Clone, Debug)]
#[must_use]
pub struct Builder<'a> {
    mib: u32,
    cards: Vec<Card>,
    rom: &'a [u8],
    disk: &'a [u8],
}

impl<'a> Builder<'a> {
    pub(crate) fn new() -> Builder<'a> {
        Builder { mib: DEFAULT_MIB, cards: Vec::new(), rom: &[], disk: &[] }
    }

    /// The guest's memory in MiB, 1 to 512; 8 where nothing is said.
    pub fn memory_mib(mut self, mib: u32) -> Builder<'a> {
        self.mib = mib;
        self
    }

    /// Fits a card. The order of calls does not matter.
    pub fn card(mut self, card: Card) -> Builder<'a> {
        self.cards.push(card);
        self
    }

    /// The BIOS ROM, 64, 128, 256 or 512 KiB. A board has one; its bytes are copied.
    pub fn rom(mut self, bytes: &'a [u8]) -> Builder<'a> {
        self.rom = bytes;
        self
    }

    /// The disk, 1 to 65,536 sectors of 512 bytes. Without one, or with no bytes, there is none. Its bytes are copied.
    pub fn disk(mut self, bytes: &'a [u8]) -> Builder<'a> {
        self.disk = bytes;
        self
    }

    /// The board, as after power-on.
    ///
    /// # Errors
    ///
    /// [`Error::BadSize`], [`Error::BadCards`], [`Error::BadRom`], [`Error::BadDisk`], the first of them that holds;
    /// else [`Error::NoMemory`].
    pub fn open(mut self) -> Result<Board, Error> {
        self.cards.sort_by_key(Card::device);
        Board::open(self.mib, &self.cards, self.rom, self.disk)
    }
}
