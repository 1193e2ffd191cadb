//! A transfer of the bus master in pieces, over memory and a disk that the caller keeps.

use crate::error::{check, Error};
use crate::raw;
use crate::{Denial, Part};

/// A transfer as far as it has come: [`Board::next_piece`](crate::Board::next_piece) tells its pieces.
///
/// ```
/// use board_440fx::{Board, End, Piece, Transfer, Width};
///
/// let board = Board::builder().rom(&[0; 65536]).open()?;
/// let mut transfer = Transfer::begin(0x1000, 5, 1, 1, true)?;
/// assert!(matches!(board.next_piece(&mut transfer)?, Piece::Descriptor { addr: 0x1000, .. }));
/// transfer.region(0x2000, 0x8000_0200)?; // its two doublewords: 512 bytes at 2000h, and no further region
/// let part = board.decode_master(0x2000, Width::Word, true)?;
/// assert_eq!(board.next_piece(&mut transfer)?, Piece::Words { addr: 0x2000, disk: 2560, bytes: 512, part });
/// assert_eq!(board.next_piece(&mut transfer)?, Piece::Ended { end: End::Exact, status: 4, moved: 512 });
/// assert_eq!(transfer.table(), 0x1008);
/// # Ok::<(), board_440fx::Error>(())
/// ```
#[derive(Clone, Copy, Debug, PartialEq, Eq)]
pub struct Transfer {
    pub(crate) record: raw::Transfer,
}

/// What comes next in a transfer.
#[derive(Clone, Copy, Debug, PartialEq, Eq)]
pub enum Piece {
    /// A descriptor is wanted: the doublewords at `addr`, its base, and at `addr + 4`, its count, go to
    /// [`Transfer::region`].
    Descriptor {
        /// Where it lies.
        addr: u32,
        /// What answers for its base.
        base: Part,
        /// What answers for its count.
        count: Part,
    },
    /// Words to be moved, which lie in one sector and one area of the memory map.
    Words {
        /// Where the first lies in memory.
        addr: u32,
        /// Their first byte on the disk, counted from sector 0 on.
        disk: u64,
        /// How many bytes they are.
        bytes: u32,
        /// What answers them, with the offset of the first.
        part: Part,
    },
    /// The transfer has ended.
    Ended {
        /// Why.
        end: End,
        /// Bits 2 to 0 of the status register: interrupt, error, active.
        status: u8,
        /// How many bytes were moved.
        moved: u32,
    },
}

/// Why a transfer ended.
#[derive(Clone, Copy, Debug, PartialEq, Eq)]
pub enum End {
    /// The last word was also the end of the last region.
    Exact,
    /// The table goes on after the last word.
    Longer,
    /// The last region ended, and words remain.
    Shorter,
    /// Nobody answers at this address.
    Aborted {
        /// Where.
        addr: u32,
        /// What denies it.
        denied_by: Option<Denial>,
    },
    /// This sector is not there, or cannot be read.
    Missing {
        /// Which.
        sector: u32,
    },
}

impl Transfer {
    /// A transfer of 1 to 256 sectors from `lba` on, below 2^28, by the table of descriptors at an address that is a
    /// multiple of 4. The first `readable` of the sectors are there and can be read.
    ///
    /// # Errors
    ///
    /// [`Error::NoTransfer`] of other numbers.
    pub fn begin(table: u32, lba: u32, sectors: u32, readable: u32, to_memory: bool) -> Result<Transfer, Error> {
        let mut record = raw::Transfer::default();
        // SAFETY: the pointer is good for a record, and the call takes no handle.
        check(unsafe { raw::board_transfer_begin(&mut record, table, lba, sectors, readable, to_memory) })?;
        Ok(Transfer { record })
    }

    /// Goes on in the region of the descriptor that was wanted: its two doublewords, the base and the count.
    ///
    /// # Errors
    ///
    /// [`Error::NoTransfer`] where no descriptor is wanted.
    pub fn region(&mut self, base: u32, count: u32) -> Result<(), Error> {
        // SAFETY: as of `begin`.
        check(unsafe { raw::board_transfer_region(&mut self.record, base, count) })
    }

    /// The address of the next descriptor: at the end, what the table pointer reads.
    pub fn table(&self) -> u32 {
        self.record.table
    }
}

impl Piece {
    /// What a record says. None where it says none.
    pub(crate) fn of(said: &raw::Piece) -> Option<Piece> {
        let raw::Piece { disk, addr, bytes, status, .. } = *said;
        match said.what {
            raw::DESCRIPTOR => {
                Some(Piece::Descriptor { addr, base: Part::of(&said.part[0])?, count: Part::of(&said.part[1])? })
            }
            raw::WORDS => Some(Piece::Words { addr, disk, bytes, part: Part::of(&said.part[0])? }),
            raw::ENDED => Some(Piece::Ended { end: End::of(said)?, status, moved: bytes }),
            _ => None,
        }
    }
}

impl End {
    fn of(said: &raw::Piece) -> Option<End> {
        match said.end {
            raw::EXACT => Some(End::Exact),
            raw::LONGER => Some(End::Longer),
            raw::SHORTER => Some(End::Shorter),
            raw::ABORTED => {
                Some(End::Aborted { addr: said.addr, denied_by: Part::of(&said.part[0]).and_then(|part| part.denial) })
            }
            raw::MISSING => Some(End::Missing { sector: said.sector }),
            _ => None,
        }
    }
}
