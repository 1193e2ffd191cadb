//! The disk's file, which has each sector as soon as the guest has written it, and the host's medium at FLUSH CACHE: a
//! monitor that is killed loses nothing that the guest flushed.

use crate::Outcome;
use board_440fx::{Board, Error};
use std::fs::{File, OpenOptions};
use std::io::Read;
use std::os::unix::fs::FileExt;

const SECTOR: usize = 512;
const DATA: u16 = 0x1F0;
const REGISTERS: [u16; 4] = [0x1F3, 0x1F4, 0x1F5, 0x1F6]; // the sector's number, or sector, cylinder and head
const COMMAND: u16 = 0x1F7;
const STATUS: u16 = 0x3F6; // which leaves the interrupt as it is
const WRITE_SECTORS: u8 = 0x30;
const FLUSH_CACHE: u8 = 0xE7;
const BY_NUMBER: u8 = 0x40;
const BUSY: u8 = 0x80;
const WANTS_WORDS: u8 = 0x08;

pub struct Disk {
    file: File,
    sector: Option<u32>, // that a WRITE SECTORS stores next
    bytes: usize,        // of it that have come
}

impl Disk {
    /// The file of this name, and what stands in it.
    pub fn open(name: &str) -> Outcome<(Disk, Vec<u8>)> {
        let (mut file, mut sectors) = (OpenOptions::new().read(true).write(true).open(name)?, Vec::new());
        file.read_to_end(&mut sectors)?;
        Ok((Disk { file, sector: None, bytes: 0 }, sectors))
    }

    /// Sees what the guest has written to a port of the board.
    pub fn see(&mut self, board: &mut Board, port: u16, data: &[u8]) -> Outcome<()> {
        match (port, data) {
            (DATA, _) => self.store(board, data.len()),
            (COMMAND, &[command, ..]) => self.begin(board, command),
            _ => Ok(()),
        }
    }

    fn begin(&mut self, board: &mut Board, command: u8) -> Outcome<()> {
        let wants_words = board.in_u8(STATUS)? & (BUSY | WANTS_WORDS) == WANTS_WORDS;
        let is_write = command == WRITE_SECTORS && wants_words;
        (self.sector, self.bytes) = (is_write.then(|| first_sector(board)).transpose()?, 0);
        if command == FLUSH_CACHE {
            self.file.sync_data()?;
        }
        Ok(())
    }

    /// So many bytes more of the words came; each sector that is whole goes to the file.
    fn store(&mut self, board: &Board, bytes: usize) -> Outcome<()> {
        self.bytes += bytes;
        while let Some(sector) = self.sector.filter(|_| self.bytes >= SECTOR) {
            match board.disk_read(sector) {
                Ok(data) => self.file.write_all_at(&data, u64::from(sector) * SECTOR as u64)?,
                Err(Error::NoSector) => (), // the command has ended with an error
                Err(error) => return Err(error.into()),
            }
            (self.sector, self.bytes) = (Some(sector + 1), self.bytes - SECTOR);
        }
        Ok(())
    }
}

/// The sector that the registers name, in the board's geometry of 16 heads and 63 sectors.
fn first_sector(board: &mut Board) -> Result<u32, Error> {
    let mut registers = [0; 4];
    for (place, port) in registers.iter_mut().zip(REGISTERS) {
        *place = board.in_u8(port)?;
    }
    let [low, middle, high, device] = registers;
    let (head, cylinder) = (u32::from(device & 0x0F), u32::from(u16::from_le_bytes([middle, high])));
    Ok(match device & BY_NUMBER {
        0 => ((cylinder * 16 + head) * 63 + u32::from(low)).wrapping_sub(1),
        _ => head << 24 | cylinder << 8 | u32::from(low),
    })
}
