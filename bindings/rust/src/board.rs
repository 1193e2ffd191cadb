//! The board itself.

use crate::error::check;
use crate::raw;
use crate::{
    Answer, Builder, Card, Com1, Error, Event, Kind, Look, Map, Moment, Now, Part, Piece, Ranges, Reply, Transfer,
    Width,
};
use std::cell::UnsafeCell;
use std::fmt;
use std::ptr;

/// A PC board. Dropping it frees it.
///
/// It may move to another thread ([`Send`]); threads share it under a lock of theirs, since one call at a time is
/// inside it. A call that is refused leaves it as it was.
///
/// ```
/// use board_440fx::{Board, Denial};
/// use std::sync::Mutex;
/// use std::thread;
///
/// let board = Mutex::new(Board::builder().memory_mib(8).rom(&[0; 65536]).open()?);
/// thread::scope(|threads| {
///     threads.spawn(|| board.lock().expect("no thread panicked").write_u32(0x1000, 7));
/// });
/// let mut board = board.into_inner().expect("no thread panicked");
/// assert_eq!(board.read_u32(0x1000)?, 7);
/// assert_eq!(board.read_u8(0xE000_0000)?, 0xFF);
/// assert_eq!(board.last().and_then(|answer| answer.denied_by()), Some(Denial::NoRegister));
/// # Ok::<(), board_440fx::Error>(())
/// ```
///
/// Without a lock it is not shared, as it is not [`Sync`]:
///
/// ```compile_fail
/// fn is_sync<T: Sync>() {}
/// is_sync::<board_440fx::Board>();
/// ```
pub struct Board {
    handle: UnsafeCell<raw::Handle>,
    pub(crate) last: Option<Answer>,
}

// SAFETY: the handle holds no thread's own things, and the library lets a board move between two calls.
unsafe impl Send for Board {}

impl fmt::Debug for Board {
    fn fmt(&self, f: &mut fmt::Formatter<'_>) -> fmt::Result {
        f.debug_struct("Board").field("last", &self.last).finish_non_exhaustive()
    }
}

impl Drop for Board {
    fn drop(&mut self) {
        // SAFETY: the handle is what a call left, and nobody else is in it.
        unsafe { raw::board_close(self.handle.get()) }
    }
}

/// Opening it, and its steps.
impl Board {
    /// What a board is opened with.
    pub fn builder<'a>() -> Builder<'a> {
        Builder::new()
    }

    pub(crate) fn open(mib: u32, cards: &[Card], rom: &[u8], disk: &[u8]) -> Result<Board, Error> {
        let board = Board::closed();
        let mut records: Vec<raw::Card> = cards.iter().map(Card::record).collect();
        // one more, so that the pointer is to a card also where there is none
        records.push(raw::Card::default());
        // SAFETY: the handle is zeros, and each pointer is good for as many as the count beside it says.
        check(unsafe {
            raw::board_open(
                board.handle.get(),
                mib,
                records.as_ptr(),
                cards.len(),
                rom.as_ptr(),
                rom.len(),
                disk.as_ptr(),
                disk.len(),
            )
        })?;
        Ok(board)
    }

    /// The board that [`Board::save`] gave these bytes of: it goes on as that one would. [`Board::last`] is not in them.
    ///
    /// ```
    /// use board_440fx::{Board, Error};
    ///
    /// let mut board = Board::builder().memory_mib(8).rom(&[0; 65536]).open()?;
    /// board.write_u32(0x1000, 7)?;
    /// let image = board.save()?;
    /// let mut other = Board::load(&image)?;
    /// assert_eq!(other.read_u32(0x1000)?, 7);
    /// assert_eq!(Board::load(&image[1..]).err(), Some(Error::BadImage));
    /// # Ok::<(), Error>(())
    /// ```
    ///
    /// # Errors
    ///
    /// [`Error::OtherVersion`], [`Error::BadImage`], [`Error::NoMemory`].
    pub fn load(image: &[u8]) -> Result<Board, Error> {
        let board = Board::closed();
        // SAFETY: the handle is zeros, and the pointer is good for as many bytes.
        check(unsafe { raw::board_load(board.handle.get(), image.as_ptr(), image.len()) })?;
        Ok(board)
    }

    /// The board that [`Board::save_without`] gave these bytes of, with those that it left out: of the DRAM, of the disk
    /// as it was fitted, and of its sectors as they stand. No bytes are none given: the image's own stay.
    ///
    /// ```
    /// use board_440fx::{Board, Error};
    ///
    /// let mut board = Board::builder().memory_mib(1).rom(&[0; 65536]).disk(&[7; 512]).open()?;
    /// board.write_u32(0x1000, 7)?;
    /// let (image, mut dram) = (board.save_without(true, true)?, vec![0; 1 << 20]);
    /// board.dram_read(0, &mut dram)?;
    /// let other = Board::load_with(&image, &dram, &[7; 512], &board.disk_read(0)?)?;
    /// assert_eq!(other.save()?, board.save()?);
    /// assert_eq!(Board::load_with(&image, &dram[1..], &[], &[]).err(), Some(Error::BadLength));
    /// # Ok::<(), Error>(())
    /// ```
    ///
    /// # Errors
    ///
    /// [`Error::OtherVersion`], [`Error::BadImage`], [`Error::NoMemory`]; [`Error::BadLength`] where what is given has
    /// not as many bytes as the board.
    pub fn load_with(image: &[u8], dram: &[u8], fitted: &[u8], sectors: &[u8]) -> Result<Board, Error> {
        let board = Board::closed();
        // SAFETY: as of `load`.
        check(unsafe {
            raw::board_load_with(
                board.handle.get(),
                image.as_ptr(),
                image.len(),
                dram.as_ptr(),
                dram.len(),
                fitted.as_ptr(),
                fitted.len(),
                sectors.as_ptr(),
                sectors.len(),
            )
        })?;
        Ok(board)
    }

    /// A board that is to be opened.
    fn closed() -> Board {
        let closed = raw::Handle { at: ptr::null_mut(), open: false };
        Board { handle: UnsafeCell::new(closed), last: None }
    }

    /// Does an event, and tells the reply.
    ///
    /// # Errors
    ///
    /// [`Error::NoEvent`] where a field of the event is out of range; of memory [`Error::Value`], [`Error::End`]; of a
    /// port [`Error::Alignment`], [`Error::Value`]; of pulses [`Error::Pulses`]; of a wire [`Error::Device`]; of a line
    /// [`Error::Line`]; of a byte that COM1 receives [`Error::SerialFull`].
    pub fn step(&mut self, event: &Event) -> Result<Answer, Error> {
        let record = event.record();
        let mut reply = raw::Reply::default();
        // SAFETY: the handle is what a call left, nobody else is in it, and the records are the library's.
        check(unsafe { raw::board_step(self.handle.get(), &record, &mut reply) })?;
        let answer = Answer::of(event, &reply)?;
        self.last = Some(answer);
        Ok(answer)
    }

    /// Lets the clock go on one second from the one that it shows: [`Error::NoTime`] where SET holds it, or it shows
    /// none.
    ///
    /// # Errors
    ///
    /// [`Error::NoTime`] where SET holds the clock, or it shows no date and time.
    pub fn second(&mut self) -> Result<Answer, Error> {
        let mut record = raw::Event::default();
        let mut reply = raw::Reply::default();
        // SAFETY: as of `step`.
        check(unsafe { raw::board_second(self.handle.get(), &mut record, &mut reply) })?;
        let answer = Answer::of(&Event::Time(Moment::of_digits(record.value)), &reply)?;
        self.last = Some(answer);
        Ok(answer)
    }

    /// Reads a port for each of the values, until the processor is asked for: how many were read.
    ///
    /// # Errors
    ///
    /// Of the first access [`Error::NoEvent`], [`Error::Alignment`]. A later one that would be refused ends the call
    /// before it.
    pub fn in_many(&mut self, port: u16, width: Width, values: &mut [u32]) -> Result<usize, Error> {
        let event = Event::In { port, width };
        let (mut done, mut reply, bytes) = (0, raw::Reply::default(), event.record().bytes);
        let (at, count) = (values.as_mut_ptr(), values.len());
        // SAFETY: as of `step`; the pointer is good for as many values.
        check(unsafe { raw::board_in_many(self.handle.get(), port, bytes, at, count, &mut done, &mut reply) })?;
        if done > 0 {
            self.last = Some(Answer::of(&event, &reply)?);
        }
        Ok(done)
    }

    /// Writes each of the values to a port, until the processor is asked for: how many were written.
    ///
    /// # Errors
    ///
    /// Of the first access [`Error::NoEvent`], [`Error::Alignment`], [`Error::Value`]. A later one that would be refused
    /// ends the call before it.
    pub fn out_many(&mut self, port: u16, width: Width, values: &[u32]) -> Result<usize, Error> {
        let event = |value| Event::Out { port, width, value };
        let (mut done, mut reply, bytes) = (0, raw::Reply::default(), event(0).record().bytes);
        let (at, count) = (values.as_ptr(), values.len());
        // SAFETY: as of `step`; the pointer is good for as many values.
        check(unsafe { raw::board_out_many(self.handle.get(), port, bytes, at, count, &mut done, &mut reply) })?;
        if let Some(value) = done.checked_sub(1).and_then(|last| values.get(last)) {
            self.last = Some(Answer::of(&event(*value), &reply)?);
        }
        Ok(done)
    }

    /// The answer to the last event that was done; of a port that is not aligned, to all its cycles.
    pub fn last(&self) -> Option<&Answer> {
        self.last.as_ref()
    }

    /// Does an event that reads.
    fn value(&mut self, event: &Event) -> Result<u64, Error> {
        self.step(event)?.value().ok_or(Error::NoReply)
    }
}

/// The calls of memory of one width.
macro_rules! memory_calls {
    ($($width:ident $value:ident $fetch:ident $read:ident $write:ident $bytes:literal)*) => {
        /// Memory, outside system management mode, aligned or not. In it: [`Board::step`] with [`Event::in_smm`].
        impl Board {
            $(
                #[doc = concat!("Fetches ", $bytes, " of code.")]
                ///
                /// # Errors
                ///
                /// [`Error::End`] where it ends past FFFFFFFFh.
                pub fn $fetch(&mut self, addr: u32) -> Result<$value, Error> {
                    self.value(&Event::fetch(addr, Width::$width)).map(|bits| bits as $value)
                }

                #[doc = concat!("Reads ", $bytes, " of memory.")]
                ///
                /// # Errors
                ///
                /// [`Error::End`] where it ends past FFFFFFFFh.
                pub fn $read(&mut self, addr: u32) -> Result<$value, Error> {
                    self.value(&Event::read(addr, Width::$width)).map(|bits| bits as $value)
                }

                #[doc = concat!("Writes ", $bytes, " of memory.")]
                ///
                /// # Errors
                ///
                /// [`Error::End`] where it ends past FFFFFFFFh.
                pub fn $write(&mut self, addr: u32, value: $value) -> Result<Answer, Error> {
                    self.step(&Event::write(addr, Width::$width, u64::from(value)))
                }
            )*
        }
    };
}

memory_calls! {
    Byte u8 fetch_u8 read_u8 write_u8 "a byte"
    Word u16 fetch_u16 read_u16 write_u16 "two bytes"
    Dword u32 fetch_u32 read_u32 write_u32 "four bytes"
    Qword u64 fetch_u64 read_u64 write_u64 "eight bytes"
}

/// Ports. One that is not aligned is cut into cycles, as the bus cuts an access to memory, and answered in parts as that is.
impl Board {
    /// Reads a port of one, two or four bytes. Where it was cut the answer, [`Board::last`], has a part for each cycle, the
    /// strongest reset of them, the lines that rose in any, and what stands after the last one.
    ///
    /// # Errors
    ///
    /// [`Error::NoEvent`] of eight bytes, and where its last byte lies past port FFFFh.
    pub fn input(&mut self, port: u16, width: Width) -> Result<u32, Error> {
        let mut reply = raw::Reply::default();
        // SAFETY: as of `step`.
        check(unsafe { raw::board_in_cycles(self.handle.get(), port, width.bytes(), &mut reply) })?;
        self.last = Some(Answer::of(&Event::In { port, width }, &reply)?);
        Ok(reply.value as u32)
    }

    /// Writes a port of one, two or four bytes, answered as [`Board::input`] is.
    ///
    /// # Errors
    ///
    /// [`Error::NoEvent`] of eight bytes, and where its last byte lies past port FFFFh; [`Error::Value`].
    pub fn out(&mut self, port: u16, width: Width, value: u32) -> Result<Answer, Error> {
        let mut reply = raw::Reply::default();
        // SAFETY: as of `step`.
        check(unsafe { raw::board_out_cycles(self.handle.get(), port, width.bytes(), value, &mut reply) })?;
        let answer = Answer::of(&Event::Out { port, width, value }, &reply)?;
        self.last = Some(answer);
        Ok(answer)
    }

    /// Reads a byte of a port.
    ///
    /// # Errors
    ///
    /// None: no such access is refused.
    pub fn in_u8(&mut self, port: u16) -> Result<u8, Error> {
        self.input(port, Width::Byte).map(|bits| bits as u8)
    }

    /// Reads two bytes of a port.
    ///
    /// # Errors
    ///
    /// [`Error::NoEvent`] where its last byte lies past port FFFFh.
    pub fn in_u16(&mut self, port: u16) -> Result<u16, Error> {
        self.input(port, Width::Word).map(|bits| bits as u16)
    }

    /// Reads four bytes of a port.
    ///
    /// # Errors
    ///
    /// [`Error::NoEvent`] where its last byte lies past port FFFFh.
    pub fn in_u32(&mut self, port: u16) -> Result<u32, Error> {
        self.input(port, Width::Dword)
    }

    /// Writes a byte to a port.
    ///
    /// # Errors
    ///
    /// None: no such access is refused.
    pub fn out_u8(&mut self, port: u16, value: u8) -> Result<Answer, Error> {
        self.out(port, Width::Byte, u32::from(value))
    }

    /// Writes two bytes to a port.
    ///
    /// # Errors
    ///
    /// [`Error::NoEvent`] where its last byte lies past port FFFFh.
    pub fn out_u16(&mut self, port: u16, value: u16) -> Result<Answer, Error> {
        self.out(port, Width::Word, u32::from(value))
    }

    /// Writes four bytes to a port.
    ///
    /// # Errors
    ///
    /// [`Error::NoEvent`] where its last byte lies past port FFFFh.
    pub fn out_u32(&mut self, port: u16, value: u32) -> Result<Answer, Error> {
        self.out(port, Width::Dword, value)
    }
}

/// Interrupts, time, and what happens from outside.
impl Board {
    /// Looks where an access would land. Nothing happens.
    ///
    /// # Errors
    ///
    /// None: no such access is refused.
    pub fn look(&mut self, kind: Kind, addr: u32, smm: bool) -> Result<Look, Error> {
        match self.step(&Event::Look { kind, addr, smm })?.reply {
            Reply::Look(look) => Ok(look),
            _ => Err(Error::NoReply),
        }
    }

    /// Acknowledges the interrupt: the vector.
    ///
    /// # Errors
    ///
    /// None: no such access is refused.
    pub fn acknowledge(&mut self) -> Result<u8, Error> {
        self.value(&Event::Acknowledge).map(|bits| bits as u8)
    }

    /// Gives the 8254 1 to 1,000,000 pulses of its clock, 1.193182 MHz.
    ///
    /// # Errors
    ///
    /// [`Error::Pulses`] where they are not 1 to 1,000,000.
    pub fn pulse(&mut self, count: u32) -> Result<Answer, Error> {
        self.step(&Event::Pulse(count))
    }

    /// Gives the clock a moment to show.
    ///
    /// # Errors
    ///
    /// [`Error::NoEvent`] where the calendar from 1980 to 2099 has no such moment.
    pub fn time(&mut self, moment: Moment) -> Result<Answer, Error> {
        self.step(&Event::Time(moment))
    }

    /// Sets INTA# of the card at a device.
    ///
    /// # Errors
    ///
    /// [`Error::Device`] where no card has the device number.
    pub fn wire(&mut self, device: u8, level: bool) -> Result<Answer, Error> {
        self.step(&Event::Wire { device, level })
    }

    /// Sets an interrupt request line: 1, 3 to 7, 9 to 12 or 15.
    ///
    /// # Errors
    ///
    /// [`Error::Line`] of another line.
    pub fn irq(&mut self, line: u8, level: bool) -> Result<Answer, Error> {
        self.step(&Event::Irq { line, level })
    }

    /// Lets a sector of the disk go bad.
    ///
    /// # Errors
    ///
    /// None: a sector that is not there is none that goes bad.
    pub fn bad_sector(&mut self, sector: u32) -> Result<Answer, Error> {
        self.step(&Event::BadSector(sector))
    }

    /// COM1 receives a byte: [`Error::SerialFull`] where `serial_room` of the last answer is not set.
    ///
    /// # Errors
    ///
    /// [`Error::SerialFull`] where its queue is full, or loopback is on.
    pub fn receive(&mut self, byte: u8) -> Result<Answer, Error> {
        self.step(&Event::Receive(byte))
    }
}

/// What is asked between two steps: the board stays as it is. And bytes that the guest did not write.
impl Board {
    /// Where an access of one bus cycle would land, and what would deny it.
    ///
    /// # Errors
    ///
    /// [`Error::NoCycle`] where it is no access of one bus cycle, or out of range; [`Error::NoEvent`].
    pub fn decode(&self, event: &Event) -> Result<Part, Error> {
        let record = event.record();
        let mut part = raw::Part::default();
        // SAFETY: as of `step`. A board is in one thread, and no call runs inside another, so nobody else is in it.
        check(unsafe { raw::board_decode(self.handle.get(), &record, &mut part) })?;
        Part::of(&part).ok_or(Error::NoReply)
    }

    /// The memory map, with what its last change changed.
    ///
    /// # Errors
    ///
    /// None: an open board tells its map.
    pub fn map(&self) -> Result<Map, Error> {
        let mut map = raw::Map::default();
        let mut ranges = [raw::Range::default(); raw::MOST_RANGES];
        let mut windows = [raw::Window::default(); raw::MOST_WINDOWS];
        let (room, windows_room) = (ranges.len(), windows.len());
        // SAFETY: as of `decode`; each pointer is good for the room beside it.
        check(unsafe {
            raw::board_ranges(
                self.handle.get(),
                &mut map,
                ranges.as_mut_ptr(),
                room,
                windows.as_mut_ptr(),
                windows_room,
            )
        })?;
        Map::of(&map, &ranges, &windows)
    }

    /// The running board as bytes: what it was opened with, and all that it holds.
    ///
    /// # Errors
    ///
    /// [`Error::NoMemory`].
    pub fn save(&self) -> Result<Vec<u8>, Error> {
        self.save_without(false, false)
    }

    /// As [`Board::save`], without the bytes of the DRAM, or those of the disk, as it was fitted and as its sectors stand:
    /// zeros stand in the place of what is left out.
    ///
    /// # Errors
    ///
    /// [`Error::NoMemory`].
    pub fn save_without(&self, dram: bool, disk: bool) -> Result<Vec<u8>, Error> {
        let (mut bytes, mut none) = (0, [0; 1]);
        // SAFETY: as of `decode`; of no room nothing is written.
        let status =
            unsafe { raw::board_save_without(self.handle.get(), dram, disk, none.as_mut_ptr(), 0, &mut bytes) };
        if status != Error::NoRoom.status() {
            check(status)?;
        }
        let (mut image, handle) = (vec![0; bytes], self.handle.get());
        // SAFETY: as of `decode`; the pointer is good for as many bytes.
        check(unsafe { raw::board_save_without(handle, dram, disk, image.as_mut_ptr(), image.len(), &mut bytes) })?;
        Ok(image)
    }

    /// The ranges of the memory map in rising order.
    ///
    /// # Errors
    ///
    /// None: an open board tells its map.
    pub fn ranges(&self) -> Result<Ranges, Error> {
        self.map().map(Ranges::of)
    }

    /// After how many pulses of the 8254's clock line 0 next rises; none where it does not, unless something is
    /// written.
    ///
    /// # Errors
    ///
    /// None: an open board tells them.
    pub fn pulses_to_rise(&self) -> Result<Option<u32>, Error> {
        let mut pulses = 0;
        // SAFETY: as of `decode`.
        check(unsafe { raw::board_pulses_to_rise(self.handle.get(), &mut pulses) })?;
        Ok((pulses != 0).then_some(pulses))
    }

    /// Bytes of the memory that the board keeps: FFh past the installed memory.
    ///
    /// # Errors
    ///
    /// None: past the installed memory there are bytes too.
    pub fn dram_read(&self, addr: u32, into: &mut [u8]) -> Result<(), Error> {
        // SAFETY: as of `decode`; the pointer is good for as many bytes.
        check(unsafe { raw::board_dram_read(self.handle.get(), addr, into.as_mut_ptr(), into.len()) })
    }

    /// A sector of the disk, also one that is bad.
    ///
    /// # Errors
    ///
    /// [`Error::NoSector`] where there is no disk, or it has no such sector.
    pub fn disk_read(&self, sector: u32) -> Result<[u8; raw::SECTOR], Error> {
        let mut bytes = [0; raw::SECTOR];
        // SAFETY: as of `decode`; the pointer is good for as many bytes.
        check(unsafe { raw::board_disk_read(self.handle.get(), sector, bytes.as_mut_ptr(), bytes.len()) })?;
        Ok(bytes)
    }

    /// The levels of the sixteen interrupt lines, as they reached the pair of 8259A last: bit k is that of line k.
    ///
    /// # Errors
    ///
    /// None: an open board tells them.
    pub fn lines(&self) -> Result<u16, Error> {
        let mut lines = 0;
        // SAFETY: as of `decode`.
        check(unsafe { raw::board_lines(self.handle.get(), &mut lines) })?;
        Ok(lines)
    }

    /// What COM1 holds; nothing is taken or cleared.
    ///
    /// # Errors
    ///
    /// None: an open board tells it.
    pub fn serial_state(&self) -> Result<Com1, Error> {
        let mut state = raw::Com1::default();
        // SAFETY: as of `decode`.
        check(unsafe { raw::board_serial_state(self.handle.get(), &mut state) })?;
        Ok(Com1::of(&state))
    }

    /// What a read of port 71h would give of the clock, 0 to 127; nothing is cleared.
    ///
    /// # Errors
    ///
    /// [`Error::NoByte`] of another address.
    pub fn cmos_read(&self, address: u8) -> Result<u8, Error> {
        let mut byte = 0;
        // SAFETY: as of `decode`.
        check(unsafe { raw::board_cmos_read(self.handle.get(), address, &mut byte) })?;
        Ok(byte)
    }

    /// Where an access of a bus master would land, a multiple of its width, and what would deny it: never SMRAM, nor
    /// memory at A0000h to BFFFFh.
    ///
    /// # Errors
    ///
    /// [`Error::NoCycle`] of eight bytes, and of an address that is no multiple of the width.
    pub fn decode_master(&self, addr: u32, width: Width, is_write: bool) -> Result<Part, Error> {
        let mut part = raw::Part::default();
        // SAFETY: as of `decode`.
        check(unsafe { raw::board_decode_master(self.handle.get(), addr, width.bytes(), is_write, &mut part) })?;
        Part::of(&part).ok_or(Error::NoReply)
    }

    /// The next piece of a transfer of the bus master. Words are taken as moved.
    ///
    /// # Errors
    ///
    /// [`Error::NoTransfer`] of a transfer that none began.
    pub fn next_piece(&self, transfer: &mut Transfer) -> Result<Piece, Error> {
        let mut piece = raw::Piece::default();
        // SAFETY: as of `decode`.
        check(unsafe { raw::board_transfer_next(self.handle.get(), &mut transfer.record, &mut piece) })?;
        Piece::of(&piece).ok_or(Error::NoReply)
    }

    /// Bytes of a card from an offset in one of its bases on: base 0 to 5, 6 for its expansion ROM, or 7 for the window
    /// of a VGA adapter.
    ///
    /// # Errors
    ///
    /// [`Error::PastEnd`] where the bytes do not all lie in the base.
    pub fn card_read(&self, device: u8, base: u8, offset: u32, into: &mut [u8]) -> Result<(), Error> {
        // SAFETY: as of `decode`; the pointer is good for as many bytes.
        check(unsafe { raw::board_card_read(self.handle.get(), device, base, offset, into.as_mut_ptr(), into.len()) })
    }

    /// Puts bytes into the memory that the board keeps, whatever the map says.
    ///
    /// # Errors
    ///
    /// [`Error::PastEnd`] where the bytes do not all lie in the installed memory.
    pub fn dram_write(&mut self, addr: u32, from: &[u8]) -> Result<(), Error> {
        // SAFETY: as of `step`; the pointer is good for as many bytes.
        check(unsafe { raw::board_dram_write(self.handle.get(), addr, from.as_ptr(), from.len()) })
    }

    /// Writes a byte of the clock, 0 to 127, as writes of ports 70h and 71h would. That of register B may raise INT: what
    /// stands after the step of [`Board::last`] is asked again.
    ///
    /// ```
    /// use board_440fx::Board;
    ///
    /// let mut board = Board::builder().rom(&[0; 65536]).open()?;
    /// for (port, byte) in [(0x20, 0x11), (0x21, 0x08), (0x21, 0x04), (0x21, 0x01), (0x21, 0x00)] {
    ///     board.out_u8(port, byte)?;
    /// }
    /// for (port, byte) in [(0xA0, 0x11), (0xA1, 0x70), (0xA1, 0x02), (0xA1, 0x01), (0xA1, 0x00)] {
    ///     board.out_u8(port, byte)?;
    /// }
    /// board.time("2024-02-29T12:34:56".parse()?)?; // the update sets UF
    /// board.cmos_write(0x0B, 0x12)?; //              UIE and 24 hours: line 8 rises
    /// assert_eq!(board.last().map(|answer| answer.interrupt), Some(true));
    /// assert_eq!(board.acknowledge()?, 0x70);
    /// # Ok::<(), board_440fx::Error>(())
    /// ```
    ///
    /// # Errors
    ///
    /// [`Error::NoByte`] of another address.
    pub fn cmos_write(&mut self, address: u8, byte: u8) -> Result<(), Error> {
        // SAFETY: as of `step`.
        check(unsafe { raw::board_cmos_write(self.handle.get(), address, byte) })?;
        if let Some(last) = self.last {
            self.last = Some(last.as_of(&self.now()?));
        }
        Ok(())
    }

    /// What stands now, without a step: after a load, or where nothing was asked yet.
    ///
    /// ```
    /// use board_440fx::Board;
    ///
    /// let board = Board::builder().rom(&[0; 65536]).open()?;
    /// let now = Board::load(&board.save()?)?.now()?;
    /// assert_eq!((now.lines, now.interrupt, now.serial_room), (1, false, true)); // OUT of counter 0 is 1 at power-on
    /// # Ok::<(), board_440fx::Error>(())
    /// ```
    ///
    /// # Errors
    ///
    /// None: an open board tells it.
    pub fn now(&self) -> Result<Now, Error> {
        let mut reply = raw::Reply::default();
        // SAFETY: as of `decode`.
        check(unsafe { raw::board_now(self.handle.get(), &mut reply) })?;
        Ok(Now::of(&reply))
    }

    /// Puts bytes into a card from an offset in one of its bases on, wherever the base lies; the bases are those of
    /// [`Board::card_read`]. What an expansion ROM was given is not in the bytes of a saved board.
    ///
    /// # Errors
    ///
    /// [`Error::PastEnd`] where the bytes do not all lie in the base; [`Error::NoMemory`] of an expansion ROM into which
    /// none were put yet.
    pub fn card_write(&mut self, device: u8, base: u8, offset: u32, from: &[u8]) -> Result<(), Error> {
        // SAFETY: as of `step`; the pointer is good for as many bytes.
        check(unsafe { raw::board_card_write(self.handle.get(), device, base, offset, from.as_ptr(), from.len()) })
    }
}
