//! What a monitor needs that keeps the guest's memory itself: what firmware finds set, accesses of any length, and
//! time.

use crate::{cycles, is_installed, Answer, Board, Error, Event, Register, Target, Width};
use std::ops;
use std::time::Duration;

const CONFADD: u16 = 0xCF8;
const CONFDATA: u16 = 0xCFC;
const XBCS: Register = Register { device: 1, function: 0, offset: 0x4E };
const WHOLE_ROM: u8 = 0xC3; // and the ports of the clock and the keyboard controller
const DRB0: u8 = 0x60;
const PIT_HERTZ: u128 = 1_193_182;
const MOST_PULSES: u64 = 1_000_000; // of one call
const MOST_SECONDS: u64 = 60;
const PORTS_END: u32 = 0x10000;

/// The guest's main memory, from address 0 on, where a monitor keeps it. Processors write it at any moment, so its
/// bytes are moved, and nothing borrows them.
pub trait Memory {
    /// How many MiB it has, as [`Builder::memory_mib`](crate::Builder::memory_mib).
    fn mib(&self) -> u32;
    /// Reads bytes that are all there.
    fn read(&self, addr: u32, into: &mut [u8]);
    /// Writes bytes that are all there.
    fn write(&self, addr: u32, from: &[u8]);
}

/// How far a board's clocks have come: the pulses and the seconds that [`Board::run_until`] gave them.
#[derive(Clone, Copy, Debug, Default, PartialEq, Eq, Hash)]
pub struct Clocks {
    /// Of the 8254's clock, 1,193,182 a second.
    pub pulses: u64,
    /// Of the MC146818.
    pub seconds: u64,
}

/// The answer of a step after others: with the strongest reset, the last byte that COM1 sent, and all lines that rose.
fn after(before: Option<Answer>, next: Answer) -> Answer {
    let reset = next.reset.max(before.and_then(|answer| answer.reset));
    let rose = next.rose | before.map_or(0, |answer| answer.rose);
    Answer { reset, sent: next.sent.or(before.and_then(|answer| answer.sent)), rose, ..next }
}

/// A monitor that keeps the guest's memory itself.
impl Board {
    /// Writes a byte of configuration data.
    ///
    /// # Errors
    ///
    /// None: no such access is refused.
    pub fn config_write(&mut self, register: Register, value: u8) -> Result<Answer, Error> {
        let function = u32::from(register.device) << 3 | u32::from(register.function);
        self.out_u32(CONFADD, 1 << 31 | function << 8 | u32::from(register.offset & !3))?;
        self.out_u8(CONFDATA + u16::from(register.offset & 3), value)
    }

    /// Sets what the maker of a board sets, and firmware takes for given: XBCS, so that the whole ROM answers; DRB0 to
    /// DRB7 as rows of 8 MiB, of which the last ends where all the memory does; and in the clock how much memory there
    /// is, and that the disk is booted from. It is called before the first instruction, and again after each hard
    /// reset.
    ///
    /// ```
    /// let mut board = board_440fx::Board::builder().memory_mib(100).rom(&[0; 65536]).open()?;
    /// board.prepare()?;
    /// assert_eq!(board.cmos_read(0x34)?, 0x40); // 84 MiB from 16 MiB on, in 64 KiB: 540h
    /// assert_eq!(board.cmos_read(0x35)?, 0x05);
    /// # Ok::<(), board_440fx::Error>(())
    /// ```
    ///
    /// # Errors
    ///
    /// None: no such access is refused.
    pub fn prepare(&mut self) -> Result<(), Error> {
        let mib = self.map()?.mib;
        let kib = (mib.saturating_sub(1) * 1024).min(0xFFFF).to_le_bytes(); // from 1 MiB on
        let rest = (mib.saturating_sub(16) * 16).to_le_bytes(); // from 16 MiB on, in 64 KiB
        let ([low, high, ..], [rest_low, rest_high, ..]) = (kib, rest);
        let base = [(0x15, 0x80), (0x16, 0x02)]; // 640 KiB
        let above = [(0x17, low), (0x18, high), (0x30, low), (0x31, high), (0x34, rest_low), (0x35, rest_high)];
        let boot = [(0x38, 0x01), (0x3D, 0x02)]; // SeaBIOS: from the disk
        for (address, byte) in base.into_iter().chain(above).chain(boot) {
            self.cmos_write(address, byte)?;
        }
        self.config_write(XBCS, WHOLE_ROM)?;
        let end = (mib + 7) / 8;
        for row in 0..8u8 {
            let boundary = if row < 7 { end.min(u32::from(row) + 1) } else { end };
            self.config_write(Register { device: 0, function: 0, offset: DRB0 + row }, boundary as u8)?;
        }
        self.out_u32(CONFADD, 0).map(|_| ())
    }

    /// Reads ports as an exit tells it, from any one on and any count of bytes, cut as the bus cuts it. Past port FFFFh
    /// nobody answers: that is ones. The answer is the last cycle's, with the strongest reset of all, the lines that
    /// rose in any and the last byte that one sent; none where no cycle was made.
    ///
    /// ```
    /// let mut board = board_440fx::Board::builder().rom(&[0; 65536]).open()?;
    /// let mut bytes = [0; 3];
    /// assert_eq!(board.port_read(0xFFFE, &mut bytes)?.and_then(|answer| answer.value()), Some(0xFFFF));
    /// assert_eq!(bytes, [0xFF; 3]);
    /// # Ok::<(), board_440fx::Error>(())
    /// ```
    ///
    /// # Errors
    ///
    /// None: no such access is refused.
    pub fn port_read(&mut self, port: u16, into: &mut [u8]) -> Result<Option<Answer>, Error> {
        into.fill(u8::MAX);
        let cut = cycles(port.into(), into.len() as u64).take_while(|&(at, _)| at < PORTS_END);
        self.each_cycle(port.into(), cut, |board, at, width, of| {
            let answer = board.step(&Event::In { port: at as u16, width })?;
            take_value(&answer, into.get_mut(of));
            Ok(answer)
        })
    }

    /// Writes ports, as [`Board::port_read`] reads them.
    ///
    /// # Errors
    ///
    /// None: no such access is refused.
    pub fn port_write(&mut self, port: u16, from: &[u8]) -> Result<Option<Answer>, Error> {
        let cut = cycles(port.into(), from.len() as u64).take_while(|&(at, _)| at < PORTS_END);
        self.each_cycle(port.into(), cut, |board, at, width, of| {
            board.step(&Event::Out { port: at as u16, width, value: number(from.get(of)) as u32 })
        })
    }

    /// Reads memory as an exit tells it, from any address on and any count of bytes, cut as the bus cuts it. Bytes of
    /// main memory are the monitor's. From 4 GiB on nobody answers. The answer is as of [`Board::port_read`].
    ///
    /// # Errors
    ///
    /// None: no such access is refused.
    pub fn memory_read(&mut self, addr: u64, into: &mut [u8], memory: &impl Memory) -> Result<Option<Answer>, Error> {
        into.fill(u8::MAX);
        let cut = cycles(addr, into.len() as u64);
        self.each_cycle(addr, cut, |board, at, width, of| {
            let answer = board.step(&Event::read(at, width))?;
            match into.get_mut(of) {
                Some(bytes) if is_of_memory(&answer, at, width, memory) => memory.read(at, bytes),
                bytes => take_value(&answer, bytes),
            }
            Ok(answer)
        })
    }

    /// Writes memory, as [`Board::memory_read`] reads it.
    ///
    /// # Errors
    ///
    /// None: no such access is refused.
    pub fn memory_write(&mut self, addr: u64, from: &[u8], memory: &impl Memory) -> Result<Option<Answer>, Error> {
        let cut = cycles(addr, from.len() as u64);
        self.each_cycle(addr, cut, |board, at, width, of| {
            let answer = board.step(&Event::write(at, width, number(from.get(of.clone()))))?;
            match from.get(of) {
                Some(bytes) if is_of_memory(&answer, at, width, memory) => memory.write(at, bytes),
                _ => (),
            }
            Ok(answer)
        })
    }

    /// Does the cycles of an access that begins at a port or an address, each with its place among the access's bytes.
    fn each_cycle(
        &mut self,
        begin: u64,
        cut: impl Iterator<Item = (u32, Width)>,
        mut each: impl FnMut(&mut Board, u32, Width, ops::Range<usize>) -> Result<Answer, Error>,
    ) -> Result<Option<Answer>, Error> {
        let mut whole = None;
        for (at, width) in cut {
            let from = (u64::from(at) - begin) as usize;
            let answer = each(self, at, width, from..from + usize::from(width.bytes()))?;
            whole = Some(after(whole, answer));
        }
        self.last = whole.or(self.last);
        Ok(whole)
    }

    /// Lets time go by until so long after the power came: the 8254's pulses, and the seconds of the MC146818, but for
    /// those in which it stands. Where line 0 rises on the way the pulses end there, so that no tick is lost: the guest
    /// takes that interrupt, and the next call goes on. So it does after 1,000,000 pulses and after 60 seconds. The
    /// answer is the last step's, with the lines that rose in any; none where there was nothing to do.
    ///
    /// ```
    /// use std::time::Duration;
    ///
    /// let mut board = board_440fx::Board::builder().rom(&[0; 65536]).open()?;
    /// let mut clocks = board_440fx::Clocks::default();
    /// board.run_until(&mut clocks, Duration::from_millis(500))?;
    /// assert_eq!(clocks, board_440fx::Clocks { pulses: 596_591, seconds: 0 });
    /// # Ok::<(), board_440fx::Error>(())
    /// ```
    ///
    /// # Errors
    ///
    /// None: no such time is refused.
    pub fn run_until(&mut self, clocks: &mut Clocks, now: Duration) -> Result<Option<Answer>, Error> {
        let due = u64::try_from(now.as_nanos() * PIT_HERTZ / 1_000_000_000).unwrap_or(u64::MAX);
        let to_rise = self.pulses_to_rise()?.map_or(MOST_PULSES, u64::from);
        let count = due.saturating_sub(clocks.pulses).min(to_rise).min(MOST_PULSES);
        let mut whole = None;
        if count > 0 {
            whole = Some(self.pulse(count as u32)?);
        }
        clocks.pulses += count;
        for _ in 0..now.as_secs().saturating_sub(clocks.seconds).min(MOST_SECONDS) {
            match self.second() {
                Ok(answer) => whole = Some(after(whole, answer)),
                Err(Error::NoTime) => (),
                Err(error) => return Err(error),
            }
            clocks.seconds += 1;
        }
        self.last = whole.or(self.last);
        Ok(whole)
    }
}

/// Whether a cycle's bytes are those that the monitor keeps.
fn is_of_memory(answer: &Answer, at: u32, width: Width, memory: &impl Memory) -> bool {
    answer.target().map_or(false, Target::is_memory) && is_installed(memory.mib(), at.into(), width.bytes().into())
}

fn take_value(answer: &Answer, into: Option<&mut [u8]>) {
    let bytes = answer.value().unwrap_or(u64::MAX).to_le_bytes();
    into.into_iter().flatten().zip(bytes).for_each(|(place, byte)| *place = byte);
}

fn number(bytes: Option<&[u8]>) -> u64 {
    bytes.into_iter().flatten().rev().fold(0, |number, &byte| number << 8 | u64::from(byte))
}
