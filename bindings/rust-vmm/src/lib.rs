//! The proved PC board as a device of rust-vmm: behind vm-device's [`MutDevicePio`] and [`MutDeviceMmio`], over a guest
//! memory of vm-memory, with vm-superio's [`Trigger`] for INT.
//!
//! It is one device, at all ports and at all addresses that are no slot of the processor: the board decodes them
//! itself. README says what of these traits it cannot give.

#![deny(missing_docs)]
#![deny(unsafe_op_in_unsafe_fn)]
#![cfg_attr(not(test), deny(clippy::unwrap_used, clippy::expect_used, clippy::panic, clippy::indexing_slicing))]

use board_440fx::{Answer, Board, Clocks, Error, Memory, Reset, Slot, Slots, Width};
use std::io::Write;
use std::time::Duration;
use vm_device::bus::{MmioAddress, MmioAddressOffset, PioAddress, PioAddressOffset};
use vm_device::{MutDeviceMmio, MutDevicePio};
use vm_memory::{Bytes, GuestAddress, GuestMemory};
use vm_superio::Trigger;

/// A guest memory from address 0 on, as the board asks for it.
struct Installed<'a, M>(&'a M, u32);

impl<M: GuestMemory> Memory for Installed<'_, M> {
    fn mib(&self) -> u32 {
        self.1
    }

    /// What has no region reads as ones.
    fn read(&self, addr: u32, into: &mut [u8]) {
        if self.0.read_slice(into, GuestAddress(addr.into())).is_err() {
            into.fill(u8::MAX);
        }
    }

    /// What has no region is lost.
    fn write(&self, addr: u32, from: &[u8]) {
        let _ = self.0.write_slice(from, GuestAddress(addr.into()));
    }
}

/// The board with what stands around it. Processors share it under one lock, as `Arc<Mutex<Chipset<..>>>`.
pub struct Chipset<M, T, W> {
    board: Board,
    mib: u32,
    memory: M,
    wake: T,
    console: W,
    clocks: Clocks,
    interrupt: bool,
    reset: Option<Reset>,
}

impl<M: GuestMemory, T: Trigger, W: Write> Chipset<M, T, W> {
    /// A board over a guest memory, which has the MiB that it was opened with from address 0 on. INT that rises wakes
    /// the processor's thread by `wake`; what COM1 sends goes to `console`. It is prepared as a maker's board is.
    ///
    /// # Errors
    ///
    /// None of a board that is open.
    pub fn new(board: Board, memory: M, wake: T, console: W) -> Result<Self, Error> {
        let mib = board.map()?.mib;
        let (clocks, interrupt, reset) = (Clocks::default(), false, None);
        let mut chipset = Chipset { board, mib, memory, wake, console, clocks, interrupt, reset };
        chipset.board.prepare()?;
        Ok(chipset)
    }

    /// The board, to ask it.
    pub fn board(&self) -> &Board {
        &self.board
    }

    /// The guest memory.
    pub fn memory(&self) -> &M {
        &self.memory
    }

    /// The console.
    pub fn console(&self) -> &W {
        &self.console
    }

    /// Whether INT stands: a processor that takes interrupts may ask for the [`Chipset::vector`].
    pub fn interrupt(&self) -> bool {
        self.interrupt
    }

    /// Does one thing to the board, as a wire of a card or a byte for COM1, and lets the others hear of it.
    ///
    /// # Errors
    ///
    /// Those of what is done.
    pub fn step(&mut self, what: impl FnOnce(&mut Board) -> Result<Answer, Error>) -> Result<Answer, Error> {
        let answer = what(&mut self.board)?;
        self.heard(Some(answer));
        Ok(answer)
    }

    /// The vector of the interrupt that stands.
    ///
    /// # Errors
    ///
    /// None of a board that is open.
    pub fn vector(&mut self) -> Result<u8, Error> {
        let vector = self.board.acknowledge()?;
        self.follow_interrupt();
        Ok(vector)
    }

    /// Lets time go by, as [`Board::run_until`].
    ///
    /// # Errors
    ///
    /// None of a board that is open.
    pub fn run_until(&mut self, now: Duration) -> Result<(), Error> {
        self.board.run_until(&mut self.clocks, now)?;
        self.follow_interrupt();
        Ok(())
    }

    /// The strongest reset since it was taken last. After a hard one the board is prepared again.
    ///
    /// # Errors
    ///
    /// None of a board that is open.
    pub fn take_reset(&mut self) -> Result<Option<Reset>, Error> {
        let reset = self.reset.take();
        if reset == Some(Reset::Hard) {
            self.board.prepare()?;
            self.follow_interrupt();
        }
        Ok(reset)
    }

    /// What the slots of a processor have to change, as [`Slots::follow`] tells it, each with its number and the host's
    /// address of its first byte: of the guest memory, or in the copy of the ROM of 512 KiB that lies at `rom`.
    ///
    /// # Errors
    ///
    /// [`Error::PastEnd`] where the guest memory has no region there.
    pub fn follow(&self, slots: &mut Slots, rom: *mut u8, rom_bytes: u32) -> Result<Vec<(u32, Slot, *mut u8)>, Error> {
        let changes = slots.follow(&self.board.map()?, self.mib, rom_bytes);
        let with_host = changes.iter().map(|change| {
            let (number, slot) = change.region();
            let host = match slot.is_rom {
                true => rom.wrapping_add(slot.offset as usize),
                false => self.memory.get_host_address(GuestAddress(slot.offset)).map_err(|_| Error::PastEnd)?,
            };
            Ok((number, slot, host))
        });
        with_host.collect()
    }

    /// After an access or a step. A console that fails is passed over, as a device cannot say so to its bus.
    fn heard(&mut self, answer: Option<Answer>) {
        if let Some(answer) = answer {
            self.reset = self.reset.max(answer.reset);
            if let Some(byte) = answer.sent {
                let _ = self.console.write_all(&[byte]);
            }
        }
        self.follow_interrupt();
    }

    /// Wakes the processor where INT rose. A trigger that fails is passed over; [`Chipset::interrupt`] says what
    /// stands.
    fn follow_interrupt(&mut self) {
        let stands = self.board.last().map_or(false, |answer| answer.interrupt);
        if stands && !self.interrupt {
            let _ = self.wake.trigger();
        }
        self.interrupt = stands;
    }
}

impl<M: GuestMemory, T: Trigger, W: Write> MutDevicePio for Chipset<M, T, W> {
    fn pio_read(&mut self, PioAddress(base): PioAddress, offset: PioAddressOffset, data: &mut [u8]) {
        data.fill(u8::MAX);
        let done = base.checked_add(offset).map(|port| self.board.port_read(port, data));
        self.heard(done.and_then(Result::ok).flatten());
    }

    fn pio_write(&mut self, PioAddress(base): PioAddress, offset: PioAddressOffset, data: &[u8]) {
        let done = base.checked_add(offset).map(|port| self.board.port_write(port, data));
        self.heard(done.and_then(Result::ok).flatten());
    }
}

impl<M: GuestMemory, T: Trigger, W: Write> MutDeviceMmio for Chipset<M, T, W> {
    fn mmio_read(&mut self, MmioAddress(base): MmioAddress, offset: MmioAddressOffset, data: &mut [u8]) {
        data.fill(u8::MAX);
        let memory = Installed(&self.memory, self.mib);
        let done = base.checked_add(offset).map(|addr| self.board.memory_read(addr, data, &memory));
        self.heard(done.and_then(Result::ok).flatten());
    }

    fn mmio_write(&mut self, MmioAddress(base): MmioAddress, offset: MmioAddressOffset, data: &[u8]) {
        let memory = Installed(&self.memory, self.mib);
        let done = base.checked_add(offset).map(|addr| self.board.memory_write(addr, data, &memory));
        self.heard(done.and_then(Result::ok).flatten());
    }
}

/// Where a bus master may read and write memory, as the map stands, in rising order. A virtio device of rust-vmm moves
/// bytes without a question, so it is given a memory of these ranges alone, over the same file as the guest's memory:
/// then it reaches neither SMRAM nor what a window has shut. They are asked for again where [`Answer::version`] is
/// another.
///
/// # Errors
///
/// None of a board that is open.
pub fn reach_of_masters(board: &Board) -> Result<Vec<(GuestAddress, usize)>, Error> {
    let map = board.map()?;
    let mut reach: Vec<(GuestAddress, usize)> = Vec::new();
    for range in map.ranges.iter().filter_map(|range| range.clip(map.mib)) {
        let reaches = |is_write| -> Result<bool, Error> {
            let ends = [range.lo, range.hi].map(|addr| board.decode_master(addr, Width::Byte, is_write));
            let [first, last] = ends;
            Ok(first?.target.is_memory() && last?.target.is_memory())
        };
        if !reaches(false)? || !reaches(true)? {
            continue;
        }
        let (lo, bytes) = (u64::from(range.lo), (range.hi - range.lo) as usize + 1);
        match reach.last_mut() {
            Some((first, count)) if first.0 + *count as u64 == lo => *count += bytes,
            _ => reach.push((GuestAddress(lo), bytes)),
        }
    }
    Ok(reach)
}
