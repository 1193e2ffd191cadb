//! The traits of rust-vmm's vm-device 0.1 that board-440fx-rust-vmm and its tests use.

/// Addresses on the bus of ports.
pub mod bus {
    /// The base of a range of ports.
    #[derive(Clone, Copy, Debug, PartialEq, Eq, PartialOrd, Ord)]
    pub struct PioAddress(pub u16);

    /// The base of a range of memory.
    #[derive(Clone, Copy, Debug, PartialEq, Eq, PartialOrd, Ord)]
    pub struct MmioAddress(pub u64);

    /// A place among a range of ports.
    pub type PioAddressOffset = u16;

    /// A place in a range of memory.
    pub type MmioAddressOffset = u64;
}

use bus::{MmioAddress, MmioAddressOffset, PioAddress, PioAddressOffset};
use std::sync::Mutex;

/// A device at ports.
pub trait MutDevicePio {
    /// Reads.
    fn pio_read(&mut self, base: PioAddress, offset: PioAddressOffset, data: &mut [u8]);
    /// Writes.
    fn pio_write(&mut self, base: PioAddress, offset: PioAddressOffset, data: &[u8]);
}

/// A device in memory.
pub trait MutDeviceMmio {
    /// Reads.
    fn mmio_read(&mut self, base: MmioAddress, offset: MmioAddressOffset, data: &mut [u8]);
    /// Writes.
    fn mmio_write(&mut self, base: MmioAddress, offset: MmioAddressOffset, data: &[u8]);
}

/// A device at ports that many processors share.
pub trait DevicePio {
    /// Reads.
    fn pio_read(&self, base: PioAddress, offset: PioAddressOffset, data: &mut [u8]);
    /// Writes.
    fn pio_write(&self, base: PioAddress, offset: PioAddressOffset, data: &[u8]);
}

/// A device in memory that many processors share.
pub trait DeviceMmio {
    /// Reads.
    fn mmio_read(&self, base: MmioAddress, offset: MmioAddressOffset, data: &mut [u8]);
    /// Writes.
    fn mmio_write(&self, base: MmioAddress, offset: MmioAddressOffset, data: &[u8]);
}

impl<T: MutDevicePio + ?Sized> DevicePio for Mutex<T> {
    fn pio_read(&self, base: PioAddress, offset: PioAddressOffset, data: &mut [u8]) {
        self.lock().unwrap().pio_read(base, offset, data)
    }

    fn pio_write(&self, base: PioAddress, offset: PioAddressOffset, data: &[u8]) {
        self.lock().unwrap().pio_write(base, offset, data)
    }
}

impl<T: MutDeviceMmio + ?Sized> DeviceMmio for Mutex<T> {
    fn mmio_read(&self, base: MmioAddress, offset: MmioAddressOffset, data: &mut [u8]) {
        self.lock().unwrap().mmio_read(base, offset, data)
    }

    fn mmio_write(&self, base: MmioAddress, offset: MmioAddressOffset, data: &[u8]) {
        self.lock().unwrap().mmio_write(base, offset, data)
    }
}
