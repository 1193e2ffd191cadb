//! Bytes that others change while a monitor reads them.

use crate::{Error, Memory};
use std::alloc::{alloc_zeroed, dealloc, Layout};

const PAGE: usize = 4096;

/// Whole pages that others change too: the guest's memory, a ROM behind slots, or what a hypervisor shares. Their bytes
/// are moved one by one, volatile, and nothing borrows them.
///
/// ```
/// use board_440fx::{Memory, Pages};
///
/// let pages = Pages::new(1 << 20)?;
/// let mut bytes = [1; 4];
/// pages.put(0xF_FFFE, &[7; 4]);
/// pages.get(0xF_FFFD, &mut bytes);
/// assert_eq!(bytes, [0, 7, 7, 1]);
/// assert_eq!(pages.mib(), 1);
/// # Ok::<(), board_440fx::Error>(())
/// ```
#[derive(Debug)]
pub struct Pages {
    at: *mut u8,
    bytes: usize,
    is_own: bool,
}

// SAFETY: each byte is moved by itself, volatile, and others may change it at any moment, as the guest does.
unsafe impl Send for Pages {}
// SAFETY: as of `Send`.
unsafe impl Sync for Pages {}

impl Pages {
    /// New pages of zeros, freed when they are dropped.
    ///
    /// # Errors
    ///
    /// [`Error::NoMemory`], also of no bytes.
    pub fn new(bytes: usize) -> Result<Pages, Error> {
        let layout = Layout::from_size_align(bytes, PAGE).map_err(|_| Error::NoMemory)?;
        if bytes == 0 {
            return Err(Error::NoMemory);
        }
        // SAFETY: the layout has bytes.
        let at = unsafe { alloc_zeroed(layout) };
        if at.is_null() {
            return Err(Error::NoMemory);
        }
        Ok(Pages { at, bytes, is_own: true })
    }

    /// Pages that others have, as those that a hypervisor shares. They are not freed.
    ///
    /// # Safety
    ///
    /// As long as this stands the bytes are there, for reading and writing, and no reference is to them.
    pub unsafe fn over(at: *mut u8, bytes: usize) -> Pages {
        Pages { at, bytes, is_own: false }
    }

    /// Where they lie.
    pub fn as_ptr(&self) -> *mut u8 {
        self.at
    }

    /// Reads bytes from an offset on. What lies past the end is left as it is.
    pub fn get(&self, offset: usize, into: &mut [u8]) {
        // SAFETY: the byte lies in the pages.
        let byte = |at| unsafe { self.at.add(at).read_volatile() };
        into.iter_mut().zip(offset..self.bytes).for_each(|(place, at)| *place = byte(at));
    }

    /// Writes bytes from an offset on. What lies past the end is lost.
    pub fn put(&self, offset: usize, from: &[u8]) {
        // SAFETY: the byte lies in the pages.
        from.iter().zip(offset..self.bytes).for_each(|(&byte, at)| unsafe { self.at.add(at).write_volatile(byte) });
    }
}

impl Drop for Pages {
    fn drop(&mut self) {
        if self.is_own {
            // SAFETY: `new` made them with this layout.
            unsafe { dealloc(self.at, Layout::from_size_align_unchecked(self.bytes, PAGE)) }
        }
    }
}

/// From address 0 on.
impl Memory for Pages {
    fn mib(&self) -> u32 {
        (self.bytes >> 20) as u32
    }

    fn read(&self, addr: u32, into: &mut [u8]) {
        self.get(addr as usize, into);
    }

    fn write(&self, addr: u32, from: &[u8]) {
        self.put(addr as usize, from);
    }
}
