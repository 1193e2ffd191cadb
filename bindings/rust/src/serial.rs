//! What COM1 holds.

use crate::raw;

/// The bytes that COM1 received and that were not read, and what reads of its registers would give, none of which is
/// made.
///
/// ```
/// let mut board = board_440fx::Board::builder().rom(&[0; 65536]).open()?;
/// board.receive(b'a')?;
/// let state = board.serial_state()?;
/// assert_eq!(state.received(), b"a");
/// assert_eq!(state.lsr, 0x61);
/// # Ok::<(), board_440fx::Error>(())
/// ```
#[derive(Clone, Copy, Debug, PartialEq, Eq)]
pub struct Com1 {
    bytes: [u8; raw::MOST_RECEIVED],
    count: u8,
    /// Interrupt enable.
    pub ier: u8,
    /// Interrupt identification.
    pub iir: u8,
    /// Line control.
    pub lcr: u8,
    /// Modem control.
    pub mcr: u8,
    /// Line status.
    pub lsr: u8,
    /// Modem status.
    pub msr: u8,
    /// Scratch.
    pub scr: u8,
    /// The low byte of the divisor latch.
    pub dll: u8,
    /// Its high byte.
    pub dlm: u8,
    /// Whether THR became empty, and IIR was not read with that cause since.
    pub emptied: bool,
    /// The level that line 4 was given from outside last.
    pub irq4: bool,
}

impl Com1 {
    pub(crate) fn of(state: &raw::Com1) -> Com1 {
        Com1 {
            bytes: state.received,
            count: state.count,
            ier: state.ier,
            iir: state.iir,
            lcr: state.lcr,
            mcr: state.mcr,
            lsr: state.lsr,
            msr: state.msr,
            scr: state.scr,
            dll: state.dll,
            dlm: state.dlm,
            emptied: state.emptied == 1,
            irq4: state.irq4 == 1,
        }
    }

    /// The bytes, the next to be read first.
    pub fn received(&self) -> &[u8] {
        self.bytes.get(..usize::from(self.count)).unwrap_or_default()
    }
}
