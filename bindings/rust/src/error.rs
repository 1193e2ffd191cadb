//! Why a call was refused: the statuses of `board.h`, in one table.

use std::fmt;

/// The statuses, each as its number, its variant and its text.
macro_rules! statuses {
    ($($number:literal $name:ident $text:literal)*) => {
        /// Why a call was refused, a variant for each status. The board is then as it was.
        ///
        /// ```
        /// use board_440fx::{Board, Error};
        ///
        /// let refused = Board::builder().memory_mib(0).rom(&[0; 65536]).open();
        /// assert_eq!(refused.err(), Some(Error::BadSize));
        /// assert_eq!(Error::BadSize.status(), 3);
        /// assert_eq!(Error::BadSize.to_string(), "the guest's memory is not of 1 to 512 MiB");
        /// ```
        #[derive(Clone, Copy, Debug, PartialEq, Eq, Hash)]
        #[non_exhaustive]
        pub enum Error {
            $(#[doc = concat!("Status ", $number, ": ", $text, ".")] $name,)*
            /// A status that this crate has no name for.
            Other(u32),
        }

        impl Error {
            /// The error of a status that is not `BOARD_OK`.
            pub(crate) fn of(status: u32) -> Error {
                match status {
                    $($number => Error::$name,)*
                    other => Error::Other(other),
                }
            }

            /// The number of the status in `board.h`.
            pub fn status(self) -> u32 {
                match self {
                    $(Error::$name => $number,)*
                    Error::Other(other) => other,
                }
            }
        }

        impl fmt::Display for Error {
            fn fmt(&self, f: &mut fmt::Formatter<'_>) -> fmt::Result {
                match self {
                    $(Error::$name => f.write_str($text),)*
                    Error::Other(other) => write!(f, "status {other}"),
                }
            }
        }

        /// Each status with the variant's name.
        #[cfg(test)]
        pub(crate) const STATUSES: &[(u32, &str)] = &[$(($number, stringify!($name)),)*];
    };
}

statuses! {
    // made by tools/make-names: statuses
    1 BadHandle "the handle holds no board; or, where one is opened, it holds one"
    2 NoMemory "memory was refused"
    3 BadSize "the guest's memory is not of 1 to 512 MiB"
    4 BadCards "a record says no card, or no board can be fitted with the cards"
    5 BadRom "the ROM is not of 64, 128, 256 or 512 KiB"
    6 BadDisk "the disk is not of 1 to 65,536 whole sectors of 512 bytes"
    7 NoEvent "that is no event"
    8 Alignment "a port is no multiple of the width"
    9 Value "a value does not fit the width, or is not 0 where nothing is written"
    12 End "an access to memory ends past FFFFFFFFh"
    13 Pulses "a count of pulses is not 1 to 1,000,000"
    15 Device "no card has the device number"
    16 Line "the line cannot be set from outside"
    17 NoCycle "the event is no access that one bus cycle makes"
    18 NoSector "there is no disk, or it has no such sector"
    19 PastEnd "the bytes do not all lie in the installed memory, or in the card's base"
    20 NoByte "the clock has 128 bytes"
    21 BadLength "not as many bytes as the sector, the memory or the disk has"
    22 NoReply "that is no reply"
    23 NoRoom "the text, or the saved board, does not fit"
    24 SerialFull "COM1 can receive no byte: its queue is full, or loopback is on"
    25 NoTime "the clock stands: SET is 1, or its registers say no date or time"
    26 BadImage "the bytes are no saved board"
    27 OtherVersion "another version saved these bytes"
    28 NoTransfer "the numbers are those of no transfer of a bus master"
    // end of what is made
}

impl std::error::Error for Error {}

/// A status as a result.
pub(crate) fn check(status: u32) -> Result<(), Error> {
    match status {
        0 => Ok(()),
        refused => Err(Error::of(refused)),
    }
}
