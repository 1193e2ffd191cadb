//! The proved PC board (82441FX, 82371SB, two 8259A, 8254, MC146818, ATA by PIO, a 16550 on COM1) as a safe crate.
//!
//! A board answers accesses: what answered, what was read, and which register denied it.
//!
//! ```
//! use board_440fx::{Board, Width, Event};
//!
//! let mut board = Board::builder().memory_mib(8).rom(&[0; 65536]).open()?;
//! board.out_u32(0xCF8, 0x8000_0058)?; // PAM2 of the host bridge: CC000h to CFFFFh
//! board.out_u8(0xCFF, 0x20)?; //         opens for writes alone
//! board.write_u8(0xCC000, 2)?;
//! let answer = board.step(&Event::read(0xCC000, Width::Byte))?;
//! assert_eq!(answer.to_string(), "r b 000CC000 = FF abort 00.0.5B, denied by 00.0.5B (PAM2)");
//! # Ok::<(), board_440fx::Error>(())
//! ```
//!
//! The crate stands over `libboard.a`, the packed C library; `build.rs` says where that is looked for. Nothing here
//! panics. What is proved of the library's calls is in the repository's docs/LIBRARY.md. This crate is tested.

#![deny(missing_docs)]
#![deny(clippy::missing_errors_doc)]
#![deny(unsafe_op_in_unsafe_fn)]
#![cfg_attr(not(test), deny(clippy::unwrap_used, clippy::expect_used, clippy::panic, clippy::indexing_slicing))]

mod access;
mod board;
mod builder;
mod card;
mod error;
mod event;
#[cfg(test)]
mod layout_tests;
mod log;
mod map;
mod monitor;
mod pages;
mod raw;
mod reply;
mod serial;
mod slots;
mod statement;
mod target;
mod transfer;
mod watch;

pub use access::{cycles, Kind, Moment, Value, Width};
pub use board::Board;
pub use builder::Builder;
pub use card::{Base, Card, Identity};
pub use error::Error;
pub use event::Event;
pub use log::Line;
pub use map::{is_installed, Area, Map, Range, Ranges, Window};
pub use monitor::{Clocks, Memory};
pub use pages::Pages;
pub use reply::{Answer, Look, Now, Parts, Reply, Reset};
pub use serial::Com1;
pub use slots::{Slot, SlotChange, Slots};
pub use statement::NoStatement;
pub use target::{Denial, Device, Part, Register, Target};
pub use transfer::{End, Piece, Transfer};
pub use watch::{Seen, Watch};

/// The version of `board.h` that this crate is for: `build.rs` refuses a library of another.
pub const INTERFACE: u32 = 8;
