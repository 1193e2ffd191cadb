//! Strategies for proptest: sequences of events that know the devices of the board.
//!
//! A sequence is made of whole doings, as a driver has them: a register of configuration space is selected and then
//! written, an 8259A has all its command words, a counter its control word and both bytes. So it shrinks by doings that
//! still mean something.
//!
//! ```
//! use board_440fx::{Board, Error};
//! use board_440fx_proptest::{sequences, Step};
//! use proptest::prelude::*;
//! # type MyMonitor = Board;
//!
//! fn open() -> Result<Board, Error> {
//!     Board::builder().memory_mib(1).rom(&[0; 65536]).open()
//! }
//!
//! proptest! {
//!     fn as_the_board(steps in sequences(20)) {
//!         let (mut board, mut mine): (Board, MyMonitor) = (open()?, open()?);
//!         for event in steps.iter().filter_map(Step::event) {
//!             let answer = board.step(&event)?;
//!             prop_assert_eq!(mine.step(&event)?.value(), answer.value(), "{}", answer);
//!         }
//!     }
//! }
//! as_the_board();
//! ```

#![deny(missing_docs)]

use board_440fx::{Event, Width};
use proptest::prelude::*;
use proptest::{collection, sample};
use std::fmt;

/// What is done: an event, or a second of the clock, which passes by `Board::second`.
#[derive(Clone, Copy, PartialEq, Eq)]
pub enum Step {
    /// An event, for `Board::step`.
    Event(Event),
    /// A second of the clock passes.
    Second,
}

impl Step {
    /// The event, where it is one.
    pub fn event(&self) -> Option<Event> {
        match *self {
            Step::Event(event) => Some(event),
            Step::Second => None,
        }
    }
}

/// As a script has it.
impl fmt::Display for Step {
    fn fmt(&self, f: &mut fmt::Formatter<'_>) -> fmt::Result {
        match self {
            Step::Event(event) => event.fmt(f),
            Step::Second => f.write_str("second"),
        }
    }
}

/// As a script has it too, so that proptest tells what it found as statements.
impl fmt::Debug for Step {
    fn fmt(&self, f: &mut fmt::Formatter<'_>) -> fmt::Result {
        fmt::Display::fmt(self, f)
    }
}

/// Where the map of memory may change, and the ends of what may lie there.
const PLACES: [u32; 18] = [
    0x00000, 0x80000, 0x9FFFF, 0xA0000, 0xBFFFF, 0xC0000, 0xCC000, 0xDFFFF, 0xE0000, 0xEFFFF, 0xF0000, 0xFFFFF,
    0x100000, 0x7FFFFF, 0x800000, 0xF00000, 0xFFFE0000, 0xFFFFFFFF,
];
const PORTS: [u16; 22] = [
    0x20, 0x21, 0x40, 0x41, 0x42, 0x43, 0x61, 0x70, 0x71, 0xA0, 0xA1, 0x4D0, 0x4D1, 0xCF9, 0x3F8, 0x3F9, 0x3FA, 0x3FB,
    0x3FC, 0x3FD, 0x3FE, 0x3FF,
];
/// Those that a device outside the chipset may drive.
const LINES: [u8; 10] = [1, 3, 5, 6, 7, 9, 10, 11, 12, 15];
const CONFIG_ADDRESS: u16 = 0xCF8;
const CONFIG_DATA: u16 = 0xCFC;
const ENABLE: u32 = 1 << 31;
/// PAM0 to PAM6, DRB0 to DRB7, FDHC and SMRAM of the 82441FX; XBCS, PIRQRCA and PIRQRCB of the 82371SB: each by device
/// and function, as CONFADD has them, and offset.
const MAP_REGISTERS: [u32; 20] = [
    0x059, 0x05A, 0x05B, 0x05C, 0x05D, 0x05E, 0x05F, 0x060, 0x061, 0x062, 0x063, 0x064, 0x065, 0x066, 0x067, 0x068,
    0x072, 0x84E, 0x860, 0x861,
];

fn out(port: u16, value: u8) -> Step {
    Step::Event(Event::Out { port, width: Width::Byte, value: value.into() })
}

fn input(port: u16) -> Step {
    Step::Event(Event::In { port, width: Width::Byte })
}

fn config_write(register: u32, value: u8) -> Vec<Step> {
    let address = Event::Out { port: CONFIG_ADDRESS, width: Width::Dword, value: ENABLE | register & !3 };
    vec![Step::Event(address), out(CONFIG_DATA + (register & 3) as u16, value)]
}

/// Both 8259A with their command words, the vectors at 08h and 70h.
fn initialized(level: bool, mask: u8) -> Vec<Step> {
    let first = 0x11 | 8 * u8::from(level);
    let master = [(0x20, first), (0x21, 0x08), (0x21, 0x04), (0x21, 0x01)];
    let slave = [(0xA0, first), (0xA1, 0x70), (0xA1, 0x02), (0xA1, 0x01)];
    let masks = [(0x21, mask), (0xA1, mask)];
    master.iter().chain(&slave).chain(&masks).map(|&(port, value)| out(port, value)).collect()
}

/// A counter of the 8254 with its control word, and the two bytes of its count.
fn counter(number: u8, mode: u8, count: u16) -> Vec<Step> {
    let [low, high] = count.to_le_bytes();
    let port = 0x40 + u16::from(number);
    vec![out(0x43, number << 6 | 0x30 | mode << 1), out(port, low), out(port, high)]
}

/// A byte is written to a register that the memory map or the routing of interrupts depends on.
pub fn config_writes() -> impl Strategy<Value = Vec<Step>> {
    (sample::select(&MAP_REGISTERS[..]), any::<u8>()).prop_map(|(register, value)| config_write(register, value))
}

/// Both 8259A are set up, or a line moves, or an interrupt is acknowledged.
pub fn interrupts() -> impl Strategy<Value = Vec<Step>> {
    let lines = (sample::select(&LINES[..]), any::<bool>());
    prop_oneof![
        Just(vec![Step::Event(Event::Acknowledge)]),
        lines.prop_map(|(line, level)| vec![Step::Event(Event::Irq { line, level })]),
        (any::<bool>(), any::<u8>()).prop_map(|(level, mask)| initialized(level, mask)),
    ]
}

/// A counter is set up, pulses come, a second of the clock passes, or a byte of it is written and read.
pub fn time() -> impl Strategy<Value = Vec<Step>> {
    prop_oneof![
        Just(vec![Step::Second]),
        (1..=100_000_u32).prop_map(|count| vec![Step::Event(Event::Pulse(count))]),
        (0..0x80_u8, any::<u8>()).prop_map(|(at, value)| vec![out(0x70, at), out(0x71, value), input(0x71)]),
        (0..3_u8, 0..6_u8, any::<u16>()).prop_map(|(number, mode, count)| counter(number, mode, count)),
    ]
}

/// A byte of a port of a device is read, written, or written and read back.
pub fn ports() -> impl Strategy<Value = Vec<Step>> {
    let port = || sample::select(&PORTS[..]);
    prop_oneof![
        port().prop_map(|at| vec![input(at)]),
        (port(), any::<u8>()).prop_map(|(at, value)| vec![out(at, value)]),
        (port(), any::<u8>()).prop_map(|(at, value)| vec![out(at, value), input(at)]),
    ]
}

/// A byte of memory is read, fetched or written, in system management mode or not.
pub fn memory() -> impl Strategy<Value = Vec<Step>> {
    let place = || (sample::select(&PLACES[..]), any::<bool>());
    let one = |event: Event, smm: bool| vec![Step::Event(if smm { event.in_smm() } else { event })];
    prop_oneof![
        place().prop_map(move |(addr, smm)| one(Event::read(addr, Width::Byte), smm)),
        place().prop_map(move |(addr, smm)| one(Event::fetch(addr, Width::Byte), smm)),
        (place(), any::<u8>())
            .prop_map(move |((addr, smm), value)| one(Event::write(addr, Width::Byte, value.into()), smm)),
    ]
}

/// Up to so many doings of all devices, as one list of steps.
pub fn sequences(most: usize) -> impl Strategy<Value = Vec<Step>> {
    let doing = prop_oneof![ports(), memory(), config_writes(), interrupts(), time()];
    collection::vec(doing, 0..=most).prop_map(|made| made.concat())
}
