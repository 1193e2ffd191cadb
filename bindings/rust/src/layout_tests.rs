//! The records and numbers of this crate beside those of board.h, as a C program prints them.

use crate::error::STATUSES;
use crate::raw;
use crate::{Device, INTERFACE};
use std::collections::BTreeSet;
use std::mem::{size_of, MaybeUninit};
use std::path::Path;
use std::process::Command;
use std::{env, fs, process};

fn size_behind<T>(_: *const T) -> usize {
    size_of::<T>()
}

/// The lines of a record: its size, and of each field the offset and the size.
macro_rules! record {
    ($c:literal $record:ident: $($field:ident)*) => {{
        let record = MaybeUninit::<raw::$record>::uninit();
        let at = record.as_ptr();
        let mut lines = vec![format!("{} {}", $c, size_of::<raw::$record>())];
        $(
            // SAFETY: no field is read; the pointer is to a place for a record.
            let field = unsafe { std::ptr::addr_of!((*at).$field) };
            let offset = field as usize - at as usize;
            lines.push(format!("{}.{} {} {}", $c, stringify!($field), offset, size_behind(field)));
        )*
        lines
    }};
}

/// The lines of numbers that have the same name here and there.
macro_rules! numbers {
    ($($name:ident)*) => { vec![$(format!("BOARD_{} {}", stringify!($name), raw::$name)),*] };
}

fn records() -> Vec<String> {
    [
        record!("board" Handle: at open),
        record!("board_event" Event: value addr what kind bytes smm reserved),
        record!("board_base" Base: kind bits),
        record!("board_card" Card: device vga rom bases base class_code vendor_id device_id subsystem_vendor_id
            subsystem_id revision_id interrupt_pin reserved),
        record!("board_part" Part: offset target unit base denial denial_dev denial_fun denial_off reserved),
        record!("board_reply" Reply: value version seen lo hi form has_value parts interrupt reset part sent has_sent
            irq4 serial_room lines rose),
        record!("board_area" Area: target unit base reserved),
        record!("board_range" Range: lo hi area),
        record!("board_window" Window: lo hi),
        record!("board_map" Map: ranges windows version mib),
        record!("board_com1" Com1: received count ier iir lcr mcr lsr msr scr dll dlm emptied irq4 reserved),
        record!("board_transfer" Transfer: table addr left moved words lba readable is_last to_memory reserved),
        record!("board_piece" Piece: disk addr bytes sector part what end status reserved),
    ]
    .concat()
}

fn devices() -> Vec<String> {
    let named = [
        // made by tools/make-names: devices
        ("CONFADD", Device::ConfigAddress),
        ("RESET_CONTROL", Device::ResetControl),
        ("PIC0", Device::Pic0),
        ("PIC1", Device::Pic1),
        ("PIT", Device::Pit),
        ("SYSTEM", Device::System),
        ("KEYBOARD", Device::Keyboard),
        ("CLOCK", Device::Clock),
        ("ELCR", Device::Elcr),
        ("ATA", Device::Ata),
        ("WIRES", Device::Wires),
        ("VECTOR0", Device::Vector0),
        ("VECTOR1", Device::Vector1),
        ("SPURIOUS0", Device::Spurious0),
        ("SPURIOUS1", Device::Spurious1),
        ("UART", Device::Uart),
        // end of what is made
    ];
    named.iter().map(|(name, device)| format!("BOARD_{name} {}", device.number())).collect()
}

fn here() -> BTreeSet<String> {
    let interface = vec![format!("BOARD_INTERFACE {INTERFACE}")];
    let same = numbers!(
        // made by tools/make-names: numbers
        MEMORY PORT LOOK ACK PULSE TIME
        WIRE IRQ BAD_SECTOR SERIAL FETCH READ
        WRITE DRAM SHADOW SMRAM ROM CARD
        IS_DEVICE CONFIG ABORT NOT_DENIED BY_REGISTER BY_CONFADD
        BY_NO_REGISTER BUS_REPLY PARTS_REPLY LOOK_REPLY NO_RESET SOFT_RESET
        HARD_RESET MEMORY_BASE IO_BASE OUTSIDE DESCRIPTOR WORDS
        ENDED EXACT LONGER SHORTER ABORTED MISSING
        MOST_RANGES MOST_WINDOWS
        // end of what is made
    );
    [interface, records(), same, devices()].concat().into_iter().collect()
}

/// What the C program prints.
fn in_c() -> BTreeSet<String> {
    let source = Path::new(env!("CARGO_MANIFEST_DIR")).join("../layout.c");
    let folder = env::temp_dir().join(format!("board-440fx-{}", process::id()));
    fs::create_dir_all(&folder).unwrap();
    let program = folder.join("layout");
    let compiler = env::var_os("CC").unwrap_or_else(|| "cc".into());
    let compiled =
        Command::new(compiler).arg("-I").arg(env!("BOARD_INCLUDE")).arg(source).arg("-o").arg(&program).status();
    assert!(compiled.unwrap().success());
    let printed = Command::new(&program).output().unwrap().stdout;
    fs::remove_dir_all(&folder).unwrap();
    String::from_utf8(printed).unwrap().lines().map(String::from).collect()
}

#[test]
fn records_and_numbers_are_those_of_board_h() {
    let (here, in_c) = (here(), in_c());
    assert_eq!(in_c.difference(&here).collect::<Vec<_>>(), Vec::<&String>::new());
    assert_eq!(here.difference(&in_c).collect::<Vec<_>>(), Vec::<&String>::new());
}

/// A variant's name as board.h would have it: BadSize is BAD_SIZE.
fn in_capitals(name: &str) -> String {
    let mut capitals = String::new();
    for letter in name.chars() {
        if letter.is_uppercase() && !capitals.is_empty() {
            capitals.push('_');
        }
        capitals.extend(letter.to_uppercase());
    }
    capitals
}

/// The statuses of board.h but BOARD_OK.
fn statuses_in_c() -> Vec<(String, u32)> {
    let text = fs::read_to_string(Path::new(env!("BOARD_INCLUDE")).join("board.h")).unwrap();
    let body = text.split("enum board_status {").nth(1).and_then(|rest| rest.split("};").next()).unwrap();
    let lines = body.lines().filter_map(|line| line.trim().strip_prefix("BOARD_")?.split_once(" = "));
    let number = |rest: &str| rest.chars().take_while(char::is_ascii_digit).collect::<String>().parse().unwrap();
    lines.map(|(name, rest)| (name.to_string(), number(rest))).filter(|(name, _)| name != "OK").collect()
}

#[test]
fn each_status_has_its_variant() {
    let here: Vec<_> = STATUSES.iter().map(|(number, variant)| (in_capitals(variant), *number)).collect();
    assert_eq!(here, statuses_in_c());
}
