//! The records, the numbers and the calls of `board.h`, as they are there.

use std::os::raw::c_void;

// made by tools/make-names: numbers
pub(crate) const MEMORY: u8 = 1;
pub(crate) const PORT: u8 = 2;
pub(crate) const LOOK: u8 = 3;
pub(crate) const ACK: u8 = 4;
pub(crate) const PULSE: u8 = 5;
pub(crate) const TIME: u8 = 6;
pub(crate) const WIRE: u8 = 7;
pub(crate) const IRQ: u8 = 8;
pub(crate) const BAD_SECTOR: u8 = 9;
pub(crate) const SERIAL: u8 = 10;

pub(crate) const FETCH: u8 = 1;
pub(crate) const READ: u8 = 2;
pub(crate) const WRITE: u8 = 3;

pub(crate) const DRAM: u8 = 1;
pub(crate) const SHADOW: u8 = 2;
pub(crate) const SMRAM: u8 = 3;
pub(crate) const ROM: u8 = 4;
pub(crate) const CARD: u8 = 5;
pub(crate) const IS_DEVICE: u8 = 6;
pub(crate) const CONFIG: u8 = 7;
pub(crate) const ABORT: u8 = 8;

pub(crate) const NOT_DENIED: u8 = 0;
pub(crate) const BY_REGISTER: u8 = 1;
pub(crate) const BY_CONFADD: u8 = 2;
pub(crate) const BY_NO_REGISTER: u8 = 3;

pub(crate) const BUS_REPLY: u8 = 1;
pub(crate) const PARTS_REPLY: u8 = 2;
pub(crate) const LOOK_REPLY: u8 = 3;

pub(crate) const NO_RESET: u32 = 0;
pub(crate) const SOFT_RESET: u32 = 1;
pub(crate) const HARD_RESET: u32 = 2;

pub(crate) const MEMORY_BASE: u8 = 1;
pub(crate) const IO_BASE: u8 = 2;
pub(crate) const OUTSIDE: u8 = 3;

pub(crate) const DESCRIPTOR: u8 = 1;
pub(crate) const WORDS: u8 = 2;
pub(crate) const ENDED: u8 = 3;

pub(crate) const EXACT: u8 = 1;
pub(crate) const LONGER: u8 = 2;
pub(crate) const SHORTER: u8 = 3;
pub(crate) const ABORTED: u8 = 4;
pub(crate) const MISSING: u8 = 5;

pub(crate) const MOST_RANGES: usize = 142;
pub(crate) const MOST_WINDOWS: usize = 64;
// end of what is made

pub(crate) const MOST_BASES: usize = 6;
pub(crate) const MOST_PARTS: usize = 4;
pub(crate) const MOST_RECEIVED: usize = 16;
pub(crate) const SECTOR: usize = 512;

/// A handle: two words, which may move between two calls.
#[repr(C)]
pub(crate) struct Handle {
    pub(crate) at: *mut c_void,
    pub(crate) open: bool,
}

#[repr(C)]
#[derive(Clone, Copy, Default)]
pub(crate) struct Event {
    pub(crate) value: u64,
    pub(crate) addr: u32,
    pub(crate) what: u8,
    pub(crate) kind: u8,
    pub(crate) bytes: u8,
    pub(crate) smm: u8,
    pub(crate) reserved: u64,
}

#[repr(C)]
#[derive(Clone, Copy, Default)]
pub(crate) struct Part {
    pub(crate) offset: u32,
    pub(crate) target: u8,
    pub(crate) unit: u8,
    pub(crate) base: u8,
    pub(crate) denial: u8,
    pub(crate) denial_dev: u8,
    pub(crate) denial_fun: u8,
    pub(crate) denial_off: u8,
    pub(crate) reserved: u8,
}

#[repr(C)]
#[derive(Clone, Copy, Default)]
pub(crate) struct Reply {
    pub(crate) value: u64,
    pub(crate) version: u32,
    pub(crate) seen: u32,
    pub(crate) lo: u32,
    pub(crate) hi: u32,
    pub(crate) form: u8,
    pub(crate) has_value: u8,
    pub(crate) parts: u8,
    pub(crate) interrupt: u8,
    pub(crate) reset: u32,
    pub(crate) part: [Part; MOST_PARTS],
    pub(crate) sent: u8,
    pub(crate) has_sent: u8,
    pub(crate) irq4: u8,
    pub(crate) serial_room: u8,
    pub(crate) lines: u16,
    pub(crate) rose: u16,
}

#[repr(C)]
#[derive(Clone, Copy, Default)]
pub(crate) struct Area {
    pub(crate) target: u8,
    pub(crate) unit: u8,
    pub(crate) base: u8,
    pub(crate) reserved: u8,
}

#[repr(C)]
#[derive(Clone, Copy, Default)]
pub(crate) struct Range {
    pub(crate) lo: u32,
    pub(crate) hi: u32,
    pub(crate) area: [Area; 6],
}

#[repr(C)]
#[derive(Clone, Copy, Default)]
pub(crate) struct Window {
    pub(crate) lo: u32,
    pub(crate) hi: u32,
}

#[repr(C)]
#[derive(Clone, Copy, Default)]
pub(crate) struct Map {
    pub(crate) ranges: u64,
    pub(crate) windows: u64,
    pub(crate) version: u32,
    pub(crate) mib: u32,
}

#[repr(C)]
#[derive(Clone, Copy, Default)]
pub(crate) struct Com1 {
    pub(crate) received: [u8; MOST_RECEIVED],
    pub(crate) count: u8,
    pub(crate) ier: u8,
    pub(crate) iir: u8,
    pub(crate) lcr: u8,
    pub(crate) mcr: u8,
    pub(crate) lsr: u8,
    pub(crate) msr: u8,
    pub(crate) scr: u8,
    pub(crate) dll: u8,
    pub(crate) dlm: u8,
    pub(crate) emptied: u8,
    pub(crate) irq4: u8,
    pub(crate) reserved: u32,
}

#[repr(C)]
#[derive(Clone, Copy, Default)]
pub(crate) struct Base {
    pub(crate) kind: u8,
    pub(crate) bits: u8,
}

#[repr(C)]
#[derive(Clone, Copy, Default)]
pub(crate) struct Card {
    pub(crate) device: u8,
    pub(crate) vga: u8,
    pub(crate) rom: u8,
    pub(crate) bases: u8,
    pub(crate) base: [Base; MOST_BASES],
    pub(crate) class_code: u32,
    pub(crate) vendor_id: u16,
    pub(crate) device_id: u16,
    pub(crate) subsystem_vendor_id: u16,
    pub(crate) subsystem_id: u16,
    pub(crate) revision_id: u8,
    pub(crate) interrupt_pin: u8,
    pub(crate) reserved: u16,
}

#[repr(C)]
#[derive(Clone, Copy, Debug, Default, PartialEq, Eq)]
pub(crate) struct Transfer {
    pub(crate) table: u32,
    pub(crate) addr: u32,
    pub(crate) left: u32,
    pub(crate) moved: u32,
    pub(crate) words: u32,
    pub(crate) lba: u32,
    pub(crate) readable: u32,
    pub(crate) is_last: u8,
    pub(crate) to_memory: u8,
    pub(crate) reserved: u16,
}

#[repr(C)]
#[derive(Clone, Copy, Default)]
pub(crate) struct Piece {
    pub(crate) disk: u64,
    pub(crate) addr: u32,
    pub(crate) bytes: u32,
    pub(crate) sector: u32,
    pub(crate) part: [Part; 2],
    pub(crate) what: u8,
    pub(crate) end: u8,
    pub(crate) status: u8,
    pub(crate) reserved: u8,
}

extern "C" {
    pub(crate) fn board_open(
        handle: *mut Handle,
        mib: u32,
        cards: *const Card,
        card_count: usize,
        rom: *const u8,
        rom_bytes: usize,
        disk: *const u8,
        disk_bytes: usize,
    ) -> u32;
    pub(crate) fn board_step(handle: *mut Handle, event: *const Event, reply: *mut Reply) -> u32;
    pub(crate) fn board_in_cycles(handle: *mut Handle, port: u16, bytes: u8, reply: *mut Reply) -> u32;
    pub(crate) fn board_out_cycles(handle: *mut Handle, port: u16, bytes: u8, value: u32, reply: *mut Reply) -> u32;
    pub(crate) fn board_second(handle: *mut Handle, event: *mut Event, reply: *mut Reply) -> u32;
    pub(crate) fn board_in_many(
        handle: *mut Handle,
        port: u16,
        bytes: u8,
        values: *mut u32,
        count: usize,
        done: *mut usize,
        reply: *mut Reply,
    ) -> u32;
    pub(crate) fn board_out_many(
        handle: *mut Handle,
        port: u16,
        bytes: u8,
        values: *const u32,
        count: usize,
        done: *mut usize,
        reply: *mut Reply,
    ) -> u32;
    pub(crate) fn board_close(handle: *mut Handle);
    pub(crate) fn board_load(handle: *mut Handle, from: *const u8, bytes: usize) -> u32;
    pub(crate) fn board_save_without(
        handle: *mut Handle,
        dram: bool,
        disk: bool,
        into: *mut u8,
        room: usize,
        bytes: *mut usize,
    ) -> u32;
    pub(crate) fn board_load_with(
        handle: *mut Handle,
        from: *const u8,
        bytes: usize,
        dram: *const u8,
        dram_bytes: usize,
        fitted: *const u8,
        fitted_bytes: usize,
        sectors: *const u8,
        sectors_bytes: usize,
    ) -> u32;
    pub(crate) fn board_ranges(
        handle: *mut Handle,
        map: *mut Map,
        ranges: *mut Range,
        room: usize,
        windows: *mut Window,
        windows_room: usize,
    ) -> u32;
    pub(crate) fn board_decode(handle: *mut Handle, event: *const Event, part: *mut Part) -> u32;
    pub(crate) fn board_pulses_to_rise(handle: *mut Handle, pulses: *mut u32) -> u32;
    pub(crate) fn board_lines(handle: *mut Handle, lines: *mut u16) -> u32;
    pub(crate) fn board_now(handle: *mut Handle, reply: *mut Reply) -> u32;
    pub(crate) fn board_serial_state(handle: *mut Handle, state: *mut Com1) -> u32;
    pub(crate) fn board_dram_read(handle: *mut Handle, addr: u32, into: *mut u8, bytes: usize) -> u32;
    pub(crate) fn board_disk_read(handle: *mut Handle, sector: u32, into: *mut u8, bytes: usize) -> u32;
    pub(crate) fn board_cmos_read(handle: *mut Handle, address: u8, byte: *mut u8) -> u32;
    pub(crate) fn board_decode_master(
        handle: *mut Handle,
        addr: u32,
        bytes: u8,
        is_write: bool,
        part: *mut Part,
    ) -> u32;
    pub(crate) fn board_card_read(
        handle: *mut Handle,
        device: u8,
        base: u8,
        offset: u32,
        into: *mut u8,
        bytes: usize,
    ) -> u32;
    pub(crate) fn board_dram_write(handle: *mut Handle, addr: u32, from: *const u8, bytes: usize) -> u32;
    pub(crate) fn board_cmos_write(handle: *mut Handle, address: u8, byte: u8) -> u32;
    pub(crate) fn board_card_write(
        handle: *mut Handle,
        device: u8,
        base: u8,
        offset: u32,
        from: *const u8,
        bytes: usize,
    ) -> u32;
    pub(crate) fn board_transfer_begin(
        transfer: *mut Transfer,
        table: u32,
        lba: u32,
        sectors: u32,
        readable: u32,
        to_memory: bool,
    ) -> u32;
    pub(crate) fn board_transfer_next(handle: *mut Handle, transfer: *mut Transfer, piece: *mut Piece) -> u32;
    pub(crate) fn board_transfer_region(transfer: *mut Transfer, base: u32, count: u32) -> u32;
}
