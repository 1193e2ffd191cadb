//! README's first example in Rust: a shadow window that is open for writes alone. Writes its log.

use std::io::Write;

#[repr(C)]
struct Board {
    at: *mut u8,
    open: bool,
}

#[repr(C)]
#[derive(Clone, Copy, Default)]
struct Event {
    value: u64,
    addr: u32,
    what: u8,
    kind: u8,
    bytes: u8,
    smm: u8,
    reserved: u64,
}

#[repr(C)]
#[derive(Clone, Copy, Default)]
struct Part {
    offset: u32,
    target: u8,
    unit: u8,
    base: u8,
    denial: u8,
    denial_dev: u8,
    denial_fun: u8,
    denial_off: u8,
    reserved: u8,
}

#[repr(C)]
#[derive(Clone, Copy, Default)]
struct Reply {
    value: u64,
    version: u32,
    seen: u32,
    lo: u32,
    hi: u32,
    form: u8,
    has_value: u8,
    parts: u8,
    interrupt: u8,
    reset: u32,
    part: [Part; 4],
    sent: u8,
    has_sent: u8,
    irq4: u8,
    serial_room: u8,
    reserved: u32,
}

#[repr(C)]
#[derive(Clone, Copy, Default)]
struct Base {
    kind: u8,
    bits: u8,
}

#[repr(C)]
#[derive(Clone, Copy, Default)]
struct Card {
    device: u8,
    vga: u8,
    rom: u8,
    bases: u8,
    base: [Base; 6],
    reserved: u64,
}

const MEMORY: u8 = 1;
const PORT: u8 = 2;
const READ: u8 = 2;
const WRITE: u8 = 3;
const LONGEST_LINE: usize = 256;

unsafe extern "C" {
    fn board_open(
        handle: *mut Board,
        mib: u32,
        cards: *const Card,
        card_count: usize,
        rom: *const u8,
        rom_bytes: usize,
        disk: *const u8,
        disk_bytes: usize,
    ) -> u32;
    fn board_step(handle: *mut Board, event: *const Event, reply: *mut Reply) -> u32;
    fn board_text(
        event: *const Event,
        reply: *const Reply,
        number: u64,
        processor: u8,
        statement: u32,
        into: *mut u8,
        room: usize,
        bytes: *mut usize,
    ) -> u32;
    fn board_close(handle: *mut Board);
}

/// A handle that is closed where it is dropped.
struct Opened(Board);

impl Opened {
    fn new(mib: u32, rom: &[u8]) -> Result<Opened, u32> {
        let mut handle = Board { at: std::ptr::null_mut(), open: false };
        let none = Card::default();
        match unsafe { board_open(&mut handle, mib, &none, 0, rom.as_ptr(), rom.len(), rom.as_ptr(), 0) } {
            0 => Ok(Opened(handle)),
            status => Err(status),
        }
    }

    fn step(&mut self, event: &Event) -> Result<Reply, u32> {
        let mut reply = Reply::default();
        match unsafe { board_step(&mut self.0, event, &mut reply) } {
            0 => Ok(reply),
            status => Err(status),
        }
    }
}

impl Drop for Opened {
    fn drop(&mut self) {
        unsafe { board_close(&mut self.0) }
    }
}

/// The line of an event and its reply.
fn line_of(number: u32, event: &Event, reply: &Reply) -> Result<Vec<u8>, u32> {
    let mut line = vec![0; LONGEST_LINE];
    let mut bytes = 0;
    match unsafe { board_text(event, reply, number.into(), 0, number, line.as_mut_ptr(), line.len(), &mut bytes) } {
        0 => Ok(line[..bytes].to_vec()),
        status => Err(status),
    }
}

fn main() -> Result<(), u32> {
    let mut board = Opened::new(8, &[0; 65536])?;
    let events = [
        Event { what: PORT, kind: WRITE, addr: 0xCF8, bytes: 4, value: 0x8000_0058, ..Event::default() },
        Event { what: PORT, kind: WRITE, addr: 0xCFF, bytes: 1, value: 0x20, ..Event::default() },
        Event { what: MEMORY, kind: WRITE, addr: 0xCC000, bytes: 1, value: 2, ..Event::default() },
        Event { what: MEMORY, kind: READ, addr: 0xCC000, bytes: 1, ..Event::default() },
    ];
    let mut log = b"access log 1\n".to_vec();
    for (number, event) in (1..).zip(&events) {
        let reply = board.step(event)?;
        log.extend(line_of(number, event, &reply)?);
    }
    std::io::stdout().write_all(&log).map_err(|_| 1)
}
