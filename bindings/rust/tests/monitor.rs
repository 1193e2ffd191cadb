//! What a monitor needs that keeps the guest's memory itself. Expected values are those of the datasheets, or worked
//! out by hand.

use board_440fx::{Area, Board, Clocks, Kind, Map, Pages, Register, Reset, Slot, SlotChange, Slots};
use std::collections::BTreeMap;
use std::time::Duration;

const PAGE: u64 = 4096;
const MIB: u32 = 16;
const ROM_BYTES: u32 = 512 << 10;
const PIT_HERTZ: u64 = 1_193_182;
const PAM2: Register = Register { device: 0, function: 0, offset: 0x5B };
const WRITES_OF_CC000: u8 = 0x20;

fn rom() -> Vec<u8> {
    (0..65536u32).map(|at| (at * 7) as u8).collect()
}

fn opened(mib: u32) -> Board {
    Board::builder().memory_mib(mib).rom(&rom()).open().unwrap()
}

fn config(board: &mut Board, function: u32, offset: u8) -> u8 {
    board.out_u32(0xCF8, 1 << 31 | function << 8 | u32::from(offset & !3)).unwrap();
    board.in_u8(0xCFC + u16::from(offset & 3)).unwrap()
}

fn clock_word(board: &Board, address: u8) -> u16 {
    u16::from_le_bytes([board.cmos_read(address).unwrap(), board.cmos_read(address + 1).unwrap()])
}

/// At power-on and after a hard reset alike: DRB in 8 MiB, KiB from 1 MiB on, and 64 KiB from 16 MiB on.
#[test]
fn firmware_finds_the_memory_and_the_rom() {
    let rows = [
        (1, [1, 1, 1, 1, 1, 1, 1, 1], 0, 0),
        (8, [1, 1, 1, 1, 1, 1, 1, 1], 7 * 1024, 0),
        (20, [1, 2, 3, 3, 3, 3, 3, 3], 19 * 1024, 4 * 16),
        (100, [1, 2, 3, 4, 5, 6, 7, 13], 0xFFFF, 84 * 16),
        (512, [1, 2, 3, 4, 5, 6, 7, 64], 0xFFFF, 496 * 16),
    ];
    for (mib, boundaries, kib, rest) in rows {
        let mut board = opened(mib);
        for _ in 0..2 {
            board.prepare().unwrap();
            assert_eq!(board.in_u32(0xCF8), Ok(0));
            assert_eq!(config(&mut board, 0x08, 0x4E), 0xC3);
            let told: Vec<_> = (0x60..0x68).map(|offset| config(&mut board, 0, offset)).collect();
            assert_eq!(told, boundaries);
            assert_eq!(clock_word(&board, 0x15), 640);
            assert_eq!((clock_word(&board, 0x17), clock_word(&board, 0x30)), (kib, kib));
            assert_eq!(clock_word(&board, 0x34), rest);
            assert_eq!((board.cmos_read(0x38), board.cmos_read(0x3D)), (Ok(1), Ok(2)));
            board.out_u8(0xCF9, 2).unwrap();
            assert_eq!(board.out_u8(0xCF9, 6).unwrap().reset, Some(Reset::Hard));
        }
    }
}

/// Any count of bytes from an odd address on, where writes alone reach main memory.
#[test]
fn accesses_of_any_length() {
    let (mut board, memory) = (opened(MIB), Pages::new((MIB as usize) << 20).unwrap());
    board.config_write(PAM2, WRITES_OF_CC000).unwrap();
    for count in 1..=8 {
        let first = 0xCC005 + 16 * count as u64;
        let written: Vec<u8> = (1..=count as u8).collect();
        board.memory_write(first, &written, &memory).unwrap();
        let mut kept = vec![0xEE; count + 2];
        memory.get(first as usize - 1, &mut kept);
        assert_eq!(kept[1..=count], written);
        assert_eq!((kept[0], kept[count + 1]), (0, 0));
        let mut read = vec![0; count];
        board.memory_read(first, &mut read, &memory).unwrap();
        assert_eq!(read, vec![0xFF; count]);
    }
    let mut low = [0; 3];
    memory.put(0x9FFFD, &[1, 2, 3]);
    board.memory_read(0x9FFFD, &mut low, &memory).unwrap();
    assert_eq!(low, [1, 2, 3]);
}

/// Rows are decoded past the memory; from 4 GiB on and past port FFFFh there is nobody.
#[test]
fn the_ends_of_memory_and_of_ports() {
    let (mut board, memory) = (opened(4), Pages::new(4 << 20).unwrap());
    board.config_write(Register { device: 0, function: 0, offset: 0x67 }, 1).unwrap(); // the last row ends at 8 MiB
    let mut seven = [0; 7];
    memory.put((4 << 20) - 4, &[1, 2, 3, 4]);
    board.memory_read((4 << 20) - 4, &mut seven, &memory).unwrap();
    assert_eq!(seven, [1, 2, 3, 4, 0xFF, 0xFF, 0xFF]);
    board.memory_write((4 << 20) - 2, &[9; 7], &memory).unwrap();
    board.memory_read((4 << 20) - 4, &mut seven, &memory).unwrap();
    assert_eq!(seven, [1, 2, 9, 9, 0xFF, 0xFF, 0xFF]);
    board.memory_read(0xFFFF_FFFD, &mut seven, &memory).unwrap();
    let rom = rom();
    assert_eq!(seven, [rom[0xFFFD], rom[0xFFFE], rom[0xFFFF], 0xFF, 0xFF, 0xFF, 0xFF]);
    for addr in [1 << 32, u64::MAX, (1 << 32) + 0x1000] {
        seven = [0; 7];
        memory.put(0x1000, &[1; 7]);
        assert_eq!(board.memory_read(addr, &mut seven, &memory), Ok(None));
        assert_eq!(board.memory_write(addr, &[8; 7], &memory), Ok(None));
        assert_eq!(seven, [0xFF; 7]);
    }
    memory.get(0x1000, &mut seven);
    assert_eq!(seven, [1; 7]);
    board.port_read(0xFFFF, &mut seven).unwrap();
    assert_eq!(seven, [0xFF; 7]);
}

/// Four bytes from port 3F8h on send one; a write of two at CF9h, of which the first resets, keeps that reset.
#[test]
fn an_answer_is_that_of_all_its_cycles() {
    let mut board = opened(MIB);
    let answer = board.port_write(0x3F8, b"A").unwrap().unwrap();
    assert_eq!(answer.sent, Some(b'A'));
    board.out_u8(0xCF9, 2).unwrap();
    let answer = board.port_write(0xCF9, &[6, 0]).unwrap().unwrap();
    assert_eq!(answer.reset, Some(Reset::Hard));
    assert_eq!(board.last(), Some(&answer));
}

/// Mode 2 with a count of 10: line 0 rises each ten pulses, and a call ends at each rise; a second has all pulses.
#[test]
fn time_stops_where_line_0_rises() {
    let (mut board, mut clocks) = (opened(MIB), Clocks::default());
    for (port, byte) in [(0x43, 0x34), (0x40, 10), (0x40, 0)] {
        board.out_u8(port, byte).unwrap();
    }
    let mut calls = 0;
    while clocks.pulses < PIT_HERTZ {
        board.run_until(&mut clocks, Duration::from_secs(1)).unwrap();
        calls += 1;
    }
    assert_eq!(clocks, Clocks { pulses: PIT_HERTZ, seconds: 1 });
    assert!((PIT_HERTZ / 10..=PIT_HERTZ / 10 + 3).contains(&calls));
    board.run_until(&mut clocks, Duration::from_secs(1000)).unwrap();
    assert_eq!(clocks.seconds, 61);
}

// ---- slots

struct Random(u64);

impl Random {
    fn below(&mut self, limit: u64) -> u64 {
        self.0 = self.0.wrapping_mul(6_364_136_223_846_793_005).wrapping_add(1_442_695_040_888_963_407);
        (self.0 >> 33) % limit
    }
}

/// What a page has to be as a map says: an exit; memory, and whether it is read-only; the ROM.
#[derive(Clone, Copy, Debug, PartialEq, Eq)]
enum Page {
    Exits,
    Memory { is_read_only: bool },
    Rom,
}

fn page_in(map: &Map, page: u64) -> Page {
    let (first, last) = (page * PAGE, page * PAGE + PAGE - 1);
    let kinds = map.ranges.iter().filter(|range| u64::from(range.hi) >= first && u64::from(range.lo) <= last);
    let mut kinds = kinds.map(|range| {
        let [fetch, read, write] = [Kind::Fetch, Kind::Read, Kind::Write].map(|kind| range.area(kind, false));
        match (fetch, read) {
            (Area::Rom, Area::Rom) => Page::Rom,
            _ if fetch.is_memory() && read.is_memory() && last < u64::from(MIB) << 20 => {
                Page::Memory { is_read_only: !write.is_memory() }
            }
            _ => Page::Exits,
        }
    });
    let first = kinds.next().unwrap();
    if kinds.all(|kind| kind == first) {
        first
    } else {
        Page::Exits
    }
}

fn page_of(slot: &Slot) -> Page {
    match slot.is_rom {
        true => Page::Rom,
        false => Page::Memory { is_read_only: slot.is_read_only },
    }
}

/// A processor's slots: changes are done to it, and no two overlap.
#[derive(Default)]
struct Processor(BTreeMap<u32, Slot>);

impl Processor {
    fn change(&mut self, change: SlotChange) {
        match change {
            SlotChange::Remove { number, slot } => assert_eq!(self.0.remove(&number), Some(slot)),
            SlotChange::Add { number, slot } => {
                assert_eq!((slot.addr % PAGE, slot.bytes % PAGE, slot.bytes > 0), (0, 0, true));
                let is_beside =
                    |other: &Slot| slot.addr + slot.bytes <= other.addr || other.addr + other.bytes <= slot.addr;
                assert!(self.0.values().all(is_beside), "{slot:?} overlaps");
                assert_eq!(self.0.insert(number, slot), None);
            }
        }
    }

    fn page(&self, page: u64) -> Page {
        let at = page * PAGE;
        let slot = self.0.values().find(|slot| slot.addr <= at && at < slot.addr + slot.bytes);
        slot.map_or(Page::Exits, |slot| {
            let place = if slot.is_rom { at % u64::from(ROM_BYTES) } else { at };
            assert_eq!(slot.offset + at - slot.addr, place);
            page_of(slot)
        })
    }
}

/// Registers that the map hangs on, written at random: after each change the pages are what the map says, and no slot
/// that was right was taken away.
#[test]
fn slots_follow_random_registers() {
    let mut random = Random(7);
    for _ in 0..40 {
        let (mut board, mut slots, mut processor) = (opened(MIB), Slots::default(), Processor::default());
        for _ in 0..25 {
            let (device, offset) = [(0, 0x59), (0, 0x60), (0, 0x68), (0, 0x72), (1, 0x4E)][random.below(5) as usize];
            let more = if offset <= 0x60 { random.below(8) as u8 } else { 0 };
            let value = if offset == 0x60 { random.below(5) as u8 } else { random.below(256) as u8 };
            let register =
                Register { device, function: 0, offset: offset + if offset == 0x59 { more % 7 } else { more } };
            board.config_write(register, value).unwrap();
            let map = board.map().unwrap();
            let is_right = |slot: &Slot| {
                (slot.addr / PAGE..(slot.addr + slot.bytes) / PAGE).all(|page| page_in(&map, page) == page_of(slot))
            };
            for change in slots.follow(&map, MIB, ROM_BYTES) {
                if let SlotChange::Remove { slot, .. } = change {
                    assert!(!is_right(&slot), "{slot:?} was right");
                }
                processor.change(change);
            }
            assert!(slots.iter().eq(processor.0.iter().map(|(number, slot)| (*number, *slot))));
            for range in &map.ranges {
                let (lo, hi) = (u64::from(range.lo) / PAGE, u64::from(range.hi) / PAGE);
                for page in [lo, hi, lo + random.below(hi - lo + 1)] {
                    assert_eq!(processor.page(page), page_in(&map, page), "page {page:X} of {map}");
                }
            }
            assert_eq!(slots.follow(&map, MIB, ROM_BYTES), []);
        }
    }
}

#[test]
fn a_slot_without_bytes_takes_one_away() {
    let (mut board, mut slots) = (opened(MIB), Slots::default());
    slots.follow(&board.map().unwrap(), MIB, ROM_BYTES);
    board.config_write(Register { device: 0, function: 0, offset: 0x59 }, 0x30).unwrap(); // F0000h: DRAM
    let regions: Vec<_> = slots.follow(&board.map().unwrap(), MIB, ROM_BYTES).iter().map(SlotChange::region).collect();
    assert_eq!(regions.len(), 2);
    let ((gone, without), (number, new)) = (regions[0], regions[1]);
    assert_eq!((without.addr, without.bytes, without.is_rom), (0xF0000, 0, true));
    assert_eq!((new.addr, new.bytes, new.offset), (0xF0000, 0x10000, 0xF0000));
    assert!(!new.is_rom && !new.is_read_only);
    assert_eq!(gone, number);
}
