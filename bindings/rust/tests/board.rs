//! The board from Rust. Expected values are those of the datasheets, or worked out by hand.

use board_440fx::{Board, Card, Denial, Device, Error, Event, Kind, Moment, Register, Reset, Target, Width};

const ROM: &[u8] = &[0; 65536];
const CONFIG_ADDRESS: u16 = 0xCF8;
const CONFIG_DATA: u16 = 0xCFC;
const RESET_CONTROL: u16 = 0xCF9;

fn opened() -> Board {
    Board::builder().rom(ROM).open().unwrap()
}

fn denied_by(device: u8, function: u8, offset: u8) -> Option<Denial> {
    Some(Denial::Register(Register { device, function, offset }))
}

/// Writes a byte of a register of a function: device * 800h + function * 100h + offset.
fn configure(board: &mut Board, register: u32, value: u8) {
    board.out_u32(CONFIG_ADDRESS, 0x8000_0000 | register & !3).unwrap();
    board.out_u8(CONFIG_DATA + (register & 3) as u16, value).unwrap();
}

/// Sets up both 8259A with their vectors at 08h and 70h, all levels open.
fn set_up_interrupts(board: &mut Board) {
    for (port, value) in [(0x20, 0x11), (0x21, 0x08), (0x21, 0x04), (0x21, 0x01), (0x21, 0x00)] {
        board.out_u8(port, value).unwrap();
    }
    for (port, value) in [(0xA0, 0x11), (0xA1, 0x70), (0xA1, 0x02), (0xA1, 0x01), (0xA1, 0x00)] {
        board.out_u8(port, value).unwrap();
    }
}

#[test]
fn a_fetch_reaches_the_rom() {
    let mut rom = vec![0; 65536];
    rom[0xFFF0..0xFFF4].copy_from_slice(&[0xEA, 0x5B, 0xE0, 0x00]);
    let mut board = Board::builder().rom(&rom).open().unwrap();
    assert_eq!(board.fetch_u32(0xFFFF_FFF0), Ok(0x00E0_5BEA));
    assert_eq!(board.fetch_u16(0xFFFF_FFF0), Ok(0x5BEA));
    assert_eq!(board.fetch_u8(0xFFFF_FFF1), Ok(0x5B));
    assert_eq!(board.last().unwrap().target(), Some(Target::Rom { offset: 0xFFF1 }));
}

#[test]
fn memory_keeps_what_is_written() {
    let mut board = opened();
    board.write_u64(0x1003, 0x8877_6655_4433_2211).unwrap();
    assert_eq!(board.last().unwrap().reply.to_string(), "- dram:0 - dram:0 - dram:0 - dram:0 -");
    assert_eq!(board.read_u8(0x1003), Ok(0x11));
    assert_eq!(board.read_u16(0x1004), Ok(0x3322));
    assert_eq!(board.read_u32(0x1007), Ok(0x8877_6655));
    assert_eq!(board.read_u64(0x1003), Ok(0x8877_6655_4433_2211));
}

#[test]
fn a_shut_window_is_denied_by_its_register() {
    let mut board = opened();
    configure(&mut board, 0x5A, 0x02);
    assert_eq!(board.write_u8(0xC0000, 0x5A).unwrap().target(), Some(Target::Shadow { row: 0 }));
    configure(&mut board, 0x5A, 0x01);
    assert_eq!(board.read_u8(0xC0000), Ok(0x5A));
    let answer = board.write_u8(0xC0000, 0).unwrap();
    assert_eq!(answer.denied_by(), denied_by(0, 0, 0x5A));
    assert_eq!(answer.denied_by().map(|denial| format!("{denial:#}")), Some("00.0.5A (PAM1)".to_string()));
}

#[test]
fn smram_answers_in_its_mode_alone() {
    let mut board = opened();
    configure(&mut board, 0x72, 0x0A); // SMRAME
    let read = Event::read(0xA8000, Width::Byte);
    assert_eq!(board.step(&read).unwrap().denied_by(), denied_by(0, 0, 0x72));
    assert_eq!(board.step(&read.in_smm()).unwrap().target(), Some(Target::Smram));
    assert_eq!(board.decode(&read.in_smm()).unwrap().target, Target::Smram);
}

#[test]
fn smram_answers_no_bus_master() {
    let mut board = opened();
    configure(&mut board, 0x72, 0x48); // SMRAME and DOPEN
    assert_eq!(board.read_u8(0xA8000), Ok(0));
    assert_eq!(board.last().unwrap().target(), Some(Target::Smram));
    let part = board.decode_master(0xA8000, Width::Dword, false).unwrap();
    assert_eq!((part.target, part.denial), (Target::Abort, denied_by(0, 0, 0x72)));
    assert_eq!(board.decode_master(0x9FFFC, Width::Dword, true).unwrap().target, Target::Dram { row: 0 });
}

#[test]
fn bytes_of_a_card_go_in_and_out() {
    let mut board = Board::builder().card(Card::new(3).memory(12)).rom(ROM).open().unwrap();
    board.card_write(3, 0, 0xFFC, &[0x11, 0x22, 0x33, 0x44]).unwrap();
    configure(&mut board, 0x1813, 0xF0);
    configure(&mut board, 0x1804, 2);
    assert_eq!(board.read_u32(0xF000_0FFC), Ok(0x4433_2211));
    board.write_u8(0xF000_0FFD, 0x5A).unwrap();
    let mut bytes = [0; 4];
    board.card_read(3, 0, 0xFFC, &mut bytes).unwrap();
    assert_eq!(bytes, [0x11, 0x5A, 0x33, 0x44]);
}

#[test]
fn an_expansion_rom_has_bytes() {
    let mut board = Board::builder().card(Card::new(3).rom(15)).rom(ROM).open().unwrap();
    configure(&mut board, 0x1832, 0xF0);
    configure(&mut board, 0x1830, 1);
    configure(&mut board, 0x1804, 2);
    assert_eq!(board.read_u32(0x00F0_0010), Ok(0x1615_1413));
    board.card_write(3, 6, 0, &[0x55, 0xAA, 0x40]).unwrap();
    assert_eq!(board.read_u32(0x00F0_0000), Ok(0x0640_AA55));
    board.write_u8(0x00F0_0001, 0).unwrap();
    let mut bytes = [0; 3];
    board.card_read(3, 6, 1, &mut bytes).unwrap();
    assert_eq!(bytes, [0xAA, 0x40, 0x06]);
}

#[test]
fn the_timer_interrupts() {
    let mut board = opened();
    set_up_interrupts(&mut board);
    for (port, value) in [(0x43, 0x34), (0x40, 5), (0x40, 0)] {
        board.out_u8(port, value).unwrap();
    }
    assert_eq!(board.pulses_to_rise(), Ok(Some(6))); // one loads the count, and five count it down
    assert!(!board.pulse(5).unwrap().interrupt);
    assert!(board.pulse(1).unwrap().interrupt);
    assert_eq!(board.acknowledge(), Ok(0x08));
    assert_eq!(board.last().unwrap().target(), Some(Target::Device(Device::Vector0)));
}

#[test]
fn the_alarm_interrupts() {
    let mut board = opened();
    set_up_interrupts(&mut board);
    for (address, value) in [(0x01, 0x00), (0x03, 0x35), (0x05, 0x12), (0x0B, 0x22)] {
        board.out_u8(0x70, address).unwrap();
        board.out_u8(0x71, value).unwrap();
    }
    let mut moment = Moment { year: 2024, month: 2, day: 29, hour: 12, minute: 34, second: 59 };
    assert!(!board.time(moment).unwrap().interrupt);
    moment = Moment { minute: 35, second: 0, ..moment };
    assert!(board.time(moment).unwrap().interrupt);
    assert_eq!(board.cmos_read(4), Ok(0x12));
}

#[test]
fn a_sector_is_read() {
    let disk: Vec<u8> = (1..=4).flat_map(|sector| [sector; 512]).collect();
    let mut board = Board::builder().rom(ROM).disk(&disk).open().unwrap();
    configure(&mut board, 0x904, 1);
    configure(&mut board, 0x941, 0x80);
    for (port, value) in [(0x1F6, 0xE0), (0x1F2, 1), (0x1F3, 2), (0x1F4, 0), (0x1F5, 0), (0x1F7, 0x20)] {
        board.out_u8(port, value).unwrap();
    }
    assert_eq!(board.in_u8(0x1F7), Ok(0x58));
    assert_eq!(board.in_u16(0x1F0), Ok(0x0303));
    assert_eq!(board.disk_read(2), Ok([3; 512]));
    assert_eq!(board.disk_read(4), Err(Error::NoSector));
}

#[test]
fn com1_sends_and_receives() {
    let mut board = opened();
    let answer = board.out_u8(0x3F8, b'H').unwrap();
    assert_eq!(answer.sent, Some(b'H'));
    assert_eq!(answer.target(), Some(Target::Device(Device::Uart)));
    assert!(answer.serial_room);
    board.receive(b'k').unwrap();
    assert_eq!(board.in_u8(0x3F8), Ok(b'k'));
    board.out_u8(0x3FC, 0x10).unwrap(); // loopback
    assert_eq!(board.receive(b'k'), Err(Error::SerialFull));
}

#[test]
fn a_port_that_is_not_aligned_is_cut() {
    let mut board = opened();
    set_up_interrupts(&mut board);
    board.out_u16(0x21, 0x115A).unwrap(); // 21h is the mask, 22h nobody's
    assert_eq!(board.in_u8(0x21), Ok(0x5A));
    assert_eq!(board.in_u16(0x21), Ok(0xFF5A));
    assert_eq!(board.last().unwrap().reply.to_string(), "FF5A pic0 - abort none");
    assert_eq!(board.in_u16(0x20), Ok(0xFFFF)); // aligned, and nobody's in this width
    board.out_u8(RESET_CONTROL, 2).unwrap();
    let answer = board.out_u16(RESET_CONTROL, 0x0006).unwrap();
    assert_eq!((answer.reset, answer.target()), (Some(Reset::Hard), Some(Target::Device(Device::ResetControl))));
}

#[test]
fn the_map_after_a_reset() {
    let expected = "\
00000000 0009FFFF dram:0 dram:0 dram:0 dram:0 dram:0 dram:0
000A0000 000EFFFF abort abort abort abort abort abort
000F0000 000FFFFF rom rom rom rom rom rom
00100000 007FFFFF dram:0 dram:0 dram:0 dram:0 dram:0 dram:0
00800000 FFFEFFFF abort abort abort abort abort abort
FFFF0000 FFFFFFFF rom rom rom rom rom rom
";
    let mut board = opened();
    assert_eq!(board.map().unwrap().to_string(), expected);
    assert_eq!(board.ranges().unwrap().len(), 6);
    configure(&mut board, 0x59, 0x30);
    let look = board.look(Kind::Write, 0xF8000, false).unwrap();
    assert_eq!(look.to_string(), "1 000F0000 000FFFFF shadow:0");
    let map = board.map().unwrap();
    assert_eq!((map.version, board.last().unwrap().version), (1, 1));
    assert!(map.windows.iter().any(|window| window.lo <= 0xF0000 && 0xFFFFF <= window.hi));
}

#[test]
fn each_kind_of_access_has_its_area() {
    let mut board = opened();
    configure(&mut board, 0x59, 0x20); // PAM0: writes alone
    configure(&mut board, 0x72, 0x2A); // SMRAME and DCLS: code alone
    let areas = |addr: u32, smm| {
        let range = board.ranges().unwrap().find(|range| range.lo <= addr && addr <= range.hi).unwrap();
        [Kind::Fetch, Kind::Read, Kind::Write].map(|kind| range.area(kind, smm).to_string())
    };
    assert_eq!(areas(0xF8000, false), ["rom", "rom", "shadow:0"]);
    assert_eq!(areas(0xA8000, true)[..2], ["smram", "abort"]);
    assert_eq!(areas(0xA8000, false)[..2], ["abort", "abort"]);
}

#[test]
fn a_card_answers_where_it_is_placed() {
    let card = Card::new(2).memory(12).io(4);
    let mut board = Board::builder().rom(ROM).card(card).open().unwrap();
    configure(&mut board, 0x1013, 0xE0);
    configure(&mut board, 0x1015, 0x60);
    let port = Event::In { port: 0x6000, width: Width::Byte };
    assert_eq!(board.step(&port).unwrap().denied_by(), denied_by(2, 0, 4));
    configure(&mut board, 0x1004, 3);
    board.write_u8(0xE000_0010, 0x77).unwrap();
    assert_eq!(board.last().unwrap().target(), Some(Target::Card { device: 2, base: 0, offset: 0x10 }));
    assert_eq!(board.read_u8(0xE000_0010), Ok(0x77));
    assert_eq!(board.step(&port).unwrap().target(), Some(Target::Card { device: 2, base: 1, offset: 0 }));
    assert!(board.wire(2, true).is_ok());
}

#[test]
fn bytes_are_put_and_told_whatever_the_map_says() {
    let mut board = opened();
    board.dram_write(0xA0000, &[1, 2, 3]).unwrap();
    let mut bytes = [0; 4];
    board.dram_read(0x9FFFF, &mut bytes).unwrap();
    assert_eq!(bytes, [0, 1, 2, 3]);
    board.dram_read(8 << 20, &mut bytes).unwrap();
    assert_eq!(bytes, [0xFF; 4]);
    assert_eq!(board.dram_write((8 << 20) - 1, &[1, 2]), Err(Error::PastEnd));
    assert_eq!(board.dram_write(0, &[]), Ok(()));
    board.cmos_write(0x15, 0x80).unwrap();
    assert_eq!(board.cmos_read(0x15), Ok(0x80));
}

#[test]
fn a_board_moves_to_another_thread() {
    let mut board = opened();
    board.write_u8(0x1000, 0x5A).unwrap();
    let moved = std::thread::spawn(move || board.read_u8(0x1000));
    assert_eq!(moved.join().unwrap(), Ok(0x5A));
}
