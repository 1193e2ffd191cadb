//! Each refusal, and that the board is as it was after it.

use board_440fx::{Board, Card, Error, Event, Moment, Transfer, Width};

const ROM: &[u8] = &[0; 65536];

fn refused(builder: board_440fx::Builder<'_>) -> Option<Error> {
    builder.open().err()
}

#[test]
fn boards_that_cannot_be() {
    assert_eq!(refused(Board::builder().rom(ROM).memory_mib(0)), Some(Error::BadSize));
    assert_eq!(refused(Board::builder().rom(ROM).memory_mib(513)), Some(Error::BadSize));
    assert_eq!(refused(Board::builder()), Some(Error::BadRom));
    assert_eq!(refused(Board::builder().rom(&ROM[1..])), Some(Error::BadRom));
    assert_eq!(refused(Board::builder().rom(ROM).disk(&ROM[..513])), Some(Error::BadDisk));
}

#[test]
fn cards_that_cannot_be() {
    let fitted = |card| refused(Board::builder().rom(ROM).card(card));
    assert_eq!(fitted(Card::new(1)), Some(Error::BadCards));
    assert_eq!(fitted(Card::new(10)), Some(Error::BadCards));
    assert_eq!(fitted(Card::new(2).memory(25)), Some(Error::BadCards));
    assert_eq!(fitted(Card::new(2).io(1)), Some(Error::BadCards));
    assert_eq!(fitted(Card::new(2).rom(10)), Some(Error::BadCards));
    assert_eq!(fitted((0..7).fold(Card::new(2), |card, _| card.io(2))), Some(Error::BadCards));
    assert_eq!(fitted((0..300).fold(Card::new(2), |card, _| card.io(2))), Some(Error::BadCards));
    let twice = Board::builder().rom(ROM).card(Card::new(2)).card(Card::new(2));
    assert_eq!(refused(twice), Some(Error::BadCards));
    let in_any_order = Board::builder().rom(ROM).card(Card::new(3)).card(Card::new(2).vga());
    assert_eq!(refused(in_any_order), None);
}

#[test]
fn events_that_cannot_be() {
    let mut board = Board::builder().rom(ROM).open().unwrap();
    board.write_u8(0x1000, 0x5A).unwrap();
    let before = *board.last().unwrap();
    let events = [
        (Event::In { port: 0x21, width: Width::Word }, Error::Alignment),
        (Event::write(0x1000, Width::Byte, 0x100), Error::Value),
        (Event::Out { port: 0x20, width: Width::Byte, value: 0x100 }, Error::Value),
        (Event::read(u32::MAX, Width::Word), Error::End),
        (Event::Pulse(0), Error::Pulses),
        (Event::Pulse(1_000_001), Error::Pulses),
        (Event::Wire { device: 2, level: true }, Error::Device),
        (Event::Irq { line: 2, level: true }, Error::Line),
    ];
    for (event, error) in events {
        assert_eq!(board.step(&event), Err(error), "{event}");
    }
    assert_eq!(*board.last().unwrap(), before);
    assert_eq!(board.read_u8(0x1000), Ok(0x5A));
}

#[test]
fn moments_that_cannot_be() {
    let mut board = Board::builder().rom(ROM).open().unwrap();
    let good = Moment { year: 2024, month: 2, day: 29, hour: 12, minute: 0, second: 0 };
    let bad = [
        Moment { year: 2023, ..good },
        Moment { month: 0, ..good },
        Moment { month: 113, ..good },
        Moment { second: 255, ..good },
        Moment { year: 1979, month: 1, ..good },
    ];
    for moment in bad {
        assert_eq!(board.time(moment), Err(Error::NoEvent), "{moment}");
    }
    assert!(board.time(good).is_ok());
}

#[test]
fn ports_that_cannot_be() {
    let mut board = Board::builder().rom(ROM).open().unwrap();
    assert_eq!(board.in_u32(0xFFFE), Err(Error::NoEvent));
    assert_eq!(board.out_u16(0xFFFF, 0), Err(Error::NoEvent));
    assert_eq!(board.input(0x20, Width::Qword), Err(Error::NoEvent));
    assert_eq!(board.out(0x20, Width::Byte, 0x100), Err(Error::Value));
    assert_eq!(board.last(), None);
}

#[test]
fn questions_that_cannot_be() {
    let mut board = Board::builder().rom(ROM).open().unwrap();
    assert_eq!(board.decode(&Event::read(0x1001, Width::Word)).err(), Some(Error::NoCycle));
    assert_eq!(board.decode(&Event::Acknowledge).err(), Some(Error::NoCycle));
    assert_eq!(board.decode_master(0x1002, Width::Dword, false).err(), Some(Error::NoCycle));
    assert_eq!(board.decode_master(0x1000, Width::Qword, false).err(), Some(Error::NoCycle));
    assert_eq!(board.card_read(2, 0, 0, &mut [0]), Err(Error::PastEnd));
    assert_eq!(board.card_write(2, 0, 0, &[0]), Err(Error::PastEnd));
    assert_eq!(board.card_write(2, 6, 0, &[0]), Err(Error::PastEnd));
    assert_eq!(Transfer::begin(0x1002, 0, 1, 1, true).err(), Some(Error::NoTransfer));
    assert_eq!(Transfer::begin(0x1000, 0, 257, 257, true).err(), Some(Error::NoTransfer));
    let mut transfer = Transfer::begin(0x1000, 0, 1, 1, true).unwrap();
    transfer.region(0x2000, 0x200).unwrap();
    assert_eq!(transfer.region(0x2000, 0x200), Err(Error::NoTransfer));
    assert_eq!(board.disk_read(0), Err(Error::NoSector));
    assert_eq!(board.cmos_read(128), Err(Error::NoByte));
    assert_eq!(board.cmos_write(128, 0), Err(Error::NoByte));
}
