//! What is asked between two steps, seconds of the clock, and string instructions.

use board_440fx::{Board, Error, Event, Moment, Width};

const ROM: &[u8] = &[0; 65536];

fn board() -> Board {
    Board::builder().rom(ROM).open().unwrap()
}

#[test]
fn a_second_goes_on_from_what_the_clock_shows() {
    let mut board = board();
    board.time(Moment { year: 1999, month: 12, day: 31, hour: 23, minute: 59, second: 59 }).unwrap();
    let answer = board.second().unwrap();
    assert_eq!(answer.to_string(), board.last().unwrap().to_string());
    assert_eq!(board.cmos_read(9), Ok(0));
    // an update, and the alarm of 00:00:00 that stands since power-on
    assert_eq!(board.cmos_read(12), Ok(0x30));
    assert_eq!(board.cmos_read(13), Ok(0x80));
    board.cmos_write(11, 0x82).unwrap();
    assert_eq!(board.second(), Err(Error::NoTime));
}

#[test]
fn lines_stand() {
    let mut board = board();
    board.out_u8(0x43, 0x30).unwrap();
    board.step(&Event::Irq { line: 15, level: true }).unwrap();
    assert_eq!(board.lines(), Ok(0x8000));
}

#[test]
fn com1_tells_what_it_holds() {
    let mut board = board();
    assert_eq!(board.serial_state().unwrap().received(), b"");
    board.receive(b'a').unwrap();
    let state = board.serial_state().unwrap();
    assert_eq!((state.received(), state.lsr, state.iir), (&b"a"[..], 0x61, 1));
}

#[test]
fn strings_are_steps_in_turn() {
    let mut board = board();
    let mut values = [0; 300];
    assert_eq!(board.in_many(0x80, Width::Word, &mut values), Ok(300));
    assert!(values.iter().all(|&value| value == 0xFFFF));
    assert_eq!(board.in_many(0xCF9, Width::Dword, &mut values), Err(Error::Alignment));
    assert_eq!(board.in_many(0x80, Width::Word, &mut []), Ok(0));
    assert_eq!(board.out_many(0x3F8, Width::Byte, &[0x68, 0x69]), Ok(1));
    assert_eq!(board.last().unwrap().sent, Some(0x68));
    assert_eq!(board.out_many(0x80, Width::Byte, &[1, 256]), Ok(1));
    assert_eq!(board.out_many(0x80, Width::Byte, &[256]), Err(Error::Value));
    assert_eq!(board.map().unwrap().mib, 8);
}

#[test]
fn a_loaded_board_goes_on() {
    let mut board = Board::builder().memory_mib(16).rom(ROM).disk(&[0; 1024]).open().unwrap();
    board.write_u32(0x1234, 0x89AB_CDEF).unwrap();
    board.pulse(99).unwrap();
    board.receive(b'a').unwrap();
    let image = board.save().unwrap();
    let mut other = Board::load(&image).unwrap();
    assert_eq!(other.save(), Ok(image.clone()));
    assert_eq!(other.last(), None);
    assert_eq!(other.read_u32(0x1234), Ok(0x89AB_CDEF));
    assert_eq!(other.pulses_to_rise(), board.pulses_to_rise());
    assert_eq!(other.serial_state().unwrap().received(), b"a");
    assert_eq!(Board::load(&image[..image.len() - 1]).err(), Some(Error::BadImage));
    assert_eq!(Board::load(b"BOARDRUN\xFF\xFF").err(), Some(Error::OtherVersion));
}
