//! The lines in an answer, what stands now, and what a watch tells of answers one after another.
//!
//! What is expected is the 8254's (Mode 2: OUT is low for one pulse of each period) and the PC16550D's.

use board_440fx::{Board, Event, Kind, Moment, Reset, Watch};

const ROM: &[u8] = &[0; 65536];

fn board() -> Board {
    Board::builder().rom(ROM).open().unwrap()
}

fn mode_2(board: &mut Board, count: u16) {
    let [low, high] = count.to_le_bytes();
    for (port, byte) in [(0x43, 0x34), (0x40, low), (0x40, high)] {
        board.out_u8(port, byte).unwrap();
    }
}

#[test]
fn a_line_that_fell_and_rose_has_risen() {
    let mut board = board();
    mode_2(&mut board, 4);
    let answers = [4, 1, 4, 3].map(|count| board.pulse(count).unwrap());
    assert_eq!(answers.map(|answer| (answer.lines & 1, answer.rose)), [(0, 0), (1, 1), (1, 1), (0, 0)]);
}

#[test]
fn a_port_that_is_cut_tells_the_rise_of_each_cycle() {
    let mut board = board();
    board.out_u8(0x43, 0x30).unwrap();
    assert_eq!(board.out_u16(0x43, 0x34).unwrap().rose, 1);
    board.out_u8(0x43, 0x30).unwrap();
    assert_eq!(board.port_write(0x43, &[0x34, 0]).unwrap().unwrap().rose, 1);
}

#[test]
fn what_stands_now() {
    let mut board = board();
    board.step(&Event::Irq { line: 15, level: true }).unwrap();
    let last = *board.last().unwrap();
    let now = board.now().unwrap();
    assert_eq!((now.lines, now.interrupt, now.irq4, now.serial_room), (0x8001, false, false, true));
    assert_eq!(now.version, last.version);
    assert_eq!(board.last(), Some(&last));
    assert_eq!(Board::load(&board.save().unwrap()).unwrap().now(), Ok(now));
}

#[test]
fn a_byte_of_the_clock_moves_line_8() {
    let mut board = board();
    board.time(Moment { year: 2026, month: 1, day: 1, hour: 0, minute: 0, second: 0 }).unwrap();
    board.cmos_write(11, 0x02).unwrap();
    board.second().unwrap();
    board.cmos_write(11, 0x12).unwrap();
    assert_eq!(board.now().unwrap().lines, 0x101);
    assert_eq!(board.last().unwrap().lines, 0x101);
}

#[test]
fn a_watch_tells_levels_in_order() {
    let mut board = board();
    mode_2(&mut board, 4);
    let mut watch = Watch::of(&board.now().unwrap());
    let mut levels = |count| watch.see(&board.pulse(count).unwrap()).levels().collect::<Vec<_>>();
    assert_eq!(levels(4), [(0, false)]);
    assert_eq!(levels(1), [(0, true)]);
    assert_eq!(levels(4), [(0, false), (0, true)]);
    assert_eq!(levels(3), [(0, false)]);
    assert_eq!(levels(4), [(0, true), (0, false)]);
    let risen = |line: u8, level| Event::Irq { line, level };
    assert_eq!(watch.see(&board.step(&risen(3, true)).unwrap()).risen().collect::<Vec<_>>(), [3]);
    assert_eq!(watch.see(&board.step(&risen(3, true)).unwrap()).levels().count(), 0);
    assert_eq!(watch.see(&board.step(&risen(3, false)).unwrap()).levels().collect::<Vec<_>>(), [(3, false)]);
}

#[test]
fn a_watch_tells_what_else_came() {
    let mut board = board();
    let mut watch = Watch::of(&board.now().unwrap());
    assert_eq!(watch.see(&board.out_u8(0x3F8, b'h').unwrap()).sent, Some(b'h'));
    assert!(!watch.see(&board.out_u32(0xCF8, 0x8000_005A).unwrap()).map_changed);
    assert!(watch.see(&board.out_u8(0xCFE, 0x33).unwrap()).map_changed);
    board.out_u8(0xCF9, 2).unwrap();
    let seen = watch.see(&board.out_u8(0xCF9, 6).unwrap());
    assert_eq!((seen.reset, seen.interrupt), (Some(Reset::Hard), false));
    board.step(&Event::Irq { line: 5, level: true }).unwrap(); // which nobody saw
    let look = board.step(&Event::Look { kind: Kind::Read, addr: 0, smm: false }).unwrap();
    assert_eq!(watch.see(&look).risen().collect::<Vec<_>>(), [5]);
}
