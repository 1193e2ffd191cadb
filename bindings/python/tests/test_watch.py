"""The lines in an answer, what stands now, and what a watch tells of answers one after another.

What is expected is the 8254's (Mode 2: OUT is low for one pulse of each period) and the PC16550D's."""
import datetime

from board440fx import Board, Event, Reset, Watch

pytest_plugins = ["board440fx.pytest_plugin"]  # the fixture `board`, where the module is not installed


def mode_2(board, count):
    for port, byte in (0x43, 0x34), (0x40, count & 0xFF), (0x40, count >> 8):
        board.out(port, 1, byte)


def test_a_line_that_fell_and_rose_has_risen(board):
    mode_2(board, 4)
    answers = [board.pulse(count) for count in (4, 1, 4, 3)]
    assert [(answer.lines & 1, answer.risen) for answer in answers] == [(0, ()), (1, (0,)), (1, (0,)), (0, ())]


def test_a_port_that_is_cut_tells_the_rise_of_each_cycle(board):
    board.out(0x43, 1, 0x30)
    assert board.out(0x43, 2, 0x34).risen == (0,)


def test_what_stands_now(board):
    board.irq(15, True)
    last = board.last
    other = Board.load(board.save())
    for now in board.now, other.now:
        assert (now.lines, now.interrupt, now.irq4, now.serial_room, now.version) == (0x8001, False, False, True, last.version)
    assert board.last is last


def test_a_byte_of_the_clock_moves_line_8(board):
    board.time(datetime.datetime(2026, 1, 1))
    board.cmos_write(11, 0x02)
    board.second()
    board.cmos_write(11, 0x12)
    assert board.now.lines == board.last.lines == 0x101


def test_a_watch_tells_levels_in_order(board):
    mode_2(board, 4)
    watch = Watch(board.now)
    assert watch.see(board.pulse(4)).levels == [(0, False)]
    assert watch.see(board.pulse(1)).levels == [(0, True)]
    assert watch.see(board.pulse(4)).levels == [(0, False), (0, True)]
    assert watch.see(board.pulse(3)).levels == [(0, False)]
    assert watch.see(board.pulse(4)).levels == [(0, True), (0, False)]
    assert watch.see(board.irq(3, True)).risen == (3,)
    seen = watch.see(board.irq(3, True))
    assert (seen.risen, seen.levels) == ((), [])
    assert watch.see(board.irq(3, False)).levels == [(3, False)]


def test_a_watch_tells_what_else_came(board):
    watch = Watch(board.now)
    assert watch.see(board.out(0x3F8, 1, ord("h"))).sent == ord("h")
    assert watch.see(board.out(0xCF8, 4, 0x8000005A)).map_changed is False
    assert watch.see(board.out(0xCFE, 1, 0x33)).map_changed is True
    board.out(0xCF9, 1, 2)
    seen = watch.see(board.out(0xCF9, 1, 6))
    assert (seen.reset, seen.interrupt) == (Reset.HARD, False)
    board.irq(5, True)  # which nobody saw
    assert watch.see(board.step(Event.look("r", 0))).risen == (5,)
