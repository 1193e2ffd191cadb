"""What is asked between two steps, seconds of the clock, and string instructions."""
import datetime

import pytest

from board440fx import errors

pytest_plugins = ["board440fx.pytest_plugin"]  # the fixture `board`, where the module is not installed


def test_a_second_goes_on_from_what_the_clock_shows(board):
    board.time(datetime.datetime(1999, 12, 31, 23, 59, 59))
    answer = board.second()
    assert answer is board.last
    assert str(answer.event) == "moment 2000-01-01T00:00:00"
    # of C an update, and the alarm of 00:00:00 that stands since power-on
    assert [board.cmos_read(address) for address in (9, 12, 13)] == [0, 0x30, 0x80]
    board.cmos_write(11, 0x82)
    with pytest.raises(errors.NoTime):
        board.second()


def test_lines_stand(board):
    board.out(0x43, 1, 0x30)
    board.irq(15, True)
    assert board.lines == 0x8000


def test_com1_tells_what_it_holds(board):
    board.receive(ord("a"))
    state = board.serial_state
    assert (state["received"], state["lsr"], state["iir"]) == (b"a", 0x61, 1)


def test_strings_are_steps_in_turn(board):
    assert board.in_many(0x80, 2, 300) == [0xFFFF] * 300
    assert board.in_many(0x80, 2, 0) == []
    with pytest.raises(errors.Alignment):
        board.in_many(0xCF9, 4, 1)
    assert board.out_many(0x3F8, 1, [0x68, 0x69]) == 1
    assert board.last.sent == 0x68
    assert board.out_many(0x80, 1, [1, 256]) == 1
    with pytest.raises(errors.BadValue):
        board.out_many(0x80, 1, [256])
    assert board.map.mib == 8
