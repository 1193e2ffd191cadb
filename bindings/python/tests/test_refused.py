"""Each refusal, and that the board is as it was after it."""
import datetime

import pytest

from board440fx import Board, Card, Event, errors

SECTOR = 512


@pytest.fixture
def board():
    with Board() as opened:
        yield opened


@pytest.mark.parametrize("words, fault", [
    ({"memory": 0}, errors.BadSize),
    ({"memory": 513}, errors.BadSize),
    ({"memory": -1}, errors.BadSize),
    ({"memory": (1 << 32) + 8}, errors.BadSize),
    ({"rom": b""}, errors.BadRom),
    ({"rom": bytes(65535)}, errors.BadRom),
    ({"disk": bytes(SECTOR + 1)}, errors.BadDisk),
    ({"cards": ["1 plain"]}, errors.BadCards),
    ({"cards": ["10 plain"]}, errors.BadCards),
    ({"cards": ["258 plain"]}, errors.BadCards),
    ({"cards": ["2 plain m25"]}, errors.BadCards),
    ({"cards": ["2 plain i1"]}, errors.BadCards),
    ({"cards": ["2 plain x10"]}, errors.BadCards),
    ({"cards": ["2 plain" + " i2" * 7]}, errors.BadCards),
    ({"cards": ["2 plain", "2 vga"]}, errors.BadCards),
    ({"cards": ["two plain"]}, errors.BadCards),
    ({"cards": [Card(2, bases=("q4",))]}, errors.BadCards),
])
def test_boards_that_cannot_be(words, fault):
    with pytest.raises(fault):
        Board(**words)


@pytest.mark.parametrize("event, fault", [
    (Event.in_(0x21, 2), errors.Alignment),
    (Event.write(0x1000, 1, 0x100), errors.BadValue),
    (Event.out(0x20, 1, 0x100), errors.BadValue),
    (Event.read(0xFFFFFFFF, 2), errors.PastLastAddress),
    (Event.pulse(0), errors.BadPulses),
    (Event.pulse(1_000_001), errors.BadPulses),
    (Event.wire(2, True), errors.NoDevice),
    (Event.irq(2, True), errors.NoLine),
    (Event.read(1 << 32), errors.NoEvent),
    (Event.read(-1), errors.NoEvent),
    (Event.write(0x1000, 8, 1 << 64), errors.NoEvent),
    (Event.write(0x1000, 8, -1), errors.NoEvent),
    (Event.read(0x1000, 257), errors.NoEvent),
    (Event.parse("moment 2023-02-29T12:00:00"), errors.NoEvent),
    (Event.time(datetime.datetime(1979, 1, 1)), errors.NoEvent),
    (Event.time(datetime.datetime(99, 1, 1)), errors.NoEvent),
])
def test_events_that_cannot_be(board, event, fault):
    board.write(0x1000, 1, 0x5A)
    before = board.last
    with pytest.raises(fault):
        board.step(event)
    assert board.last is before
    assert board.read(0x1000) == 0x5A


@pytest.mark.parametrize("event, why", [
    (Event.read(0x1000, 3), "r 3 00001000: that is no event: an access to memory has 1, 2, 4 or 8 bytes, not 3"),
    (Event.in_(0x1000, 8), "an access to a port has 1, 2 or 4 bytes, not 8"),
    (Event.in_(0x10000), "the last port is FFFF, not 10000"),
    (Event.write(0x1000, 4, 1 << 32), "a value of more than 32 bits does not fit 4 bytes"),
    (Event.read(1 << 32), "addr 4294967296 does not fit 32 bits"),
    (Event.parse("moment 2023-02-29T12:00:00"), "the calendar from 1980 to 2099 has no such moment"),
    (Event.receive(256), "a byte is 0 to 255, not 256"),
])
def test_an_event_that_cannot_be_says_why(board, event, why):
    with pytest.raises(errors.NoEvent, match=why):
        board.step(event)


@pytest.mark.parametrize("call, fault", [
    (lambda board: board.in_(0xFFFE, 4), errors.NoEvent),
    (lambda board: board.out(0x10000, 1, 0), errors.NoEvent),
    (lambda board: board.out(-1, 1, 0), errors.NoEvent),
    (lambda board: board.in_(0x20, 3), errors.NoEvent),
    (lambda board: board.in_(0x20, 8), errors.NoEvent),
    (lambda board: board.out(0x20, 1, 0x100), errors.BadValue),
    (lambda board: board.out(0x20, 1, -1), errors.BadValue),
    (lambda board: board.look("x", 0), errors.NoEvent),
    (lambda board: board.decode(Event.read(0x1001, 2)), errors.NoCycle),
    (lambda board: board.decode(Event.acknowledge()), errors.NoCycle),
    (lambda board: board.decode_master(0x1002, 4, False), errors.NoCycle),
    (lambda board: board.decode_master(0x1000, 8, False), errors.NoCycle),
    (lambda board: board.decode_master(-1, 1, False), errors.NoCycle),
    (lambda board: board.card_read(2, 0, 0, 1), errors.PastEnd),
    (lambda board: board.card_write(256, 0, 0, b"1"), errors.PastEnd),
    (lambda board: board.card_write(2, 0, -1, b""), errors.PastEnd),
    (lambda board: board.card_write(2, 6, 0, b"1"), errors.PastEnd),
    (lambda board: board.transfer(0x1002, 0, 1, to_memory=True), errors.NoTransfer),
    (lambda board: board.transfer(0x1000, 1 << 28, 1, to_memory=True), errors.NoTransfer),
    (lambda board: board.transfer(0x1000, 0, 257, to_memory=True), errors.NoTransfer),
    (lambda board: board.transfer(-4, 0, 1, to_memory=True), errors.NoTransfer),
    (lambda board: board.disk_read(0), errors.NoSector),
    (lambda board: board.disk_read(1 << 32), errors.NoSector),
    (lambda board: board.cmos_read(128), errors.NoByte),
    (lambda board: board.cmos_read(256), errors.NoByte),
    (lambda board: board.cmos_write(0, 256), errors.BadValue),
    (lambda board: board.dram_write((8 << 20) - 1, b"12"), errors.PastEnd),
    (lambda board: board.dram_write(1 << 32, b""), errors.PastEnd),
    (lambda board: board.dram_read(1 << 32, 1), errors.PastEnd),
    (lambda board: board.dram_read(0, -1), errors.PastEnd),
])
def test_calls_that_cannot_be(board, call, fault):
    with pytest.raises(fault):
        call(board)
    assert board.last is None


def test_a_refusal_has_its_status_and_its_text(board):
    with pytest.raises(errors.BadPulses, match=r"pulse 0: a count of pulses is not 1 to 1,000,000") as refused:
        board.pulse(0)
    assert refused.value.status == 13
    assert isinstance(refused.value, errors.BoardError)
