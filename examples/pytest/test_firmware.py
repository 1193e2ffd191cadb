"""Firmware on the chips of a PC. `board.read` is what the processor would read, and `denied_by` says who kept it out.

    BOARD_DIR=DIR pytest        DIR is what `./board --library DIR` made
"""
import datetime

import pytest

from firmware import CMOS_DATA, CMOS_INDEX, IDE_COMMAND, IDETIM, PAM0, SMRAM
from firmware import configure, configured, set_clock, set_up_interrupts

BIOS = bytes(range(256)) * 256
DISK = b"".join(bytes([number]) * 512 for number in range(4))


@pytest.mark.board(rom=BIOS)
def test_shadowing_a_bios(board):
    """PAM0 first sends writes to the DRAM under the BIOS while reads still come from the ROM, then reads alone."""
    configure(board, PAM0, 0x20)
    for addr in range(0xF0000, 0xF0100, 4):
        board.write(addr, 4, board.read(addr, 4))
    configure(board, PAM0, 0x10)
    value = board.read(0xF0000, 4)
    assert value == 0x03020100
    assert value.target == "shadow:0"
    board.write(0xF0000, 1, 0x55)
    assert board.denied_by.name == "XBCS"  # a write goes to the ROM, which is not to be written
    assert board.read(0xF0000) == 0x00


def test_smram_locked(board):
    """DOPEN lets the firmware put its handler in place. Once DLCK is set SMRAM answers in its own mode alone."""
    configure(board, SMRAM, 0x4A)  # DOPEN, SMRAME
    board.write(0xA8000, 1, 0x5A)
    configure(board, SMRAM, 0x1A)  # DLCK, SMRAME
    configure(board, SMRAM, 0x4A)
    assert configured(board, SMRAM) == 0x1A
    assert board.read(0xA8000).denied_by.name == "SMRAM"
    assert board.read(0xA8000, smm=True) == 0x5A


def test_timer_interrupt(board):
    """Counter 0 counts from 5 in mode 2: one pulse loads it, the fifth after that raises OUT, and line 0 with it."""
    set_up_interrupts(board)
    for port, value in ((0x43, 0x34), (0x40, 5), (0x40, 0)):
        board.out(port, 1, value)
    assert not board.pulse(5).interrupt
    assert board.pulse(1).interrupt
    assert board.acknowledge() == 0x08
    assert board.pulses_to_rise == 5


def test_alarm_of_the_clock(board):
    """An alarm at 12:35:00 raises line 8, level 0 of the slave. Register C says why, and reading it ends it."""
    set_up_interrupts(board)
    for address, value in ((0x01, 0x00), (0x03, 0x35), (0x05, 0x12), (0x0B, 0x22)):
        set_clock(board, address, value)  # the alarm in BCD; then its interrupt, and hours to 23
    assert not board.time(datetime.datetime(2024, 2, 29, 12, 34, 59)).interrupt
    assert board.time(datetime.datetime(2024, 2, 29, 12, 35, 0)).interrupt
    assert board.acknowledge() == 0x70
    board.out(CMOS_INDEX, 1, 0x0C)
    assert board.in_(CMOS_DATA) == 0xB0  # the interrupt, the alarm, the update
    assert board.in_(CMOS_DATA) == 0x00


@pytest.mark.board(disk=DISK)
def test_sector_of_the_disk(board):
    """A sector is read by LBA: 256 words, once the channel is enabled. Line 14 is level 6 of the slave."""
    assert board.in_(0x1F7).denied_by == "01.1.04"
    configure(board, IDE_COMMAND, 0x01)
    configure(board, IDETIM, 0x80)
    set_up_interrupts(board)
    for port, value in ((0x1F6, 0xE0), (0x1F5, 0), (0x1F4, 0), (0x1F3, 2), (0x1F2, 1), (0x1F7, 0x20)):
        board.out(port, 1, value)
    assert board.acknowledge() == 0x76
    assert board.in_(0x1F7) == 0x58  # words are to move
    assert [board.in_(0x1F0, 2) for _ in range(256)] == [0x0202] * 256
    assert board.in_(0x1F7) == 0x50
