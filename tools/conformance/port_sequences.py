"""Statements that a monitor with a guest's ports does by several accesses: a transfer of the bus master, and a level
on INTA# of QEMU's device `edu`. What they use of configuration space is put back as it was."""
import time
from typing import Callable

from .scripts import WIDTHS

CONFADD, CONFDATA, ENABLE = 0xCF8, 0xCFC, 0x8000_0000
IDE, PCICMD, IO_AND_MASTER, MEMORY_ENABLE = 0x0900, 0x04, 0x05, 0x02
BMIBA, BUS_MASTER_PORTS = 0x20, 0xC000
COMMAND, STATUS, TABLE_POINTER = 0, 2, 4  # of the bus master, from its base on
START, TO_MEMORY, ACTIVE, FLAGS = 0x01, 0x08, 0x01, 0x06
READ_DMA, WRITE_DMA, LBA_MODE = 0xC8, 0xCA, 0xE0
SECTOR_COUNT, LBA_LOW, LBA_MIDDLE, LBA_HIGH, DEVICE, ATA_COMMAND = 0x1F2, 0x1F3, 0x1F4, 0x1F5, 0x1F6, 0x1F7
POLLS, POLL_SECONDS = 50, 0.002
BASE_0, CARD_WINDOW, EDU_RAISE, EDU_LOWER = 0x10, 0xFEA0_0000, 0x60, 0x64
Ask = Callable[[str], int]  # does a statement; the number that it reads, 0 where it reads nothing


def out(ask: Ask, port: int, value: int, width: str = "b") -> None:
    ask(f"out {width} {port:04X} {value:0{2 * WIDTHS[width]}X}")


class Config:
    """Doublewords of configuration space, each put back at the end, and the configuration address with them."""

    def __init__(self, ask: Ask) -> None:
        self.ask, self.before = ask, list[tuple[int, int]]()
        self.confadd = ask(f"in d {CONFADD:04X}")

    def read(self, register: int) -> int:
        out(self.ask, CONFADD, ENABLE | register, "d")
        return self.ask(f"in d {CONFDATA:04X}")

    def write(self, register: int, value: int) -> None:
        self.before.append((register, self.read(register)))
        out(self.ask, CONFDATA, value, "d")

    def restore(self) -> None:
        for register, value in reversed(self.before):
            out(self.ask, CONFADD, ENABLE | register, "d")
            out(self.ask, CONFDATA, value & 0xFFFF if register & 0xFC == PCICMD else value, "d")
        out(self.ask, CONFADD, self.confadd, "d")


def bus_master(ask: Ask, statement: str) -> int:
    """Does a transfer by the registers of the bus master: bits 2 to 0 of its status."""
    _, direction, table, lba_text, sectors = statement.split(" ")
    lba, is_in = int(lba_text), direction == "in"
    config = Config(ask)
    config.write(IDE | BMIBA, BUS_MASTER_PORTS | 1)
    config.write(IDE | PCICMD, IO_AND_MASTER)
    out(ask, BUS_MASTER_PORTS + TABLE_POINTER, int(table, 16), "d")
    out(ask, BUS_MASTER_PORTS + STATUS, FLAGS)
    out(ask, BUS_MASTER_PORTS + COMMAND, TO_MEMORY * is_in)
    for port, value in (
        (SECTOR_COUNT, int(sectors) & 0xFF),
        (LBA_LOW, lba & 0xFF),
        (LBA_MIDDLE, lba >> 8 & 0xFF),
        (LBA_HIGH, lba >> 16 & 0xFF),
        (DEVICE, LBA_MODE),
        (ATA_COMMAND, READ_DMA if is_in else WRITE_DMA),
    ):
        out(ask, port, value)
    out(ask, BUS_MASTER_PORTS + COMMAND, TO_MEMORY * is_in | START)
    status = ask(f"in b {BUS_MASTER_PORTS + STATUS:04X}")
    for _ in range(POLLS):
        if status & FLAGS or not status & ACTIVE:
            break
        time.sleep(POLL_SECONDS)
        status = ask(f"in b {BUS_MASTER_PORTS + STATUS:04X}")
    out(ask, BUS_MASTER_PORTS + COMMAND, 0)
    ask(f"in b {ATA_COMMAND:04X}")  # takes the disk's request away
    config.restore()
    return status & (FLAGS | ACTIVE)


def wire(ask: Ask, device: int, level: bool) -> None:
    """Sets INTA# of the device `edu` in a slot."""
    config, slot = Config(ask), device << 11
    config.write(slot | BASE_0, CARD_WINDOW)
    config.write(slot | PCICMD, MEMORY_ENABLE)
    ask(f"w d {CARD_WINDOW + (EDU_RAISE if level else EDU_LOWER):08X} 00000001")
    config.restore()
