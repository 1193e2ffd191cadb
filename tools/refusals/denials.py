"""What keeps an access out where no register does: a device that hears another width, a disk or a function that is not
there, or nobody."""
from typing import Optional

from shared.board_texts import OTHER_DENIALS, WIDTHS, Entry
from traces.board_parts import CONFADD, CONFDATA, OTHER_PORTS, named

COUNT = {1: "one byte", 2: "two", 4: "four"}
# Each device with its ports and how many bytes it hears there.
# made by tools/make-names: hearers
HEARERS: list[tuple[str, tuple[int, ...], tuple[int, ...]]] = [
    ("the configuration address", (0xCF8,), (4,)),
    ("reset control", (0xCF9,), (1,)),
    ("the master 8259A", (0x20, 0x21,), (1,)),
    ("the slave 8259A", (0xA0, 0xA1,), (1,)),
    ("the 8254", (0x40, 0x41, 0x42, 0x43,), (1,)),
    ("port B of the system", (0x61,), (1,)),
    ("the keyboard controller's socket", (0x60, 0x64,), (1,)),
    ("the clock", (0x70, 0x71,), (1,)),
    ("edge and level control", (0x4D0, 0x4D1,), (1,)),
    ("the disk", (0x1F1, 0x1F2, 0x1F3, 0x1F4, 0x1F5, 0x1F6, 0x1F7, 0x3F6,), (1,)),
    ("the disk's data", (0x1F0,), (2, 4,)),
]
# end of what is made
DISK_PORTS = (*range(0x1F0, 0x1F8), 0x3F6)


def heard(widths: tuple[int, ...]) -> str:
    return "one byte" if widths == (1,) else f"{' or '.join(COUNT[it] for it in widths)} bytes"


def other_width(port: int, size: int) -> Optional[str]:
    """Which device at a port hears another width."""
    if any(port in ports and size in widths for _, ports, widths in HEARERS):
        return None
    if CONFADD <= port < CONFADD + 4:
        return f"the configuration address hears four bytes at {CONFADD:X}h, not {COUNT[size]} at {port:X}h"
    for name, ports, widths in HEARERS:
        found = [it for it in range(port, port + size) if it in ports]
        if found:
            return f"{name} hears {heard(widths)} at {found[0]:X}h, not {COUNT[size]}"
    return None


def missing_function(confadd: int) -> str:
    bus, device, function = confadd >> 16 & 255, confadd >> 11 & 31, confadd >> 8 & 7
    text = f"function {bus:02X}:{device:02X}.{function} is not there"
    if bus == 0 and function == 0 and 2 <= device <= 9:
        return f"{text}: a line `card {device} vga` or `card {device} plain` fits a card"
    return f"{text}: the board has 00:00.0, 00:01.0, 00:01.1 and function 0 of each card"


def of_port(port: int, size: int, confadd: int, has_disk: bool) -> str:
    if port in CONFDATA:
        return missing_function(confadd)
    if port in DISK_PORTS and not has_disk and other_width(port, size) is None:
        return "no disk is fitted: the script has no line `disk NAME`"
    name = named(OTHER_PORTS, port)
    nobody = OTHER_DENIALS["none"] + (f": the board has no {name}" if name else "")
    return other_width(port, size) or nobody


def why(entry: Entry, denial: str, target: str, confadd: int, has_disk: bool) -> str:
    """What keeps out a part of an access that no register of configuration space does."""
    words = entry.words
    if denial == "confadd":
        return OTHER_DENIALS["confadd"]
    if words[0] in ("in", "out"):
        return of_port(int(words[2], 16), WIDTHS[words[1]], confadd, has_disk)
    if target.startswith("rom:"):
        return "no register keeps it out: the ROM chip itself cannot be written"
    return OTHER_DENIALS["none"]
