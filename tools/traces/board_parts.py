"""What from-trace has to know of the board: its ports, how the bus cuts an access, when the timer's output rises, and
which interrupt line has a vector."""
from typing import Iterator, Optional

# ---- the ports that the board has, as docs/FORMATS.md lists them

# made by tools/make-names: ports
BYTE_PORTS = {
    **dict.fromkeys((0xCF9,), "reset"),
    **dict.fromkeys((0x20, 0x21,), "pic0"),
    **dict.fromkeys((0xA0, 0xA1,), "pic1"),
    **dict.fromkeys((0x40, 0x41, 0x42, 0x43,), "pit"),
    **dict.fromkeys((0x61,), "sys"),
    **dict.fromkeys((0x70, 0x71,), "clock"),
    **dict.fromkeys((0x4D0, 0x4D1,), "elcr"),
    **dict.fromkeys((0x1F1, 0x1F2, 0x1F3, 0x1F4, 0x1F5, 0x1F6, 0x1F7, 0x3F6,), "ata"),
}
# end of what is made
DISK_DATA, CONFADD, CONFDATA, RESET_CONTROL = 0x1F0, 0xCF8, range(0xCFC, 0xD00), 0xCF9
CLOCK_INDEX, CLOCK_DATA = 0x70, 0x71
NOBODY = "io"  # what QEMU calls the ports that nobody has

# What stands at other ports and addresses, where the trace has no names.
OTHER_PORTS = [
    (0x00, 0x1F, "DMA controller"),
    (0x60, 0x64, "keyboard controller"),
    (0x80, 0x8F, "DMA pages"),
    (0x92, 0x92, "port 92"),
    (0xC0, 0xDF, "DMA controller"),
    (0x170, 0x177, "secondary IDE channel"),
    (0x376, 0x376, "secondary IDE channel"),
    (0x1F0, 0x1F7, "disk"),
    (0x3F6, 0x3F6, "disk"),
    (0x2F8, 0x2FF, "serial port"),
    (0x3F8, 0x3FF, "serial port"),
    (0x3B0, 0x3DF, "VGA"),
]
OTHER_MEMORY = [
    (0xA0000, 0xBFFFF, "VGA memory"),
    (0xFEC0_0000, 0xFEC0_0FFF, "I/O APIC"),
    (0xFED0_0000, 0xFED0_03FF, "HPET"),
    (0xFEE0_0000, 0xFEEF_FFFF, "local APIC"),
]
ROM_AND_WINDOWS = [(0xC0000, 0xFFFFF), (0xFFF8_0000, 0xFFFF_FFFF)]
FUNCTIONS = {(0, 0, 0), (0, 1, 0), (0, 1, 1)}

# ---- how the bus cuts

def parts_of(place: int, size: int) -> Iterator[tuple[int, int]]:
    """The parts of an access as the bus cuts it: each the longest of 4, 2 and 1 bytes that is aligned at its place and
    does not pass the end."""
    end = place + size
    while place < end:
        part = next(it for it in (4, 2, 1) if place % it == 0 and place + it <= end)
        yield place, part
        place += part


def port_parts(place: int, size: int) -> Iterator[tuple[int, int]]:
    """The same for ports, where a device of eight bits takes single bytes, as the ISA bus of the 82371SB cuts them."""
    for at, part in parts_of(place, size):
        is_cut = at not in (CONFADD, DISK_DATA) and any(it in BYTE_PORTS for it in range(at, at + part))
        yield from ((it, 1) for it in range(at, at + part)) if is_cut else [(at, part)]


def named(ranges: list[tuple[int, int, str]], place: int) -> Optional[str]:
    return next((name for first, last, name in ranges if first <= place <= last), None)


# ---- the timer and the interrupt controllers


class Counter:
    """Counter 0 of the 8254 as the trace writes it: how many pulses its output needs to rise. Pulses come only in such
    numbers, so between them it has just risen, or was just written."""

    def __init__(self) -> None:
        self.begin(3, 3, False)

    def begin(self, mode: int, halves: int, is_bcd: bool) -> None:
        """What a control word leaves: no count yet."""
        self.mode, self.halves, self.is_bcd = mode, halves, is_bcd
        self.first_byte: Optional[int] = None
        self.written: Optional[int] = None  # the count written last
        self.in_use: Optional[int] = None  # the count that was loaded last

    def control(self, byte: int) -> None:
        if byte >> 6 == 0 and byte >> 4 & 3:
            mode = byte >> 1 & 7
            self.begin(mode - 4 if mode > 5 else mode, byte >> 4 & 3, bool(byte & 1))

    def count(self, byte: int) -> None:
        if self.halves == 3 and self.first_byte is None:
            self.first_byte = byte
            return
        value = byte if self.halves == 1 else byte << 8 | (self.first_byte or 0)
        self.first_byte = None
        if self.is_bcd:
            value = sum((value >> 4 * k & 15) % 10 * 10**k for k in range(4))
        self.written = value or (10_000 if self.is_bcd else 65_536)
        if self.mode in (2, 3):
            self.written = max(self.written, 2)
        else:
            self.in_use = None

    def rise(self) -> Optional[int]:
        """The pulses until the output rises, which then have been given. None where it does not rise by itself."""
        if self.written is None or self.mode in (1, 5):
            return None
        before, self.in_use = self.in_use, self.written
        if self.mode == 0:
            return self.written + 1 if before is None else None
        if self.mode == 4:
            return self.written + 2 if before is None else None
        if before is None:
            return self.written + 1
        if self.mode == 2:
            return before
        return (before + 1) // 2 + self.written // 2


class Vectors:
    """Which interrupt line has a vector, by the initialisation words that the trace writes to the two 8259A."""

    def __init__(self) -> None:
        self.base: dict[int, int] = {}
        self.is_awaited = {0: False, 8: False}

    def write(self, port: int, byte: int) -> None:
        first = 8 if port & 0x80 else 0
        if port & 1 == 0:
            self.is_awaited[first] = self.is_awaited[first] or bool(byte & 0x10)
        elif self.is_awaited[first]:
            self.base[first], self.is_awaited[first] = byte & 0xF8, False

    def line(self, vector: int) -> Optional[int]:
        return next((first + vector - base for first, base in self.base.items() if base <= vector < base + 8), None)
