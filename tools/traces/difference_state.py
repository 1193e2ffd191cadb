"""What has to be known of the accesses before a difference, so that its cause can be told: who wrote memory and
registers, and what the log tells of each device."""
import re
from dataclasses import dataclass, field
from typing import Iterable, Iterator, Optional

from causes.clock import ClockBytes
from causes.disk import DATA as DISK_DATA
from causes.disk import Disk
from causes.interrupts import CLOCK_LINE, COM1_LINE, DISK_LINE, ICW1, Interrupts
from causes.serial import Com1
from causes.timer import Timer
from shared.board_texts import WIDTHS, Entry, Writers

LOCK, LOCK_BYTE = 0x10, 0x72
MAP_REGISTERS = {"00.0": (*range(0x59, 0x69), 0x72), "01.0": (0x4E,)}
FIRST_WINDOW, FIRST_PAM, BIOS_WINDOW, END_OF_WINDOWS = 0xC0000, 0x5A, 0xF0000, 0x100000
WINDOW, READ_OPEN = 0x4000, 0x01
CONFADD, NMISC, GATE_2 = 0xCF8, 0x61, 0x01
RESET_ENABLE, HARD = 0x04, 0x02
DRAM = ("dram", "shadow", "smram")
DEVICES: list[tuple[Iterable[int], tuple[str, ...]]] = [  # ports of a device, and what answers as it is written
    ((0x20, 0x21), ("pic0", "vec0", "spur0")),
    ((0xA0, 0xA1), ("pic1", "vec1", "spur1")),
    (range(0x40, 0x44), ("pit", "pic0", "sys")),
    ((0x61,), ("sys", "pit")),
    ((0x70, 0x71), ("clock",)),
    (range(0x1F1, 0x1F8), ("ata",)),
    (range(0x3F8, 0x400), ("uart",)),
    ((0x4D0, 0x4D1), ("elcr",)),
]
TARGETS_OF_PORT = {port: targets for ports, targets in DEVICES for port in ports}


@dataclass
class Byte:
    """A byte that the other gave otherwise."""

    state: "State"
    entry: Entry
    at: int  # its place in the value, from the low byte on
    place: int  # its port or address
    given: int
    ours: int
    target: str  # up to its colon
    denial: str
    function: str = ""  # of a register in configuration space
    offset: int = 0

    @property
    def differing(self) -> int:
        return self.given ^ self.ours

    @property
    def width(self) -> int:
        """The bytes of the access."""
        return WIDTHS[self.entry.words[1]] if self.entry.words[0] in ("r", "f", "in") else 1

    @property
    def is_memory(self) -> bool:
        return self.entry.words[0] in ("r", "f")

    @property
    def is_dram(self) -> bool:
        """Whether what was given is what the DRAM has there, or what was written there last, whoever took it, and what
        was not given before. Zeros that nobody wrote tell nothing where nobody answers."""
        state, at = self.state, self.place
        if state.seen.get(at) != self.given and self.given in (state.written.get(at), state.landed.get(at)):
            return True
        return self.given == state.landed.get(at, 0) == 0 and self.target == "rom"

    def lost_by(self, denial: str) -> bool:
        """Whether what was given is what was written there last, where a register of this pattern kept it out."""
        lost = self.state.lost.get(self.place)
        return (
            self.is_memory and lost is not None and lost.value == self.given and bool(re.fullmatch(denial, lost.denial))
        )


@dataclass(frozen=True)
class Lost:
    """A byte that was written to memory, and did not come to it."""

    value: int
    denial: str
    is_read_open: bool  # the window that it came to was open for reads


@dataclass
class State:
    """What the entries of a log before a difference have done."""

    installed: int  # bytes of memory
    rom: bytes = b""
    view: str = ""  # how the other was asked, where that shows
    writers: Writers = field(default_factory=Writers)
    written: dict[int, int] = field(default_factory=dict)  # of memory, whoever took it
    landed: dict[int, int] = field(default_factory=dict)  # of memory, in the DRAM
    lost: dict[int, Lost] = field(default_factory=dict)
    seen: dict[int, int] = field(default_factory=dict)  # what the other gave before, where nobody had written
    has_mastered: bool = False  # a bus master moved words
    is_locked: bool = False
    has_windows: bool = False  # a PAM register was written
    map_written: int = 0  # the statement that wrote a register of the map last
    confadd_written: int = 0
    is_confadd_written_narrow: bool = False  # by an access that is none to it, since a doubleword was
    hard_reset: int = 0
    soft_reset: int = 0
    reset_control: int = 0
    port_written: dict[int, int] = field(default_factory=dict)  # the statement that wrote each last
    pic_set_up: int = 0  # the statement that last changed a chip's mode or mask, ELCR or a line
    disk_written: int = 0
    com1_written: int = 0
    written_wide: set[str] = field(default_factory=set)  # targets to which a wide access came, that is not split
    interrupts: Interrupts = field(default_factory=Interrupts)
    timer: Timer = field(default_factory=Timer)
    clock: ClockBytes = field(default_factory=ClockBytes)
    disk: Disk = field(default_factory=Disk)
    com1: Com1 = field(default_factory=Com1)

    def note(self, entry: Entry) -> None:
        words = entry.words
        self.writers.note(entry)
        if words[0] == "w":
            self.note_memory(entry, int(words[2], 16), WIDTHS[words[1]], int(words[3], 16))
        elif words[0] == "out":
            self.note_out(entry, int(words[2], 16), int(words[3], 16))
        elif words[0] == "in":
            self.note_in(entry, int(words[2], 16))
        elif words[0] == "irq":
            self.pic_set_up = entry.number
            self.interrupts.set_line(int(words[1]), words[2] == "1")
        elif words[0] == "ack" and re.fullmatch("(vec|spur)[01]", entry.target):
            self.interrupts.acknowledge(entry.target, int(entry.value, 16))
        elif words[0] in ("moment", "second"):
            self.interrupts.raise_line(CLOCK_LINE)
            self.clock.go_on()
        elif words[0] == "receive":
            self.com1.receive()
        elif words[0] == "pulse":
            self.timer.pulse()
        elif words[0] == "wire":
            self.interrupts.has_wires = True
        elif words[0] == "bus_master":
            self.has_mastered = True

    def note_memory(self, entry: Entry, address: int, size: int, value: int) -> None:
        for k, (place, target, denial) in enumerate(parts_of(entry)):
            byte = value >> 8 * k & 0xFF
            self.written[place] = byte
            if target.partition(":")[0] in DRAM:
                self.landed[place] = byte
                self.lost.pop(place, None)
            elif target.partition(":")[0] != "card":
                self.lost[place] = Lost(byte, denial, self.is_read_open(place))

    def note_in(self, entry: Entry, port: int) -> None:
        kind = entry.target.partition(":")[0]
        if kind == "ata" and port == DISK_DATA:
            self.disk.move(WIDTHS[entry.words[1]] // 2, is_write=False)
        elif kind == "pit":
            self.timer.read(port)
        elif kind in ("pic0", "pic1"):
            self.interrupts.chips[kind == "pic1"].read(int(entry.value, 16))
        elif kind == "clock" and port == 0x71:
            self.clock.read()
        elif kind == "uart":
            self.com1.read(port)

    def note_out(self, entry: Entry, port: int, value: int) -> None:
        kind = entry.target.partition(":")[0]
        self.port_written[port] = entry.number
        if kind == "config":
            self.note_config(entry, value)
        elif kind == "confadd":
            self.confadd_written, self.is_confadd_written_narrow = entry.number, False
        elif kind == "reset":
            self.note_reset_control(entry.number, value)
        elif kind == "abort":
            self.note_abort(port, WIDTHS[entry.words[1]])
        else:
            self.note_device(entry, kind, port, value)

    def note_abort(self, port: int, width: int) -> None:
        """Notes a write that nobody took."""
        if port & ~3 == CONFADD and width < 4:
            self.is_confadd_written_narrow = True
        if width > 1:
            self.written_wide.update(name for at in range(port, port + width) for name in TARGETS_OF_PORT.get(at, ()))

    def note_device(self, entry: Entry, kind: str, port: int, value: int) -> None:
        if kind == "clock":
            self.clock.write(port, value, entry.number)
        elif kind in ("pic0", "pic1"):
            if port & 1 or value & ICW1:
                self.pic_set_up = entry.number
            self.interrupts.write(int(kind == "pic1"), bool(port & 1), value)
        elif kind == "elcr":
            self.pic_set_up = entry.number
            self.interrupts.write_elcr(port & 1, value)
        elif kind == "pit":
            self.timer.write(port, value)
        elif kind == "sys":
            self.timer.write_gate_2(bool(value & GATE_2))
        elif kind == "ata":
            self.note_disk(entry, port, value)
        elif kind == "uart":
            self.com1_written = entry.number
            self.com1.write(port, value)
            self.interrupts.raise_line(COM1_LINE)

    def note_disk(self, entry: Entry, port: int, value: int) -> None:
        self.disk_written = entry.number
        if port == DISK_DATA:
            self.disk.move(WIDTHS[entry.words[1]] // 2, is_write=True)
        else:
            self.disk.write(port, value)
        self.interrupts.raise_line(DISK_LINE)

    def note_config(self, entry: Entry, value: int) -> None:
        function, offset, size = entry.target[7:11], int(entry.target[12:], 16), WIDTHS[entry.words[1]]
        if any(it in MAP_REGISTERS.get(function, ()) for it in range(offset, offset + size)):
            self.map_written = entry.number
        if function != "00.0":
            return
        if offset <= LOCK_BYTE < offset + size and value >> 8 * (LOCK_BYTE - offset) & LOCK:
            self.is_locked = True
        self.has_windows = self.has_windows or offset + size > 0x59 and offset < 0x60

    def note_reset_control(self, number: int, value: int) -> None:
        before, self.reset_control = self.reset_control, value
        if value & RESET_ENABLE and not before & RESET_ENABLE:
            if value & HARD:
                self.note_hard_reset(number)
            else:
                self.soft_reset = number

    def note_hard_reset(self, number: int) -> None:
        self.hard_reset, self.soft_reset, self.reset_control = number, 0, 0
        self.is_locked, self.confadd_written, self.is_confadd_written_narrow = False, 0, False
        self.written_wide.clear()
        self.clock.index = 0
        levels = self.interrupts.levels
        self.interrupts = Interrupts(levels=levels, rose=levels, has_wires=self.interrupts.has_wires)
        self.timer, self.com1 = Timer(), Com1()
        self.pic_set_up = self.disk_written = self.com1_written = 0
        self.disk = Disk(written=self.disk.written, sectors=self.disk.sectors)

    # ---- what a row asks

    @property
    def clock_index(self) -> int:
        return self.clock.index

    def is_as_reset(self, byte: Byte) -> bool:
        """Whether a hard reset wrote this register last."""
        if self.writers.reset is None:
            return False
        return byte.offset not in self.writers.last.get(byte.function, {})

    def written_register(self, function: str, offset: int) -> Optional[Entry]:
        """The last write of a register of configuration space."""
        return self.writers.last.get(function, {}).get(offset)

    def written_byte(self, function: str, offset: int) -> Optional[int]:
        """What was written to a register of configuration space last."""
        entry = self.written_register(function, offset)
        if entry is None:
            return None
        return int(entry.words[3], 16) >> 8 * (offset - int(entry.target[12:], 16)) & 0xFF

    def is_read_open(self, address: int) -> bool:
        """Whether the shadow window there was opened for reads."""
        if not FIRST_WINDOW <= address < END_OF_WINDOWS:
            return False
        window = (address - FIRST_WINDOW) // WINDOW
        offset, shift = (0x59, 4) if address >= BIOS_WINDOW else (FIRST_PAM + window // 2, 4 * (window % 2))
        return bool((self.written_byte("00.0", offset) or 0) >> shift & READ_OPEN)

    @property
    def is_confadd_as_reset(self) -> bool:
        return self.writers.reset is not None and not self.confadd_written


def parts_of(entry: Entry) -> Iterator[tuple[int, str, str]]:
    """Of each byte of an access its place, and the target and the denial of its part."""
    words = entry.words
    if words[0] not in ("r", "f", "in", "w"):
        yield 0, entry.target, entry.replies[0][1]
        return
    place, size = int(words[2], 16), WIDTHS[words[1]]
    if len(entry.replies) == 1:
        yield from ((place + k, *entry.replies[0]) for k in range(size))
        return
    at, end, replies = place, place + size, iter(entry.replies)
    while at < end:
        part = next(it for it in (4, 2, 1) if at % it == 0 and at + it <= end)
        reply = next(replies)
        yield from ((at + k, *reply) for k in range(part))
        at += part


def differing(state: State, entry: Entry, given: str) -> list[Byte]:
    """The bytes of an entry that the other gave otherwise."""
    found = []
    theirs, ours = bytes.fromhex(given)[::-1], bytes.fromhex(entry.value)[::-1]
    for at, (place, target, denial) in enumerate(parts_of(entry)):
        if theirs[at] == ours[at]:
            continue
        if entry.words[0] in ("r", "f") and place not in state.written:
            state.seen.setdefault(place, theirs[at])
        kind, _, rest = target.partition(":")
        byte = Byte(state, entry, at, place, theirs[at], ours[at], kind, denial)
        if kind == "config":
            byte.function, byte.offset = rest[:4], int(rest[5:], 16) + at
        elif entry.words[1:] and entry.words[-1] == "01F0":
            byte.place = DISK_DATA
        found.append(byte)
    return found
