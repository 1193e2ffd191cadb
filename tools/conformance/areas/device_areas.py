"""Areas of the disk, COM1, the reset control port, and all ports."""
import random

from ..case_words import cmos, get, ide, outb, pic, put
from .words import WIDTH_LETTERS, Steps, hexed, put_byte, requests, several

WORDS_OF_A_SECTOR = 256
OTHER_STATUS, STATUS = "in b 03F6", "in b 01F7"
COMMANDS = (0x20, 0x20, 0x20, 0x30, 0x30, 0x40, 0x90, 0x91, 0xE7, 0xEF)
OTHER_COMMANDS = (0xA1, 0x00, 0x10, 0x21, 0x31, 0x70, 0xC4, 0xC6, 0xE1, 0xE5, 0xF8)
MOVES, WORDS = (0x20, 0x21, 0x30, 0x31), (1, 4, 256, 256, 257, 512)
SECTORS = (0, 1, 2, 3, 63, 64, 2015, 2016, 100000)
FCR, LCR, MCR = (0, 1, 3, 5, 7, 0xC1, 0x81, 0x41), (3, 3, 0x83, 0x1B, 0x43), (0x18, 0x18, 8, 0x1F, 0x13)
COM1_READS = (0x3F8, 0x3F8, 0x3F9, 0x3FA, 0x3FA, 0x3FB, 0x3FC, 0x3FD, 0x3FD, 0x3FE)
RESETS = ((2, 6), (6,), (4,), (0, 4))
LOW_PORTS = (0x20, 0x21, 0x40, 0x42, 0x61, 0x70, 0x80, 0xA0)
PORTS = (*LOW_PORTS, 0x1F0, 0x1F2, 0x1F4, 0x3F6, 0x4D0, 0xCF8, 0xCFC, 0x3F8, 0x3FC, 0xB2, 0xE0)
NOT_WRITTEN = (0xCF8, 0xCF9, 0x92, 0x64, 0x60, 0xB2, 0x402, 0x510, 0x514, 0x604)  # a monitor may end, or reset


def address(rng: random.Random) -> list[str]:
    """The address of a sector, of both forms."""
    lba = rng.choice((*SECTORS, rng.randrange(64)))
    if rng.random() < 0.25:
        cylinder = rng.choice((0, 0, 1))
        sector = outb(0x1F3, rng.choice((1, 2, 63, 0)))
        return sector + outb(0x1F4, cylinder) + outb(0x1F5, 0) + outb(0x1F6, 0xA0 | rng.choice((0, 0, 1, 15)))
    drive = rng.choice((0,) * 9 + (0x10,))
    return outb(0x1F3, lba & 0xFF) + outb(0x1F4, lba >> 8 & 0xFF) + outb(0x1F5, lba >> 16) + outb(0x1F6, 0xE0 | drive)


class Disk:
    """Doings with the disk by PIO."""

    def __init__(self, rng: random.Random) -> None:
        self.rng = rng

    def written(self, count: int) -> list[str]:
        return [f"out w 01F0 {self.rng.getrandbits(16):04X}" for _ in range(count)]

    def command(self) -> Steps:
        rng = self.rng
        code = rng.choice(COMMANDS if rng.random() < 0.8 else OTHER_COMMANDS)
        set_up = outb(0x1F1, rng.choice((0, 2, 3, 0x82, 0xAA, 0x55))) + outb(0x1F2, rng.choice((1, 1, 2, 3, 0x3F)))
        steps = [[*set_up, *address(rng), *outb(0x1F7, code)], [OTHER_STATUS], [STATUS]]
        if code in MOVES and rng.random() < 0.85:
            count = rng.choice(WORDS)
            steps += [["in w 01F0"] * count if code < 0x30 else self.written(count), [OTHER_STATUS], [STATUS]]
        return steps

    def look(self) -> Steps:
        return [[f"in b {0x1F1 + self.rng.randrange(7):04X}"] for _ in range(3)]

    def word(self) -> Steps:
        return [["in w 01F0"]]

    def channel(self) -> Steps:
        timing, command = self.rng.choice(("0000", "8000")), self.rng.choice(("0000", "0005"))
        return [put("01.1.40", timing), put("01.1.04", command), [STATUS], ide()]

    def kept(self) -> Steps:
        """A sector that is written and read again."""
        at = self.rng.randrange(4)
        where = [*outb(0x1F2, 1), *outb(0x1F3, at), *outb(0x1F4, 0), *outb(0x1F5, 0), *outb(0x1F6, 0xE0)]
        words = self.written(WORDS_OF_A_SECTOR)
        return [[*where, *outb(0x1F7, 0x30), *words], [*where, *outb(0x1F7, 0x20), *["in w 01F0"] * WORDS_OF_A_SECTOR]]

    def quiet(self) -> Steps:
        """A command without its interrupt, or with it."""
        device_control, code = self.rng.choice((0, 2, 2)), self.rng.choice((0x90, 0xE7))
        return [[*outb(0x3F6, device_control), STATUS, *outb(0x1F7, code)], requests(1)]

    def software_reset(self) -> Steps:
        return [["out b 03F6 04", STATUS, f"out b 03F6 {self.rng.choice((0, 2)):02X}"]]


def disk(rng: random.Random) -> Steps:
    """The disk by PIO: every register, commands in and out of turn, errors, resets, interrupts."""
    it = Disk(rng)
    doings = [
        (8, it.command),
        (6, it.look),
        (1, it.channel),
        (0.3, it.kept),
        (1, it.quiet),
        (1, it.software_reset),
        (1, it.word),
        (2, lambda: [requests(1)]),
    ]
    return [[*ide(), *pic()], *several(rng, 6, 14, doings)]


def serial(rng: random.Random) -> Steps:
    """COM1 in loopback and out of it: FIFOs, the divisor latch, interrupts, bytes received, and line 4."""

    def control() -> Steps:
        port, values = rng.choice(
            ((0x3FA, FCR), (0x3FB, (*LCR, rng.getrandbits(8))), (0x3FC, (*MCR, rng.getrandbits(5))), (0x3F9, range(16)))
        )
        return [outb(port, rng.choice(values))]

    def sent() -> Steps:
        return [outb(0x3F8, rng.getrandbits(8)) for _ in range(rng.choice((1, 1, 2, 17)))]

    def scratch() -> Steps:
        return [outb(0x3FF, rng.getrandbits(8)), ["in b 03FF"]]

    def look() -> Steps:
        return [[f"in b {rng.choice(COM1_READS):04X}"]]

    def received() -> Steps:
        return [[f"receive {rng.getrandbits(8):02X}"]]

    doings = [(4, control), (2, sent), (1, scratch), (7, look), (1, received), (1, lambda: [requests(0)])]
    return [[*pic(), *outb(0x3FC, 8), *outb(0x3FB, 3), *outb(0x3FF, 0)], *several(rng, 10, 26, doings)]


# State of each device, and where it is seen.
HOST_BYTES = ((0x5A, 0x33), (0x5D, 0x33), (0x64, 4), (0x68, 0x80), (0x72, 0x4A))
WRITTEN: Steps = [
    *(put_byte(f"00.0.{at:02X}", value) for at, value in HOST_BYTES),
    put_byte("01.0.4E", 0xC7),
    put_byte("01.0.60", 0x0B),
    put_byte("01.1.04", 5),
    put_byte("01.1.41", 0x80),
    outb(0x4D0, 0xF8),
    outb(0x4D1, 0xDE),
    [*pic(), *outb(0x21, 0x55)],
    outb(0x61, 3),
    cmos("0B", "72"),
    cmos("40", "5A"),
    ["w d 00001000 12345678"],
    [*outb(0x3FB, 3), *outb(0x3FF, 0x77)],
    ["irq 5 1"],
]
LOOKS: Steps = [
    ["in b 0CF9"],
    ["in d 0CF8"],
    ["in b 04D0"],
    ["in b 04D1"],
    ["in b 0021"],
    ["in b 0061"],
    cmos("0B"),
    cmos("40"),
    ["r d 00001000"],
    ["in b 03FB"],
    ["in b 03FC"],
    requests(0),
    *(get(f"00.0.{at:02X}") for at, _ in HOST_BYTES),
    get("01.0.4E"),
    get("01.0.60"),
    get("01.1.04"),
    get("01.1.41"),
]


def resets(rng: random.Random) -> Steps:
    """State everywhere, a reset by port 0CF9h, and what is left of it."""
    first = rng.sample(WRITTEN, rng.randint(4, 8))
    return [[], *first, outb(0xCF9, *rng.choice(RESETS)), *rng.sample(LOOKS, 14)]


def ports(rng: random.Random) -> Steps:
    """Ports of each device in every width, and ports of nobody."""

    def access() -> Steps:
        size = rng.choice((1, 2, 4))
        port = rng.choice((rng.choice(PORTS), rng.choice(PORTS), rng.getrandbits(16)))
        port -= port % size
        read = [f"in {WIDTH_LETTERS[size]} {port:04X}"]
        if rng.random() < 0.75 or any(it in NOT_WRITTEN for it in range(port, port + size)):
            return [read]
        return [[f"out {WIDTH_LETTERS[size]} {port:04X} {hexed(size, rng.getrandbits(32))}"], read]

    return [ide(), *several(rng, 6, 16, [(1, access)])]
