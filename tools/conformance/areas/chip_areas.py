"""Areas of the two 8259A, the 8254 and the clock."""
import random

from ..case_words import cmos, date, outb, pic, put
from .words import EVEN_PORTS, READ_REQUESTS, READ_SERVICE, Steps, requests, several

LINES = (1, 3, 4, 5, 6, 7, 9, 10, 11, 12, 15)
ICW4, MODES = ("01", "01", "01", "03", "11", "1D"), (0, 2, 3, 0, 2, 3, 1, 4, 5)
SPECIAL_MASKS, POLL = (0x68, 0x68, 0x48), 0x0C
WITH_LEVEL, COMMANDS = (0x60, 0xE0, 0xC0), (0x20,) * 5 + (0x60,) * 3 + (0xA0, 0xA0, 0xE0, 0xC0, 0x80, 0x00, 0x40)
ELCR_BITS = (0xF8, 0xDE)
PIRQRC, ROUTE_OFF, CARD_AT = 0x60, 0x80, 3
COUNTS = (0, 1, 2, 3, 5, 0x100)
LATCH, STATUS = 0x00, 0xE0
DECIMAL = 0.1
FORMS = ("02", "06", "00", "04")  # of register B: 24 hours and binary
ALARM_FIELDS, ANY_TIME = ("01", "03", "05"), ("C0", "FF")


class Interrupts:
    """Doings with the two 8259A. It remembers the levels of their lines."""

    def __init__(self, rng: random.Random) -> None:
        self.rng, self.levels = rng, dict.fromkeys(range(16), 0)

    def line(self) -> Steps:
        number = self.rng.choice(LINES)
        self.levels[number] ^= 1
        return [[f"irq {number} {self.levels[number]}"]]

    def acknowledged(self) -> Steps:
        return [["ack"]]

    def command(self) -> Steps:
        word = self.rng.choice(COMMANDS)
        return [outb(self.rng.choice(EVEN_PORTS), word | self.rng.randrange(8) if word in WITH_LEVEL else word)]

    def mask(self) -> Steps:
        port = self.rng.choice(EVEN_PORTS) + 1
        return [outb(port, self.rng.choice((0, 0, self.rng.getrandbits(8)))), [f"in b {port:04X}"]]

    def special_mask(self) -> Steps:
        port = self.rng.choice(EVEN_PORTS)
        return [[*outb(port + 1, 1 << self.rng.randrange(8)), *outb(port, self.rng.choice(SPECIAL_MASKS))]]

    def poll(self) -> Steps:
        port = self.rng.choice(EVEN_PORTS)
        return [[*outb(port, POLL), f"in b {port + self.rng.randrange(2):04X}"]]

    def again(self) -> Steps:
        chip = self.rng.randrange(2)
        port = EVEN_PORTS[chip]
        return [outb(port, 0x11) + outb(port + 1, self.rng.randrange(32) << 3, (4, 2)[chip], 1)]

    def sense(self) -> Steps:
        chip = self.rng.randrange(2)
        return [outb(0x4D0 + chip, self.rng.getrandbits(8)), [f"in b {0x4D0 + chip:04X}"]]

    def look(self) -> Steps:
        return [requests(self.rng.randrange(2), self.rng.choice((READ_REQUESTS, READ_SERVICE)))]


def interrupts(rng: random.Random) -> Steps:
    """Initializations, priorities, special modes, polls, ELCR, lines and acknowledges."""
    it = Interrupts(rng)
    elcr = [
        statement
        for chip, bits in enumerate(ELCR_BITS)
        for statement in outb(0x4D0 + chip, rng.choice((0, 0, rng.getrandbits(8) & bits)))
    ]
    doings = [
        (6, it.line),
        (4, it.acknowledged),
        (3, it.command),
        (1, it.mask),
        (1.5, it.special_mask),
        (1, it.poll),
        (0.3, it.again),
        (0.3, it.sense),
        (4, it.look),
    ]
    return [[*elcr, *pic(rng.choice(ICW4))], *several(rng, 12, 40, doings)]


def routes(rng: random.Random) -> Steps:
    """A card's request by PIRQRC, its line by ELCR, and what the 8259A make of it."""

    def route() -> Steps:
        value = rng.choice((*LINES, rng.randrange(16))) | rng.choice((0, 0, ROUTE_OFF))
        return [put(f"01.0.{PIRQRC + rng.randrange(4):02X}", f"{value:02X}")]

    def sense() -> Steps:
        chip = rng.randrange(2)
        return [outb(0x4D0 + chip, ELCR_BITS[chip] & rng.choice((0, 0xFF)))]

    def wire() -> Steps:
        return [[f"wire {CARD_AT} {rng.randrange(2)}"]]

    def ended() -> Steps:
        return [["ack"], [*outb(0xA0, 0x20), *outb(0x20, 0x20)]]

    def look() -> Steps:
        return [requests(rng.randrange(2), rng.choice((READ_REQUESTS, READ_REQUESTS, READ_SERVICE)))]

    all_routed = [it for at in range(4) for it in put(f"01.0.{PIRQRC + at:02X}", f"{rng.choice(LINES):02X}")]
    return [[*pic(), *all_routed], *several(rng, 8, 24, [(3, route), (1, sense), (5, wire), (1, ended), (6, look)])]


def timer(rng: random.Random) -> Steps:
    """A counter: modes, counts, latches, read-back, the gate of counter 2, and line 0."""
    number = rng.randrange(3)
    access = [3]  # which bytes of the count are read and written

    def set_up() -> list[str]:
        access[0] = rng.choice((1, 2, 3, 3, 3))
        count = rng.choice((rng.randrange(2, 20), rng.randrange(0x10000), *COUNTS))
        half = {1: [count & 0xFF], 2: [count >> 8], 3: [count & 0xFF, count >> 8]}[access[0]]
        word = number << 6 | access[0] << 4 | rng.choice(MODES) << 1 | (rng.random() < DECIMAL)
        return [*outb(0x43, word), *outb(0x40 + number, *half), "pulse 1"]

    def reads() -> list[str]:
        return [f"in b {0x40 + number:04X}"] * (2 if access[0] == 3 else 1)

    def pulses() -> Steps:
        return [[f"pulse {rng.choice((1, 1, 2, 3, rng.randrange(1, 20), rng.randrange(1, 70000)))}"]]

    def read() -> Steps:
        return rng.choice(
            ([outb(0x43, number << 6 | LATCH) + reads()], [outb(0x43, STATUS | 2 << number) + reads()[:1]], [reads()])
        )

    def held() -> Steps:
        return [outb(0x43, number << 6 | LATCH), *pulses(), reads()]

    def beside() -> Steps:
        if number == 2:
            return [outb(0x61, rng.randrange(4)), ["in b 0061"]]
        return [requests(0)] if number == 0 else read()

    prologue = pic() if number == 0 else outb(0x61, 1) if number == 2 else []
    first = set_up()
    return [
        prologue + first,
        *several(rng, 6, 16, [(2, lambda: [set_up()]), (5, pulses), (5, read), (1, held), (2, beside)]),
    ]


def shown(value: int, form: str) -> str:
    """A field of the clock in a form of register B."""
    return f"{value:02X}" if form in ("06", "04") else f"{value // 10 * 16 + value % 10:02X}"


def hour_shown(hour: int, form: str) -> str:
    if form in ("02", "06"):
        return shown(hour, form)
    return f"{int(shown((hour + 11) % 12 + 1, form), 16) | (0x80 if hour > 11 else 0):02X}"


class Clock:
    """Doings with the clock. It remembers the form that register B has."""

    def __init__(self, rng: random.Random) -> None:
        self.rng, self.form = rng, rng.choice(FORMS)

    def field(self, first: int, last: int, *others: int) -> str:
        return shown(self.rng.choice((*others, self.rng.randint(first, last))), self.form)

    def date(self) -> list[str]:
        rng, field = self.rng, self.field
        self.form = rng.choice(FORMS)
        hour = hour_shown(rng.choice((0, 11, 12, 13, 23, rng.randrange(24))), self.form)
        enables = rng.choice((0, 0, 0x10, 0x20, 0x30))
        fields = (field(0, 59, 58, 59), field(0, 59, 59), hour, "01", field(1, 28), field(1, 12), field(0, 99))
        return date(self.form, *fields) + cmos("0B", f"{int(self.form, 16) | enables:02X}")

    def set_again(self) -> Steps:
        return [self.date()]

    def alarm(self) -> Steps:
        rng = self.rng
        values = (self.field(0, 59), self.field(0, 59), hour_shown(rng.randrange(24), self.form))
        return [[it for at, value in zip(ALARM_FIELDS, values) for it in cmos(at, rng.choice((*ANY_TIME, value)))]]

    def seconds(self) -> Steps:
        return [["second"] * self.rng.choice((1, 1, 1, 2, 3, 60)), *(cmos(at) for at in ("00", "02", "04"))]

    def flags(self) -> Steps:
        return [cmos("0C")]

    def registers(self) -> Steps:
        rng = self.rng
        at = rng.choice(("0A", "0B", "0D"))
        value = {"0A": rng.choice((0x26, 0x20, 0x06, 0x2F)), "0D": rng.getrandbits(8)}.get(at)
        value = int(self.form, 16) | rng.choice((0, 0x10, 0x20, 0x40, 0x80)) if value is None else value
        return [cmos(at, f"{value:02X}"), cmos(at)]

    def memory(self) -> Steps:
        at = f"{self.rng.randrange(0x0E, 0x32):02X}"
        return [cmos(at, f"{self.rng.getrandbits(8):02X}"), cmos(at)]


def clock(rng: random.Random) -> Steps:
    """Forms, seconds that pass, alarms, SET, flags, and the clock's memory."""
    it = Clock(rng)
    doings = [
        (4, it.set_again),
        (3, it.alarm),
        (5, it.seconds),
        (3, it.flags),
        (2, it.registers),
        (2, it.memory),
        (1, lambda: [requests(1)]),
    ]
    still = outb(0x43, 0x30) + outb(0x40, 0xFF, 0xFF)  # line 0 stays as it is
    first = [*still, *it.date(), *cmos("0C")]
    return [first, *several(rng, 6, 14, doings), *(cmos(at) for at in ("00", "02", "04", "07", "08", "09"))]
