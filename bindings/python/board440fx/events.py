"""Events: what is asked of a board."""
import datetime
from dataclasses import dataclass
from typing import Callable, Literal

from . import grammar
from .errors import NoEvent
from .grammar import WIDTHS
from .records import EventRecord, KindNumber, What

Kind = Literal["f", "r", "w"]

KINDS = {letter: KindNumber(number) for letter, number in grammar.KINDS.items()}
LETTERS = {number: letter for letter, number in KINDS.items()}
WIDTH_LETTERS = {width: letter for letter, width in WIDTHS.items()}

_FIELDS = {"value": 64, "addr": 32, "bytes": 8}  # and how many bits a record has for each
LAST_PORT = 0xFFFF


@dataclass(frozen=True)
class Event:
    """What is asked of a board, or happens to it from outside. Its text is the statement of a script."""

    what: What
    kind: KindNumber | None = None
    addr: int = 0
    bytes: int = 0
    smm: bool = False
    value: int = 0

    @staticmethod
    def fetch(addr: int, bytes: int = 1, *, smm: bool = False) -> "Event":
        return Event(What.MEMORY, KindNumber.FETCH, addr, bytes, smm)

    @staticmethod
    def read(addr: int, bytes: int = 1, *, smm: bool = False) -> "Event":
        return Event(What.MEMORY, KindNumber.READ, addr, bytes, smm)

    @staticmethod
    def write(addr: int, bytes: int, value: int, *, smm: bool = False) -> "Event":
        return Event(What.MEMORY, KindNumber.WRITE, addr, bytes, smm, value)

    @staticmethod
    def in_(port: int, bytes: int = 1) -> "Event":
        return Event(What.PORT, KindNumber.READ, port, bytes)

    @staticmethod
    def out(port: int, bytes: int, value: int) -> "Event":
        return Event(What.PORT, KindNumber.WRITE, port, bytes, value=value)

    @staticmethod
    def look(kind: str, addr: int, *, smm: bool = False) -> "Event":
        if kind not in KINDS:
            raise NoEvent(f"a look of kind {kind!r}", "a kind is f, r or w")
        return Event(What.LOOK, KINDS[kind], addr, smm=smm)

    @staticmethod
    def acknowledge() -> "Event":
        return Event(What.ACK)

    @staticmethod
    def pulse(count: int) -> "Event":
        return Event(What.PULSE, value=count)

    @staticmethod
    def time(moment: datetime.datetime) -> "Event":
        day, clock = moment.date(), moment.time()
        fields = (day.year, day.month, day.day, clock.hour, clock.minute, clock.second)
        return Event(What.TIME, value=int("".join(f"{field:02}" for field in fields)))

    @staticmethod
    def wire(device: int, level: bool) -> "Event":
        return Event(What.WIRE, addr=device, value=int(level))

    @staticmethod
    def irq(line: int, level: bool) -> "Event":
        return Event(What.IRQ, addr=line, value=int(level))

    @staticmethod
    def bad_sector(sector: int) -> "Event":
        return Event(What.BAD_SECTOR, addr=sector)

    @staticmethod
    def receive(byte: int) -> "Event":
        return Event(What.SERIAL, value=byte)

    @staticmethod
    def parse(statement: str) -> "Event":
        """Of a statement of a script, without its processor: NoEvent says why it is none."""
        return _parsed(statement)

    def record(self) -> EventRecord:
        """As board.h has it. What does not fit there is refused, since ctypes would cut it."""
        for name, bits in _FIELDS.items():
            if not 0 <= getattr(self, name) < 1 << bits:
                raise NoEvent(self, f"{name} {getattr(self, name)} does not fit {bits} bits")
        return EventRecord(self.value, self.addr, self.what, self.kind or 0, self.bytes, self.smm, 0)

    def digits(self) -> int:
        """How many digits a value has that it reads."""
        return 2 * (self.bytes or 1)

    def __str__(self) -> str:
        return _TEXTS[self.what](self)

    def __repr__(self) -> str:
        return f"<{self}>"


def _width(event: Event) -> str:
    return WIDTH_LETTERS.get(event.bytes, str(event.bytes))


def _written(event: Event) -> str:
    return f" {event.value:0{event.digits()}X}" if event.kind == KindNumber.WRITE else ""


def _mode(event: Event) -> str:
    return " smm" if event.smm else ""


def _letter(event: Event) -> str:
    return LETTERS[event.kind] if event.kind else "?"


def _memory_text(event: Event) -> str:
    return f"{_letter(event)} {_width(event)} {event.addr:08X}{_written(event)}{_mode(event)}"


def _port_text(event: Event) -> str:
    return f"{'out' if event.kind == KindNumber.WRITE else 'in'} {_width(event)} {event.addr:04X}{_written(event)}"


def _moment_text(event: Event) -> str:
    digits = f"{event.value:014}"
    return f"moment {digits[:-10]}-{digits[-10:-8]}-{digits[-8:-6]}T{digits[-6:-4]}:{digits[-4:-2]}:{digits[-2:]}"


# That COM1 receives a byte is no statement of a script.
_TEXTS: dict[What, Callable[[Event], str]] = {
    What.MEMORY: _memory_text,
    What.PORT: _port_text,
    What.LOOK: lambda event: f"look {_letter(event)} {event.addr:08X}{_mode(event)}",
    What.ACK: lambda event: "ack",
    What.PULSE: lambda event: f"pulse {event.value}",
    What.TIME: _moment_text,
    What.WIRE: lambda event: f"wire {event.addr} {event.value}",
    What.IRQ: lambda event: f"irq {event.addr} {event.value}",
    What.BAD_SECTOR: lambda event: f"bad {event.addr}",
    What.SERIAL: lambda event: f"receive {event.value:02X}",
}


# ---- the statements of scripts


# Each by its first word, of what its fields say.
_MAKERS: dict[str, Callable[..., Event]] = {
    "f": Event.fetch,
    "r": Event.read,
    "w": Event.write,
    "in": Event.in_,
    "out": Event.out,
    "look": lambda kind, addr, smm: Event(What.LOOK, KindNumber(kind), addr, smm=smm),
    "ack": Event.acknowledge,
    "pulse": Event.pulse,
    "moment": lambda digits: Event(What.TIME, value=digits),
    "wire": lambda device, level: Event(What.WIRE, addr=device, value=level),
    "irq": lambda line, level: Event(What.IRQ, addr=line, value=level),
    "bad": Event.bad_sector,
    "receive": Event.receive,
}
_PLACE_FIRST = ("f", "r", "w", "in", "out")  # where a script has the width first


def _parsed(statement: str) -> Event:
    """The event of a statement, or why it is none."""
    word, *fields = statement.split(" ")
    form = grammar.FORMS.get(word, grammar.RECEIVE)
    if word not in _MAKERS:
        raise NoEvent(repr(statement), f"a statement begins with {', '.join(_MAKERS)}, not {word!r}")
    why = grammar.wrong_fields(word, fields, form=form)
    if why:
        raise NoEvent(repr(statement), why)
    numbers = grammar.numbers_of(form, fields)
    if grammar.LEVEL in form.fields and numbers[-1] > 1:
        raise NoEvent(repr(statement), f"the level is 0 or 1, not {numbers[-1]}")
    if word in _PLACE_FIRST:
        numbers[:2] = reversed(numbers[:2])
    return _MAKERS[word](*numbers, **({"smm": grammar.has_smm(form, fields)} if form.is_smm else {}))


# ---- why the board takes none


def _memory_why(event: Event) -> str:
    if event.bytes not in WIDTHS.values():
        return f"an access to memory has 1, 2, 4 or 8 bytes, not {event.bytes}"
    return "a value of more than 32 bits does not fit 4 bytes"


def _port_why(event: Event) -> str:
    if event.kind == KindNumber.FETCH:
        return "no code is fetched from ports"
    if event.bytes not in (1, 2, 4):
        return f"an access to a port has 1, 2 or 4 bytes, not {event.bytes}"
    if event.addr > LAST_PORT:
        return f"the last port is FFFF, not {event.addr:X}"
    return "a value of more than 32 bits does not fit a port"


_WHY: dict[What, Callable[[Event], str]] = {
    What.MEMORY: _memory_why,
    What.PORT: _port_why,
    What.LOOK: lambda event: "the kind is none of f, r and w",
    What.TIME: lambda event: "the calendar from 1980 to 2099 has no such moment",
    What.WIRE: lambda event: f"a device is 2 to 9, and a level 0 or 1, not {event.addr} and {event.value}",
    What.IRQ: lambda event: f"a line is 0 to 15, and a level 0 or 1, not {event.addr} and {event.value}",
    What.SERIAL: lambda event: f"a byte is 0 to 255, not {event.value}",
}


def why_none(event: Event) -> str | None:
    """Why a board says that an event is none."""
    return _WHY[event.what](event) if event.what in _WHY else None
