"""Replies: what answered, what denied it, and what stands after the step."""
from dataclasses import asdict, dataclass, replace
from enum import IntEnum
from typing import NamedTuple

from .errors import NoReply
from .events import Event
from .records import DenialNumber, DeviceNumber, Form, PartRecord, ReplyRecord, TargetNumber

# The registers of the 82441FX and the 82371SB by name, and those that each function has by PCI Local Bus 2.1, section
# 6.2: function, or none, first offset, last offset.
# made by tools/make-names: names
REGISTERS: list[tuple[str, tuple[int, int] | None, int, int]] = [
    ("PAM0", (0, 0), 0x59, 0x59),
    ("PAM1", (0, 0), 0x5A, 0x5A),
    ("PAM2", (0, 0), 0x5B, 0x5B),
    ("PAM3", (0, 0), 0x5C, 0x5C),
    ("PAM4", (0, 0), 0x5D, 0x5D),
    ("PAM5", (0, 0), 0x5E, 0x5E),
    ("PAM6", (0, 0), 0x5F, 0x5F),
    ("DRB0", (0, 0), 0x60, 0x60),
    ("DRB1", (0, 0), 0x61, 0x61),
    ("DRB2", (0, 0), 0x62, 0x62),
    ("DRB3", (0, 0), 0x63, 0x63),
    ("DRB4", (0, 0), 0x64, 0x64),
    ("DRB5", (0, 0), 0x65, 0x65),
    ("DRB6", (0, 0), 0x66, 0x66),
    ("DRB7", (0, 0), 0x67, 0x67),
    ("FDHC", (0, 0), 0x68, 0x68),
    ("SMRAM", (0, 0), 0x72, 0x72),
    ("XBCS", (1, 0), 0x4E, 0x4F),
    ("PIRQRCA", (1, 0), 0x60, 0x60),
    ("PIRQRCB", (1, 0), 0x61, 0x61),
    ("PIRQRCC", (1, 0), 0x62, 0x62),
    ("PIRQRCD", (1, 0), 0x63, 0x63),
    ("IDETIM", (1, 1), 0x40, 0x41),
    ("command", None, 0x04, 0x05),
    ("expansion ROM base", None, 0x30, 0x33),
]
DEVICES = {
    DeviceNumber.CONFADD: "confadd",
    DeviceNumber.RESET_CONTROL: "reset",
    DeviceNumber.PIC0: "pic0",
    DeviceNumber.PIC1: "pic1",
    DeviceNumber.PIT: "pit",
    DeviceNumber.SYSTEM: "sys",
    DeviceNumber.KEYBOARD: "kbd",
    DeviceNumber.CLOCK: "clock",
    DeviceNumber.ELCR: "elcr",
    DeviceNumber.ATA: "ata",
    DeviceNumber.WIRES: "wires",
    DeviceNumber.VECTOR0: "vec0",
    DeviceNumber.VECTOR1: "vec1",
    DeviceNumber.SPURIOUS0: "spur0",
    DeviceNumber.SPURIOUS1: "spur1",
    DeviceNumber.UART: "uart",
}
TARGETS: dict[int, str] = {
    TargetNumber.DRAM: "dram:{unit}",
    TargetNumber.SHADOW: "shadow:{unit}",
    TargetNumber.SMRAM: "smram",
    TargetNumber.ROM: "rom:{offset:05X}",
    TargetNumber.CARD: "card:{unit}.{base}:{offset:08X}",
    TargetNumber.CONFIG: "config:{unit:02X}.{base}.{offset:02X}",
    TargetNumber.ABORT: "abort",
}
# end of what is made


class Reset(IntEnum):
    """A reset that a step made: none, of the processor alone, or of the board too."""

    NONE = 0
    SOFT = 1
    HARD = 2


class Register(NamedTuple):
    """A register of configuration space. Its text is that of a log, `00.0.59`."""

    device: int
    function: int
    offset: int

    @property
    def name(self) -> str | None:
        """Its name in the datasheet, where the map, the ports or the lines depend on it."""
        for name, function, first, last in REGISTERS:
            if function in (None, (self.device, self.function)) and first <= self.offset <= last:
                return name
        return None

    def __str__(self) -> str:
        return f"{self.device:02X}.{self.function}.{self.offset:02X}"


class Denial(str):
    """What kept an access out, as in a log: a register, `confadd` or `none`."""

    register: Register | None

    def __new__(cls, text: str, register: Register | None = None) -> "Denial":
        denial = super().__new__(cls, text)
        denial.register = register
        return denial

    @property
    def name(self) -> str | None:
        """The name of the register."""
        return self.register.name if self.register else None

    @property
    def in_words(self) -> str:
        """With the name of the register."""
        return f"{self} ({self.name})" if self.name else str(self)


class Target(str):
    """What answered, as in a log, with its fields beside it."""

    number: TargetNumber
    unit: int
    base: int
    offset: int

    def __new__(cls, text: str, number: TargetNumber, unit: int = 0, base: int = 0, offset: int = 0) -> "Target":
        target = super().__new__(cls, text)
        target.number, target.unit, target.base, target.offset = number, unit, base, offset
        return target


class Part(NamedTuple):
    """What answered an access, or one part of a wide one, and what denied it."""

    target: Target
    denied_by: Denial | None

    def __str__(self) -> str:
        return f"{self.target} {self.denied_by or '-'}"


@dataclass(frozen=True)
class Look:
    """What a look tells: the version of the map, and the longest interval in which such an access has this area."""

    version: int
    lo: int
    hi: int
    area: str

    def __str__(self) -> str:
        return f"{self.version} {self.lo:08X} {self.hi:08X} {self.area}"


# Of an area, which has no offset.
_AREAS = {number: text.partition(":{offset")[0] for number, text in TARGETS.items() if number != TargetNumber.CONFIG}


def area_text(number: int, unit: int, base: int) -> str:
    """An area as in a map."""
    if number not in _AREAS:
        raise NoReply(number)
    return _AREAS[number].format(unit=unit, base=base)


def _target_text(part: PartRecord) -> str:
    if part.target == TargetNumber.IS_DEVICE:
        return DEVICES[DeviceNumber(part.unit)]
    if part.target not in TARGETS:
        raise NoReply(part.target)
    return TARGETS[part.target].format(unit=part.unit, base=part.base, offset=part.offset)


def _denial(part: PartRecord) -> Denial | None:
    match part.denial:
        case DenialNumber.NOT_DENIED:
            return None
        case DenialNumber.BY_REGISTER:
            register = Register(part.denial_dev, part.denial_fun, part.denial_off)
            return Denial(str(register), register)
        case DenialNumber.BY_CONFADD:
            return Denial("confadd")
        case DenialNumber.BY_NO_REGISTER:
            return Denial("none")
    raise NoReply(part.denial)


def part_of(part: PartRecord) -> Part:
    """A part of a reply, of its record."""
    target = Target(_target_text(part), TargetNumber(part.target), part.unit, part.base, part.offset)
    return Part(target, _denial(part))


def lines_in(bits: int) -> tuple[int, ...]:
    """The numbers of the lines whose bit is 1."""
    return tuple(line for line in range(16) if bits >> line & 1)


@dataclass(frozen=True)
class Now:
    """What stands now, without a step."""

    version: int
    interrupt: bool
    irq4: bool
    serial_room: bool
    lines: int


@dataclass(frozen=True)
class Answer:
    """A reply, and what stands after its step. Its text is that of a log's line, and what denied it, by name: `r b 000CC000 =
    FF abort 00.0.5B, denied by 00.0.5B (PAM2)`."""

    event: Event
    value: int | None
    parts: tuple[Part, ...]
    look: Look | None
    version: int
    interrupt: bool
    reset: Reset
    sent: int | None
    irq4: bool
    serial_room: bool
    lines: int  # the levels of the sixteen interrupt lines after the step: bit k is that of line k
    rose: int  # those that rose in it; line 0 also where it fell again

    @property
    def risen(self) -> tuple[int, ...]:
        """The numbers of the lines that rose."""
        return lines_in(self.rose)

    @property
    def target(self) -> Target | None:
        """What answered, the first part of a wide access; none of a look."""
        return self.parts[0].target if self.parts else None

    @property
    def denied_by(self) -> Denial | None:
        """What denied it, or the first part of it that was denied."""
        return next((part.denied_by for part in self.parts if part.denied_by), None)

    @property
    def reply(self) -> str:
        """What stands behind the ` = ` of a log's line."""
        if self.look:
            return str(self.look)
        value = "-" if self.value is None else f"{self.value:0{self.event.digits()}X}"
        return " ".join([value, *map(str, self.parts)])

    def as_of(self, now: "Now") -> "Answer":
        """The same reply with what stands now."""
        return replace(self, **asdict(now))

    def __str__(self) -> str:
        denied = f", denied by {self.denied_by.in_words}" if self.denied_by else ""
        return f"{self.event} = {self.reply}{denied}"

    def __repr__(self) -> str:
        return f"<{self.event} = {self.reply}>"


class Value(int):
    """What an access read: a number that knows its answer."""

    answer: Answer

    def __new__(cls, answer: Answer) -> "Value":
        if answer.value is None:
            raise NoReply(answer)
        value = super().__new__(cls, answer.value)
        value.answer = answer
        return value

    @property
    def target(self) -> Target | None:
        """What answered."""
        return self.answer.target

    @property
    def denied_by(self) -> Denial | None:
        """What denied it."""
        return self.answer.denied_by

    def __repr__(self) -> str:
        return repr(self.answer)

    def __str__(self) -> str:
        return int.__repr__(self)


def answer_of(event: Event, reply: ReplyRecord) -> Answer:
    """An answer, of the record of its reply."""
    parts: tuple[Part, ...] = ()
    look = None
    if reply.form == Form.LOOK_REPLY:
        first = reply.part[0]
        look = Look(reply.seen, reply.lo, reply.hi, area_text(first.target, first.unit, first.base))
    else:
        parts = tuple(part_of(reply.part[k]) for k in range(reply.parts))
    return Answer(
        event=event,
        value=reply.value if reply.has_value else None,
        parts=parts,
        look=look,
        version=reply.version,
        interrupt=bool(reply.interrupt),
        reset=Reset(reply.reset),
        sent=reply.sent if reply.has_sent else None,
        irq4=bool(reply.irq4),
        serial_room=bool(reply.serial_room),
        lines=reply.lines,
        rose=reply.rose,
    )


def now_of(reply: ReplyRecord) -> Now:
    """What stands now, of the record of a reply."""
    return Now(reply.version, bool(reply.interrupt), bool(reply.irq4), bool(reply.serial_room), reply.lines)
