"""The fields of the registers: those of the table of names (tools/names/registers.toml), and those that are computed."""
import re
from dataclasses import dataclass
from typing import Callable, Iterator, Optional, Sequence, Union

from shared.register_names import ABSENT, ANY_FUNCTION, DENYING_BITS, FIELD_ROWS, IDENTITY, OF_FUNCTION

MIB = 1 << 20
BOUNDARY = 8 * MIB  # what one of a row boundary stands for
PAM_WINDOW = 0x4000
FIRST_WINDOW = 0xC0000  # of PAM1


@dataclass(frozen=True)
class Field:
    """A run of bits of a register, and what a value of it says."""

    name: str
    high: int
    low: int
    says: Callable[[int], str]

    @property
    def bits(self) -> str:
        return f"{self.high}:{self.low}" if self.high > self.low else str(self.high)

    def of(self, value: int) -> int:
        return value >> self.low & (1 << self.high - self.low + 1) - 1


def flag(name: str, bit: int, one: str, zero: str) -> Field:
    return Field(name, bit, bit, (zero, one).__getitem__)


def choice(name: str, high: int, low: int, *texts: str) -> Field:
    return Field(name, high, low, texts.__getitem__)


def number(name: str, high: int, low: int) -> Field:
    return Field(name, high, low, str)


def span(first: int, last: int) -> str:
    return f"{first:05X} to {last:05X}"


# ---- the host bridge


def window(high: int, first: int, last: int) -> Field:
    """WE and RE of a shadow window."""
    return choice(span(first, last), high, high - 1, *(f"WE {value >> 1} RE {value & 1}" for value in range(4)))


def pam(k: int) -> list[Field]:
    if k == 0:
        return [window(5, 0xF0000, 0xFFFFF)]
    first = FIRST_WINDOW + 2 * PAM_WINDOW * (k - 1)
    return [window(high, at, at + PAM_WINDOW - 1) for high, at in ((5, first + PAM_WINDOW), (1, first))]


def boundary(row: int) -> Field:
    return Field(f"end of row {row}", 7, 0, lambda value: f"{value * BOUNDARY // MIB} MiB")


# ---- the south bridge

UNROUTABLE = (0, 1, 2, 8, 13)


def routed_line(value: int) -> str:
    return f"IRQ{value}" if value not in UNROUTABLE else f"{value} is reserved"


# The formulas of tools/names/registers.toml.
FORMULAS: dict[str, Callable[[int], str]] = {
    "number": str,
    "routed line": routed_line,
    "clocks from 5": lambda value: f"{5 - value} clocks",
    "clocks from 4": lambda value: f"{4 - value} clocks",
}


def of_row(name: str, high: int, low: int, says: Union[str, tuple[str, ...]]) -> Field:
    return Field(name, high, low, FORMULAS[says] if isinstance(says, str) else says.__getitem__)


# ---- any function


def command(io: str, memory: str, master: str) -> list[Field]:
    on_off = ("enabled", "disabled")
    return [flag(name, bit, *on_off) for bit, name in ((2, master), (1, memory), (0, io)) if name]


COMMANDS = {
    "00.0": command("IOAE", "MAE", "BME"),
    "01.0": command("IOSE", "MSE", "BME"),
    "01.1": command("IOSE", "", "BME"),
}
CARD_COMMAND = command("I/O Space", "Memory Space", "Bus Master")

FIELDS = {
    **{f"PAM{k}": pam(k) for k in range(7)},
    **{f"DRB{row}": [boundary(row)] for row in range(8)},
    **{name: [of_row(*row) for row in rows] for name, rows in FIELD_ROWS.items()},
}


def base_fields(base: str) -> list[Field]:
    """Those of a base address register as a script writes it: mK or iK, or xK of an expansion ROM."""
    kind, low = base[0], int(base[1:])
    address = Field("base", 31, low, lambda value: f"{value << low:0{4 if kind == 'i' else 8}X}, {size(low)}")
    if kind == "x":
        return [address, flag("enable", 0, "enabled", "disabled")]
    return [address, flag("space", 0, "I/O", "memory")]


def size(bits: int) -> str:
    for shift, unit in ((20, "MiB"), (10, "KiB")):
        if bits >= shift:
            return f"{1 << bits - shift} {unit}"
    return f"{1 << bits} bytes"


# ---- what stands at ports


def edge_or_level(first: int, mask: int) -> list[Field]:
    lines = [line for line in range(7, -1, -1) if mask >> line & 1]
    return [flag(f"IRQ{first + line}", line, "level", "edge") for line in lines]


@dataclass(frozen=True)
class Register:
    """A register as it is shown: the place by which a log names it, its bytes and its fields."""

    name: str
    place: str
    count: int
    fields: tuple[Field, ...]


CONFADD = (
    flag("CONE", 31, "enabled", "disabled"),
    number("bus", 23, 16),
    number("device", 15, 11),
    number("function", 10, 8),
    Field("register", 7, 2, lambda value: f"{value << 2:02X}"),
)
RESET_CONTROL = (flag("RCPU", 2, "1", "0"), flag("SRST", 1, "hard reset", "soft reset"))
# By the function of the chip that has the port.
PORTS = {
    "00.0": [Register("CONFADD", "0CF8", 4, CONFADD)],
    "01.0": [
        Register("RC", "0CF9", 1, RESET_CONTROL),
        Register("ELCR1", "04D0", 1, tuple(edge_or_level(0, 0xF8))),
        Register("ELCR2", "04D1", 1, tuple(edge_or_level(8, 0xDE))),
    ],
}
CHIPS = {"00.0": "82441FX host bridge", "01.0": "82371SB ISA bridge", "01.1": "82371SB IDE function"}


def names_of(function: str, bases: Sequence[str]) -> Iterator[tuple[str, int, int]]:
    """The registers that say something of a function: name, first offset and bytes. A card has these bases."""
    for name, first, count in sorted(ANY_FUNCTION + OF_FUNCTION.get(function, []), key=lambda it: it[1]):
        is_card = function not in CHIPS
        base = re.fullmatch(r"base (\d)", name)
        if name in IDENTITY or name in ABSENT or not is_card and (base or name.startswith(("expansion", "interrupt"))):
            continue
        has_base = not base or int(base[1]) < sum(it[0] != "x" for it in bases)
        has_rom = name != "expansion ROM base" or any(it[0] == "x" for it in bases)
        if has_base and has_rom:
            yield name, first, count


def fields_of(function: str, name: str, bases: Sequence[str]) -> list[Field]:
    if name == "command":
        return COMMANDS.get(function, CARD_COMMAND)
    if name.startswith("base "):
        return base_fields(bases[int(name[5:])])
    if name == "expansion ROM base":
        return base_fields(next(it for it in bases if it[0] == "x"))
    return FIELDS[name]


def registers_of(function: str, bases: Sequence[str] = ()) -> list[Register]:
    """The registers of a function that the page shows, and those of its chip that stand at ports."""
    return [
        *PORTS.get(function, []),
        *(
            Register(name, f"{function}.{first:02X}", count, tuple(fields_of(function, name, bases)))
            for name, first, count in names_of(function, bases)
        ),
    ]


# ---- which field denies


def denying_bits(name: str, words: list[str], address: int) -> str:
    """The bits of a register that decide a denied access: of a statement's words, at this address or port."""
    is_port, is_write = words[0] in ("in", "out"), words[0] == "w"
    pam_of = re.fullmatch(r"PAM(\d)", name)
    if pam_of:
        return "bits 5:4" if pam_of[1] == "0" or address // PAM_WINDOW % 2 else "bits 1:0"
    if name == "XBCS":
        return f"bit {xbcs_bit(address, is_port, is_write)}"
    if name == "command":
        return "bit 0" if is_port else "bit 1"
    return DENYING_BITS[name]


def xbcs_bit(address: int, is_port: bool, is_write: bool) -> Optional[int]:
    if is_port:
        return 0 if address in (0x70, 0x71) else 1
    if 0xFFF80000 <= address < 0xFFFE0000:
        return 7
    if 0xE0000 <= address < 0xF0000 or 0xFFFE0000 <= address < 0xFFFF0000:
        return 6
    return 2
