"""The clock: which byte was chosen, what was written, and whether its time is told second by second."""
from dataclasses import dataclass, field
from typing import TYPE_CHECKING

from .row import CHOICE, DATASHEET, DATE, Row

if TYPE_CHECKING:
    from traces.difference_state import Byte

INDEX, DATA = 0x70, 0x71
REGISTER_A, REGISTER_B, REGISTER_C, REGISTER_D = 0x0A, 0x0B, 0x0C, 0x0D
TIME, CENTURY = (0, 2, 4, 6, 7, 8, 9), 0x32
SET, UPDATE_IN_PROGRESS, ENABLES = 0x80, 0x80, 0x70
LAST_OF_0, LAST_OF_1 = (59, 0x59, 23, 0x23, 99, 0x99), (7, 12, 0x12, *range(28, 32), *range(0x28, 0x32))
TURNS = {
    *((0, last) for last in LAST_OF_0),
    *((1, last) for last in LAST_OF_1),
}  # what follows the last one is the first
TIME_SECTION = "MC146818, Time, Calendar, and Alarm Locations"


@dataclass
class ClockBytes:
    index: int = 0
    written: dict[int, int] = field(default_factory=dict)
    numbers: dict[int, int] = field(default_factory=dict)  # the statement that wrote each last
    is_told: bool = False  # its seconds pass by statements alone
    was_held: bool = False  # a second passed while SET was 1, since register C was read

    def write(self, port: int, value: int, number: int) -> None:
        if port == INDEX:
            self.index = value & 0x7F
            return
        self.written[self.index], self.numbers[self.index] = value, number

    def read(self) -> None:
        self.was_held = self.was_held and self.index != REGISTER_C

    def go_on(self) -> None:
        """Notes that a second passed."""
        self.was_held = self.was_held or bool(self.written.get(REGISTER_B, 0) & SET)


def is_data(byte: "Byte") -> bool:
    return byte.place == DATA


def is_at(*registers: int) -> "When":
    return lambda byte: is_data(byte) and byte.state.clock.index in registers


def is_written(byte: "Byte") -> bool:
    return is_data(byte) and byte.state.clock.index in byte.state.clock.written


def is_neighbour(byte: "Byte") -> bool:
    """Whether both are one apart, as after a second more or less: then the date may just have gone on."""
    low, high = sorted((byte.given, byte.ours))
    is_decimal_carry = low & 0xF == 9 and high - low == 7
    return high - low == 1 or is_decimal_carry or (low, high) in TURNS


def is_date_asked(byte: "Byte") -> bool:
    """Whether a part of the date differs that was written, and not by time that passes."""
    clock = byte.state.clock
    return is_at(*TIME)(byte) and clock.index in clock.written and (clock.is_told or not is_neighbour(byte))


def is_after_hard_reset(byte: "Byte") -> bool:
    """Whether a hard reset came after register B was written, and the enables are what differs."""
    state = byte.state
    return is_at(REGISTER_B)(byte) and 0 < state.clock.numbers.get(REGISTER_B, 0) < state.hard_reset


if TYPE_CHECKING:
    from typing import Callable

    When = Callable[[Byte], bool]


def is_before_soft_reset(byte: "Byte") -> bool:
    """Whether a soft reset came after the byte was written."""
    state = byte.state
    return is_data(byte) and 0 < state.clock.numbers.get(state.clock.index, 0) < state.soft_reset


ROWS = [
    Row(
        "soft-reset",
        DATASHEET,
        "82371SB, RC: Reset Control Register",
        "a soft reset, 04, resets the processor alone: the registers and the devices keep what they have",
        "clock",
        when=is_before_soft_reset,
    ),
    Row(
        "clock-index",
        CHOICE,
        "Clock",
        "a read of port 70h gives FF: the index can be written alone",
        "clock",
        when=lambda it: not is_data(it),
    ),
    Row(
        "clock-reset",
        DATASHEET,
        "MC146818, RESET",
        "a reset clears the enables PIE, AIE and UIE, and SQWE",
        "clock",
        bits=ENABLES | 0x08,
        when=is_after_hard_reset,
    ),
    Row(
        "clock-held",
        CHOICE,
        "Clock",
        "while SET holds the time a second sets no flag",
        "clock",
        when=lambda it: is_at(REGISTER_C)(it) and it.state.clock.was_held,
    ),
    Row(
        "clock-flags",
        DATASHEET,
        "MC146818, Register C",
        "AF, UF and PF are set by what they tell of, whether enabled or not, and a read clears them",
        "clock",
        when=lambda it: is_at(REGISTER_C)(it) and it.state.clock.is_told,
    ),
    Row(
        "clock-date",
        DATASHEET,
        TIME_SECTION,
        "the time and the date are in the form of register B, binary or decimal and of 12 or 24 hours, and keep what "
        "is written",
        "clock",
        when=is_date_asked,
    ),
    Row(
        "date",
        DATE,
        "",
        "the date, or the flags that hang on it",
        "clock",
        when=lambda it: is_at(*TIME, REGISTER_C, CENTURY)(it)
        and (it.state.clock.index != CENTURY or not is_written(it)),
    ),
    Row(
        "clock-d",
        DATASHEET,
        "MC146818, Register D",
        "bit 7 is set, and the others read 0",
        "clock",
        when=is_at(REGISTER_D),
    ),
    Row(
        "clock-update",
        DATE,
        "",
        "bit 7 of register A, the update in progress",
        "clock",
        bits=UPDATE_IN_PROGRESS,
        when=lambda it: is_at(REGISTER_A)(it) and it.differing == UPDATE_IN_PROGRESS,
    ),
    Row(
        "clock-a",
        DATASHEET,
        "MC146818, Register A",
        "bits 6 to 0 keep what is written",
        "clock",
        bits=0x7F,
        when=lambda it: is_at(REGISTER_A)(it) and is_written(it),
    ),
    Row(
        "clock-b",
        DATASHEET,
        "MC146818, Register B",
        "it keeps what is written, but that SET clears UIE",
        "clock",
        bits=0xFE,
        when=lambda it: is_at(REGISTER_B)(it) and is_written(it),
    ),
    Row(
        "clock-memory",
        DATASHEET,
        "MC146818, Address Map",
        "a byte of its memory keeps what is written",
        "clock",
        when=lambda it: it.state.clock.index < 0x40 and is_written(it),
    ),
    Row("clock-first", CHOICE, "Clock", "what the clock holds at power-on, and its 128 bytes", "clock"),
]
