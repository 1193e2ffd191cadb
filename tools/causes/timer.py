"""The 8254: which counter was asked for what, and how it counts."""
from dataclasses import dataclass, field
from typing import TYPE_CHECKING

from .row import CHOICE, DATASHEET, EITHER, Row

if TYPE_CHECKING:
    from traces.difference_state import Byte

CONTROL, FIRST_COUNTER = 0x43, 0x40
READ_BACK, NO_COUNT, NO_STATUS, SELECT_BIT = 3, 0x20, 0x10, 0x02
LATCH, LOW, HIGH, BOTH = 0, 1, 2, 3  # bits 5 and 4 of a control word
BCD, FIRST_REPEATED_MODE = 0x01, 6
OUT, NULL_COUNT, MODE_BITS = 0x80, 0x40, 0x3F  # of a status
ONE_SHOTS, PERIODIC, SQUARE_WAVE = (1, 5), (2, 3), 3
DIGITS = "8254, Control Word Format"
MODES = "8254, Mode Definitions"


@dataclass
class Counter:
    """A counter, by what was written to it."""

    is_set_up: bool = False  # it has had a control word
    mode: int = 0
    access: int = BOTH
    is_decimal: bool = False
    count: int = 0
    is_high_next: bool = False  # of a count of two bytes
    is_counted: bool = False  # a whole count was written
    is_loaded: bool = False  # a pulse came since
    was_counting: bool = False  # a count had been written before this one
    gives_status: bool = False  # the next read does
    reads_left: int = 0  # of a latched count
    is_latch_old: bool = False  # a pulse came since it was latched
    is_status_between: bool = False  # a status was latched while half of a count was to be read
    triggered_early: bool = False  # its gate rose before the count was written

    def set_up(self, word: int) -> None:
        mode = word >> 1 & 7
        self.access = word >> 4 & 3
        self.mode = mode if mode < FIRST_REPEATED_MODE else mode - 4
        self.is_set_up, self.is_decimal, self.count = True, bool(word & BCD), 0
        self.is_high_next = (
            self.is_counted
        ) = self.is_loaded = self.was_counting = self.gives_status = self.triggered_early = False
        self.reads_left = 0

    def latch(self) -> None:
        if not self.reads_left:
            self.reads_left = 2 if self.access == BOTH else 1
            self.is_status_between = self.is_latch_old = False

    def latch_status(self) -> None:
        self.gives_status = True
        self.is_status_between = self.is_status_between or self.access == BOTH and self.reads_left == 1

    def write(self, byte: int) -> None:
        if self.access == BOTH and not self.is_high_next:
            self.count, self.is_high_next = byte, True
            return
        self.was_counting = self.is_counted
        self.count = self.count | byte << 8 if self.access == BOTH else byte << 8 if self.access == HIGH else byte
        self.is_high_next, self.is_counted = False, True

    def read(self) -> None:
        if self.gives_status:
            self.gives_status = False
        elif self.reads_left:
            self.reads_left -= 1

    @property
    def has_bad_digit(self) -> bool:
        return self.is_decimal and any(self.count >> shift & 0xF > 9 for shift in (0, 4, 8, 12))


@dataclass
class Timer:
    counters: tuple[Counter, Counter, Counter] = field(default_factory=lambda: (Counter(), Counter(), Counter()))
    gate_2: bool = False

    def write(self, port: int, value: int) -> None:
        if port != CONTROL:
            self.counters[port - FIRST_COUNTER].write(value)
        elif value >> 6 == READ_BACK:
            for number, counter in enumerate(self.counters):
                if value & SELECT_BIT << number and not value & NO_COUNT:
                    counter.latch()
                if value & SELECT_BIT << number and not value & NO_STATUS:
                    counter.latch_status()
        elif value >> 4 & 3 == LATCH:
            self.counters[value >> 6].latch()
        else:
            self.counters[value >> 6].set_up(value)

    def read(self, port: int) -> None:
        if port != CONTROL:
            self.counters[port - FIRST_COUNTER].read()

    def pulse(self) -> None:
        for counter in self.counters:
            counter.is_latch_old = counter.reads_left > 0
            counter.is_loaded = counter.is_counted

    def write_gate_2(self, level: bool) -> None:
        rises, self.gate_2 = level and not self.gate_2, level
        if rises and not self.counters[2].is_counted:
            self.counters[2].triggered_early = True


def counter_of(byte: "Byte") -> Counter:
    return byte.state.timer.counters[byte.place - FIRST_COUNTER]


def is_counter(byte: "Byte") -> bool:
    return byte.place != CONTROL


def gives_status(byte: "Byte") -> bool:
    return is_counter(byte) and counter_of(byte).gives_status


def is_one(byte: "Byte") -> bool:
    return is_counter(byte) and counter_of(byte).mode in PERIODIC and counter_of(byte).count == 1


def is_gated(byte: "Byte") -> bool:
    return byte.place == FIRST_COUNTER + 2 and not byte.state.timer.gate_2


ROWS = [
    Row(
        "timer-control",
        CHOICE,
        "Timer",
        "a read of the control port gives FF",
        "pit",
        when=lambda it: not is_counter(it),
    ),
    Row(
        "timer-first",
        EITHER,
        "8254, Operational Description",
        "before its control word the mode, the count and the output of a counter are undefined",
        "pit",
        when=lambda it: not counter_of(it).is_set_up,
    ),
    Row(
        "timer-digit",
        CHOICE,
        "Timer",
        "in a decimal count a digit above 9 counts as that digit less 10",
        "pit",
        when=lambda it: counter_of(it).has_bad_digit,
    ),
    Row("timer-one", CHOICE, "Timer", "a count of 1 in mode 2 or 3 is taken as 2", "pit", when=is_one),
    Row(
        "timer-early-trigger",
        CHOICE,
        "Timer",
        "a gate that rises before the count is written still triggers",
        "pit",
        when=lambda it: counter_of(it).triggered_early,
    ),
    Row(
        "timer-half-latch",
        CHOICE,
        "Timer",
        "a status latch that is taken between the halves of a count is given first",
        "pit",
        when=lambda it: counter_of(it).is_status_between,
    ),
    Row(
        "timer-status",
        DATASHEET,
        "8254, Read-Back Command",
        "the status has the control word in bits 5 to 0",
        "pit",
        bits=MODE_BITS,
        when=gives_status,
    ),
    Row(
        "timer-null-count",
        DATASHEET,
        "8254, Read-Back Command",
        "bit 6 of the status is 1 from the writing of a count until the counter has taken it",
        "pit",
        bits=NULL_COUNT,
        when=gives_status,
    ),
    Row(
        "timer-out",
        DATASHEET,
        "8254, Read-Back Command",
        "bit 7 of the status is the output, as the mode has it",
        "pit",
        bits=OUT,
        when=gives_status,
    ),
    Row(
        "timer-not-loaded",
        EITHER,
        f"{MODES}: Initial Count",
        "a count is loaded by the pulse after it was written: what a counter reads before that is not its count",
        "pit",
        when=lambda it: not counter_of(it).is_loaded,
    ),
    Row(
        "timer-latch",
        DATASHEET,
        "8254, Counter Latch Command",
        "a latched count is held until it is read",
        "pit",
        when=lambda it: counter_of(it).reads_left > 0 and counter_of(it).is_latch_old,
    ),
    Row(
        "timer-one-shot",
        DATASHEET,
        f"{MODES}: Mode 1 and Mode 5",
        "a counter in mode 1 or 5 begins when its gate rises, and not when a count is written",
        "pit",
        when=lambda it: counter_of(it).mode in ONE_SHOTS,
    ),
    Row(
        "timer-decimal",
        DATASHEET,
        DIGITS,
        "with bit 0 of the control word the count is decimal, of four digits",
        "pit",
        when=lambda it: counter_of(it).is_decimal,
    ),
    Row(
        "timer-gate",
        DATASHEET,
        f"{MODES}: Gate",
        "while its gate is 0 a counter in mode 0, 2, 3 or 4 stands still",
        "pit",
        when=is_gated,
    ),
    Row(
        "timer-square",
        DATASHEET,
        f"{MODES}: Mode 3",
        "the count goes down by two; of an odd one the half at 1 has (N+1)/2 pulses and that at 0 (N-1)/2",
        "pit",
        when=lambda it: counter_of(it).mode == SQUARE_WAVE,
    ),
    Row(
        "timer-new-count",
        DATASHEET,
        f"{MODES}: New Counts",
        "a new count is taken at the next pulse in modes 0 and 4, and at the end of the period in mode 2",
        "pit",
        when=lambda it: counter_of(it).was_counting,
    ),
    Row("timer-count", DATASHEET, f"{MODES}: Modes 0, 2 and 4", "each pulse takes one off the count", "pit"),
]
