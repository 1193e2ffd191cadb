"""What from-trace and watch make of a trace: takes its events in their order, and keeps the statements of a script and
the values that the monitor gave."""
import argparse
import collections
import pathlib
import sys
from dataclasses import dataclass
from typing import Optional

from shared.board_texts import LETTERS
from traces.clock import CLOCK_A, CLOCK_C, LONGEST_DELAY, TIME_BYTES, TraceClock, at
from traces.lines import Event
from traces.board_parts import (
    BYTE_PORTS,
    CLOCK_DATA,
    CLOCK_INDEX,
    CONFADD,
    CONFDATA,
    DISK_DATA,
    FUNCTIONS,
    NOBODY,
    OTHER_MEMORY,
    OTHER_PORTS,
    RESET_CONTROL,
    ROM_AND_WINDOWS,
    Counter,
    Vectors,
    named,
    parts_of,
    port_parts,
)

# ---- the limits of a script, and the clock's bytes

MOST_STATEMENTS, MOST_PULSES = 250_000, 100_000_000
MOST_IN_A_PULSE = 1_000_000
MOST_IN_FRONT = 300  # statements that are put before those of the trace
MOST_LINES_OF_LEFT_OUT = 50
TIMER_LINE, CASCADE, CLOCK_LINE, COPROCESSOR, DISK_LINE = 0, 2, 8, 13, 14
FIRST_FREE_BYTE = 0x0E  # of the clock

REASONS = {
    "time": "it counts time that the trace does not tell",
    "date": "the trace does not tell the date",
    "interrupts": "the trace does not tell the levels of the interrupt lines",
    "busy": "the disk was busy, and this board's is never",
    "taken": "a byte of the clock's memory that was there before: the script begins by writing it",
    "untold": "the trace does not tell all that was written to the device",
    "card": "a register that a card of this board has in its own way",
}


@dataclass
class Value:
    """What the monitor gave. The statement is counted without those that are put in front."""

    statement: int
    value: int
    size: int
    line: int  # of the trace
    why: Optional[str]  # a word of REASONS, where it is not compared


class Full(Exception):
    """A script cannot hold the next statement."""


class Converter:
    """Takes the events of a trace in their order, and keeps the statements and the values."""

    def __init__(self, words: argparse.Namespace, trace: list[Event], is_live: bool = False, is_whole: bool = False):
        self.words, self.is_live = words, is_live
        self.most = sys.maxsize if is_whole else MOST_STATEMENTS - MOST_IN_FRONT
        self.statements: list[str] = []
        self.values: list[Value] = []
        self.left_out: collections.Counter = collections.Counter()
        self.places: dict[str, set[int]] = collections.defaultdict(set)
        self.version, self.cpus, self.pulses = 1, 1, 0
        self.cards = {int(card.split(" ")[0]) for card in words.card}
        # what the trace as a whole tells
        kinds = {event.word for event in trace}
        self.tells_lines, self.tells_pulses = "line" in kinds, "pulse" in kinds
        self.names = {event.text: event.name for event in trace if event.word == "function"}
        self.tells_moments = "moment" in kinds
        self.tells_date = is_live or self.tells_moments or any(event.second is not None for event in trace)
        # what the trace has set so far
        self.confadd = self.reset_control = self.index = 0
        self.counter, self.vectors = Counter(), Vectors()
        self.levels: collections.Counter = collections.Counter()  # of each interrupt line
        self.risen: set[int] = set()  # since its last acknowledge
        self.moment: Optional[int] = None  # the last one put in, in seconds since 1970
        self.clock, self.before = TraceClock(), 0.0  # and the time of the line before
        self.clock_before: dict[int, int] = {}
        self.clock_known: set[int] = set(range(FIRST_FREE_BYTE))
        self.untold: set[str] = set()

    # ---- events

    def take(self, event: Event) -> None:
        if self.is_live:
            self.tells_lines = self.tells_lines or event.word == "line"
            if event.word == "function":
                self.names[event.text] = event.name
        self.take_word(event)
        self.before = event.second or self.before

    def take_word(self, event: Event) -> None:
        if event.word in ("in", "out", "r", "f", "w"):
            self.take_access(event)
        elif event.word == "line":
            self.take_line(event)
        elif event.word == "ack":
            self.take_acknowledge(event)
        elif event.word == "pulse":
            self.put_pulses(event.cpu, event.place)
        elif event.word == "moment":
            self.put(event.cpu, f"moment {event.text}")

    def take_access(self, event: Event) -> None:
        if event.cpu < 0:
            self.leave_out(f"{event.name}, not by a processor", event.place)
            return
        if event.is_port:
            parts = list(port_parts(event.place, event.size))
        elif event.size in LETTERS:
            parts = [(event.place, event.size)]
        else:
            parts = list(parts_of(event.place, event.size))
        for place, size in parts:
            value = None
            if event.value is not None:
                value = event.value >> 8 * (place - event.place) & (1 << 8 * size) - 1
            name = self.missing_port(event, place, size, value) if event.is_port else self.missing_memory(event, place)
            if name:
                self.leave_out(name, place)
            elif event.count > 1 and event.word == "out":
                self.leave_out(f"strings written to port {place:04X}, whose values the trace does not tell", place)
                self.untold.add(self.device(place))
            elif event.is_port:
                self.put_port(event, place, size, value)
            else:
                self.put_memory(event, place, size, value)

    def take_line(self, event: Event) -> None:
        line, level = event.place, event.value or 0
        is_change = level != self.levels[line]
        self.levels[line] = level
        if not is_change or line in (CASCADE, CLOCK_LINE, DISK_LINE):
            return
        if line > 15 or line == COPROCESSOR:
            self.leave_out(f"interrupt line {line}", line)
            return
        if line == TIMER_LINE:
            if level and not self.tells_pulses:
                self.tick()
            return
        self.put(0, f"irq {line} {level}")
        if level:
            self.risen.add(line)

    def tick(self) -> None:
        """Gives the timer the pulses after which its output rises."""
        pulses = self.counter.rise()
        if pulses is None:
            self.leave_out("ticks that the writes of counter 0 do not explain", 0x40)
        else:
            self.put_pulses(0, pulses)
            self.risen.add(TIMER_LINE)

    def take_acknowledge(self, event: Event) -> None:
        line = self.vectors.line(event.value) if event.value is not None else None
        if line is None:
            self.leave_out("acknowledges with no vector of the 8259A", 0x20)
            return
        if line == TIMER_LINE and line not in self.risen and not self.tells_pulses:
            self.tick()
        if line == CLOCK_LINE and self.clock.is_periodic:
            self.leave_out("acknowledges of the clock's periodic interrupt, which the board has not", CLOCK_DATA)
            return
        if line == CLOCK_LINE and event.second is not None and self.has_time(event):
            self.tell_moment(event, self.clock.alarmed(self.moment, event.second))
        if not self.is_told(line):
            self.leave_out(f"acknowledges of line {line}, whose rise the trace does not tell", 0x20)
            return
        self.risen.discard(line)
        self.put(event.cpu, "ack", event, 1, event.value)

    def is_told(self, line: int) -> bool:
        """Whether the trace or the board itself tells that an interrupt line asks. The last line of each chip may be
        acknowledged without."""
        if self.tells_pulses or line in self.risen or self.levels[line] or line % 8 == 7:
            return True
        return line == CLOCK_LINE and self.tells_date or line == DISK_LINE and bool(self.words.disk)

    # ---- what the board has not

    def device(self, port: int) -> str:
        return "ata" if port == DISK_DATA else BYTE_PORTS.get(port, "")

    def missing_port(self, event: Event, port: int, size: int, value: Optional[int]) -> Optional[str]:
        """The name of the device at a port where the board has none of it."""
        device = self.device(port)
        if port in CONFDATA and self.confadd >> 31:
            return self.missing_function(event, size, value)
        if port == CONFADD or port in CONFDATA or (device and device != "ata") or (device and self.words.disk):
            return None
        if event.name == NOBODY:
            return None
        return event.name or named(OTHER_PORTS, port) or f"port {port:04X}"

    def missing_function(self, event: Event, size: int, value: Optional[int]) -> Optional[str]:
        """The name of the function that the configuration address selects where the board has none of it. Where nobody
        is there a read gives all ones, here as on the board."""
        bus, device, function = self.confadd >> 16 & 255, self.confadd >> 11 & 31, self.confadd >> 8 & 7
        if (bus, device, function) in FUNCTIONS or (bus, function) == (0, 0) and device in self.cards:
            return None
        text = f"{bus:02x}:{device:02x}.{function}"
        if text in self.names:
            return f"{self.names[text]} {text}"
        if self.names or event.word == "in" and value == (1 << 8 * size) - 1:
            return None
        return f"function {text}"

    def missing_memory(self, event: Event, address: int) -> Optional[str]:
        """The same for memory. What the plain form does not name is taken to be the board's."""
        if event.name or self.words.form == "plain":
            return event.name or None
        if address < min(self.words.memory << 20, 0xA0000) or 1 << 20 <= address < self.words.memory << 20:
            return None
        if any(first <= address <= last for first, last in ROM_AND_WINDOWS):
            return None
        return named(OTHER_MEMORY, address) or f"memory at {address & ~0xFFF:08X}"

    def leave_out(self, name: str, place: int) -> None:
        self.left_out[name] += 1
        self.places[name].add(place)

    # ---- statements

    def put(
        self,
        cpu: int,
        text: str,
        event: Optional[Event] = None,
        size: int = 1,
        value: Optional[int] = None,
        why: Optional[str] = None,
    ) -> None:
        """Adds a statement, and where the monitor gave a value for it that too."""
        if len(self.statements) == self.most:
            raise Full(f"a script holds {MOST_STATEMENTS:,} statements")
        self.cpus = max(self.cpus, cpu + 1)
        self.statements.append(f"{cpu} {text}")
        if event is not None and value is not None and (event.is_read or event.word == "ack"):
            self.values.append(Value(len(self.statements), value, size, event.line, why))

    def put_pulses(self, cpu: int, pulses: int) -> None:
        if self.pulses + pulses > MOST_PULSES:
            raise Full(f"a script holds {MOST_PULSES:,} pulses")
        self.pulses += pulses
        for rest in range(pulses, 0, -MOST_IN_A_PULSE):
            self.put(cpu, f"pulse {min(rest, MOST_IN_A_PULSE)}")

    def put_memory(self, event: Event, address: int, size: int, value: Optional[int]) -> None:
        if size == 8 or address % size:
            self.version = 2
        written = f" {value:0{2 * size}X}" if event.word == "w" else ""
        smm = " smm" if event.smm else ""
        self.put(event.cpu, f"{event.word} {LETTERS[size]} {address:08X}{written}{smm}", event, size, value)

    def put_port(self, event: Event, port: int, size: int, value: Optional[int]) -> None:
        if event.word == "out":
            self.put(event.cpu, f"out {LETTERS[size]} {port:04X} {value:0{2 * size}X}")
            self.note_write(port, size, value or 0)
            return
        if port == CLOCK_DATA:
            self.prepare_clock(event, value)
        for turn in range(event.count):
            told = value if turn == 0 else None
            why = self.why_not(event, port, told) if told is not None else None
            self.put(event.cpu, f"in {LETTERS[size]} {port:04X}", event, size, told, why)

    def note_write(self, port: int, size: int, value: int) -> None:
        """Notes what later accesses mean by it."""
        if port == CONFADD and size == 4:
            self.confadd = value
        elif port == RESET_CONTROL and size == 1:
            self.note_reset_control(value)
        elif port == CLOCK_INDEX:
            self.index = value & 0x7F
        elif port == CLOCK_DATA:
            self.clock_known.add(self.index)
            self.clock.write(self.index, value)
            if self.index in TIME_BYTES:
                self.tells_date = False
        elif port == 0x43:
            self.counter.control(value)
        elif port == 0x40:
            self.counter.count(value)
        elif BYTE_PORTS.get(port) in ("pic0", "pic1"):
            self.vectors.write(port, value)

    def note_reset_control(self, value: int) -> None:
        is_hard = value & 4 and not self.reset_control & 4 and value & 2
        self.reset_control = value & 6
        if is_hard:
            self.confadd = self.reset_control = self.index = 0
            self.counter, self.vectors, self.risen = Counter(), Vectors(), set()

    # ---- time

    def has_time(self, event: Event) -> bool:
        """Whether the trace tells what the clock shows at this line, as long as the guest has not set the clock."""
        return self.tells_date and event.second is not None

    def prepare_clock(self, event: Event, value: Optional[int]) -> None:
        """Tells the board's clock what stands behind the byte that is read now."""
        if self.is_live and self.index not in self.clock_known:
            self.clock_before[self.index] = value or 0
            self.put(event.cpu, f"out b {CLOCK_DATA:04X} {value or 0:02X}")
        if event.second is None or not self.has_time(event):
            return
        first = max(self.before, event.second - LONGEST_DELAY)
        second = None
        if self.index in TIME_BYTES and value is not None:
            second = self.clock.read(self.index, value, first, event.second)
        if self.index in TIME_BYTES or self.index == CLOCK_C:
            self.tell_moment(event, self.clock.likely(first, event.second) if second is None else second)

    def tell_moment(self, event: Event, second: int) -> None:
        """Tells the board's clock a second, where it is another than the last."""
        if second != self.moment:
            self.moment = second
            self.put(event.cpu, f"moment {at(second):%Y-%m-%dT%H:%M:%S}")

    def why_not(self, event: Event, port: int, value: int) -> Optional[str]:
        """Why the value that was read at a port is not compared, or None."""
        device = self.device(port)
        if device in self.untold:
            return "untold"
        if device in ("pit", "sys") and port != 0x43:
            return None if self.tells_pulses else "time"
        if port in (0x20, 0xA0):
            return None if self.tells_lines or self.tells_pulses else "interrupts"
        if port == CLOCK_DATA:
            return self.why_not_clock(event, value)
        if port in (0x1F7, 0x3F6) and value & 0x80:
            return "busy"
        if port in CONFDATA and (self.confadd >> 11 & 31) in self.cards:
            offset = (self.confadd & 0xFC) + (port & 3)
            return None if 0x10 <= offset < 0x28 or offset in (0x04, 0x05, 0x3C) else "card"
        return None

    def why_not_clock(self, event: Event, value: int) -> Optional[str]:
        """The same for the clock's byte at the index."""
        if self.index == CLOCK_C or self.index == CLOCK_A and value & 0x80:
            return "time"
        if self.index in TIME_BYTES:
            return None if self.has_time(event) or self.tells_moments and self.tells_date else "date"
        if self.index not in self.clock_known:
            self.clock_known.add(self.index)
            self.clock_before[self.index] = value
            return "taken"
        return None

    # ---- the texts

    def first_statements(self) -> list[str]:
        """What the trace does not show and the script has to hold: the clock's memory and, where asked, the rows."""
        first = []
        for index, byte in sorted(self.clock_before.items() if not self.is_live else []):
            first += [f"0 out b 0070 {index:02X}", f"0 out b 0071 {byte:02X}"]
        if first:
            first.append("0 out b 0070 00")
        if self.words.rows:
            row = f"{self.words.memory // 8:02X}" * 4
            for address in ("80000060", "80000064"):
                first += [f"0 out d 0CF8 {address}", f"0 out d 0CFC {row}"]
            first.append("0 out d 0CF8 00000000")
        return first

    def left_out_lines(self) -> list[str]:
        lines = []
        for name, count in sorted(self.left_out.items(), key=lambda it: (-it[1], it[0])):
            places = sorted(self.places[name])
            is_one = len(places) == 1
            at = f"{places[0]:04X}" if is_one else f"{places[0]:04X} to {places[-1]:04X}"
            lines.append(f"{count} of {name} ({at})")
        rest = sum(sorted(self.left_out.values())[: -MOST_LINES_OF_LEFT_OUT])
        return lines[:MOST_LINES_OF_LEFT_OUT] + ([f"{rest} of others"] if rest else [])

    def script(self) -> str:
        words = self.words
        head = [f"board {self.version}", f"# made by tools/from-trace {words.form} of {pathlib.Path(words.trace).name}"]
        head += [f"# left out: {line}"[:120] for line in self.left_out_lines()]
        head += [f"cpus {self.cpus}", f"memory {words.memory}", f"rom {words.rom}"]
        head += [f"disk {words.disk}"] if words.disk else []
        head += [f"card {card}" for card in words.card] + ["phase"]
        first = self.first_statements()
        head += ["# what was there before the trace begins", *first, "# the trace"] if first else []
        return "\n".join(head + self.statements) + "\n"

    def values_text(self) -> str:
        before = len(self.first_statements())
        lines = ["# statement, value that the monitor gave, @line of the trace, and `? WHY` where it is not compared"]
        for it in self.values:
            why = f" ? {it.why}" if it.why else ""
            lines.append(f"{before + it.statement} {it.value:0{2 * it.size}X} @{it.line}{why}")
        return "\n".join(lines) + "\n"
