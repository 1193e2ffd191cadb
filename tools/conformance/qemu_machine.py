"""QEMU's `pc` machine, which does the statements of a script by QEMU's test protocol. No processor of QEMU's runs:
there is no SMM and no fetch, and an acknowledge is the 8259A's poll, whose level makes the vector.

Time is QEMU's virtual clock, where its accelerator `qtest` lets it be set. The 8254 takes a written count with the next
pulse of its clock; QEMU takes it when it is written, and so is given it with the next pulse."""
import time
from typing import Callable, Iterator, Optional, Sequence

from .port_sequences import bus_master, wire
from .protocol import CANNOT, DONE
from .qemu_link import Link, Options
from .scripts import BUS_MASTER_DIGITS, WIDTHS, Setup
from .serving import MonitorEnded

LETTERS = {"b": "b", "w": "w", "d": "l", "q": "q"}  # of the test protocol
SECOND = 10**9  # nanoseconds
PIT_HERTZ = 1193182
MOST_AHEAD = 100 * SECOND  # QEMU's timers make up for each second of it
PICS = (0x20, 0xA0)
ICW1, POLL, REQUEST, CASCADE, VECTOR_BASE = 0x10, 0x0C, 0x80, 2, 0xF8
DISK, ALTERNATE_STATUS, DATA, ATA_COMMAND = (*range(0x1F0, 0x1F8), 0x3F6), 0x3F6, 0x1F0, 0x1F7
BUSY, HELD_RESET, SECTOR = 0x80, 0x04, 512
RESET_CONTROL, RESETS = 0xCF9, 0x04
READ_PORT_B, TIMER_CONTROL, SPEAKER_COUNTER = "in b 0061", "out b 0043", 2
COUNTERS = ("0040", "0041", "0042")
SEES_COUNTS = ("0020", *COUNTERS, "0043", "0061")

Say = Callable[[str], None]


class Machine:
    """A machine as after power-on."""

    def __init__(self, link: Link, setup: Setup) -> None:
        self.link, self.has_disk, self.has_time = link, setup.disk is not None, bool(link.options.modules)
        self.cards = [int(card.split()[0]) for card in setup.cards]
        self.link.now = self.begun = -(-self.link.now // SECOND) * SECOND
        if self.begun:
            self.link.put(f"clock_set {self.begun}")
        self.seconds, self.counts = 0, list[str]()
        self.base, self.awaits = [0, 0], [False, False]  # of the interrupt controllers
        self.is_held, self.moved = False, 0  # of the disk
        self.handlers = {
            "r": self.read,
            "in": self.read,
            "w": self.write,
            "out": self.write,
            "irq": self.irq,
            "ack": self.acknowledge,
            "pulse": self.pulse,
            "second": self.second,
            "wire": self.wire,
            "bus_master": self.bus_master,
            "receive": self.receive,
        }

    def do(self, statement: str, say: Say) -> None:
        """Does a statement; its answer is said at once, or with the next flush."""
        word, *fields = statement.split(" ")
        handler = self.handlers.get(word)
        if handler is None or fields[-1:] == ["smm"]:
            say(CANNOT)
        else:
            handler(statement, fields, say)

    def end(self) -> None:
        self.load_counts()
        self.link.flush()

    # ---- accesses

    def read(self, statement: str, fields: Sequence[str], say: Say) -> None:
        width, place = fields
        size, is_port = WIDTHS[width], statement.startswith("in")
        if is_port and int(place, 16) % size:
            return say(CANNOT)
        if is_port and place in SEES_COUNTS:
            self.load_counts()
        mask, digits = (1 << 8 * size) - 1, 2 * size
        self.link.put(
            f"{'in' if is_port else 'read'}{LETTERS[width]} 0x{place}", lambda it: say(f"{it & mask:0{digits}X}")
        )
        if is_port:
            self.note_disk(int(place, 16), size)

    def write(self, statement: str, fields: Sequence[str], say: Say) -> None:
        width, place, value = fields
        is_port = statement.startswith("out")
        command = f"{'out' if is_port else 'write'}{LETTERS[width]} 0x{place} 0x{value}"
        if is_port and self.has_time and place in COUNTERS:
            self.counts.append(command)
            return say(DONE)
        if is_port and place in SEES_COUNTS:
            self.load_counts()
        self.link.put(command)
        say(DONE)
        if is_port:
            self.note_write(int(place, 16), int(value, 16), WIDTHS[width])

    def note_write(self, port: int, value: int, size: int) -> None:
        """What has to be known of what was written: vector bases, a reset, the disk."""
        chip = port & ~1 == PICS[1]
        if port in PICS and value & ICW1:
            self.awaits[chip] = True
        elif port & 1 and port - 1 in PICS and self.awaits[chip]:
            self.base[chip], self.awaits[chip] = value & VECTOR_BASE, False
        elif port == RESET_CONTROL and size == 1 and value & RESETS:
            self.link.flush()  # it resets before its main loop takes another command
            self.base, self.is_held = [0, 0], False
        elif port == ALTERNATE_STATUS:
            self.is_held = bool(value & HELD_RESET)
        elif port == ATA_COMMAND:
            self.moved = 0
        self.note_disk(port, size, port in (ATA_COMMAND, ALTERNATE_STATUS))

    def note_disk(self, port: int, size: int, is_command: bool = False) -> None:
        """Waits for the disk after a command, and where a sector was moved."""
        if not self.has_disk or port not in DISK:
            return
        self.moved += size if port == DATA else 0
        if is_command or port == DATA and self.moved % SECTOR == 0:
            end = time.monotonic() + 1
            while not self.is_held and self.link.ask(f"inb 0x{ALTERNATE_STATUS:x}") & BUSY:
                if time.monotonic() > end:
                    raise MonitorEnded("the disk stays busy for a second")
                time.sleep(0.0001)

    def ask(self, statement: str) -> int:
        """The number that an access of a sequence reads, at once."""
        found: list[str] = []
        self.do(statement, found.append)
        self.link.flush()
        return 0 if found[0] == DONE else int(found[0], 16)

    # ---- interrupts

    def irq(self, statement: str, fields: Sequence[str], say: Say) -> None:
        line, level = int(fields[0]), fields[1]
        path = self.link.interrupt_controllers()[line >> 3]
        self.link.put(f"set_irq_in {path} unnamed-gpio-in {line & 7} {level}")
        say(DONE)

    def wire(self, statement: str, fields: Sequence[str], say: Say) -> None:
        if int(fields[0]) not in self.cards:
            return say(CANNOT)
        wire(self.ask, int(fields[0]), fields[1] == "1")
        say(DONE)

    def acknowledge(self, statement: str, fields: Sequence[str], say: Say) -> None:
        """The poll command acknowledges as the processor does, and only the vector is missing."""
        self.load_counts()
        level = self.poll(0)
        chip = int(level == CASCADE)
        say(f"{self.base[chip] + (self.poll(1) if chip else level):02X}")

    def poll(self, chip: int) -> int:
        """The level that a chip acknowledges: 7 where none asks."""
        self.link.put(f"outb 0x{PICS[chip]:x} 0x{POLL:x}")
        said = self.link.ask(f"inb 0x{PICS[chip]:x}")
        return said & 7 if said & REQUEST else 7

    # ---- time

    def to(self, at: int) -> None:
        """Lets time go on to a nanosecond."""
        if at > self.link.now:
            self.link.put(f"clock_set {at}")
            self.link.now = at

    def load_counts(self) -> None:
        """Writes the counts that wait for a pulse, or for an access that would see them."""
        for command in self.counts:
            self.link.put(command)
        self.counts = []

    def pulse(self, statement: str, fields: Sequence[str], say: Say) -> None:
        if not self.has_time:
            return say(CANNOT)
        for pulses in (1, int(fields[0]) - 1):
            self.to(self.link.now + -(-pulses * SECOND // PIT_HERTZ))
            self.load_counts()
        say(DONE)

    def second(self, statement: str, fields: Sequence[str], say: Say) -> None:
        if not self.has_time:
            return say(CANNOT)
        self.seconds += 1
        self.to(self.begun + self.seconds * SECOND)
        say(DONE)

    # ---- what else comes from outside

    def receive(self, statement: str, fields: Sequence[str], say: Say) -> None:
        self.link.flush()
        self.link.send_to_com1(bytes([int(fields[0], 16)]))
        say(DONE)

    def bus_master(self, statement: str, fields: Sequence[str], say: Say) -> None:
        if not self.has_disk:
            return say(CANNOT)
        say(f"{bus_master(self.ask, statement):0{BUS_MASTER_DIGITS}X}")


class Machines:
    """The processes of QEMU: one for each machine, which goes back to its start for each script, or one for each
    script."""

    def __init__(self, options: Options) -> None:
        self.options, self.kept = options, dict[Setup, Link]()

    def begin(self, setup: Setup, statements: Sequence[str]) -> Link:
        """A process at its start. Its clock does not go back, and the counters have counted on since."""
        link = self.kept.pop(setup, None)
        if link and (link.now > MOST_AHEAD or sees_first_output(statements)):
            link.close()
            link = None
        if link is None or not link.back():
            link = Link(self.options, setup)
        return link

    def end(self, setup: Setup, link: Link, statements: Sequence[str]) -> None:
        """Keeps a process, but for one that may hold a byte back that COM1 did not take."""
        if self.options.is_fresh or any(it.startswith("receive") for it in statements):
            link.close()
        else:
            self.kept[setup] = link

    def answers_of(self, setup: Setup, statements: Sequence[str]) -> Iterator[str]:
        """An answer for each statement; MonitorEnded at the one where QEMU ended."""
        if any("vga" in card or not card.endswith(" plain m20") for card in setup.cards):
            yield from [CANNOT] * len(statements)
            return
        answers: list[Optional[str]] = [None] * len(statements)
        link: Optional[Link] = None
        try:
            link = self.begin(setup, statements)
            machine = Machine(link, setup)
            for at, statement in enumerate(statements):
                machine.do(statement, lambda answer, at=at: answers.__setitem__(at, answer))  # type: ignore[misc]
            machine.end()
        except MonitorEnded:
            if link:
                link.close()
            yield from (it for it in answers[: unanswered(answers)] if it)
            raise
        self.end(setup, link, statements)
        yield from (it for it in answers if it is not None)

    def close(self) -> None:
        for link in self.kept.values():
            link.close()


def sees_first_output(statements: Sequence[str]) -> bool:
    """Whether port 61h is read before counter 2 has a mode: its output then tells how long the machine has run."""
    for statement in statements:
        if statement == READ_PORT_B:
            return True
        if statement.startswith(TIMER_CONTROL) and int(statement[-2:], 16) >> 6 == SPEAKER_COUNTER:
            return False
    return False


def unanswered(answers: Sequence[Optional[str]]) -> int:
    """Where the first answer is missing: at the last one, where none is."""
    return next((at for at, answer in enumerate(answers) if answer is None), len(answers) - 1)
