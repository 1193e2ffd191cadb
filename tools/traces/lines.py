"""What monitors print of their accesses, line by line: QEMU's trace, the kernel's tracepoints of KVM, and a plain form
for all others; Bochs has a file of its own. Each reader gives the events of its lines. What a line tells is taken as it
stands here; what the board makes of it is decided in convert."""
import re
from dataclasses import dataclass, replace
from typing import Callable, Iterator, Optional

from shared import grammar


class Broken(Exception):
    """A line is not what its form asks."""


@dataclass
class Event:
    """What one line of a trace tells."""

    line: int  # its number in the trace, from 1
    word: str  # in, out, r, f, w, line, ack, pulse, moment; or `function`, which names a function of PCI
    cpu: int = 0  # the processor, or -1 where it was none
    place: int = 0  # the port or the address, the number of the line, the vector, the pulses
    size: int = 1  # in bytes
    value: Optional[int] = None  # what was written or read; the level. None where the trace does not tell it
    name: str = ""  # what the monitor calls the device
    text: str = ""  # the moment, or the function as 00:01.3
    smm: bool = False
    second: Optional[float] = None  # since 1970, where the trace has it
    count: int = 1  # how often, in an access of a string instruction, of which the first value alone is told

    @property
    def is_read(self) -> bool:
        return self.word in ("in", "r", "f")

    @property
    def is_port(self) -> bool:
        return self.word in ("in", "out")


Reader = Callable[[int, str], Optional[Event]]


def fields(pattern: str, line: str, what: str) -> tuple[str, ...]:
    """The parts of a line that has to have a form."""
    match = re.fullmatch(pattern, line)
    if match is None:
        raise Broken(f"not the form of {what}")
    return match.groups()


# ---- QEMU: -trace 'memory_region_ops_*' -trace 'pci_cfg_*' -trace 'pic_*', best with -msg timestamp=on

STAMP = r"(?:\d+@(\d+\.\d+):)?"
OPERATION = (
    r"memory_region_ops_(read|write) cpu (-?\d+) mr 0x[0-9a-f]+ addr (0x[0-9a-f]+) value (0x[0-9a-f]+) "
    r"size ([1248]) name '([^']*)'"
)
FUNCTION = r"pci_cfg_(?:read|write) (\S+) ([0-9a-f]{2}:[0-9a-f]{2}\.[0-7]) @0x[0-9a-f]+ (?:->|<-) 0x[0-9a-f]+"
SET_IRQ = r"pic_set_irq master ([01]) irq ([0-7]) level ([01])"
INTERRUPT = r"pic_interrupt irq (\d+) intno (\d+)"


def qemu(number: int, line: str) -> Optional[Event]:
    """A line of QEMU's log of trace events. Other events, and lines that no event begins, tell nothing."""
    second, rest = fields(STAMP + "(.*)", line, "a trace event")
    if not re.match(r"[a-z0-9_]+ ", rest):
        raise Broken("not the form of a trace event")
    event = qemu_event(rest)
    return event and replace(event, line=number, second=float(second) if second else None)


def qemu_event(rest: str) -> Optional[Event]:
    if rest.startswith("memory_region_ops_"):
        what, cpu, place, value, size, name = fields(OPERATION, rest, "memory_region_ops_read and _write")
        return qemu_access(what == "read", int(cpu), int(place, 16), int(value, 16), int(size), name)
    if rest.startswith("pci_cfg_"):
        name, function = fields(FUNCTION, rest, "pci_cfg_read and _write")
        return Event(0, "function", name=name, text=function)
    if rest.startswith("pic_set_irq "):
        master, line, level = map(int, fields(SET_IRQ, rest, "pic_set_irq"))
        return Event(0, "line", place=line + 8 * (1 - master), value=level)
    if rest.startswith("pic_interrupt "):
        _, vector = fields(INTERRUPT, rest, "pic_interrupt")
        return Event(0, "ack", value=int(vector))
    return None


def qemu_access(is_read: bool, cpu: int, place: int, value: int, size: int, name: str) -> Event:
    """A port lies below 10000h, and what shows there is never memory, as main memory has no operations."""
    words = ("in", "out") if place < 0x10000 else ("r", "w")
    return Event(0, words[0 if is_read else 1], cpu, place, size, value % (1 << 8 * size), name)


# ---- KVM: the tracepoints kvm_pio, kvm_mmio, kvm_set_irq and kvm_inj_virq, as ftrace, `perf script` and `perf trace
# --libtraceevent_print` print them: `kvm_pio: ..`, `kvm:kvm_pio: ..` and `kvm:kvm_pio(..)`

TRACEPOINT = re.compile(r".*?\b(?:kvm:)?(kvm_(?:pio|mmio|set_irq|inj_virq))(?::\s*(.*?)|\((.*?)\s*\))\s*")
PIO = r"pio_(read|write) at (0x[0-9a-f]+) size ([124]) count (\d+) val (0x[0-9a-f]+)(?: \(\.\.\.\))?"
MMIO = r"mmio (read|write|unsatisfied-read) len ([1-8]) gpa (0x[0-9a-f]+) val (0x[0-9a-f]+)"
KVM_IRQ = r"gsi (\d+) level ([01]) source \d+"
INJECTED = r"(?:IRQ (0x[0-9a-f]+)|irq (\d+))( \[reinjected\])?"


class Kvm:
    """Reads lines of the kernel's tracepoints. A processor is that of `CPU N/KVM`, or else each task that is seen has
    the next number."""

    def __init__(self) -> None:
        self.tasks: dict[str, int] = {}

    def __call__(self, number: int, line: str) -> Optional[Event]:
        if line.startswith("#"):
            return None
        match = TRACEPOINT.fullmatch(line)
        if match is None:
            if not re.search(r"\b\w+(:\s|\()", line):
                raise Broken("not the form of a tracepoint")
            return None
        name, rest, in_brackets = match.groups()
        event = self.event(name, in_brackets if rest is None else rest)
        if event is None:
            return None
        return replace(event, line=number, cpu=self.processor(line) if event.word not in ("line", "ack") else 0)

    def processor(self, line: str) -> int:
        named = re.search(r"CPU (\d+)/KVM", line)
        if named:
            return int(named[1])
        task = line.split(None, 1)[0]
        return self.tasks.setdefault(task, len(self.tasks))

    @staticmethod
    def event(name: str, rest: str) -> Optional[Event]:
        if name == "kvm_pio":
            what, port, size, count, value = fields(PIO, rest, "kvm_pio")
            word = "in" if what == "read" else "out"
            return Event(0, word, 0, int(port, 16), int(size), int(value, 16), count=int(count))
        if name == "kvm_mmio":
            what, size, address, value = fields(MMIO, rest, "kvm_mmio")
            word = {"read": "r", "write": "w", "unsatisfied-read": ""}[what]
            return Event(0, word, 0, int(address, 16), int(size), int(value, 16)) if word else None
        if name == "kvm_set_irq":
            line, level = map(int, fields(KVM_IRQ, rest, "kvm_set_irq"))
            return Event(0, "line", place=line, value=level)
        if rest.startswith("Soft/INTn "):
            return None
        new, old, again = fields(INJECTED, rest, "kvm_inj_virq")
        return None if again else Event(0, "ack", value=int(new, 16) if new else int(old))


# ---- the plain form: a statement of a script, what it read, and whose it was

PLAIN = ("in", "out", "r", "f", "w", "ack", "irq", "pulse", "moment")
READS = ("in", "r", "f", "ack")
LAST_CPU = 7
GIVEN = re.compile("(?:0x)?([0-9A-Fa-f]{1,16})")


def plain(number: int, line: str) -> Optional[Event]:
    """`CPU STATEMENT [= VALUE] [# NAME]`, where hexadecimal numbers may have fewer digits than in a script."""
    if not line or line.startswith("#"):
        return None
    text, _, name = line.partition(" # ")
    statement, _, given = text.partition(" = ")
    cpu, _, rest = statement.partition(" ")
    word, *fields = rest.split(" ")
    if word not in PLAIN:
        raise Broken(f"none of {', '.join(PLAIN)}")
    fields = in_full(word, fields)
    wrong = grammar.decimal("the processor", cpu) or grammar.wrong_fields(word, fields)
    if wrong:
        raise Broken(wrong)
    event = plain_event(word, fields, read_value(word, given))
    smm = grammar.has_smm(grammar.FORMS[word], fields)
    event = replace(event, line=number, cpu=int(cpu), name=name, smm=smm)
    check_range(event)
    return event


def in_full(word: str, fields: list[str]) -> list[str]:
    """Fields with as many hexadecimal digits as a script has, where they have no more."""
    digits = {grammar.PLACE: 8, grammar.PORT: 4, grammar.VALUE: grammar.DIGITS.get(fields[0], 0) if fields else 0}
    asked = [digits.get(field, 0) for field in grammar.FORMS[word].fields] + [0] * len(fields)
    return [re.sub("^0x", "", text).lstrip("0").rjust(count, "0") if count and text else text
            for text, count in zip(fields, asked)]


def read_value(word: str, given: str) -> Optional[int]:
    """What a statement read."""
    match = GIVEN.fullmatch(given)
    if given and (match is None or word not in READS):
        raise Broken(f"`{given}` is no value that `{word}` reads")
    return int(match[1], 16) if match else None


def plain_event(word: str, fields: list[str], given: Optional[int]) -> Event:
    numbers = grammar.numbers_of(grammar.FORMS[word], fields)
    if word in ("in", "r", "f", "out", "w"):
        size, place, *written = numbers
        return Event(0, word, place=place, size=size, value=written[0] if written else given)
    if word == "moment":
        out_of_calendar = grammar.no_moment(fields[0])
        if out_of_calendar:
            raise Broken(out_of_calendar)
        return Event(0, word, text=fields[0])
    if word == "irq":
        line, level = numbers
        if level > 1:
            raise Broken(f"the level is {level}, and not 0 or 1")
        return Event(0, "line", place=line, value=level)
    return Event(0, word, value=given) if word == "ack" else Event(0, word, place=numbers[0])


def check_range(event: Event) -> None:
    """Refuses a processor, a place or a value that is more than there can be."""
    if event.cpu > LAST_CPU:
        raise Broken(f"processor {event.cpu}, and a script has no more than {LAST_CPU}")
    last = 0xFFFF if event.is_port else 0xFFFF_FFFF
    if event.place + event.size - 1 > last:
        raise Broken("past the last port or address")
    if event.value is not None and event.value >> 8 * event.size:
        raise Broken("a value of more bytes than are accessed")
    if event.is_port and event.size == 8:
        raise Broken("a port of eight bytes")


def bochs_reader() -> Reader:
    from traces.bochs import bochs  # which takes the event from here

    return bochs


READERS: dict[str, Callable[[], Reader]] = {
    "qemu": lambda: qemu,
    "kvm": Kvm,
    "bochs": bochs_reader,
    "plain": lambda: plain,
}
# What a trace of each form has to have, so that it tells anything.
LOOKED_FOR = {
    "qemu": "lines `memory_region_ops_read cpu 0 mr .. addr .. value .. size .. name '..'`, as -trace "
    "'memory_region_ops_*' -D FILE writes them",
    "kvm": "lines `kvm_pio: pio_read at 0x.. size .. count .. val 0x..`, as the kernel's tracepoints print them",
    "bochs": "lines `event at t=.. IO addr=0x.. size=.. op=read val=0x..`, as its debugger prints them with "
    "bx_guard.report.io",
    "plain": "lines `0 in b 71 = 26`, `0 r d FFFFFFF0 = ..`",
}


def events(form: str, lines: list[str]) -> Iterator[Event]:
    """The events of a trace. Raises Broken with the number of the first line that is broken."""
    reader = READERS[form]()
    for number, line in enumerate(lines, 1):
        try:
            event = reader(number, line) if line.strip() or form == "plain" else None
            if event is not None:
                check_range(event)
                yield event
        except Broken as why:
            raise Broken(f"line {number}: {why}") from None
