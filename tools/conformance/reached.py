"""Which cases reach each register, port and target of docs/DEFINITIONS.md: what answered them, and what denied them."""
import pathlib
from dataclasses import dataclass
from typing import Iterable, Sequence

from shared.board_texts import WIDTHS, Entry, register_name

from .case_files import Case
from .reference import answers_of

# The registers by the first and the last of their bytes; what answers, and what denies, as in a log.
# made by tools/make-names: reached
REGISTERS: dict[str, list[tuple[int, int]]] = {
    "00.0": [
        (0x00, 0x01),
        (0x02, 0x03),
        (0x04, 0x05),
        (0x06, 0x07),
        (0x08, 0x08),
        (0x09, 0x0B),
        (0x0E, 0x0E),
        (0x59, 0x59),
        (0x5A, 0x5A),
        (0x5B, 0x5B),
        (0x5C, 0x5C),
        (0x5D, 0x5D),
        (0x5E, 0x5E),
        (0x5F, 0x5F),
        (0x60, 0x60),
        (0x61, 0x61),
        (0x62, 0x62),
        (0x63, 0x63),
        (0x64, 0x64),
        (0x65, 0x65),
        (0x66, 0x66),
        (0x67, 0x67),
        (0x68, 0x68),
        (0x72, 0x72),
    ],
    "01.0": [
        (0x00, 0x01),
        (0x02, 0x03),
        (0x04, 0x05),
        (0x06, 0x07),
        (0x08, 0x08),
        (0x09, 0x0B),
        (0x0E, 0x0E),
        (0x4E, 0x4F),
        (0x60, 0x60),
        (0x61, 0x61),
        (0x62, 0x62),
        (0x63, 0x63),
    ],
    "01.1": [
        (0x00, 0x01),
        (0x02, 0x03),
        (0x04, 0x05),
        (0x06, 0x07),
        (0x08, 0x08),
        (0x09, 0x0B),
        (0x0E, 0x0E),
        (0x40, 0x41),
    ],
    "DD.0": [
        (0x04, 0x05),
        (0x10, 0x27),
        (0x30, 0x33),
        (0x3C, 0x3C),
        (0x3D, 0x3D),
    ],
}
TARGETS = {
    "confadd": "the configuration address",
    "reset": "reset control",
    "pic0": "the master 8259A",
    "pic1": "the slave 8259A",
    "pit": "the 8254",
    "sys": "port 61h",
    "kbd": "the keyboard controller's socket",
    "clock": "the clock",
    "elcr": "edge and level control",
    "ata": "the disk",
    "vec0": "a vector of the master",
    "vec1": "a vector of the slave",
    "spur0": "level 7 of the master",
    "spur1": "level 7 of the slave",
    "dram": "DRAM",
    "shadow": "a shadow window",
    "smram": "SMRAM",
    "rom": "the ROM",
    "card": "a card",
    "abort": "nobody",
}
DENIALS = {
    "00.0.5": "a PAM register",
    "00.0.67": "DRB7",
    "00.0.68": "FDHC",
    "00.0.72": "SMRAM",
    "01.0.4E": "XBCS",
    "01.1.04": "the command of 01.1",
    "01.1.40": "IDETIM",
    "DD.0.04": "a card's command",
    "DD.0.30": "an expansion ROM's register",
    "confadd": "the configuration address",
    "none": "no register",
}
# end of what is made
STATEMENTS = {  # what no reply names: COM1, and what the world outside does
    "com1": "COM1",
    "time": "a second",
    "pulse": "pulses of the 8254",
    "wire": "INTA# of a card",
    "irq": "a line",
    "bad": "a bad sector",
}
EXAMPLES = 3


@dataclass(frozen=True)
class Row:
    """A thing that can be reached, and the cases that do."""

    kind: str
    name: str
    what: str
    cases: tuple[str, ...]

    def text(self) -> str:
        """As a row of a table."""
        more = f" and {len(self.cases) - EXAMPLES} more" if len(self.cases) > EXAMPLES else ""
        named = ", ".join(self.cases[:EXAMPLES]) + more if self.cases else "none"
        return f"| {self.kind} | {self.name} | {self.what} | {named} |"


def with_card(function: str) -> str:
    """A function, where DD stands for the device of a card."""
    return function if function in REGISTERS else f"DD.{function[3:]}"


def registers_of(entry: Entry) -> Iterable[tuple[str, int]]:
    """The bytes of configuration space that an entry accesses."""
    kind, _, register = entry.target.partition(":")
    if kind == "config":
        first = int(register[5:], 16)
        yield from ((with_card(register[:4]), at) for at in range(first, first + WIDTHS[entry.words[1]]))


def marks_of(entry: Entry) -> set[tuple[str, str]]:
    """What an entry reaches, as kind and name."""
    found: set[tuple[str, str]] = set()
    for function, at in registers_of(entry):
        found.update(
            ("register", f"{function}.{first:02X}")
            for first, last in REGISTERS.get(function, ())
            if first <= at <= last
        )
    for target, denial in entry.replies:
        found.add(("target", target.partition(":")[0]))
        register = f"{with_card(denial[:4])}{denial[4:]}" if denial[2:3] == "." else denial
        found.update(("denial", it) for it in DENIALS if register.startswith(it))
    if entry.words[0] in ("pulse", "wire", "irq", "bad"):
        found.add(("target", entry.words[0]))
    if entry.words[0] == "moment":
        found.add(("target", "time"))
    if entry.words[0] == "receive" or com1_port(entry):
        found.add(("target", "com1"))
    return found


def com1_port(entry: Entry) -> bool:
    return entry.words[0] in ("in", "out") and 0x3F8 <= int(entry.words[2], 16) <= 0x3FF


def rows(cases: Sequence[Case], images: pathlib.Path) -> list[Row]:
    """A row for each register, target and denial, with the cases that reach it."""
    reached: dict[tuple[str, str], dict[str, None]] = {}
    for case in cases:
        for entry in answers_of(case.script(images)):
            for mark in marks_of(entry):
                reached.setdefault(mark, {})[case.name] = None
    named = [
        ("register", f"{function}.{first:02X}", register_name(f"{function.replace('DD', '02')}.{first:02X}"))
        for function, registers in REGISTERS.items()
        for first, _ in registers
    ]
    named += [("target", name, what) for name, what in {**TARGETS, **STATEMENTS}.items()]
    named += [("denial", name, what) for name, what in DENIALS.items()]
    return [Row(kind, name, what, tuple(reached.get((kind, name), ()))) for kind, name, what in named]


def table(cases: Sequence[Case], images: pathlib.Path) -> list[str]:
    """The table as lines of Markdown."""
    return ["| Kind | Name | What | Cases |", "|---|---|---|---|", *(row.text() for row in rows(cases, images))]
