"""What is asked of a monitor: a machine, and the statements that it does, in steps that belong together.

A statement is one of docs/FORMATS.md without the processor's number, or one of three more:

    second                              a second of the clock passes
    receive 41                          COM1 receives a byte
    bus_master in 00002000 5 1          1 sector from sector 5 on goes to memory by the table at 2000h; `out`: to the disk
"""
import pathlib
from dataclasses import dataclass, field
from typing import Iterable, Optional, Sequence

from shared import grammar
from shared.grammar import WIDTHS, Field, Form, number

ACCESSES_THAT_READ = ("r", "f", "in")
BUS_MASTER_DIGITS = VECTOR_DIGITS = 2
BEGIN, PHASE, END = "board 2", "phase", "end"

Step = Sequence[str]


@dataclass(frozen=True)
class Setup:
    """A machine: its memory in MiB, its ROM, its disk, and its cards as in a script, `2 vga m24`."""

    rom: pathlib.Path
    memory: int = 16
    disk: pathlib.Path | None = None
    cards: tuple[str, ...] = ()

    def lines(self) -> list[str]:
        """As an adapter reads it."""
        disk = [f"disk {self.disk.resolve()}"] if self.disk else []
        return [
            BEGIN,
            f"memory {self.memory}",
            f"rom {self.rom.resolve()}",
            *disk,
            *(f"card {it}" for it in self.cards),
            PHASE,
        ]

    def head(self) -> list[str]:
        """The first lines of the script that `board` reads, which names the images without their folder."""
        disk = [f"disk {self.disk.name}"] if self.disk else []
        return [
            BEGIN,
            "cpus 1",
            f"memory {self.memory}",
            f"rom {self.rom.name}",
            *disk,
            *(f"card {it}" for it in self.cards),
            PHASE,
        ]


@dataclass(frozen=True)
class Script:
    """Steps that a machine does from power-on. The first step is the prologue, which a shorter script keeps."""

    setup: Setup
    steps: tuple[tuple[str, ...], ...] = field(default=((),))

    @staticmethod
    def of(setup: Setup, steps: Iterable[Step]) -> "Script":
        return Script(setup, tuple(tuple(step) for step in steps))

    @property
    def statements(self) -> list[str]:
        return [statement for step in self.steps for statement in step]

    def without(self, statements: set[str]) -> "Script":
        """The same without these statements, wherever they stand."""
        return Script.of(self.setup, ([it for it in step if it not in statements] for step in self.steps))

    def lines(self) -> list[str]:
        """As an adapter reads it."""
        return [*self.setup.lines(), *self.statements, END]


def digits_of(statement: str) -> int:
    """How many digits the value has that a statement reads: 0 of one that reads nothing."""
    words = statement.split(" ")
    if words[0] in ACCESSES_THAT_READ:
        return 2 * WIDTHS[words[1]]
    return {"ack": VECTOR_DIGITS, "bus_master": BUS_MASTER_DIGITS}.get(words[0], 0)


def reads(statement: str) -> bool:
    return digits_of(statement) > 0


def direction(field: str, fields: list[str], version: int) -> Optional[str]:
    return None if field in ("in", "out") else f"a transfer is in or out, and not `{field}`"


# Beside those of a script, and without its look, which is a question to this board alone.
MORE = {
    "second": Form("second", "second"),
    "receive": grammar.RECEIVE,
    "bus_master": Form("bus_master in|out TABLE LBA COUNT", "bus_master in 00002000 5 1", (
        Field("its direction", direction), Field("its table", grammar.address),
        Field("its first sector", number("the sector")), Field("how many sectors", number("the number of sectors")))),
}
LOOK = "look"


def why_none(text: str) -> Optional[str]:
    """Why a text is no statement, or None."""
    word, *fields = text.split(" ")
    if word in MORE:
        return grammar.wrong_fields(word, fields, form=MORE[word])
    if word not in grammar.STATEMENTS or word == LOOK:
        return f"`{word}` is no word of a statement"
    return grammar.wrong_fields(word, fields) or grammar.out_of_range(["0", word, *fields])
