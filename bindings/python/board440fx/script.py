"""Scripts, and their replay as the lines of a log."""
import pathlib
from dataclasses import dataclass
from typing import Iterator

from . import grammar
from .board import Board
from .cards import Card
from .errors import BoardError
from .events import Event
from .replies import Answer


_CHECKED = set(grammar.SETUP) - {"board", "card"}  # whose fields are looked at here


class ScriptError(ValueError):
    """A line that a script cannot have."""


@dataclass(frozen=True)
class Line:
    """A line of a log: its number, the processor, which of the processor's statements it is, event and answer."""

    number: int
    processor: int
    statement: int
    event: Event
    answer: Answer

    def __str__(self) -> str:
        return f"{self.number} {self.processor}.{self.statement} {self.event} = {self.answer.reply}"

    def __repr__(self) -> str:
        return f"<{self}>"


@dataclass(frozen=True)
class Script:
    """A script: its setup, and its statements with their processors. ROM and disk are names of files."""

    version: int
    cpus: int
    memory: int
    rom: str
    disk: str | None
    cards: tuple[Card, ...]
    statements: tuple[tuple[int, Event], ...]

    @staticmethod
    def parse(text: str) -> "Script":
        """Of its text. What the board itself refuses, as an address that is not aligned, shows at the replay."""
        setup: dict[str, str] = {}
        cards: list[Card] = []
        statements: list[tuple[int, Event]] = []
        in_phase = False
        for number, line in enumerate(text.removesuffix("\n").split("\n"), 1):
            word, _, rest = line.partition(" ")
            if number > 1 and (not line or line.startswith("#")):
                continue
            try:
                wrong = grammar.wrong_fields(word, line.split(" ")[1:]) if word in _CHECKED else None
                if wrong:
                    raise ScriptError(wrong)
                if word == "phase":
                    in_phase = True
                elif in_phase:
                    statements.append((int(word), Event.parse(rest)))
                elif word == "card":
                    cards.append(Card.parse(rest))
                elif word in setup or (word == "board") != (number == 1) or word not in grammar.SETUP:
                    raise ScriptError("it stands where no such line can")
                else:
                    setup[word] = rest
            except (ValueError, BoardError) as fault:
                raise ScriptError(f"line {number}: {line}: {fault}") from fault
        return Script._of(setup, tuple(cards), tuple(statements))

    @staticmethod
    def _of(setup: dict[str, str], cards: tuple[Card, ...], statements: tuple[tuple[int, Event], ...]) -> "Script":
        try:
            version, cpus, memory = (int(setup[word]) for word in ("board", "cpus", "memory"))
            rom = setup["rom"]
        except (KeyError, ValueError) as fault:
            raise ScriptError(f"the setup: {fault}") from fault
        if any(processor >= cpus for processor, _ in statements):
            raise ScriptError(f"a processor is not below {cpus}")
        return Script(version, cpus, memory, rom, setup.get("disk"), cards, statements)

    def open(self, folder: pathlib.Path) -> Board:
        """Its board, with the ROM and the disk of a folder."""
        disk = (folder / self.disk).read_bytes() if self.disk else b""
        return Board(self.memory, self.cards, (folder / self.rom).read_bytes(), disk)

    def replay(self, folder: pathlib.Path) -> Iterator[Line]:
        """Does its statements in order, and gives the lines of its log."""
        counts = [0] * self.cpus
        with self.open(folder) as board:
            for number, (processor, event) in enumerate(self.statements, 1):
                counts[processor] += 1
                yield Line(number, processor, counts[processor], event, board.step(event))


def replay(path: str | pathlib.Path) -> Iterator[Line]:
    """The lines of the log of a script, whose ROM and disk lie beside it."""
    path = pathlib.Path(path)
    return Script.parse(path.read_text(encoding="utf-8")).replay(path.parent)
