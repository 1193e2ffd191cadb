"""What another monitor answers otherwise than the board: each byte of each value, with the row of
tools/traces/differences.py that tells it, and the place that tells two of one row apart."""
from dataclasses import dataclass
from typing import Callable, Iterator, Optional, Sequence

from shared.board_texts import Entry
from traces.difference_state import Byte, State, differing
from traces.differences import DATASHEET, Reason, reason_of

from .protocol import CANNOT, DONE, Adapter, is_dead
from .reference import answers_of, image_of
from .scripts import Script, reads

MIB = 1 << 20
NO_ANSWER = "no-answer"
CLOCK_DATA, SECOND, SECTOR = 0x71, "second", 512
AREAS = (
    (0x80000, 0x9FFFF, "80000"),
    (0xA0000, 0xBFFFF, "A0000"),
    (0xC0000, 0xDFFFF, "C0000"),
    (0xE0000, 0xEFFFF, "E0000"),
    (0xF0000, 0xFFFFF, "F0000"),
    (0xF00000, 0xFFFFFF, "F00000"),
    (0xFFF80000, 0xFFFDFFFF, "FFF80000"),
    (0xFFFE0000, 0xFFFEFFFF, "FFFE0000"),
    (0xFFFF0000, 0xFFFFFFFF, "FFFF0000"),
)
MOST_DRAM = 64 * MIB


@dataclass(frozen=True)
class Difference:
    """A byte that reads otherwise, or the statement at which the monitor ended."""

    index: int  # of its statement in the script
    entry: Entry  # the board's
    given: str  # the monitor's whole value
    cause: Reason
    place: str
    bits: int  # that differ

    @property
    def key(self) -> tuple[Reason, str]:
        """What makes it the same one, at the same place."""
        return self.cause, self.place


@dataclass(frozen=True)
class Asked:
    """A script that both answered. Statements that the monitor cannot do are left out for both, and counted."""

    script: Script
    entries: list[Entry]
    answers: list[str]
    left_out: int = 0
    view: str = ""  # how the monitor was asked, where that is not as a processor asks: `qtest`

    @property
    def values(self) -> int:
        """How many values were compared."""
        return sum(reads(statement) for statement in self.script.statements)

    def differences(self) -> list[Difference]:
        return list(differences_of(self))


def area_of(address: int) -> str:
    """The part of the address space that an address is in, as a place of a difference."""
    for first, last, name in AREAS:
        if first <= address <= last:
            return f"mem {name}"
    return "mem dram" if address < MOST_DRAM else "mem high"


def place_of(byte: Byte) -> str:
    word = byte.entry.words[0]
    if word not in ("r", "f", "in"):
        return word
    if byte.function:
        return f"{byte.function}.{byte.offset:02X}"
    if byte.is_memory:
        return area_of(byte.place)
    if byte.place == CLOCK_DATA:
        return f"71[{byte.state.clock_index:02X}]"
    return f"port {byte.place:04X}"


def place_of_entry(entry: Entry) -> str:
    """Where a statement goes, for one at which the monitor ended."""
    kind, _, register = entry.target.partition(":")
    if kind == "config":
        return register
    return f"port {entry.words[2]}" if entry.words[0] in ("in", "out") else kind


def differences_of(asked: Asked) -> Iterator[Difference]:
    """Each byte that reads otherwise, in the order of the script."""
    state = State(asked.script.setup.memory * MIB, image_of(asked.script.setup.rom), asked.view)
    state.disk.sectors = len(image_of(asked.script.setup.disk)) // SECTOR if asked.script.setup.disk else None
    state.clock.is_told = SECOND in asked.script.statements
    for index, (entry, given) in enumerate(zip(asked.entries, asked.answers)):
        if is_dead(given):
            place = f"{entry.words[0]} {place_of_entry(entry)}"
            cause = Reason(NO_ANSWER, DATASHEET, "", f"the monitor ends at {place}")
            yield Difference(index, entry, given, cause, place, 0)
            return
        if given not in (DONE, CANNOT, entry.value) and entry.value != DONE:
            for byte in differing(state, entry, given):
                yield Difference(index, entry, given, reason_of(byte), place_of(byte), byte.differing)
        state.note(entry)


def ask_again(adapter: Adapter, script: Script, answers: list[str], view: str = "") -> Asked:
    """What the board answers to a script that the monitor answered. Where the monitor cannot do a statement, both are
    asked without it."""
    cannot = {statement for statement, answer in zip(script.statements, answers) if answer == CANNOT}
    if not cannot:
        return Asked(script, answers_of(script), answers, view=view)
    less = script.without(cannot)
    again = adapter.ask([less])[0] if less.statements else []
    return Asked(less, answers_of(less), again, len(script.statements) - len(less.statements), view)


def ask_both(adapter: Adapter, script: Script, view: str = "") -> Asked:
    """What the monitor and the board answer to a script."""
    return ask_again(adapter, script, adapter.ask([script])[0], view)


def first_difference(asked: Asked, wanted: Callable[[Difference], bool]) -> Optional[Difference]:
    return next((it for it in differences_of(asked) if wanted(it)), None)


def keys_of(differences: Sequence[Difference]) -> list[tuple[Reason, str]]:
    """The keys of differences, each once, in their order."""
    return list(dict.fromkeys(it.key for it in differences))
