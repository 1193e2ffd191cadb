"""The cases: each with its name, its rule and its steps, in a file a device in cases/.

    device 82441FX                       what the cases of the file are of
    machine memory 16, disk d4           from here on: `rom r64` and `memory 16` where nothing else is said, `card 3
    plain m20`

    case pam-reserved                    its name
    rule 82441FX, PAM: the reserved bits read 0
    put 00.0.59 FF                       its steps, a line each, in the words of case_words.py
    get 00.0.59

A case begins with what sets its devices up: its first lines of `pic`, `ide`, `date` or ELCR are the prologue of its
script, which a shorter script keeps.

    each WINDOW FIRST                    the cases up to `done` once for each row, with {WINDOW} and {FIRST} in their
    lines;
                                         the last field of a row may have spaces
    | c0000 000C0000
    | c4000 000C4000
    case pam-{WINDOW}
    ..
    done
"""
import pathlib
import re
from dataclasses import dataclass, field, replace
from typing import Iterable, Iterator

from .case_words import CaseFault, steps_of
from .scripts import Script, Setup, reads

SET_UP = ("pic ", "ide", "date ", "outb 04D0 ", "outb 04D1 ")
FOLDER = pathlib.Path(__file__).resolve().parent / "cases"


@dataclass
class Case:
    """A case. What is right is what the board answers."""

    name: str
    device: str
    machine: str
    rule: str = ""
    steps: list[tuple[str, ...]] = field(default_factory=list)
    set_up: list[str] = field(default_factory=list)  # the statements of its first lines that only set devices up
    is_set_up: bool = False  # whether another line came

    def add(self, line: str) -> None:
        """Adds a line's steps. The first lines are the prologue as long as they set devices up: a shorter script
        keeps it."""
        steps = steps_of(line)
        statements = [statement for step in steps for statement in step]
        self.is_set_up = self.is_set_up or not line.startswith(SET_UP) or any(map(reads, statements))
        if self.is_set_up:
            self.steps += [tuple(step) for step in steps]
        else:
            self.set_up += statements

    def script(self, images: pathlib.Path, rom: pathlib.Path | None = None) -> Script:
        """Its script, with the images of a folder; a ROM that is given stands for each ROM of its size."""
        setup = Setup(images / "r64")
        for text in filter(None, self.machine.split(", ")):
            word, _, value = text.partition(" ")
            if word == "memory":
                setup = replace(setup, memory=int(value))
            elif word == "rom":
                setup = replace(setup, rom=images / value)
            elif word == "disk":
                setup = replace(setup, disk=images / value)
            elif word == "card":
                setup = replace(setup, cards=(*setup.cards, value))
            else:
                raise CaseFault(f"{self.name}: machine {text}")
        return Script.of(replace(setup, rom=rom) if rom else setup, [self.set_up, *self.steps])


def expanded(lines: Iterable[str]) -> Iterator[str]:
    """The lines without comments, and those of each table once for each of its rows."""
    names: list[str] = []
    rows: list[list[str]] = []
    body: list[str] | None = None
    for line in (it.rstrip() for it in lines):
        if not line or line.startswith("#"):
            continue
        if line.startswith("each "):
            names, rows, body = line.split()[1:], [], []
        elif line.startswith("| ") and body is not None:
            rows.append(line[2:].split(None, len(names) - 1))
            if len(rows[-1]) != len(names):
                raise CaseFault(f"{line}: {len(names)} fields")
        elif line == "done" and body is not None:
            for row in rows:
                values = dict(zip(names, row))
                yield from (re.sub(r"\{(\w+)\}", lambda found: values[str(found[1])], it) for it in body)
            body = None
        elif body is not None:
            body.append(line)
        else:
            yield line


def cases_of(file: pathlib.Path) -> list[Case]:
    """The cases of a file."""
    found: list[Case] = []
    device = machine = ""
    for line in expanded(file.read_text(encoding="ascii").splitlines()):
        word, _, rest = line.partition(" ")
        if word == "device":
            device = rest
        elif word == "machine":
            machine = rest
        elif word == "case":
            found.append(Case(rest, device, machine))
        elif not found:
            raise CaseFault(f"{file.name}: {line}: before the first case")
        elif word == "rule":
            found[-1].rule = rest
        else:
            try:
                found[-1].add(line)
            except CaseFault as fault:
                raise CaseFault(f"{file.name}: case {found[-1].name}: {fault}") from None
    return found


def all_cases(folder: pathlib.Path = FOLDER) -> list[Case]:
    """All cases, file by file."""
    cases = [case for file in sorted(folder.glob("*.cases")) for case in cases_of(file)]
    names = [case.name for case in cases]
    twice = {name for name in names if names.count(name) > 1}
    lacks = [case.name for case in cases if ": " not in case.rule or not case.steps]
    if twice or lacks:
        raise CaseFault(f"named twice: {sorted(twice)}; without a rule or steps: {lacks}")
    return cases
