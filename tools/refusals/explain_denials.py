"""What denied the accesses of a script or of a log: the register by name, what it held and who wrote it."""
import pathlib
import tempfile
from dataclasses import dataclass
from typing import Optional

from refusals.denials import why
from refusals.script_reasons import MOST_STATEMENTS
from shared.board_texts import (
    BYTES_OF, OTHER_DENIALS, Board, Entry, Writers, entries, hint, register_text, stop, text_of,
)
from shared.tool_files import say


class Script:
    """A good script: its setup lines, and the statements of each phase."""

    def __init__(self, file: pathlib.Path, board: Board):
        self.file, self.board = file, board
        self.folder = board.folder
        text = text_of(file)
        self.size, self.lines = len(text), text.split("\n")
        self.setup: list[str] = []
        self.phases: list[list[str]] = []
        for number, line in enumerate(self.lines):
            if line == "phase":
                self.phases.append([])
            elif number == 0 or line and not line.startswith("#"):
                (self.phases[-1] if self.phases else self.setup).append(line)

    @property
    def has_disk(self) -> bool:
        return any(line.startswith("disk ") for line in self.setup)

    @property
    def version(self) -> int:
        return 2 if self.lines[0] == "board 2" else 1

    def replay(self, statements: Optional[list[str]] = None) -> list[Entry]:
        """The entries of the script's replay, or of these statements in its place."""
        if statements is None:
            return list(entries(self.log(self.file)))
        with tempfile.NamedTemporaryFile("w", suffix=".script") as it:
            it.write("\n".join([*self.setup, "phase", *statements]) + "\n")
            it.flush()
            return list(entries(self.log(pathlib.Path(it.name))))

    def log(self, file: pathlib.Path) -> str:
        run = self.board.run("replay", file)
        if run.returncode:
            stop(3, f"{self.file}: {run.stderr.strip() or f'the program ended with {run.returncode}'}")
        return run.stdout


# ---- denials


@dataclass
class Denied:
    """Denials of one register that the same statement wrote, or of nobody's place."""

    first: Entry
    denial: str
    writer: Optional[Entry]
    text: str  # where no register of configuration space did
    count: int = 0


def denied(log: list[Entry], has_disk: bool) -> list[Denied]:
    """The parts of accesses that were denied, in groups."""
    groups: dict[tuple, Denied] = {}
    writers, confadd = Writers(), 0
    for entry in log:
        for target, denial in entry.replies:
            if denial == "-":
                continue
            behind = writers.of((target, denial))
            is_other = denial in OTHER_DENIALS
            text = why(entry, denial, target, confadd, has_disk) if is_other else ""
            about = (text, entry.words[2]) if is_other else behind and behind.number
            group = groups.setdefault((denial, about), Denied(entry, denial, behind, text))
            group.count += 1
        writers.note(entry)
        confadd = confadd_after(entry, confadd, writers)
    return list(groups.values())


def confadd_after(entry: Entry, confadd: int, writers: Writers) -> int:
    """The configuration address after an entry."""
    if entry.target == "confadd" and entry.words[0] == "out":
        return int(entry.words[3], 16)
    return 0 if writers.reset is entry else confadd


def values_before(script: Script, log: list[Entry], groups: list[Denied]) -> list[str]:
    """What the register of each group holds before its first statement. Into one replay statements are put that read it
    and then write the configuration address as it was."""
    statements, places, confadd, wanted = [], [], 0, iter([*groups, None])
    group, writers = next(wanted), Writers()
    if len(log) + 3 * len(groups) > MOST_STATEMENTS:
        return ["not known: the script has no room for the reads"] * len(groups)
    for entry in log:
        while group is not None and group.first is entry:
            address, port = config_place(group.denial)
            width = "w" if group.denial in BYTES_OF else "b"
            statements += [f"0 out d 0CF8 {address:08X}", f"0 in {width} {port:04X}", f"0 out d 0CF8 {confadd:08X}"]
            places.append(len(statements) - 2)
            group = next(wanted)
        statements.append(entry.line())
        writers.note(entry)
        confadd = confadd_after(entry, confadd, writers)
    read = script.replay(statements)
    return [read[place].value for place in places]


def config_place(register: str) -> tuple[int, int]:
    """The configuration address and the port that reach a register."""
    device, function, offset = int(register[:2], 16), int(register[3]), int(register[5:], 16)
    return 1 << 31 | device << 11 | function << 8 | offset & 0xFC, 0xCFC + offset % 4


def denied_lines(it: Denied, value: Optional[str]) -> list[str]:
    more = f", and {it.count - 1} more" if it.count > 1 else ""
    lines = [f"denied: statement {it.first.number}: {it.first.line()}{more}"]
    if value is None:
        return [*lines, f"  {it.text}"]
    lines += [f"  by {register_text(it.denial)}, which is {value}"]
    lines += [f"  written by statement {it.writer.number}: {it.writer.line()}" if it.writer else "  as after a reset"]
    return [*lines, f"  {hint(it.denial)}"]


def denied_item(it: Denied, value: Optional[str]) -> dict:
    is_register = value is not None
    return {
        "item": "denied",
        "statement": it.first.number,
        "access": it.first.line(),
        "count": it.count,
        "denial": it.denial,
        "register": register_text(it.denial) if is_register else None,
        "value": value,
        "written": it.writer.line() if it.writer else None,
        "cause": hint(it.denial) if is_register else it.text,
    }


def explain_denials(script: Script, log_file: Optional[pathlib.Path], is_json: bool) -> None:
    """Says each denial of a script's replay, or of a log of it."""
    log = script.replay() if log_file is None else list(entries(text_of(log_file)))
    groups = denied(log, script.has_disk)
    by_register = [it for it in groups if it.denial not in OTHER_DENIALS]
    values = dict(zip(map(id, by_register), values_before(script, log, by_register) if by_register else []))
    for it in groups:
        value = values.get(id(it))
        say(is_json, denied_item(it, value), denied_lines(it, value))
    count, parts = sum(it.count for it in groups), sum(len(it.replies) for it in log)
    item = {"item": "denials", "denied": count, "parts": parts, "statements": len(log)}
    say(is_json, item, [f"denied: {count} of {parts} parts of {len(log)} statements"])
