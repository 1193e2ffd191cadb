"""The log of a script that may have more than 250,000 statements, as tools/from-trace --whole writes it: it is replayed
by chunks, each resumed from an image of the board that the chunks before it left.

An image has all that its board was asked, of which it holds 250,000 too. So what changes nothing is not asked again:
reads of memory and looks, accesses that nobody answered, reads of configuration registers, and a status of the disk that
was read before and nothing since. All else of the chunks before is, so that the log is that of one replay.
"""
import collections
import pathlib
import tempfile
from dataclasses import dataclass, replace
from typing import NoReturn

from refusals.script_reasons import MOST_STATEMENTS
from shared.board_texts import Board, Entry, entries, stop, text_of

REFUSED = 3  # the exit status where the program refuses the script
READS_OF_MEMORY = ("r", "f", "look")
UNCHANGED_BY_READS = ("config:", "confadd", "reset")  # targets, by how they begin
DISK_STATUS = ("01F7", "03F6")


@dataclass
class Long:
    """A script: its lines up to the first `phase`, and its statements."""

    file: pathlib.Path
    head: list[str]
    statements: list[str]

    @staticmethod
    def of(file: pathlib.Path) -> "Long":
        lines = text_of(file).split("\n")
        end = lines.index("phase") + 1 if "phase" in lines else len(lines)
        return Long(file, lines[:end], [line for line in lines[end:] if line[:1].isdigit()])

    def text(self, statements: list[str]) -> str:
        return "\n".join([*self.head, *statements]) + "\n"


def log_of(board: Board, file: pathlib.Path) -> list[Entry]:
    """The entries of the log of a script's replay. A script that the program refuses ends the tool."""
    script = Long.of(file)
    if len(script.statements) > MOST_STATEMENTS:
        return by_chunks(board, script, MOST_STATEMENTS)
    run = board.run("replay", file)
    if run.returncode:
        refuse(f"{file}: {run.stderr.strip() or run.returncode}; tools/explain {file} says more")
    return list(entries(run.stdout))


def by_chunks(board: Board, script: Long, most: int) -> list[Entry]:
    """The same, by so many statements at once."""
    log: list[Entry] = []
    asked: list[str] = []  # of the chunks before, as far as it changed anything
    turns: collections.Counter[int] = collections.Counter()  # of each processor
    for first in range(0, len(script.statements), most):
        chunk = script.statements[first : first + most]
        if len(asked) > MOST_STATEMENTS:
            refuse(f"{script.file}: the statements before {first + 1:,} change the board {len(asked):,} times, and an "
                   f"image holds {MOST_STATEMENTS:,}")
        done = resumed(board, script, asked, chunk)
        for entry in done:
            turns[entry.actor] += 1
            log.append(replace(entry, number=len(log) + 1, seq=turns[entry.actor]))
        asked += changing(done)
    return log


def resumed(board: Board, script: Long, asked: list[str], chunk: list[str]) -> list[Entry]:
    """The entries of some statements, after others were asked."""
    with tempfile.TemporaryDirectory() as room:
        before, image, after = (pathlib.Path(room, name) for name in ("before", "image", "after"))
        after.write_text(script.text(chunk), "latin-1")
        if asked:
            before.write_text(script.text(asked), "latin-1")
            image.write_bytes(said(board, script, "save", before).encode("latin-1"))
            return list(entries(said(board, script, "resume", image, after)))[len(asked) :]
        return list(entries(said(board, script, "replay", after)))


def said(board: Board, script: Long, command: str, *files: pathlib.Path) -> str:
    run = board.run(command, *files)
    if run.returncode:
        refuse(f"{script.file}: by chunks of {MOST_STATEMENTS:,} statements, {command}: {run.stderr.strip()}")
    return str(run.stdout)


def refuse(why: str) -> NoReturn:
    stop(REFUSED, why)


def changing(done: list[Entry]) -> list[str]:
    """The statements that may have changed the board."""
    found: list[str] = []
    for entry in done:
        if not is_idle(entry, found[-1] if found else ""):
            found.append(entry.line())
    return found


def is_idle(entry: Entry, before: str) -> bool:
    """Whether a statement left the board as it was, after another that may not have."""
    word, targets = entry.words[0], [target for target, _ in entry.replies]
    if word in READS_OF_MEMORY or all(target == "abort" for target in targets):
        return True
    if word != "in":
        return False
    if targets == ["ata"] and entry.words[2] in DISK_STATUS and entry.line() == before:
        return True
    return all(target.startswith(UNCHANGED_BY_READS) for target in targets)
