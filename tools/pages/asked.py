"""Questions to the board: statements that are replayed, cut into pieces that a script has room for."""
import pathlib
import tempfile
from typing import Iterable, Iterator

from shared.board_texts import Board, stop

MOST_STATEMENTS = 250_000  # of a script
VERSION = "0 look r 00000000"  # a look that is made for the version of the map
HARD_RESET = ["0 out b 0CF9 02", "0 out b 0CF9 06"]


class Asker:
    """The board of a script, asked what it replies to other statements."""

    def __init__(self, board: Board, script: str):
        self.board = board
        lines = script.split("\n")
        self.setup = [it for it in lines[: lines.index("phase")] if it and not it.startswith("#")]

    def of(self, word: str) -> list[list[str]]:
        """The fields of the setup lines that begin with a word."""
        return [line.split(" ")[1:] for line in self.setup if line.split(" ")[0] == word]

    def command(self, command: str, statements: Iterable[str]) -> list[str]:
        """The lines that a command writes of these statements."""
        with tempfile.NamedTemporaryFile("w", suffix=".script") as file:
            file.write("\n".join([*self.setup, "phase", *statements]) + "\n")
            file.flush()
            run = self.board.run(command, pathlib.Path(file.name))
        if run.returncode:
            stop(3, f"{command} of its statements: {run.stderr.strip() or run.returncode}")
        return run.stdout.splitlines()

    def replies(self, statements: list[str]) -> list[list[str]]:
        """Of each statement what stands behind the `=` of its line in the log."""
        if not statements:
            return []
        return [line.partition(" = ")[2].split(" ") for line in self.command("replay", statements)[1:]]


def pieces(groups: Iterable[list[str]], head: int = 0) -> Iterator[list[list[str]]]:
    """Groups of statements in runs that a script has room for, with so many statements before each run."""
    piece: list[list[str]] = []
    room = MOST_STATEMENTS - head
    for group in groups:
        if len(group) > room and piece:
            yield piece
            piece, room = [], MOST_STATEMENTS - head
        piece.append(group)
        room -= len(group)
    if piece:
        yield piece
