"""An adapter's own side: scripts on standard input, an answer to each statement on standard output.

    def answers_of(setup, statements):      yields one for each statement, and raises MonitorEnded where it ends
        ...
    serve(answers_of)
"""
import pathlib
import signal
import sys
from typing import Callable, Iterable, Iterator, Sequence

from .protocol import ENDED
from .scripts import BEGIN, END, PHASE, Setup

Answers = Callable[[Setup, Sequence[str]], Iterable[str]]


class MonitorEnded(Exception):
    """The monitor ended or hangs, at the statement whose answer is awaited."""


def setup_of(lines: Iterable[str]) -> Setup:
    """The machine of the lines between `board 2` and `phase`."""
    fields: dict[str, list[str]] = {}
    for line in lines:
        word, _, rest = line.partition(" ")
        fields.setdefault(word, []).append(rest)
    disk = pathlib.Path(fields["disk"][0]) if "disk" in fields else None
    return Setup(pathlib.Path(fields["rom"][0]), int(fields["memory"][0]), disk, tuple(fields.get("card", ())))


def scripts_given() -> Iterator[tuple[Setup, Sequence[str]]]:
    """The scripts on standard input."""
    setup: list[str] = []
    statements: list[str] = []
    into = setup
    for line in sys.stdin:
        text = line.rstrip("\n")
        if text == BEGIN:
            into = setup = []
        elif text == PHASE:
            into = statements = []
        elif text == END:
            yield setup_of(setup), statements
        else:
            into.append(text)


def serve(answers_of: Answers) -> None:
    """Answers scripts until standard input ends. A signal that ends it ends the monitor that was begun too."""
    signal.signal(signal.SIGTERM, lambda number, frame: sys.exit(128 + number))
    for setup, statements in scripts_given():
        try:
            for answer in answers_of(setup, statements):
                print(answer)
        except MonitorEnded as why:
            print(f"{ENDED} {why}")
        print(END, flush=True)
