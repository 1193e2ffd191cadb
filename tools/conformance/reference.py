"""The board itself: what a script has to answer, as the entries of a log.

The library for C is found as the Python binding finds it: in $BOARD_DIR, by pkg-config, or packed in release/.
"""
import pathlib
import sys
import threading

from shared.board_texts import ROOT, Entry, entry_of, stop

from .scripts import Script, Setup

sys.path.insert(0, str(ROOT / "bindings/python"))
try:
    from board440fx import Board, BoardError, Event
    from board440fx.library import library
except ModuleNotFoundError:
    stop(2, "the Python module board440fx is not there: pip install the repository's bindings/python")

from .bus_master import done_by

MOST_EVENTS_KEPT = 1 << 16
_loading = threading.Lock()  # of the library, which the first board loads
_events: dict[str, Event] = {}
_images: dict[pathlib.Path, tuple[int, bytes]] = {}


def event_of(statement: str) -> Event:
    """The event of a statement, which is parsed once."""
    if statement not in _events:
        if len(_events) >= MOST_EVENTS_KEPT:
            _events.clear()
        _events[statement] = Event.parse(statement)
    return _events[statement]


def image_of(file: pathlib.Path) -> bytes:
    """The bytes of a ROM or a disk, which are read once as long as the file stays as it is."""
    changed = file.stat().st_mtime_ns
    if file not in _images or _images[file][0] != changed:
        _images[file] = changed, file.read_bytes()
    return _images[file][1]


class Machine:
    """The board after power-on, which does one statement after another."""

    def __init__(self, setup: Setup) -> None:
        disk = image_of(setup.disk) if setup.disk else b""
        with _loading:
            library()
        self.board = Board(memory=setup.memory, cards=setup.cards, rom=image_of(setup.rom), disk=disk)
        self.number = 0

    def close(self) -> None:
        self.board.close()

    def do(self, statement: str) -> Entry:
        """Does a statement, and gives its entry of the log. The board's statement of it stands in it: a second is the
        moment that it came to. What the board refuses, such as a second while the clock stands, does nothing."""
        self.number += 1
        word = statement.partition(" ")[0]
        try:
            if word == "bus_master":
                return self.entry(statement, f"{done_by(self.board, statement):02X} ata -")
            answer = self.board.second() if word == "second" else self.board.step(event_of(statement))
        except BoardError:
            return self.entry(statement, "- none -")
        return self.entry(str(answer.event), str(answer.reply))

    def entry(self, statement: str, answer: str) -> Entry:
        found = entry_of(f"{self.number} 0.{self.number} {statement} = {answer}")
        assert found is not None, (statement, answer)
        return found


def answers_of(script: Script) -> list[Entry]:
    """What the board answers to each statement of a script."""
    machine = Machine(script.setup)
    try:
        return [machine.do(statement) for statement in script.statements]
    finally:
        machine.close()
