"""An adapter for tools/conform, by this module's events: fill Monitor with calls of your own monitor. Here it is the board.

    tools/conform --adapter 'python3 bindings/python/examples/adapter.py'
"""
import pathlib
import sys

sys.path.insert(0, str(pathlib.Path(__file__).resolve().parents[1]))  # where the module is not installed

from board440fx import Board, BoardError, Event


class Cannot(Exception):
    """The monitor cannot do this: it is answered with `?`."""


class Monitor:
    """A machine as after power-on."""

    def __init__(self, memory: int, rom: bytes, disk: bytes, cards: list[str]) -> None:
        self.board = Board(memory=memory, rom=rom, disk=disk, cards=cards)

    def step(self, event: Event) -> int | None:
        """Does an event; the value where it reads one."""
        return self.board.step(event).value

    def second(self) -> None:
        """Lets a second pass. The clock may be held."""
        try:
            self.board.second()
        except BoardError:
            pass

    def close(self) -> None:
        self.board.close()


def answer(monitor: Monitor, statement: str) -> str:
    """The line that answers a statement."""
    try:
        if statement == "second":
            monitor.second()
            return "-"
        if statement.startswith("bus_master"):
            raise Cannot
        event = Event.parse(statement)
        value = monitor.step(event)
        return "-" if value is None else f"{value:0{event.digits()}X}"
    except Cannot:
        return "?"


def main() -> None:
    setup: dict[str, str] = {}
    cards: list[str] = []
    monitor: Monitor | None = None
    for line in map(str.rstrip, sys.stdin):
        word, _, rest = line.partition(" ")
        if monitor and line == "end":
            monitor.close()
            monitor = None
            print("end", flush=True)
        elif monitor:
            print(answer(monitor, line))
        elif line == "board 2":
            setup, cards = {}, []
        elif line == "phase":
            rom, disk = (pathlib.Path(setup[it]).read_bytes() if it in setup else b"" for it in ("rom", "disk"))
            monitor = Monitor(int(setup["memory"]), rom, disk, cards)
        elif word == "card":
            cards.append(rest)
        else:
            setup[word] = rest


main()
