"""What changed with an answer, for a monitor that passes it on."""
from dataclasses import dataclass
from typing import Iterator

from .replies import Answer, Now, Reset, lines_in


@dataclass(frozen=True)
class Seen:
    """What an answer brought: the levels of the interrupt lines before and now, the lines that rose, those also that have
    fallen again, the byte that COM1 sent, the reset, and whether the map may be another."""

    interrupt: bool
    before: int
    lines: int
    rose: int
    sent: int | None
    reset: Reset
    map_changed: bool

    @property
    def risen(self) -> tuple[int, ...]:
        """The numbers of the lines that rose."""
        return lines_in(self.rose)

    @property
    def levels(self) -> list[tuple[int, bool]]:
        """The levels that another interrupt controller is told, in this order: those of the lines that moved. Of one that
        rose also its 1, and before that a 0 where it was at 1."""
        return [(line, level) for line in range(16) for level in self._levels_of(line)]

    def _levels_of(self, line: int) -> Iterator[bool]:
        was, is_high, has_risen = (bool(bits >> line & 1) for bits in (self.before, self.lines, self.rose))
        if was and (has_risen or not is_high):
            yield False
        if has_risen:
            yield True
            if not is_high:
                yield False


class Watch:
    """What a monitor passes on after a step, by the answers one after another; it asks the board nothing."""

    def __init__(self, now: Now) -> None:
        self._version, self._lines = now.version, now.lines

    def see(self, answer: Answer) -> Seen:
        """What an answer brings after those that were seen."""
        seen = Seen(
            interrupt=answer.interrupt,
            before=self._lines,
            lines=answer.lines,
            rose=answer.rose | answer.lines & ~self._lines,
            sent=answer.sent,
            reset=answer.reset,
            map_changed=answer.version != self._version,
        )
        self._version, self._lines = answer.version, answer.lines
        return seen
