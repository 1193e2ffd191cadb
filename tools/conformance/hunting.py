"""Random scripts asked of a monitor until a budget is used up, and the causes behind what differs."""
import itertools
import pathlib
import time
from dataclasses import dataclass, field
from typing import Iterator, Optional, Sequence

from traces.differences import Reason

from .areas import Area
from .compare import Asked, Difference, ask_again
from .protocol import Adapter
from .shrink import Shown, of_cause, same_as, shows, shrink

AT_ONCE = 16  # scripts that are asked before the first is compared


@dataclass(frozen=True)
class Budget:
    """How long a hunt goes on: no more cases, and none that begins after so many seconds."""

    seconds: Optional[float]
    cases: Optional[int]

    def left(self, done: int, begun: float) -> int:
        """How many cases may be asked now."""
        if self.seconds is not None and time.monotonic() - begun >= self.seconds:
            return 0
        return AT_ONCE if self.cases is None else min(AT_ONCE, self.cases - done)


@dataclass
class Caught:
    """A cause, with its shortest script, and the seed that showed it first."""

    cause: Reason
    shown: Shown
    area: str
    seed: int
    scripts: int = 0  # that showed it
    places: dict[str, None] = field(default_factory=dict)  # in the order in which they were found
    again: bool = True  # on a fresh machine too


@dataclass
class Hunt:
    """The hunt so far."""

    adapter: Adapter
    images: pathlib.Path
    rom: Optional[pathlib.Path]
    areas: Sequence[Area]
    view: str = ""  # how the monitor is asked, where that is not as a processor asks
    caught: dict[Reason, Caught] = field(default_factory=dict)
    made_small: set[tuple[Reason, str]] = field(default_factory=set)
    cases: int = 0
    values: int = 0
    wrong: int = 0
    left_out: int = 0

    @property
    def causes(self) -> list[Caught]:
        """Those that a fresh machine shows too."""
        return [it for it in self.caught.values() if it.again]

    @property
    def shown_once(self) -> list[Caught]:
        return [it for it in self.caught.values() if not it.again]

    def run(self, budget: Budget, first_seed: int, is_first_enough: bool = False) -> Iterator[Caught]:
        """Each cause as it is found."""
        begun, seeds = time.monotonic(), itertools.count(first_seed)
        while count := budget.left(self.cases, begun):
            some = [(seed, self.areas[seed % len(self.areas)]) for seed in itertools.islice(seeds, count)]
            scripts = [area.script(seed, self.images, self.rom) for seed, area in some]
            for (seed, area), script, answers in zip(some, scripts, self.adapter.ask(scripts)):
                yield from self.compared(ask_again(self.adapter, script, answers, self.view), area, seed)
                if is_first_enough and self.caught:
                    return

    def compared(self, asked: Asked, area: Area, seed: int) -> Iterator[Caught]:
        """The causes that a script shows and none before it did."""
        differences = asked.differences()
        self.cases, self.values = self.cases + 1, self.values + asked.values
        self.wrong += len({it.index for it in differences})
        self.left_out += asked.left_out
        for difference in differences:
            yield from self.made_shorter(asked, difference, area, seed)
        for cause in {it.cause for it in differences if it.cause in self.caught}:
            self.caught[cause].scripts += 1
            self.caught[cause].places.update((it.place, None) for it in differences if it.cause == cause)

    def made_shorter(self, asked: Asked, difference: Difference, area: Area, seed: int) -> Iterator[Caught]:
        """The cause of a difference, if it is new. One that is known is made small once at each place."""
        if difference.key in self.made_small:
            return
        self.made_small.add(difference.key)
        shown, caught = shrink(self.adapter, asked, same_as(difference)), self.caught.get(difference.cause)
        if shown and caught is None:
            self.caught[difference.cause] = Caught(difference.cause, shown, area.name, seed)
            yield self.caught[difference.cause]
        elif shown and caught and len(shown.script.statements) < len(caught.shown.script.statements):
            caught.shown = shown

    def try_again(self, command: str, seconds: float) -> None:
        """Asks each shortest script of a fresh machine."""
        for caught in self.caught.values():
            with Adapter(command, seconds) as fresh:
                caught.again = shows(fresh, caught.shown.script, of_cause(caught.cause), self.view) is not None
