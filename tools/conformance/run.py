"""The cases asked of a monitor: what agrees, what differs, and the causes, each with its shortest script."""
import collections
import itertools
import pathlib
from dataclasses import dataclass
from typing import Iterable, Iterator, Optional, Sequence

from traces.differences import Reason

from .case_files import Case
from .compare import Asked, Difference, ask_again
from .protocol import Adapter, Adapters
from .shrink import Shown, of_cause, shrink

AT_ONCE = 16  # cases that an adapter has at once


@dataclass(frozen=True)
class Result:
    """What came of a case."""

    case: Case
    asked: Asked
    differences: list[Difference]

    @property
    def wrong(self) -> list[Difference]:
        """The first difference of each statement that differs."""
        return list({it.index: it for it in reversed(self.differences)}.values())[::-1]

    @property
    def said(self) -> str:
        left, values = self.asked.left_out, self.asked.values
        if self.wrong:
            return f"{len(self.wrong)} of {values} differ"
        return "left out" if left or not values else "agrees"

    @property
    def about_left_out(self) -> str:
        """How much of it could not be asked."""
        left = self.asked.left_out
        return f"({left} of {left + len(self.asked.script.statements)} statements left out)" if left else ""


@dataclass
class Found:
    """A cause, with its shortest script and the cases that show it."""

    cause: Reason
    shown: Shown
    cases: list[str]
    again: Optional[bool] = None  # whether it was there on a fresh machine too, where that was tried


def results_of(
    adapters: Adapters,
    cases: Iterable[Case],
    images: pathlib.Path,
    rom: Optional[pathlib.Path] = None,
    view: str = "",
) -> Iterator[Result]:
    """The results of cases, in their order."""
    left = iter(cases)
    some = iter(lambda: list(itertools.islice(left, AT_ONCE)), [])

    def ask(adapter: Adapter, some: list[Case]) -> list[Result]:
        scripts = [case.script(images, rom) for case in some]
        asked = [ask_again(adapter, *it, view) for it in zip(scripts, adapter.ask(scripts))]
        return [Result(case, it, it.differences()) for case, it in zip(some, asked)]

    return itertools.chain.from_iterable(adapters.map(ask, some))


def causes_of(adapters: Adapters, results: Sequence[Result]) -> list[Found]:
    """The causes behind the differences, in the order in which they were found, each made small from the case that
    shows it after the fewest statements."""
    shown_by: dict[Reason, dict[str, tuple[int, Asked]]] = collections.defaultdict(dict)
    for result in results:
        for it in result.differences:
            shown_by[it.cause].setdefault(result.case.name, (it.index, result.asked))

    def small(adapter: Adapter, cause: Reason) -> Optional[Shown]:
        _, asked = min(shown_by[cause].values(), key=lambda it: it[0])
        return shrink(adapter, asked, of_cause(cause))

    shown = adapters.map(small, shown_by)
    return [Found(cause, it, list(shown_by[cause])) for cause, it in zip(shown_by, shown) if it]
