"""A shorter script that shows the same difference.

It becomes shorter by whole steps, since single statements would leave devices half initialised and show other
differences; the first step, the prologue, goes last and only where nothing of it matters.
"""
import re
from dataclasses import dataclass, replace
from typing import Callable, Optional

from traces.differences import Reason

from .compare import Asked, Difference, ask_both, first_difference
from .protocol import Adapter
from .scripts import Script

MOST_TRIES, MOST_STATEMENTS = 120, 5000  # that are asked while one script becomes shorter
WITHOUT_PROLOGUE = re.compile("[rf] |in [bwd] 0CF")  # memory and configuration: other devices have to be initialised
Wanted = Callable[[Difference], bool]


@dataclass(frozen=True)
class Shown:
    """A script that ends with the statement that reads otherwise, what both answered, and the difference."""

    script: Script
    asked: Asked
    difference: Difference


def same_as(difference: Difference) -> Wanted:
    """Whether another difference is the same one, at the same place."""
    return lambda it: it.key == difference.key


def of_cause(cause: Reason) -> Wanted:
    """Whether a difference has this cause, wherever it is."""
    return lambda it: it.cause == cause


def shows(adapter: Adapter, script: Script, wanted: Wanted, view: str = "") -> Optional[Shown]:
    """The script up to the first difference that is wanted, or None where none is."""
    return up_to_difference(ask_both(adapter, script, view), wanted)


def up_to_difference(asked: Asked, wanted: Wanted) -> Optional[Shown]:
    found = first_difference(asked, wanted)
    if found is None:
        return None
    steps: list[tuple[str, ...]] = []
    left = found.index + 1
    for step in asked.script.steps:
        steps.append(step[:left])
        left -= len(steps[-1])
        if not left:
            break
    script, end = Script.of(asked.script.setup, steps), found.index + 1
    return Shown(
        script, replace(asked, script=script, entries=asked.entries[:end], answers=asked.answers[:end]), found
    )


class Shrinking:
    """Delta debugging by steps, without the first and the last: pieces go as long as the same difference is there."""

    def __init__(self, adapter: Adapter, begin: Shown, wanted: Wanted, most: int) -> None:
        self.adapter, self.best, self.wanted, self.left = adapter, begin, wanted, most
        self.statements_left = MOST_STATEMENTS

    def without(self, first: int, end: int) -> bool:
        """Whether the steps from one up to another can go: then they are gone."""
        steps = self.best.script.steps
        return self.becomes(Script(self.best.script.setup, steps[:first] + steps[end:]))

    def becomes(self, script: Script) -> bool:
        """Whether another script shows it too, with fewer steps: then it is the best one."""
        self.statements_left -= len(script.statements)
        self.left = self.left - 1 if self.statements_left > 0 else 0
        found = shows(self.adapter, script, self.wanted, self.best.asked.view)
        if found is None or len(found.script.statements) >= len(self.best.script.statements):
            return False
        self.best = found
        return True

    def run(self) -> Shown:
        size = max(1, len(self.best.script.steps) // 2)
        while self.left > 0:
            at, is_shorter = 1, False
            while at < len(self.best.script.steps) - 1 and self.left > 0:
                if self.without(at, min(at + size, len(self.best.script.steps) - 1)):
                    is_shorter = True
                else:
                    at += size
            if size > 1:
                size //= 2
            elif not is_shorter:
                break
        last = self.best.script.statements[-1]
        if self.best.script.steps[0] and self.left > 0 and WITHOUT_PROLOGUE.match(last):
            self.becomes(Script(self.best.script.setup, ((), *self.best.script.steps[1:])))
        return self.best


def shrink(adapter: Adapter, asked: Asked, wanted: Wanted, most: int = MOST_TRIES) -> Optional[Shown]:
    """The shortest script that was found, or None where the script shows no difference that is wanted."""
    begin = up_to_difference(asked, wanted)
    return Shrinking(adapter, begin, wanted, most).run() if begin else None
