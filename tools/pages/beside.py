"""The values of another monitor beside a log: the differences by kinds, the kind of the first difference first."""
import pathlib
from typing import Any

from shared.board_texts import Entry, stop
from traces.comparison import Comparison, Value, installed_of, values_of

HOWS = ("agree", "differ", "not")


def how_of(entry: Entry, given: Value) -> str:
    """How a value stands to the log's."""
    return "not" if given.why else "agree" if entry.value == given.value else "differ"


def beside(file: pathlib.Path, script: str, log: list[Entry], excepted: list[str], rom: bytes) -> dict[str, Any]:
    """The values by statement, the differences by kinds, and the counts by what answered."""
    comparison = Comparison(installed_of(script), excepted, rom)
    values = values_of(file)
    if not values:
        stop(4, f"{file}: no value: looked for lines `STATEMENT VALUE`, as `158 1AF4 @180`")
    kinds: dict[str, list[int]] = {}
    for it in comparison.walk(file, values, log):
        kinds.setdefault(it.reasons[0].text(), []).append(it.entry.number)
    rows = [(number, given.value, HOWS.index(how_of(log[number - 1], given)), given.line or "", given.why or "")
            for number, given in sorted(values.items())]
    return {
        "name": file.name,
        "rows": [list(column) for column in zip(*rows)],
        "kinds": [{"name": name, "numbers": numbers} for name, numbers in kinds.items()],
        "counts": [[name, *(count[how] for how in HOWS)] for name, count in sorted(comparison.counts.items())],
    }
