"""What conform says: a line a case, each cause once with its shortest script, and the same as JSON."""
import itertools
import pathlib
import re
from dataclasses import dataclass
from typing import Iterator, Optional, Sequence

from traces.differences import ABSENT, CHOICE, DATASHEET, DATE, EITHER, KINDS, OTHER, VIEW, Reason

from .run import Found, Result
from .shrink import Shown

WHO_IS_RIGHT = {
    DATASHEET: "the board is right",
    CHOICE: "a choice of the board",
    OTHER: "the monitor is right",
    EITHER: "both may be",
    ABSENT: "not modelled by the board",
    VIEW: "it comes of how the monitor was asked",
    DATE: "a date",
}
MOST_CASES_NAMED = 4


@dataclass(frozen=True)
class Report:
    """All that a run found."""

    results: Sequence[Result]
    found: Sequence[Found]
    known: frozenset[str]

    @property
    def new(self) -> list[Found]:
        """The causes that nobody said to live with."""
        return [it for it in self.found if it.cause.name not in self.known]

    def count(self, said: str) -> int:
        return sum(result.said == said for result in self.results)

    @property
    def summary(self) -> str:
        agree, left = self.count("agrees"), self.count("left out")
        values = sum(result.asked.values for result in self.results)
        known = len(self.found) - len(self.new)
        return (
            f"{len(self.results)} cases, {values} values: {agree} cases agree, "
            f"{len(self.results) - agree - left} differ, {left} left out; "
            f"{len(self.found)} causes" + (f", {known} known" if known else "")
        )

    def in_order(self) -> list[Found]:
        """The causes by who is right, each kind by its first case."""
        return sorted(self.found, key=lambda it: KINDS.index(it.cause.kind))


def known_causes(file: Optional[pathlib.Path]) -> frozenset[str]:
    """The names of causes in a file, one a line; a line that begins with # says nothing."""
    if file is None:
        return frozenset()
    lines = [line.strip() for line in file.read_text(encoding="utf-8").splitlines()]
    return frozenset(line for line in lines if line and not line.startswith("#"))


def case_line(result: Result) -> str:
    """A line for a case."""
    left = f"  {result.about_left_out}" if result.asked.left_out else ""
    return f"{result.case.name:30} {result.case.device:16} {result.said:18} {result.case.rule}{left}"


def right_by(cause: Reason) -> str:
    """Who is right, and by which section."""
    return f"{WHO_IS_RIGHT[cause.kind]}{f', by {cause.source}' if cause.by else ''}"


def cases_named(found: Found) -> str:
    names = ", ".join(found.cases[:MOST_CASES_NAMED])
    more = len(found.cases) - MOST_CASES_NAMED
    return names + (f" and {more} more" if more > 0 else "")


def last_line(shown: Shown) -> str:
    """The statement that differs, with both values."""
    entry, given = shown.difference.entry, shown.difference.given
    replies = " ".join(f"{target} {denial}" for target, denial in entry.replies)
    return f"{shown.script.statements[-1]} = {given}, board {entry.value} ({replies})"


def folded(statements: Sequence[str]) -> list[str]:
    """The lines of a script, where what is said several times in a row is said once, as in a case."""
    runs = [(statement, len(list(run))) for statement, run in itertools.groupby(statements)]
    return [statement if count == 1 else f"{count} * {statement}" for statement, count in runs]


def cause_lines(found: Found, known: frozenset[str]) -> Iterator[str]:
    """A cause with its shortest script."""
    mark = " (known)" if found.cause.name in known else ""
    again = {True: "", False: " (not again on a fresh machine)", None: ""}[found.again]
    yield f"{found.cause.name}{mark}{again}: {found.cause.what}"
    yield f"  {right_by(found.cause)}; in {cases_named(found)}"
    for line in folded(found.shown.script.statements[:-1]):
        yield f"    {line}"
    yield f"    {last_line(found.shown)}"


def script_texts(shown: Shown) -> tuple[str, str]:
    """A script of `board` with the values that the monitor gave, as tools/from-trace writes them. What is no
    statement of a script stands there as a comment."""
    lines, values, number = shown.script.setup.head(), list[str](), 0
    for statement, entry, answer in zip(shown.script.statements, shown.asked.entries, shown.asked.answers):
        if re.match("receive|bus_master", statement) or entry.statement == "second":
            lines.append(f"# {statement}")
            continue
        number += 1
        lines.append(f"0 {entry.statement}")
        if re.fullmatch("[0-9A-F]+", answer):
            values.append(f"{number} {answer}")
    return "".join(f"{it}\n" for it in lines), "".join(f"{it}\n" for it in values)


# ---- JSON


def result_item(result: Result) -> dict[str, object]:
    differs = [
        {
            "statement": it.index + 1,
            "monitor": it.given,
            "board": it.entry.value,
            "cause": it.cause.name,
            "place": it.place,
        }
        for it in result.wrong
    ]
    return {
        "case": result.case.name,
        "device": result.case.device,
        "rule": result.case.rule,
        "said": result.said,
        "values": result.asked.values,
        "left_out": result.asked.left_out,
        "statements": result.asked.script.statements,
        "differs": differs,
    }


def cause_item(found: Found, known: frozenset[str]) -> dict[str, object]:
    shown = found.shown
    setup = shown.script.setup.head()[2:-1]
    return {
        "cause": found.cause.name,
        "kind": found.cause.kind,
        "by": found.cause.by,
        "what": found.cause.what,
        "known": found.cause.name in known,
        "again": found.again,
        "cases": found.cases,
        "machine": setup,
        "script": shown.script.statements,
        "folded": folded(shown.script.statements),
        "monitor": shown.difference.given,
        "board": shown.difference.entry.value,
        "answered": [list(it) for it in shown.difference.entry.replies],
        "place": shown.difference.place,
    }


def json_item(report: Report, about: Optional[dict[str, object]] = None) -> dict[str, object]:
    """All of a run."""
    return {
        **(about or {}),
        "summary": report.summary,
        "cases": [result_item(it) for it in report.results],
        "causes": [cause_item(it, report.known) for it in report.in_order()],
    }
