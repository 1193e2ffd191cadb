"""The values of a monitor held against the log of a replay, entry by entry: what compare and watch share."""
import collections
import pathlib
import re
from dataclasses import dataclass
from typing import Iterator, Optional

from shared.board_texts import Entry, reply_texts, stop, text_of
from traces.difference_state import State, differing
from traces.differences import ABSENT, ALWAYS_COUNTED_UP, KINDS, Reason, reasons_of

VALUE = re.compile(r"([1-9]\d*) ([0-9A-Fa-f]{2,16})(?: @(\d+))?(?: \? (\S+))?")
GROUPED = "another-disk"  # all its words are one difference


@dataclass
class Value:
    """What a monitor gave at a statement."""

    value: str
    line: Optional[str]  # of the trace
    why: Optional[str]  # it is not compared


def values_of(file: pathlib.Path) -> dict[int, Value]:
    """The values of a file by their statements."""
    values = {}
    for number, line in enumerate(text_of(file).splitlines(), 1):
        if not line or line.startswith("#"):
            continue
        match = VALUE.fullmatch(line)
        if match is None:
            stop(4, f"{file}: line {number} is not `STATEMENT VALUE`, with `@LINE` and `? WHY` where they are known")
        values[int(match[1])] = Value(match[2].upper(), match[3], match[4])
    return values


def installed_of(script: str) -> int:
    """The bytes of memory that a script installs."""
    found = re.search(r"^memory (\d{1,2})$", script, re.M)
    return int(found[1]) << 20 if found else 0


def rom_of(script: str, folder: pathlib.Path) -> bytes:
    """The ROM that a script names, or nothing where it cannot be read."""
    found = re.search(r"^rom (\S+)$", script, re.M)
    try:
        return (folder / found[1]).read_bytes() if found else b""
    except OSError:
        return b""


@dataclass
class Difference:
    """A value that the monitor gave otherwise."""

    entry: Entry
    given: Value
    reasons: list[Reason]
    writer: Optional[Entry]  # of the register behind it
    words: Optional[list[int]] = None  # of IDENTIFY DEVICE, where these are the difference

    @property
    def kind(self) -> str:
        return self.reasons[0].kind

    @property
    def place(self) -> str:
        return f"statement {self.entry.number}" + (f", line {self.given.line} of the trace" if self.given.line else "")

    def item(self) -> dict[str, object]:
        """As an item of --json."""
        return {
            "item": "difference",
            "statement": self.entry.number,
            "line": int(self.given.line) if self.given.line else None,
            "access": self.entry.line(),
            "monitor": self.given.value,
            "board": self.entry.value,
            "kind": self.kind,
            "reasons": [vars(reason) for reason in self.reasons],
            "answered": reply_texts(self.entry),
            "written": self.writer.line() if self.writer else None,
            "words": self.words,
        }

    def line(self) -> str:
        """In one line."""
        if self.words and len(self.words) > 1:
            return f"{self.place} on: {self.reasons[0].text()}: words {ranges(self.words)}"
        return (f"{self.place}: {self.entry.line()}: {self.given.value}, this board {self.entry.value}: "
                f"{self.reasons[0].text()}; " + "; ".join(reply_texts(self.entry)))

    def texts(self, board: str = "this board gives ") -> Iterator[str]:
        """In lines, without the accesses before it."""
        yield f"{self.place}: {self.entry.line()}"
        yield f"  the monitor gave {self.given.value}"
        yield f"  {board}{self.entry.value}"
        for text in reply_texts(self.entry):
            yield f"  {text}"
        if self.writer:
            yield f"  last written by statement {self.writer.number}: {self.writer.line()}"
        for reason in self.reasons:
            yield f"  {reason.text()}"


def ranges(numbers: list[int]) -> str:
    """Numbers with neighbours joined, as `4, 5, 10 to 14`."""
    runs: list[list[int]] = []
    for number in numbers:
        if runs and number == runs[-1][-1] + 1:
            runs[-1].append(number)
        else:
            runs.append([number])
    return ", ".join(f"{run[0]} to {run[-1]}" if len(run) > 2 else ", ".join(map(str, run)) for run in runs)


class Comparison:
    """Takes the entries of a log in their order, each with what the monitor gave there."""

    def __init__(self, installed: int, excepted: list[str], rom: bytes = b"", view: str = ""):
        self.state = State(installed, rom, view)
        self.excepted = tuple(excepted)
        self.counts: dict[str, collections.Counter[str]] = collections.defaultdict(collections.Counter)
        self.not_compared: collections.Counter[str] = collections.Counter()
        self.kinds = dict.fromkeys(KINDS, 0)
        self.group: Optional[Difference] = None

    def walk(self, file: pathlib.Path, values: dict[int, Value], log: list[Entry]) -> Iterator[Difference]:
        """The differences of a whole log, in its order, from the values of a file."""
        if max(values) > len(log):
            stop(4, f"{file}: statement {max(values)} is not in this script, which has {len(log)}")
        for entry in log:
            given = values.get(entry.number)
            if given is not None and (entry.value == "-" or entry.statement.startswith("look ")):
                stop(4, f"{file}: statement {entry.number} reads nothing in this script")
            difference = self.take(entry, given)
            if difference:
                yield difference

    def take(self, entry: Entry, given: Optional[Value]) -> Optional[Difference]:
        """The difference at an entry, where there is one that does not belong to the one before."""
        difference = self.compared(entry, given) if given is not None else None
        if self.group and entry.target == "ata" and entry.words[0] == "out":
            self.group = None
        self.state.note(entry)
        return difference

    def compared(self, entry: Entry, given: Value) -> Optional[Difference]:
        if len(given.value) != len(entry.value):
            wrong = f"the monitor's value {given.value} has another width"
            stop(4, f"statement {entry.number} reads {entry.value}, and {wrong}")
        given.why = given.why or ("except" if self.excepted and entry.target.startswith(self.excepted) else None)
        how = "not" if given.why else "agree" if entry.value == given.value else "differ"
        self.counts[device(entry)][how] += 1
        if given.why:
            self.not_compared[given.why] += 1
        return self.difference(entry, given) if how == "differ" else None

    def difference(self, entry: Entry, given: Value) -> Optional[Difference]:
        reasons = reasons_of(differing(self.state, entry, given.value))
        it = Difference(entry, given, reasons, self.state.writers.of(entry.replies[0]))
        if reasons[0].name != GROUPED:
            self.kinds[it.kind] += 1
            return it
        it.words = words_of(self.state.disk.words, entry.value, given.value)
        if self.group:
            self.group.words = [*(self.group.words or []), *it.words]
            return None
        self.kinds[ABSENT] += 1
        self.group = it
        return it

    def count_lines(self) -> Iterator[str]:
        total: collections.Counter[str] = sum(self.counts.values(), collections.Counter())
        yield f"{'':14} agree differ not compared"
        for name, count in [*sorted(self.counts.items()), ("all", total)]:
            yield f"{name:14} {count['agree']:5} {count['differ']:6} {count['not']:12}"
        if self.not_compared:
            yield "not compared: " + ", ".join(f"{why} {count}" for why, count in self.not_compared.most_common())
        counts = {kind: count for kind, count in self.kinds.items() if count or kind in ALWAYS_COUNTED_UP}
        yield "differences: " + ", ".join(f"{count} {kind}" for kind, count in counts.items())

    def count_item(self) -> dict[str, object]:
        return {
            "item": "counts",
            "targets": {name: dict(agree=it["agree"], differ=it["differ"], not_compared=it["not"])
                        for name, it in sorted(self.counts.items())},
            "not_compared": dict(self.not_compared),
            "differences": self.kinds,
        }


def words_of(first: int, ours: str, given: str) -> list[int]:
    """The words of a sector that differ in a read of one or two of them, the low one first."""
    words = len(ours) // 4
    pairs = [(ours[k * 4 : k * 4 + 4], given[k * 4 : k * 4 + 4]) for k in reversed(range(words))]
    return [first + k for k, (one, other) in enumerate(pairs) if one != other]


def device(entry: Entry) -> str:
    """What answered, for the count: the registers of a function together, and all cards, rows and places of the ROM."""
    kind, _, rest = entry.target.partition(":")
    return f"{kind} {rest[:4]}" if kind == "config" else kind
