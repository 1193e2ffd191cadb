"""The flat map of each version, by looks, and since which statement each of its ranges has been so."""
from dataclasses import dataclass
from typing import NamedTuple

from pages.asked import HARD_RESET, Asker, pieces
from pages.registers import State, Walk, settings

KINDS = ("f", "r", "w", "f smm", "r smm", "w smm")  # the columns of a map
TOP = 0xFFFF_FFFF


class Range(NamedTuple):
    """A range of the map: its areas by KINDS, and the statement since which it has had them."""

    first: int
    last: int
    areas: tuple[str, ...]
    since: int


Row = tuple[int, int, tuple[str, ...]]


def look(kind: str, address: int) -> str:
    letter, _, smm = kind.partition(" ")
    return f"0 look {letter} {address:08X}" + (f" {smm}" if smm else "")


@dataclass
class Column:
    """The runs of one kind of access, asked from the lowest address on."""

    kind: str
    runs: list[tuple[int, str]]  # the last address of each, and its area

    @property
    def next(self) -> int:
        return self.runs[-1][0] + 1 if self.runs else 0


def rows_of(columns: list[Column]) -> list[Row]:
    """The ranges that the runs of all kinds make."""
    rows, first = [], 0
    places = [iter(it.runs) for it in columns]
    now = [next(it) for it in places]
    while True:
        last = min(end for end, _ in now)
        rows.append((first, last, tuple(area for _, area in now)))
        if last == TOP:
            return rows
        first = last + 1
        now = [next(it) if run[0] == last else run for it, run in zip(places, now)]


@dataclass
class Stand:
    """A state of the registers, and the statements that lead to it from that of another."""

    steps: list[str]
    from_reset: list[str]
    columns: list[Column]

    def looks(self) -> list[str]:
        """The looks at the next run of each kind of access that has one."""
        return [look(it.kind, it.next) for it in self.columns if it.next <= TOP]


def ask(asker: Asker, waiting: list[Stand]) -> None:
    """Asks the next run of each kind of access in each state, until none is left."""
    while any(it.looks() for it in waiting):
        asked = [[*it.steps, *it.looks()] for it in waiting]
        begun = 0
        for piece in pieces(asked, len(max((it.from_reset for it in waiting), key=len))):
            here = waiting[begun : begun + len(piece)]
            begun += len(piece)
            lines = [*here[0].from_reset, *piece[0][len(here[0].steps) :], *(line for it in piece[1:] for line in it)]
            looks = (reply for line, reply in zip(lines, asker.replies(lines)) if line.startswith("0 look"))
            for stand in here:
                for column in stand.columns:
                    if column.next <= TOP:
                        _, _, last, area = next(looks)
                        column.runs.append((int(last, 16), area))


def maps_of(asker: Asker, walk: Walk) -> list[list[Row]]:
    """The ranges of the map after a reset, and after each map write."""
    places = list(walk.at_reset)
    reset = tuple(walk.at_reset.values())
    known: dict[tuple[int, ...], Stand] = {}
    before: State = walk.at_reset
    was_reset = False
    for values, is_hard_reset in [(reset, False), *((it.values, it.is_hard_reset) for it in walk.writes)]:
        was_reset = was_reset or is_hard_reset
        if values in known:
            continue
        state = dict(zip(places, values))
        whole = settings(state, walk.at_reset)
        steps = [*HARD_RESET, *whole] if was_reset else settings(state, before)
        known[values] = Stand(steps, whole, [Column(kind, []) for kind in KINDS])
        before, was_reset = state, False
    ask(asker, list(known.values()))
    rows = {values: rows_of(stand.columns) for values, stand in known.items()}
    return [rows[values] for values in [reset, *(it.values for it in walk.writes)]]


# ---- since when


class Since:
    """Since which statement each address has had its areas, as map writes are noted one after another."""

    def __init__(self, rows: list[Row]):
        self.pieces = [Range(*row, 0) for row in rows]
        self.ranges = list(self.pieces)

    def note(self, rows: list[Row], number: int) -> list[Range]:
        """The ranges after a map write. Only between the first and the last row that it changed is anything new."""
        old = [it[:3] for it in self.ranges]
        if rows == old:
            return self.ranges
        head = next(k for k, pair in enumerate(zip(rows, old)) if pair[0] != pair[1])
        tail = next(k for k, pair in enumerate(zip(rows[::-1], old[::-1])) if pair[0] != pair[1])
        changed = rows[head : len(rows) - tail]
        first, last = changed[0][0], changed[-1][1]
        low = next(k for k, it in enumerate(self.pieces) if it.last >= first)
        high = next(k for k, it in enumerate(self.pieces) if it.last >= last) + 1
        cut = cut_at(self.pieces[low:high], changed)
        renewed = [it if it.areas == areas else it._replace(areas=areas, since=number) for it, areas in cut]
        self.pieces[low:high] = joined(renewed)
        ranges = [Range(*row, newest(renewed, row)) for row in changed]
        self.ranges = [*self.ranges[:head], *ranges, *self.ranges[len(self.ranges) - tail :]]
        return self.ranges


def cut_at(pieces: list[Range], rows: list[Row]) -> list[tuple[Range, tuple[str, ...]]]:
    """Pieces cut where rows end, each with the areas of the row in which it lies. A piece that reaches out of the rows
    keeps its own there."""
    found = []
    for piece in pieces:
        if piece.first < rows[0][0]:
            found.append((piece._replace(last=rows[0][0] - 1), piece.areas))
        for first, last, areas in rows:
            low, high = max(first, piece.first), min(last, piece.last)
            if low <= high:
                found.append((piece._replace(first=low, last=high), areas))
        if piece.last > rows[-1][1]:
            found.append((piece._replace(first=rows[-1][1] + 1), piece.areas))
    return found


def joined(pieces: list[Range]) -> list[Range]:
    """Pieces, with neighbours joined that have the same areas since the same statement."""
    found: list[Range] = []
    for it in pieces:
        if found and found[-1][2:] == it[2:]:
            found[-1] = found[-1]._replace(last=it.last)
        else:
            found.append(it)
    return found


def newest(pieces: list[Range], row: Row) -> int:
    """The statement since which all addresses of a row have had its areas."""
    return max(it.since for it in pieces if it.last >= row[0] and it.first <= row[1])


def blamed_maps(asker: Asker, walk: Walk) -> list[list[Range]]:
    """The map after a reset and after each map write, with the statement that made each range so."""
    first, *later = maps_of(asker, walk)
    since = Since(first)
    return [since.ranges, *(since.note(rows, write.number) for rows, write in zip(later, walk.writes))]


def blame_lines(ranges: list[Range]) -> list[str]:
    """The lines of `board blame` without the versions."""
    return [f"{it.first:08X} {it.last:08X} {' '.join(it.areas)} {it.since}" for it in ranges]
