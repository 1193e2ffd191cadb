"""The memory map of a board."""
from dataclasses import dataclass
from typing import Iterable

from .events import Kind
from .records import RangeRecord
from .replies import area_text

_ORDER = ("f", "r", "w")


@dataclass(frozen=True)
class Range:
    """A range of addresses, first and last, in which each kind of access has one area. Its text is a line of a map."""

    lo: int
    hi: int
    areas: tuple[str, ...]

    def area(self, kind: Kind, *, smm: bool = False) -> str:
        """What a kind of access reaches here, outside system management mode or in it."""
        return self.areas[_ORDER.index(kind) + len(_ORDER) * smm]

    def __contains__(self, addr: int) -> bool:
        return self.lo <= addr <= self.hi

    def __str__(self) -> str:
        return " ".join([f"{self.lo:08X}", f"{self.hi:08X}", *self.areas])

    def __repr__(self) -> str:
        return f"<{self}>"


@dataclass(frozen=True)
class Window:
    """Addresses that a change of the map changed, the first and the last."""

    lo: int
    hi: int


class Map(list[Range]):
    """The ranges in rising order, which cover all addresses. Beside the windows of the last change all is as before."""

    def __init__(self, version: int, mib: int, ranges: Iterable[Range], windows: Iterable[Window]) -> None:
        super().__init__(ranges)
        self.version = version
        self.mib = mib  # of memory: a row may be decoded further, without bytes
        self.windows = list(windows)

    def at(self, addr: int) -> Range:
        """The range of an address."""
        for found in self:
            if addr in found:
                return found
        raise IndexError(f"{addr:#x} is no address")

    def __str__(self) -> str:
        return "".join(f"{found}\n" for found in self)


def range_of(record: RangeRecord) -> Range:
    """A range, of its record."""
    return Range(record.lo, record.hi, tuple(area_text(area.target, area.unit, area.base) for area in record.area))
