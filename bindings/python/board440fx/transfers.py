"""A transfer of the bus master in pieces, over memory and a disk that the caller keeps."""
from ctypes import CDLL
from dataclasses import dataclass
from typing import Callable, Iterator

from . import records
from .errors import NoTransfer, check
from .replies import Denial, Part, part_of

U32 = 1 << 32


@dataclass(frozen=True)
class Descriptor:
    """A descriptor is wanted: the doublewords at addr, its base, and at addr + 4, its count, go to Transfer.region."""

    addr: int
    base: Part
    count: Part


@dataclass(frozen=True)
class Words:
    """Bytes to be moved, which lie in one area of the memory map and one sector: where the first is in memory and on the
    disk, how many they are, and what answers them."""

    addr: int
    disk: int
    count: int
    part: Part


@dataclass(frozen=True)
class Ended:
    """How a transfer ended: "exact", "longer", "shorter", "aborted" (nobody answers at addr) or "missing" (the sector); bits
    2 to 0 of the status; how many bytes were moved; and what denied the access, where it was aborted."""

    end: str
    status: int
    moved: int
    addr: int = 0
    sector: int = 0
    denied_by: Denial | None = None


Piece = Descriptor | Words | Ended


def _piece_of(said: records.PieceRecord) -> Piece:
    match said.what:
        case records.PieceNumber.DESCRIPTOR:
            return Descriptor(said.addr, part_of(said.part[0]), part_of(said.part[1]))
        case records.PieceNumber.WORDS:
            return Words(said.addr, said.disk, said.bytes, part_of(said.part[0]))
        case _:
            end = records.EndNumber(said.end)
            denied_by = part_of(said.part[0]).denied_by if end == records.EndNumber.ABORTED else None
            return Ended(end.name.lower(), said.status, said.bytes, said.addr, said.sector, denied_by)


class Transfer:
    """A transfer as far as it has come. Iterated it gives its pieces, the last of which is Ended."""

    def __init__(self, ask: Callable[..., None], library: CDLL, numbers: tuple[int, ...], to_memory: bool) -> None:
        if not all(0 <= number < U32 for number in numbers):
            raise NoTransfer(numbers)
        self._ask, self._library, self._record = ask, library, records.TransferRecord()
        check(library.board_transfer_begin(self._record, *numbers, to_memory), numbers)

    @property
    def table(self) -> int:
        """The address of the next descriptor: at the end, what the table pointer reads."""
        return int(self._record.table)

    def next(self) -> Piece:
        """The next piece. Words are taken as moved."""
        said = records.PieceRecord()
        self._ask("board_transfer_next", self._record, said)
        return _piece_of(said)

    def region(self, base: int, count: int) -> None:
        """Goes on in the region of the descriptor that was wanted: its two doublewords."""
        check(self._library.board_transfer_region(self._record, base % U32, count % U32))

    def __iter__(self) -> Iterator[Piece]:
        while True:
            piece = self.next()
            yield piece
            if isinstance(piece, Ended):
                return
