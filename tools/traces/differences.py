"""Why another monitor gave a value that this board does not give: each cause is a row of one table, which compare,
watch, show, conform, hunt and explain say and docs/QEMU.md and docs/BOCHS.md cite. `tools/differences` prints it.

A row is found byte by byte, for the bits that differ: the first row that fits each differing byte, in the order of the
table. Of these the first kind is that of the difference. The rows stand in tools/causes."""
from dataclasses import dataclass

from causes import clock, disk, interrupts, memory, ports, registers, serial, timer
from causes.row import ABSENT, ALWAYS_COUNTED_UP, CHOICE, COUNTED, DATASHEET, DATE, EITHER, KINDS, OTHER, VIEW, Row
from traces.difference_state import Byte

__all__ = [
    "ABSENT",
    "ALWAYS_COUNTED_UP",
    "CHIPS",
    "CHOICE",
    "COUNTED",
    "DATASHEET",
    "DATE",
    "EITHER",
    "KINDS",
    "OTHER",
    "TABLE",
    "VIEW",
    "Reason",
    "Row",
    "reason_of",
    "reasons_of",
]
CHIPS = {"00.0": "82441FX", "01.0": "82371SB, function 0", "01.1": "82371SB, function 1"}
LAST = Row(
    "no-row", CHOICE, "Registers", "no other row of tools/differences tells it: it is this board's own reading", ".*"
)
# A wide access that is not split hides what a device would give, so its row comes before those of the devices.
WIDE_WRITTEN = [row for row in ports.ROWS if row.name == "wide-written"]
TABLE = [
    *registers.ROWS,
    *memory.ROWS,
    *WIDE_WRITTEN,
    *(row for row in ports.ROWS if row not in WIDE_WRITTEN),
    *interrupts.ROWS,
    *timer.ROWS,
    *clock.ROWS,
    *disk.ROWS,
    *serial.ROWS,
    LAST,
]


@dataclass(frozen=True)
class Reason:
    """A row that fits, with its citation for this difference."""

    name: str
    kind: str
    by: str
    what: str

    @property
    def source(self) -> str:
        return f"docs/DECISIONS.md, {self.by}" if self.kind == CHOICE else self.by

    def text(self) -> str:
        return f"{self.kind}: " + (f"{self.source}: " if self.by else "") + self.what


def citation(row: Row, byte: Byte) -> str:
    return row.by.format(chip=CHIPS.get(byte.function, "PCI Local Bus 2.1, 6.2"))


def reason_of(byte: Byte) -> Reason:
    row = next(row for row in TABLE if row.fits(byte))
    return Reason(row.name, row.kind, citation(row, byte), row.what)


def reasons_of(differing: list[Byte]) -> list[Reason]:
    """The reasons of a difference, that of its kind first."""
    found = dict.fromkeys(reason_of(byte) for byte in differing)
    return sorted(found, key=lambda it: KINDS.index(it.kind))


def main() -> None:
    print("| Row | Kind | By | What |\n|---|---|---|---|")
    for row in TABLE:
        by = f"docs/DECISIONS.md, {row.by}" if row.kind == CHOICE else row.by.format(chip="of the chip")
        print(f"| `{row.name}` | {row.kind} | {by} | {row.what} |")
