"""The page: the data of a log and its board, with the style and the scripts that show them."""
import html
import json
import pathlib
from dataclasses import dataclass
from typing import Any, Optional

from pages.answers import Interned, answers
from pages.asked import Asker
from pages.levels import levels_of
from pages.maps import KINDS, Range
from pages.register_fields import CHIPS, Register
from pages.registers import Walk, shown_registers, values
from shared.board_texts import Entry

FOLDER = pathlib.Path(__file__).resolve().parent
SCRIPTS = ("data", "place", "list", "answer", "map", "registers", "lines", "search", "beside", "main")


@dataclass
class Asked:
    """A log, its board, and what the board said of registers and maps."""

    asker: Asker
    log: list[Entry]
    walk: Walk
    maps: list[list[Range]]


def registers_data(asker: Asker, walk: Walk) -> list[dict[str, Any]]:
    """The chips with their registers."""
    return [
        {
            "name": CHIPS.get(function, f"card at device {int(function[:2], 16)}"),
            "place": function,
            "registers": [register_data(it, walk) for it in registers],
        }
        for function, registers in shown_registers(asker).items()
    ]


def register_data(register: Register, walk: Walk) -> dict[str, Any]:
    """A register: its fields; each value that it had, in digits and field by field; and when it had which."""
    shown, at, held = Interned(), [], []
    for number, value in values(register, walk):
        texts = [[it.of(value), it.says(it.of(value))] for it in register.fields]
        at.append(number)
        held.append(shown.of(value, [f"{value:0{2 * register.count}X}", texts]))
    return {
        "name": register.name,
        "place": register.place,
        "fields": [[it.name, it.bits] for it in register.fields],
        "shown": shown.values,
        "at": at,
        "held": held,
    }


def maps_data(maps: list[list[Range]], walk: Walk) -> dict[str, Any]:
    """The maps by version. Ranges and areas are kept once each."""
    areas, ranges = Interned(), Interned()

    def range_of(it: Range) -> int:
        return ranges.of(it, [it.first, it.last, [areas.of(area) for area in it.areas], it.since])

    versions = [[range_of(it) for it in ranges_now] for ranges_now in maps]
    return {
        "kinds": KINDS,
        "areas": areas.values,
        "ranges": ranges.values,
        "versions": versions,
        "at": [0, *(it.number for it in walk.writes)],
    }


def page(title: str, log_text: str, asked: Asked, other: Optional[dict[str, Any]]) -> str:
    """The whole text of the page."""
    asker, log, walk = asked.asker, asked.log, asked.walk
    lines, until = levels_of(asker, log, walk)
    data = {
        "title": title,
        "setup": asker.setup,
        **answers(log),
        "chips": registers_data(asker, walk),
        "maps": maps_data(asked.maps, walk),
        "lines": [vars(it) for it in lines],
        "linesUntil": until,
        "beside": other,
    }
    parts = {
        "TITLE": html.escape(title),
        "STYLE": (FOLDER / "page.css").read_text(),
        "SCRIPT": "\n".join((FOLDER / f"{name}.js").read_text() for name in SCRIPTS),
        "DATA": json.dumps(data, separators=(",", ":")).replace("<", "\\u003c"),
        "LOG": log_text,
    }
    text = (FOLDER / "page.html").read_text()
    pieces = text.split("@@")
    return "".join(parts[it] if k % 2 else it for k, it in enumerate(pieces))
