"""What is said of the replies in a log: what answers, what denied, and who wrote that last."""
from dataclasses import dataclass, field
from typing import Any, Iterator

from pages.register_fields import denying_bits
from shared.board_texts import OTHER_DENIALS, WIDTHS, Entry, Writers, hint, register_name, register_text
from traces.board_parts import parts_of

# What each kind of target is, by its first word.
TARGETS = {
    "dram": "main memory",
    "shadow": "main memory behind an open PAM window",
    "smram": "SMRAM: main memory at A0000 to BFFFF",
    "rom": "the BIOS ROM",
    "card": "a card",
    "config": "a register in configuration space",
    "confadd": "the configuration address",
    "reset": "reset control",
    "pic0": "the master 8259A",
    "pic1": "the slave 8259A",
    "pit": "the 8254",
    "sys": "port 61",
    "kbd": "the empty socket of the keyboard controller",
    "clock": "the clock",
    "elcr": "edge and level control",
    "ata": "the disk",
    "wires": "the lines from outside",
    "vec0": "a vector of the master 8259A",
    "vec1": "a vector of the slave 8259A",
    "spur0": "a spurious vector of the master 8259A",
    "spur1": "a spurious vector of the slave 8259A",
    "abort": "nobody",
}
# The kinds that are coloured alike.
FAMILIES = {
    **dict.fromkeys(("config", "confadd", "reset"), "config"),
    **dict.fromkeys(("pic0", "pic1", "vec0", "vec1", "spur0", "spur1", "wires", "elcr"), "interrupt"),
    **dict.fromkeys(("pit", "sys", "kbd", "clock", "ata"), "device"),
}
MARKS = {"confadd": "CONFADD, 0CF8, bit 31", "none": "no register"}


def config_key(entry: Entry) -> str:
    """An access to configuration space: its first register, and the width."""
    return f"{entry.target.partition(':')[2]} {entry.words[1]}"


def config_text(key: str) -> dict[str, str]:
    """The names of the registers that an access reaches, and in whole words."""
    place, width = key.split(" ")
    offset = int(place[5:], 16)
    named = (register_name(f"{place[:5]}{it:02X}") for it in range(offset, min(offset + WIDTHS[width], 0x100)))
    return {"names": ", ".join(dict.fromkeys(it for it in named if it)), "words": register_text(place, WIDTHS[width])}


def mark_of(denial: str, entry: Entry, address: int) -> str:
    """A denial in short: the register and the bits that decide."""
    if denial in MARKS:
        return MARKS[denial]
    name = register_name(denial)
    return f"{name}, {denial}, {denying_bits(name, entry.words, address)}"


def denial_text(denial: str, mark: str) -> dict[str, str]:
    """A denial in short, and in whole words."""
    if denial in OTHER_DENIALS:
        return {"name": denial, "place": denial, "mark": mark, "words": OTHER_DENIALS[denial], "hint": ""}
    words = f"kept out by {register_text(denial)}, {mark.rpartition(', ')[2]}"
    return {"name": register_name(denial), "place": denial, "mark": mark, "words": words, "hint": hint(denial)}


def places_of(entry: Entry) -> list[int]:
    """The address or port of each part of an access."""
    words = entry.words
    if words[0] in ("in", "out"):
        return [int(words[2], 16)]
    address = int(words[2], 16)
    return [at for at, _ in parts_of(address, WIDTHS[words[1]])] if len(entry.replies) > 1 else [address]


@dataclass
class Interned:
    """Values that come often, each kept once and named by its number."""

    values: list[Any] = field(default_factory=list)
    known: dict[Any, int] = field(default_factory=dict)

    def of(self, key: Any, value: Any = None) -> int:
        if key not in self.known:
            self.known[key] = len(self.values)
            self.values.append(key if value is None else value)
        return self.known[key]


def denied_parts(log: list[Entry]) -> Iterator[tuple[Entry, int, str, int]]:
    """Each part of an access that was denied, and the statement that wrote last what denied it, or 0."""
    writers, confadd = Writers(), 0
    for entry in log:
        for part, reply in enumerate(entry.replies):
            if reply[1] == "confadd":
                yield entry, part, reply[1], confadd
            elif reply[1] != "-":
                behind = writers.of(reply)
                yield entry, part, reply[1], behind.number if behind else 0
        writers.note(entry)
        if entry.words[0] == "out" and entry.target == "confadd":
            confadd = entry.number
        elif writers.reset is entry:
            confadd = entry.number


def answers(log: list[Entry]) -> dict[str, Any]:
    """All that the page says of replies."""
    texts, rows = Interned(), []
    for entry, part, denial, writer in denied_parts(log):
        mark = mark_of(denial, entry, places_of(entry)[part])
        if mark not in texts.known:
            texts.of(mark, denial_text(denial, mark))
        rows.append((entry.number, part, texts.of(mark), writer))
    keys = dict.fromkeys(config_key(it) for it in log if it.target.startswith("config:"))
    acknowledges = [[it.number, it.value, it.target] for it in log if it.words[0] == "ack"]
    return {
        "targets": {kind: {"words": words, "family": FAMILIES.get(kind, kind)} for kind, words in TARGETS.items()},
        "config": {key: config_text(key) for key in keys},
        "denials": texts.values,
        "denied": [list(column) for column in zip(*rows)] or [[], [], [], []],
        "acknowledges": acknowledges,
    }
